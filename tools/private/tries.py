"""What private.sh tries, in its folder. usage: python3 tries.py PORT"""
import contextlib
import ctypes
import functools
import os
import pathlib
import pickle
import re
import shutil
import socket
import stat
import subprocess
import sys
import time

PORT = int(sys.argv[1])
# The peers' ports, which root alone binds.
BASE = 700
# Numbers, which need no account: of the daemon; of the group, and one in it; and of another user.
USER, GROUP, MEMBER, OTHER = 61001, 61002, 61003, 61004
SPACE = f"apd-{os.getpid()}"
SPACE_FILE = pathlib.Path("/run/netns", SPACE)
LOG, SOCKETS, CLIENTS = pathlib.Path("log"), pathlib.Path("sockets").absolute(), pathlib.Path("clients").absolute()
STATIONS = A, B = "02:00:00:00:00:0a", "02:00:00:00:00:0b"
BSSID = {"wlan0": "02:00:00:00:00:01", "wlan1": "02:00:00:00:00:02"}
AUTHENTICATION, DEAUTHENTICATION = 0xB0, 0xC0
NEW_NET, NEW_FILES, ALL_PRIVATE = 0x40000000, 0x00020000, 0x44000
HOSTAPD_CLI = shutil.which("hostapd_cli")
CONFS = ["wlan0.conf", "wlan1.conf"]
c_library = ctypes.CDLL(None, use_errno=True)
services = []


class Amiss(Exception):
    """Something that is otherwise than it should be."""


def want(what, wanted, found):
    if found != wanted:
        raise Amiss(f"{what}: {found!r}, wanted: {wanted!r}")


# Processes of other users, and in the daemon's network namespace.


def call(name, *words):
    if getattr(c_library, name)(*words):
        raise OSError(ctypes.get_errno(), name)


def enter():
    call("setns", os.open(SPACE_FILE, os.O_RDONLY), NEW_NET)


def become(user, group):
    os.setgroups([])
    os.setresgid(group, group, group)
    os.setresuid(user, user, user)


def run_as(user, group, is_inside, act, *words, stays=False):
    """What a call gives, or the name of the error that it meets, of a process of that user, which may be inside of the
    daemon's network namespace, and may stay, with what it has open."""
    reading, writing = os.pipe()
    holding, held = os.pipe()
    if os.fork() == 0:
        os.close(held)
        try:
            if is_inside:
                enter()
            become(user, group)
            found = act(*words)
        except OSError as error:
            found = type(error).__name__
        except Amiss as why:
            found = why
        os.write(writing, pickle.dumps(found))
        os.close(writing)
        os.read(holding, 1)
        os._exit(0)
    os.close(writing)
    os.close(holding)
    with open(reading, "rb") as it:
        found = pickle.loads(it.read())
    if not stays:
        os.close(held)
        os.wait()
    if isinstance(found, Amiss):
        raise found
    return found


as_member = functools.partial(run_as, MEMBER, GROUP, False)
as_other = functools.partial(run_as, OTHER, OTHER, False)
as_radio = functools.partial(run_as, 0, 0, True)


# The service.


def begin(*options):
    SOCKETS.mkdir()
    # (Others may look into it, so that it is the sockets' own mode that keeps them out.)
    SOCKETS.chmod(0o755)
    os.chown(SOCKETS, USER, GROUP)
    words = ["bin/private/serve", USER, GROUP, SOCKETS, "--store", "store", "--port", PORT, *options, *CONFS]
    env = {**os.environ, "NETNS": SPACE, "APD": os.path.abspath("bin/apd")}
    with open(LOG, "w") as it:
        services.append(subprocess.Popen([str(it) for it in words], env=env, stdout=it, stderr=it))
    for _ in range(600):
        if "serves commands" in LOG.read_text() and all((SOCKETS / it).exists() for it in BSSID):
            return
        time.sleep(0.05)
    raise Amiss("it serves nothing")


def end():
    service = services.pop()
    service.terminate()
    want("the service's status", 0, service.wait(20))
    want("sockets behind its end", [], os.listdir(SOCKETS))
    want("a namespace behind its end", False, SPACE_FILE.exists())
    SOCKETS.rmdir()


# Clients of apd-ctrl, and of ports.


class Client:
    """A socket of an interface's socket, with a name of its own."""

    count = 0

    def __init__(self, interface):
        Client.count += 1
        self.name = str(CLIENTS / f"{os.getpid()}-{Client.count}")
        self.socket = socket.socket(socket.AF_UNIX, socket.SOCK_DGRAM)
        self.socket.settimeout(10)
        self.socket.connect(str(SOCKETS / interface))
        self.socket.bind(self.name)

    def __enter__(self):
        return self.socket

    def __exit__(self, *_):
        os.unlink(self.name)


def ask(interface, command):
    """The reply. Where another socket took the interface's name meanwhile, it asks once more."""
    try:
        return ask_once(interface, command)
    except (ConnectionRefusedError, TimeoutError):
        return ask_once(interface, command)


def ask_once(interface, command):
    with Client(interface) as it:
        it.send(command.encode())
        return it.recv(65536).decode()


def ask_by_hostapd_cli(interface, words):
    command = [HOSTAPD_CLI, "-p", SOCKETS, "-i", interface, *words.split()]
    return subprocess.run(command, stdout=subprocess.PIPE, timeout=20, text=True).stdout


def ask_port(port, command):
    with socket.socket(socket.AF_INET, socket.SOCK_DGRAM) as it:
        it.settimeout(10)
        it.connect(("127.0.0.1", port))
        it.send(command)
        return it.recv(65536)


# Radios' peers.


def bytes_of(address):
    return bytes.fromhex(address.replace(":", ""))


def frame(kind, interface, station, body):
    bssid = bytes_of(BSSID[interface])
    return bytes([kind, 0, 0, 0]) + bssid + bytes_of(station) + bssid + bytes(2) + body


def authentication(interface, station):
    return frame(AUTHENTICATION, interface, station, bytes([0, 0, 1, 0, 0, 0]))


def authenticate(interface, *stations):
    radio = socket.socket(socket.AF_INET, socket.SOCK_DGRAM)
    radio.connect(("127.0.0.1", PORT + 1 + [*BSSID].index(interface)))
    radio.settimeout(30)
    for station in stations:
        radio.send(authentication(interface, station))
        answer = radio.recv(4096)
        if answer[0] != AUTHENTICATION or answer[4:10] != bytes_of(station) or answer[-2:] != bytes(2):
            return answer
    return "authenticated"


# What the replies are.


def row(station):
    return f"{station}\nflags=[AUTH]\naid=0\ncapability=0x0\nlisten_interval=0\n"


def status(interface, channel, count):
    return (
        f"state=ENABLED\nchannel={channel}\nbeacon_int=100\nbss[0]={interface}\nbssid[0]={BSSID[interface]}\n"
        f"ssid[0]=net\nnum_sta[0]={count}\n"
    )


# Commands of hostapd_cli, what that sends for each, and the replies. A list's edit sends the station away.
COMMANDS = [
    ("ping", ["PING"], ["PONG\n"]),
    ("status", ["STATUS"], [status("wlan1", 6, 2)]),
    ("sta " + A, ["STA " + A], [row(A)]),
    ("all_sta", ["STA-FIRST", "STA-NEXT " + A, "STA-NEXT " + B], [row(A), row(B), ""]),
    ("accept_acl SHOW", ["ACCEPT_ACL SHOW"], [""]),
    ("deny_acl ADD_MAC " + B, ["DENY_ACL ADD_MAC " + B], ["OK\n"]),
    ("deny_acl SHOW", ["DENY_ACL SHOW"], [B + " VLAN_ID=0\n"]),
    ("sta " + B, ["STA " + B], ["FAIL\n"]),
    ("deny_acl DEL_MAC " + B, ["DENY_ACL DEL_MAC " + B], ["OK\n"]),
    ("disassociate " + A, ["DISASSOCIATE " + A], ["OK\n"]),
    ("deauthenticate " + A, ["DEAUTHENTICATE " + A], ["OK\n"]),
    ("all_sta", ["STA-FIRST"], [""]),
    ("get_config", ["GET_CONFIG"], ["UNKNOWN COMMAND\n"]),
]


def try_others():
    for interface in BSSID:
        want(f"another user asks {interface}", "PermissionError", as_other(ask, interface, "PING"))
        found = (SOCKETS / interface).stat()
        want(f"{interface}: mode", "srw-rw----", stat.filemode(found.st_mode))
        want(f"{interface}: group", GROUP, found.st_gid)
    for port in range(PORT, PORT + 3):
        want(f"another user asks port {port}", "ConnectionRefusedError", as_other(ask_port, port, b"PING"))
    want("another user enters", "PermissionError", run_as(OTHER, OTHER, False, enter))
    want("who is inside asks", b"PONG\n", as_radio(ask_port, PORT, b"PING"))
    print("another user reaches neither ports nor sockets")


def try_commands():
    """These commands, by Python, and by hostapd_cli."""
    for by_cli in [False, True] if HOSTAPD_CLI else [False]:
        want("stations", "authenticated", as_radio(authenticate, "wlan1", *STATIONS))
        for words, commands, replies in COMMANDS:
            if by_cli:
                want(f"hostapd_cli {words}", "".join(replies), as_member(ask_by_hostapd_cli, "wlan1", words))
            else:
                for command, reply in zip(commands, replies):
                    want(command, reply, as_member(ask, "wlan1", command))
        print(f"who is in the group has {len(COMMANDS)} commands by {'hostapd_cli' if by_cli else 'Python'}")
    if not HOSTAPD_CLI:
        print("hostapd_cli is not installed here, and was not tried")
    want("root asks", "PONG\n", ask("wlan0", "PING"))
    want("the other interface", status("wlan1", 6, 0), as_member(ask, "wlan0", "IFNAME=wlan1 STATUS"))
    want("the first interface", status("wlan0", 0, 0), as_member(ask, "wlan0", "STATUS\n"))
    want("no interface", "FAIL\n", as_member(ask, "wlan0", "IFNAME=wlan2 STATUS"))
    for command in "ATTACH", "", "ping", "SET x 1", "STATUSES":
        want(command, "UNKNOWN COMMAND\n", as_member(ask, "wlan0", command))


# Clients that mean harm. Some stay, with all that they have open, while the next ones come.

kept = []


def flood():
    """Asks a thousand times, and reads nothing. (A socket of apd-ctrl with no more room is not there any longer.)"""
    kept.append(Client("wlan0"))
    for _ in range(1000):
        try:
            kept[-1].socket.send(b"PING")
        except ConnectionRefusedError:
            kept.append(Client("wlan0"))


def leave_unread():
    """Asks by many sockets for more text than one of apd-ctrl has room for, and reads nothing."""
    kept.extend(Client("wlan0") for _ in range(20))
    for it in kept:
        with contextlib.suppress(ConnectionRefusedError):
            it.socket.send(b"DENY_ACL SHOW")


def send_much():
    with Client("wlan0") as it:
        it.send(b"PING" * 25_000)
        return it.recv(65536)


def vanish():
    for _ in range(100):
        with Client("wlan0") as it:
            it.send(b"PING")
            it.close()


def ask_namelessly():
    with socket.socket(socket.AF_UNIX, socket.SOCK_DGRAM) as it:
        it.connect(str(SOCKETS / "wlan0"))
        for _ in range(100):
            it.send(b"PING")


def hand_over_files():
    with Client("wlan0") as it, open("/dev/null") as file:
        for _ in range(100):
            socket.send_fds(it, [b"PING"], [file.fileno()] * 10)
            it.recv(64)


def forge(name):
    """Has the reply sent to somebody else's socket, whose name this client has for its own, among files of its own."""
    it = socket.socket(socket.AF_UNIX, socket.SOCK_DGRAM)
    it.connect(str(SOCKETS / "wlan0"))
    call("unshare", NEW_FILES)
    call("mount", b"none", b"/", None, ALL_PRIVATE, None)
    call("mount", b"none", os.fsencode(os.path.dirname(name)), b"tmpfs", 0, None)
    os.chmod(os.path.dirname(name), 0o777)
    become(MEMBER, GROUP)
    it.bind(name)
    it.send(b"PING")


def relay():
    """The files in /proc of the process of apd-ctrl."""
    for it in pathlib.Path("/proc").glob("[0-9]*/cmdline"):
        with contextlib.suppress(OSError):
            words = it.read_bytes().split(b"\0")
            if bytes(SOCKETS) in words and any(word.endswith(b"/apd-ctrl") for word in words):
                return it.parent
    raise Amiss("apd-ctrl has ended")


def switches():
    """How often apd-ctrl was waited for and began again."""
    return int(next(it for it in (relay() / "status").open() if it.startswith("voluntary")).split()[1])


def try_harm():
    files = len(os.listdir(relay() / "fd"))
    for act, stays, wanted in [
        (flood, True, None),
        (leave_unread, True, None),
        (send_much, False, b"FAIL\n"),
        (vanish, False, None),
        (ask_namelessly, False, None),
        (hand_over_files, False, None),
    ]:
        want(act.__name__, wanted, as_member(act, stays=stays))
        for interface in BSSID:
            want(f"{interface} behind {act.__name__}", "PONG\n", as_member(ask, interface, "PING"))
    # A socket that the member may not write. And one of apd-ctrl, to which its replies would be commands.
    os.mkdir("others")
    others = socket.socket(socket.AF_UNIX, socket.SOCK_DGRAM | socket.SOCK_NONBLOCK)
    others.bind("others/socket")
    os.chmod("others/socket", 0o600)
    for name in os.path.abspath("others/socket"), str(SOCKETS / "wlan1"):
        want(f"{name} is forged", None, run_as(0, 0, False, forge, name))
        want(f"wlan0 behind {name}", "PONG\n", as_member(ask, "wlan0", "PING"))
    with contextlib.suppress(BlockingIOError):
        raise Amiss(f"a reply went to another user's socket: {others.recv(64)}")
    before = switches()
    time.sleep(1)
    if switches() - before > 100:
        raise Amiss("apd-ctrl answers itself")
    want("files of apd-ctrl", files, len(os.listdir(relay() / "fd")))
    print("clients that mean harm keep nobody from it")


# A radio's peer.


def drive():
    """As the peer: what others send changes nothing, and they get nothing."""
    peer, other, elsewhere = (socket.socket(socket.AF_INET, socket.SOCK_DGRAM) for _ in range(3))
    peer.bind(("127.0.0.1", BASE))
    peer.settimeout(10)
    elsewhere.bind(("127.0.0.2", BASE))
    radio = ("127.0.0.1", PORT + 1)
    want("a command before all frames", b"OK\n", ask_port(PORT, b"DEAUTHENTICATE " + A.encode()))
    want_frame("the frame of a command before all frames", DEAUTHENTICATION, A, peer)
    peer.sendto(authentication("wlan0", A), radio)
    want_frame("the answer to the peer", AUTHENTICATION, A, peer)
    table = rows()
    want("rows", [row(A), ""], table)

    begun = time.monotonic()
    frames = [authentication("wlan0", f"02:00:02:00:00:{it:02x}") for it in range(100)]
    frames += [frame(DEAUTHENTICATION, "wlan0", A, bytes([3, 0])), b"", bytes(64), b"\xff" * 2400, b"up", b"fault 1"]
    for number in range(100_000):
        other.sendto(frames[number % len(frames)], radio)
    for each in frames:
        elsewhere.sendto(each, radio)
    want("rows behind others' frames", table, rows())
    count_in_log(begun)
    # (The peer's own frame may be lost meanwhile, as on the air.)
    peer.settimeout(0.5)
    for _ in range(60):
        peer.sendto(authentication("wlan0", B), radio)
        with contextlib.suppress(TimeoutError):
            want("the answer to the peer then", (AUTHENTICATION, bytes_of(B)), read_head(peer))
            break
    want("rows then", [row(A), row(B), ""], rows())
    want("a command then", b"OK\n", ask_port(PORT, b"DEAUTHENTICATE " + A.encode()))
    peer.settimeout(10)
    while (found := read_head(peer)) == (AUTHENTICATION, bytes_of(B)):
        pass
    want("its frame then", (DEAUTHENTICATION, bytes_of(A)), found)
    for it in other, elsewhere:
        it.setblocking(False)
        with contextlib.suppress(BlockingIOError):
            raise Amiss(f"a frame went elsewhere: {it.recv(4096)}")


def want_frame(what, kind, station, peer):
    try:
        found = read_head(peer)
    except TimeoutError:
        found = "none"
    want(what, (kind, bytes_of(station)), found)


def read_head(peer):
    """The kind of the next frame, and for whom it is. (A word to the driver begins with a letter.)"""
    while (data := peer.recv(65536))[:1].islower():
        pass
    return data[0], data[4:10]


def count_in_log(begun):
    """Looks for the line that counts others' datagrams. It comes once a minute at most."""
    line = r"\[WARN  apd\] wlan0: datagrams from elsewhere than its driver, passed over: ([0-9]+)\n"
    for _ in range(200):
        counts = re.findall(line, LOG.read_text())
        if counts:
            break
        time.sleep(0.1)
    if not counts or "0" in counts or len(counts) > 1 + (time.monotonic() - begun) / 60:
        raise Amiss(f"others' datagrams are counted so in the log: {counts}")


def rows():
    found = [ask_port(PORT, b"STA-FIRST").decode()]
    while found[-1]:
        found.append(ask_port(PORT, b"STA-NEXT " + found[-1][:17].encode()).decode())
    return found


def bind_as_peer():
    with socket.socket(socket.AF_INET, socket.SOCK_DGRAM) as it:
        it.bind(("127.0.0.1", BASE))


def try_drivers():
    want("another user as the peer", "PermissionError", run_as(OTHER, OTHER, True, bind_as_peer))
    want("the peer", None, as_radio(drive))
    print("100,000 datagrams from elsewhere change nothing, and get nothing")


def main():
    CLIENTS.mkdir()
    CLIENTS.chmod(0o777)
    begin()
    try_others()
    try_commands()
    try_harm()
    end()
    how = {"stdout": subprocess.PIPE, "stderr": subprocess.STDOUT, "text": True}
    said = subprocess.run(["bin/apd", "run", "--help"], **how).stdout
    if "--drivers" not in said:
        raise Amiss("the program has no option --drivers, so nothing is tried of it")
    begin("--drivers", BASE)
    try_drivers()
    end()


try:
    main()
except Amiss as why:
    print(f"private.sh: {why}")
    print(LOG.read_text()[-2000:] if LOG.exists() else "", end="")
    sys.exit(1)
finally:
    for it in services:
        it.terminate()
        it.wait(20)
