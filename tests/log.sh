#!/bin/sh
# Has apd run meet what its log tells of, and compares the log line by line: list files that don't count, a store that is
# cut or grows, a recording that ends, stations and lists (--log-stations), the time (--log-time); a driver that fails, and
# what comes from elsewhere (--drivers); and a device that hangs, and one that fails, by strace, with and without
# --end-at-fault. It also tries the script that docs/SCRIPTS.md makes of a recording. And it has strace hold the program
# at calls behind which something else must have been done already: between a store's lock and its watch, before a reply,
# at a commit when the input ends, behind the call that wakes who waits for a fault.
# Use: tests/log.sh, from anywhere. APD names the program. It ends with status 1 at the first line that is another one.
here=$(dirname "$(readlink -f "$0")")
. "$here/testing"
needs python3 strace
strace -o /dev/null true || {
    echo "log.sh: strace may not trace here, so no device can be made to fail" >&2
    exit 1
}
port=$("$here/free-ports" 3)
printf 'interface=wlan0\nbssid=02:00:00:00:00:01\nssid=net\n' >conf
printf 'interface=wlan1\nbssid=02:00:00:00:00:02\nssid=net\naccept_mac_file=accept\ndeny_mac_file=deny\n' >listed
printf 'interface=wlan1\nbssid=02:00:00:00:00:02\nssid=net\n' >second
printf 'interface=wlan0\nbssid=02:00:00:00:00:01\nssid=net\naccept_mac_file=thousand\n' >full
awk 'BEGIN { for (i = 0; i < 1024; i++) printf "02:00:01:00:%02x:%02x\n", i / 256, i % 256 }' >thousand
printf '02:00:00:00:00:ac\n' >accept
: >deny

python3 - "$program" "$port" "$here/../docs/SCRIPTS.md" <<'END'
import fcntl
import os
import re
import resource
import shutil
import signal
import socket
import subprocess
import sys
import time

program, port, page = sys.argv[1], int(sys.argv[2]), sys.argv[3]
TIME = re.compile(r"\d{4}-\d\d-\d\dT\d\d:\d\d:\d\d\.\d{3}Z ")
# What a radio receives: first octets, and what stands behind the addresses.
AUTHENTICATION, ASSOCIATION = ("b000", "000000000100 0000"), ("0000", "0000 3104 0a00 00036e6574 010482848b96")
DISASSOCIATION, DATA = ("a000", "0000 0800"), ("0801", "0000")
SERVES = f"[INFO  apd] serves commands on port {port}, wlan0 on port {port + 1}; stations recovered: "
ENDED = "[INFO  apd] standard input ended: ends"
FAILED = "[ERROR apd] store: sync: Input/output error (os error 5)"
FAULT = ("[ERROR apd] device fault: nothing more is made durable, and what would change the table is refused; "
         "end it, see to the disk, and start it again")


def frame(kind, station):
    first, rest = kind
    return bytes.fromhex(f"{first}0000 020000000001 0200000000{station} 020000000001 {rest}")


def die(text):
    sys.exit(f"log.sh: {text}")


class Run:
    """apd run with these words, and its log so far."""

    def __init__(self, *words, store="store", under=(), **how):
        words = [*under, program, "run", "--store", store, "--port", str(port), *words]
        self.log = open("log", "w+")
        how = {"stdin": subprocess.PIPE, "stdout": self.log, "stderr": self.log} | how
        self.process = subprocess.Popen(words, **how)
        self.socket = socket.socket(socket.AF_INET, socket.SOCK_DGRAM)
        self.socket.settimeout(20)
        self.wait_for("] serves commands")

    def lines(self):
        self.log.seek(0)
        return self.log.read().splitlines()

    def wait_for(self, text):
        for _ in range(400):
            if any(text in line for line in self.lines()):
                return
            time.sleep(0.05)
        self.process.kill()
        die(f"waited for {text!r} in vain: {self.lines()}")

    def send(self, data, to):
        self.socket.sendto(data, ("127.0.0.1", port + to))

    def ask(self, data, to):
        """The answer to a command or a frame."""
        self.send(data, to)
        return self.socket.recv(65536)

    def end(self):
        self.process.stdin.close()
        return self.process.wait(20)

    def wants(self, what, lines, status=0, key=None, read=str):
        """Ends the test where the log has other lines, each as it is read, or the status is another one. With a key lines
        are sorted by it: what two threads tell comes in any order."""
        if self.process.stdin.closed:
            at = next(at for at, line in enumerate(lines) if "] entries " in line)
            lines = [*lines[:at], ENDED, *lines[at:]]
        found = [read(line) for line in self.lines()]
        found, lines = (sorted(them, key=key) if key else them for them in (found, lines))
        if found != lines or self.process.returncode != status:
            die(f"{what}: status {self.process.returncode}, and it says\n{chr(10).join(found)}\nwanted:\n"
                + "\n".join(lines))
        print(f"{what}: {lines[-3] if len(lines) > 2 else lines[-1]}")


def strace(*injected):
    """The words by which strace does this to calls."""
    calls = ",".join(each.split(":")[0] for each in injected)
    inject = [word for each in injected for word in ("-e", f"inject={each}")]
    return ["strace", "-f", "-qq", "-o", "/dev/null", "-e", f"trace={calls}", *inject]


def is_locked(name):
    with open(name) as it:
        try:
            fcntl.flock(it, fcntl.LOCK_SH | fcntl.LOCK_NB)
        except BlockingIOError:
            return True
    return False


def new_store(name="store"):
    subprocess.run([program, "format", name], check=True, stdout=subprocess.DEVNULL)


# Nothing is told that isn't asked for.
new_store()
run = Run("conf")
run.ask(frame(AUTHENTICATION, "aa"), 1)
run.ask(frame(ASSOCIATION, "aa"), 1)
run.ask(b"DENY_ACL ADD_MAC 02:00:00:00:00:ab", 0)
run.end()
run.wants("no option", [SERVES + "0", "[INFO  apd] entries 3"])

# The time.
run = Run("--log-time", "conf")
run.end()
found = run.lines()
if not all(TIME.match(line) for line in found):
    die(f"--log-time: {found}")
now = time.time()
for line in found:
    at = time.strptime(line[:19] + "+0000", "%Y-%m-%dT%H:%M:%S%z")
    import calendar
    if abs(calendar.timegm(at) - now) > 30:
        die(f"--log-time: {line} at {now}")
if [TIME.sub("", line, count=1) for line in found] != [SERVES + "1", ENDED, "[INFO  apd] entries 0"]:
    die(f"--log-time: {found}")
print(f"--log-time: {found[-1]}")

# Stations and lists.
new_store()
run = Run("--log-stations", "conf")
for kind in AUTHENTICATION, ASSOCIATION:
    run.ask(frame(kind, "aa"), 1)
run.send(frame(DISASSOCIATION, "aa"), 1)
for kind in AUTHENTICATION, ASSOCIATION:
    run.ask(frame(kind, "ab"), 1)
# A stranger's data is refused, which is not told.
run.ask(frame(DATA, "ad"), 1)
run.send(b"DENY_ACL ADD_MAC 02:00:00:00:00:ab", 0)
for _ in range(2):
    run.socket.recv(65536)
run.ask(frame(AUTHENTICATION, "ac"), 1)
run.send(b"DEAUTHENTICATE ff:ff:ff:ff:ff:ff reason=3", 0)
for _ in range(2):
    run.socket.recv(65536)
run.ask(b"DENY_ACL CLEAR", 0)
run.ask(b"ACCEPT_ACL CLEARED", 0)
run.end()
run.wants("--log-stations", [
    SERVES + "0",
    "[INFO  apd] wlan0: 02:00:00:00:00:aa associated, identifier 1",
    "[INFO  apd] wlan0: 02:00:00:00:00:aa left",
    "[INFO  apd] wlan0: 02:00:00:00:00:ab associated, identifier 2",
    "[INFO  apd] wlan0: 02:00:00:00:00:ab was let go, reason 1",
    "[INFO  apd] wlan0: DENY_ACL ADD_MAC 02:00:00:00:00:ab",
    "[INFO  apd] wlan0: ff:ff:ff:ff:ff:ff was let go, reason 3",
    "[INFO  apd] wlan0: DENY_ACL CLEAR",
    "[INFO  apd] entries 10",
], key=lambda line: "_ACL" in line)

# An edit is told behind its reply: where that is held for a while, the line comes no sooner.
new_store()
run = Run("--log-stations", "conf", under=strace("sendto:delay_enter=500000"))
run.send(b"DENY_ACL CLEAR", 0)
run.wait_for("DENY_ACL CLEAR")
run.socket.setblocking(False)
try:
    reply = run.socket.recv(65536)
except BlockingIOError:
    reply = None
if reply != b"OK\n":
    die(f"an edit is told before its reply: {reply}")
run.end()
run.wants("an edit", [SERVES + "0", "[INFO  apd] wlan0: DENY_ACL CLEAR", "[INFO  apd] entries 1"])

# What is committed only once the input has ended is replied to as it is meant: no address more comes to a full list. (The
# order was accepted where the ping behind it is answered.)
new_store()
run = Run("full", under=strace("fdatasync:delay_enter=500000"))
run.send(b"ACCEPT_ACL ADD_MAC 02:00:00:00:00:ab", 0)
if run.ask(b"PING", 0) != b"PONG\n":
    die("a full list: no answer")
if run.end() != 0 or run.socket.recv(65536) != b"FAIL\n":
    die("a full list: the last reply is another one")
print(f"a full list: {run.lines()[-1]}")

# List files, at the first start on a store and at the next one.
new_store()
serves = SERVES.replace("wlan0", "wlan1")
run = Run("listed")
run.end()
run.wants("list files at first", [serves + "0", "[INFO  apd] entries 0"])
run = Run("listed")
run.end()
run.wants("list files then", [
    *(f"[WARN  apd] wlan1: {name} does not count, since the store has the lists of its BSSID: commands change them"
      for name in ("accept", "deny")),
    serves + "0",
    "[INFO  apd] entries 0",
])

# A store that grows, and one that is cut.
for length, text in [
    (2097217, "grew to 2097217 bytes, from 2097216: a start from it is refused until it is cut to these"),
    (4096, "was cut to 4096 bytes, of 2097216: what the store holds may be lost when this ends, and its device "
           "fails from now on"),
]:
    new_store("other")
    run = Run("conf", store="other")
    os.truncate("other", length)
    run.wait_for(" bytes, ")
    time.sleep(1.5)
    run.end()
    run.wants(f"a length of {length}", [SERVES + "0", f"[ERROR apd] other {text}", "[INFO  apd] entries 0"])
    os.remove("other")

# A store that gets another name while it is opened, between its lock and what watches it. (Each sync takes a while.)
new_store()
new_store("other")
words = [*strace("fdatasync:delay_enter=5000000"), program, "run", "--store", "store", "--port", str(port), "conf"]
start = subprocess.Popen(words, stdin=subprocess.DEVNULL, stderr=subprocess.PIPE, text=True)
while not is_locked("store"):
    time.sleep(0.01)
os.rename("other", "store")
said = start.communicate(timeout=60)[1]
if start.returncode != 1 or said.splitlines()[0] != "apd: cannot read store":
    die(f"a store that gets another name while it is opened: {said}")
print(f"a store that gets another name while it is opened: {said.splitlines()[0]}")

# A recording becomes a script by the page's own two lines, and the script asks for what the radio was asked for.
new_store("before.store")
shutil.copy("before.store", "store")
shutil.copy("conf", "wlan0.conf")
run = Run("--record", "calls", "conf")
run.send(b"", 1)
for kind in AUTHENTICATION, ASSOCIATION:
    run.ask(frame(kind, "aa"), 1)
run.end()
lines = re.search(r"(?m)^    sed -n .*\n    apd script .*$", open(page).read())[0]
done = subprocess.run(["sh", "-euc", f'apd() {{ "$0" "$@"; }}\n{lines}', program], capture_output=True, text=True)
found = [line for line in done.stdout.splitlines() if line.startswith("wlan0 ")]
wanted = [f"wlan0 {line.strip()}" for line in open("calls.0") if line.split()[0] in ("install", "tx")]
if found != wanted or len(wanted) != 3:
    die(f"a script of a recording: {done}; wanted: {wanted}")
print(f"a script of a recording: {found[1]}")

# A recording that can't be emptied is told before a port that is taken, and a refused start empties none. Where it can be
# emptied at first, and not when it is to be, that is told too.
new_store()
open("kept.0", "w").write("down\n")
taken = socket.socket(socket.AF_INET, socket.SOCK_DGRAM)
taken.bind(("127.0.0.1", port))
start = [program, "run", "--record", "kept", "--store", "store", "--port", str(port), "conf"]
for under, fault in (strace("ftruncate:error=EPERM"),
                     "apd: cannot read kept.0"), ([], "apd: no socket"):
    done = subprocess.run([*under, *start], stdin=subprocess.DEVNULL, capture_output=True, timeout=20, text=True)
    if done.returncode != 1 or done.stderr.splitlines()[0] != fault or open("kept.0").read() != "down\n":
        die(f"a recording that can't be emptied: {done}; wanted: {fault}")
    print(f"a recording before its port: {fault}")
taken.close()
done = subprocess.run([*strace("ftruncate:error=EPERM:when=2"), *start], stdin=subprocess.DEVNULL, capture_output=True,
                      timeout=20, text=True)
if done.returncode != 1 or done.stderr.splitlines()[0] != "apd: cannot read kept.0":
    die(f"a recording that can't be emptied behind its port: {done}")
print(f"a recording behind its port: {done.stderr.splitlines()[0]}")

# A recording that reaches a limit on files, which is above a store's length.
def limit():
    signal.signal(signal.SIGXFSZ, signal.SIG_IGN)
    resource.setrlimit(resource.RLIMIT_FSIZE, (2100000, 2100000))


new_store()
run = Run("--record", "calls", "conf", preexec_fn=limit)
for _ in range(500):
    run.send(bytes.fromhex("b0") + bytes(2303), 1)
    time.sleep(0.001)
run.wait_for("the recording ends here")
run.ask(frame(AUTHENTICATION, "aa"), 1)
run.end()
run.wants("a recording", [
    SERVES + "0",
    "[ERROR apd] calls.0: the recording ends here: File too large (os error 27)",
    "[INFO  apd] entries 1",
])

# The radios' drivers: each at its own port, nobody else is heard, and the first says that it failed at a word.
def take_ports():
    """Two sockets at ports that follow each other."""
    while True:
        found = [socket.socket(socket.AF_INET, socket.SOCK_DGRAM) for _ in range(2)]
        found[0].bind(("127.0.0.1", 0))
        try:
            found[1].bind(("127.0.0.1", found[0].getsockname()[1] + 1))
        except OSError:
            continue
        for it in found:
            it.settimeout(20)
        return found


new_store()
drivers = take_ports()
run = Run("--drivers", str(drivers[0].getsockname()[1]), "conf", "second")


def drives(*wanted, says=None, radio=0):
    """Ends the test where a radio's driver is told anything else, behind what it says."""
    if says is not None:
        drivers[radio].sendto(says, ("127.0.0.1", port + 1 + radio))
    for start in wanted:
        told, sender = drivers[radio].recvfrom(65536)
        if not told.startswith(start) or sender[1] != port + 1 + radio:
            die(f"--drivers: radio {radio}: {told} of {sender}, and not {start}")


drives(b"map 1 down")
drives(b"map 1 down", radio=1)
drives(b"map 2 down", says=b"up", radio=1)
run.send(frame(AUTHENTICATION, "ab"), 1)
run.wait_for("passed over: ")
drives(b"\xb0", says=frame(AUTHENTICATION, "aa"))
drives(b"install 2 02:00:00:00:00:aa 1", b"\x10", says=frame(ASSOCIATION, "aa"))
drives(says=b"fault 2")
drives(b"map 3 down", says=frame(DISASSOCIATION, "aa"))
if run.ask(b"STA 02:00:00:00:00:ab", 0) != b"FAIL\n":
    die("--drivers: a stranger was heard")
run.end()
run.wants("--drivers", [
    SERVES.replace(";", f", wlan1 on port {port + 2};") + "0",
    "[WARN  apd] wlan0: datagrams from elsewhere than its driver, passed over: 1",
    "[ERROR apd] wlan0: driver fault as 02:00:00:00:00:aa was to be removed",
    "[WARN  apd] wlan0: the driver is given its stations anew: try 1 of 3",
    "[INFO  apd] wlan0: the driver is up again; stations installed: 0",
    "[INFO  apd] entries 3",
])
words = [program, "run", "--drivers", str(port + 8), "--store", "store", "--port", str(port), "conf"]
done = subprocess.run(words, stdin=subprocess.DEVNULL, capture_output=True, timeout=20, text=True)
clash = (f"error: invalid value '{port + 8}' for '--drivers <BASE>': the ports {port + 8} to {port + 15} meet {port} to "
         f"{port + 8}, those of '--port {port}'")
if done.returncode != 2 or done.stderr.splitlines()[0] != clash:
    die(f"--drivers at the daemon's ports: {done}")
print(f"--drivers {port + 8}: {clash}")

# A sync that hangs, once it serves: it is told while it does, and that it went on. A query is answered meanwhile.
HANGING = strace("fdatasync:delay_enter=3000000:when=4")
HANGS = "[WARN  apd] the store has not answered for N s: what waits for it is answered once it does"
WENT_ON = "[WARN  apd] the store answers again, after N s"

new_store()
run = Run("--log-stations", "conf", under=HANGING)
run.ask(frame(AUTHENTICATION, "aa"), 1)
run.send(frame(ASSOCIATION, "aa"), 1)
run.wait_for("has not answered")
other = socket.socket(socket.AF_INET, socket.SOCK_DGRAM)
other.settimeout(20)
other.sendto(b"STATUS", ("127.0.0.1", port))
if not other.recv(65536).startswith(b"state=ENABLED\n") or any("answers again" in line for line in run.lines()):
    die(f"a sync that hangs: {run.lines()}")
run.socket.recv(65536)
run.wait_for("answers again")
run.end()
run.wants("a sync that hangs", [
    SERVES + "0", HANGS, WENT_ON, "[INFO  apd] wlan0: 02:00:00:00:00:aa associated, identifier 1", "[INFO  apd] entries 2",
], key=lambda line: "the store " in line, read=lambda line: re.sub(r"(?<=(for|ter) )[1-9]\d*(?= s)", "N", line))

# A sync that fails, once it serves. strace counts by threads: the first one makes one at the recovery and two at the start;
# that which commits, two for the authentication, and the fourth is the association's second.
FAILING = strace("fdatasync:error=EIO:when=4+")

new_store()
run = Run("--log-stations", "conf", under=FAILING)
run.ask(frame(AUTHENTICATION, "aa"), 1)
run.send(frame(ASSOCIATION, "aa"), 1)
run.wait_for("device fault")
if not run.ask(b"STATUS", 0).startswith(b"state=DISABLED\n") or run.ask(b"DENY_ACL CLEAR", 0) != b"FAIL\n":
    die("a device fault: it doesn't go on")
run.wait_for("store: sync: ")
run.end()
run.wants("a device fault", [SERVES + "0", FAULT, FAILED, "[INFO  apd] entries 2", "apd: device fault"], 1,
          key=lambda line: line == FAILED)

new_store()
run = Run("--log-stations", "--end-at-fault", "conf", under=FAILING)
run.ask(frame(AUTHENTICATION, "aa"), 1)
run.send(frame(ASSOCIATION, "aa"), 1)
# Its input stays open.
try:
    run.process.wait(20)
except subprocess.TimeoutExpired:
    run.process.kill()
    die("--end-at-fault: it goes on")
run.wants("--end-at-fault", [SERVES + "0", FAULT, FAILED, "[INFO  apd] entries 2", "apd: device fault"], 1,
          key=lambda line: line == FAILED)

# The same where the thread that tells of the fault goes on only a while behind the call that wakes the one that waits.
new_store()
run = Run("--end-at-fault", "conf", under=strace("fdatasync:error=EIO:when=4+", "write:delay_exit=300000"))
run.ask(frame(AUTHENTICATION, "aa"), 1)
run.send(frame(ASSOCIATION, "aa"), 1)
try:
    run.process.wait(30)
except subprocess.TimeoutExpired:
    run.process.kill()
    die("--end-at-fault: a fault that was told wakes nobody")
run.wants("--end-at-fault", [SERVES + "0", FAULT, FAILED, "[INFO  apd] entries 2", "apd: device fault"], 1,
          key=lambda line: line == FAILED)

# Where a thread can't be had, one for the log, one for what is watched and one for each worker, it never says that it serves.
new_store()
for made in range(1, 7):
    words = ["strace", "-f", "-qq", "-o", "/dev/null", "-e", f"inject=clone3,clone:error=EAGAIN:when={made}", program,
             "run", "--store", "store", "--port", str(port), "conf"]
    done = subprocess.run(words, stdin=subprocess.DEVNULL, capture_output=True, timeout=20, text=True)
    if done.returncode != 1 or done.stderr.splitlines()[0] != "apd: no thread":
        die(f"thread {made} can't be had: {done}")
print(f"no thread: {done.stderr.splitlines()[0]}")

# Without a fault it ends with its input, whatever that is.
for given in subprocess.DEVNULL, open("conf"):
    words = [program, "run", "--end-at-fault", "--store", "store", "--port", str(port), "conf"]
    done = subprocess.run(words, stdin=given, capture_output=True, timeout=20, text=True)
    if done.returncode != 0 or done.stderr.splitlines()[-1] != "[INFO  apd] entries 0":
        die(f"--end-at-fault without a fault: {done}")
new_store()
run = Run("--end-at-fault", "conf")
run.process.stdin.write(b"\n" * 9000)
run.process.stdin.flush()
time.sleep(0.5)
if run.process.poll() is not None:
    die("--end-at-fault: it ended by its input's bytes")
# A process that is stopped, and goes on, meets calls that were interrupted.
for sent in signal.SIGSTOP, signal.SIGCONT:
    run.process.send_signal(sent)
    time.sleep(0.5)
if run.process.poll() is not None or run.ask(b"PING", 0) != b"PONG\n":
    die("--end-at-fault: it ended as it was stopped and went on")
run.end()
run.wants("--end-at-fault without a fault", [SERVES + "0", "[INFO  apd] entries 0"])

# A read of the input that is interrupted is none that ends it.
os.mkfifo("input")
reader = os.open("input", os.O_RDONLY | os.O_NONBLOCK)
writer = os.open("input", os.O_WRONLY)
os.set_blocking(reader, True)
run = Run("conf", under=[*strace("read:error=EINTR:when=1"), "-P", "input"], stdin=reader)
time.sleep(0.5)
if run.ask(b"PING", 0) != b"PONG\n":
    die("it ended as a read of its input was interrupted")
os.close(writer)
run.process.wait(20)
print(f"an interrupted read: {run.lines()[-1]}")
END
