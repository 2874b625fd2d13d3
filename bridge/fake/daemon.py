#!/usr/bin/env python3
"""Plays the daemon to a bridge whose kernel is fake/kernel.c, and looks at what the bridge does and says.

usage: fake/daemon.py PROGRAM PORT

It takes the ports PORT to PORT + 2, and ends with status 1 where the bridge does otherwise.
"""
import os
import re
import socket
import subprocess
import sys
import time

program, port = sys.argv[1], int(sys.argv[2])
OWN = bytes.fromhex("020000000001")
BASIC = bytes.fromhex("010482848b96")
NAME = bytes.fromhex("6e5c22ff")
lines, heard = [], []


def bound(own, other=None):
    it = socket.socket(socket.AF_INET, socket.SOCK_DGRAM)
    it.bind(("127.0.0.1", own))
    if other:
        it.connect(("127.0.0.1", other))
    it.settimeout(0.02)
    return it


control, radio = bound(port), bound(port + 1, port + 2)
kernel, news = socket.socketpair(socket.AF_UNIX, socket.SOCK_DGRAM)
words = [program, "wlan0", str(port), str(port + 1), str(port + 2)]
bridge = subprocess.Popen(words, stdin=news, stdout=subprocess.PIPE, encoding="latin-1")
# Whether probes are answered, and the network is hidden.
answers, hidden = True, False


def address(last):
    return f"02:00:00:00:00:{last}"


def frame(kind, to, sender, body):
    header = bytes([kind, 0, 0, 0]) + to + sender + OWN + bytes(2)
    return header + body


def bytes_of(last):
    return bytes.fromhex("0200000000" + last)


def null_of(last):
    """Data without data, to the access point."""
    return bytes([0x48, 1, 0, 0]) + OWN + bytes_of(last) + OWN + bytes(2)


def answer_command():
    text, sender = control.recvfrom(9999)
    if text == b"IFNAME=wlan0 STATUS":
        reply = b'state=ENABLED\nchannel=6\nbeacon_int=100\nbss[0]=wlan0\nbssid[0]=x\n'
        reply += b'ssid[0]=n\\\\\\"\\xff\nnum_sta[0]=0\n'
    else:
        reply = text.split()[-1] + b"\nflags=[AUTH][ASSOC][AUTHORIZED]\naid=1\ncapability=0x421\nlisten_interval=7\n"
    control.sendto(reply, sender)


def take_datagram():
    it = radio.recv(9999)
    if it[0] != 0x40:
        return heard.append(it)
    asked_name = it[26 : 26 + it[25]]
    assert asked_name in (b"", NAME), asked_name
    if answers and not (hidden and not asked_name):
        elements = bytes([0, len(NAME)]) + NAME + BASIC + bytes([3, 1, 6])
        radio.send(frame(0x50, it[10:16], OWN, bytes(8) + bytes([100, 0, 1, 0]) + elements))


def turn():
    """Does what the daemon does for a moment, and notes what the bridge said."""
    for act in answer_command, take_datagram:
        try:
            while True:
                act()
        except (TimeoutError, ConnectionRefusedError):
            pass


def read_lines():
    os.set_blocking(bridge.stdout.fileno(), False)
    while line := bridge.stdout.readline():
        if not re.match(r"\d+\.\d+ ", line):
            lines.append(line.strip())


def expect(what, *wanted, said=(), unsaid=None):
    """Waits until the bridge asked just this of the kernel, in order, and said this to the daemon, too, but no frame of
    the sender `unsaid`."""
    lines.clear()
    until = time.monotonic() + 8
    while time.monotonic() < until:
        turn()
        read_lines()
        if lines == list(wanted) and all(it in heard for it in said):
            break
    if lines != list(wanted) or not all(it in heard for it in said):
        sys.exit(f"{what}: wanted {list(wanted)} and {list(said)}, found {lines} and {heard}")
    if any(it[10:16] == unsaid for it in heard):
        sys.exit(f"{what}: a frame came from {unsaid}")
    print(f"{what}: {'; '.join(lines) or 'nothing'}")
    heard.clear()


def tell(text):
    radio.send(text.encode())


request = frame(0x00, OWN, bytes_of("cc"), bytes.fromhex("31040a00") + BASIC + bytes.fromhex("32050c12182430"))
accepted = bytes.fromhex("0100000003c0") + BASIC
a, b, c, d = (address(it) for it in ("aa", "bb", "cc", "dd"))
by_request, by_daemon = "431 10 9", "421 7 4"
is_good = False
try:
    expect("it starts", "open wlan0", 'beacon n\\"\xff open 6 100 51', said=[b"up"])
    tell(f"map 5 down\n{a} 1\n{b} 2007")
    expect("a map", "remove all", f"add {a} 1 {by_daemon}", f"add {b} 2007 {by_daemon}")
    expect("who was heard of late", said=[null_of("aa")])
    kernel.send(request)
    expect("a request", said=[request])
    tell(f"install 6 {c} 3")
    radio.send(frame(0x10, bytes_of("cc"), OWN, accepted))
    expect("an install, and its response", f"add {c} 3 {by_request}", f"send 10 {c} 36")
    tell(f"install 8 {d} 4")
    expect("a missed word", said=[b"up"])
    tell(f"remove 9 {c}")
    tell(f"map 10 down\n{a} 2\n{b} 2007")
    expect("the map anew", f"remove {a}", f"remove {c}", f"add {a} 2 {by_daemon}")
    tell(f"install 11 {b} 1")
    expect("another identifier", f"remove {b}", f"add {b} 1 {by_daemon}")
    tell(f"remove 12 {b}")
    tell(f"remove 13 {d}")
    expect("a removal", f"remove {b}")
    kernel.send(b"refuse")
    tell(f"install 14 {c} 3")
    radio.send(frame(0x10, bytes_of("cc"), OWN, accepted))
    expect("a fault, and no response", said=[b"fault 14"])
    kernel.send(b"take")
    tell(f"map 15 down\n{a} 2\n{c} 3")
    expect("the map after a fault", f"add {c} 3 {by_request}")
    for text in "map", "no word", "install 16", "install 16 x 1":
        tell(text)
    for identifier in "2008", "0", "5 ":
        tell(f"install 16 {d} {identifier}")
    tell(f"install 16 {d} 4")
    expect("what is no word", f"add {d} 4 {by_daemon}")
    kernel.send(bytes_of("ee"))
    expect("data of a stranger", said=[null_of("ee")])
    kernel.send(frame(0xb0, OWN, bytes(6), bytes(6)))
    kernel.send(frame(0xb0, OWN, bytes_of("ff"), bytes(6)))
    expect("a sender without an address", said=[frame(0xb0, OWN, bytes_of("ff"), bytes(6))], unsaid=bytes(6))
    kernel.send(b"fall")
    expect("the interface fell", 'beacon n\\"\xff open 6 100 51', said=[b"up"])
    tell(f"map 17 down\n{a} 2")
    expect("the map after a fall", f"add {a} 2 {by_daemon}")
    hidden = True
    kernel.send(b"fall")
    expect("a hidden network", 'beacon n\\"\xff hidden 6 100 47', said=[b"up"])
    is_good = True
finally:
    bridge.kill()
print("The bridge did what it was told." if is_good else "The bridge did otherwise.")
