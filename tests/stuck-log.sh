#!/bin/sh
# Has apd run write its log to standard error that nobody reads: a pipe that is full, one that fills up as stations
# come and go (--log-stations), and a terminal that stands still or was stopped by control-S. Each station must be
# answered all the same, and the end of standard input must end apd with its status. Whoever reads late must get the
# oldest lines, and be told how many were lost. It prints how long the slowest answers but one in a hundred took, of
# those that are asked for together, with a reader and without.
# Use: tests/stuck-log.sh [PART..], from anywhere: of these parts, else of all. APD names the program. It ends with
# status 1 at the first thing that is wrong.
here=$(dirname "$(readlink -f "$0")")
. "$here/testing"
needs python3
port=$("$here/free-ports" 2)
printf 'interface=wlan0\nbssid=02:00:00:00:00:01\nssid=net\n' >conf

python3 - "$program" "$port" "$@" <<'END'
import os
import re
import socket
import subprocess
import sys
import threading
import time

program, port = sys.argv[1], int(sys.argv[2])
# So many stations come and go at a time.
TOGETHER = 50
# One more station, which only authenticates.
WITNESS = 65535
SERVES, ENDED = "[INFO  apd] serves commands on port ", "[INFO  apd] standard input ended: ends"
LOST = re.compile(r"\[WARN  apd\] (\d+) lines were lost")
TIME = re.compile(r"\d{4}-\d\d-\d\dT\d\d:\d\d:\d\d\.\d{3}Z ")


def die(text):
    sys.exit(f"stuck-log.sh: {text}")


def name_of(station):
    return bytes([2, 0, 0, 1, station >> 8, station & 255])


def frame(first, station, rest):
    return bytes.fromhex(f"{first}000000 020000000001 {name_of(station).hex()} 020000000001 {rest}")


class Run:
    """apd run with these words over a new store, its log to this descriptor, and how long its answers took."""

    def __init__(self, what, log, *words, store="store"):
        self.what, self.times, self.told, self.entries = what, [], [], 0
        if store == "store":
            if os.path.exists(store):
                os.remove(store)
            subprocess.run([program, "format", store], check=True, stdout=subprocess.DEVNULL)
        words = [program, "run", "--store", store, "--port", str(port), *words, "conf"]
        self.process = subprocess.Popen(words, stdin=subprocess.PIPE, stdout=subprocess.DEVNULL, stderr=log)
        self.socket = socket.socket(socket.AF_INET, socket.SOCK_DGRAM)

    def die(self, text):
        self.process.kill()
        die(f"{self.what}: {text}")

    def ask(self, data, to, seconds=20):
        """The answer to a command or a frame, or nothing."""
        return self.ask_all([data], to, seconds)[0]

    def ask_all(self, asked, to, seconds=20):
        """The answers to commands or frames, which come in order."""
        self.socket.settimeout(seconds)
        began, answers = time.monotonic(), []
        for data in asked:
            self.socket.sendto(data, ("127.0.0.1", port + to))
        for _ in asked:
            try:
                answers.append(self.socket.recv(65536))
            except OSError:
                break
            self.times.append(time.monotonic() - began)
        return answers + [b""] * (len(asked) - len(answers))

    def wait_until_it_serves(self):
        """Until it answers a PING. A log that nobody reads doesn't tell when."""
        for _ in range(100):
            if self.ask(b"PING", 0, 0.2) == b"PONG\n":
                # (a late PONG goes to the socket before)
                self.socket = socket.socket(socket.AF_INET, socket.SOCK_DGRAM)
                self.times.clear()
                return
            time.sleep(0.1)
        self.die("it doesn't serve")

    def come_and_go(self, stations):
        """Has each station associate and leave, and notes what the log tells of that."""
        for at in range(0, len(stations), TOGETHER):
            some = stations[at : at + TOGETHER]
            for kind, rest in ("b0", "000000000100 0000"), ("00", "0000 3104 0a00 00036e6574 010482848b96"):
                answers = self.ask_all([frame(kind, station, rest) for station in some], 1)
                for station, answer in zip(some, answers):
                    status = answer[28:30] if kind == "b0" else answer[26:28]
                    if status != b"\0\0" or answer[4:10] != name_of(station):
                        self.die(f"the station {station} is answered by {answer.hex()!r}")
            for station in some:
                self.socket.sendto(frame("c0", station, "0000 0300"), ("127.0.0.1", port + 1))
            names = [name_of(station).hex(":") for station in some]
            self.told += [f"[INFO  apd] wlan0: {name} associated, identifier" for name in names]
            self.told += [f"[INFO  apd] wlan0: {name} left" for name in names]
        if self.ask(b"PING", 0) != b"PONG\n":
            self.die("no PONG")
        # (its answer goes out behind all that those before it ask for)
        if self.ask(frame("b0", WITNESS, "000000000100 0000"), 1)[28:30] != b"\0\0":
            self.die("the last answer doesn't come")
        self.entries += 3 * len(stations) + 1

    def slowest(self):
        return f"{sorted(self.times)[len(self.times) * 99 // 100] * 1000:.1f} ms"

    def end(self, status=0):
        """Ends its input, and waits for its own end."""
        self.process.stdin.close()
        began = time.monotonic()
        try:
            found = self.process.wait(10)
        except subprocess.TimeoutExpired:
            self.die("it doesn't end")
        took = time.monotonic() - began
        if found != status or took > 5:
            self.die(f"status {found} after {took:.1f} s")
        print(f"{self.what}: status {status} after {took:.1f} s" + (f", p99 {self.slowest()}" if self.times else ""))

    def wants(self, lines, stamped=False, whole=True):
        """Ends the test where the log isn't what was told, in order, but for lines that it says were lost, whole or its
        beginning. Gives how many were lost."""
        told = [SERVES, *self.told, ENDED, f"[INFO  apd] entries {self.entries}"]
        place = lost = 0
        for line in lines:
            if bool(TIME.match(line)) != stamped:
                die(f"{self.what}: {line}")
            line = TIME.sub("", line)
            found = LOST.fullmatch(line)
            if found:
                lost += int(found[1])
                place += int(found[1])
            elif place < len(told) and line.startswith(told[place]):
                place += 1
            else:
                die(f"{self.what}: {line!r}, and wanted was, at {place}: {told[place:place + 1]}")
        if place == 0 or whole and place != len(told):
            die(f"{self.what}: {place} lines of {len(told)}")
        print(f"{self.what}: {len(lines)} lines of {len(told)} came, and {lost} are told as lost")
        return lost


def read_all(descriptor, lines):
    """Reads a pipe or a terminal to its end."""
    text = b""
    while True:
        try:
            more = os.read(descriptor, 65536)
        except OSError:
            more = b""
        if not more:
            break
        text += more
    lines += text.decode().splitlines()


def reader_of(descriptor):
    lines = []
    thread = threading.Thread(target=read_all, args=(descriptor, lines))
    thread.start()
    return thread, lines


def full_pipe():
    """A pipe into which nothing can be written, and that nobody reads."""
    reads, writes = os.pipe()
    os.set_blocking(writes, False)
    try:
        while True:
            os.write(writes, bytes(4096))
    except BlockingIOError:
        pass
    os.set_blocking(writes, True)
    return reads, writes


def read():
    """A reader that reads: nothing is lost. (As many stations as where nobody reads, so that their times compare.)"""
    reads, writes = os.pipe()
    run = Run("a pipe that is read", writes, "--log-stations")
    os.close(writes)
    thread, lines = reader_of(reads)
    run.wait_until_it_serves()
    run.come_and_go(range(1000))
    run.end()
    thread.join()
    if run.wants(lines) != 0:
        die("a pipe that is read: lines were lost")


def full():
    """Nobody reads, without the option."""
    reads, writes = full_pipe()
    run = Run("a full pipe", writes)
    run.wait_until_it_serves()
    run.come_and_go(range(500))
    run.end()
    os.close(reads)
    os.close(writes)


def fault():
    """A fault has its status where nobody reads it."""
    reads, writes = full_pipe()
    run = Run("a fault, and a full pipe", writes, store="nothing")
    run.end(1)
    os.close(reads)
    os.close(writes)


def late():
    """Nobody reads until the stations are gone. Then the oldest lines are there, how many were lost, and what comes."""
    reads, writes = os.pipe()
    run = Run("a pipe that is read late", writes, "--log-stations")
    os.close(writes)
    run.wait_until_it_serves()
    run.come_and_go(range(3000))
    thread, lines = reader_of(reads)
    time.sleep(1)
    run.come_and_go(range(3000, 3100))
    run.end()
    thread.join()
    if run.wants(lines) == 0:
        die("a pipe that is read late: nothing was lost")


def stamped():
    """The same with times, and the reader comes at the end."""
    reads, writes = os.pipe()
    run = Run("times, and a pipe that is read late", writes, "--log-stations", "--log-time")
    os.close(writes)
    run.wait_until_it_serves()
    run.come_and_go(range(1500))
    thread, lines = reader_of(reads)
    run.end()
    thread.join()
    if run.wants(lines, stamped=True) == 0:
        die("times, and a pipe that is read late: nothing was lost")


def never():
    """Nobody reads until it has ended. Then the oldest lines are there."""
    reads, writes = os.pipe()
    run = Run("a pipe that nobody reads", writes, "--log-stations")
    os.close(writes)
    run.wait_until_it_serves()
    run.come_and_go(range(1000))
    run.end()
    thread, lines = reader_of(reads)
    thread.join()
    run.wants(lines, whole=False)


def terminal():
    """A terminal that nobody reads."""
    ours, theirs = os.openpty()
    run = Run("a terminal that nobody reads", theirs, "--log-stations")
    run.wait_until_it_serves()
    run.come_and_go(range(700))
    run.end()
    os.close(theirs)
    os.close(ours)


def stopped():
    """A terminal that is stopped by control-S, and goes on by control-Q."""
    ours, theirs = os.openpty()
    os.write(ours, b"\x13")
    run = Run("control-S", theirs, "--log-stations")
    run.wait_until_it_serves()
    run.come_and_go(range(100))
    os.write(ours, b"\x11")
    thread, lines = reader_of(ours)
    run.end()
    os.close(theirs)
    thread.join()
    if run.wants(lines) != 0:
        die("control-S: lines were lost")


PARTS = [read, full, fault, late, stamped, never, terminal, stopped]
for part in PARTS:
    if len(sys.argv) == 3 or part.__name__ in sys.argv[3:]:
        part()
END
