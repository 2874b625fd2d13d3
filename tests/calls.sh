#!/bin/sh
# Traces the system's calls by which files and sockets are had, made durable and given up: of format, format --missing,
# run (with a recording, with drivers), check and upgrade. What it compares with tests/calls.txt, line by line, are the
# names, flags, addresses and advice; that writes stand before their sync; and which calls are refused. A run of one call
# is folded, and which thread called isn't compared. Then it serves eight interfaces, has each port answer twice, and
# looks how often each thread wakes where nothing comes any more.
# Use: tests/calls.sh, from anywhere. APD names the program. It ends with status 1 where a call is another one, or a
# thread wakes too often; with the word `write` it writes tests/calls.txt anew instead.
here=$(dirname "$(readlink -f "$0")")
. "$here/testing"
needs python3 strace
strace -o /dev/null true || {
    echo "calls.sh: strace may not trace here" >&2
    exit 1
}
port=$("$here/free-ports" 20)
printf 'interface=wlan0\nbssid=02:00:00:00:00:01\nssid=net\naccept_mac_file=accept\n' >conf
printf '02:00:00:00:00:aa\n' >accept

python3 - "$program" "$port" "$here/calls.txt" "${1-}" <<'END'
import difflib
import pathlib
import re
import socket
import subprocess
import sys
import time

program, port, stored, write = sys.argv[1], int(sys.argv[2]), pathlib.Path(sys.argv[3]), sys.argv[4] == "write"
here = str(pathlib.Path.cwd())
CALLS = ("openat,open,creat,socket,bind,connect,setsockopt,fadvise64,fsync,fdatasync,sync_file_range,flock,fcntl,rename,"
         "renameat,renameat2,link,linkat,symlink,unlink,unlinkat,ftruncate,truncate,fallocate,chmod,fchmod,write,pwrite64")
# How often a thread may wake in two seconds in which nothing comes: those that look about once a second do.
LIMIT = 60
# What has no name in this folder, and standard streams.
ELSEWHERE = re.compile(r'"/|</|<(pipe|anon_inode|UNIX)|\([012](<|[,)])|F_GETFL|\+\+\+|---')


def whole(lines):
    """The calls, each where it began: one in the midst of which another thread called has two lines."""
    calls, begun = [], {}
    for line in lines:
        thread, text = line.split(maxsplit=1)
        if text.endswith(" <unfinished ...>"):
            begun[thread] = len(calls)
            calls.append(text.removesuffix(" <unfinished ...>"))
        elif "resumed>" in text and text.startswith("<..."):
            calls[begun.pop(thread)] += text.split("resumed>", 1)[1]
        else:
            calls.append(text)
    return calls


def local(line):
    """A call with the names of this folder as they are from here."""
    line = re.sub(r" ?\(deleted\)", "", line).replace(f"<{here}>", "<.>").replace(f"{here}/", "")
    return re.sub(r"AT_FDCWD(<\.>)?, ", "", line)


def named(line):
    """A call without numbers that differ from run to run."""
    line = re.sub(r"\b\d+<([^<>]*)>", r"\1", line)
    for above in range(4):
        line = line.replace(f"htons({port + above})", f"port {above} above")
    line = re.sub(r"socket:\[\d+\]", "socket", line)
    # (of a write: how long it is, and where)
    line = re.sub(r'^(write|pwrite64)\((.*?), ".*"(?:\.\.\.)?, (\d+(?:, \d+)?)\)', r"\1(\2, \3)", line)
    # (what it answered, but for an error)
    line = re.sub(r"\) += (?!-1)[^=]*$", ")", line)
    return re.sub(r"\) += (-1 \w+).*$", r") = \1", line)


def fold(lines):
    found = []
    for line in lines:
        if found and found[-1][0] == line:
            found[-1][1] += 1
        else:
            found.append([line, 1])
    return [f"  {line}{' ..' if count > 1 else ''}" for line, count in found]


def trace(*words, talk=None):
    """The calls of apd with these words; a function talks to one that runs."""
    command = ["strace", "-f", "-qq", "-y", "-s", "8", "-o", "trace", "-e", f"trace={CALLS}"]
    run = begin(*command, program, *words, serves=talk)
    if talk:
        talk()
    status = end(run)
    what = f"apd {' '.join(words).replace(str(port + 10), 'PORT+10').replace(str(port), 'PORT')}: status {status}"
    lines = [local(line) for line in whole(pathlib.Path("trace").read_text().splitlines())]
    return [what, *fold([named(line) for line in lines if not ELSEWHERE.search(line)])]


def begin(*words, serves=True):
    """A process of these words; one that serves does so then."""
    with open("log", "w") as log:
        run = subprocess.Popen(words, stdin=subprocess.PIPE, stdout=log, stderr=log)
    for _ in range(1200 if serves else 0):
        said = pathlib.Path("log").read_text()
        if "] serves commands" in said:
            return run
        if run.poll() is not None:
            sys.exit(f"calls.sh: {' '.join(words)}: {said}")
        time.sleep(0.05)
    return run


def end(run):
    run.stdin.close()
    return run.wait(60)


def ask(data, above):
    """Sends a port this, and waits for the answer."""
    with socket.socket(socket.AF_INET, socket.SOCK_DGRAM) as it:
        it.settimeout(30)
        it.sendto(data, ("127.0.0.1", port + above))
        it.recv(65536)


def authenticate(last=1):
    """Has a station authenticated by the radio whose BSSID ends so."""
    bssid = f"0200000000{last:02x}"
    ask(bytes.fromhex(f"b0000000 {bssid} 0200000000aa {bssid} 0000 000001000000"), last)


def wakes(process):
    """How often each thread of a process woke so far."""
    found = {}
    for status in pathlib.Path(f"/proc/{process}/task").glob("*/status"):
        found[status.parent.name] = int(re.search(r"(?m)^voluntary_ctxt_switches:\s*(\d+)", status.read_text())[1])
    return found


def rest():
    """How often the threads wake that serve eight interfaces, where nothing comes: the greatest number, in a time in
    which one that pauses a millisecond again and again wakes a thousand times and more."""
    names = [f"conf{last}" for last in range(1, 9)]
    for last, name in enumerate(names, 1):
        pathlib.Path(name).write_text(f"interface=wlan{last}\nbssid=02:00:00:00:00:0{last}\nssid=net\n")
    run = begin(program, "run", "--end-at-fault", "--store", "upgraded", "--port", str(port), *names)
    for _ in range(2):
        for last in range(1, 9):
            authenticate(last)
        ask(b"PING", 0)
        time.sleep(0.5)
    before = wakes(run.pid)
    time.sleep(2)
    after = wakes(run.pid)
    end(run)
    return max(after[thread] - before.get(thread, 0) for thread in after)


found = trace("format", "new") + trace("format", "--missing", "other") + trace("format", "--missing", "other")
found += trace("run", "--store", "new", "--port", str(port), "--record", "recording", "conf", talk=authenticate)
found += trace("run", "--store", "new", "--port", str(port), "--drivers", str(port + 10), "conf", talk=lambda: None)
found += trace("check", "new")
old = bytearray(pathlib.Path("other").read_bytes())
old[:8] = b"RAPSTOR1"
pathlib.Path("old").write_bytes(old)
found += trace("upgrade", "old", "upgraded")
if write:
    stored.write_text("\n".join(found) + "\n")
    sys.exit()
wanted = stored.read_text().splitlines()
if found != wanted:
    print("\n".join(difflib.unified_diff(wanted, found, "calls.txt", "what is called", lineterm="", n=1)))
    sys.exit(1)
print(f"{len(found)} calls as they are stored")
count = rest()
if count > LIMIT:
    sys.exit(f"calls.sh: a thread woke {count} times in two seconds in which nothing came")
print(f"at rest a thread wakes {count} times in two seconds at most")
END
