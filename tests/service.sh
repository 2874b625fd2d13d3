#!/bin/sh
# Ends apd-service a hundred times at random moments, many of them in its first 20 milliseconds: by one signal, by two
# at once, and by signals to all of its processes. Where the program began, the status must be the program's; else 128
# and the signal's number. No process and no file may be left. Then it is given a log that nobody reads, and one of many
# lines; it tells systemd when it serves, and which faults may be over by themselves; and it serves by the program itself,
# of which systemd is told once each thread is there, and not where one can't be had.
# Use: tests/service.sh, from anywhere. APD names the program, SERVICE another apd-service; SEED, a number, the
# moments. It ends with status 1 at the first run that shows anything else.
here=$(dirname "$(readlink -f "$0")")
. "$here/testing"
needs python3 strace
port=$("$here/free-ports" 2)
printf 'interface=wlan0\nbssid=02:00:00:00:00:01\nssid=net\n' >conf
"$program" format store >/dev/null
# A program that notes that it began, and ends with its input, with a status of its own.
cat >stub <<'END'
#!/bin/sh
: >began
while read -r line; do :; done
exit 7
END
# One that says it serves, writes so many lines, notes that it did, and ends with its input, with a fault, and status 1.
cat >talker <<'END'
#!/usr/bin/env python3
import os, pathlib, sys

print("[INFO  apd] serves commands on port 7000, wlan0 on port 7001; stations recovered: 0", file=sys.stderr, flush=True)
for number in range(int(os.environ["LINES"])):
    print(f"[INFO  apd] line {number} of many", file=sys.stderr)
pathlib.Path("wrote").touch()
sys.stdin.read()
print(os.environ["FAULT"], file=sys.stderr)
sys.exit(1)
END
# The program, where its last thread can't be had.
cat >threadless <<'END'
#!/bin/sh
exec strace -f -qq -o /dev/null -e inject=clone3,clone:error=EAGAIN:when=6 "$PROGRAM" "$@"
END
mkdir bin
cat >bin/systemd-notify <<'END'
#!/bin/sh
echo "$NOTIFY_SOCKET $*" >>told
END
chmod +x stub talker threadless bin/systemd-notify

python3 - "${SERVICE:-$here/../tools/apd-service}" "$program" "$port" "${SEED:-$$}" <<'END'
import os
import pathlib
import random
import signal
import subprocess
import sys
import time

service, program, port, seed = sys.argv[1:]
random.seed(int(seed))
here = os.getcwd()
began, files, log = pathlib.Path("began"), pathlib.Path("files"), pathlib.Path("log")
files.mkdir()
SIGNALS = [signal.SIGTERM, signal.SIGINT, signal.SIGHUP]
# What is ignored as this begins, as in a shell's background, would be ignored by the service.
for each in SIGNALS:
    signal.signal(each, signal.SIG_DFL)


def begin(program, *words, **how):
    env = {**os.environ, "APD": program, "TMPDIR": f"{here}/{files}"}
    with open(log, "w") as it:
        how = {"stdin": subprocess.DEVNULL, "stdout": it, "stderr": it, "start_new_session": True} | how
        return subprocess.Popen([service, *words], env=env, **how)


def left():
    """What is left: the files in its folder, and the processes that were begun with this folder's name."""
    found = [str(it) for it in files.iterdir()]
    for it in pathlib.Path("/proc").glob("[0-9]*/cmdline"):
        try:
            words = it.read_bytes().decode(errors="replace").split("\0")
        except OSError:
            continue
        if it.parent.name != str(os.getpid()) and any(here in word for word in words):
            found.append(f"process {it.parent.name}: {' '.join(words)}")
    return found


def end(run, what):
    try:
        return run.wait(240)
    except subprocess.TimeoutExpired:
        fail(run, f"{what}: it does not end")


def fail(run, why):
    print(f"seed {seed}: {why}; left: {left()}; said: {log.read_text()!r}")
    for it in left():
        if it.startswith("process "):
            os.kill(int(it.split()[1].rstrip(":")), signal.SIGKILL)
    sys.exit(1)


counts = {True: 0, False: 0}
for number in range(100):
    began.unlink(missing_ok=True)
    delay = random.uniform(0, (0.0005, 0.02, 0.02, 0.3)[number % 4])
    sent = random.sample(SIGNALS, random.choice([1, 1, 2]))
    to_all = random.random() < 0.3
    what = f"run {number}, {delay * 1000:.1f} ms, {[it.name for it in sent]}{' to all' if to_all else ''}"
    run = begin(f"{here}/stub", here)
    time.sleep(delay)
    for each in sent:
        os.killpg(run.pid, each) if to_all else run.send_signal(each)
    status = end(run, what)
    # (Python tells the end by a signal as a number below 0)
    wanted = [7] if began.exists() else [it for each in sent for it in (128 + each, -each)]
    if status not in wanted or left():
        fail(run, f"{what}: status {status}, wanted {wanted}")
    counts[began.exists()] += 1
print(f"100 runs: the program had begun in {counts[True]}, not yet in {counts[False]}")
if not all(counts.values()):
    fail(None, "no signal met the wrapper before the program began, or none behind it")

def await_file(file, run):
    for _ in range(1200):
        if file.exists():
            return
        time.sleep(0.05)
    fail(run, f"there is no file {file} in a minute")


def talk(lines, fault, **how):
    """Runs the program that talks, to its fault. (Its log goes where `begin` says, unless that is said here.)"""
    wrote.unlink(missing_ok=True)
    os.environ.update(LINES=str(lines), FAULT=fault)
    run = begin(f"{here}/talker", "run", here, **how)
    await_file(wrote, run)
    run.send_signal(signal.SIGTERM)
    return end(run, f"{lines} lines and {fault!r}")


# A log that nobody reads, and one that comes whole.
wrote, told = pathlib.Path("wrote"), pathlib.Path("told")
behind, stuck = os.pipe()
status = talk(50000, "apd: no thread", stderr=stuck)
if status != 75 or left():
    fail(None, f"a log that nobody reads: status {status}")
os.close(behind)
if told.exists():
    fail(None, "it told a systemd that isn't there")
os.environ.update(NOTIFY_SOCKET="somewhere", PATH=f"{here}/bin:{os.environ['PATH']}")
status = talk(2000, "apd: device fault")
lines = log.read_text().splitlines()
if status != 1 or lines[1:] != [*(f"[INFO  apd] line {it} of many" for it in range(2000)), "apd: device fault"]:
    fail(None, f"a log of many lines: status {status}, {len(lines)} lines")
if told.read_text() != "somewhere --ready\n":
    fail(None, f"it told systemd {told.read_text()}")
del os.environ["NOTIFY_SOCKET"]
print("a log that nobody reads stops nothing, and a log of 2,000 lines comes whole")
for fault, wanted in [
    ("apd: no socket\napd: port 7001: for wlan0: in use by another socket (ss -ulnp)", 75),
    ("apd: out of memory", 75),
    ("apd: cannot read my.store\napd: my.store: in use by process 1234 (apd)", 75),
    ("apd: cannot read my.store\napd: my.store: in use by another process a moment ago", 75),
    ("apd: cannot read my.store\napd: my.store: not there", 1),
    ("apd: line 3: unknown name\napd: my.conf: line 3: no socket\napd: no socket", 1),
    ("apd: not a store", 1),
]:
    status = talk(0, fault)
    if status != wanted or left():
        fail(None, f"{fault!r}: status {status}, wanted {wanted}")

for number, sent in enumerate([*SIGNALS, signal.SIGTERM]):
    run = begin(program, "run", "--store", f"{here}/store", "--port", port, f"{here}/conf")
    for _ in range(1200):
        if "serves commands" in log.read_text():
            break
        time.sleep(0.05)
    else:
        fail(run, "it serves nothing")
    if number == 0:
        # Beside it another one finds the store in use, and its ports.
        subprocess.run([program, "format", "other"], check=True, stdout=subprocess.DEVNULL)
        for store in "store", "other":
            with open("log.2", "w") as it:
                words = [service, "run", "--store", store, "--port", port, "conf"]
                second = subprocess.run(words, env={**os.environ, "APD": program}, stdin=subprocess.DEVNULL, stderr=it)
            if second.returncode != 75:
                fail(run, f"a start beside it: status {second.returncode}: {pathlib.Path('log.2').read_text()}")
    os.killpg(run.pid, sent) if number == 3 else run.send_signal(sent)
    status = end(run, sent.name)
    if status != 0 or left() or "entries" not in log.read_text():
        fail(run, f"{sent.name} to the program: status {status}")
    print(f"served until {sent.name}: status 0")

# Systemd is told of the program itself: where the last thread can't be had, nothing.
told.unlink()
os.environ.update(NOTIFY_SOCKET="somewhere", PROGRAM=program)
words = ["run", "--store", f"{here}/store", "--port", port, f"{here}/conf"]
status = end(begin(f"{here}/threadless", *words), "no thread")
if status != 75 or left() or told.exists():
    fail(None, f"no thread: status {status}, systemd told: {told.exists()}")
run = begin(program, *words)
await_file(told, run)
run.send_signal(signal.SIGTERM)
status = end(run, "systemd")
if status != 0 or left() or told.read_text() != "somewhere --ready\n":
    fail(run, f"systemd: status {status}, told {told.read_text()}")
del os.environ["NOTIFY_SOCKET"]
print("systemd is told once each thread is there, and nothing where one can't be had")
for words, wanted in (["check", "missing"], 1), (["run", "--port"], 2):
    status = end(begin(program, *words), " ".join(words))
    if status != wanted or left():
        fail(None, f"{' '.join(words)}: status {status}")
END
