#!/usr/bin/env python3
"""Runs the scripts of examples/ and the cases of apd_sessions, has tshark read each frame that was accepted or sent,
and looks whether each that was sent is the one that the tables of docs/FORMATS.md have for what came before.

usage: dissector.py PROGRAM STORE    in an empty folder; STORE is a new store

No byte of a frame is looked at here. What is wanted follows from the request as tshark reads it, from the
configuration, and from what the script prints: which stations are installed, and under which identifiers. (The two top
bits of an AID, which are set, tshark doesn't tell.)
"""
import concurrent.futures
import os
import pathlib
import re
import shutil
import subprocess
import sys

TOP = pathlib.Path(__file__).resolve().parent.parent
ALL = "ff:ff:ff:ff:ff:ff"
ASSOCIATION, REASSOCIATION, PROBE, DISASSOCIATION, AUTHENTICATION, DEAUTHENTICATION = 0, 2, 4, 10, 11, 12
RESPONSE = 1  # is added to a request's kind
RATES = {"b": ["1(B)", "2(B)", "5.5(B)", "11(B)"], "a": ["6(B)", "12(B)", "24(B)"]}
RATES["g"] = RATES["b"]
BUILT_IN = "interface=wlan0\nbssid=02:00:00:00:00:01\nssid=net\nhw_mode=g\nchannel=6\n"
DEFAULTS = """hw_mode=b\nchannel=0\nbeacon_int=100\nauth_algs=3\nmax_num_sta=2007\nmax_listen_interval=65535
macaddr_acl=0\naccept_mac_file=/dev/null\ndeny_mac_file=/dev/null\n"""

# What tshark tells of a frame, in its words; a value is a list, since an element may be there twice.
FIELDS = {
    "kind": "wlan.fc.type_subtype",
    "to": "wlan.ra",
    "sender": "wlan.ta",
    "bssid": "wlan.bssid",
    "flags": "wlan.flags",
    "duration": "wlan.duration",
    "sequence": "wlan.seq",
    "fragment": "wlan.frag",
    "algorithm": "wlan.fixed.auth.alg",
    "transaction": "wlan.fixed.auth_seq",
    "status": "wlan.fixed.status_code",
    "reason": "wlan.fixed.reason_code",
    "listen": "wlan.fixed.listen_ival",
    "aid": "wlan.fixed.aid",
    "capability": "wlan.fixed.capabilities",
    "interval": "wlan.fixed.beacon",
    "timestamp": "wlan.fixed.timestamp",
    "elements": "wlan.tag.number",
    "ssid": "wlan.ssid",
    "rates": "wlan.supported_rates",
    "channel": "wlan.ds.current_channel",
    "remarks": "_ws.expert.message",
}


def value_of(field, text):
    if field in ("to", "sender", "bssid", "remarks"):
        return text
    if field == "ssid":
        return b"" if text == "<MISSING>" else bytes.fromhex(text)
    number = int(text, 0)
    return f"{(number & 127) / 2:g}" + "(B)" * (number >> 7) if field == "rates" else number


def dissect(frames):
    """What tshark tells of each frame, a line of a recording."""
    pathlib.Path("recording").write_text("".join(f"{it}\n" for it in frames))
    subprocess.run([TOP / "tools/recording-to-pcap", "recording", "capture"], check=True)
    words = ["-n", "-r", "capture", "-T", "fields", "-E", "separator=|", "-E", "aggregator=;"]
    for it in FIELDS.values():
        words += ["-e", it]
    run = subprocess.run(["tshark", *words], env=os.environ | {"HOME": os.getcwd()}, capture_output=True, text=True)
    lines = run.stdout.splitlines()
    if run.returncode or len(lines) != len(frames):
        sys.exit(f"tshark: status {run.returncode}, {len(lines)} of {len(frames)} frames\n{run.stderr}")
    split = [dict(zip(FIELDS, it.split("|"))) for it in lines]
    return [{field: [value_of(field, it) for it in told[field].split(";") if it] for field in FIELDS} for told in split]


class Wrong(Exception):
    """Something else was printed or sent than the tables have."""


class Radio:
    """An interface: its settings, its lists, its stations, each with 0 or an identifier, and what it was handed."""

    def __init__(self, folder, conf):
        lines = [it for it in (DEFAULTS + conf).splitlines() if it and it[0] != "#"]
        self.settings = dict(it.split("=", 1) for it in lines)
        self.lists = {it: self.read_list(folder, f"{it[:-4].lower()}_mac_file") for it in ("ACCEPT_ACL", "DENY_ACL")}
        self.rows, self.handed = {}, []

    def read_list(self, folder, name):
        found = set()
        for line in (folder / self.settings[name]).read_text().splitlines():
            word = (line.split() or ["#"])[0].lower()
            if word[0] == "-":
                found.discard(word[1:])
            elif word[0] != "#":
                found.add(word)
        return found

    def number(self, name):
        return int(self.settings[name])

    def denies(self, address):
        is_allowed = self.number("macaddr_acl") == 0 and address not in self.lists["DENY_ACL"]
        return not is_allowed and address not in self.lists["ACCEPT_ACL"]


class Network:
    """The radios of a script, and the tables."""

    def __init__(self, folder, confs):
        self.radios = {it.settings["interface"]: it for it in (Radio(folder, conf) for conf in confs)}
        self.is_handed = True

    def take(self, radio, word):
        """Takes what was handed to a radio next, which has to begin so, and gives what stands behind."""
        if not radio.handed or not radio.handed[0][0].startswith(word):
            raise Wrong(f"{word} is wanted, and {radio.handed[:1]} handed out")
        line, fields = radio.handed.pop(0)
        return fields if fields else line[len(word) :]

    def want(self, radio, kind, to, **body):
        """The next thing that the radio was handed is this frame."""
        if not self.is_handed:
            return
        found = self.take(radio, "tx ")
        bssid = radio.settings["bssid"]
        header = {"kind": kind, "to": to, "sender": bssid, "bssid": bssid}
        zeros = {"flags": 0, "duration": 0, "sequence": 0, "fragment": 0}
        for field in FIELDS:
            wanted = (header | zeros | body).get(field, [])
            wanted = wanted if isinstance(wanted, list) else [wanted]
            if found[field] != wanted:
                raise Wrong(f"frame {kind} to {to}: {field}: tshark reads {found[field]}, and wanted is {wanted}")

    def install(self, radio, address):
        """The identifier that is printed becomes the station's. (No script associates one that it doesn't print.)"""
        aid = int(self.take(radio, f"install {address} "))
        if not 1 <= aid <= 2007 or aid in radio.rows.values():
            raise Wrong(f"{address} is given the identifier {aid}")
        radio.rows[address] = aid

    def uninstall(self, radio, address):
        if radio.rows.get(address, 0) != 0 and self.is_handed:
            self.take(radio, f"remove {address}")

    def put_back(self, radio, address):
        """The station is only authenticated from now on."""
        self.uninstall(radio, address)
        radio.rows[address] = 0

    def forget(self, radio, address):
        self.uninstall(radio, address)
        radio.rows.pop(address, None)

    def receive(self, radio, frame):
        kind, sender = frame["kind"][0], frame["sender"][0]
        state = radio.rows.get(sender, "none")
        if kind == PROBE:
            self.answer_probe(radio, sender)
        elif kind == AUTHENTICATION:
            self.answer_authentication(radio, sender, frame)
        elif kind == DEAUTHENTICATION:
            self.forget(radio, sender)
        elif state == "none":
            self.want(radio, DEAUTHENTICATION, sender, reason=6 if kind < 16 else 7)
        elif kind in (ASSOCIATION, REASSOCIATION):
            self.answer_association(radio, sender, frame, kind + RESPONSE)
        elif kind == DISASSOCIATION:
            self.put_back(radio, sender)
        elif state == 0:
            self.want(radio, DISASSOCIATION, sender, reason=7)

    def answer_probe(self, radio, sender):
        mode = radio.settings["hw_mode"]
        channel = [] if mode == "a" else [radio.number("channel")]
        told = {"ssid": radio.settings["ssid"].encode(), "rates": RATES[mode], "channel": channel, "timestamp": 0}
        elements = [0, 1, 3] if channel else [0, 1]
        interval = radio.number("beacon_int")
        self.want(radio, PROBE + RESPONSE, sender, interval=interval, capability=1, elements=elements, **told)

    def answer_authentication(self, radio, sender, frame):
        algorithm, transaction = frame["algorithm"][0], frame["transaction"][0]
        status = 0
        if algorithm != 0 or not radio.number("auth_algs") & 1:
            status = 13
        elif transaction != 1:
            status = 14
        elif radio.denies(sender):
            status = 1
        elif sender not in radio.rows and len(radio.rows) >= radio.number("max_num_sta"):
            status = 17
        else:
            radio.rows.setdefault(sender, 0)
        follows = {"algorithm": algorithm, "transaction": (transaction + 1) % 65536}
        self.want(radio, AUTHENTICATION, sender, status=status, **follows)

    def answer_association(self, radio, sender, frame, kind):
        mode, status = radio.settings["hw_mode"], 0
        is_cut = any(it.startswith("Malformed") for it in frame["remarks"])
        if is_cut or frame["ssid"][:1] != [radio.settings["ssid"].encode()] or 1 not in frame["elements"]:
            status = 1
        elif frame["listen"][0] > radio.number("max_listen_interval"):
            status = 51
        else:
            for other in self.radios.values():
                if other is not radio and other.rows.get(sender, 0) != 0:
                    self.put_back(other, sender)
                    self.want(other, DISASSOCIATION, sender, reason=1)
            if radio.rows[sender] == 0:
                self.install(radio, sender)
        aid = 0 if status else radio.rows[sender]
        self.want(radio, kind, sender, status=status, aid=aid, capability=1, elements=1, rates=RATES[mode])

    def order(self, text):
        """What an operator orders: a list is edited, or a station, or each, is sent away."""
        name, text = re.fullmatch(r"(?:IFNAME=(\S+) )?(.*)", text).groups()
        radio = self.radios[name] if name else next(iter(self.radios.values()))
        word, *words = text.split()
        if word in radio.lists:
            return self.edit(radio, radio.lists[word], words[0], words[1].lower() if words[1:] else None)
        address, is_last = words[0].lower(), word == "DEAUTHENTICATE"
        reason = int(words[1].removeprefix("reason=")) if words[1:] else 2
        for it in sorted(radio.rows) if address == ALL else [address]:
            if is_last or address == ALL:
                self.forget(radio, it)
            elif it in radio.rows:
                self.put_back(radio, it)
        self.want(radio, DEAUTHENTICATION if is_last else DISASSOCIATION, address, reason=reason)

    def edit(self, radio, addresses, word, address):
        if word == "ADD_MAC" and len(addresses) < 1024:
            addresses.add(address)
        elif word == "DEL_MAC":
            addresses.discard(address)
        elif word == "CLEAR":
            addresses.clear()
        for it in sorted(radio.rows):
            if radio.denies(it):
                self.forget(radio, it)
                self.want(radio, DEAUTHENTICATION, it, reason=1)

    def fall_silent(self):
        """One station was silent: what is handed out tells which."""
        for radio in self.radios.values():
            for address, state in radio.rows.items():
                line, fields = radio.handed[0] if radio.handed else ("", {})
                if state != 0 and line == f"remove {address}":
                    self.put_back(radio, address)
                    return self.want(radio, DISASSOCIATION, address, reason=4)
                if state == 0 and fields and fields["to"] == [address]:
                    self.forget(radio, address)
                    return self.want(radio, DEAUTHENTICATION, address, reason=2)
        raise Wrong("a tick was accepted, and no silent station is told of")


class Script:
    """A script with its configurations, and what it printed, a list of lines for each of its own."""

    def __init__(self, title, folder, files, lines):
        self.title, self.folder, self.files, self.lines = title, folder, files, lines
        self.ends_well = True
        self.printed = []

    def run(self, program, store):
        copy = f"{os.getcwd()}/copy-{id(self)}"
        shutil.copy(store, copy)
        words = [program, "script", "--store", copy, *self.files]
        text = "".join(f"{it}\n" for it in self.lines)
        run = subprocess.run(words, cwd=self.folder, input=text, capture_output=True, text=True)
        os.remove(copy)
        if run.returncode != (0 if self.ends_well else 1):
            sys.exit(f"{self.title}: status {run.returncode}: {run.stderr}")
        left = run.stdout.splitlines()
        for number, line in enumerate(self.lines, 1):
            word = line.split()[0] if line.strip() else ""
            count = 1 if left and word in ("rx", "tick", "cmd", "stop") else 0
            if word in ("flush", "hand", "stop"):
                count += len(self.handed(left[count:], number))
            self.printed.append(left[:count])
            left = left[count:]
        if left:
            sys.exit(f"{self.title}: printed without a line: {left}")

    def handed(self, lines, number):
        """The lines, from the first on, that hand out something: a reply has the number of an earlier line."""
        for at, line in enumerate(lines):
            word, _, rest = line.partition(" ")
            is_reply = word == "ctrl" and int(rest.split(" ")[0]) < number
            if not is_reply and rest.split(" ")[0] not in ("install", "remove", "tx"):
                return lines[:at]
        return lines

    def frames(self):
        """Each frame that was accepted or sent, a line of a recording."""
        for line, printed in zip(self.lines, self.printed):
            if line.startswith("rx ") and printed[0].startswith("entry"):
                yield "rx " + "".join(line.split()[2:])
            for it in printed:
                if " tx " in it:
                    yield it.split(" ", 1)[1]

    def judge(self, told):
        """Looks whether each frame is the wanted one; `told` is what tshark tells of the next frame."""
        confs = [(self.folder / it).read_text() for it in self.files] or [BUILT_IN]
        network = Network(self.folder, confs)
        sent = []
        waiting, batch, settled, calls = [], [], [], 0
        for line, printed in zip(self.lines, self.printed):
            word, _, rest = line.partition(" ")
            if printed and printed[0].startswith("entry"):
                waiting.append((word, rest, next(told) if word == "rx" else None))
            elif word == "take" and not batch:
                waiting, batch, calls = [], waiting, 0
            elif word == "call":
                calls += 1
            elif word == "publish" and calls >= 4:
                batch, settled = [], settled + batch
            elif word == "stop":
                # (the third call opens the gate of a batch)
                self.look(network, settled + (batch if calls >= 3 else []), printed)
                waiting, batch, settled, calls = [], [], [], 0
            elif word in ("hand", "flush"):
                sent += self.take_printed(network, printed, told)
                if word == "flush":
                    waiting, batch, settled = [], [], settled + batch + waiting
                self.look(network, settled)
                settled = []
        for what, number in re.findall(r"\b(status|reason) (\d+)", self.title):
            if not any(it[what] == [int(number)] for it in sent):
                raise Wrong(f"no frame has the {what} {number} of the title")
        return len(sent)

    def take_printed(self, network, printed, told):
        """Gives the radios what they were handed, and tells what was sent of it."""
        sent = []
        for line in printed:
            name, _, what = line.partition(" ")
            if name in network.radios:
                fields = next(told) if what.startswith("tx ") else None
                network.radios[name].handed.append((what, fields))
                sent += [fields] if fields else []
        return sent

    def look(self, network, entries, stopped=None):
        """Looks what entries caused; what they caused before a stop was not handed out."""
        network.is_handed = not stopped
        for word, rest, frame in entries:
            if word == "rx":
                network.receive(network.radios[rest.split()[0]], frame)
            elif word == "cmd":
                network.order(rest)
            else:
                network.fall_silent()
        rows = sum(len(it.rows) for it in network.radios.values())
        if stopped and stopped != [f"recovered {rows}"]:
            raise Wrong(f"{stopped}, where {rows} are wanted")
        for radio in network.radios.values():
            if radio.handed:
                raise Wrong(f"handed out without a cause: {radio.handed[0]}")


def read_cases(path):
    """The cases of a file; crates/apd_sessions/src/case.rt has the form."""
    scripts = []
    for line in path.read_text().splitlines():
        if line.startswith("= "):
            scripts.append(Script(line[2:], path.parent.parent, [], []))
        elif line.startswith(": "):
            scripts[-1].files += line[2:].split()
        elif line.startswith(">"):
            scripts[-1].lines.append(line[1:].removeprefix(" "))
        elif line.startswith("! "):
            scripts[-1].ends_well = False
    return scripts


def read_all():
    scripts = []
    for path in sorted((TOP / "examples").glob("**/*.script")):
        own = sorted(path.parent.glob("*.conf")) if path.parent.name != "examples" else []
        own = own or [it for it in [path.with_suffix(".conf")] if it.exists()]
        files = [str(it.relative_to(TOP)) for it in own]
        scripts.append(Script(str(path.relative_to(TOP)), TOP, files, path.read_text().splitlines()))
    for path in sorted((TOP / "crates/apd_sessions/data/cases").iterdir()):
        scripts += read_cases(path) if re.search(r"(?m)^= ", path.read_text()) else []
    return scripts


def main(program, store):
    scripts = read_all()
    with concurrent.futures.ThreadPoolExecutor(os.cpu_count()) as threads:
        list(threads.map(lambda it: it.run(program, store), scripts))
    told = iter(dissect([frame for it in scripts for frame in it.frames()]))
    count, failed = 0, 0
    for it in scripts:
        own = iter([next(told) for _ in it.frames()])
        try:
            count += it.judge(own)
        except Wrong as why:
            print(f"{it.title}: {why}")
            failed += 1
    if failed:
        sys.exit(f"{failed} of {len(scripts)} scripts send another frame than the tables have")
    print(f"{count} frames of {len(scripts)} scripts: tshark reads in each what the tables have")


main(*sys.argv[1:])
