#!/usr/bin/env python3
"""Prints what must be read to believe a definition: itself and all that it names, and so on.

usage: .ci/closure.py CRATE MODULE.NAME ..    as in: .ci/closure.py apd_world History.Keeps History.IsHistory
       --beside MODULE.NAME  (may come again) leaves out that definition and what it alone names
       --modules             prints the modules alone

Of each definition in a crate's specs/ it prints the module, the name and the lines (comments above it are not counted),
and last the sum. Types and constants of the code stand below, by their names and the lines of their declaration. What
the standard library defines is not followed.
"""
import pathlib
import re
import sys

TOP = pathlib.Path(__file__).resolve().parent.parent / "crates"
WORD = r"[^\s(){},;:.λ\[\]→×⊎¬≡≤<≢↔+*∷|@]+"
HEAD = re.compile(r"^( *)(?:(?:pub|abbrev|unfoldable|opaque) )*(?:(?:record|data) )?([^\s(){}:]+)(?=[ \n]|$)")
DECLARES = re.compile(r"^ *(?:(?:pub|abbrev|unfoldable|opaque) )+(?:(?:record|data) )?([^\s(){}:]+)|^ *(?:record|data) ([^\s(){}:]+)")


class Module:
    def __init__(self, path=None):
        self.names, self.passed, self.aliases, self.code = {}, {}, {}, {}
        lines = path.read_text().split("\n") if path else []
        own = None
        for i, line in enumerate(lines):
            bare = line.split("--")[0].rstrip()
            used = re.match(r"(pub )?use ([\w.\-◌]+?)(?:\.\{(.*)\})?(?: as (\S+))?$", bare.strip())
            if used:
                self.take(used.group(2), used.group(3), used.group(4))
                own = None
            elif not bare.strip():
                own = own if line.strip() else None
            elif bare.lstrip().startswith("module "):
                own = None
            else:
                head = DECLARES.match(bare)
                indent = len(bare) - len(bare.lstrip())
                if head and (own is None or indent <= own[1]):
                    own = (head.group(1) or head.group(2), indent)
                    self.names.setdefault(own[0], [])
                if own:
                    self.names[own[0]].append(bare)

    def take(self, source, names, alias):
        if not source.startswith("Rattle.apd_"):
            return
        if names is None:
            self.aliases[alias or source.split(".")[-1]] = source
            return
        for one in names.split(","):
            parts = one.strip().split(" as ")
            self.passed[parts[-1]] = (source, parts[0])


MODULES = {}


def module(name):
    if name not in MODULES:
        parts = name.split(".")
        path = TOP / parts[1] / pathlib.Path(*parts[2:]).with_suffix(".antt") if len(parts) > 2 else None
        MODULES[name] = Module(path) if path and path.exists() else None
    return MODULES[name]


def where(name, word, seen=()):
    """The module that defines the word, as it is meant in this one."""
    m = module(name)
    if m is None:
        return (name, word) if ".declared." in name else None
    if word in m.names:
        return (name, word)
    if word in m.passed and (name, word) not in seen:
        source, own = m.passed[word]
        return where(source, own, (*seen, (name, word)))
    return None


def words(name, lines):
    m = module(name)
    text = "\n".join(lines)
    for alias, source in m.aliases.items():
        for found in re.findall(r"(?<![\w.])%s\.(%s)" % (re.escape(alias), WORD), text):
            yield (source, found)
    fields = set(re.findall(r"^ *pub (\S+) :", text, re.M))
    for word in set(re.findall(WORD, re.sub(r"\.\w+", " ", text))) - fields:
        yield (name, word)


def named(at):
    """The definitions that one names."""
    m = module(at[0])
    found = {where(*one) for one in words(at[0], m.names[at[1]])} if m else set()
    return found - {None}


def closure(starts, beside=()):
    """All that these name, and so on, each with the lines of its definition in specs/."""
    reached, todo = {}, list(starts)
    while todo:
        at = todo.pop(0)
        if at in reached or at in beside:
            continue
        m = module(at[0])
        reached[at] = len(m.names[at[1]]) if m else 0
        todo += sorted(named(at) - reached.keys())
    return reached


# What is read past in a source: a comment, a text, a character.
BESIDE = re.compile(r"""//[^\n]*|b?"(?:\\.|[^"\\])*"|b?'(?:\\[^']+|[^'\\])'""", re.S)
CLAUSE = re.compile(r"\b(?:requires|ensures)\b\*?(?:\s+\w+)?\s*(\{)|([{;])")


def end_of(text, start):
    """The place behind the brace that closes the one at a place."""
    depth = 0
    for at in re.finditer(r"[{}]", text[start:]):
        depth += 1 if at[0] == "{" else -1
        if depth == 0:
            return start + at.end()
    return len(text)


def clauses(text, start):
    """The clauses of a function, from behind its name on."""
    found = []
    while (at := CLAUSE.search(text, start)) and at[1]:
        start = end_of(text, at.start(1))
        found.append(text[at.start(1) : start])
    return found


def exported(crate):
    """The names that a crate's root passes on, and the modules that are public as a whole."""
    root = BESIDE.sub(" ", (TOP / crate / "src/lib.rt").read_text())
    used = " ".join(re.findall(r"\bpub use ([^;]*);", root))
    return {*re.findall(r"\w+", used)}, {*re.findall(r"\bpub mod (\w+);", root)}


def contracts(path):
    """Of each function of a source that other crates may call, its name, and the definitions that its contract names."""
    crate, inside = path.relative_to(TOP).parts[0], path.relative_to(TOP).parts[2].removesuffix(".rt")
    if not (TOP / crate / "src/lib.rt").exists():
        return
    names, modules = exported(crate)
    text = BESIDE.sub(" ", path.read_text())
    source = MODULES[str(path)] = Module()
    for used in re.findall(r"ghost use ([\w.]+?)(?:\.\{([^}]*)\})?(?: as (\w+))?;", text):
        source.take(*[it or None for it in used])
    # What a block is of: a trait, a type, or a trait at a type, and whether each of its functions may be called.
    blocks = []
    for it in re.finditer(r"\b(?:pub trait (\w+)|impl\b(?:<[^{;]*?>)? ?([^{;]*?)(?: for ([\w:]+)[^{;]*)?)\s*(?=\{)", text):
        own = it[1] or re.match(r"\w*", it[3] or it[2] or "")[0]
        blocks.append((it.end(), end_of(text, it.end()), own, bool(it[1] or it[3])))
    for it in re.finditer(r"(\bpub )?(?:const )?(?:unsafe )?\bfn (\w+)", text):
        _, _, own, each = next((at for at in reversed(blocks) if at[0] < it.start() < at[1]), (0, 0, it[2], False))
        if (it[1] or each) and (own in names or inside in modules):
            found = {where(*one) for one in words(str(path), clauses(text, it.end()))}
            yield f"{own}::{it[2]}" if own != it[2] else own, found - {None}


def code_lines(name, word):
    """The lines of a type or a constant of the code."""
    for path in (TOP / name.split(".")[1] / "src").rglob("*.rt"):
        lines = path.read_text().split("\n")
        for i, line in enumerate(lines):
            if re.match(r"\s*pub(?:\(crate\))? (?:struct|enum|const) %s\b" % re.escape(word), line):
                if line.rstrip().endswith((";", "}")):
                    return 1
                end = next((k for k in range(i, len(lines)) if lines[k] == "}"), i)
                return sum(1 for x in lines[i : end + 1] if x.strip() and not x.strip().startswith("//"))
    return 0


def main(args):
    beside, starts, short = set(), [], "--modules" in args
    args = [a for a in args if a != "--modules"]
    while "--beside" in args:
        i = args.index("--beside")
        mod, word = args[i + 1].rsplit(".", 1)
        beside.add(("Rattle.%s.specs.%s" % (args[0], mod), word))
        del args[i : i + 2]
    if len(args) < 2:
        sys.exit(__doc__)
    for one in args[1:]:
        mod, word = one.rsplit(".", 1)
        found = where("Rattle.%s.specs.%s" % (args[0], mod), word)
        if not found or module(found[0]) is None:
            sys.exit("closure: there is no %s in %s" % (word, mod))
        starts.append(found)
    reached = closure(starts, beside)
    specs = {at: n for at, n in reached.items() if module(at[0])}
    code = {at: code_lines(*at) for at in reached if not module(at[0])}
    by_module = {}
    for (name, word), n in specs.items():
        by_module.setdefault(name, []).append((word, n))
    for name, found in by_module.items():
        print("%5d  %s" % (sum(n for _, n in found), name.removeprefix("Rattle.").replace(".specs.", "::")))
        if not short:
            print("       " + ", ".join("%s %d" % one for one in found))
    print("%5d  lines of %d definitions in %d modules" % (sum(specs.values()), len(specs), len(by_module)))
    code = {at: n for at, n in code.items() if n}
    print("%5d  lines of %d types and constants of the code" % (sum(code.values()), len(code)))
    if not short:
        print("       " + ", ".join(sorted(word for _, word in code)))


if __name__ == "__main__":
    main(sys.argv[1:])
