#!/usr/bin/env python3
"""Brings the repository's own names in specs/ and proofs/ to one spelling: words in snake case, types in camel case.

usage: tools/respell.py [FOLDER]     at the top of a checkout, once, right behind the toolchain's own script

A name that specs/ or proofs/ declare and that has a dash gets `_` for it (a fact or a type, spelled with a capital: camel case), wherever it stands in
specs/, proofs/, clauses, ghost imports, edits, and in backticks in the documents. Names that Rattle makes (goals, steps, places of loops) keep theirs.
It prints names that would fall together, and then changes nothing.
"""
import collections, glob, os, re, sys

WORD = re.compile(r"[^\s(){}\[\];,.\"`|]+")
# a name that would fall together with a function's gets `_lem`; with a type's, another word
OTHER = {"Clash-found": "ClashIsFound", "Gave-out": "GaveOutThere", "First-known": "FirstKnown", "Item-set": "IsItemSet"}
# names that are tactics now
TACTICS = {"first_of": "first_split", "ground": "foot"}
# names that the toolchain's script turned by half
HALVES = {"Goes_on": "GoesOn", "Ending-of": "ending_of"}
LEAD = r"^(\s*)((?:unfoldable |abbrev |pub |data |record )*)"


def read(path):
    with open(path, encoding="utf-8") as f:
        return f.read()


def code(line):
    return re.split(r"(?:^|\s)--(?:\s|$)", line)[0]


def respelled(name):
    if name[0].isupper():
        return "".join(p[0].upper() + p[1:] for p in name.split("-"))
    return name.replace("-", "_")


def has_dash(name):
    return re.search(r"[^\W]['₀-₉]?-[^\W]", name) is not None


def of_function(path):
    """Whether a file is of one function's proof: its declarations are named by Rattle."""
    parts = path.split(os.sep)
    return "proofs" in parts and len(parts) - parts.index("proofs") > 2


def declared(paths):
    names, fields = set(), set()
    for path in paths:
        goals = set(re.findall(r"\bgoal\.([^\s(){}\[\];,.]+)", read(path)))
        for line in read(path).split("\n"):
            line = code(line)
            for alias in re.findall(r" as ([^\s(){}\[\];,.]+)", line):
                names.add(alias)
            m = re.match(LEAD + r"([^\s:(){}\[\];,.]+(?: [^\s:(){}\[\];,.]+)*)(?: : |\s*$| where| \()", line)
            if not m or not (" : " in line or re.match(r"\s*(pub )?(abbrev pub |unfoldable )?(data|record) ", line)):
                continue
            for name in m.group(3).split():
                if name not in goals:
                    names.add(name)
                    if m.group(1):
                        fields.add(name)
    return {n for n in names if has_dash(n)}, {n for n in fields if has_dash(n)}


def turn(text, table, fields, guarded):
    def one(m):
        word = m.group(0)
        before = text[m.start() - 1] if m.start() else " "
        if word in HALVES:
            return HALVES[word]
        if word in TACTICS and before != "." and text[m.end(): m.end() + 1] != ".":
            return TACTICS[word]
        if word not in table:
            return word
        if guarded and before == ".":
            head = re.search(r"([^\s(){}\[\];,]*)\.$", text[: m.start()]).group(1)
            made = re.match(r"(c|goal)(\.|$)", head)
            if made or (word not in fields and not head.startswith("Rattle.")):
                return word
        return table[word]
    return WORD.sub(one, text)


def turn_source(text, table):
    """Ghost imports and clauses of a source file; the code stays."""
    out, depth, at = [], 0, 0
    for m in re.finditer(r"\bghost use [^;]*;|\b(?:requires|ensures|ghost)\*?(?: \w+)?:? ?\{", text):
        if m.start() < at:
            continue
        end = m.end()
        if m.group(0).endswith("{"):
            depth = 1
            while depth:
                depth += {"{": 1, "}": -1}.get(text[end], 0)
                end += 1
        out += [text[at: m.start()], turn(text[m.start(): end], table, set(), False)]
        at = end
    return "".join(out) + text[at:]


def main():
    root = sys.argv[1] if len(sys.argv) > 1 else "."
    os.chdir(root)
    antt = sorted(glob.glob("crates/*/specs/**/*.antt", recursive=True) + glob.glob("crates/*/proofs/**/*.antt", recursive=True))
    antt = [p for p in antt if os.sep + "out" + os.sep not in p]
    names, fields = declared(antt)
    for path in glob.glob("crates/*/src/**/*.rt", recursive=True):
        for line in re.findall(r"^ghost use [^;]*;", read(path), re.M):
            names |= {a for a in re.findall(r" as ([^\s(){}\[\];,.]+)", line) if has_dash(a)}
    table = {n: respelled(n) for n in names}
    words = set()
    for path in antt:
        words |= set(WORD.findall(read(path)))
    for name, to in table.items():
        if name in OTHER:
            table[name] = OTHER[name]
        elif to in words and to[0].islower():
            table[name] = to + "_lem"
    taken = collections.Counter(table.values())
    clash = {n: t for n, t in table.items() if taken[t] > 1 or (t in words and n not in OTHER)}
    for n, t in sorted(clash.items()):
        print("falls together:", n, "->", t)
    if clash:
        return 1
    for path in antt:
        text = read(path)
        new = turn(text, table, fields, of_function(path))
        if new != text:
            open(path, "w", encoding="utf-8").write(new)
    for path in glob.glob("crates/*/src/**/*.rt", recursive=True):
        text = read(path)
        new = turn_source(text, table)
        if new != text:
            open(path, "w", encoding="utf-8").write(new)
    for path in glob.glob("crates/*/must-fail/*.edit") + glob.glob("planted/bugs.txt"):
        text = read(path)
        new = turn_source(text, table)
        if new != text:
            open(path, "w", encoding="utf-8").write(new)
    for path in ["README.md"] + glob.glob("docs/**/*.md", recursive=True):
        text = read(path)
        new = re.sub(r"`[^`\n]+`", lambda m: turn(m.group(0), table, set(), False), text)
        if new != text:
            open(path, "w", encoding="utf-8").write(new)
    print(len(table), "names")
    return 0


sys.exit(main())
