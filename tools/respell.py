#!/usr/bin/env python3
"""Spells the definitions and lemmas of crates/ as today's Rattle does: words in snake case, types in camel case.

usage: python3 tools/respell.py [--check]      at the top of the repository, once, after port.py
A dash stays where it joins two functions on lists and numbers, as in length-octets_of. Functions of src/ keep their names, and so do strings.
It prints each name that it turns, and stops where two would fall together.
"""

import glob
import os
import re
import sys

DECLARED = re.compile(r"^( *)(?:(?:abbrev|opaque|unfoldable|pub|instance)\s+)*(?:(record|data)\s+)?([^\s:(){},.=|]+)\s*:(?:\s|$)")
ALONE = re.compile(r"( *)(?:(?:abbrev|opaque|unfoldable|pub)\s+)+()([^\s:(){},.=|]+)\s*$")
SEVERAL = re.compile(r" *(?:pub\s+)?((?:[^\s:(){},.=|]+ )+[^\s:(){},.=|]+)\s*:\s")
TOKEN = re.compile(r"--[^\n]*|\"(?:[^\"\\]|\\.)*\"|«[^»]*»|[^\s(){}.;,@\"«»\[\]\\]+")
CLAUSE = re.compile(r"\b(requires|ensures)\*?(?:\s+\w+)?\s*\{|^ghost use [^;]*;|\bghost\s+(?!use\b)\w+\s*[:=]\s*\{", re.M)
# two of these in a lemma's name keep the dash between them
WORDS = set("length drop take set get_or append mod replicate number field bit put over octetsOf setBit withField".split())


def files(*patterns):
    for p in patterns:
        yield from sorted(f for f in glob.glob(p, recursive=True) if "/out/" not in f)


SPECS = ("crates/*/specs/**/*.antt",)
PROOFS = ("crates/*/proofs/**/*.antt",)


def read(path):
    with open(path, encoding="utf-8") as f:
        return f.read()


def declared(text):
    for line in text.split("\n"):
        m = DECLARED.match(line.split("--")[0]) or ALONE.match(line) or SEVERAL.match(line)
        if m and m.re is SEVERAL:
            yield from ((name, line) for name in m[1].split())
        elif m and m[3] not in ("let", "λ", "use", "mod"):
            yield m[3], line


def snake(word):
    return re.sub(r"(?<=[A-Za-z0-9'])([A-Z])", lambda m: "_" + m[1].lower(), word)


def turned(name):
    """The name in today's spelling."""
    if not re.match(r"[a-z]", name):
        return name
    parts = name.split("-")
    out = snake(parts[0])
    for before, part in zip(parts, parts[1:]):
        out += ("-" if before in WORDS and part in WORDS else "_") + snake(part)
    return out


def table():
    """Old name to new; and the names that a file has already, in a place where the new one would hide it."""
    names, bare = {}, {}
    for f in files(*SPECS, *PROOFS):
        text = read(f)
        for name, line in declared(text):
            if not re.search(r":\s*(tie|goal)\.|:\s*\{M : Type 1\}", line):
                names.setdefault(name, set()).add(f)
        for m in TOKEN.finditer(re.sub(r"^use [^\n{]*", "", text, flags=re.M)):
            if not m[0].startswith(("--", '"', "«")) and text[m.start() - 1 : m.start()] != ".":
                bare.setdefault(m[0], set()).add(f)
    # a name that Rattle has too stays
    theirs = set()
    for f in files(*SPECS, *PROOFS):
        for m in re.finditer(r"^use (?!Rattle\.(?!std\b))[^\n{]*\{([^}]*)\}", read(f), re.M):
            theirs.update(it.split(" as ")[0].strip() for it in m[1].split(","))
    turn = {n: turned(n) for n in names if n not in theirs}
    # a lemma that would have its definition's name
    final = {t for n, t in turn.items() if "-" not in n}
    turn = {n: t + "_lem" if "-" in n and t in final else t for n, t in turn.items()}
    turn = {n: t for n, t in turn.items() if n != t}
    by, clash = {}, []
    for n, t in sorted(turn.items()):
        if t in names:
            clash.append(f"{n} -> {t}, declared in {sorted(names[t])[:3]}")
        elif t in by:
            clash.append(f"{n} -> {t}, as {by[t]}")
        elif t in bare and bare[t] & bare.get(n, set()):
            clash.append(f"{n} -> {t}, bare in {sorted(bare[t] & bare[n])[:3]}")
        by[t] = n
    return turn, clash


def respelled(text, turn):
    def one(m):
        # behind a dot stands a module or a field, which no lemma is
        behind = text[m.start() - 1 : m.start()] == "." and turn.get(m[0], "").endswith("_lem") and "-" not in m[0]
        return m[0] if behind else turn.get(m[0], m[0])

    return TOKEN.sub(one, text)


def closing(text, at):
    deep = 0
    for k in range(at, len(text)):
        deep += (text[k] == "{") - (text[k] == "}")
        if not deep:
            return k + 1
    return len(text)


def source(text, turn):
    """Of a source file, its clauses, ghost items and comments."""
    out, at = [], 0
    for m in CLAUSE.finditer(text):
        if m.start() < at:
            continue
        end = m.end() if m[0].endswith(";") else closing(text, m.end() - 1)
        out += [text[at : m.start()], respelled(text[m.start() : end], turn)]
        at = end
    text = "".join([*out, text[at:]])
    camel = {n: t for n, t in turn.items() if re.search(r"[A-Z]", n) or "-" in n}
    return re.sub(r"//[^\n]*", lambda m: re.sub(r"`([^`\n]+)`", lambda q: "`" + camel.get(q[1], q[1]) + "`", m[0]), text)


def main(argv):
    turn, clash = table()
    extra = {}
    here = os.path.join(os.path.dirname(os.path.abspath(__file__)), "respell.names")
    if os.path.exists(here):
        extra = dict(line.split() for line in read(here).splitlines() if line and not line.startswith("#"))
    turn.update(extra)
    turn = {n: t for n, t in turn.items() if n != t}
    clash = [c for c in clash if c.split(" ")[0] not in extra]
    for c in clash:
        print("clash:", c)
    if clash:
        return 1
    for n, t in sorted(turn.items()):
        print(n, t)
    if "--check" in argv:
        return 0
    for f in files(*SPECS, *PROOFS):
        text = read(f)
        new = "\n".join(comment(line, turn) for line in respelled(text, turn).split("\n"))
        if new != text:
            open(f, "w", encoding="utf-8").write(new)
    for f in files("crates/*/src/**/*.rt"):
        text = read(f)
        new = source(text, turn)
        if new != text:
            open(f, "w", encoding="utf-8").write(new)
    return 0


def comment(line, turn):
    """A comment's names in backticks."""
    m = re.search(r"(^|\s)--", line)
    if not m:
        return line
    return line[: m.start()] + re.sub(r"`([^`\n]+)`", lambda q: "`" + turn.get(q[1], q[1]) + "`", line[m.start() :])


if __name__ == "__main__":
    sys.exit(main(sys.argv[1:]))
