#!/usr/bin/env python3
"""Looks through what `rt ci` said of the must-fail edits (target/rt-ci.log, where .ci/run keeps it). Run from anywhere.

Of each edit it has a line with the first error, cut after 160 letters. An edit shows something only where a fact fails: a law or an answer of a
proof file is refused, or, of a function that needs no file, what it ensures is not proved. It shows nothing where the edit can't be applied,
read or compiled, that something has another type, that a name is unknown, that a proof file no longer fits its function, or that the prover
met a limit of its own. An error of no known kind counts as showing nothing, too.

The kept lines are judged first: runs/logs/accept and runs/logs/reject have some of each kind, named by it.

    runs/logs.py            the kept lines, then those of every edit
    runs/logs.py --kept     the kept lines alone
    runs/logs.py LOG        the kept lines, then those of every edit in another file, as of `rt must-fail`
"""
import collections
import glob
import os
import re
import sys

ROOT = os.path.dirname(os.path.dirname(os.path.abspath(__file__)))
KEPT = "runs/logs"
LOG = "target/rt-ci.log"
REFUSED = "refused, as it must be"

# What rt says of an edit, in front of the error or in place of one. Of all these the edit shows nothing.
SAID = {
    "bad-edit": r"BAD EDIT: ",
    "not-refused": r"NOT (REFUSED|TRIED): ",
    "unfit-proof-file": rf"{REFUSED} \(only because a proof file names what the edit took away",
    "limit": rf"{REFUSED} \(only by a limit of the prover",
}
# What an error says, by kind, the first that fits. Of these the edit shows nothing ..
NOTHING = {
    "not-compiled": r"^\S+ error\[",
    "unfit-proof-file": r"(expected type|this has type) `\S*\bgoal\.|^.*`goal\.[^`]*`: module |^.*expected a type, but `goal\."
                        r"|^.*has no function `.*` for this file|^.*`Rattle\.\w+\.proofs\.\+?[a-z]\w*\.[\w.]+` has no ",
    "unknown-name": r"^.*(is not in scope(?! here)|that can be named from here|has no field)",
    "unreadable-file": r"^\S+ error: (?!`[^`]+`: )",
    "other-type": r"^\S+/src/\S+ error|^.*(checked against `|does not define it|expected a type|is not a constructor of|is not a function)",
}
# .. and of these a fact fails: the answer that stands there, or the search, no longer proves it. A line can't say that nothing else would, and
# a search that finds nothing is less than two sides that differ: so the kinds are counted.
FACT = {
    "sides-differ": r"the two (types|sides)( first)? differ |the two types are `|computed as a goal is, one side reads `|expected type `|` ≟ `",
    "search": r"`search`: no proof of",
    "omega": r"`omega`: the (goal|part `[^`]*` of the goal) does not follow",
    "left-over": r"give a proof of that as the last argument",
    "no-instance": r"`(simp|rw)`: no (equation|part) ",
    "cc": r"`cc`: the equations do not join|`cc` met a bound|: list the missing equation with its arguments",
    "not-closed": r"^note: src/\S+ it is not proved that ",
}


def told(log):
    """What was said of each edit, by crate/edit."""
    return {edit: says for edit, says in re.findall(r"^rt: must-fail (\S+)\.edit: (.*)", log, re.M)}


def compared(error):
    """The two types of an error, and the parts in which they differ, as far as the line goes."""
    return re.findall(r"`([^`]*)`,?\s\((?:expected|found)\)", error) + re.findall(r"(?:expected type|this has type) `([^`]*)`", error)


def is_cut(error):
    """Whether the line ends before it is seen that the type is that of a fact."""
    cut = re.search(r"expected type `([^`]*)$", error)
    return cut is not None and not re.match(r"Path\b", cut[1]) and not re.search(r"[≡≤≥<≠]", cut[1])


def is_type(text):
    """Whether this is the name of a type of values: a fact speaks of terms."""
    text = re.sub(r"\bType \d|[\w·]+\.(?=[\wℕ])", "", text)
    return re.fullmatch(r"(?!Path\b)[A-Zℕ][\wℕ]*([ ()→×]+[A-Zℕ(][\wℕ]*)*\)*|", text) is not None


def kind_of(says):
    """The kind of what is said of an edit."""
    for kind, words in SAID.items():
        if re.match(words, says):
            return kind
    if not says.startswith(REFUSED + ": "):
        return "no-error"
    error = says.removeprefix(REFUSED + ": ")
    for kind, words in NOTHING.items():
        if not error.startswith("note: ") and re.search(words, error):
            return kind
    if any(is_type(text) for text in compared(error)):
        return "other-type"
    if is_cut(error):
        return "cut-short"
    return next((kind for kind, words in FACT.items() if re.search(words, error)), "unknown-kind")


def read(path):
    with open(path, encoding="utf-8") as f:
        return f.read()


def kept():
    """The kept lines that are judged otherwise than they are kept."""
    for path in sorted(glob.glob(f"{KEPT}/*/*.log")):
        wanted, verdict = os.path.basename(path).split(".")[0], os.path.basename(os.path.dirname(path))
        kinds = {kind_of(says) for says in told(read(path)).values()}
        if kinds != {wanted} or verdict != ("accept" if wanted in FACT else "reject"):
            yield f"{path}: judged as {', '.join(kinds)}"
    there = {os.path.basename(path).split(".")[0] for path in glob.glob(f"{KEPT}/*/*.log")}
    yield from (f"no kept log: {kind}" for kind in [*SAID, *NOTHING, *FACT, "no-error", "cut-short", "unknown-kind"] if kind not in there)


def counts(kinds):
    return ", ".join(f"{n} {kind}" for kind, n in collections.Counter(kinds).most_common())


def main():
    os.chdir(ROOT)
    otherwise = list(kept())
    print("\n".join(otherwise + [f"{len(glob.glob(f'{KEPT}/*/*.log'))} kept logs, {len(otherwise)} judged otherwise or missing"]))
    if "--kept" in sys.argv:
        return bool(otherwise)
    log = next((word for word in sys.argv[1:] if not word.startswith("--")), LOG)
    edits = {path.split("/")[1] + "/" + os.path.basename(path)[: -len(".edit")] for path in glob.glob("crates/*/must-fail/*.edit")}
    said = told(read(log))
    kinds = {edit: kind_of(says) for edit, says in said.items()}
    nothing = [edit for edit, kind in kinds.items() if kind not in FACT]
    bad = [f"{edit}: {kinds[edit]}: {said[edit][:300]}" for edit in nothing]
    bad += [f"{edit}: an edit of which nothing is said" for edit in sorted(edits - set(said))]
    bad += [f"{edit}: said of no edit" for edit in sorted(set(said) - edits)]
    print("\n".join(bad + [f"{len(said)} lines of {len(edits)} must-fail edits: a fact fails in {len(said) - len(nothing)}"
                           f" ({counts(kind for kind in kinds.values() if kind in FACT)}), none in {len(nothing)}"
                           + (f" ({counts(kinds[edit] for edit in nothing)})" if nothing else "")]))
    return bool(otherwise + bad)


if __name__ == "__main__":
    sys.exit(main())
