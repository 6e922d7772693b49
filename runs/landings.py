#!/usr/bin/env python3
"""Holds docs/landings to itself: the README's table has each request of document 02 once, landed or open; a landed one has its note, with the
three parts, and the table has the note's own time of the check, before and after; an open one has neither; and no note is of another."""
import glob
import os
import re
import sys

ROOT = os.path.dirname(os.path.dirname(os.path.abspath(__file__)))
FOLDER = "docs/landings"
REQUESTS = [f"C-{number}" for number in range(11, 25)]
MOVED, STAYED, TIME = "Moved", "Stayed", "The check's time"


def read(name):
    with open(os.path.join(ROOT, FOLDER, name), encoding="utf-8") as f:
        return f.read()


def rows(text):
    """The cells of each table row, heads and rules too."""
    return [[cell.strip() for cell in line.strip().strip("|").split("|")] for line in text.splitlines() if line.startswith("|")]


def parts(text):
    """What stands under each title of the second level."""
    pieces = re.split(r"^## (.*)$", text, flags=re.M)
    return dict(zip(pieces[1::2], (piece.strip() for piece in pieces[2::2])))


def times(text):
    """The seconds before and after of the row "all", as the README's table has them; None where there are none."""
    table = rows(text)
    heads = [head.split(",")[0] for head in table[0]] if table else []
    if "before" not in heads or "after" not in heads:
        return None
    for row in table[1:]:
        found = [row[heads.index(head)] for head in ("before", "after")] if row[0] == "all" and len(row) == len(heads) else []
        if found and all(re.fullmatch(r"[\d,]+(\.\d+)?", cell) for cell in found):
            return " → ".join(found)
    return None


def amiss(request, state, note, time):
    """What is wrong with a request's row and its note."""
    name = f"{request}.md"
    there = os.path.exists(os.path.join(ROOT, FOLDER, name))
    if state == "open":
        if note or time:
            yield f"{request} is open and has a note or a time in the table"
        if there:
            yield f"{request} is open and has a note: {name}"
    elif state != "landed":
        yield f"{request} is neither landed nor open: {state}"
    elif not there:
        yield f"{request} is landed and has no note: {name}"
    else:
        said = parts(read(name))
        yield from (f"{name}: nothing under '{part}'" for part in (MOVED, STAYED, TIME) if not said.get(part))
        if note != f"[{name}]({name})":
            yield f"{request} is landed and its row does not link {name}"
        of_note = times(said.get(TIME, ""))
        if of_note is None:
            yield f"{name}: no seconds before and after in a row 'all' under '{TIME}'"
        elif time != f"{of_note} s":
            yield f"{request}: the table says '{time}', its note '{of_note} s'"


def main():
    table = [row for row in rows(read("README.md")) if re.match(r"C-\d", row[0])]
    named, bad = [row[0] for row in table], []
    bad += [f"{request} is in {named.count(request)} rows" for request in REQUESTS if named.count(request) != 1]
    bad += [f"no request of document 02: {name}" for name in named if name not in REQUESTS]
    for request, _, *rest in table:
        bad += amiss(request, *rest) if len(rest) == 3 else [f"{request}: its row has not five cells"]
    notes = {os.path.basename(path) for path in glob.glob(os.path.join(ROOT, FOLDER, "*"))} - {"README.md"}
    bad += [f"a note of no request: {note}" for note in sorted(notes) if note.removesuffix(".md") not in named]
    landed = sum(row[2:3] == ["landed"] for row in table)
    print("\n".join(bad + [f"landings: {len(table)} requests, {landed} landed; {len(bad)} things amiss"]))
    return bool(bad)


if __name__ == "__main__":
    sys.exit(main())
