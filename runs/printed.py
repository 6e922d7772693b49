#!/usr/bin/env python3
"""Runs every command that the pages of this repository print, and compares what comes with what they print. Run from the root.

A page shows commands in blocks fenced ```console: a line that begins with `$ ` is a command, the lines below it are its output, of
both streams, as a terminal shows them.
The blocks of a page are run in order, in a scratch folder in which everything of the repository is in its place. Code that is
indented or fenced otherwise would escape, so it is an error; so is a command of NOT_RUN with an output under it.

    runs/printed.py [PAGE..]            all pages, or these
    runs/printed.py --write [PAGE..]    also puts what comes into the pages, to be read before it is kept
"""
import glob
import os
import re
import subprocess
import sys
import tempfile

ROOT = os.path.dirname(os.path.dirname(os.path.abspath(__file__)))
PAGES = ["README.md", "include/dustferrule.h", "docs/**/*.md", "data/**/*.md"]
NOT_RUN = {".ci/run"}  # the gate, which runs this
LEFT = {"tmp"}  # what the commands write, where somebody followed a page


def blocks(page, text):
    """The lines of each console block; comment stars of the header are dropped."""
    found, inside = [], None
    for number, line in enumerate(text.splitlines(), 1):
        line = re.sub(r"^ \* ?", "", line) if page.endswith(".h") else line
        if line.startswith("```"):
            if inside is None and line != "```console":
                raise SystemExit(f"{page}:{number}: a fence that is not ```console")
            if inside is not None:
                found.append(inside)
            inside = [] if inside is None else None
        elif inside is not None:
            inside.append((number, line))
        elif line.startswith("    ") and page.endswith(".md") and not listed(text, number):
            raise SystemExit(f"{page}:{number}: indented code would not be run")
    return found


def listed(text, number):
    """Whether an indented line goes on an item of a list."""
    for line in reversed(text.splitlines()[: number - 1]):
        if line and not line.startswith(" "):
            return re.match(r"[-*] |\d+\. ", line) is not None
    return False


def commands(block):
    """Each command of a block with its line number and its output."""
    out = []
    for number, line in block:
        if line.startswith("$ "):
            out.append((number, line[2:], []))
        elif not out:
            raise SystemExit(f"line {number}: an output without a command")
        else:
            out[-1][2].append(line)
    return [(number, command, "".join(line + "\n" for line in lines)) for number, command, lines in out]


def rewritten(page, text, others):
    """The page with what comes below each of these commands, by the command's line number, in place of what is printed there."""
    lines = text.splitlines(keepends=True)
    star = " * " if page.endswith(".h") else ""
    for number, printed, comes in reversed(others):
        lines[number : number + printed.count("\n")] = [star + line + "\n" for line in comes.splitlines()]
    return "".join(lines)


def follow(page, text, folder):
    """Runs the commands of a page in a folder: how many were run, and those that print something else, with what comes."""
    ran, others = 0, []
    for block in blocks(page, text):
        for number, command, printed in commands(block):
            if command in NOT_RUN:
                if printed:
                    raise SystemExit(f"{page}:{number}: the output of {command} is not compared here")
                continue
            done = subprocess.run(
                ["bash", "-o", "pipefail", "-c", command], cwd=folder, stdout=subprocess.PIPE, stderr=subprocess.STDOUT, text=True
            )
            ran += 1
            if done.stdout != printed:
                others.append((number, printed, done.stdout))
                print(f"{page}:{number}: $ {command}\n-- printed there --\n{printed}-- comes --\n{done.stdout}", end="")
    return ran, others


def run_page(page, write):
    """How many commands were run, and how many printed something else."""
    path = os.path.join(ROOT, page)
    with open(path) as f:
        text = f.read()
    with tempfile.TemporaryDirectory() as scratch:
        for name in set(os.listdir(ROOT)) - LEFT:
            os.symlink(os.path.join(ROOT, name), os.path.join(scratch, name))
        ran, others = follow(page, text, scratch)
    if write and others:
        with open(path, "w") as f:
            f.write(rewritten(page, text, others))
    return ran, len(others)


def all_pages():
    return sorted(set(os.path.relpath(p, ROOT) for g in PAGES for p in glob.glob(os.path.join(ROOT, g), recursive=True)))


def main():
    write = "--write" in sys.argv
    pages = [word for word in sys.argv[1:] if word != "--write"] or all_pages()
    results = [run_page(page, write) for page in pages]
    ran, bad = sum(r for r, _ in results), sum(b for _, b in results)
    print(f"printed: {ran} commands of {len(pages)} pages, {bad} print something else" + (", written" if write else ""))
    return bad != 0 and not write


if __name__ == "__main__":
    sys.exit(main())
