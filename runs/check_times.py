#!/usr/bin/env python3
"""The table of a landing note: processor seconds of `rt check`, crate by crate, of two commits of this clone, each from nothing.

    check_times.py BEFORE AFTER [CRATE..]    without crates, all; with some, these, whose dependencies are checked first and not counted

The two take turns crate by crate, one check at a time, so that what else the machine does falls on both. Outside the gate."""
import os
import resource
import subprocess
import sys
import tempfile

ROOT = os.path.dirname(os.path.dirname(os.path.abspath(__file__)))


def crates(tree, asked):
    """The crates of crates.txt that are asked for, or all, and those that they stand on, each behind those that it lists."""
    with open(os.path.join(tree, "crates.txt"), encoding="utf-8") as f:
        lines = [line.split("#")[0] for line in f]
    listed = {name.split()[0]: deps.split() for name, deps in (line.split(":", 1) for line in lines if ":" in line)}
    ordered = []

    def add(name):
        if name in listed and name not in ordered:
            for dep in listed[name]:
                add(dep)
            ordered.append(name)

    for name in asked or listed:
        add(name)
    return ordered


def checked(tree, crate):
    """The seconds that one check takes of the processor, in all that it starts."""

    def spent():
        used = resource.getrusage(resource.RUSAGE_CHILDREN)
        return used.ru_utime + used.ru_stime

    began = spent()
    done = subprocess.run(["rt", "check", "--jobs", "1"], cwd=os.path.join(tree, "crates", crate), capture_output=True, text=True)
    if done.returncode != 0:
        sys.exit(f"{crate} is not proved in {tree}:\n{done.stdout[-2000:]}{done.stderr[-2000:]}")
    return round(spent() - began, 1)


def cell(seconds):
    return "" if seconds is None else f"{seconds:.1f}"


def main():
    if len(sys.argv) < 3:
        sys.exit(__doc__)
    commits, asked = sys.argv[1:3], sys.argv[3:]
    with tempfile.TemporaryDirectory() as room:
        trees = [os.path.join(room, name) for name in ("before", "after")]
        for tree, commit in zip(trees, commits):
            subprocess.run(["git", "clone", "-q", "--no-checkout", ROOT, tree], check=True)
            subprocess.run(["git", "-C", tree, "checkout", "-q", "--detach", commit], check=True)
        before, after = (crates(tree, asked) for tree in trees)
        print("| crate | before, s | after, s |\n|---|---:|---:|", flush=True)
        total = [0.0, 0.0]
        for crate in after + [crate for crate in before if crate not in after]:
            times = [checked(tree, crate) if crate in its else None for tree, its in zip(trees, (before, after))]
            if not asked or crate in asked:
                total = [of_all + (seconds or 0) for of_all, seconds in zip(total, times)]
                print(f"| `{crate}` | {cell(times[0])} | {cell(times[1])} |", flush=True)
        print(f"| all | {cell(total[0])} | {cell(total[1])} |")


if __name__ == "__main__":
    main()
