#!/usr/bin/env python3
"""The tables of docs/FIRMWARE.md, out of what rust/firmware.sh compiled: sizes and symbols of the object, and the stack of each call.

    firmware.py --check FOLDER MACHINE..    are they on the page as they are measured?
    firmware.py --page FOLDER MACHINE..     writes them there
    firmware.py --print FOLDER MACHINE..    prints them

It fails, however it is called, where there are data or unwind tables, or a symbol is undefined but `memset`.

The stack of a call is the greatest sum of frames along the calls between functions: the frame of each as the compiler gives it (.su), the
calls out of the optimized module. So it holds for every input. What `memset` takes is its maker's, and is not in it; nor are the arguments
that a caller puts on its own stack."""
import functools
import os
import re
import subprocess
import sys

PAGE = "docs/FIRMWARE.md"
NAMES = {"x86_64": "x86-64", "aarch64": "Arm (aarch64)"}
PUSHED = {"x86_64": 8, "aarch64": 0}  # a return address that lies in no function's frame
# Functions that call themselves: once for each octet of a field that lies in eight octets.
TIMES = {"octets::read_rest": 8, "octets::write_rest": 8}


def octets(n):
    return f"{n:,}"


def read(*path):
    with open(os.path.join(*path), encoding="utf-8") as f:
        return f.read()


def readelf(words, path):
    return subprocess.run(["readelf", words, path], capture_output=True, text=True, check=True).stdout


# ---- sizes


KINDS = [("code", lambda name, kind, flags: "X" in flags), ("unwind tables", lambda name, kind, flags: name.startswith(".eh_frame")),
         ("constants", lambda name, kind, flags: kind == "PROGBITS" and "W" not in flags),
         ("initialized data", lambda name, kind, flags: kind != "NOBITS"), ("zeroed data (bss)", lambda name, kind, flags: True)]


def sections(path):
    """The octets of each kind that a program keeps in memory."""
    sizes = {kind: 0 for kind, _ in KINDS}
    for name, kind, size, flags in re.findall(r"^ +\[ *\d+\] (\S+) +([A-Z_0-9]+) +\w+ \w+ (\w+) \w+ +([A-Zlop]*) ", readelf("-SW", path), re.M):
        if "A" in flags:
            sizes[next(of for of, test in KINDS if test(name, kind, flags))] += int(size, 16)
    return sizes


def undefined(path):
    return sorted(re.findall(r" UND (\w+)$", readelf("-sW", path), re.M))


def kept(path):
    """What the page's first lines say of every build."""
    sizes = sections(path)
    for kind in ("unwind tables", "initialized data", "zeroed data (bss)"):
        if sizes[kind]:
            raise SystemExit(f"{path}: {sizes[kind]} octets of {kind}")
    if undefined(path) != ["memset"]:
        raise SystemExit(f"{path}: undefined symbols: {undefined(path)}")


def size_table(folder, machines):
    objects = [os.path.join(folder, machine, "dustferrule.o") for machine in machines]
    for path in objects:
        kept(path)
    rows = [["archive", *(octets(os.path.getsize(os.path.join(folder, machine, "libdustferrule.a"))) for machine in machines)]]
    of = [sections(path) for path in objects]
    rows += [[kind, *(octets(sizes[kind]) for sizes in of)] for kind, _ in KINDS]
    rows.append(["undefined symbols", *(", ".join(f"`{name}`" for name in undefined(path)) or "none" for path in objects)])
    return table(["octets of", *(NAMES[machine] for machine in machines)], rows)


# ---- stack


def frames(folder, machine):
    """The octets of each function's frame."""
    found = {}
    for line in read(folder, machine, "framed.su").splitlines():
        place, size, kind = line.split("\t")
        if kind != "static":
            raise SystemExit(f"{machine}: the frame of {place} is {kind}")
        found[place.split(":", 1)[1]] = int(size)
    return found


def calls(folder, machine):
    """The functions that each one calls."""
    found = {}
    for name, body in re.findall(r'^define [^@\n]*@"?([^"(\n]+)"?\(.*?\{\n(.*?)^\}', read(folder, machine, "optimized.ll"), re.S | re.M):
        found[name] = set(re.findall(r'\bcall [^@\n]*@"?([^"(\n]+)"?\(', body))
        if re.search(r"\bcall [^@\n]*%\w+\(", body):
            raise SystemExit(f"{machine}: {name} calls through a pointer")
    return found


def red_zones(folder, machine):
    """The octets that each function uses below its frame, as one may on x86-64 that calls no other."""
    found = re.findall(r'^"?([^"\n]+?)"?: +[#/]+ @.*?\n(.*?)^\.Lfunc_end', read(folder, machine, "dustferrule.s"), re.S | re.M)
    return {name: max(map(int, re.findall(r"-(\d+)\(%rsp", body)), default=0) for name, body in found}


def stack_of(folder, machine):
    """The greatest sum of frames from each call on."""
    frame, called, red_zone = frames(folder, machine), calls(folder, machine), red_zones(folder, machine)

    @functools.cache
    def stack(name):
        others = {other for other in called[name] if other in frame}
        if name in others and name not in TIMES:
            raise SystemExit(f"{machine}: {name} calls itself: how often?")
        times = TIMES[name] if name in others else 1
        below = max((stack(other) for other in others - {name}), default=0)
        return times * (PUSHED[machine] + frame[name]) + max(below, red_zone[name])

    return {name: stack(name) for name in frame if name.startswith("df_")}


def stack_table(folder, machines):
    of = [stack_of(folder, machine) for machine in machines]
    rows = [[f"`{name}`", *(octets(stacks[name]) for stacks in of)] for name in sorted(of[0], key=lambda name: (-of[0][name], name))]
    return table(["call", *(NAMES[machine] for machine in machines)], rows)


# ---- the page


def table(head, rows):
    lines = ["| " + " | ".join(line) + " |\n" for line in [head, *rows]]
    return lines[0] + "|---|" + "---:|" * (len(head) - 1) + "\n" + "".join(lines[1:])


def replaced(page, name, text):
    """The page with a table between the mark of this name and the next mark."""
    mark = f"<!-- {name} -->\n"
    before, rest = page.split(mark)
    return before + mark + text + rest[rest.index("<!-- end -->") :]


def main():
    how, folder, *machines = sys.argv[1:]
    tables = {"sizes": size_table(folder, machines), "stack": stack_table(folder, machines)}
    if how == "--print":
        print("\n".join(tables.values()))
        return 0
    page = read(PAGE)
    measured = page
    for name, text in tables.items():
        measured = replaced(measured, name, text)
    if how == "--page":
        with open(PAGE, "w", encoding="utf-8") as f:
            f.write(measured)
    elif measured != page:
        print(f"{PAGE} has other tables than these, which were measured (rust/firmware.sh page writes them):\n")
        print("\n".join(tables.values()))
        return 1
    print(f"firmware: {PAGE} has the tables that were measured")
    return 0


if __name__ == "__main__":
    sys.exit(main())
