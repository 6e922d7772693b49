"""What a source file declares: definitions and laws (.antt), Rattle and Rust code (.rt, .rs), a C header (.h)."""
import functools
import os
import re

NAME = r"[^\s(){}:;,`]+"


def antt(text):
    """`name .. : type`, records and data, at the margin or right inside a module; a field and a constructor as Record.name."""
    names, inside = set(), {0: ""}  # the depths at which declarations stand, with what is in front of their names
    for line in text.splitlines():
        said = line.lstrip(" ")
        depth = len(line) - len(said)
        if not said or said.startswith(("--", ")")):
            continue
        inside = {d: front for d, front in inside.items() if d <= depth}
        said = re.sub(r"^((pub|abbrev|unfoldable|private) )*", "", said)
        block = re.match(rf"(module|record|data) ({NAME})", said)
        typed = re.match(rf"({NAME}(?: {NAME})*) :( |$)", said)
        if depth in inside and block:
            names.add(block[2])
            inside[depth + 2] = "" if block[1] == "module" else block[2] + "."
        elif depth in inside and typed:
            names.update(inside[depth] + name for name in typed[1].split())
    return names


def code(text):
    """Items of Rattle or Rust; a struct's field and an enum's variant as Item::name."""
    names, item, end = set(), None, None
    for line in text.splitlines():
        found = re.match(r"""(\s*)(?:pub(?:\(\w+\))? )?(?:(?:const|unsafe|extern "C") )*(fn|const|static|struct|enum|type|trait|mod) (\w+)""", line)
        inner = re.match(r"\s+(?:pub )?(\w+)(?:[:,({ ]|$)", line)
        if found:
            names.add(found[3])
            item, end = found[3], found[1] + "}" if found[2] in ("struct", "enum") and line.endswith("{") else None
        elif line == end:
            end = None
        elif inner and end is not None:
            names.add(f"{item}::{inner[1]}")
    return names


def header(text):
    """Macros, types and functions of C."""
    text = re.sub(r"/\*.*?\*/", "", text, flags=re.S)
    found = re.findall(r"^#define (\w+)|^typedef .*?\} (\w+);|^[a-z]\w* \**(\w+)\(", text, re.M)
    return {name for names in found for name in names if name}


KINDS = {".antt": antt, ".rt": code, ".rs": code, ".h": header}


@functools.cache
def declared(path):
    """The names that a file declares, or all files in a folder."""
    if os.path.isdir(path):
        return set().union(*(declared(os.path.join(path, name)) for name in os.listdir(path)))
    kind = KINDS.get(os.path.splitext(path)[1])
    if kind is None:
        return set()
    with open(path, encoding="utf-8") as f:
        return kind(f.read())
