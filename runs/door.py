#!/usr/bin/env python3
"""Holds the crates above the door to it: code that depends on `gateway` calls the library through `gateway` alone, and nothing that
`gateway` offers has a `requires`. A product above it is proved from what its calls promise: it uses no law but of the definitions'
crate and of `bools`. (crates.txt also lists the crates that declare the types at hand, which the language asks for.)"""
import glob
import os
import re
import sys

ROOT = os.path.dirname(os.path.dirname(os.path.abspath(__file__)))
DOOR = "gateway"
# products above the door that are proved from its promises alone, and whose laws they may use
PRODUCTS = {"doors": {"paper", "bools"}}
KIT = {"std"}  # the library of the language, whose laws anybody may use


def crates():
    """Each crate of crates.txt with those that it lists."""
    with open(os.path.join(ROOT, "crates.txt"), encoding="utf-8") as f:
        lines = [line.split("#")[0] for line in f]
    return {name.split()[0]: deps.split() for name, deps in (line.split(":", 1) for line in lines if ":" in line)}


def below(listed, name):
    found, todo = set(), [name]
    while todo:
        for dep in listed.get(todo.pop(), []):
            if dep in listed and dep not in found:
                found.add(dep)
                todo.append(dep)
    return found


def sources(crate):
    for path in sorted(glob.glob(os.path.join(ROOT, "crates", crate, "src", "**", "*.rt"), recursive=True)):
        with open(path, encoding="utf-8") as f:
            yield os.path.relpath(path, ROOT), f.read()


def code(text):
    """The lines that are neither comment nor ghost, nor say how a proof is found."""
    return [(n, line) for n, line in enumerate(text.splitlines(), 1) if not re.match(r"\s*(//|ghost |requires |ensures |#\[tactic\()", line)]


def items(text):
    """Each `pub use` of the lines of code, which may go over several, and each other line, with its first line's number."""
    item, at = "", 0
    for n, line in code(text):
        at, item = (at, item) if item else (n, "")
        item = (item + " " + line.strip()).strip()
        if item and (item.endswith(";") or not item.startswith("pub use")):
            yield at, item
            item = ""
    if item:
        yield at, item


def logic(crate):
    """What a crate says and proves: its definitions and proofs, and the ghost lines of its code."""
    for part in ("specs", "proofs"):
        for path in sorted(glob.glob(os.path.join(ROOT, "crates", crate, part, "**", "*.antt"), recursive=True)):
            with open(path, encoding="utf-8") as f:
                yield os.path.relpath(path, ROOT), f.read()
    yield from sources(crate)


def past_promises(product, allowed):
    """Each law of another crate that a product uses."""
    for path, text in logic(product):
        for n, line in enumerate(text.splitlines(), 1):
            named = re.findall(r"\buse Rattle\.(\w+)\.proofs\b", line)
            if line.lstrip().startswith("#[tactic("):
                named += [crate for crate in re.findall(r"\b(\w+)::proofs::", line) if crate != "crate"]
            for crate in named:
                if crate not in allowed | KIT | {product}:
                    yield f"{path}:{n}: {product} uses a law of {crate}"


def main():
    listed, bad = crates(), []
    for product, allowed in PRODUCTS.items():
        bad += past_promises(product, allowed)
        bad += [] if DOOR in listed.get(product, []) else [f"crates.txt: {product} does not stand above {DOOR}"]
    library = below(listed, DOOR)
    above = [name for name, deps in listed.items() if DOOR in deps or name in PRODUCTS]
    for crate in above:
        for path, text in sources(crate):
            for n, line in code(text):
                bad += [f"{path}:{n}: past the door: {c}::" for c in re.findall(r"\b([a-z_]\w*)::", line) if c in library]
    offered = []
    for path, text in sources(DOOR):
        for n, item in items(text):
            named = re.fullmatch(r"pub use (\w+)::(?:(\w+)|\{([\w, ]+)\});", item)
            if named:
                offered += [(named[1], word) for word in re.findall(r"\w+", named[2] or named[3])]
            elif item != "#![tactic(auto)]":
                bad.append(f"{path}:{n}: not a `pub use`")
    for crate, item in offered:
        for path, text in sources(crate):
            for head in re.findall(rf"^pub fn {item}\(.*?^\{{", text, re.M | re.S):
                if "requires" in head:
                    bad.append(f"{path}: {item} is offered and has a `requires`")
            for methods in re.findall(rf"^impl(?:<[^>]*>)? {item}\b.*?^\}}", text, re.M | re.S):
                for name, head in re.findall(r"^    pub fn (\w+)\((.*?)^    \{", methods, re.M | re.S):
                    if "requires" in head:
                        bad.append(f"{path}: {item}::{name} is offered and has a `requires`")
    print("\n".join(bad + [f"door: {len(above)} crates above it, {len(offered)} items offered, {len(bad)} things amiss"]))
    return bool(bad)


if __name__ == "__main__":
    sys.exit(main())
