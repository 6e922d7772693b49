#!/usr/bin/env python3
"""Serial numbers of Appendix A in 16 bits, packed as crates/paper/specs/Serials.antt says, whose table has those of signals.csv.

    data/serials.py            prints the rows of that table
    data/serials.py --check    only says whether it has these rows and no other
"""
import csv
import os
import re
import sys

from files import HERE

TABLE = os.path.join(HERE, "..", "crates", "paper", "specs", "Serials.antt")
# behind the number, behind the variant; in the order of their numbers
LETTERS = [("", ""), ("R", ""), ("M", ""), ("R", "d"), ("R", "e"), ("E", ""), ("A", "")]
NAMES = ["no_letter", "letter_R", "letter_M", "letters_R_d", "letters_R_e", "letter_E", "letter_A"]


def parts(text):
    """Group, number, letters and variant of a number as it is printed."""
    group, number, letter, variant, mark = re.fullmatch(r"(\d+)\.(\d+)([A-Z]?)(?:/(\d)([a-z]?))?", text).groups(default="")
    return int(group), int(number), LETTERS.index((letter, mark)), int(variant or 0)


def pack(text):
    """0 for none, which is an empty text."""
    if not text:
        return 0
    group, number, letters, variant = parts(text)
    assert group < 16 and 1 <= number < 64 and variant < 8
    return group << 12 | number << 6 | letters << 3 | variant


def unpack(packed):
    if not packed:
        return ""
    letter, mark = LETTERS[packed >> 3 & 7]
    variant = packed & 7
    return f"{packed >> 12}.{packed >> 6 & 63}{letter}" + (f"/{variant}{mark}" if variant else "")


def rows():
    with open(os.path.join(HERE, "signals.csv"), newline="") as f:
        numbers = {r["serial_of_A"] for r in csv.DictReader(f)} - {""}
    for text in sorted(numbers, key=pack):
        assert unpack(pack(text)) == text
        group, number, letters, variant = parts(text)
        yield f'row "{text}" {group} {number} {NAMES[letters]} {variant} 0x{pack(text):04X}'


def main():
    if "--check" not in sys.argv:
        print("\n".join(rows()))
        return 0
    with open(TABLE) as f:
        there = re.findall(r'row "[^"]*" .*0x[0-9A-F]{4}', f.read())
    if there == list(rows()):
        return 0
    print("crates/paper/specs/Serials.antt does not have the rows that serials.py prints")
    return 1


if __name__ == "__main__":
    sys.exit(main())
