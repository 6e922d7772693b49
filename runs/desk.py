#!/usr/bin/env python3
"""The program `desk` held against a summary of the doors that is worked out here from the octets of list, store and consist: tables of trains and of refusals,
in both forms of the list, then words and files, and trains made by a seed. Run from the root, after the programs are built.

    runs/desk.py            runs all of it
    runs/desk.py --write    writes expected/desk-help.txt anew, to be read before it is kept
"""
import os
import random
import re
import shutil
import subprocess
import sys
import tempfile

import judge as lists
from judge import check, code, pack, signal

ROOT = os.path.dirname(os.path.dirname(os.path.abspath(__file__)))
sys.path.append(os.path.join(ROOT, "data"))
import scene  # from data/
import slots
from scene import ERROR, FORCED, OK, UNDEFINED

HELP = os.path.join(ROOT, "runs", "expected", "desk-help.txt")
USAGE = "error: usage: desk LIST STORE CLOCK CONSIST [ADDRESS] [form2]\n"
NOT_A_NUMBER = "not a whole number from 0 to 4294967295"
NO_FILE = "no such file or folder"
REASONS = ("0 live ok", "1 live forced", "2 never heard", "3 too old", "4 type does not carry it", "5 newer than the telegram", "6 mark error", "7 mark undefined", "8 code not known")
WORDS = {
    **lists.WORDS, 5: f"store not {slots.STORE:,} octets", 17: "consist empty or above 63", 18: "consist rule broken", 19: "address not listed", 20: "nobody meets it",
    35: "door signal missing from the list",
}
DOORS = {"LEFT": 156, "RIGHT": 157}
LEADING, COACH, TRACTIVE, LED, SLEEPING = 1, 2, 4, 8, 16
SEEDED = 150


# ---- what is printed

class Refused(Exception):
    """By a number, of a list with the offset."""


def parts(octets):
    """The entries of a list in form 1 that is accepted: checks, signals, codes."""
    found, at = [], 0
    for size in lists.SIZES:
        count = int.from_bytes(octets[at:at + 2], "big")
        found.append([octets[at + 2 + size * k:at + 2 + size * (k + 1)] for k in range(count)])
        at += 2 + size * count
    return found[:3]


def door(octets, start):
    """The number of the common signal of one bit that starts there."""
    found = [k for k, s in enumerate(parts(octets)[1]) if (int.from_bytes(s[:2], "big"), s[2], s[3]) == (start, 1, 0)]
    return found[0] if found else None


def is_known(codes, k, bit):
    ranges = [(c[2:4], c[4:]) for c in codes if int.from_bytes(c[:2], "big") == k]
    return not ranges or any(low <= bit.to_bytes(2, "big") <= high for low, high in ranges)


def reading(octets, k, slot, clock):
    """The reason and the bit of signal k."""
    checks, signals, codes = parts(octets)
    s, telegram = signals[k], slot[9:]
    start, limit = int.from_bytes(s[:2], "big"), int.from_bytes(s[6:10], "big")
    bit, mark = scene.bits(telegram, start, 1), scene.bits(telegram, int.from_bytes(checks[s[4] - 1], "big"), 2) if s[4] else OK
    hindered = (
        (2, slot[0] not in (1, 2) or telegram[0] not in scene.HEADS.values()), (3, limit and (slot[0] == 2 or (clock - int.from_bytes(slot[1:5], "big")) % 2**32 > limit)),
        (5, max(1, telegram[1]) < s[5]), (6, mark == ERROR), (7, mark == UNDEFINED), (8, not is_known(codes, k, bit)),
    )
    return next((reason for reason, applies in hindered if applies), int(mark == FORCED)), bit


def asked(marks, address):
    """The vehicles that meet the address; else Refused."""
    if not 1 <= len(marks) <= slots.VEHICLES:
        raise Refused(17)
    if sum(m & LEADING for m in marks) > 1 or any(m & LED and (m & LEADING or not m & TRACTIVE) for m in marks):
        raise Refused(18)
    weights = {64: LEADING, 65: LED, 66: None, 67: COACH, 70: TRACTIVE, 92: SLEEPING}
    if not 1 <= address <= 63 and address not in weights:
        raise Refused(19)
    meets = {v for v, m in enumerate(marks, 1) if (v == address if address <= 63 else address == 66 or m & weights[address])}
    if not meets:
        raise Refused(20)
    return sorted(meets)


def side(name, readings):
    """The lines of a side, by the readings of those that are asked."""
    held_up = {v: reason for v, (reason, bit) in readings.items() if not (reason <= 1 and bit)}
    state = "OPEN" if any(reason <= 1 for reason in held_up.values()) else "NOT KNOWN" if held_up else "LOCKED"
    head = f"{name:7}{state:11}held up by {len(held_up)}" if held_up else f"{name:7}{state}"
    return [head, *(f"  vehicle{v:3}  {'open' if reason <= 1 else 'not known':9}  {REASONS[reason]}" for v, reason in held_up.items())]


def answered(octets, store, clock, marks, address):
    if octets in BAD:
        raise Refused(*BAD[octets])
    if len(store) != slots.STORE:
        raise Refused(5)
    found = {name: door(octets, start) for name, start in DOORS.items()}
    if None in found.values():
        raise Refused(35)
    vehicles, lines = asked(marks, address), []
    for name, k in found.items():
        lines += side(name, {v: reading(octets, k, store[slots.SLOT * (v - 1):slots.SLOT * v], clock) for v in vehicles})
    return "\n".join(lines) + "\n"


def refused(number, offset=None):
    return f"refused {number}{'' if offset is None else f' at {offset}'}: {WORDS[number]}\n"


def error(name, word, what):
    return f"error: {name} '{word}': {what}\n"


def expected(octets, store, clock, marks, address=66):
    try:
        return answered(octets, store, clock, marks, address)
    except Refused as no:
        return refused(*no.args) if no.args != (5,) or len(store) != 8379 else OLDER


# ---- lists, slots and trains

def data(name):
    with open(os.path.join(ROOT, "data", name), "rb") as file:
        return file.read()


def doors(left={}, right={}, checks=(), codes=()):
    """A list of the two door signals."""
    return pack(checks, [signal(156, 1, 0, **left), signal(157, 1, 0, **right)], codes)


def said(left, right, mark=OK, stamp=0, heard=1, head=0x13, version=1):
    """The slot of a vehicle that says so, with this mark in octet 4 bits 4-5."""
    telegram = bytearray(40 if head == 0x13 else 128)
    telegram[:2] = head, version
    for start, width, value in ((28, 2, mark), (156, 1, left), (157, 1, right)):
        scene.set_bits(telegram, start, width, value)
    return slots.slot(stamp, bytes(telegram), heard)


OLDER = f"refused 5: {WORDS[5]}: it has the 8,379 of the older layout; `take new` makes a new one\n"
COACH_LIST, TRAIN, PLATFORM, CONSIST = data("coach.list"), data("scene/train.store"), data("scene/platform.store"), data("scene/platform.consist")
PLAIN, CHECKED = doors(), doors({"check": 1}, {"check": 1}, [check(28)])
# lists that are refused, with number and offset
BAD = {PLAIN[:-1]: (1, 38), b"": (1, 0), b"\xff" + PLAIN[1:]: (2, 0), pack((), [signal(156, 1, 3)]): (3, 4), pack((), [signal(156, 1), signal(157, 1)]): (3, 4), PLAIN + b"\0": (4, 40)}
# lists without a door signal: other places, a width of two, and none at all
DOORLESS = {
    "no right one": pack((), [signal(156, 1, 0), signal(158, 1, 0)]), "no left one": pack((), [signal(155, 1, 0), signal(157, 1, 0)]), "a place off": pack((), [signal(155, 1, 0), signal(158, 1, 0)]),
    "one of two bits": pack((), [signal(156, 2, 0)]), "the right one of two bits": pack((), [signal(156, 1, 0), signal(157, 2, 0)]), "one that begins before": pack((), [signal(155, 2, 0), signal(157, 1, 0)]),
    "no signal": pack(), "no common signal": pack((), [signal(424, 4)]), "the list L": data("L.list"),
}
BOTH, LEFT_OPEN, RIGHT_OPEN, NEITHER, SILENT = said(1, 1), said(0, 1), said(1, 0), said(0, 0), bytes(slots.SLOT)
TWO = bytes([COACH] * 2)
# an engine that leads, one that is led, a coach, a sleeping car, and a vehicle of no mark
MIXED = bytes([LEADING + TRACTIVE, TRACTIVE + LED, COACH, COACH + SLEEPING, 0])
MIXED_SAID = slots.store(BOTH, LEFT_OPEN, RIGHT_OPEN, BOTH, SILENT)
ALL_LOCKED = "LEFT   LOCKED\nRIGHT  LOCKED\n"


def kept(state, *vehicles):
    """What is printed of a side that these keep from locked."""
    return f"{state:11}held up by {len(vehicles)}\n" + "".join(f"  vehicle {v:2}  {what}\n" for v, what in vehicles)


def both(left, right):
    return f"LEFT   {left}RIGHT  {right}"


OPEN, LATE, SILENCE = "open       0 live ok", "not known  3 too old", "not known  2 never heard"

# what, list, store, clock, marks, address or none, what is printed; None where it is only worked out
TRAINS = [
    ("all locked", PLAIN, slots.store(BOTH, BOTH), 5000, TWO, "", ALL_LOCKED),
    ("one open on the left", PLAIN, slots.store(BOTH, LEFT_OPEN), 5000, TWO, "", both(kept("OPEN", (2, OPEN)), "LOCKED\n")),
    ("one open on the right", PLAIN, slots.store(RIGHT_OPEN, BOTH), 5000, TWO, "", both("LOCKED\n", kept("OPEN", (1, OPEN)))),
    ("one open on either side", PLAIN, slots.store(RIGHT_OPEN, LEFT_OPEN), 5000, TWO, "", both(kept("OPEN", (2, OPEN)), kept("OPEN", (1, OPEN)))),
    ("all open", PLAIN, slots.store(NEITHER, NEITHER), 5000, TWO, "", both(kept("OPEN", (1, OPEN), (2, OPEN)), kept("OPEN", (1, OPEN), (2, OPEN)))),
    ("one late by a millisecond", PLAIN, slots.store(said(1, 1, stamp=1), BOTH), 5001, TWO, "", both(kept("NOT KNOWN", (2, LATE)), kept("NOT KNOWN", (2, LATE)))),
    ("one expired", PLAIN, slots.store(BOTH, said(1, 1, heard=2)), 0, TWO, "", both(kept("NOT KNOWN", (2, LATE)), kept("NOT KNOWN", (2, LATE)))),
    ("one not heard", PLAIN, slots.store(BOTH), 5000, TWO, "", both(kept("NOT KNOWN", (2, SILENCE)), kept("NOT KNOWN", (2, SILENCE)))),
    ("one open and one not heard", PLAIN, slots.store(RIGHT_OPEN), 5000, TWO, "", both(kept("NOT KNOWN", (2, SILENCE)), kept("OPEN", (1, OPEN), (2, SILENCE)))),
    ("one not heard and one open", PLAIN, slots.store(SILENT, LEFT_OPEN), 5000, TWO, "", both(kept("OPEN", (1, SILENCE), (2, OPEN)), kept("NOT KNOWN", (1, SILENCE)))),
    ("one open and late", PLAIN, slots.store(BOTH, LEFT_OPEN), 5001, TWO, "2", both(kept("NOT KNOWN", (2, LATE)), kept("NOT KNOWN", (2, LATE)))),
    ("nobody heard", PLAIN, slots.store(), 0, TWO, "", None), ("a heard octet of no meaning", PLAIN, slots.store(BOTH, said(1, 1, heard=5)), 0, TWO, "", None),
    ("a head of no R-telegram", PLAIN, slots.store(said(1, 1, head=0x23), said(1, 1, head=0x14), said(1, 1, head=0x10)), 0, bytes(3), "", None),
    ("R1, R2 and R3", PLAIN, slots.store(said(1, 1, head=0x11), said(1, 1, head=0x12), BOTH), 0, bytes(3), "", ALL_LOCKED),
    # marks, versions, codes
    ("newer than the telegram", doors({"since": 2}), slots.store(said(1, 1, version=2), BOTH), 0, TWO, "", both(kept("NOT KNOWN", (2, "not known  5 newer than the telegram")), "LOCKED\n")),
    ("version 0 is version 1", PLAIN, slots.store(said(1, 1, version=0)), 0, b"\2", "", ALL_LOCKED),
    ("forced and locked", CHECKED, slots.store(said(1, 1, FORCED)), 0, b"\2", "", ALL_LOCKED),
    ("forced and open", CHECKED, slots.store(said(0, 1, FORCED)), 0, b"\2", "", both(kept("OPEN", (1, "open       1 live forced")), "LOCKED\n")),
    ("an error", CHECKED, slots.store(said(1, 1, ERROR)), 0, b"\2", "", both(*[kept("NOT KNOWN", (1, "not known  6 mark error"))] * 2)),
    ("undefined", CHECKED, slots.store(said(0, 0, UNDEFINED)), 0, b"\2", "", both(*[kept("NOT KNOWN", (1, "not known  7 mark undefined"))] * 2)),
    ("a check over one side", doors({"check": 1}, {}, [check(28)]), slots.store(said(1, 1, ERROR)), 0, b"\2", "", both(kept("NOT KNOWN", (1, "not known  6 mark error")), "LOCKED\n")),
    # 0 is no known code: such a side is never open
    ("0 not known", doors(codes=[code(0, 1, 1)]), slots.store(NEITHER, BOTH), 0, TWO, "", both(kept("NOT KNOWN", (1, "not known  8 code not known")), kept("OPEN", (1, OPEN)))),
    ("1 not known", doors(codes=[code(1, 0, 0)]), slots.store(BOTH, BOTH), 0, TWO, "", both("LOCKED\n", kept("NOT KNOWN", *((v, "not known  8 code not known") for v in (1, 2))))),
    ("both known", doors(codes=[code(0, 0, 1), code(1, 0, 1)]), slots.store(NEITHER, BOTH), 0, TWO, "", None),
    ("every reason", CHECKED, slots.store(said(0, 0), said(0, 0, FORCED), SILENT, said(1, 1, heard=2), said(1, 1, ERROR), said(1, 1, UNDEFINED), BOTH), 0, bytes(7), "", None),
    # limits and the counter
    ("sides of other limits", doors({"limit": 1}, {"limit": 600000}), slots.store(BOTH), 2, b"\2", "", both(kept("NOT KNOWN", (1, LATE)), "LOCKED\n")),
    ("no limit on the left", doors({"limit": 0}), slots.store(said(1, 1, heard=2), BOTH), 4294967295, TWO, "", both("LOCKED\n", kept("NOT KNOWN", (1, LATE), (2, LATE)))),
    ("the counter has come round", PLAIN, slots.store(said(1, 1, stamp=4294967295)), 4999, b"\2", "", ALL_LOCKED), ("and a millisecond more", PLAIN, slots.store(said(1, 1, stamp=4294967295)), 5000, b"\2", "", None),
    ("a stamp after the clock", PLAIN, slots.store(said(1, 1, stamp=2)), 1, b"\2", "", both(*[kept("NOT KNOWN", (1, LATE))] * 2)), ("the last of the counter", PLAIN, slots.store(said(1, 1, stamp=4294967295)), 4294967295, b"\2", "", ALL_LOCKED),
    # the train
    ("a vehicle behind the train is open", PLAIN, slots.store(BOTH, BOTH, NEITHER), 0, TWO, "", ALL_LOCKED), ("high bits of a mark octet", PLAIN, slots.store(NEITHER, BOTH), 0, bytes([0xE0, 0xE2]), "67", ALL_LOCKED),
    ("63 vehicles, all locked", PLAIN, slots.store(*[BOTH] * 63), 0, bytes(63), "", ALL_LOCKED), ("63 vehicles, none heard", PLAIN, slots.store(), 0, bytes(63), "", None),
    ("63 vehicles, the last open", PLAIN, slots.store(*[BOTH] * 62, LEFT_OPEN), 0, bytes(63), "", both(kept("OPEN", (63, OPEN)), "LOCKED\n")),
    ("63 vehicles, the last of which is asked", PLAIN, slots.store(*[NEITHER] * 62, BOTH), 0, bytes(63), "63", ALL_LOCKED),
    # addresses
    ("vehicle 1", PLAIN, MIXED_SAID, 0, MIXED, "1", ALL_LOCKED), ("vehicle 3", PLAIN, MIXED_SAID, 0, MIXED, "3", both("LOCKED\n", kept("OPEN", (3, OPEN)))),
    ("vehicle 5", PLAIN, MIXED_SAID, 0, MIXED, "5", both(*[kept("NOT KNOWN", (5, SILENCE))] * 2)), ("the leading one", PLAIN, MIXED_SAID, 0, MIXED, "64", ALL_LOCKED),
    ("the led one", PLAIN, MIXED_SAID, 0, MIXED, "65", both(kept("OPEN", (2, OPEN)), "LOCKED\n")), ("tractive units", PLAIN, MIXED_SAID, 0, MIXED, "70", both(kept("OPEN", (2, OPEN)), "LOCKED\n")),
    ("coaches", PLAIN, MIXED_SAID, 0, MIXED, "67", both("LOCKED\n", kept("OPEN", (3, OPEN)))), ("sleeping cars", PLAIN, MIXED_SAID, 0, MIXED, "92", ALL_LOCKED),
    *((f"all, {words!r}", PLAIN, MIXED_SAID, 0, MIXED, words, both(kept("OPEN", (2, OPEN), (5, SILENCE)), kept("OPEN", (3, OPEN), (5, SILENCE)))) for words in ("", "66", "066")),
    ("two that are led", PLAIN, slots.store(BOTH, LEFT_OPEN, RIGHT_OPEN), 0, bytes([LEADING, TRACTIVE + LED, TRACTIVE + LED]), "65", None),
    # the trains of data/scene
    *((f"the short train at {clock}, {address}", COACH_LIST, TRAIN, clock, bytes([LEADING + TRACTIVE, TRACTIVE + LED, COACH]), address, None) for clock in (6000, 6001, 7500, 11001) for address in ("", "67", "70")),
    *((f"the platform at {clock}, {address}", COACH_LIST, PLATFORM, clock, CONSIST, address, None) for clock in (6000, 6001, 7000, 11001) for address in ("", "1", "2", "64", "65", "67", "70", "92")),
    # 1 to 5, 35
    *((f"a list that is refused by {number}", octets, slots.store(), 0, TWO, "", refused(number, offset)) for octets, (number, offset) in BAD.items()),
    *((f"a store of {size} octets", PLAIN, bytes(size), 0, TWO, "", refused(5)) for size in (0, 1, 8630, 8632, 100000)), ("a store of the older layout", PLAIN, bytes(8379), 0, TWO, "", OLDER),
    *((f"a list with {what}", octets, slots.store(), 0, TWO, "", refused(35)) for what, octets in DOORLESS.items()),
    # 17 to 20
    *((f"a consist of {size}", PLAIN, slots.store(), 0, bytes(size), "", refused(17)) for size in (0, 64, 65, 8631, 1000000)),
    ("two that lead", PLAIN, slots.store(), 0, bytes([LEADING, 0, LEADING]), "", refused(18)), ("a led coach", PLAIN, slots.store(), 0, bytes([LEADING, COACH + LED]), "", refused(18)),
    ("led and leading", PLAIN, slots.store(), 0, bytes([LEADING + TRACTIVE + LED]), "", refused(18)), ("the last of 63 led", PLAIN, slots.store(), 0, bytes(62) + bytes([LED]), "", refused(18)),
    *((f"address {a}", PLAIN, slots.store(BOTH, BOTH), 0, TWO, a, refused(19)) for a in ("0", "68", "69", "71", "91", "93", "130", "322", "4294967295")),
    *((f"nobody has {a}", PLAIN, slots.store(BOTH, BOTH), 0, TWO, a, refused(20)) for a in ("3", "63", "64", "65", "70", "92")), ("no coach", PLAIN, slots.store(BOTH), 0, b"\4", "67", refused(20)),
    # two at once
    ("list and store", b"", b"", 0, b"", "0", refused(1, 0)), ("list and door", DOORLESS["no right one"] + b"\0", slots.store(), 0, TWO, "", None), ("store and door", DOORLESS["no right one"], bytes(8630), 0, TWO, "", refused(5)),
    *((f"door and {what}", DOORLESS["no left one"], slots.store(), 0, marks, address, refused(35)) for what, marks, address in (("no vehicle", b"", ""), ("two that lead", b"\1\1", ""), ("address", TWO, "68"), ("nobody", TWO, "64"))),
    ("no vehicle, and the address", PLAIN, slots.store(), 0, b"", "0", refused(17)), ("64 vehicles, of which two lead", PLAIN, slots.store(), 0, b"\1" * 64, "", refused(17)),
    ("two that lead, and the address", PLAIN, slots.store(), 0, b"\1\1", "68", refused(18)), ("two that lead, and nobody", PLAIN, slots.store(), 0, b"\1\1", "92", refused(18)),
]
BAD[DOORLESS["no right one"] + b"\0"] = (4, 40)


# ---- the runs

class Folder:
    """A folder in which the program runs, and what is wrong with what it does there."""

    def __init__(self):
        self.path, self.count, self.said = tempfile.mkdtemp(), 0, []

    def write(self, **files):
        for name, octets in files.items():
            with open(os.path.join(self.path, name), "wb") as f:
                f.write(octets)

    def held(self):
        out = {}
        for name in os.listdir(self.path):
            if os.path.isfile(os.path.join(self.path, name)):
                with open(os.path.join(self.path, name), "rb") as f:
                    out[name] = f.read()
        return out

    def expect(self, what, words, text):
        """The run prints the text, on the stream and with the status that its first word asks for, and changes no file."""
        then = self.held()
        done = subprocess.run([os.path.join(ROOT, "run"), "desk", *words], cwd=self.path, capture_output=True, timeout=60)
        trouble, status = text.startswith(("refused ", "error: ")), {"refused": 1, "error:": 2}.get(text.split(" ")[0], 0)
        right = (status, b"" if trouble else text.encode(), text.encode() if trouble else b"")
        self.count += 1
        if (done.returncode, done.stdout, done.stderr) != right:
            self.said.append(f"{what}, {' '.join(words)[:100]}: expected {right}, got {(done.returncode, done.stdout, done.stderr)}"[:2000])
        if self.held() != then:
            self.said.append(f"{what}, {' '.join(words)[:100]}: files changed")

    def shows(self, what, octets, store, clock, marks, address="", text=None):
        """In both forms of the list: the answer is the same, and an offset follows the longer entries."""
        worked_out = expected(octets, store, clock, marks, int(address or "66"))
        if text not in (None, worked_out):
            self.said.append(f"{what}: worked out otherwise than the table has it: {worked_out!r}")
        words = ["list", "store", str(clock), "consist", *address.split()]
        self.write(list=octets, store=store, consist=marks)
        self.expect(what, words, worked_out)
        self.write(list=lists.in_form_2(octets, lists.numbered(self.count)))
        self.expect(what, [*words, "form2"], re.sub(r"(?<= at )\d+", lambda m: str(lists.offset_in_form_2(octets, int(m[0]))), worked_out))


def on_words(f, write):
    """What the program says of itself, of words that are no good, and of files that cannot be read."""
    if write:
        with open(HELP, "wb") as out:
            out.write(subprocess.run([os.path.join(ROOT, "run"), "desk", "help"], stdout=subprocess.PIPE, check=True).stdout)
    with open(HELP, encoding="utf-8") as text:
        f.expect("help", ["help"], text.read())
    f.write(list=PLAIN, store=slots.store(BOTH, BOTH), consist=TWO, form2=TWO)
    os.mkdir(os.path.join(f.path, "folder"))
    words = ["list", "store", "0", "consist"]
    for few_or_many in ([], words[:1], words[:2], words[:3], [*words, "66", "x"], [*words, "66", "form2", "x"], [*words, "form2", "form2", "x"], [*words, "66", "66", "form2"], ["help", "x"]):
        f.expect("words", few_or_many, USAGE)
    f.expect("40 digits", [*words[:2], "0" * 40, "consist", "66".zfill(40)], ALL_LOCKED)
    f.expect("a file called as a word is", [*words[:3], "form2"], ALL_LOCKED)
    for word in ("x", "", "-1", "+1", "1.0", "0x10", " 1", "4294967296", "18446744073709551616", "form2", "0" * 41):
        f.expect("the clock", [*words[:2], word, "consist"], error("CLOCK", word, NOT_A_NUMBER))
    for word in ("x", "", "-1", "+1", "all", "66.0", "4294967296", "table", "Form2", "0" * 41):
        f.expect("the address", [*words, word], error("ADDRESS", word, NOT_A_NUMBER))
    f.expect("form2 before the address", [*words, "form2", "66"], error("ADDRESS", "form2", NOT_A_NUMBER))
    f.expect("form2 twice", [*words, "form2", "form2"], error("ADDRESS", "form2", NOT_A_NUMBER))
    for at, name in ((0, "LIST"), (1, "STORE"), (3, "CONSIST")):
        for word, what in (("none", NO_FILE), ("", NO_FILE), ("folder", "is a folder"), ("list/x", "not in a folder")):
            f.expect("no file to read", [*words[:at], word, *words[at + 1:]], error(name, word, what))
            f.expect("no file to read, at an address", [*words[:at], word, *words[at + 1:], "67", "form2"], error(name, word, what))
    f.expect("clock, then address", ["none", "none", "x", "none", "y"], error("CLOCK", "x", NOT_A_NUMBER))
    f.expect("address, then files", ["none", "none", "0", "none", "y"], error("ADDRESS", "y", NOT_A_NUMBER))
    f.expect("files in their order", ["none", "folder", "0", "none"], error("LIST", "none", NO_FILE))
    f.expect("files before what is in them", ["store", "list", "0", "none"], error("CONSIST", "none", NO_FILE))
    f.expect("store and list exchanged", ["store", "list", "0", "consist"], refused(2, 0))
    f.expect("a list in form 1 said to be in form 2", [*words, "form2"], "refused 3 at 22: entry breaks its rule\n")


def on_tables(f):
    for row in TRAINS:
        f.shows(*row)


def some_list(chance):
    """The door signals among others, under checks or not, with codes, limits and since-versions."""
    def some_door():
        return {"check": chance.choice((0, 0, 1, 2)), "since": chance.choice((1, 1, 2, 3)), "limit": chance.choice((0, 1000, 5000, 600000))}
    signals = [signal(140, 8, 0)] * chance.randrange(2) + [signal(156, 1, 0, **some_door()), signal(157, 1, 0, **some_door())] + [signal(160, 4, 0, 2), signal(400, 16, 2)][:chance.randrange(3)]
    first = len(signals) > 2 and signals[0][1] == 140
    codes = [code(first + k, *known) for k in range(2) for known in chance.choice(((),) * 6 + (((0, 0),), ((1, 1),), ((0, 1),)))]
    return pack([check(28), check(32)], signals, codes)


def some_train(chance):
    size = chance.choice((1, 2, 3, 5, 12, 62, 63))
    marks = [chance.choice((0, COACH, TRACTIVE, COACH + SLEEPING, TRACTIVE + LED)) | chance.choice((0, 0, 0xE0)) for _ in range(size)]
    if chance.random() < 0.6:
        marks[chance.randrange(size)] = LEADING + chance.choice((COACH, TRACTIVE))
    if chance.random() < 0.1:
        marks[chance.randrange(size)] = chance.randrange(256)
    return bytes(marks)


def some_slot(chance, fine):
    """With that probability one that is heard in time and locked; else any."""
    if chance.random() < fine:
        return said(1, 1, chance.choice((OK, OK, FORCED)), chance.choice((9000, 8999)), 1, chance.choice((0x11, 0x12, 0x13)), chance.choice((3, 255)))
    return said(chance.randrange(2), chance.randrange(2), chance.choice((OK, OK, OK, FORCED, ERROR, UNDEFINED)), chance.choice((9000, 9000, 8999, 4000, 3999, 0, 9001, 4294967295)),
                chance.choice((1,) * 9 + (0, 2, 3)), chance.choice((0x11, 0x12, 0x13) * 4 + (0x10, 0x14, 0x23)), chance.choice((0, 1, 2, 2, 3, 3, 3, 255)))


def on_seeded(f):
    chance = random.Random(20)
    for k in range(SEEDED):
        marks, fine = some_train(chance), chance.choice((0.3, 0.9, 0.98))
        store = slots.store(*(some_slot(chance, fine) for _ in range(min(slots.VEHICLES, len(marks) + chance.randrange(3)))))
        address = chance.choice(("", "", "66", "67", "67", "70", "64", "65", "92", str(chance.randrange(1, 94))))
        f.shows(f"train {k}", some_list(chance), store, chance.choice((9000, 9000, 9000, 9000, 9001, 14000, 0)), marks, address)


def of_consist():
    """Whether platform.consist is the train of train.records, as `christening` shows it."""
    words = [os.path.join(ROOT, "run"), "christening", os.path.join(ROOT, "data", "train.records"), "leading", "5", "led", "1"]
    lines = subprocess.run(words, capture_output=True, text=True, check=True).stdout.splitlines()[:len(CONSIST)]
    names = {"leading": LEADING, "coach": COACH, "tractive": TRACTIVE, "led": LED, "sleeping": SLEEPING}
    return [] if [sum(names[name] for name in line.split()[2:]) for line in lines] == list(CONSIST) else ["data/scene/platform.consist is not the train of data/train.records"]


def in_folder(work, *more):
    """The runs that were made in a folder of their own, and what is wrong with them."""
    f = Folder()
    try:
        work(f, *more)
    finally:
        shutil.rmtree(f.path)
    return f.count, f.said


def main():
    results = [in_folder(on_words, "--write" in sys.argv), *(in_folder(work) for work in (on_tables, on_seeded))]
    wrong = of_consist() + [what for _, whats in results for what in whats]
    print("\n".join(wrong + [f"desk: {sum(count for count, _ in results)} runs, {len(wrong)} wrong"]))
    return bool(wrong)


if __name__ == "__main__":
    sys.exit(main())
