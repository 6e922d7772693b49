#!/usr/bin/env python3
"""The table of the main programs' runs: the words, what is printed, and which files change. Run from the root, after the programs are built.

    runs/programs.py            runs the table
    runs/programs.py --write    writes expected/*.txt anew from what the programs print, to be read before it is kept
"""
import csv
import decimal
import fractions
import itertools
import os
import random
import re
import resource
import shutil
import signal
import socket
import subprocess
import sys
import tempfile

import judge as lists

ROOT = os.path.dirname(os.path.dirname(os.path.abspath(__file__)))
sys.path.append(os.path.join(ROOT, "data"))
import scene  # from data/
import slots

EXPECTED = os.path.join(ROOT, "runs", "expected")
CLOCK = "9000"
MOST = "not a whole number from 0 to 4294967295"
NO_FILE = "no such file or folder"
TOO_LONG = "the path is too long"
NO_TELEGRAM = "exists and is no telegram"
LEFT = "exists; remove it if no program is at work"
TWICE = "is given twice"
LIST = "reads as a signal list"
AS_LONG = "as long as a telegram; the word `anyway` marshals into it all the same"
NO_STORE = f"5: store not {slots.STORE:,} octets"
OLDER = NO_STORE + ": it has the 8,379 of the older layout; `take new` makes a new one"


def data(name):
    with open(os.path.join(ROOT, "data", name), "rb") as f:
        return f.read()


R1, R2, R3 = data("scene/1-R1.telegram"), data("scene/2-R2.telegram"), data("scene/3-R3.telegram")
NEW = slots.store()
TRAIN = slots.store(slots.slot(6000, R1), slots.slot(7500, R2), slots.slot(1000, R3))
FULL = slots.store(*[slots.slot(5000, R1)] * slots.VEHICLES)
# vehicles 1 and 2 are expired, though the counter has come round to where 1 looks new; 3 is heard
PARKED = slots.store(slots.slot(6000, R1, 2), slots.slot(7500, R2, 2), slots.slot(1000, R3))
# the last two arrivals: 1,500 ms apart, at one millisecond, over the counter's end, and expired; octets that are neither heard nor expired have none
GAPS = slots.store(slots.slot(6000, R1, 1, 4500), slots.slot(7500, R2, 1, 7500), slots.slot(400, R3, 1, 4294967000), slots.slot(6000, R1, 2, 1), slots.slot(6000, R1, 7, 1))

# any heard octet and any head, at ages of 600,000 ms, one more, and one less: at the clock 600,000 only 4, 6 and 9 are swept
OCTETS = slots.store(*(slots.slot(stamp, telegram, heard) for heard, stamp, telegram in (
    (1, 0, R1), (0, 4294967295, R1), (2, 4294967295, R1), (1, 4294967295, R1), (1, 1, R2), (1, 600001, b"\x24"), (3, 4294967295, R3), (7, 4294967295, R3), (1, 2147483648, R3),
    (255, 4294967295, R3))))

# a field across octets, one of a whole octet and one of two; and the same places with another width, another limit and one signal less
ACROSS = lists.pack([], [lists.signal(372, 12), lists.signal(384, 8), lists.signal(400, 16)], [], [lists.route(0, 1, 4), lists.route(1, 1, 16)])
ACROSS_2 = lists.pack([], [lists.signal(372, 11), lists.signal(384, 8, limit=600000, replacement=7)])

# fields of up to 64 bits, from any bit of an octet, beside narrow ones; the same with one a bit narrower; and one with the places that are
# longest to say, of 48 bits at most
def wide(third):
    return lists.pack([lists.check(320)], [
        lists.signal(256, 64, 0, replacement=2**48 - 1), lists.signal(424, 64, check=1, replacement=0x010203040506), lists.signal(489, 49), lists.signal(539, third),
        lists.signal(700, 4, check=1), lists.signal(955, 64, replacement=7), lists.signal(960, 64, 2),
    ], [], [lists.route(1, 1, 0), lists.route(1, 2, 68), lists.route(2, 1, 133), lists.route(5, 1, 1984)])


WIDE, WIDE_2 = wide(63), wide(62)
LONG_PLACE = lists.pack([], [lists.signal(903, 48, replacement=2**48 - 1), lists.signal(952, 4)], [], [lists.route(0, 1, 1999)])


def put(octets, *fields):
    """The octets with each (start, width, value) in its field."""
    whole = int.from_bytes(octets, "big")
    for start, width, value in fields:
        shift = 8 * len(octets) - start - width
        whole = whole & ~((2**width - 1) << shift) | value << shift
    return whole.to_bytes(len(octets), "big")


MOST_64 = 2**64 - 1
R1_WIDE = put(b"\x11\x01" + bytes(126), (320, 2, 2), (256, 64, 2**63), (424, 64, MOST_64), (489, 49, 2**49 - 1), (539, 63, 2**63 - 1), (700, 4, 9), (955, 64, MOST_64))
WIDE_HEARD = slots.store(slots.slot(6000, R1_WIDE))

# vehicle 1 as it is heard behind a gateway with coach.list, by one whose counter is another
RELAYED = scene.relayed(R1)
LAST = slots.store(slots.slot(500, RELAYED))
# L's signal under every mark; a code that L does not know; under another type, whose telegram has the check and not the signal, and beside neither
UNDER_L = [put(b"\x11\x09" + bytes(126), (322, 2, mark), (424, 4, 4)) for mark in range(4)]
UNDER_L += [put(UNDER_L[2], (424, 4, 7)), b"\x12\x09" + UNDER_L[2][2:], b"\x13\x09" + bytes(38)]
# two signals under a check, of which one came with version 2; and one under none, whose replacement is no code that is known
TWO = lists.pack([lists.check(322)], [lists.signal(424, 4, check=1, replacement=5), lists.signal(440, 4, check=1, since=2, replacement=6), lists.signal(448, 4, replacement=9)], [lists.code(2, 0, 3)])
UNDER_TWO = [put(bytes([0x11, version]) + bytes(126), (322, 2, mark), (424, 4, 1), (440, 4, 2), (448, 4, code)) for version, mark, code in ((2, 2, 3), (1, 1, 3), (2, 0, 3), (2, 1, 4))]

# what a raw value is on the scale of its kind, and the unit
SCALES = {
    "speed": (fractions.Fraction(1, 64), "km/h"), "signed percentage": (fractions.Fraction(25, 4096), "%"), "current": (fractions.Fraction(125, 2048), "A"),
}


def in_unit(kind, raw):
    """The value to its last decimal, and the unit."""
    step, unit = SCALES[kind]
    value = step * ((raw ^ 0x8000) - 0x8000 if kind.startswith("signed") else raw)
    return format((decimal.Decimal(value.numerator) / value.denominator).normalize(), "f"), unit


def rows_of_signals():
    with open(os.path.join(ROOT, "data", "signals.csv"), newline="") as f:
        return list(csv.DictReader(f))


# what is shown in a unit, by type and start, out of signals.csv alone
TYPES = ("R3", "R1", "R2")
KINDS = {(TYPES.index(row["telegram"]), int(row["start"])): row["kind"] for row in rows_of_signals() if row["kind"]}
assert len(KINDS) == 12


def heard(telegram, values):
    """The telegram of version 1 with these values, by start, in 16 bits each."""
    length = 40 if telegram == "R3" else 128
    return put(bytes([0x10 + int(telegram[1]), 1]) + bytes(length - 2), *((start, 16, value) for start, value in values.items()))


# a replacement for each, and a route; other lists in which a limit, a width and a signal are others, and that have nothing to show in a unit
REPLACEMENTS = (10240, 49152, 1, 32768, 65535, 16384, 32767, 65535, 32768, 1, 57344, 8192)
PLACES = [lists.signal(start, 16, type, replacement=r) for (type, start), r in zip(sorted(KINDS), REPLACEMENTS)]
TO_UNITS = [lists.route(k, 3 if k < 5 else 4, 16 * k) for k in range(12)] + [lists.route(2, 9, 192)]
UNITS = lists.pack([], PLACES, [], TO_UNITS)
UNITS_2 = lists.pack([], [PLACES[0], lists.signal(384, 16, limit=2000), lists.signal(400, 15), *PLACES[4:], lists.signal(560, 16, 2)])
BESIDE = lists.pack([], [lists.signal(80, 15, 0), lists.signal(96, 16, 0), lists.signal(384, 15), lists.signal(400, 17), lists.signal(433, 16), lists.signal(480, 16),
                         lists.signal(384, 8, 2), lists.signal(401, 16, 2)], [], [lists.route(0, 3, 0), lists.route(1, 3, 16), lists.route(2, 3, 32), lists.route(5, 3, 48)])
# nothing but zeros; each end of each scale, and one step; replacements of what is not carried, and of what is too old
R1_UNITS = heard("R1", {80: 1, 384: 32768, 400: 10240, 432: 32768, 528: 49152})
R2_UNITS = heard("R2", {80: 65535, 384: 65535, 400: 32767, 432: 65535, 480: 49151, 496: 16384, 528: 32769, 544: 1})
UNITS_HEARD = slots.store(*(slots.slot(6000, telegram) for telegram in (heard("R1", {}), heard("R2", {}), R1_UNITS, R2_UNITS, heard("R3", {80: 16384}))), slots.slot(1000, R1_UNITS))

# lists as long as a telegram: 22 and 8 checks, a signal, and ten code ranges and none
LIST_128 = lists.pack([lists.check(20 + 2 * k) for k in range(22)], [lists.signal(384, 8)], [lists.code(0, 2 * k, 2 * k) for k in range(10)])
LIST_40 = lists.pack([lists.check(20 + 2 * k) for k in range(8)], [lists.signal(384, 8)])
assert (len(LIST_128), len(LIST_40)) == (128, 40)

FILES = {
    "coach.list": data("coach.list"), "next.list": data("coach-next.list"), "L.list": lists.L, "across.list": ACROSS, "across-2.list": ACROSS_2,
    "ends.list": lists.L[:-1], "above.list": b"\xff\xff", "broken.list": lists.pack([lists.check(17)]), "more.list": lists.L + b"\0",
    "unlimited.list": lists.pack([], [lists.signal(384, 8, limit=0), lists.signal(400, 16)]), "wide.list": WIDE, "wide-2.list": WIDE_2, "long.list": LONG_PLACE, "wide-heard": WIDE_HEARD, "r1-wide": R1_WIDE, "bus-256": b"\xff" * 256,
    "huge.list": lists.LONGEST + bytes(1000), "longest.list": lists.LONGEST,
    "r1": R1, "r2": R2, "r3": R3, "values": data("scene/1-R1.values"),
    "empty": b"", "one": b"\x11", "app": b"\x21" + R1[1:], "kind": b"\x14" + R1[1:], "r1-127": R1[:127], "r1-129": R1 + b"\0", "r3-128": R3 + bytes(88), "r2-2": R2[:2], "r3-5000": R3 + bytes(4960),
    "train": TRAIN, "full": FULL, "parked": PARKED, "octets": OCTETS, "store-1": NEW[1:], "store+1": NEW + b"\0", "store-older": bytes(8379), "gaps": GAPS, "store": NEW, "locked": NEW, "locked.new": b"left\n",
    # what a writer left that is gone: no process has a number as high
    "gone": NEW, "gone.new": b"cut", "gone.lock": f"2147483647 {socket.gethostname()} {os.readlink('/proc/self/ns/pid')}\n".encode(),
    "at-0": slots.store(slots.slot(0, R1)), "at-4294967000": slots.store(slots.slot(4294967000, R1)),
    "bus": b"\xff" * 20, "bus-17": b"\xff" * 17, "bus-18": b"\xff" * 18, "bus-4096": b"\xff" * 4096, "bus-4097": bytes(4097),
    "bus-40": b"\xff" * 40, "bus-128": b"\xff" * 128, "zeros-8": bytes(8), "zeros-128": bytes(128), "list-128": LIST_128, "list-40": LIST_40,
    "units.list": UNITS, "units-2.list": UNITS_2, "beside.list": BESIDE, "units-heard": UNITS_HEARD,
    "relayed": RELAYED, "last": LAST, "under-L": slots.store(*(slots.slot(6000, telegram) for telegram in UNDER_L)),
    "two.list": TWO, "under-two": slots.store(*(slots.slot(6000, telegram) for telegram in UNDER_TWO), slots.slot(6000, b"\x12" + UNDER_TWO[3][1:])),
    "wrong.list": data("coach-wrong.list"), "off.list": data("coach-off.list"), "counters.list": data("counters.list"),
}


# each list in form 2 as NAME.form2, with numbers of each kind, and as NAME.moved, without any
FORM_1 = [name for name in FILES if name.endswith(".list") and name != "huge.list"]
FILES.update({name.replace(".list", ".form2"): lists.in_form_2(FILES[name], lists.numbered(i)) for i, name in enumerate(FORM_1)})
FILES.update({name.replace(".list", ".moved"): lists.in_form_2(FILES[name]) for name in FORM_1})


def signals_of(octets, size):
    """The octets of each signal's entry."""
    at = 2 + 2 * int.from_bytes(octets[:2], "big")
    count = int.from_bytes(octets[at:at + 2], "big")
    return [octets[at + 2 + size * k:at + 2 + size * (k + 1)] for k in range(count)]


def with_serials(octets, serials):
    """The list in form 2, with the serial numbers by what the signals are: type and start."""
    places = [(entry[3], int.from_bytes(entry[:2], "big")) for entry in signals_of(octets, 16)]
    return lists.in_form_2(octets, lambda k: serials[places[k]])


# the real numbers; and of the successor others: one where there was none, another, none where there was one, and that of the signal added
REAL = {(entry[3], int.from_bytes(entry[:2], "big")): int.from_bytes(entry[16:], "big") for entry in signals_of(data("coach-2.list"), 18)}
FILES["coach-2.list"] = data("coach-2.list")
FILES["next-2.list"] = with_serials(FILES["next.list"], {**REAL, (0, 64): 0x1440, (1, 424): 0x4140, (1, 428): 0, (1, 524): 0xFFFF})
# the real list in form 2 is the one in form 1 moved, but for the serial numbers
assert with_serials(FILES["coach.list"], REAL) == FILES["coach-2.list"]

# 16 bits of every kind: all letters and variants with the least and greatest numbers, and numbers of one digit and two
NUMBERS = [group << 12 | number << 6 | rest for group, number, rest in itertools.product((0, 9, 10, 15), (0, 1, 9, 10, 63), range(64))]
MANY = lists.pack((), [lists.signal(320 + 2 * k, 2) for k in range(256)])
PARTS = [NUMBERS[k:k + 256] for k in range(0, len(NUMBERS), 256)]
FILES.update({f"numbers-{k}.form2": lists.in_form_2(MANY, part.__getitem__) for k, part in enumerate(PARTS)})


class Expect:
    """What a run prints, by a file of expected/, and the files that it changes; None for one that is gone then."""

    def __init__(self, text=None, file=None, **changes):
        self.text, self.file = text, file
        self.changes = {name.replace("_", "-").replace("-dot-", "."): octets for name, octets in changes.items()}


def says(line, **changes):
    return Expect(text=line + "\n", **changes)


def table(*lines, **changes):
    """Lines of columns, each column a word."""
    return says("\n".join(line.replace(" ", "\t") for line in lines), **changes)


def as_in(file, **changes):
    return Expect(file=file, **changes)


def error(line):
    return says("error: " + line)


def refused(line):
    return says("refused " + line)


def no_number(name, words, i, bad=("", "x", "-1", "+1", "1.0", " 1", "1 ", "0x1", "4294967296", "18446744073709551616", "9" * 60)):
    """The words with each of the bad numbers in place i."""
    for b in bad:
        yield words[:i] + [b] + words[i + 1:], error(f"{name} '{b}': {MOST}")


def no_list(words, i, name="LIST", of="", entry=""):
    """The words with each bad list in place i; `entry` is what is said of one at fault."""
    for file, line in (
        ("ends.list", f"1 at 36{of}: list ends inside a count or a section"), ("empty", f"1 at 0{of}: list ends inside a count or a section"),
        ("above.list", f"2 at 0{of}: count above its limit"), ("broken.list", f"3 at 2{of}: entry breaks its rule{entry}"),
        ("more.list", f"4 at 44{of}: octets after the routes"), ("huge.list", f"4 at {len(lists.LONGEST)}{of}: octets after the routes"),
    ):
        yield words[:i] + [file] + words[i + 1:], refused(line)
    yield from no_file(name, words, i)


def no_file(name, words, i):
    """The words with each name in place i under which no file can be read."""
    for file, why in (("none", NO_FILE), ("none/x", NO_FILE), ("", NO_FILE), ("folder", "is a folder"), ("r1/x", "not in a folder")):
        yield words[:i] + [file] + words[i + 1:], error(f"{name} '{file}': {why}")
    for n in (4096, 5000):
        yield words[:i] + ["a" * n] + words[i + 1:], error(f"{name} '{'a' * 100}..': {TOO_LONG}")


def usage(program, words, text):
    for n in (0, 1, 2, 3, 4, 5, 6, 7, 8):
        if n not in words:
            yield [program] + ["1"] * n, error("usage: " + text)
    if 2 not in words:
        yield [program, "help", "1"], error("usage: " + text)


def take_table():
    words = ["take", "store", "1", "5000", "r1"]
    yield ["take", "help"], as_in("take-help")
    yield from usage("take", (4,), "take STORE VEHICLE CLOCK TELEGRAM, or take new STORE")
    yield ["take", "new", "made"], says("made a store, no vehicle heard", made=NEW)
    yield ["take", "new", "store"], error("STORE 'store': exists already")
    yield ["take", "new", "folder"], error("STORE 'folder': exists already")
    yield ["take", "new", "none/x"], error("STORE 'none/x.lock': " + NO_FILE)
    yield ["take", "new", "r1/x"], error("STORE 'r1/x': not in a folder")
    yield ["take", "new", ""], error("STORE '': " + NO_FILE)
    yield words, says("taken R1 version 3 vehicle 1 at 5000", store=slots.taken(NEW, 1, 5000, R1))
    yield ["take", "store", "2", "0", "r2"], says("taken R2 version 2 vehicle 2 at 0", store=slots.taken(NEW, 2, 0, R2))
    yield ["take", "store", "63", "4294967295", "r3"], says("taken R3 version 1 vehicle 63 at 4294967295", store=slots.taken(NEW, 63, 4294967295, R3))
    yield ["take", "full", "7", "7", "r3"], says("taken R3 version 1 vehicle 7 at 7", full=slots.taken(FULL, 7, 7, R3))
    yield ["take", "gaps", "4", "7000", "r1"], says("taken R1 version 3 vehicle 4 at 7000", gaps=slots.taken(GAPS, 4, 7000, R1))
    yield ["take", "gaps", "5", "7000", "r1"], says("taken R1 version 3 vehicle 5 at 7000", gaps=slots.taken(GAPS, 5, 7000, R1))
    yield ["take", "store", "007", "7", "r3"], says("taken R3 version 1 vehicle 7 at 7", store=slots.taken(NEW, 7, 7, R3))
    yield ["take", "store", "1", "6000", "r1-wide"], says("taken R1 version 1 vehicle 1 at 6000", store=WIDE_HEARD)
    yield ["take", "store-1", "99", "1", "one"], refused(NO_STORE)
    yield ["take", "store+1", "1", "1", "r1"], refused(NO_STORE)
    yield ["take", "store-older", "1", "1", "r1"], refused(OLDER)
    yield ["take", "store", "0", "1", "one"], refused("6: vehicle not 1-63")
    yield ["take", "store", "64", "1", "r1"], refused("6: vehicle not 1-63")
    yield ["take", "store", "4294967295", "1", "r1"], refused("6: vehicle not 1-63")
    yield ["take", "store", "1", "1", "empty"], refused("7: R-telegram under 2 octets")
    yield ["take", "store", "1", "1", "one"], refused("7: R-telegram under 2 octets")
    yield ["take", "store", "1", "1", "app"], refused("8: application type not 1")
    yield ["take", "store", "1", "1", "kind"], refused("9: telegram type not 1-3")
    for telegram, lengths in (("r1-127", "127 octets, R1 has 128"), ("r1-129", "more than 128 octets, R1 has 128"), ("r3-128", "128 octets, R3 has 40"),
                              ("r2-2", "2 octets, R2 has 128"), ("r3-5000", "more than 128 octets, R3 has 40")):
        yield ["take", "store", "1", "1", telegram], refused(f"10: length not the type's: {lengths}")
    yield from no_number("VEHICLE", words, 2)
    yield from no_number("CLOCK", words, 3)
    yield ["take", "store", "1\n2", "1", "r1"], error(f"VEHICLE '1?2': {MOST}")
    yield from no_file("TELEGRAM", words, 4)
    yield ["take", "none", "1", "1", "r1"], error("STORE 'none': " + NO_FILE)
    yield ["take", "folder", "1", "1", "r1"], error("STORE 'folder': is a folder")
    yield ["take", "", "1", "1", "r1"], error("STORE '': " + NO_FILE)
    yield ["take", "none/x", "1", "1", "r1"], error("STORE 'none/x': " + NO_FILE)
    yield ["take", "r1/x", "1", "1", "r1"], error("STORE 'r1/x': not in a folder")
    yield ["take", "locked", "1", "1", "r1"], error("STORE 'locked.new': " + LEFT)
    yield ["take", "new", "locked"], error("STORE 'locked': exists already")
    yield ["take", "gone", "1", "5000", "r1"], says("taken R1 version 3 vehicle 1 at 5000", gone=slots.taken(NEW, 1, 5000, R1), gone_dot_new=None, gone_dot_lock=None)
    yield ["take", "store", "1", "1", "store"], error("STORE 'store': " + TWICE)
    yield ["take", "r1", "1", "1", "r1"], error("STORE 'r1': " + TWICE)
    yield ["take", "next.list", "1", "1", "r1"], refused(NO_STORE)
    for n in (300, 4093, 4095, 4096, 5000):
        yield ["take", "a" * n, "1", "1", "r1"], error("STORE '" + "a" * 100 + "..': " + TOO_LONG)
    yield ["take", "new", "a" * 252], error("STORE '" + "a" * 100 + "...lock': " + TOO_LONG)
    yield ["take", "new", "a" * 5000], error("STORE '" + "a" * 100 + "..': " + TOO_LONG)


def sweep_table():
    words = ["sweep", "train", "700000"]
    yield ["sweep", "help"], as_in("sweep-help")
    yield from usage("sweep", (2,), "sweep STORE CLOCK")
    yield words, says("swept at 700000, expired 3: 1-3", train=slots.expired(TRAIN, 1, 2, 3))
    yield ["sweep", "train", CLOCK], says("swept at 9000, expired 0")
    yield ["sweep", "train", "601000"], says("swept at 601000, expired 0")
    yield ["sweep", "train", "601001"], says("swept at 601001, expired 1: 3", train=slots.expired(TRAIN, 3))
    yield ["sweep", "train", "607500"], says("swept at 607500, expired 2: 1 3", train=slots.expired(TRAIN, 1, 3))
    yield ["sweep", "train", "0"], says("swept at 0, expired 3: 1-3", train=slots.expired(TRAIN, 1, 2, 3))
    yield ["sweep", "train", "4294967295"], says("swept at 4294967295, expired 3: 1-3", train=slots.expired(TRAIN, 1, 2, 3))
    yield ["sweep", "store", "4294967295"], says("swept at 4294967295, expired 0")
    yield ["sweep", "parked", "700000"], says("swept at 700000, expired 1: 3", parked=slots.expired(PARKED, 3))
    yield ["sweep", "full", "605001"], says("swept at 605001, expired 63: 1-63", full=slots.expired(FULL, *range(1, 64)))
    yield ["sweep", "octets", "600000"], says("swept at 600000, expired 3: 4 6 9", octets=slots.expired(OCTETS, 4, 6, 9))
    yield ["sweep", "store-1", "1"], refused(NO_STORE)
    yield ["sweep", "store+1", "1"], refused(NO_STORE)
    yield ["sweep", "store-older", "1"], refused(OLDER)
    yield ["sweep", "next.list", "1"], refused(NO_STORE)
    yield ["sweep", "empty", "1"], refused(NO_STORE)
    yield from no_number("CLOCK", words, 2)
    yield from no_file("STORE", words, 1)
    yield ["sweep", "locked", "1"], error("STORE 'locked.new': " + LEFT)
    yield ["sweep", "gone", "1"], says("swept at 1, expired 0", gone_dot_new=None, gone_dot_lock=None)
    # a telegram that comes after the sweep is heard
    yield ["take", "parked", "1", "9000", "r1"], says("taken R1 version 3 vehicle 1 at 9000", parked=slots.taken(PARKED, 1, 9000, R1))


def believe_table():
    words = ["believe", "coach.list", "train", CLOCK, "1", "94"]
    names = "vehicle telegram version age signal type start width value reason gap shown unit"
    numbers_2 = names.replace("gap", "gap serial")
    yield ["believe", "help"], as_in("believe-help")
    text = "believe LIST STORE CLOCK [VEHICLE [SIGNAL]] [table] [form2]"
    yield from usage("believe", (3, 4, 5), text)
    yield ["believe", "L.list", "train", CLOCK, "1", "0", "1", "table"], error("usage: " + text)
    yield ["believe", "L.list", "train", CLOCK, "table", "table"], error(f"VEHICLE 'table': {MOST}")
    yield ["believe", "L.list", "train", CLOCK, "table", "1"], error(f"VEHICLE 'table': {MOST}")
    yield ["believe", "L.list", "train", "table"], error(f"CLOCK 'table': {MOST}")
    yield ["believe", "L.list", "train", CLOCK, "tables"], error(f"VEHICLE 'tables': {MOST}")
    yield words[:4], as_in("believe-train")
    yield ["believe", "next.list", "train", CLOCK], as_in("believe-train-next")
    yield ["believe", "coach.list", "train", "6000", "3"], as_in("believe-old-version")
    yield ["believe", "across.list", "train", CLOCK], as_in("believe-across")
    yield ["believe", "coach.list", "store", CLOCK], says("never heard: 1-63")
    yield ["believe", "wide.list", "wide-heard", CLOCK], as_in("believe-wide")
    yield ["believe", "wide.list", "wide-heard", CLOCK, "2"], as_in("believe-wide-never")
    yield ["believe", "wide.list", "wide-heard", CLOCK, "1", "4"], as_in("believe-wide-4")
    yield ["believe", "wide.list", "wide-heard", CLOCK, "1", "table"], as_in("believe-wide-table")
    yield ["believe", "long.list", "store", CLOCK, "1"], as_in("believe-long")
    yield ["believe", "L.list", "store", CLOCK, "5"], as_in("believe-never")
    yield ["believe", "L.list", "full", CLOCK], as_in("believe-full")
    yield words, says("vehicle 1: R1 version 3 age 3000 ms gap 6000 ms\n 1   94  R1 octet 54 bits 0-3                  3  0 live ok")
    yield ["believe", "L.list", "train", "5999", "1", "0"], says("vehicle 1: R1 version 3 age 4294967295 ms (stamp after the clock) gap 6000 ms\n 1    0  R1 octet 54 bits 0-3                  0  3 too old")
    yield words[:4] + ["table"], as_in("believe-table")
    yield words[:5] + ["table"], as_in("believe-table-1")
    yield words + ["table"], table(names, "1 R1 3 3000 94 R1 424 4 3 0 6000 - -")
    yield ["believe", "coach.list", "store", CLOCK, "table"], table(names)
    yield ["believe", "L.list", "store", CLOCK, "5", "table"], table(names, "5 - - - 0 R1 424 4 0 2 - - -")
    yield ["believe", "across.list", "train", "5999", "1", "1", "table"], table(names, "1 R1 3 4294967295 1 R1 384 8 0 3 6000 - -")
    yield ["believe", "coach.list", "train", CLOCK, "1", "165", "table"], refused("11: no such signal")
    yield ["believe", "coach.list", "train", CLOCK, "0", "table"], refused("6: vehicle not 1-63")
    yield ["believe", "coach.list", "train", CLOCK, "0"], refused("6: vehicle not 1-63")
    yield ["believe", "coach.list", "train", CLOCK, "64", "999"], refused("6: vehicle not 1-63")
    yield ["believe", "coach.list", "train", CLOCK, "1", "165"], refused("11: no such signal")
    yield ["believe", "coach.list", "store-1", CLOCK, "64", "999"], refused(NO_STORE)
    yield ["believe", "coach.list", "store+1", CLOCK], refused(NO_STORE)
    yield ["believe", "coach.list", "store-older", CLOCK], refused(OLDER)
    # an age of half of the counter's range, and one less; and a counter that went over its end in time
    for stamp, clock, age in ((0, 2**31, "2147483648 ms (stamp after the clock)"), (0, 2**31 - 1, "2147483647 ms"), (4294967000, 4000, "4296 ms")):
        yield ["believe", "L.list", f"at-{stamp}", str(clock), "1", "0"], says(
            f"vehicle 1: R1 version 3 age {age} gap {stamp} ms\n 1    0  R1 octet 54 bits 0-3                  " + ("3  0 live ok" if age == "4296 ms" else "0  3 too old"))
    # the gap beside the age, and beside `expired`; after the first telegram, as in the stores above, it is the stamp
    for vehicle, head in ((1, "R1 version 3 age 3000 ms gap 1500 ms"), (2, "R2 version 2 age 1500 ms gap 0 ms"), (3, "R3 version 1 age 8600 ms gap 696 ms"), (4, "R1 version 3 expired gap 5999 ms"),
                          (5, "never heard")):
        yield ["believe", "zeros-8", "gaps", CLOCK, str(vehicle)], says(f"vehicle {vehicle}: {head}")
    # expired: with a limit too old, with none as before; and no age is said
    yield ["believe", "across.list", "parked", CLOCK], as_in("believe-expired")
    yield ["believe", "across.list", "parked", CLOCK, "1", "table"], as_in("believe-expired-table")
    yield ["believe", "unlimited.list", "parked", CLOCK, "1"], says(
        "vehicle 1: R1 version 3 expired gap 6000 ms\n 1    0  R1 octet 49                          32  0 live ok\n 1    1  R1 octets 51-52                       0  3 too old (0 km/h)\n"
        "total      1  0 live ok\ntotal      1  3 too old")
    yield ["believe", "L.list", "parked", CLOCK, "1"], says(
        "vehicle 1: R1 version 3 expired gap 6000 ms\n 1    0  R1 octet 54 bits 0-3                  0  3 too old\ntotal      1  3 too old")
    # in form 2, with the serial number beside the place, and as a column of the table, behind the gap
    words_2 = ["believe", "coach-2.list", "train", CLOCK, "1", "94"]
    yield words_2[:4] + ["form2"], as_in("believe-form2")
    for both in (["table", "form2"], ["form2", "table"]):
        yield words_2[:4] + both, as_in("believe-form2-table")
    yield words_2 + ["form2"], says("vehicle 1: R1 version 3 age 3000 ms gap 6000 ms\n 1   94  R1 octet 54 bits 0-3 (4.3)                       3  0 live ok")
    yield ["believe", "coach.moved", *words_2[2:], "form2"], says("vehicle 1: R1 version 3 age 3000 ms gap 6000 ms\n 1   94  R1 octet 54 bits 0-3 (no serial number)          3  0 live ok")
    yield words_2 + ["table", "form2"], table(numbers_2, "1 R1 3 3000 94 R1 424 4 3 0 6000 4.3 - -")
    yield ["believe", "L.moved", "train", CLOCK, "9", "form2", "table"], table(numbers_2, "9 - - - 0 R1 424 4 0 2 - - - -")
    yield ["believe", "wide.form2", "wide-heard", CLOCK, "form2"], as_in("believe-form2-wide")
    # in a unit, live and replaced; other widths and other places in none
    shown = ["believe", "units.list", "units-heard", CLOCK]
    yield shown, as_in("believe-units")
    yield shown + ["table"], as_in("believe-units-table")
    yield ["believe", "units.form2", *shown[2:], "form2"], as_in("believe-units-form2")
    yield ["believe", "units.form2", *shown[2:], "form2", "table"], as_in("believe-units-form2-table")
    for vehicle, k, line in ((3, 0, "R3 octets 11-12                       1  0 live ok (0.015625 km/h)"), (3, 1, "R1 octets 49-50                   32768  0 live ok (-200 %)"),
                             (3, 3, "R1 octets 55-56                   32768  0 live ok (2000 A)"), (9, 2, "R1 octets 51-52                       1  2 never heard (0.015625 km/h)")):
        head = "never heard" if vehicle == 9 else "R1 version 1 age 3000 ms gap 6000 ms"
        yield shown + [str(vehicle), str(k)], says(f"vehicle {vehicle}: {head}\n {vehicle}    {k}  {line}")
    yield shown + ["9", "1", "table"], table(names, "9 - - - 1 R1 384 16 49152 2 - -100 %")
    yield ["believe", "beside.list", *shown[2:], "3"], as_in("believe-beside")
    yield ["believe", "beside.list", *shown[2:], "3", "table"], as_in("believe-beside-table")
    yield words_2 + ["form2", "form2"], error("usage: " + text)
    yield words_2 + ["form2", "table", "form2"], error("usage: " + text)
    yield words_2[:4] + ["form2", "form2"], error(f"VEHICLE 'form2': {MOST}")
    yield words_2[:4] + ["form2", "1"], error(f"VEHICLE 'form2': {MOST}")
    yield words_2[:4] + ["1", "form2", "94"], error(f"SIGNAL 'form2': {MOST}")
    yield words_2[:5] + ["form1"], error(f"SIGNAL 'form1': {MOST}")
    yield words_2[:4] + ["first-form2"], error(f"VEHICLE 'first-form2': {MOST}")
    yield words_2[:3] + ["form2"], error(f"CLOCK 'form2': {MOST}")
    yield words_2, refused("3 at 116: entry breaks its rule")
    yield words + ["form2"], refused("3 at 118: entry breaks its rule")
    yield ["believe", "ends.form2", "store-1", CLOCK, "64", "form2"], refused("1 at 38: list ends inside a count or a section")
    yield ["believe", "more.form2", "store-1", CLOCK, "64", "form2"], refused("4 at 46: octets after the routes")
    yield words_2[:5] + ["165", "form2"], refused("11: no such signal")
    yield from no_list(["believe", "L.list", "store-1", CLOCK, "64"], 1)
    yield from no_file("STORE", words, 2)
    yield from no_number("CLOCK", words, 3)
    yield from no_number("VEHICLE", words, 4)
    yield from no_number("SIGNAL", words, 5)


def differ_table():
    words = ["differ", "coach.list", "next.list", "train", CLOCK, "1"]
    yield ["differ", "help"], as_in("differ-help")
    text = "differ LIST LIST STORE CLOCK [behind STORE2 CLOCK2] [VEHICLE] [only] [table] [first-form2] [second-form2]"
    names = "vehicle telegram version age type start differs width_1 value_1 reason_1 width_2 value_2 reason_2 gap shown_1 shown_2 unit"
    yield from usage("differ", (4, 5), text)
    yield words + ["1", "only"], error("usage: " + text)
    yield words[:5] + ["only", "1"], error(f"VEHICLE 'only': {MOST}")
    yield words[:5] + ["only", "table", "only"], error(f"VEHICLE 'only': {MOST}")
    yield words[:5] + ["table", "table"], error(f"VEHICLE 'table': {MOST}")
    yield words[:4] + ["only"], error(f"CLOCK 'only': {MOST}")
    yield words[:5], as_in("differ-train")
    yield words[:5] + ["only"], as_in("differ-only")
    yield words + ["only"], as_in("differ-only-1")
    yield words[:5] + ["table"], as_in("differ-table")
    for both in (["only", "table"], ["table", "only"]):
        yield words + both, table(
            names, "1 R1 3 3000 R1 380 1 4 0 8 4 2 0 6000 - - -", "1 R1 3 3000 R1 424 1 4 3 0 4 15 3 6000 - - -", "1 R1 3 3000 R1 524 1 - - - 4 2 0 6000 - - -")
    yield ["differ", "L.list", "L.list", "train", CLOCK, "only", "table"], table(names)
    yield ["differ", "L.list", "L.list", "train", CLOCK, "9", "table"], table(names, "9 - - - R1 424 0 4 0 2 4 0 2 - - - -")
    yield ["differ", "L.list", "L.list", "train", CLOCK, "1", "only"], says(
        "first  'L.list' signals 1 version 1\nsecond 'L.list' signals 1 version 1\nvehicle 1: R1 version 3 age 3000 ms gap 6000 ms\nvehicle 1 differs on 0 of 1 lines\ndiffer: 0 of 1 lines")
    yield ["differ", "coach.list", "next.list", "train", CLOCK, "64", "only", "table"], refused("6: vehicle not 1-63")
    yield ["differ", "next.list", "coach.list", "train", CLOCK, "2"], as_in("differ-turned")
    yield ["differ", "across.list", "across-2.list", "train", "12000"], as_in("differ-widths")
    yield ["differ", "wide.list", "wide-2.list", "wide-heard", CLOCK], as_in("differ-wide")
    yield ["differ", "wide.list", "wide-2.list", "wide-heard", CLOCK, "1", "table"], as_in("differ-wide-table")
    yield ["differ", "L.list", "wide.list", "wide-heard", CLOCK, "1"], as_in("differ-wide-right")
    yield ["differ", "wide.list", "L.list", "wide-heard", CLOCK, "1"], as_in("differ-wide-left")
    yield ["differ", "L.list", "L.list", "store", CLOCK, "63"], as_in("differ-never")
    yield ["differ", "across.list", "across-2.list", "parked", CLOCK, "1"], as_in("differ-expired")
    yield ["differ", "across.list", "across-2.list", "parked", CLOCK, "1", "table"], as_in("differ-expired-table")
    yield ["differ", "coach.list", "next.list", "train", CLOCK, "64"], refused("6: vehicle not 1-63")
    yield ["differ", "coach.list", "next.list", "store+1", CLOCK, "64"], refused(NO_STORE)
    yield ["differ", "coach.list", "next.list", "store-older", CLOCK, "64"], refused(OLDER)
    yield ["differ", "broken.list", "ends.list", "store+1", CLOCK], refused("3 at 2 (first list): entry breaks its rule")
    # either list in form 2 or both: a line has the serial numbers of those that are, both where they differ, and no * for that
    first, second = "first-form2", "second-form2"
    for behind in ([first, second, "only"], ["only", second, first]):
        yield ["differ", "coach-2.list", "next-2.list", "train", CLOCK, "1", *behind], as_in("differ-form2-only")
    yield ["differ", "coach-2.list", "next-2.list", "train", CLOCK, "1", first, second], as_in("differ-form2")
    yield ["differ", "coach-2.list", "next-2.list", "train", CLOCK, "1", second, "table", first], as_in("differ-form2-table")
    yield ["differ", "next-2.list", "coach.list", "train", CLOCK, "1", first, "only"], as_in("differ-form2-first")
    yield ["differ", "coach.list", "next-2.list", "train", CLOCK, "1", "only", second], as_in("differ-form2-second")
    for lists_2, behind, serials in (
        (("L.form2", "L.moved"), [first, second], "(10.1R, no serial number)"), (("L.moved", "L.form2"), [first, second], "(no serial number, 10.1R)"),
        (("L.form2", "L.form2"), [first, second], "(10.1R)"), (("L.moved", "L.moved"), [second, first], "(no serial number)"),
        (("L.form2", "L.list"), [first], "(10.1R)"), (("L.list", "L.form2"), [second], "(10.1R)"), (("L.list", "L.moved"), [second], "(no serial number)"),
    ):
        column = max(45, len(f"   1  R1 octet 54 bits 0-3 {serials} 15"))
        yield ["differ", *lists_2, "train", CLOCK, "1", *behind], says(
            f"first  '{lists_2[0]}' signals 1 version 1\nsecond '{lists_2[1]}' signals 1 version 1\nvehicle 1: R1 version 3 age 3000 ms gap 6000 ms\n"
            + f"   1  R1 octet 54 bits 0-3 {serials}".ljust(column - 1) + "3  0 live ok".ljust(29) + "|" + "3".rjust(16) + "  0 live ok\n"
            "vehicle 1 differs on 0 of 1 lines\ndiffer: 0 of 1 lines")
    numbers_2 = names.replace("gap", "gap serial_1 serial_2")
    for lists_2, behind, serials in (
        (("L.form2", "L.moved"), [first, second], "10.1R -"), (("L.moved", "L.form2"), [first, second], "- 10.1R"), (("L.form2", "L.list"), [first], "10.1R -"),
        (("L.list", "L.form2"), [second], "- 10.1R"), (("L.moved", "L.list"), [first], "- -"),
    ):
        yield ["differ", *lists_2, "train", CLOCK, "1", "table", *behind], table(numbers_2, f"1 R1 3 3000 R1 424 0 4 3 0 4 3 0 6000 {serials} - - -")
    yield ["differ", "coach-2.list", "next-2.list", "train", CLOCK, "1", "only", "table", first, second], table(
        numbers_2, "1 R1 3 3000 R1 380 1 4 0 8 4 2 0 6000 4.35 4.35 - - -", "1 R1 3 3000 R1 424 1 4 3 0 4 15 3 6000 4.3 4.5 - - -",
        "1 R1 3 3000 R1 524 1 - - - 4 2 0 6000 - 0xFFFF - - -")
    # in a unit, of both lists, where one of them has it in 16 bits there; a dash for the other
    shown = ["differ", "units.list", "units-2.list", "units-heard", CLOCK]
    yield shown, as_in("differ-units")
    yield shown + ["table"], as_in("differ-units-table")
    yield ["differ", "units-2.list", "units.list", *shown[3:], "3", "only"], as_in("differ-units-turned")
    yield ["differ", "units.form2", "units-2.form2", *shown[3:], "3", first, second], as_in("differ-units-form2")
    yield ["differ", "units.form2", "units-2.form2", *shown[3:], "3", first, second, "table"], as_in("differ-units-form2-table")
    yield ["differ", "units.list", "beside.list", *shown[3:], "3"], as_in("differ-beside")
    yield ["differ", "beside.list", "beside.list", *shown[3:], "3", "table"], as_in("differ-beside-table")
    yield from behind_table(names, text)
    yield words[:5] + [first, first], error(f"VEHICLE '{first}': {MOST}")
    yield words[:5] + [first, "1"], error(f"VEHICLE '{first}': {MOST}")
    yield words + [second, first, second], error("usage: " + text)
    yield words[:5] + ["form2"], error(f"VEHICLE 'form2': {MOST}")
    yield words[:4] + [second], error(f"CLOCK '{second}': {MOST}")
    yield words + [first], refused("3 at 118 (first list): entry breaks its rule")
    yield words + [second], refused("3 at 118 (second list): entry breaks its rule")
    yield ["differ", "coach-2.list", *words[2:]], refused("3 at 116 (first list): entry breaks its rule")
    yield ["differ", "L.form2", "ends.form2", *words[3:], first, second], refused("1 at 38 (second list): list ends inside a count or a section")
    yield from no_list(["differ", "L.list", "L.list", "store-1", CLOCK], 1, "first LIST", " (first list)")
    yield from no_list(["differ", "L.list", "L.list", "store-1", CLOCK], 2, "second LIST", " (second list)")
    yield from no_file("STORE", words, 3)
    yield from no_number("CLOCK", words, 4)
    yield from no_number("VEHICLE", words, 5)


def behind_table(names, text):
    """`differ` with a store and a clock of the second gateway's own; without them the names of its table and its usage are these."""
    words = ["differ", "next.list", "next.list", "train", "7000", "behind", "last", "1000", "1"]
    first, second, names_2 = "first-form2", "second-form2", names + " telegram_2 version_2 age_2 gap_2"
    # what one believes that heard vehicle 1 itself, and one behind a gateway with last year's list
    yield words, as_in("differ-behind")
    yield words + ["only"], as_in("differ-behind-only")
    for both in (["only", "table"], ["table", "only"]):
        yield words + both, as_in("differ-behind-only-table")
    # all that either has heard, expired, never heard or in time there, by another list
    across = ["differ", "across.list", "across-2.list"]
    yield across + ["train", CLOCK, "behind", "parked", "9500"], as_in("differ-behind-expired")
    yield across + ["train", CLOCK, "behind", "parked", "9500", "table"], as_in("differ-behind-expired-table")
    yield across + ["last", "600", "behind", "gaps", CLOCK], as_in("differ-behind-gaps")
    yield across + ["gaps", CLOCK, "behind", "last", "600", "only"], as_in("differ-behind-gaps-turned")
    alone = ["differ", "L.list", "L.list", "store", CLOCK, "behind"]
    head = "first  'L.list' signals 1 version 1\nsecond 'L.list' signals 1 version 1\n"
    yield alone + ["last", "600"], says(
        head + "vehicle 1: never heard | R1 version 2 age 100 ms gap 500 ms\n"
        "*  1  R1 octet 54 bits 0-3                  0  2 never heard             |               3  0 live ok\n"
        "vehicle 1 differs on 1 of 1 lines\nnever heard: 2-63\ndiffer: 1 of 1 lines")
    yield ["differ", "L.list", "L.list", "last", "600", "behind", "store", CLOCK, "table"], table(names_2, "1 R1 2 100 R1 424 1 4 3 0 4 0 2 500 - - - - - - -")
    yield alone + ["last", "499", "1", "only"], says(
        head + "vehicle 1: never heard | R1 version 2 age 4294967295 ms (stamp after the clock) gap 500 ms\n"
        "*  1  R1 octet 54 bits 0-3                  0  2 never heard             |               0  3 too old\n"
        "vehicle 1 differs on 1 of 1 lines\ndiffer: 1 of 1 lines")
    yield alone + ["store", "0"], says(head + "never heard: 1-63\ndiffer: 0 of 0 lines")
    yield alone + ["store", "0", "63"], says(
        head + "vehicle 63: never heard | never heard\n  63  R1 octet 54 bits 0-3                  0  2 never heard             |               0  2 never heard\n"
        "vehicle 63 differs on 0 of 1 lines\ndiffer: 0 of 1 lines")
    yield alone + ["store", "0", "63", "table"], table(names_2, "63 - - - R1 424 0 4 0 2 4 0 2 - - - - - - - -")
    # the same store at the same clock, and at another
    same = ["differ", "coach.list", "next.list", "train", CLOCK, "behind", "train"]
    yield same + [CLOCK, "1", "only", "table"], table(
        names_2, *(f"1 R1 3 3000 R1 {row} 6000 - - - R1 3 3000 6000" for row in ("380 1 4 0 8 4 2 0", "424 1 4 3 0 4 15 3", "524 1 - - - 4 2 0")))
    yield same + ["7000", "1", "table", "only"], table(
        names_2, *(f"1 R1 3 3000 R1 {row} 6000 - - - R1 3 1000 6000" for row in ("380 1 4 0 8 4 2 0", "524 1 - - - 4 2 0")))
    # with a list in form 2, or both, and in a unit
    numbers_2 = names_2.replace("gap ", "gap serial_1 serial_2 ")
    yield ["differ", "L.form2", "L.moved", "train", CLOCK, "behind", "last", "600", "1", second, "table", first], table(
        numbers_2, "1 R1 3 3000 R1 424 0 4 3 0 4 3 0 6000 10.1R - - - - R1 2 100 500")
    yield ["differ", "coach-2.list", "next-2.list", "train", "7000", "behind", "last", "600", "1", second, "only", first], as_in("differ-behind-form2")
    yield ["differ", "units.list", "units-2.list", "units-heard", CLOCK, "behind", "train", CLOCK, "3"], as_in("differ-behind-units")
    # the words elsewhere, or not all of them
    yield words[:6], error(f"VEHICLE 'behind': {MOST}")
    yield words[:7], error("usage: " + text)
    yield words[:5] + ["1"] + words[5:8], error("usage: " + text)
    yield words[:5] + ["only"] + words[5:8], error("usage: " + text)
    yield words[:5] + ["behind"] + words[5:7], error(f"CLOCK 'last': {MOST}")
    yield words[:6] + ["only", "1000"], error("second STORE 'only': " + NO_FILE)
    yield words[:8] + ["only", "1"], error(f"VEHICLE 'only': {MOST}")
    yield words[:8] + ["behind", "last", "1000"], error("usage: " + text)
    yield words + ["1"], error("usage: " + text)
    # the first list, the second, the first store, the second, the vehicle
    for refuse, at, file in ((NO_STORE, 3, "store-1"), (OLDER, 3, "store-older"), (NO_STORE, 6, "store+1"), (OLDER, 6, "store-older"), (NO_STORE, 6, "r1")):
        bad = words[:at] + [file] + words[at + 1:8] + ["64"]
        yield bad, refused(refuse.replace("5:", "5 (first store):" if at == 3 else "5 (second store):", 1))
    yield words[:3] + ["store-1", CLOCK, "behind", "store+1", CLOCK], refused(NO_STORE.replace("5:", "5 (first store):"))
    yield words[:8] + ["64"], refused("6: vehicle not 1-63")
    yield words[:8] + ["0", "table"], refused("6: vehicle not 1-63")
    yield from no_list(words[:3] + ["store-1", CLOCK, "behind", "store-1", CLOCK], 1, "first LIST", " (first list)")
    yield from no_list(words[:3] + ["store-1", CLOCK, "behind", "store-1", CLOCK], 2, "second LIST", " (second list)")
    yield from no_file("STORE", words, 3)
    yield from no_file("second STORE", words, 6)
    yield from no_number("CLOCK", words, 4)
    yield from no_number("CLOCK", words, 7)
    yield from no_number("VEHICLE", words, 8)


def marshal_table():
    words = ["marshal", "coach.list", "train", CLOCK, "bus"]
    routed = bytes.fromhex("F334 2000 2800 3F FF 1B58 2800 000000000000")
    yield ["marshal", "help"], as_in("marshal-help")
    text = "marshal LIST STORE CLOCK DATA [routes] [table] [anyway] [form2]"
    yield from usage("marshal", (4,), text)
    for behind in (["route"], ["routes", "routes"], ["table", "table"], ["anyway", "x"], ["routes", "table", "routes"], ["routes", "anyway", "routes"],
                   ["form2", "form2"], ["form1"], ["routes", "form2", "table", "form2"], ["routes", "table", "anyway", "form2", "routes"]):
        yield words + behind, error("usage: " + text)
    yield words[:4] + ["form2"], error("DATA 'form2': " + NO_FILE)
    yield words[:4] + ["form2", "bus"], error("usage: " + text)
    yield words, says("marshalled 14 routes, 11 live", bus=routed + b"\xff\xff")
    yield words + ["routes"], as_in("marshal-routes", bus=routed + b"\xff\xff")
    for behind in (["table"], ["routes", "table"], ["table", "routes"]):
        yield words + behind, as_in("marshal-table", bus=routed + b"\xff\xff")
    yield ["marshal", "across-2.list", "train", CLOCK, "empty", "table"], table("route data_start vehicle signal type start width value reason shown unit")
    yield words[:4] + ["bus-18"], says("marshalled 14 routes, 11 live", bus_18=routed)
    yield ["marshal", "next.list", "train", CLOCK, "bus"], says("marshalled 14 routes, 10 live", bus=routed[:1] + b"\xf4" + routed[2:] + b"\xff\xff")
    yield ["marshal", "coach.list", "store", CLOCK, "bus"], says("marshalled 14 routes, 0 live", bus=b"\x03\x00" + bytes(4) + b"\x0f\xff" + bytes(10) + b"\xff\xff")
    yield ["marshal", "coach.list", "parked", CLOCK, "bus"], says("marshalled 14 routes, 0 live", bus=b"\x03\x00" + bytes(4) + b"\x0f\xff" + bytes(10) + b"\xff\xff")
    yield ["marshal", "across.list", "train", CLOCK, "bus", "routes"], as_in("marshal-across", bus=b"\xf8\xa2\x20" + b"\xff" * 17)
    # 64 bits in eight octets, in nine, and up to bit 2048; a replacement has leading zeros, and no neighbour's bit is changed
    live = ((0, 64, MOST_64), (133, 49, 2**49 - 1), (1984, 64, MOST_64))
    replaced = ((0, 64, 0x010203040506), (68, 64, 0x010203040506), (133, 49, 0), (1984, 64, 7))
    yield ["marshal", "wide.list", "wide-heard", CLOCK, "bus-256", "routes"], as_in("marshal-wide", bus_256=put(FILES["bus-256"], (68, 64, 0x010203040506), *live))
    yield ["marshal", "wide.list", "wide-heard", CLOCK, "bus-256", "table"], as_in("marshal-wide-table", bus_256=put(FILES["bus-256"], (68, 64, 0x010203040506), *live))
    yield ["marshal", "wide.list", "store", CLOCK, "bus-256"], says("marshalled 4 routes, 0 live", bus_256=put(FILES["bus-256"], *replaced))
    yield ["marshal", "wide.list", "store", CLOCK, "bus-18"], refused("12: data shorter than a route's end: 18 octets, 256 needed")
    yield ["marshal", "long.list", "store", CLOCK, "bus-256", "routes"], as_in("marshal-long", bus_256=put(FILES["bus-256"], (1999, 48, 2**48 - 1)))
    yield ["marshal", "longest.list", "full", CLOCK, "bus-4096"], says("marshalled 512 routes, 0 live", bus_4096=bytes(256) + b"\xff" * 3840)
    yield words[:4] + ["bus-17"], refused("12: data shorter than a route's end: 17 octets, 18 needed")
    yield words[:4] + ["bus-17", "table"], refused("12: data shorter than a route's end: 17 octets, 18 needed")
    yield words[:4] + ["empty"], refused("12: data shorter than a route's end: 0 octets, 18 needed")
    yield ["marshal", "longest.list", "full", CLOCK, "bus"], refused("12: data shorter than a route's end: 20 octets, 256 needed")
    yield ["marshal", "L.list", "full", CLOCK, "empty"], refused("12: data shorter than a route's end: 0 octets, 1 needed")
    yield ["marshal", "coach.list", "store-1", CLOCK, "empty"], refused(NO_STORE)
    yield ["marshal", "coach.list", "store-older", CLOCK, "empty"], refused(OLDER)
    yield words[:4] + ["bus-4097"], error("DATA 'bus-4097': more than 4096 octets")
    yield words[:4] + ["none"], error("DATA 'none': " + NO_FILE)
    yield words[:4] + ["folder"], error("DATA 'folder': is a folder")
    yield words[:4] + ["locked"], error("DATA 'locked.new': " + LEFT)
    yield words[:4] + ["gone"], Expect("error: DATA 'gone': more than 4096 octets\n", gone_dot_new=None, gone_dot_lock=None)
    yield words[:4] + ["none/x"], error("DATA 'none/x': " + NO_FILE)
    # nothing that was given by mistake is written over, and bus data of a telegram's length only where they are said to be that
    for file in ("L.list", "next.list", "across.list", "list-40", "list-128", "L.form2", "L.moved", "coach-2.list", "across.form2"):
        yield words[:4] + [file], error(f"DATA '{file}': {LIST}")
        yield words[:4] + [file, "anyway"], error(f"DATA '{file}': {LIST}")
    for file in ("coach.list", "train"):
        yield words[:4] + [file], error(f"DATA '{file}': {TWICE}")
    for file in ("r1", "r2", "r3", "bus-40", "bus-128", "zeros-128"):
        yield words[:4] + [file], error(f"DATA '{file}': {AS_LONG}")
    yield words[:4] + ["bus-40", "anyway"], says("marshalled 14 routes, 11 live", bus_40=routed + b"\xff" * 22)
    yield words[:4] + ["zeros-128", "anyway"], says("marshalled 14 routes, 11 live", zeros_128=bytes.fromhex("F034 2000 2800 30 00 1B58 2800") + bytes(116))
    yield words + ["anyway"], says("marshalled 14 routes, 11 live", bus=routed + b"\xff\xff")
    for both in (["routes", "anyway"], ["anyway", "routes"]):
        yield words + both, as_in("marshal-routes", bus=routed + b"\xff\xff")
    yield ["marshal", "across.list", "train", CLOCK, "zeros-8"], says("marshalled 2 routes, 2 live", zeros_8=b"\x08\xa2\x20" + bytes(5))
    # in form 2: the same data, and the serial number beside the place
    words_2 = ["marshal", "coach-2.list", *words[2:], "form2"]
    yield words_2, says("marshalled 14 routes, 11 live", bus=routed + b"\xff\xff")
    for behind in (["routes"], ["anyway", "routes"]):
        yield words_2 + behind, as_in("marshal-form2", bus=routed + b"\xff\xff")
    yield words_2 + ["table"], as_in("marshal-form2-table", bus=routed + b"\xff\xff")
    yield ["marshal", "L.moved", "train", CLOCK, "zeros-8", "table", "form2"], table(
        "route data_start vehicle signal type start width value reason serial shown unit", "0 0 1 0 R1 424 4 3 0 - - -", zeros_8=b"\x30" + bytes(7))
    # in a unit; what is written are the raw values
    shown = ["marshal", "units.list", "units-heard", CLOCK, "bus-256"]
    raw = (1, 32768, 10240, 32768, 49152, 65535, 32767, 65535, 49151, 16384, 32769, 1, 1)
    written = put(FILES["bus-256"], *((16 * k, 16, value) for k, value in enumerate(raw)))
    yield shown, says("marshalled 13 routes, 12 live", bus_256=written)
    yield shown + ["routes"], as_in("marshal-units", bus_256=written)
    yield shown + ["table"], as_in("marshal-units-table", bus_256=written)
    yield ["marshal", "units.form2", *shown[2:], "routes", "form2"], as_in("marshal-units-form2", bus_256=written)
    yield ["marshal", "units.form2", *shown[2:], "table", "form2"], as_in("marshal-units-form2-table", bus_256=written)
    beside = put(FILES["bus-256"], (0, 15, 0), (16, 16, 0), (32, 15, 16384), (48, 16, 0))
    yield ["marshal", "beside.list", *shown[2:], "routes"], as_in("marshal-beside", bus_256=beside)
    yield ["marshal", "beside.list", *shown[2:], "table"], as_in("marshal-beside-table", bus_256=beside)
    yield words + ["form2"], refused("3 at 118: entry breaks its rule")
    yield words_2[:-1], refused("3 at 116: entry breaks its rule")
    yield ["marshal", "ends.form2", "store-1", CLOCK, "none", "form2"], refused("1 at 38: list ends inside a count or a section")
    yield words_2[:4] + ["bus-17", "form2"], refused("12: data shorter than a route's end: 17 octets, 18 needed")
    yield from no_list(["marshal", "L.list", "store-1", CLOCK, "none"], 1)
    yield from no_file("STORE", words, 2)
    yield from no_number("CLOCK", words, 3)


def values(**files):
    return {name.replace("_", "-"): text.encode() for name, text in files.items()}


VALUES = values(
    v_L="\n  # a comment\n\tvalue 0 4 # 25 kV\r\nmark 1 forced", v_last="value 0 99\nvalue 0 4\nmark 1 0\nmark 1 2\n", v_wide="value 0 16\n", v_unknown="value 0 7\n",
    v_mark="mark 1 4\n", v_mark_words="mark 1 good\n", v_mark_256="mark 1 256\n", v_signal="value 1 0\n", v_signal_word="\nvalue x 0\n", v_check="mark 2 ok\n",
    v_check_0="mark 0 ok\n", v_word="vale 0 4\n", v_few="value 0\n", v_many="value 0 4 5\n", v_value="value 0 -1\n", v_large="value 0 18446744073709551616\n",
    v_place="value R1 octet 54 bits 0-3 4\nmark octet 41 bits 2-3 forced\n", v_start="value R1 start 424 4 # 25 kV\n mark  start\t322 2",
    v_place_last="value R1 octet 54 bits 0-3 5\nvalue 0 6\nvalue R1 start 424 4\nmark 1 ok\nmark octet 41 bits 2-3 forced\n",
    v_three="value R1 octet 47 bit 4 to 48 bit 7 2210\nvalue R1 octet 49 32\nvalue R1 octets 51-52 258\n", v_neighbour="value R2 octet 53 bits 0-3 3\n",
    v_four="value R1 octet 54 bits 0-2 4\n", v_other_type="\nvalue R2 octet 54 bits 0-3 4\n", v_bit="value R1 octet 54 bit 0 1\n", v_beside="value R1 start 425 1\n",
    v_place_15="value R1 octet 54 bits 0-3 16\n", v_place_value="value R1 octet 54 bits 0-3 x\n", v_check_beside="mark octet 41 bits 4-5 ok\n",
    v_place_mark="mark octet 41 bits 2-3 good\n",
    v_64="value R3 octets 33-40 9223372036854775808\nvalue 1 18446744073709551615\nvalue R1 octet 62 bit 1 to 68 bit 1 562949953421311\n"
         "value R1 start 539 9223372036854775807\nvalue R1 octet 88 bits 4-7 9\nvalue R1 octet 120 bit 3 to 128 bit 2 18446744073709551615\nmark octet 41 bits 0-1 forced\n",
    v_49="value 2 562949953421312\n", v_63="value 3 9223372036854775808\n", v_2_64="value 1 18446744073709551616\n",
    v_most="value 0 18446744073709551615\n", v_both="mark 1 4\nvalue 0 16\n", v_long="#" * 65537, v_65536="#" * 65536, v_zero="value 90 3\n",
)


# no places, and none of a check
NO_PLACES = [
    "R4 octet 54 bits 0-3", "octet 54 bits 0-3", "R1 octet 54 bits 0-8", "R1 octet 54 bits 3-0", "R1 octet 54 bits 0", "R1 octet 54 bits -3", "R1 octet 54 bits 0-",
    "R1 octet 54 bits 0-3 4", "R1 octet 54 bit 8", "R1 octet 0", "R1 octet 129", "R1 octets 54", "R1 octets 55-54", "R1 octets 54-129", "R1 start 1024", "R1 start -1",
    "R1 start x", "R1 begin 424", "R1 octet 47 bit 4 to 46 bit 7", "R1 octet 47 bit 4 to 48 bits 7", "R1 octet 47 bit 4 till 48 bit 7", "r1 octet 54 bits 0-3", "R1 54",
    "R1 octet 99999999999999999999", "R1 octet 54 bits 0-3-3",
]
NO_CHECK_PLACES = ["R1 octet 41 bits 2-3", "octet 41", "octet 41 bit 2", "octet 41 bits 2-4", "octet 41 bits 3-2", "start 1024", "octets 41-41", "41 bits 2-3"]
VALUES.update({f"no-place-{k}": f"value {place} 4\n".encode() for k, place in enumerate(NO_PLACES)})
VALUES.update({f"no-check-{k}": f"# the checks\nmark {place} ok\n".encode() for k, place in enumerate(NO_CHECK_PLACES)})


def compose_table():
    def line(file, n, what):
        return ["compose", "L.list", "R1", file, "out"], error(f"VALUES '{file}' line {n}: {what}")

    words = ["compose", "next.list", "R1", "values", "out"]
    neither = "neither `value PLACE VALUE` nor `mark PLACE MARK`"
    place, check_place = "no place, as `R1 octet 54 bits 0-3` or `R1 start 424`", "no place, as `octet 41 bits 2-3` or `start 322`"
    forced = bytes.fromhex("1101") + bytes(38) + b"\x20" + bytes(12) + b"\x40" + bytes(74)
    plain = bytes.fromhex("1101") + bytes(38) + b"\x10" + bytes(87)
    yield ["compose", "help"], as_in("compose-help")
    yield from usage("compose", (4,), "compose LIST TYPE VALUES OUT [form2]")
    yield words, says("composed R1 version 3 octets 128", out=R1)
    yield words[:2] + ["1", "values", "r3"], says("composed R1 version 3 octets 128", r3=R1)
    yield words[:4] + ["r2"], says("composed R1 version 3 octets 128", r2=R1)
    for file in ("store", "coach.list", "v-L", "bus", "empty", "r1-127", "r1-129", "bus-40", "bus-128", "list-40", "list-128", "app", "kind", "r3-128"):
        yield words[:4] + [file], error(f"OUT '{file}': {NO_TELEGRAM}")
    for file in ("next.list", "values"):
        yield words[:4] + [file], error(f"OUT '{file}': {TWICE}")
    yield ["compose", "L.list", "R1", "v-L", "out"], says("composed R1 version 1 octets 128", out=forced)
    yield ["compose", "L.list", "R1", "v-last", "out"], says("composed R1 version 1 octets 128", out=forced)
    yield ["compose", "L.list", "R1", "empty", "out"], says("composed R1 version 1 octets 128", out=plain)
    yield ["compose", "L.list", "R1", "v-65536", "out"], says("composed R1 version 1 octets 128", out=plain)
    yield ["compose", "L.list", "R3", "v-wide", "out"], says(
        "composed R3 version 1 octets 40\nnote: VALUES 'v-wide' line 1: R1 octet 54 bits 0-3 is not carried by R3", out=b"\x13\x01" + bytes(38))
    yield ["compose", "L.list", "R2", "v-unknown", "out"], says(
        "composed R2 version 1 octets 128\nnote: VALUES 'v-unknown' line 1: R1 octet 54 bits 0-3 is not carried by R2", out=b"\x12\x01" + plain[2:])
    for file in ("v-place", "v-start", "v-place-last"):
        yield ["compose", "L.list", "R1", file, "out"], says("composed R1 version 1 octets 128", out=forced)
    yield ["compose", "L.list", "R2", "v-place-last", "out"], says(
        "composed R2 version 1 octets 128" + "".join(f"\nnote: VALUES 'v-place-last' line {n}: R1 octet 54 bits 0-3 is not carried by R2" for n in (1, 2, 3)),
        out=b"\x12\x01" + forced[2:53] + bytes(75))
    yield ["compose", "across.list", "R1", "v-three", "out"], says("composed R1 version 1 octets 128", out=b"\x11\x01" + bytes(44) + bytes.fromhex("08A2 20 00 0102") + bytes(76))
    # every value in 64 bits, and in fewer none at 2^width; what is not given is the replacement
    yield ["compose", "wide.list", "R1", "v-64", "out"], says("composed R1 version 1 octets 128", out=R1_WIDE)
    yield ["compose", "wide.list", "R2", "empty", "out"], says(
        "composed R2 version 1 octets 128", out=put(b"\x12\x01" + bytes(126), (320, 2, 1), (256, 64, 2**48 - 1)))
    yield ["compose", "wide.list", "R3", "v-2-64", "out"], error("VALUES 'v-2-64' line 1: value not a whole number below 2^64")
    for file, k in (("v-49", 2), ("v-63", 3)):
        yield ["compose", "wide.list", "R1", file, "out"], refused(f"15 signal {k}: a written value at or above 2^width, or its code not known")
    # one place is the same signal under a list and its neighbour, where its number is another's
    for name, version in (("coach.list", 2), ("next.list", 3)):
        yield ["compose", name, "R2", "v-neighbour", "out"], says(f"composed R2 version {version} octets 128", out=scene.telegram("R2", version, {"R2": {416: 3}}))
    for k in range(len(NO_PLACES)):
        yield line(f"no-place-{k}", 1, place)
    for k in range(len(NO_CHECK_PLACES)):
        yield line(f"no-check-{k}", 2, check_place)
    yield line("v-four", 1, "no such signal")
    yield line("v-other-type", 2, "no such signal")
    yield line("v-bit", 1, "no such signal")
    yield line("v-beside", 1, "no such signal")
    yield line("v-check-beside", 1, "no check there that a signal names")
    yield line("v-place-value", 1, "value not a whole number below 2^64")
    yield line("v-place-mark", 1, "mark not error, ok, forced, undefined or 0 to 3")
    yield ["compose", "L.list", "R1", "v-place-15", "out"], refused("15 signal 0: a written value at or above 2^width, or its code not known")
    yield ["compose", "L.list", "4", "v-both", "out"], refused("9: telegram type not 1-3")
    yield ["compose", "L.list", "0", "empty", "out"], refused("9: telegram type not 1-3")
    yield ["compose", "L.list", "R1", "v-mark", "out"], refused("14: a written mark above 3")
    yield ["compose", "L.list", "R1", "v-both", "out"], refused("14: a written mark above 3")
    for file in ("v-wide", "v-unknown", "v-most"):
        yield ["compose", "L.list", "R1", file, "out"], refused("15 signal 0: a written value at or above 2^width, or its code not known")
    yield ["compose", "coach.list", "R1", "v-zero", "out"], refused("15 signal 90: a written value at or above 2^width, or its code not known")
    yield line("v-word", 1, neither)
    yield line("v-many", 1, place)
    yield line("v-few", 1, neither)
    yield line("v-value", 1, "value not a whole number below 2^64")
    yield line("v-large", 1, "value not a whole number below 2^64")
    yield line("v-signal", 1, "no such signal")
    yield line("v-signal-word", 2, "no such signal")
    yield line("v-check", 1, "no such check")
    yield line("v-check-0", 1, "no such check")
    yield line("v-mark-words", 1, "mark not error, ok, forced, undefined or 0 to 3")
    yield line("v-mark-256", 1, "mark not error, ok, forced, undefined or 0 to 3")
    yield line("r1", 1, neither)
    yield ["compose", "L.list", "R1", "v-long", "out"], error("VALUES 'v-long': more than 65536 octets")
    yield ["compose", "L.list", "R4", "v-word", "out"], error("TYPE 'R4': not R1, R2 or R3, nor 1 to 3")
    yield ["compose", "L.list", "", "v-word", "out"], error("TYPE '': not R1, R2 or R3, nor 1 to 3")
    yield words[:4] + ["locked"], error("OUT 'locked.new': " + LEFT)
    yield words[:4] + ["none/x"], error("OUT 'none/x.lock': " + NO_FILE)
    yield words[:4] + ["folder"], error("OUT 'folder': is a folder")
    yield words[:4] + [""], error("OUT '': " + NO_FILE)
    # in form 2: the same telegram, and the serial number in a note
    yield ["compose", "next-2.list", *words[2:], "form2"], says("composed R1 version 3 octets 128", out=R1)
    for file, serial in (("L.form2", "10.1R"), ("L.moved", "no serial number")):
        yield ["compose", file, "R3", "v-wide", "out", "form2"], says(
            f"composed R3 version 1 octets 40\nnote: VALUES 'v-wide' line 1: R1 octet 54 bits 0-3 ({serial}) is not carried by R3", out=b"\x13\x01" + bytes(38))
    yield ["compose", "L.form2", "R1", "v-place-15", "out", "form2"], refused("15 signal 0: a written value at or above 2^width, or its code not known")
    yield ["compose", "L.form2", "R1", "v-bit", "out", "form2"], error("VALUES 'v-bit' line 1: no such signal")
    yield ["compose", "next-2.list", "R1", "empty", "form2"], refused("3 at 116: entry breaks its rule")
    yield words + ["form2"], refused("3 at 118: entry breaks its rule")
    for behind in (["form2", "form2"], ["form1"], ["table"], ["form2", "x"]):
        yield words + behind, error("usage: compose LIST TYPE VALUES OUT [form2]")
    yield words[:4] + ["form2", "out"], error("usage: compose LIST TYPE VALUES OUT [form2]")
    yield from no_list(["compose", "L.list", "R1", "v-word", "out"], 1)
    yield from no_file("VALUES", words, 3)


def relay_table():
    def relayed(octets, live, carried, out="out"):
        return says(f"relayed R{octets[0] % 16} version {octets[1]} octets {len(octets)}, live {live} of {carried} signals", **{out: octets})

    def made(kind, *fields, version=1):
        return put(bytes([0x10 + kind, version]) + bytes(38 if kind == 3 else 126), *fields)

    def nothing(kind):
        """All that coach.list has, replaced and marked error."""
        return scene.telegram(kind, 2, {}, {place: scene.ERROR for place in scene.CHECKS})

    words = ["relay", "coach.list", "train", "7000", "1", "out"]
    text = "relay LIST STORE CLOCK VEHICLE OUT [form2]"
    yield ["relay", "help"], as_in("relay-help")
    yield from usage("relay", (5,), text)
    # vehicle 1 says one code that coach.list does not know; of 2 a mark is error; 3 speaks version 1
    yield words, relayed(RELAYED, 128, 129)
    yield ["relay", "coach.list", "train", CLOCK, "2", "out"], relayed(scene.relayed(R2), 115, 116)
    yield ["relay", "coach.list", "train", "6000", "3", "out"], relayed(scene.relayed(R3), 17, 80)
    # in time, too old, with a stamp after the clock, and expired
    yield ["relay", "coach.list", "train", "11000", "1", "out"], relayed(RELAYED, 128, 129)
    for store, clock, vehicle, kind, carried in (("train", "11001", 1, "R1", 129), ("train", "5999", 1, "R1", 129), ("train", "6001", 3, "R3", 80), ("parked", CLOCK, 1, "R1", 129), ("parked", "7500", 2, "R2", 116)):
        yield ["relay", "coach.list", store, clock, str(vehicle), "out"], relayed(nothing(kind), 0, carried)
    yield ["relay", "unlimited.list", "parked", CLOCK, "1", "out"], relayed(made(1, (384, 8, 32)), 1, 2)
    # what was relayed is heard, believed and relayed again
    yield ["take", "store", "1", "500", "relayed"], says("taken R1 version 2 vehicle 1 at 500", store=LAST)
    yield ["believe", "next.list", "last", "1000"], as_in("believe-relayed")
    lost = sum(row["check"] == "320" and row["telegram"] in ("R3", "R1") for row in rows_of_signals())
    yield ["relay", "coach.list", "last", "1000", "1", "out"], relayed(scene.relayed(RELAYED), 129 - lost, 129)
    # a mark of each kind; a code that is not known; a type that carries nothing under the check, and one that has not the check either
    for vehicle, mark, value in ((1, 0, 0), (2, 1, 4), (3, 2, 4), (4, 0, 0), (5, 0, 0)):
        yield ["relay", "L.list", "under-L", CLOCK, str(vehicle), "out"], relayed(made(1, (322, 2, mark), (424, 4, value)), int(value > 0), 1)
    for vehicle, kind in ((6, 2), (7, 3)):
        yield ["relay", "L.list", "under-L", CLOCK, str(vehicle), "out"], relayed(made(kind), 0, 0)
    # all that is under a check, or some, or nothing; a signal under none is as live as it is
    for vehicle, live, *values in ((1, 3, 2, 1, 2, 3), (2, 2, 0, 1, 6, 3), (3, 1, 0, 5, 6, 3)):
        octets = made(1, *((start, width, value) for start, width, value in zip((322, 424, 440, 448), (2, 4, 4, 4), values)), version=2)
        yield ["relay", "two.list", "under-two", CLOCK, str(vehicle), "out"], relayed(octets, live, 3)
    # a replacement that is no code that is known: where it would go out, and where its signal is not carried
    for clock, vehicle in ((CLOCK, 4), ("11001", 1), ("11001", 4)):
        yield ["relay", "two.list", "under-two", clock, str(vehicle), "store"], refused("15 signal 2: a written value at or above 2^width, or its code not known")
    yield ["relay", "two.list", "under-two", "11001", "5", "out"], relayed(made(2, version=2), 0, 0)
    # no check at all: every value goes out, up to 64 bits
    yield ["relay", "wide.list", "wide-heard", CLOCK, "1", "out"], relayed(R1_WIDE, 6, 6)
    yield ["relay", "units.list", "units-heard", CLOCK, "4", "out"], relayed(R2_UNITS, 8, 8)
    yield ["relay", "zeros-8", "train", CLOCK, "3", "out"], relayed(made(3), 0, 0)
    # nothing was heard, or what was has no type
    for store, vehicle in (("train", 4), ("store", 1), ("gaps", 5), ("octets", 2), ("octets", 6), ("octets", 7), ("octets", 10)):
        yield ["relay", "coach.list", store, CLOCK, str(vehicle), "store"], refused("9: telegram type not 1-3")
    yield ["relay", "coach.list", "octets", CLOCK, "3", "out"], relayed(nothing("R1"), 0, 129)
    for vehicle in ("0", "64", "4294967295"):
        yield ["relay", "coach.list", "train", CLOCK, vehicle, "store"], refused("6: vehicle not 1-63")
    for file, line in (("store-1", NO_STORE), ("store+1", NO_STORE), ("r1", NO_STORE), ("store-older", OLDER)):
        yield ["relay", "coach.list", file, CLOCK, "64", "store"], refused(line)
    yield from no_list(["relay", "L.list", "store-1", CLOCK, "64", "store"], 1)
    # over a telegram, and over nothing else
    for file in ("r1", "r2", "r3"):
        yield words[:5] + [file], relayed(RELAYED, 128, 129, file)
    for file in ("store", "next.list", "v-L", "bus", "empty", "r1-127", "r1-129", "bus-40", "bus-128", "list-40", "list-128", "app", "kind", "r3-128", "last"):
        yield words[:5] + [file], error(f"OUT '{file}': {NO_TELEGRAM}")
    for file in ("coach.list", "train"):
        yield words[:5] + [file], error(f"OUT '{file}': {TWICE}")
    yield words[:5] + ["locked"], error("OUT 'locked.new': " + LEFT)
    yield words[:5] + ["none/x"], error("OUT 'none/x.lock': " + NO_FILE)
    yield words[:5] + ["folder"], error("OUT 'folder': is a folder")
    yield words[:5] + [""], error("OUT '': " + NO_FILE)
    # in form 2 the same telegram
    yield ["relay", "coach-2.list", *words[2:], "form2"], relayed(RELAYED, 128, 129)
    yield ["relay", "L.moved", "under-L", CLOCK, "3", "out", "form2"], relayed(UNDER_L[2][:1] + b"\x01" + UNDER_L[2][2:], 1, 1)
    yield ["relay", "two.form2", "under-two", CLOCK, "4", "out", "form2"], refused("15 signal 2: a written value at or above 2^width, or its code not known")
    yield ["relay", "coach-2.list", *words[2:]], refused("3 at 116: entry breaks its rule")
    yield words + ["form2"], refused("3 at 118: entry breaks its rule")
    for behind in (["form2", "form2"], ["form1"], ["table"], ["form2", "x"]):
        yield words + behind, error("usage: " + text)
    yield words[:5] + ["form2", "out"], error("usage: " + text)
    yield words[:5] + ["form2"], says("relayed R1 version 2 octets 128, live 128 of 129 signals", form2=RELAYED)
    yield from no_file("LIST", words, 1)
    yield from no_file("STORE", words, 2)
    yield from no_number("CLOCK", words, 3)
    yield from no_number("VEHICLE", words, 4)


def compared(*lines):
    """Lines of columns, and the verdict."""
    return says("\n".join([line.replace(" ", "\t") for line in lines[:-1]] + [lines[-1]]))


def compare_table():
    words = ["compare", "coach.list", "next.list"]
    text = "compare FIRST SECOND [first-form2] [second-form2] [table]"
    first, second = "first-form2", "second-form2"
    yield ["compare", "help"], as_in("compare-help")
    yield from usage("compare", (2,), text)
    # the real list beside its successor, one that is none, one with a validity pair a place off, and itself; and turned round
    for name in ("next", "wrong", "off"):
        yield ["compare", "coach.list", f"{name}.list"], as_in(f"compare-{name}")
        yield ["compare", f"{name}.list", "coach.list"], as_in(f"compare-{name}-turned")
    for name in ("coach.list", "L.list", "longest.list", "zeros-8"):
        yield ["compare", name, name], says("extends: yes")
        yield ["compare", name, name, "table"], says("extends: yes")
    yield ["compare", "coach.list", "wrong.list", "table"], as_in("compare-wrong-table")
    yield ["compare", "coach.list", "off.list", "table"], compared("what change type start breaks field from to", "signal changed R1 424 2 check 322 324", "extends: no")
    yield ["compare", "L.list", "counters.list"], as_in("compare-counters")
    yield ["compare", "L.list", "counters.list", "table"], as_in("compare-counters-table")
    yield ["compare", "coach.list", "L.list"], as_in("compare-L")
    # either list in form 2 or both: a line has the serial numbers of those that are, both where they differ
    yield ["compare", "coach.list", "coach-2.list", second], says("extends: yes")
    yield ["compare", "coach-2.list", "coach.list", first, "table"], says("extends: yes")
    for behind in ([first, second], [second, first]):
        yield ["compare", "coach-2.list", "coach-2.list", *behind], says("extends: yes")
        yield ["compare", "coach-2.list", "next-2.list", *behind], as_in("compare-form2")
    yield ["compare", "coach-2.list", "next-2.list", second, "table", first], as_in("compare-form2-table")
    yield ["compare", "coach-2.list", "wrong.list", first], as_in("compare-form2-first")
    yield ["compare", "off.list", "coach-2.list", "table", second], compared(
        "what change type start serial_1 serial_2 breaks field from to", "signal changed R1 424 - 4.3 2 check 324 322", "extends: no")
    # a list that is refused, the first of two, and nothing is compared
    entry = ": check 1, octet 3 bits 1-2, rule 1: its address is odd"
    for behind in ([], ["table"]):
        yield from no_list(words + behind, 1, "FIRST", " (first list)", entry)
        yield from no_list(words + behind, 2, "SECOND", " (second list)", entry)
    yield ["compare", "broken.list", "ends.list"], refused(f"3 at 2 (first list): entry breaks its rule{entry}")
    yield ["compare", "ends.list", "broken.list"], refused("1 at 36 (first list): list ends inside a count or a section")
    yield ["compare", "none", "broken.list"], error(f"FIRST 'none': {NO_FILE}")
    yield ["compare", "broken.list", "none"], error(f"SECOND 'none': {NO_FILE}")
    # a list in form 1 said to be in form 2, and the other way round
    yield ["compare", "coach.list", "coach-2.list"], refused("3 at 116 (second list): entry breaks its rule: signal 1, type 65 octet 1 bit 0, rule 1: width not 1-64")
    yield ["compare", "L.form2", "L.list", first, second], refused("4 at 28 (second list): octets after the routes")
    # words that are misplaced, given twice, unknown
    for bad in (["table", "table"], [first, "table", first], ["form2"], ["only"], [second, "tables"], ["coach.list", "table"]):
        yield words + bad, error("usage: " + text)
    yield ["compare", "table", "coach.list", "next.list"], error("usage: " + text)
    yield ["compare", "coach.list", "table"], error(f"SECOND 'table': {NO_FILE}")
    yield ["compare", "table", "coach.list"], error(f"FIRST 'table': {NO_FILE}")


def convert_table():
    words = ["convert", "coach.list", "form2", "out"]
    yield ["convert", "help"], as_in("convert-help")
    yield from usage("convert", (3,), "convert LIST FORM OUT")
    # there, and back to the same octets
    for name in ("coach.list", "next.list", "L.list", "across.list", "wide.list", "longest.list"):
        moved, count = FILES[name.replace(".list", ".moved")], len(signals_of(FILES[name], 16))
        yield ["convert", name, "form2", "out"], says(f"moved to form 2: {count} signals, {len(moved)} octets", out=moved)
        yield ["convert", name.replace(".list", ".moved"), "form1", "out"], says(f"moved to form 1: {count} signals, {len(FILES[name])} octets", out=FILES[name])
    for form in (1, 2):
        yield ["convert", "zeros-8", f"form{form}", "out"], says(f"moved to form {form}: 0 signals, 8 octets", out=bytes(8))
    # a serial number that is set, of any kind
    for name, serial, place, count in (
        ("coach-2.list", 4, "R3 octet 9 bit 4 (4.25)", 156), ("next-2.list", 0, "R3 octet 9 bit 0 (1.17)", 157), ("L.form2", 0, "R1 octet 54 bits 0-3 (10.1R)", 1),
        ("numbers-0.form2", 1, "R1 octet 41 bits 2-3 (0x0001)", 255),
    ):
        yield ["convert", name, "form1", "out"], refused(f"32: serial number set: signal {serial}, {place}, the first of {count}")
    yield ["convert", "L.form2", "form1", "bus"], refused("32: serial number set: signal 0, R1 octet 54 bits 0-3 (10.1R), the first of 1")
    # a list that breaks a rule, or is in the other form
    rule = "entry breaks its rule"
    for name, form, line in (
        ("ends.list", 2, "1 at 36: list ends inside a count or a section"), ("ends.moved", 1, "1 at 38: list ends inside a count or a section"),
        ("empty", 2, "1 at 0: list ends inside a count or a section"), ("above.list", 1, "2 at 0: count above its limit"),
        ("broken.list", 2, f"3 at 2: {rule}: check 1, octet 3 bits 1-2, rule 1: its address is odd"), ("more.list", 2, "4 at 44: octets after the routes"),
        ("more.form2", 1, "4 at 46: octets after the routes"), ("huge.list", 2, f"4 at {len(lists.LONGEST)}: octets after the routes"),
        ("L.list", 1, "4 at 28: octets after the routes"), ("L.form2", 2, "2 at 22: count above its limit"),
        ("L.moved", 2, f"3 at 26: {rule}: route 0 of signal 0, R1 octet 54 bits 0-3, rule 2: vehicle not 1-63"),
        ("coach-2.list", 2, f"3 at 116: {rule}: signal 1, type 65 octet 1 bit 0, rule 1: width not 1-64"),
    ):
        yield ["convert", name, f"form{form}", "out"], refused(line)
    for word in ("form3", "form", "2", "", "FORM2", "first-form2", "form2 "):
        yield ["convert", "none", word, "out"], error(f"FORM '{word}': neither form1 nor form2")
    for out in ("coach.list", "bus", "empty", "folder", "locked"):
        yield words[:3] + [out], error(f"OUT '{out}': exists already")
    yield words[:3] + ["none/x"], error("OUT 'none/x.lock': " + NO_FILE)
    yield words[:3] + ["r1/x"], error("OUT 'r1/x': not in a folder")
    yield words[:3] + [""], error("OUT '': " + NO_FILE)
    yield words[:3] + ["a" * 252], error("OUT '" + "a" * 100 + "...lock': " + TOO_LONG)
    yield from no_file("LIST", words, 1)


# words that give the same answer in both forms, with their lists as NAME.form2 and the words that say so
SAME = [
    ["believe", "coach.list", "train", CLOCK], ["believe", "next.list", "train", CLOCK, "table"], ["believe", "coach.list", "train", "6000", "3"],
    ["believe", "across.list", "parked", CLOCK], ["believe", "wide.list", "wide-heard", CLOCK], ["believe", "wide.list", "wide-heard", CLOCK, "1", "table"],
    ["believe", "long.list", "store", CLOCK, "1"], ["believe", "L.list", "full", CLOCK], ["believe", "coach.list", "train", CLOCK, "1", "94"],
    ["believe", "longest.list", "full", CLOCK, "7"], ["believe", "coach.list", "train", CLOCK, "64"], ["believe", "units.list", "units-heard", CLOCK],
    ["believe", "units.list", "units-heard", CLOCK, "table"], ["differ", "units.list", "units-2.list", "units-heard", CLOCK],
    ["differ", "units.list", "beside.list", "units-heard", CLOCK, "3", "table"], ["marshal", "units.list", "units-heard", CLOCK, "bus-256", "routes"],
    ["differ", "coach.list", "next.list", "train", CLOCK], ["differ", "coach.list", "next.list", "train", CLOCK, "only"],
    ["differ", "coach.list", "next.list", "train", CLOCK, "1", "table"], ["differ", "across.list", "across-2.list", "train", "12000"],
    ["differ", "wide.list", "wide-2.list", "wide-heard", CLOCK], ["differ", "L.list", "wide.list", "wide-heard", CLOCK, "1"],
    ["marshal", "coach.list", "train", CLOCK, "bus", "routes"], ["marshal", "next.list", "train", CLOCK, "bus", "table"],
    ["marshal", "wide.list", "wide-heard", CLOCK, "bus-256", "routes"], ["marshal", "longest.list", "full", CLOCK, "bus-4096"],
    ["marshal", "long.list", "store", CLOCK, "bus-256", "routes"], ["marshal", "L.list", "full", CLOCK, "empty"],
    ["compose", "next.list", "R1", "values", "out"], ["compose", "L.list", "R1", "v-L", "out"], ["compose", "L.list", "R2", "v-place-last", "out"],
    ["compose", "across.list", "R1", "v-three", "out"], ["compose", "wide.list", "R1", "v-64", "out"], ["compose", "coach.list", "R1", "v-zero", "out"],
    ["compose", "L.list", "R1", "v-check-beside", "out"], ["compose", "L.list", "R1", "v-mark", "out"],
    ["relay", "coach.list", "train", "7000", "1", "out"], ["relay", "next.list", "train", CLOCK, "2", "out"], ["relay", "L.list", "under-L", CLOCK, "6", "out"],
    ["relay", "two.list", "under-two", CLOCK, "2", "out"], ["relay", "two.list", "under-two", CLOCK, "4", "out"], ["relay", "wide.list", "wide-heard", CLOCK, "1", "out"],
    ["differ", "next.list", "next.list", "train", "7000", "behind", "last", "1000", "1"], ["differ", "across.list", "across-2.list", "train", CLOCK, "behind", "parked", "9500", "table"],
    ["compare", "coach.list", "next.list"], ["compare", "wrong.list", "coach.list", "table"], ["compare", "L.list", "counters.list"], ["compare", "counters.list", "L.list", "table"],
    ["compare", "coach.list", "coach.list"], ["compare", "longest.list", "wide.list"], ["compare", "L.list", "broken.list"],
]
NUMBER = r"(?:no serial number|0x[0-9A-F]{4}|\d+\.\d+[A-Z]?(?:/\d)?[de]?)"


def plain(text):
    """What is printed, without serial numbers and without the spaces that put values into a column."""
    names = text.split("\n")[0].split("\t")
    if len(names) > 1:
        return [[cell for name, cell in zip(names, line.split("\t")) if not name.startswith("serial")] for line in text.splitlines()]
    text = re.sub(rf" \({NUMBER}(?:, {NUMBER})?\)", "", text).replace(".form2'", ".list'")
    return re.sub(" +", " ", text).splitlines()


def answer(folder, words):
    """What a run answers: its words without serial numbers, its status, and the files that it changed, which are put back."""
    before = held(folder)
    out, trouble, status = run(folder, words)
    changed = {name: octets for name, octets in held(folder).items() if before.get(name) != octets}
    put_back(folder, before)
    return plain(out + trouble), status, changed


def in_form_2(words):
    """The same words with each list that they name in form 2, one by one and together."""
    of_two = words[0] in ("differ", "compare")
    at = (1, 2) if of_two else (1,)
    options = ("first-form2", "second-form2") if of_two else ("form2",)
    for chosen in itertools.chain.from_iterable(itertools.combinations(range(len(at)), k) for k in range(1, len(at) + 1)):
        moved = list(words)
        for k in chosen:
            moved[at[k]] = moved[at[k]].replace(".list", ".form2")
        yield moved + [options[k] for k in chosen]


def other_in_form_2(folder):
    """Runs of which the answer is another one in form 2; and how many were made."""
    count, others = 0, []
    for words in SAME:
        expected = answer(folder, words)
        for moved in in_form_2(words):
            count += 1
            if answer(folder, moved) != expected:
                others.append((moved, "another answer than in form 1"))
    return count, others


def numbers_of_a():
    """The serial number of Appendix A of each signal, by telegram and start, out of signals.csv alone."""
    return {(row["telegram"], row["start"]): row["serial_of_A"] or "-" for row in rows_of_signals()}


def column_of(folder, file):
    """The column `serial` of what is believed of vehicle 1 under a list in form 2."""
    lines = [line.split("\t") for line in run(folder, ["believe", file, "store", CLOCK, "1", "table", "form2"])[0].splitlines()]
    return {(line[5], line[6]): line[11] for line in lines[1:]}


def badly_numbered(folder):
    if column_of(folder, "coach-2.list") != numbers_of_a():
        yield "coach-2.list", "other serial numbers than signals.csv has"
    for k, part in enumerate(PARTS):
        expected = ["-" if number == 0 else lists.printed(number) for number in part]
        if list(column_of(folder, f"numbers-{k}.form2").values()) != expected:
            yield f"numbers-{k}.form2", "serial numbers printed otherwise"


# raw values at the ends of each scale and around each power of two, one for each vehicle
RAW = sorted({max(0, 2**k + d) for k in range(16) for d in (-1, 0, 1)} | {65535, 10240, 40000, 49151, 49152, 49153, 57344, 65534})
STORES = [slots.store(*(slots.slot(6000, heard(telegram, {start: raw for type, start in KINDS if type in (0, TYPES.index(telegram))})) for raw in RAW)) for telegram in ("R1", "R2")]
# every place of 16 bits, a list for each bit of it; and the places with a unit in other widths, each list with every second of them
ALL = [[lists.signal(start, 16, type) for type, first, end in ((0, 16, 320), (1, 320, 1024), (2, 320, 1024)) for start in range(first + bit, end - 15, 16)] for bit in range(16)]
OTHER = [[lists.signal(start, width, type) for type, start in sorted(KINDS)[half::2]] for width in (1, 8, 15, 17, 32, 48) for half in (0, 1)]


def rows(folder, signals, store, *vehicle):
    """The table that is believed under a list of these signals, each row by the names of its columns."""
    for name, octets in (("some.list", lists.pack((), signals)), ("some", store)):
        with open(os.path.join(folder, name), "wb") as f:
            f.write(octets)
    lines = [line.split("\t") for line in run(folder, ["believe", "some.list", "some", CLOCK, *vehicle, "table"])[0].splitlines()]
    return [dict(zip(lines[0], line, strict=True)) for line in lines[1:]]


def badly_shown(folder):
    """Whether each place is shown in the unit that signals.csv has for it, and exactly, and no other place in any."""
    for store, carried in zip(STORES, ((0, 1), (0, 2))):
        for row in rows(folder, PLACES, store):
            place, raw = (TYPES.index(row["type"]), int(row["start"])), RAW[int(row["vehicle"]) - 1]
            if place[0] in carried and (int(row["value"]), row["shown"], row["unit"]) != (raw, *in_unit(KINDS[place], raw)):
                yield f"{raw} at {place}", f"shown otherwise: {row}"
    for signals in ALL + OTHER:
        for row in rows(folder, signals, NEW, "1"):
            kind = KINDS.get((TYPES.index(row["type"]), int(row["start"]))) if row["width"] == "16" else None
            if (row["shown"], row["unit"]) != (in_unit(kind, 0) if kind else ("-", "-")):
                yield row["start"], f"shown otherwise: {row}"
    for name in ("some.list", "some"):
        os.remove(os.path.join(folder, name))


def badly_relayed(folder):
    """Whether of seeded telegrams, some of whose marks and bits are no good, the same is relayed under coach.list as data/scene.py makes of them."""
    noise, telegrams = random.Random(24), []
    for vehicle in range(slots.VEHICLES):
        marks = {place: noise.choices(range(4), (1, 20, 4, 1))[0] for place in scene.CHECKS}
        octets = scene.telegram(noise.choice(TYPES), noise.choice((0, 1, 2, 3)), {}, marks)
        telegrams.append(put(octets, *((noise.randrange(64, 8 * len(octets)), 1, 1) for _ in range(vehicle))))
    with open(os.path.join(folder, "some"), "wb") as f:
        f.write(slots.store(*(slots.slot(6000, telegram) for telegram in telegrams)))
    for vehicle, telegram in enumerate(telegrams, 1):
        run(folder, ["relay", "coach.list", "some", CLOCK, str(vehicle), "out"])
        if held(folder).get("out") != scene.relayed(telegram):
            yield telegram.hex(), "relayed otherwise"
    for name in ("some", "out"):
        os.remove(os.path.join(folder, name))


def fill(folder):
    os.mkdir(os.path.join(folder, "folder"))
    for name, octets in {**FILES, **VALUES}.items():
        with open(os.path.join(folder, name), "wb") as f:
            f.write(octets)


def held(folder):
    out = {}
    for name in os.listdir(folder):
        path = os.path.join(folder, name)
        if os.path.isfile(path):
            with open(path, "rb") as f:
                out[name] = f.read()
    return out


def small_files():
    """A file may have 120 octets, which a lock needs less of, and a write past that fails."""
    signal.signal(signal.SIGXFSZ, signal.SIG_IGN)
    resource.setrlimit(resource.RLIMIT_FSIZE, (120, 120))


def run(folder, words, before=None):
    done = subprocess.run([os.path.join(ROOT, "run")] + words, cwd=folder, capture_output=True, timeout=60, preexec_fn=before)
    return done.stdout.decode(), done.stderr.decode(), done.returncode


def bare(program):
    """The program without ./run, which gathers what it prints."""
    return [*os.environ.get("DUSTFERRULE_EMULATOR", "").split(), os.path.join(ROOT, "target", "bin", program)]


def pages(folder, words):
    """What each write of a program holds: a packet socket keeps them apart."""
    ours, theirs = socket.socketpair(socket.AF_UNIX, socket.SOCK_SEQPACKET)
    with ours, subprocess.Popen(bare(words[0]) + words[1:], cwd=folder, stdout=theirs, stderr=subprocess.STDOUT) as run:
        theirs.close()
        found = list(iter(lambda: ours.recv(1 << 16), b""))
        return found if run.wait() == 0 else []


# what prints many lines writes them a page of 4,096 octets at a time, and what prints one line writes it at once
PAGED = [
    (["differ", "coach.list", "next.list", "train", CLOCK], "differ-train"), (["believe", "coach.list", "train", CLOCK], "believe-train"),
    (["differ", "coach.list", "next.list", "train", CLOCK, "table"], "differ-table"), (["believe", "coach.list", "train", CLOCK, "table"], "believe-table"),
    (["believe", "L.list", "full", CLOCK], "believe-full"), (["compare", "coach.list", "L.list"], "compare-L"), (["compare", "coach.list", "wrong.list"], "compare-wrong"),
]


ONE_LINE = [
    ["take", "store", "64", "1", "r1"], ["sweep", "store-1", "1"], ["judge", "broken.list"], ["differ", "L.list", "broken.list", "train", CLOCK], ["believe", "none", "train", CLOCK],
    ["convert", "coach-2.list", "form1", "out"], ["relay", "two.list", "under-two", CLOCK, "4", "out"], ["differ", "L.list", "L.list", "train", CLOCK, "behind", "store-1", CLOCK],
    ["compare", "coach.list", "coach.list"], ["compare", "coach.list", "broken.list"],
]


def badly_paged(folder):
    for words, file in PAGED:
        found = pages(folder, words)
        with open(os.path.join(EXPECTED, file + ".txt"), "rb") as f:
            if b"".join(found) != f.read():
                yield words, "other octets, page by page"
        if len(found) > 1 + sum(map(len, found)) // 3856 or any(not page.endswith(b"\n") for page in found):
            yield words, f"{len(found)} writes"
    for words in ONE_LINE:
        if len(pages(folder, words)) != 1:
            yield words, "a line in more than one write"


def put_back(folder, files):
    for name in set(held(folder)) | set(files):
        path = os.path.join(folder, name)
        if name not in files:
            os.remove(path)
        else:
            with open(path, "wb") as f:
                f.write(files[name])


def is_trouble(text):
    return text.startswith(("refused ", "error: "))


def status_of(program, text):
    if program in ("differ", "compare") and is_trouble(text):
        return 2
    if program == "compare":
        return int(re.search(r"\nextends: (yes|no)\n\Z", text) is not None)
    if program == "differ":
        return int(re.search(r"^differ: [1-9]|^(?:[^\t\n]*\t){6}1\t", text, re.M) is not None)
    return {"refused": 1, "error:": 2}.get(text.split(" ")[0], 0)


def wrong(folder, words, expect, write, before=None):
    """What is wrong with a run; an empty list where nothing is. The files are put back."""
    files = {**FILES, **VALUES}
    answer, trouble, status = run(folder, words, before)
    printed = answer + trouble
    if expect.file and write:
        with open(os.path.join(EXPECTED, expect.file + ".txt"), "w") as f:
            f.write(printed)
    if expect.file:
        with open(os.path.join(EXPECTED, expect.file + ".txt")) as f:
            expect.text = f.read()
    found = []
    if printed != expect.text:
        found.append(f"expected {expect.text!r}, got {printed!r}")
    if status != status_of(words[0], expect.text):
        found.append(f"exit status {status}")
    if answer if is_trouble(expect.text) else trouble:
        found.append("not on the stream where it belongs")
    now = held(folder)
    then = {name: octets for name, octets in {**files, **expect.changes}.items() if octets is not None}
    if now != then:
        found.append("files changed: " + ", ".join(sorted(n for n in set(now) | set(then) if now.get(n) != then.get(n))))
        put_back(folder, files)
    elif expect.changes:
        put_back(folder, files)
    return found


def main():
    write = "--write" in sys.argv
    count = bad = 0
    folder = tempfile.mkdtemp()
    try:
        fill(folder)
        tables = [row for table in (take_table, sweep_table, believe_table, differ_table, marshal_table, compose_table, relay_table, convert_table, compare_table) for row in table()]
        failing = [
            (["take", "store", "1", "5000", "r1"], error("STORE 'store.new': cannot be written")),
            (["take", "new", "made"], error("STORE 'made.new': cannot be written")),
            (["sweep", "train", "700000"], error("STORE 'train.new': cannot be written")),
            (["marshal", "L.list", "train", CLOCK, "bus-4096"], error("DATA 'bus-4096.new': cannot be written")),
            (["compose", "L.list", "R1", "v-L", "out"], error("OUT 'out.new': cannot be written")),
            (["compose", "L.list", "R1", "v-L", "r3"], error("OUT 'r3.new': cannot be written")),
            (["relay", "L.list", "under-L", CLOCK, "2", "out"], error("OUT 'out.new': cannot be written")),
            (["relay", "L.list", "under-L", CLOCK, "2", "r3"], error("OUT 'r3.new': cannot be written")),
            (["convert", "coach.list", "form2", "out"], error("OUT 'out.new': cannot be written")),
        ]
        for words, expect, before in [(w, e, None) for w, e in tables] + [(w, e, small_files) for w, e in failing]:
            count += 1
            for what in wrong(folder, words, expect, write, before):
                print(f"{' '.join(words)!r}: {what[:2000]}")
                bad += 1
        same, others = other_in_form_2(folder)
        numbered = list(badly_numbered(folder))
        numbered += badly_shown(folder)
        numbered += badly_relayed(folder)
        count += len(PAGED) + len(ONE_LINE) + same + 1 + len(PARTS) + len(STORES + ALL + OTHER) + slots.VEHICLES
        for words, what in itertools.chain(badly_paged(folder), others):
            print(f"{' '.join(words)!r}: {what}")
            bad += 1
        for file, what in numbered:
            print(f"{file}: {what}")
            bad += 1
    finally:
        shutil.rmtree(folder)
    print(f"programs: {count} runs, {bad} wrong")
    return 1 if bad else 0


if __name__ == "__main__":
    sys.exit(main())
