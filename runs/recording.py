#!/usr/bin/env python3
"""The program `recording` held against a judging that is worked out here from a recording's octets, with a reading and a marshalling of its own: tables of
steps, refusals, cut files and words, then recordings made by a seed; what the writers of examples/ write; and a recording that is longer than the memory
that the program may take. Run from the root, after the program is built.

    runs/recording.py            runs all of it
    runs/recording.py --write    writes expected/recording-help.txt anew, to be read before it is kept
"""
import functools
import io
import os
import random
import resource
import shutil
import subprocess
import sys
import tempfile

import judge as lists

ROOT = os.path.dirname(os.path.dirname(os.path.abspath(__file__)))
sys.path += [os.path.join(ROOT, "data"), os.path.join(ROOT, "examples", "python")]
import recorder  # from examples/python/
import scene  # from data/
import slots

HELP = os.path.join(ROOT, "runs", "expected", "recording-help.txt")
PROGRAM = os.path.join(ROOT, "target", "bin", "recording")
USAGE = "error: usage: recording FILE\n"
WORDS = {
    5: f"store not {slots.STORE:,} octets", 12: "data shorter than a route's end", 36: "data areas differ in length", 37: "step does not follow on",
    38: "more than 1,000 steps",
}
OLDER = ": it has the 8,379 of the older layout; `take new` makes a new one"
REASONS = (
    "live ok", "live forced", "never heard", "too old", "type does not carry it", "newer than the telegram", "mark error", "mark undefined", "code not known",
)
MOST, ROOM = 1000, 65536
SEEDED = 150
MEMORY = 1 << 23


# ---- lists, readings and marshalling

def number(octets):
    return int.from_bytes(octets, "big")


def bit(octets, address):
    return octets[address // 8] >> 7 - address % 8 & 1


class Listed:
    """The checks, signals, codes and routes of a list that is accepted."""

    def __init__(self, octets, form):
        sections, at = [], 0
        for size in (2, 18 if form == 2 else 16, 6, 6):
            count = number(octets[at:at + 2])
            sections.append([octets[at + 2 + size * k:at + 2 + size * (k + 1)] for k in range(count)])
            at += 2 + size * count
        checks, signals, codes, routes = sections
        self.checks = [number(c) for c in checks]
        self.signals = [{"start": number(s[:2]), "width": s[2], "type": s[3], "check": s[4], "since": s[5], "limit": number(s[6:10]), "replacement": number(s[10:16]), "serial": number(s[16:])} for s in signals]
        self.codes = {k: [(number(c[2:4]), number(c[4:])) for c in codes if number(c[:2]) == k] for k in range(len(signals))}
        self.routes = [{"signal": number(r[:2]), "vehicle": r[2], "start": number(r[4:])} for r in routes]


@functools.lru_cache(maxsize=None)
def parsed(octets, form):
    return Listed(octets, form)


@functools.lru_cache(maxsize=None)
def read(listed, slot, clock, k):
    """Value and reason of signal k in the slot of a vehicle."""
    s, heard, stamp, telegram = listed.signals[k], slot[0], number(slot[1:5]), slot[9:]
    code, kind = scene.bits(telegram, s["start"], s["width"]), telegram[0] & 15
    mark = scene.bits(telegram, listed.checks[s["check"] - 1], 2) if s["check"] else 1
    hindrances = (
        heard not in (1, 2) or telegram[0] >> 4 != 1 or kind not in (1, 2, 3), s["limit"] and (heard == 2 or (clock - stamp) % 2**32 > s["limit"]), s["type"] not in (0, kind),
        max(1, telegram[1]) < s["since"], mark == 0, mark == 3, bool(listed.codes[k]) and not any(low <= code <= high for low, high in listed.codes[k]),
    )
    reason = next((2 + i for i, hinders in enumerate(hindrances) if hinders), int(mark == 2))
    return (s["replacement"] if reason >= 2 else code), reason


def reading(listed, store, clock, route):
    vehicle = route["vehicle"]
    return read(listed, store[slots.SLOT * (vehicle - 1):slots.SLOT * vehicle], clock, route["signal"])


def ends(listed):
    return [r["start"] + listed.signals[r["signal"]]["width"] for r in listed.routes]


def marshalled(listed, store, clock, data):
    whole = number(data)
    for r, end in zip(listed.routes, ends(listed)):
        width, shift = end - r["start"], 8 * len(data) - end
        value = reading(listed, store, clock, r)[0]
        whole = whole & ~((1 << width) - 1 << shift) | value << shift
    return whole.to_bytes(len(data), "big")


# ---- recordings, and what is printed of them

def recording(form, signal_list, *steps):
    file = io.BytesIO()
    recorder.start(file, form, signal_list)
    for step in steps:
        recorder.add_step(file, *step)
    return file.getvalue()


def ours(form, signal_list, data, *by):
    """The steps of our own marshalling: by these clocks and stores, each into the data of the last."""
    listed, steps = parsed(signal_list, form), []
    for clock, store in by:
        steps.append((clock, store, data, marshalled(listed, store, clock, data)))
        data = steps[-1][3]
    return steps


def flipped(octets, *addresses):
    out = bytearray(octets)
    for a in addresses:
        out[a // 8] ^= 0x80 >> a % 8
    return bytes(out)


def with_flips(steps, at, *addresses):
    """The steps with these bits of the data after of one of them, from 0, and of the data before of the next, turned over."""
    out = list(steps)
    out[at] = (*out[at][:3], flipped(out[at][3], *addresses))
    if at + 1 < len(out):
        out[at + 1] = (*out[at + 1][:2], out[at][3], out[at + 1][3])
    return out


class Ends(Exception):
    """The judging ends, with what is printed."""


def refused(number, step, more=""):
    return f"refused {number} in step {step}: {WORDS[number]}{more}\n"


def error(what, step=0):
    return f"error: FILE 'file'{f' step {step}' if step else ''}: {what}\n"


class File:
    """A recording's octets, read a piece at a time."""

    def __init__(self, octets):
        self.octets, self.at = octets, 0

    def piece(self, count, step, what):
        got, self.at = self.octets[self.at:self.at + count], self.at + count
        if len(got) < count:
            raise Ends(error(f"ends within the {what}", step))
        return got

    def area(self, step, what):
        count = number(self.piece(4, step, what))
        if count > ROOM:
            raise Ends(error(f"more than {ROOM} octets in the {what}", step))
        return self.piece(count, step, what)

    def head(self):
        """The form, and the list."""
        magic = self.octets[:8]
        if magic != b"DUSTREC\x01"[:len(magic)]:
            raise Ends(error("no recording: it does not begin with DUSTREC and the octet 1"))
        form = self.piece(9, 0, "head")[8]
        if form not in (1, 2):
            raise Ends(error(f"form {form} of the list is neither 1 nor 2"))
        return form, self.area(0, "list")

    def step(self, step):
        return number(self.piece(4, step, "clock")), *(self.area(step, what) for what in ("store", "data before", "data after"))


def place(listed, form, k):
    s = listed.signals[k]
    serial = f" ({lists.printed(s['serial'])})" if form == 2 else ""
    return f"{('R3', 'R1', 'R2')[s['type']]} {scene.place(s['start'], s['width'])}{serial}"


def wrong(listed, form, step, clock, store, before, after, address):
    lines = [f"wrong in step {step} at clock {clock}: octet {address // 8 + 1} bit {address % 8}"]
    inside = [(k, r, end) for k, (r, end) in enumerate(zip(listed.routes, ends(listed))) if r["start"] <= address < end]
    for k, r, end in inside:
        value, reason = reading(listed, store, clock, r)
        theirs = number(after) >> 8 * len(after) - end & (1 << end - r["start"]) - 1
        lines += [f"route {k} to {scene.place(r['start'], end - r['start'])}  vehicle {r['vehicle']}  {place(listed, form, r['signal'])}",
                  f"ours{value:23}  {reason} {REASONS[reason]}", f"theirs{theirs:21}"]
    return "\n".join(lines + ([] if inside else [f"in no route: ours {bit(before, address)}, theirs {bit(after, address)}"])) + "\n"


def judge_step(listed, form, steps, last, clock, store, before, after):
    """Raises Ends where the step is not right; `steps` went before it."""
    if steps == MOST:
        raise Ends(refused(38, steps + 1))
    for number_of, is_so, more in (
            (5, len(store) != slots.STORE, OLDER if len(store) == 8379 else ""), (12, any(8 * len(before) < end for end in ends(listed)), ""), (36, len(before) != len(after), ""), (37, steps and last != before, "")):
        if is_so:
            raise Ends(refused(number_of, steps + 1, more))
    right = marshalled(listed, store, clock, before)
    if after != right:
        first = next(a for a in range(8 * len(after)) if after[a // 8] != right[a // 8] and bit(after, a) != bit(right, a))
        raise Ends(wrong(listed, form, steps + 1, clock, store, before, after, first))


def expected(octets, unlisted=None):
    """What is printed, and of how many steps is told on standard error; `unlisted` is what the list is refused with."""
    file, steps, told, last = File(octets), 0, [], b""
    try:
        form, signal_list = file.head()
        listed = None if unlisted else parsed(signal_list, form)
        while file.at < len(octets):
            step = file.step(steps + 1)
            if steps and steps % 100 == 0:
                told.append(f"recording: {steps} steps\n")
            if unlisted:
                raise Ends(unlisted.format(" in step 1"))
            judge_step(listed, form, steps, last, *step)
            steps, last = steps + 1, step[3]
        return unlisted.format("") if unlisted else f"accepted, {steps} steps\n", "".join(told)
    except Ends as end:
        return end.args[0], "".join(told)


# ---- lists, stores and steps

def data(name):
    with open(os.path.join(ROOT, "data", name), "rb") as f:
        return f.read()


R1, R2, R3 = data("scene/1-R1.telegram"), data("scene/2-R2.telegram"), data("scene/3-R3.telegram")
NEW = slots.store()
TRAIN = slots.store(slots.slot(6000, R1), slots.slot(7500, R2), slots.slot(1000, R3))
COACH, COACH_2, COUNTERS = data("coach.list"), data("coach-2.list"), data("counters.list")
BY = [(9000, TRAIN), (12000, TRAIN), (9000, NEW)]
THREE = ours(1, COACH, bytes(range(20)), *BY)
THREE_2 = ours(2, COACH_2, bytes(range(20)), *BY)
LONGEST_2 = lists.in_form_2(lists.LONGEST, lists.numbered(0))
FULL = slots.store(*[slots.slot(5000, R1)] * slots.VEHICLES)

# a route of each reason: 0 to 8, in four bits each, with four bits between
UNDER = scene.CHECKS[24]
REASON_LIST = lists.pack(
    [lists.check(UNDER)],
    [lists.signal(424, 4, check=1), lists.signal(428, 4, check=1, since=9, replacement=5), lists.signal(432, 4, check=1, limit=1, replacement=6), lists.signal(436, 4, check=1),
     lists.signal(424, 4, 2, replacement=7)], [lists.code(3, 0, 3)],
    [lists.route(k, vehicle, 8 * i) for i, (k, vehicle) in enumerate(((0, 1), (0, 2), (0, 9), (2, 1), (4, 1), (1, 1), (0, 3), (0, 4), (3, 1)))])


def with_mark(mark):
    octets = bytearray(b"\x11\x01" + bytes(126))
    scene.set_bits(octets, UNDER, 2, mark)
    scene.set_bits(octets, 424, 16, 0x9ABC)
    return bytes(octets)


REASON_STORE = slots.store(*(slots.slot(5000, with_mark(mark)) for mark in (1, 2, 0, 3)))
REASON_STEP = ours(1, REASON_LIST, b"\xff" * 12, (6000, REASON_STORE))
assert [reading(parsed(REASON_LIST, 1), REASON_STORE, 6000, r)[1] for r in parsed(REASON_LIST, 1).routes] == list(range(9))

# a field of 64 bits over nine octets, one of 63, one of a bit, and a gap of a bit between
WIDE = lists.pack([], [lists.signal(424, 64), lists.signal(489, 63), lists.signal(700, 1)], [], [lists.route(0, 1, 3), lists.route(1, 1, 68), lists.route(2, 1, 131)])
WIDE_STORE = slots.store(slots.slot(1, b"\x11\x01" + b"\xff" * 126))
WIDE_STEP = ours(1, WIDE, bytes(20), (2, WIDE_STORE))
NO_ROUTES = lists.pack([], [lists.signal(384, 8)])

# lists that are refused, with the line
REFUSED = [
    (lists.L[:-1], 1, lists.refused(1, 36)), (b"", 1, lists.refused(1, 0)), (b"\xff\xff", 1, lists.refused(2, 0)), (lists.L + b"\0", 1, lists.refused(4, 44)),
    (lists.pack([lists.check(17)]), 1, lists.broken(2, "check 1, octet 3 bits 1-2, rule 1: its address is odd")),
    (COACH, 2, lists.broken(118, "signal 1, R1 octet 33 bit 0 (0.4), rule 3: not wholly in its type's addresses, 16-319 of type 0, 320-1023 of 1 and 2")),
    (COACH_2, 1, lists.broken(116, "signal 1, type 65 octet 1 bit 0, rule 1: width not 1-64")), (lists.L + bytes(ROOM - len(lists.L)), 1, lists.refused(4, 44)),
]


@functools.lru_cache(maxsize=None)
def long_recording(count, form=1, signal_list=lists.L, size=20):
    """So many steps of our own marshalling, the clock moving on."""
    return ours(form, signal_list, bytes(size), *((5000 + 7 * k, FULL) for k in range(count)))


def turned(steps, at, **parts):
    """The steps with parts of one of them, from 0, exchanged."""
    names = ("clock", "store", "before", "after")
    out = list(steps)
    out[at] = tuple(parts.get(name, value) for name, value in zip(names, out[at]))
    return out


# ---- the runs

class Folder:
    """A folder in which the program runs, and what is wrong with what it does there."""

    def __init__(self):
        self.path, self.count, self.said = tempfile.mkdtemp(), 0, []

    def write(self, name, octets):
        with open(os.path.join(self.path, name), "wb") as f:
            f.write(octets)

    def wrong(self, what):
        self.said.append(what[:2000])

    def expect(self, what, words, text, told="", **more):
        """The run prints the text, on the stream and with the status that its first word asks for, and tells of steps on standard error before it."""
        done = subprocess.run([os.path.join(ROOT, "run"), "recording", *words], cwd=self.path, capture_output=True, timeout=120, **more)
        trouble, status = text.startswith(("refused ", "error: ")), {"refused": 2, "error:": 2, "wrong": 1}.get(text.split(" ")[0], 0)
        right = (status, "" if trouble else text, told + (text if trouble else ""))
        self.count += 1
        if (done.returncode, done.stdout.decode(), done.stderr.decode()) != right:
            self.wrong(f"{what}, {' '.join(words)[:100]}: expected {right}, got {(done.returncode, done.stdout, done.stderr)}")

    def judges(self, what, octets, text=None, unlisted=None):
        """The recording, as it is worked out; and as the table has it, where it does."""
        worked_out, told = expected(octets, unlisted)
        if text not in (None, worked_out):
            self.wrong(f"{what}: worked out otherwise than the table has it: {worked_out!r}")
        self.write("file", octets)
        self.expect(what, ["file"], worked_out, told)


def on_words(f, write):
    """What the program says of itself, of other words, and of files that cannot be read; a recording by a pipe and by `-`."""
    if write:
        with open(HELP, "wb") as out:
            out.write(subprocess.run([os.path.join(ROOT, "run"), "recording", "help"], stdout=subprocess.PIPE, check=True).stdout)
    with open(HELP, encoding="utf-8") as text:
        f.expect("help", ["help"], text.read())
    os.mkdir(os.path.join(f.path, "folder"))
    f.write("file", recording(1, COACH, *THREE))
    f.write("help", recording(1, COACH))
    for words in ([], ["file", "x"], ["help", "x"], ["file", "file"], ["file", "table"]):
        f.expect("usage", words, USAGE)
    for name, what in (("none", "no such file or folder"), ("", "no such file or folder"), ("folder", "is a folder"), ("file/x", "not in a folder")):
        f.expect("no file to read", [name], f"error: FILE '{name}': {what}\n")
    f.expect("a file called as the word is", ["./help"], "accepted, 0 steps\n")
    f.expect("standard input", ["-"], "accepted, 3 steps\n", stdin=open(os.path.join(f.path, "file"), "rb"))
    for what, octets in (("a pipe", recording(1, COACH, *THREE)), ("a pipe with a wrong bit", recording(1, COACH, *with_flips(THREE, 1, 5))), ("a long pipe", recording(1, lists.L, *long_recording(250)))):
        f.expect(what, ["-"], *expected(octets), input=octets)
    octets = recording(1, COACH, *THREE)[:-1]
    f.expect("a pipe that ends early", ["-"], expected(octets)[0].replace("'file'", "'/dev/stdin'"), input=octets)


def on_accepted(f):
    for form, signal_list, steps in ((1, COACH, THREE), (2, COACH_2, THREE_2)):
        for count in (0, 1, 2, 3):
            f.judges(f"{count} steps in form {form}", recording(form, signal_list, *steps[:count]), f"accepted, {count} steps\n")
    for count in (99, 100, 101, 200, 201, 1000):
        f.judges(f"{count} steps", recording(1, lists.L, *long_recording(count)), f"accepted, {count} steps\n")
    f.judges("1,000 steps of the longest list", recording(2, LONGEST_2, *long_recording(1000, 2, LONGEST_2, size=256)), "accepted, 1000 steps\n")
    f.judges("data of no octets", recording(1, NO_ROUTES, *ours(1, NO_ROUTES, b"", *BY)), "accepted, 3 steps\n")
    f.judges("data of 65,536 octets", recording(1, COACH, *ours(1, COACH, b"\xa5" * ROOM, *BY)), "accepted, 3 steps\n")
    f.judges("data that end with the last route", recording(1, COACH, *ours(1, COACH, bytes(18), *BY)), "accepted, 3 steps\n")
    f.judges("a list of no entries", recording(1, bytes(8), *ours(1, bytes(8), b"\1\2", *BY)), "accepted, 3 steps\n")
    f.judges("fields of 64 bits", recording(1, WIDE, *WIDE_STEP), "accepted, 1 steps\n")
    f.judges("every reason", recording(1, REASON_LIST, *REASON_STEP), "accepted, 1 steps\n")
    f.judges("the clock's ends", recording(1, COACH, *ours(1, COACH, bytes(20), (0, TRAIN), (4294967295, TRAIN))), "accepted, 2 steps\n")
    for name, text in (("train.rec", "accepted, 3 steps\n"), ("train-off.rec", None)):
        f.judges(name, data(name), text)


def on_wrong(f):
    for a in range(0, 20 * 8):
        f.judges(f"bit {a}", recording(1, COACH, *with_flips(THREE, a % 3, a)))
    for a in (0, 2, 3, 4, 10, 66, 67, 68, 130, 131, 132, 159):
        f.judges(f"bit {a} of wide fields", recording(1, WIDE, *with_flips(WIDE_STEP, 0, a)))
        f.judges(f"all bits from {a} on of wide fields", recording(1, WIDE, *with_flips(WIDE_STEP, 0, *range(a, 160))))
    for a in range(0, 96, 3):
        f.judges(f"bit {a} of the reasons' fields", recording(1, REASON_LIST, *with_flips(REASON_STEP, 0, a)))
    for a in (0, 8, 60, 79, 112):
        f.judges(f"bit {a} in form 2", recording(2, COACH_2, *with_flips(THREE_2, 2, a)))
    f.judges("the route's own words", recording(2, COACH_2, *with_flips(THREE_2, 0, 9, 20)), "wrong in step 1 at clock 9000: octet 2 bit 1\n"
             "route 6 to octet 2 bits 0-3  vehicle 1  R1 octet 54 bits 0-3 (4.3)\nours                      3  0 live ok\ntheirs                    7\n")
    f.judges("the words of no route", recording(1, COACH, *with_flips(THREE, 1, 7, 6)), "wrong in step 2 at clock 12000: octet 1 bit 6\nin no route: ours 0, theirs 1\n")
    big = ours(1, COACH, b"\xa5" * ROOM, *BY)
    for a in (144, 8 * 8191 + 7, 8 * 8192, 8 * ROOM - 1):
        f.judges(f"bit {a} behind the routes", recording(1, COACH, *with_flips(big, 1, a)))
    long = long_recording(1000)
    for at in (0, 99, 100, 101, 998, 999):
        f.judges(f"step {at + 1} of 1,000", recording(1, lists.L, *with_flips(long, at, at % 8)))
    # what stands behind the step that ends the judging is not looked at
    f.judges("wrong, then cut", recording(1, COACH, *with_flips(THREE, 1, 3))[:-1])
    f.judges("wrong, then what is no step", recording(1, COACH, *with_flips(THREE[:1], 0, 3)) + b"x" * 9)


def on_refused(f):
    step = THREE[0]
    for octets, form, line in REFUSED:
        number_of, rest = line.split(": ", 1)
        line = f"{number_of}{{}}: {rest}\n"
        f.judges("a list that is refused, no steps", recording(form, octets), unlisted=line)
        for steps in ((step,), tuple(THREE), ((*step[:1], b"", b"", b"x"),)):
            f.judges("a list that is refused", recording(form, octets, *steps), unlisted=line)
    for size in (0, 1, 8379, slots.STORE - 1, slots.STORE + 1, ROOM):
        for at in (0, 2):
            f.judges(f"a store of {size} octets", recording(1, COACH, *turned(THREE, at, store=bytes(size))))
    for size in (0, 1, 17):
        f.judges(f"data of {size} octets", recording(1, COACH, *ours_cut(size)), refused(12, 1))
    for more in (b"", b"\0", bytes(21), bytes(ROOM)):
        f.judges(f"data after of {len(more)} octets", recording(1, COACH, *turned(THREE, 1, after=more)), refused(36, 2))
    for before in (flipped(THREE[1][2], 0), flipped(THREE[1][2], 159), bytes(20)):
        f.judges("data before that are others", recording(1, COACH, *turned(THREE, 1, before=before)), refused(37, 2))
    f.judges("data before that are longer, and those after", recording(1, COACH, *turned(THREE, 1, before=THREE[1][2] + b"\0", after=THREE[1][3] + b"\0")), refused(37, 2))
    f.judges("data before that are shorter, and those after", recording(1, COACH, *turned(THREE, 1, before=THREE[1][2][:-1], after=THREE[1][3][:-1])), refused(37, 2))
    f.judges("a step left out", recording(1, COACH, THREE[0], THREE[2]))
    f.judges("a step twice", recording(1, COACH, THREE[0], THREE[0]), refused(37, 2))
    long = long_recording(1001)
    f.judges("1,001 steps", recording(1, lists.L, *long), refused(38, 1001))
    f.judges("1,001 steps of the longest list", recording(2, LONGEST_2, *long_recording(1001, 2, LONGEST_2, size=256)), refused(38, 1001))
    f.judges("1,001 steps, and more", recording(1, lists.L, *long, *long[:3]), refused(38, 1001))
    # two at once: the first in order
    for what, parts, no in (("38 and 5", {"store": b""}, 38), ("38 and 12", {"before": b""}, 38), ("38 and 36", {"after": b""}, 38), ("38 and 37", {"before": flipped(long[1000][2], 100)}, 38),
                            ("38 and a wrong bit", {"after": flipped(long[1000][3], 3)}, 38)):
        f.judges(what, recording(1, lists.L, *turned(long, 1000, **parts)), refused(no, 1001))
    for what, parts, no in (("5 and 12", {"store": b"", "before": b""}, 5), ("5 and 36", {"store": bytes(9), "after": b"x"}, 5), ("5 and 37", {"store": bytes(ROOM), "before": bytes(20)}, 5),
                            ("12 and 36", {"before": bytes(17), "after": bytes(16)}, 12), ("12 and 37", {"before": bytes(17), "after": bytes(17)}, 12), ("36 and 37", {"before": bytes(19)}, 36),
                            ("37 and a wrong bit", {"before": flipped(THREE[1][2], 7), "after": flipped(THREE[1][3], 0)}, 37)):
        f.judges(what, recording(1, COACH, *turned(THREE, 1, **parts)), refused(no, 2))


def ours_cut(size):
    """The first step with so many octets of data."""
    return turned(THREE, 0, before=bytes(size), after=bytes(size))


def on_cut(f):
    """Files that end at every kind of place, that are no recordings, and areas that are too long."""
    whole = recording(1, COACH, *THREE[:2])
    starts, at = [0, 7, 8], 9
    for count in (len(COACH), None, slots.STORE, 20, 20, None, slots.STORE, 20, 20):
        starts.append(at)
        at += 4 + (count or 0)
    assert at == len(whole)
    for size in sorted({start + more for start in starts for more in (-1, 0, 1, 2, 3, 4, 5, 10)} - {-1}):
        f.judges(f"cut behind {size} octets", whole[:size])
    f.judges("an octet more", whole + b"\0", error("ends within the clock", 3))
    f.judges("1,000 steps, and an octet more", recording(1, lists.L, *long_recording(1000)) + b"\0", error("ends within the clock", 1001))
    for i in range(8):
        f.judges(f"octet {i + 1} is another", whole[:i] + bytes([whole[i] ^ 1]) + whole[i + 1:], error("no recording: it does not begin with DUSTREC and the octet 1"))
    for other in (b"D", b"X", b"DUSTREC", b"DUSTREC\x02", b"dustrec\x01\x01", COACH, TRAIN, b"\n", recording(1, COACH)[1:]):
        f.judges(f"another file of {len(other)} octets", other)
    for form in (0, 3, 255):
        f.judges(f"form {form}", recording(form, COACH, *THREE), error(f"form {form} of the list is neither 1 nor 2"))
    for size in (65537, 65536 * 256, 2**31, 2**32 - 1):
        octets = size.to_bytes(4, "big")
        f.judges(f"a list of {size} octets", whole[:9] + octets + whole[13:], error("more than 65536 octets in the list"))
        for what, i in (("store", 5), ("data before", 6), ("data after", 7)):
            f.judges(f"{what} of {size} octets", whole[:starts[i]] + octets + whole[starts[i] + 4:], error(f"more than 65536 octets in the {what}", 1))
    f.judges("a store that is longer, whole", recording(1, COACH, THREE[0], (9000, bytes(65537), *THREE[1][2:])), error("more than 65536 octets in the store", 2))


def some_list(chance):
    """Signals of any width and type one behind the other, and routes of them with and without gaps."""
    signals = []
    for kind, at, end in ((0, 32, 320), (1, 328, 1024)):
        while True:
            width = chance.choice((1, 2, 4, 8, 16, 33, 64, chance.randrange(1, 65)))
            at += chance.choice((0, 0, 1, 5))
            if at + width > end or len(signals) > 40:
                break
            signals.append((at, width, lists.signal(at, width, kind, chance.choice((0, 1 + 2 * kind, 2 + 2 * kind)), chance.randrange(1, 4), chance.choice((0, 1000, 5000)), chance.randrange(1 << min(width, 48)))))
            at += width
    routes, at, wanted = [], 0, chance.choice((0, 1, 5, 20, 60))
    while len(routes) < wanted:
        k, at = chance.randrange(len(signals)), at + chance.choice((0, 0, 1, 3, 17))
        if at + signals[k][1] > 2048:
            break
        routes.append(lists.route(k, chance.randrange(1, 7), at))
        at += signals[k][1]
    codes = [lists.code(k, 0, chance.randrange(1 << signals[k][1])) for k in range(len(signals)) if signals[k][1] <= 16 and chance.random() < 0.3]
    return lists.pack([lists.check(place) for place in (16, 20, 320, 324)], [s for _, _, s in signals], codes, routes)


def some_store(chance):
    return slots.store(*(slots.slot(chance.randrange(8000), bytes([chance.choice((0x11, 0x11, 0x12, 0x13)), chance.randrange(5)]) + chance.randbytes(126), chance.choice((1, 1, 1, 2, 0))) for _ in range(5)))


def on_seeded(f):
    chance = random.Random(21)
    for k in range(SEEDED):
        form, signal_list = chance.choice((1, 2)), some_list(chance)
        if form == 2:
            signal_list = lists.in_form_2(signal_list, lists.numbered(k))
        size = (max(ends(parsed(signal_list, form)), default=0) + 7) // 8 + chance.choice((0, 0, 1, 30))
        steps = ours(form, signal_list, chance.randbytes(size), *((chance.randrange(10000), some_store(chance)) for _ in range(chance.randrange(1, 6))))
        at = chance.randrange(len(steps))
        if size and chance.random() < 0.8:
            steps = with_flips(steps, at, *(chance.randrange(8 * size) for _ in range(chance.choice((1, 1, 2, 9)))))
        if chance.random() < 0.2:
            steps = turned(steps, at, **chance.choice(({"store": chance.randbytes(9)}, {"before": chance.randbytes(size)}, {"after": steps[at][3] + b"x"}, {"before": b""})))
        octets = recording(form, signal_list, *steps)
        f.judges(f"recording {k}", octets[:-chance.randrange(1, 40)] if chance.random() < 0.1 else octets)


def on_writers(f):
    """What the writers in Python and C make of files is the same, and is accepted."""
    made = os.path.join(f.path, "recorder")
    subprocess.run(["cc", "-std=c99", "-pedantic", "-Wall", "-Wextra", "-Werror", "-O2", os.path.join(ROOT, "examples", "c", "recorder.c"), "-o", made], check=True)
    f.write("list", COACH_2)
    words = ["2", "list"]
    for k, step in enumerate(THREE_2):
        for name, octets in zip(("store", "before", "after"), step[1:]):
            f.write(f"{name}{k}", octets)
        words += [str(step[0]), f"store{k}", f"before{k}", f"after{k}"]
    for name, writer in (("python", [sys.executable, os.path.join(ROOT, "examples", "python", "recorder.py")]), ("c", [made])):
        for count in range(4):
            subprocess.run([*writer, name, *words[:2 + 4 * count]], cwd=f.path, check=True)
            with open(os.path.join(f.path, name), "rb") as file:
                if file.read() != recording(2, COACH_2, *THREE_2[:count]):
                    f.wrong(f"the writer in {name}, {count} steps: other octets")
            f.expect(f"the writer in {name}", [name], f"accepted, {count} steps\n")


def on_memory(f):
    """A recording that is longer than all the memory that the program may take."""
    if os.uname().machine != "x86_64":
        return
    octets = recording(1, lists.L, *long_recording(1000))
    f.write("file", octets)
    done = subprocess.run([PROGRAM, "file"], cwd=f.path, capture_output=True, preexec_fn=lambda: resource.setrlimit(resource.RLIMIT_AS, (MEMORY, MEMORY)))
    f.count += 1
    if done.stdout != b"accepted, 1000 steps\n" or len(octets) < MEMORY:
        f.wrong(f"{len(octets)} octets in {MEMORY} octets of memory: {done}")


def of_copies():
    """The program's own run is on the recording of data/."""
    with open(os.path.join(ROOT, "crates", "recording", "data", "train-off.rec"), "rb") as f:
        return [] if f.read() == data("train-off.rec") else ["crates/recording/data/train-off.rec is not that of data/"]


def in_folder(work, *more):
    """The runs that were made in a folder of their own, and what is wrong with them."""
    f = Folder()
    try:
        work(f, *more)
    finally:
        shutil.rmtree(f.path)
    return f.count, f.said


def main():
    results = [in_folder(on_words, "--write" in sys.argv), *(in_folder(work) for work in (on_accepted, on_wrong, on_refused, on_cut, on_seeded, on_writers, on_memory))]
    said = of_copies() + [what for _, whats in results for what in whats]
    print("\n".join(said + [f"recording: {sum(count for count, _ in results)} runs, {len(said)} wrong"]))
    return bool(said)


if __name__ == "__main__":
    sys.exit(main())
