#!/usr/bin/env python3
"""Writes the signal lists of this folder from signals.csv, a telegram with remedy texts, christening records of a train, and recordings of marshalling.
data/README.md says what is the sources' and what is a choice.

    data/make.py            writes coach.list, coach-2.list, coach-next.list, coach-wrong.list, coach-off.list, plain-coach.list,
                            driving-trailer.list, counters.list and L.list; door.texts, door.telegram and door-off.telegram; train.records;
                            train.rec and train-off.rec, from the telegrams of scene/
    data/make.py --check    only says whether they are as they would be written, whether the programs' table of kinds is the column `kind`, and
                            whether `christening` has the names of properties.csv
"""
import csv
import io
import os
import re
import sys

from files import HERE, settle
from serials import pack as pack_serial
from slots import store, taken

sys.path.append(os.path.join(HERE, "..", "examples", "python"))
import recorder  # from examples/python/

TYPES = {"R3": 0, "R1": 1, "R2": 2}
# every check place printed in Appendix B: octets 3-8, and octets 41-46
CHECKS = list(range(16, 64, 2)) + list(range(320, 368, 2))
LIMIT = 5000
# a function for each telegram, in it a row for each start, with its serial number
KINDS = os.path.join(HERE, "..", "crates", "words", "src", "kinds.rt")
# a byte string with a name a line
NAMES = os.path.join(HERE, "..", "crates", "christening", "src", "names.rt")

# routes of the coach: signal (telegram, start), vehicle, destination start
ROUTES = [
    (("R3", 156), 1, 0), (("R3", 157), 1, 1), (("R3", 156), 2, 2), (("R3", 157), 2, 3), (("R3", 156), 3, 4), (("R3", 157), 3, 5),
    (("R1", 424), 1, 8), (("R1", 428), 1, 12), (("R1", 384), 1, 16), (("R1", 400), 1, 32),
    (("R2", 416), 2, 48), (("R2", 400), 2, 64), (("R3", 80), 2, 80), (("R3", 96), 3, 96),
]

# document 01's R1 grouping: the check place of each bit of octets 47-73, by the bits that each place covers, in their order
COVERED = [56, 32, 8, 24, 4, 4] + [8] * 11
GROUPING = dict(enumerate((320 + 2 * row for row, bits in enumerate(COVERED) for _ in range(bits)), 368))

# common signals, by their start, that are a tractive unit's alone: the controller (4.25), faults of traction and of the dynamic brake (8.4R)
OF_TRACTIVE_UNITS = {68, *range(214, 218), *range(224, 227)}
# those that a driving trailer has room for: who leads and is led, direction and speed, the time, doors
OF_DRIVING_TRAILERS = {*range(64, 71), 79, 80, 96, *range(152, 158)}

# the locked doors of three vehicles; doors and lighting as vehicle 1 commands them; the brakes of the other two; the speed, to the last bit allowed
PLAIN_COACH_ROUTES = ROUTES[:6] + [
    (("R3", 152), 1, 8), (("R3", 153), 1, 9), (("R3", 154), 1, 10), (("R3", 155), 1, 11), (("R3", 148), 1, 12), (("R3", 176), 2, 16), (("R3", 176), 3, 18),
    (("R3", 80), 1, 112),
]
# those of the coach but R2's, the last two closer up, to the last bit allowed
DRIVING_TRAILER_ROUTES = ROUTES[:10] + [(("R3", 80), 2, 64), (("R3", 96), 3, 80)]


def ranges(text):
    if text == "all":
        return []
    return [tuple(int(x) for x in (part.split("-") * 2)[:2]) for part in text.split(";")]


def read_signals():
    with open(os.path.join(HERE, "signals.csv"), newline="") as f:
        for r in csv.DictReader(f):
            known = ranges(r["known_codes"])
            yield {
                "telegram": r["telegram"], "type": TYPES[r["telegram"]], "start": int(r["start"]), "width": int(r["width"]),
                "check": int(r["check"]), "since": 2 if r["listed_in_002.01"] == "yes" else 1, "limit": LIMIT,
                "replacement": known[0][0] if known else 0, "known": known, "serial": pack_serial(r["serial_of_A"]),
            }


def n(value, octets):
    return value.to_bytes(octets, "big")


def pack(signals, routes, form=1, checks=CHECKS):
    signals = sorted(signals, key=lambda s: (s["type"], s["start"]))
    place = {(s["telegram"], s["start"]): k for k, s in enumerate(signals)}
    out = n(len(checks), 2) + b"".join(n(c, 2) for c in checks)
    out += n(len(signals), 2)
    for s in signals:
        out += n(s["start"], 2) + bytes([s["width"], s["type"], checks.index(s["check"]) + 1, s["since"]])
        out += n(s["limit"], 4) + n(s["replacement"], 6) + (n(s["serial"], 2) if form == 2 else b"")
    codes = [(k, lo, hi) for k, s in enumerate(signals) for lo, hi in s["known"]]
    out += n(len(codes), 2) + b"".join(n(k, 2) + n(lo, 2) + n(hi, 2) for k, lo, hi in codes)
    out += n(len(routes), 2)
    for where, vehicle, start in sorted(routes, key=lambda r: r[2]):
        out += n(place[where], 2) + bytes([vehicle, 0]) + n(start, 2)
    return out


def successor(signals, since):
    """A signal added in blocked bits, a code range widened, a limit and a replacement changed."""
    for s in signals:
        if (s["telegram"], s["start"]) == ("R1", 380):
            s["known"] = [(0, 2)]
        if (s["telegram"], s["start"]) == ("R1", 424):
            s["limit"], s["replacement"] = 2500, 15
    return signals + [{"telegram": "R1", "type": 1, "start": 524, "width": 4, "check": 338, "since": since, "limit": LIMIT, "replacement": 0, "known": [(0, 3)]}]


def one_off(signals):
    """A check number raised by one: 4.3 names the check after its own."""
    for s in signals:
        if (s["telegram"], s["start"]) == ("R1", 424):
            s["check"] = CHECKS[CHECKS.index(s["check"]) + 1]
    return signals


def is_grouped(s):
    """Whether a signal stands wholly under the check place that the grouping gives for its bits."""
    return all(GROUPING.get(bit) == s["check"] for bit in range(s["start"], s["start"] + s["width"]))


def plain_coach(signals):
    """The common signals that Appendix A numbers, but those of tractive units."""
    return [s for s in signals if s["type"] == 0 and s["serial"] and s["start"] not in OF_TRACTIVE_UNITS]


def driving_trailer(signals):
    """Every R1 signal that the profile can accept, and the common signals for which it leaves room."""
    return [s for s in signals if s["type"] == 1 and is_grouped(s) or s["type"] == 0 and s["start"] in OF_DRIVING_TRAILERS]


def profiled(signals, routes):
    """A list for a small controller, with the check places that its signals stand under and no other."""
    return pack(signals, routes, checks=sorted({s["check"] for s in signals}))


L = bytes.fromhex("0001 0142 0001 01A8 04 01 01 01 00001388 000000000000 0002 0000 0000 0006 0000 000F 000F 0001 0000 01 00 0000")


# A national list, written by hand as L is: a check at octet 41 bits 0-1; R1 octets 74-81 under it, two counters of 32 bits in a field of 64,
# with a replacement of six octets; R1 octet 82 bits 0-3; 64 bits from octet 90 bit 3 on; and the first of vehicles 1 and 2, then the last of 1, routed
COUNTERS = bytes.fromhex(
    "0001 0140 0003 0248 40 01 01 01 00001388 FFFFFFFFFFFF 0288 04 01 01 01 00001388 000000000000 02CB 40 01 00 01 00001388 000000000007"
    "0000 0003 0000 01 00 0000 0000 02 00 0040 0002 01 00 0084")


# A door of a coach that does not close, as a desk may show it: octets 1-6; octets 9-20, with an error code in 11-12, a time in 13-18 and a kind of remedy
# in 19; the language, whether it is the one ordered, and texts by their keys
DOOR = (bytes.fromhex("00 10 05 01 00 00"), bytes.fromhex("01 00 22 95 1a 2b 3c 4d 00 00 01 00"), b"de", True, [
    (1, "Tür 3 links: Hindernis entfernen, Taster „Tür zu“ drücken"),
    (2, "Schließt sie nicht: mit Vierkantschlüssel verriegeln"),
    (4, "Aufkleber „Tür gestört“ außen und innen anbringen"),
    (8, "Prüfen: grüne Anzeige „Türen geschlossen“ leuchtet"),
])


def remedies(head, carried, language, ordered, texts):
    """The telegram 8.8A, of code 8A08: a text has two octets a character."""
    out = head + n(0x8A08, 2) + carried + language + bytes([ordered, len(texts)]) + bytes(6)
    for key, text in texts:
        octets = text.encode("utf-16-be")
        out += n(6 + len(octets), 2) + bytes([key, 0]) + n(len(octets), 2) + octets
    return out


def remedies_file(head, carried, language, ordered, texts):
    """The text file that `write_remedies` makes it from."""
    lines = ["# a door that does not close: what the train crew can do; octets 1-6 and 9-20 are carried unread", f"head {head.hex(' ')}", f"carried {carried.hex(' ')}",
             f"language {language.decode()}", "ordered " + ("yes" if ordered else "no"), *(f"F{key} {text}" for key, text in texts)]
    return ("\n".join(lines) + "\n").encode()


def block_off(telegram, block):
    """The telegram with the length of a block off by two, as if its own two octets were not counted."""
    at = 30
    for _ in range(block):
        at += int.from_bytes(telegram[at:at + 2], "big")
    return telegram[:at] + n(int.from_bytes(telegram[at:at + 2], "big") - 2, 2) + telegram[at + 2:]


# A train of five vehicles, each by the rows of table E.1 that hold of it: an electric engine, a restaurant car, a sleeping car, a couchette coach, and a
# driving trailer from which the engine can be controlled
TRAIN = [
    [38, 40, 43, 44, 49, 57, 60, 61, 69, 83, 91, 99, 100, 104, 130, 141],
    [4, 9, 11, 17, 21, 24, 30, 31, 57, 97, 111, 122, 126, 141],
    [13, 17, 18, 21, 24, 27, 30, 31, 57, 97, 111, 122, 126, 141],
    [4, 12, 17, 21, 24, 30, 31, 57, 97, 111, 126, 141],
    [2, 4, 5, 15, 17, 21, 24, 30, 31, 33, 42, 44, 57, 58, 97, 106, 107, 111, 141],
]


def read_properties():
    with open(os.path.join(HERE, "properties.csv"), newline="", encoding="utf-8") as f:
        return [{**r, **{name: int(r[name]) for name in ("row", "octet", "bit")}} for r in csv.DictReader(f)]


def record(rows):
    """A christening record in which the properties of these rows hold; every other bit is 0."""
    out = bytearray(56)
    for p in read_properties():
        if p["row"] in rows:
            out[p["octet"] - 1] |= 0x80 >> p["bit"]
    return bytes(out)


# The coach's marshalling as the train of scene/ is heard, a vehicle at a time: its number, the clock and the telegram; and the clock of each step, with
# the data after it. Octets 8, 19 and 20 are in no route. What vehicle 3 said is too old from the second step on
HEARD = [(3, 1000, "3-R3"), (1, 6000, "1-R1"), (2, 7500, "2-R2")]
STEPS = [
    (5000, "01 00 00 00 00 00 05 a5 00 00 00 00 6a a8 fb 00 00 00 a5 a5"),
    (7000, "c1 34 20 00 28 00 05 a5 00 00 00 00 00 00 00 00 00 00 a5 a5"),
    (9000, "f1 34 20 00 28 00 35 a5 1b 58 28 00 00 00 00 00 00 00 a5 a5"),
]


def recording(data):
    """The recording of these data, by the stores as they were filled; the first are marshalled into octets A5."""
    file, held, before = io.BytesIO(), store(), b"\xa5" * 20
    recorder.start(file, 1, pack(list(read_signals()), ROUTES))
    for (vehicle, stamp, name), (clock, after) in zip(HEARD, data):
        held = taken(held, vehicle, stamp, recorder.octets_of(os.path.join(HERE, "scene", name + ".telegram")))
        recorder.add_step(file, clock, held, before, after)
        before = after
    return file.getvalue()


def too_late(data):
    """The data of a gateway that does not look at the age: octets 13-18 stay as vehicle 3 said them."""
    first = data[0][1]
    return [(clock, after[:12] + first[12:18] + after[18:]) for clock, after in data]


def names_of_code():
    """The lines of the program's byte string, with its escapes undone."""
    with open(NAMES) as f:
        text = re.search(r'b"(.*?)(?<!\\)"', f.read(), re.S)[1]
    escape = re.compile(rb"\\(?:x([0-9A-F]{2})|(.))", re.S)
    return escape.sub(lambda found: bytes([int(found[1], 16)]) if found[1] else found[2], text.encode()).decode().splitlines()


def check_names():
    names = [p["name"] for p in read_properties()]
    if names_of_code() == names:
        return 0
    print(f"crates/christening/src/names.rt and properties.csv have other names: {set(names_of_code()) ^ set(names) or 'in another order'}")
    return 1


def kinds_of_code():
    """Telegram, start, kind and serial number of each row of the programs' table."""
    with open(KINDS) as f:
        tables = re.findall(r"^fn kind_in_(r\d)\(.*?\{\n(.*?)^\}", f.read(), re.M | re.S)
    for telegram, body in tables:
        for row in re.findall(r"^ *(\S.* => .*)$", body, re.M):
            if row != "_ => Kind::Code,":
                start, kind, serial = re.fullmatch(r"(\d+) => Kind::(\w+), // (\S+)", row).groups()
                yield telegram.upper(), int(start), " ".join(re.findall("[A-Z][a-z]+", kind)).lower(), serial


def kinds_of_signals():
    with open(os.path.join(HERE, "signals.csv"), newline="") as f:
        rows = [r for r in csv.DictReader(f) if r["kind"]]
    assert all(r["width"] == "16" for r in rows)
    return [(r["telegram"], int(r["start"]), r["kind"], r["serial_of_A"]) for r in rows]


def check_kinds():
    code, signals = sorted(kinds_of_code()), sorted(kinds_of_signals())
    if code == signals:
        return 0
    print(f"only crates/words/src/kinds.rt has {[row for row in code if row not in signals]}, only signals.csv {[row for row in signals if row not in code]}")
    return 1


def main():
    data = [(clock, bytes.fromhex(after)) for clock, after in STEPS]
    files = {
        "L.list": L,
        "counters.list": COUNTERS,
        "coach.list": pack(list(read_signals()), ROUTES),
        "coach-2.list": pack(list(read_signals()), ROUTES, form=2),
        "coach-next.list": pack(successor(list(read_signals()), 3), ROUTES),
        "coach-wrong.list": pack(successor(list(read_signals()), 2), ROUTES),
        "coach-off.list": pack(one_off(list(read_signals())), ROUTES),
        "plain-coach.list": profiled(plain_coach(read_signals()), PLAIN_COACH_ROUTES),
        "driving-trailer.list": profiled(driving_trailer(read_signals()), DRIVING_TRAILER_ROUTES),
        "door.texts": remedies_file(*DOOR),
        "door.telegram": remedies(*DOOR),
        "door-off.telegram": block_off(remedies(*DOOR), 1),
        "train.records": b"".join(map(record, TRAIN)),
        "train.rec": recording(data),
        "train-off.rec": recording(too_late(data)),
    }
    return settle(files, "make.py") or "--check" in sys.argv and (check_kinds() or check_names())


if __name__ == "__main__":
    sys.exit(main())
