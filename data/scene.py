#!/usr/bin/env python3
"""Writes the telegrams and the stores of scene/, a short train at work and one at a platform, packed from signals.csv alone. scene/README.md says what they
are for.

    data/scene.py            writes them, and for the first the values file that `compose` makes it from and what an old gateway passes on of it
    data/scene.py --check    only says whether they are as they would be written
"""
import csv
import os
import sys

from files import HERE, settle
from slots import slot, store

ERROR, OK, FORCED, UNDEFINED = 0, 1, 2, 3
LENGTHS = {"R1": 128, "R2": 128, "R3": 40}
HEADS = {"R1": 0x11, "R2": 0x12, "R3": 0x13}
# every check place printed in Appendix B
CHECKS = list(range(16, 64, 2)) + list(range(320, 368, 2))

# what every vehicle of the train says (R3, start: value): set up, train line on, battery charged, lighting on, both door sides locked,
# brakes released, main reservoir pipe filled, towards vehicle 01 at 160 km/h, and the time 1 789 459 200 s
COMMON = {64: 1, 79: 1, 80: 160 * 64, 96: 1789459200 << 16, 144: 1, 147: 1, 148: 1, 156: 1, 157: 1, 176: 1, 178: 1, 180: 1, 186: 1}

# vehicle 1, the leading tractive unit, with software for coach-next.list: it says 2 in octet 48 bits 4-7, which coach.list does not know,
# and fills octet 66 bits 4-7, which is blocked in coach.list
LEADING = {
    "R3": {**COMMON, 65: 1, 66: 1, 68: 1},
    "R1": {372: 1, 376: 2, 378: 2, 380: 2, 384: 8192, 400: 160 * 64, 416: 1, 424: 3, 428: 4, 432: 6000, 448: 2, 450: 2, 458: 2,
           464: 1, 492: 2, 524: 2, 546: 1},
}
# vehicle 2, a led tractive unit of version 2
LED = {
    "R3": {**COMMON, 69: 1},
    "R2": {368: 1, 369: 1, 372: 1, 373: 1, 376: 2, 378: 2, 380: 1, 384: 8192, 400: 7000, 416: 3, 420: 2, 424: 1, 425: 1, 432: 2500, 448: 250,
           456: 1, 458: 2, 480: 12000, 496: 9000, 512: 1, 524: 0},
}
# vehicle 3, a coach that was last heard long ago; its right doors are not locked
COACH = {"R3": {**COMMON, 157: 0, 72: 1, 73: 1}}

# a train at a platform, that of data/train.records with its engine led: tractive and led, coach, coach and sleeping, coach, leading and coach; and what every
# vehicle of it says, the same at 0 km/h and not towards vehicle 01
CONSIST = bytes([4 + 8, 2, 2 + 16, 2, 1 + 2])
STANDING = {**COMMON, 79: 0, 80: 0}
# the check over octet 20, the doors
DOORS = 28


def added():
    """The signal that coach-next.list adds."""
    return {"telegram": "R1", "start": "524", "width": "4", "check": "338", "known_codes": "0-3"}


def signals(with_added):
    with open(os.path.join(HERE, "signals.csv"), newline="") as f:
        rows = list(csv.DictReader(f)) + ([added()] if with_added else [])
    order = {"R3": 0, "R1": 1, "R2": 2}
    return sorted(rows, key=lambda r: (order[r["telegram"]], int(r["start"])))


def lowest(row):
    return 0 if row["known_codes"] == "all" else int(row["known_codes"].split(";")[0].split("-")[0])


def said(row, values):
    return values.get(row["telegram"], {}).get(int(row["start"]), lowest(row))


def set_bits(octets, start, width, value):
    """Bit 0 of an octet is its most significant; the first bit of a field is the most significant of its value."""
    assert value < 1 << width, (start, width, value)
    for i in range(width):
        if value >> (width - 1 - i) & 1:
            octets[(start + i) // 8] |= 0x80 >> (start + i) % 8


def telegram(kind, version, values, marks=(), with_added=False):
    octets = bytearray(LENGTHS[kind])
    octets[0], octets[1] = HEADS[kind], version
    for row in signals(with_added):
        if row["telegram"] in ("R3", kind):
            set_bits(octets, int(row["start"]), int(row["width"]), said(row, values))
    for place in CHECKS:
        if place + 2 <= 8 * len(octets):
            set_bits(octets, place, 2, dict(marks).get(place, OK))
    return bytes(octets)


def bits(octets, start, width):
    return int.from_bytes(octets, "big") >> 8 * len(octets) - start - width & (1 << width) - 1


def is_known(row, value):
    ranges = [part.split("-") for part in row["known_codes"].split(";")]
    return row["known_codes"] == "all" or any(int(r[0]) <= value <= int(r[-1]) for r in ranges)


def relayed(heard):
    """What a gateway with coach.list composes of a telegram that it heard in time: each value as it came, or, where it is newer than the telegram or its
    mark or code is no good, the lowest code; each mark as it came where all under it was good, else error."""
    kind = next(k for k, head in HEADS.items() if head == heard[0])
    values, good = {"R3": {}, kind: {}}, {place: [] for place in CHECKS}
    for row in signals(False):
        if row["telegram"] in values:
            start, check, since = int(row["start"]), int(row["check"]), 2 if row["listed_in_002.01"] == "yes" else 1
            value = bits(heard, start, int(row["width"]))
            # version 0 is read as 1
            good[check].append(since <= max(1, heard[1]) and bits(heard, check, 2) in (OK, FORCED) and is_known(row, value))
            values[row["telegram"]][start] = value if good[check][-1] else lowest(row)
    marks = {place: bits(heard, place, 2) if under and all(under) else ERROR for place, under in good.items()}
    return telegram(kind, 2, values, marks)


def place(start, width):
    """A field as the programs write it: its octets, one octet, a bit or bits of one, or from a bit of one to a bit of another."""
    first, last = start // 8 + 1, (start + width - 1) // 8 + 1
    low, high = start % 8, (start + width - 1) % 8
    if width > 1 and (low, high) == (0, 7):
        return f"octet {first}" if first == last else f"octets {first}-{last}"
    if width == 1:
        return f"octet {first} bit {low}"
    return f"octet {first} bits {low}-{high}" if first == last else f"octet {first} bit {low} to {last} bit {high}"


def values_file(kind, values):
    lines = [f"# vehicle 1 of data/scene, an {kind} under data/coach-next.list: what is not given is the list's replacement, marked ok"]
    for row in signals(True):
        if row["telegram"] in ("R3", kind) and int(row["start"]) in values.get(row["telegram"], {}):
            lines.append(f"value {row['telegram']} {place(int(row['start']), int(row['width']))} {said(row, values)}")
    lines.append("mark octet 41 bits 6-7 forced   # brakes")
    return ("\n".join(lines) + "\n").encode()


def platform():
    """The engine has no doors and says so by the mark; the right doors of vehicle 2 are open; vehicle 4 was last heard when it stopped."""
    engine = telegram("R2", 2, {"R3": {**STANDING, 69: 1, 156: 0, 157: 0}}, {DOORS: UNDEFINED})
    trailer = telegram("R1", 2, {"R3": {**STANDING, 65: 1, 66: 1}})
    locked, opened = (telegram("R3", 2, {"R3": {**STANDING, 157: bit}}) for bit in (1, 0))
    return store(slot(5800, engine), slot(5900, opened), slot(5500, locked), slot(1000, locked), slot(6000, trailer))


def main():
    r1 = telegram("R1", 3, LEADING, {326: FORCED}, True)
    r2 = telegram("R2", 2, LED, {324: FORCED, 330: ERROR})
    r3 = telegram("R3", 1, COACH)
    return settle({
        "scene/1-R1.telegram": r1,
        "scene/1-R1.values": values_file("R1", LEADING),
        "scene/1-R1-relayed.telegram": relayed(r1),
        "scene/2-R2.telegram": r2,
        "scene/3-R3.telegram": r3,
        "scene/train.store": store(slot(6000, r1), slot(7500, r2), slot(1000, r3)),
        "scene/platform.consist": CONSIST,
        "scene/platform.store": platform(),
    }, "scene.py")


if __name__ == "__main__":
    sys.exit(main())
