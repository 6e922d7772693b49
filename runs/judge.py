#!/usr/bin/env python3
"""The table of `judge`'s runs: a list, and the line that the program prints for it, in both forms; those under a profile stand in profiles.py.
Run from the root, after the programs are built."""
import os
import re
import subprocess
import sys
import tempfile

sys.path.append(os.path.join(os.path.dirname(os.path.dirname(os.path.abspath(__file__))), "data"))
import serials  # from data/

WORDS = {
    1: "list ends inside a count or a section", 2: "count above its limit", 3: "entry breaks its rule", 4: "octets after the routes",
    34: "profile rule broken",
}
# the octets of a check, a signal, a code range and a route
SIZES = (2, 16, 6, 6)


def n(value, octets):
    return value.to_bytes(octets, "big")


def check(place):
    return n(place, 2)


def signal(start, width, type=1, check=0, since=1, limit=5000, replacement=0):
    return n(start, 2) + bytes([width, type, check, since]) + n(limit, 4) + n(replacement, 6)


def code(k, low, high):
    return n(k, 2) + n(low, 2) + n(high, 2)


def route(k, vehicle, start, null=0):
    return n(k, 2) + bytes([vehicle, null]) + n(start, 2)


def pack(checks=(), signals=(), codes=(), routes=()):
    return b"".join(n(len(part), 2) + b"".join(part) for part in (checks, signals, codes, routes))


def ok(checks, signals, codes, routes, version, profile=""):
    return f"list ok {profile and f'profile={profile} '}checks={checks} signals={signals} codes={codes} routes={routes} version={version}"


def refused(number, offset):
    return f"refused {number} at {offset}: {WORDS[number]}"


def broken(offset, words):
    """The entry at the offset, where its signal lies, and the first rule that it breaks."""
    return f"{refused(3, offset)}: {words}"


def behind(*entries):
    """The offset behind so many checks, signals, code ranges and routes: that of the next entry, in the last section that is given."""
    return sum(2 + size * count for size, count in zip(SIZES, entries))


# ---- form 2

# a number of each kind, one that is packed as none (no number in its group, letters that are free), and none
SERIALS = [0x40C0, 0x4B82, 0xA048, 0x40A1, 0x4099, 0x4091, 0, 0x52C0, 0x1001, 0x107F, 0xFFFF, 0x2068, 0x2071]


def printed(serial):
    """As the programs print it."""
    number, letters, variant = serial >> 6 & 63, serial >> 3 & 7, serial & 7
    if serial == 0:
        return "no serial number"
    if number == 0 or letters == 7:
        return f"0x{serial:04X}"
    letter, mark = serials.LETTERS[letters]
    return f"{serial >> 12}.{number}{letter}" + (f"/{variant}" if variant else "") + mark


def numbered(first):
    """Signal 0 has that one of SERIALS, signal 1 the next."""
    return lambda k: SERIALS[(first + k) % len(SERIALS)]


def numbers(octets):
    """How many checks and signals a list has; no signals where they are not all there."""
    checks = int.from_bytes(octets[:2], "big")
    at = 2 + 2 * checks
    signals = int.from_bytes(octets[at:at + 2], "big")
    return checks, signals if signals <= 256 and at + 2 + 16 * signals <= len(octets) else 0


def in_form_2(octets, serial=lambda k: 0):
    """The list with a serial number behind each signal, accepted or not."""
    checks, signals = numbers(octets)
    at = 4 + 2 * checks
    ends = [at + 16 * k for k in range(signals + 1)]
    return octets[:at] + b"".join(octets[a:e] + n(serial(k), 2) for k, (a, e) in enumerate(zip(ends, ends[1:]))) + octets[ends[-1]:]


def offset_in_form_2(octets, offset):
    """Where the entry or section stands that starts at the offset in form 1."""
    checks, signals = numbers(octets)
    return offset + 2 * min(max((offset - 4 - 2 * checks) // 16, 0), signals)


def line_in_form_2(octets, line, serial):
    """The line that `judge` prints in form 2 where it prints this one in form 1."""
    line = re.sub(r"^(refused \d+ at )(\d+)", lambda m: m[1] + str(offset_in_form_2(octets, int(m[2]))), line)
    return re.sub(r"(signal (\d+), (?:R|type ).*)(?=, (?:profile )?rule)", lambda m: f"{m[1]} ({printed(serial(int(m[2])))})", line)


L = bytes.fromhex("0001 0142 0001 01A8 04 01 01 01 00001388 000000000000 0002 0000 0000 0006 0000 000F 000F 0001 0000 01 00 0000")

# every section at its limit: 64 checks in 16-143, 88 signals of 2 bits in 144-319 and 168 of 4 bits from 320 on, two code ranges each,
# 512 routes of 4 bits that end at bit 2048
LONGEST = pack(
    [check(16 + 2 * k) for k in range(64)],
    [signal(144 + 2 * k, 2, 0, 1 + k % 64) for k in range(88)] + [signal(320 + 4 * k, 4) for k in range(168)],
    [code(k, c, c) for k in range(256) for c in (0, 2)],
    [route(88, 1 + k % 63, 4 * k) for k in range(512)],
)

S = signal(424, 4)              # a signal that keeps every rule
SIGNALS = 4 + 2                 # offset of signal 0 behind one check; without checks it is 4


def one_signal(s, checks=()):
    return pack(checks, [s])


def second_signal(a, b):
    return pack((), [a, b])


def one_code(c, s=S):
    return pack((), [s], [c])


def codes_of(*cs):
    return pack((), [S, signal(428, 4)], cs)


def routes_of(*rs):
    return pack((), [S, signal(428, 8)], (), rs)


TABLE = [
    ("L", L, ok(1, 1, 2, 1, 1)),
    ("L less its last octet", L[:-1], refused(1, 36)),
    ("L with an octet more", L + b"\0", refused(4, 44)),
    ("the empty list", b"", refused(1, 0)),
    ("one octet", b"\0", refused(1, 0)),
    ("four empty sections", pack(), ok(0, 0, 0, 0, 1)),
    ("the longest list", LONGEST, ok(64, 256, 512, 512, 1)),
    ("the longest list and an octet", LONGEST + b"\0", refused(4, len(LONGEST))),
    ("100,000 octets of 0", bytes(100000), refused(4, 8)),
    ("100,000 octets of FF", b"\xff" * 100000, refused(2, 0)),
    ("the longest list and 100,000 octets more", LONGEST + bytes(100000), refused(4, len(LONGEST))),
    ("ends inside the signals' count", n(0, 2) + b"\0", refused(1, 2)),
    ("ends inside a check", n(2, 2) + check(16) + b"\0", refused(1, 0)),
    ("65 checks", n(65, 2) + bytes(130), refused(2, 0)),
    ("257 signals", n(0, 2) + n(257, 2), refused(2, 2)),
    ("513 codes", n(0, 2) + n(0, 2) + n(513, 2), refused(2, 4)),
    ("513 routes", n(0, 2) + n(0, 2) + n(0, 2) + n(513, 2), refused(2, 6)),
    ("a count above its limit, entries missing too", n(65535, 2), refused(2, 0)),
    ("check at an odd address", pack([check(17)]),
     broken(2, "check 1, octet 3 bits 1-2, rule 1: its address is odd")),
    ("check at 14", pack([check(14)]),
     broken(2, "check 1, octet 2 bits 6-7, rule 2: its address is below 16")),
    ("check at 1022", pack([check(1022)]), ok(1, 0, 0, 0, 1)),
    ("check at 1024", pack([check(1024)]),
     broken(2, "check 1, octet 129 bits 0-1, rule 3: its address is above 1022")),
    ("checks that don't rise", pack([check(16), check(18), check(18)]),
     broken(6, "check 3, octet 3 bits 2-3, rule 4: its address is not above that of the check before")),
    ("width 0", one_signal(signal(424, 0)),
     broken(4, "signal 0, R1 octet 54 bit 0, rule 1: width not 1-64")),
    ("width 48", one_signal(signal(424, 48)), ok(0, 1, 0, 0, 1)),
    ("width 49", one_signal(signal(424, 49)), ok(0, 1, 0, 0, 1)),
    ("width 63", one_signal(signal(424, 63)), ok(0, 1, 0, 0, 1)),
    ("width 64", one_signal(signal(424, 64)), ok(0, 1, 0, 0, 1)),
    ("width 65", one_signal(signal(424, 65)),
     broken(4, "signal 0, R1 octet 54 bit 0 to 62 bit 0, rule 1: width not 1-64")),
    ("a second signal of width 65", second_signal(signal(424, 64), signal(488, 65)),
     broken(behind(0, 1), "signal 1, R1 octet 62 bit 0 to 70 bit 0, rule 1: width not 1-64")),
    ("type 3", one_signal(signal(424, 4, 3)),
     broken(4, "signal 0, type 3 octet 54 bits 0-3, rule 2: type not 0-2")),
    ("common field below 16", one_signal(signal(15, 1, 0)),
     broken(4, "signal 0, R3 octet 2 bit 7, rule 3: not wholly in its type's addresses, 16-319 of type 0, 320-1023 of 1 and 2")),
    ("common field to 319", one_signal(signal(319, 1, 0)), ok(0, 1, 0, 0, 1)),
    ("common field of 64 bits from 16", one_signal(signal(16, 64, 0)), ok(0, 1, 0, 0, 1)),
    ("common field of 64 bits to 319", one_signal(signal(256, 64, 0)), ok(0, 1, 0, 0, 1)),
    ("common field of 64 bits past 319", one_signal(signal(257, 64, 0)),
     broken(4, "signal 0, R3 octet 33 bit 1 to 41 bit 0, rule 3: not wholly in its type's addresses, 16-319 of type 0, 320-1023 of 1 and 2")),
    ("R1 field of 64 bits to 1023", one_signal(signal(960, 64)), ok(0, 1, 0, 0, 1)),
    ("R1 field of 64 bits past 1023", one_signal(signal(961, 64)),
     broken(4, "signal 0, R1 octet 121 bit 1 to 129 bit 0, rule 3: not wholly in its type's addresses, 16-319 of type 0, 320-1023 of 1 and 2")),
    ("common field past 319", one_signal(signal(319, 2, 0)),
     broken(4, "signal 0, R3 octet 40 bit 7 to 41 bit 0, rule 3: not wholly in its type's addresses, 16-319 of type 0, 320-1023 of 1 and 2")),
    ("R1 field below 320", one_signal(signal(319, 2, 1)),
     broken(4, "signal 0, R1 octet 40 bit 7 to 41 bit 0, rule 3: not wholly in its type's addresses, 16-319 of type 0, 320-1023 of 1 and 2")),
    ("R2 field to 1023", one_signal(signal(1022, 2, 2)), ok(0, 1, 0, 0, 1)),
    ("R2 field past 1023", one_signal(signal(1022, 3, 2)),
     broken(4, "signal 0, R2 octet 128 bit 6 to 129 bit 0, rule 3: not wholly in its type's addresses, 16-319 of type 0, 320-1023 of 1 and 2")),
    ("check that does not exist", one_signal(signal(424, 4, 1, 1)),
     broken(4, "signal 0, R1 octet 54 bits 0-3, rule 4: its check does not exist, or lies in the other types' addresses")),
    ("R1 signal with a check below 320", one_signal(signal(424, 4, 1, 1), [check(318)]),
     broken(SIGNALS, "signal 0, R1 octet 54 bits 0-3, rule 4: its check does not exist, or lies in the other types' addresses")),
    ("common signal with a check from 320 on", one_signal(signal(64, 4, 0, 1), [check(320)]),
     broken(SIGNALS, "signal 0, R3 octet 9 bits 0-3, rule 4: its check does not exist, or lies in the other types' addresses")),
    ("R1 signal with a check at 320", one_signal(signal(424, 4, 1, 1), [check(320)]), ok(1, 1, 0, 0, 1)),
    ("since-version 0", one_signal(signal(424, 4, 1, 0, 0)),
     broken(4, "signal 0, R1 octet 54 bits 0-3, rule 5: since-version not 1-255")),
    ("since-version 255", one_signal(signal(424, 4, 1, 0, 255)), ok(0, 1, 0, 0, 255)),
    ("limit 600,000", one_signal(signal(424, 4, limit=600000)), ok(0, 1, 0, 0, 1)),
    ("limit 600,001", one_signal(signal(424, 4, limit=600001)),
     broken(4, "signal 0, R1 octet 54 bits 0-3, rule 6: limit above 600,000")),
    ("replacement 2^width - 1", one_signal(signal(424, 4, replacement=15)), ok(0, 1, 0, 0, 1)),
    ("replacement 2^width", one_signal(signal(424, 4, replacement=16)),
     broken(4, "signal 0, R1 octet 54 bits 0-3, rule 7: replacement not below 2^width")),
    ("replacement 2^47 at width 47", one_signal(signal(424, 47, replacement=2**47)),
     broken(4, "signal 0, R1 octet 54 bit 0 to 59 bit 6, rule 7: replacement not below 2^width")),
    ("replacement 2^48 - 1", one_signal(signal(424, 48, replacement=2**48 - 1)), ok(0, 1, 0, 0, 1)),
    ("replacement 2^48 - 1 at width 49", one_signal(signal(424, 49, replacement=2**48 - 1)), ok(0, 1, 0, 0, 1)),
    ("replacement 2^48 - 1 at width 64", one_signal(signal(424, 64, replacement=2**48 - 1)), ok(0, 1, 0, 0, 1)),
    ("types that fall", second_signal(signal(424, 4, 2), signal(500, 4, 1)),
     broken(behind(0, 1), "signal 1, R1 octet 63 bits 4-7, rule 8: its type is below that of the signal before")),
    ("start before the end before", second_signal(signal(424, 4), signal(427, 4)),
     broken(behind(0, 1), "signal 1, R1 octet 54 bits 3-6, rule 9: it starts before the end of the signal before")),
    ("start at the end before", second_signal(signal(424, 4), signal(428, 4)), ok(0, 2, 0, 0, 1)),
    ("the same place in another type", second_signal(signal(424, 4, 1), signal(424, 4, 2)), ok(0, 2, 0, 0, 1)),
    ("field on a check nobody names", one_signal(S, [check(426)]),
     broken(SIGNALS, "signal 0, R1 octet 54 bits 0-3, rule 10: it shares a bit with a check")),
    ("field on a check that only the other type names", pack([check(426)], [S, signal(500, 4, 2, 1)]),
     broken(SIGNALS, "signal 0, R1 octet 54 bits 0-3, rule 10: it shares a bit with a check")),
    ("field that ends at a check", one_signal(S, [check(428)]), ok(1, 1, 0, 0, 1)),
    ("field that starts past a check", one_signal(S, [check(422)]), ok(1, 1, 0, 0, 1)),
    ("a shared bit before a later broken entry", pack([check(426)], [S, signal(500, 0)]),
     broken(SIGNALS, "signal 0, R1 octet 54 bits 0-3, rule 10: it shares a bit with a check")),
    ("a broken entry before a shared bit", pack([check(502)], [signal(424, 0), signal(500, 4)]),
     broken(SIGNALS, "signal 0, R1 octet 54 bit 0, rule 1: width not 1-64")),
    ("code of a signal that does not exist", one_code(code(1, 0, 1)),
     broken(behind(0, 1, 0), "code entry 0 of signal 1, rule 1: no such signal")),
    ("code of a signal of width 16", one_code(code(0, 0, 65535), signal(424, 16)), ok(0, 1, 1, 0, 1)),
    ("code of a signal of width 17", one_code(code(0, 0, 1), signal(424, 17)),
     broken(behind(0, 1, 0), "code entry 0 of signal 0, R1 octet 54 bit 0 to 56 bit 0, rule 2: its signal is wider than 16 bits")),
    ("code of a signal of width 64", one_code(code(0, 0, 1), signal(424, 64)),
     broken(behind(0, 1, 0), "code entry 0 of signal 0, R1 octets 54-61, rule 2: its signal is wider than 16 bits")),
    ("low above high", one_code(code(0, 3, 2)),
     broken(behind(0, 1, 0), "code entry 0 of signal 0, R1 octet 54 bits 0-3, rule 3: low above high")),
    ("high 2^width", one_code(code(0, 0, 16)),
     broken(behind(0, 1, 0), "code entry 0 of signal 0, R1 octet 54 bits 0-3, rule 4: high not below 2^width")),
    ("signal numbers that fall", codes_of(code(1, 0, 0), code(0, 0, 0)),
     broken(behind(0, 2, 1), "code entry 1 of signal 0, R1 octet 54 bits 0-3, rule 5: its signal's number is below that of the code before")),
    ("low exceeds the previous high by 1", codes_of(code(0, 0, 3), code(0, 4, 5)),
     broken(behind(0, 2, 1), "code entry 1 of signal 0, R1 octet 54 bits 0-3, rule 6: low does not exceed the high before by at least 2")),
    ("low exceeds the previous high by 2", codes_of(code(0, 0, 3), code(0, 5, 5)), ok(0, 2, 2, 0, 1)),
    ("a range after high 65,535", pack((), [signal(424, 16)], [code(0, 0, 65535), code(0, 1, 1)]),
     broken(behind(0, 1, 1), "code entry 1 of signal 0, R1 octets 54-55, rule 6: low does not exceed the high before by at least 2")),
    ("route of a signal that does not exist", routes_of(route(2, 1, 0)),
     broken(behind(0, 2, 0, 0), "route 0 of signal 2, rule 1: no such signal")),
    ("vehicle 0", routes_of(route(0, 0, 0)),
     broken(behind(0, 2, 0, 0), "route 0 of signal 0, R1 octet 54 bits 0-3, rule 2: vehicle not 1-63")),
    ("vehicle 63", routes_of(route(0, 63, 0)), ok(0, 2, 0, 1, 1)),
    ("vehicle 64", routes_of(route(0, 64, 0)),
     broken(behind(0, 2, 0, 0), "route 0 of signal 0, R1 octet 54 bits 0-3, rule 2: vehicle not 1-63")),
    ("a route's zero octet set", routes_of(route(0, 1, 0, 1)),
     broken(behind(0, 2, 0, 0), "route 0 of signal 0, R1 octet 54 bits 0-3, rule 3: its zero octet is not zero")),
    ("a route to bit 2048", routes_of(route(0, 1, 2044)), ok(0, 2, 0, 1, 1)),
    ("a route past bit 2048", routes_of(route(0, 1, 2045)),
     broken(behind(0, 2, 0, 0), "route 0 of signal 0, R1 octet 54 bits 0-3, rule 4: it ends past bit 2048")),
    ("a route of 64 bits to bit 2048", pack((), [signal(424, 64)], (), [route(0, 1, 1984)]), ok(0, 1, 0, 1, 1)),
    ("a route of 64 bits past bit 2048", pack((), [signal(424, 64)], (), [route(0, 1, 1985)]),
     broken(behind(0, 1, 0, 0), "route 0 of signal 0, R1 octets 54-61, rule 4: it ends past bit 2048")),
    ("route before the end before", routes_of(route(1, 1, 0), route(0, 1, 7)),
     broken(behind(0, 2, 0, 1), "route 1 of signal 0, R1 octet 54 bits 0-3, rule 5: it starts before the end of the route before")),
    ("route at the end before", routes_of(route(1, 1, 0), route(0, 1, 8)), ok(0, 2, 0, 2, 1)),
    ("an octet after the routes", pack() + b"\0", refused(4, 8)),
    # entries that break several rules: the first is named
    ("every rule of a signal", one_signal(signal(65535, 255, 255, 255, 0, 2**32 - 1, 2**48 - 1)),
     broken(4, "signal 0, type 255 octet 8192 bit 7 to 8224 bit 5, rule 1: width not 1-64")),
    ("all but the width", one_signal(signal(65535, 64, 255, 255, 0, 2**32 - 1, 2**48 - 1)),
     broken(4, "signal 0, type 255 octet 8192 bit 7 to 8200 bit 6, rule 2: type not 0-2")),
    ("width and replacement", one_signal(signal(424, 0, replacement=1)),
     broken(4, "signal 0, R1 octet 54 bit 0, rule 1: width not 1-64")),
    ("width 65 past 1023", one_signal(signal(960, 65)),
     broken(4, "signal 0, R1 octet 121 bit 0 to 129 bit 0, rule 1: width not 1-64")),
    ("limit and replacement", one_signal(signal(424, 4, limit=2**32 - 1, replacement=2**48 - 1)),
     broken(4, "signal 0, R1 octet 54 bits 0-3, rule 6: limit above 600,000")),
    ("a type that falls, on a check", pack([check(64)], [signal(424, 4), signal(64, 4, 0)]),
     broken(behind(1, 1), "signal 1, R3 octet 9 bits 0-3, rule 8: its type is below that of the signal before")),
    ("the same field twice, on a check", pack([check(430)], [signal(424, 4), signal(424, 8)]),
     broken(behind(1, 1), "signal 1, R1 octet 54, rule 9: it starts before the end of the signal before")),
    ("a check that is odd, above and falls", pack([check(16), check(65535)]), broken(4, "check 2, octet 8192 bit 7 to 8193 bit 0, rule 1: its address is odd")),
    ("a code of signal 65,535, low above high", one_code(code(65535, 9, 1)), broken(behind(0, 1, 0), "code entry 0 of signal 65535, rule 1: no such signal")),
    ("a route of signal 65,535 to bit 65,535", routes_of(route(65535, 255, 65535, 255)), broken(behind(0, 2, 0, 0), "route 0 of signal 65535, rule 1: no such signal")),
    ("a route of vehicle 255 to bit 65,535", routes_of(route(1, 255, 65535, 255)), broken(behind(0, 2, 0, 0), "route 0 of signal 1, R1 octet 54 bit 4 to 55 bit 3, rule 2: vehicle not 1-63")),
    # the last entry of each section
    ("the last check of the longest list", LONGEST[:128] + check(140) + LONGEST[130:],
     broken(128, "check 64, octet 18 bits 4-5, rule 4: its address is not above that of the check before")),
    ("the last signal of the longest list", LONGEST[:behind(64, 255)] + signal(984, 4) + LONGEST[behind(64, 256):],
     broken(behind(64, 255), "signal 255, R1 octet 124 bits 0-3, rule 9: it starts before the end of the signal before")),
    ("the last code of the longest list", LONGEST[:behind(64, 256, 511)] + code(255, 1, 1) + LONGEST[behind(64, 256, 512):],
     broken(behind(64, 256, 511), "code entry 511 of signal 255, R1 octet 124 bits 4-7, rule 6: low does not exceed the high before by at least 2")),
    ("the last route of the longest list", LONGEST[:-6] + route(88, 64, 2044),
     broken(behind(64, 256, 512, 511), "route 511 of signal 88, R1 octet 41 bits 0-3, rule 2: vehicle not 1-63")),
]


L2 = in_form_2(L, lambda k: 0x40C0)

# lists in form 2
TABLE_2 = [
    ("a list in form 1, said to be in form 2", L, refused(4, 28)),
    ("a list that ends inside a serial number", L2[:23], refused(1, 4)),
    ("a list that ends behind its serial number", L2[:24], refused(1, 24)),
    ("16 octets for a signal", pack((), [S])[:20], refused(1, 2)),
    ("a signal and nothing else", in_form_2(pack((), [S])), ok(0, 1, 0, 0, 1)),
    ("a signal at fault that has no serial number", in_form_2(one_signal(signal(424, 0))),
     broken(4, "signal 0, R1 octet 54 bit 0 (no serial number), rule 1: width not 1-64")),
    ("the second signal at fault", in_form_2(second_signal(S, S), lambda k: (0x40C0, 0x40A1)[k]),
     broken(22, "signal 1, R1 octet 54 bits 0-3 (4.2R/1e), rule 9: it starts before the end of the signal before")),
    ("a code of the second signal at fault", in_form_2(codes_of(code(1, 3, 2)), lambda k: (0x40C0, 0x4B82)[k]),
     broken(42, "code entry 0 of signal 1, R1 octet 54 bits 4-7 (4.46/2), rule 3: low above high")),
    ("a route of the second signal at fault, behind two checks", in_form_2(pack([check(16), check(18)], [S, signal(428, 8)], (), [route(1, 0, 0)]), lambda k: 0xFFFF),
     broken(48, "route 0 of signal 1, R1 octet 54 bit 4 to 55 bit 3 (0xFFFF), rule 2: vehicle not 1-63")),
    ("a code of no signal", in_form_2(one_code(code(1, 0, 1)), lambda k: 0x40C0), broken(24, "code entry 0 of signal 1, rule 1: no such signal")),
    ("a check at fault", in_form_2(pack([check(17)], [S]), lambda k: 0x40C0), broken(2, "check 1, octet 3 bits 1-2, rule 1: its address is odd")),
]

# lists in form 2, said to be in form 1
TABLE_1 = [
    ("a serial number read as a count", L2, refused(2, 22)),
    ("no serial number, read as a count", in_form_2(L),
     broken(26, "route 0 of signal 0, R1 octet 54 bits 0-3, rule 2: vehicle not 1-63")),
]


WORDS_WRONG = [
    ("a missing file", ["FOLDER/none"]),
    ("a folder", ["FOLDER"]),
    ("two lists", ["FOLDER/list", "FOLDER/list"]),
    ("a missing file in form 2", ["FOLDER/none", "form2"]),
    ("the word form2 twice", ["FOLDER/list", "form2", "form2"]),
    ("the word form2 before the list", ["form2", "FOLDER/list"]),
    ("another word", ["FOLDER/list", "form1"]),
    ("another program's word", ["FOLDER/list", "table"]),
    ("the word form2 and another", ["FOLDER/list", "form2", "table"]),
    ("the word form2 alone", ["form2"]),
    ("a missing file under a profile", ["FOLDER/none", "plain-coach"]),
    ("a profile alone", ["driving-trailer"]),
]
LINE = "judge LIST [form2] [plain-coach|driving-trailer]"
USAGE = f"error: usage: {LINE}\n"
COACH = "data/coach.list"

# the words, and how what is printed begins
OTHERWISE = [
    ([], USAGE),
    (["help"], LINE + "\n\n"),
    (["--help"], LINE + "\n\n"),
    ([COACH, "form2", "form2"], USAGE),
    ([COACH, "Form2"], USAGE),
    ([COACH, "coach"], USAGE),
    ([COACH, "Plain-coach"], USAGE),
    ([COACH, "plain-coach", "plain-coach"], USAGE),
    ([COACH, "plain-coach", "driving-trailer"], USAGE),
    ([COACH, "driving-trailer", "form2", "plain-coach"], USAGE),
    ([COACH, "plain-coach", "form2", "form2"], USAGE),
    ([COACH, "plain-coach", "table"], USAGE),
    (["plain-coach", COACH], USAGE),
]

# what the plain coach's list has, and the driving trailer's; the first entry at fault of the whole list, in form 1 and in form 2
PLAIN, TRAILER = (11, 64, 3, 14, 2), (16, 64, 20, 12, 2)
WHOLE = "signal 64, R3 octet 27 bit 7, profile rule 2: more than 64 signals"
WHOLE_2 = "signal 64, R3 octet 27 bit 7 (8.4R), profile rule 2: more than 64 signals"

# the real lists, with the words behind them
REAL = [
    ("coach", [], ok(48, 165, 41, 14, 2)),
    ("coach-next", [], ok(48, 166, 42, 14, 3)),
    ("coach-wrong", [], ok(48, 166, 42, 14, 2)),
    ("coach-2", ["form2"], ok(48, 165, 41, 14, 2)),
    ("plain-coach", [], ok(*PLAIN)),
    ("plain-coach", ["plain-coach"], ok(*PLAIN, "plain-coach")),
    ("plain-coach", ["driving-trailer"], ok(*PLAIN, "driving-trailer")),
    ("driving-trailer", [], ok(*TRAILER)),
    ("driving-trailer", ["driving-trailer"], ok(*TRAILER, "driving-trailer")),
    ("driving-trailer", ["plain-coach"], f"{refused(34, behind(16, 16))}: signal 16, R1 octet 47 bit 0, profile rule 1: type not 0"),
    ("coach", ["plain-coach"], f"{refused(34, 1124)}: {WHOLE}"),
    ("coach", ["driving-trailer"], f"{refused(34, 1124)}: {WHOLE}"),
    ("coach-2", ["form2", "plain-coach"], f"{refused(34, 1252)}: {WHOLE_2}"),
    ("coach-2", ["driving-trailer", "form2"], f"{refused(34, 1252)}: {WHOLE_2}"),
    ("coach-2", ["plain-coach"], f"{refused(3, 116)}: signal 1, type 65 octet 1 bit 0, rule 1: width not 1-64"),
    ("counters", ["driving-trailer"], f"{refused(34, 6)}: signal 0, R1 octets 74-81, profile rule 6: not in octets 47-73, or not wholly under the check place that the R1 grouping gives its bits"),
]


def run(program, *args):
    return subprocess.run([program, "judge", *args], stdout=subprocess.PIPE, stderr=subprocess.STDOUT, timeout=60).stdout.decode()


def both_forms():
    """Every row: the list, the words behind it, and the line."""
    for i, (name, octets, line) in enumerate(TABLE):
        serial = numbered(i)
        yield name, octets, [], line
        yield name + ", in form 2", in_form_2(octets, serial), ["form2"], line_in_form_2(octets, line, serial)
    for name, octets, line in TABLE_2:
        yield name, octets, ["form2"], line
    for name, octets, line in TABLE_1:
        yield name, octets, [], line


def main():
    import profiles  # which stands on this file
    program = os.path.abspath("run")
    bad = 0
    rows = [*both_forms(), *profiles.rows()]
    with tempfile.TemporaryDirectory() as folder:
        path = os.path.join(folder, "list")
        for name, octets, words, expected in rows:
            with open(path, "wb") as f:
                f.write(octets)
            got = run(program, path, *words)
            if got != expected + "\n":
                print(f"judge, {name}: expected {expected!r}, got {got!r}")
                bad += 1
        for name, args in WORDS_WRONG:
            got = run(program, *(word.replace("FOLDER", folder) for word in args))
            if not got.startswith("error: ") or got.count("\n") != 1:
                print(f"judge, {name}: expected one line that begins with error, got {got!r}")
                bad += 1
    for args, first in OTHERWISE:
        got = run(program, *args)
        if not got.startswith(first):
            print(f"judge {' '.join(args)}: expected {first!r}, got {got!r}")
            bad += 1
    for name, words, expected in REAL:
        got = run(program, f"data/{name}.list", *words)
        if got != expected + "\n":
            print(f"judge, data/{name}.list {' '.join(words)}: expected {expected!r}, got {got!r}")
            bad += 1
    assert len(LONGEST) == behind(64, 256, 512, 512)
    print(f"judge: {len(rows) + len(WORDS_WRONG) + len(OTHERWISE) + len(REAL)} runs, {bad} wrong")
    return 1 if bad else 0


if __name__ == "__main__":
    sys.exit(main())
