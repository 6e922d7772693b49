"""Lists for `judge` under a profile, and the line that it prints for each: a table of lists that keep a rule or break one, and lists made by a seed, the
real ones changed at the edges of the rules. What is expected of these is read off their octets here. runs/judge.py runs them all."""
import random
import struct

from judge import L, behind, broken, check, code, in_form_2, line_in_form_2, numbered, ok, pack, refused, route, signal
import make  # from data/
import scene

PLAIN, TRAILER = PROFILES = ("plain-coach", "driving-trailer")
TELEGRAMS = ("R3", "R1", "R2")
SIGNAL_RULES = {
    2: "more than 64 signals", 3: "it has no check", 4: "limit not 1-5,000", 5: "replacement not a known code",
    6: "not in octets 47-73, or not wholly under the check place that the R1 grouping gives its bits",
}
TYPE_RULES = {PLAIN: "type not 0", TRAILER: "type not 0 or 1"}


def breaks(offset, entry, rule, words):
    return f"{refused(34, offset)}: {entry}, profile rule {rule}: {words}"


# ---- the profiles as they are read here

def entries(octets):
    """Checks, signals, code ranges and routes of a list in form 1 that the general rules accept."""
    at, found = 0, []
    for layout in (">H", ">HBBBBIHI", ">HHH", ">HBBH"):
        count, size = int.from_bytes(octets[at:at + 2], "big"), struct.calcsize(layout)
        found.append([struct.unpack_from(layout, octets, at + 2 + size * k) for k in range(count)])
        at += 2 + size * count
    return found


def tests(profile, checks, codes, k, entry):
    """Whether signal k keeps each rule, in their order."""
    start, width, type, named, _, limit, high, low = entry
    replacement = high << 32 | low
    known = [low <= replacement <= high for signal, low, high in codes if signal == k]
    places = [make.GROUPING.get(bit) for bit in range(start, start + width)]
    return [
        type <= PROFILES.index(profile), k < 64, named > 0, 1 <= limit <= 5000, any(known) or not known,
        type == 0 or named > 0 and set(places) == {checks[named - 1][0]},
    ]


def said(name, entry):
    return f"{name}, {TELEGRAMS[entry[2]]} {scene.place(*entry[:2])}"


def expected(profile, octets):
    """The line for a list in form 1 that the general rules accept."""
    checks, signals, codes, routes = entries(octets)
    for k, entry in enumerate(signals):
        kept = tests(profile, checks, codes, k, entry)
        if not all(kept):
            rule = kept.index(False) + 1
            return breaks(behind(len(checks), k), said(f"signal {k}", entry), rule, SIGNAL_RULES.get(rule) or TYPE_RULES[profile])
    for r, (k, _, _, start) in enumerate(routes):
        if start + signals[k][1] > 128:
            return breaks(behind(len(checks), len(signals), len(codes), r), said(f"route {r} of signal {k}", signals[k]), 1, "it ends past bit 128")
    return ok(*map(len, (checks, signals, codes, routes)), max((entry[4] for entry in signals), default=1), profile)


# ---- the table

# a common signal and an R1 signal that keep every rule, under the first check and the second
C, R = signal(64, 4, 0, 1), signal(424, 4, 1, 2)
MOST = [signal(64 + 2 * k, 2, 0, 1) for k in range(64)]


def listed(*signals, codes=(), routes=(), places=(16, 322)):
    return pack([check(place) for place in places], signals, codes, routes)


def kept(*counts):
    """Accepted under both profiles."""
    return tuple(ok(*counts, profile) for profile in PROFILES)


def at_fault(k, where, rule):
    """Signal k of such a list, under both profiles."""
    return tuple(breaks(behind(2, k), f"signal {k}, {where}", rule, SIGNAL_RULES.get(rule) or TYPE_RULES[profile]) for profile in PROFILES)


def r1(k, where, counts=None, rule=6):
    """Signal k is R1's: at fault by its type under the first profile, by a rule under the second, or accepted with these counts."""
    return at_fault(k, where, 1)[0], ok(*counts, TRAILER) if counts else at_fault(k, where, rule)[1]


def past(r, where, k=0, signals=1):
    return (breaks(behind(2, signals, 0, r), f"route {r} of signal {k}, {where}", 1, "it ends past bit 128"),) * 2


TABLE = [
    ("no entry", pack(), kept(0, 0, 0, 0, 1)),
    ("L", L, (breaks(6, "signal 0, R1 octet 54 bits 0-3", 1, "type not 0"), ok(1, 1, 2, 1, 1, TRAILER))),
    ("a common signal", listed(C), kept(2, 1, 0, 0, 1)),
    ("an R1 signal behind it", listed(C, R), r1(1, "R1 octet 54 bits 0-3", (2, 2, 0, 0, 1))),
    ("an R2 signal", listed(C, signal(424, 4, 2, 2)), at_fault(1, "R2 octet 54 bits 0-3", 1)),
    ("64 signals", listed(*MOST), kept(2, 64, 0, 0, 1)),
    ("65 signals", listed(*MOST, signal(192, 2, 0, 1)), at_fault(64, "R3 octet 25 bits 0-1", 2)),
    ("a 65th signal, of R1", listed(*MOST, R), r1(64, "R1 octet 54 bits 0-3", rule=2)),
    ("a 65th signal, of R2", listed(*MOST, signal(424, 4, 2, 2)), at_fault(64, "R2 octet 54 bits 0-3", 1)),
    ("66 signals, of which the 65th has nothing in order", listed(*MOST, signal(192, 2, 0, limit=0), R), at_fault(64, "R3 octet 25 bits 0-1", 2)),
    ("65 signals, of which the 64th has no check", listed(*MOST[:63], signal(190, 2, 0), signal(192, 2, 0, 1)), at_fault(63, "R3 octet 24 bits 6-7", 3)),
    ("no check", listed(signal(64, 4, 0)), at_fault(0, "R3 octet 9 bits 0-3", 3)),
    ("an R1 signal without a check", listed(C, signal(424, 4)), r1(1, "R1 octet 54 bits 0-3", rule=3)),
    ("limit 0", listed(signal(64, 4, 0, 1, limit=0)), at_fault(0, "R3 octet 9 bits 0-3", 4)),
    ("limit 1", listed(signal(64, 4, 0, 1, limit=1)), kept(2, 1, 0, 0, 1)),
    ("limit 5,001", listed(C, signal(68, 4, 0, 1, limit=5001)), at_fault(1, "R3 octet 9 bits 4-7", 4)),
    ("limit 600,000", listed(signal(64, 4, 0, 1, limit=600000)), at_fault(0, "R3 octet 9 bits 0-3", 4)),
    ("limit 65,536", listed(signal(64, 4, 0, 1, limit=65536)), at_fault(0, "R3 octet 9 bits 0-3", 4)),
    ("a replacement in the second range", listed(signal(64, 4, 0, 1, replacement=9), codes=[code(0, 0, 3), code(0, 9, 9)]), kept(2, 1, 2, 0, 1)),
    ("a replacement between the ranges", listed(signal(64, 4, 0, 1, replacement=8), codes=[code(0, 0, 3), code(0, 9, 9)]), at_fault(0, "R3 octet 9 bits 0-3", 5)),
    ("a replacement past the ranges", listed(signal(64, 4, 0, 1, replacement=10), codes=[code(0, 0, 3), code(0, 9, 9)]), at_fault(0, "R3 octet 9 bits 0-3", 5)),
    ("a replacement before the range", listed(signal(64, 4, 0, 1), codes=[code(0, 1, 15)]), at_fault(0, "R3 octet 9 bits 0-3", 5)),
    ("a replacement that only the signals beside know", listed(C, signal(68, 4, 0, 1, replacement=5), signal(72, 4, 0, 1), codes=[code(0, 0, 5), code(1, 0, 4), code(2, 0, 5)]),
     at_fault(1, "R3 octet 9 bits 4-7", 5)),
    ("a replacement of 48 bits, where every code is known", listed(signal(64, 64, 0, 1, replacement=2**48 - 1)), kept(2, 1, 0, 0, 1)),
    ("an R1 signal whose replacement is not known", listed(signal(424, 4, 1, 2, replacement=7), codes=[code(0, 0, 6)]), r1(0, "R1 octet 54 bits 0-3", rule=5)),
    ("R1 under the place of other octets", listed(signal(456, 8, 1, 2)), r1(0, "R1 octet 58")),
    ("R1 to the last bit under its place", listed(signal(440, 16, 1, 2)), r1(0, "R1 octets 56-57", (2, 1, 0, 0, 1))),
    ("R1 a bit past it", listed(signal(440, 17, 1, 2)), r1(0, "R1 octet 56 bit 0 to 58 bit 0")),
    ("R1 a bit before it", listed(signal(423, 2, 1, 2)), r1(0, "R1 octet 53 bit 7 to 54 bit 0")),
    ("R1 in octet 46", listed(signal(366, 2, 1, 2), places=(16, 320)), r1(0, "R1 octet 46 bits 6-7")),
    ("R1 in octet 74", listed(signal(584, 1, 1, 2), places=(16, 352)), r1(0, "R1 octet 74 bit 0")),
    ("4.46/2 under the first of its places", listed(signal(528, 16, 1, 1), places=(340, 342)), r1(0, "R1 octets 67-68")),
    ("4.46/2 under the second", listed(signal(528, 16, 1, 2), places=(340, 342)), r1(0, "R1 octets 67-68")),
    ("its first octet", listed(signal(528, 8, 1, 1), places=(340, 342)), r1(0, "R1 octet 67", (2, 1, 0, 0, 1))),
    ("a route to bit 128", listed(C, routes=[route(0, 1, 124)]), kept(2, 1, 0, 1, 1)),
    ("a route past bit 128", listed(C, routes=[route(0, 1, 125)]), past(0, "R3 octet 9 bits 0-3")),
    ("a route of 64 bits to bit 128", listed(signal(64, 64, 0, 1), routes=[route(0, 1, 64)]), kept(2, 1, 0, 1, 1)),
    ("a route of 64 bits past bit 128", listed(signal(64, 64, 0, 1), routes=[route(0, 1, 65)]), past(0, "R3 octets 9-16")),
    ("a second route, from bit 128 on", listed(C, signal(68, 8, 0, 1), routes=[route(0, 1, 0), route(1, 2, 128)]), past(1, "R3 octet 9 bit 4 to 10 bit 3", 1, 2)),
    ("a route to bit 2048", listed(C, routes=[route(0, 1, 2044)]), past(0, "R3 octet 9 bits 0-3")),
    # the earliest entry, and of that the first rule
    ("a signal and a route", listed(C, signal(68, 4, 0), routes=[route(0, 1, 125)]), at_fault(1, "R3 octet 9 bits 4-7", 3)),
    ("two signals, the second by an earlier rule", listed(signal(64, 4, 0, 1, limit=0), signal(68, 4, 0)), at_fault(0, "R3 octet 9 bits 0-3", 4)),
    ("check, limit and replacement", listed(signal(64, 4, 0, limit=0), codes=[code(0, 1, 1)]), at_fault(0, "R3 octet 9 bits 0-3", 3)),
    ("limit and replacement", listed(signal(64, 4, 0, 1, limit=0), codes=[code(0, 1, 1)]), at_fault(0, "R3 octet 9 bits 0-3", 4)),
    ("every rule but those of type and number", listed(signal(584, 4, limit=0), codes=[code(0, 1, 1)]), r1(0, "R1 octet 74 bits 0-3", rule=3)),
    # what the general rules refuse is refused so, whatever breaks the profile
    ("the empty list", b"", (refused(1, 0),) * 2),
    ("65 checks", pack([check(16)] * 65), (refused(2, 0),) * 2),
    ("an entry behind one that breaks the profile", listed(signal(64, 4, 0), signal(66, 4, 0, 1)),
     (broken(behind(2, 1), "signal 1, R3 octet 9 bits 2-5, rule 9: it starts before the end of the signal before"),) * 2),
    ("an octet after the routes", listed(signal(64, 4, 0)) + b"\0", (refused(4, behind(2, 1, 0, 0)),) * 2),
]


# ---- near misses

def grouped():
    """R1 fields at the edges of each row of the grouping, under its place and under those beside it."""
    start = 368
    for row, bits in enumerate(make.COVERED):
        place, end = 320 + 2 * row, start + bits
        for first, last, under in ((start, end, place), (start - 1, start + 1, place), (end - 1, end + 1, place), (start, end, place + 2), (start, end, max(place - 2, 322))):
            yield f"R1 bits {first}-{last - 1} under {under}", pack([check(under)], [signal(first, last - first, 1, 1)])
        start = end


def apart(fields):
    """Fields, each a type, a start, a width and whose it is, in order and without what starts before the end of the one before."""
    found = []
    for field in sorted(fields, key=lambda field: field[:2]):
        if not found or field[0] > found[-1][0] or field[1] >= sum(found[-1][1:3]):
            found.append(field)
    return found


def packed(signals, routes):
    """The list of what is apart, with the checks that are named."""
    signals = [s for *_, s in apart((s["type"], s["start"], s["width"], s) for s in signals)]
    places = sorted({s["check"] for s in signals} - {0})
    index = {id(s): k for k, s in enumerate(signals)}
    routed = apart((0, start, s["width"], (index[id(s)], vehicle)) for s, vehicle, start in routes if id(s) in index)
    return pack(
        [check(place) for place in places],
        [signal(s["start"], s["width"], s["type"], ([0] + places).index(s["check"]), s["since"], s["limit"], s["replacement"]) for s in signals],
        [code(k, low, high) for k, s in enumerate(signals) for low, high in s["known"]],
        [route(k, vehicle, start) for _, start, _, (k, vehicle) in routed],
    )


def change_limit(s, chance):
    s["limit"] = chance.choice((0, 1, 4999, 5001, 5256, 65536, 600000))


def change_check(s, chance):
    s["check"] = chance.choice((0, 320, 334, 344) if s["type"] else (0, 40, 42))


def change_replacement(s, chance):
    edges = [edge for low, high in s["known"] for edge in (low - 1, low, high, high + 1)] + [2 ** min(s["width"], 48) - 1]
    s["replacement"] = chance.choice([edge for edge in edges if 0 <= edge < 2 ** s["width"]])


def change_field(s, chance):
    """One that has code ranges keeps its width, since they may not reach past it."""
    s["start"] += chance.choice((-1, 1))
    s["width"] += 0 if s["known"] else chance.choice((0, 1, 2))


def change_type(s, _):
    """R2's where it was R1's."""
    s["type"] *= 2


CHANGES = (change_limit, change_check, change_replacement, change_field, change_type)
REAL = ((make.plain_coach, make.PLAIN_COACH_ROUTES), (make.driving_trailer, make.DRIVING_TRAILER_ROUTES))


def changed(chance):
    """A real list with a signal added, up to three changed, or a route moved."""
    cut, places = chance.choice(REAL)
    signals = cut(make.read_signals())
    routes = [(s, vehicle, start) for where, vehicle, start in places for s in signals if (s["telegram"], s["start"]) == where]
    if chance.random() < 0.2:
        signals.append({**signals[0], "start": chance.choice((71, 319)), "width": 1})
    for s in chance.sample(signals, chance.choice((0, 1, 1, 1, 2, 3))):
        chance.choice(CHANGES)(s, chance)
    if chance.random() < 0.4:
        s, vehicle, start = routes.pop()
        routes.append((s, vehicle, start + chance.choice((1, 16, 256))))
    return packed(signals, routes)


def near_misses():
    chance = random.Random(19)
    for i in range(120):
        octets = changed(chance)
        for profile in PROFILES:
            yield f"near miss {i}", octets, profile
    for name, octets in grouped():
        yield name, octets, TRAILER


def one_form(i, name, octets, profile, line):
    """The row in form 1, or every third in form 2, the words turned round."""
    if i % 3:
        return f"{name}, {profile}", octets, [profile], line
    return f"{name}, {profile}, in form 2", in_form_2(octets, numbered(i)), [profile, "form2"], line_in_form_2(octets, line, numbered(i))


def rows():
    """Every row: the list, the words behind it, and the line."""
    for i, (name, octets, lines) in enumerate(TABLE):
        for profile, line in zip(PROFILES, lines):
            yield f"{name}, {profile}", octets, [profile], line
            yield f"{name}, {profile}, in form 2", in_form_2(octets, numbered(i)), ["form2", profile], line_in_form_2(octets, line, numbered(i))
    for i, (name, octets, profile) in enumerate(near_misses()):
        yield one_form(i, name, octets, profile, expected(profile, octets))
