#!/usr/bin/env python3
"""The program `compare` held against a comparison that is worked out here, from the octets of two lists: a table of pairs with the page that is printed for
each, then pairs made by a seed, a list and the same with a few changes. Each is printed as a page and as a table, in form 1 and with lists in form 2. Run
from the root, after the programs are built."""
import copy
import os
import random
import subprocess
import sys
import tempfile

from judge import LONGEST, L, check, code, in_form_2, numbered, pack, printed, route, signal
from profiles import apart, entries
import make  # from data/
import scene

ROOT = os.path.dirname(os.path.dirname(os.path.abspath(__file__)))
TELEGRAMS = ("R3", "R1", "R2")
FIELDS = ("width", "check", "since", "limit", "replacement")
RULES = {1: "width", 2: "check place", 3: "since-version", 4: "codes lost", 5: "removed"}
YES, NO = "extends: yes", "extends: no"
PAIRS = 240


# ---- a list, and two of them compared

class Listed:
    """An accepted list in form 1: signals by type and start, routes by destination; a serial number for each signal, where it is in form 2."""

    def __init__(self, octets, serial=None):
        checks, signals, codes, routes = entries(octets)
        self.is_form_2, self.signals, self.codes, self.serials = serial is not None, {}, {}, {}
        for k, (start, width, type, named, since, limit, high, low) in enumerate(signals):
            key, ranges = (type, start), [(low, high) for signal, low, high in codes if signal == k]
            place = checks[named - 1][0] if named else 0
            self.signals[key] = dict(zip(FIELDS, (width, place, since, limit, high << 32 | low)))
            self.codes[key] = {c for low, high in ranges or [(0, 2**width - 1)] for c in range(low, high + 1)} if width <= 16 else None
            self.serials[key] = serial(k) if serial else 0
        keys = list(self.signals)
        self.routes = {start: (vehicle, keys[k]) for k, vehicle, _, start in routes}
        self.version = max((s["since"] for s in self.signals.values()), default=1)

    def place(self, key):
        return f"{TELEGRAMS[key[0]]} {scene.place(key[1], self.signals[key]['width'])}"

    def with_serial(self, key):
        return self.place(key) + (f" ({printed(self.serials[key])})" if self.is_form_2 else "")


def extends(a, b):
    """Document 01's definition, without what is compared below."""
    stands = all(
        key in b.signals and all(s[name] == b.signals[key][name] for name in ("width", "check", "since")) and (a.codes[key] is None or a.codes[key] <= b.codes[key])
        for key, s in a.signals.items())
    return stands and all(s["since"] > a.version for key, s in b.signals.items() if key not in a.signals)


def ranges(codes):
    """Ranges as long as possible."""
    codes = sorted(codes)
    lows = [c for before, c in zip([-2] + codes, codes) if before + 1 != c]
    highs = [c for c, after in zip(codes, codes[1:] + [-2]) if c + 1 != after]
    return list(zip(lows, highs))


class Difference:
    """A signal or a route of either list: what became of it, each field as (name, from, to), None where a list has no such entry."""

    def __init__(self, what, key, change, fields, gained=(), lost=(), breaks=0):
        self.what, self.key, self.change, self.fields, self.gained, self.lost, self.breaks = what, key, change, fields, gained, lost, breaks

    def is_one(self):
        return self.change != "changed" or bool(self.fields or self.gained or self.lost)


def change_of(key, first, second):
    return "changed" if key in first and key in second else "removed" if key in first else "added"


def both(names, x, y):
    """The fields that differ."""
    return [(name, x and x[name], y and y[name]) for name in names if not (x and y and x[name] == y[name])]


def of_signal(a, b, key):
    x, y, change = a.signals.get(key), b.signals.get(key), change_of(key, a.signals, b.signals)
    fields, gained, lost = both(FIELDS, x, y), [], []
    if x and y and x["width"] == y["width"] <= 16:
        gained, lost = ranges(b.codes[key] - a.codes[key]), ranges(a.codes[key] - b.codes[key])
    differ = [name for name, *_ in fields]
    broken = ["width" in differ, "check" in differ, "since" in differ, bool(lost)]
    breaks = {"removed": 5, "added": 6 if y and y["since"] <= a.version else 0}.get(change, broken.index(True) + 1 if any(broken) else 0)
    return Difference("signal", key, change, fields, gained, lost, breaks)


def of_route(a, b, start):
    x, y = ({"vehicle": r[0], "signal": r[1]} if r else None for r in (a.routes.get(start), b.routes.get(start)))
    return Difference("route", start, change_of(start, a.routes, b.routes), both(("vehicle", "signal"), x, y))


def differences(a, b):
    found = [of_signal(a, b, key) for key in sorted({**a.signals, **b.signals})] + [of_route(a, b, start) for start in sorted({**a.routes, **b.routes})]
    return [d for d in found if d.is_one()]


# ---- the page

def where(a, b, d):
    """The place of a signal, or of where a route goes, by the first list that has it, with its serial numbers."""
    if d.what == "route":
        of = a if d.key in a.routes else b
        return f"route to {scene.place(d.key, of.signals[of.routes[d.key][1]]['width'])}"
    numbers = list(dict.fromkeys(printed(of.serials[d.key]) for of in (a, b) if of.is_form_2 and d.key in of.signals))
    return (a if d.key in a.signals else b).place(d.key) + (f" ({', '.join(numbers)})" if numbers else "")


def shown(of, name, value):
    if name == "check":
        return scene.place(value, 2) if value else "none"
    return of.with_serial(value) if name == "signal" else str(value)


def said(a, b, d):
    """What stands behind the place."""
    for name, x, y in d.fields:
        yield f"{name} " + " -> ".join(shown(of, name, value) for of, value in ((a, x), (b, y)) if value is not None)
    for name, found in (("gained", d.gained), ("lost", d.lost)):
        if found:
            yield f"codes {name} " + " ".join(str(low) if low == high else f"{low}-{high}" for low, high in found)
    if d.breaks:
        yield "breaks extending: " + RULES.get(d.breaks, f"since not above version {a.version}")


def page(a, b):
    found = [(d, f"{'!' if d.breaks else ' '} {d.change:<9}{where(a, b, d)}") for d in differences(a, b)]
    column = max((len(head) for _, head in found), default=0)
    return [f"{head:<{column}}  {'  '.join(said(a, b, d))}" for d, head in found] + [YES if extends(a, b) else NO]


# ---- the table

def rows(d):
    for name, x, y in d.fields:
        if name == "signal":
            x, y = ((TELEGRAMS[value[0]], value[1]) if value else (None, None) for value in (x, y))
            yield from ((part, *values) for part, *values in zip(("signal_type", "signal_start"), x, y) if values[0] != values[1])
        else:
            yield name, x, y
    yield from (("gained", *found) for found in d.gained)
    yield from (("lost", *found) for found in d.lost)


def table(a, b):
    is_form_2, found = a.is_form_2 or b.is_form_2, differences(a, b)
    lines = [["what", "change", "type", "start"] + ["serial_1", "serial_2"] * is_form_2 + ["breaks", "field", "from", "to"]] * bool(found)
    for d in found:
        place = (TELEGRAMS[d.key[0]], d.key[1]) if d.what == "signal" else ("-", d.key)
        serials = [printed(number) if number else "-" for of in (a, b) for number in [of.serials.get(d.key, 0)]] * is_form_2
        lines += [[d.what, d.change, *place, *serials, d.breaks, name, *("-" if value is None else value for value in values)] for name, *values in rows(d)]
    return ["\t".join(map(str, line)) for line in lines] + [YES if extends(a, b) else NO]


# ---- pairs with the page that is printed for them

S, T = signal(424, 4), signal(500, 4)
WIDE = signal(384, 16)
COACH, NEXT, WRONG, OFF = (open(os.path.join(ROOT, "data", name + ".list"), "rb").read() for name in ("coach", "coach-next", "coach-wrong", "coach-off"))
S_PLACE, T_PLACE = "R1 octet 54 bits 0-3", "R1 octet 63 bits 4-7"
NUMBERS = "check none  since 1  limit 5000  replacement 0"
ODD, EVEN = ([code(0, c, c) for c in range(first, 1024, 2)] for first in (1, 0))


def one(*codes, s=S):
    return pack((), [s], codes)


def routed(*routes):
    return pack((), [S, signal(428, 8), T], (), routes)


def spelled(first):
    return " ".join(str(c) for c in range(first, 1024, 2))


TABLE = [
    ("a list and itself", COACH, COACH, [YES]),
    ("the empty list and itself", pack(), pack(), [YES]),
    ("the longest list and itself", LONGEST, LONGEST, [YES]),
    ("a validity pair one place off", COACH, OFF, [f"! changed  {S_PLACE}  check octet 41 bits 2-3 -> octet 41 bits 4-5  breaks extending: check place", NO]),
    ("a signal added, newer than the empty list", pack(), one(s=signal(424, 4, since=2)), [f"  added    {S_PLACE}  width 4  check none  since 2  limit 5000  replacement 0", YES]),
    ("and not newer", pack(), one(), [f"! added    {S_PLACE}  width 4  {NUMBERS}  breaks extending: since not above version 1", NO]),
    ("a signal removed", one(), pack(), [f"! removed  {S_PLACE}  width 4  {NUMBERS}  breaks extending: removed", NO]),
    ("a width", one(), one(s=signal(424, 5)), [f"! changed  {S_PLACE}  width 4 -> 5  breaks extending: width", NO]),
    ("a check where there was none", one(), pack([check(320)], [signal(424, 4, check=1)]), [f"! changed  {S_PLACE}  check none -> octet 41 bits 0-1  breaks extending: check place", NO]),
    ("no check any more", pack([check(322)], [signal(424, 4, check=1)]), one(), [f"! changed  {S_PLACE}  check octet 41 bits 2-3 -> none  breaks extending: check place", NO]),
    ("a check at the same place under another number", pack([check(320)], [signal(424, 4, check=1)]), pack([check(16), check(320)], [signal(424, 4, check=2)]), [YES]),
    ("the same number at another place", pack([check(320)], [signal(424, 4, check=1)]), pack([check(322)], [signal(424, 4, check=1)]),
     [f"! changed  {S_PLACE}  check octet 41 bits 0-1 -> octet 41 bits 2-3  breaks extending: check place", NO]),
    ("checks that no signal names", pack([check(16), check(330)], [S]), pack([check(1022)], [S]), [YES]),
    ("a since-version", one(), one(s=signal(424, 4, since=2)), [f"! changed  {S_PLACE}  since 1 -> 2  breaks extending: since-version", NO]),
    ("a limit", one(), one(s=signal(424, 4, limit=0)), [f"  changed  {S_PLACE}  limit 5000 -> 0", YES]),
    ("a replacement", one(s=signal(424, 64)), one(s=signal(424, 64, replacement=2**48 - 1)), ["  changed  R1 octets 54-61  replacement 0 -> 281474976710655", YES]),
    ("every field", pack([check(320)], [signal(424, 4, check=1)]), one(s=signal(424, 3, since=9, limit=1, replacement=7)),
     [f"! changed  {S_PLACE}  width 4 -> 3  check octet 41 bits 0-1 -> none  since 1 -> 9  limit 5000 -> 1  replacement 0 -> 7  breaks extending: width", NO]),
    ("codes gained on both sides of a range", one(code(0, 4, 6)), one(code(0, 0, 2), code(0, 4, 9)), [f"  changed  {S_PLACE}  codes gained 0-2 7-9", YES]),
    ("codes lost on both sides", one(code(0, 0, 9)), one(code(0, 3, 4)), [f"! changed  {S_PLACE}  codes lost 0-2 5-9  breaks extending: codes lost", NO]),
    ("a range moved", one(code(0, 2, 5)), one(code(0, 4, 7)), [f"! changed  {S_PLACE}  codes gained 6-7  codes lost 2-3  breaks extending: codes lost", NO]),
    ("a range over a gap between two", one(code(0, 0, 2), code(0, 5, 7)), one(code(0, 0, 7)), [f"  changed  {S_PLACE}  codes gained 3-4", YES]),
    ("a full range where there was none", one(), one(code(0, 0, 15)), [YES]),
    ("no range where there was a full one", one(code(0, 0, 15)), one(), [YES]),
    ("ranges where every code was known", one(), one(code(0, 0, 14)), [f"! changed  {S_PLACE}  codes lost 15  breaks extending: codes lost", NO]),
    ("every code known where there were ranges", one(code(0, 3, 3)), one(), [f"  changed  {S_PLACE}  codes gained 0-2 4-15", YES]),
    ("another width: codes are not compared", one(code(0, 0, 2)), one(code(0, 5, 7), s=signal(424, 5)), [f"! changed  {S_PLACE}  width 4 -> 5  breaks extending: width", NO]),
    ("16 bits, to the last code", one(code(0, 0, 65534), s=WIDE), one(s=WIDE), ["  changed  R1 octets 49-50  codes gained 65535", YES]),
    ("16 bits, every other code", one(*EVEN, s=WIDE), one(*ODD, s=WIDE),
     [f"! changed  R1 octets 49-50  codes gained {spelled(1)}  codes lost {spelled(0)}  breaks extending: codes lost", NO]),
    ("a bit, whose codes are one known each", one(code(0, 0, 0), s=signal(424, 1)), one(code(0, 1, 1), s=signal(424, 1)),
     ["! changed  R1 octet 54 bit 0  codes gained 1  codes lost 0  breaks extending: codes lost", NO]),
    ("another type at the same start", one(), one(s=signal(424, 4, 2)),
     [f"! removed  {S_PLACE}  width 4  {NUMBERS}  breaks extending: removed", f"! added    R2 octet 54 bits 0-3  width 4  {NUMBERS}  breaks extending: since not above version 1", NO]),
    ("types in their order", pack((), [signal(64, 1, 0), S, signal(424, 4, 2)]), pack(),
     [f"! removed  R3 octet 9 bit 0      width 1  {NUMBERS}  breaks extending: removed", f"! removed  {S_PLACE}  width 4  {NUMBERS}  breaks extending: removed",
      f"! removed  R2 octet 54 bits 0-3  width 4  {NUMBERS}  breaks extending: removed", NO]),
    ("a signal before it: another index, also in codes and routes", pack((), [T], [code(0, 0, 3)], [route(0, 1, 0)]),
     pack((), [signal(424, 4, since=2), T], [code(1, 0, 3)], [route(1, 1, 0)]), [f"  added    {S_PLACE}  width 4  check none  since 2  limit 5000  replacement 0", YES]),
    ("a route's vehicle", routed(route(0, 1, 0)), routed(route(0, 63, 0)), ["  changed  route to octet 1 bits 0-3  vehicle 1 -> 63", YES]),
    ("a route's signal", routed(route(0, 1, 0)), routed(route(2, 1, 0)), [f"  changed  route to octet 1 bits 0-3  signal {S_PLACE} -> {T_PLACE}", YES]),
    ("both, and a wider one", routed(route(0, 1, 4)), routed(route(1, 2, 4)), [f"  changed  route to octet 1 bits 4-7  vehicle 1 -> 2  signal {S_PLACE} -> R1 octet 54 bit 4 to 55 bit 3", YES]),
    ("a route added and one removed", routed(route(0, 1, 0), route(2, 1, 2044)), routed(route(0, 1, 0), route(1, 3, 5)),
     ["  added    route to octet 1 bit 5 to 2 bit 4  vehicle 3  signal R1 octet 54 bit 4 to 55 bit 3", f"  removed  route to octet 256 bits 4-7        vehicle 1  signal {T_PLACE}", YES]),
    ("routes come last", pack((), [S], (), [route(0, 1, 0)]), pack((), [T]),
     [f"! removed  {S_PLACE}       width 4  {NUMBERS}  breaks extending: removed", f"! added    {T_PLACE}       width 4  {NUMBERS}  breaks extending: since not above version 1",
      f"  removed  route to octet 1 bits 0-3  vehicle 1  signal {S_PLACE}", NO]),
    ("a route's signal that is another width there", pack((), [S], (), [route(0, 1, 0)]), pack((), [signal(424, 5)], (), [route(0, 1, 0)]),
     [f"! changed  {S_PLACE}  width 4 -> 5  breaks extending: width", NO]),
    ("the longest list and none", LONGEST, pack(), None),
    ("none and the longest list", pack(), LONGEST, None),
    ("the coach's list and L", COACH, L, None),
    ("the coach's list and its successor", COACH, NEXT, None),
    ("and one that is none", COACH, WRONG, None),
]


# ---- pairs made by a seed

def clear(s):
    """Whether a signal lies in its type's addresses, beside every check place that Appendix B has."""
    first, end = ((64, 320), (368, 1024), (368, 1024))[s["type"]]
    return first <= s["start"] and s["start"] + s["width"] <= end


def packed(signals, routes, spare):
    """The list of what is clear and apart, with the checks that are named and some that are not."""
    signals = [s for *_, s in apart((s["type"], s["start"], s["width"], s) for s in signals if clear(s))]
    places = sorted({s["check"] for s in signals} - {0} | set(spare))
    index = {id(s): k for k, s in enumerate(signals)}
    fit = [(0, start, s["width"], (index[id(s)], vehicle)) for s, vehicle, start in routes if id(s) in index and 0 <= start <= 2048 - s["width"]]
    known = [(k, low, min(high, 2 ** s["width"] - 1)) for k, s in enumerate(signals) if s["width"] <= 16 for low, high in s["known"] if low < 2 ** s["width"]]
    return pack(
        [check(place) for place in places],
        [signal(s["start"], s["width"], s["type"], ([0] + places).index(s["check"]), s["since"], s["limit"], min(s["replacement"], 2 ** s["width"] - 1)) for s in signals],
        [code(*entry) for entry in known],
        [route(k, vehicle, start) for _, start, _, (k, vehicle) in apart(fit)],
    )


def some_ranges(width, chance):
    """Ranges with a gap between each two; none, one that is full, or up to four."""
    if width > 16:
        return []
    most, kind = 2**width - 1, chance.random()
    if kind < 0.3:
        return [] if kind < 0.2 else [(0, most)]
    edges = sorted({chance.choice((chance.randint(0, most), chance.randint(0, min(most, 9)), most)) for _ in range(chance.choice((1, 2, 4, 8)))})
    found = []
    for low, high in zip(edges[::2], edges[1::2] + edges[-1:]):
        if not found or low > found[-1][1] + 1:
            found.append((low, max(low, high)))
    return found


def check_for(type, chance):
    return chance.choice((0, 16, 18, 62) if type == 0 else (0, 320, 322, 366))


def small(chance):
    """A few signals close together, and routes of them."""
    signals = []
    for _ in range(chance.choice((0, 1, 2, 3, 6, 9, 12, 20))):
        type, width = chance.randrange(3), chance.choice((1, 1, 2, 3, 4, 4, 8, 15, 16, 17, 33, 48, 64))
        signals.append({"type": type, "start": (64, 368, 368)[type] + chance.randrange(0, 60, chance.choice((1, 4))), "width": width, "check": check_for(type, chance),
                        "since": chance.choice((1, 1, 2, 3, 255)), "limit": chance.choice((0, 5000, 600000)), "replacement": chance.choice((0, 1, 7)), "known": some_ranges(width, chance)})
    signals = [s for *_, s in apart((s["type"], s["start"], s["width"], s) for s in signals)]
    return signals, [(s, chance.choice((1, 2, 63)), chance.randrange(0, 80, 4)) for s in signals for _ in range(chance.choice((0, 1, 2)))]


def real(chance):
    signals = list(make.read_signals())
    return signals, [(s, vehicle, start) for place, vehicle, start in make.ROUTES for s in signals if (s["telegram"], s["start"]) == place]


def change_field(s, chance):
    name, value = chance.choice((
        ("limit", abs(s["limit"] - 1)), ("limit", 0), ("replacement", s["replacement"] + 1), ("replacement", s["replacement"] + 2**32), ("since", s["since"] % 255 + 1),
        ("check", check_for(s["type"], chance)), ("width", s["width"] % 64 + 1), ("width", max(1, s["width"] - 1)), ("start", s["start"] + 1),
        ("type", s["type"] and 3 - s["type"]), ("known", some_ranges(s["width"], chance)), ("known", []), ("known", [(0, 2 ** s["width"] - 1)])))
    s[name] = value


def change_range(s, chance):
    """One edge of a range moved by one, a range left out, or a code taken out of it, as far as they stay apart."""
    if not s["known"]:
        s["known"] = [(0, 2 ** min(s["width"], 16) - 2)] if 1 < s["width"] <= 16 else []
        return
    at = chance.randrange(len(s["known"]))
    low, high = s["known"][at]
    new = chance.choice(([(low + 1, high)], [(low, high + 1)], [(low, high - 1)], [(low - 1, high)], [], [(low, low), (low + 2, high)]))
    found = [r for r in s["known"][:at] + new + s["known"][at + 1:] if 0 <= r[0] <= r[1]]
    if all(before[1] + 1 < after[0] for before, after in zip(found, found[1:])):
        s["known"] = found


def change_route(signals, routes, chance):
    at = chance.randrange(len(routes))
    s, vehicle, start = routes.pop(at)
    routes[at:at] = chance.choice(([], [(s, vehicle % 63 + 1, start)], [(chance.choice(signals or [s]), vehicle, start)], [(s, vehicle, start + 1)], [(s, vehicle, start), (s, vehicle, start + 512)]))


def near(signals, routes, chance):
    """The same with up to five changes: of signals, of their codes and of routes; one left out, and one added."""
    signals, routes = copy.deepcopy((signals, routes))
    for _ in range(chance.choice((0, 1, 1, 1, 2, 3, 5))):
        kind = chance.randrange(6)
        if kind == 0 and routes:
            change_route(signals, routes, chance)
        elif kind == 1 and signals:
            signals.pop(chance.randrange(len(signals)))
        elif kind == 2:
            signals += small(chance)[0][:1]
        elif signals:
            (change_field if kind < 5 else change_range)(chance.choice(signals), chance)
    return signals, routes


def spare(chance):
    """Check places that no signal need name."""
    return chance.sample((20, 22, 324, 330), chance.choice((0, 0, 1, 2)))


def near_misses():
    chance = random.Random(17)
    for i in range(PAIRS):
        first = (real if i % 4 == 0 else small)(chance)
        second = small(chance) if i % 16 == 3 else near(*first, chance)
        pair = packed(*first, spare(chance)), packed(*second, spare(chance))
        yield f"near miss {i}", *(pair if chance.random() < 0.5 else pair[::-1]), None


# ---- the runs

def run(*words):
    done = subprocess.run([os.path.join(ROOT, "run"), "compare", *words], capture_output=True, timeout=60)
    return done.returncode, done.stdout.decode().splitlines(), done.stderr.decode()


def forms(i):
    """In form 1, and every third pair with a list in form 2 or both."""
    yield None, None
    if i % 3 == 0:
        yield ((numbered(i), None), (None, numbered(i)), (numbered(i), numbered(i)), (numbered(i), numbered(i + 1)))[i // 3 % 4]


def wrong(folder, i, first, second, expected):
    """What is wrong with the runs of a pair."""
    for serials in forms(i):
        a, b = (Listed(octets, serial) for octets, serial in zip((first, second), serials))
        paths, options = [os.path.join(folder, name) for name in ("a", "b")], [word for word, serial in zip(("first-form2", "second-form2"), serials) if serial]
        for path, octets, serial in zip(paths, (first, second), serials):
            with open(path, "wb") as f:
                f.write(in_form_2(octets, serial) if serial else octets)
        if expected and not options and page(a, b) != expected:
            yield f"worked out otherwise than the table has it: {page(a, b)}"
        for made, words in ((page, options), (table, ["table", *options])):
            lines = made(a, b)
            found = run(*paths, *words)
            if found != (int(len(lines) > 1), lines, ""):
                yield f"{' '.join(words)}: expected {lines}, got {found}"


def main():
    bad, count, verdicts = 0, 0, {}
    with tempfile.TemporaryDirectory() as folder:
        for i, (name, first, second, expected) in enumerate([*TABLE, *near_misses()]):
            verdict = page(Listed(first), Listed(second))
            verdicts[len(verdict) > 1, verdict[-1]] = verdicts.get((len(verdict) > 1, verdict[-1]), 0) + 1
            count += 2 * len(list(forms(i)))
            for what in wrong(folder, i, first, second, expected):
                print(f"compare, {name}: {what[:2000]}")
                bad += 1
    same, yes, no = (verdicts.get(kind, 0) for kind in ((False, YES), (True, YES), (True, NO)))
    print(f"comparing: {count} runs of {len(TABLE) + PAIRS} pairs, {same} without a difference, {yes} extended, {no} not; {bad} wrong")
    return 1 if bad else 0


if __name__ == "__main__":
    sys.exit(main())
