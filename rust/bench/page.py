#!/usr/bin/env python3
"""Writes the tables of the bench into docs/BENCHMARK.md, and the plot of its growth beside it. Run from the root.

    page.py times PROCESSOR         the two tables of `bench` on standard input: times, and times at four sizes. Of the page's columns those of
                                    this processor are replaced and the other's stay; rows are those of the bench. What follows from the
                                    sizes, how cost grows, is computed anew.
    page.py counts PROCESSOR..      likewise, a group of columns for each of these
    page.py machine PROCESSOR TEXT  by what and where that processor's times were taken
    page.py lookup, page.py worst   the tables on standard input, in place of what stands between the page's marks
    page.py grown                   how cost grows, and the plot, from the times that the page has
    page.py check                   prints each ratio above 1.05 whose call has no reason in the section "Above 1.0"; fails if there is one

PROCESSOR is what `uname -m` says.
"""
import math
import re
import sys

PAGE = "docs/BENCHMARK.md"
PLOT = "docs/benchmark-growth.svg"
WIDTH, HEIGHT, LEFT, BOTTOM, TOP, RIGHT = 720, 420, 70, 50, 20, 150
COLOURS = {"judge": "#1b6ca8", "extends": "#b3541e", "marshal": "#3a7d44"}
UNITS = {"ns": 1e-3, "µs": 1.0, "ms": 1e3}
# In the order of the columns: the product's own archive first.
PROCESSORS = {"x86_64": "x86-64", "aarch64": "Arm"}
GROUP = ["proved", "Rust", "ratio"]
GROWN = ["proved, ns an octet", "exponent", "Rust, ns an octet", "exponent"]
ABOVE = 1.05


def between(page, name):
    """What stands between the mark of this name and the next."""
    rest = page.split(f"<!-- {name} -->\n")[1]
    return rest[:rest.index("<!-- end -->")]


def replaced(page, name, text):
    before, rest = page.split(f"<!-- {name} -->\n")
    return before + f"<!-- {name} -->\n" + text.strip() + "\n" + rest[rest.index("<!-- end -->"):]


def rows(table):
    """The rows of a table, without its head, as lists of cells."""
    lines = [line for line in table.splitlines() if line.startswith("|")]
    return [[cell.strip() for cell in line.strip().strip("|").split("|")] for line in lines[2:]]


def table(columns, body):
    """A group of columns for each processor."""
    heads = [[f"{name}: {columns[0]}"] + columns[1:] for name in PROCESSORS.values()]
    lines = ["call"] + sum(heads, [])
    out = ["| " + " | ".join(lines) + " |", "|---|" + "---:|" * (len(lines) - 1)]
    return "\n".join(out + ["| " + " | ".join(row) + " |" for row in body])


def groups(row, size=len(GROUP)):
    """The cells of a row by processor."""
    row = row + [""] * (1 + size * len(PROCESSORS) - len(row))
    return {p: row[1 + size * n:1 + size * (n + 1)] for n, p in enumerate(PROCESSORS)}


def merged(old, new, processors):
    """The rows of the new table, whose first groups are of these processors; all other groups as they stand in the old one."""
    kept = {row[0]: groups(row) for row in rows(old)}
    body = []
    for row in rows(new):
        of = dict(kept.get(row[0], groups([row[0]])))
        for number, processor in enumerate(processors):
            of[processor] = row[1 + 3 * number:4 + 3 * number]
        body.append(row[:1] + sum((of[processor] for processor in PROCESSORS), []))
    return table(GROUP, body)


def micro(cell):
    number, unit = cell.split()
    return float(number) * UNITS[unit]


def points(page, processor):
    """For each call and side, the octets of the list and the median time in µs."""
    found = {}
    for row in rows(between(page, "sizes")):
        call, octets = re.fullmatch(r"(.*), list of (\d+) octets", row[0]).groups()
        for side, cell in zip(GROUP, groups(row)[processor][:2]):
            if cell:
                found.setdefault((call, side), {})[int(octets)] = micro(cell)
    return found


def slope(pairs):
    """By least squares."""
    x, y = (sum(of) / len(pairs) for of in zip(*pairs))
    return sum((a - x) * (b - y) for a, b in pairs) / sum((a - x) ** 2 for a, b in pairs)


def grown_cells(times):
    """ns an octet, and the exponent: the slope where both axes are logarithmic."""
    if not times:
        return ["", ""]
    each = 1e3 * slope(list(times.items()))
    exponent = slope([(math.log(octets), math.log(time)) for octets, time in times.items()])
    return [f"{each:.{0 if each >= 100 else 1 if each >= 10 else 2}f}", f"{exponent:.2f}"]


def grown(page):
    """The page with the growth that follows from its times."""
    found = {processor: points(page, processor) for processor in PROCESSORS}
    calls = dict.fromkeys(row[0].rsplit(", list of ", 1)[0] for row in rows(between(page, "sizes")))
    body = []
    for call in calls:
        sides = [(processor, side) for processor in PROCESSORS for side in GROUP[:2]]
        body.append([call] + sum((grown_cells(found[p].get((call, side))) for p, side in sides), []))
    return replaced(page, "growth", table(GROWN, body))


def place(octets, time):
    """Both axes are logarithmic: 1,000 to 12,000 octets, 0.1 to 1,000 µs."""
    x = LEFT + (WIDTH - LEFT - RIGHT) * math.log(octets / 1000) / math.log(12)
    y = HEIGHT - BOTTOM - (HEIGHT - BOTTOM - TOP) * (math.log10(time) + 1) / 4
    return round(x, 1), round(y, 1)


def axes(sizes, name):
    out = []
    for time in (0.1, 1, 10, 100, 1000):
        (x, y), right = place(1000, time), place(12000, time)[0]
        out.append(f'<path d="M{x} {y}H{right}" stroke="#ddd"/>')
        out.append(f'<text x="{x - 8}" y="{y + 4}" text-anchor="end">{time:g} µs</text>')
    for octets in sizes:
        x, y = place(octets, 0.1)
        out.append(f'<path d="M{x} {y}v5" stroke="#666"/><text x="{x}" y="{y + 20}" text-anchor="middle">{octets:,}</text>')
    x, y = place(math.sqrt(12e6), 0.1)
    out.append(f'<text x="{x}" y="{y + 40}" text-anchor="middle">octets of the list, {name}</text>')
    return out


def lines(found):
    """The lines, and beside their ends their names, kept apart from each other."""
    out, lowest = [], 0
    ends = sorted((place(*max(times.items()))[1], call, side) for (call, side), times in found.items())
    for y, call, side in ends:
        at = [place(octets, time) for octets, time in sorted(found[call, side].items())]
        dashes = ' stroke-dasharray="6 4"' if side == "Rust" else ""
        path = "L".join(f"{x} {y}" for x, y in at)
        lowest = max(y, lowest + 14)
        out.append(f'<path d="M{path}" fill="none" stroke="{COLOURS[call]}" stroke-width="2"{dashes}/>')
        out.append(f'<text x="{at[-1][0] + 8}" y="{round(lowest + 4, 1)}" fill="{COLOURS[call]}">{call}, {side}</text>')
    return out


def plot(page):
    """Of the first processor that has the times of all three calls."""
    for processor, name in PROCESSORS.items():
        found = {of: times for of, times in points(page, processor).items() if of[0] in COLOURS}
        if len(found) == 2 * len(COLOURS):
            break
    out = [f'<svg xmlns="http://www.w3.org/2000/svg" width="{WIDTH}" height="{HEIGHT}" font-family="sans-serif" font-size="12">']
    out += ['<rect width="100%" height="100%" fill="#fff"/>']
    out += axes(sorted({octets for times in found.values() for octets in times}), name) + lines(found)
    with open(PLOT, "w") as f:
        f.write("\n".join(out + ["</svg>"]) + "\n")


def machine(page, processor, text):
    """A line for each processor."""
    said = dict(re.findall(r"- \*\*(.*?)\*\*: (.*)", between(page, "machines")))
    said[PROCESSORS[processor]] = text
    told = [f"- **{name}**: {said[name]}" for name in PROCESSORS.values() if name in said]
    return replaced(page, "machines", "\n".join(told))


def unexplained(page):
    """Rows with a ratio above the bound whose name begins with none of the names in the section, which stand there in bold."""
    section = re.search(r"\n## Above 1\.0\n(.*?)\n## ", page, re.S)[1]
    names = [name.lower() for name in re.findall(r"\*\*(.*?)\*\*", section, re.S)]
    for mark in ("times", "sizes", "counts"):
        for row in rows(between(page, mark)):
            ratios = {PROCESSORS[p]: of[2] for p, of in groups(row).items() if of[2] and float(of[2]) > ABOVE}
            explained = any(re.match(re.escape(name) + r"(?=$|[, ])", row[0].lower()) for name in names)
            if ratios and not explained:
                yield f"{mark}: {row[0]}: " + ", ".join(f"{ratio} on {name}" for name, ratio in ratios.items())


def written(page, words):
    """The page with what the words and standard input say."""
    if words[0] == "grown":
        return grown(page)
    if words[0] == "machine":
        return machine(page, *words[1:])
    text = sys.stdin.read()
    if words[0] == "worst":
        return replaced(page, "worst", text)
    tables = [part for part in text.split("\n\n") if part.strip()]
    if words[0] == "lookup":
        return replaced(replaced(page, "lookup", tables[0]), "lookup-2", tables[1])
    for mark, new in zip(["times", "sizes"] if words[0] == "times" else ["counts"], tables):
        page = replaced(page, mark, merged(between(page, mark), new, words[1:]))
    return grown(page)


def main():
    with open(PAGE) as f:
        page = f.read()
    if sys.argv[1:] == ["check"]:
        without = list(unexplained(page))
        print("\n".join(without) if without else "every ratio above 1.05 has its reason")
        sys.exit(bool(without))
    page = written(page, sys.argv[1:])
    with open(PAGE, "w") as f:
        f.write(page)
    plot(page)


main()
