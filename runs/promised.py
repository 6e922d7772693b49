#!/usr/bin/env python3
"""Holds docs/PROMISES.md to the repository.

A name in `code` is declared where the page says that it is: in X, of "`name` in `X`" (a path, a module such as `ReadingLaws` or
`Octets.antt`, or a crate's folder); else in what the row's column "file" names, where "the same" is the row above; else in a file of the
section's "Definitions:". `crate::name` is an item of that crate's code, `Answer.refused` a constructor or field; of `name word word` the
first is looked up; `df_..` is any that begins so. A path in `code` is there.

In a column of edits a name is a must-fail edit of the crate that is named with it, or a row of the table in SLIPS, written with dashes;
every edit and every row is named. Under "Sentence by sentence" a title says how many sentences the paper has there, and each number is in
one row. Of every page: the files and the titles that it links to are there."""
import collections
import glob
import os
import re
import sys

from declared import declared

ROOT = os.path.dirname(os.path.dirname(os.path.abspath(__file__)))
PAGE = "docs/PROMISES.md"
PAGES = ["*.md", "docs/**/*.md", "data/**/*.md"]
SLIPS = "crates/tables/specs/Wrong.antt"
COUNTED = "Sentence by sentence"
WORDS = {"requires", "pub fn"}  # of the language

SPAN = re.compile(r"`([^`]+)`")
EDITS_OF = re.compile(r"`crates/([a-z]\w*)/must-fail`")
Block = collections.namedtuple("Block", "titles header cells")  # text has one cell and no header


def read(path):
    with open(path, encoding="utf-8") as f:
        return f.read()


def blocks(text):
    """The page's titles, paragraphs, items and table rows, each under its titles; a title's own block says nothing."""
    titles, header, said = ("", ""), None, []
    for line in re.sub(r"```.*?```", "", text, flags=re.S).splitlines() + [""]:
        row, title = line.startswith("|"), re.match(r"(##+) (.*)", line)
        if said and (row or title or not line or re.match(r"- |\d+\. ", line)):
            yield Block(titles, (), [" ".join(said)])
            said = []
        if title:
            titles = (title[2], "") if title[1] == "##" else (titles[0], title[2])
            yield Block(titles, (), [""])
        elif row and header is None:
            header = split(line)
        elif row and not re.match(r"\|[-|]+$", line):
            yield Block(titles, header, split(line))
        elif line and not row:
            said.append(line.strip())
        header = header if row else None


def split(row):
    return [cell.strip() for cell in row.strip().strip("|").split("|")]


def file_of(code, files):
    """The file or folder that a place stands for, a module among these files first; None where there is no such, or more than one."""
    path = re.sub(r"^(paper|tables)/", r"crates/\1/", code)
    name = "/" + code.removesuffix(".antt") + ".antt"
    found = glob.glob(path) if "/" in path else [f for f in files if f.endswith(name)] or glob.glob("crates/*/*" + name)
    return found[0] if len(found) == 1 else None


def located(cell):
    """Each name of a cell with the places that its clause gives it behind it: "`a`, `b` in `X` and in `Y`". What stands in parentheses is a
    clause of its own."""
    for clause in re.split(r"(?<=[;.]) | \(|\)(?!`)", cell):
        places, after_place = [], False
        for span in reversed(list(SPAN.finditer(clause))):
            if re.search(r"\bin $", clause[: span.start()]):
                places = [span[1]] + (places if after_place else [])
                after_place = True
            else:
                yield span[1], places
                after_place = False
        # a place with no name in front of it is still to be there
        yield from ((place, []) for place in places if after_place)


class Names:
    """The names of the page, each looked up where the page says that it is."""

    def __init__(self):
        self.bad, self.count = [], 0
        self.files = {}  # of these titles: the files of "Definitions:"
        self.row_files = []  # of the column "file"

    def look(self, name, places, titles):
        word = name.split()[0]
        files = self.files.get(titles) or self.files.get((titles[0], ""), [])
        if name in WORDS:
            return
        if "/" in word or word.endswith(".antt"):
            if not file_of(word, files) and not glob.glob(word.replace("NAME", "*")):
                self.bad.append(f"no such path: {name}")
            return
        self.count += 1
        crate = re.fullmatch(r"(\w+)::([\w:]+)(\(.*\))?", name)
        if crate:
            word, every, some = crate[2], [f"crates/{crate[1]}/src"], []
        else:
            every, some = [file_of(place, files) for place in places], self.row_files or files
        if None in every:
            self.bad.append(f"no such place, or more than one: {', '.join(places)}")
        elif not every + some:
            self.bad.append(f"where is it? `{name}` under {' / '.join(titles)}")
        elif not (all(there(word, path) for path in every) if every else any(there(word, path) for path in some)):
            self.bad.append(f"not declared there: `{name}` in {', '.join(every or some)}")

    def block(self, block):
        text, cells = block.cells[0], list(zip(block.header, block.cells))
        file = dict(cells).get("file", "")
        if text.startswith("Definitions:"):
            self.files[block.titles] = [os.path.normpath(os.path.join("docs", path)) for path in re.findall(r"\]\(([^)]+)\)", text)]
        for crate in EDITS_OF.findall(text):
            self.files.setdefault(block.titles, [f"crates/{crate}"])
        if file != "the same":
            self.row_files = [file_of(place, []) for place in SPAN.findall(file)]
            if None in self.row_files:
                self.bad.append(f"no such place, or more than one: {file}")
                self.row_files = []
        for cell in [cell for head, cell in cells if head != "file" and not is_edits(head)] if cells else [text]:
            for name, places in located(cell):
                self.look(name, places, block.titles)


def there(word, path):
    names = declared(path)
    return word in names or word.endswith("..") and any(name.startswith(word[:-2]) for name in names)


def is_edits(head):
    return re.search(r"\b(edit|row|ruled out)\b", head) is not None


def edits_of(cell, crate):
    """(crate, edit) of each name of a cell: "`a` in `reading`", or "in `reading`: `a`, `b`"; else it is of the row's own crate."""
    for clause in cell.split("; "):
        ahead = re.match(r"in `(\w+)`: ", clause)
        for name, places in located(clause[ahead.end() :] if ahead else clause):
            yield from ((place, name) for place in ([ahead[1]] if ahead else places or [crate]))


def tried(page):
    """(crate, name) of what the columns of edits name. A row's own crate is that of its call, else the one whose edits the section is of."""
    crates = {}
    for block in page:
        for crate in EDITS_OF.findall(block.cells[0]):
            crates[block.titles] = crate
        call = re.match(r"`(\w+)::", block.cells[0]) or re.match(r".* in `crates/(\w+)`", block.cells[0])
        for head, cell in zip(block.header, block.cells):
            if is_edits(head):
                yield from edits_of(cell, call[1] if call else crates.get(block.titles, "no crate"))


def slips():
    """The names in the table of wrong gateways."""
    return set(re.findall(r'"([a-z0-9-]+)"', read(SLIPS)))


def numbers(cell):
    """1, 4-5 and "2, 7" as numbers."""
    for part in cell.split(", "):
        first, _, last = part.partition("-")
        yield from range(int(first), int(last or first) + 1)


def counted(page):
    """Under each title of COUNTED: every sentence is in one row."""
    rows, bad = collections.defaultdict(list), []
    for block in page:
        if block.titles[0] == COUNTED and block.titles[1]:
            rows[block.titles[1]] += [block.cells[0]] if block.header and block.header[0] == "no." else []
    for title, cells in rows.items():
        said = re.search(r"\((\d+) (?:sentences?|rows)\)$", title)
        if said is None:
            bad.append(f"how many sentences? {title}")
            continue
        wrong = [cell for cell in cells if not re.fullmatch(r"\d+(-\d+)?(, \d+(-\d+)?)*", cell)]
        times = collections.Counter(n for cell in cells if cell not in wrong for n in numbers(cell))
        bad += [f"{title}: no numbers of sentences: {cell}" for cell in wrong]
        bad += [f"{title}: sentence {n} is in {times[n]} rows" for n in range(1, int(said[1]) + 1) if times[n] != 1]
        bad += [f"{title}: there is no sentence {n}" for n in sorted(times) if not 1 <= n <= int(said[1])]
    return sum(int(n) for n in re.findall(r"\((\d+) (?:sentences?|rows)\)", " ".join(rows))), bad


def anchors(text):
    """What a link may name behind #: a title, or an id of its own, which stays where the title's count changes."""
    titles = re.findall(r"^#+ (.*)$", text, re.M)
    return {re.sub(r"[^\w -]", "", title.lower()).replace(" ", "-") for title in titles} | set(re.findall(r'<a id="([\w-]+)">', text))


def links():
    for page in sorted(path for pattern in PAGES for path in glob.glob(pattern, recursive=True)):
        for target in re.findall(r"\]\(([^)\s]+)\)", read(page)):
            path, _, anchor = target.partition("#")
            path = os.path.normpath(os.path.join(os.path.dirname(page), path)) if path else page
            if "://" not in target and not os.path.exists(path):
                yield f"{page}: no such file: {target}"
            elif "://" not in target and anchor and anchor not in anchors(read(path)):
                yield f"{page}: no such title: {target}"


def main():
    os.chdir(ROOT)
    text = read(PAGE)
    page, names = list(blocks(text)), Names()
    for block in page:
        names.block(block)
    sentences, bad = counted(page)
    edits = {(path.split("/")[1], os.path.basename(path)[: -len(".edit")]) for path in glob.glob("crates/*/must-fail/*.edit")}
    wrong, named = slips(), set(tried(page))
    as_slips = {(crate, name) for crate, name in named if name in wrong or "-" in name}
    bad += [f"no such edit: {name} in {crate}" for crate, name in sorted(named - as_slips - edits)]
    bad += [f"an edit that is not named: {name} in {crate}" for crate, name in sorted(edits - named)]
    bad += [f"no such slip: {name}" for _, name in sorted(as_slips) if name not in wrong]
    bad += [f"a slip that is not named: {name}" for name in sorted(wrong - set(SPAN.findall(text)))]
    bad += names.bad + list(links())
    print("\n".join(bad + [f"promised: {names.count} names, {sentences} sentences, {len(edits)} edits, {len(wrong)} slips; {len(bad)} things amiss"]))
    return bool(bad)


if __name__ == "__main__":
    sys.exit(main())
