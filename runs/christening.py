#!/usr/bin/env python3
"""The program `christening` held against a reading of christening records that is worked out here from their octets, with a table of rows and places of its own
and the names of data/properties.csv: tables of trains, of words and of files, then every bit of a record by itself, and trains made by a seed. Run from the
root, after the program is built.

    runs/christening.py            runs all of it
    runs/christening.py --write    writes expected/christening-help.txt anew, to be read before it is kept
"""
import os
import random
import re
import shutil
import subprocess
import sys
import tempfile

ROOT = os.path.dirname(os.path.dirname(os.path.abspath(__file__)))
sys.path.append(os.path.join(ROOT, "data"))
import make  # from data/

HELP = os.path.join(ROOT, "runs", "expected", "christening-help.txt")
USAGE = "error: usage: christening RECORDS [leading V] [led V].. [table]\n"
WORDS = {17: "consist empty or above 63", 18: "consist rule broken", 31: "records not whole, or not as many pairs as records"}
SIZE, VEHICLES, MOST = 56, 63, 65520
SEEDED = 120

# table E.1: the rows whose bits stand in an octet, from bit 0 on; those of octets 50 on are the vehicle's
OCTETS = {
    22: "17 19 21-24 29-30", 23: "31-37 142", 24: "38-41 44-47", 25: "48-55", 26: "56-63", 27: "64-71", 28: "72-79", 29: "80-87", 30: "88-95", 31: "96-103",
    32: "104 106-107 110-114", 33: "115-117 119-121 123-124", 34: "126 128 131-132 143-146", 35: "147-152",
    50: "1-8", 51: "9-16", 52: "18 20 25-28 42-43", 53: "105 108-109 118 122 125 127 129", 54: "130 141",
}


def rows_in(text):
    return [row for part in text.split() for row in range(int(part.split("-")[0]), int(part.split("-")[-1]) + 1)]


PLACES = dict(sorted((row, (octet, bit)) for octet, text in OCTETS.items() for bit, row in enumerate(rows_in(text))))
NAMES = {p["row"]: p["name"] for p in make.read_properties()}


def level_of(octet):
    return "vehicle" if octet >= 50 else "gateway"


# ---- what is printed

class Refused(Exception):
    """By a number."""


class Wrong(Exception):
    """A word that is no good: what it is called, itself, and what is wrong."""


def is_set(record, octet, bit):
    return record[octet - 1] >> (7 - bit) & 1 == 1


def holding(record):
    return [row for row, place in PLACES.items() if is_set(record, *place)]


def number_of(word):
    if not re.fullmatch("[0-9]{1,40}", word) or not 1 <= int(word) <= 4294967295:
        raise Wrong("vehicle", word, "not a whole number from 1 to 4294967295")
    return int(word)


def given(words):
    """The vehicles that lead and that are led, and whether a table is asked for."""
    vehicles, table, words = {"leading": [], "led": []}, False, list(words)
    while words:
        word = words.pop(0)
        if word == "table":
            table = True
        elif word not in vehicles:
            raise Wrong("word", word, "neither leading, led nor table")
        elif not words:
            raise Wrong("word", word, "no vehicle behind it")
        else:
            word_after = words.pop(0)
            vehicles[word].append((number_of(word_after), word_after))
    return vehicles["leading"], vehicles["led"], table


def train_of(records, leading, led):
    """The marks of each vehicle, in words; else Refused."""
    if not 1 <= len(records) <= VEHICLES:
        raise Refused(17)
    train = []
    for v, record in enumerate(records, 1):
        tractive = is_set(record, 24, 0) or is_set(record, 24, 1)
        sleeping = is_set(record, 51, 4)
        coach = sleeping or any(is_set(record, *place) for place in ((50, 0), (50, 1), (51, 0), (51, 3)))
        if v in led and (not tractive or v in leading):
            raise Refused(18)
        marks = (("leading", v in leading), ("coach", coach), ("tractive", tractive), ("led", v in led), ("sleeping", sleeping))
        train.append(" ".join(name for name, holds in marks if holds) or "-")
    if len(set(leading)) > 1:
        raise Refused(18)
    return train


def page(records, train):
    lines = [f"vehicle {v}  {marks}" for v, marks in enumerate(train, 1)]
    for v, record in enumerate(records, 1):
        lines += [f"vehicle {v}", *(f"{row:5}  {'/'.join(map(str, PLACES[row]))}  {NAMES[row]}" for row in holding(record))]
    return lines


def table_of(records):
    lines = [["vehicle", "row", "level", "octet", "bit", "name"]]
    for v, record in enumerate(records, 1):
        lines += [[v, row, level_of(PLACES[row][0]), *PLACES[row], NAMES[row]] for row in holding(record)]
    return ["\t".join(map(str, line)) for line in lines]


def answered(octets, words):
    leading, led, table = given(words)
    if len(octets) > MOST:
        raise Wrong("RECORDS", "records", f"more than {MOST} octets")
    if len(octets) % SIZE:
        raise Refused(31)
    records = [octets[i:i + SIZE] for i in range(0, len(octets), SIZE)]
    highest = max(leading + led, key=lambda named: named[0], default=(0, ""))
    if highest[0] > len(records):
        raise Wrong("vehicle", highest[1], f"above the number of records, {len(records)}")
    train = train_of(records, [v for v, _ in leading], [v for v, _ in led])
    return "\n".join(table_of(records) if table else page(records, train)) + "\n"


def refused(number):
    return f"refused {number}: {WORDS[number]}\n"


def error(name, word, what):
    return f"error: {name} '{word}': {what}\n"


def expected(octets, words):
    try:
        return answered(octets, words)
    except Refused as no:
        return refused(*no.args)
    except Wrong as wrong:
        return error(*wrong.args)


# ---- trains with the words and what is printed of them; None where it is only worked out

with open(os.path.join(ROOT, "data", "train.records"), "rb") as file:
    TRAIN = file.read()
NONE, ALL = bytes(SIZE), b"\xff" * SIZE
ENGINE, DIESEL, COACH, SLEEPER = make.record([38]), make.record([39]), make.record([2]), make.record([13])
TABLE = "vehicle\trow\tlevel\toctet\tbit\tname\n"
NOT_A_NUMBER = "not a whole number from 1 to 4294967295"

TRAINS = [
    ("the train", TRAIN, "", None), ("the train, pushed", TRAIN, "leading 5 led 1", None), ("the train as a table", TRAIN, "leading 1 table", None),
    ("no property", NONE, "", "vehicle 1  -\nvehicle 1\n"), ("no property, leading", NONE, "leading 1", "vehicle 1  leading\nvehicle 1\n"), ("no property, as a table", NONE, "table", TABLE),
    ("all bits", ALL, "", None), ("all bits, leading", ALL, "leading 1", None), ("all bits, led", ALL, "led 1", None), ("all bits, as a table", ALL, "table", None),
    ("an engine", ENGINE, "", "vehicle 1  tractive\nvehicle 1\n   38  24/0  Tractive unit with electric drive\n"),
    ("an engine, as a table", ENGINE, "table", TABLE + "1\t38\tgateway\t24\t0\tTractive unit with electric drive\n"),
    ("a sleeping car", SLEEPER, "", "vehicle 1  coach sleeping\nvehicle 1\n   13  51/4  Vehicle is a sleeping car\n"),
    ("a sleeping car, as a table", SLEEPER, "table", TABLE + "1\t13\tvehicle\t51\t4\tVehicle is a sleeping car\n"),
    ("a name that is not in ASCII", make.record([40]), "", "vehicle 1  -\nvehicle 1\n   40  24/2  Vehicle has \u2264 2 pantographs\n"),
    ("the last row, and that before the gap", make.record([132, 141, 152]), "",
     "vehicle 1  -\nvehicle 1\n  132  34/3  Vehicle has radio clock\n  141  54/1  Vehicle has a train bus node\n  152  35/5  Vehicle supports safe data transmission\n"),
    # words
    ("words in any order", ENGINE * 4, "table led 4 leading 2 led 1 led 3", None), ("led before leading", ENGINE * 3, "led 3 leading 1 led 2", None), ("a mark twice", ENGINE * 2, "leading 1 led 2 led 2 leading 1", None),
    ("leading zeros", ENGINE * 2, "leading 01 led 002", None), ("40 digits", ENGINE, "led " + "1".zfill(40), None), ("the table twice", ENGINE, "table table", None),
    # 18
    ("two that lead", ENGINE * 2, "leading 1 leading 2", refused(18)), ("led and leading", ENGINE * 2, "led 1 leading 1", refused(18)), ("a coach that is led", ENGINE + COACH, "led 2", refused(18)),
    ("the last that is led is no tractive unit", DIESEL * 62 + SLEEPER, "led 63", refused(18)), ("two that lead, as a table", ENGINE * 2, "table leading 1 leading 2", refused(18)),
    # 17 and 31: the size alone
    *((f"{size} octets", bytes(size), words, None if size % SIZE == 0 and 0 < size <= SIZE * VEHICLES else refused(31 if size % SIZE else 17)) for words in ("", "table")
      for size in (0, 1, 55, 56, 57, 111, 112, 113, 280, 3527, 3528, 3529, 3583, 3584, 3585, 3640, 65464, 65519, 65520)),
    ("65,521 octets", bytes(65521), "", error("RECORDS", "records", "more than 65520 octets")), ("a million octets", bytes(1000000), "", error("RECORDS", "records", "more than 65520 octets")),
    ("not whole, and a vehicle too high", TRAIN[:-1], "leading 5", refused(31)), ("not whole, and one led that may not be", COACH + b"\0", "led 1", refused(31)),
    ("64 vehicles, the last of which leads", ENGINE * 64, "leading 64", refused(17)), ("64 vehicles, and two that lead", ENGINE * 64, "leading 1 leading 2", refused(17)),
    ("1,170 vehicles, the last of which is led", ENGINE * 1170, "led 1170", refused(17)),
    # words that are no good
    *((f"vehicle {v}", TRAIN, f"{word} {v}", error("vehicle", v, "above the number of records, 5")) for word in ("leading", "led") for v in ("6", "64", "1170", "1171", "4294967295")),
    *((f"vehicle {v}", TRAIN, f"{word} {v}", error("vehicle", v, NOT_A_NUMBER)) for word in ("leading", "led")
      for v in ("0", "00", "-1", "+1", "1.0", "x", "table", "led", "leading", "4294967296", "18446744073709551617", "1".zfill(41), "99999999999999999999999999999999999999999")),
    ("the highest is named", TRAIN, "led 7 leading 9 led 8", error("vehicle", "9", "above the number of records, 5")), ("the first of two as high", TRAIN, "led 6 led 06", error("vehicle", "6", "above the number of records, 5")),
    ("a vehicle of no record", b"", "leading 1", error("vehicle", "1", "above the number of records, 0")),
    *((f"the word {word}", TRAIN, word, error("word", word.split()[-1], "neither leading, led nor table")) for word in ("tables", "Leading", "lead", "5", "leading 1 2", "table led 1 x", "leading=1", "help", "x" * 39)),
    *((f"{words} with no vehicle", TRAIN, words, error("word", words.split()[-1], "no vehicle behind it")) for words in ("leading", "led", "leading 1 led", "table leading")),
    ("a wrong word before a file that is not whole", b"\0", "x", error("word", "x", "neither leading, led nor table")), ("the first of two wrong words", TRAIN, "leading 0 x", error("vehicle", "0", NOT_A_NUMBER)),
]


# ---- the runs

class Folder:
    """A folder in which the program runs, and what is wrong with what it does there."""

    def __init__(self):
        self.path, self.count, self.said = tempfile.mkdtemp(), 0, []

    def write(self, name, octets):
        with open(os.path.join(self.path, name), "wb") as f:
            f.write(octets)

    def held(self):
        out = {}
        for name in os.listdir(self.path):
            if os.path.isfile(os.path.join(self.path, name)):
                with open(os.path.join(self.path, name), "rb") as f:
                    out[name] = f.read()
        return out

    def expect(self, what, words, text):
        """The run prints the text, on the stream and with the status that its first word asks for, and changes no file."""
        then = self.held()
        done = subprocess.run([os.path.join(ROOT, "run"), "christening", *words], cwd=self.path, capture_output=True, timeout=60)
        trouble, status = text.startswith(("refused ", "error: ")), {"refused": 1, "error:": 2}.get(text.split(" ")[0], 0)
        right = (status, b"" if trouble else text.encode(), text.encode() if trouble else b"")
        self.count += 1
        if (done.returncode, done.stdout, done.stderr) != right:
            self.said.append(f"{what}, {' '.join(words)[:100]}: expected {right}, got {(done.returncode, done.stdout, done.stderr)}"[:2000])
        if self.held() != then:
            self.said.append(f"{what}, {' '.join(words)[:100]}: files changed")

    def reads(self, what, octets, words, text=None):
        self.write("records", octets)
        worked_out = expected(octets, words)
        if text not in (None, worked_out):
            self.said.append(f"{what}: worked out otherwise than the table has it: {worked_out!r}")
        self.expect(what, ["records", *words], worked_out)


def on_words(f, write):
    """What the program says of itself, of no word, and of files that cannot be read."""
    if write:
        with open(HELP, "wb") as out:
            out.write(subprocess.run([os.path.join(ROOT, "run"), "christening", "help"], stdout=subprocess.PIPE, check=True).stdout)
    with open(HELP, encoding="utf-8") as text:
        f.expect("help", ["help"], text.read())
    f.expect("usage", [], USAGE)
    f.write("table", ENGINE)
    os.mkdir(os.path.join(f.path, "folder"))
    f.expect("a file called as a word is", ["table"], expected(ENGINE, []))
    f.expect("a file called as a word is", ["table", "table"], expected(ENGINE, ["table"]))
    for name, what in (("none", "no such file or folder"), ("", "no such file or folder"), ("folder", "is a folder"), ("table/x", "not in a folder")):
        f.expect("no file to read", [name], error("RECORDS", name, what))
        f.expect("no file to read", [name, "table", "leading", "1"], error("RECORDS", name, what))
    f.expect("a wrong word before a file that is not there", ["none", "x"], error("word", "x", "neither leading, led nor table"))
    f.expect("help and a word", ["help", "x"], error("word", "x", "neither leading, led nor table"))
    f.expect("an empty word", ["table", ""], error("word", "", "neither leading, led nor table"))
    f.expect("no number", ["table", "led", ""], error("vehicle", "", NOT_A_NUMBER))


def on_tables(f):
    for what, octets, words, text in TRAINS:
        f.reads(what, octets, words.split(), text)


def on_bits(f):
    """Every bit of a record by itself, and every bit but one: a vehicle each."""
    for flip in (NONE, ALL):
        records = [bytes(octet ^ (0x80 >> bit % 8 if i == bit // 8 else 0) for i, octet in enumerate(flip)) for bit in range(8 * SIZE)]
        for first in range(0, len(records), VEHICLES):
            for words in ([], ["table"]):
                f.reads(f"bits from {first} on", b"".join(records[first:first + VEHICLES]), words)


def some_record(chance):
    kind = chance.choice((lambda: chance.randbytes(SIZE), lambda: make.record(chance.sample(list(PLACES), chance.randrange(20))), lambda: chance.choice((NONE, ENGINE, DIESEL, COACH, SLEEPER))))
    return kind()


def on_seeded(f):
    chance = random.Random(14)
    for k in range(SEEDED):
        records = [some_record(chance) for _ in range(chance.choice((1, 2, 3, 5, 12, 62, 63, 64)))]
        tractive = [v for v, record in enumerate(records, 1) if is_set(record, 24, 0) or is_set(record, 24, 1)]
        words = [["led", str(v)] for v in tractive if chance.random() < 0.3] + [["table"]] * chance.randrange(2)
        for chosen in (["leading", str(chance.randrange(1, len(records) + 1))], ["led", str(chance.randrange(0, len(records) + 2))], [chance.choice(("x", "led", "0"))]):
            if chance.random() < (0.5 if chosen[0] == "leading" else 0.1):
                words.append(chosen)
        chance.shuffle(words)
        octets = b"".join(records)
        if chance.random() < 0.1:
            octets = octets[:-chance.randrange(1, SIZE)]
        f.reads(f"train {k}", octets, [word for pair in words for word in pair])


def of_tables():
    """What is amiss between the table here and data/properties.csv."""
    file = {p["row"]: (p["level"], p["octet"], p["bit"]) for p in make.read_properties()}
    here = {row: (level_of(octet), octet, bit) for row, (octet, bit) in PLACES.items()}
    return [f"properties.csv has another row, level or place: {row}" for row in {**file, **here} if file.get(row) != here.get(row)]


def in_folder(work, *more):
    """The runs that were made in a folder of their own, and what is wrong with them."""
    f = Folder()
    try:
        work(f, *more)
    finally:
        shutil.rmtree(f.path)
    return f.count, f.said


def main():
    results = [in_folder(on_words, "--write" in sys.argv), *(in_folder(work) for work in (on_tables, on_bits, on_seeded))]
    said = of_tables() + [what for _, whats in results for what in whats]
    print("\n".join(said + [f"christening: {sum(count for count, _ in results)} runs, {len(said)} wrong"]))
    return bool(said)


if __name__ == "__main__":
    sys.exit(main())
