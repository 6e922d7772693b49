#!/usr/bin/env python3
"""The table of `extends`' runs: two lists, and the line that the program prints for them, in both forms. Run from the root, after the programs
are built."""
import os
import re
import subprocess
import sys
import tempfile

from judge import L, WORDS, code, in_form_2, numbered, offset_in_form_2, pack, signal


def refused(number, offset, which):
    return f"refused {number} at {offset} ({which} list): {WORDS[number]}"


def data(name):
    return open(f"data/{name}.list", "rb").read()


S = signal(424, 4)
T = signal(500, 4)
COACH, NEXT, WRONG = (data(name) for name in ("coach", "coach-next", "coach-wrong"))

TABLE = [
    ("the coach's list and its successor", COACH, NEXT, "extends: yes"),
    ("the successor and the coach's list", NEXT, COACH, "extends: no"),
    ("a since-version equal to the version", COACH, WRONG, "extends: no"),
    ("a list and itself", COACH, COACH, "extends: yes"),
    ("the empty list and any", pack(), pack((), [signal(424, 4, since=2)]), "extends: yes"),
    ("a signal of since-version 1 added to the empty list", pack(), pack((), [S]), "extends: no"),
    ("a limit and a replacement changed", pack((), [S]), pack((), [signal(424, 4, limit=0, replacement=3)]), "extends: yes"),
    ("a width changed", pack((), [S]), pack((), [signal(424, 5)]), "extends: no"),
    ("a field of 64 bits, replaced otherwise", pack((), [signal(425, 64)]), pack((), [signal(425, 64, replacement=2**48 - 1)]), "extends: yes"),
    ("a width of 64 where it was 63", pack((), [signal(425, 63)]), pack((), [signal(425, 64)]), "extends: no"),
    ("a field of 64 bits added", pack((), [S]), pack((), [S, signal(428, 64, since=2)]), "extends: yes"),
    ("a field of 65 bits added", pack((), [S]), pack((), [S, signal(428, 65, since=2)]), refused(3, 20, "second")),
    ("a type changed", pack((), [S]), pack((), [signal(424, 4, 2)]), "extends: no"),
    ("a since-version changed", pack((), [S]), pack((), [signal(424, 4, since=2)]), "extends: no"),
    ("a check at the same place under another number", pack([bytes([1, 64])], [signal(424, 4, 1, 1)]), pack([bytes([0, 16]), bytes([1, 64])], [signal(424, 4, 1, 2)]), "extends: yes"),
    ("the same number at another place", pack([bytes([1, 64])], [signal(424, 4, 1, 1)]), pack([bytes([1, 66])], [signal(424, 4, 1, 1)]), "extends: no"),
    ("a code range widened", pack((), [S], [code(0, 1, 3)]), pack((), [S], [code(0, 0, 5)]), "extends: yes"),
    ("a code lost", pack((), [S], [code(0, 0, 5)]), pack((), [S], [code(0, 0, 2), code(0, 4, 5)]), "extends: no"),
    ("entries where there were none", pack((), [S]), pack((), [S], [code(0, 0, 14)]), "extends: no"),
    ("a full range where there were none", pack((), [S]), pack((), [S], [code(0, 0, 15)]), "extends: yes"),
    ("no entries any more", pack((), [S], [code(0, 3, 3)]), pack((), [S]), "extends: yes"),
    ("a signal before it: another index", pack((), [T]), pack((), [signal(424, 4, since=2), T]), "extends: yes"),
    ("the first list refused", L[:-1], COACH, refused(1, 36, "first")),
    ("the second list refused", COACH, L + b"\0", refused(4, 44, "second")),
    ("both refused", b"", L + b"\0", refused(1, 0, "first")),
]

WORDS_2 = ("first-form2", "second-form2")
LINE = "extends FIRST SECOND [first-form2] [second-form2]"
USAGE = f"error: usage: {LINE}\n"
BOTH = ["data/coach.list", "data/coach-2.list"]

OTHERWISE = [
    ([], USAGE),
    (["help"], LINE + "\n\n"),
    (["data/coach.list"], USAGE),
    (["data/coach.list"] * 3, USAGE),
    (BOTH + ["second-form2"], "extends: yes\n"),
    (BOTH[::-1] + ["first-form2"], "extends: yes\n"),
    (BOTH[1:] * 2 + ["second-form2", "first-form2"], "extends: yes\n"),
    # a list in form 1 said to be in form 2, and the other way round
    (BOTH, refused(3, 116, "second") + "\n"),
    (BOTH + ["first-form2", "second-form2"], refused(3, 118, "first") + "\n"),
    # words that are misplaced, given twice, unknown
    (BOTH + ["second-form2"] * 2, USAGE),
    (["second-form2"] + BOTH, USAGE),
    (BOTH[:1] + ["second-form2"] + BOTH[1:], USAGE),
    (BOTH + ["form2"], USAGE),
    (BOTH + ["second-form2", "third-form2"], USAGE),
    (BOTH + ["second-form2", "first-form2", "second-form2"], USAGE),
    (BOTH[:1] + ["second-form2"], "error: SECOND 'second-form2': no such file or folder\n"),
    (["data/none.list", "data/coach.list"], "error: FIRST 'data/none.list': no such file or folder\n"),
    (["data/coach.list", "data"], "error: SECOND 'data': "),
]


def run(*words):
    return subprocess.run([os.path.abspath("run"), "extends", *words], stdout=subprocess.PIPE, stderr=subprocess.STDOUT, timeout=60).stdout.decode()


def forms():
    """Each row in form 1, and with either list in form 2 and both: the answer is the same, and an offset follows the longer entries."""
    for i, (name, first, second, expected) in enumerate(TABLE):
        for words in ((), WORDS_2[:1], WORDS_2[1:], WORDS_2):
            lists, line = [first, second], expected
            for k, which in enumerate(("first", "second")):
                if WORDS_2[k] in words:
                    lists[k] = in_form_2(lists[k], numbered(i + 5 * k))
                    line = re.sub(rf"(?<=at )\d+(?= \({which})", lambda m: str(offset_in_form_2((first, second)[k], int(m[0]))), line)
            yield ", ".join((name,) + words), *lists, list(words), line


def main():
    bad = 0
    rows = list(forms())
    for words, first in OTHERWISE:
        got = run(*words)
        if not got.startswith(first):
            print(f"extends {' '.join(words)}: expected {first!r}, got {got!r}")
            bad += 1
    with tempfile.TemporaryDirectory() as folder:
        a, b = os.path.join(folder, "a"), os.path.join(folder, "b")
        for name, first, second, words, expected in rows:
            for path, octets in ((a, first), (b, second)):
                with open(path, "wb") as f:
                    f.write(octets)
            got = run(a, b, *words)
            if got != expected + "\n":
                print(f"extends, {name}: expected {expected!r}, got {got!r}")
                bad += 1
    print(f"extends: {len(rows) + len(OTHERWISE)} runs, {bad} wrong")
    return 1 if bad else 0


if __name__ == "__main__":
    sys.exit(main())
