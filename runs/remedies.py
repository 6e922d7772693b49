#!/usr/bin/env python3
"""The programs `remedies` and `write_remedies` held against a reading and a writing of telegram 8.8A that is worked out here from the octets: tables of
telegrams, of text files and of what is done to files, then every character, and telegrams and text files made by a seed. Run from the root, after the
programs are built.

    runs/remedies.py            runs all of it
    runs/remedies.py --write    writes expected/*remedies-help.txt anew, to be read before it is kept
"""
import os
import random
import re
import resource
import shutil
import signal
import subprocess
import sys
import tempfile

ROOT = os.path.dirname(os.path.dirname(os.path.abspath(__file__)))
sys.path.append(os.path.join(ROOT, "data"))
import make  # from data/

EXPECTED = os.path.join(ROOT, "runs", "expected")
WORDS = {
    21: "E-telegram length", 28: "block runs past the end, or octets after the last", 29: "field out of its range or length that disagrees", 30: "key twice",
}
USAGE = {"remedies": "remedies TELEGRAM [file]", "write_remedies": "write_remedies FILE TELEGRAM"}
SEEDED = 60


def n(value, octets=2):
    return value.to_bytes(octets, "big")


def data(name):
    with open(os.path.join(ROOT, "data", name), "rb") as f:
        return f.read()


# ---- a telegram

def block(key, text, reserve=0, length=None, text_length=None):
    """A text is a list of units; the lengths are its own where they are not given."""
    octets = b"".join(n(unit) for unit in text)
    return n(6 + len(octets) if length is None else length) + bytes([key, reserve]) + n(len(octets) if text_length is None else text_length) + octets


def telegram(*blocks, head=bytes(6), code=0x8A08, carried=bytes(12), language=b"de", ordered=1, count=None, reserve=bytes(6), behind=b""):
    return head + n(code) + carried + language + bytes([ordered, len(blocks) if count is None else count]) + reserve + b"".join(blocks) + behind


def units(text):
    return [ord(c) for c in text]


class Refused(Exception):
    """By a number."""


class Read:
    """A telegram that is read; else Refused."""

    def __init__(self, octets):
        code = int.from_bytes(octets[6:8], "big")
        if len(octets) < 30 or len(octets) > (2110 if code == 0x8A08 else 1024):
            raise Refused(21)
        if code != 0x8A08 or octets[22] > 1 or not 1 <= octets[23] <= 8:
            raise Refused(29)
        self.head, self.carried, self.language, self.ordered, self.blocks = octets[:6], octets[8:20], octets[20:22], octets[22], []
        rest = octets[30:]
        for _ in range(octets[23]):
            rest = self.take(rest)
        if rest:
            raise Refused(28)

    def take(self, rest):
        """One block more; what is behind it is left."""
        length = int.from_bytes(rest[:2], "big")
        if len(rest) < 6 or len(rest) < length:
            raise Refused(28)
        key, size = rest[2], int.from_bytes(rest[4:6], "big")
        if not 1 <= key <= 8 or size % 2 or size > 254 or length != 6 + size:
            raise Refused(29)
        if key in [k for k, _ in self.blocks]:
            raise Refused(30)
        self.blocks.append((key, [int.from_bytes(rest[6 + i:8 + i], "big") for i in range(0, size, 2)]))
        return rest[length:]

    def again(self):
        """The same telegram with its reserve 0."""
        return telegram(*(block(key, text) for key, text in self.blocks), head=self.head, carried=self.carried, language=self.language, ordered=self.ordered)


def shown(unit):
    if unit == 0x5C:
        return "\\\\"
    if unit < 0x20 or 0x7F <= unit <= 0x9F or 0xD800 <= unit <= 0xDFFF or unit >= 0xFFFE:
        return f"\\u{unit:04X}"
    return chr(unit)


def spelled(text):
    return "".join(map(shown, text))


def language_of(octets):
    return octets.decode() if re.fullmatch(rb"[A-Za-z]{2}", octets) else "".join(f"\\x{octet:02X}" for octet in octets)


def ordered_of(telegram):
    return f"ordered {'yes' if telegram.ordered else 'no'}"


def page(t):
    return "\n".join([f"language {language_of(t.language)} {ordered_of(t)}", *(f"F{key}  {spelled(text)}" for key, text in t.blocks)]) + "\n"


def file(t):
    lines = [f"head {t.head.hex(' ').upper()}", f"carried {t.carried.hex(' ').upper()}", f"language {language_of(t.language)}", ordered_of(t)]
    return "\n".join(lines + [f"F{key} {spelled(text)}" for key, text in t.blocks]) + "\n"


def refused(number, more=""):
    return f"refused {number}: {WORDS[number]}{more}\n"


# ---- a text file

NAME = "neither head, carried, language, ordered nor F1 to F8"
HEAD, CARRIED = "head not 6 octets, as `head 00 1F 00 00 00 00`", "carried not 12 octets of two hexadecimal digits"
LANGUAGE, ORDERED = "language not two letters, nor octets as `\\x00\\x1F`", "ordered neither yes nor no"
NO_UTF8, ABOVE = "text not in UTF-8", "text with a character above U+FFFF"
ESCAPE = "text with a backslash before neither another nor u and four hexadecimal digits"


class Wrong(Exception):
    """A line, by its number, or 0, and what is wrong."""


def character(octets):
    """The unit at the front, and what is behind it."""
    escape = re.match(rb"\\(?:(\\)|u([0-9A-Fa-f]{4}))", octets)
    if escape:
        return (0x5C if escape[1] else int(escape[2], 16)), octets[escape.end():]
    if octets[:1] == b"\\":
        raise ValueError(ESCAPE)
    for size in (1, 2, 3, 4):
        try:
            one = octets[:size].decode()
        except UnicodeDecodeError:
            continue
        if size == 4:
            raise ValueError(ABOVE)
        return ord(one), octets[size:]
    raise ValueError(NO_UTF8)


def text_in(octets):
    text = []
    while octets:
        unit, octets = character(octets)
        text.append(unit)
    return text


def octets_in(words, count):
    if len(words) != count or not all(re.fullmatch(rb"[0-9A-Fa-f]{2}", word) for word in words):
        raise ValueError(HEAD if count == 6 else CARRIED)
    return bytes(int(word, 16) for word in words)


def language_in(words):
    if len(words) == 1 and re.fullmatch(rb"[A-Za-z]{2}", words[0]):
        return words[0]
    found = re.fullmatch(rb"\\x([0-9A-Fa-f]{2})\\x([0-9A-Fa-f]{2})", words[0]) if len(words) == 1 else None
    if not found:
        raise ValueError(LANGUAGE)
    return bytes(int(word, 16) for word in found.groups())


def ordered_in(words):
    if words not in ([b"yes"], [b"no"]):
        raise ValueError(ORDERED)
    return int(words == [b"yes"])


class Given:
    """What a text file gives; else Wrong."""

    def __init__(self, octets):
        self.head, self.carried, self.language, self.ordered, self.texts = bytes(6), bytes(12), None, None, []
        for number, line in enumerate(octets.removeprefix(b"\xef\xbb\xbf").split(b"\n"), 1):
            try:
                self.take(line.removesuffix(b"\r"))
            except ValueError as what:
                raise Wrong(number, str(what)) from None
        for name in ("language", "ordered"):
            if getattr(self, name) is None:
                raise Wrong(0, f"no line `{name}`")

    def take(self, line):
        key = re.match(rb"[ \t\r]*F([1-8])(?=[ \t\r]|$)", line)
        if key:
            self.texts.append((int(key[1]), text_in(line[key.end() + 1:])))
            return
        name, *words = re.findall(rb"[^ \t\r]+", line.split(b"#")[0]) or [b""]
        if name == b"head":
            self.head = octets_in(words, 6)
        elif name == b"carried":
            self.carried = octets_in(words, 12)
        elif name == b"language":
            self.language = language_in(words)
        elif name == b"ordered":
            self.ordered = ordered_in(words)
        elif name:
            raise ValueError(NAME)

    def octets(self):
        """The telegram; else Refused, with what is said beside the words."""
        if not 1 <= len(self.texts) <= 8:
            raise Refused(29, ": more than 8 texts" if self.texts else ": no text")
        keys = []
        for key, text in self.texts:
            if len(text) > 127:
                raise Refused(29, f": F{key} has more than 127 characters")
            if key in keys:
                raise Refused(30, f": F{key}")
            keys.append(key)
        return telegram(*(block(key, text) for key, text in self.texts), head=self.head, carried=self.carried, language=self.language, ordered=self.ordered)


def written(octets, name="file"):
    """What `write_remedies` prints of a text file of that name, and what it writes."""
    try:
        given = Given(octets)
        out = given.octets()
    except Wrong as wrong:
        number, what = wrong.args
        return f"error: FILE '{name}'{f' line {number}' if number else ''}: {what}\n", None
    except Refused as no:
        return refused(*no.args), None
    texts = f"{len(given.texts)} text{'s' if len(given.texts) > 1 else ''}"
    return f"written in {language_of(given.language)}: {texts}, {len(out)} octets\n", out


# ---- telegrams with what is printed of them

DOOR, OFF = data("door.telegram"), data("door-off.telegram")
FIRST = block(1, units("a"))
LONG = units("Weiche 7 prüfen. ") * 8
EIGHT = [block(key, LONG[:127]) for key in range(8, 0, -1)]

TELEGRAMS = [
    ("the door", DOOR, "language de ordered yes\n" + "".join(f"F{key}  {text}\n" for key, text in make.DOOR[4])),
    ("the door, a block's length off", OFF, refused(29)),
    ("one text", telegram(FIRST), "language de ordered yes\nF1  a\n"),
    ("not the language ordered", telegram(FIRST, ordered=0), "language de ordered no\nF1  a\n"),
    ("no character", telegram(block(3, [])), "language de ordered yes\nF3  \n"),
    ("spaces at the ends", telegram(block(3, units("  a "))), "language de ordered yes\nF3    a \n"),
    ("a comment's sign, and a key's name", telegram(block(3, units("# F4 b")), block(4, units("F3"))), "language de ordered yes\nF3  # F4 b\nF4  F3\n"),
    ("keys in the telegram's order", telegram(*(block(key, units(str(key))) for key in (7, 2, 8, 1))), "language de ordered yes\nF7  7\nF2  2\nF8  8\nF1  1\n"),
    ("the longest", telegram(*EIGHT), None),
    ("the most octets that are printed", telegram(*(block(key, [0xFFFF] * 127) for key in range(1, 9)), language=b"\0\0"), None),
    ("lines", telegram(block(1, units("a\nF2 b\r\n"))), "language de ordered yes\nF1  a\\u000AF2 b\\u000D\\u000A\n"),
    ("controls", telegram(block(1, [0, 9, 0x1F, 0x20, 0x7E, 0x7F, 0x80, 0x9F, 0xA0])), "language de ordered yes\nF1  \\u0000\\u0009\\u001F ~\\u007F\\u0080\\u009F\u00a0\n"),
    ("halves of pairs", telegram(block(1, [0xD7FF, 0xD800, 0xDBFF, 0xDC00, 0xDFFF, 0xE000, 0xD83D, 0xDE00])),
     "language de ordered yes\nF1  \ud7ff\\uD800\\uDBFF\\uDC00\\uDFFF\ue000\\uD83D\\uDE00\n"),
    ("the last characters", telegram(block(1, [0xFEFF, 0xFFFD, 0xFFFE, 0xFFFF])), "language de ordered yes\nF1  \ufeff\ufffd\\uFFFE\\uFFFF\n"),
    ("lengths of UTF-8", telegram(block(1, [0x7E, 0xA0, 0x7FF, 0x800])), "language de ordered yes\nF1  ~\u00a0\u07ff\u0800\n"),
    ("backslashes", telegram(block(1, units("\\ \\\\ \\u0041"))), "language de ordered yes\nF1  \\\\ \\\\\\\\ \\\\u0041\n"),
    ("line ends of Unicode", telegram(block(1, [0x2028, 0x2029])), "language de ordered yes\nF1  \u2028\u2029\n"),
    ("reserve, unread", telegram(block(1, units("a"), 255), block(2, [], 7), reserve=b"\1\2\3\4\5\6"), "language de ordered yes\nF1  a\nF2  \n"),
    ("octets 1-6 and 9-20, unread", telegram(FIRST, head=b"\xff" * 6, carried=bytes(range(240, 252))), "language de ordered yes\nF1  a\n"),
    # languages
    *((f"the language {octets}", telegram(FIRST, language=octets), f"language {shown} ordered yes\nF1  a\n") for octets, shown in (
        (b"FR", "FR"), (b"AZ", "AZ"), (b"az", "az"), (b"@A", "\\x40\\x41"), (b"A[", "\\x41\\x5B"), (b"`a", "\\x60\\x61"), (b"a{", "\\x61\\x7B"), (b"d ", "\\x64\\x20"), (b"\0\0", "\\x00\\x00"),
        (b"\xff\xfe", "\\xFF\\xFE"), (b"\\x", "\\x5C\\x78"))),
    # 21
    ("nothing", b"", refused(21)), ("29 octets", DOOR[:29], refused(21)), ("29 octets of another code", bytes(29), refused(21)), ("30 octets of another code", bytes(30), refused(29)),
    ("2,111 octets", telegram(*EIGHT, behind=b"\0"), refused(21)), ("100,000 octets", telegram(FIRST, behind=bytes(100000)), refused(21)),
    ("1,024 octets of another code", telegram(FIRST, code=0x8A09, behind=bytes(986)), refused(29)), ("1,025 octets of another code", telegram(FIRST, code=0x8A09, behind=bytes(987)), refused(21)),
    # 29 in octets 7-24
    *((f"the code {code:04X}", telegram(FIRST, code=code), refused(29)) for code in (0, 0x088A, 0x8A09, 0x8B08, 0x8008)),
    *((f"octet 23 is {octet}", telegram(FIRST, ordered=octet), refused(29)) for octet in (2, 255)),
    *((f"{count} blocks", telegram(FIRST, count=count), refused(29)) for count in (0, 9, 255)),
    ("nothing behind octet 30, and no block", telegram(), refused(29)),
    # 28
    ("no first block", telegram(count=1), refused(28)), ("five octets of a block", telegram(FIRST[:5], count=1), refused(28)), ("a block that lacks an octet", telegram(FIRST[:-1], count=1), refused(28)),
    ("no second block", telegram(FIRST, count=2), refused(28)), ("octets after the last", telegram(FIRST, behind=b"\0"), refused(28)),
    ("a block too many", telegram(FIRST, block(2, units("b")), count=1), refused(28)), ("a length of 65,535", telegram(block(1, units("a"), length=65535)), refused(28)),
    ("a length past the end, and a key of 0", telegram(block(0, units("a"), length=9)), refused(28)),
    # 29 in a block
    *((f"the key {key}", telegram(block(key, units("a"))), refused(29)) for key in (0, 9, 255)),
    ("a length two short", telegram(block(1, units("abc"), length=10), block(2, [])), refused(29)), ("a length of 0", telegram(block(1, [], length=0)), refused(29)),
    ("a text length of 1", telegram(block(1, [], length=7, text_length=1), behind=b"\0"), refused(29)),
    ("a text length of 256", telegram(block(1, LONG[:127] + [32])), refused(29)), ("a text length that disagrees", telegram(block(1, units("ab"), text_length=2)), refused(29)),
    # 30, and the first block that is bad
    ("a key twice", telegram(FIRST, block(1, units("b"))), refused(30)), ("a key twice, not side by side", telegram(FIRST, block(8, []), block(1, [])), refused(30)),
    ("a key twice, and a text too long in the same block", telegram(FIRST, block(1, LONG[:127] + [32])), refused(29)),
    ("a key twice before a key of 9", telegram(FIRST, FIRST, block(9, [])), refused(30)), ("a key of 9 before a key twice", telegram(FIRST, block(9, []), FIRST), refused(29)),
    ("a key twice, and octets after the last", telegram(FIRST, FIRST, behind=b"\0"), refused(30)),
]

# ---- text files with what is printed of them

START = b"language de\nordered yes\n"
TEXT = telegram(FIRST)


def line(number, what):
    return f"error: FILE 'file' line {number}: {what}\n"


def one(text, **more):
    return "written in de: 1 text, {} octets\n".format(36 + 2 * len(text)), telegram(block(1, text), **more)


FILES = [
    ("the door", data("door.texts"), "written in de: 4 texts, 470 octets\n", DOOR),
    ("no head", START + b"F1 a\n", *one([97])), ("no end of the last line", START + b"F1 a", *one([97])), ("texts first", b"F1 a\n" + START, *one([97])),
    ("ends as other systems have them", b"language de\r\nordered yes\r\nF1 a\r\n", *one([97])), ("a mark of the byte order", b"\xef\xbb\xbf" + START + b"F1 a\n", *one([97])),
    ("comments, tabs and spaces", b"# a\n\n \t\n\tlanguage \t de # b\n ordered yes#c\n  F1 a\n#F1 b\n", *one([97])),
    ("a text is all that is behind the space", START + b"F1  a # b \n", *one(units(" a # b "))),
    ("the last counts", b"language fr\nordered no\nhead ff ff ff ff ff ff\nhead 00 00 00 00 00 01\n" + START + b"F1 a\n", *one([97], head=n(1, 6))),
    ("octets 1-6 and 9-20", b"head 0a 1B 2c 3D 4e 5F\ncarried 01 02 03 04 05 06 07 08 09 0a 0b 0c\n" + START + b"F1 a\n", *one([97], head=bytes.fromhex("0a1b2c3d4e5f"), carried=bytes(range(1, 13)))),
    ("no character", START + b"F1\n", *one([])), ("no character behind the space", START + b"F1 \n", *one([])),
    ("127 characters", START + b"F1 " + "ü".encode() * 127, *one([0xFC] * 127)), ("escapes", START + b"F1 \\\\\\u0041\\u00e4\\uD83D\\uFFFF\\\\u0041\n", *one([0x5C, 0x41, 0xE4, 0xD83D, 0xFFFF, *units("\\u0041")])),
    ("characters of each length", START + "F1 ~\u007f\u0080\u07ff\u0800\ud7ff\ue000\uffff\n".encode(), *one([0x7E, 0x7F, 0x80, 0x7FF, 0x800, 0xD7FF, 0xE000, 0xFFFF])),
    ("a control and a mark of the byte order in a text", START + b"F1 \0\t\xef\xbb\xbf\rb\n", *one([0, 9, 0xFEFF, 13, 98])),
    ("another language, not ordered", b"language \\x00\\xfF\nordered no\nF8 a\n", "written in \\x00\\xFF: 1 text, 38 octets\n", telegram(block(8, [97]), language=b"\0\xff", ordered=0)),
    ("letters as octets", b"language \\x64\\x65\nordered yes\nF1 a\n", *one([97])),
    ("eight texts", START + b"".join(b"F%d \n" % key for key in range(8, 0, -1)), "written in de: 8 texts, 78 octets\n", telegram(*(block(key, []) for key in range(8, 0, -1)))),
    ("the longest", START + b"".join(b"F%d " % key + "ü".encode() * 127 + b"\n" for key in range(1, 9)), "written in de: 8 texts, 2110 octets\n", telegram(*(block(key, [0xFC] * 127) for key in range(1, 9)))),
    ("65,536 octets", START + b"F1 a\n#" + b"x" * (65536 - len(START) - 6), *one([97])),
    # a line at fault, the first of them
    *((f"the line {bad}", START + b"F1 a\n" + bad + b"\nF1 a\n", line(4, what), None) for what, lines in (
        (NAME, (b"F0 a", b"F9 a", b"F12 a", b"F a", b"f1 a", b"F1a", b"F1# a", b"F1\xc2\xa0a", b"text", b"Head 00", b"language: de", b"\xff", b"heads")),
        (HEAD, (b"head", b"head 00", b"head 00 00 00 00 00", b"head 00 00 00 00 00 00 00", b"head 00 00 00 00 00 0", b"head 00 00 00 00 00 0g", b"head 00 00 00 00 00 000", b"head 000000000000",
                b"head 00 00 00 # 00 00 00", b"head 00 00 00 00 00 -1", b"head 00,00,00,00,00,00", b"head 0: 00 00 00 00 00", b"head 00 /0 00 00 00 00", b"head @0 00 00 00 00 00", b"head 0` 00 00 00 00 00", b"head G0 00 00 00 00 00")),
        (CARRIED, (b"carried", b"carried" + b" 00" * 11, b"carried" + b" 00" * 13, b"carried" + b" 00" * 11 + b" xx", b"carried 00 00 00 00 00 00")),
        (LANGUAGE, (b"language", b"language d", b"language deu", b"language d1", b"language d e", b"language de en", b"language \xc3\xa4", b"language \\x64", b"language \\x64\\x6", b"language \\x64\\x6g", b"language \\X64\\x65",
                    b"language /x64\\x65", b"language \\x64/x65", b"language \\xg4\\x65", b"language \\u0064x", b"language d\\x65", b"language # de")),
        (ORDERED, (b"ordered", b"ordered 1", b"ordered Yes", b"ordered yes no", b"ordered ye", b"ordered # yes", b"ordered# yes")),
        (NO_UTF8, (b"F2 \x80", b"F2 \xbf", b"F2 \xc0\x80", b"F2 \xc1\xbf", b"F2 \xc3", b"F2 \xc3a", b"F2 \xc3\xc3", b"F2 a\xe2\x82", b"F2 \xe2\x82a", b"F2 \xe2a\x82", b"F2 \xe0\x80\x80", b"F2 \xe0\x9f\xbf",
                   b"F2 \xed\xa0\x80", b"F2 \xed\xbf\xbf", b"F2 \xf0\x8f\xbf\xbf", b"F2 \xf0\x9f\x98", b"F2 \xf0\x9f\x98a", b"F2 \xf0\x9fa\x98", b"F2 \xf0a\x9f\x98", b"F2 \xf4\x90\x80\x80", b"F2 \xf5\x80\x80\x80", b"F2 \xf8\x88\x80\x80\x80",
                   b"F2 \xfe", b"F2 \xff", b"F2 " + b"a" * 300 + b"\xff")),
        (ABOVE, ("F2 \U00010000".encode(), "F2 a\U0001F600b".encode(), "F2 \U0010FFFF".encode(), "F2 \U000FFFFF\udfff".encode("utf-8", "surrogatepass"))),
        (ESCAPE, (b"F2 \\", b"F2 \\n", b"F2 \\x41", b"F2 \\U0041", b"F2 \\u", b"F2 \\u004", b"F2 \\u004g", b"F2 \\u00 41", b"F2 \\\\\\", b"F2 \\#", b"F2 \\u+041", b"F2 \\\xc3\xa4")),
    ) for bad in lines),
    ("a fault in the first line", b"a\nb\n", line(1, NAME), None), ("behind a mark of the byte order", b"\xef\xbb\xbfa\n", line(1, NAME), None), ("a mark of the byte order elsewhere", START + b"\xef\xbb\xbfF1 a\n", line(3, NAME), None),
    ("a fault behind eight texts", START + b"F1 \n" * 20 + b"F1 \xff\n", line(23, NO_UTF8), None), ("no end of the line at fault", b"\n\n\nF1 \\", line(4, ESCAPE), None),
    ("a fault behind empty lines", b"\r\n\r\nhead\r\n", line(3, HEAD), None),
    # what is missing
    ("nothing", b"", "error: FILE 'file': no line `language`\n", None), ("no language", b"ordered yes\nF1 a\n", "error: FILE 'file': no line `language`\n", None),
    ("nothing about the order", b"language de\nF1 a\n", "error: FILE 'file': no line `ordered`\n", None), ("no text", START, refused(29, ": no text"), None),
    # what the library refuses
    ("nine texts", START + b"".join(b"F%d \n" % key for key in (1, 2, 3, 4, 5, 6, 7, 8, 1)), refused(29, ": more than 8 texts"), None), ("many texts", START + b"F1 a\n" * 9000, refused(29, ": more than 8 texts"), None),
    ("128 characters", START + b"F1 b\nF3 " + b"a" * 128, refused(29, ": F3 has more than 127 characters"), None), ("129 characters", START + b"F1 b\nF3 " + b"a" * 129, refused(29, ": F3 has more than 127 characters"), None),
    ("60,000 characters", START + b"F1 " + b"a" * 60000, refused(29, ": F1 has more than 127 characters"), None), ("128 escapes", START + b"F1 " + b"\\u0000" * 128, refused(29, ": F1 has more than 127 characters"), None),
    ("a key twice", START + b"F1 a\nF8 b\nF8 c\n", refused(30, ": F8"), None), ("two keys twice", START + b"F2 \nF3 \nF3 \nF2 \n", refused(30, ": F3"), None),
    ("a key twice before a long text", START + b"F2 \nF2 \nF3 " + b"a" * 128, refused(30, ": F2"), None), ("a long text before a key twice", START + b"F2 \nF3 " + b"a" * 128 + b"\nF2 \n", refused(29, ": F3 has more than 127 characters"), None),
    ("a key twice with a long text", START + b"F2 \nF2 " + b"a" * 128, refused(29, ": F2 has more than 127 characters"), None),
    ("nine texts, one too long", START + b"".join(b"F%d \n" % key for key in range(1, 9)) + b"F1 " + b"a" * 200, refused(29, ": more than 8 texts"), None),
    ("65,537 octets", START + b"F1 a\n#" + b"x" * (65537 - len(START) - 6), "error: FILE 'file': more than 65536 octets\n", None),
]


# ---- telegrams and text files made by a seed

def all_characters():
    """Every unit, in telegrams of eight texts of 127."""
    texts = [list(range(i, min(i + 127, 65536))) for i in range(0, 65536, 127)]
    for i in range(0, len(texts), 8):
        yield telegram(*(block(key, text) for key, text in enumerate(texts[i:i + 8], 1)))


def some_text(chance):
    kinds = [lambda: chance.randrange(0x20, 0x7F), lambda: chance.randrange(0x100), lambda: chance.randrange(65536), lambda: chance.choice((0x5C, 0x75, 0x30, 0x23, 0x20, 0x0A, 0x46, 0xD800, 0xFFFF))]
    kind = chance.choice([*kinds, lambda: chance.choice(kinds)()])
    return [kind() for _ in range(chance.choice((0, 1, 2, 20, 60, 126, 127)))]


def some_telegram(chance):
    keys = chance.sample(range(1, 9), chance.randrange(1, 9))
    language = chance.choice((b"de", b"fr", chance.randbytes(2)))
    return telegram(*(block(key, some_text(chance), chance.choice((0, chance.randrange(256)))) for key in keys), head=chance.randbytes(6), carried=chance.randbytes(12), language=language,
                    ordered=chance.randrange(2), reserve=chance.choice((bytes(6), chance.randbytes(6))))


def near_miss(octets, chance):
    """The telegram with an octet changed, left out or added, mostly where a rule looks at it."""
    at = chance.choice((6, 7, 22, 23, 30, 31, 32, 34, 35, chance.randrange(len(octets))))
    return chance.choice((
        octets[:at] + bytes([octets[at] ^ 1 << chance.randrange(8)]) + octets[at + 1:] if at < len(octets) else octets, octets[:at] + octets[at + 1:], octets[:at] + b"\0" + octets[at:],
        octets[:chance.randrange(len(octets))], octets + chance.randbytes(chance.choice((1, 2, 6, 8)))))


def some_file(chance):
    """A file as it is printed, with its lines mixed and some of them spoilt."""
    lines = file(Read(some_telegram(chance))).encode().split(b"\n")
    if chance.random() < 0.5:
        chance.shuffle(lines)
    for _ in range(chance.choice((0, 0, 1, 1, 2))):
        at = chance.randrange(len(lines))
        part = chance.choice((b"\\", b"#", b" ", b"\r", b"\xff", b"\xc3", b"F", b"0", b"\\u12", b"yes", chance.randbytes(1), "\U0001F600".encode()))
        place = chance.randrange(len(lines[at]) + 1)
        lines[at] = lines[at][:place] + part.replace(b"\n", b"") + lines[at][place + chance.randrange(3):]
    return b"\n".join(lines)


# ---- the runs

class Folder:
    """A folder of files, in which the programs run, and what is wrong with what they do there."""

    def __init__(self):
        self.path, self.count, self.said = tempfile.mkdtemp(), 0, []

    def at(self, name):
        return os.path.join(self.path, name)

    def write(self, name, octets):
        with open(self.at(name), "wb") as f:
            f.write(octets)

    def held(self):
        out = {}
        for name in os.listdir(self.path):
            if os.path.isfile(self.at(name)):
                with open(self.at(name), "rb") as f:
                    out[name] = f.read()
        return out

    def expect(self, what, words, text, before=None, **changes):
        """The run prints the text, on the stream and with the status that its first word asks for, and changes these files, None for one that is not there."""
        then = {**self.held(), **changes}
        done = subprocess.run([os.path.join(ROOT, "run"), *words], cwd=self.path, capture_output=True, timeout=60, preexec_fn=before)
        now, trouble = self.held(), text.startswith(("refused ", "error: "))
        status = {"refused": 1, "error:": 2}.get(text.split(" ")[0], 0)
        expected = (status, b"" if trouble else text.encode("utf-8", "surrogatepass"), text.encode() if trouble else b"")
        self.count += 1
        if (done.returncode, done.stdout, done.stderr) != expected:
            self.said.append(f"{what}, {' '.join(words)[:100]}: expected {expected}, got {(done.returncode, done.stdout, done.stderr)}"[:2000])
        if now != {name: octets for name, octets in then.items() if octets is not None}:
            self.said.append(f"{what}, {' '.join(words)[:100]}: files changed: " + ", ".join(sorted(name for name in {*now, *then} if now.get(name) != then.get(name))))

    def reads(self, what, octets, expected=None):
        """A telegram is shown as worked out here; as a file it gives the same telegram with reserve 0."""
        self.write("telegram", octets)
        try:
            t = Read(octets)
        except Refused as no:
            for words in (["telegram"], ["telegram", "file"]):
                self.expect(what, ["remedies", *words], refused(*no.args))
            if expected not in (None, refused(*no.args)):
                self.said.append(f"{what}: worked out otherwise than the table has it: {no.args}")
            return
        if expected not in (None, page(t)):
            self.said.append(f"{what}: worked out otherwise than the table has it: {page(t)!r}")
        self.expect(what, ["remedies", "telegram"], page(t))
        self.expect(what, ["remedies", "telegram", "file"], file(t))
        self.writes(what + ", written again", file(t).encode(), None, t.again())

    def writes(self, what, octets, expected=None, out=None):
        """A text file makes the telegram that is worked out here, or changes nothing."""
        self.write("file", octets)
        printed, made = written(octets) if len(octets) <= 65536 else (expected, out)
        if expected not in (None, printed) or (out or expected) and out != made:
            self.said.append(f"{what}: worked out otherwise than the table has it: {printed!r}")
        if os.path.exists(self.at("out")):
            os.remove(self.at("out"))
        self.expect(what, ["write_remedies", "file", "out"], printed, **({"out": made} if made else {}))


def one_text():
    return "written in de: 1 text, 38 octets\n"


NO_FILE, TWICE, LEFT = "no such file or folder", "is given twice", "exists; remove it if no program is at work"
NO_REMEDIES = "exists and is no telegram that `remedies` reads"


def small_files():
    """A file may have 200 octets, which a lock needs less of, and a write past that fails."""
    signal.signal(signal.SIGXFSZ, signal.SIG_IGN)
    resource.setrlimit(resource.RLIMIT_FSIZE, (200, 200))


def on_files(f):
    """Which files are read, which are written over, and which stay."""
    f.write("file", START + b"F1 a\n")
    f.write("wrong", START + b"F1 \\\n")
    f.write("no-text", START)
    f.write("telegram", DOOR)
    f.write("off", OFF)
    f.write("r1", data("scene/1-R1.telegram"))
    f.write("list", data("coach.list"))
    f.write("empty", b"")
    f.write("kept", DOOR)
    f.write("kept.new", b"left\n")
    os.mkdir(f.at("folder"))
    os.symlink("telegram", f.at("link"))
    os.symlink("made", f.at("to-nothing"))
    for name, what in (("none", NO_FILE), ("none/x", NO_FILE), ("", NO_FILE), ("folder", "is a folder"), ("r1/x", "not in a folder")):
        f.expect("no telegram to read", ["remedies", name], f"error: TELEGRAM '{name}': {what}\n")
        f.expect("no telegram to read", ["remedies", name, "file"], f"error: TELEGRAM '{name}': {what}\n")
        f.expect("no file to read", ["write_remedies", name, "out"], f"error: FILE '{name}': {what}\n")
    # over a telegram of the kind, over a link to one, and over nothing else
    f.expect("a new file", ["write_remedies", "file", "out"], one_text(), out=TEXT)
    f.expect("over the same", ["write_remedies", "file", "out"], one_text())
    f.expect("over another", ["write_remedies", "file", "telegram"], one_text(), telegram=TEXT, link=TEXT)
    f.write("telegram", DOOR)
    f.expect("over one by a link", ["write_remedies", "file", "link"], one_text(), telegram=TEXT, link=TEXT)
    f.expect("to where a link leads", ["write_remedies", "file", "to-nothing"], one_text(), **{"made": TEXT, "to-nothing": TEXT})
    for name in ("off", "r1", "list", "empty", "wrong", "no-text"):
        f.expect("over what is no such telegram", ["write_remedies", "file", name], f"error: TELEGRAM '{name}': {NO_REMEDIES}\n")
    f.expect("over the file itself", ["write_remedies", "file", "file"], f"error: TELEGRAM 'file': {TWICE}\n")
    f.expect("over a telegram that is given as the file", ["write_remedies", "telegram", "telegram"], f"error: FILE 'telegram' line 1: {NAME}\n")
    for name, what in (("folder", "is a folder"), ("", NO_FILE), ("r1/x", "not in a folder")):
        f.expect("no file to write", ["write_remedies", "file", name], f"error: TELEGRAM '{name}': {what}\n")
    f.expect("no folder to write to", ["write_remedies", "file", "none/x"], f"error: TELEGRAM 'none/x.lock': {NO_FILE}\n")
    f.expect("a file that another left", ["write_remedies", "file", "kept"], f"error: TELEGRAM 'kept.new': {LEFT}\n")
    # nothing is harmed where nothing is written
    f.write("telegram", DOOR)
    f.expect("a line at fault", ["write_remedies", "wrong", "telegram"], f"error: FILE 'wrong' line 3: {ESCAPE}\n")
    f.expect("a telegram that is refused", ["write_remedies", "no-text", "telegram"], refused(29, ": no text"))
    f.write("long", data("door.texts"))
    f.expect("no room", ["write_remedies", "long", "telegram"], "error: TELEGRAM 'telegram.new': cannot be written\n", small_files)
    f.expect("no room for a new one", ["write_remedies", "long", "new"], "error: TELEGRAM 'new.new': cannot be written\n", small_files)
    os.chmod(f.at("telegram"), 0o444)
    f.expect("read-only", ["write_remedies", "file", "telegram"], "error: TELEGRAM 'telegram': is read-only\n")


def on_words(f, write):
    """What is said of words that are too few, too many or others, and what the programs say of themselves."""
    f.write("telegram", DOOR)
    for program, words in (("remedies", ([], ["telegram", "files"], ["telegram", "file", "file"], ["telegram", "file", "x"], ["file", "telegram"], ["help", "x"])),
                           ("write_remedies", ([], ["telegram"], ["telegram", "x", "y"], ["help", "x", "y"]))):
        for given in words:
            f.expect("usage", [program, *given], f"error: usage: {USAGE[program]}\n")
        path = os.path.join(EXPECTED, f"{program}-help.txt")
        if write:
            with open(path, "wb") as out:
                out.write(subprocess.run([os.path.join(ROOT, "run"), program, "help"], stdout=subprocess.PIPE, check=True).stdout)
        with open(path, encoding="utf-8") as text:
            f.expect("help", [program, "help"], text.read())
    f.expect("a telegram called file", ["remedies", "file"], f"error: TELEGRAM 'file': {NO_FILE}\n")


def in_folder(work, *more):
    """The runs that were made in a folder of their own, and what is wrong with them."""
    f = Folder()
    try:
        work(f, *more)
    finally:
        shutil.rmtree(f.path)
    return f.count, f.said


def on_tables(f):
    for what, octets, expected in TELEGRAMS:
        f.reads(what, octets, expected)
    for what, octets, expected, out in FILES:
        f.writes(what, octets, expected, out)


def on_characters(f):
    for k, octets in enumerate(all_characters()):
        f.reads(f"characters from {k * 8 * 127:04X} on", octets)


def on_seeded(f):
    chance = random.Random(11)
    for k in range(SEEDED):
        octets = some_telegram(chance)
        f.reads(f"telegram {k}", octets)
        f.reads(f"near miss {k}", near_miss(octets, chance))
        f.writes(f"file {k}", some_file(chance))


def main():
    results = [in_folder(on_words, "--write" in sys.argv), *(in_folder(work) for work in (on_files, on_tables, on_characters, on_seeded))]
    said = [what for _, whats in results for what in whats]
    print("\n".join(said + [f"remedies: {sum(count for count, _ in results)} runs, {len(said)} wrong"]))
    return bool(said)


if __name__ == "__main__":
    sys.exit(main())
