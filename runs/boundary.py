#!/usr/bin/env python3
"""Holds what is written once a language at the boundary to each other: the C header, the Rust wrappers, and the proved code.

Refusals and reasons have the same numbers, names and words in the header's lists and in the wrappers' enums; the refusals' names are the
cases of the enum of `crates/refusals`, and the words are those of docs/PROMISES.md. The calls of the header and of `raw.rs` are those that
`crates/dustferrule` exports, with the same parameters and the same fields in what they return."""
import os
import re
import sys

ROOT = os.path.dirname(os.path.dirname(os.path.abspath(__file__)))
HEADER, RUST, RAW = "include/dustferrule.h", "rust/dustferrule/src/numbers.rs", "rust/dustferrule/src/raw.rs"
PROVED, REFUSALS, PAGE = "crates/dustferrule/src/lib.rt", "crates/refusals/src/lib.rt", "docs/PROMISES.md"
WIDTHS = {"uint8_t": "u8", "uint16_t": "u16", "uint32_t": "u32", "uint64_t": "u64", "size_t": "usize", "float": "f32"}


def read(path):
    with open(os.path.join(ROOT, path), encoding="utf-8") as f:
        return f.read()


# ---- refusals and reasons: {number: (name, words)}, names as LIST_ENDS


def of_header(list_name):
    text = re.search(rf"#define {list_name}\(X\)(.*?)\n\n", read(HEADER), re.S)[1]
    return {int(n): (name, words) for name, n, words in re.findall(r'X\((\w+), (\d+), "([^"]*)"\)', text)}


def upper(name):
    return re.sub(r"(?<!^)(?=[A-Z])", "_", name).upper()


def of_rust(enum):
    text = re.search(rf"^    {enum} \{{\n(.*?)^    \}}", read(RUST), re.S | re.M)[1]
    found = re.findall(r'(\w+) = (\d+), "([^"]*)";', text)
    return {int(n): (upper(name), words) for name, n, words in found}


def constants():
    found = re.findall(r"Refusal::(\w+)(?:\(_\))? => (\d+)", read(REFUSALS))
    return {int(n): upper(name) for name, n in found}


def numbered():
    """What is amiss with refusals and reasons, and how many there are."""
    bad, page = [], read(PAGE)
    refusals, reasons = of_header("DF_REFUSALS"), of_header("DF_REASONS")
    for what, header, rust in [("refusal", refusals, of_rust("Refusal")), ("reason", reasons, of_rust("Reason"))]:
        for n in sorted(set(header) | set(rust)):
            if header.get(n) != rust.get(n):
                bad.append(f"{what} {n}: header {header.get(n)}, wrappers {rust.get(n)}")
    names = constants()
    for n in sorted(set(refusals) | set(names)):
        if refusals.get(n, ("",))[0] != names.get(n):
            bad.append(f"refusal {n}: header {refusals.get(n)}, crates/refusals {names.get(n)}")
    bad += [f"refusal {n}: not so on the page: {words}" for n, (_, words) in refusals.items() if f"| {n} | {words} |" not in page]
    bad += [f"reason {n}: not so on the page: {words}" for n, (_, words) in reasons.items() if not re.search(rf"\b{n} {re.escape(words)}[ ;.]", page)]
    return bad, len(refusals), len(reasons)


# ---- calls: {name: (parameters, fields of what is returned)}, in Rust's words; a slice is a pointer and a length, an array a pointer to it


def plain(name):
    """The paper's type is `kind` where `type` is a word of the language."""
    return "kind" if name == "type" else name


def of_c():
    text = re.sub(r"/\*.*?\*/|#define (?:[^\n]*\\\n)*[^\n]*|static inline.*?\n\}", "", read(HEADER), flags=re.S)
    structs = {}
    for body, name in re.findall(r"typedef struct \{(.*?)\} (\w+);", text, re.S):
        members = re.findall(r"(\w+) ([\w, ]+);", body)
        structs[name] = [(plain(field), WIDTHS[width]) for width, fields in members for field in fields.split(", ")]
    calls = {}
    for returned, name, given in re.findall(r"^(\w+) (df_\w+)\((.*?)\);", text, re.S | re.M):
        words = [re.fullmatch(r"(const )?(\w+) (\*?)(\w+)(?:\[(\d+)\])?", word.strip()) for word in given.split(",")]
        calls[name] = [(plain(w[4]), given_in_c(*w.group(1, 2, 3, 5))) for w in words], structs.get(returned, WIDTHS.get(returned))
    return calls


def given_in_c(const, width, star, count):
    """A parameter's type."""
    of = f"[{WIDTHS[width]}; {count}]" if count else WIDTHS[width]
    return ("*const " if const else "*mut ") + of if star or count else of


def of_raw():
    text = read(RAW)
    structs = {name: re.findall(r"pub (\w+): (\w+)", body) for name, body in re.findall(r"pub struct (\w+) \{(.*?)\n\}", text, re.S)}
    found = re.findall(r"pub fn (df_\w+)\((.*?)\) -> (\w+);", text, re.S)
    return {name: (re.findall(r"(\w+): ([\w*;\[\] ]+)", given), structs.get(returned, returned)) for name, given, returned in found}


def of_proved():
    text = read(PROVED)
    structs = {name: re.findall(r"pub (\w+): (\w+)", body) for name, body in re.findall(r"#\[repr\(C\)\]\n#\[derive\([\w, ]*\)\]\npub struct (\w+) \{(.*?)\n\}", text, re.S)}
    calls = {}
    for name, given, returned in re.findall(r'#\[unsafe\(no_mangle\)\]\npub extern "C" fn (df_\w+)\((.*?)\) -> (\w+)', text, re.S):
        parameters = [one for word, of in re.findall(r"(\w+): ([^,]+)", given) for one in given_in_proved(word, of.strip())]
        calls[name] = parameters, structs.get(returned, returned)
    return calls


def given_in_proved(word, of):
    """A parameter, and behind a slice its length."""
    lent = re.fullmatch(r"&(mut )?(?:\[(\w+)\]|(\[\w+; \d+\]))", of)
    if lent is None:
        return [(word, of)]
    to = "*mut " if lent[1] else "*const "
    return [(word, to + lent[3])] if lent[3] else [(word, to + lent[2]), (word + "_len", "usize")]


def called():
    header, raw, proved = of_c(), of_raw(), of_proved()
    bad = []
    for name in sorted(set(header) | set(raw) | set(proved)):
        for where, calls in [("the header", header), ("raw.rs", raw)]:
            if calls.get(name) != proved.get(name):
                bad.append(f"{name}: {where} has {calls.get(name)}, crates/dustferrule {proved.get(name)}")
    return bad, len(proved)


def main():
    (bad, refusals, reasons), (more, calls) = numbered(), called()
    bad += more
    print("\n".join(bad + [f"boundary: {refusals} refusals, {reasons} reasons, {calls} calls; {len(bad)} things amiss"]))
    return bool(bad)


if __name__ == "__main__":
    sys.exit(main())
