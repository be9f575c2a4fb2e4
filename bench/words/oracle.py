#!/usr/bin/env python3
"""An oracle for packed texts, written from their definition and not from the code.

oracle.py          writes the tests `packed_random_texts` and `random_tables` of crates/stabby_symbol_uses, the same each time
oracle.py --check  writes nothing; ends with 1 where the file differs
oracle.py index F  prints what `word_index spans W` is to print for the file F
oracle.py words F  prints what `word_index words W` is to print for it
"""
import random
import re
import sys
from pathlib import Path

PLACE = Path(__file__).resolve().parents[2] / "crates/stabby_symbol_uses/src/random_tests.rt"


def pack(text):
    """The length in bytes, and the bytes, eight a word, the first lowest, with zeros after the last."""
    data = text.encode()
    padded = data + bytes(-len(data) % 8)
    return [len(data)] + [int.from_bytes(padded[i : i + 8], "little") for i in range(0, len(padded), 8)]


def fault(table):
    """Why a table is no packed text, as Rust spells it, or None."""
    if not table:
        return "NoLength"
    stated, rest = table[0], table[1:]
    if len(rest) != (stated + 7) // 8:
        return f"Length {{ stated: {stated}, words: {len(rest)} }}"
    data = b"".join(word.to_bytes(8, "little") for word in rest)
    if any(data[stated:]):
        return "Padding"
    try:
        data[:stated].decode("utf-8", "strict")
    except UnicodeDecodeError:
        return "Utf8"
    return None


def texts(source, count):
    """Random texts of characters of one to four bytes."""
    kinds = [range(0x61, 0x7B), range(0xE0, 0xF7), range(0x4E00, 0x4E80), range(0x1F400, 0x1F43F)]
    for _ in range(count):
        yield "".join(chr(source.choice(source.choice(kinds))) for _ in range(source.randrange(1, 9)))


def tables(source, count):
    """Random tables: packed texts with one thing changed, and tables of any words."""
    made = 0
    while made < count:
        table = pack(next(texts(source, 1)))
        change = source.randrange(5)
        if change == 0:
            table[0] = source.randrange(1 << source.choice([4, 6, 63]))
        elif change == 1 and len(table) > 1:
            place = source.randrange(1, len(table))
            table[place] ^= 1 << source.randrange(64)
        elif change == 2:
            table.append(source.randrange(1 << 64))
        elif change == 3:
            table.pop()
        else:
            table = [source.randrange(1, 9), source.randrange(1 << 64)]
        if fault(table):
            made += 1
            yield table


def source_of_tests():
    source = random.Random(20261201)
    lines = [
        "//! Random texts and tables, with what an oracle in Python says of them: `bench/words/oracle.py` writes this file.",
        "use crate::fixtures::{comes_back, refused};",
        "use stabby_symbol::UnpackFault;",
        "",
        "#[test]",
        "fn packed_random_texts(rt: HostRuntime) {",
        "    let alloc = rt.alloc();",
    ]
    for text in texts(source, 8):
        words = ", ".join(str(word) for word in pack(text))
        lines.append(f'    assert!(rt; comes_back(alloc, "{text}", &[{words}]));')
    lines.append("}")
    cases = list(tables(source, 16))
    for part in range(2):
        name = ["random_tables", "more_random_tables"][part]
        lines += ["", "#[test]", f"fn {name}(rt: HostRuntime) {{", "    let alloc = rt.alloc();"]
        for table in cases[8 * part : 8 * part + 8]:
            words = ", ".join(str(word) for word in table)
            lines.append(f"    assert!(rt; refused(alloc, &[{words}]) == Some(UnpackFault::{fault(table)}));")
        lines.append("}")
    return "\n".join(lines) + "\n"


def index(path, spans):
    data = Path(path).read_bytes()
    found = {}
    for match in re.finditer(rb"[A-Za-z0-9_]+", data):
        found.setdefault(match.group(), []).append(match.span())
    out = sys.stdout.buffer
    for word in sorted(found):
        places = found[word]
        told = b" ".join(b"%d-%d" % place for place in places) if spans else b"%d" % len(places)
        out.write(word + b" " + told + b"\n")


def main():
    if sys.argv[1:2] == ["index"] or sys.argv[1:2] == ["words"]:
        index(sys.argv[2], sys.argv[1] == "index")
        return 0
    # The layout is rt fmt's, so what is compared leaves out white space.
    text = source_of_tests()
    if sys.argv[1:] == ["--check"]:
        same = "".join(PLACE.read_text().split()).replace(",)", ")") == "".join(text.split())
        print("the tests are the oracle's" if same else f"{PLACE} differs from what the oracle writes")
        return 0 if same else 1
    PLACE.write_text(text)
    return 0


sys.exit(main())
