#!/usr/bin/env python3
"""`record_show` beside format.py, on random messages, truncations and changes of one byte.

    show.py RECORD_SHOW [COUNT [SEED]]       COUNT random messages, 10,000 if not given
"""
import random
import subprocess
import sys

import format as f
import generate as g


def expected(data):
    schema = f.described(data)
    if schema is None:
        return 3, "", "not a record\n"
    word, at = f.outcome(schema, data)
    if word == "ok":
        return 0, f.shown(schema, f.values(schema, data[len(f.head(schema)):])), ""
    return 3, "", {"truncated": "truncated at ", "padding": "padding at ", "trailing": "trailing byte at "}[word] + f"{at}\n"


def compare(program, given):
    done = subprocess.run([program], input=given, stdout=subprocess.PIPE, stderr=subprocess.PIPE)
    got = done.returncode, done.stdout.decode(), done.stderr.decode()
    if got != expected(given):
        sys.exit(f"{given.hex()}: got {got!r}, expected {expected(given)!r}")


def main():
    program = sys.argv[1]
    count = int(sys.argv[2]) if len(sys.argv) > 2 else 10_000
    rng = random.Random(int(sys.argv[3]) if len(sys.argv) > 3 else 1)
    tried = {"messages": 0, "cut": 0, "one byte changed": 0, "longer": 0}
    for number in range(count):
        schema = g.random_schema(rng, rng.choice([1, 1, 2, 3, 8]))
        data = f.message(schema, g.random_value(rng, schema))
        compare(program, data)
        tried["messages"] += 1
        if number % 100:
            continue
        compare(program, data + b"\0")
        tried["longer"] += 1
        places = range(len(data)) if len(data) <= 400 else rng.sample(range(len(data)), 400)
        for at in places:
            compare(program, data[:at])
            tried["cut"] += 1
            for byte in (data[at] ^ 1, data[at] ^ 0x80, 0):
                compare(program, data[:at] + bytes([byte]) + data[at + 1:])
                tried["one byte changed"] += 1
    words = subprocess.run([program, "x"], input=b"", stdout=subprocess.PIPE, stderr=subprocess.PIPE)
    assert (words.returncode, words.stdout, words.stderr) == (2, b"", b"usage: record_show\n"), words
    long = subprocess.run([program], input=bytes(16777217), stdout=subprocess.PIPE, stderr=subprocess.PIPE)
    assert (long.returncode, long.stdout, long.stderr) == (4, b"", b"input longer than 16777216 bytes\n"), long
    print(", ".join(f"{name}: {number}" for name, number in tried.items()))


main()
