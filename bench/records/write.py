#!/usr/bin/env python3
"""`record_bench` beside format.py: records read and written again, each under its own schema and under others.

    write.py RECORD_BENCH [COUNT [SEED]]     COUNT random messages, 100,000 if not given
"""
import random
import subprocess
import sys

import format as f
import generate as g


class Cases:
    """Orders with the answers that format.py gives, tried a thousand at a time."""

    def __init__(self, program):
        self.program, self.orders, self.answers, self.tried = program, [], [], {}

    def add(self, what, name, front, data, answer):
        self.orders.append(f"{name} {front.hex()} {data.hex()}\n")
        self.answers.append(answer)
        self.tried[what] = self.tried.get(what, 0) + 1
        if len(self.orders) == 1000:
            self.run()

    def run(self):
        done = subprocess.run([self.program], input="".join(self.orders), capture_output=True, text=True)
        got = done.stdout.splitlines()
        if done.returncode or len(got) != len(self.orders):
            sys.exit(f"status {done.returncode}, {len(got)} answers to {len(self.orders)} orders: {done.stderr}")
        for order, want, answer in zip(self.orders, self.answers, got):
            if want != answer:
                sys.exit(f"{order}expected {want}\ngot {answer}")
        self.orders, self.answers = [], []


def read_answer(outcome, data):
    word, at = outcome(data)
    return data.hex() if word == "ok" else f"{word} {at}"


def put_answer(schema, value):
    at = f.misfit(schema, value)
    return f.message(schema, value).hex() if at is None else f"shape {at}"


def each_change(cases, rng, front, data, outcome):
    """The message cut at each length, with a byte more, and with each byte changed three times."""
    more = data + bytes([rng.randrange(256)])
    cases.add("longer", "read", front, more, read_answer(outcome, more))
    for at in range(len(data)):
        cases.add("cut", "read", front, data[:at], read_answer(outcome, data[:at]))
        for byte in set(range(256)) - {data[at]}:
            other = data[:at] + bytes([byte]) + data[at + 1:]
            cases.add("one byte changed", "read", front, other, read_answer(outcome, other))


def main():
    program = sys.argv[1]
    count = int(sys.argv[2]) if len(sys.argv) > 2 else 100_000
    seed = int(sys.argv[3]) if len(sys.argv) > 3 else 1
    rng, cases = random.Random(seed), Cases(program)
    print(f"seed {seed}")
    for number in range(count):
        schema = g.random_schema(rng, rng.choice([1, 1, 2, 3, 8]))
        value = g.random_value(rng, schema)
        front, data = f.head(schema), f.message(schema, value)
        cases.add("messages", "read", front, data, data.hex())
        if number % 10 == 0:
            other = g.changed_schema(rng, schema)
            cases.add("under another schema", "put", f.head(other), data, put_answer(other, value))
            cases.add("read under another schema", "read", f.head(other), data, read_answer(f.reader(other), data))
        if number % 200 == 0 and len(data) <= 600:
            each_change(cases, rng, front, data, f.reader(schema))
    cases.run()
    print(", ".join(f"{name}: {number}" for name, number in cases.tried.items()))


main()
