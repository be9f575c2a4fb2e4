#!/usr/bin/env python3
"""The message that goes deepest and widest: 8 records in one another, each with 255 fields, of which the last is the next."""
import sys

import format as f


def deep(depth):
    last = (b"r", deep(depth - 1)) if depth > 1 else (b"n", 8)
    return b"s", depth, [(b"n", 8)] * 254 + [last]


def value(depth):
    return [1] * 254 + [value(depth - 1) if depth > 1 else 1]


sys.stdout.buffer.write(f.message(deep(8), value(8)))
