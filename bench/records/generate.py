"""Random schemas and values."""
NAMES = [b"", b"a", b"b", b"count", "é".encode(), b"x" * 255, "語".encode() * 3, b'"', b"\n", b"\\", b"\0\t\r\x01\x1f\x7f", "\u0080\u009f\u00a0".encode(), "\U0010ffff".encode()]


def random_schema(rng, depth):
    fields = []
    for _ in range(rng.choice([1, 1, 2, 2, 3, 4, 5, 8])):
        if depth > 1 and rng.random() < 0.3:
            kind = random_schema(rng, depth - 1)
        else:
            kind = rng.choice([1, 2, 4, 8])
        fields.append((rng.choice(NAMES), kind))
    return rng.choice(NAMES), rng.choice([0, 1, 100, rng.getrandbits(64), 2 ** 64 - 1]), fields


def random_value(rng, schema):
    out = []
    for _, kind in schema[2]:
        if isinstance(kind, int):
            out.append(rng.choice([0, 1, 256 ** kind - 1, rng.getrandbits(8 * kind)]))
        else:
            out.append(random_value(rng, kind))
    return out


def changed_schema(rng, schema):
    """The schema with one field of it, at any depth, changed, left out or put twice."""
    name, ident, fields = schema
    fields = list(fields)
    at = rng.randrange(len(fields))
    field, kind = fields[at]
    if not isinstance(kind, int) and rng.random() < 0.7:
        fields[at] = field, changed_schema(rng, kind)
    elif rng.random() < 0.6:
        fields[at] = field, rng.choice([1, 2, 4, 8])
    elif len(fields) > 1 and rng.random() < 0.5:
        del fields[at]
    else:
        fields.insert(at, (field, kind))
    return name, ident, fields
