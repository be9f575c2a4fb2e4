"""The format of stable records, written from docs/RECORD_FORMAT.md alone: schemas and values as bytes, and back.

A schema is (name, id, fields) with bytes for a name; a field is (name, kind); a kind is 1, 2, 4 or 8, or a schema.
A value is a list with a number for each number and a list for each record.
"""

CODES = {1: 1, 2: 2, 4: 3, 8: 4}


def spelled_name(name):
    return bytes([len(name)]) + name


def spelling(schema):
    name, ident, fields = schema
    out = spelled_name(name) + ident.to_bytes(8, "little") + bytes([len(fields)])
    for field, kind in fields:
        out += spelled_name(field)
        out += bytes([CODES[kind]]) if isinstance(kind, int) else b"\x05" + spelling(kind)
    return out


def head(schema):
    return b"SR1\n" + spelling(schema)


def alignment(kind):
    if isinstance(kind, int):
        return kind
    return max(alignment(k) for _, k in kind[2])


def up(at, align):
    return -(-at // align) * align


def placed(schema):
    """The offset of each field, and where the last one ends."""
    at, offsets = 0, []
    for _, kind in schema[2]:
        at = up(at, alignment(kind))
        offsets.append(at)
        at += size(kind)
    return offsets, at


def size(kind):
    if isinstance(kind, int):
        return kind
    return up(placed(kind)[1], alignment(kind))


def body(schema, value):
    out = bytearray(size(schema))
    for (_, kind), offset, v in zip(schema[2], placed(schema)[0], value):
        own = v.to_bytes(kind, "little") if isinstance(kind, int) else body(kind, v)
        out[offset:offset + len(own)] = own
    return bytes(out)


def is_padding(schema):
    """For each byte of a body, whether it is padding."""
    mask = bytearray(b"\x01" * size(schema))
    for (_, kind), offset in zip(schema[2], placed(schema)[0]):
        own = b"\x00" * kind if isinstance(kind, int) else is_padding(kind)
        mask[offset:offset + len(own)] = own
    return bytes(mask)


def message(schema, value):
    return head(schema) + body(schema, value)


def reader(schema):
    """What a reader under the schema answers, as a function of the bytes."""
    front, mask = head(schema), is_padding(schema)
    whole = len(front) + len(mask)

    def outcome(data):
        for at, (want, got) in enumerate(zip(front, data)):
            if want != got:
                return "differs", at
        if len(data) < whole:
            return "truncated", len(data)
        for at, pad in enumerate(mask):
            if pad and data[len(front) + at]:
                return "padding", len(front) + at
        if len(data) > whole:
            return "trailing", whole
        return "ok", len(data)

    return outcome


def outcome(schema, data):
    return reader(schema)(data)


def places(kind):
    return 1 if isinstance(kind, int) else 1 + sum(places(k) for _, k in kind[2])


def misfit(kind, value, at=0):
    """The first place, in preorder, whose value doesn't fit; the whole is place 0. None where the value fits."""
    if isinstance(kind, int):
        return None if isinstance(value, int) and value < 256 ** kind else at
    if isinstance(value, int) or len(value) != len(kind[2]):
        return at
    at += 1
    for (_, k), v in zip(kind[2], value):
        found = misfit(k, v, at)
        if found is not None:
            return found
        at += places(k)
    return None


def described(data):
    """The schema whose head begins the bytes, or None."""
    if data[:4] != b"SR1\n":
        return None
    try:
        schema, _ = parsed(data, 4, 8)
    except (ValueError, IndexError):
        return None
    return schema if leaves(schema) <= 65535 else None


def leaves(kind):
    return 1 if isinstance(kind, int) else sum(leaves(k) for _, k in kind[2])


def taken(data, at, count):
    if at + count > len(data):
        raise ValueError("cut")
    return data[at:at + count], at + count


def taken_name(data, at):
    (count,), at = taken(data, at, 1)
    name, at = taken(data, at, count)
    name.decode("utf-8")
    return name, at


def parsed(data, at, depth):
    if depth == 0:
        raise ValueError("too deep")
    name, at = taken_name(data, at)
    ident, at = taken(data, at, 8)
    (count,), at = taken(data, at, 1)
    if count == 0:
        raise ValueError("no fields")
    fields = []
    for _ in range(count):
        field, at = taken_name(data, at)
        (code,), at = taken(data, at, 1)
        if code == 5:
            kind, at = parsed(data, at, depth - 1)
        elif 1 <= code <= 4:
            kind = 1 << (code - 1)
        else:
            raise ValueError("no kind")
        fields.append((field, kind))
    return (name, int.from_bytes(ident, "little"), fields), at


def values(schema, data):
    """The value that a body spells."""
    out = []
    for (_, kind), offset in zip(schema[2], placed(schema)[0]):
        own = data[offset:offset + size(kind)]
        out.append(int.from_bytes(own, "little") if isinstance(kind, int) else values(kind, own))
    return out


ESCAPES = {0: "\\0", 9: "\\t", 10: "\\n", 13: "\\r", 34: '\\"', 92: "\\\\"}


def quoted(name):
    out = ""
    for c in name.decode("utf-8"):
        code = ord(c)
        if code in ESCAPES:
            out += ESCAPES[code]
        elif code < 32 or 127 <= code < 160:
            out += "\\u{%x}" % code
        else:
            out += c
    return '"' + out + '"'


def lines(schema, value, depth, begin):
    for (field, kind), offset, v in zip(schema[2], placed(schema)[0], value):
        indent = "  " * depth + quoted(field)
        if isinstance(kind, int):
            yield f"{indent} u{8 * kind} at {begin + offset} = {v}\n"
        else:
            yield f"{indent} record {quoted(kind[0])} id {kind[1]} at {begin + offset}\n"
            yield from lines(kind, v, depth + 1, begin + offset)


def shown(schema, value):
    first = f"{quoted(schema[0])} id {schema[1]} size {size(schema)} align {alignment(schema)}\n"
    return first + "".join(lines(schema, value, 1, 0))
