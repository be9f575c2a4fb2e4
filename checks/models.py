"""Plain models of the containers that crates/random_calls plays: Python's own lists, dicts and strings.

A model draws a call at random (`draw`), and answers it as the program is to (`answer`). A call is a name and three
numbers. `refuse` makes what a call that found no memory leaves, and says what such an answer must be."""
import bisect

WORD = 2**64 - 1
PIECES = ["", "a", "é", "日本", "z🦀", "plain text"]
STRONG = 2**32


def spelled(numbers):
    return " ".join(["list", *map(str, numbers)])


def told(number):
    return "none" if number is None else f"value {number}"


class Model:
    # How many calls one container of the name takes at most, before a new one is made.
    span = 20000
    # The calls that a run with refusals makes, before further ones at random; and those behind each, which tell all that
    # the container has.
    first, looks = [], []

    def answer(self, call):
        return getattr(self, call[0])(*call[1:])

    def backs(self, call):
        """What a call answers where it found no memory."""
        return ["memory"]

    def refuse(self, call, answered):
        """Makes what a refused call leaves, and answers whether that can be. As before, unless a model says more."""
        return answered in self.backs(call)


class Growing(Model):
    """What lists share: items, and a capacity that grows as stabby_vec says."""

    def __init__(self):
        self.items, self.room = [], 0

    def grown(self):
        if len(self.items) == self.room:
            self.room = self.room + max(1, self.room // 2) if self.room else 8

    def push(self, a, b, c):
        self.grown()
        self.items.append(a)
        return "done"

    def extend(self, a, b, c):
        for item in (a, b, c):
            self.push(item, 0, 0)
        return "done"

    def reserve(self, a, b, c):
        if a > self.room - len(self.items):
            if a >= WORD - len(self.items):
                return "range"
            if a > 2**60:
                return "memory"
            self.room = len(self.items) + a
        return f"capacity {self.room}"

    def truncate(self, a, b, c):
        del self.items[a:]
        return "done"

    def sizes(self, a, b, c):
        return f"sizes {len(self.items)} {self.room}"

    def show(self, a, b, c):
        return spelled(self.items)

    def refuse(self, call, answered):
        name, a, b, c = call
        if name == "push":
            return answered == f"memory {a}"
        if name != "extend":
            return answered == "memory"
        # The items before the refused one stay.
        word, count = answered.split()
        more = int(count) - len(self.items)
        if word != "memory" or not 0 <= more < 3:
            return False
        for item in (a, b, c)[:more]:
            self.push(item, 0, 0)
        return len(self.items) == self.room


class ListModel(Growing):
    looks = [("show", 0, 0, 0), ("sizes", 0, 0, 0)]
    first = [("push", 1, 0, 0), ("append", 2, 3, 4), ("extend", 5, 6, 7), ("reserve", 9, 0, 0), ("copy", 0, 0, 0)]

    def pop(self, a, b, c):
        return told(self.items.pop() if self.items else None)

    def remove(self, a, b, c):
        return told(self.items.pop(a) if a < len(self.items) else None)

    def take(self, a, b, c):
        if a >= len(self.items):
            return "none"
        last = self.items.pop()
        if a == len(self.items):
            return told(last)
        self.items[a], last = last, self.items[a]
        return told(last)

    def swap(self, a, b, c):
        if max(a, b) >= len(self.items):
            return "outside"
        self.items[a], self.items[b] = self.items[b], self.items[a]
        return "done"

    def append(self, a, b, c):
        if self.room - len(self.items) < 3:
            self.room = len(self.items) + 3
        self.items += [a, b, c]
        return "done"

    def copy(self, a, b, c):
        self.room = len(self.items)
        return "done"

    def drain(self, a, b, c):
        return self.drained(a, b, lambda left: (mixed(len(left), reads(left, c)), []))

    def stop(self, a, b, c):
        return self.drained(a, b, lambda left: (mixed(0, reads(left, c)), left[c:]))

    def ends(self, a, b, c):
        def both(left):
            start, items = len(left), []
            for _ in range(c):
                items.append(left.pop(0) if left else None)
                items.append(left.pop() if left else None)
            return mixed(start, items), []

        return self.drained(a, b, both)

    def back(self, a, b, c):
        def after(left):
            items = reads(left, c)
            del left[:c]
            for _ in range(c):
                items.append(left.pop() if left else None)
            items.append(left.pop(0) if left else None)
            return mixed(0, items) + len(left) & WORD, []

        return self.drained(a, b, after)

    def drained(self, a, b, read):
        if not a <= b <= len(self.items):
            return "outside"
        total, stays = read(self.items[a:b])
        self.items[a:b] = stays
        return f"read {total}"

    def draw(self, rng):
        size = len(self.items)
        kind = rng.randrange(40 if size < 150 else 12)
        if kind > 12:
            return ("push", rng.randrange(1000000), 0, 0)
        place = rng.randrange(size + 2)
        if kind == 0:
            return ("remove", place, 0, 0)
        if kind == 1:
            return ("take", place, 0, 0)
        if kind == 2:
            return ("swap", place, rng.randrange(size + 2), 0)
        if kind == 3:
            return ("truncate", max(0, size - rng.randrange(20)), 0, 0)
        if kind == 4:
            return ("reserve", rng.choice((0, 1, 5, 40, 2**63, WORD)), 0, 0)
        if kind == 5:
            return (rng.choice(("append", "extend")), rng.randrange(99), rng.randrange(99), rng.randrange(99))
        if kind == 6:
            return (rng.choice(("copy", "show")), 0, 0, 0)
        if kind < 9:
            return (rng.choice(("pop", "pop", "sizes")), 0, 0, 0)
        return self.draw_drain(rng)

    def draw_drain(self, rng):
        size = len(self.items)
        begin = rng.randrange(size + 1)
        end = min(size + rng.randrange(2), begin + rng.randrange(-1, 9))
        return (rng.choice(("drain", "stop", "ends", "back")), begin, max(end, 0), rng.randrange(6))


class DrainModel(ListModel):
    """A list of which every second call is a drain."""

    def draw(self, rng):
        size = len(self.items)
        kind = rng.randrange(20)
        if kind == 0:
            return ("show", 0, 0, 0)
        if kind < 9 and size < 60:
            return ("extend", rng.randrange(1000), rng.randrange(1000), rng.randrange(1000))
        return self.draw_drain(rng)


def reads(left, count):
    """What so many reads at the front give."""
    return left[:count] + [None] * (count - len(left))


def mixed(total, items):
    for item in items:
        total = total * 31 + (0 if item is None else item + 1) & WORD
    return total


class SingleModel(Growing):
    looks = [("show", 0, 0, 0), ("sizes", 0, 0, 0), ("inline", 0, 0, 0)]
    first = [("push", 1, 0, 0), ("push", 2, 0, 0), ("fresh", 0, 0, 0), ("push", 3, 0, 0), ("through", 0, 0, 0),
             ("fresh", 0, 0, 0), ("extend", 4, 5, 6), ("fresh", 0, 0, 0), ("push", 7, 0, 0), ("reserve", 5, 0, 0),
             ("fresh", 0, 0, 0), ("push", 8, 0, 0), ("copy", 0, 0, 0), ("inline", 0, 0, 0), ("push", 9, 0, 0), ("copy", 0, 0, 0)]

    def __init__(self):
        super().__init__()
        self.is_inline = False

    def grown(self):
        if self.is_inline:
            self.is_inline, self.room = False, 8
        elif self.room == 0:
            self.is_inline, self.room = True, 1
        else:
            super().grown()

    def reserve(self, a, b, c):
        if not self.is_inline:
            return super().reserve(a, b, c)
        if a >= WORD - 1:
            return "range"
        if a > 2**60:
            return "memory"
        self.is_inline, self.room = False, a + 1
        return f"capacity {self.room}"

    def truncate(self, a, b, c):
        if self.is_inline and a == 0:
            self.is_inline, self.room = False, 0
        return super().truncate(a, b, c)

    def copy(self, a, b, c):
        if not self.is_inline:
            self.room = len(self.items)
        return "done"

    def through(self, a, b, c):
        if self.is_inline:
            self.is_inline, self.room = False, 8
        return "done"

    def fresh(self, a, b, c):
        self.items, self.room, self.is_inline = [], 0, False
        return "done"

    def inline(self, a, b, c):
        return f"inline {int(self.is_inline)}"

    def draw(self, rng):
        kind = rng.randrange(16)
        if kind < 7:
            return ("push", rng.randrange(1000000), 0, 0)
        if kind == 7:
            return ("truncate", rng.choice((0, 0, 1, 3)), 0, 0)
        if kind == 8:
            return ("reserve", rng.choice((0, 1, 5, 2**63, WORD, WORD - 1)), 0, 0)
        if kind == 9:
            return ("extend", rng.randrange(99), rng.randrange(99), rng.randrange(99))
        return (("copy", "through", "fresh", "inline", "sizes", "show")[kind - 10], 0, 0, 0)


class BoxedModel(Growing):
    looks = [("show", 0, 0, 0), ("sizes", 0, 0, 0)]
    first = [("fresh", 2, 0, 0), ("push", 1, 0, 0), ("push", 2, 0, 0), ("push", 3, 0, 0), ("widen", 3, 0, 0), ("push", 4, 0, 0)]

    def push(self, a, b, c):
        if len(self.items) == self.room:
            return f"full {a}"
        self.items.append(a)
        return "done"

    def fresh(self, a, b, c):
        self.items, self.room = [], a
        return "done"

    def widen(self, a, b, c):
        return "done" if self.reserve(a, 0, 0).startswith("capacity") else "memory"

    def draw(self, rng):
        kind = rng.randrange(12)
        if kind < 7:
            return ("push", rng.randrange(1000000), 0, 0)
        if kind == 7:
            return ("fresh", rng.randrange(9), 0, 0)
        if kind == 8:
            return ("widen", rng.randrange(5), 0, 0)
        return (("sizes", "show", "show")[kind - 9], 0, 0, 0)


class TextModel(Model):
    looks = [("show", 0, 0, 0), ("sizes", 0, 0, 0)]
    first = [("concat", 4, 0, 0), ("byte", 65, 0, 0), ("byte", 200, 0, 0), ("fresh", 5, 0, 0), ("copy", 0, 0, 0), ("concat", 3, 0, 0)]

    def __init__(self):
        self.text, self.room = "", 0

    def bytes_of(self):
        return self.text.encode()

    def concat(self, a, b, c):
        more, size = PIECES[a % 6], len(self.bytes_of())
        if self.room - size < len(more.encode()):
            self.room = size + len(more.encode())
        self.text += more
        return "done"

    def set(self, a, b, c):
        now = bytearray(self.bytes_of())
        if b > 127 or a >= len(now) or now[a] > 127:
            return "outside"
        now[a] = b
        self.text = now.decode()
        return "done"

    def fresh(self, a, b, c):
        self.text = PIECES[a % 6]
        self.room = len(self.bytes_of())
        return "done"

    def copy(self, a, b, c):
        self.room = len(self.bytes_of())
        return "done"

    def byte(self, a, b, c):
        size = len(self.bytes_of())
        if size == self.room:
            self.room = self.room + max(1, self.room // 2) if self.room else 8
        if a & 255 > 127:
            return "no text"
        self.text += chr(a & 255)
        return "done"

    def through(self, a, b, c):
        return "done"

    def sizes(self, a, b, c):
        return f"sizes {len(self.bytes_of())} {self.room}"

    def show(self, a, b, c):
        return spelled(self.bytes_of())

    def draw(self, rng):
        kind = rng.randrange(16)
        size = len(self.text)
        if size > 120 or kind == 0:
            return ("fresh", rng.randrange(6), 0, 0)
        if kind < 6:
            return ("concat", rng.randrange(6), 0, 0)
        if kind < 9:
            return ("set", rng.randrange(size + 3), rng.randrange(140), 0)
        if kind < 12:
            return ("byte", rng.randrange(256), 0, 0)
        return (("copy", "through", "sizes", "show")[kind - 12], 0, 0, 0)


class TreeModel(Model):
    """Four sorted lists of keys with their values, of which one is made a clone of another."""

    span = 40000
    keys = 3000
    looks = [("show", at, 0, 0) for at in range(4)]
    first = [("insert", 0, 7 * at % 20 + 1, at) for at in range(1, 21)] + [
        ("copy", 0, 1, 0), ("insert", 0, 21, 5), ("insert", 0, 3, 6), ("insert", 1, 22, 7), ("get", 1, 21, 0), ("get", 0, 21, 0)]

    def __init__(self):
        self.trees = [({}, []) for _ in range(4)]

    def insert(self, a, b, c):
        values, keys = self.trees[a]
        if b in values:
            return self.known(values, b, c)
        values[b] = c
        bisect.insort(keys, b)
        return self.added

    def copy(self, a, b, c):
        values, keys = self.trees[a]
        self.trees[b] = (dict(values), list(keys))
        return "done"

    def empty(self, a, b, c):
        self.trees[a] = ({}, [])
        return "done"

    def sizes(self, a, b, c):
        return f"len {len(self.trees[a][1])}"

    def show(self, a, b, c):
        values, keys = self.trees[a]
        return spelled([number for key in keys for number in (key, values[key])])

    def backs(self, call):
        return [f"memory {call[2]} {call[3]}"] if call[0] == "insert" else ["memory"]

    def draw(self, rng):
        kind, tree = rng.randrange(1000), rng.randrange(4)
        if kind < 640:
            return ("insert", tree, rng.randrange(self.keys), rng.randrange(1000000))
        if kind < 990:
            return ("get", tree, rng.randrange(self.keys), 0)
        if kind < 996:
            return ("copy", tree, rng.randrange(4), 0)
        return (("empty", "show", "show", "show")[kind - 996], tree, 0, 0)


class KeepingModel(TreeModel):
    added = "new"

    def known(self, values, key, value):
        return f"back {key} {value}"

    def get(self, a, b, c):
        values = self.trees[a][0]
        return f"found {b} {values[b]}" if b in values else "none"


class ReplacingModel(KeepingModel):
    def known(self, values, key, value):
        old, values[key] = values[key], value
        return f"back {key} {old}"


class MapModel(TreeModel):
    added = "none"

    def known(self, values, key, value):
        old, values[key] = values[key], value
        return f"value {old}"

    def get(self, a, b, c):
        return told(self.trees[a][0].get(b))


class VersionsModel(Model):
    """All versions from stamp 0 on; a cell keeps its last `keep`."""

    span = 5000

    def __init__(self, keep):
        self.versions, self.keep = [self.opening], keep

    def stamp(self):
        return len(self.versions) - 1

    def oldest(self):
        return max(0, len(self.versions) - self.keep)

    def is_kept(self, stamp):
        return self.oldest() <= stamp <= self.stamp()

    def seen(self, a, b, c):
        return f"seen {self.stamp()} {self.stamp()}"

    def near(self, rng):
        """A stamp, mostly one that is kept."""
        return max(0, self.stamp() + 2 - rng.randrange(self.keep + 4))


class CellModel(VersionsModel):
    opening = None
    looks = [("seen", 0, 0, 0)] + [("at", stamp, 0, 0) for stamp in range(9)]
    first = [("commit", 5, 0, 0), ("commit", 6, 0, 0), ("at", 1, 0, 0), ("at", 2, 0, 0)]

    def commit(self, a, b, c):
        is_full = len(self.versions) >= self.keep
        gone = self.versions[-self.keep] if is_full else None
        self.versions.append(a)
        return told(gone) if is_full else "kept"

    def release(self, a, b, c):
        return f"stamp {self.stamp()}"

    def answer(self, call):
        return super().answer(("release", *call[1:]) if call[0] == "try" else call)

    def at(self, a, b, c):
        return told(self.versions[a]) if self.is_kept(a) else "not kept"

    def draw(self, rng):
        kind = rng.randrange(10)
        if kind < 4:
            return ("commit", rng.randrange(1000000), 0, 0)
        if kind < 7:
            return ("at", self.near(rng), 0, 0)
        return (("release", "try", "seen")[kind - 7], 0, 0, 0)


class ValueModel(VersionsModel):
    opening = None
    looks = [("seen", 0, 0, 0)] + [("at", stamp, 0, 0) for stamp in range(9)]
    first = [("store", 5, 0, 0), ("load", 0, 0, 0), ("exchange", 1, 6, 0), ("exchange", 1, 7, 0), ("at", 1, 0, 0),
             ("at", 2, 0, 0), ("is", 0, 0, 0), ("is", 2, 0, 0), ("clear", 0, 0, 0), ("load", 0, 0, 0)]

    def store(self, a, b, c):
        self.versions.append(a)
        return f"stamp {self.stamp()}"

    def clear(self, a, b, c):
        return self.store(None, b, c)

    def load(self, a, b, c):
        value = self.versions[-1]
        return f"empty {self.stamp()}" if value is None else f"at {self.stamp()} {value}"

    def answer(self, call):
        if call[0] == "try":
            return self.load(0, 0, 0)
        if call[0] == "is":
            return "is" if call[1] == self.stamp() else self.load(0, 0, 0)
        return super().answer(call)

    def at(self, a, b, c):
        return told(self.versions[a]) if self.is_kept(a) else f"kept {self.oldest()} {self.stamp()}"

    def exchange(self, a, b, c):
        if a != self.stamp():
            return self.load(0, 0, 0)
        self.versions.append(b)
        return told(self.versions[-2])

    def backs(self, call):
        return ["memory", f"memory {call[2]}"] if call[0] == "exchange" else ["memory"]

    def draw(self, rng):
        kind = rng.randrange(16)
        if kind < 5:
            return ("store", rng.randrange(1000000), 0, 0)
        if kind < 8:
            return ("at", self.near(rng), 0, 0)
        if kind < 11:
            return ("exchange", self.stamp() - rng.randrange(min(2, self.stamp() + 1)), rng.randrange(1000000), 0)
        if kind == 11:
            return ("is", self.stamp() - rng.randrange(min(2, self.stamp() + 1)), 0, 0)
        return (("clear", "load", "try", "seen")[kind - 12], 0, 0, 0)


class EditModel(VersionsModel):
    span = 1500
    opening = frozenset()
    looks = [("seen", 0, 0, 0), ("show", 0, 0, 0)] + [("at", stamp, 0, 0) for stamp in range(6)]
    first = [("edit", 5, 0, 0), ("edit", 3, 0, 0), ("edit", 5, 0, 0), ("edit", 9, 0, 0), ("edit", 1, 0, 0),
             ("has", 9, 0, 0), ("at", 2, 0, 0), ("at", 4, 0, 0)]

    def edit(self, a, b, c):
        now = self.versions[-1]
        if a in now:
            return f"as before {self.stamp()}"
        self.versions.append(now | {a})
        return f"committed {self.stamp()}"

    def has(self, a, b, c):
        return f"has {int(a in self.versions[-1])}"

    def at(self, a, b, c):
        return spelled(sorted(self.versions[a])) if self.is_kept(a) else "not kept"

    def show(self, a, b, c):
        return spelled(sorted(self.versions[-1]))

    def draw(self, rng):
        kind = rng.randrange(100)
        if kind < 50:
            return ("edit", rng.randrange(400), 0, 0)
        if kind < 94:
            return ("has", rng.randrange(400), 0, 0)
        if kind < 97:
            return ("at", self.near(rng), 0, 0)
        return (("show", "seen", "seen")[kind - 97], 0, 0, 0)


class RowModel(Model):
    """A row of 600 words, of which a table takes 2 and its own."""

    span = 600
    words = 600
    looks = [("seen", 0, 0, 0)] + [("entry", number, 0, 0) for number in range(4)]
    first = [("insert", 0, 0, 0), ("insert", 1, 4, 0), ("insert", 3, 4, 5), ("entry", 2, 0, 0), ("insert", 1, 4, 0)]

    def __init__(self):
        self.tables, self.claimed = [], 0

    def insert(self, a, b, c):
        table = [b, c, b][:a] if a < 4 else [b, c, b]
        if table in self.tables:
            return f"number {self.tables.index(table)}"
        needed = 2 + len(table)
        if self.claimed + needed > self.words:
            return f"full {self.claimed} {needed}"
        self.claimed += needed
        self.tables.append(table)
        return f"number {len(self.tables) - 1}"

    def entry(self, a, b, c):
        return spelled(self.tables[a]) if a < len(self.tables) else "none"

    def seen(self, a, b, c):
        return f"seen {len(self.tables)}"

    def draw(self, rng):
        kind = rng.randrange(12)
        if kind < 8:
            return ("insert", rng.randrange(5), rng.randrange(9), rng.randrange(9))
        if kind < 11:
            return ("entry", rng.randrange(len(self.tables) + 2), 0, 0)
        return ("seen", 0, 0, 0)


class Block:
    """A shared value, and how many handles there are: one weak more than there are weak handles, while a strong one is."""

    def __init__(self, value):
        self.value, self.strong, self.weak = value, 1, 1

    def word(self):
        return self.strong * STRONG + self.weak

    def end_strong(self):
        self.strong -= 1
        if self.strong == 0:
            self.weak -= 1


class HandleModel(Model):
    span = 5000
    places = 6
    looks = [(name, at, 0, 0) for at in range(6) for name in ("read", "counts")]
    first = [("make", 0, 7, 0), ("clone", 0, 1, 0), ("clone", 0, 2, 1), ("downgrade", 1, 0, 0), ("downgrade", 1, 1, 1),
             ("weak", 0, 2, 0), ("upgrade", 0, 3, 0), ("upgrade", 1, 4, 1), ("own", 3, 8, 0), ("set", 3, 9, 0),
             ("unwrap", 4, 0, 0), ("unwrap", 3, 0, 0), ("end", 0, 0, 0), ("end", 1, 0, 0), ("end", 2, 0, 0), ("end", 4, 0, 0),
             ("upgrade", 0, 5, 0), ("endweak", 0, 0, 0)]

    def __init__(self):
        self.strong, self.weak = [None] * self.places, [None] * self.places

    def put(self, block, at):
        if self.strong[at]:
            self.strong[at].end_strong()
        self.strong[at] = block
        return "done"

    def put_weak(self, block, at):
        if self.weak[at]:
            self.weak[at].weak -= 1
        self.weak[at] = block
        return "done"

    def make(self, a, b, c):
        return self.put(Block(self.content(b, c)), a)

    def content(self, b, c):
        return b

    def clone(self, a, b, c):
        block = self.strong[a]
        if not block:
            return "empty"
        block.strong += 1
        return self.put(block, b)

    def downgrade(self, a, b, c):
        block = self.strong[a]
        if not block:
            return "empty"
        block.weak += 1
        return self.put_weak(block, b)

    def upgrade(self, a, b, c):
        block = self.weak[a]
        if not block:
            return "empty"
        if block.strong == 0:
            return "gone"
        block.strong += 1
        return self.put(block, b)

    def answer(self, call):
        return self.clone_weak(*call[1:]) if call[0] == "weak" else super().answer(call)

    def clone_weak(self, a, b, c):
        block = self.weak[a]
        if not block:
            return "empty"
        block.weak += 1
        return self.put_weak(block, b)

    def end(self, a, b, c):
        block, self.strong[a] = self.strong[a], None
        if not block:
            return "empty"
        word = block.word()
        block.end_strong()
        return f"word {word}" if block.strong else f"value {block.value}"

    def endweak(self, a, b, c):
        block, self.weak[a] = self.weak[a], None
        if not block:
            return "empty"
        block.weak -= 1
        return f"word {block.word() + 1}"

    def unwrap(self, a, b, c):
        block = self.strong[a]
        if not block:
            return "empty"
        if block.word() != STRONG + 1:
            return "shared"
        self.strong[a] = None
        block.end_strong()
        return self.shown(block.value)

    def shown(self, value):
        return f"value {value}"

    def set(self, a, b, c):
        block = self.strong[a]
        if not block:
            return "empty"
        if block.word() != STRONG + 1:
            return "shared"
        block.value = b
        return "done"

    def own(self, a, b, c):
        block = self.strong[a]
        if not block:
            return "empty"
        if block.word() == STRONG + 1:
            block.value = b
            return "done"
        return self.put(Block(b), a)

    def counts(self, a, b, c):
        block = self.strong[a]
        return f"counts {block.strong} {block.weak}" if block else "empty"

    def unique(self, a, b, c):
        block = self.strong[a]
        return f"unique {int(block.word() == STRONG + 1)}" if block else "empty"

    def read(self, a, b, c):
        return self.shown(self.strong[a].value) if self.strong[a] else "empty"

    def backs(self, call):
        return [f"memory {call[2]}"] if call[0] == "make" else ["memory"]

    def draw(self, rng):
        kind, a, b = rng.randrange(14), rng.randrange(6), rng.randrange(6)
        if kind == 0:
            return ("make", a, rng.randrange(1000000), 0)
        if kind < 5:
            return (("clone", "downgrade", "upgrade", "weak")[kind - 1], a, b, rng.randrange(2))
        if kind < 7:
            return (("set", "own")[kind - 5], a, rng.randrange(1000000), 0)
        return (("end", "endweak", "unwrap", "counts", "unique", "read", "read")[kind - 7], a, 0, 0)


class SliceModel(HandleModel):
    places = 3
    looks = [(name, at, 0, 0) for at in range(3) for name in ("read", "counts")]
    first = [("make", 0, 7, 8), ("clone", 0, 1, 0), ("downgrade", 1, 0, 0), ("upgrade", 0, 2, 0), ("unwrap", 2, 0, 0), ("read", 2, 0, 0)]

    def content(self, b, c):
        return [b, c]

    def shown(self, value):
        return spelled(value)

    def backs(self, call):
        return ["memory"]

    def draw(self, rng):
        kind, a, b = rng.randrange(9), rng.randrange(3), rng.randrange(3)
        if kind == 0:
            return ("make", a, rng.randrange(99), rng.randrange(99))
        return (("clone", "downgrade", "upgrade", "upgrade", "unwrap", "unwrap", "read", self.last)[kind - 1], a, b, 0)

    last = "counts"

    def refuse(self, call, answered):
        if call[0] == "unwrap":
            # The list came out, and then there was no memory to tell it.
            self.unwrap(*call[1:])
        return super().refuse(call, answered)


class SharedTextModel(SliceModel):
    looks = [("read", at, 0, 0) for at in range(3)]
    last = "read"

    def content(self, b, c):
        return PIECES[b % 6].encode()

    def backs(self, call):
        return ["memory", f"memory {len(self.content(call[2], 0))}"] if call[0] == "make" else ["memory"]


class InternModel(Model):
    span = 60
    looks = [("show", 0, 0, 0)]
    first = [("table", 1, 5, 0), ("table", 2, 3, 1), ("table", 1, 5, 0), ("table", 0, 0, 0), ("intern", 1, 0, 0),
             ("intern", 1, 0, 0), ("insert", 1, 3, 0), ("insert", 1, 5, 0), ("show", 0, 0, 0)]

    def __init__(self):
        self.registry, self.tables = [], []

    def table(self, a, b, c):
        self.tables.append((b, c)[: min(a, 2)])
        return "done"

    def number(self, table):
        if table not in self.registry:
            self.registry.append(table)
        return self.registry.index(table)

    def insert(self, a, b, c):
        return f"number {self.number((b, c)[: min(a, 2)])}"

    def entries(self):
        return [number for table in sorted(self.registry) for number in (self.registry.index(table), len(table), *table)]

    def intern(self, a, b, c):
        if not 1 <= a <= 64:
            return "list"
        numbers = list(map(self.number, self.tables))
        order = sorted(self.registry)
        return spelled(numbers + [order.index(table) for table in self.tables] + self.entries())

    def show(self, a, b, c):
        return spelled(self.entries())

    def refuse(self, call, answered):
        if answered != "memory":
            return False
        if call[0] == "intern":
            # Of the list the first tables may be in by now: `show` tells how many.
            self.is_open = True
        return True

    is_open = False

    def settle(self, answered):
        """Learns from the list of the registry's tables how many an interning had added when it found no memory."""
        self.is_open = False
        numbers = iter(map(int, answered.split()[1:]))
        listed = {}
        for number in numbers:
            listed[number] = tuple(next(numbers) for _ in range(next(numbers)))
        old = self.registry
        whole = list(dict.fromkeys(old + self.tables))
        now = [listed.get(number) for number in range(len(listed))]
        self.registry = whole[: max(len(now), len(old))]
        return now == self.registry

    def draw(self, rng):
        kind = rng.randrange(12)
        if kind < 5:
            return ("table", rng.randrange(3), rng.randrange(4), rng.randrange(4))
        if kind < 9:
            return ("insert", rng.randrange(3), rng.randrange(4), rng.randrange(4))
        return (("intern", "intern", "show")[kind - 9], 1, 0, 0)


class IndexModel(VersionsModel):
    span = 400
    opening = {}
    looks = [("seen", 0, 0, 0)] + [("rows", stamp, 0, 0) for stamp in range(6)]
    first = [("put", 1, 10, 0), ("put", 2, 10, 2), ("put", 1, 11, 9), ("delete", 2, 0, 0), ("put", 3, 11, 0), ("rows", 2, 0, 0),
             ("groups", 2, 0, 0), ("group", 4, 11, 0)]

    def commit(self, expect, change):
        if expect not in (0, self.stamp() + 1):
            return f"stale {expect - 1} {self.stamp()}"
        now = dict(self.versions[-1])
        change(now)
        self.versions.append(now)
        return f"stamp {self.stamp()}"

    def put(self, a, b, c):
        return self.commit(c, lambda now: now.update({a: b}))

    def delete(self, a, b, c):
        return self.commit(c, lambda now: now.pop(a, None))

    def rows_of(self, stamp, chosen):
        rows = sorted(self.versions[stamp].items())
        return spelled(
            [n for key, group in rows if chosen(group) for n in (key, group, len(PIECES[(key + group) % 6].encode()))]
        )

    def rows(self, a, b, c):
        return self.rows_of(a, lambda group: True) if self.is_kept(a) else "not kept"

    def group(self, a, b, c):
        return self.rows_of(a, lambda group: group == b) if self.is_kept(a) else "not kept"

    def groups(self, a, b, c):
        if not self.is_kept(a):
            return "not kept"
        groups = list(self.versions[a].values())
        return spelled([n for group in sorted(set(groups)) for n in (group, groups.count(group))])

    def draw(self, rng):
        kind, expect = rng.randrange(12), rng.choice((0, 0, self.stamp() + 1, self.stamp()))
        if kind < 5:
            return ("put", rng.randrange(24), rng.randrange(5), expect)
        if kind < 8:
            return ("delete", rng.randrange(24), 0, expect)
        return (("rows", "group", "groups", "seen")[kind - 8], self.near(rng), rng.randrange(5), 0)


# The name of each container, in the program, and its model.
CONTAINERS = {
    "list": ListModel,
    "drains": DrainModel,
    "single": SingleModel,
    "boxed": BoxedModel,
    "text": TextModel,
    "set3": KeepingModel,
    "set5": KeepingModel,
    "set33": KeepingModel,
    "replacing3": ReplacingModel,
    "replacing5": ReplacingModel,
    "replacing33": ReplacingModel,
    "map3": MapModel,
    "map5": MapModel,
    "map33": MapModel,
    "cell1": lambda: CellModel(1),
    "cell16": lambda: CellModel(16),
    "value1": lambda: ValueModel(1),
    "value16": lambda: ValueModel(16),
    "edits1": lambda: EditModel(1),
    "edits16": lambda: EditModel(16),
    "row": RowModel,
    "handles": HandleModel,
    "slices": SliceModel,
    "texts": SharedTextModel,
    "interns": InternModel,
    "index1": lambda: IndexModel(1),
    "index16": lambda: IndexModel(16),
}


def name_of(container):
    """The container's name in the program."""
    return "list" if container == "drains" else container


def line_of(call):
    return "%s %d %d %d\n" % call
