#!/usr/bin/env python3
"""Every list of up to six steps of the handle machine, run by an interpreter of its own.

It keeps the handles themselves in two sets and the value as a Python object, and knows no count.
For each length it prints one digest of all answers, words and states: what the test
`every_short_list_of_steps` expects. Run it with no arguments.
"""
from itertools import product

STEPS = ["clone", "downgrade", "upgrade", "end strong", "end weak", "look", "take"]
MASK = 2**64 - 1
LIMIT = 2**32 - 1


class Block:
    def __init__(self):
        self.names = 1
        self.strong = {0}
        self.weak = set()
        self.value = "live"

    def fresh(self):
        name = self.names
        self.names += 1
        return name

    def low(self):
        return len(self.weak) + (self.value == "live")

    def word(self):
        return len(self.strong) << 32 | self.low()

    def add(self, handles, count):
        if count == LIMIT:
            return ["full"]
        handles.add(self.fresh())
        return ["done"]

    def release(self):
        self.value = "released"
        return ["freed"]

    def do(self, step):
        nobody = not self.strong and not self.weak
        if step == "clone":
            if not self.strong:
                return ["not held"]
            return self.add(self.strong, len(self.strong))
        if step == "downgrade":
            if nobody:
                return ["not held"]
            return self.add(self.weak, self.low())
        if step == "upgrade":
            if not self.weak:
                return ["not held"]
            if not self.strong:
                return ["gone"]
            return self.add(self.strong, len(self.strong))
        if step == "end strong":
            if not self.strong:
                return ["not held"]
            self.strong.pop()
            return ["done"] if self.strong else ["last"]
        if step == "end weak":
            if not self.weak:
                return ["not held"]
            self.weak.pop()
            if self.value == "taken" and not self.weak:
                return self.release()
            return ["done"]
        if step == "look":
            return ["not held"] if nobody else ["counts", len(self.strong), self.low()]
        assert step == "take"
        if self.strong or self.value != "live":
            return ["not held"]
        if not self.weak:
            return self.release()
        self.value = "taken"
        return ["done"]


REPLIES = ["done", "last", "freed", "full", "gone", "counts", "not held"]
VALUES = ["live", "taken", "released"]


def mixed(digest, number):
    return (digest * 1099511628211 + number) & MASK


def main():
    for length in range(7):
        digest = 0
        for steps in product(STEPS, repeat=length):
            block = Block()
            for step in steps:
                answer = block.do(step)
                digest = mixed(digest, REPLIES.index(answer[0]))
                for number in answer[1:]:
                    digest = mixed(digest, number)
                digest = mixed(digest, block.word())
                digest = mixed(digest, VALUES.index(block.value))
        print(length, digest)


main()
