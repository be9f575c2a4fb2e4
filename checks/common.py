"""What the checks share: the program, runs of it, what it is to answer, and a count of what was tried."""
import atexit
import glob
import multiprocessing
import os
import re
import shutil
import subprocess
import sys
import tempfile
import time

TOP = os.path.dirname(os.path.dirname(os.path.abspath(__file__)))
# The checkout whose out/ folders hold built programs and tests.
BUILT = os.environ.get("BUILT", TOP)
WORK = tempfile.mkdtemp(prefix="stabby-checks-")
atexit.register(shutil.rmtree, WORK, ignore_errors=True)
GREATEST_INPUT = 16777216
USAGE = b"usage: stabby_intern ranks W, numbers W, gen N D W\n"
NAME = os.path.basename(sys.argv[0])
# A run that takes longer is taken for one that doesn't end.
SECONDS = int(os.environ.get("CHECK_SECONDS", "120"))


class Checks:
    """Counts what was tried, and prints what failed."""

    def __init__(self):
        self.tried, self.failed, self.begun = 0, 0, time.time()

    def check(self, holds, what):
        self.tried += 1
        if not holds:
            self.failed += 1
            print(f"{NAME}: FAILED: {what}", flush=True)
        return holds

    def note(self, text):
        print(f"{NAME}: {text}", flush=True)

    def end(self):
        """Prints the last line and ends."""
        seconds = time.time() - self.begun
        print(f"{NAME}: {self.tried} checks, {self.failed} failed, {seconds:.0f} s", flush=True)
        sys.exit(1 if self.failed or not self.tried else 0)


def side_by_side(work, names):
    """What the work gives for each name, in their order, for as many at once as there are processors."""
    with multiprocessing.get_context("fork").Pool() as pool:
        yield from pool.imap(work, names)


def program():
    """The program: $OURS, or what stands in the checkout $BUILT, or a new build, which proves first."""
    if os.environ.get("OURS"):
        return os.path.abspath(os.environ["OURS"])
    ours = f"{BUILT}/crates/stabby_intern_cli/out/stabby_intern_cli"
    if BUILT == TOP or not os.access(ours, os.X_OK):
        done = subprocess.run([f"{TOP}/stabby_intern", "ranks", "1"], stdin=subprocess.DEVNULL, stdout=subprocess.DEVNULL)
        if done.returncode:
            sys.exit(f"{NAME}: the program could not be built")
        ours = f"{TOP}/crates/stabby_intern_cli/out/stabby_intern_cli"
    return ours


def built(name):
    """Another program, where a run of `rt run` or of the gate left it."""
    made = f"{BUILT}/crates/{name}/out/{name}"
    if not os.access(made, os.X_OK):
        sys.exit(f"{NAME}: {name} is not built: rt run in crates/{name}")
    return made


class Ended:
    """How a run ended: its status, negative where a signal ended it and None where it didn't end; its output; its line."""

    def __init__(self, status, out, err):
        self.status, self.out, self.err = status, out, err

    def __str__(self):
        return f"status {self.status}, {len(self.out)} bytes out {self.out[:40]!r}, line {self.err[:80]!r}"


def run(words, given=b"", env=None, before=None, **files):
    """Runs a program on these words and this input; `before` runs in the new process, in front of the program."""
    files.setdefault("stdout", subprocess.PIPE)
    # From a file, so that each run reads the same pieces.
    path = f"{WORK}/given-{os.getpid()}"
    with open(path, "wb") as file:
        file.write(given)
    try:
        with open(path, "rb") as file:
            done = subprocess.run(
                words, stdin=file, stderr=subprocess.PIPE, env={**os.environ, **(env or {})}, preexec_fn=before, timeout=SECONDS, **files
            )
    except subprocess.TimeoutExpired:
        return Ended(None, b"", b"")
    return Ended(done.returncode, done.stdout or b"", done.stderr)


def is_word(digits):
    """Whether these bytes are digits of a number below 2 ^ 64."""
    if not re.fullmatch(rb"[0-9]+", digits):
        return False
    digits = digits.lstrip(b"0") or b"0"
    return len(digits) <= 20 and int(digits) < 2**64


def word_of(digits):
    return int(digits.lstrip(b"0") or b"0")


def tables_of(given):
    """The tables of an input, or the number of the first line that spells none."""
    lines = given.split(b"\n")
    if lines[-1] == b"":
        lines.pop()
    tables = []
    for at, line in enumerate(lines):
        words = line.split(b" ") if line else []
        if not all(map(is_word, words)):
            return at + 1
        tables.append(tuple(map(word_of, words)))
    return tables


def spelled(table):
    return b" ".join(b"%d" % word for word in table) + b"\n"


def ranks_of(tables):
    """The report of `ranks`."""
    distinct = sorted(set(tables))
    place = {table: at for at, table in enumerate(distinct)}
    return b"".join([b"%d\n" % place[table] for table in tables] + list(map(spelled, distinct)))


def numbers_fault(tables, workers, report):
    """What is wrong in a report of `numbers` by so many workers; None where nothing is."""
    lines = report.split(b"\n")
    if lines.pop() != b"":
        return "the last line has no end"
    numbers = list(map(int, lines[: len(tables)]))
    listed = tables_of(b"".join(line + b"\n" for line in lines[len(tables) :]))
    if not isinstance(listed, list) or sorted(listed) != sorted(set(tables)):
        return "the list isn't the distinct tables, each once"
    if any(listed[number] != table for number, table in zip(numbers, tables)):
        return "a table isn't at its number"
    # Each number stands somewhere in some worker's share behind smaller numbers alone.
    size = -(-len(tables) // workers) if tables else 1
    met = set()
    for begin in range(0, len(numbers), size):
        greatest = -1
        for number in numbers[begin : begin + size]:
            if number > greatest:
                met.add(number)
                greatest = number
    return None if met == set(range(len(listed))) else "a number that no worker met first"


def generated(count, divisor):
    """The report of `gen`."""
    tables = [(7 * i % divisor, i % divisor) for i in range(count)]
    place = {table: at for at, table in enumerate(sorted(set(tables)))}
    return b"tables %d\ndistinct %d\nranksum %d\n" % (count, len(place), sum(place[table] for table in tables))


def tests():
    """Each test of the tests that are built: its name, and the words that run it. A copy is run, which no build changes."""
    for made in sorted(glob.glob(f"{BUILT}/crates/*/out/*_tests")):
        copy = f"{WORK}/{os.path.basename(made)}"
        try:
            shutil.copy(made, copy)
        except OSError:
            continue
        for line in run([copy, "--list"]).out.decode().split("\n"):
            if line.endswith(": test"):
                test = line[: -len(": test")]
                yield f"{os.path.basename(made)} {test}", [copy, test]
        os.unlink(copy)


def shim():
    """The library that refuses calls, built from refuse.c."""
    made = f"{WORK}/refuse.so"
    if not os.path.exists(made):
        source = os.path.join(os.path.dirname(os.path.abspath(__file__)), "refuse.c")
        subprocess.run(["cc", "-O1", "-shared", "-fPIC", "-o", made, source, "-ldl"], check=True)
    return made


def refused(words, given, call, at, **more):
    """A run in which the call number `at` of this kind is refused, and whether it came to that call."""
    told = f"{WORK}/told-{os.getpid()}"
    if os.path.exists(told):
        os.unlink(told)
    env = {"LD_PRELOAD": shim(), "REFUSE_CALL": call, "REFUSE_AT": str(at), "REFUSE_TOLD": told}
    for name in ("fd", "error"):
        if name in more:
            env[f"REFUSE_{name.upper()}"] = str(more.pop(name))
    ended = run(words, given, env, **more)
    return ended, os.path.exists(told)
