#!/usr/bin/env python3
"""Times `tq shell` on fixed inputs, and another program beside it.

usage: bench/run.py [--turns N] [--only NAME] [--tq PROGRAM] [--instructions] [OTHER [WORD..]]

The inputs are the same at every run. Four have 16,777,216 bytes of lines at 6 levels: `marks` has
the lines `cost`, `down` and `up`, and a few that are refused; in `choices` half of the lines are
`choose`; in `purposes` the costs are two, one for reading and one for writing, and half of the
lines are choices for the one or the other; `transactions` has clients that begin, read, write and
commit or abort, some of them step by step, while servers fail and return. `board` and `refresh` time one such line, on a service of 63
servers and 1,000 files: the time of a run with these lines less that of one without. All but
`purposes` come once more at 10 levels. `mixed` has
4,000,000 bytes of lines of all kinds at 1, 3, 5 and 6 levels, as the other program makes them.
OTHER WORD.. is a program that takes the words `shell --levels 6` after these, and makes lines by
`OTHER gen mixed`. Its output is compared with that of tq, byte for byte. PROGRAM stands in the place
of tq.

With --instructions no time is told, but the instructions that valgrind's callgrind counts, of whole
inputs on their first 600,000 bytes. It needs valgrind.

In each of seven turns, or N, all programs run, one after another, so that a machine whose speed
varies slows down all of them. Told are the least wall time and the least and the median processor
time of each, and tq's speed to the other's by these three and by the median, over the turns, of the
quotient of their processor times: the last is what varies least.
"""
import argparse
import collections
import os
import pathlib
import re
import statistics
import subprocess
import sys
import tempfile
import time

LEVELS, MORE_LEVELS = 6, 10
BYTES, COUNTED_BYTES = 16_777_216, 600_000
TURNS = 7
ROOT = pathlib.Path(__file__).resolve().parent.parent


class Draw:
    """Numbers that look random and are the same at every run."""

    def __init__(self, seed):
        self.state = seed

    def below(self, limit):
        self.state = (self.state * 6364136223846793005 + 1442695040888963407) % 2**64
        return (self.state >> 33) % limit


def change(draw, levels, costs=1):
    """A line that changes a server's cost or mark, or now and then one that is refused."""
    # Half of the servers drawn are near the root, where each quorum has some.
    server = 1 + draw.below(7 if draw.below(2) else 2**levels - 1)
    kind = draw.below(100)
    if kind < 50:
        return f"cost {server} {' '.join(str(1 + draw.below(1_000_000)) for _ in range(costs))}"
    if kind < 70:
        return f"down {server}"
    if kind < 97:
        return f"up {server}"
    return ["up 0", f"cost {server} 0", f"down  {server}", "Choose", "", "cost 1"][draw.below(6)]


def joined(lines):
    return "".join(line + "\n" for line in lines).encode()


def as_many(lines, most):
    """As many of the lines as there is room for."""
    made = []
    size = 0
    for line in lines:
        size += len(line) + 1
        if size > most:
            return joined(made)
        made.append(line)


def marks(levels):
    draw = Draw(1)
    while True:
        yield change(draw, levels)


def choices(levels):
    draw = Draw(1)
    while True:
        yield "choose" if draw.below(2) else change(draw, levels)


def purposes(levels):
    draw = Draw(1)
    while True:
        yield ("choose read", "choose write")[draw.below(2)] if draw.below(2) else change(draw, levels, 2)


TEXT = "the quick brown fox jumps over the lazy dog "


def operation(draw, txn):
    """A read or a write of one of 500 files."""
    file = f"file{draw.below(500)}"
    if draw.below(2):
        return f"read {txn} {file}"
    return f"write {txn} {file} {(TEXT * 3)[: draw.below(100)]}"


def ending(draw, txn):
    """The lines by which a client ends its transaction: a commit that is refused leaves the locks to an abort."""
    kind = draw.below(10)
    if kind < 8:
        return [f"commit {txn}", f"abort {txn}"]
    if kind < 9:
        return [f"abort {txn}"]
    return [f"prepare {txn} 1", f"decide {txn}", f"commit {txn}", f"resolve {txn}", f"apply {txn} 1", f"abort {txn}"]


def transactions(levels):
    """Clients of up to four transactions at once; now and then a server fails, and returns soon."""
    draw = Draw(2)
    begun = 0
    going = []
    while True:
        kind = draw.below(100)
        if len(going) < 4 and (not going or kind < 20):
            begun += 1
            going.append(begun)
            yield "begin"
        elif kind < 70:
            yield operation(draw, going[draw.below(len(going))])
        elif kind < 96:
            yield from ending(draw, going.pop(draw.below(len(going))))
        elif kind < 98:
            server = 1 + draw.below(2**levels - 1)
            yield f"down {server}"
            yield operation(draw, going[draw.below(len(going))]) if going else "choose"
            yield f"up {server}"
        else:
            yield "choose"


def mixed(other, levels):
    """Lines of all kinds that the other program makes."""
    words = [other, "gen", "mixed", "--levels", str(levels), "--bytes", "4000000"]
    return subprocess.run(words, stdout=subprocess.PIPE, check=True).stdout


def many_files(levels):
    """A thousand files, one commit each, while now and then another server is down."""
    draw = Draw(3)
    for number in range(1, 1001):
        server = 1 + draw.below(2**levels - 1)
        yield from [f"down {server}", "begin", f"write {number} file{number} {TEXT}", f"commit {number}", f"up {server}"]


Took = collections.namedtuple("Took", "wall processor")


def run(program, source, answers):
    """The times of a run."""
    with open(source, "rb") as given, open(answers, "wb") as taken:
        start = time.monotonic()
        going = subprocess.Popen(program, stdin=given, stdout=taken)
        _, status, used = os.wait4(going.pid, 0)
        wall = time.monotonic() - start
    if status:
        sys.exit(f"{' '.join(program)}: status {status}")
    return Took(wall, used.ru_utime + used.ru_stime)


def in_turn(runs, turns):
    """The times of these runs, each a program, its input and its output, in each of the turns: a list for each run."""
    return list(zip(*[[run(*it) for it in runs] for _ in range(turns)]))


def least(took, part):
    return min(getattr(it, part) for it in took)


def median(took):
    return statistics.median(it.processor for it in took)


def speeds(own, theirs):
    """tq's speed to the other's: by the least wall and processor times, the medians, and the quotients of the turns."""
    quotients = [other.processor / tq.processor for tq, other in zip(own, theirs)]
    return (
        f"  tq has {least(theirs, 'wall') / least(own, 'wall'):.2f} of the other's speed by wall time;"
        f" by processor time {least(theirs, 'processor') / least(own, 'processor'):.2f} by the least,"
        f" {median(theirs) / median(own):.2f} by the medians, {statistics.median(quotients):.2f} by the turns' quotients"
    )


def memory(program, given):
    """The most memory in KiB that the program had, read when it has taken its whole input."""
    with subprocess.Popen(program, stdin=subprocess.PIPE, stdout=subprocess.DEVNULL) as run:
        run.stdin.write(given)
        run.stdin.flush()
        status = ""
        # It sleeps where it waits for more.
        while "State:\tS" not in status:
            time.sleep(0.1)
            status = pathlib.Path(f"/proc/{run.pid}/status").read_text()
        run.stdin.close()
    return int(status.split("VmHWM:")[1].split()[0])


def compare(name, first, second):
    answers = [pathlib.Path(path).read_bytes() for path in (first, second)]
    if answers[0] != answers[1]:
        sys.exit(f"{name}: the outputs differ")
    print(f"  the outputs are equal, {len(answers[0])} bytes", flush=True)


def whole(name, given, tq, other, turns, folder):
    """Times a whole input."""
    source, first, second = (os.path.join(folder, end) for end in (name, "tq", "other"))
    pathlib.Path(source).write_bytes(given)
    count = given.count(b"\n")
    own, *theirs = in_turn([(tq, source, first), *([(other, source, second)] if other else [])], turns)
    few = b"".join(given.splitlines(keepends=True)[:100])
    print(f"{name}: {count} lines, {len(given)} bytes")
    for what, words, took in [("tq", tq, own), *([("other", other, theirs[0])] if other else [])]:
        print(
            f"  {what:6} wall {least(took, 'wall'):.3f} s, processor {least(took, 'processor'):.3f} s, median {median(took):.3f} s,"
            f" {memory(words, given)} KiB (of 100 lines {memory(words, few)} KiB)",
            flush=True,
        )
    if other:
        print(speeds(own, theirs[0]))
        compare(name, first, second)


def single(name, line, times, levels, tq, other, turns, folder):
    """Times one line on a service of many files: so many of it at the end, less none of it."""
    before = list(many_files(levels))
    runs = []
    for program, words in [("tq", tq), *([("other", other)] if other else [])]:
        for count in (0, times):
            source = os.path.join(folder, f"{name}{count}")
            pathlib.Path(source).write_bytes(joined(before + [line] * count))
            runs.append((words, source, os.path.join(folder, program)))
    took = in_turn(runs, turns)
    print(f"{name}: one line on {2**levels - 1:,} servers and 1,000 files")
    lows, middles = [], []
    for what, without, within in zip(("tq", "other"), took[::2], took[1::2]):
        lows.append((least(within, "processor") - least(without, "processor")) / times)
        middles.append((median(within) - median(without)) / times)
        most = memory(tq if what == "tq" else other, joined([*before, line]))
        print(f"  {what:6} {1000 * lows[-1]:.2f} ms by the least processor times, {1000 * middles[-1]:.2f} ms by the medians, {most} KiB")
    if other:
        print(f"  tq has {lows[1] / lows[0]:.2f} of the other's speed by the least, {middles[1] / middles[0]:.2f} by the medians")
        compare(name, os.path.join(folder, "tq"), os.path.join(folder, "other"))


def counted(words, given, folder):
    """The instructions of a run over this input."""
    source = os.path.join(folder, "lines")
    pathlib.Path(source).write_bytes(given)
    tool = ["valgrind", "--tool=callgrind", f"--callgrind-out-file={folder}/out"]
    with open(source, "rb") as taken:
        ran = subprocess.run([*tool, *words], stdin=taken, stdout=subprocess.DEVNULL, stderr=subprocess.PIPE, text=True, check=True)
    return int(re.search(r"Collected : (\d+)", ran.stderr)[1])


def tell_instructions(name, given, without, times, programs, folder):
    """Tells the instructions of an input, less those of another, for each of so many times."""
    count = [(counted(words, given, folder) - (counted(words, without, folder) if without else 0)) // times for words in programs]
    text = [f"{what} {it / 1e6:.1f} million" for what, it in zip(("tq", "the other"), count)]
    text += [f"tq has {count[1] / count[0]:.2f} of the other's speed"] if len(count) > 1 else []
    print(f"{name}: {given.count(10) - without.count(10):,} lines; {'; '.join(text)}", flush=True)


WHOLE = [("marks", marks), ("choices", choices), ("purposes", purposes), ("transactions", transactions)]
# A line, and how often it is given.
SINGLE = [("board", 10), ("refresh", 1)]


def named(name, levels):
    return name if levels == LEVELS else f"{name}, {levels} levels"


def rows():
    """The name of each input, its levels and its lines, or its line with how often it comes."""
    for levels in (LEVELS, MORE_LEVELS):
        yield from ((named(name, levels), levels, made, None) for name, made in WHOLE if made != purposes or levels == LEVELS)
        yield from ((named(line, levels), levels, line, times) for line, times in SINGLE)


def main():
    asked = argparse.ArgumentParser()
    asked.add_argument("--turns", type=int, default=TURNS)
    asked.add_argument("--only", default="")
    asked.add_argument("--tq")
    asked.add_argument("--instructions", action="store_true")
    asked.add_argument("other", nargs=argparse.REMAINDER)
    asked = asked.parse_args()
    if not asked.tq:
        # The script builds the program where that is needed, and is left out of what is timed.
        subprocess.run([ROOT / "bin/tq", "--version"], stdout=subprocess.DEVNULL, check=True)
    program = asked.tq or str(ROOT / "crates/tq/out/tq")
    called = lambda words, levels: words and [*words, "shell", "--levels", str(levels)]
    with tempfile.TemporaryDirectory() as folder:
        for name, levels, what, times in [it for it in rows() if asked.only in it[0]]:
            tq, other = called([program], levels), called(asked.other, levels)
            if asked.instructions:
                before = joined(many_files(levels)) if times else b""
                given = before + joined([what] * times) if times else as_many(what(levels), COUNTED_BYTES)
                tell_instructions(name, given, before, times or 1, [tq, other] if other else [tq], folder)
            elif times:
                single(name, what, times, levels, tq, other, asked.turns, folder)
            else:
                whole(name, as_many(what(levels), BYTES), tq, other, asked.turns, folder)
        for levels in (1, 3, 5, 6) if asked.other and asked.only in "mixed" and not asked.instructions else ():
            given = mixed(asked.other[0], levels)
            whole(f"mixed, {levels} levels", given, called([program], levels), called(asked.other, levels), asked.turns, folder)


if __name__ == "__main__":
    main()
