"""Tests of what bin/live adds for operators: hints, lines that end and unblock, sessions that last, steps and drills."""
import itertools
import os
import random
import re
import resource
import signal
import subprocess
import types

import plain
from board import Board
from journals import ROOT
from live import advice, running, session
from live.drills import DRILLS, drill
from live.lines import FORMS, wrong_word
from live.shell import Shell, Transactions
from screens import TITLE, WINDOW, put, ran

SESSIONS, LINES, BAD_LINES, SEED, DRILLED = 80, 40, 1_500, 1, 24


class Watched:
    """A shell that hears its own answers."""

    def __init__(self, tq, levels):
        self.shell, self.txns = Shell([tq, "shell", "--levels", str(levels)]), Transactions()

    def ask(self, line):
        answers = self.shell.ask(line)
        self.txns.hear(line, answers)
        self.last = answers[-1] if answers else ""
        return self.last

    def asked(self, lines):
        """The lines, which were asked."""
        for line in lines:
            self.ask(line)
        return lines

    def board(self):
        return Board(self.shell.ask("board"))


# Hints


def thrown(dice, levels, txns):
    """A line that may well be refused; of a transaction that is newer rather than older."""
    servers = range(1, 2**levels)
    txn, server, name = max(1, txns - dice.randrange(3)), dice.choice(servers), dice.choice("ab")
    often = [f"read {txn} {name}", f"write {txn} {name} x", f"prepare {txn} {server}", f"up {server}", f"cost {server} {dice.randrange(1, 9)}"]
    seldom = ["begin", f"down {server}", f"commit {txn}", f"abort {txn}", f"apply {txn} {server}", f"resolve {txn}", "refresh"]
    stops = [f"prepare {txn} {server} crash {dice.randrange(3)}", f"apply {txn} {server} crash {dice.randrange(3)}"]
    return [dice.choice(often * 2 + seldom + stops)]


def staged(dice, levels, txns):
    """A transaction that goes as far as the dice say, one step after another."""
    txn, servers = txns + 1, list(range(1, 2**levels))
    lines = ["begin", f"cost {dice.choice(servers)} {dice.randrange(1, 9)}", f"{dice.choice(['read', 'write'])} {txn} {dice.choice('ab')}"]
    lines += [f"{dice.choice(['read', 'write'])} {txn} {dice.choice('ab')}"] * dice.randrange(2)
    lines += [f"prepare {txn} {it}" for it in servers if dice.random() < 0.9] + [f"down {dice.choice(servers)}"] * (dice.random() < 0.3)
    return [*lines, f"decide {txn}", f"apply {txn} {dice.choice(servers)}"][: dice.randrange(3, len(lines) + 3)]


def advised(tq, seed):
    """What is told to end a transaction leaves no row of it, what is told to unblock gives a quorum: in a random session and at its end."""
    dice, levels = random.Random(seed), 1 + seed % 3
    one, lines = Watched(tq, levels), []
    while len(lines) < LINES:
        lines += one.asked(dice.choice([thrown, staged])(dice, levels, len(one.txns.states)))
        held = re.fullmatch(r"held by (\d+) at \d+", one.last)
        if held and dice.random() < 0.3:
            lines += one.asked(advice.end(one.board(), one.txns, int(held[1])))
            if advice.rows_of(one.board(), int(held[1]))[1]:
                yield f"these lines leave something of transaction {held[1]}: {lines}"
    lines += one.asked(advice.unblocking(one.board()))
    if not one.board().servers[1].read:
        yield f"these lines give no quorum: {lines}"
    for txn in one.txns.states:
        lines += one.asked(advice.end(one.board(), one.txns, txn))
    if one.board().locks or one.board().intents:
        yield f"these lines leave something of a transaction: {lines}"
    one.shell.end()


def left_lock(tq):
    """A lock that a committed transaction has where it has no vote is told to end with a crash, since nothing else ends it."""
    one = Watched(tq, 2)
    one.asked(["cost 2 5", "begin", "read 1 a", "begin", "write 2 b x", "cost 2 1", "cost 1 5", "write 1 b y", "prepare 1 1", "prepare 1 3", "decide 1"])
    ending = advice.end(one.board(), one.txns, 1)
    one.asked(ending)
    if ending != ["apply 1 1", "down 2", "up 2", "apply 1 3"] or advice.rows_of(one.board(), 1)[1]:
        yield f"a lock of a committed transaction without a vote is ended by {ending}"
    one.shell.end()


def fewest(seed):
    """No fewer servers than `missing` names give a quorum of a board of three levels."""
    dice = random.Random(seed)
    down = set(dice.sample(range(1, 8), dice.randrange(8)))
    rows = [f"server {it} cost 1 1 {'down' if it in down else 'up'} read none write none" for it in range(1, 8)]
    named = Board(["board levels 3", *rows, "end"]).missing()
    quorums = [set(it) for it in plain.members(3, 1)]
    least = min(len(quorum & down) for quorum in quorums)
    if len(named) != least or not any(quorum.isdisjoint(down - set(named)) for quorum in quorums):
        yield f"{named} are not the fewest of {down} that give a quorum"


def bad_lines(tq):
    """A hint says what is wrong with a line where tq says that it is a bad one, and nowhere else."""
    dice, one = random.Random(SEED), Watched(tq, 2)
    good = [f"{word} {form}".replace("TEXT", "some text").replace("F", "a.b").replace("read|write", "read") for word in FORMS for form in FORMS[word]]
    good = [re.sub("[TSCRWK]", "1", line).rstrip() for line in good]
    words = ["", " ", "1", "01", "-1", "a", "A", "crash", "x" * 33, str(2**64), str(2**32), "y" * 4001, "\t", "\xe9", "write", "\r", "begin"]
    kinds = {True: 0, False: 0}
    for _ in range(BAD_LINES):
        parts = dice.choice(good).split(" ")
        for _ in range(dice.randrange(3)):
            at = dice.randrange(len(parts) + 1)
            parts[at : at + dice.randrange(2)] = [dice.choice(words)] * dice.randrange(2)
        line = " ".join(parts)
        if not line.removesuffix("\r"):
            continue
        is_bad = one.ask(line) == "bad line"
        kinds[is_bad] += 1
        if is_bad != bool(wrong_word(line)):
            yield f"the hint for {line[:200]!r} is {wrong_word(line)}"
    one.shell.end()
    told = ['"wrte" begins no line, "write" does', '"A" is no file name', '"x" is no number', "S is missing: down S", '"2" is too much: commit T']
    for line, hint in zip(["wrte 1 a x", "read 1 A", "up x", "down", "commit 1 2"], told):
        if hint not in wrong_word(line):
            yield f"the hint for {line} is {wrong_word(line)}"
    if min(kinds.values()) < BAD_LINES / 10:
        yield f"the lines are of too few kinds: {kinds}"


# Sessions that last


def kept(path):
    with open(path, encoding="utf-8") as it:
        return it.read()


def lasting(tq, folder):
    """The lines of a session are kept and taken again; half a last line is mended with a word; a file that is full or taken is told."""
    path, more = f"{folder}/session", put(f"{folder}/more", "read 1 b\n:rows\n")
    words = ["--levels", "2", "--transcript", "--session", path]
    ran(tq, *words, input=b"begin\nwrite 1 a x\n:foo\n\nwrte\n")
    if kept(path) != "begin\nwrite 1 a x\nwrte\n":
        yield f"a session keeps {kept(path)}"
    put(path, kept(path) + "commi")
    done = ran(tq, *words, more, input=b"commit 1\n")
    said = f'{path}: half a last line, which was not answered, is cut off: "commi"\n> read 1 b\nb version 0 from 1 2 []\n> :rows\n> commit 1\ncommitted 1\n'
    if done.stdout.decode() != said or kept(path) != "begin\nwrite 1 a x\nwrte\nread 1 b\ncommit 1\n":
        yield f"a session that is taken up again: {done}, {kept(path)}"
    # There is room for the first line and a part of the second.
    size = len(kept(path)) + 9
    small = lambda: resource.setrlimit(resource.RLIMIT_FSIZE, (size, size))
    done = ran(tq, *words, input=b"begin\nwrite 2 a y\n", preexec_fn=small)
    if b"File too large: the line was not asked" not in done.stdout or not kept(path).endswith("commit 1\nbegin\n"):
        yield f"a session whose file is full: {done}, {kept(path)}"


def taken(tq, folder):
    """A line is on the disk when it is answered, and another session does not take the file meanwhile."""
    path = f"{folder}/taken"
    words = ["bin/live", "--program", tq, "--levels", "2", "--transcript", "--session", path]
    with subprocess.Popen(words, cwd=ROOT, stdin=subprocess.PIPE, stdout=subprocess.PIPE) as one:
        one.stdin.write(b"begin\n")
        one.stdin.flush()
        one.stdout.readline(), one.stdout.readline()
        other = ran(tq, *words[3:], input=b"begin\n")
        one.send_signal(signal.SIGKILL)
    if kept(path) != "begin\n" or (other.returncode, other.stderr.decode()) != (1, f"bin/live: {path}: another session has it\n"):
        yield f"a session that was killed: {kept(path)}; another one: {other}"


class Typed:
    """A place where these lines are typed, and what comes is noted."""

    def __init__(self, lines, events):
        self.lines, self.events, self.is_silent, self.has_colour, self.is_broken_off = lines, events, False, False, False
        self.remember = self.echo = self.say = lambda _: None
        self.has_more = lambda: False

    def show(self, _):
        self.events.append("frame")

    def line(self):
        if not self.lines:
            raise EOFError
        return self.lines.pop(0)


def order(tq, folder):
    """A typed line is written through before it is asked, lines of a file before the frame behind them."""
    events, sync, more = [], os.fsync, put(f"{folder}/two", "read 1 a\nread 1 b\n")

    class Asked(Shell):
        def ask(self, line):
            events.append(line)
            return super().ask(line)

    given = types.SimpleNamespace(file=None, step=None, drill=None, paths=[], stop=False, transcript=False)
    os.fsync = lambda file: events.append("disk") or sync(file)
    try:
        shell = Asked([tq, "shell", "--levels", "2"])
        running.Live(given, shell, Typed(["begin", f":source {more}"], events), session.Session(f"{folder}/order")).run()
        shell.end()
    finally:
        os.fsync = sync
    wanted = "disk disk|board|frame|disk|begin|board|frame|read 1 a|disk|read 1 b|board|frame".replace("disk disk", "disk|disk").split("|")
    if events != wanted:
        yield f"a session writes and asks in this order: {events}"


# Steps and drills


def steps(tq, folder):
    """Enter goes on and b goes back: wherever the same lines were taken, a frame shows the same."""
    script = ["begin", "write 1 a x", ":top 2", "", "down 1", "read 1 b"]
    path, keys, frames, places, taken = put(f"{folder}/steps", "".join(f"{it}\n" for it in script)), "eeeebbbebbbbeedbeeeeeebb", [], [()], ()
    typed = "".join({"e": "\n", "b": "b\n", "d": "down 3\n"}[it] for it in keys)
    printed = ran(tq, "--levels", "2", "--plain", "--step", path, input=typed.encode(), env=os.environ | WINDOW).stdout.decode()
    for key, part in zip(keys + "b", printed.split(TITLE)[1:]):
        rows = part.rstrip("\n").split("\n")
        # Behind a frame the next line is told, unless it goes back.
        frames.append(rows if key == "b" else rows[:-1])
    for key in keys:
        at = sum(it != "d" for it in taken)
        taken = taken[:-1] if key == "b" else taken if key == "e" and at == len(script) else (*taken, at if key == "e" else "d")
        places.append(taken)
    shown = {}
    for place, frame in zip(places, frames):
        if shown.setdefault(place, frame) != frame:
            yield "\n".join([f"behind {place} a step shows first", *shown[place], "and then", *frame])
    if len(frames) != len(places) or len({tuple(it) for it in frames}) != len(shown):
        yield f"--step shows {len(frames)} frames for {len(places)} places, of which {len(shown)} differ"


def boards(tq, one, lines):
    """The boards behind each of these lines, which come behind those of the drill."""
    data = "".join(f"{it}\n" for it in one.lines) + "".join(f"{it}\nboard\n" for it in lines)
    printed = subprocess.run([tq, "shell", "--levels", str(one.levels)], input=data.encode(), stdout=subprocess.PIPE, check=False).stdout.decode().split("\n")
    starts = [at for at, row in enumerate(printed) if row.startswith("board levels ")]
    return [Board(printed[at : printed.index("end", at) + 1]) for at in starts]


def drills(tq):
    """The fewest lines of each drill reach its goal, and no fewer do, of all lines that end transactions, bring servers up or down, or refresh."""
    for seed in range(1, DRILLED + 1):
        one = drill(seed)
        servers, txns = range(1, 2**one.levels), range(1, one.lines.count("begin") + 1)
        tried = [f"{word} {server}" for server in servers for word in ("up", "down")] + ["refresh"]
        tried += [f"{word} {txn}" for txn in txns for word in ("commit", "abort", "resolve", "decide")]
        tried += [f"{word} {txn} {server}" for server in servers for txn in txns for word in ("apply", "prepare")]
        if [one.is_reached(it) for it in boards(tq, one, one.fewest)] != [False] * (len(one.fewest) - 1) + [True]:
            yield f"{one.fewest} are not how drill {seed} is done"
        for lines in itertools.product(tried, repeat=len(one.fewest) - 1):
            if any(map(one.is_reached, boards(tq, one, lines or ["choose"]))):
                yield f"drill {seed} is done by {lines}"


def told_drills(tq):
    """A drill tells when its goal is reached, and in how many lines."""
    for at, name in enumerate(DRILLS, 1):
        one = drill(at)
        lines = ["choose", "begin", *one.fewest]
        printed = ran(tq, "--drill", name, "--transcript", input="".join(f"{it}\n" for it in lines).encode()).stdout.decode()
        if f"the goal is reached in {len(one.fewest) + 1} lines; the fewest are {len(one.fewest)}: {', '.join(one.fewest)}\n" not in printed:
            yield f"drill {name} tells {printed}"


def listed():
    """The document with the twelve drills in its table, as they are."""
    with open(f"{ROOT}/docs/OPERATORS.md", encoding="utf-8") as it:
        text = it.read()
    before, head, behind = text.partition("| Drill | Goal | Fewest lines |\n|---|---|---|\n")
    rows = [f"| `{one.name}` | {one.goal} | {len(one.fewest)} |\n" for one in map(drill, range(1, len(DRILLS) + 1))]
    return "docs/OPERATORS.md", before + head + "".join(rows) + re.sub(r"\A(\|.*\n)*", "", behind)


def faults(tq, folder):
    tests = [bad_lines(tq), lasting(tq, folder), taken(tq, folder), order(tq, folder), steps(tq, folder), drills(tq), told_drills(tq), left_lock(tq)]
    tests += [advised(tq, seed) for seed in range(SEED, SEED + SESSIONS)] + [fewest(seed) for seed in range(SEED, SEED + SESSIONS)]
    return [it for test in tests for it in test]
