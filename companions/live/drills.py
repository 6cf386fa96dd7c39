"""Drills of bin/live: a broken board, a goal, and the fewest lines that reach it.

The seed names the drill, one of twelve, and throws the dice for its servers and its file: seeds 1 to 12 are the twelve in their order."""
import random
from typing import Callable, NamedTuple

NAMES = ["plan", "notes", "budget", "minutes"]
# The quorums of two levels, each with the server that is left out of it.
PAIRS = {(1, 2): 3, (1, 3): 2, (2, 3): 1}


class Drill(NamedTuple):
    """`lines` break the board; `goal` is told, `is_reached` judges a board by it; `fewest` are lines that reach it, and no fewer do."""

    name: str
    levels: int
    lines: list
    goal: str
    is_reached: Callable
    fewest: list


# Goals


def has_quorum(board):
    return board.servers[1].read is not None


def is_free(name):
    writes = lambda it: any(one.rpartition(":")[0] == name for one in it.writes)
    return lambda board: has_quorum(board) and not any(it.file == name for it in board.locks) and not any(map(writes, board.intents))


def is_current(name):
    return lambda board: any(it.name == name and not it.stale for it in board.files)


def is_well(board):
    return all(it.up for it in board.servers.values()) and not (board.locks or board.intents) and not any(it.stale for it in board.files)


# Boards that are broken


def chosen(dice):
    """The lines that have a quorum of two levels chosen, and that quorum."""
    pair = dice.choice(list(PAIRS))
    return [f"cost {PAIRS[pair]} 5"], pair


def written(txn, name):
    return ["begin", f"write {txn} {name} draft {txn}"]


def voted(dice):
    """Transaction 1 has written a file at two servers, and both have voted."""
    lines, pair = chosen(dice)
    name = dice.choice(NAMES)
    return [*lines, *written(1, name), *(f"prepare 1 {it}" for it in pair)], pair, name


def lost(count):
    """No quorum is left, and so many servers give one."""

    def broken(dice):
        while True:
            down = set(dice.sample(range(1, 8), dice.randrange(3, 6)))
            missing = lacking(down, 1)
            if len(missing) == count:
                lines = [*written(1, "plan"), "commit 1", *(f"down {it}" for it in sorted(down)), "begin", "read 2 plan"]
                return 3, lines, "a quorum", has_quorum, [f"up {it}" for it in missing]

    return broken


def lacking(down, top):
    """The fewest servers that, brought up, give the subtree of three levels a quorum."""
    own = [top] if top in down else []
    if top > 3:
        return own
    left, right = lacking(down, 2 * top), lacking(down, 2 * top + 1)
    return min([own + left, own + right, left + right], key=len)


def left_open(dice):
    lines, _ = chosen(dice)
    name = dice.choice(NAMES)
    return 2, [*lines, *written(1, name), *written(2, name)], f"file {name} free", is_free(name), ["abort 1"]


def two_readers(dice):
    lines, _ = chosen(dice)
    name = dice.choice(NAMES)
    lines += ["begin", f"read 1 {name}", "begin", f"read 2 {name}", *written(3, name)]
    return 2, lines, f"file {name} free", is_free(name), ["abort 1", "abort 2"]


def voter_asleep(dice):
    lines, pair, name = voted(dice)
    server = dice.choice(pair)
    return 2, [*lines, f"down {server}"], f"file {name} free", is_free(name), [f"up {server}", "abort 1"]


def not_told(dice):
    lines, pair, name = voted(dice)
    return 2, [*lines, "decide 1", *written(2, name)], f"file {name} free", is_free(name), [f"apply 1 {it}" for it in pair]


def missed_end(dice):
    lines, pair, name = voted(dice)
    server = dice.choice(pair)
    return 2, [*lines, f"down {server}", "commit 1"], f"file {name} free", is_free(name), [f"up {server}", f"apply 1 {server}"]


def stopped_in_vote(dice):
    lines, pair = chosen(dice)
    name, server = dice.choice(NAMES), dice.choice(pair)
    lines += [*written(1, name), f"prepare 1 {server} crash 9"]
    return 2, lines, f"file {name} free", is_free(name), [f"up {server}", "abort 1"]


def stopped_in_end(dice):
    lines, pair, name = voted(dice)
    server = dice.choice(pair)
    lines += ["decide 1", f"apply 1 {server} crash 1"]
    return 2, lines, f"file {name} free", is_free(name), [f"up {server}", *(f"apply 1 {it}" for it in pair)]


def stale_copies(dice):
    name, server = dice.choice(NAMES), dice.randrange(1, 8)
    lines = [f"down {server}", *written(1, name), "commit 1"]
    return 3, lines, f"no stale copy of {name}", is_current(name), [f"up {server}", "refresh"]


def nowhere_yet(dice):
    lines, pair, name = voted(dice)
    return 2, [*lines, "decide 1", "refresh"], f"no stale copy of {name}", is_current(name), [f"apply 1 {pair[0]}", "refresh"]


def all_well(dice):
    lines, pair, _ = voted(dice)
    server = dice.choice(pair)
    lines += [f"down {server}", "commit 1"]
    return 2, lines, "all servers up, no lock, no open vote, no stale copy", is_well, [f"up {server}", f"apply 1 {server}", "refresh"]


DRILLS = {
    "lost-top": lost(1), "two-sides": lost(2), "left-open": left_open, "two-readers": two_readers, "voter-asleep": voter_asleep, "not-told": not_told,
    "missed-end": missed_end, "stopped-in-vote": stopped_in_vote, "stopped-in-end": stopped_in_end, "stale-copies": stale_copies,
    "nowhere-yet": nowhere_yet, "all-well": all_well,
}  # fmt: skip


def drill(seed):
    name = list(DRILLS)[(seed - 1) % len(DRILLS)]
    return Drill(name, *DRILLS[name](random.Random(seed)))
