"""The board of `tq shell` as values: what bin/live and tools/picture draw, and tools/board hands on.

A board is read from its rows, `board levels L` up to `end`; other rows raise NotBoard. A server's row has a cost and a least-cost quorum for each purpose;
the row of a tree with one cost (`cost C MARK least K by S..`) is read as the same for both. `text_of` gives the rows back."""
import re
from typing import NamedTuple

HEAD, END = "board levels ", "end"
BEST = r"(none|(\d+) by ([\d ]+?))"
SERVER = re.compile(rf"server (\d+) cost (\d+)(?: (\d+))? (up|down) (?:least|read) {BEST}(?: write {BEST})?$")
FILE = re.compile(r"file (\S+) version (\d+) current ([\d -]+) stale ([\d -]+)$")
LOCK = re.compile(r"lock (\d+) (\S+) (\d+) (\S+) since (\d+) version (\d+)$")
INTENT = re.compile(r"intent (\d+) (\d+) number (\d+) (\S+) (.+)$")


class NotBoard(Exception):
    """Rows that are no board, and why."""


class Quorum(NamedTuple):
    cost: int
    servers: list


class Server(NamedTuple):
    """A server; `read` and `write` are the least-cost quorums of its subtree, None where none is left."""

    number: int
    read_cost: int
    write_cost: int
    up: bool
    read: Quorum
    write: Quorum


class File(NamedTuple):
    name: str
    version: int
    current: list
    stale: list


class Lock(NamedTuple):
    server: int
    file: str
    txn: int
    mode: str
    since: int
    version: int


class Intent(NamedTuple):
    """An open vote of a server; its writes as `F:V` texts."""

    server: int
    txn: int
    number: int
    state: str
    writes: list


def numbers(text):
    return [] if text == "-" else [int(it) for it in text.split()]


def quorum(text, cost, servers):
    return None if text == "none" else Quorum(int(cost), numbers(servers))


def server(row):
    number, cost, write_cost, mark, *best = SERVER.match(row).groups()
    read, write = quorum(*best[:3]), quorum(*(best[3:] if best[3] else best[:3]))
    return Server(int(number), int(cost), int(write_cost or cost), mark == "up", read, write)


def file(row):
    name, version, current, stale = FILE.match(row).groups()
    return File(name, int(version), numbers(current), numbers(stale))


def lock(row):
    at, name, txn, mode, since, version = LOCK.match(row).groups()
    return Lock(int(at), name, int(txn), mode, int(since), int(version))


def intent(row):
    at, txn, number, state, writes = INTENT.match(row).groups()
    return Intent(int(at), int(txn), int(number), state, [] if writes == "-" else writes.split())


class Board:
    """The rows of a board, from `board levels L` to `end`."""

    def __init__(self, rows):
        kinds = {"server": server, "file": file, "lock": lock, "intent": intent}
        read = {kind: [] for kind in kinds}
        for row in rows[1:-1]:
            kind = row.split(" ", 1)[0]
            try:
                read[kind].append(kinds[kind](row))
            except (AttributeError, KeyError):
                raise NotBoard(f"this is no row of a board: {row}") from None
        levels = rows[0].removeprefix(HEAD)
        if not re.fullmatch("[1-9]|10", levels) or [it.number for it in read["server"]] != list(range(1, 2 ** int(levels))):
            raise NotBoard(f"the rows are not those of the servers of {levels} levels")
        self.levels = int(levels)
        self.servers = {it.number: it for it in read["server"]}
        self.files, self.locks, self.intents = read["file"], read["lock"], read["intent"]

    def is_up(self, number):
        return self.servers[number].up

    def quorums(self):
        """The quorum for reading and that for writing, each as a set, empty where none is left."""
        top = self.servers[1]
        return [set(it.servers) if it else set() for it in (top.read, top.write)]

    def missing(self, number=1):
        """The fewest servers that, brought up, give the subtree a quorum."""
        own = [] if self.is_up(number) else [number]
        if 2 * number not in self.servers:
            return own
        left, right = self.missing(2 * number), self.missing(2 * number + 1)
        return min([own + left, own + right, left + right], key=len)

    def mendable(self):
        """The files with a stale copy at a server that is up, and a current one at another that is."""
        some = lambda servers: any(map(self.is_up, servers))
        return [it for it in self.files if some(it.stale) and some(it.current)]

    def by_txn(self):
        """The servers of the locks of each transaction, by (transaction, file, mode)."""
        found = {}
        for it in sorted(self.locks, key=lambda it: (it.txn, it.file, it.mode, it.server)):
            found.setdefault((it.txn, it.file, it.mode), []).append(it.server)
        return found


# A board as its rows


def listed(items):
    return " ".join(map(str, items)) or "-"


def best_text(best):
    return f"{best.cost} by {listed(best.servers)}" if best else "none"


def text_of(board):
    """The rows of the board, as `tq shell` prints them."""
    rows = [f"{HEAD}{board.levels}"]
    for it in board.servers.values():
        mark = "up" if it.up else "down"
        rows.append(f"server {it.number} cost {it.read_cost} {it.write_cost} {mark} read {best_text(it.read)} write {best_text(it.write)}")
    rows += [f"file {it.name} version {it.version} current {listed(it.current)} stale {listed(it.stale)}" for it in board.files]
    rows += [f"lock {it.server} {it.file} {it.txn} {it.mode} since {it.since} version {it.version}" for it in board.locks]
    rows += [f"intent {it.server} {it.txn} number {it.number} {it.state} {listed(it.writes)}" for it in board.intents]
    return [*rows, END]


# Rows in a longer text


def last(rows):
    """The rows of the last whole board of a text, None where there is none."""
    starts = [at for at, row in enumerate(rows) if row.startswith(HEAD)]
    for at in reversed(starts):
        if END in rows[at:]:
            return rows[at : rows.index(END, at) + 1]
    return None


def spans(numbers):
    """1 2 3 4 7 as `1-4 7`, so that rows of large trees stay short; `-` for none."""
    told, at = [], 0
    while at < len(numbers):
        to = at
        while to + 1 < len(numbers) and numbers[to + 1] == numbers[to] + 1:
            to += 1
        told += [f"{numbers[at]}-{numbers[to]}"] if to - at > 1 else map(str, numbers[at : to + 1])
        at = to + 1
    return " ".join(told) or "-"
