"""A frame of bin/live: the tree, the tables, what helps and the answers, as the rows of a window."""
import textwrap
from typing import NamedTuple

from board import Board, spans

from live import advice
from live.shell import Transactions


class Shown(NamedTuple):
    """What a frame shows: a board, how transactions stand, what helps, all answers so far, how many lines were asked; in a drill not how votes end."""

    board: Board
    txns: Transactions
    told: list
    said: list
    count: int
    is_drill: bool


def cut(text, wide):
    return text if len(text) <= wide else text[: max(0, wide - 3)].rstrip() + " .."


def wrapped(text, wide, indent="   "):
    return textwrap.wrap(text, max(len(indent) + 1, wide), subsequent_indent=indent) or [""]


# The tree, as rows of pieces (text, style)


def mark(it, reads, writes):
    """A server as it is drawn, with its style."""
    both = it.number in reads, it.number in writes
    if any(both):
        around = {(True, True): "[]", (True, False): "()", (False, True): "<>"}[both]
        return f"{around[0]}{it.number}{around[1]}", "quorum"
    if not it.up:
        return f"x{it.number}", "down"
    return str(it.number), "plain" if it.read else "blocked"


def cost_of(it):
    if (it.read_cost, it.write_cost) == (1, 1):
        return ""
    return f":{it.read_cost}" + (f"/{it.write_cost}" if it.write_cost != it.read_cost else "")


def placed(row, wide, texts):
    """The pieces of one row of servers, each in the middle of its part of the width."""
    pieces, used = [], 0
    for at, number in enumerate(row):
        text, style = texts[number]
        start = max(used, int((at + 0.5) * wide / len(row) - len(text) / 2))
        pieces += [(" " * (start - used), "plain"), (text, style)]
        used = start + len(text)
    return pieces


def sides(board, row):
    return [side for number in row for side in (2 * number, 2 * number + 1) if side in board.servers]


def tree(board, top, copies, wide, high):
    """The rows of the tree under `top`, the first row of servers that is not drawn, and of how many servers the costs are not."""
    reads, writes = board.quorums()
    rows, row, no_cost = [], [top], 0
    while row:
        texts = {}
        for number in row:
            text, style = mark(board.servers[number], reads, writes)
            texts[number] = text + (("=" if number in copies.current else "~") if copies else ""), style
        widest = max(len(text) for text, _ in texts.values())
        parts = next((it for it in (1, 2) if widest * len(row) // it <= wide and len(rows) + it <= high), 0)
        if not parts:
            break
        room = wide // (len(row) // min(parts, len(row)))
        for number, (text, style) in texts.items():
            cost = cost_of(board.servers[number])
            fits = len(text + cost) < room
            no_cost += bool(cost) and not fits
            texts[number] = text + cost * fits, style
        # Where the servers of a row do not stand side by side, left sides stand above right sides.
        rows += [placed(row[at::parts], wide, texts) for at in range(parts)]
        row = sides(board, row)
    return rows, row, no_cost


def below(board, tops, copies):
    """What is not seen of the subtrees under these servers: who is down, and the counts of each, those that are the same together."""
    chosen, current = set.union(*board.quorums()), set(copies.current) if copies else set(board.servers)
    down, counts = [], {}
    for top in tops:
        part, row = [top], [top]
        while row := sides(board, row):
            part += row
        lost = [it for it in part if not board.is_up(it)]
        down += lost
        found = len(lost), len(set(part) - current), len(chosen.intersection(part))
        counts.setdefault(", ".join(f"{n} {word}" for n, word in zip(found, ("down", "stale", "in a quorum")) if n), []).append(top)
    if down:
        yield f"down: {spans(sorted(down))}"
    told = sorted((it for it in counts.items() if it[0]), key=lambda it: ("down" not in it[0], "quorum" not in it[0], it[1]))
    if told:
        yield "  ".join(f"{spans(at)}: {text}{' each' if len(at) > 1 else ''}" for text, at in told)


def tree_or_part(board, top, copies, wide, high):
    """The rows of the tree; where not all of it fits, with rows that tell of the rest, and what was left out."""
    rows, hidden, no_cost = tree(board, top, copies, wide, high)
    left = []
    if hidden:
        most = min(4, max(1, high // 3))
        rows, hidden, no_cost = tree(board, top, copies, wide, max(1, high - most))
        told = [wrapped(it, wide) for it in below(board, hidden, copies)]
        fits = shares(min(most, high - len(rows)), [len(it) for it in told])
        for part, count in zip(told, fits):
            rows += [[(it, "plain")] for it in clipped(part, count, wide)]
        left.append(f"the tree from server {hidden[0]} on, :top S draws what is under S")
    return rows, left + [f"the costs of {no_cost} server{'s' * (no_cost > 1)}"] * (no_cost > 0)


def clipped(rows, most, wide):
    """The first rows, with a sign where there are more."""
    return rows if len(rows) <= most else [*rows[: most - 1], cut(rows[most - 1] + " " * wide, wide)] if most else []


# What else a frame has


def head(board, count):
    """Counts and costs first, since it is cut at the window's width."""
    up, top = sum(it.up for it in board.servers.values()), board.servers[1]
    if not top.read:
        told = "NO QUORUM"
    elif top.write == top.read:
        told = f"cost {top.read.cost}  quorum {spans(top.read.servers)}"
    else:
        told = f"cost {top.read.cost}/{top.write.cost}  read {spans(top.read.servers)}  write {spans(top.write.servers)}"
    return f" tq  levels {board.levels}  {up} of {len(board.servers)} up  line {count}  {told}"


def votes(board, txns, is_drill):
    """A row for the open votes of each transaction of each state, what ends them first."""
    groups = {}
    for it in sorted(board.intents, key=lambda it: (it.txn, it.state, it.server)):
        groups.setdefault((it.txn, it.state, " ".join(it.writes) or "-"), []).append(it.server)
    for (txn, state, writes), at in groups.items():
        ends = "" if is_drill else f"  ends by {advice.ways(txns, txn, state, advice.ending(board, txn, state, at))}"
        yield f"T{txn} {state}{ends}  at {spans(at)}  {writes}"


def files(board, chosen, wide):
    """A row for each file: the chosen one first, then those with stale copies; with counts where its servers do not fit."""
    for it in sorted(board.files, key=lambda it: (it.name != chosen, not it.stale)):
        name, servers = f"{it.name} version {it.version}", f"  current {spans(it.current)}  stale {spans(it.stale)}"
        fits = len(name + servers) + 2 <= wide
        yield name + ("" if fits else f"  {len(it.current)} current {len(it.stale)} stale") + servers


def locks(board):
    return [f"T{txn} {mode} {name} at {spans(at)}" for (txn, name, mode), at in board.by_txn().items()]


def idle(board, txns):
    """Transactions that are open and have no lock, as one row; none where there are none."""
    found = set(txns.open()) - {it.txn for it in [*board.locks, *board.intents]}
    return [f"open without locks ({len(found)}): T{spans(sorted(found)).replace(' ', ' T')}"] if found else []


def table(title, rows, most, wide):
    """The rows of a table under its title; with a cut where there are more than fit."""
    more = len(rows) - most
    yield [(f"{title} ({len(rows)})", "title"), (f"  {more} not shown, :rows shows all" if more > 0 else "", "plain")]
    for row in rows[: max(0, most)]:
        yield [(cut("  " + row, wide), "plain")]


def shares(room, wanted):
    """How many rows each table gets of the room: no more than it has, those with fewer first."""
    given = [0] * len(wanted)
    for count, at in enumerate(sorted(range(len(wanted)), key=lambda at: wanted[at])):
        given[at] = min(wanted[at], max(0, room) // (len(wanted) - count))
        room -= given[at]
    return given


def answers(said, wide, most):
    """As many of the last answers as there are rows: the last of all takes what it needs, the others a row each."""
    if not said:
        return []
    parts = [said[-1][at : at + wide] for at in range(0, len(said[-1]), max(1, wide))] or [""]
    last = clipped(parts, most, wide)
    earlier = most - len(last)
    return [cut(it, wide) for it in said[:-1][-earlier:] * (earlier > 0)] + last


class Screen:
    """How frames are drawn: the file whose copies are marked, the top of the tree, whether all rows are shown."""

    STYLES = {"head": "7", "title": "1", "quorum": "1;37;42", "down": "31", "blocked": "2", "advice": "36", "rule": "2", "plain": ""}

    def __init__(self, colour, chosen=None):
        self.colour, self.chosen, self.top, self.all = colour, chosen, 1, False

    def ink(self, pieces, wide):
        """A row as text, cut to the width."""
        text = ""
        for piece, style in pieces:
            piece = piece[:wide]
            wide -= len(piece)
            code = self.STYLES[style] if self.colour and piece else ""
            text += f"\033[{code}m{piece}\033[0m" if code else piece
        return text if self.colour else text.rstrip()

    def rows(self, shown, size):
        """The rows of a frame as pieces, which leave one of the screen for the line that is typed."""
        wide, high = size
        board, least = shown.board, max(1, min(12, high // 6))
        helps = [row for it in shown.told for row in wrapped("-> " + it, wide)]
        helps = clipped(helps, max(0, min(high // 6, high - 7 - least)), wide)
        copies = next((it for it in board.files if it.name == self.chosen), None)
        others = idle(board, shown.txns)[: max(0, high - 7 - least - len(helps))]
        rows, left = tree_or_part(board, self.top, copies, wide, max(1, high - least - len(helps) - len(others) - 7))
        helps += [cut(f"-> left out: {it}", wide) for it in left][: max(0, high - 6 - least - len(rows) - len(helps) - len(others))]
        tables = {"files": list(files(board, self.chosen, wide)), "locks": locks(board), "open votes": list(votes(board, shown.txns, shown.is_drill))}
        room = high - 1 - len(rows) - len(helps) - len(tables) - len(others) - 2
        most = [len(it) for it in tables.values()] if self.all else shares(room - least, [len(it) for it in tables.values()])
        yield [(cut(head(board, shown.count), wide).ljust(wide), "head")]
        yield from rows
        for (title, found), fits in zip(tables.items(), most):
            yield from table(title, found, fits, wide)
        yield from ([(cut(it, wide), "title")] for it in others)
        yield from ([(it, "advice")] for it in helps)
        yield [("-" * wide, "rule")]
        yield from ([(it, "plain")] for it in answers(shown.said, wide, max(least, room - sum(most))))

    def frame(self, shown, size):
        return (self.ink(row, size[0]) for row in self.rows(shown, size))
