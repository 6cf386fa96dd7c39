#!/usr/bin/env python3
"""sessions/plain.py shell --levels N: what `tq shell --levels N` is to print, by a plain slow program.

It is written from the definitions in docs/DEFINITIONS.md and the lines in docs/OPERATORS.md, to compare sessions with. Nothing is clever in it:

- A tree's quorums are a list; the best and the blocker are looked for in the whole of it (for more than 4 levels see `of_sides`).
- Each part keeps the journal of its asks with its replies. Desk and view have nothing else: what they reply is read off their journals. Of a
  server the records after its journal are kept too, and `World.check` replays the journals from nothing and compares.
- A server's copies and open votes are read off its list of stable records, the tables off all journals, each time that they are wanted.

Asks, replies and stable records are tuples whose first word says what they are; an entry of a journal is (ask, reply), and its number is its place,
from 1. A refusal is ("refused", code, ..). Servers are their numbers, file names and contents are text."""
import functools
import re
import sys
from typing import NamedTuple

MOST_LEVELS, LISTED_LEVELS = 10, 4
PURPOSES = ["read", "write"]
MOST_COST = 1_000_000
MOST_FILES, MOST_OPS, MOST_ENTRIES = 1_000, 64, 1_000_000
MOST_NUMBER, MOST_COUNT = 2**64 - 1, 2**32 - 1
LINE_LIMIT, TEXT_LIMIT, INPUT_LIMIT = 4_200, 4_000, 16_777_216

FULL, UNFOUNDED, DOWN, ALREADY_UP, ALREADY_DOWN, HELD, PREPARED, NOT_LOCKED = 2, 3, 11, 12, 13, 14, 15, 16
BAD_WRITES, NOT_NEWER, NOTHING_HERE, NO_TXN, DECIDED, BAD_EVIDENCE, MANY_OPS, MANY_FILES = 17, 18, 19, 21, 22, 23, 24, 25
NO_SERVER, BAD_COST, BLOCKED = 31, 32, 33


class Lock(NamedTuple):
    """A lock of a server: since the entry `since`, when the copy had this version."""

    file: str
    txn: int
    mode: str
    since: int
    version: int


class Records(NamedTuple):
    """The records of a server: its stable list, its locks, and whether it is down."""

    stable: tuple = ()
    locks: tuple = ()
    down: bool = False


class Held(NamedTuple):
    """A lock as a vote lists it."""

    file: str
    mode: str
    since: int


class Write(NamedTuple):
    file: str
    version: int
    content: str


class Grant(NamedTuple):
    """What a server told in the entry of that number when it granted a lock."""

    server: int
    number: int
    mode: str
    version: int
    content: str


class Op(NamedTuple):
    """A read or a write of a transaction, with the grants of its quorum."""

    file: str
    kind: str
    version: int
    content: str
    grants: tuple

    def servers(self):
        return [grant.server for grant in self.grants]


class Vote(NamedTuple):
    server: int
    number: int
    held: tuple
    writes: tuple


# The tree and its quorums


@functools.cache
def members(levels, server):
    """The members of a subtree, in order: of a leaf the leaf alone; else the top with each member of the left side, then the top with each member
    of the right side, then each member of the left side joined with each of the right side, those of the left outermost."""
    top, left, right = frozenset([server]), 2 * server, 2 * server + 1
    if left >= 2**levels:
        return [top]
    lefts, rights = members(levels, left), members(levels, right)
    return [top | q for q in lefts] + [top | q for q in rights] + [q | p for q in lefts for p in rights]


def of_sides(levels, server, cost, allowed):
    """In place of the list of members, which is too long for more than 4 levels: its three kinds, of each the first that is least.

    The top's cost is the same in all of a kind, so its first least one has the first least member of the side. Of the pairs the least have a least
    member of each side, and the first of them the first of each, since the order is by the left one, then by the right one."""
    top, left, right = frozenset([server]), 2 * server, 2 * server + 1
    if left >= 2**levels:
        return [top]
    q, p = (best(levels, side, cost, allowed, of_sides) for side in (left, right))
    kinds = [q and top | q, p and top | p, q and p and q | p]
    return [kind for kind in kinds if kind]


def listed_members(levels, server, _cost, _allowed):
    return members(levels, server)


def best(levels, server, cost, allowed, listed=None):
    """The first set of least cost among the members of the subtree whose servers are all allowed; None where there is none."""
    listed = listed or (listed_members if levels <= LISTED_LEVELS else of_sides)
    sets = [q for q in listed(levels, server, cost, allowed) if q <= allowed]
    return min(sets, key=lambda q: sum(cost[one] for one in q), default=None)


def is_member(levels, server, servers):
    if levels <= LISTED_LEVELS:
        return servers in members(levels, server)
    return fits_sides(levels, server, servers)


def fits_sides(levels, server, servers):
    """Whether the set is a member of the subtree, by the kind that it has to be; in place of the list for more than 4 levels."""
    left, right = 2 * server, 2 * server + 1
    if left >= 2**levels:
        return servers == {server}
    if server in servers:
        return any(fits_sides(levels, side, servers - {server}) for side in (left, right))
    of_left = frozenset(one for one in servers if is_under(left, one))
    return fits_sides(levels, left, of_left) and fits_sides(levels, right, servers - of_left)


def is_under(top, server):
    """Whether steps to the parent lead from the server to the top."""
    while server > top:
        server //= 2
    return server == top


# The view


def costs(levels, view, purpose):
    """Each server's cost for this purpose, "read" or "write": that of its last SetCost answered CostSet, 1 where there is none."""
    cost = dict.fromkeys(range(1, 2**levels), 1)
    for ask, reply in view:
        if ask[0] == "set cost" and reply[0] == "cost set":
            cost[ask[1]] = ask[2 + PURPOSES.index(purpose)]
    return cost


def marked_up(levels, view):
    """The servers whose last Mark is up, or that have none."""
    up = dict.fromkeys(range(1, 2**levels), True)
    for ask, reply in view:
        if ask[0] == "mark" and reply[0] == "marked":
            up[ask[1]] = ask[2]
    return frozenset(server for server in up if up[server])


def view_reply(levels, view, ask):
    """What the view replies after the entries of its journal."""
    if ask[0] == "choose":
        return choice(levels, view, ask[1])
    if not 1 <= ask[1] < 2**levels:
        return "refused", NO_SERVER
    if ask[0] == "mark":
        return ("marked",)
    return ("cost set",) if all(1 <= cost <= MOST_COST for cost in ask[2:]) else ("refused", BAD_COST)


def choice(levels, view, purpose):
    """The best quorum for this purpose with its cost, or the first member that is all down."""
    cost, up = costs(levels, view, purpose), marked_up(levels, view)
    quorum = best(levels, 1, cost, up)
    if quorum:
        return "chosen", tuple(sorted(quorum)), sum(cost[server] for server in quorum)
    blocker = best(levels, 1, dict.fromkeys(cost, 0), frozenset(cost) - up)
    return "refused", BLOCKED, tuple(sorted(blocker))


# A server: what its stable records keep


def copy_of(stable, file):
    """Version and content of the first of the file's copies with the greatest version; version 0 and no content where there is none."""
    copies = [(record[2], record[3]) for record in stable if record[0] == "copy" and record[1] == file and record[2] > 0]
    return max(copies, key=lambda copy: copy[0], default=(0, ""))


def open_votes(stable):
    """The open votes, as (transaction, number): those that are prepared and not gone."""
    gone = {record[1:] for record in stable if record[0] == "gone"}
    return [record[1:] for record in stable if record[0] == "prepared" and record[1:] not in gone]


def vote_of(stable, txn):
    """The number of the transaction's open vote, None where there is none."""
    return next((number for of, number in open_votes(stable) if of == txn), None)


def vote_writes(stable, txn, number):
    return tuple(Write(*record[3:]) for record in stable if record[:3] == ("intent", txn, number))


def kept_locks(stable):
    """The locks of the open votes."""
    voted = open_votes(stable)
    kept = [record for record in stable if record[0] == "keep" and (record[1], record[2]) in voted]
    return tuple(Lock(file, txn, mode, since, version) for _, txn, _, file, mode, since, version in kept)


# A server: its step. Each gives the reply and the records afterwards


def locks_of(records, txn):
    return sorted(lock for lock in records.locks if lock.txn == txn)


def without(records, txn):
    return tuple(lock for lock in records.locks if lock.txn != txn)


def step_lock(records, _server, number, txn, file, mode):
    if vote_of(records.stable, txn):
        return ("refused", PREPARED), records
    of_file = [lock for lock in records.locks if lock.file == file]
    blocking = [lock.txn for lock in of_file if lock.txn != txn and "exclusive" in (mode, lock.mode)]
    if blocking:
        return ("refused", HELD, min(blocking)), records
    version, content = copy_of(records.stable, file)
    mine = [lock for lock in of_file if lock.txn == txn]
    lock = mine[0] if mine else Lock(file, txn, mode, number, version)
    if mode == "exclusive":
        lock = lock._replace(mode=mode)
    others = tuple(one for one in records.locks if one not in mine)
    return ("granted", version, content), records._replace(locks=(*others, lock))


def step_prepare(records, _server, number, txn, writes):
    files, held = [write.file for write in writes], locks_of(records, txn)
    if vote_of(records.stable, txn):
        return ("refused", PREPARED), records
    if len(writes) > MOST_OPS or any(a >= b for a, b in zip(files, files[1:])):
        return ("refused", BAD_WRITES), records
    missing = [file for file in files if file not in [lock.file for lock in held if lock.mode == "exclusive"]]
    if missing:
        return ("refused", NOT_LOCKED, missing[0]), records
    if not held:
        return ("refused", NOTHING_HERE), records
    intents = [("intent", txn, number, *write) for write in writes]
    keeps = [("keep", txn, number, lock.file, lock.mode, lock.since, lock.version) for lock in held]
    stable = (*records.stable, *intents, *keeps, ("prepared", txn, number))
    return ("yes", tuple(Held(lock.file, lock.mode, lock.since) for lock in held), writes), records._replace(stable=stable)


def step_decide(records, server, _number, txn, verdict, _cite):
    voted = vote_of(records.stable, txn)
    if not voted:
        return ("refused", NOTHING_HERE), records
    installs = verdict[0] == "commit" and (server, voted) in verdict[1]
    writes = vote_writes(records.stable, txn, voted) if installs else ()
    copies = [("copy", *write) for write in writes if write.version > copy_of(records.stable, write.file)[0]]
    after = Records((*records.stable, *copies, ("gone", txn, voted)), without(records, txn))
    return ("installed" if installs else "discarded",), after


def step_release(records, _server, _number, txn):
    if vote_of(records.stable, txn):
        return ("refused", PREPARED), records
    if not locks_of(records, txn):
        return ("refused", NOTHING_HERE), records
    return ("released",), records._replace(locks=without(records, txn))


def step_peek(records, _server, _number, file):
    return ("copy", *copy_of(records.stable, file)), records


def step_refresh(records, _server, _number, file, version, content, _source):
    if version <= copy_of(records.stable, file)[0]:
        return ("refused", NOT_NEWER), records
    return ("refreshed",), records._replace(stable=(*records.stable, ("copy", file, version, content)))


def step_crash(records, _server, _number):
    if records.down:
        return ("refused", ALREADY_DOWN), records
    return ("crashed",), Records(records.stable, kept_locks(records.stable), True)


def step_return(records, _server, _number):
    if not records.down:
        return ("refused", ALREADY_UP), records
    return ("returned",), records._replace(down=False)


def step_crash_in(records, server, number, work, after):
    """The first records that the work writes are kept, and then the server is as after a crash."""
    if records.down:
        return ("refused", ALREADY_DOWN), records
    _, worked = server_step(records, server, number, work)
    written = worked.stable[len(records.stable) :]
    stable = (*records.stable, *written[:after])
    return ("crashed",), Records(stable, kept_locks(stable), True)


SERVER_STEPS = {
    "lock": step_lock,
    "prepare": step_prepare,
    "decide": step_decide,
    "release": step_release,
    "peek": step_peek,
    "refresh": step_refresh,
    "crash": step_crash,
    "crash in": step_crash_in,
    "return": step_return,
}


def server_step(records, server, number, ask):
    """What the server replies to an ask under this number, and its records afterwards. A refusal leaves them as they are."""
    if records.down and ask[0] not in ("crash", "crash in", "return"):
        return ("refused", DOWN), records
    return SERVER_STEPS[ask[0]](records, server, number, *ask[1:])


# The evidence rules, each a test on the ops and the votes of one Commit


def ascends(items):
    return all(a < b for a, b in zip(items, items[1:]))


def are_members(levels, ops, _votes):
    return all(ascends(op.servers()) and is_member(levels, 1, frozenset(op.servers())) for op in ops)


def are_exclusive(_levels, ops, _votes):
    return all(grant.mode == "exclusive" for op in ops if op.kind == "write" for grant in op.grants)


def covers(vote, file, grant):
    """Whether the vote holds the file since no later than the grant, which is before the vote."""
    return any(held.file == file and held.since <= grant.number < vote.number for held in vote.held)


def are_unbroken(_levels, ops, votes):
    voters = [vote.server for vote in votes]
    if not ascends(voters) or set(voters) != {server for op in ops for server in op.servers()}:
        return False
    of = {vote.server: vote for vote in votes}
    return all(covers(of[grant.server], op.file, grant) for op in ops for grant in op.grants)


def writes_at(ops, server):
    """The writes of the ops that have the server, ascending by file."""
    here = [op for op in ops if op.kind == "write" and server in op.servers()]
    return tuple(Write(op.file, op.version, op.content) for op in sorted(here, key=lambda op: op.file))


def are_voted(_levels, ops, votes):
    return all(vote.writes == writes_at(ops, vote.server) for vote in votes)


def newest(grants):
    """The first grant of the greatest version."""
    return max(grants, key=lambda grant: grant.version)


def has_its_version(op):
    told = newest(op.grants)
    if op.kind == "write":
        return op.version == told.version + 1
    return (op.version, op.content) == (told.version, told.content)


def are_in_order(_levels, ops, _votes):
    """The ops ascend by file, within a file the read stands before the write, one of each at most, and each has its version."""
    return ascends([(op.file, op.kind == "write") for op in ops]) and all(has_its_version(op) for op in ops)


def are_some(_levels, ops, _votes):
    return len(ops) > 0


EVIDENCE_RULES = [are_members, are_exclusive, are_unbroken, are_voted, are_in_order, are_some]


def failed_rule(levels, ops, votes):
    """The number of the first rule that fails, None where all hold."""
    return next((number for number, holds in enumerate(EVIDENCE_RULES, 1) if not holds(levels, ops, votes)), None)


# The desk


def begun(desk):
    """The greatest number of a transaction so far: that of the last reply to a Begin."""
    return next((reply[1] for _, reply in reversed(desk) if reply[0] == "txn"), 0)


def final(desk, txn):
    """The first end recorded for the transaction, None where there is none."""
    for ask, reply in desk:
        if ask[0] == "commit" and ask[1] == txn and reply[0] == "committed":
            return "commit", tuple((vote.server, vote.number) for vote in ask[3])
        if ask[0] == "resolve" and ask[1] == txn and reply[0] == "verdict":
            return ("abort",)
    return None


def commits(desk):
    """The ops of each commit, in order."""
    return [ask[2] for ask, reply in desk if reply[0] == "committed"]


def written(ops):
    return {op.file for op in ops if op.kind == "write"}


def desk_reply(levels, desk, ask):
    """What the desk replies after the entries of its journal."""
    if ask[0] == "begin":
        return "txn", begun(desk) + 1
    txn = ask[1]
    if not 1 <= txn <= begun(desk):
        return "refused", NO_TXN
    end = final(desk, txn)
    if ask[0] == "resolve":
        return "verdict", end or ("abort",)
    return ("refused", DECIDED, end) if end else commit_reply(levels, desk, ask[2], ask[3])


def commit_reply(levels, desk, ops, votes):
    """The reply to a Commit of a transaction that has no end yet."""
    if len(ops) > MOST_OPS:
        return "refused", MANY_OPS
    rule = failed_rule(levels, ops, votes)
    if rule:
        return "refused", BAD_EVIDENCE, rule
    before = commits(desk)
    if len(written(ops).union(*map(written, before))) > MOST_FILES:
        return "refused", MANY_FILES
    return "committed", len(before) + 1


# All parts together


class World:
    """All journals, and of each server its records after its journal. A part is a server's number, "desk" or "view"."""

    def __init__(self, levels):
        self.levels = levels
        self.servers = range(1, 2**levels)
        self.journals = {part: [] for part in (*self.servers, "desk", "view")}
        self.records = {server: Records() for server in self.servers}

    def ask(self, part, ask):
        """The number of the new entry and the part's reply. A full journal and an unfounded citation are refused, and nothing changes."""
        journal = self.journals[part]
        if len(journal) >= MOST_ENTRIES:
            return 0, ("refused", FULL, part_name(part))
        for cited, at, test in self.citations(ask):
            if not self.stands(cited, at, test):
                return 0, ("refused", UNFOUNDED, part_name(cited), at)
        number = len(journal) + 1
        if part == "desk":
            reply = desk_reply(self.levels, journal, ask)
        elif part == "view":
            reply = view_reply(self.levels, journal, ask)
        else:
            reply, self.records[part] = server_step(self.records[part], part, number, ask)
        journal.append((ask, reply))
        return number, reply

    def citations(self, ask):
        """Each entry that the ask cites: its part, its number, and a test of its ask and its reply."""
        if ask[0] == "commit":
            return commit_citations(ask[1], ask[2], ask[3])
        if ask[0] == "decide":
            return [("desk", ask[3], lambda asked, reply: tells(asked, reply, ask[1]) == ask[2])]
        if ask[0] == "refresh":
            file, version, content, (server, number) = ask[1:]
            return [(server, number, lambda asked, reply: asked == ("peek", file) and reply == ("copy", version, content))]
        return self.citations(ask[1]) if ask[0] == "crash in" else []

    def stands(self, part, number, test):
        journal = self.journals[part]
        return 1 <= number <= len(journal) and test(*journal[number - 1])

    def check(self):
        """Replays all journals from nothing, and holds the committed reads against the commits before them."""
        for server in self.servers:
            records = Records()
            for number, (ask, reply) in enumerate(self.journals[server], 1):
                replied, records = server_step(records, server, number, ask)
                assert replied == reply, (server, number, ask, reply, replied)
            assert records == self.records[server], (server, records)
            assert set(kept_locks(records.stable)) <= set(records.locks), (server, records)
        for part, replies in (("desk", desk_reply), ("view", view_reply)):
            before = []
            for ask, reply in self.journals[part]:
                assert replies(self.levels, before, ask) == reply, (part, len(before) + 1, ask, reply)
                before.append((ask, reply))
        check_committed_reads(commits(self.journals["desk"]))


def part_name(part):
    return part if part in ("desk", "view") else f"server {part}"


def commit_citations(txn, ops, votes):
    """The grants of the ops in order, then the votes."""
    cited = []
    for op in ops:
        for grant in op.grants:
            asked, replied = ("lock", txn, op.file, grant.mode), ("granted", grant.version, grant.content)
            cited.append((grant.server, grant.number, lambda ask, reply, a=asked, r=replied: ask == a and reply == r))
    for vote in votes:
        asked, replied = ("prepare", txn, vote.writes), ("yes", vote.held, vote.writes)
        cited.append((vote.server, vote.number, lambda ask, reply, a=asked, r=replied: ask == a and reply == r))
    return cited


def tells(asked, reply, txn):
    """The verdict of the transaction that an entry of the desk tells, None where it tells none."""
    if asked[0] == "begin" or asked[1] != txn:
        return None
    if reply[0] == "committed":
        return "commit", tuple((vote.server, vote.number) for vote in asked[3])
    if reply[0] == "verdict":
        return reply[1]
    return reply[2] if reply[:2] == ("refused", DECIDED) else None


def check_committed_reads(all_commits):
    """Each read has the content of the last commit before it that wrote the file, and as version how many did; each write is one more."""
    for at, ops in enumerate(all_commits):
        for op in ops:
            before = [one for earlier in all_commits[:at] for one in earlier if one.kind == "write" and one.file == op.file]
            if op.kind == "write":
                assert op.version == len(before) + 1, (at, op)
            else:
                assert (op.version, op.content) == (len(before), before[-1].content if before else ""), (at, op)


# The tables


def file_rows(world):
    """Each file that commits write, by the first such commit and within it by name: (file, version, current, stale)."""
    each = [written(ops) for ops in commits(world.journals["desk"])]
    files = list(dict.fromkeys(file for files in each for file in sorted(files)))
    rows = []
    for file in files:
        version = sum(file in files for files in each)
        current = [server for server in world.servers if copy_of(world.records[server].stable, file)[0] >= version]
        rows.append((file, version, current, [server for server in world.servers if server not in current]))
    return rows


def lock_rows(world):
    """All locks, as (server, file, txn, mode, since, version), ascending."""
    return sorted((server, *lock) for server in world.servers for lock in world.records[server].locks)


def intent_rows(world):
    """All open votes, as (server, txn, number, state, writes), ascending."""
    desk, rows = world.journals["desk"], []
    for server in world.servers:
        stable = world.records[server].stable
        for txn, number in sorted(open_votes(stable)):
            rows.append((server, txn, number, intent_state(desk, server, txn, number), vote_writes(stable, txn, number)))
    return rows


def intent_state(desk, server, txn, number):
    """What the desk's log says of an open vote."""
    if not 1 <= txn <= begun(desk):
        return "unknown"
    end = final(desk, txn)
    if not end:
        return "undecided"
    if end[0] == "abort":
        return "abort"
    return "install" if (server, number) in end[1] else "discard"


def refresh_jobs(world):
    """For each file, each stale server that is marked up, with the least current server that is marked up as source."""
    up = marked_up(world.levels, world.journals["view"])
    jobs = []
    for file, _, current, stale in file_rows(world):
        sources = [server for server in current if server in up]
        jobs += [(file, server, sources[0]) for server in stale if server in up and sources]
    return jobs


# Texts


def listed(items):
    return " ".join(map(str, items)) or "-"


def least_text(purpose, cost, quorum):
    if not quorum:
        return f"{purpose} none"
    return f"{purpose} {sum(cost[server] for server in quorum)} by {listed(sorted(quorum))}"


def board(world):
    """The lines of the board."""
    view = world.journals["view"]
    both, up = {purpose: costs(world.levels, view, purpose) for purpose in PURPOSES}, marked_up(world.levels, view)
    lines = [f"board levels {world.levels}"]
    for server in world.servers:
        mark = "up" if server in up else "down"
        least = [least_text(purpose, cost, best(world.levels, server, cost, up)) for purpose, cost in both.items()]
        lines.append(f"server {server} cost {both['read'][server]} {both['write'][server]} {mark} {' '.join(least)}")
    for file, version, current, stale in file_rows(world):
        lines.append(f"file {file} version {version} current {listed(current)} stale {listed(stale)}")
    for server, file, txn, mode, since, version in lock_rows(world):
        lines.append(f"lock {server} {file} {txn} {mode} since {since} version {version}")
    for server, txn, number, state, writes in intent_rows(world):
        lines.append(f"intent {server} {txn} number {number} {state} {listed(f'{write.file}:{write.version}' for write in writes)}")
    return [*lines, "end"]


def refusal_text(part, reply):
    """The text of a part's refusal."""
    code, *more = reply[1:]
    return {
        FULL: "journal full {0}",
        UNFOUNDED: "unfounded {0} {1}",
        DOWN: "down at {part}",
        HELD: "held by {0} at {part}",
        PREPARED: "prepared at {part}",
        NOT_LOCKED: "not locked {0} at {part}",
        BAD_WRITES: "bad writes at {part}",
        NOT_NEWER: "not newer at {part}",
        NOTHING_HERE: "nothing at {part}",
        DECIDED: "decided {0[0]}",
        BAD_EVIDENCE: "bad evidence {0}",
        MANY_OPS: "too many operations",
        MANY_FILES: "too many files",
        BLOCKED: "blocked by {listed}",
    }[code].format(*more, part=part, listed=listed(more[0]) if code == BLOCKED else "")


# The shell


class Ends(Exception):
    """A refusal: it ends its line with its text."""


class Transaction:
    """What the shell knows of a transaction that it began."""

    def __init__(self, number):
        self.number = number
        self.state = "open"
        self.ops = []
        self.votes = {}
        self.granted = set()
        self.verdict = self.cite = None

    def op(self, kind, file):
        return next((op for op in self.ops if (op.kind, op.file) == (kind, file)), None)

    def voters(self):
        return sorted({server for op in self.ops for server in op.servers()})

    def missing(self):
        return [server for server in self.voters() if server not in self.votes]

    def hear(self, verdict, number):
        """A verdict was told in that entry of the desk. After the end nothing changes it."""
        if self.state != "ended":
            self.verdict, self.cite = verdict, number

    def end(self, verdict, number):
        self.hear(verdict, number)
        self.state = "ended"


class Shell:
    """Answers lines, each with a list of lines."""

    def __init__(self, levels):
        self.world = World(levels)
        self.txns = {}

    def answer(self, line):
        """The lines that answer a line of these bytes."""
        if not line:
            return []
        words = read_line(line)
        if words is None:
            return ["bad line"]
        try:
            return getattr(self, f"line_{words[0].replace(' ', '_')}")(*words[1:])
        except Ends as end:
            return [str(end)]

    def ask(self, part, ask):
        """Number and reply; a refusal ends the line."""
        number, reply = self.world.ask(part, ask)
        if reply[0] == "refused":
            raise Ends(refusal_text(part, reply))
        return number, reply

    # Checks, in the order in which they are made

    def known(self, number):
        if number not in self.txns:
            raise Ends(f"no such transaction {number}")
        return self.txns[number]

    def check_server(self, server):
        if server not in self.world.servers:
            raise Ends(f"no such server {server}")

    def check_not_ended(self, txn):
        if txn.state == "ended":
            raise Ends(f"decided {txn.verdict[0]}")

    def take_to_voting(self, txn):
        """The first step to a commit takes an open transaction to voting, unless it has read and written nothing."""
        self.check_not_ended(txn)
        if not txn.ops:
            raise Ends("nothing to commit")
        txn.state = "voting"

    # Lines of operators

    def line_cost(self, server, read, write):
        self.check_server(server)
        for cost in (read, write):
            if not 1 <= cost <= MOST_COST:
                raise Ends(f"bad cost {cost}")
        self.ask("view", ("set cost", server, read, write))
        return ["ok"]

    def line_down(self, server):
        self.check_server(server)
        self.world.ask(server, ("crash",))
        self.ask("view", ("mark", server, False))
        return [f"down {server}"]

    def line_up(self, server):
        self.check_server(server)
        self.world.ask(server, ("return",))
        self.ask("view", ("mark", server, True))
        return [f"up {server}"]

    def line_choose(self, purpose):
        _, (_, quorum, cost) = self.ask("view", ("choose", purpose))
        return [f"quorum {listed(quorum)} cost {cost}"]

    def line_board(self):
        return board(self.world)

    def line_refresh(self):
        jobs, lines, mended = refresh_jobs(self.world), [], 0
        for file, server, source in jobs:
            if self.refresh(file, server, source):
                mended += 1
                lines.append(f"refreshed {file} at {server} from {source}")
            else:
                lines.append(f"not refreshed {file} at {server}")
        return [*lines, f"refreshed {mended} of {len(jobs)}"]

    def refresh(self, file, server, source):
        """Whether the server took the source's copy."""
        number, reply = self.world.ask(source, ("peek", file))
        if reply[0] != "copy":
            return False
        _, taken = self.world.ask(server, ("refresh", file, reply[1], reply[2], (source, number)))
        return taken[0] == "refreshed"

    # Lines of clients

    def line_begin(self):
        _, (_, number) = self.ask("desk", ("begin",))
        self.txns[number] = Transaction(number)
        return [f"begun {number}"]

    def working(self, number):
        """The transaction, if it takes reads and writes."""
        txn = self.known(number)
        self.check_not_ended(txn)
        if txn.state == "voting":
            raise Ends(f"voting {number}")
        return txn

    def line_read(self, number, file):
        txn = self.working(number)
        pending = txn.op("write", file)
        if pending:
            return [f"{file} pending [{pending.content}]"]
        op = txn.op("read", file) or self.operate(txn, "read", file)
        return [f"{file} version {op.version} from {listed(op.servers())} [{op.content}]"]

    def line_write(self, number, file, content):
        txn = self.working(number)
        op = txn.op("write", file) or self.operate(txn, "write", file)
        txn.ops[txn.ops.index(op)] = op._replace(content=content)
        return [f"write {file} version {op.version} at {listed(op.servers())}"]

    def operate(self, txn, kind, file):
        """A new operation: locks at the quorum that is chosen, one after another. Those granted stay, also where one is refused."""
        if len(txn.ops) >= MOST_OPS:
            raise Ends("too many operations")
        mode = "exclusive" if kind == "write" else "shared"
        _, (_, quorum, _) = self.ask("view", ("choose", kind))
        grants = []
        for server in quorum:
            number, (_, version, content) = self.ask(server, ("lock", txn.number, file, mode))
            txn.granted.add(server)
            grants.append(Grant(server, number, mode, version, content))
        told = newest(grants)
        if kind == "write" and told.version == MOST_NUMBER:
            raise Ends("version full")
        op = Op(file, kind, told.version + (kind == "write"), told.content, tuple(grants))
        txn.ops.append(op)
        return op

    def voter(self, number, server):
        """The transaction, taken to voting, if the server is one of its voters."""
        txn = self.known(number)
        self.check_server(server)
        self.take_to_voting(txn)
        if server not in txn.voters():
            raise Ends(f"not a voter {server}")
        return txn

    def line_prepare(self, number, server):
        txn = self.voter(number, server)
        if server not in txn.votes:
            self.gather(txn, server)
        return [f"yes {server}"]

    def line_prepare_crash(self, number, server, after):
        txn = self.voter(number, server)
        if server in txn.votes:
            return [f"yes {server}"]
        return self.stop(server, ("prepare", number, writes_at(txn.ops, server)), after)

    def stop(self, server, work, after):
        """The server stops inside this ask, whatever it answers, and is marked down."""
        self.world.ask(server, ("crash in", work, after))
        self.ask("view", ("mark", server, False))
        return [f"down {server}"]

    def gather(self, txn, server):
        """Asks for a vote. It is taken if it covers all grants of its server."""
        number, (_, held, writes) = self.ask(server, ("prepare", txn.number, writes_at(txn.ops, server)))
        vote = Vote(server, number, held, writes)
        here = [(op.file, grant) for op in txn.ops for grant in op.grants if grant.server == server]
        lost = [file for file, grant in here if not covers(vote, file, grant)]
        if lost:
            raise Ends(f"lost lock {min(lost)} at {server}")
        txn.votes[server] = vote

    def record(self, txn):
        """The desk is asked to record the commit. The transaction ends with it, or where the desk has decided before."""
        ops = tuple(sorted(txn.ops, key=lambda op: (op.file, op.kind == "write")))
        votes = tuple(txn.votes[server] for server in txn.voters())
        number, reply = self.world.ask("desk", ("commit", txn.number, ops, votes))
        if reply[0] == "committed":
            txn.end(("commit", tuple((vote.server, vote.number) for vote in votes)), number)
            return reply[1]
        if reply[1] == DECIDED:
            txn.end(reply[2], number)
        raise Ends(refusal_text("desk", reply))

    def line_decide(self, number):
        txn = self.known(number)
        self.take_to_voting(txn)
        if txn.missing():
            raise Ends(f"votes missing {listed(txn.missing())}")
        return [f"committed {self.record(txn)}"]

    def line_commit(self, number):
        txn = self.known(number)
        self.take_to_voting(txn)
        for server in txn.missing():
            self.gather(txn, server)
        serial = self.record(txn)
        self.ending(txn)
        return [f"committed {serial}"]

    def ending(self, txn):
        """Each server that granted a lock is told the verdict, and where it has no vote its locks are released. Nothing is printed."""
        for server in sorted(txn.granted):
            _, reply = self.world.ask(server, ("decide", txn.number, txn.verdict, txn.cite))
            if reply[:2] == ("refused", NOTHING_HERE):
                self.world.ask(server, ("release", txn.number))

    def line_abort(self, number):
        txn = self.known(number)
        at, (_, verdict) = self.ask("desk", ("resolve", number))
        if verdict[0] == "commit":
            txn.hear(verdict, at)
            raise Ends("decided commit")
        txn.end(verdict, at)
        self.ending(txn)
        return ["aborted"]

    def line_resolve(self, number):
        txn = self.known(number)
        at, (_, verdict) = self.ask("desk", ("resolve", number))
        txn.hear(verdict, at)
        return [f"verdict {verdict[0]}"]

    def told(self, number, server):
        """What the server is asked to end the transaction there, if a verdict was told."""
        txn = self.known(number)
        self.check_server(server)
        if not txn.verdict:
            raise Ends(f"not decided {number}")
        return "decide", number, txn.verdict, txn.cite

    def line_apply(self, number, server):
        _, reply = self.ask(server, self.told(number, server))
        return [f"{reply[0]} {server}"]

    def line_apply_crash(self, number, server, after):
        return self.stop(server, self.told(number, server), after)


# Lines


def read_number(word):
    """Decimal digits without sign or leading zero, below 2^64; None for any other word."""
    return int(word) if re.fullmatch("0|[1-9][0-9]{0,19}", word) and int(word) <= MOST_NUMBER else None


def read_count(word):
    number = read_number(word)
    return number if number is not None and number <= MOST_COUNT else None


def read_name(word):
    return word if re.fullmatch("[a-z][a-z0-9._-]{0,31}", word) else None


def read_text(word):
    return word if len(word) <= TEXT_LIMIT else None


def read_purpose(word):
    return word if word in PURPOSES else None


FORMS = {
    "cost": [read_number, read_number, read_number],
    "down": [read_number],
    "up": [read_number],
    "choose": [read_purpose],
    "begin": [],
    "read": [read_number, read_name],
    "write": [read_number, read_name, read_text],
    "prepare": [read_number, read_number],
    "decide": [read_number],
    "apply": [read_number, read_number],
    "prepare crash": [read_number, read_number, read_count],
    "apply crash": [read_number, read_number, read_count],
    "commit": [read_number],
    "abort": [read_number],
    "resolve": [read_number],
    "refresh": [],
    "board": [],
}


@functools.lru_cache(maxsize=1000)
def read_line(line):
    """The verb of a line with what its words stand for, None for a bad line."""
    if len(line) > LINE_LIMIT or not re.fullmatch(rb"[ -~]*", line):
        return None
    words = line.decode("ascii").split(" ")
    if words[0] == "write" and len(words) >= 3:
        words = [*words[:3], " ".join(words[3:])]
    if words[3:4] == ["crash"] and words[0] in ("prepare", "apply"):
        words = [f"{words[0]} crash", *words[1:3], *words[4:]]
    if words[0] == "cost" and len(words) == 3:
        words = [*words, words[2]]
    if words == ["choose"]:
        words = ["choose", "read"]
    form = FORMS.get(words[0])
    if form is None or len(form) != len(words) - 1:
        return None
    read = [reads(word) for reads, word in zip(form, words[1:])]
    return None if None in read else (words[0], *read)


def lines_of(data):
    """The lines of an input: its parts between line feeds, each without one carriage return before it, and a last one if it has a byte."""
    *ended, last = data.split(b"\n")
    return [line.removesuffix(b"\r") for line in ended] + ([last] if last else [])


def session(levels, data):
    """What a session prints, with its status, after its journals were checked."""
    shell, too_long = Shell(levels), len(data) > INPUT_LIMIT
    if too_long:
        data = data[:INPUT_LIMIT]
        data = data[: data.rfind(b"\n") + 1]
    printed = [line for given in lines_of(data) for line in shell.answer(given)]
    shell.world.check()
    if too_long:
        printed.append("fault too long")
    return "".join(f"{line}\n" for line in printed).encode(), 1 if too_long else 0


def main(words):
    if words[:2] != ["shell", "--levels"] or len(words) != 3 or words[2] not in map(str, range(1, MOST_LEVELS + 1)):
        print("usage: plain.py shell --levels N, N from 1 to 10")
        return 2
    printed, status = session(int(words[2]), sys.stdin.buffer.read())
    sys.stdout.buffer.write(printed)
    return status


if __name__ == "__main__":
    sys.exit(main(sys.argv[1:]))
