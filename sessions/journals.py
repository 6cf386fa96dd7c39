"""What the scripts of sessions/ have in common: journals as a file, what an audit of them is to say, the audit itself, and one script as another's module.

Journals are those of sessions/plain.py: of each part, which is a server's number, "desk" or "view", a list of entries (ask, reply)."""
import argparse
import importlib.machinery
import importlib.util
import json
import os
import subprocess
import sys

import plain

HERE = os.path.dirname(os.path.realpath(__file__))
ROOT = os.path.dirname(HERE)
BUILT = "crates/tq/out/tq"


def script(name):
    """A script of sessions/ as a module."""
    loader = importlib.machinery.SourceFileLoader(name, f"{HERE}/{name}")
    made = importlib.util.module_from_spec(importlib.util.spec_from_loader(name, loader))
    # Where a dataclass looks its module up.
    sys.modules[name] = made
    loader.exec_module(made)
    return made


def walks():
    """The script sessions/walks as a module."""
    return script("walks")


def given(about, rounds):
    """The words of a command line: how many rounds, the seed, whether to count, and the program."""
    words = argparse.ArgumentParser(description=about, formatter_class=argparse.RawDescriptionHelpFormatter)
    words.add_argument("--sessions", type=int, default=rounds)
    words.add_argument("--seed", type=int, default=1)
    words.add_argument("--count", action="store_true")
    words.add_argument("program", nargs=argparse.REMAINDER, metavar="PROGRAM")
    read = words.parse_args()
    read.program = read.program or [BUILT if os.access(f"{ROOT}/{BUILT}", os.X_OK) else "./bin/tq"]
    return read


def audited(program, text):
    """What `PROGRAM.. audit` says of a file, and its status."""
    done = subprocess.run([*program, "audit"], cwd=ROOT, input=text, stdout=subprocess.PIPE)
    return done.stdout, done.returncode


def upgraded(program, text):
    """What `PROGRAM.. upgrade` makes of a file, and its status."""
    done = subprocess.run([*program, "upgrade"], cwd=ROOT, input=text, stdout=subprocess.PIPE)
    return done.stdout, done.returncode


# Journals as a file


def content(text):
    return text.encode("utf-8", "surrogateescape").hex()


def writes(all_writes):
    return [{"content": content(one.content), "file": one.file, "version": one.version} for one in all_writes]


def held(locks):
    return [one._asdict() for one in locks]


def verdict(said):
    if said[0] == "abort":
        return {"is": "abort"}
    return {"is": "commit", "votes": [{"number": number, "server": server} for server, number in said[1]]}


def grant(told):
    return told._asdict() | {"content": content(told.content)}


def op(done):
    return done._asdict() | {"content": content(done.content), "grants": list(map(grant, done.grants))}


def vote(given):
    return given._asdict() | {"held": held(given.held), "writes": writes(given.writes)}


ASKS = {
    "lock": lambda txn, file, mode: {"file": file, "mode": mode, "txn": txn},
    "prepare": lambda txn, all_writes: {"txn": txn, "writes": writes(all_writes)},
    "decide": lambda txn, said, cite: {"cite": cite, "txn": txn, "verdict": verdict(said)},
    "release": lambda txn: {"txn": txn},
    "peek": lambda file: {"file": file},
    "refresh": lambda file, version, text, source: {
        "content": content(text), "file": file, "from": {"number": source[1], "server": source[0]}, "version": version},
    "crash in": lambda work, after: {"after": after, "ask": said(ASKS, work)},
    "commit": lambda txn, ops, votes: {"ops": list(map(op, ops)), "txn": txn, "votes": list(map(vote, votes))},
    "resolve": lambda txn: {"txn": txn},
    "set cost": lambda server, read, write: {"read": read, "server": server, "write": write},
    "mark": lambda server, up: {"server": server, "up": up},
    "choose": lambda purpose: {"purpose": purpose},
}
REPLIES = {
    "granted": lambda version, text: {"content": content(text), "version": version},
    "copy": lambda version, text: {"content": content(text), "version": version},
    "yes": lambda locks, all_writes: {"held": held(locks), "writes": writes(all_writes)},
    "txn": lambda txn: {"txn": txn},
    "verdict": lambda said: {"verdict": verdict(said)},
    "committed": lambda serial: {"serial": serial},
    "chosen": lambda servers, cost: {"cost": cost, "servers": list(servers)},
}
MORE_OF_REFUSALS = {
    plain.HELD: lambda txn: {"by": txn},
    plain.NOT_LOCKED: lambda file: {"file": file},
    plain.DECIDED: lambda said: {"verdict": verdict(said)},
    plain.BAD_EVIDENCE: lambda rule: {"rule": rule},
    plain.BLOCKED: lambda servers: {"servers": list(servers)},
}


def said(table, words):
    """An ask or a reply as an object."""
    more = table.get(words[0], lambda: {})
    return {"is": words[0].replace(" ", "")} | more(*words[1:])


def entry(asked, reply):
    if reply[0] != "refused":
        return {"ask": said(ASKS, asked), "reply": said(REPLIES, reply)}
    more = MORE_OF_REFUSALS.get(reply[1], lambda: {})
    return {"ask": said(ASKS, asked), "reply": {"code": reply[1], "is": "refused"} | more(*reply[2:])}


def file_of(levels, journals):
    lists = {part: [entry(*one) for one in journals[part]] for part in journals}
    limits = {"entries": plain.MOST_ENTRIES, "files": plain.MOST_FILES, "ops": plain.MOST_OPS}
    servers = [lists[server] for server in range(1, 2**levels)]
    return {"desk": lists["desk"], "format": 2, "levels": levels, "limits": limits, "servers": servers, "view": lists["view"]}


def as_old(journals):
    """The journals with each cost for writing that for reading, and each choice for reading: those that a file of format 1 can tell of."""
    asks = {"set cost": lambda server, read, _write: (server, read, read), "choose": lambda _purpose: ("read",)}
    view = [((asked[0], *asks[asked[0]](*asked[1:])) if asked[0] in asks else asked, reply) for asked, reply in journals["view"]]
    return journals | {"view": view}


def old_of(file):
    """The file in format 1, where its journals are such."""
    asks = {"setcost": lambda ask: {"cost": ask["read"], "is": "setcost", "server": ask["server"]}, "choose": lambda _ask: {"is": "choose"}}
    view = [one | {"ask": asks.get(one["ask"]["is"], dict)(one["ask"])} for one in file["view"]]
    return file | {"format": 1, "view": view}


def text_of(file):
    return json.dumps(file, separators=(",", ":"), sort_keys=True).encode() + b"\n"


# What an audit is to say


def first_wrong(levels, journals, view_reply=plain.view_reply):
    """The first entry that its part would not give: servers upwards, then the desk, then the view."""
    for server in range(1, 2**levels):
        records = plain.Records()
        for number, (asked, reply) in enumerate(journals[server], 1):
            replied, records = plain.server_step(records, server, number, asked)
            if replied != reply:
                return server, number
    for part, reply_of in (("desk", plain.desk_reply), ("view", view_reply)):
        for number, (asked, reply) in enumerate(journals[part], 1):
            if reply_of(levels, journals[part][: number - 1], asked) != reply:
                return part, number
    return None


def placed(levels, journals):
    """All first entries that can be placed."""
    world, went_on = plain.World(levels), True
    while went_on:
        went_on = False
        for part, entries in journals.items():
            at = len(world.journals[part])
            while at < len(entries) and all(world.stands(*cited) for cited in world.citations(entries[at][0])):
                world.journals[part].append(entries[at])
                at, went_on = at + 1, True
    return {part: len(world.journals[part]) for part in journals}


def wrong_at(part, number):
    return f"wrong {plain.part_name(part)} entry {number}\n".encode(), 3


def wanted(levels, journals):
    wrong = first_wrong(levels, journals)
    assert is_so_by_one(levels, journals, wrong), (journals, wrong)
    return wrong_at(*wrong) if wrong else of_counts(levels, journals, placed(levels, journals))


def of_counts(levels, journals, counts):
    """What is said of journals without a wrong entry of which so many entries can be placed."""
    if all(counts[part] == len(journals[part]) for part in journals):
        return f"explained {sum(counts.values())}\n".encode(), 0
    servers = " ".join(str(counts[server]) for server in range(1, 2**levels))
    return f"stuck {servers} desk {counts['desk']} view {counts['view']}\n".encode(), 3


# The view while a server had one cost


def has_equal_costs(journals):
    """Whether each SetCost has two equal costs."""
    return all(ask[2] == ask[3] for ask, _ in journals["view"] if ask[0] == "set cost")


def evened(levels, journals):
    """The journals with the first cost of each SetCost for both purposes, and the view asked anew."""
    view = []
    for ask, _ in journals["view"]:
        ask = (*ask[:3], ask[2]) if ask[0] == "set cost" else ask
        view.append((ask, plain.view_reply(levels, view, ask)))
    return journals | {"view": view}


def cost_by_one(view, server):
    """The server's cost: that of its last SetCost answered CostSet, 1 where there is none."""
    told = [ask[2] for ask, reply in view if ask[:2] == ("set cost", server) and reply == ("cost set",)]
    return told[-1] if told else 1


def reply_by_one(levels, view, ask):
    """What the view replied then: of a SetCost the first cost counts, of a Choose no purpose."""
    if ask[0] == "choose":
        return choice_by_one(levels, view)
    if not 0 < ask[1] < 2**levels:
        return "refused", plain.NO_SERVER
    if ask[0] == "mark":
        return ("marked",)
    return ("cost set",) if 0 < ask[2] <= plain.MOST_COST else ("refused", plain.BAD_COST)


def choice_by_one(levels, view):
    """Of the quorums that are up the first of least cost, with its cost; where none is, the first that is all down."""
    servers, up = range(1, 2**levels), plain.marked_up(levels, view)
    cost = {server: cost_by_one(view, server) for server in servers}
    quorum = plain.best(levels, 1, cost, up)
    if quorum:
        return "chosen", tuple(sorted(quorum)), sum(map(cost.get, quorum))
    blocker = plain.best(levels, 1, dict.fromkeys(servers, 0), frozenset(servers) - up)
    return "refused", plain.BLOCKED, tuple(sorted(blocker))


def is_so_by_one(levels, journals, wrong):
    """Whether a replay by one cost finds the same first wrong entry, where each SetCost has two equal costs."""
    return not has_equal_costs(journals) or first_wrong(levels, journals, reply_by_one) == wrong
