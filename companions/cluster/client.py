"""A client of a cluster of `tq` parts: transactions over tree quorums, by Python's standard library alone. Nothing of it is proved.

    client = Client(places.read("/var/lib/tq"))
    text = client.run(lambda txn: client.read(txn, "plan"))
    client.run(lambda txn: client.write(txn, "plan", b"new"))

`run` begins, does the work and commits it, again where it was refused. By hand: `begin`, `read`, `write`, `commit`, `abort`. The locks of a quorum are asked
for at once, and so are its votes. It cites only what it was told, and keeps that as receipts, which `collect` holds against the journals.

Where an answer was lost, the part may have taken the ask, or may yet. A lock is asked for again: it keeps its `since`, and the new entry is cited. A second
Prepare is refused (15), so the vote is looked up in the part's journal. A second Commit tells how the transaction ended (22). All else is asked again. An ask
that comes late may leave a lock, or a vote, that nobody uses: who is held up by it for longer than `patience` ends its transaction."""
import collections
import json
import os
import random
import socket
import time

import places
from links import Redis, Tcp

LOST = None
HELD, PREPARED, NOTHING, DECIDED = 14, 15, 19, 22
FULL = {"code": 2, "is": "refused"}
AT_ONCE, CHUNK = 6, 500


class Fault(Exception):
    """Why a transaction did not commit here."""


class NoAnswer(Fault):
    """A part did not answer, though it was asked again: `part`."""

    def __init__(self, part):
        super().__init__(f"no answer from {places.name(part)}")
        self.part = part


class Refused(Fault):
    """A part refused: `part` and `reply`."""

    def __init__(self, part, reply):
        super().__init__(f"{places.name(part)} refused: {json.dumps(reply, sort_keys=True)}")
        self.part, self.reply = part, reply


class Aborted(Fault):
    """The transaction ended, and not with a commit."""


class Undecided(Fault):
    """The desk does not answer: whether the transaction is committed is not known. `abort` tells it later."""


class Transaction:
    """What a client knows of a transaction: its operations with their grants, its votes, and all servers where it may have a lock."""

    def __init__(self, number):
        self.number, self.ops, self.votes, self.touched = number, [], {}, set()

    def op(self, kind, file):
        return next((it for it in self.ops if (it["kind"], it["file"]) == (kind, file)), None)

    def grants_at(self, server):
        return [(op, grant) for op in self.ops for grant in op["grants"] if grant["server"] == server]

    def writes_at(self, server):
        here = [op for op, _ in self.grants_at(server) if op["kind"] == "write"]
        return [{key: op[key] for key in ("content", "file", "version")} for op in sorted(here, key=lambda it: it["file"])]


class Client:
    def __init__(self, config, name=None, receipts=None, timeout=1.0, patience=3.0):
        """`receipts` is a file that takes a line for each answer; a part is given `timeout` seconds for an answer."""
        self.name = name or f"{socket.gethostname()}-{os.getpid()}-{random.getrandbits(32):08x}"
        self.link = (Redis if config.get("redis") else Tcp)(config, self.name, timeout)
        self.servers, self.receipts, self.patience = range(1, 2 ** config["levels"]), receipts, patience
        self.count, self.trips, self.blocked = 0, 0, {}
        # Verdicts that servers have not heard, and when they are told next. One that falls out is left to who is held up by it.
        self.untold, self.tell_at = collections.deque(maxlen=1000), 0

    # Messages

    def send(self, messages):
        """One round trip of messages (part, members), all at once; of each its answer, or LOST."""
        self.trips += 1
        sent = []
        for part, members in messages:
            self.count += 1
            number = f"{self.name}:{self.count}"
            line = json.dumps(members | {"client": self.name, "id": number}).encode() + b"\n"
            sent.append((part, number, line))
        got = self.link.trip(sent)
        return [got.get(number, LOST) for _, number, _ in sent]

    def ask_once(self, asks):
        return [self.heard(part, ask, it) for (part, ask), it in zip(asks, self.send([(part, {"ask": ask}) for part, ask in asks]))]

    def heard(self, part, ask, message):
        """Number and reply. Memory that was refused is as an answer that was lost."""
        answer = message and message["answer"]
        if not answer or "memory" in answer:
            return LOST
        if "bad" in answer:
            raise ValueError(f"{places.name(part)} calls this no ask: {ask}")
        return self.told(part, ask, answer["number"], answer["reply"]) if "number" in answer else (0, FULL)

    def told(self, part, ask, number, reply):
        if self.receipts:
            self.receipts.write(json.dumps([part, number, ask, reply]) + "\n")
            self.receipts.flush()
        return number, reply

    def ask_all(self, asks, again=AT_ONCE):
        """Of each ask (part, ask) its number and reply. They are asked at once, and those whose answers were lost again; LOST where none came."""
        told = [LOST] * len(asks)
        for turn in range(again):
            left = [at for at, it in enumerate(told) if it is LOST]
            if not left:
                break
            self.wait(turn)
            for at, it in zip(left, self.ask_once([asks[at] for at in left])):
                has_voted = it and asks[at][1]["is"] == "prepare" and it[1].get("code") == PREPARED
                told[at] = self.vote_told(*asks[at], it) if has_voted else it
        return told

    def ask(self, part, ask, again=AT_ONCE):
        told = self.ask_all([(part, ask)], again)[0]
        if told is LOST:
            raise NoAnswer(part)
        return told

    def vote_told(self, server, ask, refusal):
        """The answer to this Prepare that was lost: the last such vote in the server's journal. The refusal where there is none."""
        last = self.length(server)
        while last is not LOST and last > 0:
            first = max(1, last - CHUNK + 1)
            entries = self.entries(server, first, last)
            for number, it in reversed([*enumerate(entries or [], first)]):
                if it["ask"] == ask and it["reply"]["is"] == "yes":
                    return self.told(server, ask, number, it["reply"])
            last = first - 1 if entries is not LOST else LOST
        return refusal if last == 0 else LOST

    def length(self, part):
        """How many entries the part's journal has."""
        it = self.send([(part, {"look": "length"})])[0]
        return it and it["length"]

    def entries(self, part, first, last):
        it = self.send([(part, {"look": [first, last]})])[0]
        return it and it["entries"]

    def wait(self, turn):
        """Longer and longer, up to two seconds, and by chance, so that two clients do not meet again."""
        if turn:
            time.sleep(random.uniform(0, min(2.0, 0.02 * 2**turn)))

    # Transactions

    def begin(self):
        self.tell_again()
        return Transaction(self.ask("desk", {"is": "begin"})[1]["txn"])

    def read(self, txn, file):
        """The bytes of the file: what the transaction itself wrote, else those of its last committed write."""
        op = txn.op("write", file) or txn.op("read", file) or self.operate(txn, "read", file)
        return bytes.fromhex(op["content"])

    def write(self, txn, file, content):
        op = txn.op("write", file) or self.operate(txn, "write", file)
        op["content"] = content.hex()

    def quorum(self, purpose):
        chosen = self.ask("view", {"is": "choose", "purpose": purpose})[1]
        if chosen["is"] != "chosen":
            raise Refused("view", chosen)
        return chosen["servers"]

    def operate(self, txn, kind, file):
        """Locks the file at the quorum that the view chooses; refused, it may have locks at some, which the transaction's end takes away."""
        mode, servers = "exclusive" if kind == "write" else "shared", self.quorum(kind)
        txn.touched |= {*servers}
        ask = {"file": file, "is": "lock", "mode": mode, "txn": txn.number}
        grants = []
        for server, it in zip(servers, self.ask_all([(server, ask) for server in servers], 2)):
            if it is LOST:
                raise NoAnswer(server)
            if it[1]["is"] != "granted":
                raise Refused(server, it[1])
            grants.append({"content": it[1]["content"], "mode": mode, "number": it[0], "server": server, "version": it[1]["version"]})
        newest = max(grants, key=lambda it: it["version"])
        op = {"content": newest["content"], "file": file, "grants": grants, "kind": kind, "version": newest["version"] + (kind == "write")}
        txn.ops.append(op)
        return op

    def commit(self, txn):
        """Commits, and tells as how many-th; None where that answer was lost and the commit stands."""
        self.vote(txn)
        ops = sorted(txn.ops, key=lambda it: (it["file"], it["kind"] == "write"))
        votes = [txn.votes[server] for server in sorted(txn.votes)]
        try:
            at, told = self.ask("desk", {"is": "commit", "ops": ops, "txn": txn.number, "votes": votes}, 4 * AT_ONCE)
        except NoAnswer as fault:
            raise Undecided(str(fault)) from None
        if told["is"] != "committed" and told["code"] != DECIDED:
            raise Refused("desk", told)
        places_of = [{"number": it["number"], "server": it["server"]} for it in votes]
        verdict = told.get("verdict", {"is": "commit", "votes": places_of})
        self.inform(txn.number, txn.touched, at, verdict)
        if verdict["is"] == "abort":
            raise Aborted(f"transaction {txn.number} was aborted by another")
        return told.get("serial")

    def vote(self, txn):
        """Gathers the votes that are missing. One that does not cover a grant is not taken: the lock was lost."""
        voters = sorted({grant["server"] for op in txn.ops for grant in op["grants"]} - {*txn.votes})
        asks = [(server, {"is": "prepare", "txn": txn.number, "writes": txn.writes_at(server)}) for server in voters]
        for server, it in zip(voters, self.ask_all(asks, 3)):
            if it is LOST:
                raise NoAnswer(server)
            if it[1]["is"] != "yes":
                raise Refused(server, it[1])
            since = {held["file"]: held["since"] for held in it[1]["held"]}
            if any(since.get(op["file"], it[0]) > grant["number"] for op, grant in txn.grants_at(server)):
                raise Aborted(f"server {server} lost a lock")
            txn.votes[server] = {"held": it[1]["held"], "number": it[0], "server": server, "writes": it[1]["writes"]}

    def abort(self, txn):
        """Ends the transaction: `abort`, or `commit` where it was committed."""
        return self.end(txn.number, txn.touched)

    def end(self, number, servers):
        """Ends a transaction of this or of another client at these servers, and tells how."""
        try:
            at, told = self.ask("desk", {"is": "resolve", "txn": number}, 4 * AT_ONCE)
        except NoAnswer as fault:
            raise Undecided(str(fault)) from None
        if told["is"] != "verdict":
            raise Refused("desk", told)
        self.inform(number, servers, at, told["verdict"])
        return told["verdict"]["is"]

    def inform(self, number, servers, at, verdict):
        """Brings the verdict. What servers do not answer is kept, and told again before a later transaction."""
        decide = {"cite": at, "is": "decide", "txn": number, "verdict": verdict}
        told = dict(zip(servers, self.ask_once([(server, decide) for server in servers])))
        locked = [server for server, it in told.items() if it and it[1].get("code") == NOTHING]
        if locked:
            told |= dict(zip(locked, self.ask_once([(server, {"is": "release", "txn": number}) for server in locked])))
        left = {server for server, it in told.items() if it is LOST}
        if left:
            self.untold.append((number, left, at, verdict))

    def tell_again(self):
        if self.untold and time.monotonic() > self.tell_at:
            for _ in range(min(AT_ONCE, len(self.untold))):
                self.inform(*self.untold.popleft())
            self.tell_at = time.monotonic() + self.patience

    def run(self, work, tries=20):
        """What `work(txn)` gives, committed: tried again, after longer and longer waits, where it was refused or a server did not answer."""
        for turn in range(tries):
            self.wait(turn)
            txn = given = None
            try:
                txn = self.begin()
                given = work(txn)
                if txn.ops:
                    self.commit(txn)
                return given
            except (Refused, NoAnswer, Aborted) as fault:
                last = fault
            if txn and self.abort(txn) == "commit":
                return given
            self.unblock(last)
        raise Aborted(f"tried {tries} times: {last}")

    def unblock(self, fault):
        """Ends who has held this client up for longer than its patience: its own client is gone, or does not reach the server."""
        if isinstance(fault, Refused) and fault.reply.get("code") == HELD:
            by, now = fault.reply["by"], time.monotonic()
            if now - self.blocked.setdefault((fault.part, by), now) > self.patience:
                self.end(by, [fault.part])
