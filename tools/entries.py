"""The entries of a journal file, what they cite, and an order that explains them: what tools/picture draws and tools/why tells.

A part is "view", "desk" or a server's number; an entry is the object {"ask", "reply"} of the file, and its number is its place, from 1."""


def parts_of(file):
    """The journals of all parts: the view, the desk, then the servers."""
    return {"view": file["view"], "desk": file["desk"]} | dict(enumerate(file["servers"], 1))


def name(part):
    return part if isinstance(part, str) else f"server {part}"


def work_of(ask):
    """The ask, or the one inside which a server stopped."""
    return ask["ask"] if ask["is"] == "crashin" else ask


def txn_of(entry):
    """The transaction that the entry is of, None where it is of none."""
    return work_of(entry["ask"]).get("txn", entry["reply"].get("txn"))


# What an ask cites: (part, number, what it is to have told in words, test of the entry)


def citations(ask):
    """What the ask cites, in order."""
    ask = work_of(ask)
    cites = {"commit": of_commit, "decide": of_decide, "refresh": of_refresh}
    return cites[ask["is"]](ask) if ask["is"] in cites else []


def of_commit(ask):
    txn, found = ask["txn"], []
    for op in ask["ops"]:
        for it in op["grants"]:
            asked = {"is": "lock", "txn": txn, "file": op["file"], "mode": it["mode"]}
            told = {"is": "granted", "version": it["version"], "content": it["content"]}
            words = f"a {it['mode']} lock of {op['file']} granted to T{txn} with version {it['version']}"
            found.append((it["server"], it["number"], words, equals(asked, told)))
    for it in ask["votes"]:
        asked = {"is": "prepare", "txn": txn, "writes": it["writes"]}
        told = {"is": "yes", "held": it["held"], "writes": it["writes"]}
        found.append((it["server"], it["number"], f"this vote for T{txn}", equals(asked, told)))
    return found


def of_decide(ask):
    words = f"the verdict {ask['verdict']['is']} of T{ask['txn']}"
    return [("desk", ask["cite"], words, lambda it: tells(it, ask["txn"]) == ask["verdict"])]


def of_refresh(ask):
    told = {"is": "copy", "version": ask["version"], "content": ask["content"]}
    words = f"a copy of {ask['file']} with version {ask['version']}"
    return [(ask["from"]["server"], ask["from"]["number"], words, equals({"is": "peek", "file": ask["file"]}, told))]


def equals(ask, reply):
    """Whether ask and reply are these; digits of contents of either case."""
    wanted = lowered({"ask": ask, "reply": reply})
    return lambda it: lowered({"ask": it["ask"], "reply": it["reply"]}) == wanted


def lowered(value):
    if isinstance(value, list):
        return [lowered(it) for it in value]
    if isinstance(value, dict):
        return {key: it.lower() if key == "content" else lowered(it) for key, it in value.items()}
    return value


def tells(entry, txn):
    """The verdict of the transaction that an entry of the desk tells, None where it tells none."""
    ask, reply = entry["ask"], entry["reply"]
    if ask.get("txn") != txn:
        return None
    if reply["is"] == "committed":
        return {"is": "commit", "votes": [{"number": it["number"], "server": it["server"]} for it in ask["votes"]]}
    return reply.get("verdict")


# An order


class Order:
    """An order of as many entries as have one: each behind those that it cites, the first transaction first where it may be.

    `entries` are (part, number); `placed` is how many of each part; `waiting` has, of each part with entries left, what its next one waits for, as
    (part, number, words, whether an entry of that number stands there but told otherwise)."""

    def __init__(self, parts):
        self.parts, self.entries, self.placed, self.waiting = parts, [], dict.fromkeys(parts, 0), {}
        self.to_begin = {it["reply"].get("txn") for it in parts["desk"] if it["ask"]["is"] == "begin"}
        self.look(parts)
        while ready := [part for part, waits in self.waiting.items() if not waits]:
            self.place(min(ready, key=self.wish))

    def look(self, parts):
        """Finds anew what the next entries of these parts wait for."""
        for part in parts:
            self.waiting.pop(part, None)
            if self.placed[part] < len(self.parts[part]):
                cited = citations(self.parts[part][self.placed[part]]["ask"])
                missing = [it[:3] for it in cited if not self.is_founded(it[0], it[1], it[3])]
                self.waiting[part] = [(*it, self.stands(*it[:2])) for it in missing]

    def stands(self, part, number):
        return part in self.parts and 1 <= number <= len(self.parts[part])

    def is_founded(self, part, number, is_told):
        return self.stands(part, number) and number <= self.placed[part] and is_told(self.parts[part][number - 1])

    def place(self, part):
        entry = self.parts[part][self.placed[part]]
        self.placed[part] += 1
        self.entries.append((part, self.placed[part]))
        if part == "desk" and entry["ask"]["is"] == "begin":
            self.to_begin.discard(txn_of(entry))
        self.look([part, *(other for other, waits in self.waiting.items() if other != part and part in [it[0] for it in waits])])

    def wish(self, part):
        """What is placed first of the entries that may be: none of a transaction before its begin, then the least transaction."""
        txn = txn_of(self.parts[part][self.placed[part]])
        return part != "desk" and txn in self.to_begin, txn or 0, str(part).zfill(5)


# Asks and replies in words

REFUSALS = {
    2: "journal full", 3: "unfounded", 11: "down", 12: "up already", 13: "down already", 14: "held by T{by}", 15: "prepared", 16: "not locked {file}",
    17: "bad writes", 18: "not newer", 19: "nothing here", 21: "no such transaction", 22: "decided {verdict[is]}", 23: "bad evidence {rule}",
    24: "too many operations", 25: "too many files", 31: "no such server", 32: "bad cost", 33: "blocked by {servers}",
}  # fmt: skip

ASKS = {
    "lock": lambda it: f"lock {it['file']} {it['mode']}",
    "prepare": lambda it: f"prepare {writes(it['writes'])}",
    "decide": lambda it: f"end {it['verdict']['is']} (desk {it['cite']})",
    "peek": lambda it: f"peek {it['file']}",
    "refresh": lambda it: f"refresh {it['file']}:{it['version']} (server {it['from']['server']} {it['from']['number']})",
    "crashin": lambda it: f"stop behind {it['after']} of {asked(it['ask'])}",
    "commit": lambda it: f"commit {operations(it['ops'])}",
    "mark": lambda it: f"mark {it['server']} {'up' if it['up'] else 'down'}",
    "setcost": lambda it: f"cost {it['server']} {it['cost']}" if "cost" in it else f"cost {it['server']} {it['read']} {it['write']}",
    "choose": lambda it: f"choose {it.get('purpose', '')}".rstrip(),
}
REPLIES = {
    "granted": lambda it: f"granted version {it['version']} [{content(it['content'])}]",
    "copy": lambda it: f"version {it['version']} [{content(it['content'])}]",
    "yes": lambda it: f"yes, holds {listed(one['file'] for one in it['held'])}",
    "txn": lambda it: f"T{it['txn']}",
    "committed": lambda it: f"committed {it['serial']}",
    "verdict": lambda it: f"verdict {it['verdict']['is']}",
    "chosen": lambda it: f"{listed(it['servers'])} cost {it['cost']}",
    "costset": lambda _: "ok",
    "marked": lambda _: "ok",
    "refused": lambda it: "refused: " + REFUSALS[it["code"]].format(**it | {"servers": listed(it.get("servers", []))}),
}


def asked(ask):
    """An ask in words, without its transaction."""
    return ASKS.get(ask["is"], lambda it: it["is"])(ask)


def replied(reply):
    return REPLIES.get(reply["is"], lambda it: it["is"])(reply)


def listed(items):
    return " ".join(map(str, items)) or "-"


def writes(all_writes):
    return listed(f"{it['file']}:{it['version']}" for it in all_writes)


def operations(ops):
    return listed(f"{it['kind'][0]} {it['file']}:{it['version']}" for it in ops)


def content(digits):
    """A content as text where all of it can be printed, else its digits."""
    text = bytes.fromhex(digits).decode("latin-1")
    return text if text.isascii() and text.isprintable() else digits
