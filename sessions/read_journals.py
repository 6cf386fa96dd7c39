#!/usr/bin/env python3
"""sessions/read_journals: a journal file as journals of sessions/plain.py, and a plain shell over them; the other way of sessions/journals.py.

It takes values of the form of journal files, which tools/form.py looks at, and trusts them. A content is the text of its bytes, those that are no UTF-8 among
them, so that no byte is lost on the way."""
import json
import sys

sys.dont_write_bytecode = True
import plain


def content(digits):
    return bytes.fromhex(digits).decode("utf-8", "surrogateescape")


def writes(given):
    return tuple(plain.Write(it["file"], it["version"], content(it["content"])) for it in given)


def held(given):
    return tuple(plain.Held(it["file"], it["mode"], it["since"]) for it in given)


def verdict(given):
    return ("abort",) if given["is"] == "abort" else ("commit", tuple((it["server"], it["number"]) for it in given["votes"]))


def grant(it):
    return plain.Grant(it["server"], it["number"], it["mode"], it["version"], content(it["content"]))


def op(it):
    return plain.Op(it["file"], it["kind"], it["version"], content(it["content"]), tuple(map(grant, it["grants"])))


def vote(it):
    return plain.Vote(it["server"], it["number"], held(it["held"]), writes(it["writes"]))


ASKS = {
    "lock": lambda it: ("lock", it["txn"], it["file"], it["mode"]),
    "prepare": lambda it: ("prepare", it["txn"], writes(it["writes"])),
    "decide": lambda it: ("decide", it["txn"], verdict(it["verdict"]), it["cite"]),
    "release": lambda it: ("release", it["txn"]),
    "peek": lambda it: ("peek", it["file"]),
    "refresh": lambda it: ("refresh", it["file"], it["version"], content(it["content"]), (it["from"]["server"], it["from"]["number"])),
    "crashin": lambda it: ("crash in", ask(it["ask"]), it["after"]),
    "commit": lambda it: ("commit", it["txn"], tuple(map(op, it["ops"])), tuple(map(vote, it["votes"]))),
    "resolve": lambda it: ("resolve", it["txn"]),
    # In format 1 a cost is both costs, and a choice is for reading.
    "setcost": lambda it: ("set cost", it["server"], it.get("read", it.get("cost")), it.get("write", it.get("cost"))),
    "mark": lambda it: ("mark", it["server"], it["up"]),
    "choose": lambda it: ("choose", it.get("purpose", "read")),
}
REPLIES = {
    "granted": lambda it: ("granted", it["version"], content(it["content"])),
    "copy": lambda it: ("copy", it["version"], content(it["content"])),
    "yes": lambda it: ("yes", held(it["held"]), writes(it["writes"])),
    "txn": lambda it: ("txn", it["txn"]),
    "verdict": lambda it: ("verdict", verdict(it["verdict"])),
    "committed": lambda it: ("committed", it["serial"]),
    "chosen": lambda it: ("chosen", tuple(it["servers"]), it["cost"]),
    "costset": lambda it: ("cost set",),
    "refused": lambda it: ("refused", it["code"], *MORE_OF_REFUSALS.get(it["code"], lambda it: ())(it)),
}
MORE_OF_REFUSALS = {
    plain.HELD: lambda it: (it["by"],),
    plain.NOT_LOCKED: lambda it: (it["file"],),
    plain.DECIDED: lambda it: (verdict(it["verdict"]),),
    plain.BAD_EVIDENCE: lambda it: (it["rule"],),
    plain.BLOCKED: lambda it: (tuple(it["servers"]),),
}


def ask(given):
    return ASKS.get(given["is"], lambda it: (it["is"],))(given)


def reply(given):
    return REPLIES.get(given["is"], lambda it: (it["is"],))(given)


def entry(given):
    return ask(given["ask"]), reply(given["reply"])


def shell_over(text):
    """A plain shell over the journals of a file, of which it knows no transaction."""
    file = json.loads(text)
    shell = plain.Shell(file["levels"])
    lists = [*enumerate(file["servers"], 1), ("desk", file["desk"]), ("view", file["view"])]
    for part, entries in lists:
        shell.world.journals[part] = [*map(entry, entries)]
    for server in shell.world.servers:
        for number, (asked, _) in enumerate(shell.world.journals[server], 1):
            _, shell.world.records[server] = plain.server_step(shell.world.records[server], server, number, asked)
    shell.world.check()
    return shell
