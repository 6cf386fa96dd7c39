#!/usr/bin/env python3
"""What is told of wrong wrappers: each scene is a cluster of three servers, in which something is wrong round a host. `plants.py HOST WORD..` is a wrong host.
README.md shows the lines that `told` gives; check compares."""
import json
import os
import shutil
import subprocess
import sys

sys.dont_write_bytecode = True
HERE = os.path.dirname(os.path.realpath(__file__))
sys.path.insert(0, HERE)
import client
import harness


# A wrong host


def hasty(host, words):
    """Answers a lock before the host does: that the file is free, and was never written."""
    log = words[words.index("--log") + 1]
    with open(log, "rb") as it:
        number = it.read().count(b"\n")
    with subprocess.Popen([host, *words], stdin=subprocess.PIPE, stdout=subprocess.PIPE) as child:
        for line in sys.stdin.buffer:
            number += 1
            is_lock = json.loads(line)["is"] == "lock"
            if is_lock:
                put({"number": number, "reply": {"content": "", "is": "granted", "version": 0}})
            child.stdin.write(line)
            child.stdin.flush()
            told = child.stdout.readline()
            if not is_lock:
                put(json.loads(told))


def put(answer):
    print(json.dumps(answer, separators=(",", ":"), sort_keys=True), flush=True)


class Loner(client.Client):
    """A client that asks one server, and takes it for a quorum."""

    def quorum(self, _purpose):
        return [3]


# Scenes: each writes file a twice


def write(asker, text):
    asker.run(lambda txn: asker.write(txn, "a", text), 1)


def asker_of(cluster, kind=client.Client):
    name = kind.__name__.lower()
    return kind(cluster.config, name, open(f"{cluster.folder}/receipts/{name}", "w", encoding="utf-8"), timeout=120.0)


def all_well(cluster):
    asker = asker_of(cluster)
    write(asker, b"one")
    write(asker, b"two")


def put_back(cluster):
    """The log of server 1 is replaced by a backup of it."""
    asker = asker_of(cluster)
    write(asker, b"one")
    shutil.copy(cluster.log(1), f"{cluster.folder}/backup")
    write(asker, b"two")
    cluster.kill(1, "host")
    shutil.copy(f"{cluster.folder}/backup", cluster.log(1))
    cluster.start(1)
    cluster.wait([1])
    write(asker, b"three")


def alone(cluster):
    """One client writes at a quorum, another reads at none."""
    write(asker_of(cluster), b"one")
    loner = asker_of(cluster, Loner)
    try:
        loner.run(lambda txn: loner.read(txn, "a"), 1)
    except client.Aborted as fault:
        return str(fault)
    return "it read, and committed"


def edited(cluster):
    """The same, and the desk's log is edited to say that it committed."""
    alone(cluster)
    cluster.kill("desk", "host")
    with open(cluster.log("desk"), "rb") as log:
        text = log.read().replace(b'{"code":23,"is":"refused","rule":1}', b'{"is":"committed","serial":2}')
    with open(cluster.log("desk"), "wb") as log:
        log.write(text)
    cluster.start("desk")
    cluster.running["desk"].wait()
    with open(f"{cluster.folder}/said", encoding="utf-8") as said:
        return said.read().split("\n")[-2]


SCENES = {
    "nothing": all_well,
    "answers before the host's": all_well,
    "a log put back": put_back,
    "a client that reads from no quorum": alone,
    "an edited log": edited,
}


def told(name, folder, host, audit):
    """The lines that audit, receipts and client or part tell in this scene."""
    hosts = {1: wrong_host(f"{folder}-hasty", host)} if name == "answers before the host's" else {}
    with harness.Cluster(folder, 2, host, hosts=hosts) as cluster:
        said = SCENES[name](cluster)
        journals, receipts, _ = cluster.collect()
    first = receipts.split("\n")[0]
    return [it for it in (audit(journals), first, said) if it]


def wrong_host(path, host):
    with open(path, "w", encoding="utf-8") as it:
        it.write(f'#!/bin/sh\nexec {sys.executable} {HERE}/plants.py {host} "$@"\n')
    os.chmod(path, 0o755)
    return path


if __name__ == "__main__":
    sys.exit(hasty(sys.argv[1], sys.argv[2:]))
