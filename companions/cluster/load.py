#!/usr/bin/env python3
"""load.py DIR NAME SEED LOST: a client for the tests. It reads and writes up to three of FILES files a transaction until DIR/end is there, and loses that share
of its answers. DIR/receipts/NAME has what it was told, DIR/NAME.done a line for each commit that it was sure of: transaction, and what it had read."""
import json
import os
import random
import sys
import time

sys.dont_write_bytecode = True
sys.path.insert(0, os.path.dirname(os.path.realpath(__file__)))
import client
import places

FILES, PAUSE = 8, 0.15


class Lossy:
    """Loses some messages before they are sent, and more of their answers."""

    def __init__(self, link, dice, lost):
        self.link, self.dice, self.lost = link, dice, lost

    def trip(self, messages):
        got = self.link.trip([it for it in messages if self.dice.random() >= self.lost / 4])
        return {number: it for number, it in got.items() if self.dice.random() >= self.lost}


def work_of(asker, dice):
    files = sorted(dice.sample(range(FILES), dice.randint(1, 3)))
    kinds = {f"f{file}": dice.choice(["read", "write", "both"]) for file in files}
    text = f"{asker.name} {asker.count}".encode()

    def work(txn):
        found = {file: asker.read(txn, file).hex() for file, kind in kinds.items() if kind != "write"}
        for file, kind in kinds.items():
            if kind != "read":
                asker.write(txn, file, text + file.encode())
        return txn.number, found

    return work


def main(folder, name, seed, lost):
    dice, count = random.Random(int(seed)), dict.fromkeys(("commits", "given up", "undecided"), 0)
    random.seed(int(seed))
    with open(f"{folder}/receipts/{name}", "w", encoding="utf-8") as receipts, open(f"{folder}/{name}.done", "w", 1, encoding="utf-8") as done:
        asker = client.Client(places.read(folder), name, receipts, timeout=0.7, patience=1.0)
        asker.link = Lossy(asker.link, dice, float(lost))
        while not os.path.exists(f"{folder}/end"):
            try:
                done.write(json.dumps(asker.run(work_of(asker, dice))) + "\n")
                count["commits"] += 1
            except client.Undecided:
                count["undecided"] += 1
            except client.Fault:
                count["given up"] += 1
            time.sleep(dice.uniform(0, 2 * PAUSE))
        asker.tell_again()
    print(json.dumps(count | {"trips": asker.trips}))


if __name__ == "__main__":
    main(*sys.argv[1:])
