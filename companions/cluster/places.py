"""The folder of a cluster: cluster.json, which says where each part is asked, and of each part on this machine a folder with its log."""
import fcntl
import json
import os
import random
import socket
import sys

ROOT = os.path.dirname(os.path.dirname(os.path.dirname(os.path.realpath(__file__))))
sys.path.insert(0, f"{ROOT}/tools")
import program

FILE = "cluster.json"


class Absent(Exception):
    """A folder that is of no cluster, or lacks a log."""


def read(folder):
    """What cluster.json says, as `levels`, `parts` (addresses) and `redis` (an address, None where clients ask the parts themselves)."""
    try:
        with open(f"{folder}/{FILE}", encoding="utf-8") as it:
            return json.load(it)
    except OSError as fault:
        raise Absent(f"{folder}/{FILE}: {fault.strerror}") from None


def host():
    """The program that hosts a part, where no other is given: TQ_HOST, else tqd."""
    return os.environ.get("TQ_HOST") or program.built("tqd") or f"{ROOT}/bin/tqd"


def parts(levels):
    """All parts in the order of a journal file: servers upwards, the desk, the view."""
    return [*range(1, 2**levels), "desk", "view"]


def name(part):
    return part if isinstance(part, str) else f"server {part}"


def part_of(word):
    return int(word) if word.isdigit() else word


def log_of(folder, part):
    return f"{folder}/{part}/log"


def make(folder, part):
    """The empty log of a part that never was."""
    os.makedirs(f"{folder}/{part}")
    with open(log_of(folder, part), "xb") as it:
        os.fsync(it.fileno())
    for path in (f"{folder}/{part}", folder):
        at = os.open(path, os.O_RDONLY)
        os.fsync(at)
        os.close(at)


def is_hosted(folder, part):
    """Whether a host has the log: it has the lock of it for as long as it lives, also when its bridge is gone."""
    with open(log_of(folder, part), "rb") as log:
        try:
            fcntl.flock(log, fcntl.LOCK_EX | fcntl.LOCK_NB)
        except BlockingIOError:
            return True
    return False


def address(text):
    host, _, port = text.rpartition(":")
    return host, int(port)


def ports(count):
    """The first of so many ports that nobody has here, below those that the system gives to clients."""
    while not all(map(is_free, range(base := random.randrange(10_000, 30_000), base + count))):
        pass
    return base


def is_free(port):
    with socket.socket() as it:
        try:
            it.bind(("127.0.0.1", port))
        except OSError:
            return False
    return True
