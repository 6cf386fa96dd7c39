"""A running `tq shell`: the answers of each line, and what they tell of transactions."""
import collections
import re
import subprocess

import board as boards

# The answer with which the service ends by itself, and the last answer of the two lines that have more than one.
FAULT = re.compile(r"fault (memory|read|write|too long|close)")
LAST = {"board": re.compile(boards.END), "refresh": re.compile(r"refreshed \d+ of \d+")}

# A line that asks no part, and its answer: by it a service that has begun is known.
PROBE, PROBED = "commit 0", ["no such transaction 0"]

# The last answer of a line that was not refused.
DONE = re.compile(
    r"begun \d+|\S+ version \d+ from [\d ]+ \[.*\]|\S+ pending \[.*\]|write \S+ version \d+ at [\d ]+|yes \d+|committed \d+|aborted|verdict \w+"
    r"|installed \d+|discarded \d+|quorum [\d ]+ cost \d+|ok|down \d+|up \d+|refreshed \d+ of \d+|end"
)


class Shell:
    """A running `tq shell`."""

    def __init__(self, words):
        self.words = words
        self.start()

    def start(self):
        # In a session of its own, so that Ctrl-C at the terminal breaks off a typed line and not the service.
        self.child = subprocess.Popen(self.words, stdin=subprocess.PIPE, stdout=subprocess.PIPE, start_new_session=True)
        self.sent, self.has_ended = collections.deque(), False

    def send(self, lines):
        """Writes lines that are asked next, in this order. So many that they stand in a pipe, since nobody reads the answers meanwhile."""
        self.sent.extend(lines)
        try:
            self.child.stdin.write("".join(f"{it}\n" for it in lines).encode("utf-8", "surrogateescape"))
            self.child.stdin.flush()
        except BrokenPipeError:
            pass

    def ask(self, line):
        """The answers of the line: none of an empty one, several of `board` and `refresh`, else one; fewer where the service ends."""
        bare = line.removesuffix("\r")
        if not bare:
            return []
        if not self.sent:
            self.send([line])
        got, _ = [], self.sent.popleft()
        while answer := self.child.stdout.readline().decode("ascii", "replace"):
            got.append(answer.removesuffix("\n"))
            if not FAULT.fullmatch(got[-1]) and (bare not in LAST or LAST[bare].fullmatch(got[-1])):
                return got
        self.has_ended = True
        return got

    def rest(self):
        """All that the service still prints, up to its end, which comes with the end of its lines."""
        self.has_ended = True
        self.close()
        return self.child.stdout.read().decode("ascii", "replace").splitlines()

    def close(self):
        """Ends the lines of the service."""
        try:
            self.child.stdin.close()
        except BrokenPipeError:
            pass

    def end(self):
        """The status with which the service ends."""
        self.close()
        self.child.stdout.close()
        return self.child.wait()

    def begin_again(self):
        """Another service, in which nothing was asked yet."""
        self.end()
        self.start()


class Transactions:
    """How each transaction that was begun stands: `open`, `commit` or `abort`."""

    ENDS = [(re.compile(r"committed \d+|(decided|verdict) commit"), "commit"), (re.compile(r"aborted|(decided|verdict) abort"), "abort")]

    def __init__(self):
        # Of those that have read or written something the number is in `worked`: the others cannot commit.
        self.states, self.worked = {}, set()

    def hear(self, line, answers):
        """Takes what these answers to the line tell."""
        told = answers[-1] if answers else ""
        if re.fullmatch(r"begun \d+", told):
            self.states[int(told.split()[1])] = "open"
            return
        txn = txn_of(line)
        if txn in self.states:
            self.states[txn] = next((state for form, state in self.ENDS if form.fullmatch(told)), self.states[txn])
            if re.match(r"\S+ version |write \S+ version ", told):
                self.worked.add(txn)

    def open(self):
        return [txn for txn, state in self.states.items() if state == "open"]


def is_short(line):
    """Whether the line is the shell's, with one answer, and so short that a hundred of them stand in a pipe."""
    return bool(line.removesuffix("\r")) and line[0] != ":" and line.removesuffix("\r") not in LAST and len(line) <= 300 and line.isascii()


def txn_of(line):
    """The transaction that the line names, None where it names none."""
    found = re.match(r"(?:read|write|commit|abort|prepare|decide|apply|resolve) (\S+)", line)
    return number_of(found[1]) if found else None


def number_of(word):
    """The number that the word is, None where it is none or too long for one."""
    return int(word) if re.fullmatch(r"[0-9]{1,20}", word) else None
