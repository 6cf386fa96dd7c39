"""What helps: the lines that end a transaction or give a quorum again, and a hint for each refusal, from the board and not from the refusal's text alone."""
import re

from live.lines import wrong_word
from live.shell import txn_of

# What helps behind a refusal, with the transaction that its line names as {txn}.
HINTS = [
    (r"down at (\d+)", "up {0}; or down {0}, which marks it: it is not chosen then"),
    (r"(?:lost lock|not locked) \S+ at (\d+)", "server {0} crashed, and lost the lock: abort {txn}"),
    (r"nothing at (\d+)", "server {0} has no lock and no vote of T{txn}: it crashed since, or knows its end; abort {txn} where it has none yet"),
    (r"voting (\d+)", "T{0} takes no more reads and writes: commit {0}, or abort {0}"),
    (r"votes missing ([\d ]+)", "prepare {txn} at {0}, or commit {txn}"),
    (r"not decided (\d+)", "resolve {0} asks the desk, and aborts where nothing was decided"),
    (r"nothing to commit", "T{txn} has read and written nothing: read or write first, or abort {txn}"),
    (r"no such transaction \d+", "begin begins one"),
    (r"bad cost \d+", "a cost is 1 to 1000000"),
]
MOST_TOLD = 4


def rows_of(board, txn):
    """The states of the transaction's open votes, and the servers where it has a vote or a lock."""
    at = {it.server for it in [*board.locks, *board.intents] if it.txn == txn}
    return {it.state for it in board.intents if it.txn == txn}, sorted(at)


def ending(board, txn, state, at):
    """The lines that end the transaction at these servers, none where no line does; `state` is that of its votes, or as `Transactions` has it."""
    if state == "unknown" or not at and state != "open":
        return []
    ups = [f"up {it}" for it in at if not board.is_up(it)]
    if state not in ("install", "discard", "commit"):
        return [*ups, f"abort {txn}"]
    votes = {it.server for it in board.intents if it.txn == txn}
    # A lock without a vote of a transaction that is committed ends with a crash alone.
    lines = [[f"apply {txn} {it}"] if it in votes else [f"down {it}", f"up {it}"] for it in at]
    return [*ups, *sum(lines, [])]


def state_of(board, txns, txn):
    """How the transaction stands: the state of its open votes, else as the answers told; None where there is none."""
    states, _ = rows_of(board, txn)
    return min(states) if states else txns.states.get(txn)


def end(board, txns, txn):
    """The lines that end the transaction wherever it has a row."""
    state, (_, at) = state_of(board, txns, txn), rows_of(board, txn)
    lines = ending(board, txn, state, at)
    # A program whose answers were not heard may not know the verdict yet.
    return [f"resolve {txn}", *lines] if lines and state in ("install", "discard") and txns.states.get(txn) != "commit" else lines


def ways(txns, txn, state, lines):
    """How the transaction is ended, as text that is short."""
    if not lines:
        return "no line ends it"
    if state == "undecided" or state == "open" and txn in txns.worked:
        return f"commit {txn}, or {', '.join(lines)}" if len(lines) <= MOST_TOLD else f"commit {txn}, or :end {txn}"
    return ", ".join(lines) if len(lines) <= MOST_TOLD else f":end {txn}, which sends {len(lines)} lines"


def unblocking(board):
    """The fewest lines that give a quorum, none where there is one."""
    return [] if board.servers[1].read else [f"up {it}" for it in board.missing()]


def hint(board, txns, line, answer):
    """What helps behind this answer to the line, None where there is nothing to say."""
    held = re.fullmatch(r"held by (\d+) at \d+", answer)
    if held:
        txn = int(held[1])
        return f"T{txn} has the lock: {ways(txns, txn, state_of(board, txns, txn), end(board, txns, txn))}"
    if answer == "bad line":
        return wrong_word(line)
    if answer.startswith("no such server"):
        return f"the servers are 1 to {len(board.servers)}"
    if re.fullmatch(r"decided (commit|abort)", answer):
        return decided(board, txns, txn_of(line))
    for form, text in HINTS:
        found = re.fullmatch(form, answer)
        if found:
            return text.format(*found.groups(), txn=txn_of(line))
    return None


def decided(board, txns, txn):
    lines = end(board, txns, txn)
    return f"T{txn} has ended" + (f"; what is left of it: {ways(txns, txn, 'ended', lines)}" if lines else "")


def told(board, txns, line, answer):
    """All that helps now, the answer to the last line first."""
    found = [hint(board, txns, line, answer)] if line else []
    lines = unblocking(board)
    if lines:
        text = ", ".join(lines) if len(lines) <= 2 * MOST_TOLD else f"{len(lines)} servers more"
        found.append(f"no quorum is left: {text} would give one (:unblock)")
    mendable = board.mendable()
    if mendable:
        found.append(f"refresh mends stale copies of {len(mendable)} of {len(board.files)} files now")
    return [it for it in found if it]
