"""Tests of tools/, for companions/check: `tests(tq)` gives what is not as it should be, with `tq` the path of the program.

1. Each tool ends with status 1 and one line where its output is full, and with status 1 where it is closed.
2. tools/picture draws large boards narrow enough, and counts below what it draws what it does not draw; at three lanes no text is cut.
3. The page docs/tq.1 keeps to 80 columns, as its text and as groff lays it out where that is there, and has its sections.
4. tools/availability: companions/odds_check.py says what.
5. tools/board gives the board of random sessions as JSON and back to its text exactly, and refuses what is no board.
6. tools/journals: the audit explains the journals of random sessions, and the program answers these and shows the same board.
7. tools/shrink makes journals with one fault as small as they can be, with a fault of the same kind.
8. bin/install, tools/completions and tools/release: companions/install_check.py says what."""
import json
import os
import re
import shutil
import subprocess
import sys
import xml.etree.ElementTree

HERE = os.path.dirname(os.path.realpath(__file__))
ROOT = os.path.dirname(HERE)
sys.path[:0] = [f"{ROOT}/tools", f"{ROOT}/sessions"]
import board as boards
import install_check
import journals
import odds_check
import plain

SESSIONS, REHEARSED = 25, 12


def ran(words, given=b"", **how):
    """The ended command, with what it printed."""
    return subprocess.run(words, cwd=ROOT, input=given, capture_output=True, check=False, **how)


def walk(seed):
    """A random session that was made by the plain program."""
    made = journals.walks().Walk(f"tools {seed}")
    made.run()
    return made


# How the tools end

BOARD = "board levels 1\nserver 1 cost 1 1 up read 1 by 1 write 1 by 1\nend\n"
JOURNALS = "examples/journals/stuck.json"


def endings():
    given = {"picture": [JOURNALS], "why": [JOURNALS], "board": [], "availability": ["--levels", "2"], "journals": ["--levels", "1"], "shrink": [JOURNALS]}
    for name, words in given.items():
        for place, lines, asked in (("/dev/full", 1, words), ("pipe", 0, words), ("/dev/full", 1, ["-h"])):
            near, far = os.pipe()
            os.close(near)
            with os.fdopen(far, "wb") if place == "pipe" else open(place, "wb") as full:
                done = subprocess.run([f"tools/{name}", *asked], cwd=ROOT, input=BOARD.encode(), stdout=full, stderr=subprocess.PIPE, check=False)
            if done.returncode != 1 or done.stderr.count(b"\n") != lines or b"Traceback" in done.stderr:
                yield f"tools/{name} {asked} at {place}: status {done.returncode}, {done.stderr.decode()}"
        if name == "availability":
            continue
        done = ran([f"tools/{name}", *(words if name == "journals" else []), "no such file"])
        if done.returncode != 1 or done.stdout or done.stderr.count(b"\n") != 1:
            yield f"tools/{name} without its file: {done}"


# Pictures

TEN = "begin\nwrite 1 a x\ncommit 1\nbegin\nwrite 2 a y\nprepare 2 1\ndown 2\ndown 350\ndown 800\ncost 33 4\nboard\n"


def texts_of(drawn):
    return ["".join(it.itertext()) for it in xml.etree.ElementTree.fromstring(drawn).iter("{http://www.w3.org/2000/svg}text")]


def counted(texts, word):
    """The sum of the counts of this word below the tree."""
    return sum(int(it.split()[0]) for it in texts if re.fullmatch(rf"\d+ {word}", it))


def drawn_boards(tq):
    rows = ran([tq, "shell", "--levels", "10"], TEN.encode()).stdout
    board = boards.Board(boards.last(rows.decode().split("\n")))
    down = {it for it in board.servers if not board.is_up(it)}
    for words, most in (([], 1900), (["--depth", "3"], 1000), (["--top", "21", "--depth", "9"], 1500), (["--top", "1023"], 1000)):
        drawn = ran(["tools/picture", "--file", "a", *words], rows).stdout
        texts, wide = texts_of(drawn), int(re.search(rb'width="(\d+)"', drawn)[1])
        shown = {int(it) for it in texts if it.isdigit()}
        top = int(words[1]) if words[:1] == ["--top"] else 1
        under = {it for it in board.servers if it >> max(0, it.bit_length() - top.bit_length()) == top}
        hidden = under - shown
        wanted = len(hidden), *(len(hidden & of) for of in (down, set(board.files[0].stale), set(board.servers[1].read.servers)))
        found = tuple(counted(texts, word) for word in ("below", "down", "stale", "next"))
        if wide > most or not shown <= under or found != wanted:
            yield f"tools/picture {words} of a board of ten levels: {wide} wide, counts below {found}, wanted {wanted}"
    for words in (["--top", "1024"], ["--top", "0"], ["--depth", "0"]):
        if ran(["tools/picture", *words], rows).returncode != 1:
            yield f"tools/picture {words} draws a board of ten levels"


def lanes(tq):
    script = b"client\nbegin\nread plan\nwrite plan a text of some length\ncommit\nbegin\nread plan\ncommit\n"
    texts = texts_of(ran(["tools/picture"], ran([tq, "threads", "--levels", "2"], script).stdout).stdout)
    if any(it.endswith("..") for it in texts) or "2 T1 commit r plan:0 w plan:1" not in texts:
        yield f"tools/picture cuts a text at three lanes: {[it for it in texts if it.endswith('..')]}"


# The manual page

SECTIONS = ["NAME", "SYNOPSIS", "DESCRIPTION", "TQ SHELL", "TQ THREADS", "TQ AUDIT", "TQ UPGRADE", "EXIT STATUS", "SEE ALSO"]


def manual(tq):
    page = ran(["tools/manual", tq]).stdout
    rows, found = page.decode().split("\n"), re.findall(r"(?m)^\.SH (.*)$", page.decode())
    if max(map(len, rows)) > 80 or found != SECTIONS or page.count(b"Status:"):
        yield f"docs/tq.1 has a row of {max(map(len, rows))}, and the sections {found}"
    if shutil.which("groff"):
        shown = ran(["groff", "-man", "-Tascii", "-P-cbou", "-ww", "-rLL=80n"], page)
        if shown.stderr or max(map(len, shown.stdout.split(b"\n"))) > 80:
            yield f"docs/tq.1 is laid out wider than 80 columns, or with a word: {shown.stderr.decode()}"


# Boards for programs


def boards_told():
    """Boards of random sessions, by the plain program, as their texts."""
    for seed in range(SESSIONS):
        yield "\n".join(plain.board(walk(seed).shell.world)) + "\n"


def boards_as_values():
    tool = journals.script("../tools/board")
    for text in boards_told():
        rows = text.split("\n")[:-1]
        value = json.dumps(tool.value_of(boards.Board(rows)))
        if tool.rows_of(value.encode()) != rows:
            yield f"tools/board does not give this board back: {text}"
    text, noise = text.encode(), b"begun 1\nboard levels 3\nend\n"
    value = ran(["tools/board", "--json"], noise + text).stdout
    if value.count(b"\n") != 1 or ran(["tools/board"], value).stdout != text or ran(["tools/board"], noise + text).stdout != text:
        yield f"tools/board by its command does not give this board back: {text}"
    wrong = [b"", b"begun 1\n", noise, text.replace(b"up", b"left")]
    for given in [*wrong, value[:-3], value.replace(b'"levels":', b'"levels":1'), value.replace(b"intents", b"votes")]:
        done = ran(["tools/board", "--json"], given)
        if done.returncode != 1 or done.stdout or done.stderr.count(b"\n") != 1:
            yield f"tools/board of what is no board: {given[:200]} {done}"


# Journals of sessions


def rehearsed(tq):
    """Random sessions, each with a board at its end: the program answers them as they are answered here, and its audit explains all entries."""
    for seed in range(REHEARSED):
        made = journals.walks().Walk(f"rehearsed {seed}")
        lines = made.run()[0]
        lines = lines[: lines.rfind(b"\n") + 1] + b"board\n"
        told = ran(["tools/journals", "--levels", str(made.levels), "--answers"], lines)
        shown, said = ran([tq, "shell", "--levels", str(made.levels)], lines).stdout, ran([tq, "audit"], told.stdout).stdout
        entries = told.stdout.count(b'{"ask":{')
        if told.stderr != shown or said != f"explained {entries}\n".encode():
            yield f"tools/journals of session {seed}: the audit says {said}, the program answers {shown[-2000:]}, the plain one {told.stderr[-2000:]}"


# Journals with a fault, made smaller


def long_session():
    """The journals of eight commits at three levels, with crashes between them, as a file."""
    shell = plain.Shell(3)
    for n in range(1, 9):
        failing, commit = n % 4 + 1, ["begin", f"write {n} f{n % 3} x{n}", f"read {n} f{(n + 1) % 3}", f"commit {n}"]
        for line in (f"down {failing}", *commit, "choose", f"up {failing}", "refresh"):
            shell.answer(line.encode())
    return journals.file_of(3, shell.world.journals)


def spoil_grant(file):
    """A grant of a late transaction tells a later version."""
    entry = next(it for it in reversed(file["servers"][0]) if it["ask"]["is"] == "lock" and it["reply"]["is"] == "granted")
    entry["reply"]["version"] += 1


def spoil_serial(file):
    entry = [it for it in file["desk"] if it["reply"]["is"] == "committed"][-2]
    entry["reply"]["serial"] += 1


def spoil_choice(file):
    entry = [it for it in file["view"] if it["reply"]["is"] == "chosen"][-3]
    entry["reply"]["cost"] += 1


def cut_desk(file):
    """The desk forgets its last commits."""
    del file["desk"][-5:]


def spoil_refresh(file):
    """A refresh cites an entry that is not there."""
    entry = next(it for journal in file["servers"] for it in journal if it["ask"]["is"] == "refresh" and it["reply"]["is"] == "refreshed")
    entry["ask"]["from"]["number"] += 1000


SPOILT = [
    (spoil_grant, "wrong server", 1),
    (spoil_serial, "wrong desk", 2),
    (spoil_choice, "wrong view", 1),
    (cut_desk, "stuck", 4),
    (spoil_refresh, "stuck", 1),
]


def shrunk(tq):
    """Each is made as small as it can be, with a fault of the same kind, and no smaller when it is tried again; others are refused."""
    tool = journals.script("../tools/shrink")
    whole, judged = long_session(), tool.audit_of(None)
    for spoil, said, most in SPOILT:
        spoil(file := json.loads(json.dumps(whole)))
        small = tool.Shrinking(file, judged)
        small.shrink()
        again = tool.Shrinking(small.file, tool.audit_of(tq))
        first, again.audit = again.wanted, judged
        again.shrink()
        if not again.said.startswith(said) or not first & small.wanted or small.count() > most or again.file != small.file:
            yield f"tools/shrink, {spoil.__name__}: {again.said}, {small.count()} entries, {first} of {small.wanted}: {json.dumps(small.file)}"
    for given in (b"", journals.text_of(whole)):
        done = ran(["tools/shrink", "--program", tq], given)
        if done.returncode != 1 or done.stdout or done.stderr.count(b"\n") != 1:
            yield f"tools/shrink shrinks what has no fault: {done}"
    done = ran(["tools/shrink", "--program", tq, "examples/journals/stuck.json"])
    if not done.stderr.endswith(b"; stuck 2 desk 0 view 0, 3 entries\n") or ran([tq, "audit"], done.stdout).returncode != 3:
        yield f"tools/shrink of examples/journals/stuck.json: {done}"


def tests(tq):
    for test in (endings(), drawn_boards(tq), lanes(tq), manual(tq), odds_check.tests(tq), boards_as_values(), rehearsed(tq), shrunk(tq), install_check.tests(tq)):
        yield from test
