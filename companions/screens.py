"""Tests of bin/live: its transcripts and frames, what it takes, and how it ends."""
import glob
import os
import resource
import shutil
import subprocess
import sys

import terminal
from journals import ROOT

BUILT = f"{ROOT}/crates/tqd/out/tqd"
WINDOW = {"COLUMNS": "80", "LINES": "24"}
TITLE = " tq  levels"

# Sessions of which the last frame stands in companions/NAME.frame: the words besides the program, and the lines.
TRANSACTION = "begin\nwrite 1 a x\n"
SCREENS = {
    "blocked": (["--levels", "3", "--file", "a"], f"{TRANSACTION}commit 1\ndown 1\ndown 4\ndown 5\nchoose\n"),
    "open-votes": (["--levels", "3"], f"{TRANSACTION}prepare 1 1\nprepare 1 2\ndecide 1\nbegin\nread 2 b\nbegin\nwrite 3 a y\n"),
    "committed-votes": (["--levels", "2"], f"{TRANSACTION}prepare 1 1\nprepare 1 2\ndecide 1\ndown 2\nbegin\nwrite 2 a y\n"),
    "six-levels": (
        ["--levels", "6", "--file", "f2"],
        "".join(f"begin\nwrite {n} f{n} x\n" for n in range(1, 6)) + "commit 2\ncost 33 7\ndown 16\nprepare 1 1\nread 5 f1\n",
    ),
    "ten-levels": (
        ["--levels", "10", "--file", "a"],
        f"{TRANSACTION}commit 1\ndown 350\ndown 700\ndown 701\ndown 64\nbegin\nwrite 2 b y\nwrite 2 a y\n",
    ),
    "wrapped": (
        ["--levels", "6"],
        "begin\nwrite 1 a x\nwrite 1 b y\nwrite 1 c z\n"
        + "".join(f"prepare 1 {2 ** n}\n" for n in range(6))
        + "decide 1\ndown 4\ndown 8\nbegin\nbegin\nwrite 2 a y\n:end 1\n",
    ),
    "unblock": (["--levels", "4"], "begin\nread 1 a\n" + "".join(f"down {n}\n" for n in (1, 2, 4, 5, 6, 7, 8, 10, 12, 14)) + "choose\n:unblock\n"),
    "ended": (["--levels", "3"], f"{TRANSACTION}prepare 1 1\nprepare 1 2\nprepare 1 4\ndown 2\ndecide 1\n:end 1\n\n"),
}


def live(tq, *words, **how):
    """What bin/live prints."""
    return subprocess.run(["bin/live", "--program", tq, *words], cwd=ROOT, stdout=subprocess.PIPE, **how).stdout


def ran(tq, *words, **how):
    """The end of a run: status, output and errors."""
    return subprocess.run(["bin/live", "--program", tq, *words], cwd=ROOT, capture_output=True, check=False, **how)


def put(path, text, mode=0o644):
    with open(path, "w", encoding="utf-8") as it:
        it.write(text)
    os.chmod(path, mode)
    return path


def last_frame(printed):
    rows = printed.decode().split("\n")
    return "\n".join(rows[max(at for at, row in enumerate(rows) if row.startswith(TITLE)) :])


# Transcripts and frames


def transcripts(tq):
    """A transcript less its own lines is what tq prints."""
    for path in sorted(glob.glob(f"{ROOT}/examples/*.txt")):
        with open(path, "rb") as it:
            lines = it.read()
        printed = live(tq, "--levels", "2", "--transcript", input=lines)
        left = b"".join(line for line in printed.splitlines(True) if not line.startswith(b"> "))
        if left != subprocess.run([tq, "shell", "--levels", "2"], input=lines, stdout=subprocess.PIPE, check=False).stdout:
            yield f"bin/live prints otherwise than tq: {path}"


def journals():
    """Over the journals of a file a transcript is what tqd prints, and a frame has their open vote; where no run explains them tqd's line and status are its end."""
    tqd, kept = BUILT if os.access(BUILT, os.X_OK) else f"{ROOT}/bin/tqd", "examples/journals/{}.json"
    lines = b"down 1\nbegin\nread 3 plan\ncommit 2\nboard\nrefresh\n"
    printed = live(tqd, "--journals", kept.format("system"), "--transcript", input=lines)
    left = b"".join(line for line in printed.splitlines(True) if not line.startswith(b"> "))
    if left != subprocess.run([tqd, "rehearse", kept.format("system")], cwd=ROOT, input=lines, stdout=subprocess.PIPE, check=False).stdout:
        yield "bin/live prints otherwise than tqd"
    frame = last_frame(live(tqd, "--journals", kept.format("system"), "--plain", input=b"", env=os.environ | WINDOW))
    if "open votes (1)" not in frame or "levels 2" not in frame:
        yield f"bin/live over journals shows\n{frame}"
    done = ran(tqd, "--journals", kept.format("stuck"), "--transcript", input=b"begin\n")
    if (done.returncode, done.stdout, done.stderr) != (3, b"stuck 2 desk 1 view 1\n", b""):
        yield f"bin/live over journals that are stuck: {done}"


def frames(tq, folder):
    """The last frame of each screen, and the only one of a board whose quorums for reading and for writing are two."""
    for name, (words, lines) in SCREENS.items():
        yield f"companions/{name}.frame", last_frame(live(tq, *words, "--plain", input=lines.encode(), env=os.environ | WINDOW))
    shown = f"#!/bin/sh\nread probe; echo no such transaction 0\nread board; exec cat {ROOT}/companions/purposes.board -\n"
    path = put(f"{folder}/purposes", shown, 0o755)
    printed = live(path, "--levels", "3", "--plain", "--file", "a", input=b"", env=os.environ | WINDOW)
    yield "companions/purposes.frame", printed.decode()


def sizes(tq):
    """Frames fit their window, also where not all fits in."""
    lines = b"begin\nwrite 1 a x\nprepare 1 1\nbegin\nwrite 2 a " + b"y" * 300 + b"\ndown 1\n:file a\n:end 1\n"
    for levels in ("1", "3", "6", "10"):
        for wide, high in ((80, 24), (40, 12), (20, 8), (200, 60)):
            size = {"COLUMNS": str(wide), "LINES": str(high)}
            printed = live(tq, "--levels", levels, "--plain", input=lines, env=os.environ | size).decode()
            for frame in printed.split("\n> ")[1:]:
                rows = frame.rstrip("\n").split("\n")[1:]
                if len(rows) > high - 1 or max(map(len, rows)) > wide:
                    yield f"a frame of {levels} levels does not fit {wide} by {high}: {len(rows)} rows\n{frame}"


# Lines


def boards(tq, folder):
    """Behind all lines of files one board is asked for, and in a transcript none."""
    path = put(f"{folder}/logged", f"#!/bin/sh\ntee {folder}/asked | {tq} \"$@\"\n", 0o755)
    lines = put(f"{folder}/lines", "begin\nwrite 1 a x\nrefresh\n\ncommit 1\n")
    for words, wanted in ((["--transcript"], 0), (["--plain"], 1)):
        live(path, "--levels", "3", *words, lines, stdin=subprocess.DEVNULL)
        with open(f"{folder}/asked", encoding="utf-8") as it:
            found = it.read().split("\n").count("board")
        if found != wanted:
            yield f"bin/live {words} asks for {found} boards behind a file"


def quickness(tq, folder):
    """A file of 10,000 lines at ten levels takes two seconds of a processor at most, with a frame."""
    text = "".join(f"begin\nwrite {n} f{n % 40} text {n}\nread {n} g{n % 7}\ncommit {n}\n" for n in range(1, 2501))
    lines, times = put(f"{folder}/long", text), []
    # A processor that has other work too may be slow once.
    while len(times) < 3 and min(times, default=3) > 2:
        before = resource.getrusage(resource.RUSAGE_CHILDREN)
        printed = live(tq, "--levels", "10", "--plain", lines, stdin=subprocess.DEVNULL)
        after = resource.getrusage(resource.RUSAGE_CHILDREN)
        times.append(after.ru_utime + after.ru_stime - before.ru_utime - before.ru_stime)
    if min(times) > 2 or b"  line 10000  " not in printed:
        yield f"bin/live takes {times} seconds for 10,000 lines"


def stops(tq, folder):
    """With --stop a refusal ends the lines, of this program's lines too, and nothing else does."""
    good = b"begin\nwrite 1 a x y\nread 1 a\nread 1 b\nprepare 1 1\ncost 1 5\nchoose\ncommit 1\ndown 3\nup 3\nrefresh\nboard\nbegin\nresolve 2\nabort 2\n\n:top 2\n"
    for lines, wanted in ((good, 0), (good + b"begin\nread 3 A\n", 1), (b"commit 1\n", 1), (b":foo\n", 1), (b":source " + folder.encode() + b"/no\n", 1)):
        done = ran(tq, "--levels", "2", "--transcript", "--stop", input=lines + b"begin\n")
        if done.returncode != wanted or done.stdout.endswith(b"stopped at a refusal\n") != bool(wanted):
            yield f"bin/live --stop: {done}"


def own_lines(tq, folder):
    """What this program says to its own lines is in a transcript."""
    lines = put(f"{folder}/some", "begin\n:top 9\n")
    saved = f"{folder}/saved"
    given = f":foo\n:source {folder}/no\n:source {lines}\n:top x\n:file a\n:end 2\n:unblock\ndown 1\n:unblock\n:save {saved}\nwrite 1 a x\n:quit\nbegin\n"
    said = f"""\
> :foo
no such line of this program: :foo, see :help
> :source {folder}/no
{folder}/no: No such file or directory
> :source {lines}
> begin
begun 1
> :top 9
there is no server 9: they are 1 to 1
> :top x
there is no server x: they are 1 to 1
> :file a
no commit wrote a yet
> :end 2
there is no transaction 2
> :unblock
a quorum is left: nothing is to be brought up
> down 1
down 1
> :unblock
Enter sends: up 1
> :save {saved}
2 lines saved to {saved}
> write 1 a x
blocked by 1
> :quit
"""
    done = ran(tq, "--levels", "1", "--transcript", input=given.encode())
    with open(saved, encoding="utf-8") as it:
        if (done.stdout.decode(), done.returncode, it.read()) != (said, 0, "begin\ndown 1\n"):
            yield f"bin/live does not say of its own lines what it should: {done}"


# Ends


def ends(tq, folder):
    """A closed pipe, a full output, and a program that ends by itself, end bin/live with a status and no more than a line."""
    command = f"bin/live --levels 6 --program {tq} | head -c 1"
    done = subprocess.run(["sh", "-c", command], cwd=ROOT, input=b"board\n" * 2000, capture_output=True, check=False)
    if done.stderr or len(done.stdout) != 1:
        yield f"bin/live at a closed pipe: {done.stderr.decode()}"
    for words in (["--levels", "2", "--plain"], ["--levels", "2", "--transcript"], ["--levels", "11"], ["--help"]):
        with open("/dev/full", "wb") as full:
            done = subprocess.run(["bin/live", "--program", tq, *words], cwd=ROOT, input=b"begin\n", stdout=full, stderr=subprocess.PIPE, check=False)
        if (done.returncode, done.stderr) != (1, b"bin/live: output: No space left on device\n"):
            yield f"bin/live {words} at a full output: {done}"
    path = put(f"{folder}/ended", "#!/bin/sh\nprintf 'no such transaction 0\\nfault read\\n'\nexit 1\n", 0o755)
    done = ran(path, "--levels", "1", "--transcript", input=b"begin\n")
    if (done.returncode, done.stdout, done.stderr) != (1, b"> begin\nfault read\nthe shell has ended\n", b""):
        yield f"bin/live where tq ends: {done}"
    done = ran(tq, "--levels", "11", input=b"begin\n")
    if done.returncode != 2 or not done.stdout or done.stderr:
        yield f"bin/live with words that tq refuses: {done}"


def fresh(root, path):
    """Where ./bin/tq is not built, as on a fresh clone, bin/live says what comes and what may be run meanwhile."""
    shutil.copy(f"{ROOT}/bin/live", f"{root}/bin/live")
    for name in ("companions", "tools/board.py"):
        os.symlink(f"{ROOT}/{name}", f"{root}/{name}")
    words = [sys.executable, f"{root}/bin/live", "--levels", "2"]
    done = subprocess.run(words, env=path, stdin=subprocess.DEVNULL, capture_output=True, text=True, check=False)
    offered = "bin/live --program " + "bin/" + "try --levels 2"
    if offered not in done.stderr.split("\n")[0] or "rt is not in PATH" not in done.stderr or done.returncode != 127:
        yield f"bin/live on a fresh clone: {done}"


def faults(tq, folder):
    tests = [transcripts(tq), sizes(tq), boards(tq, folder), quickness(tq, folder), stops(tq, folder), own_lines(tq, folder), ends(tq, folder)]
    tests.append(journals())
    tests.append(terminal.session(f"{ROOT}/bin/live", tq, folder))
    return [it for test in tests for it in test]
