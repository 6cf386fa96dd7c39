"""Programs at a pseudo-terminal: a session of bin/live with typed lines, another size in the midst of one, Ctrl-C, Tab and Ctrl-D; what bin/tq says first."""
import fcntl
import os
import pty
import select
import struct
import subprocess
import termios
import time

PATIENCE = 60
PROMPT = b"> "


def resize(descriptor, rows, columns):
    fcntl.ioctl(descriptor, termios.TIOCSWINSZ, struct.pack("HHHH", rows, columns, 0, 0))


def own_terminal():
    os.setsid()
    fcntl.ioctl(0, termios.TIOCSCTTY, 0)


class Typist:
    """Types at the one end of a pseudo-terminal, and reads what comes there."""

    def __init__(self, words):
        self.near, self.far = pty.openpty()
        resize(self.near, 24, 80)
        self.before = termios.tcgetattr(self.far)
        how = dict(stdin=self.far, stdout=self.far, stderr=self.far, preexec_fn=own_terminal, env=os.environ | {"TERM": "xterm", "INPUTRC": os.devnull})
        self.running, self.seen, self.all = subprocess.Popen(words, **how), b"", b""

    def awaits(self, *texts, patience=PATIENCE):
        """Whether these texts come, one behind the other; what stands behind them is kept for later. Behind a last prompt nothing more may come for a while:
        answers that are shown again have one too."""
        end = time.monotonic() + patience
        for text in texts:
            while text not in self.seen:
                if time.monotonic() > end:
                    return False
                self.takes(1)
            self.seen = self.seen.split(text, 1)[1]
        while texts[-1] == PROMPT and (self.takes(0.3) or self.seen and not self.seen.endswith(PROMPT)):
            if time.monotonic() > end:
                return False
        return True

    def takes(self, seconds):
        """Takes what comes within so many seconds, and returns whether anything did."""
        if not select.select([self.near], [], [], seconds)[0]:
            return False
        self.seen += (came := os.read(self.near, 65_536))
        self.all += came
        return True

    def leaves(self):
        """Whether the program ends at Ctrl-D, which it may miss where it does not read yet."""
        return any(self.types(b"\x04") or self.awaits(b"\x1b[?1049l", patience=5) for _ in range(PATIENCE // 5))

    def types(self, text):
        os.write(self.near, text)

    def ends(self):
        """The status, None where the program does not end, and whether the terminal is as it was."""
        try:
            return self.running.wait(PATIENCE), termios.tcgetattr(self.far) == self.before
        except subprocess.TimeoutExpired:
            return None, False
        finally:
            self.running.kill()
            os.close(self.near)
            os.close(self.far)


def session(live, tq, folder):
    """What is not as it should be."""
    for name, lines in (("some-lines", "down 2\n"), ("more-lines", "refresh\n" * 100_000)):
        with open(f"{folder}/{name}", "w", encoding="utf-8") as it:
            it.write(lines)
    typist = Typist([live, "--levels", "2", "--program", tq, "--session", f"{folder}/typed"])
    steps = [
        ("the first frame", lambda: typist.awaits(b"levels 2  3 of 3 up", b"> ")),
        ("a line", lambda: typist.types(b"begin\r") or typist.awaits(b"line 1 ", b"begun 1", b"> ")),
        ("half a line", lambda: typist.types(b"wri") or typist.awaits(b"wri")),
        ("another size", lambda: resize(typist.near, 20, 60) or typist.awaits(b"-" * 60 + b"\x1b[0m", b"> ", b"wri")),
        ("the other half", lambda: typist.types(b"te 1 a x\r") or typist.awaits(b"line 2 ", b"write a version 1 at 1 2", b"> ")),
        ("Ctrl-C", lambda: typist.types(b"comm\x03") or typist.awaits(b"Ctrl-D ends", b"> ")),
        ("Tab", lambda: typist.types(b"comm\t 1\r") or typist.awaits(b"committed 1", b"> ")),
        ("Tab behind a word", lambda: typist.types(b":so\t " + folder.encode() + b"/some-l\t\r") or typist.awaits(b"2 of 3 up", b"down 2", b"> ")),
        ("Ctrl-C in a file", lambda: typist.types(b":source " + folder.encode() + b"/more-lines\r") or typist.awaits(b"taking 100000 lines")),
        ("its end", lambda: typist.types(b"\x03") or typist.awaits(b"Ctrl-C behind line ", b"not taken", b"> ")),
        ("a plan", lambda: typist.types(b"down 1\r:unblock\r") or typist.awaits(b"NO QUORUM", b"Enter sends 1 line", b"> ")),
        ("its lines", lambda: typist.types(b"\r") or typist.awaits(b"2 of 3 up", b"up 1", b"> ")),
        ("a page", lambda: typist.types(b":log\r") or typist.awaits(b"up 1", b"b back, q ends ")),
        ("the page before", lambda: typist.types(b"b\r") or typist.awaits(b"> refresh", b"b back, q ends ")),
        ("the end of pages", lambda: typist.types(b"q\r") or typist.awaits(b"levels 2", b"> ")),
        ("Ctrl-D", typist.leaves),
    ]
    yield from typed(typist, steps)
    typist = Typist([live, "--levels", "2", "--program", tq, "--session", f"{folder}/typed"])
    steps = [
        ("the lines of before", lambda: typist.awaits(b"2 of 3 up", b"lines taken", b"> ")),
        ("history", lambda: typist.types(b"\x1b[A") or typist.awaits(b"up 1")),
        ("Ctrl-D", lambda: typist.types(b"\x15") or typist.leaves()),
    ]
    yield from typed(typist, steps)


def typed(typist, steps):
    """Whether each step does what it should, and the terminal is left as it was."""
    failed = next((name for name, step in steps if not step()), None)
    status, is_as_before = typist.ends()
    if failed or status != 0 or not is_as_before:
        yield f"bin/live at a terminal: failed at {failed}, status {status}, the terminal as it was: {is_as_before}, it shows {typist.all[-2000:]}"


def start(words, said):
    """Whether the program, which tells its words, says one line with this text before, or none."""
    typist, wanted = Typist(words), " ".join(words[1:]).encode()
    came = typist.awaits(wanted + b"\r\n")
    before = typist.all.rsplit(wanted, 1)[0]
    typist.ends()
    if not came or before.count(b"\n") != bool(said) or said not in before:
        yield f"{' '.join(words)} at a terminal says {before}"
