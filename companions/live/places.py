"""Where lines come from and frames go: a terminal, or plain input and output."""
import glob
import os
import select
import shutil
import signal
import sys

PLAIN_SIZE = 80, 24


class Terminal:
    """A terminal in its other screen, which is left at the end. Where its size changes in the midst of a line, the frame is drawn anew around it."""

    LOOKS = 0.2

    def __init__(self):
        import readline

        self.readline, self.is_silent, self.has_colour = readline, False, "NO_COLOR" not in os.environ
        self.typing, self.is_broken_off, self.draw, self.drawn, self.prompt = False, False, None, None, "> "
        # What Tab completes: words at the beginning of a line, names behind it; paths behind the words of `takes_path`.
        self.words, self.names, self.takes_path = [], [], ()
        readline.set_completer(self.complete)
        readline.set_completer_delims(" ")
        readline.parse_and_bind("tab: complete")
        signal.signal(signal.SIGALRM, lambda *_: self.look())
        signal.signal(signal.SIGINT, lambda *_: self.break_off())
        for ends in (signal.SIGTERM, signal.SIGHUP):
            signal.signal(ends, lambda number, _: sys.exit(128 + number))

    def __enter__(self):
        print("\033[?1049h", end="", flush=True)
        # The signal of another size is readline's own, which draws its line by it; so the size is looked at from time to time.
        signal.setitimer(signal.ITIMER_REAL, self.LOOKS, self.LOOKS)
        return self

    def __exit__(self, *_):
        signal.setitimer(signal.ITIMER_REAL, 0)
        print("\033[?1049l", end="", flush=True)

    def look(self):
        if self.typing and self.size() != self.drawn:
            self.show(self.draw)
            print(self.prompt + self.readline.get_line_buffer(), end="", flush=True)

    def break_off(self):
        if self.typing:
            raise KeyboardInterrupt
        self.is_broken_off = True

    def complete(self, text, at):
        before = self.readline.get_line_buffer()[: self.readline.get_begidx()]
        return (self.fitting(before, text) + [None])[at]

    def fitting(self, before, text):
        """What this word of the line, which begins with `before`, may become."""
        if before.startswith(self.takes_path):
            home = os.path.expanduser(text)
            return [it + "/" * os.path.isdir(it) for it in sorted(glob.glob(glob.escape(home) + "*"))]
        return [it for it in (self.names if before else self.words) if it.startswith(text)]

    def remember(self, lines):
        """Puts lines into the history, as if they had been typed."""
        for line in lines:
            self.readline.add_history(line)

    def size(self):
        return tuple(os.get_terminal_size(sys.stdout.fileno()))

    def show(self, draw):
        """Draws a frame, given what makes its rows for a size."""
        self.draw, self.drawn = draw, self.size()
        print("\033[H\033[2J" + "\r\n".join(draw(self.drawn)), flush=True)

    def echo(self, line):
        """The line stands there already, since it was typed; one of a file is in the next frame."""

    def say(self, text):
        """What takes long is told before it is done."""
        print(f"\r{text}", flush=True)

    def line(self, prompt="> "):
        try:
            self.typing, self.is_broken_off, self.prompt = True, False, prompt
            return input(prompt)
        finally:
            self.typing = False

    def has_more(self):
        """Whether a line stands there already, as behind one that was pasted with it."""
        return bool(select.select([sys.stdin], [], [], 0)[0])

    def pages(self, rows, is_last_first):
        """Shows rows page by page: Enter goes on, `b` goes back, `q` ends; each page is cut for the size that the terminal has then."""
        at = None
        while True:
            wide, high = self.size()
            lines = [row[start : start + wide] for row in rows for start in range(0, max(1, len(row)), wide)]
            most = max(1, high - 1)
            at = max(0, len(lines) - most) * is_last_first if at is None else at
            self.show(lambda _: lines[at : at + most])
            try:
                said = self.line(f"{min(len(lines), at + most)} of {len(lines)}  Enter goes on, b back, q ends ")
            except (EOFError, KeyboardInterrupt):
                return
            if said == "q" or said != "b" and at + most >= len(lines):
                return
            at = max(0, at - most) if said == "b" else at + most


class Plain:
    """Frames one below the other, the lines read from standard input."""

    def __init__(self, is_silent):
        self.is_silent, self.has_colour, self.typing, self.is_broken_off = is_silent, False, False, False
        self.words, self.names, self.takes_path = [], [], ()
        signal.signal(signal.SIGINT, lambda *_: self.break_off())

    def __enter__(self):
        return self

    def __exit__(self, *_):
        pass

    def break_off(self):
        if self.typing:
            raise KeyboardInterrupt
        self.is_broken_off = True

    def remember(self, lines):
        pass

    def show(self, draw):
        if not self.is_silent:
            print(*draw(shutil.get_terminal_size(PLAIN_SIZE)), sep="\n", flush=True)

    def echo(self, line):
        print(f"> {line}")

    def say(self, text):
        pass

    def line(self):
        try:
            self.typing = True
            line = b"" if self.is_broken_off else sys.stdin.buffer.readline()
        except KeyboardInterrupt:
            self.is_broken_off = True
        finally:
            self.typing = False
        if self.is_broken_off:
            sys.exit(130)
        if not line:
            raise EOFError
        return line.removesuffix(b"\n").decode("utf-8", "surrogateescape")

    def has_more(self):
        return False

    def pages(self, rows, _):
        print(*rows, sep="\n", flush=True)
