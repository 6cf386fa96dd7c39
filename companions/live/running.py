"""A run of bin/live: lines are taken one by one, typed or from files, and answered by the shell or by this program, and a frame is drawn."""
import collections
import itertools
import os
import re
import sys

from board import Board

from live import advice
from live.frame import Screen, Shown
from live.lines import FORMS
from live.shell import DONE, Transactions, is_short, number_of

HELP = """\
In the tree: [S] both quorums, (S) for reading alone, <S> for writing alone,
xS down; S:C its cost, S:R/W where it has two; S= current, S~ stale copy.
Lines of the shell (T transaction, F file, S server):
  begin        read T F       write T F TEXT      commit T     abort T
  down S       up S           cost S C|R W        choose [read|write]
  prepare T S [crash K]       decide T            apply T S [crash K]
  resolve T    refresh        board
Lines of this program:
  :file F      marks the copies of F; :file marks none
  :top S       draws the tree under S; :top draws it whole
  :rows        shows all rows, or as many as fit
  :log         shows all answers, page by page
  :unblock     the fewest lines that give a quorum, sent by Enter
  :end T       the lines that end T, sent by Enter
  :source P    takes the lines of the file P; Ctrl-C ends that
  :save P      writes the lines so far to P
  :quit        ends, as Ctrl-D does"""

# Lines of the shell that only look, which a drill does not count.
LOOKS = ("board", "choose")
# How many lines are sent together.
MOST_AHEAD = 100
# Lines of this program that look at the board, which is not there where the shell has ended.
ON_BOARD = (":file", ":top", ":unblock", ":end")


def read_lines(path):
    with open(path, encoding="utf-8", errors="surrogateescape", newline="\n") as it:
        return [line.removesuffix("\n") for line in it]


def counted(count):
    return f"{count} line{'s' * (count != 1)}"


def printable(text):
    """The text with a sign for each byte that would move what is drawn."""
    return re.sub(r"[\x00-\x1f\x7f-\x9f\udc80-\udcff]", "?", text)


class Live:
    """`lines` were asked, `said` are they and their answers; `queue` has lines with their file and number, which come before what is typed."""

    def __init__(self, given, shell, place, session):
        self.given, self.shell, self.place, self.session = given, shell, place, session
        self.own_lines = {":help": self.help, ":file": self.mark, ":top": self.under, ":rows": self.rows, ":log": self.log}
        self.own_lines |= {":unblock": self.unblock, ":end": self.end, ":source": self.source, ":save": self.save, ":quit": self.quit}
        place.words, place.takes_path = [*FORMS, *self.own_lines], (":source ", ":save ")
        self.queue, self.stops, self.is_quit = collections.deque(), False, False
        # With --step: the lines of its file, and all that were taken, each with whether it is one of these. With --drill: where its own lines end.
        self.script, self.taken, self.drilled = read_lines(given.step) if given.step else [], [], None
        self.begin()

    def begin(self):
        """All as it is before the first line."""
        self.screen = Screen(self.place.has_colour, self.given.file)
        self.lines, self.said, self.txns = [], ["lines of the shell, or :help; Ctrl-D ends"], Transactions()
        self.plan, self.last, self.kept_board = [], ("", ""), None

    @property
    def board(self):
        """The board as it is now, None where the shell has ended."""
        if self.kept_board is None and not self.shell.has_ended:
            rows = self.shell.ask("board")
            if self.shell.has_ended:
                self.said += rows
            else:
                self.kept_board = Board(rows)
        return self.kept_board

    def is_over(self):
        return self.shell.has_ended or self.stops or self.is_quit

    def run(self):
        """Takes line by line up to the end of the lines or of the shell."""
        self.open()
        while not self.is_over():
            self.take_queue()
            # Of lines that were typed or pasted at once the last alone has a frame.
            if not self.place.has_more():
                self.show()
            if self.is_over():
                break
            try:
                self.typed(self.place.line())
            except EOFError:
                return
            except KeyboardInterrupt:
                self.plan = []
                self.said.append("Ctrl-D ends")
        if not self.is_quit:
            self.said.append("the shell has ended" if self.shell.has_ended else "stopped at a refusal")

    def open(self):
        """Takes what the words of the command name."""
        if self.session:
            for line in self.session.lines:
                self.ask(line)
            self.place.remember(self.session.lines)
            self.said.append(f"{self.session.path}: {counted(len(self.session.lines))} taken")
            if self.session.told:
                self.tell(self.session.told)
        if self.given.drill:
            for line in self.given.drill.lines:
                self.ask(line)
            self.drilled = len(self.lines)
            if self.place.is_silent:
                self.tell(self.goal())
        for path in reversed(self.given.paths):
            self.source(path)

    def show(self):
        """Draws a frame; what it shows is on the disk before."""
        if self.session:
            self.session.sync()
        if self.place.is_silent or self.is_over() or not self.board:
            return
        self.place.names = [it.name for it in self.board.files]
        shown = Shown(self.board, self.txns, self.helps(), self.said, len(self.lines), self.drilled is not None)
        self.place.show(lambda size: self.screen.frame(shown, size))

    def helps(self):
        """What is told above the answers: what Enter sends, the next line, the goal, advice."""
        found = []
        if self.plan:
            found.append(f"Enter sends {counted(len(self.plan))}, any other line drops that: {', '.join(self.plan)}")
        if self.given.step:
            at = self.steps()
            told = f"Enter takes line {at + 1} of {len(self.script)}: {printable(self.script[at])}" if at < len(self.script) else f"all {at} lines were taken"
            found.append(f"{told}  (b goes back)")
        return found + ([self.goal()] if self.drilled is not None else advice.told(self.board, self.txns, *self.last))

    # Lines, and where they come from

    def typed(self, line):
        """Takes a line that was typed."""
        plan, self.plan = self.plan, []
        if not line and plan:
            self.enqueue("the lines that Enter sends", plan)
        elif not line and self.steps() < len(self.script):
            self.obey(self.script[self.steps()], is_of_script=True)
        elif line == "b" and self.given.step:
            self.back()
        else:
            self.obey(line)

    def enqueue(self, path, lines):
        self.queue.extendleft([(path, number, line) for number, line in enumerate(lines, 1)][::-1])

    def take_queue(self):
        """Takes the lines that come before what is typed; Ctrl-C ends that."""
        if len(self.queue) > 1:
            self.place.say(f"taking {len(self.queue)} lines, Ctrl-C ends that")
        while self.queue and not self.is_over():
            if not self.shell.sent:
                self.send_ahead()
            path, number, line = self.queue.popleft()
            self.obey(line)
            if self.place.is_broken_off and not self.shell.sent:
                self.tell(f"Ctrl-C behind line {number} of {path}: {counted(len(self.queue))} not taken")
                self.queue.clear()
                self.place.is_broken_off = False

    def send_ahead(self):
        """Sends the next lines together, so that not each waits for the answer before, where nothing hangs on that answer."""
        if not (self.given.stop or self.session or self.given.drill):
            ahead = (line for _, _, line in itertools.islice(self.queue, MOST_AHEAD))
            self.shell.send(list(itertools.takewhile(is_short, ahead)))

    def obey(self, line, is_of_script=False):
        """Does what the line says."""
        self.place.echo(line)
        if self.given.step and (line or is_of_script):
            self.taken.append((line, is_of_script))
        if line.startswith(":"):
            self.own(*line.split(" ", 1))
        elif line and self.is_kept(line):
            answers = self.ask(line)
            self.stops = self.given.stop and not (answers and DONE.fullmatch(answers[-1]))
            if self.given.transcript and answers:
                print(*answers, sep="\n")
            self.judge()
        if not self.queue:
            sys.stdout.flush()

    def is_kept(self, line):
        """Whether the line is in the file of the session, if there is one; where it comes from a file itself, on the disk not before a frame."""
        try:
            if self.session:
                self.session.append(line)
                if not self.queue or self.given.transcript:
                    self.session.sync()
            return True
        except OSError as fault:
            self.refuse(f"{self.session.path}: {fault.strerror}: the line was not asked")
            self.queue.clear()
            return False

    def ask(self, line):
        """The shell's answers to the line."""
        answers = self.shell.ask(line)
        self.lines.append(line)
        self.said += [printable(f"> {line}"), *answers]
        self.txns.hear(line, answers)
        self.kept_board, self.last = None, (line, answers[-1] if answers else "")
        return answers

    def tell(self, text):
        self.said.append(printable(text))
        if self.place.is_silent:
            print(text, flush=True)

    def refuse(self, text):
        self.tell(text)
        self.stops = self.given.stop

    # Steps and drills

    def steps(self):
        """How many lines of the file of --step were taken."""
        return sum(is_of_script for _, is_of_script in self.taken)

    def back(self):
        """All as it was before the last line, by another service that is asked the lines before it."""
        self.taken, kept = [], self.taken[:-1]
        self.shell.begin_again()
        self.begin()
        for line, is_of_script in kept:
            word, *rest = line.split(" ", 1)
            if word in (":file", ":top", ":rows"):
                self.own(word, *rest)
            elif line and line[0] != ":":
                self.ask(line)
            self.taken.append((line, is_of_script))

    def goal(self):
        drill = self.given.drill
        return f"drill {drill.name}: {drill.goal}; the fewest that reach it: {counted(len(drill.fewest))}"

    def judge(self):
        """Tells when the goal of a drill is reached."""
        if self.drilled is None or not self.board or not self.given.drill.is_reached(self.board):
            return
        count = sum(line.split(" ")[0] not in LOOKS for line in self.lines[self.drilled :])
        fewest = self.given.drill.fewest
        self.tell(f"the goal is reached in {counted(count)}; the fewest are {len(fewest)}: {', '.join(fewest)}")
        self.drilled = None

    # Lines of this program

    def own(self, word, rest=""):
        """Does a line of this program."""
        if word not in self.own_lines:
            self.refuse(f"no such line of this program: {word}, see :help")
        elif word not in ON_BOARD or self.board:
            self.own_lines[word](rest)

    def help(self, _):
        self.place.pages(HELP.split("\n"), False)

    def log(self, _):
        self.place.pages(self.said, True)

    def quit(self, _):
        self.is_quit = True

    def rows(self, _):
        self.screen.all = not self.screen.all

    def mark(self, name):
        self.screen.chosen = name or None
        if name and not any(it.name == name for it in self.board.files):
            self.refuse(f"no commit wrote {name} yet")

    def under(self, number):
        top = number_of(number)
        if number and top not in self.board.servers:
            self.refuse(f"there is no server {number}: they are 1 to {len(self.board.servers)}")
        else:
            self.screen.top = top or 1

    def unblock(self, _):
        self.plan = advice.unblocking(self.board)
        if not self.plan:
            self.tell("a quorum is left: nothing is to be brought up")
        elif self.place.is_silent:
            self.tell(f"Enter sends: {', '.join(self.plan)}")

    def end(self, number):
        txn = number_of(number)
        if txn not in self.txns.states:
            self.refuse(f"there is no transaction {number}")
            return
        self.plan = advice.end(self.board, self.txns, txn)
        if not self.plan:
            self.tell(f"T{txn} has ended, and nothing of it is left")
        elif self.place.is_silent:
            self.tell(f"Enter sends: {', '.join(self.plan)}")

    def source(self, path):
        try:
            self.enqueue(path, read_lines(os.path.expanduser(path)))
        except OSError as fault:
            self.refuse(f"{path}: {fault.strerror}")

    def save(self, path):
        try:
            with open(os.path.expanduser(path), "w", encoding="utf-8", errors="surrogateescape") as it:
                it.writelines(f"{line}\n" for line in self.lines)
            self.tell(f"{counted(len(self.lines))} saved to {path}")
        except OSError as fault:
            self.refuse(f"{path}: {fault.strerror}")
