#!/usr/bin/env python3
"""Runs workflows on a terminal of our own, and looks at what `dagrun run` shows there while it goes on, and once it has ended.

    tests/terminal.py PROGRAM [WORD]     WORD: only the rows whose name holds it

A small screen reads what comes: text, CR, LF, the erasing of the rest of a line, and red; anything else is a fault. So a row says which
lines a person sees, at 20, 80 and 200 columns and as the terminal is resized; that nothing stays but what is to stay; and that standard
output and the exit status are what they are without. Values are worked out by hand from docs/MANUAL.md. The last line is 'N passed, M failed'."""
import contextlib
import fcntl
import os
import pty
import re
import resource
import select
import shutil
import signal
import struct
import subprocess
import sys
import tempfile
import termios
import time
import unicodedata

from journals import HEADER, SLOT, slots_in

# How many seconds it is waited for what comes at once on a machine that is not busy.
PATIENCE = 300

# The line behind a run: how many nodes are in which state, and how long it took.
END = re.compile(r"^(\d+ done(, \d+ failed)?(, \d+ waiting)?), (\d+\.\d s|\d+:\d\d)(; dagrun why \S+ says why)?$")

# A line that says how far a run is, with its counts.
LINE = re.compile(
    r"^((?P<failed>\d+) failed, )?(?P<done>\d+)/(?P<nodes>\d+) done \((?P<percent>\d+)%\), (?P<running>\d+) running( \(.*\))?, (?P<ready>\d+) ready"
    r"  (?P<clock>\d+:\d\d)(, (?P<left>\d+:\d\d(:\d\d)?) left)?$"
)

# The escapes that are ours: the rest of a line is erased, text is red, and it is no more.
ERASE, RED, PLAIN = "\x1b[K", "\x1b[31m", "\x1b[0m"


def width_of(character):
    if unicodedata.combining(character):
        return 0
    return 2 if unicodedata.east_asian_width(character) in "WF" else 1


class Screen:
    """The lines of a terminal, of which none is lost, and the cursor."""

    def __init__(self, columns):
        self.columns = columns
        self.lines = [[]]
        self.column = 0
        self.wrapped = 0
        self.seen = []
        self.rest = ""
        # The texts that were red, and the one that is being written.
        self.reds = []
        self.red = None

    def put(self, character):
        if self.red is not None:
            self.red += character
        width = width_of(character)
        if width == 0:
            if self.column:
                self.lines[-1][self.column - 1] += character
            return
        if self.column + width > self.columns:
            self.wrapped += 1
            self.feed_line()
        line = self.lines[-1]
        line.extend(" " * (self.column + width - len(line)))
        line[self.column] = character
        if width == 2:
            line[self.column + 1] = ""
        self.column += width

    def feed_line(self):
        self.lines.append([])
        self.column = 0

    def erase(self):
        # At the last column some terminals erase the character that stands there.
        assert self.column < self.columns, f"erases at the last column: {self.text()[-1]!r}"
        del self.lines[-1][self.column :]

    def escape(self, escape):
        """Reads an escape that is ours."""
        assert (self.red is None) == (escape != PLAIN), f"{escape!r} where {self.red!r} is red"
        if escape == ERASE:
            self.erase()
            self.seen.append(self.text()[-1])
        elif escape == RED:
            self.red = ""
        else:
            self.reds.append(self.red)
            self.red = None

    def take(self, text):
        """Reads text; a part of an escape waits for its rest."""
        text = self.rest + text
        self.rest = ""
        at = 0
        while at < len(text):
            if text[at] == "\x1b":
                escape = next((one for one in (ERASE, RED, PLAIN) if text.startswith(one, at)), None)
                if escape is None and any(one.startswith(text[at:]) for one in (ERASE, RED, PLAIN)):
                    self.rest = text[at:]
                    return
                assert escape, f"an escape that is none of ours: {text[at:at + 8]!r}"
                self.escape(escape)
                at += len(escape)
                continue
            assert self.red is None or text[at] >= " ", f"red does not end: {self.red!r}"
            if text[at] == "\r":
                self.column = 0
            elif text[at] == "\n":
                self.feed_line()
            else:
                assert text[at] >= " " and not "\x7f" <= text[at] < "\xa0", f"a control character: {text[at]!r}"
                self.put(text[at])
            at += 1

    def resize(self, columns):
        """A narrower terminal begins new lines where the old ones were too long."""
        self.columns = columns
        whole = self.lines[-1]
        while len(self.lines[-1]) > columns:
            whole = self.lines[-1]
            self.lines[-1] = whole[:columns]
            self.lines.append(whole[columns:])
        self.column = min(len(self.lines[-1]), columns - 1)

    def text(self):
        return ["".join(line).rstrip() for line in self.lines]

    def told(self):
        """The lines that stay."""
        lines = self.text()
        assert lines[-1] == "", f"a line is left: {lines[-1]!r}"
        return lines[:-1]


def steady(text):
    """A text with 0 seconds in place of however many there were."""
    text = re.sub(r"ready  \d+:\d\d", "ready  0:00", re.sub(r", \d+:\d\d left$", ", 0:00 left", text))
    return re.sub(r"\b\d+ s\b", "0 s", text)


class Told:
    """What a run printed, what the terminal shows, and the exit status."""

    def __init__(self, text, screen, raw, status, took):
        self.text = text
        self.screen = screen
        self.raw = raw
        self.status = status
        self.took = took

    def lines(self):
        """The lines that were shown and did not stay, with 0 seconds in place of however many there were."""
        return [steady(line) for line in self.screen.seen if line]

    def end(self):
        """The lines behind the report of a run: which nodes are not done, if there are any, and the last one without its time."""
        lines = self.screen.told()
        found = END.match(lines[-1]) if lines else None
        if not found:
            return []
        front = [line for line in lines[-2:-1] if line.startswith("not done: ")]
        return [*front, found.group(1) + (found.group(5) or "")]

    def kept(self):
        """The lines that stay before these."""
        lines = self.screen.told()
        return lines[: len(lines) - len(self.end())]

    def has_shown(self, line):
        holds(line in self.lines(), f"no {line!r} in {self.lines()}")

    def progress(self):
        """The lines that said how far the run was, as values, the first of them first."""
        found = [LINE.match(line) for line in self.screen.seen if line]
        return [match for match in found if match]


def until(name):
    """A line of shell that waits until this file is there, or the folder is no more: a row that fails makes no file."""
    return f"until [ -e {name} ] || [ ! -e x.dag ]; do sleep 0.05; done\n"


@contextlib.contextmanager
def many(folder, name, count):
    """A job that many run at once, each of which waits for a line and needs no time of a processor for it. Answers what lets so many end."""
    folder.shell(name, "read line < gate\n", error=False)
    os.mkfifo(folder.at("gate"))
    gate = os.open(folder.at("gate"), os.O_RDWR)
    try:
        yield lambda: os.write(gate, b"\n" * count)
    finally:
        os.close(gate)


def counts(match):
    """The counts of a line: done, nodes, running, ready, failed."""
    return (*match.group("done", "nodes", "running", "ready"), match.group("failed") or "0")


def numbers(*wanted):
    """Whether a line has these counts: done, nodes, running, ready, failed."""
    def has(line):
        found = LINE.match(line)
        return bool(found) and counts(found) == wanted
    return has


def seconds_of(clock):
    """The seconds of `m:ss` or `h:mm:ss`."""
    seconds = 0
    for part in clock.split(":"):
        seconds = 60 * seconds + int(part)
    return seconds


def estimates(told, kept):
    """Whether the lines of a run that began with so many nodes done have the percent and the time left that the manual says. Answers how many
    of them have a time left."""
    found = told.progress()
    for match in found:
        done, nodes = int(match.group("done")), int(match.group("nodes"))
        same(int(match.group("percent")), 100 * done // nodes, f"{match.group()}: ")
        fresh, to_do = done - kept, nodes - done
        is_estimated = fresh > 0 and to_do > 0 and 10 * fresh >= nodes - kept
        wanted = seconds_of(match.group("clock")) * to_do // fresh if is_estimated else None
        left = match.group("left")
        same(seconds_of(left) if left else None, wanted, f"{match.group()}: ")
    return sum(1 for match in found if match.group("left"))


class Folder:
    """A folder with files, in which the program is called."""

    def __init__(self, program, path):
        self.program = program
        self.path = path

    def at(self, name):
        return os.path.join(self.path, name)

    def write(self, name, text):
        with open(self.at(name), "wb") as file:
            file.write(text if isinstance(text, bytes) else text.encode())

    def read(self, name):
        with open(self.at(name), "rb") as file:
            return file.read()

    def cut(self, name):
        """Takes the last record of a journal away, that of its end; the others are each alone behind their gates."""
        journal = self.read(name)
        slots = [journal[at : at + SLOT] for at in slots_in(journal)[0][:-1]]
        self.write(name, journal[:HEADER] + b"".join(slots) + b"\0")

    def shell(self, name, script, error=True):
        """A submit file whose job is a shell script."""
        self.write(name + ".sh", script)
        errors = f"error = {name}.err\n" if error else ""
        self.write(name + ".sub", f"executable = /bin/sh\narguments = {name}.sh\n{errors}queue\n")

    def call(self, *words, **how):
        """What the program prints, what it tells where that is no terminal, and its exit status."""
        environment = {**os.environ, "TERM": "xterm", **how}
        done = subprocess.run([self.program, *words], cwd=self.path, capture_output=True, timeout=PATIENCE, env=environment)
        return done.stdout.decode(), done.stderr.decode(), done.returncode

    def on_terminal(self, *words, columns=80, steps=(), term="xterm", limit=None, killed=None, typed=None, no_color=None, printed=False):
        """Calls the program with standard error on a terminal, and `printed` with standard output on it, too. `steps`: what is to be seen, one after the other, each a line with 0 seconds in
        place of however many there are, or a function of a line; and then the columns of the terminal from there on, or the file that is made,
        for which jobs may wait, or what is called: so they run until it is seen, however slow the machine is. `limit`: bytes that a file may have; `killed`: whether a line is
        the one that is to be seen before the program is killed; `typed`: standard input is the terminal, too, on which this is typed, with no echo; `no_color`:
        what the variable NO_COLOR is, if it is set."""
        ours, theirs = pty.openpty()
        if typed is not None:
            modes = termios.tcgetattr(theirs)
            modes[3] &= ~termios.ECHO
            termios.tcsetattr(theirs, termios.TCSANOW, modes)
            os.write(ours, typed)
        fcntl.ioctl(theirs, termios.TIOCSWINSZ, struct.pack("HHHH", 24, columns, 0, 0))
        environment = {name: value for name, value in os.environ.items() if name not in ("TERM", "COLUMNS", "NO_COLOR")}
        if term is not None:
            environment["TERM"] = term
        if no_color is not None:
            environment["NO_COLOR"] = no_color

        def prepare():
            os.setsid()
            fcntl.ioctl(2, termios.TIOCSCTTY, 0)
            signal.signal(signal.SIGINT, signal.SIG_DFL)
            if limit:
                signal.signal(signal.SIGXFSZ, signal.SIG_IGN)
                resource.setrlimit(resource.RLIMIT_FSIZE, (limit, limit))

        began = time.monotonic()
        with tempfile.TemporaryFile() as output:
            run = subprocess.Popen(
                [self.program, *words], cwd=self.path, stdin=subprocess.DEVNULL if typed is None else theirs, stdout=theirs if printed else output, stderr=theirs,
                env=environment,
                preexec_fn=prepare, restore_signals=False,
            )
            os.close(theirs)
            screen, raw = Screen(columns), b""
            waiting, looked = list(steps), 0
            pending = b""
            while True:
                if time.monotonic() - began > PATIENCE:
                    run.kill()
                    raise AssertionError(f"the run does not end; {len(waiting)} steps are not seen; the last lines: {screen.seen[-9:]}")
                if not select.select([ours], [], [], 0.02)[0]:
                    continue
                try:
                    bytes_read = os.read(ours, 65536)
                except OSError:
                    break
                if not bytes_read:
                    break
                raw += bytes_read
                pending += bytes_read
                text = pending.decode(errors="ignore")
                pending = pending[len(text.encode()) :]
                screen.take(text)
                # What does not stay, and what does.
                lines = screen.seen[looked:] + screen.text()
                looked = len(screen.seen)
                while waiting and any(waiting[0][0](line) if callable(waiting[0][0]) else steady(line) == waiting[0][0] for line in lines):
                    then = waiting.pop(0)[1]
                    if isinstance(then, str):
                        self.write(then, "")
                        continue
                    if callable(then):
                        then()
                        continue
                    fcntl.ioctl(ours, termios.TIOCSWINSZ, struct.pack("HHHH", 24, then, 0, 0))
                    screen.resize(then)
                    # What has been read is of the width before.
                    break
                if killed and any(map(killed, screen.seen)):
                    run.kill()
                    killed = None
            status = run.wait(timeout=PATIENCE)
            took = time.monotonic() - began
            os.close(ours)
            output.seek(0)
            return Told(output.read().decode(), screen, raw, status, took)


def same(found, wanted, what=""):
    if found != wanted:
        raise AssertionError(f"{what}found\n{found}\nwanted\n{wanted}")


def holds(fact, what):
    if not fact:
        raise AssertionError(what)


# What comes after a picture that is folded though nobody asked for it.
FOLDED = "folded: nodes of one shape are one box; --no-fold shows each node, as into a file"

# What is to be seen while the pairs of `four` run, which wait for it.
FIRST_PAIR = "0/4 done (0%), 2 running (A 0 s, B 0 s), 0 ready  0:00"
SECOND_PAIR = "2/4 done (50%), 2 running (C 0 s, D 0 s), 0 ready  0:00, 0:00 left"


def four(folder, first=until("first"), second="true\n"):
    """Four nodes one behind another in pairs: A and B, then C and D."""
    for name in "ABCD":
        folder.shell(name, first if name in "AB" else second)
    folder.write("x.dag", "JOB A A.sub\nJOB B B.sub\nJOB C C.sub\nJOB D D.sub\nPARENT A B CHILD C D\n")


ALL_DONE = "".join(f"{name} DONE attempts=1 value=0\n" for name in "ABCD") + "result 0\n"


# ---- the line


def goes_on(folder):
    """At 80 columns the line has the names, from those that run longest on; nothing stays, and the report stands alone."""
    four(folder, second=until("second"))
    told = folder.on_terminal("run", "x.dag", steps=[(FIRST_PAIR, "first"), (SECOND_PAIR, "second")])
    same(told.text, ALL_DONE)
    same(told.status, 0)
    same(told.kept(), [])
    told.has_shown("0/4 done (0%), 2 running (A 0 s, B 0 s), 0 ready  0:00")
    told.has_shown("2/4 done (50%), 2 running (C 0 s, D 0 s), 0 ready  0:00, 0:00 left")
    same(told.screen.reds, [])
    holds(told.screen.wrapped == 0, "it is wider than the terminal")


def counts_of_states(folder):
    """Ready are those that wait for a limit; E and F wait for their parent; failed is a node in error."""
    for name in "ABCDEF":
        folder.shell(name, {"A": "exit 3\n", "B": until("first"), "C": until("first")}.get(name, until("second")))
    folder.write("x.dag", "".join(f"JOB {name} {name}.sub\n" for name in "ABCDEF") + "PARENT A CHILD E\nPARENT B CHILD F\nPRIORITY A 9\n")
    steps = [(numbers("0", "6", "2", "1", "1"), "first"), (numbers("2", "6", "2", "0", "1"), "second")]
    told = folder.on_terminal("run", "--maxjobs", "2", "x.dag", steps=steps)
    found = [counts(match) for match in told.progress()]
    # A has failed, B and C run, D is ready, E and F wait for their parents.
    holds(("0", "6", "2", "1", "1") in found, f"{found}")
    # B and C are done: D and F run.
    holds(("2", "6", "2", "0", "1") in found, f"{found}")
    same(told.status, 1)
    same(set(told.screen.reds), {"1 failed"})


def in_red(folder):
    """How many nodes failed is red where the line has it whole, but for a NO_COLOR that is not empty."""
    folder.shell("A", "exit 1\n", error=False)
    folder.shell("B", until("seen"))
    folder.write("x.dag", "JOB A A.sub\nJOB B B.sub\n")
    whole = "1 failed, 0/2 done (0%), 1 running (B 0 s), 0 ready  0:00"
    rows = [
        (80, None, whole, {"1 failed"}),
        (80, "", whole, {"1 failed"}),
        (80, "1", whole, set()),
        # 19 columns have room for seventeen characters and `..`, and 8 columns for six.
        (20, None, "1 failed, 0/2 don..", {"1 failed"}),
        (9, None, "1 fail..", set()),
    ]
    for columns, no_color, line, reds in rows:
        told = folder.on_terminal("run", "x.dag", columns=columns, no_color=no_color, steps=[(line, "seen")])
        told.has_shown(line)
        same(set(told.screen.reds), reds, f"{columns} columns, {no_color!r}: ")
        same(told.status, 1)
        for name in os.listdir(folder.path):
            if name.startswith("x.dag.") or name == "seen":
                os.remove(folder.at(name))


def time_left(folder):
    """Eleven nodes one after another: of one that is done nothing is estimated, of two what the other nine take. A manager that goes on estimates by
    what it has done itself."""
    names = [f"n{number:02}" for number in range(11)]
    folder.shell("j", "true\n", error=False)
    for name in names[:4]:
        folder.shell(name, until(f"{name}.seen"))
    lines = [f"JOB {name} {name if name in names[:4] else 'j'}.sub\n" for name in names]
    lines += [f"PARENT {first} CHILD {second}\n" for first, second in zip(names, names[1:])]
    folder.write("x.dag", "".join(lines))

    def later(done, seconds):
        """Whether a line says that so many are done, after so many seconds."""
        def has(line):
            found = LINE.match(line)
            return bool(found) and found.group("done") == done and seconds_of(found.group("clock")) >= seconds
        return has

    # The manager is killed at a line that comes after two seconds: 2 * 9 / 2 = 9 are left then, or more.
    steps = [("0/11 done (0%), 1 running (n00 0 s), 0 ready  0:00", "n00.seen"), ("1/11 done (9%), 1 running (n01 0 s), 0 ready  0:00", "n01.seen")]
    told = folder.on_terminal("run", "x.dag", steps=steps, killed=later("2", 2))
    same(told.status, -signal.SIGKILL)
    told.has_shown("2/11 done (18%), 1 running (n02 0 s), 0 ready  0:00, 0:00 left")
    holds(estimates(told, 0) > 0, "nothing is estimated")
    # Two are kept: of the nine others one is more than a tenth.
    steps = [("2/11 done (18%), 1 running (n02 0 s), 0 ready  0:00", "n02.seen"), (later("3", 1), "n03.seen")]
    told = folder.on_terminal("run", "x.dag", steps=steps)
    same(told.status, 0)
    told.has_shown("3/11 done (27%), 1 running (n03 0 s), 0 ready  0:00, 0:00 left")
    holds(estimates(told, 2) > 0, "nothing is estimated")


def a_halt(folder):
    """A halt is said while something runs, and stays; so does the refusal, with what to do. It may be seen before A's ending is known or after it."""
    folder.shell("A", "touch x.dag.halt\n")
    # B ends once A's ending is in the journal: Life, the batch of two launches, and that.
    recorded = HEADER + 4 * SLOT + SLOT
    folder.shell("B", f'until [ "$(stat -c %s x.dag.journal)" -gt {recorded} ]; do sleep 0.05; done\n')
    folder.write("x.dag", "JOB A A.sub\nJOB B B.sub\nJOB C A.sub\nPARENT A B CHILD C\nJOB D A.sub\nPARENT A CHILD D\n")
    told = folder.on_terminal("run", "x.dag")
    same((told.text, told.status), ("", 125))
    kept = told.kept()
    holds(kept[0] in [f"halted: nothing more is launched; {running}" for running in ("1 still runs", "2 still run")], f"{kept}")
    same(kept[1], "dagrun: H1 Halted x.dag.halt")
    holds(any("remove that file, and call `dagrun run` again" in line for line in kept), f"{kept}")


def at_20_columns(folder):
    """There is no room for names, nor for all numbers: the line is cut, and is never wider than the terminal."""
    four(folder)
    told = folder.on_terminal("run", "x.dag", columns=20, steps=[("0/4 done (0%), 2 ..", "first")])
    same(told.text, ALL_DONE)
    same(told.kept(), [])
    same(told.screen.wrapped, 0)
    # 19 columns, so that the last one stays free.
    told.has_shown("0/4 done (0%), 2 ..")


def at_200_columns(folder):
    """Forty names of nodes are too many for 199 columns: as many stand there as have room, and `..`."""
    names = [f"name_{number:02}" for number in range(40)]
    folder.write("x.dag", "".join(f"JOB {name} j.sub\n" for name in names))
    # `0/40 done (0%), 40 running` and `, 0 ready  0:00` take 26 and 15 columns, ` (` and `, ..)` seven: 151 of 199 are left, of which
    # `name_00 0 s` takes 11 and each further one 13: eleven fit, as long as none of them has run for ten seconds.
    first = "0/40 done (0%), 40 running (" + ", ".join(f"{name} 0 s" for name in names[:11]) + ", ..), 0 ready  0:00"
    with many(folder, "j", len(names)) as end_all:
        told = folder.on_terminal("run", "--maxjobs", "60", "x.dag", columns=200, steps=[(first, end_all)])
    same(told.kept(), [])
    same(told.screen.wrapped, 0)
    told.has_shown(first)


def resized(folder):
    """From 80 columns to 36 and to 120: soon the line is as wide as there is room. The jobs run until that is seen."""
    for name in ("first_of_the_two", "second_of_the_two"):
        folder.shell(name, until("seen"))
    folder.write("x.dag", "JOB first_of_the_two first_of_the_two.sub\nJOB second_of_the_two second_of_the_two.sub\n")
    at_80 = "0/2 done (0%), 2 running (first_of_the_two 0 s, ..), 0 ready  0:00"
    # 35 columns have no room for the 39 of the numbers, nor 79 for the 85 of the whole.
    at_36 = "0/2 done (0%), 2 running, 0 ready.."
    at_120 = "0/2 done (0%), 2 running (first_of_the_two 0 s, second_of_the_two 0 s), 0 ready  0:00"
    told = folder.on_terminal("run", "x.dag", steps=[(at_80, 36), (at_36, 120), (at_120, "seen")])
    for line in (at_80, at_36, at_120):
        told.has_shown(line)
    same(told.screen.text()[-1], "", "a line is left: ")


def wide_names(folder):
    """Characters of two columns are counted as such, and control characters in a name are shown as what they are."""
    name = "工作流程节点"
    folder.shell("j", until("seen"))
    folder.write("x.dag", f"JOB {name} j.sub\nJOB b\x85c j.sub\n")
    line = f"0/2 done (0%), 2 running ({name} 0 s, b\\x85c 0 s), 0 ready  0:00"
    told = folder.on_terminal("run", "x.dag", columns=90, steps=[(line, "seen")])
    same(told.screen.wrapped, 0)
    told.has_shown(line)
    # 24 columns and 15 are around ` (`, twelve of the name, ` 0 s` and `, ..)`: 62, and the last column stays free.
    for columns, shown in ((63, f" ({name} 0 s, ..)"), (62, "")):
        for file in ("x.dag.journal", "x.dag.log", "seen"):
            os.remove(folder.at(file))
        line = f"0/2 done (0%), 2 running{shown}, 0 ready  0:00"
        told = folder.on_terminal("run", "x.dag", columns=columns, steps=[(line, "seen")])
        told.has_shown(line)


# ---- what failed


def a_failure_in_between(folder):
    """Each failed attempt has a line that stays; the last one has the last lines of its errors below it."""
    folder.shell("A", "echo one >&2; echo two >&2; exit 3\n")
    folder.shell("B", until("seen"))
    folder.write("x.dag", "JOB A A.sub\nJOB B B.sub\nRETRY A 1\n")
    told = folder.on_terminal("run", "x.dag", steps=[(numbers("0", "2", "1", "0", "1"), "seen")])
    same(told.kept(), [
        "A JOB, attempt 0: exit 3; errors in A.err; it is tried again",
        "A JOB, attempt 1: exit 3; errors in A.err",
        "  | one",
        "  | two",
    ])
    same(told.text, "A ERROR attempts=2 value=3\nB DONE attempts=1 value=0\nresult 1\n")
    same(told.status, 1)
    found = [counts(match) for match in told.progress()]
    holds(("0", "2", "1", "0", "1") in found, f"{found}")


def signals_and_scripts(folder):
    """A signal by its name; a script that can't be started, with its path and why; a job whose POST script failed behind it."""
    folder.shell("A", "kill -9 $$\n")
    folder.shell("B", "true\n")
    folder.shell("C", "echo lost >&2; exit 5\n")
    folder.shell("D", "exit 5\n")
    folder.write("x.dag", "JOB A A.sub\nJOB B B.sub\nSCRIPT PRE B missing.sh\nJOB C C.sub\nSCRIPT POST C /bin/false\nJOB D D.sub\nSCRIPT POST D /bin/true\n")
    told = folder.on_terminal("run", "x.dag", "--maxjobs", "1", columns=200)
    lines = told.kept()
    holds("A JOB, attempt 0: signal 9 (SIGKILL); errors in A.err" in lines, f"{lines}")
    missing = os.path.realpath(folder.at("missing.sh"))
    holds(f"B PRE, attempt 0: could not be started: {missing}: No such file or directory (os error 2)" in lines, f"{lines}")
    at = lines.index("C JOB, attempt 0: exit 5; errors in C.err")
    same(lines[at + 1 : at + 3], ["  | lost", "C POST, attempt 0: exit 1; errors in x.dag.scripts/C.POST.0"])
    # What D's POST script made good is no failure.
    holds(not any(line.startswith("D ") for line in lines), f"{lines}")


def ends_of_files(folder):
    """The last five lines: of a large file, of one with control characters, of bytes that are no text, of one line without an end."""
    folder.shell("A", "seq 1 200000 >&2; exit 1\n")
    folder.shell("B", "printf 'red \\033[31m\\ttab\\rback\\n\\n' >&2; exit 1\n")
    folder.shell("C", "printf '\\377\\000\\200ok\\n' >&2; exit 1\n")
    folder.shell("D", "head -c 30000 /dev/zero | tr '\\0' x >&2; exit 1\n")
    folder.shell("E", "exit 1\n")
    folder.shell("F", "exit 1\n", error=False)
    names = "ABCDEF"
    folder.write("x.dag", "".join(f"JOB {name} {name}.sub\n" for name in names))
    told = folder.on_terminal("run", "--maxjobs", "1", "x.dag")
    same(told.kept(), [
        "A JOB, attempt 0: exit 1; errors in A.err",
        *(f"  | {number}" for number in range(199996, 200001)),
        "B JOB, attempt 0: exit 1; errors in B.err",
        "  | red \\x1b[31m\\ttab\\x0dback",
        "  |",
        "C JOB, attempt 0: exit 1; errors in C.err",
        "  | \\xff\\x00\\x80ok",
        "D JOB, attempt 0: exit 1; errors in D.err",
        "  | .." + "x" * 71 + "..",
        "E JOB, attempt 0: exit 1; errors in E.err",
        "F JOB, attempt 0: exit 1",
    ])
    same(told.screen.wrapped, 0)


# ---- where nothing is redrawn


def plain_lines(found, wanted, took, what=""):
    """Whether these lines were told, the first of which says how far a run is. One more such line is told each ten seconds: so long a run
    takes on a slow machine alone."""
    others = [line for line in found[1:] if LINE.match(line)]
    holds(len(others) <= took // 10, f"{what}{len(others)} lines more in {took:.1f} seconds: {found}")
    same([steady(line) for line in found[:1] + [line for line in found[1:] if line not in others]], wanted, what)


def dumb_terminals(folder):
    """TERM=dumb, and none: plain lines and no control character."""
    four(folder)
    for term in ("dumb", None):
        told = folder.on_terminal("run", "x.dag", term=term, steps=[(FIRST_PAIR, "first")])
        holds(b"\x1b" not in told.raw, f"{term}: {told.raw!r}")
        plain_lines(told.kept(), ["0/4 done (0%), 2 running (A 0 s, B 0 s), 0 ready  0:00"], told.took, f"{term}: ")
        same(told.end(), ["4 done"], f"{term}: ")
        same(told.text, ALL_DONE)
        os.remove(folder.at("x.dag.journal"))
        os.remove(folder.at("first"))


def never(folder):
    """`--progress never` on a terminal writes nothing."""
    four(folder, "exit 2\n", "exit 2\n")
    told = folder.on_terminal("run", "--progress", "never", "x.dag")
    same(told.raw, b"")
    same(told.status, 1)


def no_terminal(folder):
    """Where standard error is no terminal nothing is written but by `always`: plain lines, the first at once, and one for each failure."""
    four(folder)
    folder.shell("D", "echo why >&2; exit 4\n")
    wanted = ALL_DONE.replace("D DONE attempts=1 value=0\nresult 0", "D ERROR attempts=1 value=4\nresult 1")
    folder.write("first", "")
    same(folder.call("run", "x.dag"), (wanted, "", 1))
    for name in os.listdir(folder.path):
        if name.startswith("x.dag.") or name == "first":
            os.remove(folder.at(name))
    began = time.monotonic()
    run = subprocess.Popen(
        [folder.program, "run", "--progress", "always", "x.dag"], cwd=folder.path, stdout=subprocess.PIPE, stderr=subprocess.PIPE, env={**os.environ, "TERM": "xterm"})
    # A and B run until the first line is there, which comes at once; where it doesn't, the row ends all the same.
    holds(select.select([run.stderr], [], [], PATIENCE)[0], "nothing is told")
    folder.write("first", "")
    text, told = (output.decode() for output in run.communicate(timeout=PATIENCE))
    took = time.monotonic() - began
    same((text, run.returncode), (wanted, 1))
    same(told[-1:], "\n")
    plain_lines(told.splitlines(), ["0/4 done (0%), 2 running (A 0 s, B 0 s), 0 ready  0:00", "D JOB, attempt 0: exit 4; errors in D.err", "  | why"], took)


def same_output(folder):
    """What is printed is byte for byte what is printed without."""
    four(folder, "sleep 0.1\n", "sleep 0.1\n")
    without = folder.call("run", "--progress", "never", "x.dag")
    os.remove(folder.at("x.dag.journal"))
    told = folder.on_terminal("run", "x.dag")
    same((told.text, told.status), (without[0], without[2]))


# ---- how a run ends


def an_abort(folder):
    """A node's abort ends the run: its line stays, the other one's is gone with the children that are killed."""
    folder.shell("A", until("seen") + "exit 7\n")
    folder.shell("B", "exec sleep 1000\n")
    folder.write("x.dag", "JOB A A.sub\nJOB B B.sub\nABORT-DAG-ON A 7 RETURN 9\n")
    told = folder.on_terminal("run", "x.dag", steps=[(numbers("0", "2", "2", "0", "0"), "seen")])
    same(told.kept(), ["A JOB, attempt 0: exit 7; errors in A.err"])
    same(told.end(), ["not done: A ERROR, B READY", "0 done, 1 failed, 1 waiting; dagrun why x.dag says why"])
    same(told.status, 9)
    # B takes longer than the row may.
    holds(told.took < PATIENCE, "it waited for B")


def how_it_ended(folder):
    """Behind the report stands what is not done, at most twenty names, how many nodes are in which state, and how long it took; but for
    `--progress never`, and where standard error is no terminal."""
    folder.shell("A", "exit 1\n", error=False)
    folder.shell("B", "exit 0\n", error=False)
    folder.write("x.dag", "".join(f"JOB A{number} A.sub\n" for number in range(22)) + "JOB B B.sub\nJOB C B.sub\nPARENT A0 CHILD C\n")
    told = folder.on_terminal("run", "x.dag", columns=400)
    names = ", ".join(f"A{number} ERROR" for number in range(20))
    same(told.end(), [f"not done: {names} and 3 more", "1 done, 22 failed, 1 waiting; dagrun why x.dag says why"])
    same((told.status, told.text.splitlines()[-1]), (1, "result 1"))
    same(folder.call("run", "x.dag")[1:], ("", 1))
    folder.write("y.dag", "JOB B B.sub\n")
    told = folder.on_terminal("run", "y.dag")
    same((told.status, told.screen.told()[:-1], told.end()), (0, [], ["1 done"]))
    same(folder.on_terminal("run", "--progress", "never", "y.dag").screen.told(), [])


def what_is_kept(folder):
    """As a round begins or goes on it is said how many nodes are done, and by which rescue file."""
    folder.shell("A", "exit 0\n", error=False)
    folder.shell("B", "[ -e mended ]\n", error=False)
    folder.write("x.dag", "JOB A A.sub\nJOB B B.sub\nJOB C A.sub\nPARENT A B CHILD C\n")
    same(folder.on_terminal("run", "x.dag").kept(), ["B JOB, attempt 0: exit 1"])
    told = folder.on_terminal("run", "x.dag")
    same(told.kept(), ["new round by x.dag.rescue001: 1 of 3 nodes is done (--autorescue 0 begins anew)", "B JOB, attempt 0: exit 1"])
    folder.write("mended", "")
    same(folder.on_terminal("run", "--autorescue", "0", "x.dag").kept(), [])
    # Of that round is left what was recorded before C's launch: the manager, and the launches and endings of A and B.
    journal = folder.read("x.dag.journal")
    slots = [journal[at : at + SLOT] for at in slots_in(journal)[0][:5]]
    folder.write("x.dag.journal", journal[:HEADER] + b"".join(slots) + b"\0")
    told = folder.on_terminal("run", "x.dag")
    same((told.kept(), told.end(), told.status), (["goes on: 2 of 3 nodes are done"], ["3 done"], 0))


def what_will_fail(folder):
    """Before anything is started it is said which of the jobs that can start at once will fail: their programs, and the folders of their
    files, are looked at. Each cause has one line."""
    folder.write("a.sub", "executable = no/such\nqueue\n")
    folder.write("b.sub", "executable = plain\nqueue\n")
    folder.write("plain", "")
    folder.write("c.sub", "executable = /bin/true\noutput = away/$(JOB).out\nqueue\n")
    folder.write("d.sub", "executable = /bin/true\ninitialdir = nowhere\nqueue\n")
    folder.write("e.sub", "executable = made\nqueue\n")
    folder.write("x.dag", "JOB A a.sub\nJOB B b.sub\nJOB C1 c.sub\nJOB C2 c.sub\nJOB D d.sub\nJOB E e.sub\nPARENT B CHILD E\nJOB F e.sub\nSCRIPT PRE F true\n")
    here = os.path.realpath(folder.path)
    told = folder.on_terminal("run", "x.dag", columns=200)
    same(told.kept()[:4], [
        f"A will fail: {here}/no/such is not there: put it there, or mend its path",
        f"B will fail: {here}/plain may not be executed: chmod +x {here}/plain",
        f"2 nodes will fail: the folder {here}/away is not there: mkdir -p {here}/away",
        f"D will fail: the folder {here}/nowhere is not there: mkdir -p {here}/nowhere",
    ])
    holds(not any("will fail" in line for line in told.kept()[4:]), f"{told.kept()}")
    # A launcher may find the program elsewhere.
    told = folder.on_terminal("run", "--launcher", "env", "x.dag", columns=200)
    same([line.split(":")[0] for line in told.kept() if "will fail" in line], ["2 nodes will fail", "D will fail"])


def what_will_fail_by_odd_paths(folder):
    """Commands that are proposed are such as a shell reads. A pipe in the place of a program is not opened, which would wait for ever."""
    folder.write("a.sub", "executable = /bin/true\noutput = my out/$(JOB).out\nqueue\n")
    folder.write("b.sub", "executable = run it.sh\nqueue\n")
    folder.write("run it.sh", "#!/bin/sh\n")
    folder.write("c.sub", "executable = pipe\nqueue\n")
    os.mkfifo(folder.at("pipe"), 0o755)
    folder.write("d.sub", "executable = read.sh\nqueue\n")
    folder.write("read.sh", "#!/no/such/reader\n")
    os.chmod(folder.at("read.sh"), 0o755)
    folder.write("x.dag", "JOB A a.sub\nJOB B b.sub\nJOB C c.sub\nJOB D d.sub\n")
    here = os.path.realpath(folder.path)
    told = folder.on_terminal("run", "x.dag", columns=200)
    same(told.kept()[:4], [
        f"A will fail: the folder {here}/my out is not there: mkdir -p '{here}/my out'",
        f"B will fail: {here}/run it.sh may not be executed: chmod +x '{here}/run it.sh'",
        f"C will fail: {here}/pipe is a pipe, a device or a socket: name a program",
        f"D will fail: the first line of {here}/read.sh names /no/such/reader, where no program is: name the one that reads it",
    ])
    same((told.status, told.text.splitlines()[-1]), (1, "result 1"))


def what_is_odd(folder):
    """Behind the answer of a check stands what is odd in the files, without being asked for; where it is no terminal there is nothing."""
    folder.write("a.sub", "executable = no/such\nqueue\n")
    folder.write("x.dag", "JOB A a.sub\n")
    told = folder.on_terminal("check", "x.dag", columns=200)
    same((told.status, told.screen.told()), (0, folder.call("check", "--hints", "x.dag")[1].splitlines()))
    same(len(told.screen.told()), 1)
    same(told.text, folder.call("check", "x.dag")[0])
    same(folder.call("check", "x.dag")[1], "")
    # Where they are asked for they stand there once.
    same(folder.on_terminal("check", "--hints", "x.dag", columns=200).screen.told(), told.screen.told())


def what_can_not_be_noted(folder):
    """That a later run may not know the processes of the round is said once."""
    folder.shell("A", "exit 0\n", error=False)
    folder.write("x.dag", "JOB A A.sub\nJOB B A.sub\n")
    os.mkdir(folder.at("x.dag.round.new"))
    told = folder.on_terminal("run", "x.dag", columns=120)
    same(told.kept(), ["the round's processes can't be noted (Is a directory (os error 21)): a later run may not know them"])
    same((told.end(), told.status), (["2 done"], 0))


def what_is_changed(folder):
    """Behind J5 stands which files are changed, and the command that keeps what is done."""
    folder.shell("A", "exit 0\n", error=False)
    folder.shell("B", "exit 1\n", error=False)
    folder.write("my flow.dag", "JOB A A.sub\nJOB B B.sub\n")
    folder.call("run", "my flow.dag")
    folder.cut("my flow.dag.journal")
    folder.write("B.sub", "executable = /bin/true\nqueue\n")
    for words in (("run",), ("status",)):
        told = folder.on_terminal(*words, "my flow.dag", columns=160)
        same(told.screen.told()[:2], ["dagrun: J5 OtherInputs", "    changed since the round began: B.sub; dagrun salvage 'my flow.dag' keeps what is done, and --as-begun shows the round"])
    changed = "changed since the round began: B.sub"
    cut_short = "the round was cut short: dagrun salvage 'my flow.dag' keeps what is done"
    for words, lines in (
        (("why",), [f"no manager works on my flow.dag; {cut_short}", changed]),
        (("status", "--as-begun"), [f"1 DONE, 1 ERROR; no manager works on them; {cut_short}", changed]),
        (("graph",), [f"{changed}; dagrun graph --as-is 'my flow.dag' draws the files as they are"]),
        (("graph", "--as-is"), []),
        (("graph", "--as-begun"), [changed]),
        (("times",), [changed]),
        (("report",), [changed]),
    ):
        told = folder.on_terminal(*words, "my flow.dag", columns=160)
        same((told.status, told.screen.told()), (0, lines))
    # Where the picture is on the terminal, too, that it is folded comes first.
    told = folder.on_terminal("graph", "my flow.dag", columns=160, printed=True)
    same(told.screen.told()[-3:], ["}", FOLDED, f"{changed}; dagrun graph --as-is 'my flow.dag' draws the files as they are"])
    # The same file by another path.
    folder.shell("B", "exit 1\n", error=False)
    told = folder.on_terminal("run", "./my flow.dag", columns=160)
    other = "the round began with another path of the DAG file, which ./my flow.dag.inputs lists: call dagrun with that path"
    same(told.screen.told()[:2], ["dagrun: J5 OtherInputs", f"    {other}"])
    # Of a round that has ended nothing has to be kept.
    over = folder.at("my flow.dag.journal")
    folder.shell("B", "exit 1\n", error=False)
    os.remove(over)
    same(folder.call("run", "my flow.dag")[2], 1)
    folder.write("B.sub", "executable = /bin/true\nqueue\n")
    told = folder.on_terminal("status", "my flow.dag", columns=220)
    same(told.screen.told()[1], "    changed since the round began: B.sub; dagrun run 'my flow.dag' begins the next round by my flow.dag.rescue002, with what is done, and --as-begun shows the last one")
    same(folder.on_terminal("why", "my flow.dag", columns=160).screen.told(), ["no manager works on my flow.dag", changed])
    # Nothing is said where nothing is changed.
    folder.shell("B", "exit 1\n", error=False)
    same(folder.on_terminal("times", "my flow.dag", columns=160).screen.told(), [])
    same(folder.on_terminal("why", "my flow.dag", columns=160).screen.told(), ["no manager works on my flow.dag"])
    # A DAG file that is edited half way hides nothing of the round before, and neither does a submit file that is gone.
    folder.write("my flow.dag", "JOB A A.sub\nJOBB B B.sub\n")
    os.remove(folder.at("B.sub"))
    told = folder.on_terminal("why", "my flow.dag", columns=160)
    same((told.status, told.text.splitlines()[0].startswith("B ERROR: its job ended with exit 1")), (0, True))
    same(told.screen.told(), ["no manager works on my flow.dag", "changed since the round began: B.sub, my flow.dag"])


def a_folded_picture(folder):
    """`graph` draws one box for nodes of one shape where standard output is a terminal and no option says otherwise, and then a line says so where standard error is one."""
    points = ("P1", "P2", "P3")
    lines = [f"JOB {name} point.sub" for name in points]
    folder.write("x.dag", "\n".join(["JOB Fetch fetch.sub", *lines, "JOB Plot plot.sub", "PARENT Fetch CHILD P1 P2 P3", "PARENT P1 P2 P3 CHILD Plot"]) + "\n")

    def picture(labels, edges):
        head = ["digraph dag {", "    node [shape=box, style=filled, fillcolor=white];"]
        return [*head, *(f'    "{name}" [label="{label}"];' for name, label in labels), *(f'    "{one}" -> "{other}";' for one, other in edges), "}"]

    boxes = picture([("Fetch", "Fetch"), ("P1", "P1 x 3"), ("Plot", "Plot")], [("Fetch", "P1"), ("P1", "Plot")])
    nodes = picture([(name, name) for name in ("Fetch", *points, "Plot")], [("Fetch", name) for name in points] + [(name, "Plot") for name in points])
    # Both streams are the terminal.
    for words, shown in (((), [*boxes, FOLDED]), (("--fold",), boxes), (("--no-fold",), nodes), (("--as-is",), [*boxes, FOLDED]), (("--no-fold", "--as-is"), nodes)):
        told = folder.on_terminal("graph", *words, "x.dag", columns=160, printed=True)
        same((words, told.status, told.text, told.screen.told()), (words, 0, "", shown))
    # Standard output is a file, or a pipe: each node, whatever standard error is.
    for words, drawn in (((), nodes), (("--no-fold",), nodes), (("--fold",), boxes)):
        text = "\n".join(drawn) + "\n"
        told = folder.on_terminal("graph", *words, "x.dag", columns=160)
        same((words, told.status, told.text, told.screen.told()), (words, 0, text, []))
        same((words, folder.call("graph", *words, "x.dag")), (words, (text, "", 0)))
    # Standard error is a file: nothing is said there.
    shell = Folder("/bin/sh", folder.path)
    told = shell.on_terminal("-c", f"{folder.program} graph x.dag 2> told", columns=160, printed=True)
    same((told.status, told.screen.told(), folder.read("told")), (0, boxes, b""))
    # What is refused is not folded, and the two options can't stand side by side.
    told = folder.on_terminal("graph", "no.dag", columns=160, printed=True)
    same((told.status, told.screen.told()[0], FOLDED in told.screen.told()), (125, "dagrun: S1 MissingFile no.dag", False))
    told = folder.on_terminal("graph", "--fold", "--no-fold", "x.dag", columns=160, printed=True)
    same((told.status, told.screen.told()[0]), (125, "error: the argument '--fold' cannot be used with '--no-fold'"))
    # Nothing else goes by that: what other commands print there is what they print elsewhere.
    told = folder.on_terminal("rehearse", "x.dag", columns=160, printed=True)
    same((told.screen.told(), "", told.status), (folder.call("rehearse", "x.dag")[0].splitlines(), "", 0))


def what_is_changed_while_it_runs(folder):
    """A file that is changed while a manager works: nobody is told to give that round up."""
    folder.shell("A", "while [ ! -e go ]; do sleep 0.02; done\n", error=False)
    folder.shell("B", "exit 0\n", error=False)
    folder.write("x.dag", "JOB A A.sub\nJOB B B.sub\nPARENT A CHILD B\n")
    run = subprocess.Popen([folder.program, "run", "x.dag"], cwd=folder.path, stdout=subprocess.DEVNULL, stderr=subprocess.DEVNULL)
    for _ in range(15000):
        if os.path.exists(folder.at("x.dag.log")) and b"\tstart\tA\t" in folder.read("x.dag.log"):
            break
        time.sleep(0.02)
    folder.write("B.sub", "executable = /bin/false\nqueue\n")
    works = f"process {run.pid} works on the round, which goes by the files as they were: --as-begun shows it, and the next one goes by what was changed"
    told = folder.on_terminal("status", "x.dag", columns=250)
    same(told.screen.told()[:2], ["dagrun: J5 OtherInputs", f"    changed since the round began: B.sub; {works}"])
    advice = " ".join(line.strip() for line in told.screen.told())
    same("that was cut short and that no manager works on is given up" in advice, True)
    folder.write("go", "")
    same(run.wait(timeout=PATIENCE), 0)


def how_the_next_round_begins(folder):
    """After J5 of a round that has ended it is said how what is done is kept: by the rescue file that it has left, or by `salvage --ended` where it
    has left none. What is proposed does so."""
    folder.shell("A", "echo x >>a\n", error=False)
    folder.shell("B", "[ -e mended ]\n", error=False)
    folder.write("x.dag", "JOB A A.sub\nJOB B B.sub\n")
    same(folder.call("run", "x.dag")[2], 1)
    folder.write("B.sub", "executable = /bin/true\nqueue\n")
    shown = "and --as-begun shows the last one"
    front = "    changed since the round began: B.sub; dagrun run x.dag begins"
    told = folder.on_terminal("status", "x.dag", columns=200)
    same(told.screen.told()[:2], ["dagrun: J5 OtherInputs", f"{front} the next round by x.dag.rescue001, with what is done, {shown}"])
    same(folder.call("run", "x.dag")[2], 0)
    # All is done, and no rescue file is left by this round.
    folder.write("B.sub", "executable = /bin/true\n# once more\nqueue\n")
    told = folder.on_terminal("status", "x.dag", columns=300)
    again = "to run nodes of it again, put the files back, call dagrun redo, and change them again"
    same(told.screen.told()[:2], ["dagrun: J5 OtherInputs", f"{front} a new round, dagrun salvage --ended x.dag keeps what is done for it, {shown}; {again}"])
    text, _, status = folder.call("salvage", "--ended", "x.dag")
    same((text, status), ("2 of 2 nodes are done: x.dag.rescue002\nchanged since the round began: B.sub\n", 0))
    same(folder.call("run", "x.dag"), ("A DONE attempts=0 value=-\nB DONE attempts=0 value=-\nresult 0\n", "", 0))
    same(folder.read("a"), b"x\n")


def a_salvage_that_is_refused(folder):
    """After the line of a refusal that no other command has it is said where more is, as after all others; where it is no terminal nothing is."""
    folder.write("a.sub", "executable = /bin/true\nqueue\n")
    folder.write("x.dag", "JOB A a.sub\n")

    def is_refused(line, code, *words):
        told = folder.on_terminal("salvage", *words, "x.dag", columns=120)
        same((told.text, told.status), ("", 125))
        same(told.screen.told(), [f"dagrun: {line}", f"    dagrun explain {code} says more"])
        same(folder.call("salvage", *words, "x.dag"), ("", f"dagrun: {line}\n", 125))

    is_refused("R1 NoJournal x.dag.journal", "R1")
    same(folder.call("run", "x.dag")[2], 0)
    is_refused("R2 Ended x.dag.journal", "R2")
    folder.cut("x.dag.journal")
    os.rename(folder.at("x.dag.inputs"), folder.at("inputs"))
    is_refused("R3 NoInputs x.dag.inputs", "R3")
    # A name that is none of a node is no fault.
    os.rename(folder.at("inputs"), folder.at("x.dag.inputs"))
    told = folder.on_terminal("redo", "x.dag", "B", columns=120)
    lines = told.screen.told()
    same((len(lines), lines[0].startswith("dagrun: x.dag has no node B"), told.status), (1, True, 125))


def a_changed_copy(folder):
    """After X2 with the file that keeps what a round began with it is said what to do where it was changed."""
    folder.write("a.sub", "executable = /bin/true\nqueue\n")
    folder.write("x.dag", "JOB A a.sub\n")
    same(folder.call("run", "x.dag")[2], 0)
    folder.write("x.dag.begun", folder.read("x.dag.begun").replace(b"JOB A", b"JOB  A"))
    reason = "it is not as it was written: remove it; without --as-begun the round is then shown by the files as they are"
    for words in (("why",), ("status", "--as-begun")):
        told = folder.on_terminal(*words, "x.dag", columns=200)
        same((told.text, told.status), ("", 125))
        same(told.screen.told(), ["dagrun: X2 FileRefused x.dag.begun", f"    {reason}", "    dagrun explain X2 says more"])
    holds(".begun is not as it was written: remove it" in " ".join(folder.call("explain", "X2")[0].split()), "explain X2 says nothing of x.dag.begun")
    os.remove(folder.at("x.dag.begun"))
    same(folder.on_terminal("why", "x.dag").status, 0)


def a_folder_that_is_renamed(folder):
    """After H1 with the DAG file it is said how its round goes on, and so it does: by the same call in the folder as it is."""
    work = Folder(folder.program, folder.at("work"))
    os.mkdir(work.path)
    work.shell("A", "mv ../work ../moved\nmkdir ../work\n", error=False)
    work.shell("B", "exit 0\n", error=False)
    work.write("x.dag", "JOB A A.sub\nJOB B B.sub\nPARENT A CHILD B\n")
    told = work.on_terminal("run", "x.dag", columns=100)
    same((told.text, told.status), ("", 125))
    kept = told.kept()
    holds("dagrun: H1 Halted x.dag" in kept, f"{kept}")
    said = " ".join(" ".join(kept).split())
    holds("give the folder its name again, and make the same call." in said, said)
    holds("Where that call named the DAG file without a folder, it can be made in the folder as it is, too." in said, said)
    same(os.listdir(work.path), [])
    moved = Folder(folder.program, folder.at("moved"))
    same(moved.call("run", "x.dag"), ("A DONE attempts=1 value=0\nB DONE attempts=1 value=0\nresult 0\n", "", 0))


def a_word_that_is_no_text(folder):
    """A word of the call that is not UTF-8 is refused with a line that says so."""
    line = "dagrun: a word of the call is not UTF-8"
    told = folder.on_terminal("check", b"\xff.dag")
    same((told.text, told.screen.told(), told.status), ("", [line], 125))
    same(folder.call("check", b"\xff.dag"), ("", line + "\n", 125))


def a_refusal_in_the_middle(folder):
    """The journal can't grow: the line is taken away, and the refusal stands behind it."""
    for number in range(40):
        folder.shell(f"j{number}", "sleep 0.05\n", error=False)
    folder.write("x.dag", "".join(f"JOB j{number} j{number}.sub\n" for number in range(40)))
    told = folder.on_terminal("run", "--maxjobs", "2", "x.dag", limit=1200)
    same(told.status, 125)
    same(told.text, "")
    lines = told.screen.told()
    # The log can't grow either, so what the system said is shown at once.
    same(lines, ["journal: pwrite: File too large (os error 27)", "dagrun: J1 Device", "    dagrun explain J1 says more"])
    holds(len(told.progress()) > 1, "nothing was shown before")


def hints(folder):
    """Behind the line of a refusal stand the line of the file with a caret, what may be meant, what the system says, and what to write instead."""
    folder.write("a.sub", "executable = /bin/true\nqueue\n")
    folder.write("two.sub", "executable = /bin/true\nqueue 2\n")
    folder.write("x.dag", "JOB Fetch a.sub\nPARENT Fetch CHILD Fecth\n")
    folder.write("y.dag", "JOB A a.sub\n# the next\nJOBS B b.sub\n")
    folder.write("z.dag", "JOB A away/a.sub\n")
    folder.write("q.dag", "JOB A two.sub\n")
    here = os.path.realpath(folder.path)
    advice = [
        "    See that the file is there and may be read. A relative path is taken from",
        "    the folder in which dagrun is called, then the DIR of each SPLICE line on the",
        "    way to the node, and then the DIR of its JOB line. Where the file is beside",
        "    the DAG file, call dagrun in that folder.",
    ]
    told = {
        "x.dag": ["dagrun: S5 UnknownNode x.dag:2:20", "    2 | PARENT Fetch CHILD Fecth", "                           ^", "    is Fetch meant?", "    dagrun explain S5 says more"],
        "y.dag": ["dagrun: L2 UnknownCommand y.dag:3:1", "    3 | JOBS B b.sub", "        ^", "    is JOB meant?", "    dagrun explain L2 says more"],
        "z.dag": ["dagrun: P1 MissingFile away/a.sub", f"    away/a.sub: No such file or directory (os error 2), seen from {here}; it is that of A, z.dag:1", *advice],
        "q.dag": ["dagrun: U4 QueueCount two.sub:2", "    2 | queue 2", "    Write `queue` once, with no count, and a JOB line for each of the jobs, with", "    its number by VARS."],
        "away.dag": ["dagrun: S1 MissingFile away.dag", f"    away.dag: No such file or directory (os error 2), seen from {here}", "    dagrun explain S1 says more"],
    }
    for dag, lines in told.items():
        answer = folder.on_terminal("check", dag, columns=200)
        same((answer.status, answer.text), (125, ""))
        same(answer.screen.told(), lines)
    # Of names of one letter none is nearer than another.
    folder.write("c.dag", "JOB A a.sub\nJOB B a.sub\nPARENT A CHILD B C\n")
    same(folder.on_terminal("check", "c.dag", columns=200).screen.told()[3:], ["    dagrun explain S5 says more"])
    # What some editors write before the first character, and nobody sees.
    folder.write("u.sub", "\ufeff# a comment\nexecutable = /bin/true\nqueue\n")
    folder.write("u.dag", "JOB A u.sub\n")
    mark = "    a byte order mark is before it: sed -i '1s/^\\xEF\\xBB\\xBF//' "
    same([line for line in folder.on_terminal("check", "u.dag", columns=200).screen.told() if "mark" in line], [mark + "u.sub"])
    folder.write("my u.dag", "\ufeffJOB A a.sub\n")
    same([line for line in folder.on_terminal("check", "my u.dag", columns=200).screen.told() if "mark" in line], [mark + "'my u.dag'"])
    folder.write("x.dag.rescue001", "\ufeffDONE Fetch\n")
    folder.write("x.dag", "JOB Fetch a.sub\n")
    same([line for line in folder.on_terminal("run", "x.dag", columns=200).screen.told() if "mark" in line], [mark + "x.dag.rescue001"])
    os.remove(folder.at("x.dag.rescue001"))
    folder.write("b.dag", "\ufeffJOB A a.sub\n")
    lines = folder.on_terminal("check", "b.dag", columns=200).screen.told()
    mend = "sed -i '1s/^\\xEF\\xBB\\xBF//' b.dag"
    same((lines[0], lines[3:]), ("dagrun: L2 UnknownCommand b.dag:1:1", ["    a byte order mark is before it: " + mend, "    dagrun explain L2 says more"]))
    subprocess.run(["sh", "-c", mend], cwd=folder.path, check=True)
    same(folder.on_terminal("check", "b.dag", columns=200).text, "ok nodes=1 edges=0 final=no\n")


def words_that_are_left_out(folder):
    """Of each word of DAGMan's that is left out it is said what to write in its place, and where an example is; nothing else."""
    folder.write("a.sub", "executable = /bin/true\nqueue\n")
    example = "    docs/FROM_DAGMAN.md has an example."
    program = ["    Start such a program before the run, and stop it after the run, or by the", "    job of a FINAL node."]
    splices = ["    PARENT a CHILD b joins all ends of one splice with all beginnings of the", "    other."]
    inline = ["    Write the lines between the braces into a submit file of their own, and", "    name it here."]
    told = {
        "SUBDAG EXTERNAL B inner.dag": (
            1,
            ["    SPLICE takes its nodes into this graph: SPLICE name inner.dag. Where the", "    file is made by a step of this run, a job calls `dagrun run inner.dag`."],
        ),
        "include y.dag": (1, ["    Put the files together before the run: cat a.dag b.dag >x.dag. A file of", "    nodes alone may be a splice."]),
        "CONFIG x.config": (1, ["    Limits are options of the command line: dagrun run --maxjobs 8 --maxpre 2."]),
        "PROVISIONER P p.sub": (1, program),
        "SERVICE S p.sub": (1, program),
        "CONNECT A B": (1, splices),
        "PIN_IN A 1": (1, splices),
        "PIN_OUT A 1": (1, splices),
        "SAVE_POINT_FILE A": (
            1,
            ["    A rescue file of your own begins a run at any point: a line DONE name for", "    each node that is done, in x.dag.rescue001."],
        ),
        "ENV GET HOME": (
            1,
            ["    Take ENV GET away: jobs have the environment of dagrun. In place of ENV SET", "    write environment = \"NAME=value\" in the submit files."],
        ),
        "SUBMIT-DESCRIPTION d {": (1, ["    Write these lines into a submit file of their own, and name that file in", "    the JOB lines."]),
        "REJECT": (1, ["    Take the line away: nothing marks a file as one for splices alone."]),
        "DONE A": (1, ["    Write DONE at the end of the node's line: JOB A a.sub DONE."]),
        "SCRIPT HOLD A x.sh": (
            8,
            ["    No job is ever held. One that can't be started fails with -1001, which a", "    POST script gets as $RETURN: SCRIPT POST A script $RETURN."],
        ),
        "SCRIPT DEFER 4 60 PRE A x.sh": (8, ["    Let the script wait by itself: until [ -e data.txt ]; do sleep 60; done."]),
        "SCRIPT DEBUG x.log ALL PRE A x.sh": (
            8,
            ["    Let the script write its own log: exec >>pre.log 2>&1. Where it fails, the", "    end of what it prints is kept, and `dagrun why` shows it."],
        ),
        "JOB B {": (7, inline),
        "JOB B @=end": (7, inline),
        "RETRY A 2 \\": (
            11,
            ["    Write the whole line on one line, without the backslash: a line may be as", "    long as it has to be."],
        ),
    }
    for line, (column, advice) in told.items():
        folder.write("x.dag", f"JOB A a.sub\n{line}\n")
        answer = folder.on_terminal("check", "x.dag", columns=100)
        same((answer.status, answer.text), (125, ""))
        shown = [f"dagrun: L3 Unsupported x.dag:2:{column}", f"    2 | {line}", "        " + " " * (column - 1) + "^"]
        same(answer.screen.told(), [*shown, *advice, example])


def without_words(folder):
    """Without words a DAG is read from the terminal, and it is said so; nothing is said where standard input is none."""
    told = folder.on_terminal(columns=120, typed=b"JOB A a.sub\n\x04")
    same((told.text, told.status), ("A DONE attempts=1 value=0\nresult 0\n", 0))
    same(told.screen.told(), ["dagrun reads a DAG from here, and rehearses it (Ctrl-D ends it); dagrun help says what else it does"])
    same(folder.on_terminal().screen.told(), [])


def a_folder_that_is_closed(folder):
    """Where no file can be made beside the DAG file, that is said, and not that there is none."""
    folder.write("x.dag", "JOB A a.sub\n")
    folder.write("a.sub", "executable = /bin/true\nqueue\n")
    shutil.copy(folder.program, folder.at("program"))
    words = [folder.at("program"), "run", "x.dag"]
    if os.getuid() == 0:
        os.chmod(folder.path, 0o755)
        words = ["setpriv", "--reuid=65534", "--regid=65534", "--clear-groups", *words]
    else:
        os.chmod(folder.path, 0o555)
    answer = Folder(words[0], folder.path).on_terminal(*words[1:])
    same(answer.screen.told()[:2], ["dagrun: X2 FileRefused x.dag.lock", "    you may not write in the folder ."])
    os.chmod(folder.path, 0o755)


def a_program_elsewhere(folder):
    """A program by its name alone is not looked for in the folders of PATH; it is said which one may be meant."""
    folder.write("a.sub", "executable = sh\nqueue\n")
    folder.write("x.dag", "JOB A a.sub\n")
    found = shutil.which("sh")
    told = folder.on_terminal("check", "x.dag", columns=200)
    same((told.status, told.screen.told()), (0, [f"hint: a.sub:1 sh is not there, and the folders of PATH are not searched: is {found} meant?"]))


def what_is_in_the_way(folder):
    """Behind X2 stands what is wrong with the file: its kind, who has its lock."""
    folder.write("a.sub", "executable = /bin/true\nqueue\n")
    folder.write("x.dag", "JOB A a.sub\n")
    for name, make, words in (
        ("journal", os.mkfifo, "a pipe"),
        ("lock", lambda path: os.symlink("x.dag", path), "a symbolic link"),
        ("children", os.mkdir, "a folder"),
        ("round", os.mkfifo, "a pipe"),
    ):
        path = f"x.dag.{name}"
        make(folder.at(path))
        answer = folder.on_terminal("run", "x.dag")
        same((answer.status, answer.text), (125, ""))
        same(answer.screen.told(), [f"dagrun: X2 FileRefused {path}", f"    {path} is {words}, no regular file", "    dagrun explain X2 says more"])
        os.rmdir(folder.at(path)) if os.path.isdir(folder.at(path)) else os.remove(folder.at(path))
    with open(folder.at("x.dag.lock"), "w") as lock:
        fcntl.flock(lock, fcntl.LOCK_EX)
        answer = folder.on_terminal("run", "x.dag")
        same(answer.screen.told()[:2], ["dagrun: X2 FileRefused x.dag.lock", "    another `dagrun run` works on this DAG"])
    if shutil.which("strace"):
        # As a file system does that takes no locks.
        strace = ["strace", "-f", "-qqq", "-o", "/dev/null", "-e", "trace=flock", "-e", "inject=flock:error=ENOSYS"]
        answer = Folder(strace[0], folder.path).on_terminal(*strace[1:], folder.program, "run", "x.dag", columns=200)
        reason = "the file system of x.dag.lock takes no locks (flock): Function not implemented (os error 38)"
        same(answer.screen.told()[:2], ["dagrun: X2 FileRefused x.dag.lock", f"    {reason}; keep the DAG file on one that does, or have it mounted so"])
    # A manager works whose lock somebody removed.
    folder.write("s.sub", "executable = /bin/sleep\narguments = 1000\nqueue\n")
    folder.write("y.dag", "JOB A s.sub\n")
    run = subprocess.Popen([folder.program, "run", "y.dag"], cwd=folder.path, stdout=subprocess.DEVNULL, stderr=subprocess.DEVNULL)
    for _ in range(15000):
        if folder.call("status", "y.dag")[0].startswith("A SUBMITTED "):
            break
        time.sleep(0.02)
    os.remove(folder.at("y.dag.lock"))
    for name in ("y.dag.journal", None):
        answer = folder.on_terminal("run", "y.dag")
        same(answer.screen.told()[:2], ["dagrun: X2 FileRefused y.dag.lock", "    another `dagrun run` works on this DAG, whose lock was removed"])
        if name:
            os.remove(folder.at(name))
    run.kill()
    run.wait(timeout=PATIENCE)
    # What it left is ended by the next one.
    folder.write("s.sub", "executable = /bin/true\nqueue\n")
    same(folder.call("run", "y.dag")[2], 0)
    folder.write("x.dag.children", "")
    with open(folder.at("x.dag.children"), "wb") as file:
        file.write(b"\xff\n")
    answer = folder.on_terminal("run", "x.dag")
    same(answer.screen.told()[:2], ["dagrun: X2 FileRefused x.dag.children", "    it is no text"])


def goes_on_where_it_stood(folder):
    """A round that goes on counts what was done before."""
    for name in "ABC":
        folder.shell(name, "sleep 0.3\n")
    folder.shell("D", until("seen"))
    folder.write("x.dag", "JOB A A.sub\nJOB B B.sub\nJOB C C.sub\nJOB D D.sub\nPARENT A CHILD B\nPARENT B CHILD C\nPARENT C CHILD D\n")
    told = folder.on_terminal("run", "x.dag", killed=lambda line: "3/4 done (75%), 1 running (D " in line)
    same(told.status, -signal.SIGKILL)
    # What earlier managers did gives no estimate.
    told = folder.on_terminal("run", "x.dag", steps=[("3/4 done (75%), 1 running (D 0 s), 0 ready  0:00", "seen")])
    same(told.lines()[0], "3/4 done (75%), 1 running (D 0 s), 0 ready  0:00")
    same(told.text, ALL_DONE)


def goes_on_in_another_folder(folder):
    """Where a round goes on in another folder than before, that is said: its relative paths mean other files there."""
    folder.write("x.dag", "JOB A A.sub\nJOB B B.sub\nPARENT A CHILD B\n")
    places = []
    for name in ("one", "two"):
        os.mkdir(folder.at(name))
        place = Folder(folder.program, folder.at(name))
        place.shell("A", "exit 0\n", error=False)
        place.shell("B", "exit 0\n", error=False)
        places.append(place)
    one, two = places
    one.write("B.sh", "kill -9 $PPID\n")
    same(one.call("run", "../x.dag")[2], -signal.SIGKILL)
    one.write("B.sh", "exit 0\n")
    told = two.on_terminal("run", "../x.dag", columns=200)
    elsewhere = f"the round ran in {os.path.realpath(one.path)} before: its relative paths are seen from this folder now"
    same((told.status, told.kept()[:2]), (0, ["goes on: 1 of 2 nodes is done", elsewhere]))


def noops(folder):
    """Nodes for which no child runs are counted as well."""
    folder.shell("A", "sleep 1\n")
    folder.shell("D", until("seen"))
    folder.write("x.dag", "JOB A A.sub\nJOB B A.sub NOOP\nJOB C A.sub NOOP\nJOB D D.sub\nPARENT A CHILD B\nPARENT B CHILD C\nPARENT C CHILD D\n")
    line = "3/4 done (75%), 1 running (D 0 s), 0 ready  0:00, 0:00 left"
    told = folder.on_terminal("run", "x.dag", steps=[(line, "seen")])
    same(told.text, ALL_DONE)
    told.has_shown(line)


def a_final_node(folder):
    """FINAL counts among the nodes, and is never ready before its turn."""
    folder.shell("A", until("first"))
    folder.shell("F", until("second"))
    folder.write("x.dag", "JOB A A.sub\nFINAL F F.sub\n")
    lines = ["0/2 done (0%), 1 running (A 0 s), 0 ready  0:00", "1/2 done (50%), 1 running (F 0 s), 0 ready  0:00, 0:00 left"]
    told = folder.on_terminal("run", "x.dag", steps=list(zip(lines, ("first", "second"))))
    told.has_shown(lines[0])
    told.has_shown(lines[1])


# ---- what is said once


def too_many(folder):
    """More than four children a processor, and no limit: it is said once. With a limit it is not."""
    processors = len(os.sched_getaffinity(0))
    count = 4 * processors + 3
    folder.write("x.dag", "".join(f"JOB j{number} j.sub\n" for number in range(count)))
    word = "processor" if processors == 1 else "processors"
    with many(folder, "j", count) as end_all:
        steps = [(numbers("0", str(count), str(count), "0", "0"), end_all)]
        told = folder.on_terminal("run", "x.dag", steps=steps)
        same(told.kept(), [f"{count} children run at once on {processors} {word}: --maxjobs limits them"])
        os.remove(folder.at("x.dag.journal"))
        told = folder.on_terminal("run", "--maxjobs", str(count), "x.dag", steps=steps)
        same(told.kept(), [])


def all_are_done(folder):
    """Nothing is left to start: it is said by which file."""
    folder.shell("A", "exit 1\n", error=False)
    folder.write("x.dag", "JOB A A.sub\n")
    folder.call("run", "x.dag")
    folder.write("x.dag.rescue001", folder.read("x.dag.rescue001") + b"DONE A\n")
    told = folder.on_terminal("run", "x.dag", columns=120)
    same(told.kept(), ["all nodes are done: x.dag.rescue001 says so; remove it, or call with --autorescue 0, to begin anew"])
    same(told.text, "A DONE attempts=0 value=-\nresult 0\n")
    same(folder.call("run", "x.dag")[1], "")
    os.remove(folder.at("x.dag.rescue001"))
    folder.write("x.dag", "JOB A A.sub DONE\n")
    told = folder.on_terminal("run", "x.dag")
    same(told.kept(), ["all nodes are done: x.dag says so"])


def as_nobody(folder, *words, columns=160):
    """What an ordinary user is told, in a folder of theirs; by root's leave."""
    return Folder("setpriv", folder.path).on_terminal("--reuid=65534", "--regid=65534", "--clear-groups", folder.at("program"), *words, columns=columns)


def files_of_others(folder):
    """Where the lock may not be written, and where the journal is root's, that is said, and what to do."""
    if os.getuid() != 0:
        print("not root: files of root are not tried")
        return
    folder.write("x.dag", "JOB A a.sub\nJOB B a.sub\n")
    folder.write("a.sub", "executable = /bin/true\nqueue\n")
    shutil.copy(folder.program, folder.at("program"))
    os.chmod(folder.path, 0o755)
    os.chown(folder.path, 65534, 65534)
    folder.write("x.dag.lock", "")
    os.chown(folder.at("x.dag.lock"), 65534, 65534)
    os.chmod(folder.at("x.dag.lock"), 0o444)
    reason = "x.dag.lock: Permission denied (os error 13); remove it, where no `dagrun run` works on this DAG"
    same(as_nobody(folder, "run", "x.dag").screen.told()[:2], ["dagrun: X2 FileRefused x.dag.lock", f"    {reason}"])
    os.remove(folder.at("x.dag.lock"))
    same(as_nobody(folder, "run", "x.dag").status, 0)
    folder.cut("x.dag.journal")
    for name in ("x.dag.journal", "x.dag.log"):
        os.chown(folder.at(name), 0, 0)
    told = as_nobody(folder, "run", "x.dag")
    reason = "x.dag.journal belongs to user 0: have it given to you (chown), with the other files beside x.dag"
    same((told.status, told.screen.told()), (125, ["dagrun: J1 Device", f"    {reason}", "    dagrun explain J1 says more"]))


def a_status(folder):
    """Behind a status stands how many nodes are in which state, and which process works on them, if one does."""
    folder.shell("A", "exit 1\n")
    folder.shell("B", ": >begun\nexec sleep 1000\n")
    folder.shell("C", "exit 0\n")
    folder.write("x.dag", "JOB A A.sub\nJOB B B.sub\nJOB C C.sub\nPARENT B CHILD C\n")
    told = folder.on_terminal("status", "x.dag")
    same((told.status, told.screen.told()), (0, ["2 READY, 1 NOT_READY; no manager works on them"]))
    run = subprocess.Popen([folder.program, "run", "x.dag"], cwd=folder.path, stdout=subprocess.DEVNULL, stderr=subprocess.DEVNULL)
    for _ in range(15000):
        # The job that fails has ended, and the other one has begun.
        if os.path.exists(folder.at("begun")) and folder.call("status", "x.dag")[0].startswith("A ERROR "):
            break
        time.sleep(0.02)
    told = folder.on_terminal("status", "x.dag")
    same(told.screen.told(), [f"1 ERROR, 1 SUBMITTED, 1 NOT_READY; process {run.pid} works on them"])
    # What is printed stays the same, and so does what is no terminal.
    same((told.text, "", 0), folder.call("status", "x.dag"))
    # So it stands behind `why`.
    told = folder.on_terminal("why", "x.dag")
    same((told.status, told.screen.told()[-1:]), (0, [f"process {run.pid} works on x.dag"]))
    same((told.text, "", 0), folder.call("why", "x.dag"))
    run.kill()
    run.wait(timeout=PATIENCE)
    told = folder.on_terminal("status", "x.dag")
    further = "the round was cut short: dagrun run x.dag goes on"
    same("".join(told.screen.told()), f"1 ERROR, 1 SUBMITTED, 1 NOT_READY; no manager works on them; {further}")
    told = folder.on_terminal("why", "x.dag")
    same(told.screen.told()[-1:], [f"no manager works on x.dag; {further}"])
    # What the manager left running is ended by the next one.
    folder.write("B.sh", "exit 0\n")
    same(folder.call("run", "x.dag")[2], 1)


# ---- what it costs


def two_thousand(folder):
    """2,000 short jobs, sixteen at once: no more than ten redraws a second, and what that takes beside none."""
    folder.write("j.sub", "executable = /bin/true\nqueue\n")
    folder.write("x.dag", "".join(f"JOB n{number:04} j.sub\n" for number in range(2000)))
    best = {}
    for turn in range(3):
        for rule in ("never", "auto"):
            for name in os.listdir(folder.path):
                if name.startswith("x.dag."):
                    os.remove(folder.at(name))
            told = folder.on_terminal("run", "--maxjobs", "16", "--progress", rule, "x.dag")
            same(told.status, 0)
            best[rule] = min(best.get(rule, 1000), told.took)
            if rule == "auto":
                redraws = told.raw.count(b"\x1b[K")
                holds(redraws <= 10 * told.took + 2, f"{redraws} redraws in {told.took:.1f} seconds")
                holds(told.progress()[-1].group("nodes") == "2000", "the total is wrong")
    more = 100 * (best["auto"] - best["never"]) / best["never"]
    print(f"2,000 short jobs: {best['never']:.2f} s without, {best['auto']:.2f} s with the line: {more:+.1f} %")


ROWS = [
    goes_on,
    counts_of_states,
    in_red,
    time_left,
    a_halt,
    at_20_columns,
    at_200_columns,
    resized,
    wide_names,
    a_failure_in_between,
    signals_and_scripts,
    ends_of_files,
    dumb_terminals,
    never,
    no_terminal,
    same_output,
    an_abort,
    how_it_ended,
    what_is_kept,
    what_will_fail,
    what_will_fail_by_odd_paths,
    what_is_odd,
    what_can_not_be_noted,
    what_is_changed,
    what_is_changed_while_it_runs,
    a_folded_picture,
    how_the_next_round_begins,
    a_salvage_that_is_refused,
    a_changed_copy,
    a_folder_that_is_renamed,
    a_word_that_is_no_text,
    without_words,
    a_folder_that_is_closed,
    a_program_elsewhere,
    a_refusal_in_the_middle,
    hints,
    words_that_are_left_out,
    what_is_in_the_way,
    files_of_others,
    goes_on_where_it_stood,
    goes_on_in_another_folder,
    noops,
    a_final_node,
    too_many,
    all_are_done,
    a_status,
    two_thousand,
]


def main():
    program = os.path.realpath(sys.argv[1])
    rows = [row for row in ROWS if len(sys.argv) < 3 or sys.argv[2] in row.__name__]
    failed = 0
    for row in rows:
        with tempfile.TemporaryDirectory() as path:
            try:
                row(Folder(program, path))
            except (AssertionError, OSError, subprocess.SubprocessError) as fault:
                failed += 1
                print(f"FAILED {row.__name__}: {fault}")
    print(f"{len(rows) - failed} passed, {failed} failed")
    sys.exit(1 if failed else 0)


if __name__ == "__main__":
    main()
