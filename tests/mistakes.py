#!/usr/bin/env python3
"""Makes the mistakes of a new user at a terminal, and looks for the sentence there that repairs each.

    tests/mistakes.py PROGRAM [WORD]     WORD: only the rows whose name holds it

A row has files, and what a user types in their folder: a call, then the calls to which its answer points (`dagrun why x.dag`,
`dagrun explain CODE`). Each has its exit status, and sentences that stay on a terminal of 80 columns. Then the row does what the
sentence says, and no more, and the run after it is good. Sentences are worked out from docs/MANUAL.md. A row that can't be made here is
skipped with a line. The last line is 'N passed, M failed'."""
import ctypes
import fcntl
import os
import pty
import select
import shutil
import signal
import struct
import subprocess
import sys
import tempfile
import termios
import time

from terminal import Screen, holds, same

# Seconds for which a row waits for what it looks at.
PATIENCE = 300
# What a person's terminal has.
COLUMNS = 80
# What a failed row shows of an answer, in characters.
MOST = 2000
# CLONE_NEWNS of <sched.h>.
OWN_MOUNTS = 0x20000
# Users of whom nothing else runs. Rows that mean nothing for root are called as the first one. The other one owns a file.
USER, OTHER = 54361, 54362

DAG = "JOB A a.sub\n"
TWO = "JOB A a.sub\nJOB B a.sub\n"
GOOD = "executable = /bin/true\nqueue\n"
WHY = "dagrun why x.dag says why"


def sub(*lines):
    """A submit file of these lines with its queue line."""
    return "\n".join([*lines, "queue", ""])


def job(script):
    """A DAG of one node whose job is a shell script with an error file."""
    return {"x.dag": DAG, "a.sub": sub("executable = /bin/sh", "arguments = a.sh", "error = a.err"), "a.sh": script}


def more(code):
    return f"dagrun explain {code} says more"


class Row:
    """`files`: the text of each; the name of an executable one ends with a star, that of another user's with an @. `./` is the folder itself,
    with its mode. `calls`: what is typed, its exit status, and sentences in which {here} is the folder. `repair`: what the sentence says is
    to be done, as a shell reads it. `needs`: what has to be there: a program, `root`, `user` (who isn't root), a small `disk`."""

    def __init__(self, name, files, calls, repair, needs=()):
        self.name, self.files, self.calls, self.repair, self.needs = name, files, calls, repair, needs


ROWS = [
    # ---- programs and files that are missing or not right
    Row(
        "a missing program",
        {"x.dag": DAG, "a.sub": sub("executable = prog.sh")},
        [
            ("dagrun run x.dag", 1, ["A will fail: {here}/prog.sh is not there: put it there, or mend its path", WHY]),
            ("dagrun why x.dag", 0, ["repair there is no such program: put it there, or mend its path: {here}/prog.sh"]),
            ("dagrun check x.dag", 0, ["hint: a.sub:1 prog.sh is not there: put it there, or mend its path"]),
        ],
        "ln -s /bin/true {here}/prog.sh",
    ),
    Row(
        "a program that is not executable",
        {"x.dag": DAG, "a.sub": sub("executable = prog.sh"), "prog.sh": "#!/bin/sh\n"},
        [
            ("dagrun run x.dag", 1, ["A will fail: {here}/prog.sh may not be executed: chmod +x {here}/prog.sh", WHY]),
            ("dagrun why x.dag", 0, ["repair it may not be executed: chmod +x {here}/prog.sh"]),
            ("dagrun check x.dag", 0, ["hint: a.sub:1 prog.sh may not be executed: chmod +x prog.sh"]),
        ],
        "chmod +x {here}/prog.sh",
    ),
    Row(
        "a submit file that was changed of a node that is done",
        {"x.dag": DAG, "a.sub": sub("executable = /bin/true")},
        [
            ("dagrun run x.dag", 0, []),
            ("echo '# mended' >>a.sub; dagrun redo x.dag A", 125, ["J5 OtherInputs", "call `dagrun redo --as-begun x.dag NODE ..` first"]),
        ],
        "dagrun redo --as-begun x.dag A",
    ),
    Row(
        "a script without #!",
        {"x.dag": DAG, "a.sub": sub("executable = prog.sh"), "prog.sh*": "echo made\n"},
        [
            ("dagrun run x.dag", 1, ["could not be started: {here}/prog.sh: Exec format error", WHY]),
            (
                "dagrun why x.dag",
                0,
                ["command {here}/prog.sh", "repair its first line does not say what reads it: write #!/bin/sh there, or what does"],
            ),
        ],
        "sed -i '1i #!/bin/sh' {here}/prog.sh",
    ),
    Row(
        "no output folder",
        {"x.dag": DAG, "a.sub": sub("executable = /bin/echo", "output = out/a.txt")},
        [
            ("dagrun run x.dag", 1, ["A will fail: the folder {here}/out is not there: mkdir -p {here}/out", WHY]),
            ("dagrun why x.dag", 0, ["repair that folder is missing: mkdir -p {here}/out"]),
            ("dagrun check x.dag", 0, ["hint: a.sub:2 the folder out is not there: mkdir -p out"]),
        ],
        "mkdir -p {here}/out",
    ),
    Row(
        "a missing PRE script",
        {"x.dag": DAG + "SCRIPT PRE A pre.sh\n", "a.sub": GOOD},
        [
            ("dagrun run x.dag", 1, ["A PRE, attempt 0: could not be started: {here}/pre.sh: No such file or directory", WHY]),
            ("dagrun why x.dag", 0, ["repair there is no such program: put it there, or mend its path: {here}/pre.sh"]),
            ("dagrun check x.dag", 0, ["hint: x.dag:2 pre.sh is not there: put it there, or mend its path"]),
        ],
        "ln -s /bin/true {here}/pre.sh",
    ),
    Row(
        "a missing POST script",
        {"x.dag": DAG + "SCRIPT POST A post.sh\n", "a.sub": GOOD},
        [
            ("dagrun run x.dag", 1, ["A POST, attempt 0: could not be started: {here}/post.sh: No such file or directory", WHY]),
            ("dagrun why x.dag", 0, ["repair there is no such program: put it there, or mend its path: {here}/post.sh"]),
            ("dagrun check x.dag", 0, ["hint: x.dag:2 post.sh is not there: put it there, or mend its path"]),
        ],
        "ln -s /bin/true {here}/post.sh",
    ),
    Row(
        "a missing submit file",
        {"x.dag": DAG},
        [
            (
                "dagrun run x.dag",
                125,
                ["dagrun: P1 MissingFile a.sub a.sub: No such file or directory (os error 2), seen from {here}; it is that of A, x.dag:1", "See that the file is there"],
            ),
        ],
        "printf 'executable = /bin/true\\nqueue\\n' >{here}/a.sub",
    ),
    Row(
        "a file beside the DAG file, called from another folder",
        {"x.dag": DAG, "a.sub": GOOD},
        [
            (
                "mkdir p; cd p; dagrun run ../x.dag",
                125,
                [
                    "dagrun: P1 MissingFile a.sub a.sub: No such file or directory (os error 2), seen from {here}/p",
                    "A relative path is taken from the folder in which dagrun is called",
                    "Where the file is beside the DAG file, call dagrun in that folder.",
                ],
            ),
        ],
        "true",
    ),
    Row(
        "executible",
        {"x.dag": DAG, "a.sub": sub("executible = /bin/true")},
        [
            (
                "dagrun run x.dag",
                125,
                ["dagrun: P4 NoExecutable A", "A name that is spelled otherwise is a macro of your own: `dagrun check --hints` says which one"],
            ),
            ("dagrun check --hints x.dag", 125, ["hint: a.sub:1 executible", "is executable meant?"]),
        ],
        "sed -i 's/executible/executable/' {here}/a.sub",
    ),
    Row(
        "it's in arguments",
        {"x.dag": DAG, "a.sub": sub("executable = /bin/echo", 'arguments = "it\'s fine"')},
        [
            (
                "dagrun run x.dag",
                125,
                ["dagrun: V4 BadQuote A A is declared at x.dag:1, with a.sub", "In arguments between double quotes a single quote begins a group", "as in arguments = \"'it''s fine'\"."],
            ),
        ],
        """sed -i "s/it's fine/'it''s fine'/" {here}/a.sub""",
    ),
    Row(
        "a macro loop",
        {"x.dag": DAG, "a.sub": sub("path = $(path):/more", "executable = /bin/echo", "arguments = $(path)")},
        [
            (
                "dagrun run x.dag",
                125,
                [
                    "dagrun: V2 Loop A",
                    "Give one of the macros another name: `path = $(path):/more` does not add to",
                    "The macros are those of the node's VARS lines and of its submit file.",
                ],
            ),
        ],
        "sed -i 's/^path =.*/more = path:\\/more/; s/$(path)/$(more)/' {here}/a.sub",
    ),
    Row(
        "executable = python3",
        {"x.dag": DAG, "a.sub": sub("executable = python3", "arguments = a.py"), "a.py": ""},
        [
            (
                "dagrun run x.dag",
                1,
                ["A will fail: {here}/python3 is not there, and the folders of PATH are not searched: is {python3} meant?"],
            ),
            ("dagrun check x.dag", 0, ["hint: a.sub:1 python3 is not there, and the folders of PATH are not searched: is {python3} meant?"]),
        ],
        "sed -i 's|= python3|= {python3}|' a.sub",
    ),
    Row(
        "CR after /usr/bin/env",
        {"x.dag": DAG, "a.sub": sub("executable = a.sh", "error = a.err"), "a.sh*": "#!/usr/bin/env sh\r\necho made\r\n"},
        [
            ("dagrun run x.dag", 1, ["A will fail: the first line of {here}/a.sh ends with a carriage return: sed -i 's/\\r$//' {here}/a.sh"]),
            ("dagrun check x.dag", 0, ["hint: a.sub:1 the first line of a.sh ends with a carriage return: sed -i 's/\\r$//' a.sh"]),
        ],
        "sed -i 's/\\r$//' {here}/a.sh",
    ),
    # ---- lines of the DAG file
    Row(
        "PARENT A B without CHILD",
        {"x.dag": TWO + "PARENT A B\n", "a.sub": GOOD},
        [
            ("dagrun run x.dag", 125, ["dagrun: L4 MissingWord x.dag:3:11 3 | PARENT A B ^", more("L4")]),
            ("dagrun explain L4", 0, ["Add the word that is missing:", "after PARENT names, CHILD and names."]),
        ],
        "sed -i 's/PARENT A B/PARENT A CHILD B/' x.dag",
    ),
    Row(
        "JOBB",
        {"x.dag": "JOBB A a.sub\n", "a.sub": GOOD},
        [("dagrun run x.dag", 125, ["dagrun: L2 UnknownCommand x.dag:1:1 1 | JOBB A a.sub ^ is JOB meant?"])],
        "sed -i 's/JOBB/JOB/' x.dag",
    ),
    Row(
        "a parent in the wrong case",
        {"x.dag": "JOB Fetch a.sub\nJOB B a.sub\nPARENT fetch CHILD B\n", "a.sub": GOOD},
        [("dagrun run x.dag", 125, ["dagrun: S5 UnknownNode x.dag:3:8 3 | PARENT fetch CHILD B ^ is Fetch meant?"])],
        "sed -i 's/PARENT fetch/PARENT Fetch/' x.dag",
    ),
    Row(
        "a cycle",
        {"x.dag": TWO + "PARENT A CHILD B\nPARENT B CHILD A\n", "a.sub": GOOD},
        [
            ("dagrun run x.dag", 125, ["dagrun: G1 Cycle A B", more("G1")]),
            ("dagrun explain G1", 0, ["Take away one of the edges between the nodes that are named: none of them could ever start."]),
        ],
        "sed -i '/PARENT B CHILD A/d' x.dag",
    ),
    Row(
        "a node declared twice",
        {"x.dag": DAG + "JOB A b.sub\n", "a.sub": GOOD, "b.sub": GOOD},
        [
            ("dagrun run x.dag", 125, ["dagrun: S4 DuplicateName x.dag:2:5 2 | JOB A b.sub ^", more("S4")]),
            ("dagrun explain S4", 0, ["a name that a line above declares too", "Give one of the two another name."]),
        ],
        "sed -i 's/JOB A b.sub/JOB B b.sub/' x.dag",
    ),
    Row(
        "VARS A x=5 without quotes",
        {"x.dag": DAG + "VARS A x=5\n", "a.sub": sub("executable = /bin/echo", "arguments = $(x)")},
        [
            ("dagrun run x.dag", 125, ["dagrun: L8 BadQuote x.dag:2:10 2 | VARS A x=5 ^", more("L8")]),
            ("dagrun explain L8", 0, ['Put the text between double quotes: size="12".']),
        ],
        "sed -i 's/x=5/x=\"5\"/' x.dag",
    ),
    # ---- lines of the submit file
    Row(
        "no queue",
        {"x.dag": DAG, "a.sub": "executable = /bin/true\n"},
        [
            ("dagrun run x.dag", 125, ["dagrun: U3 NoQueue a.sub", more("U3")]),
            ("dagrun explain U3", 0, ["End the file with a line `queue`."]),
        ],
        "echo queue >>a.sub",
    ),
    Row(
        "$(nmae), a macro that nothing assigns",
        {"x.dag": DAG + 'VARS A name="today"\n', "a.sub": sub("executable = /bin/cat", "arguments = $(nmae).csv"), "today.csv": ""},
        [
            (
                "dagrun check x.dag",
                0,
                ["hint: a.sub:2 $(nmae) is assigned nowhere, so it is empty: is $(name) meant?"],
            )
        ],
        "sed -i 's/nmae/name/' a.sub",
    ),
    Row(
        "arguments in executable",
        {"x.dag": DAG, "a.sub": sub("executable = /bin/echo hello")},
        [
            ("dagrun run x.dag", 1, ["A will fail: /bin/echo hello is not there: write executable = /bin/echo and arguments = hello", WHY]),
            ("dagrun why x.dag", 0, ["repair there is no such program: write executable = /bin/echo and arguments = hello"]),
            ("dagrun check x.dag", 0, ["hint: a.sub:1 /bin/echo hello is not there: write executable = /bin/echo and arguments = hello"]),
        ],
        "sed -i 's|= /bin/echo hello|= /bin/echo\\narguments = hello|' a.sub",
    ),
    # ---- how a job ends
    Row(
        "a program that crashes",
        job("[ -e mended ] || kill -SEGV $$\n"),
        [
            ("dagrun run x.dag", 1, ["A JOB, attempt 0: signal 11 (SIGSEGV)", WHY]),
            ("dagrun why x.dag", 0, ["repair it used memory that is not its own, a fault of the program: call it by hand, in a debugger (gdb)"]),
        ],
        "touch mended",
    ),
    Row(
        "disk full at the output",
        job("[ -e space ] || exec cat a.sh >/dev/full\n"),
        [
            ("dagrun run x.dag", 1, ["A JOB, attempt 0: exit 1; errors in a.err", "No space left on device", WHY]),
            ("dagrun why x.dag", 0, ["repair a disk is full: df says which, and how full"]),
        ],
        "touch space",
    ),
    Row(
        "timeout around dagrun",
        {"x.dag": DAG, "a.sub": sub("executable = /bin/sh", "arguments = a.sh"), "a.sh": "[ -e short ] || exec sleep 1000\n"},
        [
            ("{timeout} 1 dagrun run x.dag", 124, []),
            ("dagrun status x.dag", 0, ["1 SUBMITTED; no manager works on them; the round was cut short: dagrun run x.dag goes on"]),
            ("dagrun why x.dag", 0, ["the round was cut short: dagrun run x.dag goes on"]),
        ],
        "touch short",
        needs=("timeout",),
    ),
    Row(
        "a job that exits with 137",
        job("[ -e smaller ] && exit 0\nsh -c 'kill -9 $$'\nexit $?\n"),
        [
            ("dagrun run x.dag", 1, ["A JOB, attempt 0: exit 137; errors in a.err", WHY]),
            (
                "dagrun why x.dag",
                0,
                ["repair 137 is 128 and SIGKILL: what it ran was killed; where memory ran out, the kernel's log says so (dmesg)"],
            ),
        ],
        "touch smaller",
    ),
    Row(
        "timeout around a job",
        {"x.dag": DAG, "a.sub": sub("executable = {timeout}", "arguments = 0.1 sh a.sh"), "a.sh": "[ -e short ] || exec sleep 1000\n"},
        [
            ("dagrun run x.dag", 1, ["A JOB, attempt 0: exit 124", WHY]),
            ("dagrun why x.dag", 0, ["command {timeout} 0.1 sh a.sh", "repair `timeout` ends with 124 where the time is over"]),
        ],
        "sed -i 's/= 0.1/= 300/' a.sub; touch short",
        needs=("timeout",),
    ),
    Row(
        "a PRE script that prints why it fails",
        {
            "x.dag": DAG + "SCRIPT PRE A pre.sh\n",
            "a.sub": GOOD,
            "pre.sh*": "#!/bin/sh\n[ -e today.csv ] && exit 0\necho 'today.csv is missing: touch today.csv' >&2\nexit 3\n",
        },
        [
            ("dagrun run x.dag", 1, ["A PRE, attempt 0: exit 3; errors in x.dag.scripts/A.PRE.0 | today.csv is missing: touch today.csv"]),
            ("dagrun why x.dag", 0, ["A ERROR: its PRE script ended with exit 3", "today.csv is missing: touch today.csv"]),
        ],
        "touch today.csv",
    ),
    # ---- what the system refuses
    Row(
        "ulimit -v too small for dagrun",
        {"x.dag": "".join(f"JOB N{number} a.sub NOOP\n" for number in range(20000)), "a.sub": GOOD},
        [
            ("ulimit -v 8000; dagrun run x.dag", 125, ["dagrun: X1 Memory", more("X1")]),
            ("dagrun explain X1", 0, ["Give the program more memory (`ulimit -v`)"]),
        ],
        "ulimit -v unlimited",
    ),
    Row(
        "prlimit --nproc too small",
        {"x.dag": DAG, "a.sub": GOOD},
        [
            ("prlimit --nproc=1 dagrun run x.dag", 1, ["A JOB, attempt 0: could not be started: /bin/true: Resource temporarily unavailable", WHY]),
            (
                "dagrun why x.dag",
                0,
                [
                    "repair the system had no process or descriptor to give",
                    "let fewer run at once, as by --maxjobs 4, or raise its limits, see ulimit -u and ulimit -n",
                ],
            ),
        ],
        # Without the limit of the call.
        "true",
        needs=("prlimit", "user"),
    ),
    Row(
        "a folder of the DAG that may not be written",
        {"x.dag": DAG, "a.sub": GOOD, "./": 0o555},
        [
            ("dagrun run x.dag", 125, ["dagrun: X2 FileRefused x.dag.lock you may not write in the folder .", more("X2")]),
            ("dagrun explain X2", 0, ["See that the file or folder that is named is there and that you may read it, and write in its folder."]),
        ],
        "chmod u+w .",
        needs=("user",),
    ),
    Row(
        "an output folder that may not be written",
        {"x.dag": DAG, "a.sub": sub("executable = /bin/echo", "output = out/a.txt")},
        [
            ("mkdir -m 555 out; dagrun run x.dag", 1, ["A JOB, attempt 0: could not be started: {here}/out/a.txt: Permission denied", WHY]),
            ("dagrun why x.dag", 0, ["repair you may not write in that folder: chmod u+w {here}/out"]),
        ],
        "chmod u+w {here}/out",
        needs=("user",),
    ),
    Row(
        "disk full at the journal",
        {"x.dag": DAG, "a.sub": GOOD},
        [
            ("head -c 1000000 /dev/zero >big", 1, []),
            ("dagrun run x.dag", 125, ["dagrun: J1 Device", more("J1")]),
            ("dagrun explain J1", 0, ["See that the disk is not full (`df .`)", "Then `dagrun run` goes on: what was recorded stays."]),
            ("df .", 0, ["100%"]),
        ],
        "rm big",
        needs=("disk",),
    ),
    Row(
        "disk full at a rescue file",
        {"x.dag": DAG, "a.sub": sub("executable = /bin/sh", "arguments = a.sh"), "a.sh": "[ -e short ] || exec sleep 1000\n"},
        [
            ("{timeout} 1 dagrun run x.dag", 124, []),
            ("head -c 1000000 /dev/zero >big", 1, []),
            (
                "dagrun salvage x.dag",
                125,
                ["dagrun: X2 FileRefused x.dag.rescue001 dagrun can't make x.dag.rescue001: No space left on device (os error 28)", more("X2")],
            ),
        ],
        "rm big; dagrun salvage x.dag; touch short",
        needs=("disk", "timeout"),
    ),
    Row(
        "a file system that is read-only",
        {"x.dag": DAG, "a.sub": GOOD},
        [
            (
                "mount -o remount,ro {here}; dagrun run x.dag",
                125,
                ["dagrun: X2 FileRefused x.dag.lock dagrun can't make x.dag.lock: Read-only file system (os error 30)", more("X2")],
            ),
        ],
        "mount -o remount,rw {here}",
        needs=("disk",),
    ),
    Row(
        "another user's journal",
        {"x.dag": DAG, "a.sub": GOOD, "x.dag.journal@": "", "./": 0o777},
        [("dagrun run x.dag", 125, ["dagrun: X2 FileRefused x.dag.journal x.dag.journal belongs to user {other}, whose round it may be: see --trust-owner"])],
        "rm -f x.dag.journal",
        needs=("root",),
    ),
]


class Shell:
    """A folder, and a terminal for each line that is typed in it."""

    def __init__(self, path, tools, user):
        self.path, self.user = path, user
        self.values = {"here": path, "python3": shutil.which("python3"), "timeout": shutil.which("timeout"), "other": OTHER}
        kept = {name: value for name, value in os.environ.items() if name != "COLUMNS" and not name.startswith("DAGRUN_")}
        self.environment = {**kept, "TERM": "xterm", "PATH": f"{tools}:{kept['PATH']}"}

    def filled(self, text):
        """A text with the values of {here} and the like; other braces stay."""
        for name, value in self.values.items():
            text = text.replace("{" + name + "}", str(value))
        return text

    def become(self):
        if self.user is not None:
            os.setgroups([])
            os.setgid(self.user)
            os.setuid(self.user)

    def lay_out(self, files):
        """Writes the files of a row, for the user of the row. Their folder has its mode last."""
        files = dict(files)
        mode = files.pop("./", 0o755)
        for name, text in files.items():
            path = os.path.join(self.path, name.rstrip("*@"))
            with open(path, "w", newline="") as file:
                file.write(self.filled(text))
            if name.endswith("*"):
                os.chmod(path, 0o755)
            if name.endswith("@"):
                os.chown(path, OTHER, OTHER)
            elif self.user is not None:
                os.chown(path, self.user, self.user)
        if self.user is not None:
            os.chown(self.path, self.user, self.user)
        os.chmod(self.path, mode)

    def typed(self, line):
        """What stays on the terminal when this line is typed, with single blanks between its words, and the exit status."""
        ours, theirs = pty.openpty()
        fcntl.ioctl(theirs, termios.TIOCSWINSZ, struct.pack("HHHH", 24, COLUMNS, 0, 0))

        def prepare():
            os.setsid()
            fcntl.ioctl(0, termios.TIOCSCTTY, 0)
            self.become()

        run = subprocess.Popen(
            ["/bin/sh", "-c", self.filled(line)],
            cwd=self.path, stdin=theirs, stdout=theirs, stderr=theirs, env=self.environment, preexec_fn=prepare,
        )
        os.close(theirs)
        # dagrun sees 80 columns, and cuts what it cuts there. A line that it leaves longer is read on by a person, and is one here.
        screen, pending, until = Screen(100000), b"", time.monotonic() + PATIENCE
        try:
            while True:
                if not select.select([ours], [], [], max(0, until - time.monotonic()))[0]:
                    raise AssertionError(f"`{line}` has not ended after {PATIENCE} seconds")
                try:
                    found = os.read(ours, 65536)
                except OSError:
                    break
                if not found:
                    break
                pending += found
                text = pending.decode(errors="ignore")
                pending = pending[len(text.encode()) :]
                screen.take(text)
            status = run.wait(timeout=PATIENCE)
        finally:
            if run.poll() is None:
                os.killpg(run.pid, signal.SIGKILL)
                run.wait()
            os.close(ours)
        return " ".join(" ".join(screen.text()).split()), status


def tried(row, shell):
    shell.lay_out(row.files)
    for line, status, sentences in row.calls:
        shown, found = shell.typed(line)
        for sentence in sentences:
            wanted = shell.filled(sentence)
            holds(wanted in shown, f"`{line}` shows no\n    {wanted}\nbut\n    {shown[:MOST]}")
        same(found, status, f"the exit status of `{line}`: ")
    shown, status = shell.typed(f"{row.repair}; dagrun run x.dag")
    holds(status == 0 and "result 0" in shown, f"after `{shell.filled(row.repair)}` the run comes to {status} and shows\n    {shown[:MOST]}")


def what_lacks(needs, tools):
    """Why a row can't be made here; None where it can."""
    for program in ("prlimit", "timeout"):
        if program in needs and not shutil.which(program):
            return f"{program} is not installed"
    if "root" in needs and os.getuid() != 0:
        return "this is not root, who gives a file to another user"
    if "disk" in needs and os.getuid() != 0:
        return "this is not root, who mounts a small disk"
    if "user" in needs and os.getuid() == 0:
        shell = Shell("/", tools, USER)
        try:
            words = [os.path.join(tools, "dagrun"), "version"]
            if subprocess.run(words, capture_output=True, timeout=PATIENCE, preexec_fn=shell.become).returncode:
                return "another user can't call the program"
        except (OSError, subprocess.SubprocessError):
            return "root can't become another user"
    return None


def has_small_disk(path):
    """Mounts a small disk at a path. This process gets mounts of its own before, which end with it, so that none is left."""
    if ctypes.CDLL(None).unshare(OWN_MOUNTS):
        return False
    calls = (["mount", "--make-rprivate", "/"], ["mount", "-t", "tmpfs", "-o", "size=64k", "none", path])
    return all(subprocess.run(words, capture_output=True).returncode == 0 for words in calls)


def made(row, path, tools):
    """Makes a row in a folder. Answers why it was skipped, if it was."""
    lacks = what_lacks(row.needs, tools)
    if lacks:
        return lacks
    os.mkdir(path, 0o755)
    user = USER if "user" in row.needs and os.getuid() == 0 else None
    small = "disk" in row.needs
    if small and not has_small_disk(path):
        return "no small disk can be mounted here"
    try:
        tried(row, Shell(path, tools, user))
    finally:
        if small:
            subprocess.run(["umount", "-l", path], check=True)
    return None


def main():
    rows = [row for row in ROWS if len(sys.argv) < 3 or sys.argv[2] in row.name]
    passed = failed = 0
    with tempfile.TemporaryDirectory() as base:
        base = os.path.realpath(base)
        os.chmod(base, 0o755)
        tools = os.path.join(base, "bin")
        os.mkdir(tools, 0o755)
        shutil.copy(sys.argv[1], os.path.join(tools, "dagrun"))
        for number, row in enumerate(rows):
            try:
                skipped = made(row, os.path.join(base, f"m{number}"), tools)
            except (AssertionError, OSError, subprocess.SubprocessError) as fault:
                failed += 1
                print(f"FAILED {row.name}: {fault}")
                continue
            if skipped:
                print(f"skipped {row.name}: {skipped}")
            else:
                passed += 1
    print(f"{passed} passed, {failed} failed")
    sys.exit(1 if failed else 0)


if __name__ == "__main__":
    main()
