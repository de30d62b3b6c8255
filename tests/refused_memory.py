#!/usr/bin/env python3
"""Refuses each allocation of a command in turn, the first, the second, .. until none is refused.

    tests/refused_memory.sh program PROGRAM [STEP]            STEP: every so manieth place alone (1)
    tests/refused_memory.sh libraries CALLS [STEP]

The commands run on tests/every, files with a line of each kind, and on the files of FOLDERS. Each time the command gives its
answer, or prints nothing but one line that says that memory is out (X1, A1 for a child) and ends with 125; then the same command
gives the whole answer, and of a journal no acknowledged record is lost. Then the same of CALLS (crates/tests_memory): as the
writer of a journal it ends with another status than 0; and it makes calls of the libraries, of which each refused one says so
by its own fault, and made once more gives what it gives else."""
import concurrent.futures
import ctypes
import functools
import os
import re
import shutil
import signal
import subprocess
import sys
import tempfile

from at_call import Changed
from journals import HEADER, SLOT, check_records, is_finished, records_in, slots_in

HERE = os.path.dirname(os.path.abspath(__file__))
# So many places in a row that no call came to are the end.
CALM = 5


def call(folder, library, place, *words):
    """What the program prints, what it tells and its exit status, with the allocation of this place refused; 0 is none."""
    words, environment = library.around(words, place) if place else (words, {})
    done = subprocess.run(words, cwd=folder, capture_output=True, text=True, timeout=300, env={**os.environ, **environment})
    return done.stdout, done.stderr, done.returncode


def is_refusal(answer):
    report, told, status = answer
    return status == 125 and report == "" and re.fullmatch(r"dagrun: (X1 Memory|A1 StartMemory)\n", told)


class Reading:
    """A command that changes nothing."""

    def __init__(self, folder, library, *words):
        self.folder, self.library, self.words = folder, library, words
        self.wanted = self.call(0)

    def call(self, place):
        return call(self.folder, self.library, place, *self.words)

    def refuses(self, place):
        """Whether the allocation of this place is refused."""
        answer = self.call(place)
        if answer == self.wanted:
            return False
        if not is_refusal(answer):
            sys.exit(f"{self.words}: allocation {place} was refused, and: {answer}")
        return True


class Running:
    """`run` in a copy of a folder."""

    def __init__(self, folder, library, work, program):
        self.base, self.library, self.program = folder, library, program
        self.folder = os.path.join(work, "run")
        self.words = (program, "run", "x.dag")
        self.copy()
        self.wanted = call(self.folder, library, 0, *self.words)
        self.rescue = self.rescues()

    def copy(self):
        shutil.rmtree(self.folder, ignore_errors=True)
        shutil.copytree(self.base, self.folder)

    def rescues(self):
        found = {}
        for name in os.listdir(self.folder):
            if ".rescue" in name:
                with open(os.path.join(self.folder, name)) as file:
                    found[name] = file.read()
        return found

    def go_on(self, records):
        """The answer of the round, which the same command takes up again where it has not ended."""
        if not is_finished(records):
            return call(self.folder, self.library, 0, *self.words)
        report, told, _ = call(self.folder, self.library, 0, self.program, "status", "x.dag")
        return f"{report}result {records[-1][2]}\n", told, records[-1][2]

    def refuses(self, place):
        self.copy()
        old = records_in(self.folder)
        answer = call(self.folder, self.library, place, *self.words)
        if answer == self.wanted:
            return False
        if not is_refusal(answer):
            sys.exit(f"run: allocation {place} was refused, and: {answer}")
        records = records_in(self.folder)
        if records == old:
            records = []
        again = self.go_on(records)
        check_records(records_in(self.folder), records)
        if again != self.wanted or self.rescues() != self.rescue:
            sys.exit(f"run: allocation {place} was refused, and then it answers {again} with {self.rescues()}")
        return True


def cut_journal(folder, records):
    """Leaves so many records of the journal, each alone behind its gate."""
    path = os.path.join(folder, "x.dag.journal")
    with open(path, "rb") as file:
        journal = file.read()
    kept = [journal[at : at + SLOT] for at in slots_in(journal)[0][:records]]
    with open(path, "wb") as file:
        file.write(journal[:HEADER] + b"".join(kept) + b"\0")


class Salvaging:
    """`salvage` in a copy of a folder whose round was cut short."""

    def __init__(self, folder, library, work, program):
        self.base, self.library = folder, library
        self.folder = os.path.join(work, "salvage")
        self.words = (program, "salvage", "x.dag")
        self.copy()
        self.wanted = call(self.folder, library, 0, *self.words)
        if self.wanted[2]:
            sys.exit(f"salvage: {self.wanted}")

    def copy(self):
        shutil.rmtree(self.folder, ignore_errors=True)
        shutil.copytree(self.base, self.folder)

    def refuses(self, place):
        self.copy()
        answer = call(self.folder, self.library, place, *self.words)
        if answer == self.wanted:
            return False
        if not is_refusal(answer):
            sys.exit(f"salvage: allocation {place} was refused, and: {answer}")
        # Where the journal is put away already the rescue file stands there.
        if os.path.exists(os.path.join(self.folder, "x.dag.journal")):
            again = call(self.folder, self.library, 0, *self.words)
            if again != self.wanted:
                sys.exit(f"salvage: allocation {place} was refused, and then it answers {again}")
        return True


class Writing:
    """A writer that appends eight records."""

    def __init__(self, folder, library, calls):
        self.folder, self.library, self.words = folder, library, (calls, "write", "journal")

    def refuses(self, place):
        path = os.path.join(self.folder, "journal")
        if os.path.exists(path):
            os.remove(path)
        told, _, status = call(self.folder, self.library, place, *self.words, "8")
        acknowledged = int((told.split() or ["0"])[-1])
        found = int(call(self.folder, self.library, 0, *self.words, "0")[0])
        if not acknowledged <= found <= 8 or (status == 0 and found != 8):
            sys.exit(f"writer: allocation {place} was refused: {acknowledged} records acknowledged, {found} found, status {status}")
        return status != 0


SUBMIT = "executable = x\nqueue\n"
DIAMOND = "JOB A a.sub\nJOB B b.sub\nJOB C c.sub\nJOB D d.sub\nPARENT A CHILD B C\nPARENT B C CHILD D\n"
INNER = "JOB A a.sub\nJOB B b.sub\nSPLICE X leaf.dag\nPARENT A CHILD B X\n"
NESTED = {
    "x.dag": "JOB S s.sub\nSPLICE Y in.dag\nSPLICE Z in.dag DIR z\nJOB E e.sub\nPARENT S CHILD Y\nPARENT Y CHILD Z\nPARENT Z CHILD E\n",
    **{f"{folder}{name}": text for folder in ("", "z/") for name, text in (("in.dag", INNER), ("leaf.dag", "JOB L l.sub\n"))},
    **{name: SUBMIT for name in ("s.sub", "e.sub", "a.sub", "b.sub", "l.sub", "z/a.sub", "z/b.sub", "z/l.sub")},
}
# Waits for the other one, however late that comes: 300 seconds at least.
GATE = ': > "$1"; i=0; while [ ! -e "$2" ]; do i=$((i+1)); if [ $i -gt 6000 ]; then rm -f "$1"; exit 9; fi; sleep 0.05; done; exit 0\n'


def done(names, state="DONE attempts=1 value=0"):
    return "".join(f"{name} {state}\n" for name in names)


def refused(line):
    return "", f"dagrun: {line}\n", 125


# What a folder holds, the words of a command that changes nothing there, and its answer.
READINGS = {
    "splices in splices": (NESTED, ("check", "x.dag"), ("ok nodes=8 edges=9 final=no\n", "", 0)),
    "a splice without nodes": (
        {**NESTED, "in.dag": INNER + "PARENT X CHILD B\n", "leaf.dag": ""}, ("check", "x.dag"), refused("S10 EmptySpliceEdge in.dag:4:18"),
    ),
    "a cycle": (
        {"x.dag": "JOB A a.sub\nSPLICE Y y.dag\nPARENT A CHILD Y\nPARENT Y CHILD A\n", "y.dag": "JOB B b.sub\n"},
        ("check", "x.dag"), refused("G1 Cycle A Y+B"),
    ),
    "macros": (
        {
            "x.dag": 'JOB A a.sub\nVARS A msg="say \\"hi\\"" who="$(JOB)-$(RETRY)"\n',
            "a.sub": "executable = /bin/echo\narguments = \"one 'it''s ok' \"\"x\"\" $(who) $(none:d)\"\nqueue\n",
        },
        ("check", "x.dag"), ("ok nodes=1 edges=0 final=no\n", "", 0),
    ),
    "a loop of macros": (
        {"x.dag": 'JOB A a.sub\nVARS A a="$(b)" b="$(a)"\n', "a.sub": "executable = x\narguments = $(a)\nqueue\n"},
        ("check", "x.dag"), refused("V2 Loop A"),
    ),
    "a diamond": ({"x.dag": DIAMOND, "table": ""}, ("rehearse", "x.dag", "table"), (done("ABCD") + "result 0\n", "", 0)),
    "a job that fails": (
        {"x.dag": DIAMOND, "table": "C 0 JOB 3\n"}, ("rehearse", "x.dag", "table"),
        (done("AB") + done("C", "ERROR attempts=1 value=3") + done("D", "NOT_READY attempts=0 value=-") + "result 1\n"
         "# Rescue DAG file\n# Total number of Nodes: 4\n# Nodes premarked DONE: 2\n\nDONE A\nDONE B\n", "", 1),
    ),
}
# What a folder holds, and what `run` answers there.
RUNS = {
    "a program that is not there": (
        {"x.dag": "JOB A a.sub\nRETRY A 1\nJOB B b.sub\n", "a.sub": "executable = /no/such\nqueue\n", "b.sub": "executable = /bin/echo\nqueue\n"},
        (done("A", "ERROR attempts=2 value=-1001") + done("B") + "result 1\n", "", 1),
    ),
    "two that wait for each other": (
        {
            "x.dag": "JOB A a.sub\nJOB B b.sub\n", "gate.sh": GATE,
            "a.sub": "executable = /bin/sh\narguments = gate.sh a b\nqueue\n", "b.sub": "executable = /bin/sh\narguments = gate.sh b a\nqueue\n",
        },
        (done("AB") + "result 0\n", "", 0),
    ),
}


def made(path, files):
    """A folder with these files."""
    for name, text in files.items():
        os.makedirs(os.path.dirname(os.path.join(path, name)), exist_ok=True)
        with open(os.path.join(path, name), "w") as file:
            file.write(text)
    return path


# By row and call: what it says where it is refused memory. A disk in memory says that it failed.
FAULTS = {
    "texts": {
        "read_dag": "L10 Memory", "read_table": "N4 Memory", "read_submit": "U6 Memory", "expand": "V6 Memory",
        "split_arguments": "V6 Memory", "script_words": "V6 Memory", "rescue_name": "E5 Memory",
    },
    "graphs": {
        "add": "Memory", "open_dag": "S12 Memory", "build": "G2 Memory", "is_ancestor": "G2 Memory", "read_rescue": "E5 Memory",
        "rescue_text": "E5 Memory",
    },
    "plans": {"build": "P7 Memory", "command": "P7 Memory"},
    "queues": {"reserve": "Q3 Memory", "reserve_more": "Q3 Memory", "new": "H3 Memory"},
    "cores": {
        "new": "C3 Memory", "reserve": "C3 Memory", "history": "C3 Memory", "marks": "C3 Memory", "plan_round": "C3 Memory",
        "status_text": "Memory", "replay": "M4 Memory", "audit": "F4 Memory", "predict": "Memory",
    },
    "disks": {
        "peek": "J8 Memory", "open": "J8 Memory", "records": "J8 Memory", "write_at": "J1 Device", "cut": "J1 Device", "sync": "J1 Device",
    },
    # As endings are recorded, the core still has room of its launches.
    "lives": {
        "life": "M4 Memory|J1 Device", "plan_round": "C3 Memory", "launch": "M4 Memory|J1 Device", "launch_batch": "M4 Memory|J1 Device",
        "record_end": "J1 Device", "record_batch": "J1 Device", "write_rescue": "M4 Memory|J1 Device",
        "finish": "M4 Memory|J1 Device",
    },
    "drives": {
        "life": "M4 Memory|J1 Device", "launch_round": "A1 StartMemory|A5 Memory|M4 Memory|J1 Device",
        "drive": "A1 StartMemory|A5 Memory|M4 Memory|J1 Device",
    },
}


def ends_in(text):
    """What the nodes came to and the rescue files, as far as a row runs to an end."""
    return re.findall(r"^(?:end|rescue)\n(?:.*\n)*?\n(?=life|end|\Z)", text, re.M)


class Calling:
    """A row of calls of the libraries."""

    def __init__(self, folder, library, calls, row):
        self.folder, self.library, self.words, self.row = folder, library, (calls, row), row
        self.wanted, told, status = call(folder, library, 0, *self.words)
        # The faults that are to be seen, each once at least.
        self.due = {(name, fault) for name, faults in FAULTS[row].items() for fault in faults.split("|")}
        if (told, status) != ("", 0) or not self.wanted:
            sys.exit(f"{row}: {self.wanted}{told}, status {status}")

    def refuses(self, place):
        text, told, status = call(self.folder, self.library, place, *self.words)
        if (text, status) == (self.wanted, 0):
            return False
        # What a call is made on could not be made, or a line not be printed.
        if status != 0 and self.wanted.startswith(text) and re.fullmatch(r"Error: (?:out of memory|memory allocation failed|.*Memory|J1 Device)\n", told):
            return True
        if status != 0 or not self.is_met(text):
            sys.exit(f"{self.row}: allocation {place} was refused, and it printed\n{text}{told}status {status}")
        return True

    def is_met(self, text):
        """Whether a call says that it was refused, and goes on as if it had not been, or comes to the same end."""
        lines, wanted = text.splitlines(), self.wanted.splitlines()
        at = next(at for at, line in enumerate(lines) if line != wanted[at])
        name, _, fault = lines[at].partition(" ")
        # Memory for a line that tells of a call.
        if lines[at] == "Memory":
            return lines[:at] + lines[at + 1 :] == wanted
        if fault not in FAULTS[self.row].get(name, "").split("|"):
            return False
        self.due.discard((name, fault))
        if self.row == "drives" or self.row == "lives" and fault == "J1 Device":
            return ends_in(text) == ends_in(self.wanted)
        return lines[:at] + lines[at + 1 :] == wanted

    def none_is_due(self):
        if self.due:
            sys.exit(f"{self.row}: never seen {sorted(self.due)}")


def each(name, step, tried):
    count, calm, place, told = 0, 0, 1, tried.library.told
    while calm < CALM:
        if os.path.exists(told):
            os.remove(told)
        count += tried.refuses(place)
        # A program that did not come to its end counted nothing.
        if not os.path.exists(told):
            sys.exit(f"{name}: allocation {place} was refused, and it came to no end")
        with open(told) as file:
            calm = 0 if int(file.read()) >= place else calm + 1
        place += step
    print(f"{name}: {count} allocations were refused one by one", flush=True)
    if count == 0:
        sys.exit(f"{name}: no allocation was refused")


def every(work):
    """A copy of tests/every."""
    return shutil.copytree(os.path.join(HERE, "every"), os.path.join(work, "every"))


def is_due(name, found, wanted):
    if found != wanted:
        sys.exit(f"{name}: {found}, wanted {wanted}")


def reads(library, work, program, step):
    """The commands on tests/every that change nothing."""
    fresh = every(work)
    for words in (("check", "x.dag"), ("rehearse", "x.dag", "x.outcomes"), ("graph", "x.dag"), ("explain", "L2"), ("help", "run")):
        each(words[0], step, Reading(fresh, library, program, *words))


def first_round(library, work, program, step):
    """`run` on tests/every."""
    each("run", step, Running(every(work), library, work, program))


def second_round(library, work, program, step):
    """`run` of a second round there, and what is asked of it; then `salvage`."""
    second = every(work)
    call(second, library, 0, program, "run", "x.dag")
    each("run of a second round", step, Running(second, library, work, program))
    call(second, library, 0, program, "run", "x.dag")
    for name in ("status", "audit", "graph"):
        each(name, step, Reading(second, library, program, name, "x.dag"))
    cut_journal(second, 3)
    each("salvage", step, Salvaging(second, library, work, program))


def readings(library, work, program, step):
    """The commands on files of a row each that change nothing."""
    for number, (name, (files, words, answer)) in enumerate(READINGS.items()):
        tried = Reading(made(os.path.join(work, f"reading{number}"), files), library, program, *words)
        is_due(name, tried.wanted, answer)
        each(f"{words[0]}: {name}", step, tried)


def runs(library, work, program, step):
    """`run` on files of a row each."""
    for number, (name, (files, answer)) in enumerate(RUNS.items()):
        tried = Running(made(os.path.join(work, f"run{number}"), files), library, work, program)
        is_due(name, tried.wanted, answer)
        each(f"run: {name}", step, tried)


def writes(library, work, calls, step):
    """The writer of a journal."""
    each("writer", step, Writing(work, library, calls))


def calls_of(row, library, work, calls, step):
    """A row of calls of the libraries."""
    tried = Calling(work, library, calls, row)
    each(f"calls: {row}", step, tried)
    if step == 1:
        tried.none_is_due()


def of_program(step, program):
    """The commands on tests/every, and on files of a row each."""
    return [(part, program, step) for part in (first_round, second_round, runs, readings, reads)]


def of_libraries(step, calls):
    """The writer of a journal, and calls of the libraries."""
    return [(writes, calls, step), *((functools.partial(calls_of, row), calls, step) for row in FAULTS)]


def try_part(part, program, step):
    """One part, in a folder of its own."""
    memory = "/dev/shm" if os.access("/dev/shm", os.W_OK) else None
    with tempfile.TemporaryDirectory(dir=memory) as work:
        part(Changed(work, "refuse"), work, program, step)


def ends_with_its_parent():
    """What tries a part is killed where whoever began it is: PR_SET_PDEATHSIG."""
    ctypes.CDLL(None).prctl(1, signal.SIGKILL)


def main():
    kind, *words = sys.argv[1:]
    step = int(words.pop()) if words[-1].isdigit() else 1
    parts = {"program": of_program, "libraries": of_libraries}[kind](step, *(os.path.realpath(path) for path in words))
    # Side by side: on a busy machine one after another would take all the time of the quick test.
    with concurrent.futures.ProcessPoolExecutor(os.cpu_count(), initializer=ends_with_its_parent) as pool:
        for tried in concurrent.futures.as_completed([pool.submit(try_part, *part) for part in parts]):
            tried.result()


if __name__ == "__main__":
    main()
