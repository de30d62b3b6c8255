#!/usr/bin/env python3
"""Runs workflows with real children, each in a folder of its own, and compares what is printed, the exit status and the files.

    tests/runs.py PROGRAM [WORD]     WORD: only the rows whose name holds it

Values are worked out by hand from the rules in docs/MANUAL.md. The last line is 'N passed, M failed'."""
import contextlib
import ctypes
import dataclasses
import datetime
import fcntl
import hashlib
import json
import os
import random
import re
import shutil
import signal
import stat
import struct
import subprocess
import sys
import tempfile
import time
import xml.etree.ElementTree

from journals import END, HEADER, LAUNCH, SLOT, records_in, slots_in

# The event of inotify(7).
IN_OPEN = 0x20

# How many seconds it is waited for what comes at once on a machine that is not busy.
PATIENCE = 300

DIAMOND = "JOB A a.sub\nJOB B b.sub\nJOB C c.sub\nJOB D d.sub\nPARENT A CHILD B C\nPARENT B C CHILD D\n"
ALL_DONE = "".join(f"{name} DONE attempts=1 value=0\n" for name in "ABCD") + "result 0\n"


class Folder:
    """A folder with files, in which the program is called."""

    def __init__(self, program, path):
        self.program = program
        self.path = path

    def at(self, name):
        return os.path.join(self.path, name)

    def write(self, name, text):
        with open(self.at(name), "wb") as file:
            file.write(text if isinstance(text, bytes) else text.encode())

    def read(self, name):
        with open(self.at(name), "rb") as file:
            return file.read()

    def there(self, name):
        return os.path.exists(self.at(name))

    def shell(self, name, script):
        """A submit file whose job is a shell script."""
        self.write(name + ".sh", script)
        self.write(name + ".sub", f"executable = /bin/sh\narguments = {name}.sh\nqueue\n")

    def echo(self, *names):
        """Submit files whose jobs write a line each."""
        for name in names:
            self.write(name + ".sub", f"executable = /bin/echo\narguments = {name}\noutput = {name}.out\nqueue\n")

    def start(self, *words):
        # A shell starts what it puts into the background so that it ignores SIGINT, and so would all that is started from there.
        return subprocess.Popen(
            [self.program, *words], cwd=self.path, stdout=subprocess.PIPE, stderr=subprocess.PIPE,
            preexec_fn=lambda: signal.signal(signal.SIGINT, signal.SIG_DFL),
        )

    def start_stopped(self, call, paths, *words):
        """Starts the program under strace, which stops it behind its first call of this name, of those of one of these paths if there
        are any. Answers strace and, once it is stopped, the number of the program, which SIGCONT lets go on."""
        traced = [word for path in paths for word in ("-P", self.at(path))]
        inject = ["-e", f"trace={call}", *traced, "-e", f"inject={call}:signal=SIGSTOP:when=1"]
        tracer = subprocess.Popen(
            ["strace", "-qqq", "-o", "calls", *inject, self.program, *words], cwd=self.path, stdout=subprocess.PIPE, stderr=subprocess.PIPE)
        # A program that is traced stops at each call, for a moment: so strace is asked, and not the system.
        wait_until(lambda: self.there("calls") and b"stopped by SIGSTOP" in self.read("calls"), f"{words} does not stop at {call}")
        [program] = children_of(tracer.pid)
        return tracer, program

    def call(self, *words):
        """What the program prints, what it tells, and its exit status."""
        done = subprocess.run([self.program, *words], cwd=self.path, capture_output=True, timeout=PATIENCE)
        return done.stdout.decode(), done.stderr.decode(), done.returncode

    def cut_journal(self, records):
        """Leaves so many records of the journal, each alone behind its gate."""
        journal = self.read("x.dag.journal")
        kept = [journal[at : at + SLOT] for at in slots_in(journal)[0][:records]]
        self.write("x.dag.journal", journal[:HEADER] + b"".join(kept) + b"\0")

    def wait_for(self, name):
        wait_until(lambda: self.there(name), f"{name} is not there")

    def wait_for_start(self, dag, node, count=1):
        """Waits until the log says so often that a phase of this node was started: the child may be faster than the manager's note of it."""
        word = f"\tstart\t{node}\t".encode()
        wait_until(lambda: self.read(f"{dag}.log").count(word) >= count, f"the log has not {count} starts of {node}")

    def wait_for_launch(self, count):
        """Waits until the journal has so many records."""
        wait_until(lambda: self.there("x.dag.journal") and len(slots_in(self.read("x.dag.journal"))[0]) >= count, f"there are no {count} records")


def wait_until(holds, otherwise):
    end = time.monotonic() + PATIENCE
    while not holds():
        if time.monotonic() > end:
            raise AssertionError(f"{otherwise} after {PATIENCE} seconds")
        time.sleep(0.01)


def slot(kind, phase=0, outcome=0, node=0, attempt=0, value=0, number=0):
    """A record of a journal, with an open gate: docs/JOURNAL.md, "The bytes"."""
    return struct.pack(">BBBBIIiQQ", 0x4F, kind, phase, outcome, node, attempt, value, number, 0)


LIFE = slot(1)


def batch(*records):
    """Records that are acknowledged together."""
    return struct.pack(">BBBB28x", 0x4F, 5, 0, len(records)) + b"".join(records)


def launched(node, number):
    """The launch of a node's job, in its first attempt."""
    return slot(2, phase=2, node=node, number=number)


def exited(node, code):
    return slot(3, phase=2, outcome=1, node=node, value=code)


def finished(status):
    return slot(4, value=status)


def changed(journal, place, byte):
    return journal[:place] + bytes([byte]) + journal[place + 1 :]


def same(found, wanted):
    if found != wanted:
        raise AssertionError(f"found\n{found}\nwanted\n{wanted}")


def refused(folder, words, line):
    same(folder.call(*words), ("", f"dagrun: {line}\n", 125))


def diamond(folder):
    folder.write("x.dag", DIAMOND)
    folder.echo(*"abcd")
    same(folder.call("run", "x.dag"), (ALL_DONE, "", 0))
    # Life, four launches, those of B and C in one batch, which has a slot of its own, four endings, Finish, and the closed gate. Where B
    # and C are seen to have ended together, so are their endings.
    places, batches = slots_in(folder.read("x.dag.journal"))
    same((len(places), batches in (1, 2)), (10, True))
    same(len(folder.read("x.dag.journal")), HEADER + SLOT * (10 + batches) + 1)
    same(folder.there("x.dag.rescue001"), False)
    same(folder.read("d.out"), b"d\n")
    same(folder.call("status", "x.dag"), (ALL_DONE.replace("result 0\n", ""), "", 0))


def status_without_a_journal(folder):
    folder.write("x.dag", DIAMOND)
    folder.echo(*"abcd")
    waits = "".join(f"{name} NOT_READY attempts=0 value=-\n" for name in "BCD")
    same(folder.call("status", "x.dag"), ("A READY attempts=0 value=-\n" + waits, "", 0))
    same(sorted(os.listdir(folder.path)), ["a.sub", "b.sub", "c.sub", "d.sub", "x.dag"])


def one_fails_and_passes(folder):
    folder.write("x.dag", DIAMOND)
    folder.echo(*"abd")
    folder.shell("c", "[ -e ok ] || exit 3\n")
    report = "A DONE attempts=1 value=0\nB DONE attempts=1 value=0\nC ERROR attempts=1 value=3\nD NOT_READY attempts=0 value=-\n"
    same(folder.call("run", "x.dag"), (report + "result 1\n", "", 1))
    rescue = "# Rescue DAG file\n# Total number of Nodes: 4\n# Nodes premarked DONE: 2\n\nDONE A\nDONE B\n"
    same(folder.read("x.dag.rescue001").decode(), rescue)
    for name in ("a.out", "b.out"):
        os.remove(folder.at(name))
    folder.write("ok", "")
    report = "A DONE attempts=0 value=-\nB DONE attempts=0 value=-\nC DONE attempts=1 value=0\nD DONE attempts=1 value=0\n"
    same(folder.call("run", "x.dag"), (report + "result 0\n", "", 0))
    same([folder.there(name) for name in ("a.out", "b.out", "d.out", "x.dag.journal.old", "x.dag.rescue002")], [False, False, True, True, False])
    # The header names the rescue file that was read, and the one that would have been written.
    same(folder.read("x.dag.journal")[4:8], b"\0\1\0\2")


def without_the_rescue_file(folder):
    folder.write("x.dag", DIAMOND)
    folder.echo(*"abd")
    folder.shell("c", "exit 3\n")
    folder.call("run", "x.dag")
    os.remove(folder.at("a.out"))
    report = "A DONE attempts=1 value=0\nB DONE attempts=1 value=0\nC ERROR attempts=1 value=3\nD NOT_READY attempts=0 value=-\n"
    same(folder.call("run", "--autorescue", "0", "x.dag"), (report + "result 1\n", "", 1))
    same([folder.there("a.out"), folder.there("x.dag.rescue002")], [True, True])


def a_program_that_is_not_there(folder):
    folder.write("x.dag", "JOB A a.sub\nRETRY A 1\nJOB B b.sub\n")
    folder.write("a.sub", "executable = /no/such\nqueue\n")
    folder.echo("b")
    same(folder.call("run", "x.dag"), ("A ERROR attempts=2 value=-1001\nB DONE attempts=1 value=0\nresult 1\n", "", 1))
    rescue = "# Rescue DAG file\n# Total number of Nodes: 2\n# Nodes premarked DONE: 1\n\nDONE B\n"
    same(folder.read("x.dag.rescue001").decode(), rescue)
    os.remove(folder.at("b.out"))
    same(folder.call("run", "x.dag"), ("A ERROR attempts=2 value=-1001\nB DONE attempts=0 value=-\nresult 1\n", "", 1))
    same([folder.there(name) for name in ("b.out", "x.dag.journal.old")], [False, True])
    same(folder.read("x.dag.rescue002").decode(), rescue)


def a_diamond_with_a_noop_and_no_program(folder):
    """Of the two in the middle of a diamond nothing is started for one, and the other's program is not there: both end, and D waits."""
    folder.write("x.dag", DIAMOND.replace("JOB B b.sub", "JOB B b.sub NOOP"))
    folder.echo("a", "d")
    folder.write("c.sub", "executable = no_such_program\nqueue\n")
    report = "A DONE attempts=1 value=0\nB DONE attempts=1 value=0\nC ERROR attempts=1 value=-1001\nD NOT_READY attempts=0 value=-\nresult 1\n"
    same(folder.call("run", "x.dag"), (report, "", 1))
    same([folder.there(name) for name in ("a.out", "d.out")], [True, False])
    rescue = "# Rescue DAG file\n# Total number of Nodes: 4\n# Nodes premarked DONE: 2\n\nDONE A\nDONE B\n"
    same(folder.read("x.dag.rescue001").decode(), rescue)


def endings(folder):
    folder.write("x.dag", "JOB A a.sub\nJOB B b.sub\nJOB C c.sub\n")
    folder.shell("a", "exit 255\n")
    folder.shell("b", "kill -9 $$\n")
    folder.shell("c", "exit 125\n")
    report = "A ERROR attempts=1 value=255\nB ERROR attempts=1 value=-9\nC ERROR attempts=1 value=125\nresult 1\n"
    same(folder.call("run", "x.dag"), (report, "", 1))


def told_endings(folder):
    """Each ending of a child: an exit code, or 256 and a signal."""
    folder.write("code.sh", 'read c < "$1"; [ $c -lt 256 ] || kill -$((c-256)) $$; exit $c\n')
    folder.write("a.sub", "executable = /bin/sh\narguments = code.sh n\nqueue\n")
    for code, value in ((0, 0), (1, 1), (7, 7), (125, 125), (255, 255), (265, -9), (271, -15)):
        folder.write("n", f"{code}\n")
        folder.write(f"{code}.dag", "JOB A a.sub\n")
        state, result = ("ERROR", 1) if code else ("DONE", 0)
        report = f"A {state} attempts=1 value={value}\nresult {result}\n"
        same(folder.call("run", f"{code}.dag"), (report, "", result))


def what_can_not_be_started(folder):
    """No program, no input, no folder for the output, no folder."""
    folder.echo("b")
    for number, lines in enumerate(("/no/such", "/bin/echo\ninput = none", "/bin/echo\noutput = none/x", "/bin/echo\ninitialdir = none")):
        folder.write("a.sub", f"executable = {lines}\nqueue\n")
        folder.write(f"{number}.dag", "JOB A a.sub\nJOB B b.sub\nRETRY A 1\n")
        report = "A ERROR attempts=2 value=-1001\nB DONE attempts=1 value=0\nresult 1\n"
        same(folder.call("run", f"{number}.dag"), (report, "", 1))


# Makes its own file and waits for another one; after so many turns, which take a twentieth of a second at least, it takes its own away.
GATE = ': > "$1"; i=0; while [ ! -e "$2" ]; do i=$((i+1)); if [ $i -gt %d ]; then rm -f "$1"; exit 9; fi; sleep 0.05; done; exit 0\n'


def an_abort_kills(folder):
    """A leaves once B's file is there; B would never leave, and is a process that is no more when the run has ended."""
    folder.shell("a", "while [ ! -e b ]; do sleep 0.05; done; exit 7\n")
    folder.shell("b", "echo $$ > process\nmv process b\nwhile :; do sleep 0.05; done\n")
    folder.write("x.dag", "JOB A a.sub\nJOB B b.sub\nABORT-DAG-ON A 7\n")
    same(folder.call("run", "x.dag"), ("A ERROR attempts=1 value=7\nB READY attempts=0 value=-\nresult 7\n", "", 7))
    same(runs_still(int(folder.read("b"))), False)


def what_ignores_signals_is_killed(folder):
    """At an abort, and as an orphan: no signal that a process can ignore ends it."""
    deaf = "trap '' HUP INT QUIT TERM USR1 USR2 ALRM PIPE\n"
    folder.shell("a", "while [ ! -e b ]; do sleep 0.02; done; exit 7\n")
    folder.shell("b", deaf + "echo $$ > process\nmv process b\nwhile :; do sleep 0.05; done\n")
    folder.write("x.dag", "JOB A a.sub\nJOB B b.sub\nABORT-DAG-ON A 7\n")
    same(folder.call("run", "x.dag"), ("A ERROR attempts=1 value=7\nB READY attempts=0 value=-\nresult 7\n", "", 7))
    same(runs_still(int(folder.read("b"))), False)
    folder.shell("a", deaf + "if [ -e again ]; then exit 0; fi\necho $$ > process\nmv process begun\nwhile :; do sleep 0.05; done\n")
    process = left(folder)
    os.kill(process, signal.SIGTERM)
    same(folder.call("run", "x.dag"), (ONE_DONE, "", 0))
    # What it started in turn may have run, too.
    same((runs_still(process), set(orphans_in(folder))), (False, {"killed"}))


def launched_until_an_abort(folder, trap, *words):
    """How many seconds an abort takes, where B, which a launcher has started with such a trap, would never leave by itself; none of it runs
    any more."""
    # The launcher starts what it is told in a process of its own, and waits for it.
    # The abort comes once B runs and B's launcher knows its process: on a busy machine the process may be the faster one.
    folder.write("l.sh", f"#!/bin/sh\ntrap '{trap}' TERM\n\"$@\" & job=$!\n: > knows.$DAGRUN_NODE\n"
                 "while :; do wait $job && exit 0; status=$?; [ $status -lt 128 ] && exit $status; done\n")
    os.chmod(folder.at("l.sh"), 0o755)
    folder.shell("a", "while [ ! -e b ] || [ ! -e knows.B ]; do sleep 0.02; done; exit 7\n")
    folder.shell("b", "echo $$ > process\nmv process b\nexec sleep 1000\n")
    folder.write("x.dag", "JOB A a.sub\nJOB B b.sub\nABORT-DAG-ON A 7\n")
    began = time.monotonic()
    same(folder.call("run", "--launcher", "./l.sh", *words, "x.dag"), ("A ERROR attempts=1 value=7\nB READY attempts=0 value=-\nresult 7\n", "", 7))
    took = time.monotonic() - began
    same(folder.read("x.dag.log").count(b"\tkilled\tB\t"), 1)
    return took


def an_abort_asks_launchers(folder):
    """At an abort a launcher is asked to end, and ends its job; it is waited for no longer than that takes."""
    # Who waits for all of that time waits for longer than the row.
    took = launched_until_an_abort(folder, "kill $job; : > asked; exit 0", "--launcher-grace", str(2 * PATIENCE))
    # The launcher has sent its job the signal, and may be gone before the job is.
    process = int(folder.read("b"))
    wait_until(lambda: not runs_still(process), f"the job of the launcher runs: {process}")
    same((folder.there("asked"), runs_still(process), took < PATIENCE), (True, False, True))


def an_abort_kills_launchers(folder):
    """One that does not end is killed once its time is over, and at once where it has none; a job without a launcher is never asked."""
    took = launched_until_an_abort(folder, ": > asked", "--launcher-grace", "1")
    same((folder.there("asked"), took >= 1), (True, True))
    os.kill(int(folder.read("b")), signal.SIGKILL)
    for words in (("--launcher-grace", "0"), ("--launcher", "")):
        place = Folder(folder.program, folder.at("".join(words)))
        os.mkdir(place.path)
        if words[0] == "--launcher-grace":
            launched_until_an_abort(place, ": > asked", *words)
            os.kill(int(place.read("b")), signal.SIGKILL)
        else:
            place.shell("a", "while [ ! -e b ]; do sleep 0.02; done; exit 7\n")
            place.shell("b", "trap ': > asked' TERM\n: > b\nwhile :; do sleep 0.05; done\n")
            place.write("x.dag", "JOB A a.sub\nJOB B b.sub\nABORT-DAG-ON A 7\n")
            same(place.call("run", "x.dag")[2], 7)
        same(place.there("asked"), False)


def streams_and_environment(folder):
    """A child finds the environment of the call and its job's, its folder and its streams, and no other open file."""
    probe = 'echo "$GREETING"; cat /proc/$$/environ >environment; pwd; cat; echo to standard error >&2\n'
    folder.write("probe.sh", probe + 'for i in 0 1 2 3 4 5 6 7 8 9; do if [ -e /proc/$$/fd/$i ]; then printf "$i "; fi; done\n')
    environment = "environment = \"GREETING='two words'\"\n"
    folder.write("a.sub", f"executable = /bin/sh\narguments = ../probe.sh\n{environment}initialdir = sub\ninput = in\noutput = out\nerror = out\nqueue\n")
    folder.write("b.sub", "executable = /bin/cat\noutput = empty\nqueue\n")
    os.mkdir(folder.at("sub"))
    folder.write("sub/in", "hello\n")
    folder.write("sub/out", "x" * 4000)
    folder.write("empty", "x")
    folder.write("x.dag", "JOB A a.sub\nJOB B b.sub\n")
    own = {"PATH": os.environ["PATH"], "SOME": "thing else"}
    done = subprocess.run([folder.program, "run", "x.dag"], cwd=folder.path, capture_output=True, timeout=PATIENCE, env=own)
    same((done.stdout, done.stderr), (b"A DONE attempts=1 value=0\nB DONE attempts=1 value=0\nresult 0\n", b""))
    same(folder.read("sub/out").decode(), f"two words\n{os.path.realpath(folder.at('sub'))}\nhello\nto standard error\n0 1 2 ")
    found = folder.read("sub/environment").decode().split("\0")
    inherited = {"DAG": os.path.join(os.path.realpath(folder.path), "x.dag"), "NODE": "A", "PHASE": "JOB", "ATTEMPT": "0"}
    [round_of] = [line for line in found if line.startswith("DAGRUN_ROUND=")]
    same(re.fullmatch(r"DAGRUN_ROUND=[0-9a-f-]{36}", round_of) is not None, True)
    wanted = [f"{name}={text}" for name, text in own.items()] + [round_of] + [f"DAGRUN_{name}={text}" for name, text in inherited.items()] + ["GREETING=two words", ""]
    same(sorted(found), sorted(wanted))
    same(folder.read("empty"), b"")


def two_wait_for_each_other(folder):
    # Two that run at once meet, however late the second one comes.
    folder.write("gate.sh", GATE % (20 * PATIENCE))
    folder.write("x.dag", "JOB A a.sub\nJOB B b.sub\n")
    for one, other in ("ab", "ba"):
        folder.write(f"{one}.sub", f"executable = /bin/sh\narguments = gate.sh {one} {other}\nqueue\n")
    same(folder.call("run", "x.dag"), ("A DONE attempts=1 value=0\nB DONE attempts=1 value=0\nresult 0\n", "", 0))
    for name in ("a", "b", "x.dag.journal"):
        os.remove(folder.at(name))
    # Two of which one runs at a time never do, however slow they are.
    folder.write("gate.sh", GATE % 200)
    both_fail = "A ERROR attempts=1 value=9\nB ERROR attempts=1 value=9\nresult 1\n"
    folder.write("y.dag", "JOB A a.sub\nJOB B b.sub\nCATEGORY A c\nCATEGORY B c\nMAXJOBS c 1\n")
    same(folder.call("run", "y.dag"), (both_fail, "", 1))
    folder.write("gate.sh", GATE % 20)
    same(folder.call("run", "x.dag", "--maxjobs", "1"), (both_fail, "", 1))


def two_runs_agree(folder):
    """Two DAGs that agree on A and B: these end alike in both, and each launch of a run has the next number, whichever node it is of."""
    folder.write("x.sh", "case $1-$2 in B-0 | X-*) exit 1 ;; Y-*) exit 2 ;; Z-*) kill -6 $$ ;; esac\n")
    job = "executable = /bin/sh\narguments = x.sh $(JOB) $(RETRY)\n"
    folder.write("x.sub", job + "output = $(JOB).$(Cluster).out\nqueue\n")
    folder.write("b.sub", job + "output = b.$(Cluster).out\nqueue\n")
    both = "A DONE attempts=1 value=0\nB DONE attempts=2 value=0\n"
    for dag, report, outputs in (
        ("JOB A x.sub\nJOB B b.sub\nJOB Y x.sub\nPARENT A CHILD B\nRETRY B 1\n",
         both + "Y ERROR attempts=1 value=2\nresult 1\n", "A.1 Y.4 b.2 b.3"),
        ("JOB X x.sub\nJOB A x.sub\nJOB B b.sub\nJOB Z x.sub\nPARENT A CHILD B\nRETRY B 1\nRETRY X 2\n",
         "X ERROR attempts=3 value=1\n" + both + "Z ERROR attempts=1 value=-6\nresult 1\n", "A.4 X.1 X.2 X.3 Z.7 b.5 b.6"),
    ):
        for name in os.listdir(folder.path):
            if name[1:] not in (".sh", ".sub"):
                os.remove(folder.at(name))
        folder.write("x.dag", dag)
        same(folder.call("run", "--maxjobs", "1", "x.dag"), (report, "", 1))
        same(sorted(name for name in os.listdir(folder.path) if name.endswith(".out")), [f"{it}.out" for it in outputs.split()])
        same(marks_in(folder), ["A", "B"])
    # Three crashes of the second, each behind a launch: twice of X, then of B.
    for records in (4, 8, 16):
        folder.cut_journal(records)
        os.remove(folder.at("x.dag.rescue001"))
        same(folder.call("run", "--maxjobs", "1", "x.dag"), (report, "", 1))
        same(marks_in(folder), ["A", "B"])
    journal = folder.read("x.dag.journal")
    same([place for place in range(HEADER, len(journal) - 1, SLOT) if journal[place : place + SLOT] == LIFE], [HEADER + SLOT * place for place in (0, 4, 8, 16)])
    audited(folder, report.replace("result 1\n", "audit ok"))


def marks_in(folder):
    """The nodes that the rescue file of number 1 marks."""
    return re.findall(r"^DONE (.*)$", folder.read("x.dag.rescue001").decode(), re.M)


def an_abort_and_final(folder):
    folder.write("x.dag", "JOB B b.sub\nJOB A a.sub\nRETRY B 3\nABORT-DAG-ON B 7 RETURN 42\nFINAL F f.sub\nSCRIPT PRE F pre.sh $DAG_STATUS $FAILED_COUNT\n")
    folder.shell("b", "while [ ! -e begun ]; do sleep 0.02; done\nexit 7\n")
    # A takes 200 seconds at least, and leaves no long sleep behind it.
    folder.shell("a", ": > begun\ni=0; while [ $i -lt 4000 ]; do i=$((i+1)); sleep 0.05; done\n: > late\n")
    folder.echo("f")
    folder.write("pre.sh", '#!/bin/sh\necho "$@" > told\n')
    os.chmod(folder.at("pre.sh"), 0o755)
    report = "B ERROR attempts=1 value=7\nA READY attempts=0 value=-\nF DONE attempts=1 value=0\nresult 0\n"
    same(folder.call("run", "x.dag"), (report, "", 0))
    # Who waits for A instead of killing it finds this.
    same(folder.there("late"), False)
    # An abort is told to FINAL as 3, with one node that failed.
    same(folder.read("told"), b"3 1\n")
    same(folder.read("x.dag.rescue001").decode(), "# Rescue DAG file\n# Total number of Nodes: 2\n# Nodes premarked DONE: 0\n\n")


def a_first_life_of_four_records(folder):
    folder.write("x.dag", DIAMOND)
    folder.echo(*"abcd")
    folder.call("run", "x.dag")
    # Life, the launch and the end of A, the launch of B.
    folder.cut_journal(4)
    for name in "abcd":
        os.remove(folder.at(f"{name}.out"))
    report = "A DONE attempts=1 value=0\nB SUBMITTED attempts=0 value=-\nC READY attempts=0 value=-\nD NOT_READY attempts=0 value=-\n"
    same(folder.call("status", "x.dag"), (report, "", 0))
    same(folder.call("run", "x.dag"), (ALL_DONE, "", 0))
    same([folder.there(f"{name}.out") for name in "abcd"], [False, True, True, True])
    # The four records, Life, launches and ends of B, C and D, Finish; the launches of B and C are a batch, which has a slot of its own,
    # and so may their ends be.
    places, batches = slots_in(folder.read("x.dag.journal"))
    same((len(places), batches in (1, 2)), (12, True))


def a_life_of_one_launch(folder):
    folder.write("x.dag", DIAMOND)
    folder.echo(*"abcd")
    folder.call("run", "x.dag")
    # Life and the launch of A.
    folder.cut_journal(2)
    waits = "".join(f"{name} NOT_READY attempts=0 value=-\n" for name in "BCD")
    same(folder.call("status", "x.dag"), ("A SUBMITTED attempts=0 value=-\n" + waits, "", 0))


def a_folder_for_a_rescue_file(folder):
    folder.write("x.dag", DIAMOND)
    folder.echo(*"abcd")
    os.mkdir(folder.at("x.dag.rescue001"))
    before = sorted(os.listdir(folder.path))
    refused(folder, ("run", "x.dag"), "X2 FileRefused x.dag.rescue001")
    same(sorted(os.listdir(folder.path)), before)


def a_folder_for_the_journal(folder):
    folder.write("x.dag", DIAMOND)
    folder.echo(*"abcd")
    os.mkdir(folder.at("x.dag.journal"))
    refused(folder, ("run", "x.dag"), "J1 Device")
    refused(folder, ("status", "x.dag"), "X2 FileRefused x.dag.journal")


def a_journal_that_stays(folder):
    folder.write("x.dag", DIAMOND)
    folder.echo(*"abcd")
    folder.call("run", "x.dag")
    before = folder.read("x.dag.journal")
    os.mkdir(folder.at("x.dag.journal.old"))
    refused(folder, ("run", "x.dag"), "X2 FileRefused x.dag.journal")
    same(folder.read("x.dag.journal"), before)


def a_folder_in_the_way_of_salvage(folder):
    """A folder that has the other name of the journal is named before anything is written."""
    folder.write("x.dag", DIAMOND)
    folder.echo(*"abcd")
    folder.call("run", "x.dag")
    folder.cut_journal(3)
    os.mkdir(folder.at("x.dag.journal.old"))
    before = sorted(os.listdir(folder.path))
    refused(folder, ("salvage", "x.dag"), "X2 FileRefused x.dag.journal.old")
    same(sorted(os.listdir(folder.path)), before)
    os.rmdir(folder.at("x.dag.journal.old"))
    same(folder.call("salvage", "x.dag"), ("1 of 4 nodes are done: x.dag.rescue001\n", "", 0))


def other_inputs(folder):
    folder.write("x.dag", DIAMOND)
    folder.echo(*"abcd")
    folder.call("run", "x.dag")
    folder.cut_journal(4)
    folder.write("x.dag", DIAMOND + "# a comment more\n")
    before = folder.read("x.dag.journal")
    refused(folder, ("run", "x.dag"), "J5 OtherInputs")
    refused(folder, ("status", "x.dag"), "J5 OtherInputs")
    same(folder.read("x.dag.journal"), before)


def no_journal(folder):
    folder.write("x.dag", DIAMOND)
    folder.echo(*"abcd")
    folder.write("x.dag.journal", b"a" * 66)
    refused(folder, ("run", "x.dag"), "J3 NotAJournal")
    folder.write("x.dag.journal", b"a" * 65)
    same(folder.call("run", "x.dag"), (ALL_DONE, "", 0))


ALWAYS = "JOB A a.sub\nSCRIPT PRE A /bin/sh pre.sh\nSCRIPT POST A /bin/sh post.sh $RETURN $PRE_SCRIPT_RETURN $JOBID $RETRY\n"


def always(folder):
    """A node whose PRE script fails with 5, and whose POST script writes its words down."""
    folder.write("x.dag", ALWAYS)
    folder.echo("a")
    folder.write("pre.sh", "exit 5\n")
    folder.write("post.sh", "echo $* >> told\n")


def post_behind_a_failed_pre(folder):
    always(folder)
    same(folder.call("run", "--always-run-post", "x.dag"), ("A DONE attempts=1 value=0\nresult 0\n", "", 0))
    # No job ran: the value of one that did not run, that of PRE, and the number of no launch.
    same(folder.read("told"), b"-1004 5 0.0 0\n")
    same([folder.there("a.out"), folder.read("x.dag.journal")[:8].hex()], [False, "4a02010000000001"])
    same(folder.call("status", "x.dag"), ("A DONE attempts=1 value=0\n", "", 0))
    same(folder.call("audit", "x.dag"), ("A DONE attempts=1 value=0\naudit ok\n", "", 0))
    os.remove(folder.at("told"))
    same(folder.call("run", "x.dag"), ("A ERROR attempts=1 value=5\nresult 1\n", "", 1))
    same([folder.there("told"), folder.read("x.dag.journal")[:8].hex()], [False, "4a02000000000001"])


def the_flag_of_the_journal(folder):
    """An unfinished round goes on as its header says, whatever the option is."""
    always(folder)
    folder.call("run", "--always-run-post", "x.dag")
    os.remove(folder.at("told"))
    # PRE has ended, and POST has not begun: Life, the launch of PRE, its ending.
    folder.cut_journal(3)
    same(folder.call("status", "x.dag"), ("A READY attempts=0 value=-\n", "", 0))
    same(folder.call("run", "x.dag"), ("A DONE attempts=1 value=0\nresult 0\n", "", 0))
    same(folder.read("told"), b"-1004 5 0.0 0\n")
    # A journal of version 1 knows no such flag: POST is not started, and the header stays as it is.
    os.remove(folder.at("told"))
    folder.call("run", "x.dag")
    folder.cut_journal(3)
    journal = folder.read("x.dag.journal")
    folder.write("x.dag.journal", journal[:1] + b"\1" + journal[2:])
    same(folder.call("run", "--always-run-post", "x.dag"), ("A ERROR attempts=1 value=5\nresult 1\n", "", 1))
    same([folder.there("told"), folder.read("x.dag.journal")[:8].hex()], [False, "4a01000000000001"])
    same(folder.call("audit", "x.dag"), ("A ERROR attempts=1 value=5\naudit ok\n", "", 0))


def a_flag_of_bad_bytes(folder):
    always(folder)
    folder.call("run", "--always-run-post", "x.dag")
    journal = folder.read("x.dag.journal")
    for bytes_of, line in (
        (changed(journal, 2, 2), "J3 NotAJournal"),
        (changed(journal, 3, 1), "J3 NotAJournal"),
        (changed(journal, 1, 1), "J3 NotAJournal"),
        (changed(journal, 1, 3), "J4 Version 3"),
        # The header of a journal with a bad record is not gone by: no flag, which is not its own.
        (changed(journal, HEADER + 9, 1), "J10 OtherFlag"),
    ):
        folder.write("x.dag.journal", bytes_of)
        refused(folder, ("status", "x.dag"), line)
        same(folder.call("audit", "x.dag"), ("audit no F1 NotAJournal\n", "", 1))


def numbers_that_no_file_has(folder):
    folder.write("x.dag", DIAMOND)
    folder.echo(*"abcd")
    folder.call("run", "x.dag")
    folder.cut_journal(4)
    journal = folder.read("x.dag.journal")
    folder.write("x.dag.journal", journal[:4] + b"\x03\xe8\0\0" + journal[8:])
    refused(folder, ("run", "x.dag"), "E4 NotThere 1000")
    refused(folder, ("status", "x.dag"), "E4 NotThere 1000")
    folder.write("x.dag.journal", journal[:6] + b"\0\0" + journal[8:])
    refused(folder, ("run", "x.dag"), "E4 NotThere 0")
    # The DAG is opened first, and for `status` last.
    folder.write("x.dag.journal", journal[:4] + b"\x03\xe8\0\0" + journal[8:])
    os.remove(folder.at("x.dag"))
    refused(folder, ("run", "x.dag"), "S1 MissingFile x.dag")
    refused(folder, ("status", "x.dag"), "E4 NotThere 1000")


def lines_of_a_rescue_file(folder):
    folder.write("x.dag", DIAMOND)
    folder.echo(*"abcd")
    folder.write("x.dag.rescue002", "DONE A\nDONE Q\n")
    refused(folder, ("run", "x.dag"), "E2 UnknownNode x.dag.rescue002:2")
    folder.write("x.dag.rescue010", "RETRY A 1\n")
    refused(folder, ("run", "x.dag"), "E1 BadLine x.dag.rescue010:1")
    folder.write("y.dag", DIAMOND + "FINAL F d.sub\n")
    folder.write("y.dag.rescue001", "DONE A\nDONE F\n")
    refused(folder, ("run", "y.dag"), "E3 FinalDone y.dag.rescue001:2")
    # A fault of a submit file is told before that of the rescue file.
    os.remove(folder.at("d.sub"))
    refused(folder, ("run", "x.dag"), "P1 MissingFile d.sub")
    same(folder.there("x.dag.journal"), False)


def a_foreign_record(folder):
    folder.write("x.dag", DIAMOND)
    folder.echo(*"abcd")
    folder.call("run", "x.dag")
    journal = folder.read("x.dag.journal")
    # Life, the launch of A, and then the launch of B in place of the end of A.
    folder.write("x.dag.journal", journal[: HEADER + SLOT * 2] + launched(1, 2) + b"\0")
    refused(folder, ("run", "x.dag"), "M2 Foreign 2")
    refused(folder, ("status", "x.dag"), "M2 Foreign 2")
    # Its slot is told: a batch has one before those of its records. B is launched while it runs; D ends that was not launched.
    begun = journal[:HEADER] + LIFE + launched(0, 1) + exited(0, 0)
    for number, records in ((6, batch(launched(1, 2), launched(2, 3)) + launched(1, 4)), (5, batch(launched(1, 2), exited(3, 0)))):
        folder.write("x.dag.journal", begun + records + b"\0")
        refused(folder, ("run", "x.dag"), f"M2 Foreign {number}")
        refused(folder, ("status", "x.dag"), f"M2 Foreign {number}")
        same(folder.call("audit", "x.dag"), (f"audit no F2 NotARun {number}\n", "", 1))


def audited(folder, answer):
    """What `audit` prints, and its status."""
    same(folder.call("audit", "x.dag"), (answer + "\n", "", 0 if answer.endswith("audit ok") else 1))


NODES_DONE = ALL_DONE.replace("result 0\n", "")


def audit_of_a_diamond(folder):
    folder.write("x.dag", DIAMOND)
    folder.echo(*"abcd")
    audited(folder, "audit no F1 NotAJournal")
    same(folder.there("x.dag.journal"), False)
    folder.call("run", "x.dag")
    audited(folder, NODES_DONE + "audit ok")


def audit_of_two_crashes(folder):
    """A crash once the launch of B is recorded, and one once its end is; A to D are nodes 0 to 3."""
    folder.write("x.dag", DIAMOND)
    folder.echo(*"abcd")
    folder.call("run", "x.dag")
    header = folder.read("x.dag.journal")[:HEADER]
    first = [LIFE, launched(0, 1), exited(0, 0), launched(1, 2)]
    second = [LIFE, launched(1, 3), launched(2, 4), exited(1, 0)]
    third = [LIFE, launched(2, 5), exited(2, 0), launched(3, 6), exited(3, 0), finished(0)]
    records = first + second + third
    same(len(records), 14)
    folder.write("x.dag.journal", header + b"".join(records) + b"\0")
    audited(folder, NODES_DONE + "audit ok")
    same(folder.call("status", "x.dag"), (NODES_DONE, "", 0))
    for count in (0, 4, 8, 13):
        folder.write("x.dag.journal", header + b"".join(records[:count]) + b"\0")
        audited(folder, "audit no F3 Unfinished")
    # The same records, of which one may not follow: B is launched while it runs, or Finish comes too early.
    folder.write("x.dag.journal", header + b"".join(first + [launched(1, 3)]) + b"\0")
    audited(folder, "audit no F2 NotARun 4")
    folder.write("x.dag.journal", header + b"".join(first + [finished(0)]) + b"\0")
    audited(folder, "audit no F2 NotARun 4")


def audit_of_a_failing_job(folder):
    folder.write("x.dag", "JOB A a.sub\nRETRY A 0\n")
    folder.shell("a", "exit 1\n")
    same(folder.call("run", "x.dag"), ("A ERROR attempts=1 value=1\nresult 1\n", "", 1))
    audited(folder, "A ERROR attempts=1 value=1\naudit ok")
    journal = folder.read("x.dag.journal")
    same(journal[HEADER:], LIFE + launched(0, 1) + exited(0, 1) + finished(1) + b"\0")
    rows = [
        # Another version, other inputs, a header that is not whole, or none.
        (changed(journal, 1, 7), "F1 NotAJournal"),
        (changed(journal, 8, journal[8] ^ 1), "F1 NotAJournal"),
        (changed(journal, 40, 1), "F1 NotAJournal"),
        (journal[:10], "F1 NotAJournal"),
        (b"\0" * 100, "F1 NotAJournal"),
        (b"J", "F1 NotAJournal"),
        (b"", "F1 NotAJournal"),
        # The launch of attempt 5; a launch with a value, which no record has.
        (changed(journal, HEADER + SLOT + 11, 5), "F2 NotARun 1"),
        (changed(journal, HEADER + SLOT + 15, 1), "F1 NotAJournal"),
        # A second Finish, and a status that is not the verdict.
        (journal[: HEADER + SLOT * 4] + finished(1) + b"\0", "F2 NotARun 4"),
        (journal[: HEADER + SLOT * 3] + finished(0) + b"\0", "F2 NotARun 3"),
        # A slot whose gate is closed ends the records.
        (changed(journal, HEADER + SLOT * 3, 0), "F3 Unfinished"),
    ]
    for bytes_there, answer in rows:
        folder.write("x.dag.journal", bytes_there)
        audited(folder, "audit no " + answer)


def audit_of_an_abort(folder):
    folder.write("x.dag", "JOB A a.sub NOOP\nJOB B b.sub NOOP\nJOB C c.sub\nABORT-DAG-ON A 0 RETURN 5\nDOT x.dot\n")
    folder.echo("c")
    warning = "warning: x.dag:5 ignored\n"
    report = "A DONE attempts=1 value=0\nB READY attempts=0 value=-\nC READY attempts=0 value=-\nresult 5\n"
    same(folder.call("run", "x.dag"), (report, warning, 5))
    same(folder.call("audit", "x.dag"), ("audit no F5 Aborted\n", warning, 1))
    # Life, the launches of A, B and C in one batch, the end of A, Finish.
    same((len(folder.read("x.dag.journal")), slots_in(folder.read("x.dag.journal"))[1]), (289, 1))
    rescue = "# Rescue DAG file\n# Total number of Nodes: 3\n# Nodes premarked DONE: 1\n\nDONE A\n"
    same(folder.read("x.dag.rescue001").decode(), rescue)
    # Without Finish the run is not finished; with the end of C, of which nothing is outstanding behind the abort, it is none.
    journal = folder.read("x.dag.journal")
    last = len(journal) - SLOT - 1
    same(journal[last:], finished(5) + b"\0")
    folder.write("x.dag.journal", journal[:last] + b"\0")
    same(folder.call("audit", "x.dag"), ("audit no F3 Unfinished\n", warning, 1))
    folder.write("x.dag.journal", journal[:last] + exited(2, 0) + b"\0")
    same(folder.call("audit", "x.dag"), (f"audit no F2 NotARun {(last - HEADER) // SLOT}\n", warning, 1))


def audit_of_a_failing_final(folder):
    folder.write("x.dag", "JOB A a.sub\nRETRY A 1\nJOB B b.sub\nPARENT A CHILD B\nFINAL F f.sub\n")
    folder.shell("a", "exit 2\n")
    folder.echo("b")
    folder.shell("f", "exit 3\n")
    report = "A ERROR attempts=2 value=2\nB NOT_READY attempts=0 value=-\n"
    same(folder.call("run", "x.dag"), (report + "F ERROR attempts=1 value=3\nresult 1\n", "", 1))
    audited(folder, report + "audit ok")


def audit_behind_a_rescue_file(folder):
    folder.write("x.dag", DIAMOND)
    folder.echo(*"abd")
    folder.shell("c", "[ -e ok ] || exit 3\n")
    folder.call("run", "x.dag")
    report = "A DONE attempts=1 value=0\nB DONE attempts=1 value=0\nC ERROR attempts=1 value=3\nD NOT_READY attempts=0 value=-\n"
    audited(folder, report + "audit ok")
    folder.write("ok", "")
    folder.call("run", "x.dag")
    report = "A DONE attempts=0 value=-\nB DONE attempts=0 value=-\nC DONE attempts=1 value=0\nD DONE attempts=1 value=0\n"
    audited(folder, report + "audit ok")
    # The rescue file that the round read is one of its inputs.
    rescue = folder.read("x.dag.rescue001")
    folder.write("x.dag.rescue001", rescue + b"# a comment more\n")
    audited(folder, "audit no F1 NotAJournal")
    folder.write("x.dag.rescue001", rescue + b"DONE Q\n")
    refused(folder, ("audit", "x.dag"), "E2 UnknownNode x.dag.rescue001:7")
    os.remove(folder.at("x.dag.rescue001"))
    audited(folder, "audit no F1 NotAJournal")
    os.mkdir(folder.at("x.dag.rescue001"))
    refused(folder, ("audit", "x.dag"), "X2 FileRefused x.dag.rescue001")


def refusals_of_audit(folder):
    folder.write("x.dag", "JOB A a.sub\n")
    folder.echo("a")
    folder.call("run", "x.dag")
    journal = folder.read("x.dag.journal")
    os.remove(folder.at("a.sub"))
    refused(folder, ("audit", "x.dag"), "P1 MissingFile a.sub")
    os.remove(folder.at("x.dag"))
    refused(folder, ("audit", "x.dag"), "S1 MissingFile x.dag")
    # A number that no rescue file has is told before the DAG is opened, and a journal that can't be read before that.
    folder.write("x.dag.journal", journal[:4] + b"\x03\xe8" + journal[6:])
    refused(folder, ("audit", "x.dag"), "E4 NotThere 1000")
    os.remove(folder.at("x.dag.journal"))
    os.mkdir(folder.at("x.dag.journal"))
    refused(folder, ("audit", "x.dag"), "X2 FileRefused x.dag.journal")


def a_second_manager(folder):
    folder.write("x.dag", "JOB A a.sub\n")
    folder.shell("a", ": > begun\nwhile [ ! -e go ]; do sleep 0.02; done\n")
    first = folder.start("run", "x.dag")
    folder.wait_for("begun")
    before = folder.read("x.dag.journal")
    refused(folder, ("run", "x.dag"), "X2 FileRefused x.dag.lock")
    same(folder.read("x.dag.journal"), before)
    same(folder.call("status", "x.dag"), ("A SUBMITTED attempts=0 value=-\n", "", 0))
    audited(folder, "audit no F3 Unfinished")
    folder.write("go", "")
    same(first.communicate(timeout=PATIENCE), (b"A DONE attempts=1 value=0\nresult 0\n", b""))


@contextlib.contextmanager
def locked(folder):
    """The lock of x.dag, as another manager has it."""
    with open(folder.at("x.dag.lock"), "w") as lock:
        fcntl.flock(lock, fcntl.LOCK_EX)
        yield lock


@contextlib.contextmanager
def openings(path):
    """What can be read of once a file is opened."""
    libc = ctypes.CDLL(None, use_errno=True)
    watch = libc.inotify_init1(os.O_CLOEXEC)
    try:
        same(watch >= 0 and libc.inotify_add_watch(watch, path.encode(), IN_OPEN) >= 0, True)
        yield watch
    finally:
        os.close(watch)


def a_lock_for_a_moment(folder):
    """As a child has it that was being made when its manager was killed: it is tried again."""
    folder.write("x.dag", "JOB A a.sub\n")
    folder.echo("a")
    wanted = ["A DONE attempts=1 value=0\nresult 0\n", ""]
    if shutil.which("strace"):
        with locked(folder) as lock:
            # The manager stops as it has tried the lock once, which it does for a third of a second else: that may be over by now.
            run, manager = folder.start_stopped("flock", ["x.dag.lock"], "run", "x.dag")
            fcntl.flock(lock, fcntl.LOCK_UN)
            os.kill(manager, signal.SIGCONT)
            same([text.decode() for text in run.communicate(timeout=PATIENCE)], wanted)
        return
    with locked(folder) as lock, openings(folder.at("x.dag.lock")) as opened:
        run = folder.start("run", "x.dag")
        # The manager has found it.
        os.read(opened, 4096)
        fcntl.flock(lock, fcntl.LOCK_UN)
        same([text.decode() for text in run.communicate(timeout=PATIENCE)], wanted)


def a_journal_that_is_being_written(folder):
    """What can't be read while another manager works is that one's affair."""
    folder.write("x.dag", "JOB A a.sub\n")
    folder.echo("a")
    folder.call("run", "x.dag")
    journal = folder.read("x.dag.journal")
    folder.write("x.dag.journal", journal[: HEADER + SLOT + 7])
    with locked(folder):
        refused(folder, ("run", "x.dag"), "X2 FileRefused x.dag.lock")
    refused(folder, ("run", "x.dag"), "J9 BadSlot 1")


def endings_that_nobody_is_told(folder):
    """Where SIGCHLD is ignored, as some supervisors start their programs, nothing is started."""
    folder.write("x.dag", "JOB A a.sub\n")
    folder.echo("a")
    done = subprocess.run(
        [folder.program, "run", "x.dag"], cwd=folder.path, capture_output=True, timeout=PATIENCE,
        preexec_fn=lambda: signal.signal(signal.SIGCHLD, signal.SIG_IGN),
    )
    same((done.stdout, done.stderr, done.returncode), (b"", b"dagrun: A2 WaitFault\n", 125))
    same([name for name in os.listdir(folder.path) if name.startswith("x.dag.")], [])
    same([folder.there(name) for name in ("a.out", "x.dag.journal", "x.dag.log")], [False, False, False])
    same(folder.call("run", "x.dag"), ("A DONE attempts=1 value=0\nresult 0\n", "", 0))


def names_that_are_too_long(folder):
    """The longest name of a round is that of a rescue file that is put away: 14 bytes more than the DAG file's."""
    for length, longest in ((241, None), (242, ".rescue999.old"), (247, ".rescue999.old"), (251, ".rescue999.old")):
        name = "x" * length
        folder.write(name, "JOB A a.sub\n")
        folder.echo("a")
        if longest is None:
            same(folder.call("run", name), ("A DONE attempts=1 value=0\nresult 0\n", "", 0))
        else:
            refused(folder, ("run", name), f"X2 FileRefused {name}{longest}")
            same([other for other in os.listdir(folder.path) if other.startswith(name) and other[length:length + 1] == "."], [])


def stopped(folder, number):
    """A manager that is stopped by a signal leaves its child alone; `run` goes on, and starts the child's phase again."""
    folder.write("x.dag", "JOB A a.sub\nJOB B b.sub\nPARENT A CHILD B\n")
    folder.shell("a", "echo ran >> a.ran\n")
    folder.shell("b", "echo begun >> b.begun\nwhile [ ! -e go ]; do sleep 0.02; done\necho ended >> b.ended\n")
    first = folder.start("run", "x.dag")
    folder.wait_for("b.begun")
    first.send_signal(number)
    same(first.wait(timeout=PATIENCE), -number)
    same(folder.call("status", "x.dag"), ("A DONE attempts=1 value=0\nB SUBMITTED attempts=0 value=-\n", "", 0))
    folder.write("go", "")
    # The line, and not only the file: the next manager ends the child, if that is not gone.
    wait_until(lambda: folder.there("b.ended") and folder.read("b.ended") == b"ended\n", "b has not ended")
    first.communicate(timeout=PATIENCE)
    same(folder.call("run", "x.dag"), ("A DONE attempts=1 value=0\nB DONE attempts=1 value=0\nresult 0\n", "", 0))
    same([folder.read(name) for name in ("a.ran", "b.begun", "b.ended")], [b"ran\n", b"begun\n" * 2, b"ended\n" * 2])


def stopped_by_sigterm(folder):
    stopped(folder, signal.SIGTERM)


def stopped_by_sigint(folder):
    stopped(folder, signal.SIGINT)


def an_orphan_holds_no_lock(folder):
    folder.write("x.dag", "JOB A a.sub\n")
    folder.shell("a", "echo begun >> begun\nwhile [ ! -e go ]; do sleep 0.02; done\n")
    first = folder.start("run", "x.dag")
    folder.wait_for("begun")
    first.kill()
    first.wait(timeout=PATIENCE)
    second = folder.start("run", "x.dag")
    # Life, the launch of A; Life, the launch of A.
    folder.wait_for_launch(4)
    folder.write("go", "")
    same(second.communicate(timeout=PATIENCE), (b"A DONE attempts=1 value=0\nresult 0\n", b""))
    first.communicate(timeout=PATIENCE)


PHASES = ("pre", "job", "post")


def most_at_once(folder):
    """How many phases of each kind were outstanding at once by the journal of x.dag: launched, and not ended yet."""
    running, most = {phase: 0 for phase in PHASES}, {phase: 0 for phase in PHASES}
    for kind, (_, _, phase), _ in records_in(folder.path):
        if kind in (LAUNCH, END):
            name = PHASES[phase - 1]
            running[name] += 1 if kind == LAUNCH else -1
            most[name] = max(most[name], running[name])
    return [most[name] for name in PHASES]


def limits_of_a_call(folder):
    """How many jobs, PRE and POST scripts run at once, by the words of the call: 0 is no limit."""
    names = [f"n{number}" for number in range(6)]
    lines = [f"JOB {name} job.sub\nSCRIPT PRE {name} count.sh pre {name}\nSCRIPT POST {name} count.sh post {name}\n" for name in names]
    folder.write("x.dag", "".join(lines) + "".join(f'VARS {name} me="{name}"\n' for name in names))
    folder.write("job.sub", "executable = count.sh\narguments = job $(me)\nqueue\n")
    # A child counts its kind, and ends once as many of it were there at once as may be.
    folder.write("count.sh", '''#!/bin/sh
: > on.$1.$2
while :; do
    count=$(ls -d on.$1.* | wc -l)
    echo $count >> most.$1
    if [ $count -ge $(cat due.$1) ]; then : > met.$1; fi
    if [ -e met.$1 ]; then break; fi
    sleep 0.02
done
rm on.$1.$2
''')
    os.chmod(folder.at("count.sh"), 0o755)
    report = "".join(f"{name} DONE attempts=1 value=0\n" for name in names) + "result 0\n"
    # None is whatever the limits of the others leave.
    for words, most in (
        (("x.dag",), (6, 6, 6)),
        (("--maxjobs", "3", "x.dag", "--maxpre=0"), (6, 3, None)),
        (("x.dag", "--maxpost=1", "--maxpre", "+2"), (2, None, 1)),
        (("x.dag", "--maxjobs=65535"), (6, 6, 6)),
    ):
        for kind, limit in zip(PHASES, most):
            folder.write(f"due.{kind}", str(limit or 1))
        same(folder.call("run", *words), (report, "", 0))
        counted = [max(int(line) for line in folder.read(f"most.{kind}").split()) for kind in PHASES]
        for found in (counted, most_at_once(folder)):
            same(found, [at_once if limit is None else limit for at_once, limit in zip(found, most)])
        for kind in PHASES:
            for name in (f"most.{kind}", f"met.{kind}"):
                os.remove(folder.at(name))


def limits_of_the_environment(folder):
    """DAGRUN_MAXJOBS and the like stand for options of `run` that are not given."""
    folder.write("x.dag", "JOB A a.sub\nJOB B b.sub\nSCRIPT PRE A true\n")
    folder.echo("a", "b")

    def limits(own, *words):
        done = subprocess.run([folder.program, *words], cwd=folder.path, capture_output=True, timeout=PATIENCE, env={**os.environ, **own})
        if done.returncode == 125:
            same((done.stdout, done.stderr != b""), (b"", True))
            return None
        found = fields_of(folder)[0][4]
        return " ".join(found[kind] for kind in ("jobs", "pre", "post"))

    every = {"DAGRUN_MAXJOBS": "2", "DAGRUN_MAXPRE": "3", "DAGRUN_MAXPOST": "4"}
    same(limits({}, "run", "x.dag"), "0 0 0")
    same(limits(every, "run", "x.dag"), "2 3 4")
    same(limits(every, "run", "--maxpre", "0", "x.dag", "--maxpost=7"), "2 0 7")
    same(limits({"DAGRUN_MAXJOBS": ""}, "run", "x.dag"), "0 0 0")
    same(limits({"DAGRUN_MAXJOBS": "many"}, "run", "x.dag"), None)
    same(limits({"DAGRUN_MAXJOBS": "65536"}, "run", "x.dag"), None)
    # It is said that the environment is wrong, not a word.
    done = subprocess.run([folder.program, "run", "x.dag"], cwd=folder.path, capture_output=True, timeout=PATIENCE, env={**os.environ, "DAGRUN_MAXPRE": "many"})
    same((done.stdout, done.stderr, done.returncode), (b"", b"error: DAGRUN_MAXPRE=many in the environment: no number from 0 to 65535\n", 125))
    # Other commands pass them over.
    done = subprocess.run([folder.program, "check", "x.dag"], cwd=folder.path, capture_output=True, timeout=PATIENCE, env={**os.environ, "DAGRUN_MAXJOBS": "many"})
    same((done.stdout, done.returncode), (b"ok nodes=2 edges=0 final=no\n", 0))


def words_that_are_no_request(folder):
    folder.write("x.dag", "JOB A a.sub\n")
    folder.echo("a")
    for words in (
        ("check", "x.dag", "table"),
        ("rehearse",),
        ("--help",),
        ("fly", "x.dag"),
        ("rehearse", "x.dag", "--maxjobs", "65536"),
        ("rehearse", "x.dag", "--maxpre=-1"),
        ("rehearse", "x.dag", "--maxjobs=1", "--maxjobs=1"),
        ("check", "x.dag", "--maxjobs", "1"),
        ("run", "x.dag", "--autorescue", "2"),
        ("run", "x.dag", "--dorescuefrom", "65536"),
        ("run", "x.dag", "--dorescuefrom=-1"),
        ("run", "x.dag", "--dorescuefrom"),
        ("rehearse", "x.dag", "--dorescuefrom", "1"),
        ("run", "x.dag", "--orphans"),
        ("run", "x.dag", "--orphans", "end"),
        ("run", "x.dag", "--launcher"),
        ("run", "x.dag", "--launcher=env", "--launcher=env"),
        ("run", "x.dag", "--launcher-final=1"),
        ("rehearse", "x.dag", "--launcher", "env"),
        ("rehearse", "x.dag", "--orphans", "kill"),
        ("status",),
        ("graph",),
        ("graph", "x.dag", "y.dag"),
        ("graph", "--fold", "--no-fold", "x.dag"),
        ("graph", "--no-fold=1", "x.dag"),
        ("status", "--no-fold", "x.dag"),
        ("explain", "L99"),
        ("explain", "L1", "L2"),
        ("help", "fly"),
        ("help", "run", "status"),
        ("version", "x.dag"),
    ):
        report, told, status = folder.call(*words)
        same((words, report, told != "", status), (words, "", True, 125))
    for words in (("x.dag",), ("--maxjobs", "3", "x.dag", "--maxpre=0"), ("x.dag", "--maxpost=65535", "--maxpre", "+2")):
        same(folder.call("rehearse", *words), ("A DONE attempts=1 value=0\nresult 0\n", "", 0))
    same(sorted(os.listdir(folder.path)), ["a.sub", "x.dag"])


def help_and_version(folder):
    """`help` is what --help says, with examples behind it, on standard output."""
    for command in ("run", "status", "audit", "check", "rehearse", "graph", "explain", "help", "version"):
        page = folder.call(command, "--help")
        same((page[0], page[2]), ("", 125))
        text, told, status = folder.call("help", command)
        same((told, status), ("", 0))
        same(text[: len(page[1])], page[1])
        examples = text[len(page[1]) :].splitlines()
        same(examples[:2], ["", "Examples:"])
        same([f"dagrun {command}" in line for line in examples[2:]], [True] * len(examples[2:]))
        same(len(examples) > 2, True)
    text, told, status = folder.call("help")
    same((text.startswith(folder.call("--help")[1] + "\nExamples:\n"), told, status), (True, "", 0))
    text, told, status = folder.call("version")
    same((re.fullmatch(r"dagrun \d+\.\d+\.\d+\n", text) is not None, told, status), (True, "", 0))
    for words in (("--version",), ("-V",)):
        same(folder.call(*words), (text, "", 0))
    for words in (("--version", "x"), ("run", "-V"), ("-V", "-V")):
        same(folder.call(*words)[::2], ("", 125))
    same(os.listdir(folder.path), [])


def how_many_jobs_at_once(folder):
    """`-j N` is `--maxjobs N`, also in one word; `-j cpus` is the number of processors that the process may run on."""
    folder.write("x.dag", "JOB A a.sub\n")
    folder.echo("a")
    cpus = len(os.sched_getaffinity(0))
    for words, jobs in ((("-j", "3"), 3), (("-j7",), 7), (("-j", "cpus"), cpus), (("-jcpus",), cpus), (("--maxjobs", "2"), 2), ((), 0)):
        same(folder.call("run", *words, "x.dag"), (ONE_DONE, "", 0))
        same(fields_of(folder)[0][4]["jobs"], str(jobs))
    same(folder.call("rehearse", "-j", "1", "x.dag"), (ONE_DONE, "", 0))
    for words in (("-j",), ("-j", "-1"), ("-j", "many"), ("-j2", "--maxjobs", "3"), ("-j", "1", "-j", "2"), ("-j65536",)):
        same(folder.call("run", *words, "x.dag")[::2], ("", 125))
    same(folder.call("check", "-j", "1", "x.dag")[::2], ("", 125))
    # What is no option any more is a path.
    same(folder.call("run", "--", "-j"), ("", "dagrun: S1 MissingFile -j\n", 125))


def what_help_says_of_defaults(folder):
    """An option that isn't given is what the help text says: the call with that value comes to the same, one with another value does not."""
    folder.write("x.dag", DIAMOND + "SCRIPT PRE A true\n")
    folder.echo(*"abd")
    folder.shell("c", "exit 3\n")
    text = " ".join(folder.call("help", "run")[0].split())
    folder.call("run", "x.dag")
    shutil.copytree(folder.path, folder.at("base"))

    def came_to(*options):
        """What a second round prints and tells, and what its log says that it began with."""
        with tempfile.TemporaryDirectory() as path:
            copy = Folder(folder.program, os.path.join(path, "copy"))
            shutil.copytree(folder.at("base"), copy.path)
            answer = copy.call("run", *options, "x.dag")
            life = fields_of(copy)[0][4]
            return answer, [life[kind] for kind in ("jobs", "pre", "post", "rescue", "next")]

    plain = came_to()
    same(plain[1], ["0", "0", "0", "1", "2"])
    for option, value, other, said in (
        ("--maxjobs", "0", "1", "<N> How many jobs may run at once; 0 is no limit"),
        ("--maxpre", "0", "1", "<N> How many PRE scripts may run at once"),
        ("--maxpost", "0", "1", "<N> How many POST scripts may run at once"),
        ("--autorescue", "1", "0", "<0|1> 0: a new round reads no rescue file"),
        ("--progress", "auto", "always", "<WORD> Whether standard error shows how far the run is; auto where it is not given"),
    ):
        same((option, f"{option} {said}" in text), (option, True))
        same((option, came_to(option, value)), (option, plain))
        same((option, came_to(option, other) == plain), (option, False))
    same("kill where it is not given" in text, True)
    # What a table does not say: all phases exit with 0.
    same("without it all phases exit with 0" in " ".join(folder.call("help", "rehearse")[0].split()), True)
    same(folder.call("rehearse", "x.dag"), (ALL_DONE, "", 0))


def a_picture_of_a_run(folder):
    """`graph` while nodes run and behind that, by the journal; a journal of other files colours nothing."""
    states = {"done": "palegreen", "in error": "lightcoral", "its job runs": "lightskyblue", "its PRE script runs": "lightskyblue",
              "its POST script runs": "lightskyblue", "ready": "khaki", "waits": "white"}

    def drawn(text):
        found = re.findall(r'^    "(.)" \[label="\1"(, peripheries=2)?(?:, fillcolor=(\w+), tooltip="([\w ]+)")?\];$', text, re.M)
        same([colour for _, _, colour, _ in found], [states.get(words, "") for *_, words in found])
        return [(name, words) for name, *_, words in found]

    lines = DIAMOND + "FINAL F f.sub\nJOB P a.sub\nSCRIPT PRE P pre.sh\nSCRIPT POST P post.sh\n"
    folder.write("x.dag", lines)
    folder.echo("a", "b", "d", "f")
    folder.shell("c", f"{folder.program} graph x.dag > during; exit 3\n")
    for name in ("pre", "post"):
        folder.write(f"{name}.sh", f"#!/bin/sh\n{folder.program} graph x.dag > {name}\n")
        os.chmod(folder.at(f"{name}.sh"), 0o755)
    text, told, status = folder.call("graph", "x.dag")
    same((drawn(text), told, status), ([(name, "") for name in "ABCDPF"], "", 0))
    same(folder.call("run", "--maxjobs", "1", "x.dag")[1:], ("", 0))
    same(dict(drawn(folder.read("pre").decode()))["P"], "its PRE script runs")
    same(dict(drawn(folder.read("post").decode()))["P"], "its POST script runs")
    during = dict(drawn(folder.read("during").decode()))
    same([during[name] for name in "ACDF"], ["done", "its job runs", "waits", "waits"])
    journal = folder.read("x.dag.journal")
    behind = list(zip("ABCDPF", ("done", "done", "in error", "waits", "done", "done")))
    text, told, status = folder.call("graph", "x.dag")
    same((drawn(text), told, status), (behind, "", 0))
    same(re.findall(r'^    "(.)" -> "(.)";$', text, re.M), [("A", "B"), ("A", "C"), ("B", "D"), ("C", "D")])
    # Of another DAG the journal says nothing, and of other bytes neither: the round is drawn as it began, where that is known, and the files as they are
    # where that is asked for.
    folder.write("x.dag", lines + "JOB E a.sub\n")
    same(folder.call("status", "x.dag"), ("", "dagrun: J5 OtherInputs\n", 125))
    other = [(name, "") for name in "ABCDPEF"]
    for words, nodes in (((), behind), (("--as-begun",), behind), (("--as-is",), other)):
        text, told, status = folder.call("graph", *words, "x.dag")
        same((drawn(text), told, status), (nodes, "", 0))
    for words in (("--as-is", "--as-begun"), ("--fold", "--no-fold"), ("--no-fold", "--fold")):
        text, told, status = folder.call("graph", *words, "x.dag")
        same((words, text, f"'{words[0]}' cannot be used with '{words[1]}'" in told, status), (words, "", True, 125))
    os.remove(folder.at("x.dag.begun"))
    text, told, status = folder.call("graph", "x.dag")
    same((drawn(text), told, status), (other, "", 0))
    folder.write("x.dag", lines)
    folder.write("x.dag.journal", changed(journal, HEADER + SLOT + 1, 9))
    same(folder.call("graph", "x.dag"), ("", "dagrun: J9 BadSlot 1\n", 125))
    os.remove(folder.at("x.dag.journal"))
    os.mkdir(folder.at("x.dag.journal"))
    same(folder.call("graph", "x.dag"), ("", "dagrun: X2 FileRefused x.dag.journal\n", 125))


def fields_of(folder, name="x.dag.log"):
    """The lines of a log: event, node, phase, attempt, and the details; each line begins with a time and is whole."""
    lines = []
    for line in folder.read(name).decode().splitlines(keepends=True):
        moment, event, node, phase, attempt, process, *details = line.rstrip("\n").split("\t")
        same((re.fullmatch(r"\d{4}-\d\d-\d\dT\d\d:\d\d:\d\d\.\d{3}Z", moment) is not None, line[-1]), (True, "\n"))
        same(process.isdigit() or process == "-", True)
        lines.append((event, node, phase, attempt, dict(detail.split("=", 1) for detail in details)))
    return lines


def events_of(folder, name="x.dag.log"):
    return [" ".join(line[:4]) for line in fields_of(folder, name)]


def a_log(folder):
    """What a log tells of failures and of FINAL, in the order of what happened."""
    folder.write("x.dag", "JOB A a.sub\nJOB B b.sub\nJOB C c.sub\nJOB D d.sub\nFINAL F f.sub\nRETRY A 1\nSCRIPT PRE C pre.sh it's two\n")
    folder.shell("a", "[ -e ran ] && exit 3\n: > ran\nkill -9 $$\n")
    folder.write("b.sub", "executable = /no/such\nqueue\n")
    folder.write("c.sub", "executable = /bin/true\nqueue\n")
    folder.write("d.sub", "executable = /bin/echo\narguments = \"x 'it''s a y' z\"\ninitialdir = sub\noutput = d out\nerror = d out\nqueue\n")
    folder.echo("f")
    os.mkdir(folder.at("sub"))
    report = "A ERROR attempts=2 value=3\nB ERROR attempts=1 value=-1001\nC ERROR attempts=1 value=-1001\nD DONE attempts=1 value=0\nF DONE attempts=1 value=0\nresult 0\n"
    begun = time.monotonic()
    same(folder.call("run", "--maxjobs", "1", "x.dag"), (report, "", 0))
    took = time.monotonic() - begun
    here = os.path.realpath(folder.path)
    lines = fields_of(folder)
    events = [" ".join(line[:4]) for line in lines]
    same(events[0], "life - - -")
    life = {"start": "begin", "dag": "x.dag", "folder": here, "nodes": "5", "done": "0", "jobs": "1", "pre": "0", "post": "0"}
    same(lines[0][4], {**life, "children": "1024", "rescue": "0", "next": "1"})
    same(events[-4:], ["final F JOB 0", "start F JOB 0", "end F JOB 0", "finish - - -"])
    same(lines[-1][4], {"status": "0", "done": "2", "error": "3", "ready": "0", "not_ready": "0"})
    told = {event: line[4] for event, line in zip(events, lines)}
    same([told["end A JOB 0"].get("signal"), told["end A JOB 0"].get("name"), told["end A JOB 1"].get("exit")], ["9", "SIGKILL", "3"])
    same([told["notstarted B JOB 0"][key] for key in ("what", "path", "command")], ["program", "/no/such", "/no/such"])
    same("No such file" in told["notstarted B JOB 0"]["reason"], True)
    same(told["notstarted C PRE 0"]["command"], here + r"/pre.sh 'it'\''s' two")
    wanted = {"command": r"/bin/echo x 'it'\''s a y' z", "folder": f"{here}/sub", "output": f"'{here}/sub/d out'", "error": f"'{here}/sub/d out'"}
    same(told["start D JOB 0"], wanted)
    same(0 <= float(told["end D JOB 0"]["seconds"]) <= round(took + 0.001, 3), True)
    same(folder.there("x.dag.children"), False)
    # A round behind it has a log of its own.
    before = folder.read("x.dag.log")
    folder.call("run", "x.dag")
    same(folder.read("x.dag.log.old"), before)
    same(events_of(folder)[0], "life - - -")


def a_log_that_can_not_be_written(folder):
    folder.write("x.dag", DIAMOND)
    folder.echo(*"abcd")
    os.makedirs(folder.at("x.dag.log"))
    os.makedirs(folder.at("x.dag.log.old/some"))
    same(folder.call("run", "x.dag"), (ALL_DONE, "", 0))
    os.rmdir(folder.at("x.dag.log"))
    os.symlink("/dev/full", folder.at("x.dag.log"))
    folder.cut_journal(4)
    same(folder.call("run", "x.dag"), (ALL_DONE, "", 0))


def what_was_refused(folder):
    """The log names the path of what could not be opened, and the system's reason."""
    folder.write("a.txt", "no program\n")
    here = os.path.realpath(folder.path)
    for number, (lines, what, path, reason) in enumerate((
        ("a.txt", "program", "a.txt", "Permission denied"),
        ("/bin/echo\ninput = none", "input", "none", "No such file"),
        ("/bin/echo\noutput = none/x", "output", "none/x", "No such file"),
        ("/bin/echo\noutput = y\nerror = none/x", "error", "none/x", "No such file"),
        ("/bin/echo\ninitialdir = none", "folder", "none", "No such file"),
    )):
        folder.write("a.sub", f"executable = {lines}\nqueue\n")
        folder.write(f"{number}.dag", "JOB A a.sub\n")
        same(folder.call("run", f"{number}.dag"), ("A ERROR attempts=1 value=-1001\nresult 1\n", "", 1))
        told = fields_of(folder, f"{number}.dag.log")[1]
        same(told[:4], ("notstarted", "A", "JOB", "0"))
        same((told[4]["what"], told[4]["path"], reason in told[4]["reason"]), (what, f"{here}/{path}", True))


def a_cut_line_of_the_log(folder):
    """The next manager ends it, so that its own first line is one."""
    folder.write("x.dag", "JOB A a.sub\n")
    folder.echo("a")
    same(folder.call("run", "x.dag")[2], 0)
    folder.cut_journal(1)
    log = folder.read("x.dag.log")
    folder.write("x.dag.log", log[:-20])
    same(folder.call("run", "x.dag")[2], 0)
    lines = folder.read("x.dag.log").splitlines(keepends=True)
    cut = log[:-20].splitlines()
    same((lines[len(cut) - 1], len(lines) > len(cut)), (cut[-1] + b"\n", True))
    same([line.split(b"\t")[1] for line in (lines[0], lines[len(cut)])], [b"life", b"life"])


def an_abort_in_the_log(folder):
    folder.write("x.dag", "JOB A a.sub\nJOB B b.sub\nABORT-DAG-ON A 7\n")
    folder.shell("a", "while [ ! -e b ]; do sleep 0.02; done; exit 7\n")
    folder.shell("b", ": > b; exec sleep 1000\n")
    same(folder.call("run", "x.dag"), ("A ERROR attempts=1 value=7\nB READY attempts=0 value=-\nresult 7\n", "", 7))
    same(events_of(folder), ["life - - -", "start A JOB 0", "start B JOB 0", "end A JOB 0", "abort - - -", "killed B JOB 0", "finish - - -"])


def left_running(folder):
    """A manager is killed while a child of it sleeps; answers the child's process. Another one would end at once."""
    folder.shell("a", "if [ -e again ]; then exit 0; fi\necho $$ > process\nmv process begun\nexec sleep 1000\n")
    return left(folder)


def left(folder):
    """A manager is killed once its child has written its number into the file `begun`; answers that."""
    folder.write("x.dag", "JOB A a.sub\n")
    first = folder.start("run", "x.dag")
    folder.wait_for("begun")
    process = int(folder.read("begun"))
    # The child may be faster than the manager's note of it.
    wait_until(lambda: b"\n%d\t" % process in folder.read("x.dag.children"), f"{process} is not noted")
    first.kill()
    first.wait(timeout=PATIENCE)
    # The orphan has them too: they are not read to their ends.
    first.stdout.close()
    first.stderr.close()
    same(runs_still(process), True)
    folder.write("again", "")
    return process


def stat_of(process):
    """What the system tells of a process, from its state on."""
    with open(f"/proc/{process}/stat") as file:
        return file.read().rsplit(")", 1)[1].split()


def runs_still(process):
    try:
        return stat_of(process)[0] not in "ZX"
    except (FileNotFoundError, ProcessLookupError):
        return False


def children_of(process):
    found = []
    for name in filter(str.isdigit, os.listdir("/proc")):
        with contextlib.suppress(OSError):
            if int(stat_of(name)[1]) == process:
                found.append(int(name))
    return found


def has_open(process, path):
    """Whether a process has a file open."""
    with contextlib.suppress(OSError):
        folder = f"/proc/{process}/fd"
        for name in os.listdir(folder):
            with contextlib.suppress(OSError):
                if os.path.samefile(f"{folder}/{name}", path):
                    return True
    return False


def end_process(process):
    """Kills a process, and waits until it has ended: on a busy machine that takes a while."""
    os.kill(process, signal.SIGKILL)
    wait_until(lambda: not runs_still(process), f"{process} runs")


def wait_for_pauses(process, count):
    """Waits until a process has paused so many times from now on: whoever looks again and again, and pauses between, has looked so often."""
    def pauses():
        with open(f"/proc/{process}/status") as file:
            return int(re.search(r"^voluntary_ctxt_switches:\s+(\d+)", file.read(), re.M)[1])
    before = pauses()
    wait_until(lambda: pauses() >= before + count, f"process {process} has not paused {count} times")


ONE_DONE = "A DONE attempts=1 value=0\nresult 0\n"


def orphans_in(folder, name="x.dag.log"):
    return [line[4]["done"] for line in fields_of(folder, name) if line[0] == "orphan"]


def an_orphan_is_killed(folder):
    process = left_running(folder)
    # A line of the manager, and one of the process.
    lines = [line.split("\t") for line in folder.read("x.dag.children").decode().splitlines()]
    same([line[:1] + line[3:] for line in lines[1:]], [[str(process), "A", "JOB", "0"]])
    same((lines[0][0], len(lines[0])), ("manager", 7))
    same(folder.call("run", "x.dag"), (ONE_DONE, "", 0))
    same((runs_still(process), orphans_in(folder), folder.there("x.dag.children")), (False, ["killed"], False))
    same(events_of(folder), ["life - - -", "start A JOB 0", "orphan A JOB 0", "life - - -", "start A JOB 0", "end A JOB 0", "finish - - -"])


def an_orphan_with_an_odd_name(folder):
    """The system tells of a process by its name, too, which may look like what stands behind it."""
    name = "odd) Z 1 1 1 (it's"
    folder.write(name, "#!/bin/sh\nif [ -e again ]; then exit 0; fi\nmkfifo never\necho $$ > process\nmv process begun\nread word < never\n")
    os.chmod(folder.at(name), 0o755)
    folder.write("a.sub", f"executable = {name}\narguments = \"'tab\there' '' back\\slash\"\nqueue\n")
    process = left(folder)
    # The system keeps fifteen bytes of a name.
    with open(f"/proc/{process}/comm") as file:
        same(file.read(), name[:15] + "\n")
    same(folder.call("run", "x.dag"), (ONE_DONE, "", 0))
    same((runs_still(process), orphans_in(folder)), (False, ["killed"]))
    here = os.path.realpath(folder.path)
    same(fields_of(folder)[1][4]["command"], "'" + here + r"/odd) Z 1 1 1 (it'\''s' " + r"$'tab\there' '' 'back\slash'")


def a_child_that_was_being_started(folder, *options):
    """A manager is killed once its child runs, and before its process is noted: the child is found all the same."""
    folder.write("x.dag", "JOB A a.sub\n")
    folder.shell("a", "if [ -e again ]; then exit 0; fi\nmkfifo never\necho $$ > process\nmv process begun\nread word < never\n")
    # The lines of the manager and of the process.
    words = ["strace", "-qqq", "-e", "trace=write", "-P", folder.at("x.dag.children"), "-e", "inject=write:signal=SIGKILL:when=2"]
    done = subprocess.run([*words, "-o", "/dev/null", folder.program, "run", *options, "x.dag"], cwd=folder.path, capture_output=True, timeout=PATIENCE)
    same(done.returncode != 0, True)
    folder.wait_for("begun")
    process = int(folder.read("begun"))
    same((runs_still(process), [line.split("\t")[0] for line in folder.read("x.dag.children").decode().splitlines()]), (True, ["manager"]))
    folder.write("again", "")
    # Others of the group are left alone: one with other words, and one with the same.
    others = [subprocess.Popen(["sleep", "1000"]), subprocess.Popen(["/bin/sh", "-c", "read word", "/bin/sh", "a.sh"], stdin=subprocess.PIPE)]
    try:
        same(folder.call("run", "x.dag"), (ONE_DONE, "", 0))
        same((runs_still(process), orphans_in(folder), [other.poll() for other in others]), (False, ["killed"], [None, None]))
    finally:
        for other in others:
            other.kill()
            other.wait()


def a_launched_child_that_was_being_started(folder):
    """A launcher that becomes its job has the job's words alone then."""
    a_child_that_was_being_started(folder, "--launcher", "env X=1")


def an_orphan_is_left(folder):
    process = left_running(folder)
    try:
        same(folder.call("run", "--orphans", "leave", "x.dag"), (ONE_DONE, "", 0))
        same((runs_still(process), orphans_in(folder)), (True, ["left"]))
        # It is still known: the next call, which begins a round, kills it.
        same(folder.call("run", "x.dag"), (ONE_DONE, "", 0))
        same((runs_still(process), orphans_in(folder, "x.dag.log.old")), (False, ["left", "killed"]))
    finally:
        if runs_still(process):
            os.kill(process, signal.SIGKILL)


def an_orphan_is_waited_for(folder):
    process = left_running(folder)
    second = folder.start("run", "--orphans=wait", "x.dag")
    # It opens the log once it has looked which processes there are.
    wait_until(lambda: has_open(second.pid, folder.at("x.dag.log")), "the second manager has not come to its log")
    wait_for_pauses(second.pid, 10)
    same((second.poll(), runs_still(process), folder.read("x.dag.log").count(b"life")), (None, True, 1))
    os.kill(process, signal.SIGTERM)
    same(second.communicate(timeout=PATIENCE), (ONE_DONE.encode(), b""))
    same(orphans_in(folder), ["waited"])


def another_process_of_that_number(folder):
    """A process that has the number of a child that is gone is left alone, whatever the note of it says: it is none of the round."""
    process = left_running(folder)
    fields = folder.read("x.dag.children").decode().splitlines(keepends=True)[-1].split("\t")
    end_process(process)
    other = subprocess.Popen(["sleep", "1000"])
    try:
        began = stat_of(other.pid)[19]
        for line in ([fields[1], fields[2]], [began, "another-boot"], [began, fields[2]]):
            folder.write("x.dag.children", "\t".join([str(other.pid), *line, *fields[3:]]))
            same(folder.call("run", "x.dag"), (ONE_DONE, "", 0))
            same((other.poll(), orphans_in(folder)), (None, []))
    finally:
        other.kill()
        other.wait()


def children_that_can_not_be_read(folder):
    folder.write("x.dag", DIAMOND)
    folder.echo(*"abcd")
    os.mkdir(folder.at("x.dag.children"))
    refused(folder, ("run", "x.dag"), "X2 FileRefused x.dag.children")
    same(folder.there("x.dag.journal"), False)
    os.rmdir(folder.at("x.dag.children"))
    folder.write("x.dag.children", "1\t2\n12\n\nno process at all\n")
    same(folder.call("run", "x.dag"), (ALL_DONE, "", 0))


def closed_streams(folder):
    """Where 0, 1 or 2 is closed at the start, no file of the run becomes one of them, and no child has another."""
    folder.write("x.dag", "JOB A a.sub\n")
    folder.write("a.sub", "executable = /bin/sh\narguments = look.sh\noutput = out\nqueue\n")
    folder.write("look.sh", 'for i in 0 1 2 3 4 5 6 7 8 9; do if [ -e /proc/$$/fd/$i ]; then printf "$i "; fi; done\n')
    for closed in ("0<&-", "1>&-", "2>&-", "0<&- 1>&- 2>&-"):
        for name in ("x.dag.journal", "x.dag.log"):
            if folder.there(name):
                os.remove(folder.at(name))
        done = subprocess.run(["sh", "-c", f'exec "$0" run x.dag {closed}', folder.program], cwd=folder.path, capture_output=True, timeout=PATIENCE)
        report = b"" if "1>&-" in closed else ONE_DONE.encode()
        same((closed, done.stdout, done.stderr, done.returncode), (closed, report, b"", 0))
        # sh itself has the script that it reads as 10.
        same(folder.read("out"), b"0 1 2 ")
        # The journal is as it is elsewhere: Life, launch, end, Finish, and the closed gate.
        same(len(folder.read("x.dag.journal")), HEADER + SLOT * 4 + 1)
        same((folder.there("x.dag.lock"), len(events_of(folder))), (False, 4))


def no_process_to_be_had(folder):
    """More children than the user may have processes: they are started as others end."""
    names = [f"n{number}" for number in range(40)]
    folder.write("x.dag", "".join(f"JOB {name} a.sub\n" for name in names))
    # Each waits for a line, without a process of its own: those that run go on to run until one is held.
    folder.shell("a", "read line < gate\n")
    os.mkfifo(folder.at("gate"))
    report = "".join(f"{name} DONE attempts=1 value=0\n" for name in names) + "result 0\n"
    shutil.copy(folder.program, folder.at("program"))
    as_another = {}
    if os.getuid() == 0:
        # The superuser has no such limit; nobody else runs as this user, not in another call of this script either.
        user = 20000 + os.getpid() % 20000
        for path in (folder.path, *(folder.at(name) for name in os.listdir(folder.path))):
            os.chown(path, user, user)
        as_another = {"user": user, "group": user, "extra_groups": []}
    words = ["prlimit", "--nproc=12", folder.at("program"), "run", "x.dag"]
    run = subprocess.Popen(words, cwd=folder.path, stdout=subprocess.PIPE, stderr=subprocess.PIPE, **as_another)
    gate = os.open(folder.at("gate"), os.O_RDWR)
    try:
        wait_until(lambda: folder.there("x.dag.log") and b"\thold\t" in folder.read("x.dag.log"), "none is held")
        os.write(gate, b"\n" * len(names))
        text, told = run.communicate(timeout=PATIENCE)
    finally:
        os.close(gate)
    same((text.decode(), told, run.returncode), (report, b"", 0))
    same("hold" in {line[0] for line in fields_of(folder)}, True)


def one_splice_in_two_folders(folder):
    """A file that is spliced twice by one path, in two folders: the submit files of its nodes are those of each folder."""
    for name in ("a", "b"):
        os.mkdir(folder.at(name))
        folder.write(f"{name}/j.sub", f"executable = /bin/echo\narguments = {name}\noutput = out\nqueue\n")
    inner = os.path.realpath(folder.path) + "/inner.dag"
    folder.write("inner.dag", "JOB N j.sub\n")
    folder.write("x.dag", f"SPLICE X {inner} DIR a\nSPLICE Y {inner} DIR b\n")
    same(folder.call("check", "x.dag"), ("ok nodes=2 edges=0 final=no\n", "", 0))
    same(folder.call("run", "x.dag"), ("X+N DONE attempts=1 value=0\nY+N DONE attempts=1 value=0\nresult 0\n", "", 0))
    same((folder.read("a/out"), folder.read("b/out")), (b"a\n", b"b\n"))
    # A file that splices itself into one folder below another is refused as what it is.
    folder.write("inner.dag", f"JOB N j.sub\nSPLICE X {inner} DIR a\n")
    same(folder.call("check", "x.dag"), ("", f"dagrun: S3 Loop {inner}\n", 125))


def a_look_beside_a_manager(folder):
    """Whoever looks at a journal while a manager writes it, with time between the size and the bytes, finds no fault in it."""
    names = [f"n{number}" for number in range(40)]
    folder.write("x.dag", "".join(f"JOB {name} a.sub\nRETRY {name} 1000000\n" for name in names))
    folder.write("a.sub", "executable = /bin/false\nqueue\n")
    manager = folder.start("run", "--maxjobs", "4", "x.dag")
    try:
        folder.wait_for("x.dag.log")
        slow = ["strace", "-qqq", "-o", "calls", "-e", "trace=pread64,read", "-e", "signal=none", "-e", "inject=pread64,read:delay_enter=2000"]
        for _ in range(10):
            same(manager.poll(), None)
            done = subprocess.run([*slow, folder.program, "run", "x.dag"], cwd=folder.path, capture_output=True, timeout=PATIENCE)
            same((done.stdout, done.stderr, done.returncode), (b"", b"dagrun: X2 FileRefused x.dag.lock\n", 125))
            for command, status in (("status", 0), ("audit", 1)):
                done = subprocess.run([*slow, folder.program, command, "x.dag"], cwd=folder.path, capture_output=True, timeout=PATIENCE)
                same((done.stderr, done.returncode), (b"", status))
    finally:
        manager.kill()
        manager.wait(timeout=PATIENCE)


# What is said where no file can be opened: it is the first one that is tried.
FEW = ["dagrun: J1 Device\n"] + [f"dagrun: X2 FileRefused x.dag.{name}\n" for name in ("lock", "round", "children")]


def few_descriptors(folder):
    """However few files the manager may have open, a run says what is wanting, and 16 are enough for 40 children at once."""
    names = [f"n{number}" for number in range(40)]
    folder.write("x.dag", "".join(f"JOB {name} a.sub\n" for name in names))
    folder.write("a.sub", "executable = /bin/sleep\narguments = 0.2\noutput = o.$(JOB)\nerror = e.$(JOB)\nqueue\n")
    report = "".join(f"{name} DONE attempts=1 value=0\n" for name in names) + "result 0\n"
    seen = set()
    for limit in (5, 7, 9, 10, 11, 12, 16):
        words = ["prlimit", f"--nofile={limit}", folder.program, "run", "x.dag"]
        done = subprocess.run(words, cwd=folder.path, capture_output=True, timeout=PATIENCE)
        text, faults = done.stdout.decode(), done.stderr.decode()
        if done.returncode == 125:
            same((text, faults in FEW), ("", True))
        elif done.returncode == 1:
            # None could be started, not even alone: each says so.
            same((text.count(" ERROR attempts=1 value=-1001\n"), faults), (40, ""))
            head = why(folder, "n0").splitlines()[0]
            same("/bin/sleep: Too many open files (os error 24)" in head, True)
        else:
            same((text, faults, done.returncode), (report, "", 0))
        seen.add(done.returncode)
        for name in os.listdir(folder.path):
            if name.startswith("x.dag."):
                os.remove(folder.at(name))
    same((0 in seen, 125 in seen), (True, True))


def why(folder, *names):
    """What `why` says of x.dag, which tells no warning."""
    text, told, status = folder.call("why", "x.dag", *names)
    same((told, status), ("", 0))
    return text


def lines_of(text, word):
    """The lines of an answer of `why` that begin with this word, without it."""
    return [line[4:].removeprefix(word).strip() for line in text.splitlines() if line.startswith("    " + word)]


def mended(folder, submit, *said, repair=None, program="a.sh", script=None, first=lambda folder: None):
    """A job that fails: `why` says how it is mended, which is done, and then it runs."""
    folder.write("x.dag", "JOB A a.sub\n")
    folder.write("a.sub", submit + "\nqueue\n")
    if script is not None:
        folder.write(program, script)
    first(folder)
    report, told, status = folder.call("run", "x.dag")
    same((report.splitlines()[-1], told, status), ("result 1", "", 1))
    text = why(folder)
    here = os.path.realpath(folder.path)
    for line in said:
        if line.replace("HERE", here) not in text.splitlines():
            raise AssertionError(f"found\n{text}\nand not the line\n{line}")
    if repair is None:
        # What stands behind the colon is the command that mends it.
        subprocess.run(lines_of(text, "repair")[0].split(": ", 1)[1], shell=True, cwd="/", check=True)
    else:
        repair(folder)
    report, told, status = folder.call("run", "x.dag")
    same((report.splitlines()[-1], told, status), ("result 0", "", 0))


def no_permission(folder):
    mended(
        folder, "executable = a.sh",
        "A ERROR: its job was not started: HERE/a.sh: Permission denied (os error 13), in attempt 1 of 1; no node waits for it",
        "    command  HERE/a.sh", "    folder   HERE", "    error    not kept: no file is named for it",
        "    repair   it may not be executed: chmod +x HERE/a.sh", script="#!/bin/sh\nexit 0\n",
    )


def no_permission_for_the_reader(folder):
    """The program may be executed, and what its first line names may not; on a disk that is mounted with noexec it is the same."""
    def script(folder):
        shutil.copy("/bin/sh", folder.at("reader"))
        os.chmod(folder.at("reader"), 0o644)
        folder.write("a.sh", f"#!{os.path.realpath(folder.at('reader'))}\nexit 0\n")
        os.chmod(folder.at("a.sh"), 0o755)

    mended(
        folder, "executable = a.sh",
        "A ERROR: its job was not started: HERE/a.sh: Permission denied (os error 13), in attempt 1 of 1; no node waits for it",
        "    repair   only others may execute it, or its disk is mounted with noexec (findmnt -T), or the program of its first line may not be executed:"
        " ls -l HERE/a.sh", first=script, repair=lambda folder: os.chmod(folder.at("reader"), 0o755),
    )


def no_first_line(folder):
    mended(
        folder, "executable = a.sh",
        "A ERROR: its job was not started: HERE/a.sh: Exec format error (os error 8), in attempt 1 of 1; no node waits for it",
        "    repair   its first line does not say what reads it: write #!/bin/sh there, or what does", script="exit 0\n",
        first=lambda folder: os.chmod(folder.at("a.sh"), 0o755), repair=lambda folder: folder.write("a.sh", "#!/bin/sh\nexit 0\n"),
    )


def a_carriage_return(folder):
    mended(
        folder, "executable = a.sh", r"    repair   its first line ends with a carriage return (CR): sed -i 's/\r$//' HERE/a.sh",
        script="#!/bin/sh\r\nexit 0\r\n", first=lambda folder: os.chmod(folder.at("a.sh"), 0o755),
    )


def a_pipe_for_a_program(folder):
    """Nobody writes into it: `why` says what it is and doesn't wait, also without the log."""
    def pipe(folder):
        os.mkfifo(folder.at("a.sh"))
        os.chmod(folder.at("a.sh"), 0o755)

    def program(folder):
        os.remove(folder.at("x.dag.log"))
        same(lines_of(why(folder), "repair"), [f"this is a pipe, a device or a socket, no program: {os.path.realpath(folder.at('a.sh'))}"])
        os.remove(folder.at("a.sh"))
        os.symlink("/bin/true", folder.at("a.sh"))

    mended(folder, "executable = a.sh", "    repair   this is a pipe, a device or a socket, no program: HERE/a.sh", first=pipe, repair=program)


def no_such_program_at_home(folder):
    """No shell reads the path of a program: neither ~ nor a variable stands for a folder."""
    for path in ("~/bin/tool", "$HOME/bin/tool"):
        mended(
            folder, f"executable = {path}",
            f"    repair   there is no such program: no shell reads its path, so write the whole path in place of ~ or a variable: 'HERE/{path}'",
            repair=lambda folder: folder.write("a.sub", "executable = /bin/true\nqueue\n"),
        )
        for name in os.listdir(folder.path):
            os.remove(folder.at(name))


def no_such_program(folder):
    mended(
        folder, "executable = bin/tool",
        "A ERROR: its job was not started: HERE/bin/tool: No such file or directory (os error 2), in attempt 1 of 1; no node waits for it",
        "    repair   there is no such program: put it there, or mend its path: HERE/bin/tool",
        repair=lambda folder: (os.mkdir(folder.at("bin")), os.symlink("/bin/true", folder.at("bin/tool"))),
    )


def no_reader(folder):
    mended(
        folder, "executable = a.sh", "    repair   its first line names a program that is missing: /no/such/reader",
        script="#!/no/such/reader -x\nexit 0\n", first=lambda folder: os.chmod(folder.at("a.sh"), 0o755),
        repair=lambda folder: folder.write("a.sh", "#!/bin/sh\nexit 0\n"),
    )


def no_output_folder(folder):
    mended(
        folder, "executable = /bin/echo\narguments = x\noutput = logs/new/a.out",
        "A ERROR: its job was not started: HERE/logs/new/a.out: No such file or directory (os error 2), in attempt 1 of 1; no node waits for it",
        "    output   HERE/logs/new/a.out", "    repair   that folder is missing: mkdir -p HERE/logs/new",
    )
    same(folder.read("logs/new/a.out"), b"x\n")


def no_script(folder):
    """The shell's own words are lost, since no file is named for them."""
    mended(
        folder, "executable = /bin/sh\narguments = steps.sh 1",
        "    command  /bin/sh steps.sh 1", "    error    not kept: no file is named for it",
        "    repair   the file that it is to read is missing: HERE/steps.sh", repair=lambda folder: folder.write("steps.sh", "exit 0\n"),
    )


def no_working_folder(folder):
    mended(
        folder, "executable = /bin/true\ninitialdir = work",
        "A ERROR: its job was not started: HERE/work: No such file or directory (os error 2), in attempt 1 of 1; no node waits for it",
        "    folder   HERE/work", "    repair   that folder is missing: mkdir -p HERE/work",
    )


def no_process(folder):
    """The system has none to give, and no child runs that might end."""
    folder.write("x.dag", "JOB A a.sub\n")
    folder.write("a.sub", "executable = /bin/true\nqueue\n")
    shutil.copy(folder.program, folder.at("program"))
    as_another = {}
    if os.getuid() == 0:
        user = 40000 + os.getpid() % 20000
        for path in (folder.path, *(folder.at(name) for name in os.listdir(folder.path))):
            os.chown(path, user, user)
        as_another = {"user": user, "group": user, "extra_groups": []}
    words = ["prlimit", "--nproc=1", folder.at("program"), "run", "x.dag"]
    done = subprocess.run(words, cwd=folder.path, capture_output=True, timeout=PATIENCE, **as_another)
    same((done.stdout.decode(), done.returncode), ("A ERROR attempts=1 value=-1001\nresult 1\n", 1))
    # The files are those of the other user.
    repair = lines_of(why(folder, "--trust-owner"), "repair")[0]
    same(repair.startswith("the system had no process or descriptor to give for ten seconds: let fewer run at once, as by --maxjobs 4, or raise its limits"), True)
    same(folder.call("run", "--trust-owner", "x.dag"), ("A DONE attempts=1 value=0\nresult 0\n", "", 0))


def last_before_earlier(text):
    """The last line of what `why` says of the last attempt."""
    return text.split("\n    earlier")[0].splitlines()[-1]


def why_attempts(folder):
    """Retries; the last five lines of an error output, cut, escaped, and the last one without its end; a signal."""
    folder.write("x.dag", "JOB fetch fetch.sub\nJOB B b.sub\nJOB C c.sub\nJOB D d.sub\nPARENT fetch CHILD D\nRETRY fetch 2\nRETRY B 2 UNLESS-EXIT 4\n")
    folder.write("fetch.sub", "executable = /bin/sh\narguments = \"fetch.sh 'a b'\"\noutput = fetch.out\nerror = fetch.err\nqueue\n")
    long = "x" * 159 + "yz"
    folder.write("fetch.sh", f"for i in 1 2 3 4 5 6; do echo line $i >&2; done\necho {long} >&2\nprintf '\\033[31mred\\ttab\\r' >&2\nexit 2\n")
    folder.shell("b", "exit 4\n")
    folder.shell("c", "kill -9 $$\n")
    folder.echo("d")
    report = "fetch ERROR attempts=3 value=2\nB ERROR attempts=1 value=4\nC ERROR attempts=1 value=-9\nD NOT_READY attempts=0 value=-\nresult 1\n"
    same(folder.call("run", "x.dag"), (report, "", 1))
    here = os.path.realpath(folder.path)
    text = why(folder)
    same(re.sub(r"(took     |after )\d+\.\d{3} s", r"\g<1>0.000 s", text), f"""fetch ERROR: its job ended with exit 2, in attempt 3 of 3; 1 node waits for it
    command  /bin/sh fetch.sh 'a b'
    folder   {here}
    output   {here}/fetch.out
    error    {here}/fetch.err
    took     0.000 s
    last lines of its error output:
        line 4
        line 5
        line 6
        {"x" * 159}y [cut]
        \\x1b[31mred\\ttab\\r
    earlier  attempt 1: its job ended with exit 2 after 0.000 s
        {"x" * 159}y [cut]
        \\x1b[31mred\\ttab\\r
    earlier  attempt 2: its job ended with exit 2 after 0.000 s
        {"x" * 159}y [cut]
        \\x1b[31mred\\ttab\\r

B ERROR: its job ended with exit 4, in attempt 1 of 3; no node waits for it
    retries  none: 4 is the value of its UNLESS-EXIT
    command  /bin/sh b.sh
    folder   {here}
    output   not kept: no file is named for it
    error    not kept: no file is named for it
    took     0.000 s

C ERROR: its job ended with signal 9 (SIGKILL), in attempt 1 of 1; no node waits for it
    command  /bin/sh c.sh
    folder   {here}
    output   not kept: no file is named for it
    error    not kept: no file is named for it
    took     0.000 s
    repair   it was killed; where memory ran out, the kernel's log says so (dmesg)
""")
    # The nodes that are named, in their order.
    same([line.split()[0] for line in why(folder, "C", "D", "fetch").splitlines() if line[:1].strip()], ["C", "D", "fetch"])
    same(why(folder, "D"), "D NOT_READY: waits for fetch (ERROR)\n")
    # A round that goes on from a rescue file, whose error output is another one each time.
    for content, said in (
        (b"", "    its error output is empty"), (None, "    the file of its error output is missing"),
        (b"a" * 70000 + b"\nlast\n", "        last"), (b"b" * 70000, "        [cut] " + "b" * 160 + " [cut]"),
        (b"\xff\n", "        \N{REPLACEMENT CHARACTER}"),
    ):
        if content is None:
            os.unlink(folder.at("fetch.err"))
        else:
            folder.write("fetch.err", content)
        same(last_before_earlier(why(folder, "fetch")), said)
    os.mkdir(folder.at("fetch.err.d"))
    os.unlink(folder.at("fetch.err"))
    os.rename(folder.at("fetch.err.d"), folder.at("fetch.err"))
    same(last_before_earlier(why(folder, "fetch")), "    its error output is no file that can be quoted")
    os.rmdir(folder.at("fetch.err"))
    os.mkfifo(folder.at("fetch.err"))
    same(last_before_earlier(why(folder, "fetch")), "    its error output is no file that can be quoted")


def why_scripts(folder):
    """PRE and POST that fail, and what had failed before a POST."""
    folder.write("x.dag", "JOB A a.sub\nJOB B b.sub\nJOB C c.sub\nJOB E b.sub NOOP\nSCRIPT PRE A pre.sh x\nSCRIPT POST B post.sh $RETURN\nSCRIPT PRE C none.sh\nSCRIPT POST E post.sh 9\n")
    folder.write("pre.sh", "#!/bin/sh\necho looking\necho no disk >&2\nexit 3\n")
    folder.write("post.sh", "#!/bin/sh\nexit $1\n")
    for name in ("pre.sh", "post.sh"):
        os.chmod(folder.at(name), 0o755)
    folder.echo("a", "c")
    folder.write("b.sh", "echo no such table >&2\nexit 5\n")
    folder.write("b.sub", "executable = /bin/sh\narguments = b.sh\nerror = b.err\nqueue\n")
    report = "A ERROR attempts=1 value=3\nB ERROR attempts=1 value=5\nC ERROR attempts=1 value=-1001\nE ERROR attempts=1 value=9\nresult 1\n"
    same(folder.call("run", "x.dag"), (report, "", 1))
    here = os.path.realpath(folder.path)
    text = re.sub(r"    took     \d+\.\d{3} s\n", "", why(folder))
    same(text, f"""A ERROR: its PRE script ended with exit 3, in attempt 1 of 1; no node waits for it
    command  {here}/pre.sh x
    folder   {here}
    output   {here}/x.dag.scripts/A.PRE.0
    error    {here}/x.dag.scripts/A.PRE.0
    last lines of its error output:
        looking
        no disk

B ERROR: its POST script ended with exit 5, in attempt 1 of 1; no node waits for it
    command  {here}/post.sh 5
    folder   {here}
    output   {here}/x.dag.scripts/B.POST.0
    error    {here}/x.dag.scripts/B.POST.0
    its error output is empty
    before that, its job ended with exit 5
    command  /bin/sh b.sh
    folder   {here}
    output   not kept: no file is named for it
    error    {here}/b.err
    last lines of its error output:
        no such table

C ERROR: its PRE script was not started: {here}/none.sh: No such file or directory (os error 2), in attempt 1 of 1; no node waits for it
    command  {here}/none.sh
    folder   {here}
    output   not kept: no file is named for it
    error    not kept: no file is named for it
    repair   there is no such program: put it there, or mend its path: {here}/none.sh

E ERROR: its POST script ended with exit 9, in attempt 1 of 1; no node waits for it
    command  {here}/post.sh 9
    folder   {here}
    output   {here}/x.dag.scripts/E.POST.0
    error    {here}/x.dag.scripts/E.POST.0
    its error output is empty
""")


def what_scripts_print(folder):
    """It is kept where they fail, its last 64 KiB, until the next round begins; what the system refuses is dropped, and so is all where it is
    asked for."""
    folder.write("x.dag", "JOB A a.sub\nJOB a/b a.sub\nSCRIPT PRE A pre.sh\nSCRIPT POST a/b post.sh\nRETRY A 1\n")
    folder.write("pre.sh", "#!/bin/sh\necho kept here\nhead -c 100000 /dev/zero | tr '\\0' x\necho last >&2\nexit 3\n")
    folder.write("post.sh", "#!/bin/sh\necho printed\n[ ! -e fail ]\n")
    for name in ("pre.sh", "post.sh"):
        os.chmod(folder.at(name), 0o755)
    folder.echo("a")
    one_failed = "A ERROR attempts=2 value=3\na/b DONE attempts=1 value=0\nresult 1\n"
    same(folder.call("run", "x.dag"), (one_failed, "", 1))
    same(sorted(os.listdir(folder.at("x.dag.scripts"))), ["A.PRE.0", "A.PRE.1"])
    same(folder.read("x.dag.scripts/A.PRE.1"), b"x" * (65536 - 5) + b"last\n")
    # The next round begins without them; a file of another name stays.
    folder.write("x.dag.scripts/mine", "")
    folder.write("fail", "")
    os.remove(folder.at("x.dag.rescue001"))
    both = "A ERROR attempts=2 value=3\na/b ERROR attempts=1 value=1\nresult 1\n"
    same(folder.call("run", "--script-output", "0", "x.dag"), (both, "", 1))
    same(os.listdir(folder.at("x.dag.scripts")), ["mine"])
    os.remove(folder.at("x.dag.rescue001"))
    same(folder.call("run", "x.dag"), (both, "", 1))
    same(sorted(os.listdir(folder.at("x.dag.scripts"))), ["A.PRE.0", "A.PRE.1", "a%2Fb.POST.0", "mine"])
    same(folder.read("x.dag.scripts/a%2Fb.POST.0"), b"printed\n")
    # Where there can be no such folder the run is as ever.
    shutil.rmtree(folder.at("x.dag.scripts"))
    folder.write("x.dag.scripts", "mine")
    os.remove(folder.at("x.dag.rescue001"))
    same(folder.call("run", "x.dag"), (both, "", 1))
    same(folder.read("x.dag.scripts"), b"mine")
    # One that ends well leaves nothing.
    os.remove(folder.at("x.dag.scripts"))
    os.remove(folder.at("fail"))
    folder.write("y.dag", "JOB A a.sub\nSCRIPT POST A post.sh\n")
    same(folder.call("run", "y.dag"), (ONE_DONE, "", 0))
    same(folder.there("y.dag.scripts"), False)


def why_waiting(folder):
    """Who waits for whom: a diamond and a chain of which some nodes are done from the start, names, and names that are none."""
    folder.write("x.dag", DIAMOND + "JOB E a.sub\nJOB F b.sub\nJOB G c.sub DONE\nJOB H d.sub\nJOB I d.sub\n"
                 "PARENT A CHILD G\nPARENT G CHILD H\nPARENT E F CHILD I\nFINAL Z z.sub\n")
    for name in "abz":
        folder.shell(name, "exit 1\n")
    folder.echo("c", "d")
    report = ("A ERROR attempts=1 value=1\nB NOT_READY attempts=0 value=-\nC NOT_READY attempts=0 value=-\nD NOT_READY attempts=0 value=-\n"
              "E ERROR attempts=1 value=1\nF ERROR attempts=1 value=1\nG DONE attempts=0 value=-\nH DONE attempts=1 value=0\nI NOT_READY attempts=0 value=-\n"
              "Z ERROR attempts=1 value=1\nresult 1\n")
    same(folder.call("run", "x.dag"), (report, "", 1))
    heads = [line for line in why(folder, "--all").splitlines() if line[:1].strip()]
    ended = "ERROR: its job ended with exit 1, in attempt 1 of 1;"
    same(heads, [f"A {ended} 3 nodes wait for it", f"E {ended} 1 node waits for it", f"F {ended} 1 node waits for it", f"Z {ended} no node waits for it"])
    # They have one cause: their jobs ended with 1, and nothing is quoted of their errors.
    text = why(folder).splitlines()
    same((text[0], text[-1], [line for line in text[1:] if line[:1].strip()]), (f"A {ended} 3 nodes wait for it", "    the same of 3 more: E, F, Z", []))
    same(why(folder, "B", "D", "I", "G", "H"), """B NOT_READY: waits for A (ERROR)

D NOT_READY: waits for B (NOT_READY) and C (NOT_READY)
    because of A (ERROR)

I NOT_READY: waits for E (ERROR) and F (ERROR)

G DONE: it was done from the start, by its files or a rescue file

H DONE: its job ended with exit 0, in attempt 1 of 1
""")
    same(folder.call("why", "x.dag", "A", "BB"), ("", "dagrun: x.dag has no node BB; the nearest name is B\n", 125))
    same(folder.call("why", "x.dag", "nothing like it"), ("", "dagrun: x.dag has no node 'nothing like it'\n", 125))


def why_many(folder):
    """A chain, and a node that waits for many."""
    names = [f"n{number:02}" for number in range(40)]
    folder.write("x.dag", "".join(f"JOB {name} a.sub\n" for name in names) + "".join(f"PARENT {a} CHILD {b}\n" for a, b in zip(names, names[1:]))
                 + "JOB wide b.sub\n" + "".join(f"JOB w{number} a.sub\nPARENT w{number} CHILD wide\n" for number in range(10)))
    folder.shell("a", "exit 1\n")
    folder.echo("b")
    same(folder.call("run", "x.dag")[2], 1)
    heads = [line for line in why(folder, "--all").splitlines() if line[:1].strip()]
    same(heads[0], "n00 ERROR: its job ended with exit 1, in attempt 1 of 1; 39 nodes wait for it")
    same([line.split()[0] for line in heads[1:]], [f"w{number}" for number in range(10)])
    text = why(folder).splitlines()
    same((text[0], text[-1]), (heads[0], "    the same of 10 more: w0, w1, w2, w3, w4, w5, w6, w7, w8, w9"))
    same(why(folder, "n39"), "n39 NOT_READY: waits for n38 (NOT_READY)\n    because of n00 (ERROR)\n")
    same(why(folder, "wide"), "wide NOT_READY: waits for " + ", ".join(f"w{number} (ERROR)" for number in range(8)) + " and 2 more\n")


def why_groups(folder):
    """Nodes with one cause are reported once; another phase, outcome, reason or last line is another cause."""
    here = os.path.realpath(folder.path)
    # 26 points of a sweep that fail alike, and 21: just 20 are named. In plan order, since no node waits for any.
    points = [f"p{number:02}" for number in range(26)] + [f"q{number:02}" for number in range(21)]
    others = ["one", "two", "pre", "post", "gone", "away", "lost", "empty", "bare"]
    folder.write("x.dag", "".join(f"JOB {name} {name[0]}.sub\n" for name in points) + "".join(f"JOB {name} {name}.sub\n" for name in others) + "SCRIPT PRE pre s.sh\nSCRIPT POST post s.sh\n")
    for name, script in (("p", "echo $1 >&2; echo no disk >&2; exit 3\n"), ("q", "echo no disk >&2; exit 4\n"), ("one", "echo no disk >&2; exit 3\n"), ("two", "echo no disk. >&2; exit 3\n"),
                         ("empty", "exit 3\n"), ("bare", "exit 3\n")):
        folder.write(f"{name}.sh", script)
        folder.write(f"{name}.sub", f"executable = /bin/sh\narguments = {name}.sh $(JOB)\nerror = e.$(JOB)\nqueue\n")
    folder.write("bare.sub", "executable = /bin/sh\narguments = bare.sh\nqueue\n")
    folder.write("s.sh", "#!/bin/sh\necho no disk\nexit 3\n")
    os.chmod(folder.at("s.sh"), 0o755)
    folder.echo("pre", "post")
    for name, program in (("gone", "none.sh"), ("away", "none.sh"), ("lost", "other.sh")):
        folder.write(f"{name}.sub", f"executable = {program}\nqueue\n")
    same(folder.call("run", "x.dag")[2], 1)
    text = why(folder)
    missing = "No such file or directory (os error 2)"
    at_once = "in attempt 1 of 1; no node waits for it"
    same([line for line in text.splitlines() if line[:1].strip() or line.startswith("    the same")], [
        f"p00 ERROR: its job ended with exit 3, {at_once}",
        "    the same of 26 more: " + ", ".join(points[1:21]) + ", and 6 more",
        f"q00 ERROR: its job ended with exit 4, {at_once}",
        "    the same of 20 more: " + ", ".join(points[27:47]),
        f"two ERROR: its job ended with exit 3, {at_once}",
        f"pre ERROR: its PRE script ended with exit 3, {at_once}",
        f"post ERROR: its POST script ended with exit 3, {at_once}",
        f"gone ERROR: its job was not started: {here}/none.sh: {missing}, {at_once}",
        "    the same of 1 more: away",
        f"lost ERROR: its job was not started: {here}/other.sh: {missing}, {at_once}",
        f"empty ERROR: its job ended with exit 3, {at_once}",
        "    the same of 1 more: bare",
    ])
    # What is reported of the first is what is reported of it by itself, and the line of the others follows it.
    for first in ("p00", "gone", "two"):
        block = why(folder, first)
        same(block in text, True)
        same("the same of" in block, False)
    same(why(folder, "p00") + "    the same of 26 more: " in text, True)
    # Each by itself, and those that are named.
    each = why(folder, "--all")
    heads = [line.split()[0] for line in each.splitlines() if line[:1].strip()]
    same((heads, "the same of" in each), (points + others, False))
    same([line.split()[0] for line in why(folder, "p02", "p01").splitlines() if line[:1].strip()], ["p02", "p01"])


def why_no_round(folder):
    folder.write("x.dag", DIAMOND)
    folder.echo(*"abcd")
    same(why(folder), "no round was begun\nno node is in error\n")
    same(why(folder, "B", "A"), "no round was begun\n\nB NOT_READY: waits for A (READY)\n\nA READY: its job is next, in attempt 1 of 1\n")
    same(folder.call("run", "x.dag"), (ALL_DONE, "", 0))
    same(why(folder), "no node is in error\n")
    # What `status` refuses is refused, but for other files than those with which the round began: it is told by those, where they are kept.
    refused(folder, ["why", "y.dag"], "S1 MissingFile y.dag")
    folder.write("a.sub", "executable = /bin/true\nqueue\n")
    refused(folder, ["status", "x.dag"], "J5 OtherInputs")
    same(why(folder), "no node is in error\n")
    os.remove(folder.at("x.dag.begun"))
    refused(folder, ["why", "x.dag"], "J5 OtherInputs")
    refused(folder, ["report", "x.dag"], "J5 OtherInputs")


def as_the_round_began(folder):
    """Whatever is changed, the last round is shown as it was. Without the option `why`, `graph`, `times` and `report` show it so, too; `status` and `audit` go by
    the files as they are."""
    lines = "JOB A a.sub\nJOB B b.sub\nJOB C c.sub\nPARENT A CHILD B\n"
    folder.write("x.dag", lines)
    folder.write("x.dag.rescue001", "DONE C\n")
    folder.echo("a", "c")
    folder.shell("b", "exit 3\n")
    same(folder.call("run", "x.dag")[2], 1)
    asked = (("status",), ("audit",), ("why",), ("why", "B"), ("graph",), ("times",), ("report",))

    def answers(*words):
        return [folder.call(command, *words, "x.dag", *names) for command, *names in asked]

    before = answers()
    same(before[0], ("A DONE attempts=1 value=0\nB ERROR attempts=1 value=3\nC DONE attempts=0 value=-\n", "", 0))
    same(answers("--as-begun"), before)
    kept = {name: folder.read(name) for name in ("x.dag", "b.sub", "c.sub", "x.dag.rescue001")}
    changes = (
        ("b.sub", "executable = /bin/true\nqueue\n", "J5 OtherInputs"),
        ("c.sub", None, "P1 MissingFile c.sub"),
        ("x.dag", lines + "JOB D a.sub\n", "J5 OtherInputs"),
        ("x.dag", lines.replace("JOB C c.sub\n", ""), None),
        ("x.dag", "JOBB\n", None),
        ("x.dag", None, "S1 MissingFile x.dag"),
        ("x.dag.rescue001", "DONE A\n", "J5 OtherInputs"),
        ("x.dag.rescue001", None, "J5 OtherInputs"),
    )
    for name, text, fault in changes:
        if text is None:
            os.remove(folder.at(name))
        else:
            folder.write(name, text)
        # The audit says of a file that it can read that the journal is of another one.
        found = answers()
        (text, told, status), audit = found[0], found[1][2]
        same((text, told.startswith("dagrun: " + (fault or "")), told.count("\n"), status, audit in (1, 125)), ("", True, 1, 125, True))
        same(found[2:], before[2:])
        same(answers("--as-begun"), before)
        folder.write(name, kept[name])
    same(answers(), before)


def not_known_how_the_round_began(folder):
    """With the option it is refused, with the file that doesn't say it, or since that is of another round. Without it the files as they are are shown; but a file
    that begins as that of this round, and was changed, is refused."""
    folder.write("x.dag", "JOB A a.sub\n")
    folder.echo("a")
    shown = ("why", "graph", "times", "report")

    def are_refused(fault, commands=("status", "audit", *shown), words=("--as-begun",)):
        for command in commands:
            refused(folder, [command, *words, "x.dag"], fault)

    def answers():
        return [folder.call(command, "x.dag") for command in ("status", "audit", *shown)]

    are_refused("X2 FileRefused x.dag.journal")
    same(folder.call("run", "x.dag")[2], 0)
    before = answers()
    same([status for _, _, status in before], [0] * 6)
    first = folder.read("x.dag.begun")
    for text in (b"", b"#", b"# dagrun begun, digest \n", b"\0" + first, first.replace(b"# dagrun begun", b"# dagrun  begun")):
        folder.write("x.dag.begun", text)
        are_refused("X2 FileRefused x.dag.begun")
        same(answers(), before)
    for text in (first.replace(b"JOB A", b"JOB  A"), first[:-1], first + b"\n", first.splitlines(keepends=True)[0]):
        folder.write("x.dag.begun", text)
        are_refused("X2 FileRefused x.dag.begun")
        are_refused("X2 FileRefused x.dag.begun", shown, ())
        same(answers()[:2], before[:2])
    os.remove(folder.at("x.dag.begun"))
    are_refused("X2 FileRefused x.dag.begun")
    same(answers(), before)
    os.mkdir(folder.at("x.dag.begun"))
    are_refused("X2 FileRefused x.dag.begun")
    same(answers(), before)
    os.rmdir(folder.at("x.dag.begun"))
    folder.write("x.dag", "JOB B a.sub\n")
    same(folder.call("run", "x.dag")[2], 0)
    same(folder.call("status", "--as-begun", "x.dag"), ("B DONE attempts=1 value=0\n", "", 0))
    before = answers()
    folder.write("x.dag.begun", first)
    are_refused("J5 OtherInputs")
    same(answers(), before)
    # No journal with a header.
    folder.write("x.dag.journal", folder.read("x.dag.journal")[:39])
    are_refused("X2 FileRefused x.dag.journal")
    refused(folder, ["why", "x.dag"], "J3 NotAJournal")


def why_by_the_journal(folder):
    """Without a log, and with one that says other things or nothing that can be read."""
    folder.write("x.dag", "JOB A a.sub\nRETRY A 1\n")
    folder.write("a.sub", "executable = /bin/sh\narguments = a.sh $(RETRY)\nerror = a.err\nqueue\n")
    folder.write("a.sh", "echo attempt $1 >&2\nexit 7\n")
    same(folder.call("run", "x.dag")[2], 1)
    here = os.path.realpath(folder.path)
    bare = f"""A ERROR: its job ended with exit 7, in attempt 2 of 2; no node waits for it
    command  /bin/sh a.sh 1
    folder   {here}
    output   not kept: no file is named for it
    error    {here}/a.err
    last lines of its error output:
        attempt 1
"""
    log = folder.read("x.dag.log")
    os.unlink(folder.at("x.dag.log"))
    same(why(folder), bare)
    os.mkdir(folder.at("x.dag.log"))
    same(why(folder), bare)
    os.rmdir(folder.at("x.dag.log"))
    end = b"2026-01-01T00:00:00.000Z\tend\tA\tJOB\t1\t77\t"
    for hostile in (b"", b"\n\n\0\xff\t\t\n", end + b"exit=3\tseconds=9.999\n", end + b"exit=7\tseconds=9.999", b"x\tlife\t-\n", log[: len(log) // 9]):
        folder.write("x.dag.log", hostile)
        same(why(folder), bare)
    # Lines and events that are none are passed over.
    folder.write("x.dag.log", log + b"\xff\n2027\tdance\tA\tJOB\t1\t5\tseconds=1\nend\tA\n" + end.replace(b"JOB\t1", b"JOB\t0") + b"exit=7\tseconds=8.888\n" + end)
    text = why(folder)
    # An attempt that a forged line ends once more is listed twice.
    earlier = "    earlier  attempt 1: its job ended with exit 7 after 0.000 s\n"
    text = re.sub(r"after \d+\.\d{3} s", "after 0.000 s", text)
    same((re.sub(r"    took     \d+\.\d{3} s\n", "", text), len(lines_of(text, "took"))), (bare + earlier + "        attempt 0\n" + earlier, 1))
    # An ending that the journal has and the log has not: its child was started, and no more is known.
    folder.write("x.dag.log", end + b"exit=7\tseconds=1.5\x1b[2J\n")
    same(lines_of(why(folder), "took"), ["1.5\\x1b[2J s"])


def why_while_it_runs(folder):
    folder.write("x.dag", "JOB A a.sub\nJOB B b.sub\nPARENT A CHILD B\n")
    folder.shell("a", ": > begun\nwhile [ ! -e go ]; do sleep 0.02; done\n")
    folder.echo("b")
    manager = folder.start("run", "x.dag")
    folder.wait_for("begun")
    folder.wait_for_start("x.dag", "A")
    text = why(folder, "A", "B")
    here = os.path.realpath(folder.path)
    found = re.fullmatch(rf"A SUBMITTED: its job runs, in attempt 1 of 1, since (\S+Z), as process (\d+)\n    command  /bin/sh a.sh\n    folder   {here}\n"
                         r"    output   not kept: no file is named for it\n    error    not kept: no file is named for it\n\nB NOT_READY: waits for A \(runs\)\n", text)
    if not found:
        raise AssertionError(f"found\n{text}")
    same(runs_still(int(found[2])), True)
    same(why(folder), "no node is in error\n")
    folder.write("go", "")
    same((manager.communicate(timeout=PATIENCE)[0].decode(), manager.returncode), ("A DONE attempts=1 value=0\nB DONE attempts=1 value=0\nresult 0\n", 0))


def why_behind_a_kill(folder):
    """A manager was killed: what runs is told by the journal and the log, and that it runs no more by the system."""
    folder.shell("a", "if [ -e again ]; then exit 0; fi\necho $$ > process\nmv process begun\nexec sleep 1000\n")
    folder.write("x.dag", "JOB A a.sub\n")
    manager = folder.start("run", "x.dag")
    folder.wait_for("begun")
    folder.wait_for_start("x.dag", "A")
    manager.kill()
    manager.wait(timeout=PATIENCE)
    manager.stdout.close()
    manager.stderr.close()
    process = int(folder.read("begun"))
    folder.write("again", "")
    head = why(folder, "A").splitlines()[0]
    same(head.endswith(f", as process {process}"), True)
    os.kill(process, signal.SIGKILL)
    wait_until(lambda: not os.path.exists(f"/proc/{process}"), f"{process} is there")
    gone = f"    process  {process} is not there any more: its manager has not told how it ended; where none works, dagrun run goes on with the round"
    same(why(folder, "A").splitlines()[1], gone)
    same(folder.call("run", "x.dag"), ("A DONE attempts=1 value=0\nresult 0\n", "", 0))


def why_aborted(folder):
    folder.write("x.dag", "JOB A a.sub\nJOB B b.sub\nJOB C b.sub\nPARENT B CHILD C\nABORT-DAG-ON A 7\nRETRY A 3\n")
    folder.shell("a", "while [ ! -e b ]; do sleep 0.02; done; exit 7\n")
    folder.shell("b", ": > b; exec sleep 1000\n")
    same(folder.call("run", "x.dag")[2], 7)
    lines = why(folder).splitlines()
    same(lines[:4], ["the round was aborted by A, whose value is that of its ABORT-DAG-ON line", "",
                     "A ERROR: its job ended with exit 7, in attempt 1 of 4; no node waits for it",
                     "    aborted  the round: 7 is the value of its ABORT-DAG-ON line"])
    same(why(folder, "B").splitlines()[2:], ["B READY: its job is next, in attempt 1 of 1; the round was aborted, so it does not start"])
    same(why(folder, "C").splitlines()[2:], ["C NOT_READY: waits for B (READY)"])


def in_another_folder(folder):
    """The files beside a DAG file stand in its folder, submit files and jobs in the folder of the call."""
    os.mkdir(folder.at("dags"))
    folder.write("dags/x.dag", "JOB A a.sub\n")
    folder.echo("a")
    same(folder.call("run", "dags/x.dag"), ("A DONE attempts=1 value=0\nresult 0\n", "", 0))
    same(sorted(os.listdir(folder.path)), ["a.out", "a.sub", "dags"])
    same(sorted(os.listdir(folder.at("dags"))), ["x.dag", "x.dag.begun", "x.dag.inputs", "x.dag.journal", "x.dag.log"])


def the_example(folder):
    """examples/flow as the README and the manual show it."""
    top = os.path.dirname(os.path.dirname(os.path.abspath(__file__)))
    ours = [name for name in os.listdir(os.path.join(top, "examples/flow")) if name.endswith((".dag", ".sub", ".sh"))]
    os.makedirs(folder.at("examples/flow"))
    for name in ours:
        shutil.copy(os.path.join(top, "examples/flow", name), folder.at("examples/flow"))
    same(folder.call("check", "examples/flow/flow.dag"), ("ok nodes=4 edges=4 final=no\n", "", 0))
    report = "numbers DONE attempts=1 value=0\nsquares DONE attempts=1 value=0\ncubes ERROR attempts=1 value=3\ntable NOT_READY attempts=0 value=-\nresult 1\n"
    same(folder.call("run", "examples/flow/flow.dag"), (report, "", 1))
    report = "numbers DONE attempts=0 value=-\nsquares DONE attempts=0 value=-\ncubes DONE attempts=1 value=0\ntable DONE attempts=1 value=0\nresult 0\n"
    same(folder.call("run", "examples/flow/flow.dag"), (report, "", 0))
    same(folder.read("examples/flow/table.txt"), b"1\t1\t1\n2\t4\t8\n3\t9\t27\n4\t16\t64\n5\t25\t125\n")


def three_rounds(folder):
    """Three rounds of a diamond whose C ends with 3, then 4, then 0."""
    folder.write("x.dag", DIAMOND)
    folder.echo(*"abd")
    folder.shell("c", "echo ran >> c.ran\nread code < code\nexit $code\n")
    for code, done, report in (
        (3, "attempts=1 value=0", "C ERROR attempts=1 value=3\nD NOT_READY attempts=0 value=-\nresult 1\n"),
        (4, "attempts=0 value=-", "C ERROR attempts=1 value=4\nD NOT_READY attempts=0 value=-\nresult 1\n"),
        (0, "attempts=0 value=-", "C DONE attempts=1 value=0\nD DONE attempts=1 value=0\nresult 0\n"),
    ):
        folder.write("code", f"{code}\n")
        same(folder.call("run", "x.dag"), (f"A DONE {done}\nB DONE {done}\n{report}", "", 1 if code else 0))
        yield code


RESCUE_OF_TWO = b"# Rescue DAG file\n# Total number of Nodes: 4\n# Nodes premarked DONE: 2\n\nDONE A\nDONE B\n"


def rescues(folder):
    """The rescue files of x.dag by their numbers, and what stands in each."""
    return {name[len("x.dag.rescue") :]: folder.read(name) for name in os.listdir(folder.path) if name.startswith("x.dag.rescue")}


def everything(folder):
    """The files of a folder, but for the log of the round, which has times, and the names of the processes that were started."""
    names = [name for name in os.listdir(folder.path) if ".dag.log" not in name and not name.endswith(".children")]
    return {name: folder.read(name) for name in names if os.path.isfile(folder.at(name))}


def back_to_the_first_round(folder):
    for code in three_rounds(folder):
        same(rescues(folder), {3: {"001": RESCUE_OF_TWO}, 4: {"001": RESCUE_OF_TWO, "002": RESCUE_OF_TWO}, 0: {"001": RESCUE_OF_TWO, "002": RESCUE_OF_TWO}}[code])
        if code == 3:
            for name in ("a.out", "b.out"):
                os.remove(folder.at(name))
    os.remove(folder.at("d.out"))
    # The second file is told from a new one by a comment.
    folder.write("x.dag.rescue002", b"# the second\n" + RESCUE_OF_TWO)
    folder.write("x.dag.rescue002.old", b"an older one\n")
    before = everything(folder)
    for number in (7, 0, 3, 1000, 65535):
        refused(folder, ("run", "--dorescuefrom", str(number), "x.dag"), f"E4 NotThere {number}")
        same(everything(folder), before)
    folder.write("code", "5\n")
    folder.write("c.ran", "")
    report = "A DONE attempts=0 value=-\nB DONE attempts=0 value=-\nC ERROR attempts=1 value=5\nD NOT_READY attempts=0 value=-\n"
    # The option passes --autorescue over.
    same(folder.call("run", "--autorescue=0", "--dorescuefrom", "1", "x.dag"), (report + "result 1\n", "", 1))
    same(rescues(folder), {"001": RESCUE_OF_TWO, "002": RESCUE_OF_TWO, "002.old": b"# the second\n" + RESCUE_OF_TWO})
    same(folder.read("c.ran"), b"ran\n")
    same([folder.there(f"{name}.out") for name in "abd"], [False] * 3)
    same(folder.read("x.dag.journal.old"), before["x.dag.journal"])
    same(folder.read("x.dag.journal")[4:8], b"\0\1\0\2")
    audited(folder, report + "audit ok")


def rescue_numbers_with_gaps(folder):
    """Rescue files 001, 003 and 999, and older ones with .old behind their names, which count for nothing."""
    folder.write("x.dag", DIAMOND)
    folder.echo(*"abd")
    folder.shell("c", "exit 3\n")
    texts = {number: f"# {number}\nDONE A\nDONE B\n".encode() for number in ("001", "003", "999")}
    report = "A DONE attempts=0 value=-\nB DONE attempts=0 value=-\nC ERROR attempts=1 value=3\nD NOT_READY attempts=0 value=-\nresult 1\n"

    def begun_from(number):
        for name in os.listdir(folder.path):
            if name.startswith(("x.dag.rescue", "x.dag.journal")):
                os.remove(folder.at(name))
        for name, text in texts.items():
            folder.write(f"x.dag.rescue{name}", text)
        same(folder.call("run", "x.dag", f"--dorescuefrom={number}"), (report, "", 1))
        return rescues(folder)

    same(begun_from(1), {"001": texts["001"], "002": RESCUE_OF_TWO, "003.old": texts["003"], "999.old": texts["999"]})
    same(begun_from(3), {"001": texts["001"], "003": texts["003"], "004": RESCUE_OF_TWO, "999.old": texts["999"]})
    # 999 is read, and written again.
    same(begun_from(999), {"001": texts["001"], "003": texts["003"], "999": RESCUE_OF_TWO})
    same(folder.read("x.dag.journal")[4:8], b"\3\xe7\3\xe7")
    for name in list(rescues(folder)):
        os.rename(folder.at(f"x.dag.rescue{name}"), folder.at(f"x.dag.rescue{name}.old"))
    folder.call("run", "x.dag")
    same(folder.read("x.dag.journal")[4:8], b"\0\0\0\1")


def the_last_rescue_number(folder):
    """A round that reads the rescue file of number 999 writes it again, and so does the next one."""
    folder.write("x.dag", DIAMOND)
    folder.echo(*"abd")
    folder.shell("c", "exit 3\n")
    folder.write("x.dag.rescue998", "DONE A\nDONE B\nDONE C\n")
    folder.write("x.dag.rescue999", "DONE A\n")
    end = "C ERROR attempts=1 value=3\nD NOT_READY attempts=0 value=-\nresult 1\n"
    for b in ("attempts=1 value=0", "attempts=0 value=-", "attempts=0 value=-"):
        same(folder.call("run", "x.dag"), (f"A DONE attempts=0 value=-\nB DONE {b}\n{end}", "", 1))
        same(folder.read("x.dag.journal")[4:8], b"\3\xe7\3\xe7")
        same(rescues(folder), {"998": b"DONE A\nDONE B\nDONE C\n", "999": RESCUE_OF_TWO})


def names_that_are_no_text(folder):
    """A name beside the DAG file that is no UTF-8 is nobody's, whatever it begins with."""
    folder.write("x.dag", DIAMOND)
    folder.echo(*"abd")
    folder.shell("c", "exit 3\n")
    odd = [b"\xff", b"x.dag.rescue00\xff", b"x.dag.rescue007\xff", b"x.dag.rescue\xc3\xb1\xc3"]
    for name in odd:
        with open(os.path.join(folder.path.encode(), name), "wb") as file:
            file.write(b"DONE Q\n")
    os.mkdir(os.path.join(folder.path.encode(), b"x.dag.rescue005\xfe"))
    begun = ("A DONE attempts=1 value=0\nB DONE attempts=1 value=0\n", "A DONE attempts=0 value=-\nB DONE attempts=0 value=-\n")
    end = "C ERROR attempts=1 value=3\nD NOT_READY attempts=0 value=-\n"
    for options, done in (((), begun[0]), ((), begun[1]), (("--dorescuefrom", "1"), begun[1])):
        same(folder.call("run", *options, "x.dag"), (f"{done}{end}result 1\n", "", 1))
        same(folder.call("status", "x.dag"), (done + end, "", 0))
    numbers = sorted(name for name in os.listdir(folder.path.encode()) if name.startswith(b"x.dag.rescue"))
    same(numbers, sorted([b"x.dag.rescue001", b"x.dag.rescue002", b"x.dag.rescue002.old", b"x.dag.rescue005\xfe", *odd[1:]]))
    for name in odd:
        with open(os.path.join(folder.path.encode(), name), "rb") as file:
            same(file.read(), b"DONE Q\n")


def refusals_of_going_back(folder):
    """Each cause stands before those that come later, and changes nothing."""
    for _ in three_rounds(folder):
        pass
    journal = folder.read("x.dag.journal")

    def is_refused(number, line):
        before = everything(folder)
        refused(folder, ("run", "--dorescuefrom", str(number), "x.dag"), line)
        same(everything(folder), before)

    # A fault of the rescue file that is read; the lock, which another process holds.
    folder.write("x.dag.rescue001", "DONE A\nDONE Q\n")
    is_refused(1, "E2 UnknownNode x.dag.rescue001:2")
    folder.write("x.dag.rescue001", RESCUE_OF_TWO)
    with open(folder.at("x.dag.lock"), "w") as lock:
        fcntl.flock(lock, fcntl.LOCK_EX)
        is_refused(1, "X2 FileRefused x.dag.lock")
        os.remove(folder.at("x.dag.lock"))
    os.rename(folder.at("d.sub"), folder.at("d.away"))
    is_refused(1, "P1 MissingFile d.sub")
    # A run that has not ended, even where its header has a number that no rescue file has.
    folder.cut_journal(2)
    is_refused(1, "E6 Unfinished")
    folder.write("x.dag.journal", journal[:4] + b"\x03\xe8\0\0" + folder.read("x.dag.journal")[8:])
    is_refused(1, "E6 Unfinished")
    folder.write("x.dag.journal", b"a" * 66)
    is_refused(1, "J3 NotAJournal")
    is_refused(3, "E4 NotThere 3")
    folder.write("x.dag", DIAMOND + "PARENT D CHILD A\n")
    is_refused(3, "G1 Cycle A B D")
    folder.write("x.dag", DIAMOND)
    os.rename(folder.at("d.away"), folder.at("d.sub"))
    # Without a journal, and with one in which nothing stands yet, a round begins.
    folder.write("x.dag.journal", b"J")
    same(folder.call("run", "--dorescuefrom", "1", "x.dag")[1:], ("", 0))
    same(sorted(rescues(folder)), ["001", "002.old"])
    # Nothing is to be seen of a call that is refused in a folder where no run was.
    for name in ("x.dag.journal", "x.dag.journal.old"):
        os.remove(folder.at(name))
    is_refused(2, "E4 NotThere 2")
    same(folder.there("x.dag.lock"), False)


def folders_in_the_place_of_rescue_files(folder):
    for _ in three_rounds(folder):
        pass
    os.remove(folder.at("x.dag.rescue002"))
    os.mkdir(folder.at("x.dag.rescue002"))
    # It is there, and can't be read.
    before = everything(folder)
    refused(folder, ("run", "--dorescuefrom", "2", "x.dag"), "X2 FileRefused x.dag.rescue002")
    same(everything(folder), before)
    # A file can't be replaced by a folder; those of higher numbers have their other names by then, and the same call goes on.
    folder.write("x.dag.rescue003", RESCUE_OF_TWO)
    folder.write("x.dag.rescue002.old", "")
    refused(folder, ("run", "--dorescuefrom", "1", "x.dag"), "X2 FileRefused x.dag.rescue002")
    same(sorted(name for name in os.listdir(folder.path) if "rescue" in name), ["x.dag.rescue001", "x.dag.rescue002", "x.dag.rescue002.old", "x.dag.rescue003.old"])
    same(folder.read("x.dag.journal"), before["x.dag.journal"])
    os.remove(folder.at("x.dag.rescue002.old"))
    same(folder.call("run", "--dorescuefrom", "1", "x.dag")[1:], ("", 0))
    same(sorted(name for name in os.listdir(folder.path) if "rescue" in name), ["x.dag.rescue001", "x.dag.rescue002.old", "x.dag.rescue003.old"])
    same(os.path.isdir(folder.at("x.dag.rescue002.old")), True)


def a_folder_that_may_not_be_written(folder):
    """No name in it may be changed: nothing is, and once it may be written the same call goes on."""
    for _ in three_rounds(folder):
        pass
    program = folder.at("program")
    shutil.copy(folder.program, program)
    # As a manager left it that was killed.
    folder.write("x.dag.lock", "")
    as_another = {}
    if os.getuid() == 0:
        # The superuser may write anywhere.
        nobody = 65534
        for name in os.listdir(folder.path):
            os.chown(folder.at(name), nobody, nobody)
        os.chown(folder.path, nobody, nobody)
        as_another = {"user": nobody, "group": nobody, "extra_groups": []}

    def call():
        words = [program, "run", "--dorescuefrom", "1", "x.dag"]
        done = subprocess.run(words, cwd=folder.path, capture_output=True, timeout=PATIENCE, **as_another)
        return done.stderr.decode(), done.returncode

    before = everything(folder)
    os.chmod(folder.path, 0o555)
    try:
        same(call(), ("dagrun: X2 FileRefused x.dag.rescue002\n", 125))
        same(everything(folder), before)
        # Nor may a file be made in it: the lock is the first.
        os.chmod(folder.path, 0o755)
        os.remove(folder.at("x.dag.lock"))
        os.chmod(folder.path, 0o555)
        same(call(), ("dagrun: X2 FileRefused x.dag.lock\n", 125))
    finally:
        os.chmod(folder.path, 0o755)
    same(call(), ("", 0))
    same(sorted(rescues(folder)), ["001", "002.old"])


def cut_short_while_going_back(folder):
    """A run is killed, or its call fails, as it renames a file or syncs the folder before the round begins; the same call goes on."""
    for _ in three_rounds(folder):
        pass
    for number in ("002", "003", "004"):
        folder.write(f"x.dag.rescue{number}", RESCUE_OF_TWO + f"# {number}\n".encode())
    folder.write("code", "5\n")
    words = ["run", "--dorescuefrom", "1", "x.dag"]

    def tried(fault):
        with tempfile.TemporaryDirectory() as path:
            copy = Folder(folder.program, os.path.join(path, "copy"))
            shutil.copytree(folder.path, copy.path)
            tracing = ["strace", "-qqq", "-e", "trace=rename,fsync", "-e", "signal=none", "-o", os.path.join(path, "calls"), *fault]
            done = subprocess.run([*tracing, copy.program, *words], cwd=copy.path, capture_output=True, timeout=PATIENCE)
            calls = [line for line in open(os.path.join(path, "calls")).read().splitlines() if not any(name in line for name in (".dag.log", ".dag.inputs", ".dag.begun", ".dag.round"))]
            cut = (done.stdout.decode(), done.stderr.decode(), done.returncode)
            between = everything(copy)
            if fault and done.returncode not in (0, 1):
                cut = copy.call(*words)
            return done, cut, calls, between, everything(copy)

    _, wanted, calls, _, ends = tried([])
    same(wanted[2], 1)
    renamed = [number for number, line in enumerate(calls) if line.startswith("rename")]
    # Three rescue files, the highest first, the sync of the folder, and the journal; at the end the round's own rescue file.
    same([calls[number].split('"')[1][-3:] for number in renamed], ["004", "003", "002", "nal", "new"])
    same(renamed[:4], [renamed[0], renamed[0] + 1, renamed[0] + 2, renamed[0] + 4])
    numbers = ["002", "003", "004"]
    old = {number: folder.read(f"x.dag.rescue{number}") for number in numbers}
    syncs = sum(line.startswith("fsync") for line in calls[: renamed[0]])
    for call, count in (("rename", 4), ("fsync", 2)):
        for number in range(1, count + 1):
            # What the round begins with is written and renamed behind all of these.
            place = number + (syncs if call == "fsync" else 0)
            for how in ("signal=SIGKILL", "error=EIO", "error=ENOSPC"):
                done, answer, _, between, found = tried(["-e", f"inject={call}:{how}:when={place}"])
                if how.startswith("error"):
                    same((done.stdout, done.returncode), (b"", 125))
                    same(re.fullmatch(r"dagrun: X2 FileRefused [^\n]+\n", done.stderr.decode()) is not None, True)
                else:
                    same(done.returncode != 1, True)
                # At any moment each of them stands under one of its two names, and those of lower numbers have kept theirs.
                put_away = [f"x.dag.rescue{it}.old" in between for it in numbers]
                same(put_away, sorted(put_away))
                for it, away in zip(numbers, put_away):
                    same(between.get(f"x.dag.rescue{it}.old" if away else f"x.dag.rescue{it}"), old[it])
                    same(f"x.dag.rescue{it}" in between, not away)
                same((answer, found), (wanted, ends))


def the_order_of_the_disk(folder):
    """A launch is synced before its child starts, an end before a child of its node starts, a rescue file before Finish."""
    folder.write("x.dag", "JOB A a.sub\nJOB B b.sub\nPARENT A CHILD B\n")
    folder.write("a.sub", "executable = /bin/true\nqueue\n")
    folder.write("b.sub", "executable = /bin/false\nqueue\n")
    names = "openat,pwrite64,fsync,fdatasync,execve,ftruncate,rename"
    subprocess.run(["strace", "-f", "-y", "-e", f"trace={names}", "-e", "signal=none", "-o", "calls", folder.program, "run", "x.dag"], cwd=folder.path, capture_output=True, timeout=PATIENCE)
    seen = []
    for line in folder.read("calls").decode(errors="replace").splitlines():
        if "resumed>" in line and "execve" not in line:
            continue
        if match := re.search(r"pwrite64\(\d+<[^>]*x\.dag\.journal>, \"O\", 1, (\d+)\)", line):
            seen.append(f"gate {(int(match[1]) - HEADER) // SLOT}")
        elif re.search(r"(fsync|fdatasync)\(\d+<[^>]*x\.dag\.journal>", line):
            seen.append("journal")
        elif re.search(r"(fsync|fdatasync)\(\d+<[^>]*x\.dag\.rescue001\.new>", line):
            seen.append("rescue")
        elif re.search(r'rename\("[^"]*x\.dag\.rescue001\.new", "[^"]*x\.dag\.rescue001"\)', line):
            seen.append("named")
        elif re.search(rf"(fsync|fdatasync)\(\d+<{re.escape(os.path.realpath(folder.path))}>", line):
            seen.append("folder")
        elif match := re.search(r'execve\("/bin/(true|false)"', line):
            seen.append(match[1])
    order = [what for at, what in enumerate(seen) if what.split()[0] in ("gate", "true", "false", "rescue", "named") or (what == "journal" and seen[at - 1].startswith("gate")) or (what == "folder" and "rescue" in seen[:at])]
    wanted = []
    # Life, the launch of A, A's child, its end, the launch of B, B's child, its end, the rescue file, its name, Finish.
    for what in ("gate 0", "gate 1", "true", "gate 2", "gate 3", "false", "gate 4", "rescue", "named", "folder", "gate 5"):
        wanted += [what, "journal"] if what.startswith("gate") else [what]
    same(order, wanted)


def names_are_synced(folder):
    """Behind each name that is changed the folder is synced, before anything else is written or started; the names of the log and of the round's identifier are no promise."""
    for _ in three_rounds(folder):
        pass
    folder.write("code", "5\n")
    names = "pwrite64,fsync,fdatasync,execve,ftruncate,rename,unlink"
    round_of = ["begun.new begun", "inputs.new inputs", "journal journal.old"]
    for words, wanted in (
        (("run", "--dorescuefrom", "1", "x.dag"), ["rescue002 rescue002.old", *round_of, "rescue002.new rescue002"]),
        (("run", "x.dag"), [*round_of, "rescue003.new rescue003"]),
        (("run", "--autorescue=0", "x.dag"), [*round_of, "rescue004.new rescue004"]),
    ):
        subprocess.run(["strace", "-y", "-e", f"trace={names}", "-e", "signal=none", "-o", "calls", folder.program, *words], cwd=folder.path, capture_output=True, timeout=PATIENCE)
        calls = [line for line in folder.read("calls").decode(errors="replace").splitlines() if "x.dag.log" not in line and "x.dag.round" not in line]
        seen = []
        for line, behind in zip(calls, calls[1:]):
            if match := re.match(r'rename\("[^"]*/x\.dag\.([^"]*)", "[^"]*/x\.dag\.([^"]*)"\) += 0', line):
                seen.append(f"{match[1]} {match[2]}")
                synced = rf"(fsync|fdatasync)\(\d+<{re.escape(os.path.realpath(folder.path))}>\) += 0"
                same((seen[-1], re.match(synced, behind) is not None), (seen[-1], True))
        same(sorted(seen), sorted(wanted))


def outputs_are_synced(folder):
    """What dagrun opened for a job's output and errors is on the disk, with its name where it was made, before the job's end is recorded."""
    folder.write("x.dag", "JOB A a.sub\nJOB B b.sub\nJOB C c.sub\nPARENT A CHILD B\nPARENT B CHILD C\n")
    for name, streams in (("a", "output = a.out\nerror = a.err\n"), ("b", "output = b.out\nerror = b.out\n"), ("c", "output = pipe\nerror = /dev/null\n")):
        folder.write(name + ".sub", f"executable = /bin/echo\narguments = {name}\n{streams}queue\n")
    folder.write("b.out", "of another round\n")
    os.mkfifo(folder.at("pipe"))
    names = {"a.out": "a.out", "a.err": "a.err", "b.out": "b.out", "pipe": "pipe", "null": "null", os.path.basename(os.path.realpath(folder.path)): "folder"}
    for words, wanted in (
        (("run", "x.dag"), ["a.out", "a.err", "folder", "end 0", "b.out", "end 1", "end 2"]),
        (("run", "--autorescue", "0", "--sync-output", "0", "x.dag"), ["end 0", "end 1", "end 2"]),
    ):
        # It is open for reading before the run begins, and holds what C writes.
        reader = os.open(folder.at("pipe"), os.O_RDONLY | os.O_NONBLOCK)
        subprocess.run(["strace", "-y", "-e", "trace=pwrite64,fsync,fdatasync", "-e", "signal=none", "-o", "calls", folder.program, *words], cwd=folder.path, capture_output=True, timeout=PATIENCE)
        os.close(reader)
        seen, ends = [], 0
        for line in folder.read("calls").decode(errors="replace").splitlines():
            if re.search(r'pwrite64\(\d+<[^>]*x\.dag\.journal>, "\\3', line):
                seen.append(f"end {ends}")
                ends += 1
            elif match := re.search(r"fsync\(\d+<[^>]*/([^/>]+)>", line):
                seen.append(names.get(match[1], "other"))
        # The folder is synced once more as the round begins.
        first = seen.index("a.out") if "a.out" in seen else seen.index("end 0")
        same([what for what in seen[first:] if what != "other"], wanted)


def outputs_of_endings_together(folder):
    """Endings that are seen together are recorded in one batch; before that each file of the outputs is synced once, and then each folder once."""
    folder.write("x.dag", "JOB A a.sub\nJOB B a.sub\nJOB C c.sub\nVARS A name=\"a\"\nVARS B name=\"b\"\n")
    # A and B wait until C has stopped the manager, which goes on once all three have ended: nobody has asked for their ends then. It is stopped once
    # the signal is no longer pending: a look at the children that is under way until then sees only those that have ended so far.
    folder.write("a.sh", "echo $$ > $1.new\nmv $1.new $1.process\nuntil [ -e stopped ]; do sleep 0.01; done\n")
    folder.write("c.sh", """
until [ -e a.process ] && [ -e b.process ]; do sleep 0.01; done
kill -STOP $PPID
while grep -q '^ShdPnd:.*[4-7c-f].\\{4\\}$' /proc/$PPID/status; do sleep 0.01; done
: > stopped
(
    for process in $(cat a.process b.process) $$; do while grep -q '^State:.[^Z]' /proc/$process/status; do sleep 0.01; done; done
    kill -CONT $PPID
) > /dev/null 2>&1 &
""")
    folder.write("a.sub", "executable = /bin/sh\narguments = a.sh $(name)\noutput = $(name).out\nerror = $(name).err\nqueue\n")
    folder.write("c.sub", "executable = /bin/sh\narguments = c.sh\noutput = c.out\nerror = c.out\nqueue\n")
    words = ["strace", "-qqq", "-y", "-o", "calls", "-e", "trace=pwrite64,fsync", "-e", "signal=none", folder.program, "run", "x.dag"]
    wanted = ["a.out", "a.err", "b.out", "b.err", "c.out", "folder", "three"]
    # The manager may be stopped within a look at its children, so that this look sees some of the endings, and the next one the others.
    for _ in range(30):
        # The outputs, too: the folder is synced for new names alone.
        for name in ("a.process", "b.process", "stopped", *wanted[:5]):
            with contextlib.suppress(FileNotFoundError):
                os.remove(folder.at(name))
        same(subprocess.run(words, cwd=folder.path, capture_output=True, timeout=PATIENCE).returncode, 0)
        seen = calls_of_batches(folder)
        if seen == wanted:
            break
    same(seen, wanted)
    # Life, three launches and three ends, each behind one gate, Finish.
    places, batches = slots_in(folder.read("x.dag.journal"))
    same((len(places), batches), (8, 2))


def calls_of_batches(folder):
    """What was synced from the first output on, and when a batch of three records was written, as strace saw it."""
    last = os.path.basename(os.path.realpath(folder.path))
    seen = []
    for line in folder.read("calls").decode(errors="replace").splitlines():
        if re.search(r'pwrite64\(\d+<[^>]*x\.dag\.journal>, "\\5\\0\\3', line):
            seen.append("three")
        elif match := re.search(r"fsync\(\d+<[^>]*/([^/>]+)>", line):
            seen.append("folder" if match[1] == last else match[1])
    # The folder is synced as the round begins, too, and the launches are a batch of three.
    return seen[seen.index("a.out"):] if "a.out" in seen else seen


def outputs_that_are_refused(folder):
    """A file that can't be brought to the disk has one line in the log, and so has one whose folder can't; the run goes on."""
    for name, wanted in (("a.out", ["a.out"]), (".", ["a.out", "a.err"])):
        folder.write("x.dag", "JOB A a.sub\n")
        folder.write("a.sub", "executable = /bin/true\noutput = out/a.out\nerror = out/a.err\nqueue\n")
        shutil.rmtree(folder.at("out"), ignore_errors=True)
        os.mkdir(folder.at("out"))
        path = os.path.normpath(folder.at(os.path.join("out", name)))
        words = ["strace", "-qqq", "-o", "calls", "-P", path, "-e", "trace=fsync", "-e", "signal=none", "-e", "inject=fsync:error=EIO", folder.program, "run", "x.dag"]
        same(subprocess.run(words, cwd=folder.path, capture_output=True, timeout=PATIENCE).returncode, 0)
        lines = [line for line in fields_of(folder, "x.dag.log") if line[0] in ("end", "unsynced")]
        same([line[0] for line in lines], ["end"] + ["unsynced"] * len(wanted))
        same([line[4]["path"] for line in lines[1:]], [folder.at("out/" + one) for one in wanted])
        os.remove(folder.at("x.dag.journal"))


def sums_of(folder, *names):
    """The lines that `sha256sum` writes of these files."""
    return "".join(f"{hashlib.sha256(folder.read(name)).hexdigest()}  {name}\n" for name in names)


def checked(folder, name="x.dag.inputs"):
    """What `sha256sum -c` says of the files that a round was begun with, and its status."""
    done = subprocess.run(["sha256sum", "-c", name], cwd=folder.path, capture_output=True, timeout=PATIENCE, env={**os.environ, "LC_ALL": "C"})
    return done.stdout.decode(), done.returncode


def head_of(folder, name="x.dag"):
    """The comment with the digest that stands in the header of the journal."""
    return f"# dagrun inputs, digest {folder.read(name + '.journal')[8:40].hex()}\n"


def begun_of(folder, *names, rescue=None):
    """The text of x.dag.begun, as docs/JOURNAL.md has it, of these files as they are now."""
    text = f"# dagrun begun, digest {folder.read('x.dag.journal')[8:40].hex()}\n".encode()
    for word, name in [("file", name) for name in names] + ([("rescue", rescue)] if rescue else []):
        bytes = folder.read(name)
        text += f"{word} {len(name.encode())} {len(bytes)}\n{name}\n".encode() + bytes + b"\n"
    return text + b"end\n"


def rescue_of(total, *names):
    """The text of a rescue file, as docs/MANUAL.md has it."""
    return (f"# Rescue DAG file\n# Total number of Nodes: {total}\n# Nodes premarked DONE: {len(names)}\n\n" + "".join(f"DONE {name}\n" for name in names)).encode()


def what_a_round_began_with(folder):
    """x.dag.inputs names the DAG file, those of splices, the submit files and the rescue file, and `sha256sum` reads it."""
    os.mkdir(folder.at("sub"))
    folder.write("x.dag", "JOB A a.sub\nJOB B b.sub\nSPLICE S s.dag DIR sub\nPARENT A CHILD B S\n")
    folder.write("sub/s.dag", "JOB X x.sub NOOP\nJOB Y y.sub\n")
    folder.echo("a")
    folder.write("sub/y.sub", "executable = /bin/true\nqueue\n")
    folder.shell("b", "exit 1\n")
    same(folder.call("run", "x.dag")[2], 1)
    # In the order of the bytes of the paths; a NOOP's submit file is not looked at.
    files = ["a.sub", "b.sub", "sub/s.dag", "sub/y.sub", "x.dag"]
    same(folder.read("x.dag.inputs").decode(), head_of(folder) + sums_of(folder, *files))
    same(folder.read("x.dag.begun"), begun_of(folder, *files))
    same(checked(folder), ("".join(f"{name}: OK\n" for name in files), 0))
    folder.write("b.sub", "executable = /bin/false\nqueue\n")
    same(checked(folder), ("".join(f"{name}: {'FAILED' if name == 'b.sub' else 'OK'}\n" for name in files), 1))
    # The next round reads a rescue file, which stands last.
    same(folder.call("run", "x.dag")[2], 1)
    same(folder.read("x.dag.inputs").decode(), head_of(folder) + sums_of(folder, *files, "x.dag.rescue001"))
    same(folder.read("x.dag.begun"), begun_of(folder, *files, rescue="x.dag.rescue001"))
    same(checked(folder), ("".join(f"{name}: OK\n" for name in [*files, "x.dag.rescue001"]), 0))
    same((folder.there("x.dag.inputs.new"), folder.there("x.dag.begun.new")), (False, False))
    same(os.stat(folder.at("x.dag.begun")).st_mode & 0o777, 0o600)
    # One that goes on leaves them as they are.
    folder.cut_journal(1)
    kept = ("x.dag.inputs", "x.dag.begun")
    before = [os.stat(folder.at(name)) for name in kept]
    same(folder.call("run", "x.dag")[2], 1)
    after = [os.stat(folder.at(name)) for name in kept]
    same([(one.st_ino, one.st_mtime_ns) for one in after], [(one.st_ino, one.st_mtime_ns) for one in before])


def inputs_with_odd_names(folder):
    """`sha256sum` writes a backslash, a line feed and a carriage return in a name in another way."""
    for name, written in (("a\\b.dag", "a\\\\b.dag"), ("a\nb.dag", "a\\nb.dag"), ("a\rb.dag", "a\\rb.dag"), ("\\\\n\n.dag", "\\\\\\\\n\\n.dag"), ("a  b.dag", "a  b.dag"), ("\u00e4.dag", "\u00e4.dag")):
        folder.write(name, "JOB A a\\n.sub\n")
        folder.write("a\\n.sub", "executable = /bin/true\nqueue\n")
        same(folder.call("run", name), (ONE_DONE, "", 0))
        mark = "\\" if written != name else ""
        files = [(name, mark + hashlib.sha256(folder.read(name)).hexdigest() + f"  {written}\n"), ("a\\n.sub", "\\" + hashlib.sha256(folder.read("a\\n.sub")).hexdigest() + "  a\\\\n.sub\n")]
        wanted = head_of(folder, name) + "".join(line for _, line in sorted(files, key=lambda file: file[0].encode()))
        same(folder.read(name + ".inputs").decode(), wanted)
        same(checked(folder, name + ".inputs")[1], 0)
        same(subprocess.run(["sha256sum", name], cwd=folder.path, capture_output=True).stdout.decode(), files[0][1])
        journal = folder.read(name + ".journal")
        # Life, the launch of A, its end.
        folder.write(name + ".journal", journal[: HEADER + SLOT * 3] + b"\0")
        folder.write("a\\n.sub", "executable = /bin/false\nqueue\n")
        same(folder.call("salvage", name), (f"1 of 1 nodes are done: {name}.rescue001\nchanged since the round began: a\\n.sub\n", "", 0))
        same(folder.read(name + ".rescue001"), rescue_of(1, "A"))


def salvaged_behind_a_kill(folder):
    """A round is cut short, the submit file of the node that ran is corrected, and what is left runs."""
    folder.write("x.dag", DIAMOND)
    for name in "acd":
        folder.shell(name, f"echo ran >> {name}.ran\n")
    folder.shell("b", "echo $$ > b.process\nmv b.process b.began\nwhile ! test -e stop; do sleep 0.05; done\nexit 3\n")
    run = folder.start("run", "x.dag")
    folder.wait_for("b.began")
    # Life, the launch and the end of A, the launches of B and C, the end of C.
    folder.wait_for_launch(6)
    run.kill()
    run.communicate(timeout=PATIENCE)
    folder.write("b.sub", "executable = /bin/echo\narguments = b\noutput = b.out\nqueue\n")
    refused(folder, ("run", "--orphans", "leave", "x.dag"), "J5 OtherInputs")
    journal, inputs = folder.read("x.dag.journal"), folder.read("x.dag.inputs")
    children = folder.read("x.dag.children")
    same(folder.call("salvage", "x.dag"), ("2 of 4 nodes are done: x.dag.rescue001\nchanged since the round began: b.sub\n", "", 0))
    same(folder.read("x.dag.rescue001"), rescue_of(4, "A", "C"))
    same((folder.there("x.dag.journal"), folder.read("x.dag.journal.old"), folder.there("x.dag.rescue001.new")), (False, journal, False))
    same((folder.read("x.dag.inputs"), folder.read("x.dag.children")), (inputs, children))
    # The process that was left is dealt with by the round that follows.
    process = int(folder.read("b.began"))
    same(runs_still(process), True)
    report = "A DONE attempts=0 value=-\nB DONE attempts=1 value=0\nC DONE attempts=0 value=-\nD DONE attempts=1 value=0\nresult 0\n"
    same(folder.call("run", "x.dag"), (report, "", 0))
    same(runs_still(process), False)
    same([folder.read(f"{name}.ran") for name in "acd"], [b"ran\n"] * 3)
    same(folder.call("audit", "x.dag")[2], 0)


def cut_short(folder, journal, *records):
    """Puts a journal there that has this header and these records."""
    folder.write("x.dag.journal", journal[:HEADER] + b"".join(records) + b"\0")


def salvaged_at_each_moment(folder):
    """What is marked behind each record of a diamond: the nodes that have ended well, and none that runs."""
    folder.write("x.dag", DIAMOND)
    folder.echo(*"abcd")
    same(folder.call("run", "x.dag"), (ALL_DONE, "", 0))
    journal, inputs = folder.read("x.dag.journal"), folder.read("x.dag.inputs")
    records, done = [], []
    for record, ended in (
        (None, ""),
        (LIFE, ""),
        (launched(0, 1), ""),
        (exited(0, 0), "A"),
        (LIFE, ""),
        (batch(launched(1, 2), launched(2, 3)), ""),
        (exited(2, 0), "C"),
        (exited(1, 0), "B"),
        (launched(3, 4), ""),
        (exited(3, 0), "D"),
    ):
        records += [record] if record else []
        done += [ended] if ended else []
        cut_short(folder, journal, *records)
        folder.write("x.dag.inputs", inputs)
        for name in rescues(folder):
            os.remove(folder.at("x.dag.rescue" + name))
        before = folder.read("x.dag.journal")
        names = sorted(done)
        same(folder.call("salvage", "x.dag"), (f"{len(names)} of 4 nodes are done: x.dag.rescue001\n", "", 0))
        same(rescues(folder), {"001": rescue_of(4, *names)})
        same((folder.there("x.dag.journal"), folder.read("x.dag.journal.old")), (False, before))
        report = "".join(f"{name} DONE attempts={0 if name in names else 1} value={'-' if name in names else 0}\n" for name in "ABCD") + "result 0\n"
        same(folder.call("run", "x.dag"), (report, "", 0))
    # A node that failed is not marked.
    cut_short(folder, journal, LIFE, launched(0, 1), exited(0, 0), batch(launched(1, 2), launched(2, 3)), exited(2, 1))
    folder.write("x.dag.inputs", inputs)
    same(folder.call("salvage", "x.dag"), ("1 of 4 nodes are done: x.dag.rescue001\n", "", 0))
    same(folder.read("x.dag.rescue001"), rescue_of(4, "A"))


def salvaged_with_submit_files_that_are_broken(folder):
    """Submit files are not read but for their sums: they may be changed, broken, folders, links or missing."""
    folder.write("x.dag", DIAMOND)
    folder.echo(*"abcd")
    folder.call("run", "x.dag")
    folder.cut_journal(3)
    folder.write("a.sub", b"\xff\0no submit file\n")
    os.remove(folder.at("b.sub"))
    os.remove(folder.at("c.sub"))
    os.mkdir(folder.at("c.sub"))
    # A link to the same bytes is no change.
    os.rename(folder.at("d.sub"), folder.at("d.real"))
    os.symlink("d.real", folder.at("d.sub"))
    lines = "changed since the round began: a.sub\nmissing since the round began: b.sub\nchanged since the round began: c.sub\n"
    same(folder.call("salvage", "x.dag"), ("1 of 4 nodes are done: x.dag.rescue001\n" + lines, "", 0))
    same(folder.read("x.dag.rescue001"), rescue_of(4, "A"))


def salvaged_with_the_flag(folder):
    """The records of a round with --always-run-post are read by the flag of the journal's header."""
    always(folder)
    same(folder.call("run", "--always-run-post", "x.dag")[2], 0)
    # Life, the launch of PRE and its end, the launch of POST and its end: the node is done.
    folder.cut_journal(5)
    folder.write("a.sub", "executable = /bin/false\nqueue\n")
    same(folder.call("salvage", "x.dag"), ("1 of 1 nodes are done: x.dag.rescue001\nchanged since the round began: a.sub\n", "", 0))
    same(folder.read("x.dag.rescue001"), rescue_of(1, "A"))
    # Without the flag a failed PRE is the node's end, and no POST may be launched behind it.
    folder.write("x.dag.journal", changed(folder.read("x.dag.journal.old"), 2, 0))
    refused(folder, ("salvage", "x.dag"), "M2 Foreign 3")


def salvaged_rounds(folder):
    """A round that read the rescue file of a number, and one with the greatest."""
    for code in three_rounds(folder):
        if code == 4:
            break
    # The second round has read 001, so A and B are done; C ended with 4, and it wrote 002. It is cut short before C was launched.
    journal = folder.read("x.dag.journal")
    cut_short(folder, journal, LIFE)
    os.remove(folder.at("x.dag.rescue002"))
    folder.write("c.sub", "executable = /bin/true\nqueue\n")
    same(folder.call("salvage", "x.dag"), ("2 of 4 nodes are done: x.dag.rescue002\nchanged since the round began: c.sub\n", "", 0))
    same(rescues(folder), {"001": RESCUE_OF_TWO, "002": RESCUE_OF_TWO})
    report = "A DONE attempts=0 value=-\nB DONE attempts=0 value=-\nC DONE attempts=1 value=0\nD DONE attempts=1 value=0\nresult 0\n"
    same(folder.call("run", "x.dag"), (report, "", 0))
    same(folder.read("x.dag.journal")[4:8].hex(), "00020003")
    # 999 is written again, as by a run.
    folder.write("x.dag.rescue999", rescue_of(4, "A"))
    same(folder.call("run", "x.dag")[2], 0)
    same(folder.read("x.dag.journal")[4:8].hex(), "03e703e7")
    cut_short(folder, folder.read("x.dag.journal"), LIFE, launched(1, 1), exited(1, 0))
    same(folder.call("salvage", "x.dag"), ("2 of 4 nodes are done: x.dag.rescue999\n", "", 0))
    same(folder.read("x.dag.rescue999"), rescue_of(4, "A", "B"))


def salvaged_once_ended(folder):
    """With --ended what is done in a round that has ended stays done in the next one, where nodes were added; not where it has written its rescue file."""
    folder.write("x.dag", "JOB A a.sub\nJOB B a.sub\nPARENT A CHILD B\n")
    folder.shell("a", "echo run >> ran\n")
    folder.shell("c", "exit 1\n")
    both = "A DONE attempts=1 value=0\nB DONE attempts=1 value=0\nresult 0\n"
    same(folder.call("run", "x.dag"), (both, "", 0))
    refused(folder, ("salvage", "x.dag"), "R2 Ended x.dag.journal")
    folder.write("x.dag", "JOB A a.sub\nJOB B a.sub\nJOB C c.sub\nPARENT A CHILD B\nPARENT B CHILD C\n")
    refused(folder, ("salvage", "x.dag"), "R2 Ended x.dag.journal")
    same(folder.call("salvage", "--ended", "x.dag"), ("2 of 3 nodes are done: x.dag.rescue001\nchanged since the round began: x.dag\n", "", 0))
    same((folder.read("x.dag.rescue001"), folder.there("x.dag.journal")), (rescue_of(3, "A", "B"), False))
    kept = "A DONE attempts=0 value=-\nB DONE attempts=0 value=-\n"
    same(folder.call("run", "x.dag"), (kept + "C ERROR attempts=1 value=1\nresult 1\n", "", 1))
    same(folder.read("ran"), b"run\n" * 2)
    # That round has written its rescue file: by it the next one goes on.
    refused(folder, ("salvage", "--ended", "x.dag"), "R2 Ended x.dag.journal")
    os.remove(folder.at("x.dag.rescue002"))
    same(folder.call("salvage", "--ended", "x.dag"), ("2 of 3 nodes are done: x.dag.rescue002\n", "", 0))
    same(folder.read("x.dag.rescue002"), rescue_of(3, "A", "B"))
    # What keeps the files of the round is needed where they were changed, as for a round that was cut short.
    folder.write("c.sub", folder.read("a.sub"))
    same(folder.call("run", "x.dag"), (kept + "C DONE attempts=1 value=0\nresult 0\n", "", 0))
    os.rename(folder.at("x.dag.begun"), folder.at("kept"))
    folder.write("x.dag", "JOB A a.sub\nJOB D a.sub\n")
    refused(folder, ("salvage", "--ended", "x.dag"), "R6 Changed x.dag")
    os.rename(folder.at("kept"), folder.at("x.dag.begun"))
    text = "1 of 2 nodes are done: x.dag.rescue003\nchanged since the round began: x.dag\nchanged since the round began: x.dag.rescue002\n"
    folder.write("x.dag.rescue002", folder.read("x.dag.rescue002") + b"# mine\n")
    same(folder.call("salvage", "--ended", "x.dag"), (text, lines_of_gone(["B", "C"]), 0))
    os.remove(folder.at("x.dag.rescue002"))
    same(folder.call("run", "x.dag"), ("A DONE attempts=0 value=-\nD DONE attempts=1 value=0\nresult 0\n", "", 0))


def salvaged_splices(folder):
    """The files of splices are as they were; nodes of splices are marked by their full names."""
    folder.write("x.dag", "JOB A a.sub\nSPLICE S s.dag\nFINAL F f.sub\nPARENT A CHILD S\n")
    folder.write("s.dag", "JOB X x.sub\nJOB Y y.sub\nPARENT X CHILD Y\n")
    folder.echo("a", "x", "y", "f")
    same(folder.call("run", "x.dag")[2], 0)
    # Life, the launches and ends of A and S+X. Nothing keeps the files that the round was begun with.
    folder.cut_journal(5)
    os.remove(folder.at("x.dag.begun"))
    before = everything(folder)
    folder.write("s.dag", "JOB X x.sub\nJOB Y y.sub\n")
    refused(folder, ("salvage", "x.dag"), "R6 Changed s.dag")
    os.remove(folder.at("s.dag"))
    refused(folder, ("salvage", "x.dag"), "S1 MissingFile s.dag")
    folder.write("s.dag", before["s.dag"])
    same(everything(folder), before)
    folder.write("y.sub", "executable = /bin/true\nqueue\n")
    same(folder.call("salvage", "x.dag"), ("2 of 3 nodes are done: x.dag.rescue001\nchanged since the round began: y.sub\n", "", 0))
    same(folder.read("x.dag.rescue001"), rescue_of(3, "A", "S+X"))
    report = "A DONE attempts=0 value=-\nS+X DONE attempts=0 value=-\nS+Y DONE attempts=1 value=0\nF DONE attempts=1 value=0\nresult 0\n"
    same(folder.call("run", "x.dag"), (report, "", 0))


def refusals_of_salvage(folder):
    """Each is told by one line, and nothing is changed."""
    folder.write("x.dag", DIAMOND)
    folder.echo(*"abd")
    folder.shell("c", "exit 1\n")
    words = ("salvage", "x.dag")
    refused(folder, words, "R1 NoJournal x.dag.journal")
    same(folder.there("x.dag.lock"), False)
    same(folder.call("run", "x.dag")[2], 1)
    refused(folder, words, "R2 Ended x.dag.journal")
    # The second round reads 001, in which A and B are done. It is cut short.
    same(folder.call("run", "x.dag")[2], 1)
    refused(folder, words, "R2 Ended x.dag.journal")
    cut_short(folder, folder.read("x.dag.journal"), LIFE, launched(2, 1))
    os.remove(folder.at("x.dag.rescue002"))
    # Nothing keeps the files that the round was begun with.
    os.remove(folder.at("x.dag.begun"))
    whole = everything(folder)
    journal, inputs = whole["x.dag.journal"], whole["x.dag.inputs"]
    lines = inputs.splitlines(keepends=True)
    for name, text, line in (
        ("x.dag.journal", None, "R1 NoJournal x.dag.journal"),
        ("x.dag.journal", b"", "R1 NoJournal x.dag.journal"),
        ("x.dag.journal", b"\0", "R1 NoJournal x.dag.journal"),
        ("x.dag.journal", b"\0" + journal[1 : HEADER + 1], "R1 NoJournal x.dag.journal"),
        ("x.dag.journal", b"no journal" * 10, "J3 NotAJournal"),
        ("x.dag.journal", journal[:HEADER], "J3 NotAJournal"),
        ("x.dag.journal", changed(journal, 1, 3), "J4 Version 3"),
        ("x.dag.journal", journal[: HEADER + SLOT + 7], "J9 BadSlot 1"),
        # One number in the header is none that a rescue file has: 1001 and 1024.
        ("x.dag.journal", changed(changed(journal, 4, 3), 5, 0xE9), "E4 NotThere 1001"),
        ("x.dag.journal", changed(changed(journal, 6, 4), 7, 0), "E4 NotThere 1024"),
        ("x.dag.journal", changed(journal, 7, 0), "E4 NotThere 0"),
        ("x.dag.journal", changed(journal, 8, journal[8] ^ 1), "R5 OtherRound x.dag.inputs"),
        # The end of C, which was not launched.
        ("x.dag.journal", journal[: HEADER + SLOT] + exited(2, 0) + b"\0", "M2 Foreign 1"),
        # A is marked by the rescue file, so it may not be launched.
        ("x.dag.journal", journal[: HEADER + SLOT] + launched(0, 1) + b"\0", "M2 Foreign 1"),
        ("x.dag.inputs", None, "R3 NoInputs x.dag.inputs"),
        ("x.dag.inputs", b"", "R4 BadInputs x.dag.inputs"),
        ("x.dag.inputs", b"".join(lines[1:]), "R4 BadInputs x.dag.inputs"),
        ("x.dag.inputs", inputs[:-1], "R4 BadInputs x.dag.inputs"),
        ("x.dag.inputs", inputs + b"\n", "R4 BadInputs x.dag.inputs"),
        ("x.dag.inputs", inputs + b"# a comment\n", "R4 BadInputs x.dag.inputs"),
        ("x.dag.inputs", inputs.replace(b"  x.dag\n", b" *x.dag\n"), "R4 BadInputs x.dag.inputs"),
        ("x.dag.inputs", inputs.replace(b"  x.dag\n", b"  x.dag\r\n"), "R4 BadInputs x.dag.inputs"),
        ("x.dag.inputs", lines[0].upper() + b"".join(lines[1:]), "R4 BadInputs x.dag.inputs"),
        ("x.dag.inputs", lines[0] + b"\\" + b"".join(lines[1:]), "R4 BadInputs x.dag.inputs"),
        ("x.dag.inputs", lines[0] + lines[1].upper() + b"".join(lines[2:]), "R4 BadInputs x.dag.inputs"),
        ("x.dag.inputs", inputs + b"\xff\n", "R4 BadInputs x.dag.inputs"),
        ("x.dag.inputs", lines[0][:-66] + b"0" + lines[0][-64:] + b"".join(lines[1:]), "R4 BadInputs x.dag.inputs"),
        # It says nothing of the rescue file, of the DAG file.
        ("x.dag.inputs", b"".join(lines[:-1]), "R7 NotListed x.dag.rescue001"),
        ("x.dag.inputs", b"".join(line for line in lines if not line.endswith(b"  x.dag\n")), "R7 NotListed x.dag"),
        ("x.dag", DIAMOND + "# a comment more\n", "R6 Changed x.dag"),
        ("x.dag", None, "S1 MissingFile x.dag"),
        ("x.dag.rescue001", RESCUE_OF_TWO + b"DONE C\n", "R6 Changed x.dag.rescue001"),
        ("x.dag.rescue001", None, "R6 Changed x.dag.rescue001"),
    ):
        if text is None:
            os.remove(folder.at(name))
        else:
            folder.write(name, text)
        before = everything(folder)
        refused(folder, words, line)
        same(everything(folder), before)
        folder.write(name, whole[name])
    # Called by another path, it is another round's.
    refused(folder, ("salvage", "./x.dag"), "R7 NotListed ./x.dag")
    with locked(folder):
        refused(folder, words, "X2 FileRefused x.dag.lock")
        os.remove(folder.at("x.dag.lock"))
    same(everything(folder), whole)
    for name in ("x.dag.inputs", "x.dag.journal", "x.dag.rescue001"):
        os.remove(folder.at(name))
        os.mkdir(folder.at(name))
        refused(folder, words, f"X2 FileRefused {name}")
        os.rmdir(folder.at(name))
        folder.write(name, whole[name])
    # The rescue file can't be written: nothing is put away. Then the same call goes on.
    os.mkdir(folder.at("x.dag.rescue002.new"))
    refused(folder, words, "X2 FileRefused x.dag.rescue002")
    same(everything(folder), whole)
    os.rmdir(folder.at("x.dag.rescue002.new"))
    same(folder.call(*words), ("2 of 4 nodes are done: x.dag.rescue002\n", "", 0))
    refused(folder, words, "R1 NoJournal x.dag.journal")


SWEEP = "JOB first first.sub\n" + "".join(f'JOB P{n} point.sub\nVARS P{n} point="{n}"\n' for n in range(1, 6)) + """JOB last last.sub
PARENT first CHILD P1 P2 P3 P4 P5
PARENT P1 P2 P3 P4 P5 CHILD last
"""
POINTS = [f"P{n}" for n in range(1, 6)]


def sweep(folder):
    """A sweep of five points that has run."""
    folder.write("x.dag", SWEEP)
    folder.shell("first", "echo ran >> first.ran\n")
    folder.write("point.sh", "echo ran >> P$1.ran\n")
    folder.write("point.sub", "executable = /bin/sh\narguments = point.sh $(point)\nqueue\n")
    folder.shell("last", "echo ran >> last.ran\n")
    same(folder.call("run", "x.dag"), (report_of_sweep("first", *POINTS, "last"), "", 0))


def report_of_sweep(*again):
    """The report of a round of the sweep in which these nodes run and the others are done from the start."""
    names = ["first", *POINTS, "last"]
    return "".join(f"{name} DONE attempts={int(name in again)} value={0 if name in again else '-'}\n" for name in names) + "result 0\n"


def times_run(folder):
    """The nodes of the sweep that ran more than once."""
    return [name for name in ("first", *POINTS, "last") if folder.read(f"{name}.ran") != b"ran\n"]


def redone_point(folder):
    """A point of a sweep runs again after a full success, and what comes after it; the journal stays until then."""
    sweep(folder)
    journal = folder.read("x.dag.journal")
    same(folder.call("redo", "x.dag", "P3"), ("5 of 7 nodes are done: x.dag.rescue001\n", "", 0))
    same(rescues(folder), {"001": rescue_of(7, "first", "P1", "P2", "P4", "P5")})
    same((folder.read("x.dag.journal"), folder.there("x.dag.journal.old"), folder.there("x.dag.lock")), (journal, False, False))
    # Nothing has run yet, and the last round can still be asked for.
    same((times_run(folder), folder.call("status", "x.dag")[2]), ([], 0))
    same(folder.call("run", "x.dag"), (report_of_sweep("P3", "last"), "", 0))
    same((times_run(folder), folder.read("x.dag.journal.old")), (["P3", "last"], journal))
    # The round that follows has done all of it: what was done from its start counts, too.
    same(folder.call("redo", "x.dag", "last"), ("6 of 7 nodes are done: x.dag.rescue002\n", "", 0))
    same(folder.read("x.dag.rescue002"), rescue_of(7, "first", *POINTS))
    same(folder.call("run", "x.dag"), (report_of_sweep("last"), "", 0))


def redone_points(folder):
    """Two points run again, one of which is named twice, and the first node, after which all come."""
    sweep(folder)
    same(folder.call("redo", "x.dag", "P4", "P2", "P4"), ("4 of 7 nodes are done: x.dag.rescue001\n", "", 0))
    same(folder.read("x.dag.rescue001"), rescue_of(7, "first", "P1", "P3", "P5"))
    # Where none is named, all that is done stays so.
    same(folder.call("redo", "x.dag"), ("7 of 7 nodes are done: x.dag.rescue002\n", "", 0))
    os.remove(folder.at("x.dag.rescue002"))
    same(folder.call("redo", "x.dag", "first"), ("0 of 7 nodes are done: x.dag.rescue002\n", "", 0))
    same(folder.read("x.dag.rescue002"), rescue_of(7))
    os.remove(folder.at("x.dag.rescue002"))
    same(folder.call("run", "x.dag"), (report_of_sweep("P2", "P4", "last"), "", 0))
    same(times_run(folder), ["P2", "P4", "last"])


def redone_alone(folder):
    """With --only those that are named run again, and those that come after them stay done."""
    sweep(folder)
    same(folder.call("redo", "--only", "x.dag", "first", "P5"), ("5 of 7 nodes are done: x.dag.rescue001\n", "", 0))
    same(folder.read("x.dag.rescue001"), rescue_of(7, "P1", "P2", "P3", "P4", "last"))
    same(folder.call("run", "x.dag"), (report_of_sweep("first", "P5"), "", 0))
    same(times_run(folder), ["first", "P5"])


def redone_numbers(folder):
    """The rescue file of a round that has ended has the number after the highest that is there; 999 is written again."""
    folder.write("x.dag", DIAMOND)
    folder.echo(*"abcd")
    same(folder.call("run", "x.dag")[2], 0)
    for there, number in (("001", "002"), ("007", "008"), ("998", "999"), ("999", "999")):
        folder.write(f"x.dag.rescue{there}", rescue_of(4))
        same(folder.call("redo", "x.dag", "D"), (f"3 of 4 nodes are done: x.dag.rescue{number}\n", "", 0))
        same(rescues(folder)[number], rescue_of(4, "A", "B", "C"))
        for name in rescues(folder):
            os.remove(folder.at("x.dag.rescue" + name))


def redone_after_failure(folder):
    """Of a round in which a node failed: what was done stays so, but for the node that is named and what comes after it."""
    for code in three_rounds(folder):
        if code == 3:
            break
    same(rescues(folder), {"001": RESCUE_OF_TWO})
    same(folder.call("redo", "x.dag", "B"), ("1 of 4 nodes are done: x.dag.rescue002\n", "", 0))
    same(folder.read("x.dag.rescue002"), rescue_of(4, "A"))
    # A node that is not done is not marked, whether it is named or not.
    same(folder.call("redo", "x.dag", "C", "D"), ("2 of 4 nodes are done: x.dag.rescue003\n", "", 0))
    same(folder.read("x.dag.rescue003"), RESCUE_OF_TWO)
    os.remove(folder.at("x.dag.rescue003"))
    folder.write("code", "0\n")
    report = "A DONE attempts=0 value=-\n" + "".join(f"{name} DONE attempts=1 value=0\n" for name in "BCD") + "result 0\n"
    same(folder.call("run", "x.dag"), (report, "", 0))


def redone_when_cut_short(folder):
    """Of a round that was cut short the rescue file has the number of the journal's header, and the journal is put away."""
    folder.write("x.dag", DIAMOND)
    folder.echo(*"abcd")
    same(folder.call("run", "x.dag"), (ALL_DONE, "", 0))
    cut_short(folder, folder.read("x.dag.journal"), LIFE, launched(0, 1), exited(0, 0), batch(launched(1, 2), launched(2, 3)), exited(1, 0))
    journal = folder.read("x.dag.journal")
    same(folder.call("redo", "x.dag", "B"), ("1 of 4 nodes are done: x.dag.rescue001\n", "", 0))
    same(rescues(folder), {"001": rescue_of(4, "A")})
    same((folder.there("x.dag.journal"), folder.read("x.dag.journal.old")), (False, journal))
    report = "A DONE attempts=0 value=-\n" + "".join(f"{name} DONE attempts=1 value=0\n" for name in "BCD") + "result 0\n"
    same(folder.call("run", "x.dag"), (report, "", 0))
    # A header with a number that no rescue file has.
    cut_short(folder, changed(changed(folder.read("x.dag.journal"), 6, 3), 7, 0xE8), LIFE)
    before = everything(folder)
    refused(folder, ("redo", "x.dag", "B"), "E4 NotThere 1000")
    same(everything(folder), before)


def redone_splices_and_final(folder):
    """Nodes of splices have their full names; FINAL may be named, and changes nothing: it runs in each round."""
    folder.write("x.dag", "JOB A a.sub\nSPLICE S s.dag\nFINAL F a.sub\nPARENT A CHILD S\n")
    folder.write("s.dag", "JOB X a.sub\nJOB Y a.sub\nPARENT X CHILD Y\n")
    folder.echo("a")
    same(folder.call("run", "x.dag")[2], 0)
    same(folder.call("redo", "x.dag", "F"), ("3 of 3 nodes are done: x.dag.rescue001\n", "", 0))
    same(folder.call("redo", "x.dag", "S+X"), ("1 of 3 nodes are done: x.dag.rescue002\n", "", 0))
    same(rescues(folder), {"001": rescue_of(3, "A", "S+X", "S+Y"), "002": rescue_of(3, "A")})
    report = "A DONE attempts=0 value=-\nS+X DONE attempts=1 value=0\nS+Y DONE attempts=1 value=0\nF DONE attempts=1 value=0\nresult 0\n"
    same(folder.call("run", "x.dag"), (report, "", 0))


def redone_by_the_files_as_they_began(folder):
    """A node that is done runs again with its submit file as it is now: `redo --as-begun` reads those with which the round began."""
    folder.write("x.dag", DIAMOND)
    folder.echo(*"abcd")
    same(folder.call("run", "x.dag"), (ALL_DONE, "", 0))
    folder.shell("b", "echo mended > b.txt\n")
    before = everything(folder)
    refused(folder, ("redo", "x.dag", "B"), "J5 OtherInputs")
    same(folder.call("redo", "--as-begun", "x.dag", "tabel")[::2], ("", 125))
    same(everything(folder), before)
    same(folder.call("redo", "--as-begun", "x.dag", "B"), ("2 of 4 nodes are done: x.dag.rescue001\n", "", 0))
    same(rescues(folder), {"001": rescue_of(4, "A", "C")})
    # Nothing else was changed, so it can be said again: the files are those of the journal's round still.
    same(folder.call("redo", "--as-begun", "--only", "x.dag", "B"), ("3 of 4 nodes are done: x.dag.rescue002\n", "", 0))
    os.remove(folder.at("x.dag.rescue002"))
    report = "A DONE attempts=0 value=-\nB DONE attempts=1 value=0\nC DONE attempts=0 value=-\nD DONE attempts=1 value=0\nresult 0\n"
    same(folder.call("run", "x.dag"), (report, "", 0))
    same(folder.read("b.txt"), b"mended\n")
    # A node that is no more, and was done: the line of the rescue file that names it.
    folder.write("x.dag", "JOB A a.sub\nJOB B b.sub\nJOB C c.sub\n")
    same(folder.call("redo", "--as-begun", "x.dag", "B"), ("2 of 4 nodes are done: x.dag.rescue002\n", "", 0))
    folder.write("x.dag.rescue002", folder.read("x.dag.rescue002") + b"DONE D\n")
    refused(folder, ("run", "x.dag"), f"E2 UnknownNode x.dag.rescue002:{len(folder.read('x.dag.rescue002').splitlines())}")
    # Of a round that was cut short the journal is put away.
    for name in ("x.dag.journal", "x.dag.rescue001", "x.dag.rescue002"):
        os.remove(folder.at(name))
    same(folder.call("run", "x.dag")[2], 0)
    cut_short(folder, folder.read("x.dag.journal"), LIFE, launched(0, 1), exited(0, 0), launched(1, 2), exited(1, 0))
    folder.shell("b", "true\n")
    same(folder.call("redo", "--as-begun", "x.dag", "B"), ("1 of 3 nodes are done: x.dag.rescue001\n", "", 0))
    same((folder.there("x.dag.journal"), folder.read("x.dag.rescue001")), (False, rescue_of(3, "A")))
    # It isn't known how a round began that is not there.
    refused(folder, ("redo", "--as-begun", "x.dag", "B"), "X2 FileRefused x.dag.journal")


def refusals_of_redo(folder):
    """Why nothing runs again, and that nothing is changed then."""
    def is_refused(*told):
        before = everything(folder)
        same(folder.call("redo", "x.dag", *words), ("", "".join(f"dagrun: {line}\n" for line in told), 125))
        same(everything(folder), before)

    words = ["table"]
    folder.write("x.dag", "JOB fetch a.sub\nJOB table a.sub\nPARENT fetch CHILD table\n")
    folder.echo("a")
    # No round, which needs no file to be read; no lock is made.
    is_refused("x.dag has no round whose nodes are done")
    same(folder.there("x.dag.lock"), False)
    same(folder.call("redo", "no such.dag", "A"), ("", "dagrun: 'no such.dag' has no round whose nodes are done\n", 125))
    same(folder.call("run", "x.dag")[2], 0)
    words = ["fetch", "tabel", "nothing"]
    is_refused("x.dag has no node tabel; the nearest name is table")
    words = ["table"]
    with locked(folder):
        is_refused("X2 FileRefused x.dag.lock")
    os.remove(folder.at("x.dag.lock"))
    os.mkdir(folder.at("x.dag.journal.old"))
    is_refused("X2 FileRefused x.dag.journal.old")
    os.rmdir(folder.at("x.dag.journal.old"))
    journal = folder.read("x.dag.journal")
    folder.write("x.dag.journal", b"a" * 66)
    is_refused("J3 NotAJournal")
    folder.write("x.dag.journal", journal)
    folder.write("a.sub", "executable = /bin/true\nqueue\n")
    is_refused("J5 OtherInputs")
    os.remove(folder.at("a.sub"))
    is_refused("P1 MissingFile a.sub")


def redone_by_files_of_other_users(folder):
    """There nothing runs again by what another user put there: a journal could mark any node."""
    folder.write("x.dag", "JOB A a.sub\nJOB B a.sub\n")
    folder.echo("a")
    folder.call("run", "x.dag")
    for name in ("x.dag.journal", "x.dag.lock"):
        folder.write("x.dag.lock", "")
        os.chown(folder.at(name), NOBODY, NOBODY)
        os.chmod(folder.path, 0o777)
        before = everything(folder)
        refused(folder, ("redo", "x.dag", "B"), f"X2 FileRefused {name}")
        same(everything(folder), before)
        for mode, words in ((0o777, ("redo", "--trust-owner")), (0o755, ("redo",))):
            os.chmod(folder.path, mode)
            same(folder.call(*words, "x.dag", "B"), ("1 of 2 nodes are done: x.dag.rescue001\n", "", 0))
            same(folder.read("x.dag.rescue001"), rescue_of(2, "A"))
            os.remove(folder.at("x.dag.rescue001"))
            folder.write("x.dag.lock", "")
            if name == "x.dag.lock":
                os.chown(folder.at(name), NOBODY, NOBODY)
        os.chown(folder.at("x.dag.journal"), os.getuid(), os.getgid())
        os.remove(folder.at("x.dag.lock"))
    # What is said to be the files with which the round began could name other nodes as done.
    os.chown(folder.at("x.dag.begun"), NOBODY, NOBODY)
    os.chmod(folder.path, 0o777)
    before = everything(folder)
    refused(folder, ("redo", "--as-begun", "x.dag", "B"), "X2 FileRefused x.dag.begun")
    same(everything(folder), before)
    same(folder.call("redo", "--as-begun", "--trust-owner", "x.dag", "B"), ("1 of 2 nodes are done: x.dag.rescue001\n", "", 0))


def inputs_that_can_not_be_written(folder):
    """A run depends on it in nothing."""
    folder.write("x.dag", DIAMOND)
    folder.echo(*"abcd")
    os.mkdir(folder.at("x.dag.inputs"))
    same(folder.call("run", "x.dag"), (ALL_DONE, "", 0))
    os.rmdir(folder.at("x.dag.inputs"))
    folder.write("x.dag.inputs", "of another round\n")
    os.remove(folder.at("x.dag.inputs.new"))
    os.mkdir(folder.at("x.dag.inputs.new"))
    same(folder.call("run", "x.dag"), (ALL_DONE, "", 0))
    same(folder.read("x.dag.inputs"), b"of another round\n")
    os.rmdir(folder.at("x.dag.inputs.new"))
    folder.write("x.dag.inputs.new", "of one that was cut short" * 99)
    same(folder.call("run", "x.dag"), (ALL_DONE, "", 0))
    same(folder.read("x.dag.inputs").decode(), head_of(folder) + sums_of(folder, "a.sub", "b.sub", "c.sub", "d.sub", "x.dag"))
    # It is replaced by the round that begins next, and before that it says nothing of it.
    first = folder.read("x.dag.inputs")
    folder.write("a.sub", "executable = /bin/true\nqueue\n")
    same(folder.call("run", "x.dag"), (ALL_DONE, "", 0))
    folder.cut_journal(3)
    second = folder.read("x.dag.inputs")
    folder.write("x.dag.inputs", first)
    refused(folder, ("salvage", "x.dag"), "R5 OtherRound x.dag.inputs")
    folder.write("x.dag.inputs", second)
    same(folder.call("salvage", "x.dag"), ("1 of 4 nodes are done: x.dag.rescue001\n", "", 0))


# The records of a diamond at several moments, and the nodes that are done by then.
MOMENTS = (
    ((LIFE,), ""),
    ((LIFE, launched(0, 1)), ""),
    ((LIFE, launched(0, 1), exited(0, 0)), "A"),
    ((LIFE, launched(0, 1), exited(0, 0), batch(launched(1, 2), launched(2, 3)), exited(2, 0)), "AC"),
    ((LIFE, launched(0, 1), exited(0, 0), batch(launched(1, 2), launched(2, 3)), exited(2, 1), exited(1, 0)), "AB"),
    ((LIFE, launched(0, 1), exited(0, 0), batch(launched(1, 2), launched(2, 3)), exited(2, 0), exited(1, 0), launched(3, 4)), "ABC"),
)
# What becomes of a diamond: its text, and its ordinary nodes in plan order.
CHANGED_DIAMONDS = (
    (DIAMOND + "# a comment more\n", "ABCD"),
    (DIAMOND + "JOB E e.sub\nPARENT A CHILD E\n", "ABCDE"),
    ("JOB E e.sub\nPARENT E CHILD A\n" + DIAMOND, "EABCD"),
    ("JOB A a.sub\nJOB B b.sub\nJOB D d.sub\nPARENT A CHILD B\nPARENT B CHILD D\n", "ABD"),
    ("JOB D d.sub\nJOB C c.sub\nJOB B b.sub\nJOB A a.sub\nPARENT D CHILD C\n", "DCBA"),
    ("JOB B b.sub\nJOB C c.sub\nJOB E a.sub\nFINAL A a.sub\n", "BCE"),
)


def lines_of_gone(names):
    """The warnings of nodes that were done and are gone."""
    lines = [f"warning: {name} was done and is no longer in the DAG\n" for name in names[:20]]
    return "".join(lines) + (f"warning: and {len(names) - 20} more\n" if len(names) > 20 else "")


def salvaged_after_any_change(folder):
    """A DAG file is changed after a stop: each node that was done and is still there is marked, by its name, and no other one."""
    folder.write("x.dag", DIAMOND)
    folder.echo(*"abcde")
    same(folder.call("run", "x.dag"), (ALL_DONE, "", 0))
    kept = {name: folder.read(name) for name in ("x.dag.journal", "x.dag.inputs", "x.dag.begun")}
    for text, nodes in CHANGED_DIAMONDS:
        for records, done in MOMENTS:
            for name in rescues(folder):
                os.remove(folder.at("x.dag.rescue" + name))
            for name, bytes in kept.items():
                folder.write(name, bytes)
            cut_short(folder, kept["x.dag.journal"], *records)
            before = folder.read("x.dag.journal")
            folder.write("x.dag", text)
            marks = [name for name in nodes if name in done]
            answer = f"{len(marks)} of {len(nodes)} nodes are done: x.dag.rescue001\nchanged since the round began: x.dag\n"
            same(folder.call("salvage", "x.dag"), (answer, lines_of_gone([name for name in done if name not in nodes]), 0))
            same(rescues(folder), {"001": rescue_of(len(nodes), *marks)})
            same((folder.there("x.dag.journal"), folder.read("x.dag.journal.old")), (False, before))
            same(folder.read("x.dag.begun"), kept["x.dag.begun"])
        # What was done does not run again, and all else does.
        names = nodes + ("A" if "FINAL" in text else "")
        report = "".join(f"{name} DONE attempts={0 if name in marks else 1} value={'-' if name in marks else 0}\n" for name in names)
        same(folder.call("run", "x.dag"), (report + "result 0\n", "", 0))


def salvaged_with_samples_added(folder):
    """A sample is added to a graph whose run was killed, and then another one after a second kill: what was done never runs again."""
    folder.write("x.dag", "JOB A a.sub\nJOB B b.sub\n")
    for name in "ac":
        folder.shell(name, f"echo ran >> {name}.ran\n")
    folder.shell("b", "echo $$ > b.process\nmv b.process b.began\nsleep 1000\n")
    folder.echo("d")
    for names, added in (("A", "C"), ("AC", "D")):
        run = folder.start("run", "x.dag")
        folder.wait_for("b.began")
        wait_until(lambda: all(f"{name} DONE" in folder.call("status", "x.dag")[0] for name in names), f"{names} are not done")
        run.kill()
        run.communicate(timeout=PATIENCE)
        os.remove(folder.at("b.began"))
        folder.write("x.dag", folder.read("x.dag").decode() + f"JOB {added} {added.lower()}.sub\n")
        refused(folder, ("run", "--orphans", "leave", "x.dag"), "J5 OtherInputs")
        number = len(rescues(folder)) + 1
        answer = f"{len(names)} of {len(names) + 2} nodes are done: x.dag.rescue{number:03}\nchanged since the round began: x.dag\n"
        same(folder.call("salvage", "x.dag"), (answer, "", 0))
    same(folder.read("x.dag.rescue002"), rescue_of(4, "A", "C"))
    folder.echo("b")
    report = "A DONE attempts=0 value=-\nB DONE attempts=1 value=0\nC DONE attempts=0 value=-\nD DONE attempts=1 value=0\nresult 0\n"
    same(folder.call("run", "x.dag"), (report, "", 0))
    same([folder.read(f"{name}.ran") for name in "ac"], [b"ran\n"] * 2)


# The samples of a sweep, and the submit file of its nodes.
SAMPLES = [f"s{number}" for number in range(8)]
SWEEP_SUB = "executable = /bin/sh\narguments = s.sh $(JOB)\nqueue\n"


def sweep_over(samples):
    """The text of a sweep over these samples, and its nodes."""
    nodes = ["first", *samples, "last"]
    return "".join(f"JOB {node} s.sub\n" for node in nodes) + f"PARENT first CHILD {' '.join(samples)}\nPARENT {' '.join(samples)} CHILD last\n", nodes


def changed_at_each_moment(folder):
    """After a stop at each of 20 moments a sample is added, one is taken away, or a submit file is edited: what was done stays done, and all else runs once."""
    whole, nodes = sweep_over(SAMPLES)
    folder.write("x.dag", whole)
    folder.write("s.sub", SWEEP_SUB)
    folder.write("s.sh", "echo $1 >> ran\n")
    same(folder.call("run", "--maxjobs", "2", "x.dag")[2], 0)
    kept = everything(folder)
    slots = slots_in(kept["x.dag.journal"])[0]
    # Life, a launch and an end of each of ten nodes, and the end of the round: at 20 of them the journal is cut.
    same(len(slots), 22)
    for moment in range(1, 21):
        for name, text, after in (
            ("x.dag", *sweep_over(SAMPLES + ["s8"])),
            ("x.dag", *sweep_over(SAMPLES[:3] + SAMPLES[4:])),
            ("s.sub", SWEEP_SUB.replace("$(JOB)", "$(JOB) again"), nodes),
        ):
            put_back(folder, kept)
            folder.cut_journal(moment)
            done = {nodes[key[0]] for kind, key, outcome in records_in(folder.path) if kind == END}
            folder.write(name, text)
            os.remove(folder.at("ran"))
            stays = [node for node in after if node in done]
            gone = lines_of_gone([node for node in nodes if node in done and node not in after])
            answer = f"{len(stays)} of {len(after)} nodes are done: x.dag.rescue001\nchanged since the round began: {name}\n"
            same(folder.call("salvage", "x.dag"), (answer, gone, 0))
            report = "".join(f"{node} DONE attempts={0 if node in done else 1} value={'-' if node in done else 0}\n" for node in after)
            same(folder.call("run", "x.dag"), (report + "result 0\n", "", 0))
            ran = folder.read("ran").decode().split() if folder.there("ran") else []
            same(sorted(ran), sorted(node for node in after if node not in done))


def put_back(folder, files):
    """Leaves just these files, and the folder's log."""
    for name in everything(folder):
        if name not in files:
            os.remove(folder.at(name))
    for name, bytes in files.items():
        if bytes is not None:
            folder.write(name, bytes)
        elif folder.there(name):
            os.remove(folder.at(name))


def salvaged_with_changed_splices(folder):
    """A splice's file is edited, moved or taken away: nodes go by their full names, and FINAL is never marked."""
    top, splice = "JOB A a.sub\nSPLICE S s.dag\nFINAL F f.sub\nPARENT A CHILD S\n", "JOB X x.sub\nJOB Y y.sub\nPARENT X CHILD Y\n"
    folder.write("x.dag", top)
    folder.write("s.dag", splice)
    folder.echo("a", "x", "y", "z", "f")
    same(folder.call("run", "x.dag")[2], 0)
    # Life, the launches and ends of A and S+X.
    folder.cut_journal(5)
    kept = everything(folder)
    gone = lines_of_gone(["S+X"])
    for files, total, marks, changes, warnings in (
        ({"s.dag": "JOB X x.sub\nJOB Y y.sub\nJOB Z z.sub\n"}, 4, ["A", "S+X"], ["changed s.dag"], ""),
        ({"s.dag": "JOB Z z.sub\nJOB X x.sub\n"}, 3, ["A", "S+X"], ["changed s.dag"], ""),
        ({"s.dag": "JOB Y y.sub\n"}, 2, ["A"], ["changed s.dag"], gone),
        ({"x.dag": top.replace("s.dag", "t.dag"), "t.dag": splice}, 3, ["A", "S+X"], ["changed x.dag"], ""),
        ({"x.dag": top.replace("s.dag", "t.dag"), "t.dag": splice, "s.dag": None}, 3, ["A", "S+X"], ["missing s.dag", "changed x.dag"], ""),
        ({"x.dag": "JOB A a.sub\nFINAL F f.sub\n", "s.dag": None}, 1, ["A"], ["missing s.dag", "changed x.dag"], gone),
        ({"x.dag": top.replace("SPLICE S", "SPLICE T").replace("CHILD S", "CHILD T")}, 3, ["A"], ["changed x.dag"], gone),
        ({"x.dag": top.replace("FINAL F", "JOB F")}, 4, ["A", "S+X"], ["changed x.dag"], ""),
        ({"x.dag": "JOB F f.sub\nFINAL A a.sub\n"}, 1, [], ["changed x.dag"], lines_of_gone(["A", "S+X"])),
    ):
        put_back(folder, {**kept, **files})
        lines = "".join(f"{line.split()[0]} since the round began: {line.split()[1]}\n" for line in changes)
        same(folder.call("salvage", "x.dag"), (f"{len(marks)} of {total} nodes are done: x.dag.rescue001\n{lines}", warnings, 0))
        names = [line.split()[1] for line in folder.read("x.dag.rescue001").decode().splitlines() if line.startswith("DONE ")]
        same(sorted(names), sorted(marks))
        same(folder.call("run", "x.dag")[2], 0)
    # The DAG as it is now has a fault.
    for text, line in (("JOB A a.sub\nSPLICE T no.dag\n", "S1 MissingFile no.dag"), ("JOB A a.sub\nJOB B a.sub\nPARENT A CHILD B\nPARENT B CHILD A\n", "G1 Cycle A B")):
        put_back(folder, {**kept, "x.dag": text})
        before = everything(folder)
        refused(folder, ("salvage", "x.dag"), line)
        same(everything(folder), before)


def salvaged_without_its_rescue_file(folder):
    """The rescue file that a round read is changed or removed: what it marked is done, as the round has it."""
    folder.write("x.dag", DIAMOND)
    folder.echo(*"abd")
    folder.shell("c", "exit 1\n")
    same(folder.call("run", "x.dag")[2], 1)
    same(folder.call("run", "x.dag")[2], 1)
    # Of the second round, which read 001 with A and B, is left that C was launched.
    cut_short(folder, folder.read("x.dag.journal"), LIFE, launched(2, 1))
    os.remove(folder.at("x.dag.rescue002"))
    kept = everything(folder)
    for bytes, word in ((None, "missing"), (RESCUE_OF_TWO + b"DONE C\n", "changed"), (b"no rescue file\n", "changed"), (b"", "changed")):
        put_back(folder, {**kept, "x.dag.rescue001": bytes})
        same(folder.call("salvage", "x.dag"), (f"2 of 4 nodes are done: x.dag.rescue002\n{word} since the round began: x.dag.rescue001\n", "", 0))
        same(folder.read("x.dag.rescue002"), rescue_of(4, "A", "B"))


def many_nodes_that_are_gone(folder):
    """Of the nodes that were done and are gone 20 are named, and how many more there are."""
    folder.echo("a", "b")
    for count in (1, 19, 20, 21, 45):
        names = [f"n{number:02}" for number in range(count)]
        folder.write("x.dag", "".join(f"JOB {name} a.sub\n" for name in names) + "JOB last b.sub\nPARENT " + " ".join(names) + " CHILD last\n")
        same(folder.call("run", "x.dag")[2], 0)
        # All but the last two records: the end of the last node, and Finish.
        folder.cut_journal(len(slots_in(folder.read("x.dag.journal"))[0]) - 2)
        folder.write("x.dag", "JOB last b.sub\n")
        same(folder.call("salvage", "x.dag"), ("0 of 1 nodes are done: x.dag.rescue001\nchanged since the round began: x.dag\n", lines_of_gone(names), 0))
        os.remove(folder.at("x.dag.rescue001"))


def kept_files_that_are_no_good(folder):
    """A file of another round, one that was changed, and one that is cut short keep nothing: R6, as where there is none."""
    folder.write("x.dag", DIAMOND)
    folder.echo(*"abcd")
    same(folder.call("run", "x.dag"), (ALL_DONE, "", 0))
    other, other_digest = folder.read("x.dag.begun"), folder.read("x.dag.journal")[8:40].hex().encode()
    folder.write("x.dag", DIAMOND + "# of the second round\n")
    same(folder.call("run", "x.dag"), (ALL_DONE, "", 0))
    folder.cut_journal(3)
    begun, digest = folder.read("x.dag.begun"), folder.read("x.dag.journal")[8:40].hex().encode()
    folder.write("x.dag", DIAMOND + "JOB E a.sub\n")
    words = ("salvage", "x.dag")
    for bytes in (
        None,
        b"",
        other,
        # The files of the other round under this round's digest, and this round's under another.
        other.replace(other_digest, digest),
        begun.replace(digest, b"0" * 64),
        begun.replace(digest, digest[:-1] + digest[-1:].upper() + b" "),
        begun.replace(b"executable", b"Executable", 1),
        begun.replace(b"JOB A a.sub", b"JOB A d.sub", 1),
        begun.replace(b"file 5", b"file 05", 1),
        begun + b"\n",
        begun[:-1],
        begun[:-4],
        begun[: len(begun) // 2],
        begun.replace(b"\nend\n", b"\nrescue 15 0\nx.dag.rescue001\n\nend\n"),
    ):
        if bytes is None:
            os.remove(folder.at("x.dag.begun"))
        else:
            same(bytes != begun, True)
            folder.write("x.dag.begun", bytes)
        before = everything(folder)
        refused(folder, words, "R6 Changed x.dag")
        same(everything(folder), before)
    # A folder in its place, and a file that is larger than any that is read.
    os.remove(folder.at("x.dag.begun"))
    os.mkdir(folder.at("x.dag.begun"))
    refused(folder, words, "X2 FileRefused x.dag.begun")
    os.rmdir(folder.at("x.dag.begun"))
    folder.write("x.dag.begun", begun + b"#" * (65 << 20))
    refused(folder, words, "X1 Memory")
    # It is not read where nothing but submit files was changed.
    changed_dag, journal = folder.read("x.dag"), folder.read("x.dag.journal")
    folder.write("x.dag", DIAMOND + "# of the second round\n")
    same(folder.call(*words), ("1 of 4 nodes are done: x.dag.rescue001\n", "", 0))
    folder.write("x.dag.journal", journal)
    folder.write("x.dag", changed_dag)
    folder.write("x.dag.begun", begun)
    same(folder.call(*words), ("1 of 5 nodes are done: x.dag.rescue001\nchanged since the round began: x.dag\n", "", 0))


def kept_files_that_are_too_large(folder):
    """Files of more than 64 MiB are not kept, an older file is removed, and the log says so; the round runs as any."""
    folder.write("x.dag", "JOB A a.sub\nJOB B b.sub\n")
    folder.echo("a", "b")
    same(folder.call("run", "x.dag")[2], 0)
    same((folder.there("x.dag.begun"), "begun" in fields_of(folder)[0][4]), (True, False))
    with open(folder.at("b.sub"), "ab") as file:
        file.write((b"#" * 1023 + b"\n") * (65 << 10))
    same(folder.call("run", "x.dag")[2], 0)
    first = fields_of(folder)[0]
    same((folder.there("x.dag.begun"), first[0], first[4]["begun"]), (False, "life", "left_out"))
    folder.cut_journal(3)
    folder.write("x.dag", "JOB A a.sub\nJOB B b.sub\nJOB C a.sub\n")
    refused(folder, ("salvage", "x.dag"), "R6 Changed x.dag")


def kept_files_that_can_not_be_written(folder):
    """A run depends on them in nothing."""
    folder.write("x.dag", DIAMOND)
    folder.echo(*"abcd")
    for name in ("x.dag.begun", "x.dag.begun.new"):
        if folder.there(name):
            os.remove(folder.at(name))
        os.mkdir(folder.at(name))
        same(folder.call("run", "x.dag"), (ALL_DONE, "", 0))
        os.rmdir(folder.at(name))
    folder.write("x.dag.begun.new", "of one that was cut short" * 99)
    same(folder.call("run", "x.dag"), (ALL_DONE, "", 0))
    same(folder.read("x.dag.begun"), begun_of(folder, "a.sub", "b.sub", "c.sub", "d.sub", "x.dag"))


def cut_short_while_salvaging(folder):
    """Salvage is killed, or its call fails, at any write, sync, cut or renaming: the same call goes on, and so does a run of the same files."""
    folder.write("x.dag", DIAMOND)
    folder.echo(*"abcd")
    same(folder.call("run", "x.dag"), (ALL_DONE, "", 0))
    folder.cut_journal(3)
    calls_of = ("openat", "pwrite64", "fsync", "rename")
    paths = ["x.dag.rescue001", "x.dag.rescue001.new", "x.dag.journal", "x.dag.journal.old", "", "./"]

    def tried(copy, *fault):
        traced = [word for path in paths for word in ("-P", copy.at(path) if path else copy.path)]
        words = ["strace", "-qqq", "-e", "trace=" + ",".join(calls_of), "-e", "signal=none", "-o", "../calls", *traced, *fault]
        done = subprocess.run([*words, copy.program, "salvage", "x.dag"], cwd=copy.path, capture_output=True, timeout=PATIENCE)
        return done, open(copy.at("../calls")).read().splitlines()

    with tempfile.TemporaryDirectory() as path:
        copy = Folder(folder.program, os.path.join(path, "copy"))
        shutil.copytree(folder.path, copy.path)
        done, calls = tried(copy)
        same((done.stdout, done.returncode), (b"1 of 4 nodes are done: x.dag.rescue001\n", 0))
        ends = everything(copy)
        counts = {name: sum(line.startswith(name + "(") for line in calls) for name in calls_of}
    # The rescue file is written, synced and named, and the folder synced, before the journal is renamed and the folder synced again.
    order = [line.split("(")[0] for line in calls if not line.startswith("openat")]
    same(order, ["pwrite64", "fsync", "rename", "fsync", "rename", "fsync"])
    for call, count in counts.items():
        for number in range(1, count + 1):
            for how in ("signal=SIGKILL", "error=EIO", "error=ENOSPC"):
                with tempfile.TemporaryDirectory() as path:
                    copy = Folder(folder.program, os.path.join(path, "copy"))
                    shutil.copytree(folder.path, copy.path)
                    done, _ = tried(copy, "-e", f"inject={call}:{how}:when={number}")
                    named = copy.there("x.dag.rescue001")
                    if not copy.there("x.dag.journal"):
                        # The journal is put away only where the rescue file is there, whole.
                        same((named, copy.read("x.dag.journal.old")), (True, folder.read("x.dag.journal")))
                    if named:
                        same(copy.read("x.dag.rescue001"), rescue_of(4, "A"))
                    again = Folder(folder.program, os.path.join(path, "again"))
                    shutil.copytree(copy.path, again.path)
                    if again.there("x.dag.journal"):
                        same(again.call("salvage", "x.dag"), ("1 of 4 nodes are done: x.dag.rescue001\n", "", 0))
                        same(everything(again), ends)
                    done_before = 0 if not copy.there("x.dag.journal") else 1
                    first = "A DONE attempts=1 value=0\n" if done_before else "A DONE attempts=0 value=-\n"
                    same(copy.call("run", "x.dag"), (first + ALL_DONE.split("\n", 1)[1], "", 0))


@contextlib.contextmanager
def mounted(image, place):
    """The file system of an image, at a place."""
    os.makedirs(place, exist_ok=True)
    subprocess.run(["mount", "-o", "loop", image, place], check=True, capture_output=True)
    try:
        yield place
    finally:
        subprocess.run(["umount", place], check=True, capture_output=True)


def made_image(image):
    """A new file system of 16 MB, in a file."""
    with open(image, "wb") as file:
        file.truncate(1 << 24)
    subprocess.run(["mkfs.ext4", "-q", "-F", image], check=True, capture_output=True)


def can_mount():
    """Whether an image can be made and mounted here."""
    with tempfile.TemporaryDirectory() as path:
        try:
            made_image(os.path.join(path, "image"))
            with mounted(os.path.join(path, "image"), os.path.join(path, "disk")):
                return True
        except (OSError, subprocess.SubprocessError):
            return False


def outputs_behind_a_power_cut(folder):
    """Where the power fails, the output of a node that the journal has as done is on the disk; where outputs aren't synced, it may be empty."""
    for options, empty in (([], False), *([(["--sync-output", "0"], True)] * 5)):
        made_image(folder.at("image"))
        with mounted(folder.at("image"), folder.at("disk")) as place:
            disk = Folder(folder.program, place)
            disk.write("x.dag", "JOB A a.sub\nJOB B b.sub\nJOB C c.sub\nPARENT A CHILD B\nPARENT B CHILD C\n")
            disk.echo("a", "b")
            disk.shell("c", "echo >started\nwhile ! test -e stop; do sleep 0.02; done\n")
            subprocess.run(["sync", "-f", place], check=True)
            run = disk.start("run", *options, "x.dag")
            disk.wait_for("started")
            shutil.copy(folder.at("image"), folder.at("behind"))
            disk.write("stop", "")
            run.communicate(timeout=PATIENCE)
        with mounted(folder.at("behind"), folder.at("disk")) as place:
            disk = Folder(folder.program, place)
            same([line.split()[:2] for line in disk.call("status", "x.dag")[0].splitlines()[:2]], [["A", "DONE"], ["B", "DONE"]])
            outputs = [disk.read(name) if disk.there(name) else b"" for name in ("a.out", "b.out")]
            if not empty:
                same(outputs, [b"a\n", b"b\n"])
            elif b"" in outputs:
                return
    # The system may have written them of its own accord, more so where it has much time.
    raise AssertionError("no output was lost that was not synced, in five power cuts")


def a_lock_that_was_removed(folder):
    """The journal is locked, too: who finds no lock file does not get in, and a manager that ends removes its own file alone."""
    folder.write("x.dag", "JOB A a.sub\n")
    folder.shell("a", ": > begun\nwhile [ ! -e go ]; do sleep 0.02; done\n")
    first = folder.start("run", "x.dag")
    folder.wait_for("begun")
    same(folder.there("x.dag.lock"), True)
    os.remove(folder.at("x.dag.lock"))
    refused(folder, ("run", "x.dag"), "X2 FileRefused x.dag.lock")
    same(folder.there("x.dag.lock"), False)
    folder.write("x.dag.lock", "somebody's")
    folder.write("go", "")
    same(first.communicate(timeout=PATIENCE), (b"A DONE attempts=1 value=0\nresult 0\n", b""))
    same(folder.read("x.dag.lock"), b"somebody's")
    # A file that is there and not locked is no lock; the manager that ends removes it.
    same(folder.call("run", "x.dag"), ("A DONE attempts=1 value=0\nresult 0\n", "", 0))
    same(folder.there("x.dag.lock"), False)


def no_lock_is_left(folder):
    """Neither behind a run, nor behind a refusal under the lock."""
    folder.write("x.dag", "JOB A a.sub\n")
    folder.echo("a")
    folder.call("run", "x.dag")
    same(folder.there("x.dag.lock"), False)
    journal = folder.read("x.dag.journal")
    folder.write("x.dag.journal", journal[: HEADER + SLOT + 7])
    refused(folder, ("run", "x.dag"), "J9 BadSlot 1")
    same(folder.there("x.dag.lock"), False)


def a_kill_refused_behind_an_abort(folder):
    """A child that the system doesn't let the manager kill is let go, the log says so, and the next `run` ends it first."""
    folder.write("x.dag", "JOB A a.sub\nJOB B b.sub\nABORT-DAG-ON A 7\n")
    folder.shell("a", "[ ! -e again ] || exit 0\nwhile [ ! -e b ]; do sleep 0.02; done; exit 7\n")
    folder.shell("b", "[ ! -e again ] || exit 0\necho $$ > process\nmv process b\nexec sleep 1000\n")
    words = ["strace", "-qqq", "-o", "/dev/null", "-e", "trace=kill", "-e", "inject=kill:error=EPERM", folder.program, "run", "x.dag"]
    done = subprocess.run(words, cwd=folder.path, stdout=subprocess.PIPE, stderr=subprocess.DEVNULL, timeout=PATIENCE)
    same((done.stdout, done.returncode), (b"A ERROR attempts=1 value=7\nB READY attempts=0 value=-\nresult 7\n", 7))
    process = int(folder.read("b"))
    [killed] = [line for line in fields_of(folder) if line[0] == "killed"]
    same((runs_still(process), killed[1], killed[4]["refused"]), (True, "B", "yes"))
    folder.write("again", "")
    same(folder.call("run", "x.dag")[2], 0)
    same((runs_still(process), orphans_in(folder, "x.dag.log.old"), folder.there("x.dag.children"), folder.there("x.dag.round")), (False, ["killed"], False, False))


def first_rounds_at_once(folder):
    """Of many managers that begin at once in a folder without a journal one works, and the others are refused."""
    folder.write("x.dag", "JOB A a.sub\n")
    folder.shell("a", "echo ran >> ran\nwhile [ ! -e go ]; do sleep 0.02; done\n")
    managers = [folder.start("run", "x.dag") for _ in range(8)]
    wait_until(lambda: sum(manager.poll() is not None for manager in managers) == 7, "not all but one are refused")
    folder.wait_for("ran")
    folder.write("go", "")
    answers = sorted((*(text.decode() for text in manager.communicate(timeout=PATIENCE)), manager.returncode) for manager in managers)
    same(answers, [("", "dagrun: X2 FileRefused x.dag.lock\n", 125)] * 7 + [("A DONE attempts=1 value=0\nresult 0\n", "", 0)])
    same(folder.read("ran"), b"ran\n")


def another_round_before_the_lock(folder):
    """Where another manager led a whole round between a manager's look and its lock, this one is refused, and starts nothing."""
    folder.write("x.dag", "JOB A a.sub\n")
    folder.shell("a", "echo ran >> ran\n")
    # It has looked, and holds the lock's file open, which it has not locked.
    late, manager = folder.start_stopped("openat", ["x.dag.lock"], "run", "x.dag")
    try:
        same(folder.there("x.dag.lock"), True)
        same(folder.call("run", "x.dag"), ("A DONE attempts=1 value=0\nresult 0\n", "", 0))
    finally:
        os.kill(manager, signal.SIGCONT)
    same(late.communicate(timeout=PATIENCE), (b"", b"dagrun: X2 FileRefused x.dag.lock\n"))
    same((late.returncode, folder.read("ran")), (125, b"ran\n"))


def special_files_beside(folder):
    """What is no regular file is not opened in the place of one, and no symbolic link is followed."""
    folder.write("x.dag", "JOB A a.sub\nJOB B b.sub\n")
    folder.echo("a")
    folder.shell("b", "exit 1\n")
    for name in ("x.dag.journal", "x.dag.lock", "x.dag.children", "x.dag.round"):
        for make in (lambda path: os.symlink("target", path), os.mkfifo, os.mkdir):
            # A folder in the place of the journal is J1, as the system says it.
            if (name, make) == ("x.dag.journal", os.mkdir):
                continue
            make(folder.at(name))
            refused(folder, ("run", "x.dag"), f"X2 FileRefused {name}")
            same([folder.there(other) for other in ("target", "a.out", "x.dag.log")], [False, False, False])
            if os.path.isdir(folder.at(name)):
                os.rmdir(folder.at(name))
            else:
                os.remove(folder.at(name))
    # No run depends on its log.
    os.symlink("target", folder.at("x.dag.log"))
    same(folder.call("run", "x.dag")[2], 1)
    same(folder.there("target"), False)
    os.rename(folder.at("x.dag.rescue001"), folder.at("elsewhere"))
    os.symlink("elsewhere", folder.at("x.dag.rescue001"))
    refused(folder, ("run", "x.dag"), "X2 FileRefused x.dag.rescue001")
    os.remove(folder.at("x.dag.journal"))
    os.symlink("target", folder.at("x.dag.journal"))
    refused(folder, ("status", "x.dag"), "X2 FileRefused x.dag.journal")


# The files beside a DAG file, and the commands that may read them.
BESIDE = ("journal", "journal.old", "log", "log.old", "inputs", "children", "round", "lock", "rescue001", "rescue002")
READERS = (("status",), ("audit",), ("graph",), ("why",), ("times",), ("report",), ("salvage",), ("run", "--resume"), ("run",), ("check",), ("rehearse",))


def measured(folder, *words):
    """The exit status of a command, how many lines it tells, its seconds on a processor, which are no more on a busy machine, and its most
    memory in MB. It ends in time: one that waits for a pipe would not."""
    with open(folder.at("told"), "wb") as told:
        process = subprocess.Popen([folder.program, *words], cwd=folder.path, stdout=subprocess.DEVNULL, stderr=told)
    ended = []
    wait_until(lambda: ended.append(os.wait4(process.pid, os.WNOHANG)) or ended[-1][0], f"{words} doesn't end")
    process.returncode = os.waitstatus_to_exitcode(ended[-1][1])
    used = ended[-1][2]
    return process.returncode, folder.read("told").count(b"\n"), used.ru_utime + used.ru_stime, used.ru_maxrss / 1000


def all_commands_over(folder, make):
    """Puts something in the place of each file beside a DAG file, and calls each command: what came of each, and that nothing of it was changed."""
    base = folder.at("base")
    os.mkdir(base)
    first = Folder(folder.program, base)
    first.write("x.dag", "JOB A a.sub\nJOB B b.sub\n")
    first.echo("a")
    first.shell("b", "exit 1\n")
    same(first.call("run", "x.dag")[2], 1)
    for name in BESIDE:
        for words in READERS:
            copy = Folder(folder.program, folder.at("copy"))
            shutil.copytree(base, copy.path)
            path = copy.at(f"x.dag.{name}")
            with contextlib.suppress(FileNotFoundError):
                os.remove(path)
            make(path)
            before = os.lstat(path)
            yield (name, *words), measured(copy, *words, "x.dag")
            if os.path.lexists(path):
                now = os.lstat(path)
                if stat.S_IFMT(now.st_mode) == stat.S_IFMT(before.st_mode) and not stat.S_ISREG(now.st_mode):
                    same((now.st_ino, now.st_size), (before.st_ino, before.st_size))
            shutil.rmtree(copy.path)


def pipes_and_devices_beside(folder):
    """No command waits for a pipe or reads a device that stands in the place of a file beside the DAG file: it ends, and says one line where it is refused."""
    kinds = [os.mkfifo]
    if os.getuid() == 0:
        kinds.append(lambda path: os.mknod(path, 0o666 | stat.S_IFCHR, os.makedev(1, 5)))
    for number, make in enumerate(kinds):
        place = Folder(folder.program, folder.at(f"kind{number}"))
        os.mkdir(place.path)
        for words, (status, lines, took, megabytes) in all_commands_over(place, make):
            if status not in (0, 1, 125) or lines != (status == 125) or took > 5 or megabytes > 100:
                raise AssertionError(f"{words}: status {status}, {lines} lines, {took:.1f} s, {megabytes:.0f} MB")


def huge_files_beside(folder):
    """A file of 1 GB of zeros in the place of a file beside the DAG file takes neither the memory nor the time for it."""
    def make(path):
        with open(path, "wb") as file:
            file.truncate(1_000_000_000)
    for words, (status, lines, took, megabytes) in all_commands_over(folder, make):
        if status not in (0, 1, 125) or took > 5 or megabytes > 100:
            raise AssertionError(f"{words}: status {status}, {lines} lines, {took:.1f} s, {megabytes:.0f} MB")


def a_log_under_a_limit(folder):
    """Under `ulimit -f` the log stops growing before the system would end the manager, and says so; so it does in the next life."""
    names = [f"a_node_with_a_long_name_{number}" for number in range(100)]
    folder.write("x.dag", "".join(f"JOB {name} a.sub\n" for name in names))
    folder.write("a.sub", "executable = /bin/true\nqueue\n")
    report = "".join(f"{name} DONE attempts=1 value=0\n" for name in names) + "result 0\n"
    for _ in range(3):
        done = subprocess.run(["prlimit", "--fsize=16384", folder.program, "run", "x.dag"], cwd=folder.path, capture_output=True, timeout=PATIENCE)
        same((done.stdout.decode(), done.stderr, done.returncode), (report, b"", 0))
        log = folder.read("x.dag.log")
        same((log.count(b"\tfull\t"), log.splitlines()[-1].split(b"\t")[1], len(log) <= 16384), (1, b"full", True))


def permissions_of_what_is_made(folder):
    """What the mask of the process leaves of 0644."""
    folder.write("x.dag", "JOB A a.sub\nJOB B b.sub\n")
    folder.echo("a")
    folder.shell("b", "exit 1\n")
    for mask, wanted in ((0o000, 0o644), (0o077, 0o600)):
        for name in ("x.dag.journal", "x.dag.journal.old", "x.dag.log", "x.dag.rescue001", "x.dag.rescue002"):
            if folder.there(name):
                os.remove(folder.at(name))
        subprocess.run([folder.program, "run", "x.dag"], cwd=folder.path, capture_output=True, timeout=PATIENCE, preexec_fn=lambda: os.umask(mask))
        same([os.stat(folder.at(name)).st_mode & 0o777 for name in ("x.dag.journal", "x.dag.log", "x.dag.rescue001")], [wanted] * 3)


def special_inputs(folder):
    """A DAG file and a table may be pipes; else inputs are regular files, and none of the system's own texts."""
    folder.echo("a")
    for name in ("/dev/zero", "/dev/null", "."):
        refused(folder, ("check", name), f"S1 MissingFile {name}")
    folder.write("x.dag", "JOB A a.sub\n")
    for name in ("/dev/zero", "/dev/null", "."):
        refused(folder, ("rehearse", "x.dag", name), f"X2 FileRefused {name}")
    done = subprocess.run(["bash", "-c", f"{folder.program} rehearse <(echo JOB A a.sub) <(echo A 0 JOB 3)"], cwd=folder.path, capture_output=True, timeout=PATIENCE)
    same(done.stdout.decode().splitlines()[:2], ["A ERROR attempts=1 value=3", "result 1"])
    os.mkfifo(folder.at("pipe.sub"))
    for submit in ("pipe.sub", "/dev/zero", "/proc/self/environ"):
        folder.write("y.dag", f"JOB A {submit}\n")
        refused(folder, ("check", "y.dag"), f"P1 MissingFile {submit}")
        folder.write("y.dag", f"SPLICE A {submit}\n")
        refused(folder, ("check", "y.dag"), f"S1 MissingFile {submit}")


def inputs_of_many_bytes(folder):
    """No input of more than 256 MiB is read: a file is refused at once, a pipe behind so many bytes."""
    folder.write("x.dag", "JOB A a.sub\n")
    folder.echo("a")
    for name, words in (("big.dag", ("check", "big.dag")), ("a.sub", ("check", "x.dag")), ("table", ("rehearse", "x.dag", "table"))):
        with open(folder.at(name), "wb") as file:
            file.truncate((1 << 28) + 1)
        same(folder.call(*words), ("", "dagrun: X1 Memory\n", 125))
    done = subprocess.run(["bash", "-c", f"head -c 268435457 /dev/zero | {folder.program} check -"], cwd=folder.path, capture_output=True, timeout=PATIENCE)
    same((done.stdout, done.stderr, done.returncode), (b"", b"dagrun: X1 Memory\n", 125))


NOBODY = 65534


def gated_jobs(folder, names):
    """Jobs that note that they run, wait until the file `go` is there, and note their end."""
    for name in names:
        folder.shell(name, f"echo x >>{name}.began\nuntil [ -e go ]; do sleep 0.01; done\necho x >>{name}.done\n")


def done_lines(*names):
    return "".join(f"{name} DONE attempts=1 value=0\n" for name in names)


def halted(folder, run, asked="x.dag.halt"):
    """What a run says that was halted."""
    same(tuple(text.decode() for text in run.communicate(timeout=PATIENCE)) + (run.returncode,), ("", f"dagrun: H1 Halted {asked}\n", 125))


def halted_while_jobs_run(folder):
    """A halt while 16 of 24 jobs run: these end and are recorded, no other one is launched, and the next run goes on with the rest."""
    names = [f"n{number:02}" for number in range(24)]
    folder.write("x.dag", "".join(f"JOB {name} {name}.sub\n" for name in names))
    gated_jobs(folder, names)
    run = folder.start("run", "--maxjobs", "16", "x.dag")
    wait_until(lambda: all(folder.there(f"{name}.began") for name in names[:16]), "16 jobs don't run")
    folder.write("x.dag.halt", "")
    folder.write("go", "")
    halted(folder, run)
    same([folder.there(f"{name}.done") for name in names], [True] * 16 + [False] * 8)
    # The journal has Life, 16 launches and 16 endings, and no Finish; nobody was killed.
    kinds = [kind for kind, *_ in records_in(folder.path)]
    same((kinds.count(LAUNCH), kinds.count(END), len(kinds)), (16, 16, 33))
    same(b"\tkilled\t" in folder.read("x.dag.log"), False)
    same(folder.call("status", "x.dag")[0], done_lines(*names[:16]) + "".join(f"{name} READY attempts=0 value=-\n" for name in names[16:]))
    # As long as the file is there, nothing is launched.
    refused(folder, ("run", "x.dag"), "H1 Halted x.dag.halt")
    os.remove(folder.at("x.dag.halt"))
    same(folder.call("run", "x.dag"), (done_lines(*names) + "result 0\n", "", 0))
    same([folder.read(f"{name}.done") for name in names], [b"x\n"] * 24)


def halted_before_the_first_launch(folder):
    """Nothing is launched where the file is there from the start, and the round goes on once it is gone."""
    folder.write("x.dag", "JOB A a.sub\nJOB B b.sub\nPARENT A CHILD B\n")
    folder.echo("a", "b")
    folder.write("x.dag.halt", "")
    for _ in range(2):
        refused(folder, ("run", "x.dag"), "H1 Halted x.dag.halt")
        same((folder.there("a.out"), folder.there("x.dag.rescue001")), (False, False))
    same(folder.call("status", "x.dag"), ("A READY attempts=0 value=-\nB NOT_READY attempts=0 value=-\n", "", 0))
    os.remove(folder.at("x.dag.halt"))
    same(folder.call("run", "x.dag"), (done_lines("A", "B") + "result 0\n", "", 0))
    same(folder.call("audit", "x.dag"), (done_lines("A", "B") + "audit ok\n", "", 0))


def halted_and_killed(folder):
    """A manager that is killed while it is halted: what had ended stays, what ran is launched again once the file is gone."""
    names = ["A", "B", "C"]
    folder.write("x.dag", "".join(f"JOB {name} {name}.sub\n" for name in names) + "JOB D D.sub\nPARENT A B C CHILD D\n")
    gated_jobs(folder, ["A", "D"])
    for name in "BC":
        folder.shell(name, f"echo x >>{name}.began\nuntil [ -e late ]; do sleep 0.01; done\necho x >>{name}.done\n")
    run = folder.start("run", "x.dag")
    wait_until(lambda: all(folder.there(f"{name}.began") for name in names), "three jobs don't run")
    folder.write("x.dag.halt", "")
    folder.write("go", "")
    folder.wait_for_launch(5)
    run.kill()
    run.communicate(timeout=PATIENCE)
    # Nothing is started in the place of B and C, so they are left as they are, also by a second run.
    for _ in range(2):
        refused(folder, ("run", "x.dag"), "H1 Halted x.dag.halt")
    same([len(folder.read(f"{name}.began").split()) for name in names], [1, 1, 1])
    left = [line for line in fields_of(folder) if line[0] == "orphan"]
    # A job has a process more while it sleeps.
    same(sorted({(line[1], line[4]["done"]) for line in left}), [("B", "left"), ("C", "left")])
    os.remove(folder.at("x.dag.halt"))
    run = folder.start("run", "x.dag")
    wait_until(lambda: all(len(folder.read(f"{name}.began").split()) == 2 for name in "BC"), "B and C don't begin again")
    folder.write("late", "")
    same((run.communicate(timeout=PATIENCE), run.returncode), ((("".join(f"{name} DONE attempts=1 value=0\n" for name in "ABCD") + "result 0\n").encode(), b""), 0))
    same([len(folder.read(f"{name}.began").split()) for name in "ABCD"], [1, 2, 2, 1])
    same([len(folder.read(f"{name}.done").split()) for name in "ABCD"], [1, 1, 1, 1])


def two_waiting(folder):
    """A waits for a file, and B comes after it."""
    folder.write("x.dag", "JOB A a.sub\nJOB B b.sub\nPARENT A CHILD B\n")
    folder.shell("a", "echo x >>a.began\nuntil [ -e go ]; do sleep 0.01; done\n")
    folder.shell("b", "echo x >>b.began\n")


def halted_in_a_folder_that_is_renamed(folder):
    """What is left to be started is not started in another folder that has the name of the round's by then; in its own the round goes on."""
    work, moved = folder.at("work"), folder.at("moved")
    for path in (work, folder.at("other")):
        os.mkdir(path)
        two_waiting(Folder(folder.program, path))
    run = Folder(folder.program, work).start("run", "x.dag")
    Folder(folder.program, work).wait_for("a.began")
    os.rename(work, moved)
    os.rename(folder.at("other"), work)
    before = sorted(os.listdir(work))
    inner = Folder(folder.program, moved)
    inner.write("go", "")
    halted(folder, run, "x.dag")
    same((sorted(os.listdir(work)), inner.there("b.began")), (before, False))
    same(inner.call("run", "x.dag"), (done_lines("A", "B") + "result 0\n", "", 0))
    same((inner.read("a.began"), inner.read("b.began")), (b"x\n", b"x\n"))


def halted_behind_a_link_that_is_switched(folder):
    """The same where a link on the way to the DAG file is switched."""
    two_waiting(folder)
    for name in ("one", "two"):
        os.mkdir(folder.at(name))
        shutil.copy(folder.at("x.dag"), folder.at(name))
    os.symlink("one", folder.at("now"))
    run = folder.start("run", "now/x.dag")
    folder.wait_for("a.began")
    os.remove(folder.at("now"))
    os.symlink("two", folder.at("now"))
    folder.write("go", "")
    halted(folder, run, "now/x.dag")
    same((os.listdir(folder.at("two")), folder.there("b.began")), (["x.dag"], False))
    same(folder.call("run", "one/x.dag")[1:], ("dagrun: J5 OtherInputs\n", 125))
    os.remove(folder.at("now"))
    os.symlink("one", folder.at("now"))
    same(folder.call("run", "now/x.dag"), (done_lines("A", "B") + "result 0\n", "", 0))
    same((folder.read("a.began"), folder.read("b.began")), (b"x\n", b"x\n"))


def gated_by_turns(folder, lines):
    """A waits each time that it is begun for a file of its own, and B comes after it, if the DAG has a B."""
    folder.write("x.dag", lines)
    folder.shell("a", "echo x >>a.began\nturn=$(wc -l <a.began)\nuntil [ -e go$((turn)) ]; do sleep 0.01; done\n")
    folder.shell("b", "echo x >>b.began\n")


# The files of a manager that works, without which another one knows nothing of it.
OF_A_MANAGER = ("lock", "journal", "round", "children")


def files_by_it(folder):
    """By what a manager that works is known."""
    return [folder.read(f"x.dag.{name}") for name in ("lock", "round", "children")]


def begun_beside(folder):
    """A manager whose files are removed while A runs, and another one that begins beside it, whose A is noted."""
    first = folder.start("run", "x.dag")
    folder.wait_for("a.began")
    wait_until(lambda: folder.read("x.dag.children").count(b"\n") == 2, "A is not noted")
    for name in OF_A_MANAGER:
        os.remove(folder.at(f"x.dag.{name}"))
    second = folder.start("run", "x.dag")
    wait_until(lambda: folder.read("a.began") == b"x\nx\n", "A is not begun again")
    wait_until(lambda: folder.read("x.dag.children").count(b"\n") == 2, "the second A is not noted")
    return first, second


def halted_without_its_journal(folder):
    """A manager whose journal was removed starts nothing more, and leaves what another one keeps that has begun beside it."""
    gated_by_turns(folder, "JOB A a.sub\nJOB B b.sub\nPARENT A CHILD B\n")
    first, second = begun_beside(folder)
    kept = files_by_it(folder)
    folder.write("go1", "")
    halted(folder, first, "x.dag.journal")
    same((files_by_it(folder), folder.there("b.began")), (kept, False))
    folder.write("go2", "")
    same((second.communicate(timeout=PATIENCE), second.returncode), (((done_lines("A", "B") + "result 0\n").encode(), b""), 0))
    same((folder.read("a.began"), folder.read("b.began")), (b"x\nx\n", b"x\n"))
    same([folder.there(f"x.dag.{name}") for name in OF_A_MANAGER], [False, True, False, False])


def halted_behind_another_journal(folder):
    """The same where another file has the journal's name by then, though it is a copy; the next run goes on by that."""
    gated_by_turns(folder, "JOB A a.sub\nJOB B b.sub\nPARENT A CHILD B\n")
    run = folder.start("run", "x.dag")
    folder.wait_for("a.began")
    folder.wait_for_launch(2)
    shutil.copy(folder.at("x.dag.journal"), folder.at("copy"))
    os.rename(folder.at("copy"), folder.at("x.dag.journal"))
    folder.write("go1", "")
    halted(folder, run, "x.dag.journal")
    same(folder.there("b.began"), False)
    folder.write("go2", "")
    same(folder.call("run", "x.dag"), (done_lines("A", "B") + "result 0\n", "", 0))
    same((folder.read("a.began"), folder.read("b.began")), (b"x\nx\n", b"x\n"))


def what_another_manager_keeps(folder):
    """A manager that ends with nothing left to launch is not halted, and removes nothing of another one that has begun beside it."""
    gated_by_turns(folder, "JOB A a.sub\n")
    first, second = begun_beside(folder)
    kept = files_by_it(folder)
    folder.write("go1", "")
    same((first.communicate(timeout=PATIENCE), first.returncode), (((done_lines("A") + "result 0\n").encode(), b""), 0))
    same(files_by_it(folder), kept)
    # So what the other one leaves, if it is killed, is found.
    second.kill()
    second.communicate(timeout=PATIENCE)
    folder.write("go3", "")
    same(folder.call("run", "x.dag"), (done_lines("A") + "result 0\n", "", 0))
    same(("killed" in orphans_in(folder), folder.read("a.began")), (True, b"x\nx\nx\n"))


def a_rescue_file_of_a_folder_that_is_renamed(folder):
    """A rescue file is never written into another folder that has the name of the round's by then; the next run in its own writes it."""
    work, moved = folder.at("work"), folder.at("moved")
    os.mkdir(work)
    inner = Folder(folder.program, work)
    two_waiting(inner)
    inner.shell("a", "echo x >>a.began\nuntil [ -e go ]; do sleep 0.01; done\nexit 3\n")
    run = inner.start("run", "x.dag")
    inner.wait_for("a.began")
    os.rename(work, moved)
    os.mkdir(work)
    inner = Folder(folder.program, moved)
    inner.write("go", "")
    same(tuple(text.decode() for text in run.communicate(timeout=PATIENCE)) + (run.returncode,), ("", "dagrun: J1 Device\n", 125))
    same((os.listdir(work), inner.there("x.dag.rescue001")), ([], False))
    same(inner.call("run", "x.dag"), ("A ERROR attempts=1 value=3\nB NOT_READY attempts=0 value=-\nresult 1\n", "", 1))
    same((inner.there("x.dag.rescue001"), inner.read("a.began")), (True, b"x\n"))


def halted_with_nothing_left(folder):
    """A run that has nothing left to launch ends as it would without the file."""
    folder.write("x.dag", "JOB A a.sub\nJOB B b.sub\nPARENT A CHILD B\n")
    folder.echo("a")
    folder.shell("b", "touch x.dag.halt\n")
    same(folder.call("run", "x.dag"), (done_lines("A", "B") + "result 0\n", "", 0))


def halted_at_a_script(folder):
    """Phases are launches, too: behind a halt there is no POST script, and the next run begins with it."""
    folder.write("x.dag", "JOB A a.sub\nSCRIPT POST A /bin/sh post.sh\n")
    folder.shell("a", "touch x.dag.halt\n")
    folder.write("post.sh", "echo x >>post\n")
    refused(folder, ("run", "x.dag"), "H1 Halted x.dag.halt")
    same(folder.there("post"), False)
    os.remove(folder.at("x.dag.halt"))
    same(folder.call("run", "x.dag"), (done_lines("A") + "result 0\n", "", 0))
    same(folder.read("post"), b"x\n")


def stopped_at_the_first_error(folder):
    """Once a node has failed for good nothing more is launched, what runs ends, and the next run goes on with what does not wait for it."""
    folder.write("x.dag", "JOB A a.sub\nJOB B b.sub\nJOB C c.sub\nJOB D d.sub\nPARENT A CHILD C\nPARENT B CHILD D\nRETRY A 1\n")
    folder.shell("a", "echo x >>a.began\nexit 3\n")
    folder.shell("b", "until [ -e go ]; do sleep 0.01; done\n")
    folder.echo("c", "d")
    run = folder.start("run", "--stop-at-first-error", "x.dag")
    # Life, two launches in a batch, the ending of A, its second launch and its ending: A has failed for good.
    folder.wait_for_launch(6)
    folder.write("go", "")
    halted(folder, run, "--stop-at-first-error")
    wanted = "A ERROR attempts=2 value=3\nB DONE attempts=1 value=0\nC NOT_READY attempts=0 value=-\nD {} attempts={} value={}\n"
    same(folder.call("status", "x.dag"), (wanted.format("READY", 0, "-"), "", 0))
    # What failed before does not count.
    same(folder.call("run", "--stop-at-first-error", "x.dag"), (wanted.format("DONE", 1, 0) + "result 1\n", "", 1))
    same((folder.read("a.began"), folder.there("c.out"), folder.there("x.dag.rescue001")), (b"x\nx\n", False, True))


def not_stopped_by_what_is_tried_again(folder):
    """An attempt that fails and is tried again, and a POST that accepts, are no error; and a program that can't be started is one."""
    folder.write("x.dag", "JOB A a.sub\nJOB B b.sub\nRETRY A 1\nJOB C c.sub\nSCRIPT POST C /bin/true\nPARENT A C CHILD B\n")
    folder.shell("a", "[ -e once ] || { touch once; exit 1; }\n")
    folder.shell("c", "exit 1\n")
    folder.echo("b")
    same(
        folder.call("run", "--stop-at-first-error", "x.dag"),
        ("A DONE attempts=2 value=0\nB DONE attempts=1 value=0\nC DONE attempts=1 value=0\nresult 0\n", "", 0),
    )
    folder.write("y.dag", "JOB A a.sub\nJOB B none.sub\nJOB C b.sub\nPARENT A B CHILD C\nJOB D b.sub\nPARENT A CHILD D\n")
    folder.write("none.sub", "executable = no-such-program\nqueue\n")
    refused(folder, ("run", "--maxjobs", "1", "--stop-at-first-error", "y.dag"), "H1 Halted --stop-at-first-error")


def a_halt_of_another_user(folder):
    """In a folder into which others may put files, theirs halt no run, unless root trusts them."""
    folder.write("x.dag", "JOB A a.sub\n")
    folder.echo("a")
    folder.write("x.dag.halt", "")
    os.chown(folder.at("x.dag.halt"), NOBODY, NOBODY)
    os.chmod(folder.path, 0o777)
    same(folder.call("run", "x.dag"), (done_lines("A") + "result 0\n", "", 0))
    refused(folder, ("run", "--trust-owner", "x.dag"), "H1 Halted x.dag.halt")


def files_of_other_users(folder):
    """In a folder into which others may put files, a run goes by its user's own alone, unless root trusts them."""
    folder.write("x.dag", "JOB A a.sub\nJOB B b.sub\n")
    folder.echo("a")
    folder.shell("b", "exit 1\n")
    folder.call("run", "x.dag")
    for suffix in ("journal", "lock", "children", "round", "log", "rescue"):
        for mode, words, wanted in ((0o777, [], None), (0o777, ["--trust-owner"], ("", 1)), (0o755, [], ("", 1))):
            name = f"x.dag.{suffix}"
            if suffix == "rescue":
                name = sorted(other for other in os.listdir(folder.path) if other.startswith(name))[-1]
            if not folder.there(name):
                folder.write(name, "")
            os.chown(folder.at(name), NOBODY, NOBODY)
            os.chmod(folder.path, mode)
            # A folder of one's own, into which nobody else may put files, is trusted.
            if wanted is None:
                refused(folder, ("run", *words, "x.dag"), f"X2 FileRefused {name}")
            else:
                same(folder.call("run", *words, "x.dag")[1:], wanted)
            if folder.there(name):
                os.chown(folder.at(name), os.getuid(), os.getgid())


def told_by_files_of_other_users(folder):
    """There the commands that tell of a round, and one that would print its report again, go by such files as a run does."""
    folder.write("x.dag", "JOB A a.sub\nJOB B b.sub\n")
    folder.echo("a")
    folder.shell("b", "exit 1\n")
    # The second round reads x.dag.rescue001.
    folder.call("run", "x.dag")
    folder.call("run", "x.dag")
    held, shown = [("status",), ("audit",), ("run", "--resume")], [("graph",), ("why",), ("report",)]
    logged = [("why",), ("times",), ("report",)]
    begun = [(*words, "--as-begun") for words in (("status",), ("audit",), ("times",), *shown)]

    def are_refused(name, commands):
        for words in commands:
            before = everything(folder)
            wanted = folder.call(*words, "x.dag")
            os.chown(folder.at(name), NOBODY, NOBODY)
            os.chmod(folder.path, 0o777)
            refused(folder, (*words, "x.dag"), f"X2 FileRefused {name}")
            same(folder.call(*words, "--trust-owner", "x.dag"), wanted)
            os.chmod(folder.path, 0o755)
            same(folder.call(*words, "x.dag"), wanted)
            os.chown(folder.at(name), os.getuid(), os.getgid())
            same(everything(folder), before)

    for name, commands in (("x.dag.journal", held + shown), ("x.dag.rescue001", held), ("x.dag.log", logged), ("x.dag.begun", begun)):
        are_refused(name, commands)
    # The round is shown by the rescue file that is kept, not by the one that is there; and what may be another user's is not taken for what is kept.
    wanted = [folder.call(*words, "x.dag") for words in shown]
    os.chmod(folder.path, 0o777)
    for name in ("x.dag.rescue001", "x.dag.begun"):
        os.chown(folder.at(name), NOBODY, NOBODY)
        same([folder.call(*words, "x.dag") for words in shown], wanted)
        os.chown(folder.at(name), os.getuid(), os.getgid())
    os.remove(folder.at("x.dag.begun"))
    os.chmod(folder.path, 0o755)
    are_refused("x.dag.rescue001", shown)


def salvaged_by_files_of_other_users(folder):
    """There nothing is salvaged by what another user put there: a journal with its inputs could mark any node."""
    folder.write("x.dag", "JOB A a.sub\nJOB B b.sub\n")
    folder.echo("a")
    folder.shell("b", "exit 1\n")
    folder.call("run", "x.dag")
    folder.call("run", "x.dag")
    # Of the second round, which read x.dag.rescue001, is left that a manager began.
    folder.cut_journal(1)
    os.remove(folder.at("x.dag.rescue002"))
    folder.write("x.dag.lock", "")
    journal = folder.read("x.dag.journal")
    done = ("1 of 2 nodes are done: x.dag.rescue002\n", "", 0)
    for names in (["x.dag.journal", "x.dag.inputs"], ["x.dag.lock"], ["x.dag.inputs"], ["x.dag.rescue001"]):
        for name in names:
            os.chown(folder.at(name), NOBODY, NOBODY)
        os.chmod(folder.path, 0o777)
        before = {name: bytes for name, bytes in everything(folder).items() if name != "x.dag.lock"}
        refused(folder, ("salvage", "x.dag"), f"X2 FileRefused {names[0]}")
        same({name: bytes for name, bytes in everything(folder).items() if name != "x.dag.lock"}, before)
        for mode, words in ((0o777, ("salvage", "--trust-owner")), (0o755, ("salvage",))):
            os.chmod(folder.path, mode)
            same(folder.call(*words, "x.dag"), done)
            same(folder.read("x.dag.rescue002"), rescue_of(2, "A"))
            os.remove(folder.at("x.dag.rescue002"))
            os.remove(folder.at("x.dag.journal.old"))
            folder.write("x.dag.journal", journal)
            folder.write("x.dag.lock", "")
            for name in set(names) & {"x.dag.journal", "x.dag.lock"}:
                os.chown(folder.at(name), NOBODY, NOBODY)
        for name in names:
            os.chown(folder.at(name), os.getuid(), os.getgid())
    # What keeps the files of the round is asked for where the DAG was changed.
    folder.write("x.dag", "JOB A a.sub\nJOB B b.sub\nJOB C a.sub\n")
    os.chown(folder.at("x.dag.begun"), NOBODY, NOBODY)
    os.chmod(folder.path, 0o777)
    refused(folder, ("salvage", "x.dag"), "X2 FileRefused x.dag.begun")
    os.chmod(folder.path, 0o755)
    text = "1 of 3 nodes are done: x.dag.rescue002\nchanged since the round began: x.dag\n"
    same(folder.call("salvage", "x.dag"), (text, "", 0))


def what_the_system_said(folder):
    """Where a call of the journal is refused, the log has the call and the reason."""
    folder.write("x.dag", "JOB A a.sub\nJOB B a.sub\nPARENT A CHILD B\n")
    folder.echo("a")
    words = ["strace", "-qqq", "-o", "calls", "-e", "trace=fdatasync", "-e", "signal=none", "-e", "inject=fdatasync:error=EIO:when=3", folder.program, "run", "x.dag"]
    done = subprocess.run(words, cwd=folder.path, capture_output=True, timeout=PATIENCE)
    same((done.stdout, done.stderr, done.returncode), (b"", b"dagrun: J1 Device\n", 125))
    last = folder.read("x.dag.log").decode().splitlines()[-1].split("\t")
    same((last[1], last[6:]), ("stop", ["fault='J1 Device'", "reason='journal: fdatasync: Input/output error (os error 5)'"]))
    same(folder.call("run", "x.dag")[2], 0)


def a_report_again(folder):
    """With --resume a round that has ended is told again, and starts nothing; else it goes on, or one begins."""
    folder.write("x.dag", "JOB A a.sub\nJOB B b.sub\nPARENT A CHILD B\nJOB C c.sub\n")
    folder.shell("a", "echo ran >> a.ran\n")
    folder.shell("b", "echo ran >> b.ran\n[ -e good ]\n")
    folder.shell("c", "exit 0\n")
    report = "A DONE attempts=1 value=0\nB ERROR attempts=1 value=1\nC DONE attempts=1 value=0\nresult 1\n"
    same(folder.call("run", "--resume", "x.dag"), (report, "", 1))
    before = {name: folder.read(name) for name in os.listdir(folder.path)}
    same(folder.call("run", "--resume", "x.dag"), (report, "", 1))
    same({name: folder.read(name) for name in os.listdir(folder.path)}, before)
    # Its rescue file has been written since, which is not the one that it read.
    folder.write("good", "")
    again = "A DONE attempts=0 value=-\nB DONE attempts=1 value=0\nC DONE attempts=0 value=-\nresult 0\n"
    same(folder.call("run", "x.dag"), (again, "", 0))
    same(folder.call("run", "--resume", "x.dag"), (again, "", 0))
    same([folder.read(name) for name in ("a.ran", "b.ran")], [b"ran\n", b"ran\n" * 2])
    # A round that was cut short goes on: behind Life and the launches of B.
    folder.cut_journal(2)
    same(folder.call("run", "--resume", "x.dag")[2], 0)
    same(folder.read("b.ran"), b"ran\n" * 3)
    folder.write("c.sh", "exit 0 # changed\n")
    same(folder.call("run", "--resume", "x.dag"), (again, "", 0))
    folder.write("c.sub", "executable = /bin/true\nqueue\n")
    refused(folder, ("run", "--resume", "x.dag"), "J5 OtherInputs")
    same(folder.call("run", "--resume", "--dorescuefrom", "1", "x.dag")[2], 125)


def the_end_of_a_journal(folder):
    """A manager that goes on writes what stands at the journal's end again before it syncs it first, and one that begins does not."""
    folder.write("x.dag", "JOB A a.sub\n")
    folder.echo("a")
    calls = {}
    for turn in ("begins", "goes on"):
        subprocess.run(["strace", "-y", "-e", "trace=pwrite64,fsync,fdatasync", "-e", "signal=none", "-o", "calls", folder.program, "run", "x.dag"], cwd=folder.path, capture_output=True, timeout=PATIENCE)
        lines = [line for line in folder.read("calls").decode(errors="replace").splitlines() if "x.dag.journal>" in line]
        calls[turn] = [re.match(r"(\w+)\(\d+<[^>]*>(?:, .*, (\d+), (\d+))?\)", line).groups() for line in lines]
        size = HEADER + 2 * SLOT + 1
        folder.cut_journal(2)
    same(calls["begins"][0][0], "fsync")
    # Before the lock the journal is looked at, which syncs it; under the lock twice, once more for the round, and then by the manager.
    written = [at for at, call in enumerate(calls["goes on"]) if call[0] == "pwrite64"][0]
    same([call[0] for call in calls["goes on"][:written]], ["fsync"] * written)
    same(calls["goes on"][written], ("pwrite64", str(size), "0"))
    same(calls["goes on"][written + 1][0], "fsync")


def until(log, event, node):
    """A line of shell that waits until a log has an event of a node."""
    return f"while ! grep -qs '\t{event}\t{node}\t' {log}; do sleep 0.02; done\n"


def when_the_steps_ran(folder):
    """A row for each phase by the log, in the order in which they began, with the critical path; and a picture of the same."""
    folder.write("x.dag", DIAMOND + "RETRY C 1\nSCRIPT POST D /bin/true\n")
    folder.shell("a", "sleep 0.05\n")
    folder.shell("b", "sleep 0.05\n")
    # B ends before C, by more than the log's milliseconds, however busy the machine is.
    folder.shell("c", f"{until('x.dag.log', 'end', 'B')}sleep 0.05\n[ -e once ] && exit 0\n: >once\nexit 4\n")
    folder.shell("d", "exit 0\n")
    begun = time.monotonic()
    same(folder.call("run", "x.dag")[2], 0)
    took = time.monotonic() - begun
    text, faults, status = folder.call("times", "x.dag")
    same((faults, status), ("", 0))
    rows = [line.split("\t") for line in text.splitlines()]
    same(rows[0], ["node", "phase", "attempt", "begin", "seconds", "ended", "path"])
    wanted = {
        ("A", "JOB", "0", "exit 0", "*"), ("B", "JOB", "0", "exit 0", "-"), ("C", "JOB", "0", "exit 4", "*"), ("C", "JOB", "1", "exit 0", "*"),
        ("D", "JOB", "0", "exit 0", "*"), ("D", "POST", "0", "exit 0", "*"),
    }
    same({(*row[:3], *row[5:]) for row in rows[1:]}, wanted)
    begins = [float(row[3]) for row in rows[1:]]
    same(begins, sorted(begins))
    # None took longer than the run.
    same([row[0] for row in rows[1:] if not 0 <= float(row[3]) <= float(row[3]) + float(row[4]) <= round(took + 0.002, 3)], [])
    bars = bars_in(folder.call("times", "--svg", "x.dag")[0])
    same([bar.title.split(":")[0] for bar in bars], [" ".join(row[:3]) for row in rows[1:]])
    ends = {"exit 0": "good", "exit 4": "bad"}
    same([bar.classes for bar in bars], [" ".join([ends[row[5]]] + ["script"] * (row[1] != "JOB") + ["path"] * (row[6] == "*")) for row in rows[1:]])
    # What runs, and what was lost with its manager.
    folder.write("y.dag", "JOB A a.sub\nJOB E e.sub\nPARENT A CHILD E\n")
    folder.shell("e", "echo $$ > process\nmv process begun\nexec sleep 1000\n")
    first = folder.start("run", "y.dag")
    folder.wait_for("begun")
    folder.wait_for_start("y.dag", "E")
    same([line.split("\t")[5:] for line in folder.call("times", "y.dag")[0].splitlines()[1:]], [["exit 0", "*"], ["runs", "*"]])
    first.kill()
    first.wait(timeout=PATIENCE)
    os.remove(folder.at("begun"))
    second = folder.start("run", "y.dag")
    folder.wait_for("begun")
    folder.wait_for_start("y.dag", "E", 2)
    same([line.split("\t")[5] for line in folder.call("times", "y.dag")[0].splitlines()[1:]], ["exit 0", "lost", "runs"])
    second.kill()
    second.wait(timeout=PATIENCE)
    end_process(int(folder.read("begun")))
    # FINAL waits for all.
    folder.write("z.dag", "JOB A late.sub\nJOB D d.sub\nFINAL F d.sub\n")
    folder.shell("late", f"{until('z.dag.log', 'end', 'D')}sleep 0.05\n")
    folder.call("run", "z.dag")
    same({tuple(line.split("\t")[0::6]) for line in folder.call("times", "z.dag")[0].splitlines()[1:]}, {("A", "*"), ("D", "-"), ("F", "*")})


SVG = "{http://www.w3.org/2000/svg}"


@dataclasses.dataclass
class Bar:
    """A phase of a picture: what it says where a pointer rests, its classes, its rectangle and that of its label, each from left to right, and its row."""

    title: str
    classes: str
    left: float
    right: float
    row: str
    label: str = ""
    text_left: float = 0
    text_right: float = 0


def bars_in(picture):
    """The phases of a picture, in order."""
    bars = []
    for group in xml.etree.ElementTree.fromstring(picture).iter(SVG + "g"):
        title, box, text = (group.find(SVG + name) for name in ("title", "rect", "text"))
        if title is None:
            continue
        left = float(box.get("x"))
        bar = Bar(title.text, group.get("class"), left, left + float(box.get("width")), box.get("y"))
        if text is not None:
            at = float(text.get("x"))
            bar.label, bar.text_left, bar.text_right = text.text, at, at + float(text.get("textLength"))
        bars.append(bar)
    return bars


def log_time(milliseconds):
    moment = datetime.datetime(2026, 11, 25, 23, 40) + datetime.timedelta(milliseconds=milliseconds)
    return f"{moment:%Y-%m-%dT%H:%M:%S}.{moment.microsecond // 1000:03d}Z"


def phases_at_random(count, slots, names, chance):
    """So many phases or a few more, as many at once as there are slots: their node, phase, attempt, begin, end, the event of their end with its detail, and
    their class. Now and then a POST script accepts what a job exits with."""
    free, phases = [0] * slots, []
    while len(phases) < count:
        slot = free.index(min(free))
        begin, name = free[slot], names[len(phases) % len(names)]
        took = chance.choice((0, 3, 40, 700, 5000))
        event, detail, word = chance.choice((("end", "exit=0", "good"), ("end", "exit=3", "bad"), ("end", "signal=9", "signal"), ("end", "untold=yes", "gone"), ("killed", "", "gone")))
        accepted = word in ("bad", "signal") and chance.random() < 0.5
        attempt = len(phases)
        phases.append((name, "JOB", attempt, begin, begin + took, event, detail, "accepted" if accepted else word))
        if accepted:
            phases.append((name, "POST", attempt, begin + took, begin + took + 50, "end", "exit=0", "good script"))
        free[slot] = phases[-1][4] + 1
    return phases


def write_log(folder, phases):
    """Writes the log of phases, each of which begins after the line before it."""
    lines = []
    for name, phase, attempt, begin, end, event, detail, _ in phases:
        of = f"{name}\t{phase}\t{attempt}\t7"
        lines.append((begin, 1, f"start\t{of}\tcommand=x"))
        lines.append((end, 0 if end > begin else 2, f"{event}\t{of}\t{detail}"))
    # At one moment first what ran before ends, then what begins does, and last what takes no time ends.
    lines.sort(key=lambda line: line[:2])
    folder.write("x.dag.log", "".join(f"{log_time(moment)}\t{rest}\n" for moment, _, rest in lines))


def label_width(text):
    """The width of a label: 6.7 for a Latin letter, and twice as much for another character."""
    return sum(6.7 if ord(character) < 0x300 else 13.4 for character in text)


def labels_are_apart(bars):
    """No label is over another one or over the bar of another phase, and each has its width; each is in its bar, or after it."""
    rows = {}
    for bar in bars:
        rows.setdefault(bar.row, []).append(bar)
    for row in rows.values():
        edge = 0
        for bar in row:
            same(bar.left >= edge - 0.01, True)
            edge = max(bar.right, bar.text_right)
            if bar.label:
                same(round(bar.text_right - bar.text_left - label_width(bar.label), 1), 0)
                same(bar.text_left > bar.left and bar.text_right < bar.right or bar.text_left > bar.right, True)
        same(edge < 1200, True)


def a_picture_of_many_steps(folder):
    """Each phase has its bar, where its times say; its class is by how it ended and by a POST script that accepts that; names are escaped; the highest number of
    phases at once is shown; and many phases make no high picture."""
    chance = random.Random(7)
    names = ["A", "s+align", "a&b<c>", "\"quoted\"", "]]>", "\u5343\u5343", "n" * 70, "<!--"]
    folder.write("x.dag", "JOB A a.sub\n")
    for count, slots in ((10, 2), (300, 9), (5000, 200)):
        phases = phases_at_random(count, slots, names, chance)
        write_log(folder, phases)
        picture = folder.call("times", "--svg", "x.dag")[0]
        bars = bars_in(picture)
        total = max(phase[4] for phase in phases)
        wanted = sorted((f"{name} {phase} {attempt}", word, int(begin * 10000 / total) / 10 + 20) for name, phase, attempt, begin, _, _, _, word in phases)
        shown = sorted((bar.title.rsplit(":", 1)[0], bar.classes.replace(" path", ""), bar.left) for bar in bars)
        same([one[:2] for one in shown], [one[:2] for one in wanted])
        same(max(abs(one[2] - other[2]) for one, other in zip(shown, wanted)) < 0.11, True)
        labels_are_apart(bars)
        at_once = max(sum(phase[3] <= moment < phase[4] for phase in phases) for moment in {phase[3] for phase in phases})
        same(f"at most {at_once}</text>" in picture, True)
        same(float(xml.etree.ElementTree.fromstring(picture).get("height")) < 2500, True)
    # The times are where they are said to be: 1000 pixels for the whole time, and 20 to the left.
    write_log(folder, [("A", "JOB", 0, 0, 4000, "end", "exit=0", ""), ("B", "PRE", 0, 1000, 2000, "end", "exit=1", ""), ("C", "JOB", 0, 2000, 3000, "killed", "", "")])
    bars = bars_in(folder.call("times", "--svg", "x.dag")[0])
    same([(bar.label, bar.classes, bar.left, bar.right) for bar in bars], [("A", "good path", 20, 1020), ("B PRE", "bad script", 270, 520), ("C", "gone", 520, 770)])
    same([bar.row == bars[0].row for bar in bars], [True, False, False])
    same(bars[1].row, bars[2].row)


def as_lines(told):
    """The lines of `status` that its JSON stands for."""
    dash = lambda value: "-" if value is None else str(value)
    return "".join(f"{node['name']} {node['state']} attempts={node['attempts']} value={dash(node['value'])}\n" for node in told["nodes"])


def as_rows(told):
    """The rows of `times` that its JSON stands for."""
    seconds = lambda ms: f"{ms // 1000}.{ms % 1000:03}"
    ended = lambda run: " ".join(str(word) for word in (run["ended"], run["exit_code"], run["signal"]) if word is not None)
    row = lambda run: [run["node"], run["phase"], str(run["attempt"]), seconds(run["begin_ms"]), seconds(run["ms"]), ended(run), "*" if run["critical"] else "-"]
    return ["node", "phase", "attempt", "begin", "seconds", "ended", "path"], *(row(run) for run in told["phases"])


def json_of(folder, command, dag):
    """What a command prints as JSON: one line, with all members of each object once and in the order of their keys."""
    text, faults, status = folder.call(command, "--json", dag)
    same((text.count("\n"), text[-1:], faults, status), (1, "\n", "", 0))

    def in_order(members):
        keys = [key for key, _ in members]
        same(keys, sorted(set(keys)))
        return dict(members)

    return json.loads(text, object_pairs_hook=in_order)


def a_status_file(folder):
    """The file has the object of `status --json` as the run goes on, at most once in so many seconds, and as it ends."""
    folder.write("x.dag", "JOB A a.sub\nJOB B b.sub\nPARENT A CHILD B\n")
    folder.shell("a", ": > begun\nuntil [ -e go ]; do sleep 0.02; done\n")
    folder.shell("b", "exit 3\n")

    def states():
        return [(node["name"], node["state"], node["value"]) for node in json.loads(folder.read("s.json"))["nodes"]]

    # What is read in between is never half a status.
    run = folder.start("run", "--status-file", "s.json", "--status-every", "3600", "x.dag")
    folder.wait_for("begun")
    folder.wait_for("s.json")
    same(states(), [("A", "SUBMITTED", None), ("B", "NOT_READY", None)])
    begun = os.stat(folder.at("s.json")).st_ino
    folder.write("go", "")
    told, faults = run.communicate(timeout=PATIENCE)
    same((told, faults, run.returncode), (b"A DONE attempts=1 value=0\nB ERROR attempts=1 value=3\nresult 1\n", b"", 1))
    same((folder.read("s.json").decode(), "", 0), folder.call("status", "--json", "x.dag"))
    same((os.stat(folder.at("s.json")).st_ino == begun, folder.there("s.json.new")), (False, False))
    # With 0 it is written at each look: the state in between is seen.
    os.remove(folder.at("go"))
    folder.write("y.dag", "JOB A b.sub\nJOB B a.sub\nRETRY A 1\n")
    run = folder.start("run", "--status-file", "s.json", "--status-every", "0", "y.dag")
    wait_until(lambda: ("A", "ERROR", 3) in states(), "the error is not in the file")
    same((json.loads(folder.read("s.json"))["dag"], states()[1]), ("y.dag", ("B", "SUBMITTED", None)))
    folder.write("go", "")
    run.communicate(timeout=PATIENCE)
    # A file that can't be made, or is no status, refuses the run, and nothing is started.
    kept = folder.read("a.sub")
    os.mkdir(folder.at("there"))
    for name in ("away/s.json", "a.sub", "there"):
        same(folder.call("run", "--status-file", name, "x.dag"), ("", f"dagrun: X2 FileRefused {name}\n", 125))
    same((folder.read("a.sub"), folder.there("a.sub.new")), (kept, False))
    # An empty one, and one of an earlier run, are replaced; a round of which nothing is left to do has a status, too.
    folder.write("s.json", "")
    same(folder.call("run", "--status-file", "s.json", "x.dag")[2], 1)
    same([state for _, state, _ in states()], ["DONE", "ERROR"])


def what_a_status_file_may_not_be(folder):
    """Neither a file of dagrun's own, nor what another command prints, nor a file that was there under the other name: nothing is lost, and nothing
    is started."""
    folder.write("x.dag", "JOB A a.sub\nJOB B b.sub\n")
    folder.shell("a", "echo x >>ran\n")
    folder.shell("b", "exit 3\n")
    os.mkdir(folder.at("d"))
    os.symlink(".", folder.at("here"))
    endings = ["", ".journal", ".journal.old", ".lock", ".round", ".round.new", ".children", ".inputs", ".inputs.new", ".begun", ".begun.new", ".log", ".log.old"]
    endings += [".halt", ".scripts", ".rescue001", ".rescue999.new", ".rescue002.old"]
    names = [f"x.dag{ending}" for ending in endings]
    names += ["./x.dag.journal", "d/../x.dag.lock", "here/x.dag.children", folder.at("x.dag.round")]

    def refuses(dag, *names):
        kept = {name: folder.read(name) for name in os.listdir(folder.path) if os.path.isfile(folder.at(name))}
        for name in names:
            same(folder.call("run", "--status-file", name, dag), ("", f"dagrun: X2 FileRefused {name}\n", 125))
        same({name: folder.read(name) for name in os.listdir(folder.path) if os.path.isfile(folder.at(name))}, kept)

    # Before the first round, where most of them are not there, and after it.
    refuses("x.dag", *names)
    same((folder.there("ran"), folder.call("run", "x.dag")[2]), (False, 1))
    refuses("x.dag", *names)
    # The name under which it is written first is the DAG file's, or another file is there.
    shutil.copy(folder.at("x.dag"), folder.at("w.new"))
    refuses("w.new", "w")
    for name, text in (("t.new", "precious\n"), ("u.new", '{"dag":"x.dag","edges":0'), ("v.new", '{"dag":"x.dag","nodes":[],"ok":true}\n')):
        folder.write(name, text)
    refuses("x.dag", "t", "u", "v")
    # What other commands print as JSON; and what is no status though it looks like one.
    folder.write("y.dag", "JOB A a.sub\n")
    same(folder.call("run", "y.dag")[2], 0)
    for name, words in (("c", ("check", "--json", "y.dag")), ("o", ("audit", "--json", "y.dag")), ("t", ("times", "--json", "y.dag")),
                        ("y", ("why", "--json", "x.dag")), ("v", ("version", "--json"))):
        folder.write(f"{name}.json", folder.call(*words)[0])
    folder.write("1.json", '{"dag":"x.dag","nodes":[{"name":"A"}]}\n')
    folder.write("2.json", '{"dag":"x.dag\\","nodes":[]}\n')
    folder.write("3.json", '{"dag":"x\n","nodes":[]}\n')
    folder.write("4.json", '{"dag":"x.dag","nodes":[{"attempts":1')
    folder.write("5.json", "{")
    refuses("x.dag", *(f"{name}.json" for name in "cotyv12345"))


def what_a_status_file_may_be(folder):
    """A status of another DAG, whatever its path, part of one that a killed manager left under the other name, and names that are nearly dagrun's own."""
    folder.write("x.dag", "JOB A a.sub\n")
    folder.echo("a")
    answer = (done_lines("A") + "result 0\n", "", 0)
    for name in ('quo"te.dag', "back\\slash.dag", 'both\\".dag', "tab\t.dag", "\u96ea.dag"):
        folder.write(name, "")
        same(folder.call("run", "--status-file", "s.json", name)[1:], ("", 0))
        same(json.loads(folder.read("s.json")), {"dag": name, "nodes": []})
        same(folder.call("run", "--status-file", "s.json", "x.dag"), answer)
        same(json.loads(folder.read("s.json"))["dag"], "x.dag")
    whole = folder.read("s.json")
    for size in (0, 1, 6, 9, 13, 15, 20, 30, 40, len(whole) - 2, len(whole) - 1, len(whole)):
        folder.write("s.json.new", whole[:size])
        same(folder.call("run", "--status-file", "s.json", "x.dag"), answer)
        same((folder.read("s.json"), folder.there("s.json.new")), (whole, False))
    for name in ("x.dag.json", "x.dag.rescue01", "x.dag.rescue0001", "x.dag.rescue001.json", "x.dag.logs", "x.da"):
        same(folder.call("run", "--status-file", name, "x.dag"), answer)
        same(folder.read(name), whole)
    # Beside another DAG file of that name it is none of this one's.
    os.mkdir(folder.at("d"))
    same(folder.call("run", "--status-file", "d/x.dag.log", "x.dag"), answer)
    same(folder.read("d/x.dag.log"), whole)


def an_output_in_place_of_a_status(folder):
    """What a job makes under the name of the file while the run goes on is left, and so is what it makes under the other name."""
    for name, made in (("s", "s"), ("t", "t.new")):
        folder.write(f"{name}.dag", f"JOB A {name}.sub\nJOB B b.sub\nPARENT A CHILD B\n")
        # It is written once before A ends, and, but for the output, as the run ends.
        folder.shell(name, f"until [ -s {name} ]; do sleep 0.01; done\necho result >made\nmv made {made}\n")
        folder.echo("b")
        same(folder.call("run", "--status-file", name, "--status-every", "3600", f"{name}.dag"), (done_lines("A", "B") + "result 0\n", "", 0))
        same(folder.read(made), b"result\n")
    same([node["state"] for node in json.loads(folder.read("t"))["nodes"]], ["SUBMITTED", "NOT_READY"])
    same(folder.there("s.new"), False)


def json_is_the_text(folder):
    """What `status` and `times` print as JSON is what they print as text, of generated rounds."""
    rolls = random.Random(62)
    for end, code in (("good", 0), ("bad", 3), ("worse", 255)):
        folder.write(f"{end}.sub", f"executable = /bin/sh\narguments = \"-c 'exit {code}'\"\nqueue\n")
    folder.write("gone.sub", "executable = /nowhere/at/all\nqueue\n")
    folder.shell("killed", "kill -9 $$\n")
    names = ["A", "B-1", 'quo"te', "back\\slash", "\u00e9t\u00e9", "\u96ea", "a*b", "tab_", "X'y"]
    for turn in range(60):
        chosen = rolls.sample(names, rolls.randint(1, len(names)))
        lines = [f"JOB {name} {rolls.choice(['good', 'good', 'good', 'bad', 'worse', 'gone', 'killed'])}.sub" for name in chosen]
        lines += [f"RETRY {name} {rolls.randint(1, 2)}" for name in chosen if rolls.random() < 0.2]
        lines += [f"SCRIPT {rolls.choice(['PRE', 'POST'])} {name} /bin/{rolls.choice(['true', 'false'])}" for name in chosen if rolls.random() < 0.3]
        lines += [f"PARENT {chosen[rolls.randrange(it)]} CHILD {chosen[it]}" for it in range(1, len(chosen)) if rolls.random() < 0.6]
        lines += ["FINAL Last good.sub"] * (turn % 3 == 0)
        dag = f"{turn}.dag"
        folder.write(dag, "\n".join(lines) + "\n")
        folder.call("run", "--maxjobs", "3", dag)
        told = json_of(folder, "status", dag)
        same((told["dag"], as_lines(told)), (dag, folder.call("status", dag)[0]))
        # Without a tab in a name a row has as many fields as the head.
        rows = [line.split("\t") for line in folder.call("times", dag)[0].splitlines()]
        same(list(as_rows(json_of(folder, "times", dag))), rows)
    # What JSON has no text for in the words of the table: a phase that runs has neither a code nor a signal.
    folder.write("y.dag", "JOB A a.sub\n")
    folder.shell("a", "mv x.new begun\nexec sleep 1000\n")
    folder.write("x.new", "")
    manager = folder.start("run", "y.dag")
    folder.wait_for("begun")
    folder.wait_for_start("y.dag", "A")
    (run,) = json_of(folder, "times", "y.dag")["phases"]
    same((run["ended"], run["exit_code"], run["signal"], run["critical"]), ("runs", None, None, True))
    same(json_of(folder, "status", "y.dag"), {"dag": "y.dag", "nodes": [{"name": "A", "state": "SUBMITTED", "attempts": 0, "value": None}]})
    manager.terminate()
    manager.wait(timeout=PATIENCE)
    # What is refused is refused with and without it, and it is not given with a picture.
    for words in (("status", "none.dag"), ("times", "none.dag")):
        same(folder.call(words[0], "--json", words[1]), folder.call(*words))
    text, faults, status = folder.call("times", "--json", "--svg", "y.dag")
    same((text, "cannot be used with" in faults, status), ("", True, 125))


def the_round_before(folder):
    """A row for each of the last two rounds, by their logs; none of another one where that log is missing."""
    folder.write("x.dag", "JOB A a.sub\nJOB B b.sub\nJOB C none.sub\nSCRIPT POST C /bin/true\nPARENT A CHILD B\n")
    folder.echo("a")
    folder.shell("b", "test -e ready\n")
    folder.write("none.sub", "executable = /nowhere/at/all\nqueue\n")
    rows = lambda: [line.split("\t") for line in folder.call("times", "--rounds", "x.dag")[0].splitlines()]
    begun = lambda name: folder.read(name).decode().split("\t")[0]
    head = ["began", "seconds", "phases", "failed", "ended"]
    refused(folder, ("times", "--rounds", "x.dag"), "X2 FileRefused x.dag.log")
    same(folder.call("run", "x.dag")[2], 1)
    # A, B and C began and C's script, and B and C failed.
    first = begun("x.dag.log")
    same([[row[0], *row[2:]] for row in rows()], [[head[0], *head[2:]], [first, "4", "2", "exit 1"]])
    folder.write("ready", "")
    began = time.monotonic()
    same(folder.call("run", "x.dag")[2], 0)
    took = time.monotonic() - began
    # Only B is left by the rescue file.
    found = rows()
    same([[row[0], *row[2:]] for row in found[1:]], [[first, "4", "2", "exit 1"], [begun("x.dag.log"), "1", "0", "exit 0"]])
    same((found[0], 0 <= float(found[2][1]) <= round(took + 0.002, 3)), (head, True))
    # It is the time from the first line of the log to its last one.
    stamps = [datetime.datetime.fromisoformat(line.split("\t")[0].replace("Z", "+00:00")) for line in folder.read("x.dag.log").decode().splitlines()]
    same(found[2][1], f"{(stamps[-1] - stamps[0]).total_seconds():.3f}")
    # A round that runs, and one that was cut short.
    folder.write("y.dag", "JOB E e.sub\n")
    folder.shell("e", "echo $$ > process\nmv process begun\nexec sleep 1000\n")
    manager = folder.start("run", "y.dag")
    folder.wait_for("begun")
    folder.wait_for_start("y.dag", "E")
    ended = lambda: [line.split("\t")[2:] for line in folder.call("times", "--rounds", "y.dag")[0].splitlines()[1:]]
    same(ended(), [["1", "0", "runs"]])
    manager.terminate()
    manager.wait(timeout=PATIENCE)
    end_process(int(folder.read("begun")))
    # Nobody wrote that it ended, until another round begins in its place.
    same(ended(), [["1", "0", "runs"]])
    os.rename(folder.at("y.dag.log"), folder.at("y.dag.log.old"))
    folder.write("y.dag.log", "")
    same(ended(), [["1", "0", "cut short"]])
    # A log that is no file is refused by name where it is asked for, and by nothing else.
    os.remove(folder.at("x.dag.log.old"))
    same(len(rows()), 2)
    os.mkdir(folder.at("x.dag.log.old"))
    refused(folder, ("times", "--rounds", "x.dag"), "X2 FileRefused x.dag.log.old")
    same(folder.call("times", "x.dag")[1:], ("", 0))
    for other in ("--json", "--svg", "--summary"):
        text, faults, status = folder.call("times", "--rounds", other, "x.dag")
        same((text, "cannot be used with" in faults, status), ("", True, 125))


def what_more_slots_gain(folder):
    """A summary says of each limit that was full how long the round would have taken without it, once the round has ended and unless it was aborted."""
    folder.write("x.dag", "".join(f"JOB {name} s.sub\nCATEGORY {name} heavy\n" for name in "ABCD") + "JOB E s.sub\nMAXJOBS heavy 1\n")
    folder.shell("s", "sleep 0.3\n")
    same(folder.call("run", "--maxjobs", "3", "x.dag")[2], 0)
    gains = lambda: [line for line in folder.call("times", "--summary", "x.dag")[0].splitlines() if line.startswith("with no limit on ")]
    seconds = lambda line: [float(number) for number in re.findall(r"[0-9]+\.[0-9]{3}", line)]
    # One of the category and E at once: the limit on jobs was not full.
    (heavy,) = gains()
    same(heavy.startswith("with no limit on jobs of heavy it would have taken "), True)
    # Without it three jobs run at once, and then two; with it four, one after another.
    without, under_all = seconds(heavy)
    same((0.6 <= without < 1.2, 1.2 <= under_all), (True, True))
    lines = folder.read("x.dag.log").splitlines(keepends=True)
    folder.write("x.dag.log", b"".join(line for line in lines if b"\tfinish\t" not in line))
    same(gains(), [])
    # After an abort nothing is said: what was not run is not known.
    folder.write("y.dag", "JOB A f.sub\nJOB B f.sub\nABORT-DAG-ON A 3\n")
    folder.shell("f", "exit 3\n")
    same(folder.call("run", "--maxjobs", "1", "y.dag")[2], 3)
    same("with no limit" in folder.call("times", "--summary", "y.dag")[0], False)


def times_of_changed_files(folder):
    """The critical path of a round is by the files with which it began, where others are there now and they are kept; and without that by those."""
    folder.write("x.dag", "JOB A a.sub\nJOB B b.sub\nJOB C b.sub\nPARENT A CHILD B\n")
    folder.shell("a", f"{until('x.dag.log', 'end', 'C')}exit 0\n")
    folder.shell("b", "sleep 0.02\n")
    same(folder.call("run", "x.dag")[2], 0)
    marks = lambda *words: {tuple(line.split("\t")[0::6]) for line in folder.call("times", *words, "x.dag")[0].splitlines()[1:]}
    as_it_was, as_it_is = {("A", "*"), ("B", "*"), ("C", "-")}, {("A", "-"), ("B", "*"), ("C", "*")}
    same(marks(), as_it_was)
    folder.write("x.dag", "JOB A a.sub\nJOB B b.sub\nJOB C b.sub\nPARENT C CHILD B\n")
    same(folder.call("status", "x.dag"), ("", "dagrun: J5 OtherInputs\n", 125))
    same((marks(), marks("--as-begun")), (as_it_was, as_it_was))
    # A fault of the files as they are is none of that round, as for `why`; it counts where the round isn't kept.
    folder.write("x.dag", "JOBB A a.sub\n")
    same(marks(), as_it_was)
    os.remove(folder.at("x.dag.begun"))
    same(folder.call("times", "x.dag"), ("", "dagrun: L2 UnknownCommand x.dag:1:1\n", 125))
    folder.write("x.dag", "JOB A a.sub\nJOB B b.sub\nJOB C b.sub\nPARENT C CHILD B\n")
    same(marks(), as_it_is)


def times_without_a_log(folder):
    folder.write("x.dag", "JOB A a.sub\n")
    refused(folder, ("times", "x.dag"), "X2 FileRefused x.dag.log")
    folder.write("x.dag.log", b"\xff\nno line\n2026-11-25T23:40:00.000Z\tstart\tB\tJOB\t0\t7\n2026-11-25T23:39:00.000Z\tend\tB\tJOB\t0\t7\texit=0\n2026-11-25T23:41:00.000Z\tstart\tA")
    # A node that the DAG doesn't have has a row, and a clock that went back does not go back here.
    same(folder.call("times", "x.dag"), ("node\tphase\tattempt\tbegin\tseconds\tended\tpath\nB\tJOB\t0\t0.000\t0.000\texit 0\t*\n", "", 0))
    os.remove(folder.at("x.dag"))
    refused(folder, ("times", "x.dag"), "S1 MissingFile x.dag")


def run_with(folder, own, *words):
    """A call of `run` of x.dag with these settings in its environment."""
    done = subprocess.run([folder.program, "run", *words, "x.dag"], cwd=folder.path, capture_output=True, timeout=PATIENCE, env={**os.environ, **own})
    return done.stdout.decode(), done.stderr.decode(), done.returncode


def see(folder):
    """A program that writes its words and what X is."""
    folder.write("see.sh", '#!/bin/sh\necho "$* ${X-none}" >> seen\n')
    os.chmod(folder.at("see.sh"), 0o755)


def seen(folder):
    text = folder.read("seen").decode()
    os.remove(folder.at("seen"))
    return text.splitlines()


def a_launcher(folder):
    """--launcher stands before the programs of jobs, with --launcher-final before FINAL's too, and before no script."""
    folder.write(
        "x.dag",
        "JOB A a.sub\nJOB N a.sub NOOP\nPARENT A CHILD N\nFINAL F f.sub\n"
        + "".join(f"SCRIPT {kind} {name} see.sh {kind} {name}\n" for name in "ANF" for kind in ("PRE", "POST")),
    )
    see(folder)
    for name in "af":
        folder.write(f"{name}.sub", f"executable = see.sh\narguments = job {name}\nqueue\n")
    report = "A DONE attempts=1 value=0\nN DONE attempts=1 value=0\nF DONE attempts=1 value=0\nresult 0\n"
    launcher = ("--launcher", "env X=1")
    for words, job, final in (((), "none", "none"), (launcher, "1", "none"), ((*launcher, "--launcher-final"), "1", "1"), (("--launcher-final",), "none", "none")):
        same(folder.call("run", *words, "x.dag"), (report, "", 0))
        same(seen(folder), ["PRE A none", f"job a {job}", "POST A none", "PRE N none", "POST N none", "PRE F none", f"job f {final}", "POST F none"])
    # The log has it, and the program's path behind it.
    here, env = os.path.realpath(folder.path), shutil.which("env")
    same(folder.call("run", *launcher, "--launcher-final", "x.dag"), (report, "", 0))
    same(
        [(line[1], line[2], line[4]["command"]) for line in fields_of(folder) if line[0] == "start" and line[2] != "POST"],
        [("A", "PRE", f"{here}/see.sh PRE A"), ("A", "JOB", f"{env} X=1 {here}/see.sh job a"), ("N", "PRE", f"{here}/see.sh PRE N"),
         ("F", "PRE", f"{here}/see.sh PRE F"), ("F", "JOB", f"{env} X=1 {here}/see.sh job f")],
    )


def a_nice_launcher(folder):
    folder.write("x.dag", "JOB A a.sub\nSCRIPT PRE A nice.sh pre\n")
    folder.write("nice.sh", "#!/bin/sh\nnice > $1.nice\n")
    os.chmod(folder.at("nice.sh"), 0o755)
    folder.write("a.sub", "executable = nice.sh\narguments = job\nqueue\n")
    same(folder.call("run", "--launcher", "nice -n 5", "x.dag"), (ONE_DONE, "", 0))
    own = os.getpriority(os.PRIO_PROCESS, 0)
    same([int(folder.read(f"{name}.nice")) for name in ("pre", "job")], [own, min(own + 5, 19)])


def why_with_a_launcher(folder):
    """`why` shows the words of the launcher before those of a job; a script has none, and no launcher has none."""
    folder.write("x.dag", "JOB A a.sub\nJOB B a.sub\nSCRIPT PRE B /bin/false\n")
    folder.shell("a", "exit 3\n")
    here = os.path.realpath(folder.path)
    os.symlink("/usr/bin/env", folder.at("an env"))

    def lines_of(name):
        return [line.strip() for line in why(folder, name).splitlines()[1:3]]

    command, place = "command  /bin/sh a.sh", f"folder   {here}"
    for launcher, shown in (("'./an env' X=1", f"launcher '{here}/./an env' X=1"), ("env Y=2", f"launcher {shutil.which('env')} Y=2")):
        same(folder.call("run", "--launcher", '"' + launcher + '"', "x.dag")[2], 1)
        same((lines_of("A"), lines_of("B")), ([command, shown], ["command  /bin/false", place]))
    same(folder.call("run", "x.dag")[2], 1)
    same(lines_of("A"), [command, place])


def what_a_job_asks_for(folder):
    """A launcher has what the submit file asks of a cluster in its environment, expanded for the attempt, and empty where it asks for nothing; the job's own
    environment wins. A text that can't be expanded is there as it is written. A script, and a job without a launcher, has none of it."""
    folder.write("l.sh", '#!/bin/sh\nenv | grep ^DAGRUN_REQUEST_ | sort >"asked.$DAGRUN_NODE.$DAGRUN_ATTEMPT"\nexec "$@"\n')
    folder.write("p.sh", '#!/bin/sh\nenv | grep -c ^DAGRUN_REQUEST_ >"script.$DAGRUN_PHASE"\nexit 0\n')
    for name in ("l.sh", "p.sh"):
        os.chmod(folder.at(name), 0o755)
    folder.write("s.sub", "executable = /bin/false\nrequest_cpus = $(C)\nRequest_Memory = $(M:2 GB)\nrequest_disk = $(R)$(RETRY)\nqueue\n")
    folder.write("t.sub", 'executable = /bin/true\nrequest_cpus = 4\nrequest_gpus = $(x\nrequest_memory = $(Cluster)\nenvironment = "DAGRUN_REQUEST_CPUS=5"\nqueue\n')
    folder.write("x.dag", "JOB A s.sub\nVARS A C=\"3\" R=\"10\"\nRETRY A 1\nSCRIPT PRE A p.sh\nJOB B t.sub\n")
    same(folder.call("run", "--launcher", "./l.sh", "x.dag"), ("A ERROR attempts=2 value=1\nB DONE attempts=1 value=0\nresult 1\n", "", 1))
    for attempt in (0, 1):
        same(folder.read(f"asked.A.{attempt}").decode(), f"DAGRUN_REQUEST_CPUS=3\nDAGRUN_REQUEST_DISK=10{attempt}\nDAGRUN_REQUEST_GPUS=\nDAGRUN_REQUEST_MEMORY=2 GB\n")
    same(folder.read("asked.B.0").decode(), "DAGRUN_REQUEST_CPUS=5\nDAGRUN_REQUEST_DISK=\nDAGRUN_REQUEST_GPUS=$(x\nDAGRUN_REQUEST_MEMORY=$(Cluster)\n")
    same(folder.read("script.PRE"), b"0\n")


def words_of_a_launcher(folder):
    """They are split as arguments are. Behind them comes the path of the program, wherever the job runs, and its words."""
    os.mkdir(folder.at("sub"))
    folder.write("x.dag", "JOB A a.sub\n")
    folder.write("a.sub", "executable = see.sh\narguments = \"'two words' ''\"\ninitialdir = sub\noutput = out\nqueue\n")
    see(folder)
    folder.write("with blank.sh", '#!/bin/sh\npwd\nfor word; do echo "[$word]"; done\n')
    os.chmod(folder.at("with blank.sh"), 0o755)
    here = os.path.realpath(folder.path)
    shutil.copy(folder.at("with blank.sh"), folder.at("l.sh"))
    own = [f"[{here}/see.sh]", "[two words]", "[]"]
    for launcher, words in (
        ("./l.sh", []),
        ("  ./l.sh\t-x  ", ["[-x]"]),
        ('./l.sh \\"q\\" it\'s \'a b\'', ['["q"]', "[it's]", "['a]", "[b']"]),
        ("\"'./with blank.sh' 'a b' '' it''s\"", ["[a b]", "[]", "[its]"]),
        (f"{here}/l.sh --", ["[--]"]),
    ):
        same(folder.call("run", f"--launcher={launcher}", "x.dag"), (ONE_DONE, "", 0))
        same(folder.read("sub/out").decode().splitlines(), [f"{here}/sub", *words, *own])
    for launcher, cause in (('"a b', "a quote stands alone"), ('"', "a quote stands alone"), ("\"'a\"", "a quote stands alone"), ("\"'' a\"", "its program has no name")):
        line = f"error: invalid value '{launcher}' for '--launcher <WORDS>': {cause}\n\nFor more information, try '--help'.\n"
        same(folder.call("run", "--launcher", launcher, "x.dag"), ("", line, 125))
        same(run_with(folder, {"DAGRUN_LAUNCHER": launcher}), ("", line, 125))


def a_launcher_of_the_environment(folder):
    """DAGRUN_LAUNCHER stands for the option where it isn't given; one without words is none."""
    folder.write("x.dag", "JOB A a.sub\n")
    folder.write("a.sub", "executable = see.sh\narguments = job\nqueue\n")
    see(folder)
    for own, words, wanted in (
        ({"DAGRUN_LAUNCHER": "env X=2"}, (), "2"),
        ({"DAGRUN_LAUNCHER": "env X=2"}, ("--launcher", "env X=3"), "3"),
        ({"DAGRUN_LAUNCHER": "env X=2"}, ("--launcher=",), "none"),
        ({"DAGRUN_LAUNCHER": "env X=2"}, ("--launcher", " \t"), "none"),
        ({"DAGRUN_LAUNCHER": ""}, (), "none"),
        ({"DAGRUN_LAUNCHER": '""'}, (), "none"),
    ):
        same(run_with(folder, own, *words), (ONE_DONE, "", 0))
        same(seen(folder), [f"job {wanted}"])
    done = subprocess.run([folder.program, "check", "x.dag"], cwd=folder.path, capture_output=True, timeout=PATIENCE, env={**os.environ, "DAGRUN_LAUNCHER": '"'})
    same((done.stdout, done.returncode), (b"ok nodes=1 edges=0 final=no\n", 0))


def no_launcher(folder):
    """A launcher that isn't there, or that nobody may run, is refused before anything is started or made."""
    folder.write("x.dag", "JOB A a.sub\n")
    folder.write("a.sub", "executable = see.sh\narguments = job\nqueue\n")
    see(folder)
    folder.write("plain", "#!/bin/sh\n")
    os.makedirs(folder.at("bin/env"))
    before = sorted(os.listdir(folder.path))
    for launcher, name in (("no-such-program -x", "no-such-program"), ("./no.sh", "./no.sh"), ("/no/such -x", "/no/such"), ("./plain", "./plain"), ("./bin", "./bin"), ("plain", "plain")):
        same(run_with(folder, {"PATH": f"{os.environ['PATH']}:{folder.path}"}, "--launcher", launcher), ("", f"dagrun: X2 FileRefused {name}\n", 125))
        same(sorted(os.listdir(folder.path)), before)
    # It is told behind what is wrong with the files.
    folder.write("y.dag", "JOB A no.sub\n")
    refused(folder, ("run", "--launcher", "/no/such", "y.dag"), "P1 MissingFile no.sub")
    # Along PATH what is no program is passed over; a relative folder, and an empty one, is seen from that of the call.
    folder.write("bin/plain", "#!/bin/sh\nX=bin exec \"$@\"\n")
    os.chmod(folder.at("bin/plain"), 0o755)
    for path, launcher, wanted in ((f"{folder.path}/bin:{os.environ['PATH']}", "env X=4", "4"), (f":bin:{os.environ['PATH']}", "plain", "bin"), (f"/no:{os.environ['PATH']}:bin", "plain", "bin")):
        same(run_with(folder, {"PATH": path}, "--launcher", launcher), (ONE_DONE, "", 0))
        same(seen(folder), [f"job {wanted}"])
    # Without PATH it is looked for where the system's programs are.
    own = {name: value for name, value in os.environ.items() if name != "PATH"}
    done = subprocess.run([folder.program, "run", "--launcher", "env X=5", "x.dag"], cwd=folder.path, capture_output=True, timeout=PATIENCE, env=own)
    same((done.stdout.decode(), done.stderr, seen(folder)), (ONE_DONE, b"", ["job 5"]))


def endings_by_a_launcher(folder):
    """How the launcher ends is how the job ends; where it is gone meanwhile, the job can't be started."""
    folder.write("x.dag", "JOB A a.sub\nJOB B b.sub\nJOB C c.sub\nJOB D a.sub\nPARENT C CHILD D\nSCRIPT POST D post.sh $RETURN\n")
    folder.write("a.sub", "executable = /no/such\nqueue\n")
    folder.shell("b", "kill -9 $$\n")
    folder.shell("c", until("x.dag.log", "end", "A") + until("x.dag.log", "end", "B") + "rm l.sh\n")
    folder.write("post.sh", "#!/bin/sh\necho $1 > return\n")
    folder.write("l.sh", '#!/bin/sh\nexec env "$@"\n')
    for name in ("post.sh", "l.sh"):
        os.chmod(folder.at(name), 0o755)
    text, told, status = folder.call("run", "--launcher", "./l.sh", "x.dag")
    same((text, told, status), ("A ERROR attempts=1 value=127\nB ERROR attempts=1 value=-9\nC DONE attempts=1 value=0\nD DONE attempts=1 value=0\nresult 1\n", "", 1))
    same(folder.read("return"), b"-1001\n")
    here = os.path.realpath(folder.path)
    failed = [line[4] for line in fields_of(folder) if line[0] == "notstarted"]
    same([(line["what"], line["path"], line["command"]) for line in failed], [("program", f"{here}/./l.sh", f"{here}/./l.sh /no/such")])


def another_launcher(folder):
    """A round goes on under another launcher, or none: it is no part of what a round was begun with."""
    folder.write("x.dag", "JOB A a.sub\nJOB B b.sub\nJOB C c.sub\nPARENT A CHILD B\nPARENT B CHILD C\n")
    see(folder)
    for name in "abc":
        folder.write(f"{name}.sub", f"executable = see.sh\narguments = {name}\nqueue\n")
    report = "".join(f"{name} DONE attempts=1 value=0\n" for name in "ABC") + "result 0\n"
    same(folder.call("run", "--launcher", "env X=1", "x.dag"), (report, "", 0))
    same(seen(folder), ["a 1", "b 1", "c 1"])
    # Life, the launch of A and its end; then Life, the launch of B and its end.
    folder.cut_journal(3)
    same(folder.call("run", "--launcher", "env X=2", "x.dag"), (report, "", 0))
    same(seen(folder), ["b 2", "c 2"])
    folder.cut_journal(6)
    same(folder.call("run", "x.dag"), (report, "", 0))
    same(seen(folder), ["c none"])
    same(folder.call("audit", "x.dag")[2], 0)
    here, env = os.path.realpath(folder.path), shutil.which("env")
    same(
        [line[4]["command"] for line in fields_of(folder) if line[0] == "start"],
        [*(f"{env} X=1 {here}/see.sh {name}" for name in "abc"), *(f"{env} X=2 {here}/see.sh {name}" for name in "bc"), f"{here}/see.sh c"],
    )


ROWS = [
    diamond,
    status_without_a_journal,
    one_fails_and_passes,
    without_the_rescue_file,
    a_program_that_is_not_there,
    a_diamond_with_a_noop_and_no_program,
    endings,
    told_endings,
    what_can_not_be_started,
    an_abort_kills,
    what_ignores_signals_is_killed,
    streams_and_environment,
    two_wait_for_each_other,
    two_runs_agree,
    an_abort_and_final,
    a_first_life_of_four_records,
    a_life_of_one_launch,
    a_folder_for_a_rescue_file,
    a_folder_for_the_journal,
    a_journal_that_stays,
    a_folder_in_the_way_of_salvage,
    other_inputs,
    no_journal,
    post_behind_a_failed_pre,
    the_flag_of_the_journal,
    a_flag_of_bad_bytes,
    numbers_that_no_file_has,
    lines_of_a_rescue_file,
    a_foreign_record,
    audit_of_a_diamond,
    audit_of_two_crashes,
    audit_of_a_failing_job,
    audit_of_an_abort,
    audit_of_a_failing_final,
    audit_behind_a_rescue_file,
    refusals_of_audit,
    back_to_the_first_round,
    rescue_numbers_with_gaps,
    the_last_rescue_number,
    names_that_are_no_text,
    refusals_of_going_back,
    folders_in_the_place_of_rescue_files,
    a_folder_that_may_not_be_written,
    a_second_manager,
    a_lock_for_a_moment,
    a_journal_that_is_being_written,
    a_lock_that_was_removed,
    no_lock_is_left,
    first_rounds_at_once,
    special_files_beside,
    pipes_and_devices_beside,
    huge_files_beside,
    a_log_under_a_limit,
    permissions_of_what_is_made,
    special_inputs,
    inputs_of_many_bytes,
    a_report_again,
    when_the_steps_ran,
    a_status_file,
    what_a_status_file_may_not_be,
    what_a_status_file_may_be,
    an_output_in_place_of_a_status,
    json_is_the_text,
    the_round_before,
    what_more_slots_gain,
    times_of_changed_files,
    times_without_a_log,
    a_picture_of_many_steps,
    endings_that_nobody_is_told,
    names_that_are_too_long,
    stopped_by_sigterm,
    stopped_by_sigint,
    an_orphan_holds_no_lock,
    limits_of_a_call,
    limits_of_the_environment,
    a_launcher,
    a_nice_launcher,
    why_with_a_launcher,
    what_a_job_asks_for,
    words_of_a_launcher,
    a_launcher_of_the_environment,
    no_launcher,
    endings_by_a_launcher,
    another_launcher,
    an_abort_asks_launchers,
    an_abort_kills_launchers,
    words_that_are_no_request,
    help_and_version,
    how_many_jobs_at_once,
    what_help_says_of_defaults,
    a_picture_of_a_run,
    in_another_folder,
    the_example,
    a_log,
    a_log_that_can_not_be_written,
    what_was_refused, a_cut_line_of_the_log,
    an_abort_in_the_log,
    an_orphan_is_killed,
    an_orphan_with_an_odd_name,
    an_orphan_is_left,
    an_orphan_is_waited_for,
    another_process_of_that_number,
    children_that_can_not_be_read,
    closed_streams,
    no_process_to_be_had,
    few_descriptors,
    one_splice_in_two_folders,
    no_permission,
    no_permission_for_the_reader,
    no_first_line,
    a_carriage_return,
    no_such_program,
    no_such_program_at_home,
    a_pipe_for_a_program,
    no_reader,
    no_output_folder,
    no_script,
    no_working_folder,
    no_process,
    why_attempts,
    why_scripts,
    what_scripts_print,
    why_waiting,
    why_many,
    why_groups,
    why_no_round,
    as_the_round_began,
    not_known_how_the_round_began,
    why_by_the_journal,
    why_while_it_runs,
    why_behind_a_kill,
    why_aborted,
    what_a_round_began_with,
    inputs_with_odd_names,
    inputs_that_can_not_be_written,
    salvaged_behind_a_kill,
    salvaged_at_each_moment,
    salvaged_with_submit_files_that_are_broken,
    salvaged_with_the_flag,
    salvaged_rounds,
    salvaged_once_ended,
    salvaged_splices,
    salvaged_after_any_change,
    salvaged_with_samples_added,
    changed_at_each_moment,
    salvaged_with_changed_splices,
    salvaged_without_its_rescue_file,
    many_nodes_that_are_gone,
    kept_files_that_are_no_good,
    kept_files_that_are_too_large,
    kept_files_that_can_not_be_written,
    refusals_of_salvage,
    redone_point,
    redone_points,
    redone_alone,
    redone_numbers,
    redone_after_failure,
    redone_when_cut_short,
    redone_by_the_files_as_they_began,
    redone_splices_and_final,
    refusals_of_redo,
    halted_while_jobs_run,
    halted_before_the_first_launch,
    halted_and_killed,
    halted_with_nothing_left,
    halted_in_a_folder_that_is_renamed,
    halted_behind_a_link_that_is_switched,
    a_rescue_file_of_a_folder_that_is_renamed,
    halted_without_its_journal,
    halted_behind_another_journal,
    what_another_manager_keeps,
    halted_at_a_script,
    stopped_at_the_first_error,
    not_stopped_by_what_is_tried_again,
]


def main():
    program = os.path.realpath(sys.argv[1])
    rows = list(ROWS)
    if shutil.which("strace"):
        rows += [a_kill_refused_behind_an_abort, another_round_before_the_lock, a_look_beside_a_manager, the_order_of_the_disk, names_are_synced, outputs_are_synced, outputs_of_endings_together, outputs_that_are_refused, cut_short_while_going_back, a_child_that_was_being_started, a_launched_child_that_was_being_started, what_the_system_said, the_end_of_a_journal, cut_short_while_salvaging]
    else:
        print("strace is not installed: the order in which the disk is written is not looked at, and no call of going back is cut short, and no child while it is started")
    if os.getuid() == 0:
        rows += [a_halt_of_another_user, files_of_other_users, told_by_files_of_other_users, salvaged_by_files_of_other_users, redone_by_files_of_other_users]
    else:
        print("this is not root: whose the files are that stand beside a DAG is not looked at")
    if can_mount():
        rows.append(outputs_behind_a_power_cut)
    else:
        print("no file system can be made and mounted here: what a power cut leaves is not looked at")
    if len(sys.argv) > 2:
        rows = [row for row in rows if sys.argv[2] in row.__name__]
    failed = 0
    for row in rows:
        with tempfile.TemporaryDirectory() as path, contextlib.ExitStack():
            try:
                row(Folder(program, path))
            except (AssertionError, OSError, subprocess.SubprocessError) as fault:
                failed += 1
                print(f"FAILED {row.__name__}: {fault}")
    print(f"{len(rows) - failed} passed, {failed} failed")
    sys.exit(1 if failed else 0)


if __name__ == "__main__":
    main()
