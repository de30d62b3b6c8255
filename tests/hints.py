#!/usr/bin/env python3
"""Compares what `dagrun check --hints` and `dagrun check --condor` tell with texts that were written by hand: hints.py PROGRAM

Each row has files, the words behind `check`, what stands on standard error, and what the same call without the two options answers: its
standard output, its status and its line on standard error have to be there, too. The last line is 'N passed, M failed'."""

import os
import subprocess
import sys
import tempfile

OK = "ok nodes=1 edges=0 final=no"
DAG = "JOB A a.sub\n"
UNKNOWN = "is no command that dagrun reads, and no macro that is referred to"
LOG = "no log is named, and HTCondor keeps none for this job: write log = FILE"
GETENV = "the job has the environment of dagrun here, and none under HTCondor: write getenv = true"
FOLDER = "HTCondor runs the job in a folder of its own, where relative paths lead elsewhere: write universe = local"
COUNTED = "since $(Cluster) begins at 1 again in each round: put $(JOB) into its name"
INPUT = "is the input of the job, too, and is emptied as it starts: name another file"
OWN = "is a file of the DAG itself, and is emptied as the job starts: name another file"
QUOTES = "the double quotes in arguments are letters here, and HTCondor refuses them: write \"-c 'echo hi'\" for -c \"echo hi\", and \\\" for a letter"
QUIET = "log = a.log\ngetenv = true\nuniverse = local\n"


def sub(*lines):
    """A submit file with these lines between its program and its queue line."""
    return "\n".join(["executable = /bin/echo", *lines, "queue", ""])


class Row:
    def __init__(self, name, files, told, answer=OK, words=("--hints", "x.dag"), warned=(), stdin=None):
        self.name, self.files, self.told, self.answer = name, files, told, answer
        self.words, self.warned, self.stdin = words, warned, stdin


ROWS = [
    Row("nothing odd", {"x.dag": DAG, "a.sub": sub("arguments = hello")}, []),
    Row(
        "a misspelled name",
        {"x.dag": DAG, "a.sub": sub("argumnets = hello", "Ouptut = a.txt")},
        [f"hint: a.sub:2 argumnets {UNKNOWN}: is arguments meant?", f"hint: a.sub:3 Ouptut {UNKNOWN}: is output meant?"],
    ),
    Row(
        "a name of nothing",
        {"x.dag": DAG, "a.sub": sub("frobnication_of_all = 1")},
        [f"hint: a.sub:2 frobnication_of_all {UNKNOWN}: take the line away"],
    ),
    Row(
        "names that mean something",
        {"x.dag": DAG, "a.sub": sub("LOG = a.log", "+Project = \"x\"", "MY.Owner = \"y\"", "requirements = True", "word = 1", "arguments = $(Word)")},
        [],
    ),
    Row(
        "a macro that only VARS refers to",
        {"x.dag": DAG + 'VARS A all="$(part)"\n', "a.sub": sub("part = 1", "arguments = $(all)")},
        [],
    ),
    Row(
        "commands that are passed over",
        {"x.dag": DAG, "a.sub": sub("max_retries = 3", "success_exit_code = 2", "env = A=1")},
        [
            "hint: a.sub:2 max_retries is passed over: write RETRY in the DAG file",
            "hint: a.sub:3 success_exit_code is passed over: let a POST script decide which exit code is good",
            "hint: a.sub:4 env is passed over: write environment",
        ],
    ),
    Row(
        "below queue",
        {"x.dag": DAG, "a.sub": "executable = /bin/echo\nqueue\noutput = a.txt\n"},
        ["hint: a.sub:3 output stands below queue and has no effect: write it above"],
    ),
    Row(
        "macros that nothing assigns",
        {"x.dag": DAG, "a.sub": sub("arguments = $(words) $(JOB) $(RETRY) $(Cluster) $(none:d) $(words)", "requirements = $$(Arch)")},
        ["hint: a.sub:2 $(words) is assigned nowhere, so it is empty: assign it here or by VARS, or give it a default"],
    ),
    Row(
        "a macro within a default, on joined lines",
        {"x.dag": DAG, "a.sub": sub("arguments = one \\", "  $(none:$(more))")},
        ["hint: a.sub:2 $(more) is assigned nowhere, so it is empty: assign it here or by VARS, or give it a default"],
    ),
    Row(
        "misspelled macros, also in another case",
        {
            "x.dag": DAG + 'VARS A name="today" inputFile="x.csv"\n',
            "a.sub": sub("part = 1", "arguments = $(nmae) $(INPUTFLIE) $(prat)", "output = a.$(jbo).$(RETYR)", "error = b.$(Culster)"),
        },
        [
            "hint: a.sub:2 part is no command that dagrun reads, and no macro that is referred to: take the line away",
            "hint: a.sub:3 $(nmae) is assigned nowhere, so it is empty: is $(name) meant?",
            "hint: a.sub:3 $(INPUTFLIE) is assigned nowhere, so it is empty: is $(inputFile) meant?",
            "hint: a.sub:3 $(prat) is assigned nowhere, so it is empty: is $(part) meant?",
            "hint: a.sub:4 $(jbo) is assigned nowhere, so it is empty: is $(JOB) meant?",
            "hint: a.sub:4 $(RETYR) is assigned nowhere, so it is empty: is $(RETRY) meant?",
            "hint: a.sub:5 $(Culster) is assigned nowhere, so it is empty: is $(Cluster) meant?",
        ],
    ),
    Row(
        "no macro is meant that only this line assigns, or a line below queue",
        {"x.dag": DAG, "a.sub": sub("arguments = $(argument) $(prat)") + "part = 1\n"},
        [
            "hint: a.sub:2 $(argument) is assigned nowhere, so it is empty: assign it here or by VARS, or give it a default",
            "hint: a.sub:2 $(prat) is assigned nowhere, so it is empty: assign it here or by VARS, or give it a default",
            "hint: a.sub:4 part stands below queue and has no effect: write it above",
        ],
    ),
    Row(
        "macros of VARS, of one node of two",
        {"x.dag": "JOB A a.sub\nJOB B a.sub\nVARS B Words=\"x\"\n", "a.sub": sub("arguments = $(words)")},
        [],
        "ok nodes=2 edges=0 final=no",
    ),
    Row(
        "programs",
        {
            "x.dag": "JOB A a.sub\nJOB B b.sub\nJOB C c.sub\nJOB D d.sub\nJOB E e.sub\n",
            "a.sub": "executable = none.sh\nqueue\n",
            "b.sub": "executable = folder\nqueue\n",
            "c.sub": "\nexecutable = plain.sh\nqueue\n",
            "d.sub": "executable = return.sh\nqueue\n",
            "e.sub": "executable = good.sh\nqueue\n",
            "folder/": None,
            "plain.sh": "#!/bin/sh\n",
            "return.sh*": "#!/bin/sh\r\necho\r\n",
            "good.sh*": "#!/bin/sh\necho a\r\n",
        },
        [
            "hint: a.sub:1 none.sh is not there: put it there, or mend its path",
            "hint: b.sub:1 folder is a folder: name a program",
            "hint: c.sub:2 plain.sh may not be executed: chmod +x plain.sh",
            "hint: d.sub:1 the first line of return.sh ends with a carriage return: sed -i 's/\\r$//' return.sh",
        ],
        "ok nodes=5 edges=0 final=no",
    ),
    Row(
        "paths in commands, as a shell reads them",
        {
            "x.dag": "JOB A a.sub\nJOB B b.sub\nJOB C c.sub\nJOB D d.sub\nJOB E e.sub\nJOB F f.sub\n",
            "a.sub": "executable = run it.sh\nqueue\n",
            "b.sub": "executable = return it's.sh\nqueue\n",
            "c.sub": sub("output = my out/a.txt"),
            "d.sub": sub('output = S"p+a/b.txt'),
            "e.sub": sub("output = -out/c.txt"),
            "f.sub": "executable = -run.sh\nqueue\n",
            "run it.sh": "#!/bin/sh\n",
            "return it's.sh*": "#!/bin/sh\r\necho\r\n",
            "-run.sh": "#!/bin/sh\n",
        },
        [
            "hint: a.sub:1 run it.sh may not be executed: chmod +x 'run it.sh'",
            "hint: b.sub:1 the first line of return it's.sh ends with a carriage return: sed -i 's/\\r$//' 'return it'\\''s.sh'",
            "hint: c.sub:2 the folder my out is not there: mkdir -p 'my out'",
            "hint: d.sub:2 the folder S\"p+a is not there: mkdir -p 'S\"p+a'",
            "hint: e.sub:2 the folder -out is not there: mkdir -p ./-out",
            "hint: f.sub:1 -run.sh may not be executed: chmod +x ./-run.sh",
        ],
        "ok nodes=6 edges=0 final=no",
    ),
    Row(
        "programs that are no regular files, and are not opened",
        {
            "x.dag": "JOB A a.sub\nJOB B b.sub\nSCRIPT PRE A pipe\nSCRIPT POST B open\n",
            "a.sub": "executable = open\nqueue\n",
            "b.sub": "executable = /dev/null\nqueue\n",
            "pipe|": None,
            "open|*": None,
        },
        [
            "hint: x.dag:3 pipe is a pipe, a device or a socket: name a program",
            "hint: x.dag:4 open is a pipe, a device or a socket: name a program",
            "hint: a.sub:1 open is a pipe, a device or a socket: name a program",
            "hint: b.sub:1 /dev/null is a pipe, a device or a socket: name a program",
        ],
        "ok nodes=2 edges=0 final=no",
    ),
    Row(
        "scripts whose first line names no program",
        {
            "x.dag": "JOB A a.sub\nJOB B b.sub\nJOB C c.sub\nJOB D d.sub\nSCRIPT PRE D none.sh\n",
            "a.sub": "executable = none.sh\nqueue\n",
            "b.sub": "executable = folder.sh\nqueue\n",
            "c.sub": "executable = relative.sh\nqueue\n",
            "d.sub": "executable = plain.sh\nqueue\n",
            "none.sh*": "#!/no/such/reader -x\n",
            "folder.sh*": "#! /\n",
            # It is seen from the folder of the job.
            "relative.sh*": "#!bin/sh\n",
            # What is to be done first.
            "plain.sh": "#!/no/such/reader\n",
        },
        [
            "hint: x.dag:5 the first line of none.sh names /no/such/reader, where no program is: name the one that reads it",
            "hint: a.sub:1 the first line of none.sh names /no/such/reader, where no program is: name the one that reads it",
            "hint: b.sub:1 the first line of folder.sh names /, where no program is: name the one that reads it",
            "hint: d.sub:1 plain.sh may not be executed: chmod +x plain.sh",
        ],
        "ok nodes=4 edges=0 final=no",
    ),
    Row(
        "scripts, also of splices in folders",
        {
            "x.dag": "SCRIPT PRE A before.sh\nJOB A a.sub DIR d\nSCRIPT POST ALL_NODES after.sh $RETURN\nSPLICE S inner.dag DIR s\n",
            "d/a.sub": sub(),
            "d/after.sh": "#!/bin/sh\n",
            "s/inner.dag": "JOB B b.sub\nSCRIPT PRE B here.sh\n",
            "s/b.sub": sub(),
        },
        [
            "hint: x.dag:1 d/before.sh is not there: put it there, or mend its path",
            "hint: x.dag:3 d/after.sh may not be executed: chmod +x d/after.sh",
            "hint: s/inner.dag:2 s/here.sh is not there: put it there, or mend its path",
        ],
        "ok nodes=2 edges=0 final=no",
    ),
    Row(
        "folders that are missing",
        {
            "x.dag": "JOB A a.sub\nJOB B b.sub\n",
            "a.sub": sub("output = out/$(JOB).txt", "error = err/a.txt"),
            "b.sub": sub("initialdir = work", "output = b.txt"),
            "err/": None,
        },
        [
            "hint: a.sub:2 the folder out is not there: mkdir -p out",
            "hint: b.sub:2 the folder work is not there: mkdir -p work",
        ],
        "ok nodes=2 edges=0 final=no",
    ),
    Row(
        "one output of two nodes",
        {"x.dag": "JOB A a.sub\nJOB B a.sub\nJOB C a.sub\nPARENT A CHILD B C\n", "a.sub": sub("output = a.txt", "error = /dev/null")},
        ["hint: a.sub:2 B and C may run at once, and both write a.txt: put $(JOB) into its name"],
        "ok nodes=3 edges=2 final=no",
    ),
    Row(
        "one output of many nodes, of which the first two are told",
        {"x.dag": "JOB A a.sub\nJOB B a.sub\nJOB C a.sub\nJOB D a.sub\n", "a.sub": sub("output = a.txt", "error = b.txt")},
        [
            "hint: a.sub:2 A and B may run at once, and both write a.txt: put $(JOB) into its name",
            "hint: a.sub:3 A and B may run at once, and both write b.txt: put $(JOB) into its name",
        ],
        "ok nodes=4 edges=0 final=no",
    ),
    Row(
        "one output of nodes in a chain, and one of a node alone",
        {"x.dag": "JOB A a.sub\nJOB B a.sub\nJOB C a.sub\nPARENT A CHILD B\nPARENT B CHILD C\n", "a.sub": sub("output = a.txt", "error = a.txt")},
        [],
        "ok nodes=3 edges=2 final=no",
    ),
    Row(
        "an error file that is another one's output",
        {"x.dag": "JOB A a.sub\nJOB B b.sub\n", "a.sub": sub("output = a.txt"), "b.sub": sub("output = b.txt", "error = a.txt")},
        ["hint: b.sub:3 A and B may run at once, and both write a.txt: put $(JOB) into its name"],
        "ok nodes=2 edges=0 final=no",
    ),
    Row(
        "files that are named by the launch alone",
        {"x.dag": "JOB A a.sub\nJOB B a.sub\nJOB C a.sub\nPARENT A CHILD B\n", "a.sub": sub("output = $(Cluster).txt")},
        [f"hint: a.sub:2 A and B may both write 1.txt, {COUNTED}"],
        "ok nodes=3 edges=1 final=no",
    ),
    Row(
        "files that are named by the launch alone, of two submit files, and by macros of VARS",
        {
            "x.dag": 'JOB A a.sub\nJOB B b.sub\nJOB C c.sub\nFINAL D c.sub\nVARS C file="$(part).$(CLUSTERID)"\nVARS D file="$(part).$(clusterid)"\n',
            "a.sub": sub("output = out.$(Cluster).txt"),
            "b.sub": sub("name = out.$(ClusterId)", "error = $(name).txt"),
            "c.sub": sub("part = p", "output = $(file)"),
        },
        [f"hint: b.sub:3 A and B may both write out.1.txt, {COUNTED}", f"hint: c.sub:3 C and D may both write p.1, {COUNTED}"],
        "ok nodes=3 edges=0 final=yes",
    ),
    Row(
        "files that are named by the launch and by the node, and those of a node alone",
        {
            "x.dag": 'JOB A a.sub\nJOB B a.sub\nJOB C c.sub\nVARS A part="one"\nVARS B part="two"\n',
            "a.sub": sub("output = $(JOB).$(Cluster).txt", "error = $(part).$(Cluster).txt"),
            "c.sub": sub("output = c.$(Cluster).txt", "error = c.$(Cluster).txt"),
        },
        [],
        "ok nodes=3 edges=0 final=no",
    ),
    Row(
        "an output that is the input",
        {
            "x.dag": "".join(f"JOB {name} {name.lower()}.sub\n" for name in "ABCD") + "JOB E e.sub\nJOB F e.sub\n",
            "a.sub": sub("input = data.txt", "output = data.txt"),
            "b.sub": sub("initialdir = d", "input = data.txt", "error = data.txt"),
            "c.sub": sub("input = data.txt", "output = c.txt"),
            "d.sub": sub("input = /dev/null", "output = /dev/null", "error = /dev/null"),
            # Of a sweep one is told.
            "e.sub": sub("input = $(JOB).txt", "output = $(JOB).txt"),
            "d/": None,
        },
        [f"hint: a.sub:3 data.txt {INPUT}", f"hint: b.sub:4 d/data.txt {INPUT}", f"hint: e.sub:3 E.txt {INPUT}"],
        "ok nodes=6 edges=0 final=no",
    ),
    Row(
        "an output that is a file of the DAG",
        {
            "x.dag": "".join(f"JOB {name} {name.lower()}.sub\n" for name in "ABCDEF") + "SPLICE S d/y.dag\n",
            "a.sub": sub("output = x.dag.journal", "error = x.dag.log.old"),
            "b.sub": sub("output = b.txt", "error = a.sub"),
            "c.sub": sub("output = d/y.dag"),
            "d.sub": sub("input = x.dag.rescue001", "output = x.dag.rescue001", "error = x.dag.rescue012.old"),
            "e.sub": sub("output = x.dag.rescue1", "error = x.dag.journal.txt"),
            "f.sub": sub("output = x.dag", "error = y.dag.journal"),
            "d/y.dag": "JOB G f.sub\n",
        },
        [
            f"hint: a.sub:2 x.dag.journal {OWN}",
            f"hint: a.sub:3 x.dag.log.old {OWN}",
            f"hint: b.sub:3 a.sub {OWN}",
            f"hint: c.sub:2 d/y.dag {OWN}",
            f"hint: d.sub:3 x.dag.rescue001 {OWN}",
            f"hint: d.sub:4 x.dag.rescue012.old {OWN}",
            f"hint: f.sub:2 x.dag {OWN}",
            "hint: f.sub:2 F and S+G may run at once, and both write x.dag: put $(JOB) into its name",
            "hint: f.sub:3 F and S+G may run at once, and both write y.dag.journal: put $(JOB) into its name",
        ],
        "ok nodes=7 edges=0 final=no",
    ),
    Row(
        "double quotes in arguments of the old style",
        {
            "x.dag": "".join(f"JOB {name} {name.lower()}.sub\n" for name in "ABCD") + 'JOB E d.sub\nVARS D words="say \\"hi\\""\nVARS E words="\\"one two\\""\n',
            "a.sub": sub('arguments = -c "echo hi"'),
            "b.sub": sub("arguments = \"-c 'echo \"\"hi\"\"'\""),
            "c.sub": sub('arguments = -x \\"q\\" y'),
            "d.sub": sub("arguments = $(words)"),
        },
        [f"hint: a.sub:2 {QUOTES}", f"hint: d.sub:2 {QUOTES}"],
        "ok nodes=5 edges=0 final=no",
    ),
    Row(
        "a cycle: what does not need the graph",
        {"x.dag": "JOB A a.sub\nPARENT A CHILD A\n", "a.sub": sub("argumnets = x")},
        [f"hint: a.sub:2 argumnets {UNKNOWN}: is arguments meant?"],
        None,
        warned=["dagrun: G1 Cycle A"],
    ),
    Row(
        "a submit file that is refused",
        {"x.dag": DAG, "a.sub": "executable = /bin/echo\nmax_retries = 1\nbad line\nqueue\n"},
        ["hint: a.sub:2 max_retries is passed over: write RETRY in the DAG file"],
        None,
        warned=["dagrun: U2 BadLine a.sub:3"],
    ),
    Row("a DAG file that is refused", {"x.dag": "JOBS A a.sub\n", "a.sub": sub("max_retries = 1")}, [], None, warned=["dagrun: L2 UnknownCommand x.dag:1:1"]),
    Row(
        "behind warnings",
        {"x.dag": "DOT x.dot\n" + DAG, "a.sub": sub("max_retries = 1")},
        ["hint: a.sub:2 max_retries is passed over: write RETRY in the DAG file"],
        warned=["warning: x.dag:1 ignored"],
    ),
    Row(
        "standard input",
        {"a.sub": sub("max_retries = 1")},
        ["hint: -:2 none.sh is not there: put it there, or mend its path", "hint: a.sub:2 max_retries is passed over: write RETRY in the DAG file"],
        words=("--hints", "-"),
        stdin=DAG + "SCRIPT PRE A none.sh\n",
    ),
    Row(
        "a NOOP's submit file is not looked at",
        {"x.dag": "JOB A a.sub NOOP\n", "a.sub": sub("max_retries = 1")},
        [],
    ),
    Row(
        "HTCondor: what a submit file lacks",
        {"x.dag": DAG, "a.sub": sub()},
        [f"condor: a.sub:1 {LOG}", f"condor: a.sub:1 {GETENV}", f"condor: a.sub:1 {FOLDER}"],
        words=("--condor", "x.dag"),
    ),
    Row("HTCondor: all is there", {"x.dag": DAG, "a.sub": sub(*QUIET.split("\n"))}, [], words=("--condor", "x.dag")),
    Row(
        "HTCondor: files that are moved",
        {"x.dag": DAG, "a.sub": sub("log = a.log", "getenv = true", "universe = vanilla", "transfer_input_files = a.txt")},
        [],
        words=("--condor", "x.dag"),
    ),
    Row(
        "HTCondor: the number of the launch",
        {"x.dag": DAG, "a.sub": sub(*QUIET.split("\n"), "output = $(Cluster).txt")},
        ["condor: a.sub:6 $(Cluster) counts the launches here, and the clusters of the queue under HTCondor: write $(JOB) and $(RETRY)"],
        words=("--condor", "x.dag"),
    ),
    Row(
        "HTCondor: a comment that goes on",
        {"x.dag": DAG, "a.sub": sub(*QUIET.split("\n"), "  # arguments = \\", "# one")},
        ["condor: a.sub:6 a comment ends with a backslash, and HTCondor may join the line below: take the backslash away"],
        words=("--condor", "x.dag"),
    ),
    Row(
        "HTCondor: lines of the DAG file",
        {
            "x.dag": "JOB A a.sub NOOP\nSCRIPT POST A /bin/true\nPRE_SKIP A 300\nPRE_SKIP A 2\nABORT-DAG-ON A -9\nRETRY A 2 UNLESS-EXIT -1001\nRETRY A 1\n",
        },
        [
            "condor: x.dag:2 A is a NOOP with a script, which DAGMan runs where the submit file is there: put that file there",
            "condor: x.dag:3 PRE_SKIP skips by exit codes alone, and DAGMan refuses another value: write one from 1 to 255",
            "condor: x.dag:5 ABORT-DAG-ON has a value below zero, which DAGMan gives otherwise, as -1002 to a job that is removed: write an exit code",
            "condor: x.dag:6 RETRY has a value below zero, which DAGMan gives otherwise, as -1002 to a job that is removed: write an exit code",
        ],
        words=("--condor", "x.dag"),
        warned=["warning: x.dag:3 overridden", "warning: x.dag:6 overridden"],
    ),
    Row(
        "both, in the order of the lines",
        {"x.dag": DAG, "a.sub": sub("max_retries = 1", *QUIET.split("\n"), "arguments = $(Cluster) $(x)")},
        [
            "hint: a.sub:2 max_retries is passed over: write RETRY in the DAG file",
            "condor: a.sub:7 $(Cluster) counts the launches here, and the clusters of the queue under HTCondor: write $(JOB) and $(RETRY)",
            "hint: a.sub:7 $(x) is assigned nowhere, so it is empty: assign it here or by VARS, or give it a default",
        ],
        words=("--hints", "--condor", "x.dag"),
    ),
]


def laid_out(files):
    """Writes files: a folder's name ends with a slash, that of an executable file with a star, and before it a pipe's with a bar."""
    for name, text in files.items():
        path = name.rstrip("/|*")
        if name.endswith("/"):
            os.makedirs(path)
            continue
        os.makedirs(os.path.dirname(path) or ".", exist_ok=True)
        if "|" in name:
            os.mkfifo(path)
        else:
            with open(path, "w", newline="") as file:
                file.write(text)
        if name.endswith("*"):
            os.chmod(path, 0o755)


def called(program, words, stdin):
    return subprocess.run([program, "check", *words], capture_output=True, text=True, timeout=300, input=stdin or "")


def same(what, found, wanted):
    if found != wanted:
        raise AssertionError(f"{what}: found\n{found}\nwanted\n{wanted}")


def tried(program, row):
    laid_out(row.files)
    answer = "" if row.answer is None else row.answer + "\n"
    status = 125 if row.answer is None else 0
    refused = row.warned if row.answer is None else []
    warned = [] if row.answer is None else list(row.warned)
    plain = called(program, row.words[-1:], row.stdin)
    same("without options", (plain.stdout, plain.returncode, plain.stderr.splitlines()), (answer, status, list(row.warned)))
    done = called(program, row.words, row.stdin)
    same("answer", (done.stdout, done.returncode), (answer, status))
    same("told", done.stderr.splitlines(), [*warned, *row.told, *refused])


def main():
    program = os.path.realpath(sys.argv[1])
    passed = failed = 0
    for row in ROWS:
        with tempfile.TemporaryDirectory() as folder:
            os.chdir(folder)
            try:
                tried(program, row)
                passed += 1
            except (AssertionError, OSError, subprocess.TimeoutExpired) as error:
                failed += 1
                print(f"{row.name}: {error}")
            os.chdir("/")
    print(f"{passed} passed, {failed} failed")
    return 1 if failed else 0


sys.exit(main())
