#!/usr/bin/env python3
"""Goes on with rounds that earlier programs began, and reads those that they ended: a journal is readable for ever.

    tests/old_journals.py [PROGRAM]               PROGRAM: dist/dagrun where none is given
    tests/old_journals.py --make NAME PROGRAM     adds the folders of a program: tests/old_journals/NAME

Of each program there are three folders, as it left them: `halfway`, whose manager was killed while the second attempt of B ran,
`finished`, a round that ended with an error, and `again`, the round after that, whose manager was killed while D ran; of a program that knows
--always-run-post also `flagged`, a round with it whose manager was killed. What is expected is worked out below of the DAG alone. Each check works on a copy. The last line is 'N passed, M failed'."""
import os
import shutil
import signal
import subprocess
import sys
import tempfile
import time

HERE = os.path.dirname(os.path.abspath(__file__))
KEPT = os.path.join(HERE, "old_journals")
TOP = os.path.dirname(HERE)

# A, then B with a PRE and C with a POST, then D, then E, and F at the end. The first attempt of B ends by a signal, C's job ends with 4 and its
# POST with 0; D ends with 5 and F with 6 as long as there is no file `mended`.
NAMES = "ABCDEF"
DAG = "".join(f"JOB {name} job.sub\n" for name in "ABCDE") + "FINAL F job.sub\n"
DAG += "".join(f'VARS {name} me="{name}"\n' for name in NAMES)
DAG += "SCRIPT PRE B /bin/sh script.sh pre\nSCRIPT POST C /bin/sh script.sh post\nRETRY B 2\nPARENT A CHILD B C\nPARENT B C CHILD D\nPARENT D CHILD E\n"
FILES = {
    "x.dag": DAG,
    "job.sub": "executable = /bin/sh\narguments = job.sh $(me)\nqueue\n",
    # Where `waits` names a job, it waits to be killed with its manager.
    "job.sh": """echo $1 >>ran
if [ -e waits ] && [ "$(cat waits)" = $1 ]; then echo $$ >job.pid; exec sleep 600; fi
case $1 in
B) if [ ! -e tried ]; then echo B >tried; if [ -e wait2 ]; then mv wait2 waits; fi; kill -KILL $$; fi ;;
C) exit 4 ;;
D) [ -e mended ] || exit 5 ;;
F) [ -e mended ] || exit 6 ;;
esac
""",
    "script.sh": "echo $1 >>ran\n",
}
# With --always-run-post A and G are done by their POST, though their PRE fails.
FLAGGED = {
    **FILES,
    "x.dag": "".join(f'JOB {name} job.sub\nVARS {name} me="{name}"\n' for name in "AEG")
    + "".join(f"SCRIPT PRE {name} /bin/sh script.sh fail\nSCRIPT POST {name} /bin/sh script.sh post\n" for name in "AG")
    + "PARENT A CHILD E\nPARENT E CHILD G\n",
    "script.sh": "echo $1 >>ran\n[ $1 != fail ] || exit 5\n",
}
# What stands in a folder for its making alone.
FOR_MAKING = ("waits", "wait2", "job.pid")

# By hand, of the DAG above. In the first round B takes two attempts, of which a manager's crash makes no third; C is done by its POST; D ends
# with 5, so E never starts and F, which does, says what the round came to. `audit` tells of all but F.
DONE_HALF = "A DONE attempts=1 value=0\nB DONE attempts=2 value=0\nC DONE attempts=1 value=0\n"
FIRST = DONE_HALF + "D ERROR attempts=1 value=5\nE NOT_READY attempts=0 value=-\nF ERROR attempts=1 value=6\n"
FIRST_MENDED = DONE_HALF + "D DONE attempts=1 value=0\nE DONE attempts=1 value=0\nF DONE attempts=1 value=0\n"
SECOND = "".join(f"{name} DONE attempts=0 value=-\n" for name in "ABC") + "".join(f"{name} DONE attempts=1 value=0\n" for name in "DEF")
MARKS = ["DONE A", "DONE B", "DONE C"]


def audited(report):
    return "".join(line for line in report.splitlines(True) if not line.startswith("F ")) + "audit ok\n"


def same(found, wanted):
    if found != wanted:
        raise AssertionError(f"found\n{found}\nwanted\n{wanted}")


def read(folder, name):
    with open(os.path.join(folder, name)) as file:
        return file.read()


def write(folder, name, text):
    with open(os.path.join(folder, name), "w") as file:
        file.write(text)


def call(program, folder, *words):
    done = subprocess.run([program, *words], cwd=folder, capture_output=True, text=True, timeout=300, stdin=subprocess.DEVNULL)
    return done.stdout, done.stderr, done.returncode


def marks_of(folder, name):
    """The nodes that a rescue file has as done."""
    return sorted(line for line in read(folder, name).splitlines() if line.startswith("DONE "))


def ran_in(folder):
    """What ran, one word for each start."""
    return read(folder, "ran").split()


def halfway_goes_on(program, folder):
    """B starts a third time, since no end of its second attempt was recorded; A and C, whose ends were, don't."""
    old = ran_in(folder)
    same(sorted(old), ["A", "B", "B", "C", "post", "pre", "pre"])
    same(call(program, folder, "run", "x.dag"), (f"{FIRST}result 1\n", "", 1))
    same(ran_in(folder)[len(old) :], ["B", "D", "F"])
    same(marks_of(folder, "x.dag.rescue001"), MARKS)
    same(call(program, folder, "audit", "x.dag"), (audited(FIRST), "", 0))


def halfway_goes_on_mended(program, folder):
    write(folder, "mended", "")
    same(call(program, folder, "run", "x.dag"), (f"{FIRST_MENDED}result 0\n", "", 0))
    same(call(program, folder, "audit", "x.dag"), (audited(FIRST_MENDED), "", 0))


def halfway_is_looked_at(program, folder):
    """What ended is told with its value; of B one attempt has ended, and the others wait."""
    said, told, status = call(program, folder, "status", "x.dag")
    same((told, status), ("", 0))
    lines = said.splitlines()
    same((lines[0], lines[2], lines[3:]), ("A DONE attempts=1 value=0", "C DONE attempts=1 value=0", [f"{name} NOT_READY attempts=0 value=-" for name in "DEF"]))
    same(lines[1].split()[0::2], ["B", "attempts=1"])
    same(call(program, folder, "audit", "x.dag"), ("audit no F3 Unfinished\n", "", 1))
    same(call(program, folder, "graph", "x.dag")[1:], ("", 0))
    same(call(program, folder, "why", "x.dag")[2], 0)


def halfway_is_salvaged(program, folder):
    """A submit file was changed since: the round can't go on, and what is done is kept. A program that wrote no x.dag.inputs left nothing that
    says which file it was, so the change has to be put back."""
    write(folder, "job.sub", FILES["job.sub"].replace("queue", "# mended\nqueue"))
    write(folder, "mended", "")
    same(call(program, folder, "run", "x.dag"), ("", "dagrun: J5 OtherInputs\n", 125))
    if not os.path.exists(os.path.join(folder, "x.dag.inputs")):
        same(call(program, folder, "salvage", "x.dag"), ("", "dagrun: R3 NoInputs x.dag.inputs\n", 125))
        write(folder, "job.sub", FILES["job.sub"])
        same(call(program, folder, "run", "x.dag"), (f"{FIRST_MENDED}result 0\n", "", 0))
        return
    same(call(program, folder, "salvage", "x.dag")[2], 0)
    same(marks_of(folder, "x.dag.rescue001"), ["DONE A", "DONE C"])
    old = ran_in(folder)
    report = "A DONE attempts=0 value=-\nB DONE attempts=1 value=0\nC DONE attempts=0 value=-\n" + SECOND[SECOND.index("D DONE") :]
    same(call(program, folder, "run", "x.dag"), (f"{report}result 0\n", "", 0))
    same(ran_in(folder)[len(old) :], ["pre", "B", "D", "E", "F"])


def finished_is_read(program, folder):
    old = ran_in(folder)
    same(call(program, folder, "status", "x.dag"), (FIRST, "", 0))
    same(call(program, folder, "audit", "x.dag"), (audited(FIRST), "", 0))
    same(call(program, folder, "run", "--resume", "x.dag"), (f"{FIRST}result 1\n", "", 1))
    said, told, status = call(program, folder, "why", "x.dag")
    same(([said.count(f"{name} ERROR: its job ended with exit {value}") for name, value in ("D5", "F6")], told, status), ([1, 1], "", 0))
    same(call(program, folder, "graph", "x.dag")[1:], ("", 0))
    same((marks_of(folder, "x.dag.rescue001"), ran_in(folder)), (MARKS, old))


def finished_has_a_next_round(program, folder):
    """The rescue file of the older program is read."""
    old = ran_in(folder)
    write(folder, "mended", "")
    same(call(program, folder, "run", "x.dag"), (f"{SECOND}result 0\n", "", 0))
    same(ran_in(folder)[len(old) :], ["D", "E", "F"])
    same(os.path.exists(os.path.join(folder, "x.dag.journal.old")), True)


def again_goes_on(program, folder):
    """The second round goes on with the rescue file that it read, and with the first round's journal put away beside it."""
    old = ran_in(folder)
    write(folder, "mended", "")
    same(call(program, folder, "run", "x.dag"), (f"{SECOND}result 0\n", "", 0))
    same(ran_in(folder)[len(old) :], ["D", "E", "F"])
    same(call(program, folder, "audit", "x.dag"), (audited(SECOND), "", 0))


def flagged_goes_on(program, folder):
    """As the journal says, and not the command line: so POST of G runs after its PRE failed, as that of A did."""
    same(ran_in(folder), ["fail", "post", "E"])
    report = "".join(f"{name} DONE attempts=1 value=0\n" for name in "AEG")
    same(call(program, folder, "run", "x.dag"), (f"{report}result 0\n", "", 0))
    same(ran_in(folder)[3:], ["E", "fail", "post"])
    same(call(program, folder, "audit", "x.dag"), (audited(report), "", 0))


CHECKS = {
    "halfway": (halfway_goes_on, halfway_goes_on_mended, halfway_is_looked_at, halfway_is_salvaged),
    "finished": (finished_is_read, finished_has_a_next_round),
    "again": (again_goes_on,),
    "flagged": (flagged_goes_on,),
}


def wait_for(what):
    for _ in range(6000):
        if what():
            return
        time.sleep(0.05)
    raise SystemExit("it did not come in five minutes")


def killed(program, folder, *options):
    """A run that is killed, and the job that waits with it, once it waits."""
    manager = subprocess.Popen([program, "run", *options, "x.dag"], cwd=folder, stdout=subprocess.DEVNULL)
    wait_for(lambda: os.path.exists(f"{folder}/job.pid") and read(folder, "job.pid").endswith("\n"))
    # What is beside B is to be recorded, and has been once nothing is written any more.
    sizes = []
    wait_for(lambda: sizes.append(os.stat(f"{folder}/x.dag.journal").st_mtime_ns) or len(sizes) > 20 and len(set(sizes[-20:])) == 1)
    manager.send_signal(signal.SIGKILL)
    manager.wait()
    os.kill(int(read(folder, "job.pid")), signal.SIGKILL)


def make(name, program):
    """The three folders of a program, made in /tmp/dag by /tmp/dag.program/dagrun: notes of a run name both."""
    work = "/tmp/dag"
    os.makedirs(f"{work}.program", exist_ok=True)
    program = shutil.copy(program, f"{work}.program/dagrun")
    knows_flag = "--always-run-post" in call(program, "/", "run", "--help")[1]
    for kind in CHECKS:
        if kind == "flagged" and not knows_flag or os.path.exists(os.path.join(KEPT, name, kind)):
            continue
        os.mkdir(work)
        for file, text in (FLAGGED if kind == "flagged" else FILES).items():
            write(work, file, text)
        if kind == "flagged":
            write(work, "waits", "E")
            killed(program, work, "--always-run-post")
        elif kind == "halfway":
            # The first attempt of B sets the trap for the second.
            write(work, "wait2", "B")
            killed(program, work)
        else:
            same(call(program, work, "run", "x.dag"), (f"{FIRST}result 1\n", "", 1))
        if kind == "again":
            write(work, "waits", "D")
            killed(program, work)
        for file in FOR_MAKING:
            if os.path.exists(f"{work}/{file}"):
                os.remove(f"{work}/{file}")
        shutil.copytree(work, os.path.join(KEPT, name, kind))
        shutil.rmtree(work)
    shutil.rmtree(f"{work}.program")


def main():
    words = sys.argv[1:]
    if words[:1] == ["--make"]:
        make(words[1], os.path.realpath(words[2]))
        return
    program = os.path.realpath(words[0]) if words else os.path.join(TOP, "dist/dagrun")
    passed = failed = 0
    for name in sorted(os.listdir(KEPT)):
        if not os.path.isdir(os.path.join(KEPT, name)):
            continue
        for kind, checks in CHECKS.items():
            if kind == "flagged" and not os.path.exists(os.path.join(KEPT, name, kind)):
                continue
            for check in checks:
                with tempfile.TemporaryDirectory() as work:
                    folder = os.path.join(os.path.realpath(work), kind)
                    shutil.copytree(os.path.join(KEPT, name, kind), folder)
                    try:
                        check(program, folder)
                        passed += 1
                    except (AssertionError, OSError, subprocess.TimeoutExpired) as fault:
                        failed += 1
                        print(f"FAILED {name}: {check.__name__}: {fault}")
    print(f"{passed} passed, {failed} failed")
    sys.exit(1 if failed else 0)


if __name__ == "__main__":
    main()
