#!/usr/bin/env python3
"""Makes the calls of the system fail under `run`, one at a time, and takes the run up again.

    tests/disk_faults.py PROGRAM [PLACES [SEED]]     PLACES: so many of the places, by chance; all where no number is given

Two rounds are tried, each of them behind a finished one: it reads a rescue file, puts the old journal away, starts phases, 64 of them
together, of which one fails twice, and writes a rescue file. The first reads the rescue file of the highest number; the second goes back behind it
(--dorescuefrom), so that it is put away too. Under strace each open, write, sync, cut and renaming of one of their files fails in
turn, with each of the errors below; and each write is cut short in turn (tests/at_call.py). Each time the run answers as it does
without, or prints nothing but one line with the fault and ends with 125; where it is standard output that fails, what stands there
is a part from the start of what is printed without. Then the same command is given again, and where it answers
that the run has not ended, which it may once the round has begun, the command without --dorescuefrom: the records that were
acknowledged are still there, no phase whose end is among them is launched or runs again, and the report, the exit status and the
rescue files are those of a run without faults."""
import collections
import os
import random
import re
import shutil
import subprocess
import sys
import tempfile

from at_call import Changed
from journals import check_records, ended_in, is_finished, records_in

HERE = os.path.dirname(os.path.abspath(__file__))
# Below C, which fails in the first round, D and 64 more are launched together.
FAN = [f"F{number}" for number in range(64)]
NAMES = [*"ABCD", *FAN]
DAG = "".join(f"JOB {name} job.sub\n" for name in NAMES) + f"PARENT A CHILD B C\nPARENT B C CHILD D\nPARENT C CHILD {' '.join(FAN)}\nRETRY D 1\n"
VARS = "".join(f'VARS {name} me="{name}"\n' for name in NAMES)
# In the first round C fails, and then D, behind the second with another value: so no two rounds have the same records.
SCRIPT = "echo ran >> runs/$1\n[ $1 != C -o -e ended1 ] || exit 3\n[ $1 != D -o -e ended2 ] || exit 4\n[ $1 != D ] || exit 5\n"
RESCUES = ("x.dag.rescue001", "x.dag.rescue002", "x.dag.rescue002.old")
# Rescue files as they are written, before they have their names.
PARTS = ["x.dag.rescue002.new", "x.dag.rescue003.new"]
FILES = ["x.dag", "job.sub", "x.dag.journal", "x.dag.journal.old", "x.dag.lock", *RESCUES, *PARTS, "report"]
# The words behind `dagrun` of the round that is tried, by the number of the rounds before it.
ROUNDS = {1: ("run", "x.dag"), 2: ("run", "--dorescuefrom", "1", "x.dag")}
# Nothing depends on these: where a call of theirs fails, nothing is told but where it can't be read which processes were left, or by what they are known.
FILES += ["x.dag.log", "x.dag.log.old", "x.dag.children", "x.dag.round", "x.dag.round.new", "x.dag.inputs", "x.dag.inputs.new", "x.dag.begun", "x.dag.begun.new"]
ERRORS = {
    "openat": ("EIO", "EINTR", "EMFILE", "EACCES"),
    "write": ("EIO", "ENOSPC", "EINTR"),
    "pwrite64": ("EIO", "ENOSPC", "EINTR"),
    "fsync": ("EIO", "ENOSPC", "EINTR"),
    "fdatasync": ("EIO", "ENOSPC", "EINTR"),
    "ftruncate": ("EIO", "ENOSPC"),
    "rename": ("EIO", "ENOSPC"),
}
# A call of a round fails in one place of one kind, or is cut short.
Place = collections.namedtuple("Place", "round call error number")


def write(folder, name, text):
    with open(os.path.join(folder, name), "w") as file:
        file.write(text)


def read(folder, name):
    path = os.path.join(folder, name)
    if not os.path.exists(path):
        return None
    with open(path) as file:
        return file.read()


def runs_in(folder):
    """How often each job ran."""
    return {name: len(read(folder, f"runs/{name}").splitlines()) for name in os.listdir(os.path.join(folder, "runs"))}


def call(program, folder, words, before=(), environment=None):
    """Calls the program with these words behind others; answers what it printed, what it told, and its exit status."""
    with open(os.path.join(folder, "report"), "w") as report:
        done = subprocess.run(
            [*before, program, *words],
            cwd=folder, stdout=report, stderr=subprocess.PIPE, text=True, timeout=300, env={**os.environ, **(environment or {})},
        )
    told = "".join(line for line in done.stderr.splitlines(True) if not line.startswith("strace: "))
    return read(folder, "report"), told, done.returncode


def traced(folder, *words):
    """The words of strace that look at the files of the round alone."""
    paths = [os.path.join(folder, name) for name in FILES] + [folder, folder + "/./"]
    names = ",".join(ERRORS)
    return ["strace", "-qqq", "-e", f"trace={names}", "-e", "signal=none", "-o", folder + ".calls"] + [f"-P{path}" for path in paths] + list(words)


def places_of(program, folder, number):
    """All places of the round behind so many, without faults."""
    call(program, folder, ROUNDS[number], traced(folder))
    counts = collections.Counter(re.findall(r"^(\w+)\(", read("/", folder + ".calls"), re.MULTILINE))
    found = [Place(number, name, error, at) for name, count in counts.items() for error in ERRORS[name] for at in range(1, count + 1)]
    return found + [Place(number, "pwrite64", "short", at) for at in range(1, counts["pwrite64"] + 1)]


def faulty(program, folder, place, library):
    """A round in which the call of this place fails."""
    words = ROUNDS[place.round]
    if place.error == "short":
        (*before, _), environment = library.around([program], place.number)
        return call(program, folder, words, before, environment)
    inject = f"inject={place.call}:error={place.error}:when={place.number}"
    return call(program, folder, words, traced(folder, "-e", inject))


def taken_up(program, folder, words):
    """The answer to the same words once more, or, where the round has begun and goes on, to those that go on with it."""
    answer = call(program, folder, words)
    if "--dorescuefrom" in words and answer == ("", "dagrun: E6 Unfinished\n", 125):
        answer = call(program, folder, ROUNDS[1])
    return answer


def outcome(folder, report, status):
    return (report, status), [read(folder, name) for name in RESCUES]


def is_fault(report, told, whole):
    """Whether this is one line with a fault, and nothing else but a part from the start of the whole report where it is the fault
    of standard output, which takes a long report in several writes."""
    if re.fullmatch(r"dagrun: standard output: [^\n]+\n", told):
        return whole.startswith(report) and report != whole
    return not report and re.fullmatch(r"dagrun: [A-Z]\d+ [^\n]+\n", told) is not None


def try_place(program, base, work, place, library, wanted):
    """One round with a fault, and the call that takes it up again. Answers whether the fault was told."""
    folder = os.path.join(work, "round")
    shutil.copytree(base, folder)
    ran_before = runs_in(folder)
    old = records_in(folder)
    report, told, status = faulty(program, folder, place, library)
    records = records_in(folder)
    if records == old and records:
        records = []
    if told:
        if status != 125 or not is_fault(report, told, wanted[0][0]):
            sys.exit(f"{place}: status {status}, it prints {report!r} and tells {told!r}")
    elif (report, status) != wanted[0]:
        sys.exit(f"{place}: status {status}, it prints {report!r} and tells nothing")
    ran = runs_in(folder)
    if is_finished(records):
        # The fault came behind the last record: a call would begin the next round.
        text = subprocess.run([program, "status", "x.dag"], cwd=folder, capture_output=True, text=True).stdout
        report, status = f"{text}result {records[-1][2]}\n", records[-1][2]
    else:
        report, told_again, status = taken_up(program, folder, ROUNDS[place.round])
        if told_again:
            sys.exit(f"{place}: taken up again it tells {told_again!r}")
    check_records(records_in(folder), records)
    for node in {NAMES[key[0]] for key in ended_in(records)} - {"D"}:
        if runs_in(folder)[node] != ran[node]:
            sys.exit(f"{place}: {node} ran again though its end was recorded")
    if ran_before["A"] != runs_in(folder)["A"]:
        sys.exit(f"{place}: A ran again, though the rescue file has it as done")
    found = outcome(folder, report, status)
    if found != wanted:
        sys.exit(f"{place}: taken up again it comes to {found!r}; wanted {wanted!r}")
    shutil.rmtree(folder)
    return bool(told)


def make_base(program, work, rounds):
    """A folder in which so many rounds have ended with an error."""
    base = os.path.join(work, f"base{rounds}")
    os.makedirs(os.path.join(base, "runs"))
    write(base, "x.dag", DAG + VARS)
    write(base, "job.sub", "executable = /bin/sh\narguments = job.sh $(me)\nqueue\n")
    write(base, "job.sh", SCRIPT)
    for number in range(rounds):
        _, told, status = call(program, base, ROUNDS[1])
        if told or status != 1:
            sys.exit(f"round {number + 1} ends with {status}: {told}")
        write(base, f"ended{number + 1}", "")
    if rounds == 2:
        # A comment tells it from one that is written again.
        write(base, RESCUES[1], "# the second\n" + read(base, RESCUES[1]))
    return base


def without_faults(program, base, number):
    """What the round behind so many comes to without faults."""
    calm = base + ".calm"
    shutil.copytree(base, calm)
    report, told, status = call(program, calm, ROUNDS[number])
    if told or status != 1 or read(calm, RESCUES[1]) is None:
        sys.exit(f"the round without faults ends with {status}: {told}")
    put_away = read(calm, RESCUES[2])
    if put_away != (read(base, RESCUES[1]) if number == 2 else None):
        sys.exit(f"the round without faults leaves {put_away!r} in {RESCUES[2]}")
    return outcome(calm, report, status)


def main():
    program = os.path.realpath(sys.argv[1])
    if not shutil.which("strace"):
        print("strace is not installed: no call of the system is made to fail")
        return
    with tempfile.TemporaryDirectory() as work:
        library = Changed(work, "shorten")
        bases = {number: make_base(program, work, number) for number in ROUNDS}
        wanted = {number: without_faults(program, base, number) for number, base in bases.items()}
        places = []
        for number, base in bases.items():
            shutil.copytree(base, base + ".looked")
            places += places_of(program, base + ".looked", number)
        every = len(places)
        if len(sys.argv) > 2:
            random.seed(int(sys.argv[3]) if len(sys.argv) > 3 else None)
            places = random.sample(places, min(int(sys.argv[2]), every))
        told = sum(try_place(program, bases[place.round], work, place, library, wanted[place.round]) for place in places)
    print(f"{len(places)} of {every} places: {told} faults were told, {len(places) - told} were got over; nothing was lost and nothing that had ended ran again")


if __name__ == "__main__":
    main()
