"""Runs workflows on the Slurm cluster that tests/slurm.sh has started, by srun and by dagrun-slurm.

    python3 tests/slurm.py PROGRAM FOLDER [WORD]      called by tests/slurm.sh

Values are worked out by hand from the rules in docs/MANUAL.md; figures are printed, and none is compared."""
import os
import shutil
import signal
import subprocess
import sys
import time

TOP = os.path.realpath(os.path.join(os.path.dirname(__file__), ".."))
# A job of Slurm of its own for each job of the graph; and a step of one job of Slurm that all share.
OWN = "srun -Q -N1 -n1"
STEP = "srun -Q --exclusive -N1 -n1"
COUNT = 200
# These fail: one at its first attempt, one at the first two of three, one always, one by a signal.
JOB = """#!/bin/sh
echo "$2" >>ran/$1
date +%s.%N >from/$1.$2
case $1.$2 in
n7.0 | n11.0 | n11.1 | n13.*) exit 3 ;;
n17.*) kill -9 $$ ;;
esac
"""


class Place:
    """A folder with a workflow."""

    def __init__(self, program, folder, name):
        self.program = program
        self.path = os.path.join(folder, name)
        for part in ("", "ran", "from"):
            os.makedirs(os.path.join(self.path, part), exist_ok=True)

    def at(self, name):
        return os.path.join(self.path, name)

    def write(self, name, text, mode=0o644):
        with open(self.at(name), "w") as file:
            file.write(text)
        os.chmod(self.at(name), mode)

    def read(self, name):
        with open(self.at(name)) as file:
            return file.read()

    def job(self, script):
        """A job that is called with the node's name and the attempt."""
        self.write("job.sh", script, 0o755)
        self.write("job.sub", "executable = job.sh\narguments = $(JOB) $(RETRY)\noutput = $(JOB).out\nerror = $(JOB).err\nqueue\n")

    def start(self, launcher, *options, before=()):
        words = [*before, self.program, "run", "--launcher", launcher, *options, "x.dag"]
        return subprocess.Popen(words, cwd=self.path, stdout=subprocess.PIPE, stderr=subprocess.PIPE, text=True)

    def run(self, launcher, *options, before=()):
        """What is printed and told, the exit status, and the seconds that it took."""
        begun = time.monotonic()
        child = self.start(launcher, *options, before=before)
        text, told = child.communicate(timeout=600)
        return text, told, child.returncode, time.monotonic() - begun

    def wait_for(self, name):
        for _ in range(3000):
            if os.path.exists(self.at(name)):
                return
            time.sleep(0.01)
        raise AssertionError(f"{name} is not there after thirty seconds")


def same(found, wanted):
    if found != wanted:
        raise AssertionError(f"found\n{found}\nwanted\n{wanted}")


def no_jobs():
    """Waits until Slurm has no job any more."""
    for _ in range(600):
        if not subprocess.run(["squeue", "-h"], capture_output=True, text=True, check=True).stdout:
            return
        time.sleep(0.1)
    raise AssertionError("Slurm has jobs still after a minute")


def names():
    return [f"n{number}" for number in range(COUNT)]


def graph_with_retries(place):
    """200 jobs in rows of ten, each row above the next; three are tried up to three times."""
    lines = [f"JOB {name} job.sub" for name in names()]
    for first in range(0, COUNT - 10, 10):
        parents, children = names()[first : first + 10], names()[first + 10 : first + 20]
        lines.append(f"PARENT {' '.join(parents)} CHILD {' '.join(children)}")
    lines += ["RETRY n7 2", "RETRY n11 2", "RETRY n13 2", "RETRY n17 1"]
    place.write("x.dag", "\n".join(lines) + "\n")
    place.job(JOB)


def report_with_retries():
    """What the rules say of it: nothing below the second row is ready, since two of that never become good."""
    lines = []
    for number, name in enumerate(names()):
        state, attempts, value = "DONE", 1, "0"
        if name == "n7":
            attempts = 2
        elif name == "n11":
            attempts = 3
        elif name == "n13":
            state, attempts, value = "ERROR", 3, "3"
        elif name == "n17":
            # A signal is 128 and its number behind srun.
            state, attempts, value = "ERROR", 2, str(128 + signal.SIGKILL)
        elif number >= 20:
            state, attempts, value = "NOT_READY", 0, "-"
        lines.append(f"{name} {state} attempts={attempts} value={value}\n")
    return "".join(lines) + "result 1\n"


def retries(place):
    """A graph of 200 jobs of which some fail; then what is left, with the program mended."""
    graph_with_retries(place)
    text, told, status, _ = place.run(OWN, "--maxjobs", "16")
    same((text, told, status), (report_with_retries(), "", 1))
    place.job(JOB.replace("n13.*", "none").replace("n17.*", "none.either"))
    text, _, status, _ = place.run(OWN, "--maxjobs", "16")
    done = {"n13", "n17", *names()[20:]}
    same(text, "".join(f"{name} DONE attempts={int(name in done)} value={'0' if name in done else '-'}\n" for name in names()) + "result 0\n")
    same(status, 0)
    same({name: len(place.read(f"ran/{name}").split()) for name in ("n0", "n7", "n11", "n13", "n17", "n199")}, {"n0": 1, "n7": 2, "n11": 3, "n13": 4, "n17": 3, "n199": 1})
    no_jobs()


def flat(place, script, count=COUNT):
    place.write("x.dag", "".join(f"JOB n{number} job.sub\n" for number in range(count)))
    place.job(script)


def most_at_once(place):
    """How many jobs ran at once, by the times that they wrote."""
    events = []
    for name in os.listdir(place.at("from")):
        begin, end = (float(word) for word in place.read(f"from/{name}").split())
        events += [(begin, 1), (end, -1)]
    most = now = 0
    for _, step in sorted(events):
        now += step
        most = max(most, now)
    return most


def speed(place):
    """Jobs that do nothing, and how many run at once that take a while."""
    flat(place, "#!/bin/sh\n")
    for title, launcher, before in (
        ("a job of Slurm each", OWN, ()),
        ("a step of one job of Slurm each", STEP, ("salloc", "-Q", "-n", "32")),
    ):
        for at_once in ("1", "8", "32"):
            text, told, status, seconds = place.run(launcher, "--maxjobs", at_once, "--autorescue", "0", before=before)
            same((text.count(" DONE "), told, status), (COUNT, "", 0))
            print(f"{title}, --maxjobs {at_once}: {COUNT} jobs in {seconds:.1f} s, {COUNT / seconds:.0f} a second")
    no_jobs()
    flat(place, "#!/bin/sh\ndate +%s.%N >from/$1\nsleep 2\ndate +%s.%N >>from/$1\n", 64)
    for title, launcher, before in (
        ("a job of Slurm each", OWN, ()),
        ("a step of one job of Slurm each", STEP, ("salloc", "-Q", "-n", "32")),
        ("a node for itself", "srun -Q --exclusive -N1 -n1", ()),
    ):
        if title == "a node for itself":
            flat(place, "#!/bin/sh\ndate +%s.%N >from/$1\nsleep 1\ndate +%s.%N >>from/$1\n", 8)
        for name in os.listdir(place.at("from")):
            os.remove(place.at(f"from/{name}"))
        text, told, status, seconds = place.run(launcher, "--autorescue", "0", before=before)
        same((told, status), ("", 0))
        print(f"{title}, no limit: {text.count(' DONE ')} jobs in {seconds:.1f} s, at most {most_at_once(place)} at once")
    no_jobs()


BEATS = """#!/bin/sh
echo $$ >>ran/$1
while [ ! -e over ]; do echo >>from/$1; sleep 0.05; done
"""


def beats(place, name):
    return len(place.read(f"from/{name}"))


def stops(place, name):
    """Whether a job that writes twenty times a second has stopped."""
    before = beats(place, name)
    time.sleep(1)
    return beats(place, name) == before


def an_abort(place):
    """A node aborts the run while others run: their srun is killed, and Slurm ends their jobs."""
    place.write("x.dag", "".join(f"JOB n{number} job.sub\n" for number in range(10)) + "JOB bad bad.sub\nABORT-DAG-ON bad 7 RETURN 9\n")
    place.job(BEATS)
    place.write("bad.sh", "#!/bin/sh\nwhile [ $(ls ran | wc -l) -lt 10 ]; do sleep 0.05; done\nexit 7\n", 0o755)
    place.write("bad.sub", "executable = bad.sh\nqueue\n")
    text, told, status, _ = place.run(OWN)
    same((told, status, text.splitlines()[-2:]), ("", 9, ["bad ERROR attempts=1 value=7", "result 9"]))
    time.sleep(0.5)
    same([name for name in names()[:10] if not stops(place, name)], [])
    no_jobs()


def processes_of(place):
    """The processes of srun that a manager noted last, and of each the one that srun makes of itself."""
    noted = [line.split("\t") for line in place.read("x.dag.children").splitlines()]
    own = [int(fields[0]) for fields in noted if fields[0].isdigit()]
    below = [subprocess.run(["ps", "-o", "pid=", "--ppid", str(process)], capture_output=True, text=True).stdout.split() for process in own]
    return own, [int(word) for words in below for word in words]


def a_killed_srun(place):
    """What becomes of the job of a srun that is killed: alone, and with the process that looks after it."""
    flat(place, BEATS, 2)
    manager = place.start(OWN)
    for name in ("n0", "n1"):
        place.wait_for(f"from/{name}")
    (first, second), _ = processes_of(place)
    below = subprocess.run(["ps", "-o", "pid=", "--ppid", str(second)], capture_output=True, text=True).stdout.split()
    same(len(below), 1)
    os.kill(first, signal.SIGKILL)
    time.sleep(1)
    same(stops(place, "n0"), True)
    for process in (int(below[0]), second):
        os.kill(process, signal.SIGKILL)
    text, told, status = *manager.communicate(timeout=60), manager.returncode
    same((text, told, status), ("n0 ERROR attempts=1 value=-9\nn1 ERROR attempts=1 value=-9\nresult 1\n", "", 1))
    same(stops(place, "n1"), False)
    # Slurm keeps what was given to it, even once it is over: a configuration with InactiveLimit takes it back.
    place.write("over", "")
    time.sleep(1)
    kept = subprocess.run(["squeue", "-h", "-t", "R", "-o", "%i"], capture_output=True, text=True, check=True).stdout.split()
    same(len(kept), 1)
    subprocess.run(["scancel", *kept], check=True)
    no_jobs()


def ended_in_log(place):
    return place.read("x.dag.log").count("\tend\t") if os.path.exists(place.at("x.dag.log")) else 0


def a_killed_manager(place):
    """The manager of a run of 200 jobs is killed at some moments and gone on with: nothing that has ended runs again."""
    lines = [f"JOB {name} job.sub" for name in names()]
    for first in range(0, COUNT - 10, 10):
        parents, children = names()[first : first + 10], names()[first + 10 : first + 20]
        lines.append(f"PARENT {' '.join(parents)} CHILD {' '.join(children)}")
    place.write("x.dag", "\n".join(lines) + "\n")
    # A job that works has its name in `works`; one that finds a copy of itself at work says so.
    place.job(
        "#!/bin/sh\nif [ -e works.$1 ] && kill -0 $(cat works.$1) 2>/dev/null; then echo $1 >>copies; fi\n"
        "echo $$ >works.$1\necho >>ran/$1\nsleep 0.2\nrm works.$1\n"
    )
    kills = 0
    for most in range(15, 10 * COUNT, 25):
        # Another launcher is no other input.
        launcher = OWN if kills % 2 == 0 else f"{OWN} --job-name=again"
        manager = place.start(launcher, "--maxjobs", "10")
        # It is killed once so many jobs have ended in all.
        while manager.poll() is None and ended_in_log(place) < most:
            time.sleep(0.02)
        if manager.poll() is not None:
            break
        manager.kill()
        manager.wait()
        manager.stdout.close()
        manager.stderr.close()
        kills += 1
    text, told = manager.communicate(timeout=60)
    same((text, told, manager.returncode), ("".join(f"{name} DONE attempts=1 value=0\n" for name in names()) + "result 0\n", "", 0))
    same(kills > 4, True)
    same(os.path.exists(place.at("copies")), False)
    ran = {name: place.read(f"ran/{name}").count("\n") for name in names()}
    audit = subprocess.run([place.program, "audit", "x.dag"], cwd=place.path, capture_output=True, text=True, timeout=60)
    same((audit.stdout.splitlines()[-1], audit.returncode), ("audit ok", 0))
    print(f"a manager that was killed {kills} times: {sum(ran.values())} jobs ran, of {COUNT}; none beside a copy of itself")
    no_jobs()


def an_allocation_that_ends(place):
    """In a job of Slurm that all share, what still runs is ended with it: here as its manager is killed."""
    flat(place, BEATS, 4)
    held = place.start(STEP, before=("salloc", "-Q", "-n", "8"))
    for name in names()[:4]:
        place.wait_for(f"from/{name}")
    manager = int(place.read("x.dag.children").split("\t")[1])
    os.kill(manager, signal.SIGKILL)
    held.communicate(timeout=60)
    time.sleep(1)
    same([name for name in names()[:4] if not stops(place, name)], [])
    place.write("over", "")
    text, told, status, _ = place.run(STEP, before=("salloc", "-Q", "-n", "8"))
    same((text, told, status), ("".join(f"{name} DONE attempts=1 value=0\n" for name in names()[:4]) + "result 0\n", "", 0))
    no_jobs()


# ---- dagrun-slurm

KEYED = f"{TOP}/launchers/dagrun-slurm"
# A program that works until there is a file `over`.
WORKS = "#!/bin/sh\necho $SLURM_JOB_ID >>ran/$1\nwhile [ ! -e over ]; do sleep 0.1; done\necho $1 is done\n"


def answer(*words):
    return subprocess.run(words, capture_output=True, text=True, check=True).stdout


def accounts():
    return subprocess.run(["sacct", "-n"], capture_output=True).returncode == 0


def one(place, script, more="", retry=0):
    place.write("x.dag", "JOB A job.sub\n" + (f"RETRY A {retry}\n" if retry else ""))
    place.write("job.sh", script, 0o755)
    place.write("job.sub", f"executable = job.sh\narguments = A $(RETRY)\noutput = A.out\nerror = A.err\n{more}queue\n")


def report(state, value, attempts=1):
    return f"A {state} attempts={attempts} value={value}\nresult {0 if state == 'DONE' else 1}\n", "", 0 if state == "DONE" else 1


def keyed(place, wanted):
    begun = time.monotonic()
    text, told, status, _ = place.run(KEYED, "--autorescue", "0")
    same((text, told, status), wanted)
    return time.monotonic() - begun


def ended(manager):
    text, told = manager.communicate(timeout=300)
    return text, told, manager.returncode


def job_of(place, name="A"):
    """The number of the job of Slurm of a node."""
    place.wait_for(f"ran/{name}")
    for _ in range(500):
        words = place.read(f"ran/{name}").split()
        if words:
            return words[-1]
        time.sleep(0.02)
    raise AssertionError(f"{name} has no number")


def processes_of_job(number):
    """The processes on this machine that are a job's, and the one of Slurm that looks after it."""
    found = []
    for process in os.listdir("/proc"):
        try:
            with open(f"/proc/{process}/environ", "rb") as file:
                mine = f"SLURM_JOB_ID={number}\0".encode() in file.read()
            with open(f"/proc/{process}/cmdline", "rb") as file:
                if mine or file.read().startswith(f"slurmstepd: [{number}.".encode()):
                    found.append(int(process))
        except (OSError, ValueError):
            pass
    return found


def kill_all(processes):
    for process in processes:
        try:
            os.kill(process, signal.SIGKILL)
        except ProcessLookupError:
            pass


def slurmd(node):
    folder = os.path.dirname(os.environ["SLURM_CONF"])
    with open(f"{folder}/slurmd-{node}.pid") as file:
        return int(file.read())


def nodes_are_up():
    for node in ("n1", "n2", "n3", "n4"):
        try:
            os.kill(slurmd(node), 0)
        except (OSError, ValueError):
            subprocess.run(["slurmd", "-f", os.environ["SLURM_CONF"], "-N", node], check=True)
    for turn in range(600):
        if answer("sinfo", "-h", "-t", "idle", "-o", "%D").strip() == "4":
            return
        if turn % 50 == 49:
            subprocess.run(["scontrol", "update", "nodename=n[1-4]", "state=resume"], capture_output=True)
        time.sleep(0.1)
    raise AssertionError("the nodes don't come up:\n" + answer("sinfo", "-N"))


def keyed_ends(place):
    """Exit codes and signals, and what stands in the list of what ended."""
    for script, wanted in (
        ("#!/bin/sh\necho out\n", report("DONE", 0)),
        ("#!/bin/sh\nexit 3\n", report("ERROR", 3)),
        ("#!/bin/sh\nkill -9 $$\n", report("ERROR", 137)),
        ("#!/bin/sh\nkill -SEGV $$\n", report("ERROR", 139)),
        ("#!/bin/sh\nkill -INT $$\nsleep 5\n", report("ERROR", 130)),
        ("#!/bin/sh\nexit 86\n", report("ERROR", 86)),
        ("#!/bin/sh\nexit 137\n", report("ERROR", 137)),
        ("#!/no/such\n", report("ERROR", 127)),
    ):
        one(place, script)
        keyed(place, wanted)
    print("  ended: " + place.read("x.dag.slurm/ended").replace("\n", "\n  ").rstrip())
    no_jobs()


def keyed_time(place):
    """A time limit, of a program that ends well as it is told: 124."""
    for script in ("#!/bin/sh\nsleep 300\n", "#!/bin/sh\ntrap 'exit 0' TERM\nwhile :; do sleep 0.2; done\n"):
        one(place, script, 'environment = "DAGRUN_SLURM=-t1"\n')
        print(f"  a time limit of a minute: {keyed(place, report('ERROR', 124)):.0f} s")
    no_jobs()


def keyed_warning(place):
    """A signal that is asked for reaches the program, which may write what it has before its time is over."""
    one(place, "#!/bin/sh\ntrap 'echo warned; exit 5' USR1\nwhile :; do sleep 0.2; done\n", 'environment = "DAGRUN_SLURM=\'-t 1 --signal=B:USR1@50\'"\n')
    keyed(place, report("ERROR", 5))
    same(place.read("A.out"), "warned\n")
    no_jobs()


def keyed_memory(place):
    one(place, "#!/usr/bin/env python3\nimport time\nheld = bytearray(400 << 20)\ntime.sleep(60)\n", 'environment = "DAGRUN_REQUEST_MEMORY=50"\n')
    text, told, status, seconds = place.run(KEYED)
    print(f"  memory: {text.splitlines()[0]} after {seconds:.0f} s; {place.read('A.err').strip()}")
    # Where the nodes have no cgroups, Slurm looks at the memory itself, and calls the job's end by another name.
    # It kills the script, too, which leaves no end then: without accounts nobody knows by which signal.
    same(text.splitlines()[0] in ("A ERROR attempts=1 value=137", "A ERROR attempts=1 value=143", *(() if accounts() else ("A ERROR attempts=1 value=75",))), True)
    no_jobs()


def keyed_cancelled(place):
    one(place, WORKS)
    manager = place.start(KEYED)
    subprocess.run(["scancel", job_of(place)], check=True)
    same(ended(manager), report("ERROR", 143))
    no_jobs()


def keyed_cancelled_in_the_queue(place):
    one(place, WORKS, 'environment = "DAGRUN_SLURM=--hold"\n')
    manager = place.start(KEYED)
    for _ in range(600):
        waiting = answer("squeue", "-h", "-o", "%i").split()
        if waiting:
            break
        time.sleep(0.1)
    subprocess.run(["scancel", *waiting], check=True)
    same(ended(manager), report("ERROR", 143))
    no_jobs()


def keyed_refused(place):
    one(place, WORKS, 'environment = "DAGRUN_SLURM=--partition=none"\n')
    print(f"  refused after {keyed(place, report('ERROR', 85)):.1f} s: {place.read('A.err').strip()}")


def keyed_lost_node(place):
    """A node is lost with its job: 75; its retry is done."""
    one(place, WORKS, retry=1)
    manager = place.start(KEYED)
    number = job_of(place)
    node = answer("squeue", "-h", "-j", number, "-o", "%N").strip()
    begun = time.monotonic()
    kill_all([slurmd(node), *processes_of_job(number)])
    for _ in range(3000):
        if len(place.read("ran/A").split()) == 2:
            break
        time.sleep(0.1)
    print(f"  a lost node was seen, and the retry began, after {time.monotonic() - begun:.0f} s")
    place.write("over", "")
    same(ended(manager), report("DONE", 0, 2))
    same([line.split("\t")[5] for line in place.read("x.dag.slurm/ended").splitlines()], ["75", "0"])
    nodes_are_up()
    no_jobs()


def keyed_slurmd(place):
    """slurmd alone is killed, and started again: the job goes on, and its end is its own."""
    one(place, WORKS)
    manager = place.start(KEYED)
    number = job_of(place)
    node = answer("squeue", "-h", "-j", number, "-o", "%N").strip()
    kill_all([slurmd(node)])
    time.sleep(2)
    nodes_are_up_but(node)
    place.write("over", "")
    same(ended(manager), report("DONE", 0))
    nodes_are_up()
    no_jobs()


def nodes_are_up_but(node):
    subprocess.run(["slurmd", "-f", os.environ["SLURM_CONF"], "-N", node], check=True)


def keyed_cut_off(place):
    """slurmd alone is killed, and stays away: its node is given up, the value is 75, and what runs there runs on, as the manual says."""
    one(place, WORKS)
    manager = place.start(KEYED)
    number = job_of(place)
    node = answer("squeue", "-h", "-j", number, "-o", "%N").strip()
    kill_all([slurmd(node)])
    same(ended(manager), report("ERROR", 75))
    print(f"  processes of the job on the node that was cut off: {len(processes_of_job(number))}")
    kill_all(processes_of_job(number))
    nodes_are_up()
    no_jobs()


def keyed_killed(place, before=()):
    """Manager and launchers are killed: what runs, what has ended meanwhile and what waits is adopted."""
    flat(place, WORKS, 12)
    manager = place.start(KEYED)
    for number in range(12):
        place.wait_for(f"ran/n{number}")
    launchers, _ = processes_of(place)
    kill_all([manager.pid, *launchers])
    manager.communicate(timeout=60)
    time.sleep(2)
    same(len(answer("squeue", "-h", "-t", "R", "-o", "%i").split()), 12)
    place.write("over", "")
    time.sleep(1)
    text, told, status, seconds = place.run(KEYED, before=before)
    same((text.count(" DONE attempts=1 value=0\n"), told, status), (12, "", 0))
    same([len(place.read(f"ran/n{number}").split()) for number in range(12)], [1] * 12)
    same([place.read(f"n{number}.out") for number in range(12)], [f"n{number} is done\n" for number in range(12)])
    print(f"  twelve jobs were adopted in {seconds:.1f} s")
    no_jobs()


def keyed_another_host(place):
    """The same, and the next run is called under another name of the machine, with other numbers of processes."""
    keyed_killed(place, before=("unshare", "--uts", "--pid", "--fork", "--mount-proc", "sh", "-c", 'hostname elsewhere && exec "$@"', "sh"))


def keyed_killed_manager(place):
    """The manager of 60 jobs is killed, again and again: each program runs once."""
    flat(place, "#!/bin/sh\necho $SLURM_JOB_ID >>ran/$1\nsleep 0.5\n", 60)
    kills = 0
    while True:
        manager = place.start(KEYED, "--maxjobs", "16")
        begun = time.monotonic()
        while manager.poll() is None and time.monotonic() < begun + 2 + kills % 3:
            time.sleep(0.02)
        if manager.poll() is not None or kills == 6:
            break
        manager.kill()
        manager.communicate(timeout=60)
        kills += 1
    text, told, status = ended(manager)
    same((text.count(" DONE attempts=1 value=0\n"), told, status), (60, "", 0))
    same([place.read(f"ran/n{number}").count("\n") for number in range(60)], [1] * 60)
    print(f"  a manager that was killed {kills} times: 60 jobs, each ran once")
    no_jobs()


def keyed_interrupt(place):
    """Ctrl-C to the group: the job stays, and the next run waits for it."""
    one(place, WORKS)
    words = [place.program, "run", "--launcher", KEYED, "x.dag"]
    # What a shell has put into the background ignores SIGINT, and so would all that it starts.
    manager = subprocess.Popen(
        words, cwd=place.path, stdout=subprocess.PIPE, stderr=subprocess.PIPE, text=True, start_new_session=True,
        preexec_fn=lambda: signal.signal(signal.SIGINT, signal.SIG_DFL),
    )
    number = job_of(place)
    os.killpg(manager.pid, signal.SIGINT)
    manager.communicate(timeout=60)
    time.sleep(2)
    same(answer("squeue", "-h", "-o", "%i %t").split(), [number, "R"])
    manager = place.start(KEYED)
    place.write("over", "")
    same(ended(manager), report("DONE", 0))
    same(place.read("ran/A"), f"{number}\n")
    no_jobs()


def keyed_abort(place):
    """An abort leaves no job."""
    place.write("x.dag", "".join(f"JOB n{number} job.sub\n" for number in range(10)) + "JOB bad bad.sub\nABORT-DAG-ON bad 7 RETURN 9\n")
    place.job(WORKS)
    place.write("bad.sh", "#!/bin/sh\nwhile [ $(ls ran | wc -l) -lt 10 ]; do sleep 0.05; done\nexit 7\n", 0o755)
    place.write("bad.sub", "executable = bad.sh\nqueue\n")
    _, told, status, _ = place.run(KEYED)
    same((told, status), ("", 9))
    begun = time.monotonic()
    no_jobs()
    print(f"  no job was left {time.monotonic() - begun:.1f} s behind the abort")


def keyed_controller(place):
    """slurmctld is ended, or killed, and started again while a job ends; what is to be started meanwhile waits."""
    for how in (signal.SIGTERM, signal.SIGKILL):
        place.write("x.dag", "JOB A job.sub\nJOB B b.sub\nPARENT A CHILD B\n")
        place.write("job.sh", WORKS, 0o755)
        place.write("job.sub", "executable = job.sh\narguments = A\nqueue\n")
        place.write("b.sub", "executable = job.sh\narguments = B\nqueue\n")
        manager = place.start(KEYED)
        job_of(place)
        # Slurm saves its state every five seconds: what a killed slurmctld has not saved it takes for a job that waits, and cancels.
        time.sleep(8)
        folder = os.path.dirname(os.environ["SLURM_CONF"])
        with open(f"{folder}/slurmctld.pid") as file:
            os.kill(int(file.read()), how)
        time.sleep(2)
        place.write("over", "")
        time.sleep(6)
        subprocess.run(["slurmctld", "-f", os.environ["SLURM_CONF"]], check=True)
        text, told, status = ended(manager)
        same((text, told, status), ("A DONE attempts=1 value=0\nB DONE attempts=1 value=0\nresult 0\n", "", 0))
        nodes_are_up()
        no_jobs()
        os.remove(place.at("over"))
        os.remove(place.at("ran/A"))


def keyed_lost_answer(place):
    """The answer of sbatch is lost, once: the job is found."""
    one(place, "#!/bin/sh\necho $SLURM_JOB_ID >>ran/A\n")
    os.makedirs(place.at("bin"), exist_ok=True)
    real = shutil.which("sbatch")
    place.write("bin/sbatch", f"#!/bin/sh\n[ -e lost ] && exec {real} \"$@\"\n{real} \"$@\" >lost\necho 'sbatch: error: Batch job submission failed: Socket timed out on send/recv operation' >&2\nexit 1\n", 0o755)
    text, told, status, seconds = place.run(KEYED, before=("env", f"PATH={place.at('bin')}:{os.environ['PATH']}"))
    same((text, told, status), report("DONE", 0))
    same(place.read("ran/A").count("\n"), 1)
    print(f"  found in {seconds:.0f} s")
    no_jobs()


def keyed_words(place):
    """Words and environment."""
    one(place, "#!/usr/bin/env python3\nimport os, sys\nprint(sys.argv[1:], os.environ['TEXT'], os.getcwd())\n", "initialdir = a b\n")
    os.makedirs(place.at("a b"), exist_ok=True)
    place.write("job.sub", "executable = job.sh\narguments = \"'' 'a b' 'it''s' \"\"q\"\" $HOME * \\n %j\"\noutput = A.out\ninitialdir = a b\nqueue\n")
    _, told, status, _ = place.run(KEYED, before=("env", "TEXT=one\ntwo 'x' %j"))
    same((told, status), ("", 0))
    same(place.read("a b/A.out"), repr(["", "a b", "it's", '"q"', "$HOME", "*", "\\n", "%j"]) + f" one\ntwo 'x' %j {place.at('a b')}\n")
    no_jobs()


def keyed_many(place):
    """200 short jobs, 32 at once."""
    flat(place, "#!/bin/sh\necho $SLURM_JOB_ID >>ran/$1\n")
    text, told, status, seconds = place.run(KEYED, "--maxjobs", "32")
    same((text.count(" DONE attempts=1 value=0\n"), told, status), (COUNT, "", 0))
    same({name: place.read(f"ran/{name}").count("\n") for name in names()}, dict.fromkeys(names(), 1))
    print(f"  a job of Slurm each, by dagrun-slurm, --maxjobs 32: {COUNT} jobs in {seconds:.1f} s, {COUNT / seconds:.1f} a second")
    no_jobs()


def keyed_names(place):
    """Names of nodes that are bad in names of files and jobs, that differ in the case of letters alone, and long ones."""
    odd = ["a/b", "A", "a", "x,y", "it's", "50%", "ü", "*", "-J", "n" * 254 + "1", "n" * 254 + "2"]
    place.write("x.dag", "".join(f"JOB {name} job.sub\n" for name in odd))
    place.write("job.sub", "executable = job.sh\narguments = $(JOB)\nqueue\n")
    place.write("job.sh", "#!/bin/sh\necho \"$1\" >>names\n", 0o755)
    text, told, status, _ = place.run(KEYED)
    same((text.count(" DONE attempts=1 value=0\n"), told, status), (len(odd), "", 0))
    same(sorted(place.read("names").splitlines()), sorted(odd))
    no_jobs()


def keyed_step(place):
    """A program that calls srun has its job's processors as steps."""
    one(place, "#!/bin/sh\nexec srun -n2 sh -c 'echo step $SLURM_PROCID'\n", 'environment = "DAGRUN_SLURM=-n2"\n')
    keyed(place, report("DONE", 0))
    same(sorted(place.read("A.out").splitlines()), ["step 0", "step 1"])
    no_jobs()


def srun_of_a_lost_node(place):
    """What srun says of a job whose node is lost: it is printed, and compared with nothing."""
    one(place, WORKS)
    manager = place.start(OWN)
    number = job_of(place)
    node = answer("squeue", "-h", "-j", number, "-o", "%N").strip()
    kill_all([slurmd(node), *processes_of_job(number)])
    text, _, _ = ended(manager)
    print(f"  srun, whose node is lost: {text.splitlines()[0]}")
    nodes_are_up()
    no_jobs()


ROWS = [
    keyed_ends, keyed_words, keyed_names, keyed_step, keyed_cancelled, keyed_cancelled_in_the_queue, keyed_refused, keyed_lost_answer, keyed_killed, keyed_another_host,
    keyed_killed_manager, keyed_interrupt, keyed_abort, keyed_memory, keyed_many, keyed_slurmd, keyed_lost_node, keyed_cut_off, keyed_controller, keyed_time,
    keyed_warning, srun_of_a_lost_node, retries, an_abort, a_killed_srun, a_killed_manager, an_allocation_that_ends, speed,
]


def main():
    program, folder, *word = os.path.realpath(sys.argv[1]), *sys.argv[2:]
    rows = [row for row in ROWS if not word or word[0] in row.__name__]
    failed = 0
    for row in rows:
        begun = time.monotonic()
        try:
            row(Place(program, folder, row.__name__))
            print(f"{row.__name__}: {time.monotonic() - begun:.0f} s")
        except (AssertionError, OSError, ValueError, IndexError, subprocess.SubprocessError) as fault:
            failed += 1
            print(f"FAILED {row.__name__}: {fault}")
    print(f"{len(rows) - failed} passed, {failed} failed")
    sys.exit(1 if failed else 0)


if __name__ == "__main__":
    main()
