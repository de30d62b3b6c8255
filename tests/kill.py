"""Kills `run` by SIGKILL at random moments until it finishes, in rounds (tests/kill.sh says how it is called).

The graph has 200 short jobs in rows, each above the next: one job, 64 that are launched together, and then rows of ten. All have the same
words and know by DAGRUN_NODE who they are; each appends a line to a file of its own, and one of them fails. After each kill the next
manager is called at once, which has to end the children that the last one left: a job that finds an earlier copy of itself at work
says so, and none may. Strangers of the same words, group and session are at work all the time, and none may be ended. The journal is read each
time: its records are those
that were there before, and perhaps more; no phase has two ends or is launched behind its end; a job whose end was recorded has
not run since. In the end the report, the exit status and the rescue file are those of a run that is not killed,
and the audit of the journal says the same of each node."""
import ctypes
import os
import random
import shutil
import subprocess
import sys
import tempfile
import time

from journals import check_records, ended_in, is_finished, records_in

SIZES = [1, 64] + [10] * 13 + [5]
NAMES = [f"n{i}" for i in range(sum(SIZES))]
FAILING = "n157"
# A job that works has a file that names its process, and when that began: its number may soon be another one's. An orphan that has
# ended, but that nobody asks how, works no more. The shell empties that file itself: an rm that an orphan had called would outlive
# it, since who ends an orphan ends its process alone, and might then remove the file of the job that runs in its place.
JOB = f"""me=$DAGRUN_NODE
if read last since <works/$me && read stat </proc/$last/stat; then
    set -- ${{stat##*) }}
    case $1 in Z | X) ;; *) [ ${{20}} != $since ] || echo $me >>copies ;; esac
fi 2>/dev/null
read stat </proc/$$/stat
set -- ${{stat##*) }}
echo $$ ${{20}} >works/$me
echo ran >>runs/$me
sleep 0.01
[ $me != {FAILING} ] || exit 4
: >works/$me
"""


def write(folder, name, text):
    with open(os.path.join(folder, name), "w") as file:
        file.write(text)


def make_graph(folder):
    lines = [f"JOB {name} job.sub" for name in NAMES]
    first, parents = 0, []
    for size in SIZES:
        children = NAMES[first : first + size]
        if parents:
            lines.append(f"PARENT {' '.join(parents)} CHILD {' '.join(children)}")
        first, parents = first + size, children
    write(folder, "x.dag", "\n".join(lines) + "\n")
    write(folder, "job.sub", "executable = /bin/sh\narguments = job.sh\nqueue\n")
    write(folder, "job.sh", JOB)
    for name in ("runs", "works"):
        os.mkdir(os.path.join(folder, name))


def runs_in(folder):
    """How often each job ran."""
    counts = {}
    for name in os.listdir(os.path.join(folder, "runs")):
        with open(os.path.join(folder, "runs", name)) as file:
            counts[name] = len(file.readlines())
    return counts


def rescue_in(folder):
    path = os.path.join(folder, "x.dag.rescue001")
    if not os.path.exists(path):
        return None
    with open(path) as file:
        return file.read()


def start_strangers(folder):
    """Processes of other words' meaning, but of the jobs' words."""
    os.mkdir(folder)
    write(folder, "job.sh", "while :; do sleep 0.5; done\n")
    return [subprocess.Popen(["/bin/sh", "job.sh"], cwd=folder) for _ in range(3)]


def end_strangers(strangers):
    """Ends them, and refuses that one was ended before."""
    ended = [stranger for stranger in strangers if stranger.poll() is not None]
    for stranger in strangers:
        stranger.kill()
        stranger.wait()
    if ended:
        sys.exit(f"{len(ended)} strangers of the same words were ended")


def adopt_orphans():
    """Makes the children of a manager that was killed children of this process."""
    set_child_subreaper = 36
    if ctypes.CDLL(None).prctl(set_child_subreaper, 1) != 0:
        sys.exit("this system does not hand orphans over")


def collect(folder):
    """Asks how orphans that have ended did, so that they don't pile up, and refuses copies of a job that works."""
    try:
        while os.waitpid(-1, os.WNOHANG)[0]:
            pass
    except ChildProcessError:
        pass
    if os.path.exists(os.path.join(folder, "copies")):
        with open(os.path.join(folder, "copies")) as file:
            sys.exit(f"copies of jobs ran at one time: {file.read().split()}")


def one_round(program, folder, longest):
    """Kills runs until one finishes; answers its report, and how many were killed.

    A manager that is killed before anything of it has ended only begins anew what it launched: so the next one has more time."""
    before, kills, settled, time_left = [], 0, {}, longest
    while True:
        manager = subprocess.Popen(
            [program, "run", "x.dag"], cwd=folder, stdout=subprocess.PIPE, stderr=subprocess.PIPE, start_new_session=True, text=True
        )
        try:
            text, faults = manager.communicate(timeout=random.uniform(0.005, time_left))
            if kills and faults == "dagrun: X2 FileRefused x.dag.lock\n":
                # A child that has not come to its own program has the lock for a moment yet.
                time.sleep(0.01)
                continue
            if faults:
                sys.exit(f"run is refused: {faults}")
            status = manager.returncode
        except subprocess.TimeoutExpired:
            kills += 1
            manager.kill()
            # An orphan that has not come to its own program holds the ends of the pipes: they are not read to their ends.
            manager.wait()
            for pipe in (manager.stdout, manager.stderr):
                pipe.close()
            status = None
        collect(folder)
        records = records_in(folder)
        check_records(records, before)
        counts = runs_in(folder)
        for name, count in settled.items():
            if counts[name] != count:
                sys.exit(f"{name} ran again though its end was recorded")
        time_left = longest if len(ended_in(records)) > len(ended_in(before)) else 1.5 * time_left
        settled = {NAMES[key[0]]: counts[NAMES[key[0]]] for key in ended_in(records)}
        before = records
        if status is None and is_finished(records):
            # It was killed behind its last record: the report is what `status` tells, and the verdict.
            text = subprocess.run([program, "status", "x.dag"], cwd=folder, capture_output=True, text=True).stdout
            status = records[-1][2]
            text += f"result {status}\n"
        if status is not None:
            if len(set(ended_in(records))) != len(ended_in(records)):
                sys.exit("an end is recorded twice")
            audit = subprocess.run([program, "audit", "x.dag"], cwd=folder, capture_output=True, text=True)
            if (audit.stdout, audit.returncode) != (text.replace(f"result {status}\n", "audit ok\n"), 0):
                sys.exit(f"another audit: {audit.stdout}{audit.stderr}")
            return (text, status, rescue_in(folder)), kills


def main():
    program = sys.argv[1]
    rounds = int(sys.argv[2]) if len(sys.argv) > 2 else 20
    random.seed(int(sys.argv[3]) if len(sys.argv) > 3 else None)
    adopt_orphans()
    kills = 0
    # What a process that is killed has written stays, on whatever disk; in memory a sync costs nothing.
    memory = "/dev/shm" if os.access("/dev/shm", os.W_OK) else None
    with tempfile.TemporaryDirectory(dir=memory, ignore_cleanup_errors=True) as work:
        calm = os.path.join(work, "calm")
        os.mkdir(calm)
        make_graph(calm)
        start = time.time()
        run = subprocess.run([program, "run", "x.dag"], cwd=calm, capture_output=True, text=True)
        took = time.time() - start
        wanted = (run.stdout, run.returncode, rescue_in(calm))
        if run.returncode != 1 or run.stderr or wanted[2] is None:
            sys.exit(f"the run that is not killed ends with {run.returncode}: {run.stderr}")
        strangers = start_strangers(os.path.join(work, "strangers"))
        try:
            for number in range(rounds):
                folder = os.path.join(work, f"round{number}")
                os.mkdir(folder)
                make_graph(folder)
                found, killed = one_round(program, folder, max(0.05, took / 8))
                if found != wanted:
                    sys.exit(f"round {number}: another report, status or rescue file:\n{found}\n{wanted}")
                kills += killed
                shutil.rmtree(folder)
        finally:
            end_strangers(strangers)
    print(f"{rounds} rounds, {kills} kills: nothing was lost, nothing that had ended ran again, no copy ran and no stranger was ended")


if __name__ == "__main__":
    main()
