#!/usr/bin/env python3
"""Runs workflows by the launchers of launchers/, dagrun-slurm over a Slurm that this file plays, and dagrun-ssh over an ssh.

    tests/launchers.py [PROGRAM [WORD]]     WORD: only the rows whose name holds it

The sbatch, squeue, sacct and scancel are scripts in a folder of the row that is first on the PATH: a job is a process in a session of its
own, and its state a file. Rows wait for what they look at. Values are worked out by hand from docs/MANUAL.md, "On a cluster". Rows with an
sshd of their own on 127.0.0.1 are skipped where there is none. The last line is 'N passed, M failed', with the skipped ones behind it."""
import concurrent.futures
import fcntl
import getpass
import os
import shutil
import signal
import socket
import subprocess
import sys
import tempfile
import time

TOP = os.path.realpath(os.path.join(os.path.dirname(__file__), ".."))
# How many seconds it is waited for what comes at once on a machine that is not busy.
PATIENCE = int(os.environ.get("PATIENCE", "300"))
# Rows at once: they wait most of the time.
AT_ONCE = 8


class Skipped(Exception):
    """What a row needs is not installed."""


def same(found, wanted):
    if found != wanted:
        raise AssertionError(f"found\n{found}\nwanted\n{wanted}")


def wait_until(holds, otherwise):
    end = time.monotonic() + PATIENCE
    while not holds():
        if time.monotonic() > end:
            raise AssertionError(f"{otherwise} after {PATIENCE} seconds")
        time.sleep(0.02)


def alive(process):
    """Whether a process runs, and is not only waited for."""
    try:
        with open(f"/proc/{process}/stat") as file:
            return file.read().rpartition(") ")[2][0] not in "ZX"
    except (OSError, IndexError):
        return False


# What each of the four begins with: its options, how often it was called, and whether it is to end its launcher (and the manager) at this call.
# `kill` has the name of the program, the number of the call, and whether it is before or after what it does.
COMMON = r"""#!/bin/bash -p
set -f
S=@STATE@
me=${0##*/}
all=("$@")
( flock 9; echo . >>"$S/calls.$me" ) 9>"$S/lock"
# The launcher is the process that the manager started.
ends_launcher() {
    local p=$PPID parent
    read -r program number when <"$S/kill" || return
    [ "$program" = "$me" ] && [ "$when" = "$1" ] && [ "$(wc -l <"$S/calls.$me")" = "$number" ] || return
    while :; do
        parent=$(sed 's/.*) //' "/proc/$p/stat" | cut -d ' ' -f 2)
        [ "$(cat "/proc/$parent/comm")" = dagrun ] && break
        p=$parent
    done
    echo "$p" >"$S/killed"
    kill -9 "$parent" "$p"
    [ "$1" = after ] || exit 1
}
{ ends_launcher before; } 2>/dev/null
# The option that is given last counts.
option() {
    local i
    found=
    for ((i = 0; i < ${#all[@]}; i++)); do
        case ${all[i]} in "$1") found=${all[i + 1]} ;; "$2"*) found=${all[i]#"$2"} ;; esac
    done
}
# The cluster that is asked, where one is named: each knows its own jobs.
option -M --clusters=
cluster=${found:-${SLURM_CLUSTERS-}}
is_here() {
    of=
    [ -e "$S/jobs/$1/cluster" ] && read -r of <"$S/jobs/$1/cluster"
    [ "$of" = "$cluster" ]
}
# Each job: id name state exit node, of a file that is replaced.
each_job() {
    set +f
    for folder in "$S"/jobs/*; do
        id=${folder##*/}
        [ -e "$folder/is" ] && is_here "$id" || continue
        read -r name state code node <"$folder/is"
        "$1"
    done
    set -f
}
becomes() {
    # Only what has not ended changes.
    ( flock 9
        read -r name was code node <"$S/jobs/$1/is"
        case $was in PENDING | RUNNING) echo "$name $2 $3 n1" >"$S/jobs/$1/is.new.$$"; mv "$S/jobs/$1/is.new.$$" "$S/jobs/$1/is" ;; esac
    ) 9>"$S/jobs/$1/lock"
}
# Takes one from a file that counts: true as long as there was one.
takes() {
    ( flock 9
        n=$(cat "$S/$1" 2>/dev/null) && [ "$n" -gt 0 ] && echo $((n - 1)) >"$S/$1" ) 9>"$S/lock"
}
"""
SBATCH = r"""
cluster=${found:-${SBATCH_CLUSTERS:-${SLURM_CLUSTERS-}}}
option -J --job-name=
name=$found
script=$(cat; echo .)
printf '%s\n' "$*" >>"$S/asked"
if takes refuses; then
    if [ -e "$S/says" ]; then cat "$S/says" >&2; else echo 'sbatch: error: Batch job submission failed: Invalid partition name specified' >&2; fi
    exit 1
fi
if takes unheard; then echo 'sbatch: error: Batch job submission failed: Unable to contact slurm controller (connect failure)' >&2; exit 1; fi
id=$( ( flock 9; n=$(($(cat "$S/last") + 1)); echo $n | tee "$S/last" ) 9>"$S/lock" )
mkdir "$S/jobs/$id"
if [ "$cluster" ]; then echo "$cluster" >"$S/jobs/$id/cluster"; fi
printf %s "${script%.}" >"$S/jobs/$id/script"
cat "/proc/$$/environ" >"$S/jobs/$id/environ"
echo "$name PENDING 0:0 None" >"$S/jobs/$id/is.new"
mv "$S/jobs/$id/is.new" "$S/jobs/$id/is"
env --default-signal setsid "$S/bin/node" "$id" </dev/null >/dev/null 2>&1 &
if takes doubles; then
    mkdir "$S/jobs/$((id + 500))"
    printf %s "${script%.}" >"$S/jobs/$((id + 500))/script"
    cat "/proc/$$/environ" >"$S/jobs/$((id + 500))/environ"
    echo "$name PENDING 0:0 None" >"$S/jobs/$((id + 500))/is"
    env --default-signal setsid "$S/bin/node" "$((id + 500))" </dev/null >/dev/null 2>&1 &
fi
{ ends_launcher after; } 2>/dev/null
if takes loses; then echo 'sbatch: error: Batch job submission failed: Socket timed out on send/recv operation' >&2; exit 1; fi
echo "$id${cluster:+;$cluster}"
"""
# The node: the job begins once `holds` is gone.
NODE = r"""
id=$1
echo $$ >"$S/jobs/$id/session"
while [ -e "$S/holds" ] || [ -e "$S/holds.$id" ]; do sleep 0.05; done
read -r name state code node <"$S/jobs/$id/is"
[ "$state" = PENDING ] || exit
becomes "$id" RUNNING 0:0
mapfile -d '' environment <"$S/jobs/$id/environ"
env -i "${environment[@]}" "SLURM_JOB_ID=$id" SLURMD_NODENAME=n1 /bin/bash -p "$S/jobs/$id/script"

code=$?
while [ -e "$S/slow" ]; do sleep 0.05; done
if [ $code = 0 ]; then becomes "$id" COMPLETED 0:0; else becomes "$id" FAILED $code:0; fi
"""
SQUEUE = r"""
if takes deaf || [ -e "$S/down" ]; then echo 'slurm_load_jobs error: Unable to contact slurm controller (connect failure)' >&2; exit 1; fi
if takes blank; then exit 0; fi
option -o --format=
format=$found
show() {
    case $state in PENDING | RUNNING) ;; *) [ -e "$S/forgets" ] && return ;; esac
    line=${format/\%i/$id}
    line=${line/\%T/${state%% *}}
    line=${line/\%N/$node}
    echo "${line/\%j/$name}"
}
each_job show
{ ends_launcher after; } 2>/dev/null
exit 0
"""
SACCT = r"""
if [ -e "$S/no.accounts" ]; then echo 'Slurm accounting storage is disabled' >&2; exit 1; fi
option -j --jobs=
ids=,$found,
option -o --format=
fields=${found//,/ }
option -n --name=
names=$found
[ -e "$S/asks" ] && echo "$ids" >>"$S/asks"
show() {
    if [ -e "$S/unknown" ]; then return; fi
    case $ids in ,,) [ "$names" = "$name" ] || return ;; *",$id,"*) ;; *) return ;; esac
    if [ -e "$S/stale" ]; then state=RUNNING; fi
    if [ "$state" = CANCELLED ]; then state='CANCELLED by 0'; fi
    line=
    for field in $fields; do
        case $field in
        jobid) line+="|$id" ;; jobname) line+="|$name" ;; state) line+="|$state" ;; exitcode) line+="|$code" ;; nodelist) line+="|$node" ;; maxrss) line+="|" ;;
        esac
    done
    echo "${line#|}"
    case $fields in *maxrss*) echo "$id.batch|$state|$code|$node|5120K|batch" ;; esac
}
each_job show
{ ends_launcher after; } 2>/dev/null
exit 0
"""
SCANCEL = r"""
status=0
until [ "$1" = -- ]; do shift; done
shift
for id in "$@"; do
    [ -e "$S/jobs/$id/is" ] && is_here "$id" || { status=1; continue; }
    becomes "$id" CANCELLED 0:15
    session=$(cat "$S/jobs/$id/session")
    pkill -TERM -s "$session" -f script
    pkill -KILL -s "$session"
done
{ ends_launcher after; } 2>/dev/null
exit $status
"""
# An ssh that keeps nothing: a shell in / without an environment, in a session of its own; `down.HOST` is a host that doesn't answer.
SSH = r"""#!/bin/bash -p
S=@STATE@
while [[ $1 == -* ]]; do case $1 in -o | -p | -l | -i | -F) shift 2 ;; *) shift ;; esac; done
host=$1
shift
takes() {
    ( flock 9
        n=$(cat "$S/$1" 2>/dev/null) && [ "$n" -gt 0 ] && echo $((n - 1)) >"$S/$1" ) 9>"$S/lock"
}
echo "$host" >>"$S/calls.ssh"
if [ -e "$S/down.$host" ]; then echo "ssh: connect to host $host port 22: Connection refused" >&2; exit 255; fi
cd / || exit 255
[ -e "$S/umask" ] && umask "$(cat "$S/umask")"
# What a ~/.bashrc prints, which may lack a line end.
if [ -e "$S/noise" ]; then printf 'alive\ngone\nWelcome to %s' "$host"; fi
env -i HOME=/ PATH=/usr/bin:/bin setsid -w /bin/sh -c "$*"
status=$?
if takes loses; then echo "Connection to $host closed by remote host." >&2; exit 255; fi
exit $status
"""
JOB = '#!/bin/sh\necho $1 >>ran.$1\n'
# Whoever finds the file of its number finds the number in it.
BEATS = JOB + 'echo $$ >pid.$1.new; mv pid.$1.new pid.$1\nwhile [ ! -e over ]; do sleep 0.05; done\n'


class Place:
    """A folder with a workflow, and a Slurm of its own."""

    def __init__(self, program, folder, name="work"):
        self.program = program
        self.folder = folder
        self.path = os.path.join(folder, name)
        self.state = os.path.join(folder, "state")
        self.launcher = "dagrun-slurm"
        os.makedirs(self.path)
        os.makedirs(os.path.join(self.state, "jobs"))
        os.makedirs(os.path.join(self.state, "bin"))
        self.mode("last", "100")
        for command, text in (("sbatch", SBATCH), ("squeue", SQUEUE), ("sacct", SACCT), ("scancel", SCANCEL), ("node", NODE)):
            self.script(command, COMMON + text)
        self.script("ssh", SSH)
        os.symlink(os.path.realpath(program), os.path.join(self.state, "bin", "dagrun"))
        self.settings = dict(
            os.environ, PATH=f"{self.state}/bin:{TOP}/launchers:{os.environ['PATH']}",
            DAGRUN_SLURM_POLL="0.1", DAGRUN_SLURM_WAIT="0.5", DAGRUN_SLURM_TRIES="3",
            # A job that has not begun by then is started on the next host.
            DAGRUN_SSH_POLL="0.1", DAGRUN_SSH_WAIT="10",
        )
        for name in list(self.settings):
            if name.startswith(("DAGRUN_ROUND", "DAGRUN_NODE", "DAGRUN_DAG", "DAGRUN_PHASE", "DAGRUN_ATTEMPT", "DAGRUN_LAUNCHER", "SLURM_", "SBATCH_")):
                del self.settings[name]

    def script(self, name, text):
        path = os.path.join(self.state, "bin", name)
        with open(path, "w") as file:
            file.write(text.replace("@STATE@", f"'{self.state}'"))
        os.chmod(path, 0o755)

    def at(self, name):
        return os.path.join(self.path, name)

    def there(self, name):
        return os.path.exists(self.at(name))

    def write(self, name, text, mode=0o644):
        with open(self.at(name), "w") as file:
            file.write(text)
        os.chmod(self.at(name), mode)

    def read(self, name):
        with open(self.at(name), errors="surrogateescape") as file:
            return file.read()

    def mode(self, name, text=""):
        with open(os.path.join(self.state, name), "w") as file:
            file.write(text + "\n")

    def unmode(self, name):
        os.remove(os.path.join(self.state, name))

    def calls(self, command):
        try:
            with open(os.path.join(self.state, f"calls.{command}")) as file:
                return len(file.readlines())
        except FileNotFoundError:
            return 0

    def jobs(self):
        """The jobs that Slurm has: the number, and name, state, exit code and node."""
        found = {}
        for number in sorted(os.listdir(os.path.join(self.state, "jobs")), key=int):
            try:
                with open(os.path.join(self.state, "jobs", number, "is")) as file:
                    found[int(number)] = file.read().split()
            except FileNotFoundError:
                pass
        return found

    def states(self):
        return [fields[1] for fields in self.jobs().values()]

    def is_ours(self, process):
        """Whether a process is one of this row, or is gone: its number may be that of another one by now."""
        try:
            with open(f"/proc/{process}/cmdline", "rb") as words, open(f"/proc/{process}/environ", "rb") as environ:
                return f"{self.folder}/".encode() in words.read() + b"\0" + environ.read() or not alive(process)
        except OSError:
            return True

    def sessions(self):
        """The jobs and the sessions in which they run, or ran."""
        for number in os.listdir(os.path.join(self.state, "jobs")):
            try:
                with open(os.path.join(self.state, "jobs", number, "session")) as file:
                    session = int(file.read())
                if self.is_ours(session):
                    yield int(number), session
            except (FileNotFoundError, ValueError):
                pass

    def ends(self, number, state, code="0:0"):
        """Slurm ends a job: its processes are gone at once. What plays the node may be about to say how the job ended: the lock decides who is
        the first, as it does between that and scancel."""
        path = os.path.join(self.state, "jobs", str(number), "is")
        with open(path) as file:
            name = file.read().split()[0]
        for job, session in self.sessions():
            if job == number:
                kill_session(session)
        with open(os.path.join(self.state, "jobs", str(number), "lock"), "a") as lock:
            fcntl.flock(lock, fcntl.LOCK_EX)
            with open(path + ".end", "w") as file:
                file.write(f"{name} {state} {code} n1\n")
            os.rename(path + ".end", path)

    def job(self, script=JOB, more=""):
        self.write("job.sh", script, 0o755)
        self.write("job.sub", f"executable = job.sh\narguments = $(JOB) $(RETRY)\noutput = $(JOB).out\nerror = $(JOB).err\n{more}queue\n")

    def one(self, script=JOB, more="", retry=0):
        """A workflow of one node, A."""
        self.write("x.dag", "JOB A job.sub\n" + (f"RETRY A {retry}\n" if retry else ""))
        self.job(script, more)

    def start(self, *options, launcher=None, **settings):
        words = [f"{self.state}/bin/dagrun", "run", "--launcher", launcher or self.launcher, *options, "x.dag"]
        return subprocess.Popen(
            words, cwd=self.path, stdin=subprocess.DEVNULL, stdout=subprocess.PIPE, stderr=subprocess.PIPE, text=True, env=self.settings,
            start_new_session=True, preexec_fn=lambda: signal.signal(signal.SIGINT, signal.SIG_DFL), **settings,
        )

    def run(self, *options, launcher=None):
        """What is printed and told, and the exit status."""
        return ended(self.start(*options, launcher=launcher))

    def wait_for(self, name):
        wait_until(lambda: self.there(name), f"{name} is not there")

    def processes(self, count=1):
        """The processes that the manager has noted, so many: a child may be faster than the manager's note of it."""
        def noted():
            lines = self.read("x.dag.children").splitlines(keepends=True)
            return [int(line.split("\t")[0]) for line in lines if line.endswith("\n") and line.split("\t")[0].isdigit()]

        wait_until(lambda: len(noted()) >= count, f"{count} processes are not noted")
        return noted()

    def launchers(self):
        """The launchers of this folder that run, and their guards."""
        found = []
        for process in filter(str.isdigit, os.listdir("/proc")):
            try:
                with open(f"/proc/{process}/cmdline", "rb") as words, open(f"/proc/{process}/environ", "rb") as environ:
                    if any(word.endswith((b"/dagrun-slurm", b"/dagrun-ssh")) for word in words.read().split(b"\0")) and f"{self.path}/".encode() in environ.read():
                        found.append(int(process))
            except OSError:
                pass
        return [process for process in found if alive(process)]

    def scripts(self):
        """The scripts of dagrun-ssh that run, which start programs."""
        found = []
        for process in filter(str.isdigit, os.listdir("/proc")):
            try:
                with open(f"/proc/{process}/cmdline", "rb") as words:
                    if f"{self.path}/x.dag.ssh/job.".encode() in words.read():
                        found.append(int(process))
            except OSError:
                pass
        return [process for process in found if alive(process)]

    def wait_for_guards(self):
        """Waits until no launcher and no guard runs: what they do to their jobs is done then."""
        wait_until(lambda: not self.launchers(), "a launcher or its guard is left")

    def ended_lines(self):
        return [line.split("\t") for line in self.read("x.dag.slurm/ended").splitlines()]

    def clean(self):
        """Ends what the row left."""
        for _, session in self.sessions():
            kill_session(session)
        mark = f"{self.folder}/".encode()
        for process in os.listdir("/proc"):
            for part in ("environ", "cmdline"):
                try:
                    with open(f"/proc/{process}/{part}", "rb") as file:
                        if mark in file.read() and int(process) != os.getpid():
                            os.kill(int(process), signal.SIGKILL)
                except (OSError, ValueError):
                    pass


def signal_session(session, number):
    """Sends a signal to the processes of a session that run; answers how many there are."""
    count = 0
    for process in filter(str.isdigit, os.listdir("/proc")):
        try:
            if os.getsid(int(process)) == session and alive(process):
                count += 1
                os.kill(int(process), number)
        except OSError:
            pass
    return count


def groups_of(session):
    """The process groups of a session in which a process runs."""
    groups = set()
    for process in filter(str.isdigit, os.listdir("/proc")):
        try:
            if os.getsid(int(process)) == session and alive(process):
                groups.add(os.getpgid(int(process)))
        except OSError:
            pass
    return groups


def kill_groups(session):
    """Sends SIGKILL to each process group of a session, the newest first; answers how many there are."""
    groups = groups_of(session)
    for group in sorted(groups, reverse=True):
        try:
            os.killpg(group, signal.SIGKILL)
        except ProcessLookupError:
            pass
    return len(groups)


def kill_session(session):
    """Ends all processes of a session, and those that they start meanwhile. They are stopped before, so that none sees how another one ends; and
    they are killed by groups, since a group that is stopped gets SIGHUP and goes on where its parent, of another group, ends first."""
    signal_session(session, signal.SIGSTOP)
    wait_until(lambda: kill_groups(session) == 0, f"session {session} is not gone")


def terminate_sessions(place):
    """SIGTERM to all processes of all jobs, as Slurm sends it, but to what plays the node."""
    sessions = [session for _, session in place.sessions()]
    for process in os.listdir("/proc"):
        if process.isdigit() and int(process) not in sessions:
            try:
                if os.getsid(int(process)) in sessions:
                    os.kill(int(process), signal.SIGTERM)
            except OSError:
                pass


def ended(child):
    text, told = child.communicate(timeout=PATIENCE)
    return text, told, child.returncode


def killed(child):
    child.kill()
    child.communicate(timeout=PATIENCE)


def report(state, value, attempts=1):
    return f"A {state} attempts={attempts} value={value}\nresult {0 if state == 'DONE' else 1}\n", "", 0 if state == "DONE" else 1


DONE = report("DONE", 0)


# ---- How a job ends


def exits(place):
    """0 and 3, with what stands in `ended`."""
    place.one()
    same(place.run(), DONE)
    same(place.ended_lines()[0][1:], ["A", "0", "101", "n1", "0", "5120K", "exit 0"])
    place.one(JOB + "exit 3\n")
    same(place.run(), report("ERROR", 3))
    same([place.ended_lines()[1][at] for at in (1, 3, 5, 7)], ["A", "102", "3", "exit 3"])
    same((place.read("A.err"), os.listdir(place.at("x.dag.slurm/open"))), ("", []))
    same("--no-requeue" in open(f"{place.state}/asked").read(), True)


def signals(place):
    for name, value in (("KILL", 137), ("SEGV", 139), ("TERM", 143), ("INT", 130)):
        place.one(JOB + f"kill -{name} $$\nsleep 9\n")
        same(place.run(), report("ERROR", value))
        same(place.read("A.err"), "")


def ended_by_slurm(place, state, value, words, code="0:0"):
    place.one(BEATS)
    manager = place.start()
    place.wait_for("pid.A")
    place.ends(101, state, code)
    same(ended(manager), report("ERROR", value))
    same(place.read("A.err"), f"dagrun-slurm: job 101 on n1: {words}\n")
    same([place.ended_lines()[0][at] for at in (3, 5, 7)], ["101", str(value), words])
    same(place.read("ran.A"), "A\n")


def a_lost_node(place):
    """75, and its retry is done."""
    place.one(BEATS.replace("over", "over.$2"), retry=1)
    place.write("over.1", "")
    manager = place.start()
    place.wait_for("pid.A")
    place.ends(101, "NODE_FAIL", "0:0")
    same(ended(manager), report("DONE", 0, 2))
    same([line[5] for line in place.ended_lines()], ["75", "0"])


def a_lost_node_without_accounts(place):
    place.mode("no.accounts")
    ended_by_slurm(place, "NODE_FAIL", 75, "lost with its node (NODE_FAIL)")


def a_time_limit(place):
    ended_by_slurm(place, "TIMEOUT", 124, "its time was over (TIMEOUT)", "0:15")


def a_time_limit_with_an_end(place):
    """A program that ends well as it is told that its time is over has not come to its end."""
    place.one(JOB + "trap 'exit 0' TERM\necho >up\nwhile :; do sleep 0.05; done\n")
    place.mode("slow")
    manager = place.start()
    place.wait_for("up")
    terminate_sessions(place)
    wait_until(lambda: [name for name in os.listdir(place.at("x.dag.slurm")) if name.startswith("end.") and not name.endswith(".new")], "no end")
    place.ends(101, "TIMEOUT", "0:15")
    same(ended(manager), report("ERROR", 124))


def a_memory_limit(place):
    ended_by_slurm(place, "OUT_OF_MEMORY", 137, "it took more memory than it may", "0:125")


def a_cancelled_job(place):
    ended_by_slurm(place, "CANCELLED", 143, "cancelled (CANCELLED by 0)", "0:15")


def a_preempted_job(place):
    ended_by_slurm(place, "PREEMPTED", 76, "preempted")


def a_killed_script(place):
    """The script on the node is killed with its program: Slurm knows the signal."""
    place.one(BEATS)
    manager = place.start()
    place.wait_for("pid.A")
    place.ends(101, "FAILED", "0:9")
    same(ended(manager), report("ERROR", 137))


def completed_without_an_end(place):
    """Slurm's word that a job is completed is not enough for 0."""
    place.one(BEATS)
    manager = place.start()
    place.wait_for("pid.A")
    place.ends(101, "COMPLETED")
    same(ended(manager), report("ERROR", 75))
    same(place.read("A.err"), "dagrun-slurm: job 101 on n1: Slurm says COMPLETED, and the job left no end\n")


def an_end_that_can_not_be_written(place):
    """What can't be written down isn't known: 74."""
    place.one(JOB + "mkdir x.dag.slurm/end.A.JOB.0.$(ls x.dag.slurm | sed -n 's/^claim[.]A[.]JOB[.]0[.]//p').new\n")
    same(place.run(), report("ERROR", 74))


def no_program(place):
    place.one()
    os.remove(place.at("job.sh"))
    same(place.run(), report("ERROR", 127))


def no_folder_on_the_node(place):
    """A node that doesn't see the folder."""
    place.one()
    os.mkdir(place.at("in"))
    place.job(more="initialdir = in\n")
    place.mode("holds")
    manager = place.start()
    wait_until(lambda: place.states() == ["PENDING"], "no job")
    os.rmdir(place.at("in")) if not os.listdir(place.at("in")) else shutil.rmtree(place.at("in"))
    place.unmode("holds")
    same(ended(manager)[0], report("ERROR", 75)[0])


# ---- Submitting


def never_submitted(place):
    """Slurm refuses it: 85, at once; or doesn't answer, as often as it is asked."""
    place.one()
    place.mode("refuses", "1")
    same(place.run(), report("ERROR", 85))
    same(place.read("A.err"), "dagrun-slurm: never submitted: sbatch: error: Batch job submission failed: Invalid partition name specified\n")
    same((place.calls("sbatch"), place.ended_lines()[0][5]), (1, "85"))
    # A limit that doesn't pass, in the same words as one that does.
    place.mode("refuses", "1")
    place.mode("says", f"sbatch: error: QOSMaxWallDurationPerJobLimit\n{POLICY}")
    same(place.run(), report("ERROR", 85))
    same(place.read("A.err"), f"dagrun-slurm: never submitted: sbatch: error: QOSMaxWallDurationPerJobLimit; {POLICY}\n")
    place.mode("unheard", "100")
    same(place.run(), report("ERROR", 85))
    same((place.calls("sbatch"), place.jobs(), place.there("ran.A")), (5, {}, False))


POLICY = "sbatch: error: Batch job submission failed: Job violates accounting/QOS policy (job submit limit, user's size and/or time limits)"


def no_room(place):
    """Slurm takes no more jobs for now: it is asked again, as often as need be, and the attempt goes on."""
    place.one()
    for text, times in (
        (f"sbatch: error: QOSMaxSubmitJobPerUserLimit\n{POLICY}", 5),
        (f"sbatch: error: AssocMaxSubmitJobLimit\n{POLICY}", 1),
        (POLICY, 1),
        ("sbatch: error: Batch job submission failed: I/O error writing script/environment to file", 1),
        ("sbatch: error: Slurm temporarily unable to accept job, sleeping and retrying", 4),
        ("sbatch: error: Batch job submission failed: Resource temporarily unavailable", 1),
    ):
        before = place.calls("sbatch")
        place.mode("says", text)
        place.mode("refuses", str(times))
        same(place.run("--autorescue", "0"), DONE)
        same(place.calls("sbatch") - before, times + 1)
        same(place.read("A.err"), f"dagrun-slurm: Slurm takes no more jobs for now, and is asked again: {'; '.join(text.splitlines())}\n")
    same((len(place.jobs()), place.read("ran.A")), (6, "A\n" * 6))


def no_room_for_all(place):
    """Slurm takes two jobs at once: the others wait their turn, and no attempt is lost by that."""
    names = [f"n{number}" for number in range(6)]
    place.write("x.dag", "".join(f"JOB {name} job.sub\n" for name in names))
    place.job(BEATS)
    # Two calls at once don't count the same jobs.
    limit = 'exec 8>"$S/room"; flock 8; n=0; count() { case $state in PENDING | RUNNING) n=$((n + 1)) ;; esac; }; each_job count\n[ "$n" -lt 2 ] || echo 1 >"$S/refuses"\n'
    place.script("sbatch", COMMON + limit + SBATCH.replace('"$S/bin/node" "$id"', '"$S/bin/node" "$id" 8>&-', 1))
    place.mode("says", f"sbatch: error: QOSMaxSubmitJobPerUserLimit\n{POLICY}")
    manager = place.start("--maxjobs", "4")
    wait_until(lambda: place.calls("sbatch") > 6, "sbatch is not called again")
    same(len(place.jobs()), 2)
    place.write("over", "")
    same(ended(manager), ("".join(f"{name} DONE attempts=1 value=0\n" for name in names) + "result 0\n", "", 0))
    same([place.read(f"ran.{name}") for name in names], [f"{name}\n" for name in names])


def stopped_while_there_is_no_room(place):
    """The launcher ends at once: nothing is on its way, so nothing is looked for."""
    place.settings["DAGRUN_SLURM_POLL"] = str(PATIENCE)
    place.one()
    place.mode("says", POLICY)
    place.mode("refuses", "1")
    manager = place.start()
    wait_until(lambda: place.there("A.err") and place.read("A.err"), "it does not wait")
    (launcher,) = place.processes()
    os.kill(launcher, signal.SIGTERM)
    same(ended(manager), report("ERROR", 143))
    place.wait_for_guards()
    same((place.jobs(), place.calls("squeue"), place.there("x.dag.slurm/ended")), ({}, 1, False))


def an_answer_that_comes_late(place):
    """sbatch fails twice, and the third call is heard."""
    place.one()
    place.mode("unheard", "2")
    same(place.run(), DONE)
    same((place.calls("sbatch"), place.read("ran.A")), (3, "A\n"))


def a_lost_answer(place):
    """The job was submitted, and sbatch failed: it is found, and no other is made."""
    place.one()
    place.mode("loses", "1")
    same(place.run(), DONE)
    same((place.calls("sbatch"), place.read("ran.A")), (1, "A\n"))


def a_lost_answer_of_a_job_that_waits(place):
    place.one()
    place.mode("loses", "1")
    place.mode("holds")
    place.mode("deaf", "2")
    place.mode("no.accounts")
    manager = place.start()
    wait_until(lambda: any(name.startswith("id.") for name in os.listdir(place.at("x.dag.slurm"))) if place.there("x.dag.slurm") else False, "no id")
    place.unmode("holds")
    same(ended(manager), DONE)
    same((place.calls("sbatch"), len(place.jobs())), (1, 1))


def a_doubled_job(place):
    """Of two jobs of one key the second ends before its program runs, whichever sbatch named."""
    place.one(BEATS)
    place.mode("doubles", "1")
    place.mode("holds.101")
    manager = place.start()
    place.wait_for("ran.A")
    place.unmode("holds.101")
    # The first goes on to run until the second has ended.
    wait_until(lambda: place.jobs()[101][1] not in ("PENDING", "RUNNING"), "the second does not end")
    place.write("over", "")
    same(ended(manager), DONE)
    same((place.read("ran.A"), place.ended_lines()[0][3]), ("A\n", "601"))
    wait_until(lambda: not {"PENDING", "RUNNING"} & set(place.states()), "a job is left")
    same(place.read("ran.A"), "A\n")


def a_doubled_job_that_waits(place):
    """The second of two jobs waits in the queue as the first ends: it is cancelled, or ends before its program runs."""
    place.one()
    place.mode("doubles", "1")
    place.mode("holds.101")
    same(place.run(), DONE)
    same(place.ended_lines()[0][3], "601")
    wait_until(lambda: place.jobs()[101][1] == "CANCELLED", "it is not cancelled")
    place.unmode("holds.101")
    same(place.read("ran.A"), "A\n")


# ---- Clusters


def a_cluster(place):
    """The job is on the cluster that was named, also where the answer of sbatch is lost."""
    for name, words in (
        ("DAGRUN_SLURM", "-M c2"), ("DAGRUN_SLURM", "-p x --clusters=c2"), ("DAGRUN_SLURM", "-Mc2"), ("SLURM_CLUSTERS", "c2"), ("SBATCH_CLUSTERS", "c2"),
    ):
        place.settings[name] = words
        if name == "SLURM_CLUSTERS":
            place.mode("loses", "1")
        place.one(JOB + "exit 3\n")
        same(place.run("--autorescue", "0"), report("ERROR", 3))
        del place.settings[name]
    same([line[3] for line in place.ended_lines()], [f"{number};c2" for number in range(101, 106)])
    same((place.calls("sbatch"), place.read("ran.A")), (5, "A\n" * 5))
    place.one()
    same(place.run("--autorescue", "0"), DONE)
    same(place.ended_lines()[5][3], "106")


def two_clusters(place):
    """One sacct for each of them; jobs of both are followed, and their memory is known."""
    place.write("x.dag", "JOB A job.sub\nJOB B b.sub\n")
    place.job(BEATS)
    place.write("b.sub", place.read("job.sub").replace("queue\n", 'environment = "DAGRUN_SLURM=-Mc2"\nqueue\n'))
    place.mode("asks")
    manager = place.start()
    place.wait_for("pid.A")
    place.wait_for("pid.B")
    place.write("over", "")
    same(ended(manager)[0], "A DONE attempts=1 value=0\nB DONE attempts=1 value=0\nresult 0\n")
    same(sorted((line[1], ";c2" in line[3], line[6]) for line in place.ended_lines()), [("A", False, "5120K"), ("B", True, "5120K")])
    same({line.strip() for line in open(f"{place.state}/asks")} - {""}, {",101,", ",102,"})


def a_cluster_in_a_later_life(place):
    """A later life goes by what was noted, whatever the settings name by then."""
    for before, after in (("c2", None), (None, "c2")):
        place.settings.pop("SLURM_CLUSTERS", None)
        if before:
            place.settings["SLURM_CLUSTERS"] = before
        place.one(BEATS)
        manager = place.start("--autorescue", "0")
        place.wait_for("pid.A")
        crash(place, manager)
        place.settings.pop("SLURM_CLUSTERS", None)
        if after:
            place.settings["SLURM_CLUSTERS"] = after
        # A job that another cluster is asked about would be lost by then.
        asked = place.calls("sacct")
        manager = place.start()
        wait_until(lambda: place.calls("sacct") > asked + 10 or manager.poll() is not None, "sacct is not called")
        same(manager.poll(), None)
        place.write("over", "")
        same(ended(manager), DONE)
        same(place.read("ran.A"), "A\n")
        for name in ("over", "pid.A", "ran.A"):
            os.remove(place.at(name))
    same([line[3] for line in place.ended_lines()], ["101;c2", "102"])


def cancelled_on_a_cluster(place):
    """By the launcher, by its guard, and by the next round."""
    place.settings["DAGRUN_SLURM"] = "-M c2"
    place.one(BEATS)
    for number, way in enumerate((signal.SIGTERM, signal.SIGKILL)):
        manager = place.start("--autorescue", "0")
        wait_until(lambda: place.there("ran.A") and len(place.read("ran.A")) == 2 * number + 2, "it does not begin")
        (launcher,) = place.processes()
        os.kill(launcher, way)
        same(ended(manager)[2], 1)
        wait_until(lambda: place.states() == ["CANCELLED"] * (number + 1), "it is not cancelled")
    manager = place.start("--autorescue", "0")
    wait_until(lambda: len(place.read("ran.A")) == 6, "it does not begin")
    crash(place, manager)
    give_up(place, "redo")
    del place.settings["DAGRUN_SLURM"]
    manager = place.start()
    wait_until(lambda: place.states()[:3] == ["CANCELLED"] * 3, "it is not cancelled")
    place.write("over", "")
    same(ended(manager), DONE)
    same(place.states(), ["CANCELLED", "CANCELLED", "CANCELLED", "COMPLETED"])


def no_array(place):
    """An array, and more clusters than one, are refused before anything is submitted."""
    array = "an array can't be asked for (-a, --array, SBATCH_ARRAY_INX): the job of a node is one job"
    clusters = "only one cluster can be asked for (-M, --clusters, SBATCH_CLUSTERS, SLURM_CLUSTERS), not"
    for name, words, told in (
        ("DAGRUN_SLURM", "--array=1-1", array), ("DAGRUN_SLURM", "-p x -a 1", array), ("DAGRUN_SLURM", "-a1", array), ("SBATCH_ARRAY_INX", "1", array),
        ("DAGRUN_SLURM", "-M c1,c2", f"{clusters} c1,c2"), ("SLURM_CLUSTERS", "all", f"{clusters} all"),
    ):
        place.settings[name] = words
        place.one()
        same(place.run("--autorescue", "0"), report("ERROR", 85))
        same(place.read("A.err"), f"dagrun-slurm: {told}\n")
        del place.settings[name]
    same(place.calls("sbatch"), 0)


# ---- What Slurm knows late, or not


def late_accounts(place):
    """sacct doesn't know the job yet, and squeue has forgotten it; then sacct says that it runs still."""
    for mode in ("unknown", "stale"):
        place.one()
        place.mode(mode)
        place.mode("forgets")
        manager = place.start()
        place.wait_for("ran.A")
        wait_until(lambda: place.states()[-1] == "COMPLETED", "it does not end")
        same(ended(manager), DONE)
        place.unmode(mode)
        os.remove(place.at("ran.A"))
    place.one(BEATS)
    place.mode("stale")
    manager = place.start()
    place.wait_for("pid.A")
    place.ends(103, "COMPLETED")
    same(ended(manager), report("ERROR", 75))
    same(place.read("A.err"), "dagrun-slurm: job 103 on n1: Slurm does not know it any more, and it left no end\n")


def no_accounts(place):
    """The job's own end decides: behind squeue's word, and where that has forgotten the job."""
    place.mode("no.accounts")
    for forgets in (False, True):
        if forgets:
            place.mode("forgets")
        for script, wanted in ((JOB, DONE), (JOB + "exit 3\n", report("ERROR", 3)), (JOB + "kill -9 $$\n", report("ERROR", 137))):
            place.one(script)
            same(place.run("--autorescue", "0"), wanted)
    place.one(BEATS)
    manager = place.start("--autorescue", "0")
    place.wait_for("pid.A")
    place.ends(107, "NODE_FAIL")
    same(ended(manager), report("ERROR", 75))


def told_to_end_without_accounts(place):
    """Nobody knows more than the job itself: it was told to end, and ended well. That is not 0. Another value is its own."""
    place.mode("no.accounts")
    place.mode("forgets")
    for code, value in ((0, 143), (5, 5)):
        place.one(JOB + f"trap 'exit {code}' TERM\necho >up\nwhile :; do sleep 0.05; done\n")
        manager = place.start("--autorescue", "0")
        place.wait_for("up")
        terminate_sessions(place)
        same(ended(manager), report("ERROR", value))
        os.remove(place.at("up"))


def a_signal_that_is_handed_on(place):
    """What Slurm sends to the script alone, by --signal=B:, reaches the program; a job that is stopped for a while is not over."""
    place.one(JOB + "trap 'echo warned >>warned' USR1\necho $$ >up\nwhile [ ! -e over ]; do sleep 0.05; done\nexit 5\n")
    manager = place.start()
    place.wait_for("up")
    ((_, session),) = place.sessions()
    (script,) = (int(word) for word in subprocess.run(["ps", "-o", "pid=", "--ppid", str(session)], capture_output=True, text=True).stdout.split())
    # The script closes what it has opened for its program once it knows the program's number, to which it hands signals on.
    wait_until(lambda: not {"3", "4", "5"} & set(os.listdir(f"/proc/{script}/fd")), "the script does not wait for its program")
    os.kill(script, signal.SIGUSR1)
    place.wait_for("warned")
    program = int(place.read("up"))
    os.kill(program, signal.SIGSTOP)
    before = place.calls("sacct")
    wait_until(lambda: place.calls("sacct") > before + 3, "Slurm is not asked")
    same(manager.poll(), None)
    os.kill(program, signal.SIGCONT)
    place.write("over", "")
    same(ended(manager), report("ERROR", 5))
    same(place.read("warned"), "warned\n")


def slurm_is_down(place):
    """As long as nobody answers it is waited."""
    place.one(BEATS)
    manager = place.start()
    place.wait_for("pid.A")
    place.mode("no.accounts")
    place.mode("down")
    before = place.calls("squeue")
    place.write("over", "")
    wait_until(lambda: place.calls("squeue") > before + 12, "squeue is not asked")
    same(manager.poll(), None)
    place.unmode("down")
    same(ended(manager), DONE)


def a_moment_without_the_job(place):
    """squeue knows nothing of a job that runs, for a moment, as behind a new start of slurmctld: it is not lost by that."""
    place.mode("no.accounts")
    # Three answers of squeue take far less.
    place.settings["DAGRUN_SLURM_WAIT"] = str(PATIENCE)
    place.one(BEATS)
    manager = place.start()
    place.wait_for("pid.A")
    place.mode("blank", "3")
    wait_until(lambda: open(f"{place.state}/blank").read().strip() == "0", "squeue is not asked")
    before = place.calls("squeue")
    wait_until(lambda: place.calls("squeue") > before + 2, "squeue is not asked again")
    place.write("over", "")
    same(ended(manager), DONE)


def one_question_for_all(place):
    """One sacct asks for all, and not once for each job and turn."""
    place.settings["DAGRUN_SLURM_POLL"] = "0.5"
    place.write("x.dag", "".join(f"JOB n{number} job.sub\n" for number in range(12)))
    place.job(BEATS)
    place.mode("asks")
    begun = time.monotonic()
    manager = place.start()
    for number in range(12):
        place.wait_for(f"pid.n{number}")
    wait_until(lambda: any(line.count(",") == 13 for line in open(f"{place.state}/asks")), "no call asks for twelve")
    place.write("over", "")
    same(ended(manager)[2], 0)
    most = (time.monotonic() - begun) / 0.5 + 2
    same(place.calls("sacct") <= most, True)


# ---- Crashes


def a_killed_manager(place):
    """The manager alone is killed; the next run ends the launcher, and another waits for the job."""
    place.one(BEATS + 'echo done\n')
    manager = place.start()
    place.wait_for("pid.A")
    killed(manager)
    manager = place.start()
    wait_until(lambda: place.there("x.dag.log") and place.read("x.dag.log").count("\tstart\tA\t") == 2, "no second start")
    place.write("over", "")
    same(ended(manager), DONE)
    same((place.read("ran.A"), place.calls("sbatch"), place.read("A.out")), ("A\n", 1, "done\n"))


def killed_with_launchers(place):
    """Manager and launchers are killed: what ran, what waited in the queue, and what has ended meanwhile is adopted."""
    names = [f"n{number}" for number in range(8)]
    place.write("x.dag", "".join(f"JOB {name} job.sub\n" for name in names))
    place.job(BEATS + "echo $1 is done\n")
    manager = place.start()
    for name in names:
        place.wait_for(f"pid.{name}")
    launchers = place.processes(8)
    same(len(launchers), 8)
    for process in (manager.pid, *launchers):
        os.kill(process, signal.SIGKILL)
    # The guards must leave the jobs alone, also while nobody has waited for the dead manager.
    place.wait_for_guards()
    manager.communicate(timeout=PATIENCE)
    same(set(place.states()), {"RUNNING"})
    place.write("over", "")
    wait_until(lambda: set(place.states()) == {"COMPLETED"}, "they do not end")
    place.mode("forgets")
    text, told, status = place.run()
    same((text.count(" DONE attempts=1 value=0\n"), told, status, place.calls("sbatch")), (8, "", 0, 8))
    for name in names:
        same((place.read(f"ran.{name}"), place.read(f"{name}.out")), (f"{name}\n", f"{name} is done\n"))


def an_end_that_was_not_recorded(place):
    """A launcher has answered, and its manager was killed before it noted that: the answer is the same, with the output, and Slurm is not asked."""
    place.one(JOB + "echo said\nexit 4\n")
    same(place.run(), report("ERROR", 4))
    same(place.read("A.out"), "said\n")
    (key,) = (name[5:] for name in os.listdir(place.at("x.dag.slurm")) if name.startswith("done."))
    settings = dict(place.settings, DAGRUN_ROUND=key.rpartition(".")[2], DAGRUN_NODE="A", DAGRUN_PHASE="JOB", DAGRUN_ATTEMPT="0", DAGRUN_DAG=place.at("x.dag"))
    before = [place.calls(command) for command in ("sbatch", "squeue", "sacct")]
    done = subprocess.run([f"{TOP}/launchers/dagrun-slurm", place.at("job.sh")], cwd=place.path, env=settings, capture_output=True, text=True, timeout=PATIENCE)
    same((done.stdout, done.stderr, done.returncode), ("said\n", "", 4))
    same([place.calls(command) for command in ("sbatch", "squeue", "sacct")], before)


def killed_at(command, number, when):
    """The launcher and the manager are killed at a call of Slurm: the next run finds what there is, and the program runs once."""

    def row(place):
        place.one(BEATS + "echo done\n")
        place.mode("kill", f"{command} {number} {when}")
        manager = place.start()
        wait_until(lambda: os.path.exists(f"{place.state}/killed"), "the launcher is not killed")
        manager.communicate(timeout=PATIENCE)
        place.unmode("kill")
        manager = place.start()
        place.wait_for("pid.A")
        place.write("over", "")
        same(ended(manager), DONE)
        same((place.read("ran.A"), place.read("A.out")), ("A\n", "done\n"))
        same([fields[1] for fields in place.jobs().values()], ["COMPLETED"])

    row.__name__ = f"killed_{when}_{command}_{number}"
    return row


def killed_at_submitting_without_accounts(place):
    """There is no account, and squeue has forgotten the job: its claim is the way back to it."""
    place.mode("no.accounts")
    place.mode("forgets")
    place.one(JOB)
    place.mode("kill", "sbatch 1 after")
    killed_manager = place.start()
    wait_until(lambda: os.path.exists(f"{place.state}/killed"), "the launcher is not killed")
    killed_manager.communicate(timeout=PATIENCE)
    place.wait_for("ran.A")
    wait_until(lambda: place.states() == ["COMPLETED"], "it does not end")
    same(place.run(), DONE)
    same((place.read("ran.A"), place.calls("sbatch")), ("A\n", 1))


def an_interrupt(place):
    """Ctrl-C reaches the manager and the launchers: the job stays, and the next run waits for it."""
    place.one(BEATS)
    manager = place.start()
    place.wait_for("pid.A")
    os.killpg(manager.pid, signal.SIGINT)
    manager.communicate(timeout=PATIENCE)
    place.wait_for_guards()
    same(place.states(), ["RUNNING"])
    manager = place.start()
    place.write("over", "")
    same(ended(manager), DONE)
    same((place.read("ran.A"), place.calls("sbatch")), ("A\n", 1))


# ---- What is not wanted any more


def a_stopped_launcher(place):
    """SIGTERM cancels the job."""
    place.one(BEATS)
    manager = place.start()
    place.wait_for("pid.A")
    (launcher,) = place.processes()
    os.kill(launcher, signal.SIGTERM)
    same(ended(manager), report("ERROR", 143))
    same(place.states(), ["CANCELLED"])


def a_stopped_launcher_in_the_queue(place):
    place.one(BEATS)
    place.mode("holds")
    manager = place.start()
    wait_until(lambda: place.there("x.dag.slurm/table"), "it does not wait")
    (launcher,) = place.processes()
    os.kill(launcher, signal.SIGTERM)
    same(ended(manager), report("ERROR", 143))
    same(place.states(), ["CANCELLED"])
    place.unmode("holds")
    same(place.there("ran.A"), False)


def stopped_with_the_manager(place):
    """SIGTERM to all, as a service is stopped or a machine is shut down: the job stays, and the next run waits for it."""
    place.one(BEATS)
    manager = place.start()
    place.wait_for("pid.A")
    launchers = place.processes()
    os.killpg(manager.pid, signal.SIGTERM)
    manager.communicate(timeout=PATIENCE)
    wait_until(lambda: not any(alive(process) for process in launchers), "a launcher is left")
    place.wait_for_guards()
    same(place.states(), ["RUNNING"])
    place.write("over", "")
    same(place.run(), DONE)
    same((place.states(), place.read("ran.A")), (["COMPLETED"], "A\n"))


def stopped_and_not_recorded(place):
    """SIGTERM to the launcher cancels, and the manager is killed before it has recorded that: the next run starts the attempt anew."""
    place.one(BEATS)
    manager = place.start()
    place.wait_for("pid.A")
    (launcher,) = place.processes()
    os.kill(manager.pid, signal.SIGSTOP)
    os.kill(launcher, signal.SIGTERM)
    wait_until(lambda: place.states() == ["CANCELLED"], "it is not cancelled")
    wait_until(lambda: not alive(launcher), "the launcher is left")
    killed(manager)
    place.write("over", "")
    same(place.run(), DONE)
    same((place.states(), place.read("ran.A")), (["CANCELLED", "COMPLETED"], "A\nA\n"))


def an_abort(place):
    """The launchers are killed by the manager, which ends at once: no job stays."""
    place.write("x.dag", "JOB A job.sub\nJOB B job.sub\nJOB bad bad.sub\nABORT-DAG-ON bad 7 RETURN 9\n")
    place.job(BEATS)
    place.write("bad.sh", "#!/bin/sh\nwhile [ ! -e pid.A ] || [ ! -e pid.B ]; do sleep 0.05; done\nexit 7\n", 0o755)
    place.write("bad.sub", "executable = bad.sh\nqueue\n")
    same(place.run()[2], 9)
    wait_until(lambda: sorted(place.states()) == ["CANCELLED", "CANCELLED", "FAILED"], f"a job is left: {place.states()}")


def an_abort_and_the_next_round(place):
    """The next round begins at once: what the aborted one left is cancelled, and what the next one starts is not."""
    place.write("x.dag", "JOB A job.sub\nJOB bad bad.sub\nABORT-DAG-ON bad 7 RETURN 9\n")
    place.job(BEATS)
    place.write("bad.sh", "#!/bin/sh\n[ -e once ] && exit 0\nwhile [ ! -e pid.A ]; do sleep 0.05; done\necho >once\nexit 7\n", 0o755)
    place.write("bad.sub", "executable = bad.sh\nqueue\n")
    manager = place.start()
    ended(manager)
    manager = place.start()
    wait_until(lambda: "CANCELLED" in place.states(), f"a job is left: {place.states()}")
    wait_until(lambda: place.read("ran.A") == "A\nA\n", "it is not started again")
    place.write("over", "")
    text, told, status = ended(manager)
    same((text.splitlines()[-1], told, status), ("result 0", "", 0))
    same(sorted(place.states()), ["CANCELLED", "COMPLETED", "COMPLETED", "FAILED"])


def an_abort_before_an_answer(place):
    """The launchers are killed while sbatch is at work: a job that it made then is cancelled, too."""
    place.write("x.dag", "JOB A job.sub\nJOB bad bad.sub\nABORT-DAG-ON bad 7 RETURN 9\n")
    place.job(BEATS)
    slow = COMMON + SBATCH.replace("id=$(", 'case $name in A.*) echo >"$S/at.work"; while [ ! -e "$S/goes.on" ]; do sleep 0.05; done ;; esac\nid=$(', 1)
    place.script("sbatch", slow)
    place.write("bad.sub", "executable = bad.sh\nqueue\n")
    place.write("bad.sh", f"#!/bin/sh\nwhile [ ! -e '{place.state}/at.work' ]; do sleep 0.05; done\nexit 7\n", 0o755)
    same(place.run()[2], 9)
    # It goes on once the launchers are killed. Where that took longer than a call of sbatch may, there is no job.
    place.mode("goes.on")
    wait_until(lambda: "CANCELLED" in place.states() or not place.launchers(), "nobody cancels it, and its guard does not end")
    same(len(place.jobs()) < 2 or "CANCELLED" in place.states(), True)


def a_killed_launcher(place):
    """A launcher alone is killed: its attempt has failed, so its job is cancelled, and the retry is another job."""
    place.one(BEATS.replace("over", "over.$2"), retry=1)
    place.write("over.1", "")
    manager = place.start()
    place.wait_for("pid.A")
    (launcher,) = place.processes()
    os.kill(launcher, signal.SIGKILL)
    same(ended(manager), report("DONE", 0, 2))
    wait_until(lambda: sorted(place.states()) == ["CANCELLED", "COMPLETED"], f"a job is left: {place.states()}")


# ---- A round that was given up


def crash(place, manager):
    """Manager and launchers are killed; the guards leave the jobs alone."""
    for process in (manager.pid, *place.processes()):
        os.kill(process, signal.SIGKILL)
    manager.communicate(timeout=PATIENCE)
    place.wait_for_guards()


def give_up(place, way):
    """The next `run` begins a round anew: a file was changed, all is to be done again, or the journal was removed."""
    if way == "salvage":
        place.write("b.sub", "executable = /bin/true\nrequest_memory = 5\nqueue\n")
    if way == "journal":
        os.remove(place.at("x.dag.journal"))
    else:
        subprocess.run([f"{place.state}/bin/dagrun", way, "x.dag"], cwd=place.path, env=place.settings, capture_output=True, check=True, timeout=PATIENCE)


def given_up(way):
    """What the earlier round has left is cancelled before a job of the next one begins, also where squeue knows nothing of it for a moment. A job
    that this folder doesn't know stays, whatever its name."""

    def row(place):
        place.write("x.dag", "JOB A job.sub\nJOB B b.sub\nPARENT A CHILD B\n")
        place.write("b.sub", "executable = /bin/true\nqueue\n")
        place.job(BEATS)
        os.mkdir(f"{place.state}/jobs/50")
        place.mode("jobs/50/is", "A.JOB.0.of-another-folder PENDING 0:0 None")
        manager = place.start()
        place.wait_for("pid.A")
        first = int(place.read("pid.A"))
        crash(place, manager)
        give_up(place, way)
        # Three answers of squeue take far less.
        place.settings["DAGRUN_SLURM_WAIT"] = str(PATIENCE)
        place.mode("blank", "3")
        manager = place.start()
        wait_until(lambda: place.read("ran.A") == "A\nA\n", "it is not started again")
        same((alive(first), place.states()), (False, ["PENDING", "CANCELLED", "RUNNING"]))
        place.write("over", "")
        same(ended(manager)[0].splitlines()[-1], "result 0")
        same(place.read("A.err"), "dagrun-slurm: cancelled what an earlier round had left: 101\n")
        same(place.ended_lines()[0][1:], ["A", "0", "101", "-", "143", "-", "cancelled, since its round was given up"])
        same(place.states(), ["PENDING", "CANCELLED", "COMPLETED", "COMPLETED"])
        same([name for name in os.listdir(place.at("x.dag.slurm/open")) if name.isdigit()], [])

    row.__name__ = f"given_up_by_{way}"
    return row


def given_up_in_the_queue(place):
    """Of two launchers one cancels, and the other waits until that is done."""
    place.write("x.dag", "JOB a/b job.sub\nJOB C job.sub\n")
    place.write("job.sub", "executable = job.sh\nerror = errors\nqueue\n")
    place.write("job.sh", "#!/bin/sh\necho >>ran\n", 0o755)
    place.mode("holds")
    manager = place.start()
    wait_until(lambda: place.states() == ["PENDING", "PENDING"], "they are not submitted")
    place.processes(2)
    crash(place, manager)
    give_up(place, "redo")
    manager = place.start()
    wait_until(lambda: place.states() == ["CANCELLED", "CANCELLED", "PENDING", "PENDING"], "they are not cancelled, and submitted anew")
    place.unmode("holds")
    same(ended(manager)[2], 0)
    same((place.read("ran"), place.calls("scancel")), ("\n\n", 1))
    same(sorted(line[1] for line in place.ended_lines()[:2]), ["C", "a/b"])


def given_up_before_an_answer(place):
    """sbatch is at work as its round is given up: the job comes once the next round has had its own, and runs no program."""
    place.one()
    slow = 'if takes stays; then echo >"$S/at.work"; while [ ! -e "$S/goes.on" ]; do sleep 0.05; done; fi\nid=$('
    place.script("sbatch", COMMON + SBATCH.replace("id=$(", slow, 1))
    place.mode("stays", "1")
    manager = place.start()
    wait_until(lambda: os.path.exists(f"{place.state}/at.work"), "sbatch is not called")
    for process in (manager.pid, *place.processes()):
        os.kill(process, signal.SIGKILL)
    manager.communicate(timeout=PATIENCE)
    give_up(place, "redo")
    same(place.run(), DONE)
    place.mode("goes.on")
    wait_until(lambda: place.states() == ["COMPLETED", "FAILED"], "it doesn't come, or doesn't fail")
    same((place.read("ran.A"), place.jobs()[102][2]), ("A\n", "86:0"))


def given_up_and_not_gone(place):
    """A job that can't be cancelled: nothing is started beside it, and what is to be done is said."""
    place.one(BEATS)
    manager = place.start()
    place.wait_for("pid.A")
    crash(place, manager)
    give_up(place, "redo")
    # Each is called 300 times.
    place.script("squeue", "#!/bin/sh\nread -r name state rest <@STATE@/jobs/101/is\necho \"101|$state|$name\"\n")
    place.script("scancel", "#!/bin/sh\necho . >>@STATE@/calls.scancel\n")
    place.settings["DAGRUN_SLURM_POLL"] = "0.005"
    same(place.run(), report("ERROR", 85))
    same(place.read("A.err"), "dagrun-slurm: jobs of an earlier round are not gone: scancel 101\n")
    same((place.states(), place.read("ran.A"), place.calls("scancel")), (["RUNNING"], "A\n", 300))


def a_copy_of_the_folder(place):
    """What runs in the copy leaves the jobs of the original alone."""
    place.one(BEATS)
    original = place.start()
    place.wait_for("pid.A")
    first, path = int(place.read("pid.A")), place.path
    place.path = f"{place.folder}/copy"
    try:
        shutil.copytree(path, place.path)
    except shutil.Error as faults:
        # A note of the launcher may be gone before it is copied. All else is copied then.
        same([name for name, _, cause in faults.args[0] if "No such file" not in cause], [])
    os.remove(place.at("x.dag.journal"))
    manager = place.start()
    wait_until(lambda: place.read("ran.A") == "A\nA\n", "it is not started in the copy")
    same((alive(first), place.states()), (True, ["RUNNING", "RUNNING"]))
    place.write("over", "")
    same(ended(manager), DONE)
    place.path = path
    place.write("over", "")
    same(ended(original), DONE)


# ---- What comes through

WORDS = ["", "one two", "it's", 'a "quote"', "$HOME `id` $(id)", "line\nline", "back\\slash \\n", "*", "-n", "--", "ümlaut", "tab\there", "%j%%", "#SBATCH -x", "!", "~", "\r\n#SBATCH --x"]
SHOWS = "#!/usr/bin/env python3\nimport sys\nprint(repr(sys.argv[1:]))\n"


def words_come_through(place):
    """Words with blanks, quotes, newlines and none: by the launcher itself, since a submit file can't have all of them."""
    place.write("show.py", SHOWS, 0o755)
    for launcher in ("dagrun-slurm", "dagrun-ssh"):
        settings = dict(place.settings, DAGRUN_ROUND="r", DAGRUN_NODE="A", DAGRUN_PHASE="JOB", DAGRUN_ATTEMPT="0", DAGRUN_DAG=place.at("x.dag"))
        hosts = ["h1"] if launcher == "dagrun-ssh" else []
        done = subprocess.run([f"{TOP}/launchers/{launcher}", *hosts, place.at("show.py"), *WORDS], cwd=place.path, env=settings, capture_output=True, text=True, timeout=PATIENCE)
        same((done.stdout, done.stderr, done.returncode), (repr(WORDS) + "\n", "", 0))


def words_of_a_submit_file(place):
    place.write("x.dag", "JOB A job.sub\n")
    place.write("show.py", SHOWS, 0o755)
    place.write("job.sub", "executable = show.py\narguments = \"'' 'a b' 'it''s' \"\"q\"\" $HOME * \\n\"\noutput = A.out\nqueue\n")
    same(place.run(), DONE)
    same(place.read("A.out"), repr(["", "a b", "it's", '"q"', "$HOME", "*", "\\n"]) + "\n")


def odd_names(place):
    """Names of nodes that are bad in names of files, that differ in the case of letters alone, and long ones that differ at their end."""
    names = ["a/b", "A", "a", "x,y", "it's", "50%", "ü", "=41", "*", "n" * 254 + "1", "n" * 254 + "2", "-J"]
    place.write("x.dag", "".join(f"JOB {name} job.sub\n" for name in names) + "PARENT A CHILD a\n")
    place.write("job.sub", "executable = job.sh\narguments = $(JOB)\nqueue\n")
    place.write("job.sh", "#!/bin/sh\necho \"$1\" >>ran\n", 0o755)
    text, told, status = place.run()
    same((text, told, status), ("".join(f"{name} DONE attempts=1 value=0\n" for name in names) + "result 0\n", "", 0))
    same(sorted(place.read("ran").splitlines()), sorted(names))
    same(len({fields[0] for fields in place.jobs().values()}), len(names))
    same(max(len(name) for name in os.listdir(place.at("x.dag.slurm"))) < 250, True)


def a_folder_with_blanks(place):
    place = Place(place.program, os.path.join(place.folder, "other"), "it's 50% \"a\" \\ $b")
    place.one("#!/bin/sh\npwd\ncat\n", "input = in put\ninitialdir = sub dir\n")
    os.mkdir(place.at("sub dir"))
    place.write("sub dir/in put", "what it reads\n")
    same(place.run(), DONE)
    same(place.read("sub dir/A.out"), place.at("sub dir") + "\nwhat it reads\n")


def environment(place):
    """The environment is that of a job without a launcher, but for what Slurm and the shell add, and the identifier of the round."""
    place.settings.update({"answer": "a b", "our": "x", "LINES_": "one\ntwo '$x' \"\\\"", "A-B": "odd", "BASH_ENV": "/no/such", "id": "5", "state": "s", "BASH_FUNC_f%%": "() {  echo f\n}"})
    found = []
    for launcher in ("env", "dagrun-slurm", "dagrun-ssh h1"):
        place.one()
        place.write("job.sub", "executable = /usr/bin/env\narguments = -0\noutput = A.out\nenvironment = \"key=1 name='two words' SLURM_X=9\"\nqueue\n")
        same(place.run(launcher=launcher), DONE)
        both = dict(word.split("=", 1) for word in place.read("A.out").split("\0") if word)
        found.append({name: text for name, text in both.items() if name not in ("SLURM_JOB_ID", "SLURMD_NODENAME", "SHLVL", "_", "PWD", "OLDPWD", "DAGRUN_ROUND")})
        same(("DAGRUN_ROUND" in both, both["A-B"], both["BASH_FUNC_f%%"]), (launcher == "env", "odd", "() {  echo f\n}"))
    same(found[1], found[0])
    same(found[2], found[0])


def an_allocation_around_the_manager(place):
    """Where the manager runs in a job of Slurm, that one's variables are not the job's."""
    place.settings.update({"SLURM_JOB_ID": "7", "SLURM_MEM_PER_NODE": "5", "SLURM_CONF": "/etc/x"})
    place.one("#!/bin/sh\necho $SLURM_JOB_ID ${SLURM_MEM_PER_NODE-none} $SLURM_CONF\n")
    same(place.run(), DONE)
    same(place.read("A.out"), "101 none /etc/x\n")


def outputs(place):
    """Output and error: two files, one file for both, none; each run begins them anew."""
    script = "#!/bin/sh\necho out\necho err >&2\necho out again\n"
    place.one(script)
    for _ in range(2):
        same(place.run("--autorescue", "0"), DONE)
        same((place.read("A.out"), place.read("A.err")), ("out\nout again\n", "err\n"))
    place.write("job.sub", "executable = job.sh\noutput = both\nerror = both\nqueue\n")
    same(place.run(), DONE)
    same(place.read("both"), "out\nerr\nout again\n")
    place.write("job.sub", "executable = job.sh\nqueue\n")
    same(place.run(), DONE)
    place.write("job.sub", "executable = job.sh\nerror = only\nqueue\n")
    same(place.run(), DONE)
    same(place.read("only"), "err\n")


def output_while_it_runs(place):
    """What the program writes is in the file of the submit file while it runs, and once only."""
    place.one("#!/bin/sh\necho first\nwhile [ ! -e over ]; do sleep 0.05; done\nhead -c 100000 /dev/zero | tr '\\0' x\necho last\n")
    manager = place.start()
    wait_until(lambda: place.there("A.out") and place.read("A.out") == "first\n", "it is not copied")
    place.write("over", "")
    same(ended(manager), DONE)
    same(place.read("A.out"), "first\n" + "x" * 100000 + "last\n")


def an_output_that_is_full(place):
    """Output that can't be written is no success."""
    place.one("#!/bin/sh\necho out\n")
    place.write("job.sub", "executable = job.sh\noutput = full\nqueue\n")
    os.symlink("/dev/full", place.at("full"))
    same(place.run(), report("ERROR", 74))


def requests(place):
    """What a submit file asks for, and options for sbatch, which come later and win."""
    place.settings["DAGRUN_SLURM"] = "-p short --qos high"
    for words, wanted in (
        ("DAGRUN_REQUEST_CPUS=4 DAGRUN_REQUEST_MEMORY=512 DAGRUN_REQUEST_GPUS=2 DAGRUN_REQUEST_DISK=7", "-c 4 --mem=512 --gpus=2 -p short --qos high"),
        ("'DAGRUN_REQUEST_MEMORY=2 GB'", "--mem=2G -p short --qos high"),
        ("DAGRUN_REQUEST_MEMORY=512MiB DAGRUN_SLURM=-n4", "--mem=512M -n4"),
        ("DAGRUN_REQUEST_GPUS=0 DAGRUN_REQUEST_CPUS= 'DAGRUN_SLURM=-t 5  *'", "-t 5 *"),
    ):
        place.one(more=f'environment = "{words}"\n')
        same(place.run(), DONE)
        with open(f"{place.state}/asked") as file:
            asked = file.read().splitlines()[-1]
        same(asked.split(" -J ")[0], f"--parsable {wanted}")
    for lines, wanted in (
        ("request_cpus = 4\nrequest_memory = 512\nrequest_gpus = 2\nrequest_disk = 7\n", "-c 4 --mem=512 --gpus=2 -p short --qos high"),
        ("request_memory = 2 GB\n", "--mem=2G -p short --qos high"),
        ('request_cpus = 4\nenvironment = "DAGRUN_REQUEST_CPUS=3"\n', "-c 3 -p short --qos high"),
    ):
        place.one(more=lines)
        same(place.run(), DONE)
        with open(f"{place.state}/asked") as file:
            same(file.read().splitlines()[-1].split(" -J ")[0], f"--parsable {wanted}")
    for lines in ('environment = "DAGRUN_REQUEST_CPUS=four"\n', 'environment = "DAGRUN_REQUEST_MEMORY=1.5X"\n', "request_cpus = four\n", "request_memory = $(x\n"):
        place.one(more=lines)
        same(place.run(), report("ERROR", 85))


def no_other_writers(place):
    """What is in a launcher's folder is written by its user alone, whatever the umask, which is the program's still. On a host it is the host's."""
    place.script("loose", '#!/bin/sh\numask "$(cat @STATE@/umask)"\nexec "$@"\n')
    place.one("#!/bin/sh\numask >seen\necho err >&2\n")
    for launcher, folder in (("loose dagrun-slurm", "x.dag.slurm"), ("loose dagrun-ssh h1", "x.dag.ssh")):
        for umask, others in (("0002", 0o022), ("0077", 0o077)):
            place.mode("umask", umask)
            # As an older launcher made them.
            for name in (".", "open", "at", "down"):
                os.makedirs(place.at(f"{folder}/{name}"), exist_ok=True)
                os.chmod(place.at(f"{folder}/{name}"), 0o777 & ~int(umask, 8))
            same(place.run("--autorescue", "0", launcher=launcher), DONE)
            same(place.read("seen"), f"{umask}\n")
            found = {path: os.stat(path).st_mode & others for top, _, names in os.walk(place.at(folder)) for path in (top, *(os.path.join(top, name) for name in names))}
            same([path for path, mode in found.items() if mode], [])
            same(any("/end." in path for path in found), True)
            shutil.rmtree(place.at(folder))


def many(place):
    """Thirty jobs, eight at once."""
    names = [f"n{number}" for number in range(30)]
    place.write("x.dag", "".join(f"JOB {name} job.sub\n" for name in names))
    place.job(JOB + "echo $1\n")
    text, told, status = place.run("--maxjobs", "8")
    same((text, told, status), ("".join(f"{name} DONE attempts=1 value=0\n" for name in names) + "result 0\n", "", 0))
    same([place.read(f"ran.{name}") + place.read(f"{name}.out") for name in names], [f"{name}\n{name}\n" for name in names])
    same((len(place.jobs()), len(place.ended_lines())), (30, 30))


def an_older_bash(place):
    """What comes after the question for the version isn't read by an older bash: here it is no program of any shell."""
    os.mkdir(f"{place.folder}/older")
    place.settings["PATH"] = f"{place.folder}/older:" + place.settings["PATH"]
    for launcher in ("dagrun-slurm", "dagrun-ssh"):
        with open(f"{TOP}/launchers/{launcher}") as file:
            head, end, _ = file.read().partition("\nfi\n")
        with open(f"{place.folder}/older/{launcher}", "w") as file:
            file.write(head.replace("${BASH_VERSINFO[0]}", "4") + end + ")\n")
        os.chmod(f"{place.folder}/older/{launcher}", 0o755)
        place.one()
        same(place.run("--autorescue", "0", launcher=f"{launcher} h1" if launcher == "dagrun-ssh" else launcher), report("ERROR", 85))
        words = place.read("A.err").splitlines()
        same((len(words), words[0].startswith(f"{launcher} needs bash 5, and /bin/bash is ")), (1, True))
    same((place.calls("sbatch"), place.calls("ssh"), place.there("x.dag.slurm"), place.there("x.dag.ssh")), (0, 0, False, False))


def called_without_dagrun(place):
    for launcher, words in (("dagrun-slurm", ["/bin/true"]), ("dagrun-ssh", ["h1", "/bin/true"])):
        done = subprocess.run([f"{TOP}/launchers/{launcher}", *words], cwd=place.path, env=place.settings, capture_output=True, text=True, timeout=PATIENCE)
        same((done.stdout, f"{launcher} is called by dagrun" in done.stderr, done.returncode), ("", True, 85))


# ---- dagrun-ssh


def by_ssh(place, *hosts):
    place.launcher = " ".join(["dagrun-ssh", *(hosts or ("h1", "h2"))])


def ssh_lines(place):
    return [line.split("\t") for line in place.read("x.dag.ssh/ended").splitlines()]


def ssh_exits(place):
    by_ssh(place)
    for script, wanted in (
        (JOB, DONE), (JOB + "exit 3\n", report("ERROR", 3)), (JOB + "kill -9 $$\n", report("ERROR", 137)),
        (JOB + "kill -SEGV $$\n", report("ERROR", 139)), (JOB + "kill -INT $$\nsleep 9\n", report("ERROR", 130)), (JOB + "exit 86\n", report("ERROR", 86)),
    ):
        place.one(script)
        same(place.run("--autorescue", "0"), wanted)
        same(place.read("A.err"), "")
    same([(line[1], line[4], line[5], line[7]) for line in ssh_lines(place)[:2]], [("A", "h1", "0", "exit 0"), ("A", "h1", "3", "exit 3")])
    os.remove(place.at("job.sh"))
    same(place.run("--autorescue", "0"), report("ERROR", 127))
    same(any(name.startswith("env.") for name in os.listdir(place.at("x.dag.ssh"))), False)


def ssh_outputs(place):
    by_ssh(place)
    place.one("#!/bin/sh\npwd\ncat\necho err >&2\n", "input = in put\ninitialdir = sub dir\n")
    os.mkdir(place.at("sub dir"))
    place.write("sub dir/in put", "what it reads\n")
    for _ in range(2):
        same(place.run("--autorescue", "0"), DONE)
        same((place.read("sub dir/A.out"), place.read("sub dir/A.err")), (place.at("sub dir") + "\nwhat it reads\n", "err\n"))
    place.write("job.sub", "executable = job.sh\noutput = both\nerror = both\nqueue\n")
    same(place.run(), DONE)
    same(place.read("both"), place.path + "\nerr\n")


def ssh_hosts(place):
    """Each host has as many as the others; one that doesn't answer has none."""
    by_ssh(place, "h1", "h2", "user@h3", "h4")
    place.mode("down.h2")
    names = [f"n{number}" for number in range(6)]
    place.write("x.dag", "".join(f"JOB {name} job.sub\n" for name in names))
    place.job(BEATS)
    manager = place.start()
    for name in names:
        place.wait_for(f"pid.{name}")
    place.write("over", "")
    same(ended(manager)[2], 0)
    hosts = [line[4] for line in ssh_lines(place)]
    same({host: hosts.count(host) for host in hosts}, {"h1": 2, "user@h3": 2, "h4": 2})


def ssh_no_host(place):
    by_ssh(place, "h1", "h2")
    place.mode("down.h1")
    place.mode("down.h2")
    place.settings["DAGRUN_SSH_WAIT"] = "0.5"
    place.one()
    same(place.run(), report("ERROR", 85))
    same(place.read("A.err").startswith("dagrun-ssh: never started: ssh: connect to host h"), True)
    same(place.there("ran.A"), False)


def ssh_lost_answer(place):
    """The connection ends as the job has begun: no second one is started."""
    by_ssh(place)
    place.one(JOB + "sleep 0.5\n")
    place.mode("loses", "1")
    same(place.run(), DONE)
    same((place.read("ran.A"), "h2" in open(f"{place.state}/calls.ssh").read()), ("A\n", False))


def ssh_late_start(place):
    """A host starts the job so late that another has it: of the two one runs the program."""
    by_ssh(place)
    place.one(JOB + "sleep 0.5\n")
    text = open(f"{place.state}/bin/ssh").read()
    # The first call leaves what it was to do to a process that does it once the program has run on another host, with the environment that the job
    # finds then.
    place.settings["DAGRUN_SSH_WAIT"] = "5"
    late = f"""cd '{place.path}/x.dag.ssh' || exit 255
if takes late; then
    what=$(cat)
    env=$(echo env.*)
    cp "$env" "$S/kept"
    (until [ -e '{place.path}/ran.A' ]; do sleep 0.05; done; cp "$S/kept" "$env"; setsid -w /bin/sh -c "$*" <<<"$what"; echo >"$S/was.late") >/dev/null 2>&1 &
    exit 255
fi
"""
    place.script("ssh", text.replace("cd / || exit 255\n", late + "cd / || exit 255\n", 1))
    place.mode("late", "1")
    same(place.run(), DONE)
    wait_until(lambda: os.path.exists(f"{place.state}/was.late"), "it does not come")
    wait_until(lambda: not place.scripts(), "it does not end")
    same((place.read("ran.A"), ssh_lines(place)[0][4]), ("A\n", "h2"))


def ssh_killed_manager(place):
    by_ssh(place)
    place.one(BEATS + "echo done\n")
    manager = place.start()
    place.wait_for("pid.A")
    killed(manager)
    manager = place.start()
    wait_until(lambda: place.read("x.dag.log").count("\tstart\tA\t") == 2, "no second start")
    place.write("over", "")
    same(ended(manager), DONE)
    same((place.read("ran.A"), place.read("A.out")), ("A\n", "done\n"))


def ssh_killed_with_launchers(place):
    """What runs is waited for, and what has ended meanwhile has its end."""
    by_ssh(place)
    for late in (False, True):
        names = [f"n{number}" for number in range(4)]
        place.write("x.dag", "".join(f"JOB {name} job.sub\n" for name in names))
        place.job(BEATS + "echo $1 is done\n")
        manager = place.start()
        for name in names:
            place.wait_for(f"pid.{name}")
        for process in (manager.pid, *place.processes(4)):
            os.kill(process, signal.SIGKILL)
        manager.communicate(timeout=PATIENCE)
        place.wait_for_guards()
        same([name for name in names if not alive(int(place.read(f"pid.{name}")))], [])
        if late:
            manager = place.start()
            place.write("over", "")
        else:
            place.write("over", "")
            wait_until(lambda: not [name for name in names if alive(int(place.read(f"pid.{name}")))], "they do not end")
            manager = place.start()
        text, told, status = ended(manager)
        same((text.count(" DONE attempts=1 value=0\n"), told, status), (4, "", 0))
        for name in names:
            same((place.read(f"ran.{name}"), place.read(f"{name}.out")), (f"{name}\n", f"{name} is done\n"))
            os.remove(place.at(f"ran.{name}"))
            os.remove(place.at(f"pid.{name}"))
        os.remove(place.at("over"))


def ssh_stopped(place):
    """SIGTERM to the launcher ends the job, with what it has started."""
    by_ssh(place)
    place.one(JOB + "sleep 1000 &\necho $! >below\necho $$ >pid.new; mv pid.new pid.$1\nwait\n")
    manager = place.start()
    place.wait_for("pid.A")
    (launcher,) = place.processes()
    os.kill(launcher, signal.SIGTERM)
    same(ended(manager), report("ERROR", 143))
    wait_until(lambda: not alive(int(place.read("pid.A"))) and not alive(int(place.read("below"))), "it is left")


def ssh_stopped_with_the_manager(place):
    by_ssh(place)
    place.one(BEATS)
    manager = place.start()
    place.wait_for("pid.A")
    launchers = place.processes()
    os.killpg(manager.pid, signal.SIGTERM)
    manager.communicate(timeout=PATIENCE)
    wait_until(lambda: not any(alive(process) for process in launchers), "a launcher is left")
    place.wait_for_guards()
    same(alive(int(place.read("pid.A"))), True)
    place.write("over", "")
    same(place.run(), DONE)
    same(place.read("ran.A"), "A\n")


def ssh_stopped_and_not_recorded(place):
    by_ssh(place)
    place.one(BEATS)
    manager = place.start()
    place.wait_for("pid.A")
    (launcher,) = place.processes()
    os.kill(manager.pid, signal.SIGSTOP)
    os.kill(launcher, signal.SIGTERM)
    wait_until(lambda: not alive(launcher), "the launcher is left")
    same(alive(int(place.read("pid.A"))), False)
    killed(manager)
    place.write("over", "")
    same(place.run(), DONE)
    same(place.read("ran.A"), "A\nA\n")


def ssh_abort(place):
    by_ssh(place)
    place.write("x.dag", "JOB A job.sub\nJOB B job.sub\nJOB bad bad.sub\nABORT-DAG-ON bad 7 RETURN 9\n")
    place.job(BEATS)
    place.write("bad.sh", "#!/bin/sh\nwhile [ ! -e pid.A ] || [ ! -e pid.B ]; do sleep 0.05; done\nexit 7\n", 0o755)
    place.write("bad.sub", "executable = bad.sh\nqueue\n")
    same(place.run()[2], 9)
    wait_until(lambda: not [name for name in "AB" if alive(int(place.read(f"pid.{name}")))], "a job is left")


def ssh_killed_launcher(place):
    by_ssh(place)
    place.one(BEATS.replace("over", "over.$2").replace("pid.$1", "pid.$2"), retry=1)
    place.write("over.1", "")
    manager = place.start()
    place.wait_for("pid.0")
    (launcher,) = place.processes()
    os.kill(launcher, signal.SIGKILL)
    same(ended(manager), report("DONE", 0, 2))
    wait_until(lambda: not alive(int(place.read("pid.0"))), "the job of the first attempt is left")


def ssh_gone(place):
    """A job that is gone without an end, as behind a new start of its host: 75, and its retry is done."""
    by_ssh(place)
    place.one(BEATS.replace("over", "over.$2"), retry=1)
    place.write("over.1", "")
    manager = place.start()
    place.wait_for("pid.A")
    kill_session(os.getsid(int(place.read("pid.A"))))
    same(ended(manager), report("DONE", 0, 2))
    same([(line[5], line[7]) for line in ssh_lines(place)], [("75", "it is gone, and left no end"), ("0", "exit 0")])


def ssh_killed_script(place):
    """The script on the host is killed, and the program goes on: it is not gone as long as that runs."""
    by_ssh(place)
    place.one(BEATS)
    manager = place.start()
    place.wait_for("pid.A")
    program = int(place.read("pid.A"))
    script = os.getsid(program)
    same(script != program, True)
    os.kill(script, signal.SIGKILL)
    before = place.calls("ssh")
    wait_until(lambda: place.calls("ssh") > before + 2, "the host is not asked")
    same((manager.poll(), alive(program)), (None, True))
    place.write("over", "")
    same(ended(manager), report("ERROR", 75))


def ssh_own_groups(place):
    """A program in process groups of its own (`set -m`, `timeout`): it is seen where all of the script's group is gone, and it is ended."""
    by_ssh(place, "h1")
    place.settings["DAGRUN_SSH_WAIT"] = "1"
    below = "trap '' TERM; echo $$ >below.new; mv below.new below; while :; do sleep 0.1; done"
    place.one(f'#!/bin/bash\nset -m\nsleep 1000 &\ntimeout 1000 sh -c "{below}"\n'.replace("$$", "\\$\\$"))
    manager = place.start()
    place.wait_for("below")
    program = int(place.read("below"))
    script = os.getsid(program)
    same(len(groups_of(script)), 3)
    os.killpg(script, signal.SIGKILL)
    before = place.calls("ssh")
    wait_until(lambda: place.calls("ssh") > before + 1, "the host is not asked")
    same((manager.poll(), alive(program)), (None, True))
    (launcher,) = place.processes()
    os.kill(launcher, signal.SIGTERM)
    same(ended(manager), report("ERROR", 143))
    same(groups_of(script), set())


def ssh_silent(place):
    """A host that doesn't answer any more, for longer than DAGRUN_SSH_LOST; and for a moment."""
    by_ssh(place, "h1")
    place.settings["DAGRUN_SSH_LOST"] = "2"
    place.one(BEATS)
    manager = place.start()
    place.wait_for("pid.A")
    place.mode("down.h1")
    same(ended(manager), report("ERROR", 75))
    same(place.read("A.err").endswith("on h1: its host does not answer\n"), True)
    place.unmode("down.h1")
    os.remove(place.at("pid.A"))
    place.settings["DAGRUN_SSH_LOST"] = "600"
    manager = place.start()
    place.wait_for("pid.A")
    place.mode("down.h1")
    before = place.calls("ssh")
    wait_until(lambda: place.calls("ssh") > before + 1, "the host is not asked")
    place.write("over", "")
    same(ended(manager), DONE)


def ssh_given_up(place):
    """What the earlier round has left on a host is ended before a job of the next one begins."""
    by_ssh(place)
    place.write("x.dag", "JOB A job.sub\nJOB B b.sub\nPARENT A CHILD B\n")
    place.write("b.sub", "executable = /bin/true\nqueue\n")
    place.job(BEATS)
    manager = place.start()
    place.wait_for("pid.A")
    first = int(place.read("pid.A"))
    script = os.getsid(first)
    crash(place, manager)
    give_up(place, "salvage")
    manager = place.start()
    wait_until(lambda: place.read("ran.A") == "A\nA\n", "it is not started again")
    same(alive(first), False)
    place.write("over", "")
    same(ended(manager)[0].splitlines()[-1], "result 0")
    same(place.read("A.err"), f"dagrun-ssh: ended what an earlier round had left: {script} on h1\n")
    same(ssh_lines(place)[0][1:], ["A", "0", str(script), "h1", "143", "-", "ended, since its round was given up"])
    same([name for name in os.listdir(place.at("x.dag.ssh/at")) if ":" in name], [])


def ssh_given_up_before_an_answer(place):
    """A host starts the job once its round was given up and the next one is done: it runs no program."""
    by_ssh(place, "h1")
    place.one()
    late = """if takes late; then
    env -i PATH=/usr/bin:/bin setsid /bin/bash -c 'until [ -e "$0/goes.on" ]; do sleep 0.05; done; /bin/sh -c "$1" <<<"$2"; echo >"$0/was.late"' "$S" "$*" "$(cat)" >/dev/null 2>&1 &
    echo >"$S/at.work"
    exit 255
fi
"""
    place.script("ssh", SSH.replace("cd / || exit 255\n", late + "cd / || exit 255\n", 1))
    place.mode("late", "1")
    manager = place.start()
    wait_until(lambda: os.path.exists(f"{place.state}/at.work"), "ssh is not called")
    crash(place, manager)
    give_up(place, "redo")
    same(place.run(), DONE)
    same(place.read("ran.A"), "A\n")
    place.mode("goes.on")
    wait_until(lambda: os.path.exists(f"{place.state}/was.late"), "it does not come")
    wait_until(lambda: not place.scripts(), "it does not end")
    same(place.read("ran.A"), "A\n")


def ssh_given_up_and_silent(place):
    """A host that doesn't answer counts as lost, with its job, after DAGRUN_SSH_LOST."""
    by_ssh(place, "h1", "h2")
    place.settings.update(DAGRUN_SSH_LOST="1", DAGRUN_SSH_WAIT="2")
    place.one(BEATS)
    manager = place.start()
    place.wait_for("pid.A")
    script = os.getsid(int(place.read("pid.A")))
    crash(place, manager)
    give_up(place, "redo")
    place.mode("down.h1")
    os.remove(place.at("job.sh"))
    place.write("job.sh", JOB, 0o755)
    same(place.run(), DONE)
    same(place.read("A.err"), f"dagrun-ssh: may run on, since its host does not answer: {script} on h1, of an earlier round\n")


def ssh_noise(place):
    """A host prints something before it answers: its job is there all the same, is gone where it is gone, and is ended."""
    by_ssh(place, "h1")
    place.mode("noise")
    place.settings.update(DAGRUN_SSH_LOST="1", DAGRUN_SSH_WAIT="1")
    place.one(BEATS.replace("over", "over.$2"), retry=1)
    manager = place.start()
    place.wait_for("pid.A")
    before = place.calls("ssh")
    wait_until(lambda: place.calls("ssh") > before + 1, "the host is not asked")
    first = int(place.read("pid.A"))
    same((manager.poll(), alive(first)), (None, True))
    kill_session(os.getsid(first))
    wait_until(lambda: place.read("ran.A") == "A\nA\n", "it is not started again")
    wait_until(lambda: int(place.read("pid.A")) != first, "it has no number")
    (*_, launcher) = place.processes(2)
    os.kill(launcher, signal.SIGTERM)
    same(ended(manager), report("ERROR", 143, 2))
    same(alive(int(place.read("pid.A"))), False)
    same([(line[5], line[7]) for line in ssh_lines(place)], [("75", "it is gone, and left no end"), ("143", "ended, since the launcher got SIGTERM")])


def with_sshd(row):
    """A row over an sshd of its own on 127.0.0.1, with keys of its own."""

    def over_sshd(place):
        sshd = shutil.which("sshd", path=os.environ["PATH"] + ":/usr/sbin:/sbin")
        if not sshd or not shutil.which("ssh-keygen"):
            raise Skipped("sshd is not installed")
        os.remove(f"{place.state}/bin/ssh")
        if os.getuid() == 0:
            os.makedirs("/run/sshd", exist_ok=True)
        for key in ("host", "user"):
            subprocess.run(["ssh-keygen", "-q", "-t", "ed25519", "-N", "", "-f", f"{place.folder}/{key}"], check=True, stdin=subprocess.DEVNULL)
        with socket.socket() as listener:
            listener.bind(("127.0.0.1", 0))
            port = listener.getsockname()[1]
        with open(f"{place.folder}/sshd_config", "w") as file:
            file.write(
                f"ListenAddress 127.0.0.1\nPort {port}\nHostKey {place.folder}/host\nAuthorizedKeysFile {place.folder}/user.pub\nStrictModes no\n"
                f"UsePAM no\nPasswordAuthentication no\nPermitRootLogin yes\nPidFile none\nMaxStartups 100\n"
            )
        with open(f"{place.folder}/sshd.log", "w") as log:
            server = subprocess.Popen([sshd, "-D", "-e", "-f", f"{place.folder}/sshd_config"], stdin=subprocess.DEVNULL, stdout=log, stderr=log)
        options = f"-F /dev/null -p {port} -i {place.folder}/user -o StrictHostKeyChecking=no -o UserKnownHostsFile=/dev/null -o LogLevel=ERROR -o IdentitiesOnly=yes"
        place.settings.update(DAGRUN_SSH=options)
        me = f"{getpass.getuser()}@127.0.0.1"
        try:
            call = ["ssh", *options.split(), "-o", "BatchMode=yes", me, "true"]
            end = time.monotonic() + PATIENCE
            while (tried_login := subprocess.run(call, capture_output=True)).returncode != 0:
                # Until the server listens there is no connection; that nobody may log in is told at once.
                if server.poll() is not None or b"Permission denied" in tried_login.stderr or time.monotonic() > end:
                    raise Skipped("no login on 127.0.0.1")
                time.sleep(0.2)
            row(place, me)
        finally:
            server.kill()
            server.wait()

    over_sshd.__name__ = f"{row.__name__}_sshd"
    return over_sshd


def words_by(place, host):
    place.write("show.py", SHOWS, 0o755)
    settings = dict(place.settings, DAGRUN_ROUND="r", DAGRUN_NODE="A", DAGRUN_PHASE="JOB", DAGRUN_ATTEMPT="0", DAGRUN_DAG=place.at("x.dag"), TEXT="one\ntwo '$x'")
    done = subprocess.run([f"{TOP}/launchers/dagrun-ssh", host, place.at("show.py"), *WORDS], cwd=place.path, env=settings, capture_output=True, text=True, timeout=PATIENCE)
    same((done.stdout, done.stderr, done.returncode), (repr(WORDS) + "\n", "", 0))
    place.launcher = f"dagrun-ssh {host}"
    for script, wanted in (("#!/bin/sh\nexit 3\n", 3), ("#!/bin/sh\nkill -SEGV $$\n", 139)):
        place.one(script)
        same(place.run("--autorescue", "0"), report("ERROR", wanted))


def crash_by(place, host):
    """Manager and launchers are killed; then an abort."""
    place.launcher = f"dagrun-ssh {host}"
    place.one(BEATS + "echo done\n")
    manager = place.start()
    place.wait_for("pid.A")
    for process in (manager.pid, *place.processes()):
        os.kill(process, signal.SIGKILL)
    manager.communicate(timeout=PATIENCE)
    place.wait_for_guards()
    same(alive(int(place.read("pid.A"))), True)
    manager = place.start()
    place.write("over", "")
    same(ended(manager), DONE)
    same((place.read("ran.A"), place.read("A.out")), ("A\n", "done\n"))
    os.remove(place.at("over"))
    os.remove(place.at("pid.A"))
    place.write("x.dag", "JOB A job.sub\nJOB bad bad.sub\nABORT-DAG-ON bad 7 RETURN 9\n")
    place.write("bad.sh", "#!/bin/sh\nwhile [ ! -e pid.A ]; do sleep 0.05; done\nexit 7\n", 0o755)
    place.write("bad.sub", "executable = bad.sh\nqueue\n")
    same(place.run()[2], 9)
    wait_until(lambda: not alive(int(place.read("pid.A"))), "the job is left")


KILLS = [
    killed_at(*at)
    for at in (
        ("squeue", 1, "before"), ("squeue", 1, "after"), ("sbatch", 1, "before"), ("sbatch", 1, "after"),
        ("sacct", 1, "before"), ("sacct", 1, "after"), ("sacct", 2, "before"), ("sacct", 3, "after"),
    )
]
ROWS = [
    exits, signals, a_lost_node, a_lost_node_without_accounts, a_time_limit, a_time_limit_with_an_end, a_memory_limit, a_cancelled_job, a_preempted_job,
    a_killed_script, completed_without_an_end, an_end_that_can_not_be_written, no_program, no_folder_on_the_node, never_submitted,
    no_room, no_room_for_all, stopped_while_there_is_no_room, an_answer_that_comes_late, a_lost_answer, a_lost_answer_of_a_job_that_waits, a_doubled_job, a_doubled_job_that_waits,
    a_cluster, two_clusters, a_cluster_in_a_later_life, cancelled_on_a_cluster, no_array, late_accounts, no_accounts,
    told_to_end_without_accounts, a_signal_that_is_handed_on, slurm_is_down, a_moment_without_the_job, one_question_for_all, a_killed_manager, killed_with_launchers, an_end_that_was_not_recorded, *KILLS,
    killed_at_submitting_without_accounts, an_interrupt, a_stopped_launcher, a_stopped_launcher_in_the_queue, stopped_with_the_manager, stopped_and_not_recorded, an_abort,
    an_abort_and_the_next_round, an_abort_before_an_answer, a_killed_launcher, given_up("salvage"), given_up("redo"), given_up("journal"),
    given_up_in_the_queue, given_up_before_an_answer, given_up_and_not_gone, a_copy_of_the_folder, words_come_through, words_of_a_submit_file, odd_names, a_folder_with_blanks, environment,
    an_allocation_around_the_manager, outputs, output_while_it_runs, an_output_that_is_full, requests, no_other_writers, many, an_older_bash, called_without_dagrun,
    ssh_exits, ssh_outputs, ssh_hosts, ssh_no_host, ssh_lost_answer, ssh_late_start, ssh_killed_manager, ssh_killed_with_launchers, ssh_stopped,
    ssh_stopped_with_the_manager, ssh_stopped_and_not_recorded, ssh_abort, ssh_killed_launcher, ssh_gone, ssh_killed_script, ssh_own_groups, ssh_silent,
    ssh_noise, ssh_given_up, ssh_given_up_before_an_answer, ssh_given_up_and_silent, with_sshd(words_by), with_sshd(crash_by),
]


def tried(program, row):
    """The fault of a row, or nothing."""
    with tempfile.TemporaryDirectory(ignore_cleanup_errors=True) as folder:
        place = Place(program, os.path.realpath(folder))
        try:
            row(place)
            return None
        except (AssertionError, OSError, ValueError, IndexError, subprocess.SubprocessError, Skipped) as fault:
            return fault
        finally:
            place.clean()


def main():
    program = os.path.realpath(sys.argv[1] if len(sys.argv) > 1 else os.path.join(TOP, "dist/dagrun"))
    rows = [row for row in ROWS if len(sys.argv) < 3 or sys.argv[2] in row.__name__]
    passed = failed = skipped = 0
    with concurrent.futures.ThreadPoolExecutor(AT_ONCE) as pool:
        for row, fault in zip(rows, pool.map(lambda row: tried(program, row), rows)):
            if isinstance(fault, Skipped):
                skipped += 1
                print(f"skipped {row.__name__}: {fault}", flush=True)
            elif fault is not None:
                failed += 1
                print(f"FAILED {row.__name__}: {fault}", flush=True)
            else:
                passed += 1
    print(f"{passed} passed, {failed} failed" + (f", {skipped} skipped" if skipped else ""))
    sys.exit(1 if failed else 0)


if __name__ == "__main__":
    main()
