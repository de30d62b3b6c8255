#!/usr/bin/env python3
"""Kills managers and looks what becomes of the processes that they leave: none has a copy of itself beside it, and no stranger is touched.

    tests/orphans.py PROGRAM [WORD]     WORD: only the rows whose name holds it

Each job is a sleep of a length of its own, so that its processes are told from all others of the machine. Values are worked out by
hand from docs/MANUAL.md, "Orphans". The last line is 'N passed, M failed'."""
import contextlib
import ctypes
import os
import shlex
import shutil
import signal
import subprocess
import sys
import tempfile
import time

from runs import PATIENCE, Folder, children_of, end_process, runs_still, same, wait_until

# The words of the sleeps of this script: no other process has their fraction.
MARK = f"{os.getpid() % 100000:05d}"

def length(number=0):
    """How long a job sleeps: longer than a row takes on a slow machine. Its processes are known by it."""
    return f"{5000 + number}.{MARK}"


def words_of(process):
    with open(f"/proc/{process}/cmdline", "rb") as file:
        return file.read().split(b"\0")[:-1]


def state_of(process):
    with open(f"/proc/{process}/stat") as file:
        return file.read().rsplit(")", 1)[1].split()


def folder_of(process):
    return os.readlink(f"/proc/{process}/cwd")


def sleeping(number=0):
    """The numbers of the processes that sleep so long and have not ended."""
    found = []
    for name in filter(str.isdigit, os.listdir("/proc")):
        with contextlib.suppress(OSError, IndexError):
            words = words_of(name)
            if words[0].endswith(b"sleep") and words[-1] == length(number).encode() and state_of(name)[0] not in "ZX":
                found.append(int(name))
    return sorted(found)


def wait_for_sleeping(count, number=0):
    wait_until(lambda: len(sleeping(number)) == count, f"there are not {count} sleeps of {length(number)}, but {sleeping(number)}")
    return sleeping(number)


def end_all():
    """Ends what a row left."""
    for number in range(8):
        for process in sleeping(number):
            with contextlib.suppress(OSError):
                os.kill(process, signal.SIGKILL)
    wait_until(lambda: not any(map(sleeping, range(8))), "what was killed still runs")
    with contextlib.suppress(ChildProcessError):
        while os.waitpid(-1, os.WNOHANG)[0]:
            pass


def sleep_file(folder, name, number=0, program="/bin/sleep", before=""):
    """A submit file whose job sleeps."""
    folder.write(f"{name}.sub", f"executable = {program}\narguments = {before}{length(number)}\nqueue\n")


def sleepers(folder, *names, dag="x.dag"):
    """A DAG of jobs of one and the same words, which wait for nothing."""
    folder.write(dag, "".join(f"JOB {name} s.sub\n" for name in names))
    sleep_file(folder, "s")


def apart(folder, *names):
    """The same of jobs that leave the group and the session of their manager, so that nothing but the round tells whose they are."""
    sleepers(folder, *names)
    sleep_file(folder, "s", 0, "/usr/bin/setsid", "sleep ")


def inner(folder, name):
    """A folder in the folder, which is made."""
    made = Folder(folder.program, folder.at(name))
    os.mkdir(made.path)
    return made


def start(folder, *words, **more):
    return subprocess.Popen([folder.program, "run", *words], cwd=folder.path, stdout=subprocess.DEVNULL, stderr=subprocess.PIPE, **more)


def kill(manager):
    manager.kill()
    manager.wait(timeout=PATIENCE)
    manager.stderr.close()


def killing_at(folder, write):
    """The words that kill what they start as it writes for the so manieth time what it has started."""
    return ["strace", "-qqq", "-o", "/dev/null", "-e", "trace=write", "-P", folder.at("x.dag.children"), "-e", f"inject=write:signal=SIGKILL:when={write}"]


def run_killed_at(folder, write):
    """A run that is killed as it writes for the so manieth time what it has started: the child of that moment is not noted."""
    return subprocess.run([*killing_at(folder, write), folder.program, "run", "x.dag"], cwd=folder.path, capture_output=True, timeout=PATIENCE)


def orphans_in(folder):
    """Of each process that was dealt with: its node, phase and attempt, and what was done."""
    lines = [line.split("\t") for line in folder.read("x.dag.log").decode().splitlines()]
    return sorted(tuple(line[2:5]) + (line[6],) for line in lines if line[1] == "orphan")


def are_others(before, count, number=0):
    """Whether so many sleep, and none of those that slept before. They are looked at once."""
    now = sleeping(number)
    return len(now) == count and not set(before) & set(now)


def begin_again(folder, count, number=0):
    """A second manager, once so many jobs run; what ran before runs no more."""
    before = sleeping(number)
    second = start(folder, "x.dag")
    wait_until(lambda: are_others(before, count, number), f"not {count} others than {before} sleep")
    return second


def equal_words(folder):
    """Jobs of the same words, where the manager is killed before the second one, or none, is noted."""
    for write in (2, 3):
        place = inner(folder, f"d{write}")
        sleepers(place, "A", "B")
        run_killed_at(place, write)
        wait_for_sleeping(write - 1)
        second = begin_again(place, 2)
        same(orphans_in(place), [("A", "JOB", "0", "done=killed"), ("B", "JOB", "0", "done=killed")][: write - 1])
        kill(second)
        end_all()


def noted_and_not(folder):
    """Two children are noted, the third is not; all are ended, and each has one successor."""
    apart(folder, "A", "B", "C")
    run_killed_at(folder, 4)
    wait_for_sleeping(3)
    kill(begin_again(folder, 3))
    same(orphans_in(folder), [(node, "JOB", "0", "done=killed") for node in "ABC"])
    kill(begin_again(folder, 3))


def start_by_a_script(*folders, words=()):
    """Managers in these folders, started one behind the other by one script that ends then: one group, one session, no parent. Before
    each one stand its words, if there are any. Answers their numbers."""
    lines = ""
    for place, it in enumerate(folders):
        before = shlex.join(words[place]) if place < len(words) else ""
        lines += f"(cd '{it.path}' && exec {before} '{it.program}' run x.dag) >/dev/null 2>&1 </dev/null &\n"
        lines += f"until grep -qs manager '{it.path}/x.dag.children'; do sleep 0.01; done\n"
    subprocess.run(["setsid", "sh", "-c", lines], timeout=PATIENCE)
    return [int(it.read("x.dag.children").split(b"\t")[1]) for it in folders]


def two_folders(folder):
    """Two managers of the same words in two folders, of one group and session, are killed, the second before its child is noted: each folder's
    next manager ends its own child alone."""
    other, one = inner(folder, "d1"), inner(folder, "d2")
    sleepers(other, "A")
    sleepers(one, "A")
    manager, _ = start_by_a_script(other, one, words=((), killing_at(one, 2)))
    wait_for_sleeping(2)
    end_process(manager)
    [stranger] = [it for it in sleeping() if folder_of(it) == other.path]
    third = start(one, "x.dag")
    wait_until(lambda: orphans_in(one) and len(sleeping()) == 2, f"{sleeping()} sleep")
    same((stranger in sleeping(), orphans_in(one)), (True, [("A", "JOB", "0", "done=killed")]))
    kill(third)


def another_manager_of_the_same_words(folder):
    """A manager is killed once its child runs and before that is noted; another one of the same words, group and session works in another folder."""
    one, other = inner(folder, "d1"), inner(folder, "d2")
    sleepers(one, "A")
    sleepers(other, "A")
    _, manager = start_by_a_script(one, other, words=(killing_at(one, 2),))
    wait_for_sleeping(2)
    third = start(one, "x.dag")
    wait_until(lambda: orphans_in(one) and len(sleeping()) == 2, f"{sleeping()} sleep")
    same((orphans_in(one), runs_still(manager), orphans_in(other)), ([("A", "JOB", "0", "done=killed")], True, []))
    kill(third)
    end_process(manager)


def copied_folder(folder):
    """A copy of a folder whose DAG runs: `run` in the copy leaves the children of the original alone, and knows its own."""
    one = inner(folder, "d1")
    sleepers(one, "A")
    first = start(one, "x.dag")
    [child] = wait_for_sleeping(1)
    shutil.copytree(one.path, folder.at("d2"))
    copy = Folder(folder.program, folder.at("d2"))
    second = start(copy, "x.dag")
    wait_for_sleeping(2)
    same((child in sleeping(), first.poll(), orphans_in(copy)), (True, None, []))
    kill(second)
    third = start(copy, "x.dag")
    wait_until(lambda: len(orphans_in(copy)) == 1 and len(sleeping()) == 2, "the copy does not know its own child")
    same((child in sleeping(), first.poll()), (True, None))
    kill(first)
    kill(third)


def moved_folder(folder):
    """A folder that was given another name is the same folder."""
    one = inner(folder, "d1")
    apart(one, "A")
    run_killed_at(one, 2)
    wait_for_sleeping(1)
    os.rename(one.path, folder.at("d2"))
    other = Folder(folder.program, folder.at("d2"))
    kill(begin_again(other, 1))
    same(orphans_in(other), [("A", "JOB", "0", "done=killed")])


def kill_after_start(folder, count):
    manager = start(folder, "x.dag")
    wait_for_sleeping(count)
    kill(manager)


def a_refused_start(folder):
    """The last start of a manager was refused; a process of another manager that was killed, too, has its words, group and session."""
    one, other = inner(folder, "d1"), inner(folder, "d2")
    one.write("x.dag", "JOB A a.sub\nJOB B b.sub\n")
    sleep_file(one, "a", 1)
    one.write("b.sub", f"executable = /bin/sleep\narguments = {length()}\ninput = none\nqueue\n")
    sleepers(other, "A")
    managers = start_by_a_script(one, other)
    [stranger], [child] = wait_for_sleeping(1), wait_for_sleeping(1, 1)
    wait_until(lambda: b"\tnotstarted\tB\t" in one.read("x.dag.log"), "B was not refused")
    for manager in managers:
        end_process(manager)
    third = start(one, "x.dag")
    wait_until(lambda: are_others([child], 1, 1), "A has not begun again")
    same((sleeping(), orphans_in(one)), ([stranger], [("A", "JOB", "0", "done=killed")]))
    kill(third)


def first_process_of_a_container(folder):
    """The first process of a container starts a manager again, which adopts what the last one left."""
    sleepers(folder, "A", "B")
    folder.write("first.sh", f"""
"$1" run x.dag & manager=$!
until [ "$(grep -lz 'DAGRUN_ROUND=' /proc/[0-9]*/environ 2>/dev/null | wc -l)" = 2 ]; do sleep 0.02; done
kill -9 $manager; wait $manager 2>/dev/null
"$1" run x.dag & manager=$!
until [ "$(grep -c orphan x.dag.log)" = 2 ] && [ "$(grep -lz 'DAGRUN_ROUND=' /proc/[0-9]*/environ 2>/dev/null | wc -l)" = 2 ]; do sleep 0.02; done
kill -9 $manager
""")
    done = subprocess.run(["unshare", "--pid", "--fork", "--mount-proc", "sh", "first.sh", folder.program], cwd=folder.path, capture_output=True, timeout=PATIENCE)
    same((done.returncode, orphans_in(folder)), (0, [("A", "JOB", "0", "done=killed"), ("B", "JOB", "0", "done=killed")]))


def a_number_used_again(folder):
    """A manager has looked which processes there are; before it ends the one that it has found, that is gone, and a stranger has its number."""
    sleepers(folder, "A")
    folder.write("again.sh", f"""
"$1" run x.dag & manager=$!
until grep -qs '	start	A	' x.dag.log; do sleep 0.02; done
kill -9 $manager; wait $manager 2>/dev/null
orphan=$(grep '	start	A	' x.dag.log | cut -f 6)
# The manager stops as it opens the log, which is behind its look. A program that is traced stops at each call, for a moment: so strace is asked.
strace -qqq -o calls -e trace=openat -P "$PWD/x.dag.log" -e inject=openat:signal=SIGSTOP:when=1 "$1" run x.dag & tracer=$!
until grep -qs 'stopped by SIGSTOP' calls; do sleep 0.02; done
manager=$(pgrep -P $tracer)
kill -9 $orphan
until [ ! -e /proc/$orphan ]; do sleep 0.02; done
until [ "$stranger" = $orphan ]; do
    echo $((orphan - 1)) > /proc/sys/kernel/ns_last_pid
    sleep {length(1)} & stranger=$!
done
# It has come to its sleep.
until [ "$(tr '\\0' ' ' < /proc/$stranger/cmdline)" = 'sleep {length(1)} ' ] && grep -q '^State:.S' /proc/$stranger/status; do sleep 0.02; done
kill -CONT $manager
until [ "$(grep -c '	start	A	' x.dag.log)" = 2 ]; do sleep 0.02; done
[ -e /proc/$stranger ] && grep -q '^State:.S' /proc/$stranger/status && echo spared
kill -9 $manager
""")
    done = subprocess.run(["unshare", "--pid", "--fork", "--mount-proc", "sh", "again.sh", folder.program], cwd=folder.path, capture_output=True, timeout=PATIENCE)
    same((done.returncode, done.stdout), (0, b"spared\n"))


def adopters(folder):
    """Processes that adopt what a manager leaves, of which one child is noted and the other is not."""
    apart(folder, "A", "B")
    ctypes.CDLL(None).prctl(36, 1)
    try:
        run_killed_at(folder, 3)
        wait_for_sleeping(2)
        kill(begin_again(folder, 2))
        same(orphans_in(folder), [("A", "JOB", "0", "done=killed"), ("B", "JOB", "0", "done=killed")])
    finally:
        ctypes.CDLL(None).prctl(36, 0)


def wrapped(folder):
    """Jobs under programs that start or become others, with a launcher, in groups and sessions of their own, with an empty last word."""
    for words in ([], ["--launcher", "env Y=2"], ["--launcher", "nice"]):
        place = inner(folder, "_".join(["d", *words]).replace(" ", "_"))
        place.write("x.dag", "".join(f"JOB {name} {name}.sub\n" for name in "ABCDEF"))
        sleep_file(place, "A", 0, "/usr/bin/timeout", "9000 sleep ")
        sleep_file(place, "B", 1, "/usr/bin/setsid", "sleep ")
        sleep_file(place, "C", 2, "/usr/bin/env", "X=1 sleep ")
        sleep_file(place, "D", 3, "/usr/bin/nice", "sleep ")
        place.write("E.sub", f"executable = /bin/sh\narguments = \"-c 'sleep {length(4)} & exec sleep {length(5)}' ''\"\nqueue\n")
        place.write("F.sub", f"executable = /bin/sh\narguments = \"-c 'exec sleep {length(6)}' ''\"\nqueue\n")
        manager = start(place, *words, "x.dag")
        before = {it: wait_for_sleeping(1, it) for it in range(7)}
        kill(manager)
        second = start(place, *words, "x.dag")
        wait_until(lambda: all(are_others(before[it], 1, it) for it in range(7)), "a job has a copy, or none")
        kill(second)
        end_all()


def child_under(tracer):
    """The manager that a tracer runs, and a child that it has started; none where it has none."""
    for manager in children_of(tracer):
        for child in children_of(manager):
            return manager, child
    return None


def held_up(folder, delay, **more):
    """A manager that has started a child which comes to its program so many microseconds later; the manager, the child, and who holds it up."""
    sleepers(folder, "A")
    strace = ["strace", "-f", "-qqq", "-o", "/dev/null", "-e", "trace=execve", "-P", "/bin/sleep", "-e", f"inject=execve:delay_enter={delay}"]
    traced = subprocess.Popen([*strace, folder.program, "run", "x.dag"], cwd=folder.path, stdout=subprocess.DEVNULL, stderr=subprocess.DEVNULL, **more)
    found = []
    wait_until(lambda: found.append(child_under(traced.pid)) or found[-1], "no child is started")
    manager, child = found[-1]
    same(words_of(child), words_of(manager))
    return manager, child, traced


def left_on_its_way(folder, delay):
    """The same, where the manager is killed then; the child, and who holds it up.

    Until it comes to its program the child has the words, the program and the environment of the manager, and its lock no more. Both are in a session of
    their own."""
    manager, child, traced = held_up(folder, delay, start_new_session=True)
    os.kill(manager, signal.SIGKILL)
    wait_until(lambda: not os.path.exists(f"/proc/{child}/fd/3"), "the child keeps the files of its manager")
    return child, traced


def started_in(folder):
    """The numbers of the processes that the log says were started."""
    lines = [line.split("\t") for line in folder.read("x.dag.log").decode().splitlines(True) if line.endswith("\n")]
    return [int(line[5]) for line in lines if line[1] == "start"]


def on_its_way(folder):
    """A child that has not come to its program as its manager is killed is waited for, and ended, before the next manager starts another one."""
    child, traced = left_on_its_way(folder, 4000000)
    second = start(folder, "x.dag")
    wait_until(lambda: started_in(folder), "the next manager starts nothing")
    same(runs_still(child), False)
    same((child in started_in(folder), orphans_in(folder)), (False, [("A", "JOB", "0", "done=killed")]))
    kill(second)
    traced.wait(timeout=PATIENCE)


def never_there(folder):
    """One that has not come to it after ten seconds refuses the run: it may be a copy. Nothing is started."""
    child, traced = left_on_its_way(folder, 1000000000)
    same(folder.call("run", "x.dag"), ("", "dagrun: X2 FileRefused /proc\n", 125))
    same((runs_still(child), sleeping()), (True, []))
    os.kill(child, signal.SIGKILL)
    traced.kill()
    traced.wait(timeout=PATIENCE)


def held_up_elsewhere(folder):
    """A child that doesn't come to its program refuses no run of another folder where its manager, which is gone, worked in another session: not even where
    the file of the processes is lost, since the identifier's names the manager too."""
    other, one = inner(folder, "d1"), inner(folder, "d2")
    child, traced = left_on_its_way(other, 1000000000)
    sleepers(one, "A")
    kill_after_start(one, 1)
    os.remove(one.at("x.dag.children"))
    kill(begin_again(one, 1))
    same((runs_still(child), orphans_in(one)), (True, [("A", "JOB", "0", "done=killed")]))
    os.kill(child, signal.SIGKILL)
    traced.kill()
    traced.wait(timeout=PATIENCE)


def held_up_by_a_manager_that_runs(folder):
    """Nor where its manager still runs, whatever session that is in: here in none that is known."""
    other, one = inner(folder, "d1"), inner(folder, "d2")
    sleepers(one, "A")
    kill_after_start(one, 1)
    manager, child, traced = held_up(other, 1000000000, start_new_session=True)
    os.remove(one.at("x.dag.children"))
    rounds = one.read("x.dag.round").splitlines(True)
    one.write("x.dag.round", b"".join(rounds[:-1]).decode())
    kill(begin_again(one, 1))
    same((runs_still(manager), runs_still(child), orphans_in(one)), (True, True, [("A", "JOB", "0", "done=killed")]))
    for process in (manager, child):
        os.kill(process, signal.SIGKILL)
    traced.kill()
    traced.wait(timeout=PATIENCE)


def two_hundred(folder):
    """Two hundred, of which the last one is not noted, are ended at once, by one call of a shell."""
    apart(folder, *(f"n{it}" for it in range(200)))
    run_killed_at(folder, 201)
    wait_for_sleeping(200)
    before = time.monotonic()
    second = start(folder, "x.dag")
    wait_until(lambda: folder.read("x.dag.log").count(b"\torphan\t") == 200, "not all are dealt with")
    took = time.monotonic() - before
    wait_for_sleeping(200)
    kill(second)
    same([done for *_, done in orphans_in(folder)], ["done=killed"] * 200)
    # It takes half a second where nothing else runs. To look at so many processes, and at those of others, takes as long as the machine is
    # slow; that all are gone within ten seconds from the first signal on the program sees to itself: else they are told as refused.
    if took > PATIENCE / 2:
        raise AssertionError(f"it took {took:.1f} seconds to end 200 processes")


def some_that_can_not_be_ended(folder):
    """Thirty that can't be ended are waited for together, for ten seconds in all; nothing was started."""
    count = 30
    sleepers(folder, *(f"n{it}" for it in range(count)))
    kill_after_start(folder, count)
    began, before = time.monotonic(), sleeping()
    strace = ["strace", "-qqq", "-f", "-o", "/dev/null", "-e", "trace=kill", "-e", "inject=kill:error=EPERM"]
    done = subprocess.run([*strace, folder.program, "run", "x.dag"], cwd=folder.path, capture_output=True, timeout=PATIENCE)
    took = time.monotonic() - began
    same((done.stdout, done.stderr, done.returncode), (b"", b"dagrun: X2 FileRefused x.dag.children\n", 125))
    same((sleeping(), [done for *_, done in orphans_in(folder)]), (before, ["done=refused"] * count))
    # Ten seconds each would be 300. What is above ten is the pace of the machine.
    if not 9 < took < 150:
        raise AssertionError(f"it took {took:.1f} seconds")
    kill(begin_again(folder, count))


def forged_notes(folder):
    """What others wrote into the file of the processes names nobody who is ended."""
    sleepers(folder, "A")
    kill_after_start(folder, 1)
    stranger = subprocess.Popen(["sleep", length(1)])
    began = state_of(stranger.pid)[19]
    with open("/proc/sys/kernel/random/boot_id") as file:
        boot = file.read().strip()
    lines = [f"{it}\t{began}\t{boot}\tA\tJOB\t0\n" for it in (1, 0, -1, os.getpid(), os.getppid(), stranger.pid)]
    folder.write("x.dag.children", folder.read("x.dag.children").decode() + "".join(lines))
    kill(begin_again(folder, 1))
    same((stranger.poll(), orphans_in(folder)), (None, [("A", "JOB", "0", "done=killed")]))
    stranger.kill()
    stranger.wait()


TITLED = """import ctypes, time
with open("/proc/self/stat") as file:
    fields = file.read().rsplit(")", 1)[1].split()
start, end = int(fields[47]), int(fields[48])
title = b"worker: busy"
ctypes.memset(start, 0, end - start)
ctypes.memmove(start, title, len(title))
open("b.ready", "w").close()
time.sleep(5000)
"""


def without_settings(folder):
    """A job without an environment, and one that writes a title over its own, as servers do."""
    folder.write("x.dag", "JOB A a.sub\nJOB B b.sub\n")
    sleep_file(folder, "a", 0, "/usr/bin/env", "-i /bin/sleep ")
    folder.write("b.py", TITLED)
    folder.write("b.sub", f"executable = {sys.executable}\narguments = b.py\nqueue\n")


def kill_once_ready(folder, name, count, *words):
    """A run that is killed once its jobs are started, so many in all by the log, and one of them has made this file; what was started."""
    manager = start(folder, *words, "x.dag")
    folder.wait_for(name)
    wait_until(lambda: len(started_in(folder)) == count, f"not {count} are started")
    kill(manager)
    os.remove(folder.at(name))
    return started_in(folder)


def end_processes(processes):
    for process in processes:
        with contextlib.suppress(OSError):
            os.kill(process, signal.SIGKILL)
    wait_until(lambda: not any(map(runs_still, processes)), "what was killed still runs")


def noted_alone(folder):
    """Children whose environment says nothing are known by what was noted of them. They are not killed, and no copy starts beside them: not
    even where they were left, and another manager came and went."""
    without_settings(folder)
    refused = ("", "dagrun: X2 FileRefused x.dag.children\n", 125)
    orphans = [(node, "JOB", "0", "done=refused") for node in "AB"]
    left = kill_once_ready(folder, "b.ready", 2)
    same((folder.call("run", "x.dag"), started_in(folder), orphans_in(folder)), (refused, left, orphans))
    left = kill_once_ready(folder, "b.ready", 4, "--orphans", "leave")
    os.remove(folder.at("x.dag.log"))
    same((folder.call("run", "x.dag"), list(map(runs_still, left))), (refused, [True] * 4))
    same(orphans_in(folder), sorted(orphans * 2))
    end_processes(left)
    left = kill_once_ready(folder, "b.ready", 2)
    end_processes(left)


def waited_by_its_note(folder):
    """`--orphans wait` waits for such a child, too."""
    sleepers(folder, "A")
    sleep_file(folder, "s", 0, "/usr/bin/env", "-i /bin/sleep ")
    manager = start(folder, "x.dag")
    [child] = wait_for_sleeping(1)
    # Killed before its note, the manager would leave a child that nothing tells from a stranger.
    wait_until(lambda: started_in(folder) == [child] and str(child).encode() in folder.read("x.dag.children"), "no note is written")
    kill(manager)
    second = start(folder, "--orphans", "wait", "x.dag")
    time.sleep(0.5)
    same((sleeping(), started_in(folder)), ([child], [child]))
    os.kill(child, signal.SIGKILL)
    wait_until(lambda: are_others([child], 1), "the round doesn't go on")
    same(orphans_in(folder), [("A", "JOB", "0", "done=waited")])
    kill(second)


# What becomes of the file of the identifiers, of which none is known then: nothing, no bytes, half an identifier, one without its folder, one whose folder's
# number is cut short, and the line of the manager alone.
LOST = [
    lambda data: None,
    lambda data: b"",
    lambda data: data[:20],
    lambda data: data[: data.index(b"\t") + 1],
    lambda data: data[: data.index(b"\n") - 1],
    lambda data: data.splitlines(True)[-1],
]


def killed_with_lost_identifier(folder, lose=LOST[0]):
    """A manager is killed once its child is noted, and the file of the identifier is lost then; the child."""
    sleepers(folder, "A")
    manager = start(folder, "x.dag")
    [child] = wait_for_sleeping(1)
    wait_until(lambda: started_in(folder) == [child] and str(child).encode() in folder.read("x.dag.children"), "no note is written")
    kill(manager)
    left = lose(folder.read("x.dag.round"))
    os.remove(folder.at("x.dag.round"))
    if left is not None:
        folder.write("x.dag.round", left.decode())
    return child


REFUSED = ("", "dagrun: X2 FileRefused x.dag.children\n", 125)


def an_identifier_that_is_lost(folder):
    """Where no identifier is known, a child that is noted and runs with one refuses the run. It is not killed, and no copy starts beside it."""
    for number, lose in enumerate(LOST):
        place = inner(folder, f"d{number}")
        child = killed_with_lost_identifier(place, lose)
        same((number, place.call("run", "x.dag"), sleeping()), (number, REFUSED, [child]))
        same(orphans_in(place), [("A", "JOB", "0", "done=refused")])
        end_processes([child])
        kill(begin_again(place, 1))
        end_all()


def waited_by_its_note_alone(folder):
    """`--orphans wait` waits for it."""
    child = killed_with_lost_identifier(folder)
    second = start(folder, "--orphans", "wait", "x.dag")
    time.sleep(0.5)
    same((sleeping(), started_in(folder)), ([child], [child]))
    os.kill(child, signal.SIGKILL)
    wait_until(lambda: are_others([child], 1), "the round doesn't go on")
    same(orphans_in(folder), [("A", "JOB", "0", "done=waited")])
    kill(second)


def left_by_its_note_alone(folder):
    """What `--orphans leave` leaves is known to the next manager, which has an identifier of its own: it ends its own child alone."""
    child = killed_with_lost_identifier(folder)
    manager = start(folder, "--orphans", "leave", "x.dag")
    wait_until(lambda: len(started_in(folder)) == 2, "the round doesn't go on")
    kill(manager)
    same((folder.call("run", "x.dag"), sleeping()), (REFUSED, [child]))
    same(orphans_in(folder), [("A", "JOB", "0", "done=" + done) for done in ("killed", "left", "refused")])


def notes_of_others(folder):
    """No process of another round is taken for a child by its number alone, where no identifier is known: it began then, since the system was started."""
    sleepers(folder, "A")
    stranger = subprocess.Popen(["sleep", length(1)], env={"DAGRUN_ROUND": "other"})
    began = int(state_of(stranger.pid)[19])
    with open("/proc/sys/kernel/random/boot_id") as file:
        boot = file.read().strip()
    lines = [(began + 1, boot), (began - 1, boot), (began, "another"), (0, boot)]
    folder.write("x.dag.children", "".join(f"{stranger.pid}\t{at}\t{since}\tA\tJOB\t0\n" for at, since in lines))
    manager = start(folder, "x.dag")
    wait_for_sleeping(1)
    same((stranger.poll(), orphans_in(folder)), (None, []))
    kill(manager)
    stranger.kill()
    stranger.wait()


def without_the_round(folder):
    """A child that is started without the identifier on purpose has settings, and is left alone."""
    folder.write("x.dag", "JOB A s.sub\n")
    sleep_file(folder, "s", 0, "/usr/bin/env", "-u DAGRUN_ROUND /bin/sleep ")
    kill_after_start(folder, 1)
    [child] = sleeping()
    second = start(folder, "x.dag")
    wait_for_sleeping(2)
    same((child in sleeping(), orphans_in(folder)), (True, []))
    kill(second)


def threads_of(process):
    """How many threads a process has that go on."""
    count = 0
    with contextlib.suppress(OSError):
        for thread in os.listdir(f"/proc/{process}/task"):
            count += state_of(f"{process}/task/{thread}")[0] not in "ZX"
    return count


def first_thread_gone(folder):
    """A process whose first thread has ended runs as long as another thread does."""
    folder.write("x.dag", "JOB A a.sub\n")
    folder.write("a.py", """import ctypes, os, threading, time
threading.Thread(target=time.sleep, args=(5000,)).start()
open("a.ready", "w").close()
ctypes.CDLL(None).syscall(60, 0)
""")
    folder.write("a.sub", f"executable = {sys.executable}\narguments = a.py\nqueue\n")
    [child] = kill_once_ready(folder, "a.ready", 1)
    wait_until(lambda: state_of(child)[0] == "Z", "the first thread goes on")
    same(threads_of(child), 1)
    second = start(folder, "x.dag")
    wait_until(lambda: len(started_in(folder)) == 2, "the round doesn't go on")
    same((threads_of(child), orphans_in(folder)), (0, [("A", "JOB", "0", "done=killed")]))
    kill(second)
    end_processes(started_in(folder)[1:])


def unreadable(folder):
    """A child whose program may be executed and not read keeps its environment from an ordinary user."""
    folder.write("x.dag", "JOB A s.sub\n")
    shutil.copy(folder.program, folder.at("dagrun"))
    shutil.copy("/bin/sleep", folder.at("sleep"))
    os.chmod(folder.at("sleep"), 0o111)
    sleep_file(folder, "s", 0, folder.at("sleep"))
    more = {}
    if os.getuid() == 0:
        more = {"user": 65534, "group": 65534, "extra_groups": []}
        for path in (folder.path, *map(folder.at, os.listdir(folder.path))):
            os.chown(path, 65534, 65534)
    own = Folder(folder.at("dagrun"), folder.path)
    manager = start(own, "x.dag", **more)
    [child] = wait_for_sleeping(1)
    wait_until(lambda: started_in(folder), "nothing is logged")
    kill(manager)
    done = subprocess.run([own.program, "run", "x.dag"], cwd=own.path, capture_output=True, timeout=PATIENCE, **more)
    same((done.stdout, done.stderr, done.returncode), (b"", b"dagrun: X2 FileRefused x.dag.children\n", 125))
    same((sleeping(), orphans_in(folder)), ([child], [("A", "JOB", "0", "done=refused")]))


def a_link_that_is_switched(folder):
    """A run that ends removes nothing of another folder, which has the name of its own by then: what that one's manager left is found."""
    one, other = inner(folder, "d1"), inner(folder, "d2")
    os.symlink("d1", folder.at("current"))
    one.write("x.dag", "JOB A a.sub\n")
    folder.shell("a", "until [ -e go ]; do sleep 0.05; done\n")
    manager = start(folder, "current/x.dag")
    one.wait_for("x.dag.log")
    one.wait_for_start("x.dag", "A")
    sleepers(other, "A")
    kill_after_start(other, 1)
    os.remove(folder.at("current"))
    os.symlink("d2", folder.at("current"))
    folder.write("go", "")
    same(manager.wait(timeout=PATIENCE), 0)
    manager.stderr.close()
    kill(begin_again(other, 1))
    same(orphans_in(other), [("A", "JOB", "0", "done=killed")])


def forged_identifiers(folder):
    """Lines that are no identifier of a round in this folder are passed over."""
    sleepers(folder, "A")
    kill_after_start(folder, 1)
    found = os.stat(folder.path)
    stranger = subprocess.Popen(["sleep", length(1)], env={"DAGRUN_ROUND": "", "DAGRUN_NODE": "A"})
    other = subprocess.Popen(["sleep", length(1)], env={"DAGRUN_ROUND": "other"})
    folder.write("x.dag.round", f"\t{found.st_dev}\t{found.st_ino}\nother\t{found.st_dev}\t{found.st_ino + 1}\nother\t1\nother\n" + folder.read("x.dag.round").decode())
    kill(begin_again(folder, 1))
    same((stranger.poll(), other.poll(), orphans_in(folder)), (None, None, [("A", "JOB", "0", "done=killed")]))
    for process in (stranger, other):
        process.kill()
        process.wait()


def a_manager_that_lives(folder):
    """Where the manager that is noted still lives, no other one begins, even if somebody removed its lock and its journal."""
    sleepers(folder, "A")
    first = start(folder, "x.dag")
    [child] = wait_for_sleeping(1)
    os.remove(folder.at("x.dag.lock"))
    os.rename(folder.at("x.dag.journal"), folder.at("kept"))
    shutil.copy(folder.at("kept"), folder.at("x.dag.journal"))
    for journal in (True, False):
        same(folder.call("run", "x.dag"), ("", "dagrun: X2 FileRefused x.dag.lock\n", 125))
        same((folder.there("x.dag.journal"), sleeping(), first.poll(), orphans_in(folder)), (journal, [child], None, []))
        if journal:
            os.remove(folder.at("x.dag.journal"))
    kill(first)
    kill(begin_again(folder, 1))


def another_boot(folder):
    """Once the system was started again, and on another machine, devices have other numbers: the identifier counts where its file is the one that was
    written, in the folder of then; in a copy of that file it doesn't."""
    for is_copy in (False, True):
        place = inner(folder, f"d{is_copy}")
        sleepers(place, "A")
        kill_after_start(place, 1)
        [child] = sleeping()
        first, number, manager = place.read("x.dag.round").decode().splitlines()
        same(number, f"file\t{os.stat(place.at('x.dag.round')).st_ino}")
        identifier, device, inode = first.split("\t")
        fields = manager.split("\t")
        fields[3] = "another"
        lines = ["\t".join([identifier, str(int(device) + 1), inode]), number, "\t".join(fields)]
        if is_copy:
            os.rename(place.at("x.dag.round"), place.at("kept"))
        place.write("x.dag.round", "".join(f"{line}\n" for line in lines))
        second = start(place, "x.dag")
        if is_copy:
            wait_for_sleeping(2)
        else:
            wait_until(lambda: are_others([child], 1), "the round doesn't go on")
        same(orphans_in(place), [] if is_copy else [("A", "JOB", "0", "done=killed")])
        kill(second)
        end_all()


def our_ancestor(folder):
    """A script that a killed manager left calls `run` itself: it is no orphan of it, but its other processes are."""
    folder.write("x.dag", "JOB A a.sub\n")
    folder.write("a.sub", "executable = /bin/sh\narguments = a.sh\nqueue\n")
    folder.write("a.sh", f"""
if [ -e again ]; then exit 0; fi
echo $$ > again
sleep {length()} & sleep {length(1)}
"{folder.program}" run x.dag > answer 2>&1
mv answer answered
""")
    manager = start(folder, "x.dag")
    wait_for_sleeping(1, 1)
    kill(manager)
    [process] = sleeping(1)
    os.kill(process, signal.SIGKILL)
    folder.wait_for("answered")
    same((folder.read("answered"), sleeping()), (b"A DONE attempts=1 value=0\nresult 0\n", []))
    same(orphans_in(folder), [("A", "JOB", "0", "done=killed")])


def left_and_killed(folder):
    """What `--orphans leave` leaves is known to later rounds, whatever their identifiers."""
    apart(folder, "A")
    run_killed_at(folder, 2)
    [child] = wait_for_sleeping(1)
    sleep_file(folder, "s", 1, "/usr/bin/setsid", "sleep ")
    # The digest is that of the other file: the round begins anew without its journal.
    os.remove(folder.at("x.dag.journal"))
    for count in (1, 2):
        manager = start(folder, "--orphans", "leave", "x.dag")
        wait_for_sleeping(count, 1)
        kill(manager)
    same((sleeping(), len(sleeping(1))), ([child], 2))
    second = start(folder, "x.dag")
    wait_until(lambda: sleeping() == [] and len(sleeping(1)) == 1, f"{sleeping()} and {sleeping(1)} sleep")
    kill(second)


def an_identifier_that_can_not_be_kept(folder):
    """The round goes on, and its log says so."""
    folder.write("x.dag", "JOB A a.sub\n")
    folder.echo("a")
    os.mkdir(folder.at("x.dag.round.new"))
    same(folder.call("run", "x.dag"), ("A DONE attempts=1 value=0\nresult 0\n", "", 0))
    [line] = [line.split("\t") for line in folder.read("x.dag.log").decode().splitlines() if "\tunkept\t" in line]
    same((line[2:5], line[6]), (["-", "-", "-"], "reason='Is a directory (os error 21)'"))


def identifiers_that_can_not_be_read(folder):
    """A pipe, a link or a folder in place of the file is refused at once, before anything is started."""
    folder.write("x.dag", "JOB A a.sub\n")
    folder.echo("a")
    for make in (os.mkfifo, os.mkdir, lambda path: os.symlink("x.dag", path)):
        make(folder.at("x.dag.round"))
        same(folder.call("run", "x.dag"), ("", "dagrun: X2 FileRefused x.dag.round\n", 125))
        same(folder.there("x.dag.journal"), False)
        if os.path.isdir(folder.at("x.dag.round")):
            os.rmdir(folder.at("x.dag.round"))
        else:
            os.remove(folder.at("x.dag.round"))
    same(folder.call("run", "x.dag"), ("A DONE attempts=1 value=0\nresult 0\n", "", 0))


def questions_that_are_refused(folder):
    """A refused question is no answer: nothing is started."""
    sleepers(folder, "A")
    kill_after_start(folder, 1)
    before = sleeping()
    path = f"/proc/{before[0]}/environ"
    strace = ["strace", "-qqq", "-o", "/dev/null", "-e", "trace=openat", "-P", path, "-e", "inject=openat:error=EMFILE"]
    done = subprocess.run([*strace, folder.program, "run", "x.dag"], cwd=folder.path, capture_output=True, timeout=PATIENCE)
    same((done.stdout, done.stderr, done.returncode, sleeping()), (b"", b"dagrun: X2 FileRefused /proc\n", 125, before))


def what_children_inherit(folder):
    """Its round, its DAG, its node, its phase and its attempt; the identifier is kept while the round goes on, and the next round has another one."""
    folder.write("x.dag", "JOB A a.sub\nSCRIPT PRE A p.sh\nRETRY A 1\n")
    folder.write("p.sh", "#!/bin/sh\nenv | grep ^DAGRUN_ | sort >> seen\n")
    os.chmod(folder.at("p.sh"), 0o755)
    folder.shell("a", "env | grep ^DAGRUN_ | sort >> seen\ncp x.dag.round kept\n[ -e again ] || { : > again; exit 1; }\n")
    same(folder.call("run", "x.dag")[2], 0)
    same(folder.there("x.dag.round"), False)
    line, *_ = folder.read("kept").decode().splitlines()
    found = os.stat(folder.path)
    same(line.split("\t")[1:], [str(found.st_dev), str(found.st_ino)])
    round_of = line.split("\t")[0]
    dag = os.path.join(os.path.realpath(folder.path), "x.dag")
    wanted = [f"DAGRUN_ATTEMPT={attempt}\nDAGRUN_DAG={dag}\nDAGRUN_NODE=A\nDAGRUN_PHASE={phase}\nDAGRUN_ROUND={round_of}\n" for attempt in (0, 1) for phase in ("PRE", "JOB")]
    same(folder.read("seen").decode(), "".join(wanted))
    same(folder.call("run", "x.dag")[2], 0)
    same(folder.read("kept").decode().split("\t")[0] == round_of, False)


def the_identifier_of_all_lives(folder):
    """A round that is killed and gone on with has one identifier; the line of its manager is that of the last one."""
    sleepers(folder, "A")
    kill_after_start(folder, 1)
    before = folder.read("x.dag.round").splitlines()
    second = begin_again(folder, 1)
    after = folder.read("x.dag.round").splitlines()
    kill(second)
    same((len(before), len(after), after[0]), (3, 3, before[0]))
    same([line.split(b"\t")[:2] for line in (before[-1], after[-1])], [[b"manager", before[-1].split(b"\t")[1]], [b"manager", str(second.pid).encode()]])
    same(folder.read("x.dag.children").splitlines()[0], after[-1])


ROWS = [
    copied_folder,
    a_refused_start,
    wrapped,
    forged_notes,
    noted_alone,
    waited_by_its_note,
    an_identifier_that_is_lost,
    waited_by_its_note_alone,
    left_by_its_note_alone,
    notes_of_others,
    without_the_round,
    first_thread_gone,
    unreadable,
    a_link_that_is_switched,
    forged_identifiers,
    a_manager_that_lives,
    another_boot,
    our_ancestor,
    an_identifier_that_can_not_be_kept,
    identifiers_that_can_not_be_read,
    what_children_inherit,
    the_identifier_of_all_lives,
]

# These need strace.
TRACED = [
    equal_words,
    noted_and_not,
    two_folders,
    another_manager_of_the_same_words,
    moved_folder,
    adopters,
    on_its_way,
    never_there,
    held_up_elsewhere,
    held_up_by_a_manager_that_runs,
    two_hundred,
    left_and_killed,
    some_that_can_not_be_ended,
    questions_that_are_refused,
]


def main():
    program = os.path.realpath(sys.argv[1])
    rows = list(ROWS)
    if shutil.which("strace"):
        rows += TRACED
    else:
        print("strace is not installed: no manager is killed between the start of a child and its note, and no call is refused")
    if os.getuid() == 0 and subprocess.run(["unshare", "--pid", "--fork", "--mount-proc", "true"], capture_output=True).returncode == 0:
        rows += [first_process_of_a_container, a_number_used_again] if shutil.which("strace") else [first_process_of_a_container]
    else:
        print("no container can be made here: its first process is not tried")
    if len(sys.argv) > 2:
        rows = [row for row in rows if sys.argv[2] in row.__name__]
    failed = 0
    for row in rows:
        with tempfile.TemporaryDirectory() as path:
            try:
                row(Folder(program, path))
            except (AssertionError, OSError, ValueError, subprocess.SubprocessError) as fault:
                failed += 1
                print(f"FAILED {row.__name__}: {fault}", flush=True)
            finally:
                end_all()
    print(f"{len(rows) - failed} passed, {failed} failed")
    sys.exit(1 if failed else 0)


if __name__ == "__main__":
    main()
