#!/usr/bin/env python3
"""Measures what ./test costs, by crate: gate.py [COMMAND..], in place of ./test that command

Run it in a fresh clone on a machine that does nothing else. It looks at the processes of the command once a second. Before the
command's last line, which tells how many passed, it prints the minutes by the clock and of processors in all, and for each crate:
the processor seconds of its proofs (of a crate of tests: with its tests), those of the edits that are tried, the most memory that
one process held, and when its first process began and its last one ended, in minutes. A process that lives less than a second may
be missed; the minutes in all are the system's own. On a rented machine the host may give its processors to others meanwhile: where
it kept many minutes, the clock says nothing. Before and behind the command it times a loop of Python, which tells the machine's
pace. The exit status is the command's. Every ten minutes it prints how far it is, so that a run which is stopped from outside says so, too.
"""

import os
import re
import resource
import subprocess
import sys
import threading
import time

TICKS = os.sysconf("SC_CLK_TCK")
NOTE_EVERY = 600
TOP = os.path.dirname(os.path.dirname(os.path.realpath(__file__)))


class Process:
    """What was last seen of a process: its crate and whether it tries an edit, its seconds, its memory, its first and last moment."""

    def __init__(self, begun):
        self.crate, self.edit, self.seconds, self.bytes = None, False, 0.0, 0
        self.begun = self.seen = begun

    def look(self, folder, moment):
        """Reads what /proc says of it now."""
        with open(f"{folder}/stat") as stat:
            fields = stat.read().rpartition(")")[2].split()
        self.seconds, self.seen = (int(fields[11]) + int(fields[12])) / TICKS, moment
        with open(f"{folder}/status") as status:
            peak = re.search(r"VmHWM:\s+(\d+)", status.read())
        self.bytes = max(self.bytes, 1024 * int(peak[1]) if peak else 0)
        where = os.readlink(f"{folder}/cwd")
        with open(f"{folder}/cmdline", "rb") as words:
            named = re.search(rb"--crate-name\0(\w+)", words.read())
        inside = re.match(re.escape(TOP) + r"/crates/(\w+)", where)
        if named or inside:
            self.crate = named[1].decode() if named else inside[1]
            self.edit = inside is None


def descendants(of):
    """The numbers of a process's children, of their children and so on."""
    parents = {}
    for name in filter(str.isdigit, os.listdir("/proc")):
        try:
            with open(f"/proc/{name}/stat") as stat:
                parents[int(name)] = int(stat.read().rpartition(")")[2].split()[1])
        except OSError:
            pass
    found, above = [], {of}
    while above:
        above = {child for child, parent in parents.items() if parent in above}
        found += above
    return found


def note(processes, moment):
    """Prints how far the command is: the minutes until now, and the crates at which it worked in the last minute."""
    seen = list(processes.values())
    crates = sorted({it.crate for it in seen if it.crate and it.seen > moment - 60})
    minutes = sum(it.seconds for it in seen) / 60
    print(f"gate: {moment / 60:.0f} minutes by the clock, {minutes:.0f} processor minutes, at {', '.join(crates) or 'no crate'}", flush=True)


def watch(running, start):
    """Looks at the processes until the command ends, and gives what was seen of each."""
    processes, noted = {}, 0
    while running.poll() is None:
        moment = time.monotonic() - start
        if moment >= noted + NOTE_EVERY:
            noted = moment
            note(processes, moment)
        for number in descendants(os.getpid()):
            try:
                with open(f"/proc/{number}/stat") as stat:
                    key = number, stat.read().rpartition(")")[2].split()[19]
                processes.setdefault(key, Process(moment)).look(f"/proc/{number}", moment)
            except OSError:
                pass
        time.sleep(1)
    return list(processes.values())


def table(processes):
    """Prints a row for each crate, in the order in which they begin."""
    crates = {}
    for process in processes:
        if process.crate:
            crates.setdefault(process.crate, []).append(process)
    print("| Crate | Seconds | GB | Edits, seconds | Begins | Ends |\n|---|---|---|---|---|---|")
    for crate, own in sorted(crates.items(), key=lambda item: min(it.begun for it in item[1])):
        proofs, edits = (sum(it.seconds for it in own if it.edit == edit) for edit in (False, True))
        memory, ends = max(it.bytes for it in own) / 1e9, max(it.seen for it in own) / 60
        print(f"| {crate} | {proofs:.0f} | {memory:.1f} | {edits:.0f} | {min(it.begun for it in own) / 60:.1f} | {ends:.1f} |")


def kept_by_the_host():
    """The minutes in which a processor had work since the machine began, and the host gave its time to others."""
    with open("/proc/stat") as stat:
        return int(stat.readline().split()[8]) / TICKS / 60


def pace():
    """The seconds that 10 million additions take, alone."""
    start, total = time.monotonic(), 0
    for number in range(10_000_000):
        total += number
    return time.monotonic() - start


def pass_on(lines, last):
    """Prints the lines as they come, but keeps the last one."""
    for line in lines:
        if last:
            print(last.pop(), end="", flush=True)
        last.append(line)


def main():
    paces, start, kept, last = [pace()], time.monotonic(), kept_by_the_host(), []
    print(f"gate: {os.cpu_count()} processors; 10 million additions in Python take {paces[0]:.1f} seconds", flush=True)
    words = sys.argv[1:] or ["./test"]
    with subprocess.Popen(words, cwd=TOP, stdout=subprocess.PIPE, stderr=subprocess.STDOUT, text=True, errors="replace") as running:
        printing = threading.Thread(target=pass_on, args=(running.stdout, last))
        printing.start()
        processes = watch(running, start)
        printing.join()
    used = resource.getrusage(resource.RUSAGE_CHILDREN)
    minutes, processors = (time.monotonic() - start) / 60, (used.ru_utime + used.ru_stime) / 60
    kept = kept_by_the_host() - kept
    paces.append(pace())
    table(processes)
    print(f"{minutes:.1f} minutes by the clock, {processors:.1f} processor minutes, {kept:.1f} more kept by the host")
    print(f"10 million additions in Python: {paces[0]:.1f} seconds before it, {paces[1]:.1f} behind it")
    print(*last, sep="", end="")
    return running.returncode


if __name__ == "__main__":
    sys.exit(main())
