#!/usr/bin/env python3
"""Compares what dagrun prints as JSON with what it prints as text, of rounds that are made at random: data.py PROGRAM [ROUNDS]

Each round has up to eight nodes, with scripts, retries, priorities, exit codes, signals and a FINAL node as they come. It is run; then each command
that has `--json` is called with and without it, and each object is read by Python's json and compared with the text. The last line is
'N passed, M failed': one for each round, and one for the commands that read no round."""

import concurrent.futures
import json
import os
import random
import subprocess
import sys
import tempfile

# How many seconds it is waited for what comes at once on a machine that is not busy.
PATIENCE = 300


class Failed(Exception):
    """What was found differs from what was wanted."""


def same(found, wanted):
    if found != wanted:
        raise Failed(f"found\n{found}\nwanted\n{wanted}")


def call(program, folder, *words):
    done = subprocess.run([program, *words], cwd=folder, capture_output=True, timeout=PATIENCE)
    return done.stdout.decode(), done.stderr.decode(), done.returncode


def write(folder, name, text):
    with open(os.path.join(folder, name), "w") as file:
        file.write(text)


def script_of(source):
    """A shell's words for an end: mostly with 0, else with another code or by a signal."""
    kind = source.random()
    if kind < 0.6:
        return "exit 0"
    if kind < 0.9:
        return f"exit {source.randrange(1, 256)}"
    return "kill -9 $$"


def made_round(folder, source):
    """Writes the files of a DAG, and answers the options with which it is run."""
    count = source.randrange(1, 9)
    names = source.sample(["A", "B-1", "c_2", "Fit", "Plot17", "x", "Über", "node<&>\"'"], count)
    lines = []
    for place, name in enumerate(names):
        write(folder, f"{place}.sh", f"echo out of {place}; echo 'error <of> {place}' >&2; {script_of(source)}\n")
        streams = f"output = {place}.out\nerror = {place}.err\n" if source.random() < 0.5 else ""
        write(folder, f"{place}.sub", f"executable = /bin/sh\narguments = {place}.sh\n{streams}queue\n")
        lines.append(f"JOB {name} {place}.sub")
        for word in ("PRE", "POST"):
            if source.random() < 0.2:
                write(folder, f"{place}.{word}.sh", script_of(source) + "\n")
                lines.append(f"SCRIPT {word} {name} /bin/sh {place}.{word}.sh")
        if source.random() < 0.3:
            lines.append(f"RETRY {name} {source.randrange(1, 3)}")
        if place and source.random() < 0.7:
            lines.append(f"PARENT {source.choice(names[:place])} CHILD {name}")
    if source.random() < 0.3:
        write(folder, "f.sub", "executable = /bin/true\nqueue\n")
        lines.append("FINAL Last f.sub")
    write(folder, "x.dag", "\n".join(lines) + "\n")
    return source.choice([[], ["--maxjobs", "1"], ["--maxjobs", "2"], ["--always-run-post"]])


def states_in(text):
    """The lines `NAME STATE attempts=N value=V` of a text, as the objects of their nodes."""
    nodes = []
    for line in text.splitlines():
        words = line.rsplit(" ", 3)
        if len(words) == 4 and words[2].startswith("attempts="):
            value = words[3].removeprefix("value=")
            nodes.append({"name": words[0], "state": words[1], "attempts": int(words[2].removeprefix("attempts=")), "value": None if value == "-" else int(value)})
    return nodes


def object_in(text):
    """The one object of one line of an answer."""
    same(text.count("\n"), 1)
    return json.loads(text)


def statuses(program, folder, report):
    text, _, status = call(program, folder, "status", "x.dag")
    data, warned, code = call(program, folder, "status", "--json", "x.dag")
    same((object_in(data), warned, code), ({"dag": "x.dag", "nodes": states_in(text)}, "", status))
    # A round that has ended is not run again, and its report is as JSON what its status is.
    again = call(program, folder, "run", "--resume", "--json", "x.dag")
    same((again[0], again[2]), (data, report[2]))
    same(states_in(text), states_in(report[0]))
    return states_in(text)


def audits(program, folder):
    text, _, status = call(program, folder, "audit", "x.dag")
    data, _, code = call(program, folder, "audit", "--json", "x.dag")
    same(code, status)
    if status == 0:
        same(object_in(data), {"dag": "x.dag", "ok": True, "nodes": states_in(text)})
    else:
        same(object_in(data), {"dag": "x.dag", "ok": False, "cause": text.removeprefix("audit no ").rstrip("\n")})


def checks(program, folder):
    text, _, status = call(program, folder, "check", "x.dag")
    words = dict(word.split("=") for word in text.split()[1:])
    wanted = {"dag": "x.dag", "nodes": int(words["nodes"]), "edges": int(words["edges"]), "final": words["final"] == "yes"}
    for option in ([], ["--all"]):
        data, _, code = call(program, folder, "check", *option, "--json", "x.dag")
        same((object_in(data), code), (wanted, status))


def reasons(program, folder, states):
    text, _, status = call(program, folder, "why", "--all", "x.dag")
    data, _, code = call(program, folder, "why", "--json", "x.dag")
    same(code, status)
    found = object_in(data)
    same(found["dag"], "x.dag")
    # The nodes in error are those of the text, in its order, each with what its status says.
    heads = [line.split(" ERROR: ")[0] for line in text.splitlines() if " ERROR: " in line and not line.startswith(" ")]
    by_name = {node["name"]: node for node in states}
    same([node["name"] for node in found["nodes"]], heads)
    same(sorted(heads), sorted(name for name, node in by_name.items() if node["state"] == "ERROR"))
    for node in found["nodes"]:
        same({key: node[key] for key in ("name", "state", "attempts", "value")}, by_name[node["name"]])
    # Those that are named are answered in their order, whatever their state.
    names = [node["name"] for node in reversed(states)]
    data, _, code = call(program, folder, "why", "--json", "x.dag", *names)
    same((code, [node["name"] for node in object_in(data)["nodes"]]), (0, names))


def times(program, folder):
    text, _, status = call(program, folder, "times", "x.dag")
    data, _, code = call(program, folder, "times", "--json", "x.dag")
    same(code, status)
    rows = [line.split("\t") for line in text.splitlines()[1:]]
    phases = object_in(data)["phases"]
    same([(p["node"], p["phase"], str(p["attempt"]), "*" if p["critical"] else "-") for p in phases], [(r[0], r[1], r[2], r[6]) for r in rows])
    same([(f"{p['begin_ms'] / 1000:.3f}", f"{p['ms'] / 1000:.3f}") for p in phases], [(r[3], r[4]) for r in rows])
    # A table of rounds counts the same phases.
    rounds, _, code = call(program, folder, "times", "--rounds", "x.dag")
    failed = [row for row in rows if row[5] not in ("exit 0", "killed", "lost", "runs")]
    same((code, [line.split("\t")[2:4] for line in rounds.splitlines()[1:]]), (0, [[str(len(rows)), str(len(failed))]]))
    summary, _, code = call(program, folder, "times", "--summary", "x.dag")
    same((code, summary.splitlines()[0] == "no phase was run"), (0, not rows))


def one_round(program, number):
    """Makes a round, runs it and compares what is said of it; answers what differs, or none."""
    source = random.Random(number)
    with tempfile.TemporaryDirectory() as folder:
        try:
            report = call(program, folder, "run", *made_round(folder, source), "x.dag")
            same(report[1], "")
            states = statuses(program, folder, report)
            audits(program, folder)
            checks(program, folder)
            reasons(program, folder, states)
            times(program, folder)
        except (Failed, OSError, ValueError, KeyError, IndexError, subprocess.SubprocessError) as fault:
            return f"round {number}: {type(fault).__name__} {fault}"
    return None


def without_a_round(program):
    """What the commands say as JSON where there is no round, and of a DAG file that is refused."""
    with tempfile.TemporaryDirectory() as folder:
        try:
            version = call(program, folder, "version")[0]
            same(object_in(call(program, folder, "version", "--json")[0]), {"version": version.removeprefix("dagrun ").rstrip("\n")})
            write(folder, "x.dag", "JOB A a.sub\n")
            write(folder, "a.sub", "executable = /bin/true\nqueue\n")
            same(object_in(call(program, folder, "why", "--json", "x.dag")[0]), {"dag": "x.dag", "nodes": []})
            same(object_in(call(program, folder, "audit", "--json", "x.dag")[0]), {"dag": "x.dag", "ok": False, "cause": "F1 NotAJournal"})
            write(folder, "x.dag", "FOO\n")
            for command in ("check", "status", "audit", "why", "run"):
                same(call(program, folder, command, "--json", "x.dag"), call(program, folder, command, "x.dag"))
        except (Failed, OSError, ValueError, KeyError, subprocess.SubprocessError) as fault:
            return f"without a round: {type(fault).__name__} {fault}"
    return None


def main():
    program = os.path.realpath(sys.argv[1])
    rounds = int(sys.argv[2]) if len(sys.argv) > 2 else 300
    with concurrent.futures.ThreadPoolExecutor(4) as pool:
        answers = list(pool.map(lambda number: one_round(program, number), range(rounds))) + [without_a_round(program)]
    faults = [answer for answer in answers if answer]
    for fault in faults:
        print("FAILED", fault)
    print(f"{len(answers) - len(faults)} passed, {len(faults)} failed")
    sys.exit(1 if faults else 0)


if __name__ == "__main__":
    main()
