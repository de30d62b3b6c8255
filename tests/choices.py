#!/usr/bin/env python3
"""Reads from the journals of rounds that are made at random whether each phase was the one to be launched: choices.py PROGRAM [ROUNDS]

Each round has up to 40 nodes with parents, priorities, categories, scripts and retries as they come, under limits. A model of these rules alone
goes over the records: a launch has to be of the phase whose node has the greatest priority, and of these the first in the DAG file, among those
that may be launched and that no limit holds; and when phases were launched, none of those may be left before the next ending. The last line is
'N passed, M failed'."""

import concurrent.futures
import os
import random
import subprocess
import sys
import tempfile

from journals import END, LAUNCH, is_finished, records_in

PATIENCE = 300
PRE, JOB, POST = 1, 2, 3
# How many launches are recorded together at most.
BATCH = 64


class Node:
    """What the DAG file says of a node, and where it is."""

    def __init__(self, source, place):
        self.place = place
        self.fails = source.random() < 0.15
        self.phases = [PRE] * (source.random() < 0.25) + [JOB] + [POST] * (source.random() < 0.25)
        self.priority = source.randrange(-2, 3)
        self.retries = source.choice([0, 0, 0, 1, 2])
        self.category = source.choice([None, None, 0, 1, 2])
        self.parents = [other for other in range(place) if source.random() < 1.5 / (place + 1)]
        self.attempt, self.ended, self.runs, self.done, self.value = 0, 0, False, False, 0

    def lines(self):
        name = f"N{self.place}"
        yield f"JOB {name} {'bad' if self.fails else 'good'}.sub"
        for phase, word in ((PRE, "PRE"), (POST, "POST")):
            if phase in self.phases:
                yield f"SCRIPT {word} {name} /bin/true"
        if self.priority:
            yield f"PRIORITY {name} {self.priority}"
        if self.retries:
            yield f"RETRY {name} {self.retries}"
        if self.category is not None:
            yield f"CATEGORY {name} c{self.category}"
        for parent in self.parents:
            yield f"PARENT N{parent} CHILD {name}"

    def next(self):
        """The key of the phase that comes next, where one does."""
        if self.done or self.attempt > self.retries:
            return None
        return (self.place, self.attempt, self.phases[self.ended])

    def end(self, value):
        self.runs, self.value, self.ended = False, value, self.ended + 1
        if self.ended == len(self.phases):
            self.done = value == 0
            self.attempt, self.ended = self.attempt + 1, 0


class Limits:
    """Limits of kinds, of which 0 is none, and of categories, of which some have none."""

    def __init__(self, source):
        self.of_kind = {PRE: source.choice([0, 1, 2]), JOB: source.choice([0, 1, 2, 3, 5]), POST: source.choice([0, 1, 2])}
        self.of_category = {category: source.choice([1, 2]) for category in range(3) if source.random() < 0.8}

    def words(self):
        for phase, option in ((PRE, "--maxpre"), (JOB, "--maxjobs"), (POST, "--maxpost")):
            yield from (option, str(self.of_kind[phase]))

    def lets_in(self, nodes, node, phase):
        running = [other for other in nodes if other.runs]
        alike = [other for other in running if other.next()[2] == phase]
        limit = self.of_kind[phase]
        if limit and len(alike) >= limit:
            return False
        limit = self.of_category.get(node.category, 0)
        return phase != JOB or not limit or sum(other.category == node.category for other in alike) < limit


def chosen(nodes, limits):
    """The key that is to be launched, where one may be."""
    best = None
    for node in nodes:
        key = node.next()
        if key is None or node.runs or not all(nodes[parent].done for parent in node.parents):
            continue
        if limits.lets_in(nodes, node, key[2]) and (best is None or node.priority > best.priority):
            best = node
    return best and best.next()


def fault_in(records, nodes, limits):
    """What is wrong with these records, or none."""
    launched = 0
    for number, (kind, key, value) in enumerate(records):
        if kind == LAUNCH:
            wanted = chosen(nodes, limits)
            if key != wanted:
                return f"record {number} launches {key}, and not {wanted}"
            nodes[key[0]].runs, launched = True, launched + 1
        elif kind == END:
            left = chosen(nodes, limits)
            if 0 < launched < BATCH and left is not None:
                return f"record {number} is an ending, and {left} was to be launched"
            nodes[key[0]].end(value)
            launched = 0
    if not is_finished(records):
        return "the run has not ended"
    return None


def one_round(program, number):
    source = random.Random(number)
    nodes = [Node(source, place) for place in range(source.choice([2, 5, 12, 25, 40]))]
    limits = Limits(source)
    with tempfile.TemporaryDirectory() as folder:
        for name, command in (("good", "/bin/true"), ("bad", "/bin/false")):
            with open(os.path.join(folder, f"{name}.sub"), "w") as file:
                file.write(f"executable = {command}\nqueue\n")
        lines = [line for node in nodes for line in node.lines()]
        lines += [f"MAXJOBS c{category} {limit}" for category, limit in limits.of_category.items()]
        with open(os.path.join(folder, "x.dag"), "w") as file:
            file.write("\n".join(lines) + "\n")
        done = subprocess.run([program, "run", *limits.words(), "x.dag"], cwd=folder, capture_output=True, timeout=PATIENCE)
        fault = done.stderr.decode() or fault_in(records_in(folder), nodes, limits)
    return f"round {number}: {fault}" if fault else None


def main():
    program = os.path.realpath(sys.argv[1])
    rounds = int(sys.argv[2]) if len(sys.argv) > 2 else 150
    with concurrent.futures.ThreadPoolExecutor(4) as pool:
        answers = list(pool.map(lambda number: one_round(program, number), range(rounds)))
    faults = [answer for answer in answers if answer]
    for fault in faults:
        print("FAILED", fault)
    print(f"{len(answers) - len(faults)} passed, {len(faults)} failed")
    sys.exit(1 if faults else 0)


if __name__ == "__main__":
    main()
