#!/usr/bin/env python3
"""The first life of a run is a library's manager's over a file, and `run` goes on behind it: first_life.py PROGRAM CALLS

CALLS is crates/tests_memory. The last line is 'N passed, M failed'."""
import os
import subprocess
import sys
import tempfile

from journals import END, FINISH, LAUNCH, records_in

DAG = "JOB A a.sub\nJOB B b.sub\nJOB C c.sub\nJOB D d.sub\nPARENT A CHILD B C\nPARENT B C CHILD D\n"
REPORT = "".join(f"{name} DONE attempts=1 value=0\n" for name in "ABCD") + "result 0\n"
LIFE = 1


def called(folder, *words):
    done = subprocess.run(words, cwd=folder, capture_output=True, timeout=300)
    return done.stdout.decode(), done.stderr.decode(), done.returncode


def main(program, calls):
    program, calls = os.path.realpath(program), os.path.realpath(calls)
    with tempfile.TemporaryDirectory() as folder:
        files = {"x.dag": DAG, **{f"{it}.sub": f"executable = /bin/echo\narguments = {it}\noutput = {it}.out\nqueue\n" for it in "abcd"}}
        for name, text in files.items():
            with open(os.path.join(folder, name), "w") as file:
                file.write(text)
        first = called(folder, calls, "first_life")
        before = [kind for kind, _, _ in records_in(folder)]
        answer = called(folder, program, "run", "x.dag")
        records = records_in(folder)
        launched = sorted(node for kind, (node, _, _), _ in records[4:] if kind == LAUNCH)
        made = sorted(name for name in os.listdir(folder) if name.endswith(".out"))
    found = (first, before, answer, [records[4][0], records[-1][0]], launched, made)
    wanted = (
        ("launched 1 2, 4 records\n", "", 0), [LIFE, LAUNCH, END, LAUNCH], (REPORT, "", 0), [LIFE, FINISH], [1, 2, 3], ["b.out", "c.out", "d.out"],
    )
    if found != wanted:
        print(f"found {found}\nwanted {wanted}\n0 passed, 1 failed")
        return 1
    print("1 passed, 0 failed")
    return 0


if __name__ == "__main__":
    sys.exit(main(*sys.argv[1:]))
