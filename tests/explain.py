#!/usr/bin/env python3
"""Compares what `dagrun explain` says with docs/MANUAL.md and the sources, and runs its examples: explain.py PROGRAM

Each row of the table in "Faults" of the manual is a line of `dagrun explain`, in the same order, and no other fault is told. Each code
that stands in the sources is explained, by the name that it has there. In the example of a page a line `$ cat FILE` is followed by
what the file is to hold; the lines behind any other `$ ` are called in bash, in a folder of their own, and what stands below each is
what it prints. The last line is 'N passed, M failed'."""

import glob
import os
import re
import subprocess
import sys
import tempfile

TOP = os.path.realpath(os.path.join(os.path.dirname(__file__), ".."))
# A code and a name as a fault is displayed, behind `#[error("` or `write!(f, "`.
DISPLAYED = re.compile(r'(?:error\(|write!\(f, )"([A-Z]\d+) ([A-Z][A-Za-z]+)')
# A fault of the limits that no command displays: its code is that of a halt, too (docs/DECISIONS.md).
OTHER = ("H1", "Full")
# What a row of the manual's table says of a detail that is a place.
PLACE = "FILE:LINE:COLUMN"


def called(program, *words):
    done = subprocess.run([program, *words], capture_output=True, text=True, timeout=300, stdin=subprocess.DEVNULL)
    if done.stderr or done.returncode:
        raise AssertionError(f"{' '.join(words)}: status {done.returncode}, {done.stderr!r}")
    return done.stdout


def same(found, wanted):
    if found != wanted:
        raise AssertionError(f"found\n{found}\nwanted\n{wanted}")


def manual():
    """The rows of the manual's table: code, name, when, detail."""
    text = open(f"{TOP}/docs/MANUAL.md").read()
    table = text.split("\n## Faults\n")[1].split("| Code |")[1].split("\n\n")[0]
    return [[cell.strip() for cell in line.strip("|").split(" | ")] for line in table.splitlines()[2:]]


def listed(program):
    """The faults of the list: code, name, when."""
    return [re.fullmatch(r"(\w+) (\w+): (.*)", line).groups() for line in called(program, "explain").splitlines()]


def is_told(program, code):
    page = called(program, "explain", code)
    return "no command tells it" not in page and "It is reported as" not in page


def the_manual_has_them(program):
    told = [row for row in listed(program) if is_told(program, row[0])]
    rows = manual()
    same(told, [(code, name, when) for code, name, when, *_ in rows])
    for code, name, _, *detail in rows:
        first = called(program, "explain", code.lower()).splitlines()[0]
        behind = first.removeprefix(f"{code} {name}").strip()
        detail = detail[0] if detail else ""
        same((code, bool(behind), behind == PLACE), (code, bool(detail), detail.startswith("place")))


def the_sources_have_them(program):
    names = {code: name for code, name, _ in listed(program)}
    same(len(names), len(listed(program)))
    found = set()
    for path in glob.glob(f"{TOP}/crates/*/src/*.rt"):
        found.update(DISPLAYED.findall(open(path, encoding="utf-8").read()))
    same(sorted(found - set(names.items())), [OTHER])


def example_of(program, code):
    """The lines of a page's example."""
    parts = re.split(r"\n(Example|What to do):\n", called(program, "explain", code))
    text = parts[parts.index("Example") + 1] if "Example" in parts else ""
    return [line.removeprefix("    ") for line in text.splitlines()]


def example_runs(program, code):
    lines = example_of(program, code)
    settings = dict(os.environ, PATH=f"{os.path.dirname(program)}:{os.environ['PATH']}", LC_ALL="C.UTF-8")
    with tempfile.TemporaryDirectory() as folder:
        place = 0
        while place < len(lines):
            command = lines[place].removeprefix("$ ")
            behind = next((k for k in range(place + 1, len(lines)) if lines[k].startswith("$ ")), len(lines))
            shown = "".join(line + "\n" for line in lines[place + 1 : behind])
            if command.startswith("cat "):
                with open(os.path.join(folder, command.removeprefix("cat ")), "w") as file:
                    file.write(shown)
            else:
                done = subprocess.run(
                    ["bash", "-c", command], cwd=folder, env=settings, text=True, timeout=300,
                    stdin=subprocess.DEVNULL, stdout=subprocess.PIPE, stderr=subprocess.STDOUT,
                )
                same(f"$ {command}\n{done.stdout}", f"$ {command}\n{shown}")
                if shown.startswith("dagrun: ") and not shown.startswith(f"dagrun: {code} "):
                    raise AssertionError(f"the example of {code} is of another fault: {shown}")
            place = behind


def unknown_codes(program):
    for words in (["L99"], [""], ["L"], ["L1", "L2"], ["l1 "]):
        done = subprocess.run([program, "explain", *words], capture_output=True, text=True, timeout=300)
        same((words, done.stdout, done.stderr.startswith("error: "), done.returncode), (words, "", True, 125))


def main():
    program = os.path.realpath(sys.argv[1])
    rows = [(row.__name__, row) for row in (the_manual_has_them, the_sources_have_them, unknown_codes)]
    codes = [code for code, *_ in listed(program) if example_of(program, code)]
    rows += [(code, lambda program, code=code: example_runs(program, code)) for code in codes]
    passed = failed = 0
    for name, row in rows:
        try:
            row(program)
            passed += 1
        except (AssertionError, OSError, subprocess.SubprocessError) as fault:
            failed += 1
            print(f"FAILED {name}: {fault}")
    print(f"{passed} passed, {failed} failed")
    sys.exit(1 if failed else 0)


if __name__ == "__main__":
    main()
