#!/usr/bin/env python3
"""Runs what pages of docs show, and compares every line of it.

    tests/transcripts.py PROGRAM [WORD]     WORD: only the cases whose heading holds it

In these pages a block behind a line that ends with a name in backquotes and a colon is that file, and a block that begins with '$ ' is a
transcript: the lines behind '$ ' are called in bash, one after the other, and what stands below each is what it prints, on
standard output and standard error. A heading, and a paragraph that begins with Before or After, begins a case in a folder of its
own, which has the files that stand above the first heading of the page. The last line is 'N passed, M failed'."""
import os
import re
import subprocess
import sys
import tempfile

TOP = os.path.realpath(os.path.join(os.path.dirname(__file__), ".."))
# The pages, and of a page that has other blocks too the headings of the cases.
PAGES = {
    "README.md": ["Your own"],
    "docs/FROM_DAGMAN.md": None,
    "docs/FROM_MAKE.md": None,
    "docs/MANUAL.md": ["Stopping without killing", "Rounds before: --rounds", "A page to look at: report", "Data for other programs", "Why a node failed", "A picture of the graph", "One box for nodes of one shape", "A workflow that grows", "A round whose files were changed", "What a fault says", "What is odd in files"],
    "docs/TO_HTCONDOR.md": ["What check --condor reports"],
}


class Case:
    def __init__(self, name, shared):
        self.name = name
        self.files = dict(shared)
        self.transcripts = []


def paragraphs(text):
    """The paragraphs and blocks of a page: lists of lines without blank lines in between, a block's lines without their indent."""
    found = []
    for line in text.split("\n"):
        block = line.startswith("    ")
        if block and found and found[-1][0] == "block" and found[-1][2]:
            found[-1][1].append(line[4:])
        elif not line.strip():
            if found and found[-1][0] == "text":
                found.append(("gap", [], False))
            elif found and found[-1][0] == "block":
                found[-1][1].append("")
        elif block:
            found.append(("block", [line[4:]], True))
        elif found and found[-1][0] == "text":
            found[-1][1].append(line)
        else:
            found.append(("text", [line], False))
    return [(kind, "\n".join(lines).rstrip("\n")) for kind, lines, _ in found if kind != "gap"]


def cases_of(text):
    heading, case = "", Case("", {})
    shared = case.files
    cases = [case]
    label = None
    for kind, words in paragraphs(text):
        if kind == "text":
            label = re.search(r"`([^`\s]+)`:$", words)
            if words.startswith("##"):
                heading = words.lstrip("# ")
                cases.append(Case(heading, shared))
            elif re.match("(Before|After)\\b", words):
                cases.append(Case(f"{heading}, {words.split()[0].strip(',:').lower()}", shared))
        elif words.startswith("$ "):
            cases[-1].transcripts.append(words)
        elif label:
            cases[-1].files[label[1]] = words + "\n"
            label = None
    return [case for case in cases if case.transcripts]


def run(case, program, folder):
    for name, text in case.files.items():
        path = os.path.join(folder, name)
        os.makedirs(os.path.dirname(path), exist_ok=True)
        with open(path, "w") as file:
            file.write(text)
        if text.startswith("#!"):
            os.chmod(path, 0o755)
    settings = dict(os.environ, PATH=f"{os.path.dirname(program)}:{TOP}/packaging:{os.environ['PATH']}", LC_ALL="C")
    for transcript in case.transcripts:
        found = []
        for command in re.findall(r"^\$ (.*)$", transcript, re.M):
            found.append("$ " + command)
            done = subprocess.run(
                ["bash", "-c", command], cwd=folder, env=settings, text=True, timeout=600,
                stdin=subprocess.DEVNULL, stdout=subprocess.PIPE, stderr=subprocess.STDOUT,
            )
            found.append(done.stdout.rstrip("\n"))
        found = "\n".join(part for part in found if part)
        if re.sub("\n+", "\n", found) != re.sub("\n+", "\n", transcript):
            raise AssertionError(f"found\n{found}\nwanted\n{transcript}")


def main():
    program = os.path.realpath(sys.argv[1])
    passed = failed = 0
    for page, headings in PAGES.items():
        with open(os.path.join(TOP, page)) as file:
            cases = [case for case in cases_of(file.read()) if headings is None or case.name in headings]
        for case in cases:
            if len(sys.argv) > 2 and sys.argv[2] not in case.name:
                continue
            with tempfile.TemporaryDirectory() as folder:
                try:
                    run(case, program, folder)
                    passed += 1
                except (AssertionError, OSError, subprocess.SubprocessError) as fault:
                    failed += 1
                    print(f"FAILED {page}, {case.name}: {fault}")
    print(f"{passed} passed, {failed} failed")
    sys.exit(1 if failed else 0)


if __name__ == "__main__":
    main()
