#!/usr/bin/env python3
"""Runs the rows of tests/rows over the built program: rows.py PROGRAM [FILE..]

A file of rows, NAME.rows, has one row a line, TEXT => ANSWER, and between the rows lines that say what is done with a text:

    # ..              a comment; so is an empty line
    $ WORDS           the command: dagrun is called with these words, and TEXT is its standard input
    < PATH            TEXT is written into this file instead; with no path it is standard input again
    -- PATH: TEXT     this file lies there too, for the rows that follow; a $ line takes away all that lay there before

In texts and answers `\\n`, `\\t`, `\\r`, `\\\\` and `\\xNN` (a byte) stand for what can't be seen. An answer is one of

    CODE Name detail  the fault: one line `dagrun: CODE Name detail` on standard error, no output, status 125
    ok                no line on standard error, status 0, whatever is printed
    ! W; W            the warnings `warning: W` on standard error, in this order, and no fault
    TEXT              what is printed, no line on standard error, and the status that a line `result N` says, else 0;
                      where it ends in `..`, the beginning of what is printed

A file NAME.py has a function `rows` that yields what is too large or too regular to be written out: tuples of the files,
as a dict of bytes by path, the words, and the answer.
"""

import os
import re
import runpy
import subprocess
import sys
import tempfile

ESCAPE = re.compile(rb"\\(n|t|r|\\|x[0-9a-f]{2})")
PLAIN = {b"n": b"\n", b"t": b"\t", b"r": b"\r", b"\\": b"\\"}


def bytes_of(text):
    """The bytes that a text of a row stands for."""
    return ESCAPE.sub(lambda it: PLAIN.get(it[1]) or bytes([int(it[1][1:], 16)]), text.encode())


def written(path):
    """The rows of a file of rows: files, words and answer of each."""
    beside, words, into = {}, [], "-"
    for number, line in enumerate(open(path, encoding="utf-8").read().split("\n"), 1):
        if not line or line.startswith("#"):
            continue
        if line.startswith("$ "):
            beside, words, into = {}, line[2:].split(), "-"
        elif line == "<" or line.startswith("< "):
            into = line[2:] or "-"
        elif line.startswith("-- "):
            name, _, text = line[3:].partition(":")
            beside = {**beside, name: bytes_of(text[1:])}
        else:
            text, found, answer = line.partition(" => ") if " => " in line else ("", line[:3], line[3:])
            if found not in (" => ", "=> "):
                sys.exit(f"{path}:{number}: no row")
            yield {**beside, into: bytes_of(text)}, words, answer


def ran(program, files, words):
    """What the program prints, what it says on standard error, and its status."""
    with tempfile.TemporaryDirectory() as room:
        for name, text in files.items():
            if name != "-":
                os.makedirs(os.path.dirname(os.path.join(room, name)), exist_ok=True)
                with open(os.path.join(room, name), "wb") as it:
                    it.write(text)
        how = {"input": files.get("-", b""), "capture_output": True, "cwd": room, "timeout": 300}
        done = subprocess.run([program, *words], **how)
    return done.stdout, done.stderr.decode(errors="replace"), done.returncode


def is_met(answer, output, error, status):
    if re.match(r"[A-Z][0-9]+ [A-Z]", answer):
        return (output, error, status) == (b"", f"dagrun: {answer}\n", 125)
    if answer.startswith("! "):
        warnings = "".join(f"warning: {it}\n" for it in answer[2:].split("; "))
        return error == warnings and status != 125
    if error:
        return False
    if answer == "ok":
        return status == 0
    result = re.search(rb"^result ([0-9]+)$", output, re.M)
    due = bytes_of(answer.removesuffix(".."))
    whole = output.startswith(due) if answer.endswith("..") else output == due
    return whole and status == (int(result[1]) if result else 0)


def main(program, *paths):
    program = os.path.abspath(program)
    folder = os.path.join(os.path.dirname(os.path.abspath(__file__)), "rows")
    paths = paths or sorted(os.path.join(folder, it) for it in os.listdir(folder) if it.endswith((".rows", ".py")))
    passed = failed = 0
    for path in paths:
        rows = runpy.run_path(path)["rows"]() if path.endswith(".py") else written(path)
        for files, words, answer in rows:
            output, error, status = ran(program, files, words)
            if is_met(answer, output, error, status):
                passed += 1
                continue
            failed += 1
            shown = {name: text[:200] for name, text in files.items()}
            print(f"FAILED {path}: {shown} {words}\n  due {answer!r}\n  printed {output[:400]!r}\n  said {error[:400]!r}, status {status}")
    print(f"{passed} passed, {failed} failed")
    return failed != 0 or passed == 0


if __name__ == "__main__":
    sys.exit(main(*sys.argv[1:]))
