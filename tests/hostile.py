#!/usr/bin/env python3
"""Hands the program input that is cut, changed, nested or doubled beyond all measure, and looks at what it says.

    tests/hostile.py PROGRAM [WORD]     WORD: only the rows whose name holds it

Each call ends within ten seconds with its answer, or with one line that names the fault and status 125. Values are worked out by
hand from the rules in docs/MANUAL.md. The last line is 'N passed, M failed'."""
import os
import re
import subprocess
import sys
import tempfile

from runs import HEADER, SLOT, Folder, refused, same

TILES = {
    "t.dag": "JOB S s.sub\nSPLICE Y in.dag\nSPLICE Z in.dag DIR z\nJOB E e.sub\nPARENT S CHILD Y\nPARENT Y CHILD Z\nPARENT Z CHILD E\n",
    "in.dag": "JOB A a.sub\nJOB B b.sub\nSPLICE X leaf.dag\nPARENT A CHILD B X\n",
    "leaf.dag": "JOB L l.sub\n",
}
WORDS = "executable = /bin/echo\narguments = \"one 'it''s ok' \"\"x\"\" $(who) $(none:d)\"\nqueue\n"
FAULT = re.compile(r"dagrun: (L[1-9]|S1?[0-9]|G1|U[1-5]|V[1-5]|P[1-6]) [A-Z][A-Za-z]+( [^\n]+)?\n")


def named_or_ok(folder, top):
    """A check of this file answers, or names one fault."""
    report, told, status = folder.call("check", top)
    well = status == 0 and re.fullmatch(r"ok nodes=\d+ edges=\d+ final=(yes|no)\n", report) and told == ""
    if not well and not (status == 125 and report == "" and FAULT.fullmatch(told)):
        raise AssertionError(f"{top}: status {status}, it prints {report!r} and tells {told!r}")
    return status


def make_tiles(folder):
    os.mkdir(folder.at("z"))
    for name in ("in.dag", "leaf.dag"):
        folder.write(f"z/{name}", TILES[name])
    for name in ("s", "e", "a", "b", "l", "z/a", "z/b", "z/l"):
        folder.write(f"{name}.sub", "executable = /bin/true\nqueue\n")
    for name, text in TILES.items():
        folder.write(name, text)


def cut_at_each_byte(folder):
    make_tiles(folder)
    for name in ("t.dag", "in.dag"):
        text = TILES[name]
        for length in range(len(text)):
            folder.write(name, text[:length])
            named_or_ok(folder, "t.dag")
        folder.write(name, text)
        same(folder.call("check", "t.dag"), ("ok nodes=8 edges=9 final=no\n", "", 0))
    folder.write("x.dag", 'JOB A x.sub\nVARS A msg="say \\"hi\\"" who="$(JOB)-$(RETRY)"\n')
    for length in range(len(WORDS)):
        folder.write("x.sub", WORDS[:length])
        # Without its last line the file queues nothing.
        same(named_or_ok(folder, "x.dag"), 0 if length == len(WORDS) - 1 else 125)
    folder.write("x.sub", WORDS)
    same(folder.call("check", "x.dag"), ("ok nodes=1 edges=0 final=no\n", "", 0))


def each_byte_changed(folder):
    make_tiles(folder)
    text = TILES["t.dag"].encode()
    for at in range(len(text)):
        for byte in (0, 9, 10, 13, 32, 34, 46, 92, 128, 255):
            folder.write("t.dag", text[:at] + bytes([byte]) + text[at + 1 :])
            named_or_ok(folder, "t.dag")


def no_text(folder):
    folder.write("x.dag", bytes(range(256)) * 256)
    refused(folder, ("check", "x.dag"), "L1 NotText x.dag:1:1")
    folder.write("x.dag", b"JOB A \xff.sub\n")
    refused(folder, ("check", "x.dag"), "L1 NotText x.dag:1:7")
    folder.write("x.dag", b"#" + b"a" * 65535 + b"\n")
    same(folder.call("check", "x.dag"), ("ok nodes=0 edges=0 final=no\n", "", 0))
    folder.write("x.dag", b"#" + b"a" * 65536 + b"\n")
    refused(folder, ("check", "x.dag"), "L9 TooLong x.dag:1:65537")


def a_chain_of_files(folder):
    """A file may lie in 32 others, and no deeper."""
    for number in range(32):
        folder.write(f"f{number}.dag", f"SPLICE S f{number + 1}.dag\n")
    folder.write("f32.dag", "")
    same(folder.call("check", "f0.dag"), ("ok nodes=0 edges=0 final=no\n", "", 0))
    folder.write("f32.dag", "SPLICE S f33.dag\n")
    refused(folder, ("check", "f0.dag"), "S6 TooDeep f33.dag")
    folder.write("f33.dag", "")
    refused(folder, ("check", "f0.dag"), "S6 TooDeep f33.dag")


def files_that_double(folder):
    """2 + 4 + .. + 2,048 splices are 4,094; one file more makes them 8,190."""
    for last, answer in ((11, None), (12, "S7 TooManyNodes")):
        for number in range(last):
            folder.write(f"g{number}.dag", f"SPLICE S g{number + 1}.dag\nSPLICE T g{number + 1}.dag\n")
        folder.write(f"g{last}.dag", "")
        if answer:
            refused(folder, ("check", "g0.dag"), answer)
        else:
            same(folder.call("check", "g0.dag"), ("ok nodes=0 edges=0 final=no\n", "", 0))


def macros_that_double(folder):
    """Each macro is the one before it twice: the fifteenth is 32,768 bytes of 65,535 references, and the sixteenth too many."""
    for first, last, fault in (("x", 15, None), ("x", 16, "V3 TooLong A"), ("", 16, "V3 TooLong A")):
        macros = [f'm0="{first}"'] + [f'm{number}="$(m{number - 1})$(m{number - 1})"' for number in range(1, last + 1)]
        folder.write("x.dag", f"JOB A a.sub\nVARS A {' '.join(macros)}\n")
        folder.write("a.sub", f"executable = /bin/echo\narguments = $(m{last})\noutput = out\nqueue\n")
        if fault:
            refused(folder, ("check", "x.dag"), fault)
        else:
            same(folder.call("run", "x.dag"), ("A DONE attempts=1 value=0\nresult 0\n", "", 0))
            same(folder.read("out"), b"x" * 32768 + b"\n")


def journals_that_were_changed(folder):
    folder.write("x.dag", "JOB A a.sub\nRETRY A 0\n")
    folder.shell("a", "exit 1\n")
    same(folder.call("run", "x.dag"), ("A ERROR attempts=1 value=1\nresult 1\n", "", 1))
    whole = folder.read("x.dag.journal")
    # Its bytes are those of docs/JOURNAL.md: Life, the launch and the end of A's job with 1, Finish with 1, and a closed gate.
    slots = ["4f01", "4f0202" + "00" * 20 + "01", "4f030201" + "00" * 11 + "01", "4f04" + "00" * 13 + "01"]
    wanted = b"".join(bytes.fromhex(slot).ljust(SLOT, b"\0") for slot in slots) + b"\0"
    same([whole[:8].hex(), whole[40:HEADER], whole[HEADER:]], ["4a02000000000001", bytes(24), wanted])

    def changed(at, *values):
        return whole[:at] + bytes(values) + whole[at + len(values) :]

    slot = [HEADER + SLOT * number for number in range(5)]
    finish = whole[slot[3] : slot[4]]
    for journal, fault in (
        (changed(1, 7), "J4 Version 7"),
        (changed(8, whole[8] ^ 1), "J5 OtherInputs"),
        (changed(40, 1), "J3 NotAJournal"),
        (whole[:10], "J3 NotAJournal"),
        (bytes(100), "J3 NotAJournal"),
        (changed(slot[1] + 8, 0, 0, 0, 5), "M2 Foreign 1"),
        (changed(slot[1] + 12, 0, 0, 0, 1), "J9 BadSlot 1"),
        (whole[: slot[4]] + finish + b"\0", "M2 Foreign 4"),
    ):
        folder.write("x.dag.journal", journal)
        refused(folder, ("status", "x.dag"), fault)
        same(folder.read("x.dag.journal"), journal)


ROWS = [
    cut_at_each_byte,
    each_byte_changed,
    no_text,
    a_chain_of_files,
    files_that_double,
    macros_that_double,
    journals_that_were_changed,
]


def main():
    program = os.path.realpath(sys.argv[1])
    rows = [row for row in ROWS if len(sys.argv) < 3 or sys.argv[2] in row.__name__]
    failed = 0
    for row in rows:
        with tempfile.TemporaryDirectory() as path:
            try:
                row(Folder(program, path))
            except (AssertionError, OSError, subprocess.SubprocessError) as fault:
                failed += 1
                print(f"FAILED {row.__name__}: {fault}")
    print(f"{len(rows) - failed} passed, {failed} failed")
    sys.exit(1 if failed else 0)


if __name__ == "__main__":
    main()
