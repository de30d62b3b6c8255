"""Rows that are too large or too regular to be written out."""

GOOD = b"executable = x\nqueue\n"


def checked(dag, beside=None):
    return {"t.dag": dag, "a": GOOD, "j": GOOD, **(beside or {})}, ["check", "t.dag"]


def counted(nodes, final="no"):
    return f"ok nodes={nodes} edges=0 final={final}\\n"


def control_characters():
    """Each byte in a comment: control characters but the tab and the line's end are no text, nor is a byte from 128 on alone."""
    for byte in range(256):
        is_text = byte in b"\t\n" or 32 <= byte < 127
        yield {"-": b"#" + bytes([byte]) + b"#"}, ["check", "-"], "ok" if is_text else "L1 NotText -:1:2"


def lengths():
    """Names of 255 bytes and lines of 65,536 are the longest; a CR before the line's end does not count."""
    for front, count, back, answer in [
        ("JOB ", 255, " a", "ok"),
        ("JOB ", 256, " a", "L6 BadName t.dag:1:5"),
        ("JOB \u00e9", 254, " a", "L6 BadName t.dag:1:5"),
        ("MAXJOBS ", 255, " 1", "ok"),
        ("JOB A a\nCATEGORY A ", 256, "", "L6 BadName t.dag:2:12"),
        ("MAXJOBS ", 256, " 0", "L6 BadName t.dag:1:9"),
        ("JOB A ", 65_530, "\r\n", f"P1 MissingFile {'x' * 65_530}"),
        ("JOB A ", 65_531, "\r\n", "L9 TooLong t.dag:1:65537"),
        ("#", 65_535, "", "ok"),
        ("\n#", 65_536, "\nFOO", "L9 TooLong t.dag:2:65537"),
        ("\u0001", 65_536, "", "L9 TooLong t.dag:1:65537"),
        ("FOO \\", 65_532, "\\", "L9 TooLong t.dag:1:65537"),
    ]:
        yield *checked((front + "x" * count + back).encode()), answer


def numbers_of_nodes():
    """At most 65,536 nodes, FINAL among them, and 4,096 splices that are opened; a name that stands twice is told first."""
    for jobs, splices, last, answer in [
        (4_097, 0, "", counted(4_097)),
        (65_536, 0, "", counted(65_536)),
        (65_537, 0, "", "S7 TooManyNodes"),
        (65_535, 0, "FINAL F a", counted(65_535, "yes")),
        (65_536, 0, "FINAL F a", "S7 TooManyNodes"),
        (65_535, 0, "SPLICE Y job.dag", counted(65_536)),
        (65_536, 0, "SPLICE Y job.dag", "S7 TooManyNodes"),
        (65_537, 0, "JOB J0 j", "S4 DuplicateName t.dag:65538:5"),
        (0, 4_096, "", counted(0)),
        (0, 4_097, "", "S7 TooManyNodes"),
        (61_440, 4_096, "", counted(61_440)),
        (61_440, 4_097, "", "S7 TooManyNodes"),
    ]:
        lines = [f"JOB J{it} j\n" for it in range(jobs)] + [f"SPLICE S{it} empty.dag\n" for it in range(splices)]
        yield *checked("".join([*lines, last]).encode(), {"empty.dag": b"", "job.dag": b"JOB A a\n"}), answer


def depths():
    """Files that each splice the next so often, and the last one's text. The top file has depth 0, and 32 is the greatest. Where
    each of 12 files but the last splices the next twice, 2 + 4 + .. + 2,048 = 4,094 splices are opened."""
    for count, times, last, answer in [
        (33, 1, "JOB A a\n", counted(1)),
        (34, 1, "JOB A a\n", "S6 TooDeep f33.dag"),
        (33, 1, "SPLICE S f33.dag\n", "S6 TooDeep f33.dag"),
        (32, 1, "SPLICE S f33.dag\n", "S1 MissingFile f33.dag"),
        (33, 1, "SPLICE S f30.dag\n", "S3 Loop f30.dag f31.dag f32.dag"),
        (12, 2, "", counted(0)),
        (12, 2, "JOB A a\n", counted(2_048)),
        (13, 2, "", "S7 TooManyNodes"),
    ]:
        files = {"a": GOOD, f"f{count - 1}.dag": last.encode()}
        for place in range(1, count):
            files[f"f{place - 1}.dag"] = "".join(f"SPLICE S{it} f{place}.dag\n" for it in range(times)).encode()
        yield files, ["check", "f0.dag"], answer


def order_of_commands():
    """The first of two names whose texts can't be expanded is told, whatever the order of their lines."""
    names = ["universe", "executable", "arguments", "input", "output", "error", "initialdir", "environment"]
    for first, second in zip(names, names[1:]):
        submit = f"executable = x\n{second} = $(\n{first} = $()\nqueue\n"
        yield {"x.dag": b"JOB A a.sub\n", "a.sub": submit.encode()}, ["check", "x.dag"], "V5 BadReference A"


def longest_expansions():
    """A text of 65,536 bytes is the longest, for the greatest numbers: those of the last retry, and a launch number of 20 digits."""
    for count, reference, retries, answer in [
        (65_536, "", 0, "ok"),
        (65_537, "", 0, "V3 TooLong A"),
        (65_535, "$(RETRY)", 9, "ok"),
        (65_535, "$(RETRY)", 10, "V3 TooLong A"),
        (65_516, "$(Cluster)", 0, "ok"),
        (65_517, "$(Cluster)", 0, "V3 TooLong A"),
    ]:
        dag = f"JOB A a.sub\nRETRY A {retries}\n"
        submit = f"executable = x\narguments = {'x' * count}{reference}\nqueue\n"
        yield {"x.dag": dag.encode(), "a.sub": submit.encode()}, ["check", "x.dag"], answer


def tables():
    """A line of 65,536 bytes is the longest in a table too, and each of 6,000 lines is found."""
    words = ["rehearse", "x.dag", "table"]
    for count, answer in [(65_536, "A ERROR attempts=1 value=1\\n.."), (65_537, "N3 BadLine 1")]:
        yield {"x.dag": b"JOB A a\n", "table": b"#" * count + b"\r\nA 0 JOB 1"}, words, answer
    nodes = range(600)
    dag = "".join(f"JOB n{it} a\n" for it in nodes)
    table = "".join(f"n{it} {attempt} JOB {(it + attempt) % 255 + 1}\n" for it in nodes for attempt in range(10))
    report = "".join(f"n{it} ERROR attempts=10 value={(it + 9) % 255 + 1}\\n" for it in nodes)
    yield {"x.dag": (dag + "RETRY ALL_NODES 9\n").encode(), "table": table.encode()}, words, report + "result 1\\n.."


def many_records():
    """A rehearsal of 1,200,008 records, more than 2 to the power of 20: Life, six of each attempt, and Finish."""
    last = 200_000
    dag = f"JOB A a\nSCRIPT PRE A p\nSCRIPT POST A q\nRETRY A {last}\n"
    table = "".join(f"A {attempt} POST 1\n" for attempt in range(last + 1))
    answer = f"A ERROR attempts={last + 1} value=1\\nresult 1\\n.."
    yield {"x.dag": dag.encode(), "table": table.encode()}, ["rehearse", "x.dag", "table"], answer


def rows():
    for group in [control_characters, lengths, numbers_of_nodes, depths, order_of_commands, longest_expansions, tables, many_records]:
        yield from group()
