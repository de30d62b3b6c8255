#!/usr/bin/env python3
"""Reads pages of `dagrun report` as a browser does, and compares them with `dagrun status`: report.py PROGRAM [WORD]

WORD: only the rows whose name has it. Python's html.parser reads each page. So a row says that a page is well formed, that names, commands and
outputs are texts in it and never tags, that it loads nothing, and that its rows and counts are those of `status`. The last line is 'N passed, M failed'."""

import os
import re
import shutil
import subprocess
import sys
import tempfile
import time
import urllib.parse
from html.parser import HTMLParser

# How many seconds it is waited for what comes at once on a machine that is not busy.
PATIENCE = 300

# Elements that have no end.
VOID = {"meta", "input", "path"}

# The elements that a page may have.
KNOWN = {
    "html", "head", "meta", "title", "style", "body", "h1", "h2", "p", "b", "ul", "li", "pre", "code", "div", "svg", "path", "rect", "text",
    "table", "thead", "tbody", "tr", "th", "td", "input", "select", "option", "span", "script", "a",
}

# The attributes that would load something, or run something. A link of a node may lead to a file of this machine.
LINK = re.compile(r"file://(/[A-Za-z0-9/._~%-]*)$")
FORBIDDEN = re.compile(r"^(src|href|xlink:href|action|srcset|data|poster|on.*)$")

# The files of a DAG whose names, words and outputs would be tags if they were written as they are.
ODD = {
    "x.dag": 'JOB <b>&"\' a.sub\nJOB B b.sub\nJOB C a.sub\nJOB D a.sub\nPARENT <b>&"\' CHILD B\nPARENT B CHILD C\n',
    "a.sub": "executable = /bin/true\narguments = \"<i>&amp;</i> '<script>alert(1)</script>'\"\noutput = <u>.out\nqueue\n",
    "b.sub": "executable = /bin/sh\narguments = \"b.sh\"\nerror = b.err\nqueue\n",
    "b.sh": "echo '<script>alert(2)</script>&lt;' >&2\nexit 3\n",
}


class Page(HTMLParser):
    """What a page has: its elements, its texts, the cells of its rows, and its faults."""

    def __init__(self, text):
        super().__init__(convert_charrefs=True)
        self.faults, self.open, self.rows, self.refresh, self.title = [], [], [], [], ""
        self.texts, self.words, self.links = {}, "", []
        self.feed(text)
        self.close()
        if self.open:
            self.faults.append(f"left open: {self.open}")

    def handle_starttag(self, tag, attributes):
        if tag not in KNOWN and not (tag == "title" and "svg" in self.open):
            self.faults.append(f"element {tag}")
        for name, value in attributes:
            if (tag, name) == ("a", "href") and LINK.match(value):
                self.links.append(urllib.parse.unquote(LINK.match(value)[1]))
            elif FORBIDDEN.match(name):
                self.faults.append(f"attribute {name} of {tag}")
            if name == "http-equiv" and value == "refresh":
                self.refresh.append(dict(attributes)["content"])
        if tag == "tr":
            self.rows.append((dict(attributes).get("class"), []))
        if tag == "td":
            self.rows[-1][1].append("")
        if tag not in VOID:
            self.open.append(tag)

    def handle_startendtag(self, tag, attributes):
        self.handle_starttag(tag, attributes)
        if tag not in VOID:
            self.handle_endtag(tag)

    def handle_endtag(self, tag):
        if not self.open or self.open[-1] != tag:
            self.faults.append(f"end of {tag} in {self.open[-3:]}")
        else:
            self.open.pop()

    def handle_data(self, data):
        if not self.open:
            return
        where = "title of the page" if self.open[-1] == "title" and "svg" not in self.open else self.open[-1]
        self.texts.setdefault(where, []).append(data)
        if "td" in self.open:
            self.rows[-1][1][-1] += data
        if "p" in self.open:
            self.words += data

    def handle_comment(self, data):
        self.faults.append("a comment")

    def all_of(self, tag):
        return "".join(self.texts.get(tag, []))

    def nodes(self):
        """The rows of nodes: the heads of the columns are in one without a class."""
        return [(kind, cells) for kind, cells in self.rows if kind is not None]


class Folder:
    """A folder with the files of a DAG."""

    def __init__(self, program, files):
        self.program, self.place = program, tempfile.TemporaryDirectory()
        for name, text in files.items():
            with open(os.path.join(self.place.name, name), "w", encoding="utf-8") as file:
                file.write(text)

    def call(self, *words):
        done = subprocess.run([self.program, *words], cwd=self.place.name, capture_output=True, timeout=PATIENCE)
        return done.returncode, done.stdout.decode(), done.stderr.decode()

    def page(self, *words):
        status, text, told = self.call("report", *words, "x.dag")
        if status != 0:
            raise AssertionError(f"report ended with {status}: {told}")
        page = Page(text)
        if page.faults:
            raise AssertionError(f"faults of the page: {page.faults[:5]}")
        return page


def same(what, got, wanted):
    if got != wanted:
        raise AssertionError(f"{what}: {got!r} in place of {wanted!r}")


def has(what, text, part):
    if part not in text:
        raise AssertionError(f"{what} lacks {part!r}")


LOOKS = {"DONE": "done", "ERROR": "error", "PRERUN": "run", "SUBMITTED": "run", "POSTRUN": "run", "READY": "ready", "NOT_READY": "wait"}


def rows_are_those_of_status(folder, page):
    """Name, state, attempts and value of each node, in the order in which `status` prints them; and the counts of the states."""
    status = [re.fullmatch(r"(\S+) (\S+) attempts=(\d+) value=(\S+)", line).groups() for line in folder.call("status", "x.dag")[1].splitlines()]
    same("rows", [tuple(cells[:4]) for _, cells in page.nodes()], status)
    same("classes", [kind for kind, _ in page.nodes()], [LOOKS[state] for _, state, _, _ in status])
    states = [state for _, state, _, _ in status]
    counts = [("nodes", len(states))] + [(state, states.count(state)) for state in LOOKS if state in states]
    numbers = [text for text in page.texts["b"] if text.isdigit()]
    same("counts", numbers[: len(counts)], [str(count) for _, count in counts])
    words = [text.strip() for text in page.texts["li"] if text.strip()]
    same("words of the counts", words, [word for word, _ in counts])


CONFIRMED = "dagrun audit confirms this round: by its journal alone its nodes came to these states."
ABORTED = "dagrun audit does not confirm this round: it was aborted."


def has_been_audited(folder, page, wanted):
    """What it says of `audit`, which says so itself; and the digest in the journal's header."""
    found = [sentence for sentence in (CONFIRMED, ABORTED) if sentence in page.words]
    same("what it says of the audit", found, wanted)
    answer = folder.call("audit", "x.dag")[1].splitlines()[-1:]
    same("the audit", answer, {CONFIRMED: ["audit ok"], ABORTED: ["audit no F5 Aborted"]}[wanted[0]] if wanted else answer)
    with open(os.path.join(folder.place.name, "x.dag.journal"), "rb") as journal:
        has("the page", page.words, f"The digest of its files is {journal.read()[8:40].hex()}.")


def ended(program):
    folder = Folder(program, ODD)
    same("status of the run", folder.call("run", "x.dag")[0], 1)
    page = folder.page()
    rows_are_those_of_status(folder, page)
    same("path", page.all_of("h1"), "x.dag")
    same("title", page.all_of("title of the page"), "x.dag")
    same("states", [cells[1] for _, cells in page.nodes()], ["DONE", "ERROR", "NOT_READY", "DONE"])
    same("first name", page.nodes()[0][1][0], '<b>&"\'')
    has("the page", page.all_of("p"), "The round ended with exit status 1.")
    has("the failures", page.all_of("pre"), "<script>alert(2)</script>&lt;")
    same("what why prints", folder.call("why", "x.dag")[1] in page.all_of("pre"), True)
    has("the commands", page.all_of("code"), "<script>alert(1)</script>")
    has("the files", page.all_of("code"), "<u>.out")
    has("the graph", page.all_of("text"), '<b>&"\'')
    has("the version", page.all_of("p"), folder.call("--version")[1].strip())
    same("refreshes", page.refresh, [])
    same("refreshes of a round that ended", folder.page("--reload").refresh, [])
    has_been_audited(folder, page, [CONFIRMED])


def links(program):
    """A path is a link to the file that is there, whatever its name has."""
    odd = "100% #1?&\"'<u> \u00fc;.out"
    files = {
        "x.dag": "JOB A a.sub\nJOB B b.sub\nPARENT A CHILD B\n",
        "a.sub": f"executable = /bin/echo\narguments = a\noutput = {odd}\nerror = a.err\nqueue\n",
        "b.sub": "executable = /bin/true\nqueue\n",
    }
    folder = Folder(program, files)
    same("status of the run", folder.call("run", "x.dag")[0], 0)
    here = os.path.realpath(folder.place.name)
    wanted = [here, os.path.join(here, odd), os.path.join(here, "a.err"), here]
    page = folder.page()
    same("links", page.links, wanted)
    with open(page.links[1], encoding="utf-8") as file:
        same("the file of the second", file.read(), "a\n")
    os.remove(os.path.join(folder.place.name, "x.dag.log"))
    same("links without a log", folder.page().links, [])


def aborted(program):
    folder = Folder(program, {**ODD, "x.dag": ODD["x.dag"] + "ABORT-DAG-ON B 3\n"})
    same("status of the run", folder.call("run", "x.dag")[0], 3)
    page = folder.page()
    rows_are_those_of_status(folder, page)
    has("the page", page.all_of("p"), "The round ended with exit status 3.")
    has_been_audited(folder, page, [ABORTED])


def not_begun(program):
    folder = Folder(program, ODD)
    page = folder.page()
    rows_are_those_of_status(folder, page)
    same("states", [cells[1] for _, cells in page.nodes()], ["READY", "NOT_READY", "NOT_READY", "READY"])
    has("the page", page.all_of("p"), "No round has begun.")
    has("the page", page.all_of("p"), "No phase is known to have run.")


def runs(program):
    files = {"x.dag": "JOB A a.sub\nJOB B a.sub\nPARENT A CHILD B\n", "a.sub": "executable = /bin/sh\narguments = \"-c 'until [ -e go ]; do sleep 0.1; done'\"\nqueue\n"}
    folder = Folder(program, files)
    run = subprocess.Popen([program, "run", "x.dag"], cwd=folder.place.name, stdout=subprocess.DEVNULL, stderr=subprocess.DEVNULL)
    try:
        end = time.monotonic() + PATIENCE
        while "SUBMITTED" not in folder.call("status", "x.dag")[1] and time.monotonic() < end:
            time.sleep(0.1)
        page = folder.page()
        rows_are_those_of_status(folder, page)
        same("states", [cells[1] for _, cells in page.nodes()], ["SUBMITTED", "NOT_READY"])
        has("the page", page.all_of("p"), "The round runs.")
        same("refreshes", page.refresh, [])
        again = folder.page("--reload")
        same("refreshes", again.refresh, ["5"])
        has("the page", again.all_of("p"), "The page loads itself anew every 5 seconds.")
    finally:
        open(os.path.join(folder.place.name, "go"), "w").close()
        same("status of the run", run.wait(PATIENCE), 0)
    has("the page", folder.page().all_of("p"), "The round ended with exit status 0.")


def cut_short(program):
    files = {"x.dag": "JOB A a.sub\nJOB B a.sub\nPARENT A CHILD B\n", "a.sub": "executable = /bin/sleep\narguments = 60\nqueue\n"}
    folder = Folder(program, files)
    run = subprocess.Popen([program, "run", "x.dag"], cwd=folder.place.name, stdout=subprocess.DEVNULL, stderr=subprocess.DEVNULL)
    end = time.monotonic() + PATIENCE
    while "SUBMITTED" not in folder.call("status", "x.dag")[1] and time.monotonic() < end:
        time.sleep(0.1)
    run.kill()
    run.wait()
    page = folder.page()
    rows_are_those_of_status(folder, page)
    has("the page", page.all_of("p"), "The round was cut short: it has no end, and no manager runs it.")
    has_been_audited(folder, page, [])
    with open(os.path.join(folder.place.name, "x.dag.children"), encoding="utf-8") as children:
        for line in children:
            if line.split("\t")[0].isdigit():
                os.kill(int(line.split("\t")[0]), 9)


# Says that it is there, and waits until so many are.
MEET = "#!/bin/sh\n: > here.$1.$$\nuntil [ $(ls here.$1.* | wc -l) -ge $2 ]; do sleep 0.05; done\nsleep 0.1\n"


def limits(program):
    """Three jobs run at once, two of them of a category, and one PRE script, each longer than the log's millisecond."""
    files = {
        "x.dag": "JOB A a.sub\nJOB B a.sub\nJOB C a.sub\nJOB D b.sub\nJOB E b.sub\nPARENT A B C CHILD D E\nSCRIPT PRE A /bin/sleep 0.1\n"
        "CATEGORY D <wide>\nCATEGORY E <wide>\nMAXJOBS <wide> 2\nCATEGORY A rare\nMAXJOBS rare 7\nMAXJOBS none 1\n",
        "a.sub": "executable = /bin/sh\narguments = meet.sh a 3\nqueue\n",
        "b.sub": "executable = /bin/sh\narguments = meet.sh b 2\nqueue\n",
        "meet.sh": MEET,
    }
    folder = Folder(program, files)
    same("status of the run", folder.call("run", "--maxjobs", "3", "--maxpre", "4", "x.dag")[0], 0)
    status, text, _ = folder.call("report", "x.dag")
    same("status", status, 0)
    same("faults", Page(text).faults, [])
    found = re.findall(r'<li class="(\w+)"><b>(\d+ of \d+)</b> (.*) at once</li>', text)
    same("limits", found, [
        ("ready", "2 of 2", "jobs of &lt;wide&gt;"), ("plain", "1 of 7", "jobs of rare"), ("plain", "0 of 1", "jobs of none"), ("ready", "3 of 3", "jobs"),
        ("plain", "1 of 4", "PRE scripts"),
    ])
    same("its head", "<h2>Limits</h2>" in text, True)
    os.remove(os.path.join(folder.place.name, "x.dag.log"))
    found = re.findall(r'<b>(\d+ of \d+)</b> (.*) at once</li>', folder.call("report", "x.dag")[1])
    same("limits without a log", found, [("0 of 2", "jobs of &lt;wide&gt;"), ("0 of 7", "jobs of rare"), ("0 of 1", "jobs of none")])


def refused(program):
    folder = Folder(program, {"x.dag": "JOB A\n"})
    for words in (["report"], ["status"]):
        status, text, told = folder.call(*words, "x.dag")
        same(f"status of {words}", status, 125)
        same(f"text of {words}", text, "")
    same("refusals", folder.call("report", "x.dag")[2], folder.call("status", "x.dag")[2])


def many(program):
    nodes = 5000
    lines = [f"JOB sample{place} a.sub" for place in range(nodes)]
    lines += [f"PARENT sample{place} CHILD sample{place + 500}" for place in range(nodes - 500)]
    folder = Folder(program, {"x.dag": "\n".join(lines) + "\n", "a.sub": "executable = /bin/true\nqueue\n"})
    begun = time.monotonic()
    status, text, _ = folder.call("report", "x.dag")
    took = time.monotonic() - begun
    same("status", status, 0)
    same("faults", Page(text).faults, [])
    same("rows", len(Page(text).nodes()), nodes)
    if len(text) > 2_000_000:
        raise AssertionError(f"{len(text)} bytes")
    print(f"     {nodes} nodes: {len(text)} bytes in {took:.1f} s")


# The elements of SVG, which xmllint doesn't know: it reads HTML 4.
OF_SVG = re.compile("Tag (svg|path|rect|text) invalid")


READERS = [["xmllint", "--html", "--noout", "-"], ["tidy", "-q", "-e", "-utf8"]]


def found_by(words, text):
    """What one of READERS says of a page."""
    done = subprocess.run(words, input=text.encode(), env=dict(os.environ, LC_ALL="C.UTF-8"), capture_output=True, timeout=PATIENCE)
    lines = done.stderr.decode().splitlines()
    # Of a fault xmllint says where it is, then the line, and where in it.
    return lines if words[0] == "tidy" else [line for line in lines if re.match(r"-:\d+: ", line) and not OF_SVG.search(line)]


def other_readers(program):
    """They find no fault: in a page of odd names and outputs, in one of no round, and in one with folded boxes."""
    folder = Folder(program, ODD)
    pages = [folder.call("report", "x.dag")[1]]
    folder.call("run", "x.dag")
    pages += [folder.call("report", *words, "x.dag")[1] for words in ([], ["--reload"])]
    sweep = "".join(f"JOB sample{place} a.sub\nPARENT sample{place} CHILD last\n" for place in range(300))
    folder = Folder(program, {"x.dag": f"JOB last a.sub\n{sweep}", "a.sub": "executable = /bin/true\nqueue\n"})
    folder.call("run", "--sync-output", "0", "x.dag")
    pages.append(folder.call("report", "x.dag")[1])
    has("the folded page", pages[-1], "300 nodes")
    for words in READERS:
        if not shutil.which(words[0]):
            print(f"     {words[0]} is not installed, so it reads no page")
            continue
        same(f"whether {words[0]} finds a fault", bool(found_by(words, "<!DOCTYPE html><title>a</title><p></b>")), True)
        for text in pages:
            same(f"what {words[0]} finds", found_by(words, text), [])


ROWS = [("a round that ended", ended), ("links to files", links), ("an aborted round", aborted), ("no round", not_begun), ("a round that runs", runs), ("a round that was cut short", cut_short), ("limits", limits), ("a refusal", refused), ("xmllint and tidy", other_readers), ("5,000 nodes", many)]


def main():
    program, word = os.path.abspath(sys.argv[1]), sys.argv[2] if len(sys.argv) > 2 else ""
    failed, chosen = 0, [(name, row) for name, row in ROWS if word in name]
    for name, row in chosen:
        try:
            row(program)
            print(f"ok   {name}")
        except (AssertionError, subprocess.TimeoutExpired) as fault:
            failed += 1
            print(f"FAIL {name}: {fault}")
    print(f"{len(chosen) - failed} passed, {failed} failed")
    return 1 if failed else 0


if __name__ == "__main__":
    sys.exit(main())
