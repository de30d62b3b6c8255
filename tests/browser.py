#!/usr/bin/env python3
"""Opens pages of `dagrun report` in Chromium without a window: browser.py PROGRAM [FOLDER]

Each page is opened as a file, with a script after its own that clicks and types as a reader would, and writes down what it saw. A row says that the
browser had nothing to complain of, and that the table was sorted and filtered. FOLDER: pictures of the pages are left there, wide, narrow and dark,
to be looked at. Where there is no chromium, nothing is tried, with a note. The last line is 'N passed, M failed'."""

import json
import os
import re
import shutil
import subprocess
import sys
import tempfile

# How many seconds are waited for a browser on a machine that is not busy.
PATIENCE = 120

BROWSER = ["--headless", "--no-sandbox", "--disable-gpu", "--hide-scrollbars", "--enable-logging=stderr", "--v=0", "--virtual-time-budget=20000"]

# What a reader does: a click on the head of a column, a second one, a part of a name, a state. What was seen is left in an element of its own.
READER = """<script>
(function(){
function rows(){return Array.from(document.getElementById('nodes').tBodies[0].rows).filter(function(row){return !row.hidden})}
function column(place){return rows().map(function(row){return row.cells[place].textContent})}
function click(place){document.getElementById('nodes').tHead.rows[0].cells[place].click()}
function type(name,value,event){var field=document.getElementById(name);field.value=value;field.dispatchEvent(new Event(event))}
var seen={first:column(0)};
click(0);seen.sorted=column(0);
click(0);seen.turned=column(0);
click(2);seen.attempts=column(2);
type('part','X1','input');seen.part=column(0);seen.shown=document.getElementById('shown').textContent;
type('part','','input');type('which','ERROR','change');seen.errors=column(1);
type('which','','change');seen.all=rows().length;
seen.wide=document.documentElement.scrollWidth>window.innerWidth;
var result=document.createElement('pre');result.id='seen';result.textContent=JSON.stringify(seen);document.body.appendChild(result)})();
</script>
"""


def page_of(program, folder, nodes):
    """The page of a round of so many nodes, of which each tenth fails; a node waits for one that is a third of them before it."""
    lines = [f"JOB x{place} {'no' if place % 10 == 7 else 'yes'}.sub" for place in range(nodes)]
    lines += [f"PARENT x{place} CHILD x{place + nodes // 3}" for place in range(nodes - nodes // 3)]
    files = {"x.dag": "\n".join(lines) + "\n", "yes.sub": "executable = /bin/true\nqueue\n", "no.sub": "executable = /bin/false\nqueue\n"}
    for name, text in files.items():
        with open(os.path.join(folder, name), "w", encoding="utf-8") as file:
            file.write(text)
    subprocess.run([program, "run", "x.dag"], cwd=folder, capture_output=True, timeout=PATIENCE)
    done = subprocess.run([program, "report", "x.dag"], cwd=folder, capture_output=True, timeout=PATIENCE)
    if done.returncode != 0:
        raise AssertionError(f"report ended with {done.returncode}: {done.stderr.decode()}")
    return done.stdout.decode()


def opened(folder, text, *words):
    """What the browser says of a page with this text, and what it writes on standard error."""
    path = os.path.join(folder, "page.html")
    with open(path, "w", encoding="utf-8") as file:
        file.write(text)
    profile = os.path.join(folder, "profile")
    done = subprocess.run(["chromium", *BROWSER, f"--user-data-dir={profile}", *words, f"file://{path}"], capture_output=True, timeout=PATIENCE)
    return done.stdout.decode(), done.stderr.decode()


def same(what, got, wanted):
    if got != wanted:
        raise AssertionError(f"{what}: {str(got)[:200]} in place of {str(wanted)[:200]}")


def read(program, nodes, pictures):
    """A reader opens the page of a round of so many nodes."""
    with tempfile.TemporaryDirectory() as folder:
        text = page_of(program, folder, nodes)
        shown, said = opened(folder, text.replace("</body>", READER + "</body>"), "--dump-dom")
        same("complaints", re.findall(r"CONSOLE.*", said), [])
        seen = json.loads(re.search(r'<pre id="seen">(.*?)</pre>', shown, re.S).group(1))
        names = [f"x{place}" for place in range(nodes)]
        same("order", seen["first"], names)
        same("order by name", seen["sorted"], sorted(names))
        same("order that is turned", seen["turned"], sorted(names, reverse=True))
        same("order by attempts", [int(it) for it in seen["attempts"]], sorted(int(it) for it in seen["attempts"]))
        part = [it for it in names if "x1" in it]
        same("nodes with a part of a name", sorted(seen["part"]), sorted(part))
        same("how many are shown", seen["shown"], f"{len(part)} of {nodes} nodes")
        # A state that no node has is not offered, so that all nodes stay.
        same("nodes in error", set(seen["errors"]), {"ERROR"} if nodes > 7 else {"DONE"})
        same("all nodes again", seen["all"], nodes)
        same("wider than the window", seen["wide"], False)
        for name, words in {"wide": ["--window-size=1200,1600"], "narrow": ["--window-size=500,1600"], "dark": ["--window-size=1200,1600", "--force-dark-mode"]}.items():
            if pictures:
                opened(folder, text, f"--screenshot={os.path.join(os.path.abspath(pictures), f'{nodes}-{name}.png')}", *words)


def main():
    program, pictures = os.path.abspath(sys.argv[1]), sys.argv[2] if len(sys.argv) > 2 else None
    if shutil.which("chromium") is None:
        print("there is no chromium (Debian: apt-get install chromium): nothing is tried in a browser\n0 passed, 0 failed")
        return 0
    failed, sizes = 0, [4, 80, 300, 5000]
    for nodes in sizes:
        try:
            read(program, nodes, pictures)
            print(f"ok   {nodes} nodes")
        except (AssertionError, AttributeError, subprocess.TimeoutExpired) as fault:
            failed += 1
            print(f"FAIL {nodes} nodes: {fault}")
    print(f"{len(sizes) - failed} passed, {failed} failed")
    return 1 if failed else 0


if __name__ == "__main__":
    sys.exit(main())
