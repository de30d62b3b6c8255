#!/usr/bin/env python3
"""What stands around the program: ./dagrun and ./build, what install.sh installs and removes, the manual pages, the completions, the
Debian package and condor_submit_dag. Each row works in a folder of its own.

    tests/install.py [WORD]     WORD: only the rows whose name holds it

A row that needs a program that is not installed says so and is not counted. The last line is 'N passed, M failed'."""
import html
import json
import os
import re
import shlex
import shutil
import signal
import subprocess
import sys
import tempfile
import time

from at_call import is_static

TOP = os.path.realpath(os.path.join(os.path.dirname(__file__), ".."))
SHIPPED = os.path.join(TOP, "dist/dagrun")
PAGES = sorted(os.listdir(os.path.join(TOP, "packaging/man")))
INSTALLED = sorted(
    [
        "bin/dagrun",
        "bin/dagrun-slurm",
        "bin/dagrun-ssh",
        "share/bash-completion/completions/dagrun",
        "share/fish/vendor_completions.d/dagrun.fish",
        "share/zsh/site-functions/_dagrun",
        *(f"share/man/man1/{page}" for page in PAGES),
        *(f"share/doc/dagrun/{page}" for page in ("CHANGELOG.md", "NOTICE", "SECURITY.md")),
        *(f"share/doc/dagrun/{page}.md" for page in ("MANUAL", "FROM_DAGMAN", "FROM_MAKE", "TO_HTCONDOR", "GLOSSARY", "LOG", "JOURNAL", "STABILITY")),
    ]
)
# What install.sh may use besides bash.
COREUTILS = "dirname readlink install rm rmdir uname".split()
DIAMOND = "JOB A a.sub\nJOB B b.sub\nJOB C c.sub\nJOB D d.sub\nPARENT A CHILD B C\nPARENT B C CHILD D\n"


class Skipped(Exception):
    """A program that a row needs is not installed."""


def needs(*programs):
    for program in programs:
        if not shutil.which(program):
            raise Skipped(f"{program} is not installed")


def same(found, wanted):
    if found != wanted:
        raise AssertionError(f"found\n{found}\nwanted\n{wanted}")


def call(folder, *words, **settings):
    """What a command prints, what it tells, and its exit status."""
    settings.setdefault("stdin", subprocess.DEVNULL)
    done = subprocess.run(words, cwd=folder, capture_output=True, text=True, timeout=600, **settings)
    return done.stdout, done.stderr, done.returncode


def write(path, text, mode=0o644):
    os.makedirs(os.path.dirname(path), exist_ok=True)
    with open(path, "w") as file:
        file.write(text)
    os.chmod(path, mode)


def files_below(folder):
    return sorted(os.path.relpath(os.path.join(at, name), folder) for at, _, names in os.walk(folder) for name in names)


def copy(folder, *paths):
    """A copy of some files of the repository."""
    for path in paths:
        whole = os.path.join(TOP, path)
        to = os.path.join(folder, path)
        os.makedirs(os.path.dirname(to), exist_ok=True)
        if os.path.isdir(whole):
            shutil.copytree(whole, to)
        else:
            shutil.copy(whole, to)


def with_path(*folders):
    return dict(os.environ, PATH=os.pathsep.join(folders))


def dagrun_runs_the_shipped_program(folder):
    copy(folder, "dagrun")
    write(f"{folder}/dist/dagrun", '#!/bin/sh\necho shipped "$@"\n', 0o755)
    write(f"{folder}/crates/dagrun/src/changed.rt", "")
    same(call(folder, "./dagrun", "status", "a b"), ("shipped status a b\n", "", 0))
    same(call("/", f"{folder}/dagrun"), ("shipped\n", "", 0))
    os.symlink("../dagrun", f"{folder}/dist/link")
    same(call(f"{folder}/dist", "./link"), ("shipped\n", "", 0))
    os.remove(f"{folder}/dist/dagrun")
    line = "dagrun: dist/dagrun is missing: git brings it back, or ./build proves and builds the program of these sources\n"
    same(call(folder, "./dagrun", "check", "-"), ("", line, 125))
    write(f"{folder}/crates/dagrun/out/dagrun", '#!/bin/sh\necho built "$@"\n', 0o755)
    same(call(folder, "./dagrun", "check"), ("built check\n", "", 0))


def build_proves_what_it_finds(folder):
    copy(folder, "build", "dist/functions.sh")
    write(f"{folder}/crates.txt", "below:\ndagrun: below\nother:\n")
    for crate in ("below", "dagrun", "other"):
        write(f"{folder}/crates/{crate}/src/lib.rt", crate)
    write(f"{folder}/crates/dagrun/stdin", "")
    write(f"{folder}/dist/dagrun", "of other sources", 0o755)
    write(f"{folder}/dist/SOURCES", "an older one\n")
    rt = """#!/bin/sh
case $1 in
version) echo 'a version'; exit 0 ;;
run) mkdir -p out; echo 'made of these' >out/dagrun; chmod 755 out/dagrun ;;
esac
echo "$1 ${PWD##*/}" >>"$TOLD"
"""
    write(f"{folder}/bin/rt", rt, 0o755)
    settings = dict(with_path(f"{folder}/bin", os.environ["PATH"]), TOLD=f"{folder}/told")
    said, told, status = call(folder, "./build", env=settings)
    same((said, status), ("crates/dagrun/out/dagrun\n", 0))
    same(told.splitlines()[0], "build: dist/dagrun is of other sources: these are proved and built, which takes up to 30 minutes and 5 GB of disk")
    steps = ["check below", "check dagrun", "run dagrun"]
    same(open(f"{folder}/told").read().splitlines(), steps)
    # What was built is of these sources, until one is changed.
    same(call(folder, "./build", env=settings), ("crates/dagrun/out/dagrun\n", "", 0))
    same(open(f"{folder}/told").read().splitlines(), steps)
    write(f"{folder}/crates/below/src/lib.rt", "changed")
    same(call(folder, "./build", env=settings)[2], 0)
    same(open(f"{folder}/told").read().splitlines(), steps + steps)
    # The shipped one is named where it is of these sources.
    shutil.copy(f"{folder}/crates/dagrun/out/dagrun", f"{folder}/dist/dagrun")
    shutil.copy(f"{folder}/crates/dagrun/out/dagrun.sources", f"{folder}/dist/SOURCES")
    same(call(folder, "./build", env=settings), ("dist/dagrun\n", "", 0))
    # A proof that is refused.
    write(f"{folder}/crates/below/src/lib.rt", "wrong")
    write(f"{folder}/bin/rt", "#!/bin/sh\nif [ $1 = version ]; then echo 'a version'; else echo refused; exit 1; fi\n", 0o755)
    said, told, status = call(folder, "./build", env=settings)
    same((said, told.splitlines()[-2:], status), ("", ["refused", "build: the program could not be built"], 125))


def installed_and_removed(folder):
    bare = f"{folder}/bare"
    os.mkdir(bare)
    for name in ["bash", "env", *COREUTILS]:
        os.symlink(shutil.which(name), f"{bare}/{name}")
    settings = dict(with_path(bare), HOME=f"{folder}/user")
    write(f"{folder}/user/.local/bin/other", "stays")
    said = call(folder, f"{TOP}/install.sh", env=settings)
    prefix = f"{folder}/user/.local"
    path_line = f'{prefix}/bin is not on the PATH: export PATH="{prefix}/bin:$PATH"\n'
    same(said, (f"dagrun is installed: {prefix}/bin/dagrun\n{path_line}", "", 0))
    same(files_below(prefix), sorted(INSTALLED + ["bin/other"]))
    settings = dict(with_path(f"{prefix}/bin", bare), HOME=f"{folder}/user")
    same(call(folder, "dagrun", input="JOB A a.sub\n", stdin=None, env=settings), ("A DONE attempts=1 value=0\nresult 0\n", "", 0))
    # Once more over itself, and no line on the PATH where it is there.
    same(call(folder, f"{TOP}/install.sh", env=settings), (f"dagrun is installed: {prefix}/bin/dagrun\n", "", 0))
    same(call(folder, f"{TOP}/install.sh", "--remove", env=settings), (f"dagrun is removed from {prefix}\n", "", 0))
    same(files_below(prefix), ["bin/other"])
    same(os.listdir(prefix), ["bin"])
    # With a prefix, seen from the working folder.
    same(call(folder, f"{TOP}/install.sh", "some where", env=settings)[1:], ("", 0))
    same(files_below(f"{folder}/some where"), INSTALLED)
    same(call(folder, f"{TOP}/install.sh", "some where", "--remove", env=settings)[1:], ("", 0))
    same(os.listdir(f"{folder}/some where"), [])
    said, told, status = call(folder, f"{TOP}/install.sh", "--elsewhere", env=settings)
    same((said, told.startswith("install.sh: usage: "), status), ("", True, 1))


def the_program_needs_no_library(folder):
    """The shipped program is linked statically: it names no loader, and nothing of a C library that it would find on a machine."""
    if not os.path.exists(f"{TOP}/dist/dagrun.o"):
        raise Skipped("dist/dagrun.o is not there, so dist/dagrun is linked dynamically yet")
    same(is_static(SHIPPED), True)
    needs("objdump")
    said, _, status = call(folder, "objdump", "-T", SHIPPED)
    same(("GLIBC_" in said, status), (False, 0))
    said, _, status = call(folder, "objdump", "-p", SHIPPED)
    same(("NEEDED" in said, status), (False, 0))


def another_machine(folder):
    copy(folder, "install.sh", "packaging")
    with open(SHIPPED, "rb") as file:
        shipped = file.read()
    # The program of another kind of processor.
    os.mkdir(f"{folder}/dist")
    with open(f"{folder}/dist/dagrun", "wb") as file:
        file.write(shipped[:18] + b"\xb7" + shipped[19:])
    os.chmod(f"{folder}/dist/dagrun", 0o755)
    write(f"{folder}/bin/uname", "#!/bin/sh\ncase $1 in -s) echo Linux;; *) echo aarch64;; esac\n", 0o755)
    settings = with_path(f"{folder}/bin", os.environ["PATH"])
    line = "install.sh: dagrun needs an x86-64 Linux; this is Linux aarch64, the program does not run here, and nothing was installed\n"
    same(call(folder, "./install.sh", "new", env=settings), ("", line, 1))
    same(os.path.exists(f"{folder}/new"), False)


# A toolchain of a few lines: `rt run` compiles the crate, and its linker links an object file to the C library of the machine.
TOOLCHAIN = {
    "rt": """#!/bin/sh
case $1 in
version) echo 'a version' ;;
run)
    mkdir -p out
    gcc -x c -O1 -fPIE -c -o out/dagrun.o src/main.c
    "${0%/*}/rattle-link" --target x --toolchain x -o out/dagrun out/dagrun.o
    echo run >>"$TOLD" ;;
esac
""",
    "rattle-link": '#!/bin/sh\nexec gcc -o "$6" "$7"\n',
}


def shipped_statically(folder):
    """What dist.sh makes of an object file, when it is due, and what the gate compares."""
    needs("gcc", "ld", "ar")
    kit = f"{folder}/kit"
    for name, text in TOOLCHAIN.items():
        write(f"{kit}/bin/{name}", text, 0o755)
    os.mkdir(f"{kit}/c")
    for name in ("libos_c.a", "liblibc_c.a"):
        same(call(f"{kit}/c", "ar", "rc", name)[2], 0)
    here = f"{folder}/here"
    copy(here, "dist.sh", "build", "dist/functions.sh")
    write(f"{here}/packaging/generate.py", "#!/bin/sh\n", 0o755)
    write(f"{here}/crates.txt", "dagrun:\n")
    write(f"{here}/crates/dagrun/src/main.c", '#include <stdio.h>\nint main(void) { puts("of C"); return 0; }\n')
    write(f"{here}/crates/dagrun/stdin", "")
    settings = dict(with_path(f"{kit}/bin", os.environ["PATH"]), TOLD=f"{folder}/told")
    if "libc.a" in call(here, "bash", "-c", "top=$PWD; . dist/functions.sh; has_static_parts", env=settings)[1]:
        raise Skipped("libc.a is not installed")

    def dist(*words):
        said, told, status = call(here, "./dist.sh", *words, env=settings)
        return said, status

    def gate():
        said, _, status = call(here, "bash", "-c", "top=$PWD; . dist/functions.sh; is_proved_program", env=settings)
        return said, status

    def bytes_of(path):
        with open(f"{here}/{path}", "rb") as file:
            return file.read()

    def put(path, content):
        with open(f"{here}/{path}", "wb") as file:
            file.write(content)

    is_due = ("dist/dagrun is not of these sources: ./dist.sh renews it\n", 1)
    is_of_these = ("dist/dagrun is of these sources\n", 0)
    same(dist("--check"), is_due)
    same(dist(), ("dist/dagrun is of these sources now\n", 0))
    same((dist("--check"), dist(), gate()), (is_of_these, is_of_these, ("", 0)))
    same((is_static(f"{here}/dist/dagrun"), is_static(f"{here}/crates/dagrun/out/dagrun")), (True, False))
    same(call(here, "dist/dagrun"), ("of C\n", "", 0))
    same(open(f"{folder}/told").read(), "run\n")
    made = {path: bytes_of(path) for path in ("dist/dagrun", "dist/dagrun.o", "dist/SOURCES")}
    # Linked anew it is the same, and in another folder, too.
    same(dist("--link"), ("dist/dagrun is linked anew\n", 0))
    same({path: bytes_of(path) for path in made}, made)
    shutil.copytree(here, f"{folder}/there", symlinks=True)
    same(call(f"{folder}/there", "./dist.sh", "--link", env=settings)[2], 0)
    with open(f"{folder}/there/dist/dagrun", "rb") as file:
        same(file.read() == made["dist/dagrun"], True)
    # Another program, another object file, none, and another linker.
    put("dist/dagrun", made["dist/dagrun"] + b"x")
    same((dist("--check"), gate()[1], "linked statically" in gate()[0]), (is_due, 1, True))
    put("dist/dagrun", made["dist/dagrun"])
    put("dist/dagrun.o", made["dist/dagrun.o"].replace(b"of C", b"of D"))
    same((dist("--check"), gate()[1], "is not the object file of the program that was proved and built" in gate()[0]), (is_due, 1, True))
    os.remove(f"{here}/dist/dagrun.o")
    same((dist("--check"), gate()), (is_due, ("dist/dagrun.o is missing, so dist/dagrun is no static program: ./dist.sh makes both\n", 1)))
    put("dist/dagrun.o", made["dist/dagrun.o"])
    put("dist/SOURCES", made["dist/SOURCES"].replace(b"GNU ld", b"another ld"))
    same((dist("--check"), gate()[1], "so its object file alone is compared" in gate()[0]), (is_of_these, 0, True))
    put("dist/SOURCES", made["dist/SOURCES"])
    # Without a compiler it is still said whether the program is of the sources, and what is missing to link it.
    bare = f"{folder}/bare"
    os.mkdir(bare)
    for folder_of in os.environ["PATH"].split(os.pathsep):
        for name in os.listdir(folder_of) if os.path.isdir(folder_of) else ():
            if name not in ("gcc", "rt") and not os.path.lexists(f"{bare}/{name}"):
                os.symlink(f"{folder_of}/{name}", f"{bare}/{name}")
    settings = dict(with_path(f"{kit}/bin", bare), TOLD=f"{folder}/told")
    same(dist("--check"), is_of_these)
    told = call(here, "bash", "-c", "top=$PWD; . dist/functions.sh; has_static_parts", env=settings)[1:]
    same(told, ("a static program can't be linked here, for want of: gcc and ld (Debian: apt-get install gcc libc6-dev)\n", 1))
    # A source was changed: that is found out before anything is proved.
    write(f"{here}/crates/dagrun/src/main.c", "int main(void) { return 7; }\n")
    same((dist("--check"), dist()[1], open(f"{folder}/told").read()), (is_due, 1, "run\n"))
    settings = dict(with_path(f"{kit}/bin", os.environ["PATH"]), TOLD=f"{folder}/told")
    same((dist()[1], call(here, "dist/dagrun")[2], gate()[1]), (0, 7, 0))


def generated_texts(folder):
    same(call(folder, f"{TOP}/packaging/generate.py", "--check"), ("", "", 0))


def manual_pages(folder):
    needs("man", "groff")
    for page in PAGES:
        words = ["man", "--warnings", "-E", "UTF-8", "-l", "-Tutf8", f"{TOP}/packaging/man/{page}"]
        text, told, status = call(folder, *words, env=dict(os.environ, MANWIDTH="100", MAN_KEEP_FORMATTING="", LC_ALL="C.UTF-8"))
        same((told, status), ("", 0))
        text = re.sub("\x1b\\[[0-9;]*m|.\b", "", text)
        found = re.findall("^[A-Z][A-Z ]*$", text, re.M)
        wanted = ["NAME", "SYNOPSIS", "DESCRIPTION", "OPTIONS", "EXIT STATUS", "FILES", "EXAMPLES", "SEE ALSO"]
        same([part for part in found if part != "COMMANDS"], wanted)
        same("@" in text, False)


def completed(folder, line):
    """What bash completes this line to, where the folder is the home folder."""
    words = re.findall(r"=|(?:\\.|'[^']*'|[^\s=])+", line) + ([""] if line.endswith((" ", "=")) else [])
    listed = " ".join(map(shlex.quote, words))
    script = f'PATH={os.path.dirname(SHIPPED)}:$PATH; . {TOP}/packaging/completion/dagrun.bash; COMP_WORDS=({listed}); COMP_CWORD={len(words) - 1}; _dagrun; printf "%s\\n" "${{COMPREPLY[@]}}"'
    said, told, status = call(folder, "bash", "--norc", "-c", script, env=dict(os.environ, HOME=folder))
    same((told, status), ("", 0))
    return sorted(said.split("\n")[:-1]) if said != "\n" else []


def graphviz_reads_a_graph(folder):
    """What `graph` prints is a picture with just these names, whatever characters they have."""
    needs("dot")
    names = ['a"b', "c\\\\d", "e\\", "f&amp;g", "<b>h</b>", "\u00e9{}|;", "node", "n->m"]
    write(f"{folder}/x.dag", "".join(f"JOB {name} a.sub\n" for name in names) + 'SPLICE "S" y.dag\nPARENT a"b CHILD "S"\nFINAL F f.sub\n')
    write(f"{folder}/y.dag", "JOB T\\ t.sub\n")
    text, told, status = call(folder, SHIPPED, "graph", "x.dag")
    same((told, status), ("", 0))
    picture, told, status = call(folder, "dot", "-Tjson", input=text, stdin=None)
    same((told, status), ("", 0))
    found = json.loads(picture)
    labels = [html.unescape(node["label"]).replace("\\\\", "\\") for node in found["objects"]]
    same(sorted(labels), sorted([*names, '"S"', "T\\", "F"]))
    same(len(found["edges"]), 1)


def completion_of_bash(folder):
    for name in ("one.dag", "two words.dag", "one.outcomes"):
        write(f"{folder}/{name}", "")
    os.mkdir(f"{folder}/below")
    same(completed(folder, "dagrun "), ["--help", "audit", "check", "explain", "graph", "help", "redo", "rehearse", "report", "run", "salvage", "status", "times", "version", "why"])
    same(completed(folder, "dagrun r"), ["redo", "rehearse", "report", "run"])
    same(completed(folder, "dagrun run --"), ["--always-run-post", "--autorescue", "--dorescuefrom", "--help", "--json", "--launcher", "--launcher-final", "--launcher-grace", "--log-limit", "--maxjobs", "--maxpost", "--maxpre", "--orphans", "--progress", "--resume", "--script-output", "--status-every", "--status-file", "--stop-at-first-error", "--sync-output", "--trust-owner"])
    same(completed(folder, "dagrun rehearse --max"), ["--maxjobs", "--maxpost", "--maxpre"])
    same(completed(folder, "dagrun status --m"), [])
    same(completed(folder, "dagrun times --"), ["--as-begun", "--help", "--json", "--rounds", "--summary", "--svg", "--trust-owner"])
    same(completed(folder, "dagrun report --"), ["--as-begun", "--help", "--reload", "--trust-owner"])
    same(completed(folder, "dagrun redo --"), ["--as-begun", "--help", "--only", "--trust-owner"])
    same(completed(folder, "dagrun why --"), ["--all", "--as-begun", "--help", "--json", "--trust-owner"])
    same(completed(folder, "dagrun check --"), ["--all", "--condor", "--help", "--hints", "--json"])
    same(completed(folder, "dagrun salvage --"), ["--ended", "--help", "--trust-owner"])
    for name, more in (("audit", ["--json"]), ("graph", ["--as-is", "--fold", "--no-fold"]), ("status", ["--json"])):
        same(completed(folder, f"dagrun {name} --"), sorted(["--as-begun", "--help", "--trust-owner", *more]))
    same(completed(folder, "dagrun run --autorescue "), ["0", "1"])
    same(completed(folder, "dagrun run --autorescue="), ["0", "1"])
    same(completed(folder, "dagrun run --maxjobs "), [])
    same(completed(folder, "dagrun run --status-file one"), ["one.dag", "one.outcomes"])
    same(completed(folder, "dagrun run "), ["below", "one.dag", "two words.dag"])
    same(completed(folder, "dagrun run --maxjobs 3 t"), ["two words.dag"])
    same(completed(folder, "dagrun rehearse one.dag one"), ["one.dag", "one.outcomes"])
    same(completed(folder, "dagrun status one.o"), ["one.outcomes"])
    same(completed(folder, "dagrun graph t"), ["two words.dag"])
    same(completed(folder, "dagrun help r"), ["redo", "rehearse", "report", "run"])
    same(completed(folder, "dagrun version "), [])
    # The codes of faults, and after the DAG file its nodes. Names are input, of which nothing is expanded.
    same(completed(folder, "dagrun explain H"), ["H1", "H2", "H3"])
    same(completed(folder, "dagrun explain S1"), ["S1", "S10", "S11", "S12"])
    write(f"{folder}/four.dag", "JOB fit a.sub\nJOB first a.sub\nJOB $(touch${{IFS}}made) a.sub\nJOB last a.sub\n")
    write(f"{folder}/a.sub", "executable = /bin/true\nqueue\n")
    for name in ("why", "redo"):
        same(completed(folder, f"dagrun {name} four.dag f"), ["first", "fit"])
        same(completed(folder, f"dagrun {name} four.dag last fi"), ["first", "fit"])
        same(len(completed(folder, f"dagrun {name} four.dag ")), 4)
        same(completed(folder, f"dagrun {name} f"), ["four.dag"])
    same(os.path.exists(f"{folder}/made"), False)
    # However the DAG file is typed, and where a file was changed since the round began.
    shutil.copy(f"{folder}/four.dag", f"{folder}/two words.dag")
    for dag in ("~/four.dag", "two\\ words.dag", "~/two\\ words.dag", "'two words.dag'"):
        same(completed(folder, f"dagrun why {dag} f"), ["first", "fit"])
    same(call(folder, SHIPPED, "run", "four.dag")[2], 0)
    write(f"{folder}/a.sub", "executable = /bin/false\nqueue\n")
    same(call(folder, SHIPPED, "status", "four.dag")[::2], ("", 125))
    same(completed(folder, "dagrun why four.dag f"), ["first", "fit"])
    # As bash finds it: the word's own function.
    said = call(folder, "bash", "--norc", "-c", f". {TOP}/packaging/completion/dagrun.bash; complete -p dagrun")
    same(said, ("complete -F _dagrun dagrun\n", "", 0))


def completion_of_zsh(folder):
    needs("zsh")
    same(call(folder, "zsh", "-f", "-n", f"{TOP}/packaging/completion/dagrun.zsh"), ("", "", 0))
    shutil.copy(f"{TOP}/packaging/completion/dagrun.zsh", f"{folder}/_dagrun")
    script = f"fpath=({folder} $fpath); autoload -Uz compinit; compinit -u -d ./dump; print -r -- $_comps[dagrun]"
    same(call(folder, "zsh", "-f", "-c", script), ("_dagrun\n", "", 0))


def completion_of_fish(folder):
    needs("fish")
    write(f"{folder}/one.dag", "")

    def fish(line):
        script = f"source {TOP}/packaging/completion/dagrun.fish; complete -C '{line}'"
        settings = dict(os.environ, HOME=folder, PATH=f"{os.path.dirname(SHIPPED)}:{os.environ['PATH']}")
        said, told, status = call(folder, "fish", "--no-config", "-c", script, env=settings)
        same((told, status), ("", 0))
        return sorted(entry.split("\t")[0] for entry in said.splitlines())

    same(fish("dagrun r"), ["redo", "rehearse", "report", "run"])
    same(fish("dagrun run --m"), ["--maxjobs", "--maxpost", "--maxpre"])
    same(fish("dagrun run --autorescue "), ["0", "1"])
    same(fish("dagrun run o"), ["one.dag"])
    same(fish("dagrun explain S1"), ["S1", "S10", "S11", "S12"])
    write(f"{folder}/four.dag", "JOB fit a.sub\nJOB first a.sub\nJOB last a.sub\n")
    write(f"{folder}/a.sub", "executable = /bin/true\nqueue\n")
    same(fish("dagrun redo four.dag f"), ["first", "fit"])
    same(fish("dagrun why f"), ["four.dag"])


def debian_package(folder):
    needs("dpkg", "dpkg-deb", "gzip")
    said, told, status = call(folder, f"{TOP}/packaging/deb.sh", folder)
    same((told, status), ("", 0))
    package = said.strip()
    root = f"{folder}/root"
    for name in ("info", "updates", "triggers"):
        os.makedirs(f"{root}/var/lib/dpkg/{name}")
    write(f"{root}/var/lib/dpkg/status", "")
    words = ["dpkg", f"--root={root}", "--force-not-root", "--force-depends", "--force-script-chrootless", "--log=/dev/null"]
    settings = dict(os.environ, PATH=os.environ["PATH"] + ":/usr/sbin:/sbin")
    said, told, status = call(folder, *words, "--install", package, env=settings)
    if status != 0:
        raise AssertionError(said + told)
    same(call(folder, f"{root}/usr/bin/dagrun", input="JOB A a.sub\n", stdin=None), ("A DONE attempts=1 value=0\nresult 0\n", "", 0))
    pages = [f"usr/share/man/man1/{page}.gz" for page in PAGES]
    same([path for path in files_below(root) if path.startswith("usr/share/man")], pages)
    said, told, status = call(folder, *words, "--remove", "dagrun", env=settings)
    if status != 0:
        raise AssertionError(said + told)
    same([path for path in files_below(root) if path.startswith("usr")], [])


SUBMIT = os.path.join(TOP, "packaging/condor_submit_dag")
TOLD = "File for submitting this DAG: x.dag.condor.sub\nOutput of the manager:        x.dag.dagman.out\n"


def wait_for(what):
    for _ in range(6000):
        if what():
            return
        time.sleep(0.05)
    raise AssertionError("it did not come in five minutes")


def catches_sigterm(process):
    """Whether a process has its own answer to SIGTERM."""
    with open(f"/proc/{process}/status") as file:
        caught = re.search("^SigCgt:\t([0-9a-f]+)$", file.read(), re.M)[1]
    return int(caught, 16) >> (signal.SIGTERM - 1) & 1 == 1


def shell_job(path, script):
    write(f"{path}.sh", script)
    name = os.path.basename(path)
    write(f"{path}.sub", f"executable = /bin/sh\narguments = {name}.sh\nqueue\n")


def submitted_in_the_background(folder):
    needs("flock")
    write(f"{folder}/x.dag", "JOB A a.sub\n")
    shell_job(f"{folder}/a", ": >a.works\nwhile [ ! -e go ]; do sleep 0.05; done\necho done >>a.out\n")
    said, told, status = call(folder, SUBMIT, "-MaxJobs", "2", "--update_submit", "-notif", "never", "x.dag")
    same((re.sub("[0-9]+", "N", said), told, status), (f"{TOLD}N job(s) submitted to cluster N.\n", "", 0))
    same(os.path.exists(f"{folder}/x.dag.lock"), True)
    # While it works there is no second one, by whichever command.
    same(call(folder, SUBMIT, "x.dag"), ("", "condor_submit_dag: a manager works on x.dag\n", 1))
    wait_for(lambda: os.path.exists(f"{folder}/a.works"))
    same(call(folder, SHIPPED, "run", "x.dag"), ("", "dagrun: X2 FileRefused x.dag.lock\n", 125))
    same(os.path.exists(f"{folder}/x.dag.lock"), True)
    write(f"{folder}/go", "")
    wait_for(lambda: not os.path.exists(f"{folder}/x.dag.lock"))
    # The lock goes with the manager; the last line is written behind it.
    wait_for(lambda: "EXITING WITH STATUS" in open(f"{folder}/x.dag.dagman.out").read())
    lines = open(f"{folder}/x.dag.dagman.out").read().splitlines()
    same(lines[1:3], ["A DONE attempts=1 value=0", "result 0"])
    same(re.fullmatch(r"[0-9/]+ [0-9:]+ \*\*\*\* dagrun \(condor_DAGMAN\) pid [0-9]+ EXITING WITH STATUS 0", lines[3]) is not None, True)
    same("arguments = run --maxjobs 2 x.dag\n" in open(f"{folder}/x.dag.condor.sub").read(), True)
    same(open(f"{folder}/a.out").read(), "done\n")


def rounds_of_condor_submit_dag(folder):
    needs("flock")
    write(f"{folder}/x.dag", "JOB A a.sub\nJOB B b.sub\nPARENT A CHILD B\n")
    shell_job(f"{folder}/a", "echo A >>ran\n")
    shell_job(f"{folder}/b", "echo B >>ran; test -e good\n")

    def submitted(*options):
        same(call(folder, SUBMIT, "-wait", *options, "x.dag")[:2], (TOLD, ""))
        same(os.path.exists(f"{folder}/x.dag.lock"), False)
        ran = open(f"{folder}/ran").read().split()
        os.remove(f"{folder}/ran")
        rescues = [name for name in sorted(os.listdir(folder)) if "rescue" in name]
        return "".join(ran), [name[len("x.dag.") :] for name in rescues]

    same(submitted(), ("AB", ["rescue001"]))
    same(submitted(), ("B", ["rescue001", "rescue002"]))
    same(submitted("-autorescue", "0"), ("AB", ["rescue001", "rescue002", "rescue003"]))
    same(submitted("-dorescue", "02"), ("B", ["rescue001", "rescue002", "rescue003", "rescue003.old"]))
    same("arguments = run --dorescuefrom 2 x.dag\n" in open(f"{folder}/x.dag.condor.sub").read(), True)
    write(f"{folder}/good", "")
    same(submitted("-f"), ("AB", ["rescue001.old", "rescue002.old", "rescue003.old"]))
    statuses = re.findall("STATUS ([0-9]+)", open(f"{folder}/x.dag.dagman.out").read())
    same(statuses, ["1", "1", "1", "1", "0"])
    # A round goes back once the run has ended; with -force it does where that was cut short, too. The journal without its last record:
    journal = open(f"{folder}/x.dag.journal", "rb").read()[:-33] + b"\0"
    open(f"{folder}/x.dag.journal", "wb").write(journal)
    os.rename(f"{folder}/x.dag.rescue002.old", f"{folder}/x.dag.rescue002")
    os.rename(f"{folder}/x.dag.rescue003.old", f"{folder}/x.dag.rescue003")
    same(call(folder, SUBMIT, "-wait", "-dorescuefrom", "2", "x.dag"), (TOLD, "", 1))
    same("dagrun: E6 Unfinished\n" in open(f"{folder}/x.dag.dagman.out").read(), True)
    same(open(f"{folder}/x.dag.journal", "rb").read(), journal)
    same(submitted("-force", "-dorescuefrom", "2"), ("B", ["rescue001.old", "rescue002", "rescue003.old"]))
    same(open(f"{folder}/x.dag.journal.old", "rb").read(), journal)
    os.remove(f"{folder}/x.dag.rescue002")
    # The status is that of the run, and 1 where dagrun refuses.
    write(f"{folder}/x.dag", "JOB A a.sub\nJOB B b.sub\nABORT-DAG-ON A 0 RETURN 42\n")
    same(call(folder, SUBMIT, "-wait", "x.dag")[2], 42)
    write(f"{folder}/x.dag.rescue001", "no line of a rescue file\n")
    same(call(folder, SUBMIT, "-wait", "x.dag")[2], 1)
    same("E1 BadLine x.dag.rescue001:1" in open(f"{folder}/x.dag.dagman.out").read(), True)
    same(os.path.exists(f"{folder}/x.dag.lock"), False)


def stopped_by_its_number(folder):
    needs("flock")
    write(f"{folder}/x.dag", "JOB A a.sub\n")
    shell_job(f"{folder}/a", ": >a.works\nwhile [ ! -e go ]; do sleep 0.05; done\n")
    said, told, status = call(folder, SUBMIT, "x.dag")
    same((told, status), ("", 0))
    wait_for(lambda: os.path.exists(f"{folder}/a.works"))
    script = int(re.search("cluster ([0-9]+)", said)[1])
    # The job may be faster than the script that has started the manager.
    wait_for(lambda: catches_sigterm(script))
    os.kill(script, signal.SIGTERM)
    wait_for(lambda: not os.path.exists(f"{folder}/x.dag.lock"))
    same("EXITING WITH STATUS 2" in open(f"{folder}/x.dag.dagman.out").read(), True)
    same(call(folder, SHIPPED, "audit", "x.dag"), ("audit no F3 Unfinished\n", "", 1))
    write(f"{folder}/go", "")
    # The script may hold its file a moment longer than the lock.
    wait_for(lambda: call(folder, "flock", "-n", "x.dag.condor.sub", "true")[2] == 0)
    same(call(folder, SUBMIT, "-wait", "x.dag"), (TOLD, "", 0))


def behind_a_killed_manager(folder):
    """What a manager leaves that was killed with the script is gone on with, and its lock goes behind it."""
    needs("flock")
    write(f"{folder}/x.dag", "JOB A a.sub\nJOB B b.sub\nPARENT A CHILD B\n")
    shell_job(f"{folder}/a", "echo A >>ran\n")
    shell_job(f"{folder}/b", "echo B >>ran; while [ ! -e go ]; do sleep 0.05; done\n")
    manager = subprocess.Popen([SHIPPED, "run", "x.dag"], cwd=folder, stdout=subprocess.DEVNULL)
    wait_for(lambda: os.path.exists(f"{folder}/ran") and open(f"{folder}/ran").read() == "A\nB\n")
    manager.kill()
    manager.wait()
    write(f"{folder}/go", "")
    same(call(folder, SUBMIT, "-wait", "x.dag"), (TOLD, "", 0))
    same(open(f"{folder}/ran").read(), "A\nB\nB\n")
    same(os.path.exists(f"{folder}/x.dag.lock"), False)


def options_of_condor_submit_dag(folder):
    needs("flock")
    write(f"{folder}/below/x.dag", "JOB A a.sub\n")
    shell_job(f"{folder}/below/a", "pwd >>ran\n")
    os.mkdir(f"{folder}/outputs")
    said, told, status = call(folder, SUBMIT, "-usedagdir", "-wait", "-outfile_dir", "outputs", "below/x.dag")
    same((said.splitlines()[0], told, status), ("File for submitting this DAG: x.dag.condor.sub", "", 0))
    same(open(f"{folder}/below/ran").read(), f"{folder}/below\n")
    same(os.listdir(f"{folder}/outputs"), ["x.dag.dagman.out"])
    for name in ("begun", "inputs", "journal", "log"):
        os.remove(f"{folder}/below/x.dag.{name}")
    same(call(f"{folder}/below", SUBMIT, "-no_submit", "x.dag"), (TOLD, "", 0))
    same(sorted(os.listdir(f"{folder}/below")), ["a.sh", "a.sub", "ran", "x.dag", "x.dag.condor.sub"])
    write(f"{folder}/below/y.dag", "JOB A a.sub\nSCRIPT PRE A /bin/sh -c false\nSCRIPT POST A /bin/echo\n")
    for option, status in (("-AlwaysRunPost", 0), ("-DontAlwaysRunPost", 1)):
        same(call(f"{folder}/below", SUBMIT, option, "-wait", "y.dag")[2], status)
    shutil.rmtree(f"{folder}/below/y.dag.scripts")
    for name in os.listdir(f"{folder}/below"):
        if name.startswith("y.dag"):
            os.remove(f"{folder}/below/{name}")
    refusals = [
        (["-config", "c", "x.dag"], "-config is not done by dagrun"),
        (["-maxj"], "a word is missing behind -maxj"),
        (["-maxjobs", "many", "x.dag"], "-maxjobs many: a number is expected"),
        (["-no_such", "x.dag"], "-no_such is no option that is known here"),
        (["x.dag", "y.dag"], "one DAG file is run at a time, and y.dag is a second one"),
        (["y.dag"], "there is no file y.dag"),
        (["-dorescuefrom", "7", "x.dag"], "there is no file x.dag.rescue007"),
        (["a.sub"], "the DAG is refused: L2 UnknownCommand a.sub:1:1"),
        (["-outfile_dir", "none", "x.dag"], "there is no folder none"),
        (["-outfile_dir", "none/below", "x.dag"], "there is no folder none/below"),
        (["-outfile_dir", "a.sub", "x.dag"], "there is no folder a.sub"),
        (["-outfile_dir", "../taken", "x.dag"], f"{os.path.realpath(folder)}/taken/x.dag.dagman.out can't be written"),
    ]
    os.makedirs(f"{folder}/taken/x.dag.dagman.out")
    if os.getuid() != 0:
        os.mkdir(f"{folder}/closed", 0o555)
        refusals.append((["-outfile_dir", "../closed", "x.dag"], f"{os.path.realpath(folder)}/closed/x.dag.dagman.out can't be written"))
    for words, line in refusals:
        same(call(f"{folder}/below", SUBMIT, *words), ("", f"condor_submit_dag: {line}\n", 1))
    same(sorted(os.listdir(f"{folder}/below")), ["a.sh", "a.sub", "ran", "x.dag", "x.dag.condor.sub"])


def condor_submit_dag_is_installed_apart(folder):
    needs("flock")
    settings = dict(os.environ, HOME=folder)
    said, told, status = call(folder, f"{TOP}/install.sh", "--condor", "here", env=settings)
    same((told, status), ("", 0))
    same(f'export PATH="{folder}/here/lib/dagrun/condor:$PATH"' in said, True)
    same(files_below(f"{folder}/here"), sorted(INSTALLED + ["lib/dagrun/condor/condor_submit_dag"]))
    write(f"{folder}/x.dag", "JOB A a.sub\n")
    shell_job(f"{folder}/a", "")
    submit = f"{folder}/here/lib/dagrun/condor/condor_submit_dag"
    same(call(folder, submit, "-wait", "x.dag", env=with_path("/usr/bin", "/bin")), (TOLD, "", 0))
    same(f"executable = {folder}/here/bin/dagrun\n" in open(f"{folder}/x.dag.condor.sub").read(), True)
    same(call(folder, f"{TOP}/install.sh", "--remove", "here", env=settings)[1:], ("", 0))
    same(files_below(f"{folder}/here"), [])
    same(os.path.exists(f"{folder}/here/lib/dagrun"), False)


NIPYPE = """
import glob, os, sys, time
import nipype.pipeline.plugins.dagman as dagman
from nipype import Function, JoinNode, Node, Workflow

# The plugin looks every 5 seconds whether the lock is gone, and first after 10; here it looks at once, and often.
waits = time.sleep
dagman.time = type("Clock", (), {"sleep": staticmethod(lambda _: waits(0.05))})

def square(number, bad):
    if number == bad:
        raise ValueError(number)
    return number * number

def total(numbers):
    return sum(numbers)

flow = Workflow(name="flow", base_dir=os.getcwd())
squares = Node(Function(input_names=["number", "bad"], output_names=["square"], function=square), name="squares")
squares.iterables = ("number", [1, 2, 3])
squares.inputs.bad = int(sys.argv[2])
totals = JoinNode(Function(input_names=["numbers"], output_names=["sum"], function=total),
                  name="totals", joinsource="squares", joinfield="numbers")
flow.connect(squares, "square", totals, "numbers")
flow.run(plugin="CondorDAGMan", plugin_args={"block": sys.argv[1] == "block", "dagman_args": "-maxjobs 4"})
"""


def nipype_of():
    """A python that has nipype."""
    for python in (sys.executable, "/usr/bin/python3"):
        if os.path.exists(python) and call("/", python, "-c", "import importlib.util as u, sys; sys.exit(not u.find_spec('nipype'))")[2] == 0:
            return python
    raise Skipped("nipype is not installed")


def with_nipype(folder, *words):
    needs("flock")
    python = nipype_of()
    write(f"{folder}/flow.py", NIPYPE)
    settings = dict(with_path(os.path.dirname(SUBMIT), os.environ["PATH"]), HOME=folder, NIPYPE_NO_ET="1", NO_ET="1")
    said, told, status = call(folder, python, "flow.py", *words, env=settings)
    if status != 0:
        raise AssertionError(said + told)
    [dag] = [path for path in files_below(folder) if path.endswith(".dag")]
    return f"{folder}/{dag}"


def result_of(folder):
    """What the joining node of nipype's flow came to."""
    results = [path for path in files_below(folder) if path.endswith("totals/result_totals.pklz")]
    script = "import sys; from nipype.utils.filemanip import loadpkl; print(loadpkl(sys.argv[1]).outputs.sum)"
    return [call(folder, nipype_of(), "-c", script, f"{folder}/{path}")[0] for path in results]


def nipype_waits(folder):
    dag = with_nipype(folder, "block", "0")
    same(os.path.exists(f"{dag}.lock"), False)
    same(result_of(folder), ["14\n"])


def nipype_goes_on_by_itself(folder):
    dag = with_nipype(folder, "leave", "0")
    wait_for(lambda: not os.path.exists(f"{dag}.lock"))
    same(result_of(folder), ["14\n"])
    # The lock goes with the manager; the last line is written behind it.
    wait_for(lambda: "EXITING WITH STATUS" in open(f"{dag}.dagman.out").read())
    same("EXITING WITH STATUS 0" in open(f"{dag}.dagman.out").read(), True)


def nipype_with_a_node_that_fails(folder):
    dag = with_nipype(folder, "block", "2")
    same(result_of(folder), [])
    wait_for(lambda: "EXITING WITH STATUS" in open(f"{dag}.dagman.out").read())
    report = open(f"{dag}.dagman.out").read()
    same(sorted(re.findall("^[0-9]+ (DONE|ERROR|NOT_READY)", report, re.M)), ["DONE", "DONE", "ERROR", "NOT_READY"])
    same("EXITING WITH STATUS 1" in report, True)
    same(open(f"{dag}.rescue001").read().count("\nDONE "), 2)


ROWS = [
    dagrun_runs_the_shipped_program,
    build_proves_what_it_finds,
    installed_and_removed,
    the_program_needs_no_library,
    another_machine,
    shipped_statically,
    generated_texts,
    manual_pages,
    graphviz_reads_a_graph,
    completion_of_bash,
    completion_of_zsh,
    completion_of_fish,
    debian_package,
    submitted_in_the_background,
    rounds_of_condor_submit_dag,
    stopped_by_its_number,
    behind_a_killed_manager,
    options_of_condor_submit_dag,
    condor_submit_dag_is_installed_apart,
    nipype_waits,
    nipype_goes_on_by_itself,
    nipype_with_a_node_that_fails,
]


def main():
    passed = failed = 0
    for row in ROWS:
        if len(sys.argv) > 1 and sys.argv[1] not in row.__name__:
            continue
        with tempfile.TemporaryDirectory() as path:
            try:
                row(os.path.realpath(path))
                passed += 1
            except Skipped as why:
                print(f"skipped {row.__name__}: {why}")
            except (AssertionError, OSError, subprocess.SubprocessError) as fault:
                failed += 1
                print(f"FAILED {row.__name__}: {fault}")
    print(f"{passed} passed, {failed} failed")
    sys.exit(1 if failed else 0)


if __name__ == "__main__":
    main()
