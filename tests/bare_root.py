#!/usr/bin/env python3
"""Runs the program in a root that holds nothing but it, a static busybox, /dev/null and /proc: no C library, no loader, no time zones, no
users, no PATH.

    tests/bare_root.py [--must] [PROGRAM]     PROGRAM: dist/dagrun where none is given

A program that is linked dynamically finds no loader there: it is passed over with a note, and with --must, which `./test` gives once
there is an object file to link (dist/dagrun.o), it fails. Without a static busybox (BUSYBOX says where one is), and where no root may be
made (unshare, chroot), nothing is tried, with a note. The last line is 'N passed, M failed'."""
import os
import re
import shutil
import signal
import subprocess
import sys
import tempfile
import time

from at_call import is_static

TOP = os.path.realpath(os.path.join(os.path.dirname(__file__), ".."))
# What the folder of a row holds: four jobs, of which C fails as long as there is no file `fixed`.
DIAMOND = {
    "x.dag": "JOB A job.sub\nJOB B job.sub\nJOB C job.sub\nJOB D job.sub\nPARENT A CHILD B C\nPARENT B C CHILD D\n",
    "job.sub": "executable = /bin/sh\narguments = job.sh $(JOB)\noutput = $(JOB).out\nerror = $(JOB).err\nqueue\n",
    "job.sh": "echo ran >>ran.$1\necho of $1\nif [ $1 = C ] && [ ! -e fixed ]; then echo no file >&2; exit 3; fi\n",
}
STATUS = "A DONE attempts=1 value=0\nB DONE attempts=1 value=0\nC ERROR attempts=1 value=3\nD NOT_READY attempts=0 value=-\n"
SECOND = "A DONE attempts=0 value=-\nB DONE attempts=0 value=-\nC DONE attempts=1 value=0\nD DONE attempts=1 value=0\n"
RESCUE = "# Rescue DAG file\n# Total number of Nodes: 4\n# Nodes premarked DONE: 2\n\nDONE A\nDONE B\n"
# The second job waits for a file; it writes down its process, and the third is behind it.
WAITING = {
    "x.dag": "JOB A job.sub\nJOB B job.sub\nJOB C job.sub\nPARENT A CHILD B\nPARENT B CHILD C\n",
    "job.sub": "executable = /bin/sh\narguments = job.sh $(JOB)\nqueue\n",
    "job.sh": "echo ran >>ran.$1\nif [ $1 = B ]; then\n    echo $$ >pid.new\n    mv pid.new pid\n    while [ ! -e go ]; do sleep 0.05; done\nfi\n",
}
APPLETS = "sh sleep mv cat echo true false env".split()


def same(found, wanted):
    if found != wanted:
        raise AssertionError(f"found\n{found}\nwanted\n{wanted}")


def matches(text, pattern):
    if not re.search(pattern, text, re.M):
        raise AssertionError(f"{pattern!r} is not in\n{text}")


class Root:
    """A folder that is the root of what is called in it."""

    def __init__(self, path, program, busybox):
        self.path = path
        for name in ("bin", "dev", "proc", "room"):
            os.makedirs(f"{path}/{name}")
        os.chmod(path, 0o755)
        shutil.copy(program, f"{path}/bin/dagrun")
        shutil.copy(busybox, f"{path}/bin/busybox")
        for name in APPLETS:
            os.symlink("busybox", f"{path}/bin/{name}")
        open(f"{path}/dev/null", "w").close()
        # In name spaces of their own, so that nothing stays mounted.
        user = [] if os.geteuid() == 0 else ["--map-root-user"]
        self.enter = ["unshare", *user, "--mount", "/bin/sh", "-c"]
        self.enter += [f'mount --bind /dev/null "{path}/dev/null" && mount --rbind /proc "{path}/proc" && exec chroot "{path}" "$@"', "sh"]

    def words(self, folder, *words):
        return [*self.enter, "/bin/busybox", "sh", "-c", f'cd /room/{folder} && exec "$@"', "sh", *words]

    def call(self, folder, *words):
        """What a command prints, what it tells, and its exit status, with an empty environment."""
        done = subprocess.run(self.words(folder, *words), capture_output=True, text=True, timeout=300, env={"PATH": os.environ["PATH"]})
        return done.stdout, done.stderr, done.returncode

    def dagrun(self, folder, *words):
        return self.call(folder, "/bin/env", "-i", "/bin/dagrun", *words)

    def holds(self, folder, files):
        os.mkdir(f"{self.path}/room/{folder}")
        for name, text in files.items():
            with open(f"{self.path}/room/{folder}/{name}", "w") as file:
                file.write(text)

    def read(self, folder, name):
        with open(f"{self.path}/room/{folder}/{name}") as file:
            return file.read()


def wait_for(what):
    for _ in range(6000):
        if what():
            return
        time.sleep(0.05)
    raise AssertionError("it did not come in five minutes")


def is_alive(process):
    """Whether a process is there and has not ended: one that nobody has asked for yet is a zombie."""
    try:
        with open(f"/proc/{process}/stat") as file:
            return file.read().rpartition(")")[2].split()[0] not in "ZX"
    except (FileNotFoundError, ProcessLookupError):
        return False


def reading(root, folder):
    root.holds(folder, {**DIAMOND, "table": "C 0 JOB 3\n"})
    same(root.dagrun(folder, "check", "x.dag"), ("ok nodes=4 edges=4 final=no\n", "", 0))
    same(root.dagrun(folder, "rehearse", "x.dag", "table"), (f"{STATUS}result 1\n{RESCUE}", "", 1))
    same(root.dagrun(folder, "check", "y.dag"), ("", "dagrun: S1 MissingFile y.dag\n", 125))
    said, told, status = root.dagrun(folder, "check", "--hints", "x.dag")
    same((said.splitlines()[0], told, status), ("ok nodes=4 edges=4 final=no", "", 0))


def running(root, folder):
    root.holds(folder, DIAMOND)
    same(root.dagrun(folder, "run", "x.dag"), (f"{STATUS}result 1\n", "", 1))
    same((root.read(folder, "x.dag.rescue001"), root.read(folder, "A.out"), root.read(folder, "C.err")), (RESCUE, "of A\n", "no file\n"))
    same(root.dagrun(folder, "status", "x.dag"), (STATUS, "", 0))
    same(root.dagrun(folder, "audit", "x.dag"), (f"{STATUS}audit ok\n", "", 0))
    why, told, status = root.dagrun(folder, "why", "x.dag")
    same((told, status), ("", 0))
    matches(why, r"^C ERROR: its job ended with exit 3\b")
    matches(why, r"^ +no file$")
    times, told, status = root.dagrun(folder, "times", "x.dag")
    same((told, status, [line.split("\t")[0] for line in times.splitlines()][1:4]), ("", 0, ["A", "B", "C"]))
    graph, told, status = root.dagrun(folder, "graph", "x.dag")
    same((told, status, graph.count("palegreen"), graph.count(" -> ")), ("", 0, 2, 4))
    # The clock of the log is UTC, and there is no time zone here.
    matches(root.read(folder, "x.dag.log"), r"^\d{4}-\d\d-\d\dT\d\d:\d\d:\d\d\.\d{3}Z\tend\tC\t")
    open(f"{root.path}/room/{folder}/fixed", "w").close()
    same(root.dagrun(folder, "run", "x.dag"), (f"{SECOND}result 0\n", "", 0))
    same([root.read(folder, f"ran.{name}") for name in "ABCD"], ["ran\n", "ran\n", "ran\nran\n", "ran\n"])


def not_there(root, folder):
    """A program that is not there, and one that ends by a signal."""
    files = {"a.sub": "executable = /no/such\nqueue\n", "b.sub": "executable = /bin/sh\narguments = job.sh\nqueue\n", "job.sh": "kill -TERM $$\n"}
    root.holds(folder, {"x.dag": "JOB A a.sub\nJOB B b.sub\n", **files})
    said, told, status = root.dagrun(folder, "run", "x.dag")
    same((said, told, status), ("A ERROR attempts=1 value=-1001\nB ERROR attempts=1 value=-15\nresult 1\n", "", 1))


def behind_a_kill(root, folder):
    root.holds(folder, WAITING)
    here = f"{root.path}/room/{folder}"
    manager = subprocess.Popen(
        root.words(folder, "/bin/env", "-i", "/bin/dagrun", "run", "x.dag"), stdout=subprocess.DEVNULL, stderr=subprocess.DEVNULL
    )
    wait_for(lambda: os.path.exists(f"{here}/pid"))
    job = int(root.read(folder, "pid"))
    os.kill(manager.pid, signal.SIGKILL)
    same(manager.wait(), -signal.SIGKILL)
    # The job is an orphan now; the next run ends it before it starts it again.
    os.remove(f"{here}/pid")
    again = subprocess.Popen(
        root.words(folder, "/bin/env", "-i", "/bin/dagrun", "run", "x.dag"), stdout=subprocess.PIPE, stderr=subprocess.PIPE, text=True
    )
    wait_for(lambda: os.path.exists(f"{here}/pid"))
    same((int(root.read(folder, "pid")) != job, is_alive(job)), (True, False))
    open(f"{here}/go", "w").close()
    said, told = again.communicate(timeout=300)
    report = "A DONE attempts=1 value=0\nB DONE attempts=1 value=0\nC DONE attempts=1 value=0\n"
    same((said, told, again.returncode), (f"{report}result 0\n", "", 0))
    same([root.read(folder, f"ran.{name}") for name in "ABC"], ["ran\n", "ran\nran\n", "ran\n"])
    same(root.dagrun(folder, "audit", "x.dag"), (f"{report}audit ok\n", "", 0))


def calls_that_are_missing(root, folder):
    """A kernel of 3.10 has none of these calls: the C library does without them."""
    if not shutil.which("strace"):
        return "strace is not installed"
    root.holds(folder, DIAMOND)
    missing = "statx,clone3,close_range,rseq,getrandom,openat2,pidfd_open,faccessat2,execveat,copy_file_range,membarrier"
    words = ["strace", "-f", "-qqq", "-o", "/dev/null", "-e", f"trace={missing}", "-e", f"inject={missing}:error=ENOSYS", "-e", "signal=none"]
    done = subprocess.run(
        [*words, f"{root.path}/bin/dagrun", "run", "x.dag"], cwd=f"{root.path}/room/{folder}", capture_output=True, text=True, timeout=300
    )
    same((done.stdout, done.stderr, done.returncode), (f"{STATUS}result 1\n", "", 1))
    return None


ROWS = [reading, running, not_there, behind_a_kill, calls_that_are_missing]


def reason_not_to(program, must, busybox, work):
    """Why nothing is tried here, or None."""
    if not is_static(program):
        if must:
            print(f"{program} is linked dynamically, and is to run where there is no C library: ./dist.sh links it statically")
            print(f"0 passed, {len(ROWS)} failed")
            sys.exit(1)
        return f"{program} is linked dynamically"
    if not busybox or not os.path.exists(busybox) or not is_static(busybox):
        return "there is no static busybox (Debian: apt-get install busybox-static; BUSYBOX says where one is)"
    if not shutil.which("unshare") or not shutil.which("chroot"):
        return "unshare and chroot are not there"
    done = subprocess.run(Root(f"{work}/tried", program, busybox).words("", "/bin/true"), capture_output=True, text=True, timeout=300)
    return None if done.returncode == 0 else f"no root may be made here: {done.stderr.strip()}"


def main():
    words = sys.argv[1:]
    must = "--must" in words
    paths = [word for word in words if word != "--must"]
    program = os.path.realpath(paths[0]) if paths else os.path.join(TOP, "dist/dagrun")
    busybox = os.environ.get("BUSYBOX") or shutil.which("busybox")
    passed = failed = 0
    with tempfile.TemporaryDirectory() as work:
        reason = reason_not_to(program, must, busybox, work)
        if reason:
            print(f"nothing is tried in a bare root: {reason}")
        else:
            root = Root(f"{work}/root", program, busybox)
            for number, row in enumerate(ROWS):
                try:
                    skipped = row(root, f"row{number}")
                    if skipped:
                        print(f"{row.__name__} is passed over: {skipped}")
                    else:
                        passed += 1
                except (AssertionError, OSError, subprocess.TimeoutExpired) as fault:
                    failed += 1
                    print(f"{row.__name__}: {fault}")
    print(f"{passed} passed, {failed} failed")
    sys.exit(failed > 0)


if __name__ == "__main__":
    main()
