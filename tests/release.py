#!/usr/bin/env python3
"""Makes a release twice, in two clones, and compares them byte for byte; installs each part of it, runs it, removes it; and goes on with a round
between the released program and those that were shipped before, in both directions.

    tests/release.py [WORD]     WORD: only the rows whose name holds it

It makes the release of the last commit: what is not committed is no part of it. A row that needs what is not here says so and is not counted. The
last line is 'N passed, M failed'."""
import os
import re
import shutil
import signal
import subprocess
import sys
import tarfile
import tempfile
import time

from at_call import is_static

TOP = os.path.realpath(os.path.join(os.path.dirname(__file__), ".."))
KEPT = os.path.join(TOP, "tests/old_journals")
# The first workflow of the README, and the same command once more.
FIRST = "numbers DONE attempts=1 value=0\nsquares DONE attempts=1 value=0\ncubes ERROR attempts=1 value=3\ntable NOT_READY attempts=0 value=-\nresult 1\n"
SECOND = "numbers DONE attempts=0 value=-\nsquares DONE attempts=0 value=-\ncubes DONE attempts=1 value=0\ntable DONE attempts=1 value=0\nresult 0\n"
# What its steps call, as busybox has them.
APPLETS = {"bin": "sh cat echo env mkdir rm sleep", "usr/bin": "seq awk paste"}
DAG = "JOB A job.sub\nJOB B job.sub\nJOB C job.sub\nPARENT A CHILD B\nPARENT B CHILD C\n"
ROUND = {
    "x.dag": DAG,
    "job.sub": "executable = /bin/sh\narguments = job.sh $(JOB)\nqueue\n",
    "job.sh": "echo $1 >>ran\nif [ $1 = B ] && [ ! -e go ]; then echo $$ >job.pid; exec sleep 600; fi\n",
}
DONE = "".join(f"{name} DONE attempts=1 value=0\n" for name in "ABC")


class Skipped(Exception):
    """What a row needs is not here."""


def needs(*programs):
    for program in programs:
        if not shutil.which(program):
            raise Skipped(f"{program} is not installed")


def same(found, wanted):
    if found != wanted:
        raise AssertionError(f"found\n{found}\nwanted\n{wanted}")


def call(folder, *words, **settings):
    """What a command prints, what it tells, and its exit status. One of them makes a release, and one runs all of old_journals.py."""
    done = subprocess.run(words, cwd=folder, capture_output=True, text=True, timeout=1800, stdin=subprocess.DEVNULL, **settings)
    return done.stdout, done.stderr, done.returncode


def read(*path):
    with open(os.path.join(*path), "rb") as file:
        return file.read()


def files_below(folder):
    return sorted(os.path.relpath(os.path.join(at, name), folder) for at, _, names in os.walk(folder) for name in names)


def wait_for(what):
    for _ in range(6000):
        if what():
            return
        time.sleep(0.05)
    raise AssertionError("it did not come in five minutes")


def runs_still(process):
    try:
        with open(f"/proc/{process}/stat") as file:
            return file.read().rpartition(")")[2].split()[0] not in "ZX"
    except (FileNotFoundError, ProcessLookupError):
        return False


def released(work, name, **settings):
    """A clone in which a release was made, and its files."""
    clone, out = f"{work}/{name}/clone", f"{work}/{name}/out"
    os.makedirs(out)
    words = ["git", "-c", "advice.detachedHead=false", "clone", "--quiet", "--no-hardlinks", TOP, clone]
    same(call("/", *words)[2], 0)
    environment = dict(os.environ, **settings)
    # As long as no object file is shipped the program is linked dynamically.
    if not os.path.exists(f"{clone}/dist/dagrun.o"):
        environment["DAGRUN_DYNAMIC"] = "1"
    said, told, status = call(clone, "packaging/release.sh", out, env=environment)
    same((told, status), ("", 0))
    same(sorted(said.split()), sorted(f"{out}/{file}" for file in os.listdir(out)))
    return clone, out


class Release:
    """One release, which the rows share."""

    def __init__(self, work):
        self.work = work
        self.clone, self.out = released(work, "one")
        self.version = call("/", f"{self.clone}/dist/dagrun", "version")[0].split()[1]
        self.archive = f"dagrun-{self.version}-linux-x86_64.tar.gz"
        self.package = f"dagrun_{self.version}_amd64.deb"


def bare_root(path):
    """A root in which there is a static busybox and nothing else; answers the words that call something in a folder of it."""
    busybox = os.environ.get("BUSYBOX") or shutil.which("busybox")
    if not busybox or not is_static(busybox):
        raise Skipped("there is no static busybox (Debian: apt-get install busybox-static; BUSYBOX says where one is)")
    needs("unshare", "chroot")
    for folder in ("dev", "proc", *APPLETS):
        os.makedirs(f"{path}/{folder}", exist_ok=True)
    shutil.copy(busybox, f"{path}/bin/busybox")
    for folder, names in APPLETS.items():
        for name in names.split():
            os.symlink("/bin/busybox", f"{path}/{folder}/{name}")
    open(f"{path}/dev/null", "w").close()
    user = [] if os.geteuid() == 0 else ["--map-root-user"]
    script = f'mount --bind /dev/null "{path}/dev/null" && mount --rbind /proc "{path}/proc" && exec chroot "{path}" "$@"'

    def words(folder, *command):
        return ["unshare", *user, "--mount", "/bin/sh", "-c", script, "sh", "/bin/busybox", "sh", "-c", f'cd "{folder}" && exec "$@"', "sh", *command]

    if call("/", *words("/", "/bin/echo"))[2] != 0:
        raise Skipped("no root may be made here")
    return words


def runs_in_a_bare_root(release, root, program):
    """The first workflow of the README, twice, in a root of busybox where the program is a static one, else here."""
    shutil.rmtree(f"{root}/examples", ignore_errors=True)
    shutil.copytree(f"{release.clone}/examples", f"{root}/examples")
    words = ("run", "examples/flow/flow.dag")
    if is_static(f"{root}{program}"):
        enter = bare_root(root)
        found = [call("/", *enter("/", "/bin/env", "-i", program, *words)) for _ in range(2)]
    else:
        found = [call(root, f"{root}{program}", *words) for _ in range(2)]
    same(found, [(FIRST, "", 1), (SECOND, "", 0)])
    same(read(f"{root}/examples/flow/table.txt").split()[:3], [b"1", b"1", b"1"])


def twice_the_same(release, folder):
    """In another clone, with another umask, time zone and language, at a later time."""
    old = os.umask(0o077)
    try:
        _, out = released(folder, "two", TZ="Asia/Tokyo", LC_ALL="C.UTF-8")
    finally:
        os.umask(old)
    same(sorted(os.listdir(out)), sorted(os.listdir(release.out)))
    for name in os.listdir(out):
        same((name, read(out, name) == read(release.out, name)), (name, True))
    same(call(out, "sha256sum", "--quiet", "-c", f"dagrun-{release.version}.sha256"), ("", "", 0))


def one_version(release, folder):
    """The program, the pages, the package, the citation and, from 1.0.0 on, the list of changes have one version."""
    same(re.findall(r"^version: (.*)$", read(release.clone, "CITATION.cff").decode(), re.M), [release.version])
    for name in os.listdir(f"{release.clone}/packaging/man"):
        same((name, f'"dagrun {release.version}"'.encode() in read(release.clone, "packaging/man", name)), (name, True))
    needs("dpkg-deb")
    same(call(release.out, "dpkg-deb", "-f", release.package, "Version")[0], f"{release.version}\n")
    if not release.version.startswith("0."):
        same(f"\n## {release.version}" in read(release.clone, "CHANGELOG.md").decode(), True)


def the_archive(release, folder):
    """What it holds, with which owner, mode and time; the first workflow out of it; installed, run and removed."""
    name = release.archive.removesuffix(".tar.gz")
    committed = int(call(release.clone, "git", "log", "-1", "--format=%ct")[0])
    with tarfile.open(f"{release.out}/{release.archive}") as archive:
        members = archive.getmembers()
        names = [member.name.split("/") for member in members]
        same(names == sorted(names), True)
        same({(member.uid, member.gid, member.mtime) for member in members}, {(0, 0, committed)})
        same({member.mode for member in members} <= {0o755, 0o644}, True)
        same({member.name.split("/")[0] for member in members}, {name})
        here = {member.name[len(name) + 1 :] for member in members}
        archive.extractall(folder)
    wanted = "dagrun install.sh dist/dagrun packaging/man/dagrun.1 packaging/completion/dagrun.bash examples/flow/flow.dag docs/MANUAL.md README.md NOTICE SECURITY.md"
    same([path for path in wanted.split() if path not in here], [])
    same([path for path in here if path.startswith(("crates", "tests", ".git"))], [])
    root = f"{folder}/{name}"
    same(call(root, "./dagrun", "run", "examples/flow/flow.dag"), (FIRST, "", 1))
    runs_in_a_bare_root(release, root, "/dist/dagrun")
    same(call(root, "./install.sh", f"{folder}/prefix")[1:], ("", 0))
    same(call("/", f"{folder}/prefix/bin/dagrun", "version"), (f"dagrun {release.version}\n", "", 0))
    same(call(root, "./install.sh", "--remove", f"{folder}/prefix")[1:], ("", 0))
    same(files_below(f"{folder}/prefix"), [])


def the_package(release, folder):
    """Installed by dpkg in a root of its own, run there, and removed."""
    needs("dpkg", "dpkg-deb")
    root = f"{folder}/root"
    for name in ("info", "updates", "triggers"):
        os.makedirs(f"{root}/var/lib/dpkg/{name}")
    open(f"{root}/var/lib/dpkg/status", "w").close()
    words = ["dpkg", f"--root={root}", "--force-not-root", "--force-script-chrootless", "--log=/dev/null"]
    if not is_static(f"{release.clone}/dist/dagrun"):
        words.append("--force-depends")
    settings = dict(os.environ, PATH=os.environ["PATH"] + ":/usr/sbin:/sbin")
    same(call(folder, *words, "--install", f"{release.out}/{release.package}", env=settings)[2], 0)
    same(read(root, "usr/bin/dagrun") == read(release.clone, "dist/dagrun"), True)
    runs_in_a_bare_root(release, root, "/usr/bin/dagrun")
    same(call(folder, *words, "--remove", "dagrun", env=settings)[2], 0)
    same([path for path in files_below(f"{root}/usr") if "dagrun" in path], [])


def an_upgrade_amid_a_round(release, folder):
    """Rounds that earlier programs left halfway: the released program goes on with them (old_journals.py has what is expected)."""
    said, _, status = call(TOP, "tests/old_journals.py", f"{release.clone}/dist/dagrun")
    same((said.splitlines()[-1].endswith(", 0 failed"), status), (True, 0))


def shipped_before():
    """The programs of the history that write journals of the present version, by their commits, the newest first."""
    listed, _, status = call(TOP, "git", "log", "--format=%h", "--", "dist/dagrun")
    if status != 0 or len(listed.split()) < 2:
        raise Skipped("the history of dist/dagrun is not here")
    return listed.split()[1:]


def begun(program, folder):
    """A round whose manager was killed while B ran."""
    os.mkdir(folder)
    for name, text in ROUND.items():
        with open(f"{folder}/{name}", "w") as file:
            file.write(text)
    manager = subprocess.Popen([program, "run", "x.dag"], cwd=folder, stdout=subprocess.DEVNULL, stderr=subprocess.DEVNULL)
    wait_for(lambda: os.path.exists(f"{folder}/job.pid") and read(folder, "job.pid").endswith(b"\n"))
    manager.send_signal(signal.SIGKILL)
    manager.wait()
    job = int(read(folder, "job.pid"))
    os.kill(job, signal.SIGKILL)
    wait_for(lambda: not runs_still(job))
    open(f"{folder}/go", "w").close()


def back_and_forth(release, folder):
    """A round that one program began goes on under another: from an older one to the released one, and back."""
    current = f"{release.clone}/dist/dagrun"
    for number, commit in enumerate(shipped_before()[:3]):
        older = f"{folder}/dagrun{number}"
        with open(older, "wb") as file:
            file.write(subprocess.run(["git", "show", f"{commit}:dist/dagrun"], cwd=TOP, capture_output=True, check=True).stdout)
        os.chmod(older, 0o755)
        for direction, first, then in (("forth", older, current), ("back", current, older)):
            here = f"{folder}/{direction}{number}"
            begun(first, here)
            same((commit, direction, call(here, then, "run", "x.dag")), (commit, direction, (f"{DONE}result 0\n", "", 0)))
            same(read(here, "ran"), b"A\nB\nB\nC\n")
            same(call(here, first, "audit", "x.dag"), (f"{DONE}audit ok\n", "", 0))


ROWS = [twice_the_same, one_version, the_archive, the_package, an_upgrade_amid_a_round, back_and_forth]


def main():
    for program in ("git", "dpkg-deb"):
        if not shutil.which(program) or call(TOP, "git", "rev-parse", "HEAD")[2] != 0:
            print(f"no release is made: {program} is not installed, or this is no clone")
            print("0 passed, 0 failed")
            return
    passed = failed = 0
    with tempfile.TemporaryDirectory() as work:
        release = Release(os.path.realpath(work))
        for row in ROWS:
            if len(sys.argv) > 1 and sys.argv[1] not in row.__name__:
                continue
            with tempfile.TemporaryDirectory() as path:
                try:
                    row(release, os.path.realpath(path))
                    passed += 1
                except Skipped as why:
                    print(f"skipped {row.__name__}: {why}")
                except (AssertionError, OSError, subprocess.SubprocessError) as fault:
                    failed += 1
                    print(f"FAILED {row.__name__}: {fault}")
    print(f"{passed} passed, {failed} failed")
    sys.exit(1 if failed else 0)


if __name__ == "__main__":
    main()
