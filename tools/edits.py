#!/usr/bin/env python3
"""Says of each edit of crates/NAME/must-fail and crates/NAME/wrong-bodies whether it still fits, and proves nothing: each `old:`
text is in its file once, the edit changes something, and the sources with it compile.

    tools/edits.py               all edits
    tools/edits.py CRATE ..      those of these crates

Sources are compiled with many edits at once, no two in one line, so that three passes do for some 700 edits. tools/edits.sums has a
line for each crate whose edits compiled: its name and the SHA-256 over its code and its edits. What it has is not compiled again. A
crate whose libraries are built (`rt check` or `rt lib` in it) is compiled over them, in half a minute a pass; any other one with
the sources of all below it, one pass at a time, which takes five processor minutes and up to 11 GB for dagrun: so the sums are committed with the edits. Where a
pass is refused, the edits of the files that it names are tried one by one, and then the others again. The status is 1 where an edit
doesn't fit. Of an edit of specs/ it is only seen that its text is there: the compiler reads no definition without a proof."""

import concurrent.futures
import glob
import hashlib
import os
import re
import shutil
import subprocess
import sys
import tempfile

TOP = os.path.dirname(os.path.dirname(os.path.realpath(__file__)))
PARTS = ("src", "specs", "proofs")
SUMS = f"{TOP}/tools/edits.sums"


class Unfit(Exception):
    """Why an edit can't be applied."""


class Edit:
    """An edit file: the crate that it breaks, and its replacements, in order: file, old text, new text."""

    def __init__(self, path):
        self.path = os.path.relpath(path, TOP)
        self.crate = self.path.split("/")[1]
        self.steps = []
        file = old = None
        for line in open(path, encoding="utf-8"):
            line = line.rstrip("\n")
            if line.startswith("file: "):
                file = line.removeprefix("file: ").strip()
            elif line.startswith("old:"):
                old = line.removeprefix("old:").removeprefix(" ")
            elif line.startswith("new:") and file and old:
                self.steps.append((file, old, line.removeprefix("new:").removeprefix(" ")))
                old = None

    def applied(self, texts):
        """The texts of its crate's files, by their paths, with this edit made; Unfit where it can't be."""
        texts = dict(texts)
        if not self.steps:
            raise Unfit("it has no pair of an 'old:' and a 'new:' line")
        for file, old, new in self.steps:
            if file not in texts:
                raise Unfit(f"there is no file {file}")
            if texts[file].count(old) != 1:
                raise Unfit(f"its 'old:' text is in {file} {texts[file].count(old)} times: {old.strip()[:60]}")
            if old == new:
                raise Unfit("it changes nothing")
            texts[file] = texts[file].replace(old, new)
        return texts

    def lines(self, texts):
        """The lines that it touches, by crate and file."""
        lines = set()
        for file, old, _ in self.steps:
            at = texts[file].find(old)
            first = texts[file].count("\n", 0, max(at, 0))
            lines |= {(self.crate, file, line) for line in range(first, first + old.count("\n") + 1)}
        return lines


def texts_of(crate):
    """The texts of a crate's files, by their paths in it."""
    texts = {}
    for part in PARTS:
        for folder, _, files in os.walk(f"{TOP}/crates/{crate}/{part}"):
            for file in files:
                path = f"{folder}/{file}"
                texts[os.path.relpath(path, f"{TOP}/crates/{crate}")] = open(path, encoding="utf-8").read()
    return texts


def uses_of():
    """What each crate stands on, as crates.txt has it."""
    uses = {}
    for line in open(f"{TOP}/crates.txt", encoding="utf-8"):
        if line[0].isalpha():
            name, _, rest = line.partition(":")
            uses[name.split()[0]] = rest.split()
    return uses


def below(crate, uses, seen=None):
    """The crates of this repository below a crate, lowest first."""
    seen = [] if seen is None else seen
    for name in uses[crate]:
        if name in uses and name not in seen:
            below(name, uses, seen)
            seen.append(name)
    return seen


def library_of(crate):
    """The path of a crate's library, where one is built of the sources as they are, else None."""
    folder = f"{TOP}/crates/{crate}/out/rlib"
    if not os.path.exists(f"{folder}/stamp"):
        return None
    sources = [f"{at}/{file}" for part in PARTS for at, _, files in os.walk(f"{TOP}/crates/{crate}/{part}") for file in files]
    is_new = all(os.path.getmtime(file) <= os.path.getmtime(f"{folder}/stamp") for file in sources)
    return f"{folder}/{crate}.rlib" if is_new else None


def has_libraries(crate, uses):
    """Whether the library of each crate below this one is built."""
    return all(map(library_of, below(crate, uses)))


def root_of(room, crate):
    """The path of the file that is a crate's root, in the copy of the repository in this room."""
    program = f"{room}/crates/{crate}/src/main.rt"
    return program if os.path.exists(program) else f"{room}/crates/{crate}/src/lib.rt"


def compiled(room, crate, uses):
    """What the compiler says of a crate, over its libraries or with all below it, of the sources in this room: no text where it takes
    them."""
    kit = os.path.dirname(os.path.dirname(os.path.realpath(shutil.which("rt"))))
    lower = below(crate, uses)
    of_kit = {"core", "std"} | {name for it in [crate, *lower] for name in uses[it] if name not in uses}
    words = ["--crate-name", crate, os.path.relpath(root_of(room, crate), f"{room}/crates/{crate}")]
    if has_libraries(crate, uses):
        of_kit = {"std", *uses[crate]} - set(lower)
        for name in lower:
            words += ["-L", f"dependency={os.path.dirname(library_of(name))}"]
            words += ["--extern", f"{name}={library_of(name)}"] * (name in uses[crate])
    else:
        for name in lower:
            words += ["--lib", f"{name}:{','.join(['core', 'std', *uses[name]])}={root_of(room, name)}"]
    for name in sorted(of_kit):
        words += ["--extern", f"{name}={kit}/rlibs/{name}.rlib"]
    words += ["-L", f"dependency={kit}/rlibs", "--antt-project", f"{kit}/rattle/logic/antt-project.json"]
    words += ["--logic-built", f"{kit}/logic_built", "--jobs", "1", "--only", ""]
    ran = subprocess.run([f"{kit}/bin/rattle", "check", *words], cwd=f"{room}/crates/{crate}", stdin=subprocess.DEVNULL, stdout=subprocess.PIPE, stderr=subprocess.STDOUT, text=True)
    if re.search(r"^only=", ran.stdout, re.M) and not re.search(r"\berror\[", ran.stdout):
        return ""
    return ran.stdout


def tried(texts, top, uses):
    """What the compiler says of the crate `top` and all below it, of these texts of each crate's files: no text where it takes them."""
    with tempfile.TemporaryDirectory(prefix="dagrun-edits-") as room:
        for crate, files in texts.items():
            for path, text in files.items():
                os.makedirs(os.path.dirname(f"{room}/crates/{crate}/{path}"), exist_ok=True)
                with open(f"{room}/crates/{crate}/{path}", "w", encoding="utf-8") as file:
                    file.write(text)
        said = compiled(room, top, uses).replace(f"{room}/", "")
    return re.sub(r"(?m)^((?:error|note|warning)?[^\n\w/]*)src/", rf"\1crates/{top}/src/", said)


class Round:
    """Edits of which no two touch one line, and the texts with all of them made."""

    def __init__(self, texts):
        self.texts, self.lines, self.edits = dict(texts), set(), []

    def takes(self, edit, lines):
        """Whether this edit fits beside the others; then it is one of them."""
        if self.lines & lines:
            return False
        try:
            self.texts[edit.crate] = edit.applied(self.texts[edit.crate])
        except Unfit:
            return False
        self.lines |= lines
        self.edits.append(edit)
        return True


def rounds_of(edits, texts):
    """The edits in rounds."""
    rounds = []
    for edit in edits:
        lines = edit.lines(texts[edit.crate])
        if not any(one.takes(edit, lines) for one in rounds):
            rounds.append(Round(texts))
            rounds[-1].takes(edit, lines)
    return rounds


def fitting(edits, texts):
    """The edits that can be applied, and why the others can't."""
    fit, faults = [], []
    for edit in edits:
        try:
            edit.applied(texts[edit.crate])
            fit.append(edit)
        except Unfit as why:
            faults.append(f"{edit.path}: {why}")
    return fit, faults


def blamed(said, edits, texts):
    """The edits near the lines that the compiler names; of those files, where there are none; of the crates; or all."""
    named = {(crate, file, int(line)) for crate, file, line in re.findall(r"crates/(\w+)/(src/[\w/]+\.rt):(\d+)", said)}
    near = {(crate, file, line + by) for crate, file, line in named for by in range(-4, 4)}
    of_lines = [edit for edit in edits if edit.lines(texts[edit.crate]) & near]
    files, crates = {(crate, file) for crate, file, _ in named}, {crate for crate, _, _ in named}
    of_files = [edit for edit in edits if any((edit.crate, file) in files for file, _, _ in edit.steps)]
    of_crates = [edit for edit in edits if edit.crate in crates]
    return of_lines or of_files or of_crates or edits


def tops_of(edits, uses):
    """The crates of these edits whose libraries are built, and of the others those that none stands on: whoever compiles these compiles
    all."""
    crates = {edit.crate for edit in edits}
    others = {crate for crate in crates if not has_libraries(crate, uses)}
    lower = {name for crate in others for name in below(crate, uses)}
    return sorted(crates - (lower & others))


def refused_of(edits, texts, uses):
    """The edits of a round that the compiler refuses, each with what it says."""
    refused, left = {}, edits
    while left:
        [one] = rounds_of(left, texts)
        said = "".join(tried(one.texts, top, uses) for top in tops_of(left, uses))
        if not said:
            break
        # What is refused of one edit may hide what is wrong with others: these are tried again without it.
        doubted = blamed(said, left, texts)
        for edit in doubted:
            alone = tried({**texts, edit.crate: edit.applied(texts[edit.crate])}, edit.crate, uses)
            if alone:
                refused[edit] = alone
        left = [edit for edit in left if edit not in doubted]
    return refused


def first_error(said):
    """The first error among what the compiler says, or the end of it."""
    error = re.search(r".*\berror\b.*", said)
    return error[0] if error else said[-300:]


def sum_of(crate, texts, edits):
    """The SHA-256 over a crate's code and its edits."""
    total = hashlib.sha256()
    parts = [f"{path}\n{text}" for path, text in texts[crate].items() if path.startswith("src/")]
    parts += [repr((os.path.basename(edit.path), edit.steps)) for edit in edits if edit.crate == crate]
    for part in sorted(parts):
        total.update(hashlib.sha256(part.encode()).digest())
    return total.hexdigest()


def kept_sums():
    """The sums of tools/edits.sums, by crate."""
    if not os.path.exists(SUMS):
        return {}
    return dict(line.split() for line in open(SUMS, encoding="utf-8"))


def compile_edits(edits, texts, uses):
    """Compiles these edits, and answers a line for each that the compiler refuses, by its edit."""
    rounds = [one.edits for one in rounds_of(edits, texts)]
    # With the sources of all below it one pass takes up to 11 GB.
    is_small = all(has_libraries(crate, uses) for crate in {edit.crate for edit in edits})
    with concurrent.futures.ThreadPoolExecutor(max(1, min(3, os.cpu_count() - 1)) if is_small else 1) as pool:
        found = [refused for refused in pool.map(lambda edits: refused_of(edits, texts, uses), rounds)]
    return {edit: f"{edit.path}: it doesn't compile: {first_error(said)}" for refused in found for edit, said in refused.items()}


def main():
    wanted = set(sys.argv[1:])
    found = sorted(glob.glob(f"{TOP}/crates/*/must-fail/*.edit") + glob.glob(f"{TOP}/crates/*/wrong-bodies/*.edit"))
    uses, every = uses_of(), list(map(Edit, found))
    texts = {crate: texts_of(crate) for crate in uses}
    edits = [edit for edit in every if not wanted or edit.crate in wanted]
    fit, faults = fitting(edits, texts)
    sums = {crate: sum_of(crate, texts, every) for crate in sorted({edit.crate for edit in every})}
    kept = {crate: was for crate, was in kept_sums().items() if sums.get(crate) == was}
    of_code = [edit for edit in fit if all(file.startswith("src/") for file, _, _ in edit.steps)]
    refused = compile_edits([edit for edit in of_code if edit.crate not in kept], texts, uses)
    faults += refused.values()
    spoiled = {edit.crate for edit in refused} | {edit.crate for edit in edits if edit not in fit}
    kept.update({edit.crate: sums[edit.crate] for edit in edits if edit.crate not in spoiled})
    with open(SUMS, "w", encoding="utf-8") as file:
        file.writelines(f"{crate} {kept[crate]}\n" for crate in sorted(kept))
    for fault in faults:
        print(fault)
    print(f"{len(edits) - len(faults)} passed, {len(faults)} failed")
    return 1 if faults else 0


if __name__ == "__main__":
    sys.exit(main())
