#!/usr/bin/env python3
"""Says which names of specs/ are defined in more than one module, and which names of pages are of nothing that is there

A name has one definition, so that a reader of a clause who looks it up finds the one that is meant. Of a page, these are looked up: a name
of several parts or with a capital, between backticks, is a word of the sources; in docs/PROMISES.md, the clauses that follow a call and a
colon are clauses of that call, the calls that follow a type are calls, and the names of a row of the index are defined in its modules; in the
README.md of a crate, a name in parentheses behind a call is a clause of that call, a call of the crate, or a definition.
It prints each other name with its place, and exits with 1 where there is one.
"""
import collections
import pathlib
import re
import sys

TOP = pathlib.Path(__file__).resolve().parent.parent
DEFINITION = re.compile(r"^(?:pub |abbrev |unfoldable |opaque |data |record )+([^\s:({]+)", re.M)

# Each crate that reads has these of its own faults: what a call returns where reading gives a value or a fault, and the fault
# that a refusal is told with.
ALIKE = {"Fails", "Gives", "told_fault"}

# Pages for who works on dagrun; those for users name files and programs of theirs.
PAGES = ["docs/ARCHITECTURE.md", "docs/DECISIONS.md", "docs/PROMISES.md", "docs/PROOF.md", "docs/JOURNAL.md", "crates/*/README.md"]
PROMISES = TOP / "docs" / "PROMISES.md"

# Names of the library or of the system, and those that a page says are not there.
FOREIGN = {"VecDeque"}

IN_TICKS = re.compile(r"`([^`\n]+)`")
PATH = re.compile(r"[A-Za-z_]\w*(?:::[A-Za-z_]\w*)*")
NAMED_AFTER = re.compile(r"`([\w:]+)`(?: of \w+)?(?: \([^)]*\))?: ((?:`\w+`(?: \((?:`\w+`|[^`)])*\))?(?:, | and )?)+)")


def definitions():
    """The modules of specs/ that define a name, by name."""
    found = collections.defaultdict(set)
    for file in sorted(TOP.glob("crates/*/specs/**/*.antt")):
        module = f"{file.parts[len(TOP.parts) + 1]} {file.stem}"
        for name in set(DEFINITION.findall(file.read_text(encoding="utf-8"))) - {"mod", "use"}:
            found[name].add(module)
    return found


def known_words():
    """All words of sources and definitions, the names of crates and those of wrong bodies."""
    words = {folder.name for folder in TOP.glob("crates/*")} | {edit.stem for edit in TOP.glob("crates/*/*/*.edit")}
    for pattern in ("crates/*/src/**/*.rt", "crates/*/specs/**/*.antt"):
        for file in TOP.glob(pattern):
            words.update(re.findall(r"[A-Za-z_]\w*", file.read_text(encoding="utf-8")))
    return words


def clauses_of_calls():
    """The names of the clauses of each call of the sources, by the call's name."""
    found = collections.defaultdict(set)
    for file in TOP.glob("crates/*/src/**/*.rt"):
        name = None
        for line in file.read_text(encoding="utf-8").split("\n"):
            if call := re.match(r"\s*(?:pub(?:\(crate\))? )?(?:final )?fn (\w+)", line):
                name = call.group(1)
                found[name].update()
            if (clause := re.match(r"\s*ensures (\w+) \{", line)) and name:
                found[name].add(clause.group(1))
    return found


def is_name(token):
    """Whether a token between backticks is a name that the sources must have."""
    return PATH.fullmatch(token) and ("_" in token or "::" in token or re.match(r"[A-Z][a-z]+[A-Z]", token))


def unknown_on_pages():
    """The names on pages that are no words of the sources."""
    known = known_words() | FOREIGN
    for page in sorted(file for pattern in PAGES for file in TOP.glob(pattern)):
        for number, line in enumerate(page.read_text(encoding="utf-8").split("\n"), 1):
            for token in IN_TICKS.findall(line):
                if is_name(token) and not known.issuperset(token.split("::")):
                    yield f"{page.relative_to(TOP)}:{number}: {token}"


def unknown_clauses():
    """The clauses that PROMISES.md names behind a call which has none of that name, and calls behind a type that are none."""
    clauses = clauses_of_calls()
    for number, line in enumerate(PROMISES.read_text(encoding="utf-8").split("\n"), 1):
        for path, names in NAMED_AFTER.findall(line):
            call = path.split("::")[-1]
            for name in re.findall(r"`(\w+)`", re.sub(r"\([^)]*\)", "", names)):
                if name not in (clauses.get(call) or clauses) and not call.startswith("Is") and not name.startswith("Is"):
                    yield f"docs/PROMISES.md:{number}: {path}: {name}"


def unknown_in_readmes():
    """The names in parentheses behind a call that are no clause of it, item by item of the crates' pages."""
    clauses, others = clauses_of_calls(), set(definitions()) | {folder.name for folder in TOP.glob("crates/*")}
    for page in sorted(TOP.glob("crates/*/README.md")):
        own = {name for file in page.parent.glob("src/**/*.rt") for name in re.findall(r"\bfn (\w+)", file.read_text(encoding="utf-8"))}
        for item in re.split(r"\n(?=- |\n|#)", page.read_text(encoding="utf-8")):
            groups = re.findall(r"\(((?:`\w+`(?:, | and )?)+)\)", item)
            calls = {path.split("::")[-1] for path in IN_TICKS.findall(re.sub(r"\([^)]*\)", "", item))} & set(clauses)
            named = {name for group in groups for name in IN_TICKS.findall(group)} if calls else set()
            fitting = others.union(own, *(clauses[call] for call in calls))
            yield from (f"{page.relative_to(TOP)}: {name} of {', '.join(sorted(calls))}" for name in sorted(named - fitting))


def defined_in(crate, modules):
    """The words at which a line of these modules begins, and the names that they define."""
    for module in modules:
        file = TOP / "crates" / crate / "specs" / f"{module}.antt"
        text = file.read_text(encoding="utf-8") if file.exists() else ""
        yield from re.findall(r"^\s*(?:(?:pub|abbrev|unfoldable|opaque|data|record) )*([^\s:({]+)", text, re.M)


def unknown_in_index():
    """The names of the index of PROMISES.md that the modules of their row don't define."""
    commands = set(re.findall(r"^\| `dagrun (\w+)", (TOP / "README.md").read_text(encoding="utf-8"), re.M))
    text = PROMISES.read_text(encoding="utf-8")
    start = text.index("## Index of the definitions")
    for line in text[start:].split("\n"):
        cells = [cell.strip() for cell in line.strip("|").split("|")]
        if line.startswith("| ") and len(cells) > 1:
            found = set(commands)
            for crate, modules in re.findall(r"(\w+) ((?:`\w+`(?:, )?)+)", cells[1]):
                found.update(defined_in(crate, re.findall(r"`(\w+)`", modules)))
            yield from (f"docs/PROMISES.md, the index: {name} of {cells[1]}" for name in IN_TICKS.findall(cells[0]) if name not in found)


def main():
    doubled = {name: sorted(modules) for name, modules in definitions().items() if len(modules) > 1 and name not in ALIKE}
    told = [f"{name}: {', '.join(modules)}" for name, modules in sorted(doubled.items())]
    told += [*unknown_on_pages(), *unknown_clauses(), *unknown_in_index(), *unknown_in_readmes()]
    print("\n".join(told), end="\n" if told else "")
    return 1 if told else 0


if __name__ == "__main__":
    sys.exit(main())
