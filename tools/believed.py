#!/usr/bin/env python3
"""What a reader of the contracts has to believe: for each crate named (the seven lowest without words) the lines of specs/ that
stand behind its public calls, without comments, blank lines and imports, beside all that specs/ has.

A definition stands behind a call where a clause of it names the definition, or a definition that stands behind it does; Value and
view of a public type count as clauses. Left out are laws (laws.rt), which promise more and change nothing that a call answers, and
for the calls of EXACT the clauses beside the exact one, which follow from it. The rest of specs/ is of private functions.
With --all laws and second tellings count too. With --list the definitions behind the calls are named.

With --from CRATE::CALL .. it counts, over all crates, what stands behind the clauses of these calls or laws alone, in lines and words;
--headline is --from sched_core::every_run sched_core::every_two_runs, the laws of the headline (docs/PROOF.md quotes their definitions).
--commands counts what more there is to the law of a plan's commands, --bytes what more than both to the laws of the journal's bytes, and
--disk what more than all these to the law that records survive on a disk.
--round is --from recovery::lives recovery::two_runs, the headline over bytes and commands, and run_round::run_round, the contract of a run
over any disks and starter, and --program is --from dag_main_run::run_dag.

A field of UNREAD brings in its type only where some definition or clause reads it: else what is said holds whatever stands in it.
"""
import pathlib
import re
import sys

LOWEST = ['dag_reader', 'splices_flat', 'splices', 'dag_graph', 'submit_file', 'vars_macros', 'rescue_file']
EXACT = {'read_dag': ['exact'], 'read_submit': ['exact', 'not_text'], 'read_rescue': ['exact']}
HEADLINE = ['sched_core::every_run', 'sched_core::every_two_runs']
COMMANDS = ['sched_core::plan_commands']
BYTES = ['recovery_manager::lives_on_bytes', 'recovery::journal_bytes']
DISK = ['recovery::survival']
INSTANCE = ['recovery::lives', 'recovery::two_runs']
UNREAD = {'graph', 'launch_spec'}
ALL = '--all' in sys.argv
TOP = pathlib.Path(__file__).resolve().parent.parent


def words_of(text):
    """The words of a text, with the parts of those that are joined by full stops."""
    words = set(re.findall(r'[^\s(){}\[\],;]+', text))
    return words | {part for word in words for part in word.split('.')}


def imports_of(text):
    """Where each imported word of the product's specs/ comes from: its crate and its module."""
    found = {}
    for path, names in re.findall(r'use\s+(Rattle\.[\w.]+)\.\{([^}]*)\}', text):
        parts = path.split('.')
        if len(parts) == 4 and parts[2] == 'specs':
            found.update({name.strip(): (parts[1], parts[3]) for name in names.split(',')})
    return found


def reads(words, field):
    """Whether one of these words reads a field."""
    return any(re.search(rf'\.{field}\b', word) for word in words)


class Definition:
    """A paragraph of a file of specs/: the words that it defines and those that it names."""

    def __init__(self, crate, module, lines):
        self.crate, self.module, self.lines = crate, module, len(lines)
        self.words = words_of('\n'.join(lines))
        fields = [re.match(r'\s+(?:pub )?(\w+) [:=] ', line) for line in lines]
        self.by_field = [(field.group(1) if field else '', words_of(line)) for field, line in zip(fields, lines)]
        self.length = len(' '.join(lines).split())
        indent = 2 if 'mutual' in lines[0] or lines[0][0] == ' ' else 0
        heads = [line[indent:] for line in lines if line[:indent].isspace() or not indent]
        heads = [re.match(r'(?:(?:abbrev|unfoldable|pub|data|record)\s+)*([^\s:({]+)', line) for line in heads
                 if not line.startswith((' ', 'infix'))]
        self.names = [head.group(1) for head in heads if head]

    def words_without(self, unread):
        """Its words, but for those of the lines of these fields."""
        return set().union(*(words for field, words in self.by_field if field not in unread))


def definitions(crate):
    """The definitions of a crate, and for each of its modules what it imports."""
    found, imports = [], {}
    for path in sorted((TOP / 'crates' / crate / 'specs').glob('*.antt')):
        if path.stem == 'Lib':
            continue
        text = path.read_text()
        imports[crate, path.stem] = imports_of(text)
        for paragraph in re.split(r'\n\s*\n', text):
            lines = [line for line in paragraph.split('\n') if line.strip()]
            lines = [line for line in lines if not re.match(r'\s*(--|use |pub use )', line)]
            if lines:
                found.append(Definition(crate, path.stem, lines))
    return found, imports


def clauses(path, exported):
    """The words of the clauses of a source file's public calls, and of Value and view of its public types."""
    words, public, of_trait, name, skipped, inside = set(), False, False, '', False, False
    for line in path.read_text().split('\n'):
        if found := re.match(r'impl(?:<[^>]*>)?\s+(?:.* for )?(\w+)', line):
            public, of_trait = found.group(1) in exported, ' for ' in line
        elif found := re.match(r'(?:pub )?trait (\w+)', line):
            public, of_trait = found.group(1) in exported, True
        elif line == '}':
            public = of_trait = False
        if found := re.match(r'(\s*)(pub )?fn (\w+)', line):
            name, skipped = found.group(3), False
            inside = public and bool(found.group(2) or of_trait) if found.group(1) else bool(found.group(2)) and name in exported
        if found := re.match(r'\s*ensures (\w+) ', line):
            skipped = not ALL and name in EXACT and found.group(1) not in EXACT[name]
        if re.match(r'\s*\{\s*$', line) or line.rstrip().endswith(';') and not line.lstrip().startswith('ghost'):
            inside = False
        if inside and not skipped or public and re.match(r'\s*ghost (Value|view) ', line):
            words |= words_of(line)
    return words


class Specs:
    """The definitions of some crates, found by their names."""

    def __init__(self, crates):
        self.all, self.imports, self.places = [], {}, {}
        for crate in crates:
            found, imports = definitions(crate)
            self.all += found
            self.imports.update(imports)
        for one in self.all:
            for name in one.names:
                self.places.setdefault((one.crate, one.module, name), one)

    def named(self, words, imports, here=None):
        """The definitions that these words name: imported ones, and those of the module itself."""
        names = {name: (place + (name,)) for name, place in imports.items()}
        names.update({name: (crate, module, name) for crate, module, name in self.places if (crate, module) == here})
        for name, place in names.items():
            parts = [part for part in name.split('◌') if part]
            if place in self.places and (name in words or '◌' in name and all(part in words for part in parts)):
                yield self.places[place]

    def behind(self, crates):
        """The definitions that stand behind the public calls of these crates."""
        open_ones, named = [], set()
        for crate in crates:
            source = TOP / 'crates' / crate / 'src'
            library = (source / 'lib.rt').read_text()
            exported = set(re.findall(r'\w+', ' '.join(re.findall(r'pub use [^;]*;', library))))
            exported |= set(re.findall(r'^pub (?:struct|enum|trait|fn) (\w+)', library, re.M))
            for path in source.rglob('*.rt'):
                text = path.read_text()
                words = clauses(path, exported) if path.stem != 'laws' else words_of(text) if ALL else set()
                open_ones += self.named(words, imports_of(text))
                named |= words
        return self.closure(open_ones, named)

    def of_calls(self, calls):
        """The definitions that stand behind the clauses of these calls or laws."""
        contracts = [contract(*call.split('::')) for call in calls]
        return self.closure([one for words, imports in contracts for one in self.named(words, imports)],
                            set().union(*(words for words, imports in contracts)))

    def closure(self, open_ones, words):
        """These definitions, which these words name, and those that stand behind them."""
        unread = {field for field in UNREAD if not reads(words, field)}
        while True:
            found = self.followed(open_ones, unread)
            read = {field for field in unread if any(reads(one.words, field) for one in found)}
            if not read:
                return found
            unread -= read

    def followed(self, open_ones, unread):
        """The same, with the types of these fields left out."""
        found, open_ones = set(), list(open_ones)
        while open_ones:
            one = open_ones.pop()
            if one not in found:
                found.add(one)
                open_ones += self.named(one.words_without(unread), self.imports[one.crate, one.module], (one.crate, one.module))
        return found


def contract(crate, call):
    """The words of the clauses of a call, or of a law, with what their file imports."""
    for path in sorted((TOP / 'crates' / crate / 'src').rglob('*.rt')):
        text = path.read_text()
        if found := re.search(r'^( *)pub fn ' + call + r'\b.*?^\1\{', text, re.M | re.S):
            return words_of(re.sub(r'//[^\n]*', '', found.group(0))), imports_of(text)
    sys.exit(f'{crate} has no call {call}')


def from_calls(calls, less=()):
    """Prints what stands behind the clauses of these calls, and not behind those of others: its lines and its words, crate by crate."""
    crates = [line.split(':')[0].strip() for line in (TOP / 'crates.txt').read_text().split('\n') if ':' in line and line[0] != '#']
    crates = [crate for crate in crates if (TOP / 'crates' / crate / 'specs').is_dir()]
    specs = Specs(crates)

    behind = specs.of_calls(calls) - specs.of_calls(less)
    for one in specs.all:
        if one in behind and '--list' in sys.argv:
            print(f'{one.crate} {one.module} {one.names[0]} {one.lines}')
    for crate in crates:
        own = [one for one in behind if one.crate == crate]
        if own:
            print(f'{crate}: {sum(one.lines for one in own)} lines, {sum(one.length for one in own)} words')
    beside = f' and not behind {" ".join(less)}' if less else ''
    print(f'{sum(one.lines for one in behind)} lines, {sum(one.length for one in behind)} words behind {" ".join(calls)}{beside}')


def main():
    if '--headline' in sys.argv:
        return from_calls(HEADLINE)
    if '--commands' in sys.argv:
        return from_calls(COMMANDS, HEADLINE)
    if '--bytes' in sys.argv:
        return from_calls(BYTES, [*HEADLINE, *COMMANDS])
    if '--disk' in sys.argv:
        return from_calls(DISK, [*HEADLINE, *COMMANDS, *BYTES])
    if '--round' in sys.argv:
        return from_calls([*INSTANCE, 'run_round::run_round'])
    if '--program' in sys.argv:
        return from_calls(['dag_main_run::run_dag'])
    if '--from' in sys.argv:
        return from_calls([word for word in sys.argv[1:] if not word.startswith('--')])
    crates = [word for word in sys.argv[1:] if not word.startswith('--')] or LOWEST
    specs = Specs(crates)
    behind = specs.behind(crates)
    if '--list' in sys.argv:
        for one in specs.all:
            if one in behind:
                print(f'{one.crate} {one.module} {one.names[0]} {one.lines}')
    for crate in crates:
        print(f'{crate}: {sum(one.lines for one in behind if one.crate == crate)} of '
              f'{sum(one.lines for one in specs.all if one.crate == crate)} lines')
    print(f'{sum(one.lines for one in behind)} of {sum(one.lines for one in specs.all)} lines')


if __name__ == '__main__':
    main()
