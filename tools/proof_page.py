#!/usr/bin/env python3
"""Says where docs/PROOF.md differs from the sources, and how long it takes to read

The page quotes each definition that `believed.py --headline` lists once, word for word, after those that it uses, and no other; and so the two
laws. These are few (LINES), the table of what further laws rest on has its figures, and the page is read within an hour, by a clock of 110 words
of definitions a minute, and 220 of text. It prints what is not so, and exits with 1 where something isn't.
"""
import re
import sys

import believed

PAGE = believed.TOP / 'docs/PROOF.md'
LINES = 450
LAWS = believed.TOP / 'crates/sched_core/src/every_run.rt'
# Fields and arguments that are named as a definition.
ALIKE = {'attempt', 'ended', 'history', 'next'}
NAME = re.compile(r'(?:(?:abbrev|unfoldable|pub|data|record)\s+)*([^\s:({]+)')


def bare(text):
    """The lines of a text without comments, imports and blank ones."""
    return '\n'.join(line for line in text.split('\n') if line.strip() and not re.match(r'\s*(--|//|use |pub use )', line))


def definitions(text):
    """The definitions of a text, each with its name."""
    found = [bare(paragraph) for paragraph in re.split(r'\n\s*\n', text)]
    return [(NAME.match(one).group(1), one) for one in found if one]


def minutes(text):
    """How long it takes to read a text, in minutes: its quoted lines slowly, but for their comments. Outside of these lines a
    sign is no word."""
    quoted = [line for block in re.findall(r'^```\n(.*?)^```$', text, re.M | re.S) for line in block.split('\n')]
    slow = [word for line in quoted if not re.match(r'\s*(--|//)', line) for word in line.split()]
    words = sum(1 for word in text.split() if re.search(r'\w', word)) - sum(1 for word in slow if re.search(r'\w', word))
    return len(slow) / 110 + words / 220


def laws(text):
    """The laws of a text, by their names."""
    return {law.group(1): bare(law.group(0)) for law in re.finditer(r'^pub fn (\w+).*?^\{\}', text, re.M | re.S)}


def headline(specs):
    """The definitions behind the headline and the text of each, and what each of them uses."""
    texts, uses = {}, {}
    for one in specs.of_calls(believed.HEADLINE):
        name = one.names[0]
        file = believed.TOP / 'crates' / one.crate / 'specs' / f'{one.module}.antt'
        texts[name] = dict(definitions(file.read_text()))[name]
        used = specs.named(one.words, specs.imports[one.crate, one.module], (one.crate, one.module))
        uses[name] = {other.names[0] for other in used} - {name} - ALIKE
    return texts, uses


def figures(specs):
    """How many lines and words stand behind the headline, behind each further law beside those before it, and behind both laws of recovery."""
    steps = [believed.HEADLINE, believed.COMMANDS, believed.BYTES, believed.DISK]
    for count, step in enumerate(steps):
        behind = specs.of_calls(step) - specs.of_calls([call for before in steps[:count] for call in before])
        yield sum(one.lines for one in behind), sum(one.length for one in behind)
    behind = specs.of_calls(believed.INSTANCE)
    yield sum(one.lines for one in behind), sum(one.length for one in behind)


def main():
    page = PAGE.read_text()
    blocks = re.findall(r'^```\n(.*?)^```$', page, re.M | re.S)
    quoted = [pair for block in blocks if not block.startswith('pub fn') for pair in definitions(block)]
    names = [name for name, text in quoted]
    specs = believed.Specs(sorted(folder.name for folder in (believed.TOP / 'crates').iterdir() if (folder / 'specs').is_dir()))
    texts, uses = headline(specs)
    faults = [f'{name} is quoted {names.count(name)} times' for name in texts if names.count(name) != 1]
    faults += [f'{name} is not quoted as it is' for name, text in quoted if texts.get(name) != text]
    faults += [f'{name} is quoted before {used}' for place, name in enumerate(names) for used in uses.get(name, ())
               if used in names[place + 1:]]
    page_laws = laws('\n'.join(blocks))
    source_laws = laws(LAWS.read_text())
    faults += [f'the law {call} is not quoted as it is' for call in (call.split('::')[1] for call in believed.HEADLINE)
               if page_laws.get(call) != source_laws[call]]
    counted = list(figures(specs))
    faults += [f'the table has not {lines} lines and {words:,} words' for lines, words in counted if f'| {lines} | {words:,} |' not in page]
    if counted[0][0] > LINES:
        faults.append(f'the definitions are {counted[0][0]} lines')
    if minutes(page) > 60:
        faults.append(f'the page takes {minutes(page):.1f} minutes')
    print('\n'.join(faults) or f'docs/PROOF.md quotes {len(names)} definitions and {len(page_laws)} laws as they are; '
          f'it takes {minutes(page):.0f} minutes')
    return 1 if faults else 0


if __name__ == '__main__':
    sys.exit(main())
