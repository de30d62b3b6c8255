#!/usr/bin/env python3
"""Says what the last check of a crate from nothing spent its time on: dear.py CRATE [COUNT]

A check writes a file for each module that it proved, as it goes, so the time since the file before is what the module took. That
holds for a check with one job (`rm -rf out; rt check --jobs 1`). Printed are the seconds by the sort of module (Lts: lifetimes and
drops, Proof: the answers that are searched for, Tie: the body against its clauses, Answers: those that are written down), and then
the COUNT dearest modules (20).
"""

import collections
import os
import sys

TOP = os.path.dirname(os.path.dirname(os.path.realpath(__file__)))


def modules(crate):
    """The modules of the crate's kept work in the order in which they were written, each with the seconds since the one before."""
    kept = os.path.join(TOP, "crates", crate, "out", "incremental")
    if not os.path.isdir(kept):
        sys.exit(f"{kept} is not there: check the crate first")
    files = [file for folder in os.scandir(kept) if folder.is_dir() for file in os.scandir(folder) if file.name.endswith(".oantt")]
    written = sorted((file.stat().st_mtime, file.name.removesuffix(".oantt")) for file in files)
    return [(moment - before, name) for (before, _), (moment, name) in zip(written, written[1:])]


def main(crate, count="20"):
    took = modules(crate)
    sorts = collections.Counter()
    for seconds, name in took:
        sorts[name.rpartition(".")[2].partition("-")[0]] += seconds
    print(f"{sum(seconds for seconds, _ in took):7.1f} seconds, {len(took)} modules")
    for sort, seconds in sorts.most_common(6):
        print(f"{seconds:7.1f} {sort}")
    print()
    for seconds, name in sorted(took, reverse=True)[: int(count)]:
        print(f"{seconds:7.1f} {name}")


if __name__ == "__main__":
    main(*sys.argv[1:])
