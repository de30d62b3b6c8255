#!/usr/bin/env bash
# Renews the shipped program, dist/dagrun, from the sources: proves what changed, over what earlier checks kept, builds, and links what was
# built statically, so that it runs on any x86-64 Linux.
#
#   ./dist.sh           renews dist/dagrun, dist/dagrun.o, the object file that it is linked of, dist/SOURCES, which says what they were
#                       made from, and the manual pages and completions that are made of its help texts (packaging/generate.py)
#   ./dist.sh --check   says whether that is due, and ends with status 1 where it is
#   ./dist.sh --built   the same of what `rt ci` has just built of these sources in crates/dagrun/out, with no proof; the gate finds out whether
#                       it is that
#   ./dist.sh --link    links dist/dagrun anew of dist/dagrun.o, in seconds: where the linker or the C library of the machine changed
set -euo pipefail
top=$(cd -- "$(dirname -- "${BASH_SOURCE[0]}")" && pwd)
. "$top/dist/functions.sh"

if [ "${1-}" = --link ]; then
    if ! is_shipped || [ ! -f "$top/$object" ]; then
        echo "dist/dagrun is not of these sources, or $object is not its object file: ./dist.sh renews both"
        exit 1
    fi
    has_static_parts
    ship "$top/$object"
    echo 'dist/dagrun is linked anew'
    exit 0
fi
if is_shipped && { [ "${1-}" = --check ] || [ -f "$top/$object" ]; }; then
    echo 'dist/dagrun is of these sources'
    exit 0
fi
if [ "${1-}" = --check ]; then
    echo 'dist/dagrun is not of these sources: ./dist.sh renews it'
    exit 1
fi
# What is missing for the last step is found before the proofs, which take half an hour.
has_static_parts
if [ "${1-}" = --built ]; then
    if [ ! -x "$top/$program" ] || [ ! -f "$top/$program.o" ]; then
        echo "$program or $program.o is missing: \`rt ci\` leaves both where it proves the crate, and the first alone where it has passed it before"
        exit 1
    fi
elif ! is_of_sources "$top/$program" "$top/$program.sources" || [ ! -f "$top/$program.o" ]; then
    build
fi
ship "$top/$program.o"
if command -v python3 >/dev/null; then "$top/packaging/generate.py"; fi
if ! is_proved_program; then exit 1; fi
echo 'dist/dagrun is of these sources now'
