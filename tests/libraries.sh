#!/usr/bin/env bash
# Runs the tests of the libraries, tests/libraries/NAME: each a crate of tests alone, over the libraries' sources.
#
#   tests/libraries.sh [NAME ..]       these, or all; JOBS=N: N at a time
#   tests/libraries.sh --lay FOLDER    lays a copy of all crates into an empty folder, these among them as crates/tests_NAME
#
# They are built with checks (`rt try --test`): an index out of bounds, a sum that overflows, a failed unwrap and a bad access stop
# a test. They are not proved, since a proof of a test says only that none of these comes. Their files end in .rs, since the gate
# proves whatever ends in .rt; tests/libraries/uses.txt says on which crates each one stands. The last line is 'N passed, M failed'.
set -euo pipefail
cd -- "$(dirname -- "${BASH_SOURCE[0]}")/.."

# Lays a copy of all crates into this folder, with their sources alone.
lay() {
    local crate part folder name file
    git init -q "$1"
    cp HANDLES "$1"
    cat crates.txt tests/libraries/uses.txt >"$1/crates.txt"
    for crate in crates/*/; do
        mkdir -p "$1/$crate"
        for part in src specs proofs; do
            if [ -d "$crate$part" ]; then cp -a "$crate$part" "$1/$crate"; fi
        done
    done
    for folder in tests/libraries/*/; do
        name=$(basename "$folder")
        find "$folder" -name '*.rs' -printf '%P\n' | while read -r file; do
            mkdir -p "$(dirname "$1/crates/tests_$name/src/$file")"
            cp "$folder$file" "$1/crates/tests_$name/src/${file%.rs}.rt"
        done
    done
}

# Runs the tests of a crate of this copy, and writes what they say to its log.
try_tests() {
    (cd "$1/crates/tests_$2" && rt try --test --seconds 600 </dev/null) >"$1/$2.log" 2>&1 || true
}
export -f try_tests

if [ "${1-}" = --lay ]; then
    lay "$2"
    exit 0
fi
copy=$(mktemp -d)
trap 'rm -rf "$copy"' EXIT
lay "$copy"
if [ $# -gt 0 ]; then names=("$@"); else names=($(cd tests/libraries && ls -d */ | tr -d /)); fi
printf '%s\n' "${names[@]}" | xargs -P "${JOBS:-2}" -I NAME bash -c "try_tests '$copy' NAME"
passed=0 failed=0
for name in "${names[@]}"; do
    count=$(sed -n 's/^test result: ok\. \([0-9]*\) passed; 0 failed; 0 ignored.*/\1/p' "$copy/$name.log")
    if [ "${count:-0}" -gt 0 ] && tail -n 1 "$copy/$name.log" | grep -q '^run=ended status=0'; then
        echo "$name: $count tests passed"
        passed=$((passed + count))
    else
        cat "$copy/$name.log"
        echo "$name: failed"
        failed=$((failed + 1))
    fi
done
echo "$passed passed, $failed failed"
[ "$failed" -eq 0 ]
