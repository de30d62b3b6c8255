#!/usr/bin/env bash
# Breaks functions on purpose, one at a time, and says whether the prover refuses each: all edits of crates/NAME/must-fail,
# which the gate tries too, and of crates/NAME/wrong-bodies, which it doesn't.
#
#   tools/wrong_bodies.sh CRATE..    the edits of these crates
#   tools/wrong_bodies.sh            of each crate that differs from what was last tried and went well
#   tools/wrong_bodies.sh --old      prints these crates and tries nothing
#
# tools/wrong_bodies.sums has a line for each crate whose edits were all refused: its name and the SHA-256 over its sources,
# specifications, proofs and edits at that time. It works on a copy, two crates at a time (JOBS=N: N). An edit takes about half
# a minute, the first of a crate a proof of the crate besides. The status is 0 where every edit was refused.
set -euo pipefail
cd -- "$(dirname -- "${BASH_SOURCE[0]}")/.."
sums=tools/wrong_bodies.sums

with_edits() {
    for folder in crates/*/; do
        if compgen -G "${folder}must-fail/*.edit" >/dev/null || compgen -G "${folder}wrong-bodies/*.edit" >/dev/null; then
            basename "$folder"
        fi
    done
}

# Which tier an edit stands in is no part of the sum.
sum_of() {
    (
        cd "crates/$1"
        find . -path ./out -prune -o -type f -regex '\./\(src\|specs\|proofs\)/.*' -print | LC_ALL=C sort | xargs sha256sum
        find . -path ./out -prune -o -type f -regex '\./\(must-fail\|wrong-bodies\)/.*\.edit' -exec sha256sum {} + |
            sed 's| .*/| |' | LC_ALL=C sort -k 2
    ) | sha256sum | cut -d ' ' -f 1
}

is_old() {
    ! grep -qsx "$1 $(sum_of "$1")" "$sums"
}

# Copies the crates with the libraries that were built of them, so that these are not proved again; in the copy both tiers of
# the crates that are tried are one.
copy_to() {
    local copy=$1 folder part
    cp crates.txt HANDLES "$copy"
    git init -q "$copy"
    for folder in crates/*/; do
        mkdir -p "$copy/${folder}out"
        for part in src specs proofs must-fail out/rlib; do
            if [ -d "$folder$part" ]; then cp -a "$folder$part" "$copy/$folder$part"; fi
        done
    done
    for folder in "${@:2}"; do
        mkdir -p "$copy/crates/$folder/must-fail"
        if compgen -G "crates/$folder/wrong-bodies/*.edit" >/dev/null; then
            cp -n "crates/$folder/wrong-bodies/"*.edit "$copy/crates/$folder/must-fail"
        fi
    done
}

# Tries a crate's edits, writes what rt says of each, and keeps the crate's sum where all were refused.
try_edits() {
    local crate=$1 copy=$2 wanted refused weak before
    before=$(sum_of "$crate")
    wanted=$({ find "crates/$crate/must-fail" "crates/$crate/wrong-bodies" -name '*.edit' 2>/dev/null || true; } | wc -l)
    (cd "$copy" && rt must-fail "$crate") >"$copy/$crate.said" 2>&1 || true
    refused=$(grep -c "^rt: must-fail $crate/.*: refused, as it must be" "$copy/$crate.said" || true)
    weak=$(grep -c 'only because a proof file names what the edit took away' "$copy/$crate.said" || true)
    grep "must-fail $crate/.*:" "$copy/$crate.said" | grep -v ': refused, as it must be' || true
    echo "$crate: $refused of $wanted edits refused, $weak of them only since a proof names what was there before"
    if [ "$refused" != "$wanted" ]; then
        tail -n 3 "$copy/$crate.said"
        return 1
    fi
    if [ "$before" = "$(sum_of "$crate")" ]; then
        (
            flock 9
            { grep -vs "^$crate " "$sums" || true; echo "$crate $before"; } | LC_ALL=C sort >"$copy/sums"
            cat "$copy/sums" >"$sums"
        ) 9>"$copy/lock"
    fi
}

old=()
for crate in $(with_edits); do
    if is_old "$crate"; then old+=("$crate"); fi
done
if [ "${1-}" = --old ]; then
    printf '%s' "${old[@]/%/$'\n'}"
    exit 0
fi
if [ $# -gt 0 ]; then crates=("$@"); else crates=("${old[@]}"); fi
if [ ${#crates[@]} -eq 0 ]; then
    echo 'no crate has changed since its edits were tried'
    exit 0
fi
copy=$(mktemp -d)
trap 'rm -rf "$copy"' EXIT
copy_to "$copy" "${crates[@]}"
export sums
export -f sum_of try_edits
printf '%s\n' "${crates[@]}" | xargs -P "${JOBS:-2}" -I NAME bash -euo pipefail -c 'try_edits NAME '"$copy"
