#!/usr/bin/env bash
# Says which crates are not in rt fmt's layout, which the gate refuses, and which tests of libraries; it changes none. The status
# is 1 where there are any.
set -euo pipefail
cd -- "$(dirname -- "${BASH_SOURCE[0]}")/.."
before=$(mktemp -d)
after=$(mktemp -d)
trap 'rm -rf "$before" "$after"' EXIT
./tests/libraries.sh --lay "$before"
cp -a "$before/." "$after"

in_layout() {
    (cd "$2/crates/$3" && rt fmt) >"$2/$3.said" 2>&1 || { cat "$2/$3.said"; return 1; }
    if ! diff -rq -x out "$1/crates/$3" "$2/crates/$3" >/dev/null; then
        echo "$3 is not in its layout: run rt fmt in its folder"
        return 1
    fi
}
export -f in_layout
find "$before/crates" -mindepth 1 -maxdepth 1 -type d -printf '%f\n' | sort |
    xargs -P "$(nproc)" -I NAME bash -c "in_layout '$before' '$after' NAME" || exit 1
