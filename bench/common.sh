# What the other scripts of this folder begin with: a temporary folder, the program, built where it is missing, and a clock.
set -eu
top=$(cd -- "$(dirname -- "${BASH_SOURCE[0]}")/.." && pwd)
work=$(mktemp -d)
trap 'rm -rf "$work"' EXIT
# Which program: DAGRUN names another one than that of these sources.
program=${DAGRUN-}
if [ -z "$program" ]; then
    program=$top/$("$top/build")
fi
program=$(realpath -- "$program")

# milliseconds COMMAND..: how long it takes, whatever its status
milliseconds() {
    local before after
    before=$(date +%s%N)
    "$@" >/dev/null 2>&1 || true
    after=$(date +%s%N)
    echo $(((after - before) / 1000000))
}
