sleep 1
if [ ! -e cubes.ready ]; then
    : > cubes.ready
    echo 'not ready' >&2
    exit 3
fi
awk '{ print $1 * $1 * $1 }' "$1"
