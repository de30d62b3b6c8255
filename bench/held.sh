#!/usr/bin/env bash
# How a rehearsal grows with the number of nodes, where limits hold them: nothing held; half of the nodes in a category that lets in two;
# the same with 4 jobs at once; half as many categories as nodes, of which each lets in one; and nodes that are ready in another order
# than that of the plan. Millions of instructions by valgrind for 2,048, 4,096, 8,192 and 16,384 nodes, or seconds where there is none.
#   bench/held.sh [NODES ..]    other numbers of nodes
. "$(dirname -- "${BASH_SOURCE[0]}")/common.sh"
sizes=${*:-2048 4096 8192 16384}

# shape NAME NODES: the DAG file of a shape
shape() {
    awk -v shape="$1" -v n="$2" 'BEGIN {
        for (i = 0; i < n; i++) print "JOB N" i " n" i ".sub"
        if (shape == "half" || shape == "half_of_4") {
            for (i = 0; i < n; i += 2) print "CATEGORY N" i " two"
            print "MAXJOBS two 2"
        }
        if (shape == "categories") {
            for (i = 0; i < n; i++) print "CATEGORY N" i " c" int(i / 2)
            for (i = 0; i < n / 2; i++) print "MAXJOBS c" i " 1"
        }
        if (shape == "order") {
            for (i = 0; i < n / 2; i++) print "PRIORITY N" i " " i
            for (i = 0; i < n / 2; i++) print "PARENT N" i " CHILD N" i + n / 2
        }
    }' >"$work/$1.dag"
}

# cost WORDS..: what a call costs
cost() {
    if command -v valgrind >/dev/null; then
        valgrind --tool=callgrind --callgrind-out-file=/dev/null "$@" 2>&1 >/dev/null | awk '/Collected/ { printf "%d", $NF / 1000000 }'
    else
        local TIMEFORMAT=%U
        { time "$@" >/dev/null; } 2>&1
    fi
}

printf '%-12s' shape
printf '%9s' $sizes
printf '\n'
for name in free half half_of_4 categories order; do
    printf '%-12s' "$name"
    for nodes in $sizes; do
        shape "$name" "$nodes"
        words=
        if [ "$name" = half_of_4 ]; then words='--maxjobs 4'; fi
        printf '%9s' "$(cost "$program" rehearse $words "$work/$name.dag")"
    done
    printf '\n'
done
