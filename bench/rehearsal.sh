#!/usr/bin/env bash
# Times a rehearsal of generated DAGs: 4,000 nodes, each but the first few with three parents above it (12,000 pairs); the same
# with priorities and three categories (at most 2, 3 and 4 jobs at once) under --maxjobs 7; and shapes at half and at full size:
# a node with nearly all others as its parents, one with nearly all others as its children, a ladder of diamonds, layers with
# all pairs between neighbours, two layers, and two layers whose parents that stand last end first.
# With a number: another count of nodes for the first two.
. "$(dirname -- "${BASH_SOURCE[0]}")/common.sh"
nodes=${1:-4000}
awk -v n="$nodes" 'BEGIN {
    for (i = 0; i < n; i++) print "JOB N" i " n" i ".sub"
    for (i = 4; i < n; i++) for (k = 1; k <= 3; k++) print "PARENT N" (i * 7919 * k) % i " CHILD N" i
}' >"$work/generated.dag"
awk -v n="$nodes" 'BEGIN {
    for (i = 0; i < n; i++) print "PRIORITY N" i " " (i * 31) % 17 - 8 "\nCATEGORY N" i " c" i % 3
    for (c = 0; c < 3; c++) print "MAXJOBS c" c " " c + 2
}' | cat "$work/generated.dag" - >"$work/limited.dag"

# timed DAG WORDS..: one rehearsal
timed() {
    local dag=$1
    shift
    /usr/bin/env bash -c "time '$program' rehearse $* '$work/$dag' >'$work/report'"
    printf '%s of %s nodes, %s lines PARENT %s: %s\n\n' "$dag" "$(grep -c '^JOB' "$work/$dag")" "$(grep -c PARENT "$work/$dag")" "$*" \
        "$(tail -n 1 "$work/report")"
}

# jobs COUNT: that many nodes
jobs() {
    awk -v n="$1" 'BEGIN { for (i = 0; i < n; i++) print "JOB N" i " n" i ".sub" }'
}

# layers COUNT WIDTH: that many layers of so many nodes, each node a parent of all of the next layer
layers() {
    jobs $(($1 * $2))
    awk -v n="$1" -v w="$2" 'BEGIN {
        for (l = 0; l + 1 < n; l++) {
            printf "PARENT"
            for (i = 0; i < w; i++) printf " N%d", l * w + i
            printf " CHILD"
            for (i = 0; i < w; i++) printf " N%d", (l + 1) * w + i
            print ""
        }
    }'
}

# last_first COUNT: of the first so many nodes those that stand last end first
last_first() {
    awk -v n="$1" 'BEGIN { for (i = 0; i < n; i++) print "PRIORITY N" i " " i }'
}

# ladder COUNT: that many diamonds, the foot of each the top of the next
ladder() {
    jobs $((3 * $1 + 1))
    awk -v n="$1" 'BEGIN {
        for (d = 0; d < 3 * n; d += 3) print "PARENT N" d " CHILD N" d + 1 " N" d + 2 "\nPARENT N" d + 1 " N" d + 2 " CHILD N" d + 3
    }'
}

# many_parents, many_children COUNT: so many nodes, the last a child of all others, or the first a parent of all others
many_parents() {
    jobs "$1"
    awk -v n="$1" 'BEGIN { printf "PARENT"; for (i = 0; i < n - 1; i++) printf " N%d", i; print " CHILD N" n - 1 }'
}

many_children() {
    jobs "$1"
    awk -v n="$1" 'BEGIN { printf "PARENT N0 CHILD"; for (i = 1; i < n; i++) printf " N%d", i; print "" }'
}

timed generated.dag
timed limited.dag --maxjobs 7
for size in half full; do
    if [ "$size" = half ]; then count=2000 diamonds=650 deep=32 edge=1000; else count=4000 diamonds=1300 deep=64 edge=2000; fi
    many_parents "$count" >"$work/parents-$size.dag"
    many_children "$count" >"$work/children-$size.dag"
    ladder "$diamonds" >"$work/ladder-$size.dag"
    layers "$deep" 64 >"$work/layers-$size.dag"
    # half the pairs: as many children, half the parents
    { jobs $((edge + 2000)); awk -v n="$edge" 'BEGIN {
        printf "PARENT"
        for (i = 0; i < n; i++) printf " N%d", i
        printf " CHILD"
        for (i = n; i < n + 2000; i++) printf " N%d", i
        print ""
    }'; } >"$work/two-$size.dag"
    { cat "$work/two-$size.dag"; last_first "$edge"; } >"$work/last-first-$size.dag"
    for shape in parents children ladder layers two last-first; do timed "$shape-$size.dag"; done
done
