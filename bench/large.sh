#!/usr/bin/env bash
# What 65,536 nodes cost: flat with 200,000 edges, and in 4,096 splices of 16 nodes with 196,592. First the time and the peak of
# memory of `check` and `rehearse` beside `make -n`, `ninja -n` and a reader in C that keeps the words of the DAG file
# (bench/words.c), the least of three each. Then `run` of /bin/true for each node of the flat graph, 4 at once, and without a
# limit, beside `make -j4`, with the longest `status` meanwhile, and a run that is killed in the middle and gone on with: in
# memory (/dev/shm) and on a disk. What is not there (make, ninja, cc, /dev/shm) is left out.
#   bench/large.sh [NODES [check]]    as many nodes, with as many edges for each; `check`: without runs
. "$(dirname -- "${BASH_SOURCE[0]}")/common.sh"
nodes=${1:-65536}
edges=$((nodes * 200000 / 65536))
places=$work
if [ -w /dev/shm ]; then
    memory=$(mktemp -d /dev/shm/dagrun.XXXXXX)
    trap 'rm -rf "$work" "$memory"' EXIT
    places="$memory $work"
fi
if command -v cc >/dev/null; then cc -O2 -o "$work/words" "$top/bench/words.c"; fi

# folder NAME: a folder with the submit file of all nodes, and a table of outcomes without lines
folder() {
    mkdir -p "$work/$1"
    printf 'executable = /bin/true\nqueue\n' >"$work/$1/true.sub"
    : >"$work/$1/table"
}

# The graphs as x.dag, Makefile and build.ninja.
flat() {
    folder flat
    awk -v folder="$work/flat" -v nodes="$nodes" -v edges="$edges" 'BEGIN {
        dag = folder "/x.dag"; ninja = folder "/build.ninja"; make = folder "/Makefile"
        for (i = 0; i < nodes; i++) print "JOB N" i " true.sub" >dag
        for (k = 1; count < edges; k++) for (i = 4; i < nodes && count < edges; i++) {
            parent = (i * 7919 * k + k) % i
            if ((i, parent) in seen) continue
            seen[i, parent] = 1
            above[i] = above[i] " N" parent
            count++
            print "PARENT N" parent " CHILD N" i >dag
        }
        print "rule true\n  command = /bin/true" >ninja
        printf "all:" >make
        for (i = 0; i < nodes; i++) printf " N" i >make
        print "" >make
        for (i = 0; i < nodes; i++) {
            print "build N" i ": true" above[i] >ninja
            print "N" i ":" above[i] "\n\t@/bin/true" >make
        }
    }'
}

# Splices in a tree; the nodes of each are four layers of four.
splices() {
    folder splices
    awk -v folder="$work/splices" -v parts=$((nodes / 16)) 'BEGIN {
        dag = folder "/x.dag"; part = folder "/part.dag"; ninja = folder "/build.ninja"; make = folder "/Makefile"
        for (n = 0; n < 16; n++) print "JOB N" n " true.sub" >part
        for (n = 4; n < 16; n++) for (k = 0; k < (n < 12 ? 3 : 2); k++) {
            parent = int(n / 4) * 4 - 4 + (n + k) % 4
            above[n] = above[n] " " parent
            print "PARENT N" parent " CHILD N" n >part
        }
        for (s = 0; s < parts; s++) print "SPLICE S" s " part.dag" >dag
        for (s = 1; s < parts; s++) print "PARENT S" int((s - 1) / 2) " CHILD S" s >dag
        print "rule true\n  command = /bin/true" >ninja
        printf "all:" >make
        for (s = 0; s < parts; s++) for (n = 0; n < 16; n++) printf " S" s "N" n >make
        print "" >make
        for (s = 0; s < parts; s++) for (n = 0; n < 16; n++) {
            names = ""
            count = split(above[n], parents, " ")
            for (k = 1; k <= count; k++) names = names " S" s "N" parents[k]
            if (n < 4 && s > 0) for (k = 12; k < 16; k++) names = names " S" int((s - 1) / 2) "N" k
            print "build S" s "N" n ": true" names >ninja
            print "S" s "N" n ":" names "\n\t@/bin/true" >make
        }
    }'
}

# cost NAME COMMAND..: a line with the least time and the least peak of memory of three
cost() {
    local name=$1
    shift
    for _ in 1 2 3; do /usr/bin/time -o costs.one -f '%e %M' "$@" >/dev/null 2>&1 || true; tail -n 1 costs.one; done >costs
    awk -v name="$name" -v nodes="$nodes" '
        NR == 1 || $1 < time { time = $1 }
        NR == 1 || $2 < peak { peak = $2 }
        END { printf "  %-22s %8.2f s %9d KB %6.2f KB a node\n", name, time, peak, peak / nodes }' costs
}

# shown FOLDER: what a graph costs that is only looked at
shown() {
    cd "$work/$1"
    printf '%s: %s\n' "$1" "$("$program" check x.dag)"
    cost 'dagrun check' "$program" check x.dag
    cost 'dagrun rehearse' "$program" rehearse x.dag table
    if command -v make >/dev/null; then cost 'make -n' make -n; fi
    if command -v ninja >/dev/null; then cost 'ninja -n' ninja -n; fi
    if [ -x "$work/words" ] && [ "$1" = flat ]; then cost 'words of x.dag in C' "$work/words" x.dag; fi
}

# fresh: nothing is left of an earlier run
fresh() { rm -f x.dag.*; }

# said NAME MILLISECONDS [TEXT]: a line
said() { printf '  %-34s %9.2f s%s\n' "$1" "$(awk -v n="$2" 'BEGIN { print n / 1000 }')" "${3-}"; }

# halfway: waits until half of the nodes have started and ended, two records of 32 bytes for each
halfway() {
    while [ "$(stat -c %s x.dag.journal 2>/dev/null || echo 0)" -lt $((nodes * 32)) ]; do sleep 0.05; done
}

# followed PROCESS: the longest `status` while the process runs, a second apart
followed() {
    local longest=0 one
    while kill -0 "$1" 2>/dev/null; do
        one=$(milliseconds "$program" status x.dag)
        if [ "$one" -gt "$longest" ]; then longest=$one; fi
        sleep 1
    done
    echo "$longest"
}

# ended NAME SINCE PROCESS: waits for a run and says how long it took
ended() {
    local status=0
    wait "$3" || status=$?
    said "$1" $((($(date +%s%N) - $2) / 1000000)) ", status $status: $(tail -n 1 report)"
}

# runs: the flat graph in this folder, run in full, and cut short and gone on with
runs() {
    local since run longest
    fresh
    since=$(date +%s%N)
    "$program" run --maxjobs 4 x.dag >report 2>&1 &
    run=$!
    longest=$(followed "$run")
    ended 'dagrun run --maxjobs 4' "$since" "$run"
    said '  the longest status meanwhile' "$longest"
    said '  audit' "$(milliseconds "$program" audit x.dag)"
    fresh
    since=$(date +%s%N)
    "$program" run x.dag >report 2>&1 &
    ended 'dagrun run' "$since" $!
    fresh
    since=$(date +%s%N)
    "$program" run x.dag >report 2>&1 &
    run=$!
    halfway
    { kill -9 "$run" && wait "$run"; } 2>/dev/null || true
    said 'dagrun run, killed halfway' $((($(date +%s%N) - since) / 1000000))
    since=$(date +%s%N)
    "$program" run x.dag >report 2>&1 &
    ended '  gone on with' "$since" $!
    if command -v make >/dev/null; then said 'make -j4' "$(milliseconds make -j4)"; fi
}

flat
splices
shown flat
shown splices
if [ "${2-}" = check ]; then exit 0; fi
for place in $places; do
    if [ "$place" = "$work" ]; then echo 'flat, on a disk:'; else echo 'flat, in memory:'; fi
    mkdir -p "$place/run"
    cp "$work/flat/"{x.dag,true.sub,Makefile} "$place/run"
    cd "$place/run"
    runs
done
