#!/usr/bin/env bash
# Times runs beside `make -j` and `ninja -j` on the same graphs, and beside a floor, in turn, so that all of them see the same machine:
# - a chain of 200 /bin/true;
# - wide: one /bin/true, 598 that wait for it, and one that waits for these, 4 and 64 at once;
# - layered: 600 /bin/true in 10 layers, of which each waits for two of the layer before, 4 and 64 at once;
# - 192 and 1,000 `sleep 0.1` side by side, 64 at once;
# - 4,000 /bin/true side by side, 1,024 at once; and with no limit, where dagrun starts 1,024, make all, and ninja two more than there are
#   processors.
# First with the journal on a disk, then in memory (/dev/shm). make and ninja keep no journal. The floor (bench/floor.c) starts and waits
# for as many children, all of which wait for nothing, and does nothing else: once with a journal that is written as dagrun writes its own,
# once without. Then it counts the syncs of runs, where strace is there.
#   bench/run.sh [TIMES]     how often each is timed (3); the least of the times is printed
#   bench/run.sh TIMES ROWS  only the rows whose words match this, as 'wide|layered'
. "$(dirname -- "${BASH_SOURCE[0]}")/common.sh"
times=${1:-3}
rows=${2:-.}
disk=$work
memory=
if [ -w /dev/shm ]; then
    memory=$(mktemp -d /dev/shm/dagrun.XXXXXX)
    trap 'rm -rf "$work" "$memory"' EXIT
fi
floor=
if command -v cc >/dev/null; then
    floor=$work/floor
    cc -O2 -o "$floor" "$top/bench/floor.c"
fi

# graph NAME SUBMIT COMMAND: the graph of the lines `JOB PARENT..` of the standard input, for each of the three programs
graph() {
    awk -v name="$1" -v submit="$2" -v command="$3" '
        BEGIN { print "rule run\n  command = " command >name ".ninja"; all = "all:" }
        {
            parents = ""
            for (i = 2; i <= NF; i++) parents = parents " " $i
            print "JOB " $1 " " submit >name ".dag"
            if (NF > 1) pairs = pairs "PARENT" parents " CHILD " $1 "\n"
            recipes = recipes $1 ":" parents "\n\t@" command "\n"
            all = all " " $1
            print "build " $1 ": run" parents >name ".ninja"
        }
        END { printf "%s", pairs >name ".dag"; printf "%s\n%s", all, recipes >name ".mk" }'
}

# beside COUNT: so many jobs that wait for nothing
beside() { awk -v count="$1" 'BEGIN { for (i = 0; i < count; i++) print "n" i }'; }

# graphs: the graphs in this folder
graphs() {
    printf 'executable = /bin/true\nqueue\n' >true.sub
    printf 'executable = /bin/true\noutput = out/$(JOB).out\nerror = out/$(JOB).err\nqueue\n' >writes.sub
    printf 'executable = /bin/sleep\narguments = 0.1\nqueue\n' >sleep.sub
    mkdir -p out
    awk 'BEGIN { print "n0"; for (i = 1; i < 200; i++) print "n" i, "n" i - 1 }' | graph chain true.sub /bin/true
    awk 'BEGIN {
        print "n0"
        for (i = 1; i < 599; i++) { print "n" i, "n0"; all = all " n" i }
        print "n599" all
    }' >wide.pairs
    graph wide true.sub /bin/true <wide.pairs
    graph writes writes.sub /bin/true <wide.pairs
    awk 'BEGIN {
        for (i = 0; i < 60; i++) print "n" i
        for (layer = 1; layer < 10; layer++) for (i = 0; i < 60; i++)
            print "n" layer * 60 + i, "n" (layer - 1) * 60 + i, "n" (layer - 1) * 60 + (i + 1) % 60
    }' | graph layered true.sub /bin/true
    beside 192 | graph few sleep.sub '/bin/sleep 0.1'
    beside 1000 | graph sleeps sleep.sub '/bin/sleep 0.1'
    beside 4000 | graph many true.sub /bin/true
}

# fresh: nothing is left of an earlier run
fresh() { rm -rf ./*.dag.* ./*.rescue* .ninja_log .ninja_deps; }

# seconds FILE COMMAND..: adds the time that it takes to the file, in seconds
seconds() {
    local begun ended file=$1
    shift
    fresh
    begun=$(date +%s%N)
    "$@" >report 2>&1 || { cat report; exit 1; }
    ended=$(date +%s%N)
    awk -v n=$((ended - begun)) 'BEGIN { printf "%.3f\n", n / 1e9 }' >>"$file"
}

# row GRAPH AT_ONCE JOBS WORDS COMMAND..: the least time of each program on a graph of so many jobs that run this command, and in brackets
# dagrun's by it; none at once: with no limit
row() {
    local graph=$1 jobs=$3 words=$4 limit=() most='' name
    if [ "$2" != none ]; then most=$2; limit=(--maxjobs "$most"); fi
    if ! grep -qE -- "$rows" <<<"$words"; then return; fi
    shift 4
    rm -f ./*.times
    for _ in $(seq "$times"); do
        seconds dagrun.times "$program" run "${limit[@]}" "$graph.dag"
        if command -v make >/dev/null; then seconds make.times make -s "-j$most" -f "$graph.mk" all; fi
        if command -v ninja >/dev/null; then seconds ninja.times ninja ${most:+"-j$most"} -f "$graph.ninja"; fi
        if [ -n "$floor" ] && [ -n "$most" ]; then
            seconds floor.times "$floor" "$jobs" "$most" floor.journal "$@"
            seconds bare.times "$floor" "$jobs" "$most" - "$@"
        fi
    done
    printf '  %s:' "$words"
    for name in dagrun make ninja floor bare; do
        if [ -s $name.times ]; then
            sort -n $name.times | head -n 1 | awk -v name="$name" -v own="$(sort -n dagrun.times | head -n 1)" '{
                if (name == "dagrun") printf " %s %s s", name, $1
                else printf ", %s %s s (%.2f)", name, $1, own / $1
            }'
        fi
    done
    echo
}

# syncs GRAPH AT_ONCE JOBS WORDS: how often a run syncs a file
syncs() {
    if ! grep -qE -- "$rows" <<<"$4"; then return; fi
    fresh
    strace -f -c -e trace=fsync,fdatasync -o calls "$program" run --maxjobs "$2" "$1.dag" >/dev/null
    awk -v jobs="$3" -v words="$4" '$NF ~ /^f(data)?sync$/ { count += $4 }
        END { printf "  %s: %d syncs, %.2f a job\n", words, count, count / jobs }' calls
}

for folder in "$disk" $memory; do
    cd "$folder"
    graphs
    if [ "$folder" = "$disk" ]; then echo 'on a disk'; else echo 'in memory'; fi
    row chain 4 200 'chain of 200 /bin/true' /bin/true
    row wide 4 600 'wide 600, 4 at once' /bin/true
    row wide 64 600 'wide 600, 64 at once' /bin/true
    row layered 4 600 'layered 600, 4 at once' /bin/true
    row layered 64 600 'layered 600, 64 at once' /bin/true
    row few 64 192 '192 sleep 0.1, 64 at once' /bin/sleep 0.1
    row sleeps 64 1000 '1,000 sleep 0.1, 64 at once' /bin/sleep 0.1
    row many 1024 4000 '4,000 /bin/true, 1,024 at once' /bin/true
    row many none 4000 '4,000 /bin/true, with no limit' /bin/true
done
cd "$disk"
if command -v strace >/dev/null; then
    echo 'syncs'
    syncs chain 4 200 'chain of 200 /bin/true'
    syncs wide 4 600 'wide 600, 4 at once'
    syncs wide 64 600 'wide 600, 64 at once'
    syncs layered 4 600 'layered 600, 4 at once'
    syncs layered 64 600 'layered 600, 64 at once'
    syncs few 64 192 '192 sleep 0.1, 64 at once'
    syncs writes 4 600 'wide 600 with two files a job, 4 at once'
    syncs writes 64 600 'wide 600 with two files a job, 64 at once'
fi
# What a sync costs here.
dd if=/dev/zero of=synced bs=512 count=200 oflag=sync 2>&1 | awk '/copied/ { printf "200 synced writes: %s s\n", $(NF - 3) }'
