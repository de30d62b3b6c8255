#!/usr/bin/env bash
# Runs `dagrun check` of short inputs that are made to cost much: each is at most a few megabytes, and names something that a
# reader could copy, or go over, far more often than it stands there. Prints time and memory of each, and ends with status 1 where
# one takes over 2 seconds or 300 MB. A row that is marked as open is known to take more, and is printed alone.
#
#   bench/hostile.sh [PROGRAM [ROW..]]    PROGRAM: in place of the one of these sources; ROW: these rows alone
if [ $# -gt 0 ]; then
    set -eu
    program=$(realpath "$1")
    work=$(mktemp -d)
    trap 'rm -rf "$work"' EXIT
    shift
else
    . "$(dirname -- "${BASH_SOURCE[0]}")/common.sh"
fi
rows=" $* "
most_seconds=2
most_megabytes=300
over=0

# row NAME STATE: runs `check` of t.dag in the folder NAME, of which the function `input_NAME` makes the files; STATE is closed
# or open
row() {
    local name=$1 state=$2 answer seconds megabytes verdict
    if [ "$rows" != '  ' ] && [[ $rows != *" $name "* ]]; then return; fi
    mkdir "$work/$name"
    cd "$work/$name"
    printf 'executable = true\nqueue\n' >a.sub
    "input_$name"
    (
        ulimit -v 16000000
        /usr/bin/time -f '%e %M' -o time timeout 60 "$program" check t.dag >out 2>err
    ) || true
    answer=$(cat out err | grep -v '^warning: ' | head -n 1 | cut -c 1-60)
    read -r seconds megabytes < <(tail -n 1 time | awk '{ print $1, int($2 / 1024) }')
    verdict=$(awk -v s="$seconds" -v m="$megabytes" -v most_s=$most_seconds -v most_m=$most_megabytes \
        'BEGIN { print (s > most_s || m > most_m) ? "over" : "within" }')
    if [ "$state" = open ]; then
        verdict="$verdict (open)"
    elif [ "$verdict" = over ]; then
        over=1
    fi
    printf '%-22s %9s bytes %8s s %6s MB  %-14s %s\n' \
        "$name" "$(cat ./*.dag ./*.sub | wc -c)" "$seconds" "$megabytes" "$verdict" "$answer"
    cd "$work"
    rm -r "${work:?}/$name"
}

# nodes COUNT: as many JOB lines
nodes() { awk -v count="$1" 'BEGIN { for (i = 0; i < count; i++) print "JOB N" i " a.sub" }'; }

# lines COUNT TEXT: a line, as often
lines() { awk -v count="$1" -v text="$2" 'BEGIN { for (i = 0; i < count; i++) print text }'; }

# words COUNT WORD: a word, as often, with a blank before each
words() { awk -v count="$1" -v word="$2" 'BEGIN { for (i = 0; i < count; i++) printf " %s", word }'; }

# numbered FIRST PAST WORD: a word with each number from one to that before the other, with a blank before each
numbered() { awk -v first="$1" -v past="$2" -v word="$3" 'BEGIN { for (i = first; i < past; i++) printf " %s%d", word, i }'; }

# A script of 30,000 words for each of 4,096 nodes; the line twenty times; a short one often.
input_script_words() { { nodes 4096; lines 1 "SCRIPT PRE ALL_NODES$(words 30000 x)"; } >t.dag; }
input_script_lines() { { nodes 4096; lines 20 "SCRIPT POST ALL_NODES$(words 30000 x)"; } >t.dag; }
input_short_scripts() { { nodes 4096; lines 20000 'SCRIPT PRE ALL_NODES x'; } >t.dag; }

# Many macros of one node, and each assigned once more; many macros of all nodes.
input_macros() {
    { nodes 1; awk 'BEGIN { for (i = 0; i < 100000; i++) print "VARS N0 m" i "=\"x\"" }'; } >t.dag
}
input_macros_again() {
    { nodes 1; awk 'BEGIN { for (i = 0; i < 100000; i++) print "VARS N0 m" i % 50000 "=\"x\"" }'; } >t.dag
}
input_macros_of_all() {
    { nodes 4096; awk 'BEGIN { printf "VARS ALL_NODES"; for (i = 0; i < 6500; i++) printf " m%d=\"\"", i; print "" }'; } >t.dag
}

# Each of 2,048 nodes is a parent of 2,048 others; the line twenty times; two names, each 16,000 times in a line.
input_pairs() { { nodes 4096; lines 1 "PARENT$(numbered 0 2048 N) CHILD$(numbered 2048 4096 N)"; } >t.dag; }
input_pairs_again() { { nodes 4096; lines 20 "PARENT$(numbered 0 2048 N) CHILD$(numbered 2048 4096 N)"; } >t.dag; }
input_names_again() { { nodes 2; lines 1 "PARENT$(words 10900 N0) CHILD$(words 10900 N1)"; } >t.dag; }

# A splice of 4,095 nodes that a PARENT line names 30,000 times; the line twenty times.
input_splice_again() {
    { echo 'JOB T a.sub'; echo 'SPLICE S part.dag'; lines 20 "PARENT$(words 30000 S) CHILD T"; } >t.dag
    nodes 4095 >part.dag
}

# A file of a megabyte that is opened 4,096 times: of comments, and of lines that set nothing.
splices() { awk 'BEGIN { for (i = 0; i < 4096; i++) print "SPLICE S" i " part.dag" }' >t.dag; }
input_splices() { splices; lines 16000 "# $(words 32 x)" >part.dag; }
input_splices_of_lines() { splices; lines 50000 'RETRY ALL_NODES 1' >part.dag; }

# A name of a megabyte, in a macro that 16,384 references name; the name is assigned, or not.
long_name() { awk 'BEGIN { for (i = 0; i < 1000000; i++) printf "n" }'; }
references() { awk 'BEGIN { printf "arguments ="; for (i = 0; i < 16384; i++) printf " $(a)"; print "" }'; }
input_long_name() {
    nodes 1 >t.dag
    { printf 'executable = true\na = $(%s)\n' "$(long_name)"; references; echo queue; } >a.sub
}
input_long_name_assigned() {
    nodes 1 >t.dag
    { printf 'executable = true\n%s = x\na = $(%s)\n' "$(long_name)" "$(long_name)"; references; echo queue; } >a.sub
}

# Lines that are joined: one of 500 kB of blanks, and 250,000 that are a backslash.
input_joined_lines() {
    nodes 1 >t.dag
    { printf 'executable = true\narguments = '; awk 'BEGIN { for (i = 0; i < 500000; i++) printf " "; print "\\" }'
        lines 250000 '\'; printf 'x\nqueue\n'; } >a.sub
}

printf 'at most %s s and %s MB\n' $most_seconds $most_megabytes
row script_words closed
row script_lines closed
row short_scripts closed
row macros closed
row macros_again closed
row macros_of_all open
row pairs closed
row pairs_again closed
row names_again closed
row splice_again closed
row splices closed
row splices_of_lines closed
row long_name closed
row long_name_assigned closed
row joined_lines closed
exit $over
