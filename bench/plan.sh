#!/usr/bin/env bash
# Times `dagrun check` of plans of 512, 1,024, 2,048 and 4,096 nodes, three rounds, in milliseconds. Each node has 20 macros, in
# four VARS lines, and a submit file of its own whose texts use them all; six of the macros refer to others. There are no edges:
# the time is that of reading the files and expanding the texts. Beside it stands `cat` of the same files.
. "$(dirname -- "${BASH_SOURCE[0]}")/common.sh"
sizes='512 1024 2048 4096'

# plan COUNT: a folder with plan.dag and the submit files of so many nodes
plan() {
    mkdir -p "$work/$1"
    awk -v folder="$work/$1" -v count="$1" 'BEGIN {
        top = folder "/plan.dag"
        for (i = 0; i < count; i++) {
            print "JOB Node" i " node" i ".sub" >top
            for (line = 0; line < 4; line++) {
                text = "VARS Node" i
                for (m = 5 * line; m < 5 * line + 5; m++)
                    text = text " m" m "=\"" (m % 3 == 2 ? "$(m" m - 1 ")-$(m" m - 2 ")" : "value" m "-$(JOB)-$(RETRY)") "\""
                print text >top
            }
            submit = folder "/node" i ".sub"
            print "executable = bin/run_$(m0)" >submit
            text = "arguments = \""
            for (m = 1; m < 17; m++) text = text "--option" m " $(m" m ") "
            print text "$(none:default)\"" >submit
            print "input = $(m17).in\noutput = $(m18).out\nerror = $(m19).$(Cluster).err\nqueue" >submit
            close(submit)
        }
    }'
}

for size in $sizes; do
    plan "$size"
    printf '%s nodes, %s bytes: %s\n' "$size" "$(cat "$work/$size"/* | wc -c)" "$(cd "$work/$size" && "$program" check plan.dag)"
done
for round in 1 2 3; do
    for size in $sizes; do
        cd "$work/$size"
        printf '%s nodes: dagrun check %s ms, cat %s ms\n' "$size" \
            "$(milliseconds "$program" check plan.dag)" "$(milliseconds cat plan.dag node*.sub)"
    done
done
