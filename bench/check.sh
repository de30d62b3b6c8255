#!/usr/bin/env bash
# Times `dagrun check`, three rounds, in milliseconds:
# - of 4,096 nodes in a chain: in 64 splices of one file with 64 nodes, and in 4,096 files with one node each;
# - of 65,536 nodes with 200,000 edges in one file, and of half as many, beside `ninja -n` and `make -n` on the same graph (both
#   read their file and say what they would run; dagrun reads its files, orders the graph and expands the texts of each job).
# All nodes of a graph have one submit file; bench/plan.sh has one for each node.
. "$(dirname -- "${BASH_SOURCE[0]}")/common.sh"

# folder NAME: a folder with the submit file of all nodes
folder() {
    mkdir -p "$work/$1"
    printf 'executable = touch\narguments = $(JOB)\nqueue\n' >"$work/$1/node.sub"
}

# parts FOLDER COUNT SIZE: splices of a file, or of a file each where SIZE is 1, in a chain
parts() {
    folder "$1"
    awk -v folder="$work/$1" -v count="$2" -v size="$3" 'BEGIN {
        top = folder "/top.dag"
        for (i = 0; i < count; i++) print "SPLICE S" i " part" (size == 1 ? i : "") ".dag" >top
        for (i = 1; i < count; i++) print "PARENT S" i - 1 " CHILD S" i >top
        for (i = 0; i < (size == 1 ? count : 1); i++) {
            part = folder "/part" (size == 1 ? i : "") ".dag"
            for (k = 0; k < size; k++) print "JOB N" k " node.sub" >part
            for (k = 1; k < size; k++) print "PARENT N" k - 1 " CHILD N" k >part
            close(part)
        }
    }'
}

# graph FOLDER NODES EDGES: one graph of distinct edges as large.dag, build.ninja and Makefile
graph() {
    folder "$1"
    awk -v folder="$work/$1" -v nodes="$2" -v edges="$3" 'BEGIN {
        dag = folder "/large.dag"; ninja = folder "/build.ninja"; make = folder "/Makefile"
        for (i = 0; i < nodes; i++) print "JOB N" i " node.sub" >dag
        for (k = 1; count < edges; k++) for (i = 4; i < nodes && count < edges; i++) {
            parent = (i * 7919 * k + k) % i
            if ((i, parent) in seen) continue
            seen[i, parent] = 1
            above[i] = above[i] " N" parent
            count++
            print "PARENT N" parent " CHILD N" i >dag
        }
        print "rule touch\n  command = touch $out" >ninja
        printf "all:" >make
        for (i = 0; i < nodes; i++) printf " N" i >make
        print "" >make
        for (i = 0; i < nodes; i++) {
            print "build N" i ": touch" above[i] >ninja
            print "N" i ":" above[i] "\n\ttouch $@" >make
        }
    }'
}

parts few 64 64
parts many 4096 1
graph half 32768 100000
graph whole 65536 200000
for folder in few many; do
    printf '%s: %s\n' "$folder" "$(cd "$work/$folder" && "$program" check top.dag)"
done
for folder in half whole; do
    printf '%s: %s, %s commands of ninja, %s of make\n' "$folder" "$(cd "$work/$folder" && "$program" check large.dag)" \
        "$(ninja -C "$work/$folder" -n | grep -c touch)" "$(make -C "$work/$folder" -n | grep -c touch)"
done

for round in 1 2 3; do
    few=$(cd "$work/few" && milliseconds "$program" check top.dag)
    many=$(cd "$work/many" && milliseconds "$program" check top.dag)
    printf '4096 nodes: in 64 splices of one file %s ms, in 4096 files %s ms\n' "$few" "$many"
    for folder in half whole; do
        cd "$work/$folder"
        printf '%s nodes with %s edges: dagrun check %s ms, ninja -n %s ms, make -n %s ms\n' \
            "$(grep -c ^JOB large.dag)" "$(grep -c ^PARENT large.dag)" \
            "$(milliseconds "$program" check large.dag)" "$(milliseconds ninja -n)" "$(milliseconds make -n)"
    done
done
