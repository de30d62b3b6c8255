#!/usr/bin/env bash
# Times `dagrun check` of one job whose texts refer to many macros, three rounds, in milliseconds, at 8,192, 16,384, 32,768 and
# 65,528 references, of which at most 65,536 are replaced:
# - wide: so many names, each assigned twice, and each referred to once;
# - deep: a chain of names, each of which stands for the one before it;
# - defaults: so many references, each of which is the default of the one around it.
# Beside it stands `cat` of the same files.
. "$(dirname -- "${BASH_SOURCE[0]}")/common.sh"
sizes='8192 16384 32768 65528'

# job SHAPE COUNT: a folder with a DAG of one job
job() {
    mkdir -p "$work/$1$2"
    awk -v shape="$1" -v count="$2" -v folder="$work/$1$2" 'BEGIN {
        print "JOB A a.sub" >(folder "/job.dag")
        submit = folder "/a.sub"
        print "executable = run" >submit
        # A line ends where its text goes on in the next one.
        text = ""
        if (shape == "wide") for (i = 0; i < count; i++) {
            print "Name" i " = first\nname" i " =" >submit
            text = text "$(NAME" i ")" (i % 8 == 7 ? "\\\n" : "")
        }
        if (shape == "deep") {
            print "name0 = end" >submit
            for (i = 1; i < count; i++) print "name" i " = $(name" i - 1 ")" >submit
            text = "$(name" count - 1 ")"
        }
        if (shape == "defaults") {
            for (i = 0; i < count; i++) text = text "$(name" i ":" (i % 8 == 7 ? "\\\n" : "")
            text = text "end"
            for (i = 0; i < count; i++) text = text ")" (i % 64 == 63 ? "\\\n" : "")
        }
        print "arguments = " text "\nqueue" >submit
    }'
}

for shape in wide deep defaults; do
    for size in $sizes; do
        job "$shape" "$size"
        cd "$work/$shape$size"
        printf '%s, %s references, %s bytes: %s\n' "$shape" "$size" "$(wc -c <a.sub)" "$("$program" check job.dag)"
    done
done
for round in 1 2 3; do
    for shape in wide deep defaults; do
        for size in $sizes; do
            cd "$work/$shape$size"
            printf '%s, %s references: dagrun check %s ms, cat %s ms\n' "$shape" "$size" \
                "$(milliseconds "$program" check job.dag)" "$(milliseconds cat job.dag a.sub)"
        done
    done
done
