#!/usr/bin/env bash
# Runs each example and compares what it prints, its exit status and its error lines with what is expected.
set -u
cd -- "$(dirname -- "${BASH_SOURCE[0]}")/.." || exit 1
dagrun=$PWD/dagrun
folder=.
passed=0
failed=0

# check NAME STATUS EXPECTED-OUTPUT EXPECTED-ERROR WORDS..: dagrun is called in the folder; standard input is handed through
check() {
    local name=$1 status=$2 output=$3 error=$4 got_output got_error got_status
    shift 4
    got_error=$(mktemp)
    got_output=$(cd -- "$folder" && "$dagrun" "$@" 2>"$got_error"; echo "status $?")
    got_status=${got_output##*status }
    got_output=${got_output%status *}
    if [ "$got_status" = "$status" ] && [ "$got_output" = "$output" ] && [ "$(cat "$got_error")" = "$error" ]; then
        passed=$((passed + 1))
    else
        failed=$((failed + 1))
        printf 'FAILED %s: status %s, output\n%s\nerror\n%s\n' "$name" "$got_status" "$got_output" "$(cat "$got_error")"
    fi
    rm -f "$got_error"
}

# check_full NAME WORDS..: a standard output that refuses what is printed gives status 125 and one line on standard error
check_full() {
    local name=$1 got_error got_status
    shift
    got_error=$(cd -- "$folder" && "$dagrun" "$@" 2>&1 >/dev/full)
    got_status=$?
    if [ "$got_status" = 125 ] && [[ $got_error == 'dagrun: standard output'* ]] && [[ $got_error != *"$newline"* ]]; then
        passed=$((passed + 1))
    else
        failed=$((failed + 1))
        printf 'FAILED %s: status %s, error\n%s\n' "$name" "$got_status" "$got_error"
    fi
}

newline=$'\n'

check diamond 0 "$(cat examples/diamond.expected)$newline" '' rehearse examples/diamond.dag
check diamond_from_input 0 "$(cat examples/diamond.expected)$newline" '' <examples/diamond.dag
check diamond_one_fails 1 "$(cat examples/diamond_one_fails.expected)$newline" '' \
    rehearse examples/diamond.dag examples/diamond_one_fails.outcomes
check retry_until_good 0 "$(cat examples/retry_until_good.expected)$newline" '' \
    rehearse examples/retry_until_good.dag examples/retry_until_good.outcomes
check scripts 0 "$(cat examples/scripts.expected)$newline" '' rehearse examples/scripts.dag examples/scripts.outcomes

# An end that a command substitution would drop is kept by a letter.
abort=$(cat examples/abort.expected; printf x)
final=$(cat examples/final.expected; printf x)
check priorities 9 "$(cat examples/priorities.expected)$newline" '' \
    rehearse --maxjobs 1 examples/priorities.dag examples/priorities.outcomes
check categories 9 "$(cat examples/categories.expected)$newline" '' \
    rehearse examples/categories.dag examples/categories.outcomes
check categories_one_job 9 "$(cat examples/categories.one_job.expected)$newline" '' \
    rehearse examples/categories.dag examples/categories.outcomes --maxjobs=1
check abort 42 "${abort%x}" '' rehearse examples/abort.dag examples/abort.outcomes
check final 0 "${final%x}" '' rehearse examples/final.dag examples/abort.outcomes

# The files of splices and the submit files are seen from the folder in which dagrun is called.
folder=examples
check diamond_checked 0 "ok nodes=4 edges=4 final=no$newline" '' check diamond.dag
check scripts_checked 0 "ok nodes=4 edges=4 final=no$newline" '' check scripts.dag
check message_checked 0 "ok nodes=2 edges=1 final=no$newline" '' check message.dag
check macros_in_a_loop 125 '' 'dagrun: V2 Loop A' check - <<<$'JOB A message.sub\nVARS A msg="$(who)" who="$(msg)"'
check warnings 0 "ok nodes=1 edges=0 final=no$newline" "warning: -:1 ignored${newline}warning: -:3 overridden" \
    check - <<<$'DOT graph.dot\nJOB A a.sub\nRETRY ALL_NODES 2\nRETRY A 5'
check splices_checked 0 "$(cat examples/splices.check.expected)$newline" '' check splices.dag
check splices 1 "$(cat examples/splices.expected)$newline" '' rehearse splices.dag splices.outcomes
check_full refused_check check diamond.dag
folder=.
check submit_file_seen_from_above 125 '' 'dagrun: P1 MissingFile a.sub' check examples/diamond.dag
check submit_file_of_a_noop 0 "ok nodes=1 edges=0 final=no$newline" '' check - <<<'JOB A no/such.sub NOOP'
check splice_seen_from_above 125 '' 'dagrun: S1 MissingFile stage.dag' check examples/splices.dag
check missing_splice 125 '' 'dagrun: S1 MissingFile no/such.dag' check - <<<'SPLICE Y such.dag DIR no'

check cycle 125 '' 'dagrun: G1 Cycle Clean Fit' check examples/cycle.dag
check cycle_rehearsed 125 '' 'dagrun: G1 Cycle Clean Fit' rehearse examples/cycle.dag
check warnings_rehearsed 0 "A DONE attempts=1 value=0${newline}result 0$newline" \
    "warning: -:1 ignored${newline}warning: -:3 overridden" <<<$'DOT graph.dot\nJOB A a.sub\nRETRY ALL_NODES 2\nRETRY A 5'
check refused_without_warnings 125 '' 'dagrun: G1 Cycle A' check - <<<$'DOT graph.dot\nJOB A a.sub\nPARENT A CHILD A'

check missing_file 125 '' 'dagrun: S1 MissingFile no/such.dag' rehearse no/such.dag
check missing_outcomes 125 '' 'dagrun: X2 FileRefused no/such.outcomes' rehearse examples/diamond.dag no/such.outcomes
check folder_as_dag 125 '' 'dagrun: S1 MissingFile examples' rehearse examples
check bad_outcomes 125 '' 'dagrun: N3 BadLine 1' rehearse examples/diamond.dag examples/diamond.dag
check unknown_command 125 '' 'dagrun: L2 UnknownCommand -:1:1' <<<'FOO A'
check name_declared_twice 125 '' 'dagrun: S4 DuplicateName -:2:5' <<<$'JOB A a.sub\nJOB A b.sub'
check_full refused_output rehearse examples/diamond.dag

# Examples with real programs are run in a copy of what git would keep of their folder.
copies=$(mktemp -d)
trap 'rm -rf "$copies"' EXIT

# copied NAME: a new copy of that example, in which the checks behind it call dagrun
copied() {
    folder=$copies/examples/$1
    rm -rf "$folder"
    if ! git ls-files -coz --exclude-standard "examples/$1" 2>/dev/null | xargs -0 cp --parents -t "$copies" 2>/dev/null; then
        mkdir -p "$copies/examples"
        cp -r "examples/$1" "$folder"
    fi
}

# told NAME FOUND WANTED
told() {
    if [ "$2" = "$3" ]; then
        passed=$((passed + 1))
    else
        failed=$((failed + 1))
        printf 'FAILED %s: found\n%s\nwanted\n%s\n' "$1" "$2" "$3"
    fi
}

# ran NAME DAG STATUS: the DAG of that name in the copy ends so, and prints what its file of that name says
ran() {
    check "$1" "$3" "$(cat "$folder/$2.expected")$newline" '' run "${4:-$2}.dag"
}

# The sweep calls bash and coreutils alone.
copied sweep
told sweep_made "$("$folder/make_sweep.sh")" "$(cat "$folder/sweep.dag")"
mkdir "$copies/bare"
for tool in bash env cat cut sort uniq mktemp rm; do ln -s "$(command -v "$tool")" "$copies/bare/$tool"; done
PATH=$copies/bare ran sweep sweep 0
told sweep_table "$(cat "$folder/table.txt")" "$(cat "$folder/table.expected")"

copied pipelines
ran pipelines pipelines 0
told pipelines_compared "$(cat "$folder/compare.txt")" "$(cat "$folder/compare.expected")"

copied report
ran report_of_a_failure first 1 report
told report_text "$(cat "$folder/report.txt")" 'failed steps: 1'
ran report_of_all_done second 0 report
told report_text_of_all_done "$(cat "$folder/report.txt")" 'all is done'

# The third round goes back to the first one's rescue file.
copied back
ran back_first first 1 back
echo 2 >"$folder/degree.txt"
ran back_second second 1 back
echo 3 >"$folder/degree.txt"
check back_to_the_first 0 "$(cat "$folder/third.expected")$newline" '' run --dorescuefrom 1 back.dag
told back_report "$(cat "$folder/report.txt")" "model${newline}fit of degree 3"
told back_rescues "$(cd -- "$folder" && echo back.dag.rescue*)" 'back.dag.rescue001 back.dag.rescue002.old'

copied already
ran already_there already 0
told fetched "$(LC_ALL=C sort "$folder/fetched.log")" "index${newline}readme"
told lines_of_all "$(tr -d ' ' <"$folder/lines.txt")" 6

# The manager is killed while the second step works, and what is left of that is killed as systemd or a stop of the machine does it.
copied nightly
export DAGRUN=$dagrun
: >"$folder/hold"
(cd -- "$folder" && exec "$dagrun" run nightly.dag) >/dev/null 2>&1 &
manager=$!
for ((turn = 0; turn < 3000; turn++)); do
    if [ -s "$folder/index.works" ]; then break; fi
    sleep 0.1
done
{ kill -KILL "$manager" && wait "$manager"; } 2>/dev/null
index=$(cat "$folder/index.works")
kill -KILL "$index"
# It goes on behind `hold` unless it has ended, which takes a while on a busy machine; Z and X are states of what has.
for ((turn = 0; turn < 3000; turn++)); do
    stat=
    { read -r stat; } 2>/dev/null <"/proc/$index/stat"
    if [[ -z $stat || ${stat##*) } == [ZX]* ]]; then break; fi
    sleep 0.1
done 2>/dev/null
rm "$folder/hold"
"$folder/nightly.sh" --resume
told nightly_status "$?" 0
told nightly_resumed "$(cat "$folder/last.txt")" "$(cat "$folder/nightly.expected")"
told nightly_once_each "$(cat "$folder/done.log" "$folder/index.txt")" "copied${newline}thinned${newline}an index"
"$folder/nightly.sh" --resume
told nothing_to_resume "$? $(wc -l <"$folder/done.log")" '0 2'
"$folder/nightly.sh"
told nightly_anew "$? $(wc -l <"$folder/done.log")" '0 4'

if command -v python3 >/dev/null; then
    copied nbody
    ran nbody nbody 0
    told nbody_order "$(cat "$folder/order.txt")" "$(cat "$folder/order.expected")"
else
    echo 'skipped nbody: python3 is not installed'
fi

printf '%s passed, %s failed\n' "$passed" "$failed"
[ "$failed" = 0 ]
