#compdef dagrun
# zsh completion for dagrun; made by packaging/generate.py.
_dagrun_nodes() {
    local -a nodes
    nodes=(${(f)"$(dagrun status ${(Q)words[(r)*.dag]} 2>/dev/null | cut -d' ' -f1)"})
    compadd -a nodes
}

_dagrun_codes() {
    local -a codes
    codes=(${(f)"$(dagrun explain 2>/dev/null | cut -d' ' -f1)"})
    compadd -a codes
}

_dagrun() {
    local -a commands
    commands=(
        'run:Runs a DAG file, or goes on with a run that was cut short'
        'status:Says where each node of a run is, by its journal'
        'why:Says why nodes are in error, and for whom others wait'
        'times:Says when each phase of a run began and how long it took, by its log'
        'report:Writes one HTML page of the last round, on standard output'
        'salvage:Makes a rescue file of a round that was cut short, whose submit files were changed since'
        'redo:Makes a rescue file of the last round by which nodes run again that are done'
        'audit:Says whether a journal is that of a finished run, and what its nodes came to'
        'check:Reads a DAG file with its splices, and says whether it is right'
        'rehearse:Runs a DAG file at the outcomes of a table, and starts no program'
        'graph:Draws the graph of a DAG, coloured by where its nodes stand, for graphviz'
        'explain:Says what the code of a fault means, with an example, and what to do'
        'help:Says how a command is called, with examples'
        'version:Says which version this is'
    )
    if (( CURRENT == 2 )); then
        _describe -t commands command commands
        return
    fi
    (( CURRENT-- ))
    shift words
    case $words[1] in
        run)
            _arguments \
                '(-h --help)'{-h,--help}'[Print help]' \
                '--maxjobs=[How many jobs may run at once; 0 is no limit. -j N is short for it, and -j cpus takes the number of processors]:N:' \
                '--maxpre=[How many PRE scripts may run at once]:N:' \
                '--maxpost=[How many POST scripts may run at once]:N:' \
                '--autorescue=[0\: a new round reads no rescue file]:0 or 1:(0 1)' \
                '--dorescuefrom=[Begins a new round by the rescue file of this number; those of higher numbers are renamed to .old]:N:' \
                '--always-run-post[POST scripts run after PRE scripts that failed, too, and decide]' \
                '--stop-at-first-error[Launches nothing more once a node has failed for good, and stops when what runs has ended; run goes on]' \
                '--sync-output=[0\: the files of output and error are not brought to the disk before an ending is recorded]:0 or 1:(0 1)' \
                '--script-output=[0\: what scripts print is dropped, also where they fail]:0 or 1:(0 1)' \
                '--log-limit=[How many MiB the log of a round may have; 64 where it is not given, 0 is no limit]:N:' \
                '--status-file=[Writes the status as JSON into this file as the run begins, while it goes on, and as it ends]:FILE:_files' \
                '--status-every=[How many seconds pass at least before that file is written again; 60 where it is not given]:N:' \
                '--launcher=[What comes before the program of each job, as "srun -n1"; it is split as arguments are]:WORDS:' \
                '--launcher-final[It comes before the program of FINAL'\''s job, too]' \
                '--launcher-grace=[How many seconds launchers have to end where a run is stopped; 10 where it is not given, 0\: killed at once]:N:' \
                '--orphans=[What is done with processes that a manager which was killed left running; kill where it is not given \[possible values\: kill, wait, leave\]]:kill or wait or leave:(kill wait leave)' \
                '--progress=[Whether standard error shows how far the run is; auto where it is not given\: on a terminal \[possible values\: auto, always, never\]]:auto or always or never:(auto always never)' \
                '--resume[Where the last round has ended, prints its report again and starts nothing]' \
                '--json[Prints at the end where each node is as JSON, for other programs, in place of the report]' \
                '--trust-owner[Root goes by the journal, the rescue files and the lock of another user, and others by those of root]' \
                '1:DAG:_files -g "*.dag"'
            ;;
        status)
            _arguments \
                '(-h --help)'{-h,--help}'[Print help]' \
                '--json[The same as JSON, for other programs]' \
                '--as-begun[Goes by the files with which the round began, as x.dag.begun keeps them, whatever was changed since]' \
                '--trust-owner[Root goes by the journal, the rescue files and the lock of another user, and others by those of root]' \
                '1:DAG:_files -g "*.dag"'
            ;;
        why)
            _arguments \
                '(-h --help)'{-h,--help}'[Print help]' \
                '--all[Each node in error by itself; without it those with one cause are shown once]' \
                '--json[The same as JSON, for other programs]' \
                '--as-begun[Goes by the files with which the round began, as x.dag.begun keeps them, whatever was changed since]' \
                '--trust-owner[Root goes by the journal, the rescue files and the lock of another user, and others by those of root]' \
                '1:DAG:_files -g "*.dag"' \
                '*:NODE:_dagrun_nodes'
            ;;
        times)
            _arguments \
                '(-h --help)'{-h,--help}'[Print help]' \
                '--svg[A picture of the run over time, in place of a table]' \
                '--json[The phases as JSON, for other programs, in place of a table]' \
                '--summary[Where the time went, in place of a table\: the critical path, what it waited for, and what more at once could gain]' \
                '--rounds[A row for each round, in place of one for each phase\: the last one, and the one before, by x.dag.log.old]' \
                '--as-begun[Goes by the files with which the round began, as x.dag.begun keeps them, whatever was changed since]' \
                '--trust-owner[Root goes by the journal, the rescue files and the lock of another user, and others by those of root]' \
                '1:DAG:_files -g "*.dag"'
            ;;
        report)
            _arguments \
                '(-h --help)'{-h,--help}'[Print help]' \
                '--reload[The page loads itself again every 5 seconds while the round runs]' \
                '--as-begun[Goes by the files with which the round began, as x.dag.begun keeps them, whatever was changed since]' \
                '--trust-owner[Root goes by the journal, the rescue files and the lock of another user, and others by those of root]' \
                '1:DAG:_files -g "*.dag"'
            ;;
        salvage)
            _arguments \
                '(-h --help)'{-h,--help}'[Print help]' \
                '--ended[Also of a round that has ended\: what is done in it stays done in the next one]' \
                '--trust-owner[Root goes by the journal, the rescue files and the lock of another user, and others by those of root]' \
                '1:DAG:_files -g "*.dag"'
            ;;
        redo)
            _arguments \
                '(-h --help)'{-h,--help}'[Print help]' \
                '--only[These nodes alone run again\: those that come after them stay done]' \
                '--as-begun[Goes by the files with which the round began, as x.dag.begun keeps them, whatever was changed since]' \
                '--trust-owner[Root goes by the journal, the rescue files and the lock of another user, and others by those of root]' \
                '1:DAG:_files -g "*.dag"' \
                '*:NODE:_dagrun_nodes'
            ;;
        audit)
            _arguments \
                '(-h --help)'{-h,--help}'[Print help]' \
                '--json[The same as JSON, for other programs]' \
                '--as-begun[Goes by the files with which the round began, as x.dag.begun keeps them, whatever was changed since]' \
                '--trust-owner[Root goes by the journal, the rescue files and the lock of another user, and others by those of root]' \
                '1:DAG:_files -g "*.dag"'
            ;;
        check)
            _arguments \
                '(-h --help)'{-h,--help}'[Print help]' \
                '--all[Lists all faults of lines at once, in place of the first]' \
                '--json[The same as JSON, for other programs]' \
                '--hints[Says on standard error, with places, what is odd in the files, and what to write instead]' \
                '--condor[Says there, with places, what would be otherwise under condor_submit_dag]' \
                '1:DAG:_files -g "*.dag"'
            ;;
        rehearse)
            _arguments \
                '(-h --help)'{-h,--help}'[Print help]' \
                '--maxjobs=[How many jobs may run at once; 0 is no limit. -j N is short for it, and -j cpus takes the number of processors]:N:' \
                '--maxpre=[How many PRE scripts may run at once]:N:' \
                '--maxpost=[How many POST scripts may run at once]:N:' \
                '--always-run-post[POST scripts run after PRE scripts that failed, too, and decide]' \
                '1:DAG:_files -g "*.dag"' \
                '2::OUTCOMES:_files'
            ;;
        graph)
            _arguments \
                '(-h --help)'{-h,--help}'[Print help]' \
                '--fold[Nodes of one submit file with the same parents and children have one box, with how many they are; the default on a terminal]' \
                '--no-fold[Each node has a box of its own, also on a terminal; the default into a file or a pipe]' \
                '--as-is[Draws the files as they are, also where they were changed since the round began]' \
                '--as-begun[Goes by the files with which the round began, as x.dag.begun keeps them, whatever was changed since]' \
                '--trust-owner[Root goes by the journal, the rescue files and the lock of another user, and others by those of root]' \
                '1:DAG:_files -g "*.dag"'
            ;;
        explain)
            _arguments \
                '(-h --help)'{-h,--help}'[Print help]' \
                '1::CODE:_dagrun_codes'
            ;;
        help)
            _arguments \
                '(-h --help)'{-h,--help}'[Print help]' \
                '1::COMMAND:(run status why times report salvage redo audit check rehearse graph explain help version)'
            ;;
        version)
            _arguments \
                '(-h --help)'{-h,--help}'[Print help]' \
                '--json[The same as JSON, for other programs]'
            ;;
    esac
}
_dagrun "$@"
