# bash completion for dagrun; made by packaging/generate.py.

# Offers the first words of the lines that dagrun prints, where they begin with this word. No word is expanded: names of nodes are input.
_dagrun_first_words() {
    local word=$1 first rest
    while read -r first rest; do
        if [[ $first == "$word"* ]]; then COMPREPLY+=("$(printf %q "$first")"); fi
    done < <("${COMP_WORDS[0]}" "${@:2}" 2>/dev/null)
}

# Offers the nodes of this DAG file that begin with this word. The file is as it was typed: with quotes or backslashes, or with ~ for the home
# folder. Where its files were changed since the round began, the nodes are those of then.
_dagrun_nodes() {
    local word=$1 dag=$2 home=''
    if [[ $dag == '~/'* ]]; then home=$HOME/ dag=${dag:2}; fi
    case $dag in
        [\'\"]*) dag=${dag:1:-1} ;;
        *) dag=${dag//\\/} ;;
    esac
    _dagrun_first_words "$word" status "$home$dag"
    if [ ${#COMPREPLY[@]} -eq 0 ]; then _dagrun_first_words "$word" status --as-begun "$home$dag"; fi
}

_dagrun() {
    local word=${COMP_WORDS[COMP_CWORD]} before=${COMP_WORDS[COMP_CWORD - 1]} command='' options='' values='' dag='' place
    COMPREPLY=()
    # --option=value is three words to bash.
    if [ "$word" = '=' ]; then word=''; elif [ "$before" = '=' ]; then before=${COMP_WORDS[COMP_CWORD - 2]}; fi
    for ((place = 1; place < COMP_CWORD; place++)); do
        case $command:${COMP_WORDS[place]} in
        :run|:status|:why|:times|:report|:salvage|:redo|:audit|:check|:rehearse|:graph|:explain|:help|:version) command=${COMP_WORDS[place]} ;;
        ?*:*.dag | ?*:*.dag[\'\"] | rehearse:-) dag=${COMP_WORDS[place]} ;;
        esac
    done
    case $before in
        --autorescue) values='0 1' ;;
        --orphans) values='kill wait leave' ;;
        --progress) values='auto always never' ;;
        --script-output) values='0 1' ;;
        --sync-output) values='0 1' ;;
        --dorescuefrom|--launcher|--launcher-grace|--log-limit|--maxjobs|--maxpost|--maxpre|--status-every) return ;;
        --status-file)
            local IFS=$'\n'
            compopt -o filenames 2>/dev/null
            COMPREPLY=($(compgen -f -- "$word"))
            return
            ;;
    esac
    if [ -n "$values" ]; then
        COMPREPLY=($(compgen -W "$values" -- "$word"))
        return
    fi
    case $command in
        '') options='run status why times report salvage redo audit check rehearse graph explain help version --help' ;;
        run) options='--maxjobs --maxpre --maxpost --autorescue --dorescuefrom --always-run-post --stop-at-first-error --sync-output --script-output --log-limit --status-file --status-every --launcher --launcher-final --launcher-grace --orphans --progress --resume --json --trust-owner --help' ;;
        status) options='--json --as-begun --trust-owner --help' ;;
        why) options='--all --json --as-begun --trust-owner --help' ;;
        times) options='--svg --json --summary --rounds --as-begun --trust-owner --help' ;;
        report) options='--reload --as-begun --trust-owner --help' ;;
        salvage) options='--ended --trust-owner --help' ;;
        redo) options='--only --as-begun --trust-owner --help' ;;
        audit) options='--json --as-begun --trust-owner --help' ;;
        check) options='--all --json --hints --condor --help' ;;
        rehearse) options='--maxjobs --maxpre --maxpost --always-run-post --help' ;;
        graph) options='--fold --no-fold --as-is --as-begun --trust-owner --help' ;;
        explain) options='--help' ;;
        help) options='--help' ;;
        version) options='--json --help' ;;
    esac
    if [ -z "$command" ] || [[ $word == -* ]]; then
        COMPREPLY=($(compgen -W "$options" -- "$word"))
        return
    fi
    case $command in
        help)
            COMPREPLY=($(compgen -W 'run status why times report salvage redo audit check rehearse graph explain help version' -- "$word"))
            return
            ;;
        explain)
            _dagrun_first_words "$word" explain
            return
            ;;
        version) return ;;
    esac
    # After the DAG file come its nodes.
    case $command:$dag in
        why:?*|redo:?*)
            _dagrun_nodes "$word" "$dag"
            return
            ;;
    esac
    # DAG files and folders, and any file where there are none, or where the DAG file stands already.
    local IFS=$'\n'
    compopt -o filenames 2>/dev/null
    if [ -z "$dag" ]; then COMPREPLY=($(compgen -f -X '!*.dag' -- "$word") $(compgen -d -- "$word")); fi
    if [ ${#COMPREPLY[@]} -eq 0 ]; then COMPREPLY=($(compgen -f -- "$word")); fi
}
complete -F _dagrun dagrun
