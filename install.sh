#!/usr/bin/env bash
# Installs dagrun, its launchers, its manual pages, its documents and its completion for bash, zsh and fish. It needs bash and coreutils alone.
#
#   ./install.sh [--condor] [PREFIX]     PREFIX is ~/.local where none is given
#   ./install.sh --remove [PREFIX]       removes what it installs, and folders below PREFIX that are empty then
#
# --condor installs condor_submit_dag for programs that call it, too: in a folder of its own, PREFIX/lib/dagrun/condor.
set -euo pipefail
top=$(cd -- "$(dirname -- "$(readlink -f -- "${BASH_SOURCE[0]}")")" && pwd)

# Ends with a line on standard error.
refuse() {
    printf 'install.sh: %s\n' "$1" >&2
    exit 1
}

usage='usage: ./install.sh [--condor] [PREFIX], ./install.sh --remove [PREFIX]'
action=install
condor=
prefix=
for word in "$@"; do
    case $word in
    --remove) action=remove ;;
    --condor) condor=yes ;;
    -h | --help)
        echo "$usage"
        exit 0
        ;;
    -*) refuse "$usage" ;;
    *)
        if [ -n "$prefix" ]; then refuse "one PREFIX is expected, and $word is a second one"; fi
        prefix=$word
        ;;
    esac
done
if [ -z "$prefix" ]; then prefix=${HOME:?where to install is not said, and HOME is not set}/.local; fi
if [[ $prefix != /* ]]; then prefix=$PWD/$prefix; fi
prefix=${prefix%/}

# Each file: its mode, its path here, and its path below PREFIX.
files=(
    "755 dist/dagrun bin/dagrun"
    "755 launchers/dagrun-slurm bin/dagrun-slurm"
    "755 launchers/dagrun-ssh bin/dagrun-ssh"
    "644 packaging/completion/dagrun.bash share/bash-completion/completions/dagrun"
    "644 packaging/completion/dagrun.zsh share/zsh/site-functions/_dagrun"
    "644 packaging/completion/dagrun.fish share/fish/vendor_completions.d/dagrun.fish"
)
for page in "$top"/packaging/man/*.1; do
    files+=("644 packaging/man/${page##*/} share/man/man1/${page##*/}")
done
for page in CHANGELOG.md NOTICE SECURITY.md docs/{MANUAL,FROM_DAGMAN,FROM_MAKE,TO_HTCONDOR,GLOSSARY,LOG,JOURNAL,STABILITY}.md; do
    if [ -f "$top/$page" ]; then files+=("644 $page share/doc/dagrun/${page##*/}"); fi
done
condor_file="755 packaging/condor_submit_dag lib/dagrun/condor/condor_submit_dag"

if [ "$action" = remove ]; then
    files+=("$condor_file")
    for file in "${files[@]}"; do
        path=${file##* }
        rm -f -- "$prefix/$path"
        # From the folder of the file upwards, as long as they are empty.
        if [ -d "$prefix/${path%/*}" ]; then (cd -- "$prefix" && rmdir -p --ignore-fail-on-non-empty -- "${path%/*}"); fi
    done
    echo "dagrun is removed from $prefix"
    exit 0
fi

# What runs here is found out by running it: an empty DAG is rehearsed.
if [ ! -x "$top/dist/dagrun" ]; then refuse 'dist/dagrun is missing'; fi
if [ "$("$top/dist/dagrun" rehearse - </dev/null 2>/dev/null || true)" != 'result 0' ]; then
    refuse "dagrun needs an x86-64 Linux; this is $(uname -s) $(uname -m), the program does not run here, and nothing was installed"
fi

if [ -n "$condor" ]; then files+=("$condor_file"); fi
for file in "${files[@]}"; do
    read -r mode from to <<<"$file"
    install -D -m "$mode" -- "$top/$from" "$prefix/$to"
done
echo "dagrun is installed: $prefix/bin/dagrun"
if [[ :${PATH-}: != *":$prefix/bin:"* ]]; then echo "$prefix/bin is not on the PATH: export PATH=\"$prefix/bin:\$PATH\""; fi
if [ -n "$condor" ]; then
    echo "condor_submit_dag is in a folder of its own: export PATH=\"$prefix/lib/dagrun/condor:\$PATH\""
fi
