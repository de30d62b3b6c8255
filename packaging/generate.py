#!/usr/bin/env python3
"""Makes the manual pages (packaging/man) and the completions (packaging/completion) of the program's own help texts, which are
made from the table of its command line, and of the prose in packaging/pages.

    packaging/generate.py [PROGRAM]             writes them
    packaging/generate.py --check [PROGRAM]     says which would change, and ends with status 1 where one would"""
import os
import re
import subprocess
import sys

HERE = os.path.dirname(os.path.abspath(__file__))
# The values of options that take one of a few.
VALUES = {"autorescue": ["0", "1"], "script-output": ["0", "1"], "sync-output": ["0", "1"], "orphans": ["kill", "wait", "leave"], "progress": ["auto", "always", "never"]}


class Help:
    """A help text of clap: what the command does, and its commands, arguments and options with the line of each."""

    def __init__(self, program, command):
        words = [program, *([command] if command else []), "--help"]
        done = subprocess.run(words, capture_output=True, text=True, timeout=60)
        lines = (done.stderr or done.stdout).splitlines()
        self.command = command
        self.about = lines[0]
        self.parts = {"Commands": [], "Arguments": [], "Options": []}
        part = None
        for line in lines:
            if line.startswith("Usage: "):
                self.usage = line[len("Usage: ") :].split()
            elif line.endswith(":") and line[:-1] in self.parts:
                part = self.parts[line[:-1]]
            elif line.startswith("  ") and part and len(part[-1]) == 1:
                # Where its words are long, an option's text is on a line of its own.
                part[-1].append(line.strip())
            elif line.startswith("  "):
                part.append(re.split(r"  +", line.strip(), maxsplit=1))

    def options(self):
        """The options but --help: its name, what its value is called, or None where it takes none, and its line."""
        found = []
        for words, text in self.parts["Options"]:
            _, name, value = re.fullmatch(r"(-\w, )?--([\w-]+)(?: <([^>]+)>)?", words).groups()
            if name != "help":
                # clap calls a value as its option where it has no other name; all of these are numbers.
                found.append((name, value and ("|".join(VALUES[name]) if name in VALUES else "N" if value == name else value), text))
        return found

    def arguments(self):
        # "[NODE]..." may be given more than once.
        return [(name.removesuffix("...").strip("<>[]"), name.startswith("<"), text) for name, text in self.parts["Arguments"]]


def roff(text):
    return text.replace("\\", "\\e").replace("-", "\\-").replace("'", "\\(aq").replace("`", "\\(ga")


def page_of(command):
    return f"dagrun-{command}" if command else "dagrun"


def option_of(name, value):
    """An option with its value, as a page shows it."""
    return f"\\fB\\-\\-{roff(name)}\\fR" + (f"\\ \\fI{value}\\fR" if value else "")


def synopsis(told):
    words = [f"\\fB{roff(' '.join(filter(None, ['dagrun', told.command])))}\\fR"]
    words += [f"[{option_of(name, value)}]" for name, value, _ in told.options()]
    words += [f"\\fI{name}\\fR" if needed else f"[\\fI{name}\\fR]" for name, needed, _ in told.arguments()]
    if not told.command:
        words.append("\\fICOMMAND\\fR ..")
    return " ".join(words)


def items(pairs):
    return "\n".join(f".TP\n{name}\n{roff(text)}" for name, text in pairs)


def options(told):
    pairs = [(f"\\fI{name}\\fR", text) for name, _, text in told.arguments()]
    pairs += [(option_of(name, value), text) for name, value, text in told.options()]
    pairs.append(("\\fB\\-h\\fR, \\fB\\-\\-help\\fR", "Print help, on standard error; the exit status is 125"))
    return items(pairs)


def commands(told):
    return items((f"\\fB{name}\\fR", f"{text}: dagrun-{name}(1)") for name, text in told.parts["Commands"])


def see(told, names):
    others = [page_of(name) for name in ["", *names] if name != told.command]
    return ",\n".join(f".BR {roff(name)} (1)" for name in others).replace(" (1),", " (1),")


def version_of(program):
    """What the program says of itself, as `dagrun 1.0.0`: the one place from which pages and packages have it."""
    return subprocess.run([program, "version"], capture_output=True, text=True, timeout=60, check=True).stdout.strip()


def page(told, names, version):
    with open(os.path.join(HERE, "pages", page_of(told.command) + ".1")) as file:
        text = file.read()
    about = told.about[0].lower() + told.about[1:]
    made = {
        "@version@": roff(version),
        "@name@": f"{roff(page_of(told.command))} \\- {roff(about)}",
        "@synopsis@": synopsis(told),
        "@options@": options(told),
        "@commands@": commands(told),
        "@see@": see(told, names),
    }
    for place, text_of in made.items():
        text = text.replace(place, text_of)
    return ".\\\" Made by packaging/generate.py.\n" + text


def bash(top, helps):
    cases = "".join(
        f"        {told.command}) options='{' '.join(['--' + name for name, _, _ in told.options()] + ['--help'])}' ;;\n" for told in helps
    )
    values = "".join(f"        --{name}) values='{' '.join(words)}' ;;\n" for name, words in sorted(VALUES.items()))
    others = sorted({name for told in helps for name, value, _ in told.options() if value and value != "FILE" and name not in VALUES})
    of_files = sorted({name for told in helps for name, value, _ in told.options() if value == "FILE"})
    # Of a command that names no file the words are commands, or none that are known.
    names = {told.command: [name for name, _, _ in told.arguments()] for told in helps}
    plain = [command for command, of_it in names.items() if "DAG" not in of_it and "COMMAND" not in of_it]
    of_commands = [command for command, of_it in names.items() if "COMMAND" in of_it]
    of_codes = [command for command, of_it in names.items() if "CODE" in of_it]
    of_nodes = [command for command, of_it in names.items() if "NODE" in of_it]
    plain = [command for command in plain if command not in of_codes]
    return f"""# bash completion for dagrun; made by packaging/generate.py.

# Offers the first words of the lines that dagrun prints, where they begin with this word. No word is expanded: names of nodes are input.
_dagrun_first_words() {{
    local word=$1 first rest
    while read -r first rest; do
        if [[ $first == "$word"* ]]; then COMPREPLY+=("$(printf %q "$first")"); fi
    done < <("${{COMP_WORDS[0]}}" "${{@:2}}" 2>/dev/null)
}}

# Offers the nodes of this DAG file that begin with this word. The file is as it was typed: with quotes or backslashes, or with ~ for the home
# folder. Where its files were changed since the round began, the nodes are those of then.
_dagrun_nodes() {{
    local word=$1 dag=$2 home=''
    if [[ $dag == '~/'* ]]; then home=$HOME/ dag=${{dag:2}}; fi
    case $dag in
        [\\'\\"]*) dag=${{dag:1:-1}} ;;
        *) dag=${{dag//\\\\/}} ;;
    esac
    _dagrun_first_words "$word" status "$home$dag"
    if [ ${{#COMPREPLY[@]}} -eq 0 ]; then _dagrun_first_words "$word" status --as-begun "$home$dag"; fi
}}

_dagrun() {{
    local word=${{COMP_WORDS[COMP_CWORD]}} before=${{COMP_WORDS[COMP_CWORD - 1]}} command='' options='' values='' dag='' place
    COMPREPLY=()
    # --option=value is three words to bash.
    if [ "$word" = '=' ]; then word=''; elif [ "$before" = '=' ]; then before=${{COMP_WORDS[COMP_CWORD - 2]}}; fi
    for ((place = 1; place < COMP_CWORD; place++)); do
        case $command:${{COMP_WORDS[place]}} in
        {'|'.join(':' + told.command for told in helps)}) command=${{COMP_WORDS[place]}} ;;
        ?*:*.dag | ?*:*.dag[\\'\\"] | rehearse:-) dag=${{COMP_WORDS[place]}} ;;
        esac
    done
    case $before in
{values}        {'|'.join('--' + name for name in others)}) return ;;
        {'|'.join('--' + name for name in of_files)})
            local IFS=$'\\n'
            compopt -o filenames 2>/dev/null
            COMPREPLY=($(compgen -f -- "$word"))
            return
            ;;
    esac
    if [ -n "$values" ]; then
        COMPREPLY=($(compgen -W "$values" -- "$word"))
        return
    fi
    case $command in
        '') options='{' '.join(told.command for told in helps)} --help' ;;
{cases}    esac
    if [ -z "$command" ] || [[ $word == -* ]]; then
        COMPREPLY=($(compgen -W "$options" -- "$word"))
        return
    fi
    case $command in
        {'|'.join(of_commands)})
            COMPREPLY=($(compgen -W '{' '.join(told.command for told in helps)}' -- "$word"))
            return
            ;;
        {'|'.join(of_codes)})
            _dagrun_first_words "$word" explain
            return
            ;;
        {'|'.join(plain)}) return ;;
    esac
    # After the DAG file come its nodes.
    case $command:$dag in
        {'|'.join(command + ':?*' for command in of_nodes)})
            _dagrun_nodes "$word" "$dag"
            return
            ;;
    esac
    # DAG files and folders, and any file where there are none, or where the DAG file stands already.
    local IFS=$'\\n'
    compopt -o filenames 2>/dev/null
    if [ -z "$dag" ]; then COMPREPLY=($(compgen -f -X '!*.dag' -- "$word") $(compgen -d -- "$word")); fi
    if [ ${{#COMPREPLY[@]}} -eq 0 ]; then COMPREPLY=($(compgen -f -- "$word")); fi
}}
complete -F _dagrun dagrun
"""


def escaped(text):
    """As a description within single quotes of zsh, where brackets and colons have a meaning."""
    for character in "\\[]:":
        text = text.replace(character, "\\" + character)
    return text.replace("'", "'\\''")


def quoted_in_fish(text):
    return text.replace("\\", "\\\\").replace("'", "\\'")


def zsh(top, helps):
    about = dict(top.parts["Commands"])
    listed = "".join(f"        '{told.command}:{escaped(about[told.command])}'\n" for told in helps)
    cases = ""
    for told in helps:
        lines = ["'(-h --help)'{-h,--help}'[Print help]'"]
        for name, value, text in told.options():
            values = f"({' '.join(VALUES[name])})" if name in VALUES else "_files" if value == "FILE" else ""
            taken = f":{value.replace('|', ' or ')}:{values}" if value else ""
            lines.append(f"'--{name}{'=' if value else ''}[{escaped(text)}]{taken}'")
        for place, (name, needed, _) in enumerate(told.arguments(), 1):
            colons = ":" if needed else "::"
            commands = f"({' '.join(told.command for told in helps)})"
            files = {"DAG": '_files -g "*.dag"', "OUTCOMES": "_files", "COMMAND": commands, "CODE": "_dagrun_codes", "NODE": "_dagrun_nodes"}.get(name, "")
            lines.append(f"'*:{name}:{files}'" if name == "NODE" else f"'{place}{colons}{name}:{files}'")
        joined = " \\\n                ".join(lines)
        cases += f"        {told.command})\n            _arguments \\\n                {joined}\n            ;;\n"
    return f"""#compdef dagrun
# zsh completion for dagrun; made by packaging/generate.py.
_dagrun_nodes() {{
    local -a nodes
    nodes=(${{(f)"$(dagrun status ${{(Q)words[(r)*.dag]}} 2>/dev/null | cut -d' ' -f1)"}})
    compadd -a nodes
}}

_dagrun_codes() {{
    local -a codes
    codes=(${{(f)"$(dagrun explain 2>/dev/null | cut -d' ' -f1)"}})
    compadd -a codes
}}

_dagrun() {{
    local -a commands
    commands=(
{listed}    )
    if (( CURRENT == 2 )); then
        _describe -t commands command commands
        return
    fi
    (( CURRENT-- ))
    shift words
    case $words[1] in
{cases}    esac
}}
_dagrun "$@"
"""


def fish(top, helps):
    lines = ["# fish completion for dagrun; made by packaging/generate.py."]
    for name, text in top.parts["Commands"]:
        lines.append(f"complete -c dagrun -n __fish_use_subcommand -f -a {name} -d '{quoted_in_fish(text)}'")
    lines.append("complete -c dagrun -s h -l help -f -d 'Print help'")
    lines.append("function __dagrun_dag\n    string match -- '*.dag' (commandline -opc)\nend")
    for told in helps:
        here = f"complete -c dagrun -n '__fish_seen_subcommand_from {told.command}'"
        for name, value, text in told.options():
            values = f" -a '{' '.join(VALUES[name])}'" if name in VALUES else ""
            takes = " -r -F" if value == "FILE" else " -x" if value else ""
            lines.append(f"{here} -l {name}{takes}{values} -d '{quoted_in_fish(text)}'")
        names = [name for name, _, _ in told.arguments()]
        if "CODE" in names:
            lines.append(f"{here} -f -a '(dagrun explain 2>/dev/null | string replace -r \" .*\" \"\")'")
        if "NODE" in names:
            behind = f"complete -c dagrun -n '__fish_seen_subcommand_from {told.command}; and count (__dagrun_dag) >/dev/null'"
            lines.append(f"{behind} -f -a '(dagrun status (__dagrun_dag)[1] 2>/dev/null | string replace -r \" .*\" \"\")'")
    return "\n".join(lines) + "\n"


def made(program):
    """The files that are made, by their paths, each with its text."""
    top = Help(program, "")
    names = [name for name, _ in top.parts["Commands"]]
    helps = [Help(program, name) for name in names]
    version = version_of(program)
    files = {f"man/{page_of(told.command)}.1": page(told, names, version) for told in [top, *helps]}
    files["completion/dagrun.bash"] = bash(top, helps)
    files["completion/dagrun.zsh"] = zsh(top, helps)
    files["completion/dagrun.fish"] = fish(top, helps)
    return files


def main():
    words = sys.argv[1:]
    check = words[:1] == ["--check"]
    program = os.path.abspath((words[1:] if check else words)[0]) if len(words) > check else os.path.join(HERE, "../dist/dagrun")
    files = made(program)
    there = {f"{folder}/{name}" for folder in ("man", "completion") for name in os.listdir(os.path.join(HERE, folder))}
    differ = sorted(there - set(files))
    for path, text in files.items():
        full = os.path.join(HERE, path)
        if os.path.exists(full) and open(full).read() == text:
            continue
        differ.append(path)
        if not check:
            with open(full, "w") as file:
                file.write(text)
    if check and differ:
        print("packaging/generate.py makes these anew:", *differ)
        sys.exit(1)


if __name__ == "__main__":
    main()
