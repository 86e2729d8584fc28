"""Completions of the command line for bash, zsh and fish, made from the help of the built program."""

import re
import subprocess
from dataclasses import dataclass, field

VALUES = {"FORMAT": ["pg", "hoa", "aiger"], "P": ["0", "1"], "SEARCHER": ["zielonka", "tangles"]}
# The options that may be given several times, by their subcommands.
REPEATED = {("satisfies", "formula")}


@dataclass
class Option:
    """An option: its name, what its value is called, if it takes one, what help says of it, and its letter, if it has
    one."""
    name: str
    value: str
    help: str
    letter: str


@dataclass
class Subcommand:
    name: str
    help: str
    options: list[Option] = field(default_factory=list)


def help_of(program: str, *words: str) -> str:
    """The short help, in which each option has one line."""
    return subprocess.run([program, *words, "-h"], capture_output=True, text=True, check=True).stdout


def section(text: str, title: str) -> list[str]:
    """The lines below a title, up to the next empty line."""
    lines = text.split("\n")
    if title not in lines:
        return []
    first = lines.index(title) + 1
    return lines[first : lines.index("", first)]


def subcommands_of(program: str) -> list[Subcommand]:
    found = []
    for line in section(help_of(program), "Commands:"):
        name, _, said = line.strip().partition(" ")
        command = Subcommand(name, said.strip())
        if name != "help":
            for row in section(help_of(program, name), "Options:"):
                shown = re.match(r"\s+(?:-(\w), )?--([a-z-]+)(?: <(\w+)>)?\s*(.*)", row)
                if shown and shown[2] != "help":
                    command.options.append(Option(shown[2], shown[3] or "", shown[4], shown[1] or ""))
        found.append(command)
    return found


def names_of(commands: list[Subcommand]) -> str:
    return " ".join(it.name for it in commands)


def bash_completions(commands: list[Subcommand]) -> str:
    rows = "\n".join(f"        {it.name}) options='{' '.join('--' + one.name for one in it.options)}' ;;"
                     for it in commands if it.options)
    values = "\n".join(f"        --{name}) _omega_words '{' '.join(given)}' \"$word\"; return ;;"
                       for name, given in value_rows(commands))
    files = "|".join(f"--{name}" for name in file_options(commands))
    others = "|".join(other_options(commands))
    return f"""\
# Completions of omega for bash.
_omega_words() {{
    mapfile -t COMPREPLY < <(compgen -W "$1" -- "$2")
}}
# Bash itself offers files, so that it quotes blanks in their names, and goes on behind folders.
_omega_files() {{
    compopt -o bashdefault -o default 2>/dev/null
}}
_omega() {{
    local word=${{COMP_WORDS[COMP_CWORD]}} before=${{COMP_WORDS[COMP_CWORD-1]}} options= at=1
    COMPREPLY=()
    # The name of the subcommand may stand behind the flag.
    case ${{COMP_WORDS[1]}} in
        -v|--verbose) [ "$COMP_CWORD" -gt 1 ] && at=2 ;;
    esac
    # Of --game=g bash makes three words.
    if [ "$word" = = ]; then
        word=
    elif [ "$before" = = ]; then
        before=${{COMP_WORDS[COMP_CWORD-2]}}
    fi
    case $before in
{values}
        {files}) _omega_files; return ;;
        {others}) return ;;
    esac
    if [ "$COMP_CWORD" -eq "$at" ] || [ "${{COMP_WORDS[1]}}" = help ]; then
        _omega_words '{names_of(commands)} --help --version --verbose' "$word"
        return
    fi
    case ${{COMP_WORDS[at]}} in
{rows}
    esac
    case $word in
        -*) _omega_words "$options --help" "$word" ;;
        *) _omega_files ;;
    esac
}}
complete -F _omega omega
"""


def value_rows(commands: list[Subcommand]) -> list[tuple[str, list[str]]]:
    """The options with values that are known, each once."""
    options = {one.name: one for it in commands for one in it.options}
    return [(name, VALUES[one.value]) for name, one in options.items() if one.value in VALUES]


def file_options(commands: list[Subcommand]) -> list[str]:
    options = {one.name: one for it in commands for one in it.options}
    return [name for name, one in options.items() if one.value == "FILE"]


def other_options(commands: list[Subcommand]) -> list[str]:
    """The options with a value that is neither known nor a file, by their names and letters; each once, and none that
    takes no value or a file in another subcommand."""
    taking = {one.name: one for it in commands for one in it.options if one.value not in ("", "FILE", *VALUES)}
    apart = {one.name for it in commands for one in it.options if one.value in ("", "FILE", *VALUES)}
    named = [one for name, one in taking.items() if name not in apart]
    return [f"--{one.name}" for one in named] + [f"-{one.letter}" for one in named if one.letter]


def plain(text: str) -> str:
    """A description without the signs that zsh and fish read."""
    return re.sub(r"[\[\]'\"`:;\\$]", "", text)


def zsh_completions(commands: list[Subcommand]) -> str:
    names = "\n".join(f"        '{it.name}:{plain(it.help)}'" for it in commands)
    rows = []
    for it in commands:
        words = []
        for one in it.options:
            values = f":{one.value}:({' '.join(VALUES[one.value])})" if one.value in VALUES else ""
            values = ":file:_files" if one.value == "FILE" else values or (f":{one.value}:" if one.value else "")
            said = f"[{plain(one.help)}]{values}'"
            front = "*" if (it.name, one.name) in REPEATED else f"(-{one.letter} --{one.name})"
            short, long = (f"-{one.letter}+", f"--{one.name}=") if one.value else (f"-{one.letter}", f"--{one.name}")
            words.append(f"'{front}'{{{short},{long}}}'{said}" if one.letter else f"'{long}{said}")
        rows.append(f"        {it.name}) _arguments {' '.join(words)} '--help[Print help]' '*:file:_files' ;;")
    table = "\n".join(rows)
    return f"""\
#compdef omega
# Completions of omega for zsh.
_omega() {{
    local -a commands=(
{names}
    )
    # The name of the subcommand may stand behind the flag.
    if (( CURRENT > 2 )) && [[ ${{words[2]}} == (-v|--verbose) ]]; then
        shift words
        (( CURRENT-- ))
    fi
    if (( CURRENT == 2 )); then
        _describe command commands
        return
    fi
    local command=${{words[2]}}
    shift words
    (( CURRENT-- ))
    case $command in
{table}
    esac
}}
_omega "$@"
"""


def fish_completions(commands: list[Subcommand]) -> str:
    lines = ["# Completions of omega for fish.", "complete -c omega -n __fish_use_subcommand -f",
             "complete -c omega -n __fish_use_subcommand -l verbose -s v -d 'Say more of a refusal on standard error'"]
    lines += [f"complete -c omega -n __fish_use_subcommand -a {it.name} -d '{plain(it.help)}'" for it in commands]
    for it in commands:
        for one in it.options:
            takes = f" -x -a '{' '.join(VALUES[one.value])}'" if one.value in VALUES else ""
            takes = " -r -F" if one.value == "FILE" else takes or (" -x" if one.value else "")
            lines.append(f"complete -c omega -n '__fish_seen_subcommand_from {it.name}' -l {one.name}"
                         f"{f' -s {one.letter}' if one.letter else ''}{takes} -d '{plain(one.help)}'")
    return "\n".join(lines) + "\n"
