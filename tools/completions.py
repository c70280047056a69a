"""Completions for bash, zsh and fish of what a program's help says."""

from __future__ import annotations

import shlex
from collections.abc import Iterator

from helps import Command, Option

_FOLDERS = {"FOLDER"}
_GROUPS = {"GROUP"}
_NONE = {"START", "MOMENT", "COUNT", "SECONDS", "N", "WIDTH", "WAKES", "K", "NAME", "WHEN", "FAULT", "COLUMNS"}
_ENTRY = "NAME"
"""The argument of a command that is an entry of the running agent. (An option's NAME is a name of its own.)"""
_BASH_ENTRIES = r"""
# The names of the running agent's entries, for the command at the place $1, unless it has one already.
{function}_entries() {{
  local at socket=()
  for ((at = $1 + 1; at < COMP_CWORD; at++)); do
    case ${{COMP_WORDS[at]}} in
      --control) socket=(--control "${{COMP_WORDS[++at]/#\~/$HOME}}") ;;
      -*) ;;
      *) return ;;
    esac
  done
  "${{COMP_WORDS[0]/#\~/$HOME}}" status "${{socket[@]}}" 2>/dev/null | sed '1d; s/ .*//'
}}"""
_ZSH_ENTRIES = r"""
# The names of the running agent's entries.
{function}_entries() {{
  local socket=${{(Q)opt_args[--control]}}
  local -a lines
  lines=(${{(f)"$({program} status ${{socket:+--control=$socket}} 2>/dev/null)"}})
  lines=(${{lines[2,-1]%% *}})
  compadd -a lines
}}
local -A opt_args"""
_FISH_ENTRIES = r"""
# The names of the running agent's entries, unless the command has one already.
function {function}_entries
    set -l words (commandline -opc)
    set -l program $words[1]
    set -l socket
    set -e words[1..2]
    while set -q words[1]
        switch $words[1]
            case --control
                set socket --control $words[2]
                set -e words[1]
            case '-*'
            case '*'
                return
        end
        set -e words[1]
    end
    $program status $socket 2>/dev/null | string replace -r ' .*' '' | tail -n +2
end"""


def _kind(value: str) -> str:
    """What stands for a value: `file`, `folder`, `group` or `none`, by the word that the help has for it."""
    word = value.strip("[].").split("|")[-1].rstrip(".")
    if word in _FOLDERS:
        return "folder"
    if word in _GROUPS:
        return "group"
    return "none" if word in _NONE or word.startswith("{") else "file"


def _all(program: Command) -> list[tuple[str, Command]]:
    """The program itself as "", then each command by its name."""
    return [("", program), *((command.name, command) for command in program.commands)]


def _with_entry(program: Command) -> list[str]:
    """The commands whose first argument is an entry."""
    return [command.name for command in program.commands if command.arguments and command.arguments[0].name == _ENTRY]


def _entries(program: Command, function: str, form: str) -> list[str]:
    """The lines of a function that gives the names of entries, if a command takes one."""
    return form.format(function=function, program=program.name).strip("\n").split("\n") if _with_entry(program) else []


def bash(program: Command) -> str:
    """A file for share/bash-completion/completions."""
    function = "_" + program.name.replace("-", "_")
    lines = [f"# Completions of {program.name} for bash.", *_entries(program, function, _BASH_ENTRIES), f"{function}() {{",
             '  local word=${COMP_WORDS[COMP_CWORD]} before=${COMP_WORDS[COMP_CWORD-1]} command= at',
             "  COMPREPLY=()"]
    if program.commands:
        names = "|".join(command.name for command in program.commands)
        lines += ["  for ((at = 1; at < COMP_CWORD; at++)); do", "    case ${COMP_WORDS[at]} in",
                  f"      {names}) command=${{COMP_WORDS[at]}}; break ;;", "    esac", "  done"]
    lines.append('  case $command/$before in')
    for name, command in _all(program):
        for option in command.options:
            if option.value:
                patterns = "|".join(f"{name}/{word}" for word in option.words)
                lines.append(f"    {patterns}) {_bash_value(option.value, option.choices)}; return ;;")
    lines += ["  esac", '  if [[ $word == -* ]]; then', "    case $command in"]
    for name, command in _all(program):
        words = " ".join(word for option in command.options for word in option.words)
        lines.append(f"      {name or chr(39) * 2}) COMPREPLY=($(compgen -W {shlex.quote(words)} -- \"$word\")) ;;")
    lines += ["    esac", "    return", "  fi"]
    if program.commands:
        words = " ".join(command.name for command in program.commands)
        lines += ['  if [[ -z $command ]]; then', f"    COMPREPLY=($(compgen -W {shlex.quote(words)} -- \"$word\"))", "    return", "  fi"]
    lines.append("  case $command in")
    for name, command in _all(program):
        if any(_kind(argument.name) == "file" for argument in command.arguments):
            lines.append(f"    {name or chr(39) * 2}) {_bash_value('FILE', [])} ;;")
    if _with_entry(program):
        lines.append(f'    {"|".join(_with_entry(program))}) COMPREPLY=($(compgen -W "$({function}_entries $at)" -- "$word")) ;;')
    lines += ["  esac", "}", f"complete -F {function} {program.name}"]
    return "\n".join(lines) + "\n"


def _bash_value(value: str, choices: list[str]) -> str:
    if choices:
        return f'COMPREPLY=($(compgen -W {shlex.quote(" ".join(choices))} -- "$word"))'
    kind = _kind(value)
    if kind == "none":
        return ":"
    action = {"file": "file", "folder": "directory", "group": "group"}[kind]
    names = "" if kind == "group" else "compopt -o filenames; "
    return f'{names}mapfile -t COMPREPLY < <(compgen -A {action} -- "$word")'


def zsh(program: Command) -> str:
    """A file for share/zsh/site-functions."""
    lines = [f"#compdef {program.name}", f"# Completions of {program.name} for zsh.", *_entries(program, f"_{program.name}", _ZSH_ENTRIES)]
    if not program.commands:
        return "\n".join([*lines, *_zsh_arguments(program, "")]) + "\n"
    lines += ["local state line", "local -a commands", "commands=("]
    lines += [f"  {_zsh_quoted(f'{command.name}:{command.brief}')}" for command in program.commands]
    lines += [")", "_arguments -C \\"]
    lines += [f"  {word} \\" for option in program.options for word in _zsh_option(option)]
    lines += ["  '1:command:->command' '*::word:->word'", "case $state in",
              f"  command) _describe 'command of {program.name}' commands ;;", "  word)", "    case $line[1] in"]
    for command in program.commands:
        lines.append(f"      {command.name})")
        lines += _zsh_arguments(command, "        ")
        lines.append("        ;;")
    lines += ["    esac", "    ;;", "esac"]
    return "\n".join(lines) + "\n"


def _zsh_arguments(command: Command, indent: str) -> list[str]:
    words = [word for option in command.options for word in _zsh_option(option)]
    for place, argument in enumerate(command.arguments, 1):
        many = argument.name.endswith("..") or argument.name.startswith("[")
        action = "_leasekeep_entries" if argument.name == _ENTRY else _zsh_action(argument.name)
        words.append(_zsh_quoted(f"{'*' if many else place}:{_zsh_words(argument.name)}:{action}"))
    return [f"{indent}_arguments \\", *(f"{indent}  {word} \\" for word in words[:-1]), *(f"{indent}  {word}" for word in words[-1:])]


def _zsh_option(option: Option) -> Iterator[str]:
    for word in option.words:
        value = ""
        if option.choices:
            value = f":value:({' '.join(option.choices)})"
        elif option.value:
            value = f":{_zsh_words(option.value)}:{_zsh_action(option.value)}"
        yield _zsh_quoted(f"{word}[{_zsh_words(option.help)}]{value}")


def _zsh_action(value: str) -> str:
    return {"file": "_files", "folder": "_files -/", "group": "_groups", "none": " "}[_kind(value)]


def _zsh_words(text: str) -> str:
    return text.replace("\\", "").replace("[", "(").replace("]", ")").replace(":", " -")


def _zsh_quoted(text: str) -> str:
    return "'" + text.replace("'", "'\\''") + "'"


def fish(program: Command) -> str:
    """A file for share/fish/vendor_completions.d."""
    function = "__" + program.name.replace("-", "_")
    lines = [f"# Completions of {program.name} for fish.", *_entries(program, function, _FISH_ENTRIES), f"complete -c {program.name} -f"]
    names = " ".join(command.name for command in program.commands)
    none = f"not __fish_seen_subcommand_from {names}" if names else ""
    for command in program.commands:
        lines.append(f"complete -c {program.name} -n {_fish(none)} -a {command.name} -d {_fish(command.brief)}")
    for name, command in _all(program):
        where = f"__fish_seen_subcommand_from {name}" if name else none
        when = f" -n {_fish(where)}" if where else ""
        for option in command.options:
            words = " ".join(f"-l {word[2:]}" if word.startswith("--") else f"-s {word[1:]}" for word in option.words)
            lines.append(f"complete -c {program.name}{when} {words}{_fish_value(option)} -d {_fish(option.help)}")
        if any(_kind(argument.name) == "file" for argument in command.arguments):
            lines.append(f"complete -c {program.name}{when} -F")
        if name in _with_entry(program):
            lines.append(f"complete -c {program.name}{when} -a {_fish(f'({function}_entries)')}")
    return "\n".join(lines) + "\n"


def _fish_value(option: Option) -> str:
    if not option.value:
        return ""
    if option.choices:
        return f" -x -a {_fish(' '.join(option.choices))}"
    return {"file": " -r -F", "folder": " -x -a '(__fish_complete_directories)'", "group": " -x -a '(__fish_complete_groups)'",
            "none": " -x"}[_kind(option.value)]


def _fish(text: str) -> str:
    return "'" + text.replace("\\", "\\\\").replace("'", "\\'") + "'"
