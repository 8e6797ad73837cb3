#!/usr/bin/env python3
"""Makes the completions of both programs for bash and zsh, from the words of their parser or help texts.

    python3 -B tools/completions.py            # writes completions/
    python3 -B tools/completions.py --check    # says whether they are there as they would be written
"""

from __future__ import annotations

import argparse
import re
import sys
from collections import defaultdict
from collections.abc import Iterator
from dataclasses import dataclass
from pathlib import Path

import manual

TOP = Path(__file__).resolve().parent.parent
sys.path.insert(0, str(TOP))

from convert import words  # noqa: E402

_FOLDERS = {"DIR"}
_FILES = {"FILE", "IMAGE", "LAYER", "OUT"}


@dataclass(frozen=True)
class Option:
    """An option: its names, the value that it takes (if any) and of which choices, and what it means."""

    names: tuple[str, ...]
    value: str
    choices: tuple[str, ...]
    about: str


@dataclass(frozen=True)
class Command:
    """A command, or the program before its command: its name, what it does, its options, what its arguments are."""

    name: str
    about: str
    options: tuple[Option, ...]
    argument: str = ""

    @property
    def names(self) -> list[str]:
        """The names of its options."""
        return [name for option in self.options for name in option.names]


def words_of_layers() -> tuple[Command, list[Command]]:
    """The options of `layers`, and its commands."""
    parser = words.parser_of(defaultdict(lambda: lambda _: None), [it.name for it in words.COMMANDS])
    commands = next(it for it in parser._actions if isinstance(it, argparse._SubParsersAction))
    about = {it.dest: it.help or "" for it in commands._choices_actions}
    parsers: dict[str, argparse.ArgumentParser] = dict(commands.choices)
    return _command(words.NAME, "", parser), [_command(name, about[name], it) for name, it in parsers.items()]


def _command(name: str, about: str, parser: argparse.ArgumentParser) -> Command:
    given = [it for it in parser._actions if it.option_strings and it.help != argparse.SUPPRESS]
    arguments = [str(it.metavar) for it in parser._actions if not it.option_strings]
    return Command(name, about, tuple(map(_option, given)), arguments[0] if arguments else "")


def _option(action: argparse.Action) -> Option:
    value = "" if action.nargs == 0 else str(action.metavar or action.dest.upper())
    choices = tuple(map(str, action.choices or [word for word in value.split("|") if word.islower()]))
    return Option(tuple(action.option_strings), value, choices, action.help or "")


def words_of_program() -> tuple[Command, list[Command]]:
    """The options of `ovl_layers`, and its commands."""
    whole, helps = manual.helps_of_program()
    about = dict(whole.rows("commands"))
    return (
        Command("ovl_layers", "", tuple(_options(whole))),
        [Command(name, about[name], tuple(_options(told)), "LAYER") for name, told in helps.items()],
    )


def _options(told: manual.Help) -> Iterator[Option]:
    for text, meaning in told.rows("options"):
        value = re.search(r"<(\w+)>", text)
        yield Option(tuple(re.findall(r"--?[\w-]+", text)), value[1] if value else "", (), meaning)


_BASH = """\
# made by tools/completions.py from the words of {name}
_{name}() {{
    local word=${{COMP_WORDS[COMP_CWORD]}} before=${{COMP_WORDS[COMP_CWORD - 1]}} command='' index
    for ((index = 1; index < COMP_CWORD; index++)); do
        case ${{COMP_WORDS[index]}} in
            {commands}) command=${{COMP_WORDS[index]}} && break ;;
        esac
    done
    COMPREPLY=()
    case $command/$before in
{values}
    esac
    case $command in
{options}
    esac
}}
complete -o default -F _{name} {name}
"""


def _reply(words_of_it: str) -> str:
    """The line of bash that offers what `compgen` makes of some words."""
    return f'mapfile -t COMPREPLY < <(compgen {words_of_it} -- "$word")'


def _reply_with(offered: list[str] | tuple[str, ...]) -> str:
    return _reply(f"-W {_quoted(' '.join(offered))}")


def bash(program: Command, commands: list[Command]) -> str:
    """The completion for bash."""
    names = [command.name for command in commands]
    options = [f"        '') {_reply_with([*names, *program.names])} ;;"]
    options += [f"        {it.name}) [[ $word != -* ]] || {_reply_with(it.names)} ;;" for it in commands]
    values = [line for command in commands for option in command.options for line in _bash_value(command, option)]
    return _BASH.format(
        name=program.name, commands=" | ".join(names), values="\n".join(values), options="\n".join(options)
    )


def _bash_value(command: Command, option: Option) -> Iterator[str]:
    place = " | ".join(f"{command.name}/{name}" for name in option.names)
    if option.choices:
        yield f"        {place}) {_reply_with(option.choices)} && return ;;"
    elif option.value in _FOLDERS:
        yield f"        {place}) compopt -o filenames; {_reply('-d')} && return ;;"
    elif option.value and option.value not in _FILES:
        yield f"        {place}) compopt +o default && return ;;"


_ZSH = """\
#compdef {name}
# made by tools/completions.py from the words of {name}
_{name}() {{
    local curcontext=$curcontext state line
    local -a commands=(
{commands}
    )
    _arguments -C \\
{program}
        '1:command:->command' '*::words:->words'
    case $state in
        command) _describe command commands ;;
        words)
            case $words[1] in
{options}
            esac
            ;;
    esac
}}
_{name} "$@"
"""


def zsh(program: Command, commands: list[Command]) -> str:
    """The completion for zsh."""
    return _ZSH.format(
        name=program.name,
        commands="\n".join(f"        {_quoted(f'{it.name}:{_escaped(it.about)}')}" for it in commands),
        program="\n".join(f"        {spec} \\" for option in program.options for spec in _zsh_option(option)),
        options="\n".join(map(_zsh_command, commands)),
    )


def _zsh_command(command: Command) -> str:
    room = " " * 20
    lines = [spec for option in command.options for spec in _zsh_option(option)]
    lines.append(_quoted(f"*:{command.argument}:{_zsh_files(command.argument)}"))
    joined = " \\\n".join(f"{room}{line}" for line in ["_arguments", *lines])
    return f"{' ' * 16}{command.name})\n{joined}\n{room};;"


def _zsh_files(value: str) -> str:
    """What zsh offers for a value."""
    if value in _FOLDERS:
        return "_files -/"
    return "_files" if value in _FILES else ""


def _zsh_option(option: Option) -> Iterator[str]:
    value = ""
    if option.value:
        offered = f"({' '.join(option.choices)})" if option.choices else _zsh_files(option.value)
        value = f":{_escaped(option.value)}:{offered}"
    for name in option.names:
        yield _quoted(f"{name}[{_escaped(_short(option.about))}]{value}")


def _short(about: str) -> str:
    """What an option means, up to its first pause."""
    return re.split(r"; | \[default|: (?=[a-z])", about)[0]


def _escaped(text: str) -> str:
    return re.sub(r"([\[\]:\\])", r"\\\1", text)


def _quoted(text: str) -> str:
    return "'" + text.replace("'", "'\\''") + "'"


def completions() -> dict[str, str]:
    """The files by their names."""
    programs = (words_of_layers(), words_of_program())
    return {
        f"{program.name}.{shell.__name__}": shell(program, commands)
        for program, commands in programs for shell in (bash, zsh)
    }


def main(given: list[str]) -> int:
    """Writes the files, or compares them."""
    status = 0
    for name, text in completions().items():
        file = TOP / "completions" / name
        if given != ["--check"]:
            file.write_text(text, encoding="utf-8")
        elif not file.exists() or file.read_text(encoding="utf-8") != text:
            print(f"completions/{name} isn't what tools/completions.py makes: run it")
            status = 1
    return status


if __name__ == "__main__":
    sys.exit(main(sys.argv[1:]))
