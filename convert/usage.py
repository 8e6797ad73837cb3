"""How words that don't fit are refused, and the words that every command has."""

import argparse
import difflib
import os
import shutil
import textwrap
from collections.abc import Mapping, Sequence
from typing import Any, NoReturn

from .common.colours import When
from .common.faults import UsageFault
from .common.progress import Verbosity

HELP = "--help"
_WIDTH = 80
_HELP_AT = 26
_NO_JOBS: Mapping[str, Sequence[str]] = {}


class Parser(argparse.ArgumentParser):
    """Refuses words in one line that says where help is. Of two words that may be absent one may come after options."""

    _is_at_work = False

    def parse_known_args(self, args=None, namespace=None):  # type: ignore[no-untyped-def]
        """See `ArgumentParser`."""
        optional = [action for action in self._get_positional_actions() if action.nargs == argparse.OPTIONAL]
        if self._is_at_work or len(optional) < 2:
            return super().parse_known_args(args, namespace)
        self._is_at_work = True
        try:
            return self.parse_known_intermixed_args(args, namespace)
        finally:
            self._is_at_work = False

    def error(self, message: str) -> NoReturn:
        """Ends the command."""
        raise UsageFault(with_hint(message, self.prog))

    def _check_value(self, action: argparse.Action, value: Any) -> None:
        if isinstance(action, argparse._SubParsersAction) and value not in action.choices:
            near = difflib.get_close_matches(value, action.choices, 1)
            self.error(f"there is no command {value}" + (f" (is it {near[0]}?)" if near else ""))
        super()._check_value(action, value)


def with_hint(message: str, prog: str) -> str:
    """What doesn't fit, and where help is."""
    return f"{message}; see `{prog} {HELP}`"


class HelpFormatter(argparse.HelpFormatter):
    """Help of 80 columns, or as COLUMNS says: paragraphs are filled, indented ones stay; commands are grouped by job."""

    def __init__(self, prog: str, jobs: Mapping[str, Sequence[str]] = _NO_JOBS) -> None:
        self._jobs = jobs
        columns = shutil.get_terminal_size().columns
        width = columns if "COLUMNS" in os.environ else min(columns, _WIDTH)
        super().__init__(prog, max_help_position=_HELP_AT, width=width)

    def _fill_text(self, text: str, width: int, indent: str) -> str:
        paragraphs = text.split("\n\n")
        return "\n\n".join(it if "\n " in f"\n{it}" else "\n".join(_wrapped(it, width)) for it in paragraphs)

    def _split_lines(self, text: str, width: int) -> list[str]:
        return _wrapped(text, width)

    def _format_action(self, action: argparse.Action) -> str:
        if not isinstance(action, argparse._SubParsersAction):
            return super()._format_action(action)
        about = {it.dest: it.help for it in action._choices_actions}
        width = max(map(len, about))
        return "".join(
            f"  {job}:\n" + "".join(f"    {name:{width}}  {about[name]}\n" for name in names)
            for job, names in self._jobs.items()
        )


def _wrapped(text: str, width: int) -> list[str]:
    return textwrap.wrap(" ".join(text.split()), width, break_on_hyphens=False)


def common_words(is_hidden: bool) -> Parser:
    """The words that are taken before a command and after it, where help doesn't repeat them."""
    parser = Parser(add_help=False, argument_default=argparse.SUPPRESS)

    def explained(text: str) -> str:
        return argparse.SUPPRESS if is_hidden else text

    for short, word, verbosity, text in (
        ("-q", "--quiet", Verbosity.QUIET, "prints faults only, without notes and progress"),
        ("-v", "--verbose", Verbosity.VERBOSE, "prints what is run too"),
    ):
        parser.add_argument(short, word, dest="verbosity", action="store_const", const=verbosity, help=explained(text))
    parser.add_argument(
        "--color", choices=[when.value for when in When],
        help=explained("colours: auto has them on a terminal unless NO_COLOR is set [default: auto]"),
    )
    parser.add_argument(
        "--unproved", action="store_true",
        help=explained("in a checkout: run ovl_layers as compiled without proofs (90 s, once)"),
    )
    return parser
