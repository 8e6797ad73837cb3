"""What made each layer, by the image's history, and how a command of a Dockerfile is shortened."""

import re
from collections.abc import Mapping
from dataclasses import dataclass
from typing import Any

from ..image.configuration import Document

_SHELL = r"(?:/(?:[\w.-]{1,40}/){0,6}(?:ba|da|a|k|z)?sh(?: -[a-z]*o \w+)*(?: -[a-z]*c)?|cmd /S /C|powershell -Command)(?=\s|\Z)"
_NO_RUN = re.compile(rf"{_SHELL}\s+#\(nop\)\s*")
_RUN = re.compile(rf"(?P<run>RUN )?(?P<arguments>\|\d+ .*?)?(?P<shell>{_SHELL})\s*", re.DOTALL)
_BUILDKIT = " # buildkit"
_MOST_LETTERS = 1 << 14  # of a command that are looked at
_OPTIONS = re.compile(r"(?:set\s+(?:[-+][a-z]+\s*|-o\s+\w+\s*|pipefail\s*)+(?:;|&&)\s*)+")
_COPY = re.compile(r"(?P<word>COPY|ADD)\s+(?P<flags>(?:--\S+\s+)*)(?P<rest>.*\S)", re.DOTALL)
_SOURCE = re.compile(r"\s?(?:file|dir|multi):[0-9a-f]+ in ")


@dataclass(frozen=True)
class Step:
    """An entry of the history: its number from 1 among all, and its command."""

    number: int
    of: int
    made_by: str | None

    def __str__(self) -> str:
        return f"{self.number}/{self.of}"


def steps_of(configuration: Document, count: int) -> list[Step | None]:
    """The step that made each layer, the lowest first, if the history has as many layers."""
    history = configuration.get("history")
    entries: list[Any] = history if isinstance(history, list) else []
    steps = [
        Step(number, len(entries), _made_by(entry))
        for number, entry in enumerate(entries, 1) if isinstance(entry, Mapping) and not entry.get("empty_layer")
    ]
    return [*steps] if len(steps) == count else [None] * count


def _made_by(entry: Mapping[str, Any]) -> str | None:
    text = entry.get("created_by") or entry.get("comment")
    return text if isinstance(text, str) else None


def short_command(made_by: str) -> str:
    """A command as a Dockerfile has it, in one line: without the shell that ran it, its options, and what was copied."""
    text = " ".join(made_by[:_MOST_LETTERS].split()).removesuffix(_BUILDKIT)
    if plain := _NO_RUN.match(text):
        text = text[plain.end():]
    elif run := _RUN.match(text):
        command = text[run.end():]
        text = f"RUN {command[_end_of_options(command):]}" if command else text
    elif text.startswith("RUN "):
        text = f"RUN {text[4 + _end_of_options(text[4:]):]}"
    if copy := _COPY.fullmatch(text):
        text = f"{copy['word']} {_target(copy['rest'])}"
    return text


def _end_of_options(command: str) -> int:
    """Where a command begins after the options of its shell, as in `set -eux;`."""
    options = _OPTIONS.match(command)
    return options.end() if options else 0


def _target(rest: str) -> str:
    """Where files are copied to."""
    if source := _SOURCE.search(rest):
        return rest[source.end():]
    return rest.split()[-1] if not rest.endswith("]") else rest
