"""Whether a program can be run in the tree that is shown: found by PATH, executable, and with its interpreter."""

import os
import re
from dataclasses import dataclass

from ..look.shown_tree import Found, NoWay, ShownTree
from ..look.texts import attributes_of, name_text
from ..model.entries import FILE
from ..model.show_report import ShowLine
from .contents import Contents
from .elf import MACHINES, MAGIC, Elf, NoElf
from .findings import Finding, Level
from .users import User

COMMAND, INTERPRETER = "command", "interpreter"
_MISSING, _DENIED, _FORMAT, _ARCHITECTURE = "missing", "denied", "format", "architecture"
_MOUNTED = re.compile(r"/(?:proc|sys|dev)(?:/|\Z)")  # engines mount these over what the image has there
_SCRIPT = b"#!"
_HEAD_BYTES = 256  # in which the kernel looks for the interpreter of a script
_MOST_INTERPRETERS = 5
_MOST_FOLDERS = 1_000  # of PATH
_BY_PATH = "env"  # the interpreter that seeks another one by PATH
_SPLIT = "-S"
_ACCESS_LIST = "system.posix_acl_access"


@dataclass(frozen=True)
class Surroundings:
    """What a program is run in."""

    user: User
    path: str  # the value of PATH
    folder: str  # the working directory
    architecture: str


@dataclass(frozen=True)
class _Program:
    """A program that is sought: its word, what it is to the image, and how codes of it begin."""

    word: str
    role: str
    kind: str = COMMAND

    def refused(self, why: str, words: str, level: Level = Level.FAULT) -> "Unfit":
        """That it can't be run."""
        return Unfit(Finding(level, f"{self.kind}-{why}", f"{self.role} {words}", self.word))


class Unfit(Exception):
    """A program can't be run."""

    def __init__(self, finding: Finding) -> None:
        super().__init__(finding.words)
        self.finding = finding


class Programs:
    """Seeks programs as runc does, and looks at their files as the kernel does."""

    def __init__(self, tree: ShownTree, contents: Contents, surroundings: Surroundings) -> None:
        self._tree = tree
        self._contents = contents
        self._in = surroundings

    def require(self, word: str, role: str) -> None:
        """Fails if a program can't be run."""
        self._require_runs(_Program(word, role), _MOST_INTERPRETERS)

    def _require_runs(self, program: _Program, left: int) -> None:
        found = self._sought(program)
        if found is None:
            return
        head = self._contents.part(found.line, 0, _HEAD_BYTES)
        if head.startswith(MAGIC):
            self._require_elf(program, found.line, left)
        elif head.startswith(_SCRIPT):
            self._require_script(program, head, left)
        else:
            raise program.refused(_FORMAT, "is neither ELF nor a script that begins with #!", Level.WARNING)

    def _sought(self, program: _Program) -> Found | None:
        """The file of a program: at its path, or in a directory of PATH. Of what engines mount nothing is known."""
        if "/" in program.word:
            return self._executable(program, program.word)
        denied: Unfit | None = None
        folders = list(dict.fromkeys(self._in.path.split(":"))) if self._in.path and program.word else []
        for folder in folders[:_MOST_FOLDERS]:
            try:
                return self._executable(program, f"{folder or '.'}/{program.word}")
            except Unfit as problem:
                is_denied = problem.finding.code.endswith(_DENIED)
                denied = denied or (problem if is_denied else None)
        first = f"the first {_MOST_FOLDERS:,} directories" if len(folders) > _MOST_FOLDERS else "a directory"
        raise denied or program.refused(_MISSING, f"isn't in {first} of PATH: {self._in.path}")

    def _executable(self, program: _Program, path: str) -> Found | None:
        """The file that a path leads to, which the user may execute."""
        try:
            found = self._tree.followed(path, self._in.folder)
        except NoWay as problem:
            if _MOUNTED.match(problem.path):
                return None
            there = "" if problem.is_absent and problem.path == path else f": {problem}"
            lines = "; the script's lines end with CR LF" if path.endswith("\r") else ""
            raise program.refused(_MISSING, f"isn't there{there}{lines}") from None
        if _MOUNTED.match(found.path):
            return None
        if found.line.kind != FILE:
            raise program.refused(_DENIED, f"is no file: {found.path} is of kind {found.line.kind}")
        for line in [*found.way, found.line]:
            if not may_execute(line, self._in.user):
                place = "" if line.path == program.word else f"{name_text(line.path)} has "
                rights = f"{place}mode {line.mode}, owner {line.uid}:{line.gid}"
                raise program.refused(_DENIED, f"can't be executed by user {self._in.user.uid}: {rights}")
        return found

    def _require_script(self, program: _Program, head: bytes, left: int) -> None:
        """Looks for the interpreter that the first line names, and for the one that `env` is to find."""
        text = head[len(_SCRIPT):].partition(b"\n")[0].strip(b" \t").decode("utf-8", "surrogateescape")
        interpreter, argument = (*re.split(r"[ \t]+", text, maxsplit=1), "")[:2]
        if not interpreter or not left:
            raise program.refused(_FORMAT, "has too many interpreters" if interpreter else "names no interpreter after #!")
        self._require_interpreter(program, interpreter, left)
        sought = _sought_by_env(argument) if os.path.basename(interpreter) == _BY_PATH else None
        if sought:
            self._require_interpreter(program, sought, left)

    def _require_interpreter(self, program: _Program, word: str, left: int) -> None:
        self._require_runs(_Program(word, f"the interpreter of {program.word}", INTERPRETER), left - 1)

    def _require_elf(self, program: _Program, line: ShowLine, left: int) -> None:
        """Looks at the processor, and for the loader of a program that is linked dynamically."""
        try:
            elf = Elf(lambda at, size: self._contents.part(line, at, size))
            machine, loader = elf.machine, elf.interpreter()
        except NoElf:
            raise program.refused(_FORMAT, "has a head of ELF that is cut off or wrong") from None
        if machine not in MACHINES.get(self._in.architecture, [machine]):
            other = f"is for another processor (ELF machine {machine}) than the image's {self._in.architecture}"
            raise program.refused(_ARCHITECTURE, other)
        if loader and left:
            self._require_interpreter(program, loader.decode("utf-8", "surrogateescape"), left)


def _sought_by_env(argument: str) -> str | None:
    """The program that `env` seeks by PATH: all that the kernel hands it is one word, unless -S has it taken apart."""
    if argument.startswith(_SPLIT):
        return next((it for it in argument.removeprefix(_SPLIT).split() if it[0] != "-" and "=" not in it), None)
    return argument if argument[:1] != "-" and "=" not in argument else None


def may_execute(line: ShowLine, user: User) -> bool:
    """Whether the mode lets a user execute a file, or pass a directory; an access list may let everybody."""
    mode = int(line.mode, 8)
    if user.uid == 0 or _ACCESS_LIST in attributes_of(line):
        return line.kind != FILE or bool(mode & 0o111)
    if user.uid == int(line.uid):
        return bool(mode & 0o100)
    return bool(mode & (0o010 if int(line.gid) in user.all_groups else 0o001))
