"""Whether what an image's configuration names is in the tree that is shown."""

from collections.abc import Iterator, Mapping, Sequence
from typing import Any

from ..image.configuration import Document
from ..look.shown_tree import ROOT, NoWay, ShownTree
from ..model.entries import DIRECTORY
from .contents import Contents
from .findings import Finding, Level
from .programs import Programs, Surroundings, Unfit
from .users import GROUP, PASSWD, Unknown, User, user_of

_SYSTEM = "linux"
_USUAL_PATH = "/usr/local/sbin:/usr/local/bin:/usr/sbin:/usr/bin:/sbin:/bin"  # that engines set if the image has none
_USUAL_SHELL = ["/bin/sh", "-c"]


def configuration_findings(configuration: Document, tree: ShownTree, contents: Contents) -> Iterator[Finding]:
    """What of a configuration doesn't fit the tree."""
    system = configuration.get("os") or _SYSTEM
    if system != _SYSTEM:
        yield Finding(Level.NOTE, "not-linux", f"the image is for {system}: its configuration isn't compared with the tree")
        return
    run: Mapping[str, Any] = configuration.get("config") or {}
    folder = run.get("WorkingDir") or ROOT
    user = User()
    try:
        user, notes = user_of(run.get("User") or "", *(_text(tree, contents, path) for path in (PASSWD, GROUP)))
        yield from notes
    except Unknown as problem:
        yield problem.finding
    yield from _folder_findings(folder, tree)
    programs = Programs(tree, contents, Surroundings(
        user, _path_of(run.get("Env") or []), f"{ROOT}{folder.lstrip(ROOT)}", configuration.get("architecture") or "",
    ))
    yield from _program_findings(run, programs)


def _text(tree: ShownTree, contents: Contents, path: str) -> str:
    """The text of a file of the tree; nothing if it isn't there."""
    try:
        return contents.text(tree.followed(path).line)
    except NoWay:
        return ""


def _path_of(environment: Sequence[str]) -> str:
    """The value of PATH, of which the last one counts."""
    values = [text.partition("=")[2] for text in environment if text.startswith("PATH=")]
    return values[-1] if values else _USUAL_PATH


def _folder_findings(folder: str, tree: ShownTree) -> Iterator[Finding]:
    """Engines make a working directory that isn't there, but not one in place of something else."""
    try:
        found = tree.followed(folder)
    except NoWay as problem:
        if problem.is_absent:
            words = "the working directory isn't there; engines make it, of mode 0755 and owner 0"
            yield Finding(Level.WARNING, "workdir-missing", words, folder)
        else:
            yield Finding(Level.FAULT, "workdir-no-directory", f"the working directory can't be had: {problem}", folder)
        return
    if found.line.kind != DIRECTORY:
        yield Finding(Level.FAULT, "workdir-no-directory", f"the working directory is of kind {found.line.kind}", folder)


def _program_findings(run: Mapping[str, Any], programs: Programs) -> Iterator[Finding]:
    entrypoint, command = run.get("Entrypoint") or [], run.get("Cmd") or []
    if entrypoint or command:
        yield from _findings_of([*entrypoint, *command], "the entrypoint" if entrypoint else "the command", programs)
    else:
        yield Finding(Level.NOTE, "no-command", "the image has neither an entrypoint nor a command")
    test = (run.get("Healthcheck") or {}).get("Test") or []
    if test[:1] == ["CMD-SHELL"]:
        test = ["CMD", *(run.get("Shell") or _USUAL_SHELL)]
    if test[:1] == ["CMD"]:
        yield from _findings_of(test[1:], "the health check", programs)


def _findings_of(words: Sequence[str], role: str, programs: Programs) -> Iterator[Finding]:
    try:
        programs.require(words[0] if words else "", role)
    except Unfit as problem:
        yield problem.finding
