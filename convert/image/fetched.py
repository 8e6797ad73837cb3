"""Images that aren't in files here: skopeo fetches them from docker, from containers-storage or from a registry."""

import contextlib
import json
import os
import re
import shutil
import signal
import tempfile
from collections.abc import Iterator
from typing import IO

from ..common.faults import ReadFault, cannot_read
from ..common.outputs import passing_folder
from ..common.processes import last_words, running
from ..common.progress import note

_DAEMON, _STORAGE, _REGISTRY = "docker-daemon:", "containers-storage:", "docker://"
_TRANSPORTS = (_DAEMON, _STORAGE, _REGISTRY)
_PROGRAM = "skopeo"  # of the package of this name
_WITHOUT = {_DAEMON: "docker save", _STORAGE: "podman save"}  # what gives the same image to a pipe
_ID = re.compile(r"sha256:[0-9a-f]{64}")
_STORE = re.compile(r"\[[^]]*\]")
_MESSAGE = re.compile(r'level=\w+ msg=("(?:[^"\\]|\\.)*")')
_OVERRIDES = {1: ("arch",), 2: ("os", "arch"), 3: ("os", "arch", "variant")}  # by the parts of a platform
_COPY = "image"


def is_fetched(word: str) -> bool:
    """Whether a word names an image that isn't in a file here."""
    return word.startswith(_TRANSPORTS) and not os.path.lexists(word)


def _transport_of(word: str) -> str:
    return next(transport for transport in _TRANSPORTS if word.startswith(transport))


def name_of(word: str) -> str | None:
    """The name of the image that a word means, with its tag, if it is one that docker takes."""
    name = _STORE.sub("", word.removeprefix(_transport_of(word)), count=1).partition("@")[0]
    if not name or _ID.fullmatch(name):
        return None
    return name if ":" in name.rpartition("/")[2] else f"{name}:latest"


@contextlib.contextmanager
def fetched(word: str, platform: str | None) -> Iterator[str]:
    """A folder with a copy of an image, as skopeo's `dir:` has it, byte for byte; it goes away at the end."""
    program = _require_program(word)
    note(f"{_PROGRAM} fetches {word}")
    with passing_folder(tempfile.gettempdir(), word) as stage, tempfile.TemporaryFile() as messages:
        place = os.path.realpath(stage)
        command = [program, *_overrides(platform), "copy", "--quiet", *_daemon_words(word), _source(word), f"dir:{place}/{_COPY}"]
        environment = {**os.environ, "TMPDIR": place}  # which gets what it leaves if it is ended
        with running(command, stdout=messages, stderr=messages, environment=environment, end=signal.SIGTERM) as process:
            status = process.wait()
        if status != 0:
            raise cannot_read(word, f"{_PROGRAM}: {_last_message(messages, status)}")
        yield f"{stage}/{_COPY}"


def _require_program(word: str) -> str:
    program = shutil.which(_PROGRAM)
    if program is None:
        other = _WITHOUT.get(_transport_of(word))
        also = f", or say `{other} {name_of(word)} | layers .. -`" if other and name_of(word) else ""
        raise ReadFault(f"there is no program {_PROGRAM}, which fetches {word}; install the package {_PROGRAM}{also}")
    return os.path.abspath(program)


def _overrides(platform: str | None) -> list[str]:
    """The words for one of several images."""
    parts = platform.split("/") if platform else []
    pairs = zip(_OVERRIDES.get(len(parts), ()), parts)
    return [word for part, value in pairs for word in (f"--override-{part}", value)]


def _source(word: str) -> str:
    """What skopeo takes: to it a name in docker has a tag."""
    is_bare = word.startswith(_DAEMON) and "@" not in word and not _ID.fullmatch(word.removeprefix(_DAEMON))
    return f"{_DAEMON}{name_of(word)}" if is_bare else word


def _daemon_words(word: str) -> list[str]:
    """Where docker's daemon listens, if that is said for docker's own command."""
    host = os.environ.get("DOCKER_HOST")
    return ["--src-daemon-host", host] if host and word.startswith(_DAEMON) else []


def _last_message(messages: IO[bytes], status: int) -> str:
    """The last thing that it said."""
    words = last_words(messages, _PROGRAM, status)
    found = _MESSAGE.findall(words)
    if not found:
        return words
    try:
        return str(json.loads(found[-1]))
    except ValueError:
        return str(found[-1])
