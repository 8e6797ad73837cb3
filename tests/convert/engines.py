"""Engines for tests, each with folders of its own and no network."""

import contextlib
import os
import shutil
import subprocess
import sys
import time
from collections.abc import Iterator

from support import COMMAND, PROGRAM, why_no_trusted

TOOLS = ("dockerd", "docker", "runc", "podman", "skopeo", "busybox", "bash")
SECONDS = 600  # that anything may take
_BEGIN = 60
RUN_LIMITS = ["--ulimit", "nofile=1024:1024", "--ulimit", "nproc=1024:1024"]


def why_no_engines(folder: str) -> str | None:
    """Why no engines can be had, or nothing if they can."""
    reason = why_no_trusted(folder)
    if reason:
        return reason
    absent = [tool for tool in TOOLS if shutil.which(tool) is None]
    if absent:
        return f"needs {', '.join(absent)}"
    with open(str(shutil.which("busybox")), "rb") as file:
        if b"/ld-linux" in file.read():
            return "needs busybox-static"
    return None if PROGRAM.exists() else "the program isn't built"


class Engine:
    """Runs one engine's command line."""

    def __init__(self, words: list[str], environment: dict[str, str]) -> None:
        self.words = words
        self.environment = {**os.environ, **environment}

    def __call__(self, *words: str, **more: object) -> str:
        """What a command prints."""
        return self.run([*self.words, *words], **more)

    def run(self, words: list[str], **more: object) -> str:
        """What any command prints that finds the engine by its environment."""
        result = subprocess.run(
            words, env=self.environment, capture_output=True, text=True, check=False, timeout=SECONDS,
            **more,  # type: ignore[call-overload]
        )
        if result.returncode != 0:
            raise RuntimeError(f"{words}: {result.stdout[-500:]}{result.stderr[-2000:]}")
        return str(result.stdout)

    def pipe(self, text: str, *words: str) -> str:
        """What a line of a shell prints, in which `layers` is the converter."""
        begin = f'set -e -o pipefail; layers() {{ {sys.executable} -B {COMMAND} "$@"; }}; '
        return self.run(["bash", "-c", begin + text, "bash", *words])


@contextlib.contextmanager
def docker(folder: str) -> Iterator[Engine]:
    """Docker with a daemon of its own, which ends with it."""
    os.makedirs(folder)
    socket = f"unix://{folder}/socket"
    words = [
        "dockerd", "--data-root", f"{folder}/data", "--exec-root", f"{folder}/exec", "--pidfile", f"{folder}/pid",
        "-H", socket, "--iptables=false", "--ip6tables=false", "--bridge=none", "--storage-driver", "overlay2",
    ]
    with open(f"{folder}/log", "wb") as log, subprocess.Popen(words, stdout=log, stderr=log) as daemon:
        engine = Engine(["docker"], {
            "DOCKER_HOST": socket, "DOCKER_CONFIG": f"{folder}/config", "DOCKER_BUILDKIT": "0",
        })
        try:
            _wait(engine, daemon)
            yield engine
        finally:
            daemon.terminate()
            daemon.wait(_BEGIN)


def _wait(engine: Engine, daemon: "subprocess.Popen[bytes]") -> None:
    end = time.monotonic() + _BEGIN
    while daemon.poll() is None and time.monotonic() < end:
        with contextlib.suppress(RuntimeError):
            engine("info", "--format", "{{.Driver}}")
            return
        time.sleep(0.2)
    raise RuntimeError("dockerd doesn't begin")


def podman(folder: str) -> Engine:
    """Podman with a store of its own."""
    return Engine([
        "podman", "--root", f"{folder}/root", "--runroot", f"{folder}/run", "--storage-driver", "vfs",
        "--cgroup-manager", "cgroupfs", "--runtime", "runc",
    ], {})


class Builder:
    """Builds images of the Dockerfile in a folder, without a network, and saves them: by docker, or else by buildah."""

    def __init__(self, folder: str, stack: contextlib.ExitStack) -> None:
        self._folder = folder
        self._build = ["build", "--network", "none"]
        try:
            self._engine = stack.enter_context(docker(f"{folder}/docker"))
            self._save = ["save", "--output", f"{folder}/saved.tar", "NAME"]
        except (OSError, RuntimeError):
            self._engine = Engine([
                "buildah", "--root", f"{folder}/root", "--runroot", f"{folder}/run", "--storage-driver", "vfs",
            ], {})
            self._build = ["build", "--isolation", "chroot", "--layers", "--pull-never"]
            self._save = ["push", "--quiet", "NAME", f"docker-archive:{folder}/saved.tar:NAME"]

    def build(self, name: str, context: str) -> None:
        """Builds an image."""
        self._engine(*self._build, "--tag", name, context)

    def saved(self, name: str) -> str:
        """An archive of an image, until the next one."""
        path = f"{self._folder}/saved.tar"
        with contextlib.suppress(FileNotFoundError):
            os.unlink(path)
        self._engine(*(word.replace("NAME", name) for word in self._save))
        return path


def run_podman(engine: Engine, image: str) -> str:
    """What an image prints that podman runs."""
    return engine("run", "--rm", "--network", "none", *RUN_LIMITS, image)
