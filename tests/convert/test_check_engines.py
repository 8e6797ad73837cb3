"""`check` beside docker and podman: what it calls unfit neither can run, and what it calls fit runs; keys that are shipped."""

import json
import os
import shutil
import subprocess
import tempfile
import unittest

from engines import RUN_LIMITS, Engine, docker, podman, why_no_engines
from support import call

_BASE = """\
FROM scratch
COPY busybox /bin/busybox
RUN ["/bin/busybox", "--install", "/bin"]
RUN mkdir -p /etc /opt/bin /tmp && printf 'web:x:33:\\n' > /etc/group
RUN printf 'root:x:0:0::/:\\nweb:x:33:33::/:\\n' > /etc/passwd
RUN ln -s /opt/bin /usr-local && printf '#!/bin/sh\\nexit 0\\n' > /opt/bin/go && chmod 755 /opt/bin/go
CMD ["true"]
"""
_SCRIPT = "RUN printf '%s' > /opt/s && chmod %s /opt/s\nCMD [\"/opt/s\"]"
# Lines over the base, and the code of what makes engines refuse them, or that of a note or a warning, or nothing.
_IMAGES = (
    ("CMD [\"/usr-local/go\"]", None),
    ("ENV PATH=/nowhere:/usr-local\nCMD [\"go\"]", None),
    ("ENV PATH=/nowhere\nCMD [\"true\"]", "command-missing"),
    ("ENTRYPOINT [\"/bin/absent\"]", "command-missing"),
    ("CMD [\"absent\"]", "command-missing"),
    ("CMD [\"/opt\"]", "command-denied"),
    ("RUN ln -s loop /loop\nCMD [\"/loop\"]", "command-missing"),
    ("WORKDIR /opt/bin\nCMD [\"./go\"]", None),
    (_SCRIPT % ("#!/bin/sh\\nexit 0\\n", "644"), "command-denied"),
    (_SCRIPT % ("#!/bin/sh\\nexit 0\\n", "700") + "\nUSER web", "command-denied"),
    (_SCRIPT % ("#!/bin/sh\\nexit 0\\n", "755") + "\nUSER web:web", None),
    (_SCRIPT % ("#!/no/such -e\\n", "755"), "interpreter-missing"),
    (_SCRIPT % ("#!/bin/sh\\r\\nexit 0\\n", "755"), "interpreter-missing"),
    (_SCRIPT % ("#!/bin/env go\\n", "755") + "\nENV PATH=/usr-local", None),
    (_SCRIPT % ("#!/bin/env absent\\n", "755"), "interpreter-missing"),
    ("RUN chmod 700 /opt\nUSER 33\nCMD [\"/opt/bin/go\"]", "command-denied"),
    ("USER nobody", "user-unknown"),
    ("USER web:nobody", "group-unknown"),
    ("USER 4242", "user-unnamed"),
    ("USER 4242:33", "user-unnamed"),
    ("WORKDIR /gone\nRUN cd / && rmdir /gone", "workdir-missing"),
)
_KEYS = """\
RUN mkdir /root && echo secret > /root/id_rsa && echo token > /root/.npmrc
RUN rm /root/id_rsa
"""


class BesideEngines(unittest.TestCase):
    """Images that docker builds over one base."""

    folder: str
    docker: Engine
    podman: Engine

    @classmethod
    def setUpClass(cls) -> None:
        cls.folder = tempfile.mkdtemp(prefix="layers-engines-")
        cls.addClassCleanup(shutil.rmtree, cls.folder, ignore_errors=True)
        reason = why_no_engines(cls.folder)
        if reason:
            raise unittest.SkipTest(reason)
        try:
            cls.docker = cls.enterClassContext(docker(f"{cls.folder}/docker"))
        except RuntimeError as problem:
            raise unittest.SkipTest(f"no docker can be had here: {problem}") from None
        cls.podman = podman(f"{cls.folder}/podman")
        os.mkdir(f"{cls.folder}/context")
        shutil.copy(str(shutil.which("busybox")), f"{cls.folder}/context/busybox")
        with open(f"{cls.folder}/context/Dockerfile", "w", encoding="utf-8") as file:
            file.write(_BASE)
        cls.docker("build", "--network", "none", "--tag", "base", f"{cls.folder}/context")

    def checked(self, lines: str) -> tuple[int, list[dict[str, object]]]:
        """What `check` says of an image that docker builds of lines over the base."""
        self.docker("build", "--network", "none", "--tag", "made", "-", input=f"FROM base\n{lines}\n")
        path = f"{self.folder}/made.tar"
        self.docker("save", "--output", path, "made")
        status, printed, messages = call("check", path, "--json")
        self.assertEqual(messages, "")
        return status, json.loads(printed)["findings"]

    def runs(self, engine: Engine, *words: str) -> bool:
        """Whether an engine runs it."""
        command = [*engine.words, "run", "--rm", "--network", "none", *words]
        return subprocess.run(command, env=engine.environment, capture_output=True, check=False).returncode == 0

    def test_what_runs(self) -> None:
        for lines, code in _IMAGES:
            with self.subTest(lines=lines):
                status, found = self.checked(lines)
                codes = [it["code"] for it in found if it["code"] != "waste"]
                self.assertEqual(codes, [code] if code else [], found)
                self.assertEqual(status == 0, self.runs(self.docker, "made"), found)
                name = self.podman("load", "--quiet", "--input", f"{self.folder}/made.tar").split()[-1]
                self.assertEqual(status == 0, self.runs(self.podman, *RUN_LIMITS, name), found)

    def test_keys(self) -> None:
        status, found = self.checked(_KEYS)
        self.assertEqual((status, [(it["code"], it["layer"], it["path"]) for it in found if it["code"] != "waste"]), (
            0, [("credential-deleted", 1, "/root/id_rsa"), ("credential-shown", 1, "/root/.npmrc")],
        ))


if __name__ == "__main__":
    unittest.main()
