"""Real engines: images that docker builds are flattened, and docker, podman and skopeo take what comes of it."""

import contextlib
import hashlib
import json
import os
import shutil
import subprocess
import sys
import tarfile
import tempfile
import unittest
from difflib import unified_diff

from engines import Engine, docker, podman, run_podman, why_no_engines
from kernel_stacks import linked_names, shown_links
from support import COMMAND, PROGRAM

_DOCKERFILE = """\
FROM scratch
COPY busybox /bin/busybox
COPY tree /
RUN ["/bin/busybox", "--install", "/bin"]
RUN rm /etc/app/a /bin/vi && echo changed > /etc/note && cp /bin/ls /bin/own && chmod 4755 /bin/own
RUN rm -r /srv/data && mkdir -m 711 /srv/data && echo y > /srv/data/y && ln /srv/data/y /srv/z && ln -s z /srv/s
RUN ln /etc/note /etc/also && rm -r /etc/app && echo file > /etc/app && mkfifo /srv/pipe && rm /bin/awk
ENV A=b
WORKDIR /srv
USER 33:33
VOLUME /data
LABEL org.example=1
CMD ["/bin/sh", "-c", "find /bin /srv /etc/app /etc/note /etc/also -type f | sort | xargs stat -c '%n %A %s %Y'; \
find /bin /srv ! -type f | sort | xargs stat -c '%N %A %u %g %Y'; cat /etc/also; echo $A; id"]
"""
_LAYERS = 6
_OWN = ("dev", "etc/hostname", "etc/hosts", "etc/mtab", "etc/resolv.conf", "proc", "sys", ".dockerenv", "run")


def exported(path: str) -> tuple[dict[str, str], list[list[str]]]:
    """The entries of an exported tree, and the names that are one file; without what engines put there themselves."""
    entries, linked = {}, {}
    with tarfile.open(path) as file:
        for info in file:
            name = info.name.rstrip("/")
            if any(name == own or name.startswith(f"{own}/") for own in _OWN):
                continue
            data = file.extractfile(info)
            about = f"{info.mode:o} {info.uid} {info.gid} {hashlib.sha256(data.read() if data else b'').hexdigest()}"
            time = "" if name == "etc" else str(int(info.mtime))  # engines write into this one
            kind = "file" if info.islnk() else info.type.decode().replace("0", "file")
            entries[name] = f"{kind} {about} {time} {'' if info.islnk() else info.linkname}"
            if info.islnk():
                linked.setdefault(info.linkname, [info.linkname]).append(name)
    return entries, sorted(sorted(names) for names in linked.values())


class Engines(unittest.TestCase):
    """An image of six layers that docker built."""

    folder: str
    docker: Engine
    podman: Engine

    @classmethod
    def setUpClass(cls) -> None:
        cls.folder = tempfile.mkdtemp(prefix="layers-engines-")
        cls.addClassCleanup(shutil.rmtree, cls.folder, ignore_errors=True)
        reason = why_no_engines(cls.folder)
        if reason:
            raise unittest.SkipTest(reason)
        try:
            cls.docker = cls.enterClassContext(docker(f"{cls.folder}/docker"))
        except RuntimeError as problem:
            raise unittest.SkipTest(f"no docker can be had here: {problem}") from None
        cls.podman = podman(f"{cls.folder}/podman")
        cls._build(f"{cls.folder}/context")
        cls.docker.pipe("docker save small:1 > $1", f"{cls.folder}/small.tar")
        cls.docker("tag", "small:1", "given:1")
        out = f"docker-archive:{cls.folder}/flat.tar:flat:1"
        cls.docker.run([sys.executable, "-B", str(COMMAND), "flatten", f"{cls.folder}/small.tar", "--out", out])

    @classmethod
    def _build(cls, context: str) -> None:
        for name, text in (("etc/app/a", "1"), ("etc/app/b", "2"), ("srv/data/x", "x"), ("etc/note", "note")):
            os.makedirs(f"{context}/tree/{os.path.dirname(name)}", exist_ok=True)
            with open(f"{context}/tree/{name}", "w", encoding="utf-8") as file:
                file.write(text)
        shutil.copy(str(shutil.which("busybox")), f"{context}/busybox")
        with open(f"{context}/Dockerfile", "w", encoding="utf-8") as file:
            file.write(_DOCKERFILE)
        cls.docker("build", "--network", "none", "--tag", "small:1", context)

    def run_image(self, image: str) -> str:
        """What an image prints that docker runs."""
        return self.docker("run", "--rm", "--network", "none", image)

    def inspected(self, image: str, what: str = ".Config") -> object:
        """A part of what docker reports of an image."""
        return json.loads(self.docker("inspect", "--type", "image", "--format", f"{{{{json {what}}}}}", image))

    def export(self, engine: Engine, image: str) -> tuple[dict[str, str], list[list[str]]]:
        """The tree that an engine exports of an image."""
        path = f"{self.folder}/exported.tar"
        container = engine("create", image).strip()
        engine("export", "--output", path, container)
        engine("rm", container)
        return exported(path)

    def require_same(self, image: str) -> None:
        """An image of one layer is as the given one to docker."""
        self.assertEqual(self.run_image(image), self.run_image("given:1"))
        for what in (".Config", ".Os", ".Architecture", ".Created", ".Author"):
            self.assertEqual(self.inspected(image, what), self.inspected("given:1", what))
        self.assertEqual(len(self.inspected(image, ".RootFS.Layers")), 1)  # type: ignore[arg-type]
        given, new = self.export(self.docker, "given:1"), self.export(self.docker, image)
        self.assertEqual(new, given)
        self.assertGreater(len(given[1][0]), 100)
        self.assertEqual(given[1][-1], ["srv/data/y", "srv/z"])

    def test_through_a_pipe(self) -> None:
        self.assertEqual(len(self.inspected("given:1", ".RootFS.Layers")), _LAYERS)  # type: ignore[arg-type]
        messages = self.docker.pipe("docker save small:1 | layers flatten - --out - | docker load")
        self.assertIn("Loaded image: small:1\n", messages)
        self.require_same("small:1")

    def test_by_name(self) -> None:
        """What skopeo fetches from docker is what docker saves."""
        if shutil.which("skopeo") is None:
            self.skipTest("needs skopeo")
        self.docker.pipe(
            "layers unpack docker-daemon:given:1 --out $1/fetched; layers unpack $1/small.tar --out $1/saved; "
            "diff -r $1/fetched $1/saved", self.folder,
        )

    def test_loaded_from_a_file(self) -> None:
        self.assertEqual(self.docker("load", "-i", f"{self.folder}/flat.tar"), "Loaded image: flat:1\n")
        self.require_same("flat:1")

    def test_podman(self) -> None:
        for name in ("flat", "small"):
            self.podman("load", "-i", f"{self.folder}/{name}.tar")
        self.assertEqual(self.export(self.podman, "localhost/flat:1"), self.export(self.podman, "localhost/small:1"))
        self.assertEqual(run_podman(self.podman, "localhost/flat:1"), run_podman(self.podman, "localhost/small:1"))

    def test_skopeo(self) -> None:
        flat, new = f"{self.folder}/flat.tar", f"{self.folder}/copied"
        messages = json.loads(self.podman.run(["skopeo", "inspect", f"docker-archive:{flat}"]))
        self.assertEqual(len(messages["Layers"]), 1)
        for source in ("docker-archive", "oci-archive"):
            for target in (f"docker-archive:{new}:x:1", f"oci:{new}:x", f"dir:{new}"):
                self.podman.run(["skopeo", "copy", "--quiet", "--insecure-policy", f"{source}:{flat}", target])
                shutil.rmtree(new) if os.path.isdir(new) else os.unlink(new)
        for form in ("oci", "dir"):
            out = f"{form}:{self.folder}/{form}"
            self.docker.run([sys.executable, "-B", str(COMMAND), "flatten", f"{self.folder}/small.tar", "--out", out])
            again = json.loads(self.podman.run(["skopeo", "inspect", out]))
            self.assertEqual(again["Layers"], messages["Layers"])

    def test_a_base_that_stays(self) -> None:
        """An image over another one, as one layer over it: same blobs to skopeo, same run and lines to docker and podman."""
        base, flat = f"{self.folder}/base.oci", f"{self.folder}/over.tar"
        with open(f"{self.folder}/context/Over", "w", encoding="utf-8") as file:
            file.write("FROM given:1\nUSER 0\nRUN rm /etc/note\nRUN echo more > /srv/more\nENV C=d\n")
        self.docker("build", "--network", "none", "--tag", "over:1", "-f", f"{self.folder}/context/Over", f"{self.folder}/context")
        self.docker("tag", "over:1", "given-over:1")
        self.docker.pipe("docker save over:1 > $1", f"{self.folder}/given-over.tar")
        copy = ["skopeo", "copy", "--quiet", "--insecure-policy"]
        self.docker.run([*copy, f"docker-archive:{self.folder}/small.tar", f"oci:{base}:1"])
        words = [sys.executable, "-B", str(COMMAND), "flatten", f"{self.folder}/given-over.tar", "--base", f"oci:{base}:1"]
        self.docker.run([*words, "--out", flat])
        raw = [
            json.loads(self.docker.run(["skopeo", "inspect", "--raw", place]))["layers"]
            for place in (f"oci:{base}:1", f"oci-archive:{flat}")
        ]
        self.assertEqual((raw[1][:_LAYERS], len(raw[1])), (raw[0], _LAYERS + 1))
        self.docker("rmi", "over:1")
        self.docker("load", "-i", flat)
        for what in (".Config", ".Os", ".Created"):
            self.assertEqual(self.inspected("over:1", what), self.inspected("given-over:1", what))
        self.assertEqual(self.export(self.docker, "over:1"), self.export(self.docker, "given-over:1"))
        listed = [
            self.docker("history", "--no-trunc", "--format", "{{.CreatedBy}}", image).splitlines()
            for image in ("given-over:1", "over:1")
        ]
        self.assertEqual(listed[1][1:], listed[0])
        self.assertRegex(listed[1][0], r"^layers flatten: lines \d+ to \d+ of over:1 \(sha256:[0-9a-f]{12}\)$")
        self.podman("load", "-i", flat)
        self.assertEqual(len(self.podman("history", "--quiet", "localhost/over:1").split()), len(listed[1]))

    def test_the_store(self) -> None:
        """The layer of a running container beside what the kernel mounts of it."""
        container = self.docker("run", "--detach", "--network", "none", "--user", "0", "given:1", "sleep", "600").strip()
        try:
            self.docker("exec", "--user", "0", container, "sh", "-c", "rm /bin/cat && ln /srv/z /srv/more && mkdir /d")
            messages = self.docker("inspect", "--format", "{{json .GraphDriver.Data}}", container)
            place = json.loads(messages)["MergedDir"]
            stored, layer = f"{self.folder}/stored", os.path.dirname(place)
            words = [sys.executable, "-B", str(COMMAND)]
            self.docker.run([*words, "store", layer, "--out", stored, "--digests-only"])
            layers = [f"{stored}/l{number}.json" for number in range(len(json.loads(messages)["LowerDir"].split(":")) + 1)]
            shown = subprocess.run([PROGRAM, "show", *layers], capture_output=True, text=True, check=True).stdout
            mounted = self.docker.run([*words, "mounted", place])
            self.assertEqual(list(unified_diff(shown.splitlines(), mounted.splitlines(), lineterm="")), [])
            self.assertEqual(shown_links(stored), linked_names(place))
            self.assertIn("srv/more", str(shown_links(stored)))
        finally:
            self.docker("rm", "--force", container)


if __name__ == "__main__":
    unittest.main()
