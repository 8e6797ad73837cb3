"""The package of the built program: lintian takes it; it installs, runs and goes in a bare Debian root, and so do the
jobs of docs/CI.md there."""

import hashlib
import os
import shutil
import subprocess
import sys
import tempfile
import unittest
from pathlib import Path

for folder in ("convert", "docs"):
    sys.path.append(os.path.join(os.path.dirname(__file__), "..", folder))

from documents import blocks_of
from support import PROGRAM, ROOT
from test_completions import ZSH
from test_package import PackageTest, run

from convert import VERSION

_INCLUDED = "python3,man-db,zsh,curl,ca-certificates"
# What an ordinary user does.
_USER = """
set -eu
cd /tmp/new
layers --version
ovl_layers show ../root.json
layers sizes ../image > sizes
layers flatten ../image --out flat.tar 2> steps
layers check flat.tar
if layers check --max-waste 10% ../image > faults; then exit 1; fi
layers diff ../image flat.tar
for name in layers ovl_layers; do man $name > $name.page; grep -q '^EXIT STATUS' $name.page; done
bash -euc '
    compopt() { :; }
    . /usr/share/bash-completion/completions/layers
    COMP_WORDS=(layers fl) COMP_CWORD=1
    _layers
    echo "bash: ${COMPREPLY[*]}"'
zsh -fc "$(cat ../zsh)" zsh /usr/share/zsh/vendor-completions 'layers flatten --dry' | tr -d '\\r'
"""
# Installs, uses and removes the package; nothing is left but dpkg's lists and logs, and the cache of manual pages.
_IN_ROOT = """
set -eu
cd /tmp
list() {
    find / -xdev \\( -path /proc -o -path /sys -o -path /dev -o -path /tmp \\
        -o -path /var/lib/dpkg -o -path /var/log -o -path /var/cache/man \\) -prune -o -print | sort
}
list > before
dpkg -i package.deb > /dev/null
su -s /bin/sh nobody -c 'TERM=dumb HOME=/tmp/new sh user'
layers --version > /dev/null
dpkg -P ovl-layers > /dev/null
list > after
diff before after
"""
# Runs a script in a system.
_ENTER = """
mount -t proc proc "$1/proc"
mount -t devpts -o newinstance,ptmxmode=0666 devpts "$1/dev/pts"
exec chroot "$1" /bin/bash -euo pipefail -c "$2"
"""
# In place of what a runner of GitHub has: images are where `docker save` finds them.
_DOCKER = '#!/bin/sh\n[ "$1" != save ] || cp "/images/$(basename "$2").tar" "$4"\n'
_SUDO = '#!/bin/sh\nexec "$@"\n'


def lines_of(job: str) -> str:
    """What a job runs: the lines of each `run`, or of its `script`."""
    found, depth = list[str](), None
    for line in job.splitlines():
        indent = len(line) - len(line.lstrip())
        if depth is not None and indent > depth:
            found.append(line.strip().removeprefix("- "))
        else:
            depth = indent if line.strip() in ("run: |", "script:") else None
    return "\n".join(found)


class BuiltPackage(PackageTest):
    """The package of the built program."""

    def setUp(self) -> None:
        super().setUp()
        if not PROGRAM.exists():
            self.skipTest("the program isn't built")
        self.put_program(PROGRAM.read_bytes())
        self.file = self.packed("out")


class Lintian(BuiltPackage):
    """What Debian's checker finds."""

    def test_lintian(self) -> None:
        if shutil.which("lintian") is None:
            self.skipTest("needs lintian")
        result = run("lintian", "--allow-root", "--fail-on", "error,warning", self.file)
        self.assertEqual((result.returncode, result.stdout), (0, ""))


class InRoot(BuiltPackage):
    """Bare Debian roots, copies of one."""

    _made: Path
    _why_not: str | None

    @classmethod
    def setUpClass(cls) -> None:
        cls._made = Path(tempfile.mkdtemp(prefix="layers-root-"))
        cls.addClassCleanup(shutil.rmtree, cls._made)
        cls._why_not = None if PROGRAM.exists() else "the program isn't built"
        if os.geteuid() != 0 or shutil.which("mmdebstrap") is None:
            cls._why_not = "needs root and mmdebstrap"
        if cls._why_not is None:
            words = ("--mode=root", "--variant=minbase", f"--include={_INCLUDED}", "bookworm", cls._made / "root")
            made = run("mmdebstrap", *words)
            if made.returncode != 0:
                cls._why_not = f"mmdebstrap made no root: {made.stderr.splitlines()[-1:]}"

    def setUp(self) -> None:
        if self._why_not:
            self.skipTest(self._why_not)
        super().setUp()
        self.root = Path(self.path("root"))
        subprocess.run(["cp", "-a", self._made / "root", self.root], check=True)
        self.addCleanup(shutil.rmtree, self.root)

    def put(self, name: str, text: str, mode: int = 0o644) -> None:
        """Writes a file in the root."""
        file = self.root / name
        file.parent.mkdir(exist_ok=True)
        file.write_text(text, encoding="utf-8")
        file.chmod(mode)

    def run_in_root(self, script: str, **more: str) -> "subprocess.CompletedProcess[str]":
        """Runs lines of bash there."""
        words = ("unshare", "--mount", "sh", "-euc", _ENTER, "sh", self.root, script)
        return run(*words, PATH="/usr/local/bin:/usr/sbin:/usr/bin:/sbin:/bin", TMPDIR="/tmp", **more)

    def test_what_a_user_does(self) -> None:
        shutil.copy(self.file, self.root / "tmp/package.deb")
        shutil.copy(ROOT / "examples" / "root.json", self.root / "tmp/root.json")
        shutil.copytree(ROOT / "examples" / "image", self.root / "tmp/image")
        (self.root / "tmp/new").mkdir()
        (self.root / "tmp/new").chmod(0o777)
        self.put("tmp/user", _USER)
        self.put("tmp/zsh", ZSH)
        result = self.run_in_root(_IN_ROOT)
        self.assertEqual((result.returncode, result.stderr), (0, result.stderr), result.stdout)
        self.assertIn(f"layers {VERSION}\n", result.stdout)
        self.assertIn((ROOT / "examples" / "root.show").read_text(encoding="utf-8"), result.stdout)
        self.assertIn("flat.tar is fit to ship", result.stdout)
        self.assertIn("bash: flatten\n", result.stdout)
        self.assertIn("layers flatten --dry-run", result.stdout)

    def test_jobs(self) -> None:
        """A fit image, of which what changed is kept, and one with too much waste, which fails the job."""
        jobs = [lines_of(block.text) for block in blocks_of(ROOT / "docs" / "CI.md") if block.kind == "yaml"]
        self.assertEqual(len(jobs), 2)
        self.put("usr/local/bin/docker", _DOCKER, 0o755)
        self.put("usr/local/bin/sudo", _SUDO, 0o755)
        shutil.copy("/etc/resolv.conf", self.root / "etc/resolv.conf")
        shutil.copy(self.file, self.root / "package.deb")
        self.make_images()
        variables = {
            "PACKAGE": "file:///package.deb", "SHA256": hashlib.sha256(self.file.read_bytes()).hexdigest(),
            "IMAGE": "registry.example.org/shop:latest",
        }
        for job in jobs:
            for image, status in (("fit", 0), ("wasteful", 1)):
                with self.subTest(job=job, image=image):
                    images = self.put_images(image)
                    result = self.run_in_root(f"cd /images\n{job}", **variables)
                    self.assertEqual(result.returncode, status, result.stdout + result.stderr)
                    changes = images / "changes.txt"
                    self.assertEqual(changes.exists(), status == 0)
                    if status == 0:
                        self.assertIn("- /srv\n", changes.read_text(encoding="utf-8"))
                    self.assertEqual(self.run_in_root("dpkg -P ovl-layers").returncode, 0)

    def make_images(self) -> None:
        """Makes an image with much waste, and one without, which shows less."""
        stack = self.path("stack")
        manifests = [f"{stack}/l{number}.json" for number in range(3)]
        of_stack = ("--blobs", f"{stack}/blobs", "--config", f"{stack}/config.json")
        for words in (
            ("unpack", ROOT / "examples" / "image", "--out", stack),
            ("pack", *manifests, *of_stack, "--out", self.path("wasteful.tar")),
            ("pack", *manifests[1:], *of_stack, "--out", self.path("less.tar")),
            ("flatten", self.path("less.tar"), "--out", self.path("fit.tar")),
        ):
            made = run(sys.executable, "-B", ROOT / "layers", *words)
            self.assertEqual(made.returncode, 0, made.stderr)

    def put_images(self, new: str) -> Path:
        """Puts a new image and the old one where the jobs have them, in a folder of their own."""
        images = self.root / "images"
        shutil.rmtree(images, ignore_errors=True)
        images.mkdir()
        for name, image in (("shop", new), ("new", new), ("shop:latest", "wasteful"), ("old", "wasteful")):
            shutil.copy(self.path(f"{image}.tar"), images / f"{name}.tar")
        return images


if __name__ == "__main__":
    unittest.main()
