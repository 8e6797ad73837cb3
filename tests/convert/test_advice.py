"""`sizes --advice`: each rule named on an image made for it, and none on a clean one."""

import contextlib
import json
import os
import random
import re
import shutil
import subprocess
import tarfile
import unittest

from engines import Builder
from images import archive, folder, member
from plain_stacks import PlainStack, random_stack
from support import call, why_no_trusted
from test_sizes import SizesTest, StacksTest

from convert.sizes.advice import RULES, advice_of
from convert.sizes.caches import CACHES, cache_at
from convert.sizes.layer_sizes import sizes_of
from convert.sizes.texts import Origin
from convert.sizes.waste import waste_of

_STACKS = 60
_LINK = tarfile.LNKTYPE
_BIG = b"b" * 40_000
_OTHER = b"o" * 30_000
_COPY = "/bin/sh -c #(nop) COPY file:0a1b in /opt/data.bin "
_RUN = "/bin/sh -c make /opt/data.bin"


def _data(data: bytes = _BIG, uid: int = 0, mode: int = 0o644, name: str = "opt/data.bin", **pax: str) -> bytes:
    """A layer of one file."""
    info, data = member(name, data, mode=mode, pax=pax)
    info.uid = info.gid = uid
    return archive([(info, data)])


def _gone(name: str = "opt/.wh.data.bin") -> bytes:
    return archive([member(name)])


_TEXT = """
Advice, by what it saves:
BYTES  FILES  STEP  WHAT AND WHERE
  49K      1   3/5  cache of apt: /var/cache/apt/
                    -> apt-get clean in the same RUN, or RUN --mount=type=cache
  40K      1   2/5  only another mode than in step 1: /opt/data.bin
                    -> COPY --chmod=755 in step 1
and 1 smaller, 27 in all
At once: layers flatten saves 40K

"""
_TOOLS = ("sh", "chown", "chmod", "setcap", "touch", "cp", "mv", "rm", "mkdir", "head")
# Lines over a base of these tools, the rule that is named, and what saves the bytes: 50,000 by COPY.
_DOCKERFILES = (
    ("owner", "COPY data /opt/; RUN chown 33:33 /opt/data", "COPY --chown=33:33 in step 2"),
    ("mode", "COPY data /opt/; RUN chmod 700 /opt/data", "COPY --chmod=700 in step 2"),
    ("attributes", "COPY data /opt/; RUN setcap cap_net_raw+ep /opt/data", "copy and set them in one RUN --mount=type=bind"),
    ("unchanged", "COPY data /opt/; RUN touch -d 2001-01-01 /opt/data", "leave it out of step 3"),
    ("copied", "COPY data /opt/; RUN mkdir /srv && cp /opt/data /srv/other", "a symlink in place of the copy"),
    ("moved", "COPY data /opt/; RUN mv /opt/data /opt/other", "COPY to the final path in step 2"),
    ("rewritten", "RUN mkdir /opt && head -c 9000 /dev/urandom > /opt/a; RUN head -c 9 /dev/urandom >> /opt/a",
     "write it once, in one RUN with step 3"),
    ("replaced", "COPY data /opt/; RUN echo new > /opt/data", "leave it out of what is copied (.dockerignore)"),
    ("removed", "COPY data /opt/; RUN rm /opt/data", "RUN --mount=type=bind in place of COPY, or .dockerignore"),
    ("removed", "RUN head -c 9000 /dev/urandom > /a; RUN rm /a", "remove it in the same RUN"),
    ("cache", "RUN mkdir -p /var/cache/apt && head -c 9000 /dev/urandom > /var/cache/apt/x",
     "apt-get clean in the same RUN, or RUN --mount=type=cache"),
    ("", "COPY --chown=33:33 data /opt/; RUN head -c 9000 /dev/urandom > /a && rm /a && mkdir /srv", ""),
)
_SAME = _data(name="srv/again.bin")
# Two lines of a Dockerfile with their layers, and the advice: the rule, the step, its bytes and the remedy.
_CASES = (
    (_COPY, _data(), "chown", _data(uid=33), "owner", 2, 40_000, "COPY --chown=33:33 in step 1"),
    (_COPY, _data(), "chmod", _data(mode=0o755), "mode", 2, 40_000, "COPY --chmod=755 in step 1"),
    (_COPY, _data(), "x", _data(uid=1, mode=0o750), "owner", 2, 40_000, "COPY --chmod=750 --chown=1:1 in step 1"),
    (_RUN, _data(), "chown", _data(uid=33), "owner", 2, 40_000, "chown in the RUN of step 1"),
    ("ADD / /", _data(), "chown", _data(uid=33), "owner", 2, 40_000, "the final owner in step 1"),
    ("ADD x /opt/", _data(), "chown", _data(uid=33), "owner", 2, 40_000, "ADD --chown=33:33 in step 1"),
    ("bazel", _data(), "chown", _data(uid=33), "owner", 2, 40_000, "the final owner in step 1"),
    (_RUN, _data(), "setcap", _data(**{"SCHILY.xattr.user.a": "b"}), "attributes", 2, 40_000,
     "set them in the RUN of step 1"),
    (_COPY, _data(), _COPY, _data(), "unchanged", 2, 40_000, "leave it out of step 2"),
    (_COPY, _data(), _RUN, _SAME, "copied", 2, 40_000, "a symlink in place of the copy"),
    (_RUN, _data(), "mv", archive([member("opt/.wh.data.bin"), member("srv/b", _BIG)]), "moved", 2, 40_000,
     "mv in the RUN of step 1"),
    (_RUN, _data(), "rm", _gone(), "removed", 1, 40_000, "remove it in the same RUN"),
    (_COPY, _data(), "rm", _gone(), "removed", 1, 40_000, "RUN --mount=type=bind in place of COPY, or .dockerignore"),
    (_RUN, _data(), "sed", _data(_BIG + b"c"), "rewritten", 1, 40_000, "write it once, in one RUN with step 2"),
    (_RUN, _data(), "apt-get upgrade", _data(_OTHER), "replaced", 1, 40_000, "write it once, in one RUN with step 2"),
    (_RUN, _data(name="var/lib/apt/lists/x"), "ls", _data(_OTHER), "cache", 1, 40_000,
     "rm -rf /var/lib/apt/lists/* in the same RUN, or RUN --mount=type=cache"),
    (_RUN, _data(name="root/.cache/pip/x"), "rm", _gone("root/.cache/.wh.pip"), "cache", 1, 40_000,
     "pip install --no-cache-dir in the same RUN, or RUN --mount=type=cache"),
)


class Advice(SizesTest):
    """What is advised of images of two layers."""

    def advice(self, name: str, layers: list[bytes], commands: list[str]) -> list[dict[str, object]]:
        """The advice of an image, from JSON."""
        result = call("sizes", self.put(name, layers, commands), "--advice", "--json")
        self.require_done(result)
        found: list[dict[str, object]] = json.loads(result[1])["advice"]
        return found

    def test_rules(self) -> None:
        for number, (below, lower, above, upper, rule, step, size, remedy) in enumerate(_CASES):
            with self.subTest(rule=rule, lines=(below, above)):
                (found,) = self.advice(f"image{number}", [lower, upper], [below, above])
                self.assertEqual((found["rule"], found["layer"]), (rule, 2 - step))
                self.assertEqual((found["bytes"], found["files"], found["remedy"]), (size, 1, remedy))
        self.assertEqual({case[4] for case in _CASES} | {"unused"}, {rule.name for rule in RULES})

    def test_clean(self) -> None:
        """Nothing is advised if nothing is wasted, or if a cache's file has another name too."""
        link = member("var/cache/apt/x", kind=_LINK, target="var/lib/x")
        layers = [archive([member("var/lib/x", b"x" * 9_000), link]), _data(), _data(_OTHER, name="opt/other")]
        commands = [_RUN, _COPY, _COPY]
        self.assertEqual(self.advice("image", layers, commands), [])
        self.assertIn("\nAdvice: none\n\n", call("sizes", self.path("image"), "--advice")[1])

    def test_right_after_one_another(self) -> None:
        """A file whose owner and then mode is changed: each step names the one before."""
        found = self.advice("image", [_data(), _data(uid=5), _data(uid=5, mode=0o700)], [_COPY, "RUN chown", "RUN chmod"])
        self.assertEqual([(one["rule"], one["layer"], one["other"]) for one in found], [("mode", 0, 1), ("owner", 1, 2)])
        self.assertEqual(found[0]["remedy"], "chmod in the RUN of step 2")

    def test_of_a_base(self) -> None:
        """Advice is for the layers over the base."""
        below = archive([member("var/cache/apt/x", b"x" * 9), member("opt/data.bin", _BIG)])
        self.put("image", [below, _gone(), _data(_OTHER), _gone()], [_COPY, "rm", _COPY, "rm"])
        found = json.loads(call("sizes", self.path("image"), "--advice", "--json", "--base", "2")[1])["advice"]
        self.assertEqual([(one["rule"], one["layer"], one["bytes"]) for one in found], [("removed", 1, 30_000)])

    def test_text(self) -> None:
        """Two lines for each, the largest first; small ones are summed up."""
        small = [member(f"srv/{number}", bytes([number]) * 9) for number in range(3)]
        layers = [
            _data(), _data(mode=0o755),
            archive([folder("var/cache/apt"), member("var/cache/apt/archives/x", b"x" * 50_000)]),
            archive(small), archive([member(f"srv/.wh.{number}") for number in range(3)]),
        ]
        self.put("image", layers, [_COPY, "RUN chmod 755 /opt/data.bin", "RUN apt-get install x", "RUN touch", "RUN rm"])
        printed = call("sizes", self.path("image"), "--advice")[1]
        self.assertIn(_TEXT, printed)
        self.assertLessEqual(max(map(len, printed.splitlines()[:-1])), 80)


class Numbers(StacksTest):
    """On random stacks: each wasted byte has one rule, and each rule's place is one of its files, or over one."""

    def test_numbers(self) -> None:
        met = set[str]()
        for seed in range(_STACKS):
            layers, data_layers = random_stack(seed)
            paths = self.write(layers)
            with open(self.path("report"), "w", encoding="ascii") as file:
                file.writelines(PlainStack(layers, data_layers).report())
            sizes = sizes_of(paths, data_layers, self.path("report"))
            with self.subTest(seed=seed):
                for base in range(len(layers) + 1):
                    waste = waste_of(sizes, base)
                    found = advice_of(sizes, waste.layers, [Origin()] * len(layers))
                    self.assertEqual(sum(one.bytes - one.shown for one in found), waste.bytes)
                    self.assertEqual(sum(one.file_count for one in found), sum(it.files for it in waste.causes.values()))
                    for one in found:
                        self.assertTrue(any(path.startswith(one.place().path) for path in one.files), one)
                    met |= {one.rule.name for one in found}
        self.assertLessEqual({"unused", "removed", "replaced", "rewritten", "unchanged", "copied", "moved"}, met)


class OfBuiltImages(SizesTest):
    """Images that docker, or else buildah, builds of Dockerfiles, one for each rule, and a clean one."""

    def setUp(self) -> None:
        super().setUp()
        reason = why_no_trusted(self.folder)
        absent = [tool for tool in _TOOLS if shutil.which(tool) is None]
        if reason or absent:
            self.skipTest(reason or f"needs {', '.join(absent)}")
        os.makedirs(self.path("context", "tools", "bin"))
        with open(self.path("context", "data"), "wb") as file:
            file.write(random.Random(5).randbytes(50_000))
        for tool in _TOOLS:
            self._add_tool(str(shutil.which(tool)))
        self.builder = Builder(self.folder, self.enterContext(contextlib.ExitStack()))
        try:
            self.build("base", "FROM scratch\nCOPY tools /\n")
            self.build("probe", "FROM base\nRUN mkdir /srv\n")
        except (OSError, RuntimeError) as problem:
            self.skipTest(f"neither docker nor buildah can build here: {problem}")

    def _add_tool(self, program: str) -> None:
        """Puts a program with its libraries into the context."""
        shutil.copy(program, self.path("context", "tools", "bin"))
        needs = subprocess.run(["ldd", program], capture_output=True, text=True, check=True).stdout
        for library in re.findall(r"/\S+", needs):
            os.makedirs(os.path.dirname(self.path("context", "tools") + library), exist_ok=True)
            shutil.copy(library, self.path("context", "tools") + library)

    def build(self, name: str, text: str) -> None:
        """Builds an image of a Dockerfile."""
        with open(self.path("context", "Dockerfile"), "w", encoding="ascii") as file:
            file.write(text)
        self.builder.build(name, self.path("context"))

    def test_rules(self) -> None:
        for number, (rule, lines, remedy) in enumerate(_DOCKERFILES):
            with self.subTest(rule=rule, lines=lines):
                self.build(f"image{number}", "FROM base\n" + lines.replace("; ", "\n") + "\n")
                result = call("sizes", self.builder.saved(f"image{number}"), "--advice", "--json")
                self.require_done(result)
                found = [(one["rule"], one["remedy"]) for one in json.loads(result[1])["advice"]]
                self.assertEqual(found, [(rule, remedy)] if rule else [])
        self.assertEqual({rule for rule, _, _ in _DOCKERFILES} - {""}, {rule.name for rule in RULES} - {"unused"})


class Caches(unittest.TestCase):
    """The places of caches."""

    def test_places(self) -> None:
        for cache in CACHES:
            for home in ("/root", "/home/user"):
                self.assertEqual(cache_at(cache.place.replace("~", home) + "/some/file"), cache)
        for path in (
            "/var/lib/apt/lists", "/var/lib/apt/listsx/a", "/home/.cache/pip/a", "/home/a/b/.cache/pip/x",
            "/srv/var/cache/apt/x", "/root/Xcache/pip/a", "/usr/bin/apt",
        ):
            self.assertIsNone(cache_at(path), path)


if __name__ == "__main__":
    unittest.main()
