"""Hard links: from images and folders to the files beside manifests, and back."""

import hashlib
import io
import json
import os
import random
import resource
import shutil
import subprocess
import sys
import tarfile
import unittest

from images import archive, folder, member, packed, write_layout
from kernel_stacks import linked_names
from support import COMMAND, ROOT_LAYER, FolderTest, call, links, program_words, why_no_trusted

NAMES = [f"usr/lib/git-core/git-{number}" for number in range(140)]
GIT = random.Random(1).randbytes(1 << 20)
LINK = tarfile.LNKTYPE
REDIRECT = "SCHILY.xattr.trusted.overlay.redirect"
MEMORY = 128 << 20  # bytes, that a process may write to
SECONDS = 20  # of processor time
RANDOM_IMAGES = int(os.environ.get("LAYERS_TEST_IMAGES", "15"))


def linked_in(image: str) -> dict[str, str]:
    """The hard links in the archives of an image that is one file: names, and what each is linked to."""
    found = {}
    with tarfile.open(image) as file:
        for part in file:
            data = file.extractfile(part)
            if data is None or data.peek(1)[:1] in (b"{", b"[", b""):
                continue
            with tarfile.open(fileobj=io.BytesIO(data.read())) as layer:
                found.update({each.name: each.linkname for each in layer if each.islnk()})
    return found


def random_layer(pick: random.Random) -> list[object]:
    """Files, more names of them here and there, and whiteouts, in three directories."""
    folders = ["a", "b", "a/c"]
    members: list[object] = [folder("./"), *map(folder, folders)]
    names = pick.sample([f"{way}/{name}" for way in folders for name in "12345"], pick.randint(2, 9))
    firsts: list[str] = []
    for name in names:
        if firsts and pick.random() < 0.6:
            members.append(member(name, kind=LINK, target=pick.choice(firsts)))
        else:
            members.append(member(name, pick.choice((b"1", b"22")), mode=pick.choice((0o644, 0o755))))
        firsts.append(name)
    hidden = [f"{way}/{name}" for way in folders for name in "12345"]
    for name in pick.sample(sorted(set(hidden) - set(names)), pick.randint(0, 3)):
        members.append(member(f"{os.path.dirname(name)}/.wh.{os.path.basename(name)}"))
    if pick.random() < 0.2:
        members.append(member("b/.wh..wh..opq"))
    return members


def named(image: str) -> None:
    """Gives the image of a layout the name x, which umoci asks for."""
    with open(f"{image}/index.json", "r+", encoding="utf-8") as file:
        index = json.load(file)
        index["manifests"][0]["annotations"] = {"org.opencontainers.image.ref.name": "x"}
        index["manifests"][0]["mediaType"] = "application/vnd.oci.image.manifest.v1+json"
        file.seek(0)
        json.dump(index, file)


class Links(FolderTest):
    """Images and folders whose files have several names."""

    def image(self, *layers: list[object]) -> str:
        """A layout of these layers."""
        archives = [archive(layer) for layer in layers]  # type: ignore[arg-type]
        write_layout(self.path("image"), archives, archives)
        return self.path("image")

    def git_core(self) -> list[object]:
        """A tree as git's, whose commands are names of one file."""
        folders = [folder("./"), *(folder(name) for name in ("usr", "usr/lib", "usr/lib/git-core", "usr/bin"))]
        first = member("usr/bin/git", GIT, mode=0o755)
        return [*folders, first, *(member(name, kind=LINK, target="usr/bin/git", mode=0o755) for name in NAMES)]

    def test_unpack_and_pack(self) -> None:
        image, stack, out = self.image(self.git_core()), self.path("stack"), self.path("out.tar")
        self.require_done(call("unpack", image, "--out", stack))
        wanted = [[f"/{name}" for name in ["usr/bin/git", *sorted(NAMES)]]]
        self.assertEqual(links(f"{stack}/l0.links"), wanted)
        self.assertEqual(links(f"{stack}/shown.links"), wanted)
        words = [f"{stack}/l0.json", "--blobs", f"{stack}/blobs", "--config", f"{stack}/config.json", "--out"]
        self.require_done(call("pack", *words, out))
        self.assertEqual(linked_in(out), {name: "usr/bin/git" for name in NAMES})
        self.assertLess(os.path.getsize(out), 1.3 * len(GIT))
        self.require_done(call("unpack", out, "--out", self.path("again")))
        for name in ("l0.json", "l0.links"):
            with open(f"{stack}/{name}", "rb") as one, open(self.path("again", name), "rb") as other:
                self.assertEqual(one.read(), other.read())

    def test_a_later_entry_ends_a_link(self) -> None:
        layer = [
            member("a", b"1"), member("b", kind=LINK, target="a"), member("c", kind=LINK, target="b"),
            member("a", b"1"), member("d", b"2"), member("e", kind=LINK, target="d"), member("e/f", b"x"),
        ]
        stack = self.path("stack")
        self.require_done(call("unpack", self.image(layer[:-1]), "--out", stack))
        self.assertEqual(links(f"{stack}/l0.links"), [["/b", "/c"], ["/d", "/e"]])

    def test_what_the_layers_show(self) -> None:
        lower = [folder("d"), *(member(name, b"1") if name == "a" else member(name, kind=LINK, target="a")
                                for name in ("a", "b", "c", "d/e", "d/f"))]
        opaque = [folder("d"), member("d/.wh..wh..opq")]
        upper = [member("b", b"1"), member(".wh.c"), *opaque, member("g", kind=LINK, target="a")]
        stack = self.path("stack")
        self.require_done(call("unpack", self.image(lower, upper), "--out", stack))
        self.assertEqual(links(f"{stack}/l1.links"), [["/a", "/b", "/c", "/d/e", "/d/f"]])
        self.assertEqual(links(f"{stack}/l0.links"), [])
        self.assertEqual(links(f"{stack}/shown.links"), [])

    def test_what_redirects_show(self) -> None:
        """Names of a directory that was moved, beside it, below it again, and to two places at once."""
        lower = [folder("./"), folder("d"), folder("d/e"), folder("k"), member("d/a", b"1"), member("k/a", b"1")] + [
            member(name, kind=LINK, target="d/a") for name in ("d/b", "d/e/c", "z")
        ] + [member("k/b", kind=LINK, target="k/a")]
        for upper, shown in (
            ([folder("n", pax={REDIRECT: "/d"}), member(".wh.d")], [["/k/a", "/k/b"], ["/n/a", "/n/b", "/n/e/c", "/z"]]),
            ([folder("n", pax={REDIRECT: "d"}), member(".wh.d"), folder("n/x", pax={REDIRECT: "e"}), member("n/.wh.e")],
             [["/k/a", "/k/b"], ["/n/a", "/n/b", "/n/x/c", "/z"]]),
            ([folder("d", pax={REDIRECT: "/k"})], [["/d/a", "/d/b", "/k/a", "/k/b"]]),
            ([folder("d", pax={REDIRECT: "/d/e"}), folder("k", pax={REDIRECT: "nowhere"})], [["/d/c", "/z"]]),
            ([folder("d"), folder("d/e", pax={REDIRECT: "/d"})],
             [["/d/a", "/d/b", "/d/e/a", "/d/e/b", "/d/e/e/c", "/z"], ["/k/a", "/k/b"]]),
            ([folder("n", pax={REDIRECT: "/k"}), folder("o", pax={REDIRECT: "/k"}), member(".wh.k")],
             [["/d/a", "/d/b", "/d/e/c", "/z"], ["/n/a", "/n/b", "/o/a", "/o/b"]]),
        ):
            self.empty()
            stack = self.path("stack")
            self.require_done(call("unpack", self.image(lower, upper), "--out", stack, "--overlay-marks"))
            with self.subTest(shown=shown):
                self.assertEqual(links(f"{stack}/shown.links"), shown)

    def test_files_of_links_that_are_not_taken(self) -> None:
        """Each is reported with its reason, and changes nothing; one that is named must be good."""
        three = [member("a", b"1"), member("b", b"1"), member("c", b"1", mode=0o600), folder("d"), member(".wh.w")]
        stack, given = self.path("stack"), self.path("given.links")
        self.require_done(call("unpack", self.image(three), "--out", stack))
        words = ["pack", f"{stack}/l0.json", "--blobs", f"{stack}/blobs", "--config", f"{stack}/config.json", "--out"]
        os.unlink(f"{stack}/l0.links")
        self.require_done(call(*words, self.path("plain.tar")))
        plain = self.read("plain.tar")
        digest = hashlib.sha256(self.read("stack", "l0.json")).hexdigest()
        own, other = (f'{{"layer-links":1,"manifest":"{each}","names":' for each in (digest, "0" * 64))
        none, strange, absent = '{"layer-links":1,"names":', "it isn't as `layers` writes it", "1 of its names is not in"
        unfit = "1 is not of one file"
        for text, reason in (
            ("", strange), ("{", strange), ("[]", strange), (own, strange), (own + "{", strange), (own + "{}", strange),
            (own + "{}}", strange), (own + "{}}\nx", strange), (own + "{ }}\n", strange),
            (own.replace("links\":1", "links\":2") + "{}}\n", strange),
            (other + '{"/a":1,"/b":1}}\n', "it is of another text of the manifest"),
            (none + '{"/a":1,"/b":1}}\n', "it isn't of this sort"),
            (own + '{"/a":1,"/b":1,}}\n', strange), (own + '{"/a":1,"/b":0}}\n', strange),
            (own + '{"/a":1,"/b":-1}}\n', strange), (own + '{"/a":1,"/b":1e1}}\n', strange),
            (own + '{"/a":1,"/b":"1"}}\n', strange), (own + '{"/a":1,"b":1}}\n', strange),
            (own + '{"/b":1,"/a":1}}\n', strange), (own + '{"/a":1,"/a":1}}\n', strange),
            (own + '{"/a":1,"/b\\ud800":1}}\n', strange), (own + '{"/a":1,"/b\n":1}}\n', strange),
            (own + '{"/a":1,"/' + "b" * 200_000, strange), (own + '{"/a":1,"/b":1,"/b/x":1}}\n', absent),
            (own + '{"/a":1,"/b":1,"/x":1}}\n', absent), (own + '{"/":1,"/a":1,"/b":1}}\n', unfit),
            (own + '{"/a":1,"/b":1,"/c":1}}\n', unfit), (own + '{"/a":1,"/d":1}}\n', unfit),
            (own + '{"/a":1,"/w":1}}\n', unfit),
        ):
            with self.subTest(text=text[-40:]):
                with open(f"{stack}/l0.links", "w", encoding="utf-8") as file:
                    file.write(text)
                result = call(*words, self.path("out.tar"))
                self.assertEqual((result[0], result[2].count("\n")), (0, 1), result[2])
                self.assertIn(f"layers: {stack}/l0.links: not taken: ", result[2])
                self.assertIn(reason, result[2])
                self.assertEqual(self.read("out.tar"), plain)
        os.unlink(f"{stack}/l0.links")
        os.mkfifo(f"{stack}/l0.links")
        self.assertIn("it is no regular file", call(*words, self.path("out.tar"))[2])
        os.unlink(f"{stack}/l0.links")
        for text, linked in (
            (none + '{"/":1,"/a":1,"/b":1,"/c":1,"/d":1,"/missing":1,"/w":1}}\n', {"b": "a"}),
            (none + '{"/a":1,"/b":2,"/c":2}}\n', {}), (none + "{}}\n", {}),
        ):
            with open(given, "w", encoding="utf-8") as file:
                file.write(text)
            self.require_done(call(*words, self.path("out.tar"), "--links", given))
            self.assertEqual(linked_in(self.path("out.tar")), linked)
        for text in ("", own + '{"/a":1,"/b":1}}\n'):
            with open(given, "w", encoding="utf-8") as file:
                file.write(text)
            self.require_fault(call(*words, self.path("no.tar"), "--links", given), 3, f"cannot read {given}: it isn't ")
        os.truncate(given, 268_435_457)
        self.require_fault(call(*words, self.path("no.tar"), "--links", given), 3, "it has over 268,435,456 bytes")
        os.unlink(given)
        self.require_fault(call(*words, self.path("no.tar"), "--links", given), 3, f"cannot read {given}: No such")

    def read(self, *names: str) -> bytes:
        """The bytes of a file."""
        with open(self.path(*names), "rb") as file:
            return file.read()

    def test_memory(self) -> None:
        """Names of 40 MB that are one file, and as many in a file of links that the layer hasn't."""
        way = "/".join(["w" * 250] * 15)
        names = [f"{way}/{number:0200}" for number in range(10_000)]
        others = (member(name, kind=LINK, target=names[0]) for name in names[1:])
        members = (info.tobuf(tarfile.GNU_FORMAT) for info, _ in (member(names[0]), *others))
        write_layout(self.path("image"), [packed(b"".join(members))])
        self.bounded("unpack", self.path("image"), "--out", self.path("stack"))
        self.assertGreater(os.path.getsize(self.path("stack", "shown.links")), 39_000_000)
        self.bounded(
            "pack", str(ROOT_LAYER), "--blobs", self.folder, "--links", self.path("stack", "shown.links"),
            "--out", self.path("out.tar"),
        )

    def bounded(self, *words: str) -> None:
        """The command ends well in little memory and time."""
        def limit() -> None:
            resource.setrlimit(resource.RLIMIT_DATA, (MEMORY, MEMORY))
            resource.setrlimit(resource.RLIMIT_CPU, (SECONDS, SECONDS))

        command = [sys.executable, "-B", str(COMMAND), *words]
        result = subprocess.run(command, capture_output=True, text=True, check=False, preexec_fn=limit)
        self.assertEqual(result.returncode, 0, result.stderr[-500:])

    def test_flatten(self) -> None:
        """Of git's commands one is written anew, one changed, one removed; the others are one file again."""
        if not program_words():
            self.skipTest("needs the built program")
        upper = [
            folder("usr/lib/git-core"), member(NAMES[0], GIT, mode=0o755), member(NAMES[1], GIT, mode=0o700),
            member(f"usr/lib/git-core/.wh.{os.path.basename(NAMES[2])}"), member("usr/one", b"1"),
            member("usr/two", kind=LINK, target="usr/one"),
        ]
        image = self.image(self.git_core(), upper)
        for layers, copies in ((1, 3), (2, 4)):
            out = self.path(f"flat{layers}.tar")
            self.require_done(call("flatten", image, "--out", out, "--layers", layers))
            wanted = {name: "usr/bin/git" for name in NAMES[3:]} | {"usr/two": "usr/one"}
            if layers == 2:
                wanted |= {name: "usr/bin/git" for name in NAMES[:3]}
            self.assertEqual(linked_in(out), wanted)
            self.assertLess(os.path.getsize(out), (copies + 0.3) * len(GIT))
        out, given = self.path("flat1.tar"), self.read("flat1.tar")
        os.unlink(out)
        script = call("flatten", image, "--out", out, "--dry-run")[1]
        subprocess.run(["sh"], input=script, env={**os.environ, "TMPDIR": self.folder}, text=True, check=True,
                       stdout=subprocess.DEVNULL, stderr=subprocess.DEVNULL)
        self.assertTrue(self.read(out) == given)

    def test_flatten_what_was_moved(self) -> None:
        """A directory with links is moved by a middle layer; `deref` and `merge` unfold it."""
        if not program_words():
            self.skipTest("needs the built program")
        lower = [folder("./"), folder("d"), member("d/a", b"1")] + [
            member(name, kind=LINK, target="d/a") for name in ("d/b", "x")
        ]
        middle, upper = [folder("n", pax={REDIRECT: "/d"}), member(".wh.d")], [member("n/c", b"1")]
        image = self.image(lower, middle, upper)
        for layers in (1, 2):
            out = self.path(f"flat{layers}.tar")
            self.require_done(call("flatten", image, "--out", out, "--overlay-marks", "--layers", layers))
            wanted = {"n/b": "n/a", "x": "n/a"} if layers == 1 else {"n/b": "n/a", "d/b": "d/a", "x": "d/a"}
            self.assertEqual(linked_in(out), wanted)

    def test_random_images(self) -> None:
        """What umoci unpacks of images with links, and of their flat forms: equal trees, and the same names one file."""
        reason = why_no_trusted(self.folder) or (None if shutil.which("umoci") else "needs umoci")
        if reason or not program_words():
            self.skipTest(reason or "needs the built program")
        linked = 0
        for number in range(RANDOM_IMAGES):
            pick = random.Random(number)
            shutil.rmtree(self.path("image"), ignore_errors=True)
            image = self.image(*(random_layer(pick) for _ in range(pick.randint(2, 5))))
            named(image)
            left = pick.randint(1, 3)
            self.require_done(call("flatten", image, "--out", f"oci:{self.path('flat')}:x", "--layers", left))
            given, flat = self.unpacked("image"), self.unpacked("flat")
            self.assertEqual(flat, given, number)
            linked += len(flat[1])
        self.assertGreater(linked, RANDOM_IMAGES)

    def unpacked(self, image: str) -> tuple[str, list[str]]:
        """The tree that umoci makes of an image, and the names in it that are one file; the tree is taken away."""
        bundle = self.path("bundle")
        subprocess.run(["umoci", "unpack", "--image", f"{self.path(image)}:x", bundle], check=True)
        status, printed, messages = call("mounted", f"{bundle}/rootfs")
        self.assertEqual(status, 0, messages)
        names = linked_names(f"{bundle}/rootfs")
        shutil.rmtree(bundle)
        if image != "image":
            shutil.rmtree(self.path(image))
        return printed, names

    def test_folders(self) -> None:
        layer, one, two = self.path("layer"), self.path("one.json"), self.path("two.json")
        os.makedirs(f"{layer}/d")
        with open(f"{layer}/d/a", "wb") as file:
            file.write(b"1")
        os.link(f"{layer}/d/a", f"{layer}/b")
        os.symlink("x", f"{layer}/s")
        os.link(f"{layer}/s", f"{layer}/d/s", follow_symlinks=False)
        blobs = self.path("blobs")
        result = call("scan", layer, "--out", one, "--blobs", blobs)
        if result[0] == 3 and "need" in result[2]:
            self.skipTest(result[2])
        self.require_done(result)
        self.assertEqual(links(self.path("one.links")), [["/b", "/d/a"], ["/d/s", "/s"]])
        self.require_done(call("build", one, "--blobs", blobs, "--out", self.path("built")))
        self.assertTrue(os.path.samefile(self.path("built", "b"), self.path("built", "d", "a")))
        self.require_done(call("scan", self.path("built"), "--out", two, "--blobs", blobs))
        self.assertEqual(links(self.path("two.links")), links(self.path("one.links")))
        os.unlink(f"{layer}/b")
        shutil.copy2(f"{layer}/d/a", f"{layer}/b")
        self.require_done(call("scan", layer, "--out", one, "--blobs", blobs))
        self.assertEqual(links(self.path("one.links")), [["/d/s", "/s"]])


if __name__ == "__main__":
    unittest.main()
