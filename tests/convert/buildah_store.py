"""A stack of three layers by buildah, beside what `store` reads of it.

    unshare --mount --propagation private python3 buildah_store.py FOLDER

Prints as JSON the chain of the topmost layer, the folders that buildah mounts it from, what the kernel shows
of the mount, and what it shows of the folders that are built from the manifests of `store`.
"""

import contextlib
import glob
import json
import os
import shutil
import subprocess
import sys
from collections.abc import Iterator

from kernel_stacks import mount, mounted_overlay
from support import call

from convert.folder.stores import chain


class Store:
    """buildah's containers and images in folders of their own."""

    def __init__(self, folder: str) -> None:
        self._words = [
            "buildah", "--root", f"{folder}/root", "--runroot", f"{folder}/run", "--storage-driver", "overlay",
        ]

    def buildah(self, *words: str) -> str:
        """What buildah prints."""
        return subprocess.run(
            [*self._words, *words], check=True, stdout=subprocess.PIPE, text=True
        ).stdout.strip()

    @contextlib.contextmanager
    def mounted(self, name: str, base: str) -> Iterator[str]:
        """The mounted tree of a new container."""
        self.buildah("from", "--pull=never", "--name", name, base)
        yield self.buildah("mount", name)
        self.buildah("umount", name)


def make(store: Store) -> None:
    """Makes two images, one above the other."""
    with store.mounted("first", "scratch") as place:
        for name in ("etc/conf.d", "var/old"):
            os.makedirs(f"{place}/{name}")
        for name in ("etc/motd", "etc/conf.d/a", "var/old/file"):
            write(f"{place}/{name}")
    store.buildah("commit", "--quiet", "first", "one")
    with store.mounted("second", "one") as place:
        os.unlink(f"{place}/etc/motd")
        subprocess.run(["rm", "-r", f"{place}/etc/conf.d"], check=True)
        os.mkdir(f"{place}/etc/conf.d")
        write(f"{place}/etc/conf.d/b")
    store.buildah("commit", "--quiet", "second", "two")


def write(path: str) -> None:
    """Writes a file whose contents are its own name."""
    with open(path, "w", encoding="utf-8") as file:
        file.write(os.path.basename(path))


def folders_of_mount(place: str) -> list[str]:
    """The folders that an overlay is mounted from, the topmost first."""
    with open("/proc/self/mounts", encoding="utf-8") as mounts:
        fields = [line.split() for line in mounts]
    (options,) = [words[3] for words in fields if words[1] == place]
    named = dict(option.partition("=")[::2] for option in options.split(","))
    home = os.path.dirname(os.path.dirname(place))
    return [os.path.realpath(os.path.join(home, name)) for name in [named["upperdir"], *named["lowerdir"].split(":")]]


def shown(folder: str, top: str) -> str:
    """What the kernel shows of the folders that are built from the manifests of `store`."""
    stored, built = f"{folder}/stored", []
    done("store", top, "--out", stored)
    for number in range(len(glob.glob(f"{stored}/l*.json"))):
        built.append(f"{folder}/built{number}")
        done("build", f"{stored}/l{number}.json", "--blobs", f"{stored}/blobs", "--out", built[-1])
    os.mkdir(f"{folder}/again")
    with mounted_overlay(f"{folder}/again", built, [], "redirect_dir=follow,metacopy=on"):
        return done("mounted", f"{folder}/again")


def done(*words: str) -> str:
    """What the command prints, if it ends well."""
    status, printed, messages = call(*words)
    if status != 0:
        raise RuntimeError(f"{words}: {messages}")
    return printed


def main(folder: str) -> None:
    """Makes the store and prints what is read of it."""
    mount("tmpfs", folder, "mode=700,size=1g")
    store = Store(folder)
    make(store)
    with store.mounted("third", "two") as place:
        shutil.move(f"{place}/var/old", f"{place}/var/new")
        os.chmod(f"{place}/etc/conf.d/b", 0o600)
        top = os.path.dirname(place)
        messages = {"chain": chain(top), "mounted": folders_of_mount(place), "kernel": done("mounted", place)}
        messages["noted"] = call("store", top, "--out", f"{folder}/mounted", "--digests-only")[2]
    print(json.dumps(messages | {"shown": shown(folder, top)}))


if __name__ == "__main__":
    main(sys.argv[1])
