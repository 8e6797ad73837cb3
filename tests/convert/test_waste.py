"""`sizes` on waste: commands in short, the table on a terminal, and bases."""

import fcntl
import os
import pty
import re
import struct
import termios
import unittest
from unittest import mock

from images import archive, folder, member
from plain_stacks import PlainStack, random_stack
from support import call
from test_sizes import SizesTest, StacksTest

from convert import cli as command
from convert.sizes.history import short_command, steps_of
from convert.sizes.layer_sizes import sizes_of
from convert.sizes.limits import limit_of
from convert.sizes.waste import waste_of

_ROWS, _COLUMNS = 24, 80
_COLOUR = re.compile(r"\x1b\[\d+m")
_STACKS = 60
_COMMANDS = (
    ("/bin/sh -c #(nop) COPY file:92510215e4 in /opt/data.bin ", "COPY /opt/data.bin"),
    ("/bin/sh -c #(nop)  COPY --chown=33:33 dir:0a1b in /srv", "COPY /srv"),
    ("/bin/sh -c #(nop) ADD multi:0a1b in /etc/app/ ", "ADD /etc/app/"),
    ('/bin/sh -c #(nop)  CMD ["bash"]', 'CMD ["bash"]'),
    ("/bin/sh -c apt-get install -y curl", "RUN apt-get install -y curl"),
    ("|2 A=1 B=two words /bin/sh -c make", "RUN make"),
    ("/bin/bash -o pipefail -c curl x | tar x", "RUN curl x | tar x"),
    ("/bin/bash -euo pipefail -c make", "RUN make"),
    ("/bin/sh -c set -eux; \tapt-get update; \\\n\tapt-get install x", "RUN apt-get update; \\ apt-get install x"),
    ("RUN /bin/sh -c apt-get install -y curl # buildkit", "RUN apt-get install -y curl"),
    ("RUN |1 V=3 /bin/sh -c set -e && make install # buildkit", "RUN make install"),
    ("RUN make # from kaniko", "RUN make # from kaniko"),
    ("COPY data.bin /opt/data.bin # buildkit", "COPY /opt/data.bin"),
    ("COPY --chown=33:33 --link a b /srv/ # buildkit", "COPY /srv/"),
    ('COPY ["a b", "/srv/c d"]', 'COPY ["a b", "/srv/c d"]'),
    ("cmd /S /C dir", "RUN dir"),
    ("# debian.sh --arch 'amd64' out/ 'bookworm'", "# debian.sh --arch 'amd64' out/ 'bookworm'"),
    ("/bin/sh", "/bin/sh"),
    ("/usr/bin/shred /x", "/usr/bin/shred /x"),
    ("", ""),
)
_LIMITS = (
    ("10%", 10, 100, False), ("10%", 11, 100, True), ("0%", 0, 0, False), ("0.5 %", 6, 1_000, True),
    ("50MB", 50_000_000, 0, False), ("50MB", 50_000_001, 0, True), ("1KiB", 1_024, 0, False), ("1K", 1_025, 0, True),
    ("2GiB", 2 << 30, 0, False), ("7B", 8, 0, True), ("0", 1, 1, True),
)
_NO_LIMITS = ("", "%", "101%", "-1", "1.5M", "1KI", "1Ki", "iB", "1iB", "1 %%", "10 percent", "9" * 19)


class Words(unittest.TestCase):
    """Commands of Dockerfiles, their steps, and limits."""

    def test_commands(self) -> None:
        for text, short in _COMMANDS:
            self.assertEqual(short_command(text), short, text)

    def test_a_long_command_takes_no_long_time(self) -> None:
        for text in ("|1 " * 300_000, "set -e " * 200_000, "/" * 500_000, "COPY --a " * 200_000, "/sh -o a" * 100_000):
            short_command(text)

    def test_steps(self) -> None:
        history: list[object] = [{"created_by": "a"}, {"empty_layer": True}, {"comment": "c"}, {"created_by": 5}]
        steps = steps_of({"history": history}, 3)
        self.assertEqual([(str(step), step and step.made_by) for step in steps], [("1/4", "a"), ("3/4", "c"), ("4/4", None)])
        for other in (history[:2], None, "text", [*history, {}]):
            self.assertEqual(steps_of({"history": other}, 3), [None] * 3)

    def test_limits(self) -> None:
        for text, wasted, total, is_exceeded in _LIMITS:
            limit = limit_of(text)
            assert limit is not None, text
            self.assertEqual(limit.is_exceeded(wasted, total), is_exceeded, (text, wasted))
        for text in _NO_LIMITS:
            self.assertIsNone(limit_of(text), text)


class Numbers(StacksTest):
    """On random stacks: each byte that is wasted has one place and one cause."""

    def test_numbers(self) -> None:
        for seed in range(_STACKS):
            layers, data_layers = random_stack(seed)
            paths = self.write(layers)
            with open(self.path("report"), "w", encoding="ascii") as file:
                file.writelines(PlainStack(layers, data_layers).report())
            sizes = sizes_of(paths, data_layers, self.path("report"))
            with self.subTest(seed=seed):
                for base in range(len(layers) + 1):
                    waste, own = waste_of(sizes, base), sizes.layers[:len(layers) - base]
                    self.assertEqual(waste.bytes, sum(layer.hidden + layer.repeated for layer in own))
                    self.assertEqual(sum(it.bytes for it in waste.causes.values()), waste.bytes)
                    listed = sum(place.bytes for place in waste.places)
                    self.assertTrue(listed <= waste.bytes < listed + waste.bytes // 5 + 1, (listed, waste.bytes))


class OfImages(SizesTest):
    """What is printed of images."""

    def test_places(self) -> None:
        """Small files count for their directory, large ones by themselves, each for the layer that hid it."""
        lists = [member(f"var/lists/{number}", bytes([number]) * 1_000) for number in range(30)]
        first = [folder("var"), folder("var/lists"), *lists, member("big", b"b" * 40_000), member("conf", b"c" * 20_000)]
        second = [member(".wh.big"), member("conf", b"d" * 10), folder("var"), member("var/.wh.lists")]
        image = self.put("image", [archive(first), archive(second)], ["COPY a /", "RUN rm -r /big /var/lists"])
        printed = call("sizes", image)[1]
        for line in (
            "  40K      1  removed in 2/2   /big", "  30K     30  removed in 2/2   /var/lists/",
            "  20K      1  replaced in 2/2  /conf", "  69K     31  removed in 2/2   RUN rm -r /big /var/lists",
        ):
            self.assertIn(f"{line}\n", printed)
        self.assertTrue(printed.endswith("(99.9 %) are wasted; 40 KiB by /big, removed in step 2\n"), printed)

    def test_nothing_wasted(self) -> None:
        image = self.put("image", [archive([member("a", b"a")])], ["COPY a /"])
        self.assertTrue(call("sizes", image)[1].endswith("\nnothing of 1 bytes is wasted\n"))

    def test_bases(self) -> None:
        layers = [archive([member("a", b"a" * 100)]), archive([member("b", b"b" * 50)]), archive([member(".wh.a"), member("c", b"b" * 50)])]
        image = self.put("image", layers, ["COPY a", "COPY b", "RUN x"])
        base = self.put("base", layers[:2], ["COPY a", "COPY b"])
        other = self.put("other", [layers[0], layers[2]], ["COPY a", "COPY c"])
        for word, end in (
            ("0", "150 bytes of 200 bytes (75.0 %) are wasted; 100 bytes by /a, removed in step 3\n"),
            ("1", "50 bytes of 100 bytes over the base (50.0 %) are wasted; 50 bytes by /c, duplicate in step 3\n"),
            (base, "50 bytes of 50 bytes over the base (100.0 %) are wasted; 50 bytes by /c, duplicate in step 3\n"),
            (image, "nothing of 0 bytes over the base is wasted\n"),
        ):
            status, printed, messages = call("sizes", image, "--base", word)
            self.assertEqual((status, messages), (0, ""))
            self.assertTrue(printed.endswith(end), printed)
        self.assertEqual(call("sizes", image, "--base", base, "--max-waste", "50")[0], 0)
        self.assertEqual(call("sizes", image, "--base", base, "--max-waste", "49")[0], 1)
        self.require_fault(call("sizes", image, "--base", other), 2, "they part at layer 1 of the image")
        self.require_fault(call("sizes", base, "--base", image), 2, "it has 3 layers, and the image has 2")

    def test_widths(self) -> None:
        """No line is wider than what COLUMNS says, and what there is room for is there."""
        image = self.path("image")
        self.write_image()
        for columns, heads in (("", "LAYER STEP BYTES PACKED WASTED SHARE"), ("300", "SHOWN DELETED DUPLICATE FILES")):
            with mock.patch.dict(os.environ, COLUMNS=columns):
                printed = call("sizes", image)[1]
            self.assertLessEqual(max(map(len, printed.splitlines())), int(columns or 82))
            self.assertLessEqual(set(heads.split()), set(printed.splitlines()[0].split()))

    def test_the_last_screen(self) -> None:
        """On a terminal of 80 x 24 the verdict and the three worst lines of a Dockerfile of 80 steps are in sight."""
        layers, commands = [], []
        for step in range(0, 80, 2):
            name = f"{'long-name-' * 20}{step}"
            layers.append(archive([folder("srv"), member(f"srv/{name}", bytes([step]) * (9_000 + 9 * step))]))
            layers.append(archive([folder("srv"), member(f"srv/.wh.{name}")]))
            commands += [f"/bin/sh -c touch {name}", f"/bin/sh -c rm -rf /srv/{step}"]
        image = self.put("image", layers, commands)
        coloured, lines = self.on_terminal("xterm", "sizes", image), self.on_terminal("dumb", "sizes", image)
        self.assertNotEqual(coloured, lines)
        self.assertEqual([_COLOUR.sub("", line) for line in coloured], lines)
        self.assertEqual([line for line in lines[:-1] if len(line) > _COLUMNS], [])
        rows = [row for line in lines for row in re.findall(f".{{1,{_COLUMNS}}}", line) or [""]]
        screen = rows[1 - _ROWS:]
        for step in (78, 76, 74):
            line = rf" +9.\dK +1  removed in {step + 2}/80 +RUN rm -rf /srv/{step}"
            self.assertTrue(any(re.fullmatch(line, it) for it in screen[:-1]), (line, screen))
        self.assertRegex("".join(screen[-2:]), r"366 KiB \(100.0 %\) are wasted; 366 KiB by /srv/, by several commands$")

    def on_terminal(self, sort: str, *words: str) -> list[str]:
        """The lines that a command leaves on a terminal of some sort."""
        child, terminal = pty.fork()
        if child == 0:
            status = 70
            try:
                fcntl.ioctl(1, termios.TIOCSWINSZ, struct.pack("HHHH", _ROWS, _COLUMNS, 0, 0))
                for name in ("COLUMNS", "NO_COLOR"):
                    os.environ.pop(name, None)
                os.environ["TERM"] = sort
                status = command.main(list(words))
            finally:
                os._exit(status)
        with open(terminal, "rb", buffering=0) as file:
            text = b""
            while data := _read(file.fileno()):
                text += data
        self.assertEqual(os.waitstatus_to_exitcode(os.waitpid(child, 0)[1]), 0, text)
        return [line.rpartition("\r")[2] for line in text.decode().removesuffix("\r\n").split("\r\n")]


def _read(terminal: int) -> bytes:
    try:
        return os.read(terminal, 1 << 16)
    except OSError:  # nobody has its other side any more
        return b""


if __name__ == "__main__":
    unittest.main()
