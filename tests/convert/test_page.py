"""The page of `sizes`: its text, and what a browser makes of it."""

import base64
import hashlib
import html
import itertools
import json
import os
import re
import shutil
import tempfile
import unittest
import zlib
from collections import Counter
from collections.abc import Iterator, Mapping
from typing import Any

from chromium import Browser, why_none
from images import archive, folder, member
from plain_stacks import PlainStack, random_stack
from support import call, program_words, run
from test_sizes import SizesTest, StacksTest

from convert.common.amounts import size_text
from convert.model.entries import DIRECTORY, FILE, Entry, named
from convert.model.merged_tree import LayerFile
from convert.sizes.layer_sizes import LayerSizes, Sizes, sizes_of
from convert.sizes.page.markup import PATH, Listing
from convert.sizes.page.tables import layer_table
from convert.sizes.page.tree import columns_of, packed
from convert.sizes.page.write import Subject, write_page
from convert.sizes.texts import Origin
from convert.sizes.waste import waste_of

_EVIL = '<img src=x onerror="document.title=1">'
_SCRIPT = "<script>alert(1)<"  # with the slash of its end a name can't have
_TURNED = "gpj.\u202eexe"
_LAYERS = [
    [folder("usr"), folder("usr/lib"), member("usr/lib/big", b"b" * 40_000), member("usr/tool", b"t" * 9_000),
     member(_EVIL, b"e" * 12_000), member("usr/gone", b"g" * 8_000),
     member("usr/moved", b"m" * 6_000)],
    [folder("usr"), member("usr/.wh.gone"), folder(_SCRIPT), member(f"{_SCRIPT}/{_TURNED}", b"x" * 5_000),
     member("usr/again", b"t" * 9_000)],
    [folder("opt"), member("opt/new", b"n" * 20_000), member(f".wh.{_EVIL}"), folder("usr"), member("usr/.wh.moved"),
     member("opt/moved", b"m" * 6_000)],
    [member(_EVIL, b"f" * 11_000), folder("opt"), member("opt/new", b"N" * 21_000)],
]
_MADE = "RUN echo '</script><b>' && true"
_STACKS = 60
_MANY = 100_000


class PageTest(SizesTest):
    """A test with a page of an image whose names are markup."""

    def setUp(self) -> None:
        super().setUp()
        self.put("image", [archive(layer) for layer in _LAYERS], [_MADE] * len(_LAYERS))
        self.page = self.path("page.html")
        self.require_done(call("sizes", self.path("image"), "--html", self.page))


class Text(PageTest):
    """What is in the file."""

    def setUp(self) -> None:
        super().setUp()
        with open(self.page, encoding="utf-8") as file:
            self.text = file.read()

    def test_names_are_no_markup(self) -> None:
        self.assertEqual(re.findall(r"<(?:img|b)\b", self.text), [])
        self.assertEqual(self.text.count("<script"), 2)
        self.assertEqual(self.text.count("</script"), 2)
        self.assertIn(f"/{html.escape(_EVIL)}", self.text)
        self.assertNotIn("\u202e", self.text)
        data = self.text.split('id="data">', 1)[1].split("</script>", 1)[0]
        value = json.loads(zlib.decompress(base64.b64decode(data)))
        self.assertLessEqual({_EVIL, _SCRIPT, "gpj.\\xe2\\x80\\xaeexe"}, set(value["names"]))

    def test_its_policy_names_its_own_parts_alone(self) -> None:
        policy = re.search(r'Content-Security-Policy" content="([^"]*)"', self.text)
        assert policy is not None
        own = {}
        for kind in ("script", "style"):
            text = self.text.rpartition(f"<{kind}>")[2].partition(f"</{kind}>")[0]
            own[kind] = "sha256-" + base64.b64encode(hashlib.sha256(text.encode()).digest()).decode()
        self.assertEqual(
            policy[1],
            f"default-src 'none'; script-src '{own['script']}'; style-src '{own['style']}'; "
            "base-uri 'none'; form-action 'none'",
        )
        self.assertNotRegex(self.text.partition("<body>")[2].partition("<script>")[0], r'\sstyle=|\son[a-z]+="|src="')

    def test_advice(self) -> None:
        """What `--advice` prints is in the page too."""
        given = json.loads(call("sizes", self.path("image"), "--advice", "--json")[1])["advice"]
        section = self.text.partition('id="advice"')[2].partition("</section>")[0]
        rows = [re.findall(r"<td[^>]*>([^<]*)", row) for row in section.split("<tr>")[1:]]
        wanted = [[html.escape(one["what"]), html.escape(one["remedy"])] for one in given]
        self.assertEqual([row[3:5] for row in rows if row], wanted)
        self.assertLessEqual({"copied", "removed", "moved"}, {one["rule"] for one in given})

    def test_small_layers_have_a_bar(self) -> None:
        layers = [LayerSizes(bytes=5, shown=5), LayerSizes(bytes=1 << 40, shown=1 << 40)]
        drawn = "".join(layer_table(Sizes(layers), [Origin()] * 2))
        widths = re.findall(r'class="shown" x="0.0%" y="1" width="([\d.]+)%"', drawn)
        self.assertEqual(widths, ["0.4", "100.0"])

    def test_standard_output(self) -> None:
        """The page goes there in place of the table."""
        if not program_words():
            self.skipTest("the program isn't built")
        result = run("sizes", self.path("image"), "--html", "-")
        self.assertEqual((result.returncode, result.stdout), (0, self.text), result.stderr)


class Lists(unittest.TestCase):
    """A list without the script: 20 rows, the rest to open, and what there is no room for in one line."""

    def test_rows(self) -> None:
        listing = Listing[int]((PATH,), lambda size: size, lambda size: (f"/{size}<b>",), 30)
        first, _, more = "".join(listing.markup(range(40, 0, -1))).partition("<details")
        self.assertEqual(re.findall(r'<td class="path">(.*?)</tr>', first), [f"/{size}&lt;b&gt;" for size in range(40, 20, -1)])
        self.assertEqual(more.count('<td class="path">'), 10)
        self.assertIn("<summary>10 more</summary>", more)
        self.assertIn("and 10 smaller, 55 in all", more)
        self.assertEqual("".join(listing.markup([])), "<p>Nothing</p>\n")

    def test_long_texts(self) -> None:
        """Texts of over 500,000 bytes aren't listed, however few rows there are."""
        listing = Listing[int]((PATH,), lambda size: size, lambda size: ("é" * 100_000,))
        self.assertIn("and 3 smaller, 6 in all", "".join(listing.markup([5, 4, 3, 2, 1])))


class Columns(StacksTest):
    """What the script reads, of random stacks: by layers its sums are the table's, however little room there is."""

    def test_sums(self) -> None:
        for seed in range(_STACKS):
            layers, data_layers = random_stack(seed)
            paths = self.write(layers)
            with open(self.path("report"), "w", encoding="ascii") as file:
                file.writelines(PlainStack(layers, data_layers).report())
            sizes = sizes_of(paths, data_layers, self.path("report"))
            whole = columns_of(sizes)
            with self.subTest(seed=seed):
                for number, own in enumerate(sizes.layers):
                    self.assertEqual(_sums(whole, number), (own.shown, own.hidden, own.repeated))
                for room in (0, 200, 400, 800):
                    small = columns_of(sizes, room)
                    self.assertEqual(_facts(small), _facts(whole))
                    self.assertLessEqual(small["names"].count(""), len(small["names"]) // 2 + 1)
                    self.assertEqual(small["paths"], len(whole["names"]))
                    self.assertLessEqual(_by_directory(small).items(), _by_directory(whole).items())
                shown = sum(bytes_ for kind, bytes_ in zip(whole["kinds"], whole["bytes"]) if kind in "sp")
                self.assertEqual(shown, sizes.sums.shown)


def _sums(columns: Mapping[str, Any], layer: int) -> tuple[int, ...]:
    """The bytes of a layer that are shown, hidden and repeated."""
    rows = [(kind, size) for kind, own, size in zip(columns["kinds"], columns["layers"], columns["bytes"]) if own == layer]
    return tuple(sum(size for kind, size in rows if kind in kinds) for kinds in ("sp", "dou", "r"))


def _by_directory(columns: Mapping[str, Any]) -> dict[str, int]:
    """The bytes in each directory."""
    paths, way = [], list[str]()
    for name, depth in zip(columns["names"], columns["depths"]):
        assert depth <= len(way), (name, depth, way)
        way[depth:] = [name]
        paths.append("/".join(way))
    found = Counter[str]()
    for node, size in zip(itertools.accumulate(columns["steps"]), columns["bytes"]):
        for above in [*itertools.accumulate(paths[node].split("/"), lambda one, name: f"{one}/{name}")][:-1]:
            found[above] += size
    return dict(found)


def _facts(columns: Mapping[str, Any]) -> Counter[tuple[object, ...]]:
    """The bytes and files of all that is alike."""
    found = Counter[tuple[object, ...]]()
    rows = zip(*(columns[name] for name in ("kinds", "changes", "layers", "by", "bytes", "files")))
    for kind, change, layer, by, size, files in rows:
        found[kind, change, layer, by, "bytes"] += size
        found[kind, change, layer, by, "files"] += files
    return found


def many_files(count: int) -> Sizes:
    """The sizes of one layer of a thousand files in each directory."""
    sizes = Sizes([LayerSizes()])

    def leaf_of(entry: Entry, _: object) -> LayerFile:
        file = LayerFile(0, entry.path, entry.size, bytes.fromhex(str(entry.blob)), uses=1)
        sizes.shown.append(file)
        return file

    sizes.tree.cover(named(_many_entries(count)), False, 0, leaf_of)
    for own in (sizes.layers[0], sizes.sums, sizes.merged):
        own.files = count
        own.bytes = own.shown = sum(file.size for file in sizes.shown)
    return sizes


def _many_entries(count: int) -> Iterator[Entry]:
    yield Entry("/", DIRECTORY, 0o755)
    for number in range(count // 1_000):
        inner = f"/usr-share-{number:03}"
        yield Entry(inner, DIRECTORY, 0o755)
        for file in range(1_000):
            size = (file * 7_919 + number * 104_729) % 30_011
            digest = hashlib.sha256(f"{number} {file}".encode()).hexdigest()
            yield Entry(f"{inner}/{file:03}-{digest[:8]}.py", FILE, 0o644, size=size + 1, blob=digest)


class InBrowser(PageTest):
    """What Chromium makes of it."""

    browser: Browser

    @classmethod
    def setUpClass(cls) -> None:
        reason = why_none()
        if reason:
            raise unittest.SkipTest(reason)
        profile = tempfile.mkdtemp(prefix="layers-test-chromium-")
        cls.addClassCleanup(shutil.rmtree, profile, ignore_errors=True)
        cls.browser = Browser(profile)
        cls.addClassCleanup(cls.browser.close)

    def setUp(self) -> None:
        super().setUp()
        self.browser.look(1_200, 900, "light")
        self.browser.requests.clear()

    def value(self, expression: str) -> Any:
        """The value of an expression in the page."""
        return self.browser.value(expression)

    def way(self) -> str:
        """The directory that the map shows."""
        return str(self.value("document.querySelector('.way').textContent"))

    def view(self) -> str:
        """The view that is chosen."""
        return str(self.value("document.querySelector('.views [aria-current]').dataset.view"))

    def views(self) -> dict[str, int]:
        """The bytes of each view."""
        return {name: int(size) for name, size in self.value(
            "[...document.querySelectorAll('.views [data-view]')].map(e => [e.dataset.view, e.dataset.bytes])"
        )}

    def rows(self, section: str) -> list[list[str]]:
        """The fields of a list's first rows."""
        found: list[list[str]] = self.value(
            f"[...document.querySelector('#{section} table').tBodies[0].rows].map(r => [...r.cells].map(c => c.textContent))"
        )
        return found

    def click(self, query: str) -> None:
        """Clicks on an element at its name."""
        x, y = self.value(
            f"(e => {{ e.scrollIntoView({{block: 'center'}}); const r = e.getBoundingClientRect(); "
            f"return [r.x + Math.min(9, r.width / 2), r.y + Math.min(9, r.height / 2)]; }})({query})"
        )
        self.browser.click(x, y)

    def cell(self, name: str) -> str:
        """The map's cell of a directory."""
        return f"[...document.querySelectorAll('.map button')].find(e => e.textContent.startsWith({json.dumps(name)}))"

    def layer(self, number: int) -> str:
        """The link of a layer."""
        return f"document.querySelector('tr[data-layer=\"{number}\"] a')"

    def type(self, text: str) -> None:
        """Searches for a text."""
        self.value("document.getElementById('search').select()")
        self.browser.call("Input.insertText", text=text)
        self.browser.settle()

    def tearDown(self) -> None:
        self.assertEqual(self.browser.errors, [])
        self.assertEqual({url.partition("?")[0].partition("#")[0] for url in self.browser.requests}, {f"file://{self.page}"})
        super().tearDown()

    def test_names_are_text(self) -> None:
        self.browser.open(f"{self.page}#view=all")
        self.assertIn(f"/{_EVIL}", self.value("document.querySelector('#files').textContent"))
        self.assertIn(_EVIL, self.value("document.querySelector('.map').textContent"))
        self.assertIn(_MADE, self.value("document.querySelector('.layers').textContent"))
        self.assertEqual(self.value("document.querySelectorAll('img, b, iframe, form').length"), 0)
        self.assertEqual(self.value("document.scripts.length"), 2)
        self.assertTrue(self.value("document.title").startswith("Sizes: "))
        self.click(self.cell(_SCRIPT))
        self.assertEqual(self.way(), f"/{_SCRIPT}")
        self.assertEqual(self.value("document.querySelector('.map').textContent"), "gpj.\\xe2\\x80\\xaeexe 4.9K")

    def test_its_sums_are_those_of_the_table(self) -> None:
        """For all layers, and for each that is clicked on: bytes in all, shown and wasted; and what a layer removes."""
        given = json.loads(call("sizes", self.path("image"), "--json")[1])
        self.browser.open(self.page)
        hidden = Counter({one["by"]: 0 for one in given["not-shown"]})
        for one in given["not-shown"]:
            hidden[one["by"]] += one["bytes"] * (one["why"] == "hidden")
        for number, own in [(None, given["sums"]), *enumerate(given["layers"])]:
            if number is not None:
                self.click(self.layer(number))
            views = self.views()
            self.assertEqual(views["all"], own["bytes"])
            self.assertEqual((views["shown"], views["wasted"]), (own["shown"], own["hidden"] + own["repeated"]))
            if number is not None:
                self.assertEqual(views["added"] + views["changed"], own["bytes"])
                self.assertEqual(views["removed"], hidden[number])
        drawn = self.value("[...document.querySelectorAll('.layers tbody tr')].map(r => r.cells[3].textContent)")
        self.assertEqual(drawn, [size_text(own["bytes"]) for own in given["layers"]])

    def test_the_lists_are_those_without_the_script(self) -> None:
        lists = ("by-directory", "by-command", "files")
        self.browser.open(f"{self.page}?plain", scripts=False)
        plain = [self.rows(name) for name in lists]
        seen = self.value("document.body.innerText")
        for text in (_EVIL, _MADE, "/usr/gone", "are wasted", "need scripts", "linux/amd64", "sha256:"):
            self.assertIn(text, seen)
        self.assertFalse(self.value("document.getElementById('explorer').checkVisibility()"))
        self.browser.open(self.page)
        self.assertEqual([self.rows(name) for name in lists], plain)
        self.assertEqual(plain[2][0], ["20K", "1", "replaced in 4/4", "/opt/new"])

    def test_layers(self) -> None:
        """A click on a layer narrows map and lists to it; another one, or Escape, leads back."""
        self.browser.open(self.page)
        self.assertEqual(self.view(), "wasted")
        self.value("document.querySelector('#by-command a').focus()")
        self.browser.press("Enter")
        self.assertEqual(self.value("document.activeElement.dataset.view"), "all")
        self.browser.press("Escape")
        self.click(self.layer(2))
        self.assertEqual(self.value("location.hash"), "#layer=2")
        self.assertEqual(self.view(), "all")
        self.assertEqual({row[1] for row in self.rows("files")}, {"2"})
        self.click("document.querySelector('[data-view=removed]')")
        self.assertEqual(self.rows("files"), [["7.9K", "3", "removed in 2/4", "/usr/gone"]])
        self.click("document.querySelector('[data-view=added]')")
        self.assertEqual({row[3] for row in self.rows("files")}, {"/usr/again", f"/{_SCRIPT}/gpj.\\xe2\\x80\\xaeexe"})
        self.browser.press("Escape")
        self.assertEqual((self.value("location.hash"), self.view()), ("", "wasted"))
        self.value(f"{self.layer(0)}.focus()")
        self.browser.press("Enter")
        self.click("document.querySelector('[data-view=changed]')")
        self.assertEqual(self.rows("files"), [["21K", "0", "shown", "/opt/new"]])
        self.click("document.querySelector('[data-view=removed]')")
        self.assertEqual(self.rows("files"), [["20K", "1", "replaced in 4/4", "/opt/new"]])
        self.click(self.layer(0))
        self.assertEqual(self.value("location.hash"), "")

    def test_ways(self) -> None:
        """Through directories by clicks and keys, and there and back by the address."""
        self.browser.open(f"{self.page}#view=shown")
        self.assertEqual(self.way(), "/")
        self.click(self.cell("usr/"))
        self.assertEqual((self.way(), self.value("location.hash")), ("/usr", "#path=/usr&view=shown"))
        self.click("document.querySelector('.way a')")
        self.assertEqual(self.way(), "/")
        self.value("document.querySelector('.map button').focus()")
        self.browser.press("Enter")
        self.assertEqual(self.way(), "/usr")
        self.browser.press("Enter")
        self.assertEqual(self.way(), "/usr/lib")
        self.value("history.back()")
        self.browser.settle()
        self.assertEqual(self.way(), "/usr")
        self.browser.press("Escape")
        self.assertEqual(self.way(), "/")
        self.browser.press("ArrowRight")
        self.assertTrue(self.value("document.activeElement.textContent").startswith("opt/ "))
        for number, (address, way, view) in enumerate((
            ("layer=3&path=/usr/lib", "/usr/lib", "all"), ("path=/usr/none", "/usr", "wasted"),
            ("layer=9&view=x", "/", "wasted"),
            ("view=added", "/", "wasted"), ("path=/usr/tool&view=all", "/usr/tool", "all"), ("%", "/", "wasted"),
        )):
            self.browser.open(f"{self.page}?{number}#{address}")
            self.assertEqual((self.way(), self.view()), (way, view), address)

    def test_search(self) -> None:
        """All paths: files of every layer, and what has no bytes."""
        self.browser.open(self.page)
        links = "[...document.querySelectorAll('#advice a')]"
        self.click(f"{links}.find(e => e.textContent === {json.dumps('/' + _EVIL)})")
        self.assertEqual((self.way(), self.view()), (f"/{_EVIL}", "wasted"))
        self.browser.press("Escape")
        self.type("GON")
        self.assertEqual(self.rows("files"), [["7.9K", "3", "removed in 2/4", "/usr/gone"]])
        self.type("/usr")
        found = self.value("document.querySelector('.found').textContent")
        self.assertEqual(found, "5 files, 71K; 2 paths without bytes of their own")
        self.assertEqual([row[3] for row in self.rows("files")][-2:], ["/usr/", "/usr/lib/"])
        self.assertEqual(self.value("location.hash"), "#find=/usr")
        self.type("<img")
        self.assertEqual(sum(size for name, size in self.views().items() if name == "all"), 23_000)

    def test_nothing_wasted(self) -> None:
        """A page of a clean image begins with what is shown."""
        self.require_done(call("sizes", self.put("clean", [archive(_LAYERS[0])], [_MADE]), "--html", self.page))
        self.browser.open(self.page)
        self.assertEqual((self.view(), self.views()["wasted"]), ("shown", 0))
        self.assertEqual(self.rows("by-directory")[0], ["40K", "1", "/usr/lib/"])
        self.click("document.querySelector('[data-view=wasted]')")
        self.assertEqual(self.rows("files"), [])
        self.assertEqual(self.value("document.querySelector('.map').textContent"), "Nothing to draw")

    def test_it_fits(self) -> None:
        """Light and dark, wide and narrow: nothing sticks out, and duplicates are told by more than their colour."""
        self.browser.open(f"{self.page}#view=all")
        for scheme, ground in (("light", "rgb(255, 255, 255)"), ("dark", "rgb(22, 24, 27)")):
            for width in (1_600, 1_000, 420, 320):
                self.browser.look(width, 900, scheme)
                self.assertEqual(self.value("getComputedStyle(document.body).backgroundColor"), ground)
                self.assertEqual(self.value("document.documentElement.scrollWidth"), width)
                sticks_out = (
                    "[...document.querySelectorAll('.map > *, td')].filter(e => { const r = e.getBoundingClientRect(), "
                    "p = (e.closest('.map') || document.body).getBoundingClientRect(); "
                    "return r.width && (r.right > p.right + 1 || r.left < p.left - 1); }).map(e => e.textContent)"
                )
                self.assertEqual(self.value(sticks_out), [])
            looks = {name: self.value(
                f"(s => [s.backgroundImage, s.borderStyle])(getComputedStyle(document.querySelector('.cell.{name}')))"
            ) for name in ("shown", "repeated", "hidden")}
            self.assertEqual(looks["shown"], ["none", "solid"])
            self.assertIn("gradient", looks["repeated"][0])
            self.assertEqual(looks["hidden"], ["none", "dashed"])
            self.assertTrue(self.browser.picture().startswith(b"\x89PNG"))

    def test_many_files(self) -> None:
        """100,000 files: how long the page is, how soon it is drawn, and the rows that are asked for."""
        sizes = many_files(_MANY)
        self.assertLess(len(packed(sizes, [Origin()])), (1 << 20) + 10 * _MANY)
        write_page(self.page, Subject("many", [Origin()], {}), sizes, waste_of(sizes, 0), [])
        times = []
        for number in range(3):
            self.browser.open(f"{self.page}?{number}")
            self.value("new Promise(done => { const see = () => performance.getEntriesByName('drawn').length ? done() : "
                       "setTimeout(see, 10); see(); })")
            times.append(self.value("performance.getEntriesByName('drawn')[0].startTime"))
        self.assertLess(min(times), 1_500)
        self.assertEqual((self.views()["shown"], len(self.rows("files"))), (sizes.sums.bytes, 20))
        self.click("document.querySelector('#files .more')")
        self.assertEqual(len(self.rows("files")), 220)
        self.assertEqual(self.value("document.querySelectorAll('.cell').length"), _MANY // 1_000)


if __name__ == "__main__":
    unittest.main()
