#!/usr/bin/env python3
"""Spoils manifests in many ways, and compares what the program says of them with an independent reading.

Python 3.11, standard library. Each case is a small layer of odd names, kinds and attributes, of which mostly one thing
is spoilt: bytes, members, numbers, texts, digests, paths, the order of the entries. Some are only written in another
way, and are shown. They are of one version; a quarter of them lie under a sound layer of either. `show` by 1 and by 4
workers must give the same standard output, standard error and status as the other reading. A case depends only on the
version, the seed and its number.

The other reading is a command that takes the words of `show` (docs/FORMATS.md), reads the manifests, prints the report
or the line of the fault, and ends with the status, as that page says; as another build of the program does.

    python3 tests/differential/spoilt.py --program ./ovl_layers --oracle 'python3 reading.py'
"""
import collections
import concurrent.futures
import functools
import hashlib
import json
import os
import random
import re
import subprocess
import sys
import tempfile
from collections.abc import Callable, Sequence
from dataclasses import dataclass
from typing import Any

sys.path.append(os.path.join(os.path.dirname(__file__), "..", "makers"))

from cases import add_oracle, oracle_of, show_sorts, words_of
from entries import METACOPY, NSEC

WORKERS = (1, 4)
# Seconds after which a program counts as one that gives no answer, and how many bytes of an answer are printed.
LONGEST, TOLD = 120, 400
# The shares of the cases with two things spoilt, with none, and under a sound layer.
TWO, NONE, STACKED = 0.15, 0.03, 0.25

MOST_ENTRIES = 1_048_576
# How many names a path may have, by version.
DEEPEST = {1: 64, 2: 128}
KINDS = ("dir", "dir", "dir", "file", "file", "file", "symlink", "char", "block", "fifo", "socket")
NAMES = ("a", "b", "bin", "lib", "etc", "a b", "a-b", "a.b", "\u00e9", "\u65e5\u672c", "\U0001f600", "\\", '"', "=", "~",
         "\x7f", "\n", "\t", "\x01", "..a", "...", "x" * 60)
ATTRIBUTES = (("user.k", b"\x01\x02"), ("user.k", b""), ("user.\u00e9", b"\xff"), ('user."', b"q"),
              ("security.selinux", b"system_u:object_r:etc_t:s0\0"), ("trusted.overlay.opaque", b"y"),
              ("trusted.overlay.opaque", b"x"), ("trusted.overlay.redirect", b"/a/b"), ("trusted.overlay.redirect", b"a"),
              ("trusted.overlay.redirect", b"/a/.."), (METACOPY, b""), ("trusted.overlay.whiteout", b""),
              ("trusted.overlay.origin", b"\0\1"), ("trusted.overlayfs", b""))

NUMBERS = ("-0", "00", "01", "-1", "-01", "+1", "1.0", "1.5", "0.0", "-0.0", "1.", ".5", "-.5", "1e0", "1E2", "1e+2", "1e-1",
           "10e-1", "0e5", "1e", "1e+", "1.e1", "-", "--1", "1_000", "1,0", "1 0", "0x10", "0b1", "NaN", "Infinity", "-Infinity",
           "\uff11", "1e400", "-1e400", "1e-400", "0e99999999999", "1e99999999999", "1e-99999999999", "0e-99999999999",
           "1.7976931348623157e308", "1.7976931348623159e308", "179769313486231580793e289",
           "1" * 30, "9" * 400, "1" + "0" * 308, "1" + "0" * 309, "0." + "1" * 400, "9" * 400 + "e-400", "-" + "9" * 25)
EDGES = (0, 1, 4_095, 4_096, 65_535, 2**31 - 1, 2**31, 2**32 - 1, 2**32, 2**53 + 1, 2**63 - 1, 2**63, 2**63 + 1, 2**64 - 1,
         2**64, 2**64 + 1, 2**127, 2**128)
ESCAPES = ("\\/", "\\b\\f\\n\\r\\t", "\\u0041", "\\u00e9", "\\u00E9", "\\ud83d\\ude00", "\\uD83D\\uDE00", "\\u0000", "\\u001f",
           "\\u007f", "\\uffff", "\\udbff\\udfff", "\\ud800", "\\udc00", "\\ud800\\u0041", "\\ud800\\ud800", "\\udc00\\ud800",
           "\\ud800x", "\\u12", "\\u12g4", "\\u{41}", "\\U00000041", "\\x41", "\\'", "\\a", "\\0", "\\", "\\\\", "\x01", "\x1f",
           "\n", "\t", "\0", "\x7f", "\u2028", "'", '"', '\\"')
BAD_UTF8 = (b"\x80", b"\xff", b"\xfe", b"\xc0\x80", b"\xc1\xbf", b"\xe0\x80\xaf", b"\xed\xa0\x80", b"\xed\xbf\xbf", b"\xe2\x82",
            b"\xf0\x9f\x98", b"\xf0\x80\x80\x80", b"\xf4\x90\x80\x80", b"\xf5\x80\x80\x80", b"\xf8\x88\x80\x80\x80", b"\xc3",
            b"\xc3\xa9", b"\xf4\x8f\xbf\xbf", b"\xef\xbf\xbf", b"\xef\xbb\xbf")
TEXTS = (b"", b" ", b"\n", b"null", b"true", b"0", b"-", b'"', b'"x"', b"[]", b"{}", b"[", b"{", b"{]", b"nul", b"tru", b"[[]",
         b'{"entries":[]}', b'{"overlay-layer":1}', b'{"entries":{},"overlay-layer":1}', b'[{"entries":[],"overlay-layer":1}]',
         b'{"entries":[],"overlay-layer":1}', b'{"entries":[],"overlay-layer":2}', b'{"entries":[],"overlay-layer":3}',
         b'{"entries":[0],"overlay-layer":1}\n', b'{"entries":[0],"overlay-layer":2}\n')
AFTER = (b" ", b"\n\n", b"\r\n", b"\t", b"\0", b"x", b",", b"}", b"]", b"{}", b"null", b"//", b"\x0c", b"\xc2\xa0")


# ---- values: texts, whole numbers, lists, members of an object, and what is written as it is

@dataclass(frozen=True)
class Raw:
    """A text that is in the manifest as it is."""

    text: str


# A value may be of any type, also if a sound manifest has a text: as the name of a member.
Value = Any
Member = tuple[Value, Value]


class Members(list[Member]):
    """The members of an object in the order in which they are written, names and values."""

    def get(self, name: Value) -> Value:
        return next((value for it, value in self if it == name), None)

    def put(self, name: Value, value: Value) -> None:
        """Gives the member this value, and adds it if it is missing."""
        at = next((n for n, (it, _) in enumerate(self) if it == name), len(self))
        self[at:at + 1] = [(name, value)]


@dataclass(frozen=True)
class Style:
    """How a manifest is written: white space, escapes (shares of the places), and the order of the members."""

    gaps: float
    escapes: float
    order: str


def some_style(rng: random.Random) -> Style:
    """Half of the manifests are compact, with sorted members and no escapes but those that must be."""
    if rng.random() < 0.5:
        return Style(0.0, 0.0, rng.choice(("sorted", "as they are")))
    return Style(rng.choice((0.0, 0.1, 0.5)), rng.choice((0.0, 0.1, 0.5)), rng.choice(("sorted", "as they are", "shuffled")))


def escaped(text: str) -> str:
    """A text with every character as an escape, in two if it takes more than sixteen bits."""
    units = text.encode("utf-16-be", "surrogatepass")
    return "".join(f"\\u{units[n:n + 2].hex()}" for n in range(0, len(units), 2))


def plain(text: str) -> str:
    """A text with the escapes that must be, without its quotes."""
    return json.dumps(text, ensure_ascii=False)[1:-1]


def quoted(text: str, style: Style, rng: random.Random) -> str:
    if style.escapes > 0:
        text = "".join(escaped(it) if rng.random() < style.escapes else plain(it) for it in text)
    else:
        text = plain(text)
    return f'"{text}"'


def gap(style: Style, rng: random.Random) -> str:
    return "".join(rng.choices(" \t\n\r", k=rng.randint(1, 3))) if rng.random() < style.gaps else ""


def in_order(members: Members, style: Style, rng: random.Random) -> list[Member]:
    if style.order == "sorted":
        return sorted(members, key=lambda it: str(it[0]).encode("utf-8", "surrogatepass"))
    return rng.sample(members, len(members)) if style.order == "shuffled" else members


def written(value: Value, style: Style, rng: random.Random) -> str:
    """The text of a value."""
    if isinstance(value, Raw):
        return value.text
    if isinstance(value, str):
        return quoted(value, style, rng)
    if not isinstance(value, list):
        return json.dumps(value)
    space = functools.partial(gap, style, rng)
    if isinstance(value, Members):
        parts = [written(name, style, rng) + space() + ":" + space() + written(it, style, rng)
                 for name, it in in_order(value, style, rng)]
        begin, end = "{", "}"
    else:
        parts, begin, end = [written(it, style, rng) for it in value], "[", "]"
    return begin + space() + f"{space()},{space()}".join(parts) + space() + end


# ---- sound layers

def key(path: str) -> list[bytes]:
    return path.encode("utf-8", "surrogatepass").split(b"/")


def attributes(rng: random.Random) -> Members:
    chosen = dict(rng.sample(ATTRIBUTES, rng.choice((0, 0, 0, 1, 1, 2, 3))))
    return Members(sorted((name, value.hex()) for name, value in chosen.items()))


def entry(rng: random.Random, path: str, kind: str, version: int) -> Members:
    attrs = attributes(rng)
    members: dict[str, Value] = {
        "path": path, "kind": kind, "mode": rng.choice((0, 0o644, 0o755, 0o4755, 4095)), "xattrs": attrs,
        "uid": rng.choice((0, 1000, 2**32 - 1)), "gid": rng.choice((0, 1000)),
        "mtime": rng.choice((0, 1_500_000_000, -1, 2**63 - 1, -2**63))}
    if version == 2:
        members[NSEC] = rng.choice((0, 0, 1, 500_000_000, 999_999_999))
    if kind == "file":
        members["size"] = rng.choice((0, 0, 1, 5, 2**40, 2**63 - 1))
        if members["size"] > 0 and attrs.get(METACOPY) is None:
            members["blob"] = hashlib.sha256(path.encode()).hexdigest()
    elif kind == "symlink":
        members["target"] = rng.choice(("a", "/a/b", "../b c", "\u00e9\n", "x" * 300))
    elif kind in ("char", "block"):
        members |= {"major": rng.choice((0, 0, 1, 2**32 - 1)), "minor": rng.choice((0, 0, 5))}
    return Members(sorted(members.items()))


def sound(rng: random.Random, version: int) -> Members:
    """The value of a manifest of a root and up to 12 entries."""
    kinds, below = {"/": "dir"}, [""]
    for _ in range(rng.randint(0, 12)):
        path = rng.choice(below) + "/" + rng.choice(NAMES)
        if path not in kinds:
            kinds[path] = rng.choice(KINDS)
            below += [path] * (kinds[path] == "dir")
    entries = [entry(rng, path, kinds[path], version) for path in sorted(kinds, key=key)]
    return Members([("entries", entries), ("overlay-layer", version)])


# ---- what is spoilt in a value: functions of the chance and the manifest, which they change

def entries_of(manifest: Members) -> list[Value]:
    found = manifest.get("entries")
    return found if type(found) is list else []


def version_of(manifest: Members) -> int:
    """The version of a manifest, the last one if that is spoilt."""
    found = manifest.get("overlay-layer")
    return found if type(found) is int and found in DEEPEST else max(DEEPEST)


def objects_of(manifest: Members) -> list[Members]:
    """The entries that are objects."""
    return [it for it in entries_of(manifest) if isinstance(it, Members)]


def attributes_of(members: Members) -> Members:
    """The attributes of an entry, none if they aren't an object."""
    found = members.get("xattrs")
    return found if isinstance(found, Members) else Members()


def some_entry(rng: random.Random, manifest: Members) -> Members:
    """One of the entries that are objects; if there is none, one that is nowhere."""
    return rng.choice(objects_of(manifest) or [Members()])


def some_object(rng: random.Random, manifest: Members) -> Members:
    """The manifest, an entry or an entry's attributes."""
    within, chance = some_entry(rng, manifest), rng.random()
    if chance < 0.2:
        return manifest
    return attributes_of(within) if chance < 0.4 else within


def some_of(rng: random.Random, members: Members, wanted: type) -> Value:
    """The name of a member whose value is of this type, or None."""
    names = [name for name, value in members if isinstance(value, wanted) and not isinstance(name, Raw)]
    return rng.choice(names) if names else None


def renamed_member(rng: random.Random, manifest: Members) -> None:
    members = some_object(rng, manifest)
    if members:
        at = rng.randrange(len(members))
        name, value = members[at]
        old = str(name)
        names = (old.upper(), old.capitalize(), old + "s", old[:-1], old + " ", "", "path", "blob", "size")
        members[at] = rng.choice(names), value


def doubled_member(rng: random.Random, manifest: Members) -> None:
    """Twice the same name, also with escapes, with the same value or another one's."""
    members = some_object(rng, manifest)
    if members:
        name, value = rng.choice(members)
        value = rng.choice((value, rng.choice(members)[1], 0, "x"))
        name = Raw(f'"{escaped(name)}"') if isinstance(name, str) and rng.random() < 0.3 else name
        members.insert(rng.randint(0, len(members)), (name, value))


def missing_member(rng: random.Random, manifest: Members) -> None:
    members = some_object(rng, manifest)
    if members:
        del members[rng.randrange(len(members))]


def extra_member(rng: random.Random, manifest: Members) -> None:
    extra: tuple[Member, ...] = (
        ("size", 1), ("size", 0), ("blob", "0" * 64), ("blob", None), ("target", "x"), ("major", 0), ("minor", 0),
        ("nlink", 1), (NSEC, 0), ("entries", []), ("overlay-layer", 1), ("", ""), ("xattrs", Members()), ("user.x", "00"))
    members = some_object(rng, manifest)
    members.insert(rng.randint(0, len(members)), rng.choice(extra))


def odd_number(rng: random.Random, manifest: Members) -> None:
    members = manifest if rng.random() < 0.1 else some_entry(rng, manifest)
    name = some_of(rng, members, int)
    if name is not None:
        members.put(name, Raw(rng.choice(NUMBERS)))


def number_at_an_edge(rng: random.Random, manifest: Members) -> None:
    members = manifest if rng.random() < 0.1 else some_entry(rng, manifest)
    name = some_of(rng, members, int)
    if name is not None:
        sign, after = rng.choice(("", "", "", "-")), rng.choice(("", "", "", "", ".0", ".5", "e0", "E-0"))
        members.put(name, Raw(f"{sign}{rng.choice(EDGES)}{after}"))


def odd_time(rng: random.Random, manifest: Members) -> None:
    whole = rng.choice((-1, -86_400, -2**63, -2**63 - 1, 1_700_000_000))
    after = rng.choice(("", "", ".0", ".5", ".123456789", "e0", "e-1", "E9"))
    some_entry(rng, manifest).put("mtime", Raw(f"{whole}{after}"))


def odd_nanoseconds(rng: random.Random, manifest: Members) -> None:
    """Nanoseconds at the edges, and at places that have none."""
    values = ("0", "1", "-1", "-0", "000000001", "999999999", "1000000000", "1000000001", "999999999.0", "0.5", "1e3", "1e9",
              "4294967296", "18446744073709551616", '"0"', '""', "null", "true", "[]")
    some_entry(rng, manifest).put(NSEC, Raw(rng.choice(values)))


def entry_of_another_version(rng: random.Random, manifest: Members) -> None:
    """One entry, or each, with nanoseconds if the version has none, or without."""
    wanted = [some_entry(rng, manifest)] if rng.random() < 0.5 else objects_of(manifest)
    for within in wanted:
        if within.get(NSEC) is None:
            within.put(NSEC, 0)
            within.sort(key=lambda it: str(it[0]))
        else:
            within[:] = [it for it in within if it[0] != NSEC]


def other_type(rng: random.Random, manifest: Members) -> None:
    members = some_object(rng, manifest)
    if members:
        at = rng.randrange(len(members))
        values: tuple[Value, ...] = (None, True, False, "", "1", "x", 0, [], [0], Members(), Members([("a", 0)]), Raw("nul"),
                                     Raw("True"), Raw(""))
        members[at] = members[at][0], rng.choice(values)


def odd_escape(rng: random.Random, manifest: Members) -> None:
    """A piece of escaped text within a value or a name."""
    members = some_object(rng, manifest)
    name = some_of(rng, members, str)
    if name is not None:
        in_name = rng.random() < 0.2
        body = plain(name if in_name else members.get(name))
        at = rng.choice((0, len(body), rng.randint(0, len(body))))
        text = Raw(f'"{body[:at]}{rng.choice(ESCAPES)}{body[at:]}"')
        changed = (text, members.get(name)) if in_name else (name, text)
        members[:] = [changed if it[0] == name else it for it in members]


def odd_digits(rng: random.Random, manifest: Members) -> None:
    """Digests and attributes' values of other digits or another length."""
    entries = objects_of(manifest)
    holders = [(it, "blob") for it in entries] + [(attributes_of(it), name) for it in entries for name, _ in attributes_of(it)]
    holders = [(it, name) for it, name in holders if isinstance(it.get(name), str)]
    if holders:
        members, name = rng.choice(holders)
        text, digit = members.get(name), rng.choice(("g", "F", "\u0660", " ", "-"))
        at = rng.randint(0, len(text))
        other_digit, other_case = text[:at] + digit + text[at + 1:], text[:at].upper() + text[at:]
        members.put(name, rng.choice((other_digit, other_digit, other_case, text.upper(), text + "0", text[:-1], text[1:], "",
                                      text + "00", "0x" + text, text[:at] + " " + text[at:], "0" * 63, "0" * 65, "A" * 64)))


def blob_where_none_may_be(rng: random.Random, manifest: Members) -> None:
    """Sizes, blobs and metacopy that don't fit together, and some that do."""
    within = some_entry(rng, manifest)
    within[:] = [it for it in within if it[0] not in ("kind", "size", "blob", "xattrs")]
    within += rng.choice(([("kind", "file")], [("kind", "file")], [("kind", "dir")]))
    within += [("size", rng.choice((0, 1, 7)))] + [("blob", rng.choice(("0" * 64, "0" * 64, "", None)))] * rng.randint(0, 1)
    attrs = (Members(), Members([(METACOPY, "")]), Members([(METACOPY, "00")]), Members([("user.overlay.metacopy", "")]))
    within.append(("xattrs", rng.choice(attrs)))
    within.sort(key=lambda it: str(it[0]))


def odd_attribute(rng: random.Random, manifest: Members) -> None:
    names = ("", "\0", "user.\0", "trusted.overlay.overlay.opaque", "trusted.overlay.overlay.", "trusted.overlay.overlay",
             "trusted.overlay.", "Trusted.overlay.overlay.x", "u" * 255, "u" * 256, "\u00e9" * 127, "\u00e9" * 128, "user.a b",
             "=", "\\")
    attrs = attributes_of(some_entry(rng, manifest))
    attrs.put(rng.choice(names), rng.choice(("", "00", "00", "79", "79", "0", "0g", "FF", "f" * 200, None)))
    attrs.sort(key=lambda it: str(it[0]).encode("utf-8", "surrogatepass"))


def odd_kind(rng: random.Random, manifest: Members) -> None:
    kinds = ("Dir", "dirs", "", "file ", "hardlink", "door", "regular", *set(KINDS))
    some_entry(rng, manifest).put("kind", rng.choice(sorted(kinds)))


def odd_target(rng: random.Random, manifest: Members) -> None:
    found = [it for it in objects_of(manifest) if it.get("kind") == "symlink"] or [some_entry(rng, manifest)]
    length = rng.choice((4_094, 4_095, 4_096, 5_000))
    targets = ("", "\0", "a\0", "/", "x" * length, "\u00e9" * (length // 2), "\u00e9" * (length // 2) + "x")
    rng.choice(found).put("target", rng.choice(targets))


def odd_path(rng: random.Random, manifest: Members) -> None:
    within = some_entry(rng, manifest)
    path = within.get("path")
    if isinstance(path, str):
        after = path + rng.choice(("/", "//x", "/.", "/..", "/./x", "/...", "\0", "/\0", "x", " ", "/x"))
        another = rng.choice(("", "/", "//", ".", "/.", "/..", "a", "./a", "/nowhere/x", "/\u00e9", "/~", "/a", "/b/"))
        changed = rng.choice(("/" + path, path[1:], path.upper(), path.replace("/", "\\")))
        within.put("path", rng.choice((after, another, changed)))


def deep_path(rng: random.Random, manifest: Members) -> None:
    """A chain of about as many directories as a path may have names."""
    version = version_of(manifest)
    below = [entry(rng, "/d" * n, "dir", version) for n in range(1, DEEPEST[version] + rng.randint(-2, 3))]
    manifest.put("entries", entries_of(manifest)[:1] + below)


def long_path(rng: random.Random, manifest: Members) -> None:
    """Names and paths of about as many bytes as they may have."""
    if rng.random() < 0.5:
        sizes = [rng.randint(253, 257)]
    else:
        sizes = [255] * 15 + [rng.randint(252, 255)]
    letter, count = rng.choice((("n", 1), ("\u00e9", 2), ("\U0001f600", 4)))
    names = [letter * (size // count) + "x" * (size % count) for size in sizes]
    below = [entry(rng, "/" + "/".join(names[:n]), "dir", version_of(manifest)) for n in range(1, len(names) + 1)]
    manifest.put("entries", entries_of(manifest)[:1] + below)


def entry_elsewhere(rng: random.Random, manifest: Members) -> None:
    found = entries_of(manifest)
    if found:
        found.insert(rng.randint(0, len(found)), found.pop(rng.randrange(len(found))))


def entry_twice(rng: random.Random, manifest: Members) -> None:
    found = entries_of(manifest)
    if found:
        at = rng.randrange(len(found))
        found.insert(rng.choice((at, at, rng.randint(0, len(found)))), found[at])


def entry_dropped(rng: random.Random, manifest: Members) -> None:
    found = entries_of(manifest)
    directories = [n for n, it in enumerate(found) if isinstance(it, Members) and it.get("kind") == "dir"]
    if found:
        del found[rng.choice((0, rng.choice(directories or [0]), rng.randrange(len(found))))]


def entries_in_another_order(rng: random.Random, manifest: Members) -> None:
    found = entries_of(manifest)
    kept = found[:1] if rng.random() < 0.7 else []
    rest = found[len(kept):]
    # (so that `/a-b` comes before `/a/b`)
    by_text = sorted(rest, key=lambda it: str(it.get("path")) if isinstance(it, Members) else "")
    found[:] = kept + rng.choice((rest[::-1], rng.sample(rest, len(rest)), by_text))


def not_an_entry(rng: random.Random, manifest: Members) -> None:
    found = entries_of(manifest)
    found.insert(rng.randint(0, len(found)), rng.choice((None, 0, "", "/", [], Members(), Raw(""), [Members()])))


def other_root(rng: random.Random, manifest: Members) -> None:
    found = entries_of(manifest)
    if found and isinstance(found[0], Members):
        path = rng.choice(("/", "/", "/a", "", "//"))
        found[0] = entry(rng, path, rng.choice(KINDS[3:] if path == "/" else KINDS), version_of(manifest))


def other_version(rng: random.Random, manifest: Members) -> None:
    versions = ("0", "1", "2", "3", "-1", "1.0", "1e0", "10e-1", "1.5", '"1"', "true", "null", "[1]", "01", str(2**64 - 1),
                str(2**64), str(-2**63 - 1))
    manifest.put("overlay-layer", Raw(rng.choice(versions)))


def other_list(rng: random.Random, manifest: Members) -> None:
    """Lists of nothing, of as many as there may be and of one more, and what isn't a list."""
    found, many = entries_of(manifest), MOST_ENTRIES - rng.randint(0, 1)
    manifest.put("entries", rng.choice(([], None, Members(), 0, "", found[:1], [found], Raw("[,]"), Raw("[null,]"),
                                        Raw("[" + "0," * many + "0]"))))


def nested(rng: random.Random, manifest: Members) -> None:
    """A value in many brackets, in place of another or of its own name."""
    depth = rng.choice((1, 2, 100, *range(122, 131), 1_000))
    lists, objects = "[" * depth + "]" * depth, '{"a":' * depth + "1" + "}" * depth
    both = '[{"a":' * (depth // 2) + "[]" + "}]" * (depth // 2)
    members = some_object(rng, manifest)
    name = rng.choice(members)[0] if members and rng.random() < 0.5 else "zz"
    members.put(name, Raw(rng.choice((lists, objects, both, "[" * depth))))


# What is here twice is drawn twice as often.
VALUES: tuple[Callable[[random.Random, Members], None], ...] = (
    renamed_member, doubled_member, doubled_member, missing_member, extra_member, odd_number, odd_number, number_at_an_edge,
    number_at_an_edge, odd_time, odd_nanoseconds, entry_of_another_version, other_type, odd_escape, odd_escape, odd_digits,
    blob_where_none_may_be, odd_attribute, odd_attribute, odd_kind, odd_target, odd_path, odd_path, deep_path, long_path,
    entry_elsewhere, entry_twice, entry_dropped, entries_in_another_order, not_an_entry, other_root, other_version, other_list,
    nested)


# ---- what is spoilt in the bytes: functions of the chance and the bytes, which give other bytes

def some_place(rng: random.Random, data: bytes) -> int:
    """A place in the bytes, mostly beside a mark of punctuation."""
    marks = [it.start() + rng.randint(0, 1) for it in re.finditer(rb'["{}\[\],:]', data)]
    return rng.choice(marks) if marks and rng.random() < 0.5 else rng.randint(0, len(data))


def put_in(rng: random.Random, data: bytes, pieces: Sequence[bytes]) -> bytes:
    at = some_place(rng, data)
    return data[:at] + rng.choice(pieces) + data[at:]


def byte_dropped(rng: random.Random, data: bytes) -> bytes:
    at = some_place(rng, data)
    return data[:at] + data[at + 1:]


def byte_doubled(rng: random.Random, data: bytes) -> bytes:
    at = some_place(rng, data)
    return data[:at] + data[at:at + 1] + data[at:]


def bytes_swapped(rng: random.Random, data: bytes) -> bytes:
    at = some_place(rng, data)
    return data[:at] + data[at + 1:at + 2] + data[at:at + 1] + data[at + 2:]


def byte_changed(rng: random.Random, data: bytes) -> bytes:
    at = some_place(rng, data)
    old = data[at] if at < len(data) else 0
    new = rng.choice((rng.randrange(256), old ^ 1 << rng.randrange(8), *b'"{}[],:0e.- \\'))
    return data[:at] + bytes([new]) + data[at + 1:]


def byte_put_in(rng: random.Random, data: bytes) -> bytes:
    return put_in(rng, data, [bytes([it]) for it in (rng.randrange(256), *b'"{}[],:0e.-\\/')])


def white_space_put_in(rng: random.Random, data: bytes) -> bytes:
    return put_in(rng, data, (b" ", b"\t", b"\n", b"\r", b"\x0b", b"\x0c", b"\0", b"\xc2\xa0", b"\xe2\x80\xa8"))


def bad_utf8(rng: random.Random, data: bytes) -> bytes:
    return put_in(rng, data, BAD_UTF8)


def piece_dropped(rng: random.Random, data: bytes) -> bytes:
    at = some_place(rng, data)
    return data[:at] + data[at + rng.randint(2, 60):]


def piece_doubled(rng: random.Random, data: bytes) -> bytes:
    at, count = some_place(rng, data), rng.randint(2, 60)
    return data[:at] + data[at:at + count] + data[at:]


def cut(rng: random.Random, data: bytes) -> bytes:
    at = rng.choice((rng.randint(0, len(data)), max(0, len(data) - rng.randint(0, 6))))
    return data[:at] if rng.random() < 0.8 else data[at:]


def more_before_or_after(rng: random.Random, data: bytes) -> bytes:
    return data + rng.choice(AFTER) if rng.random() < 0.7 else rng.choice((*AFTER, b"\xef\xbb\xbf")) + data


def another_text(rng: random.Random, data: bytes) -> bytes:
    marks = ((b'"', b"'"), (b",", b",,"), (b"}", b",}"), (b"]", b",]"), (b":", b"="))
    return rng.choice((*TEXTS, data.rstrip(), data + data, *(data.replace(old, new, 1) for old, new in marks)))


BYTES: tuple[Callable[[random.Random, bytes], bytes], ...] = (
    byte_dropped, byte_dropped, byte_doubled, byte_doubled, bytes_swapped, bytes_swapped, byte_changed, byte_changed,
    byte_put_in, white_space_put_in, bad_utf8, piece_dropped, piece_doubled, cut, more_before_or_after, another_text)


# ---- cases

@dataclass(frozen=True)
class Case:
    number: int
    manifests: tuple[bytes, ...]
    spoilt: str


@dataclass(frozen=True)
class Answer:
    status: int | None
    printed: bytes
    told: bytes


def encoded(value: Value, rng: random.Random) -> bytes:
    return (written(value, some_style(rng), rng) + "\n").encode("utf-8", "surrogatepass")


def case_of(version: int, seed: str, number: int) -> Case:
    """The case of this number: at most two things spoilt, those in the value before those in the bytes."""
    rng = random.Random(f"{version} {seed} {number}")
    chance, manifest = rng.random(), sound(rng, version)
    chosen = rng.choices(range(len(VALUES) + len(BYTES)), k=2 if chance < TWO else 0 if chance < TWO + NONE else 1)
    in_value = [VALUES[it] for it in chosen if it < len(VALUES)]
    in_bytes = [BYTES[it - len(VALUES)] for it in chosen if it >= len(VALUES)]
    for spoil in in_value:
        spoil(rng, manifest)
    data = encoded(manifest, rng)
    for turn in in_bytes:
        data = turn(rng, data)
    above = (encoded(sound(rng, rng.choice(list(DEEPEST))), rng),) if rng.random() < STACKED else ()
    return Case(number, (*above, data), ", ".join(it.__name__.replace("_", " ") for it in (*in_value, *in_bytes)) or "nothing")


def answer(command: list[str], folder: str, workers: int, files: list[str]) -> Answer:
    """What a command says of the files of a folder."""
    words = [*command, "show", "--workers", str(workers), *files]
    try:
        ran = subprocess.run(words, cwd=folder, stdin=subprocess.DEVNULL, capture_output=True, timeout=LONGEST, check=False)
    except subprocess.TimeoutExpired:
        return Answer(None, b"", b"no answer in time")
    return Answer(ran.returncode, ran.stdout, ran.stderr)


def compared(program: list[str], oracle: list[str], case: Case) -> tuple[Case, Answer, list[tuple[int, Answer]]]:
    """The case, the other reading's answer, and the numbers of workers and answers of the program that differ from it."""
    with tempfile.TemporaryDirectory(prefix="ovl-spoilt-") as folder:
        files = [f"l{n}.json" for n in range(len(case.manifests))]
        for name, data in zip(files, case.manifests):
            with open(os.path.join(folder, name), "wb") as file:
                file.write(data)
        wanted = answer(oracle, folder, WORKERS[0], files)
        answers = [(workers, answer(program, folder, workers, files)) for workers in WORKERS]
        return case, wanted, [it for it in answers if it[1] != wanted]


def tell(case: Case, wanted: Answer, others: list[tuple[int, Answer]], keep: str | None) -> None:
    """Prints a case whose answers differ, and keeps its manifests if asked to."""
    print(f"case {case.number} ({case.spoilt}), layers: {len(case.manifests)}")
    for name, it in [("wanted", wanted), *((f"{workers} workers", it) for workers, it in others)]:
        print(f"  {name}: status {it.status}, printed {it.printed[:TOLD]!r}, told {it.told[:TOLD]!r}")
    sys.stdout.flush()
    if keep:
        os.makedirs(keep, exist_ok=True)
        for n, data in enumerate(case.manifests):
            with open(os.path.join(keep, f"{case.number}-l{n}.json"), "wb") as file:
                file.write(data)


def sort_of(wanted: Answer) -> str:
    """A sort of answer: shown, or the line of the fault with N in place of the entry's number."""
    if wanted.status == 0:
        return "shown"
    return re.sub(r"entry \d+", "entry N", wanted.told.decode(errors="replace").strip().removeprefix("ovl_layers: "))[:80]


def main() -> None:
    words = words_of("Compares what is said of spoilt manifests with an independent reading.", "cases", 5000)
    add_oracle(words, "case", "'show --workers 1 FILE..'")
    words.add_argument("--version", type=int, choices=DEEPEST, default=max(DEEPEST), help="version of the manifests that are "
                       f"spoilt (default {max(DEEPEST)})")
    given = words.parse_args()
    program, oracle = [os.path.abspath(given.program)], oracle_of(given)
    sorts: collections.Counter[str] = collections.Counter()
    bad = 0
    with concurrent.futures.ThreadPoolExecutor(given.jobs) as pool:
        cases = (case_of(given.version, given.seed, number) for number in given.case or range(given.count))
        for case, wanted, others in pool.map(lambda case: compared(program, oracle, case), cases):
            sorts[sort_of(wanted)] += 1
            if others:
                tell(case, wanted, others, given.keep)
                bad += 1
    show_sorts(sorts)
    print(f"{sorts.total():7,} cases of version {given.version} and seed {given.seed}, {bad} differ")
    sys.exit(1 if bad else 0)


if __name__ == "__main__":
    main()
