"""Entries of layers, as the scripts that make small layers by hand write them."""
from __future__ import annotations

from collections.abc import Mapping
from typing import Any

REDIRECT = "trusted.overlay.redirect"
METACOPY = "trusted.overlay.metacopy"
OPAQUE = "trusted.overlay.opaque"
NSEC = "mtime-nsec"
# The members that entries have only since a version of the manifest, by that version. Those before it mean 0.
SINCE = {2: {NSEC}}

Entry = dict[str, Any]


def entry(path: str, kind: str = "dir", attrs: Mapping[str, str] | None = None, **more: object) -> Entry:
    """An entry of user, group and time 0, with these attributes' texts and further members."""
    return {"path": path, "kind": kind, "mode": 0o755 if kind == "dir" else 0o644, "uid": 0, "gid": 0, "mtime": 0, NSEC: 0,
            "xattrs": {name: value.encode().hex() for name, value in (attrs or {}).items()}, **more}


def stated(it: Entry, version: int) -> Entry:
    """The members that the entry has in a manifest of the version."""
    later = {name for since, names in SINCE.items() if since > version for name in names}
    return {name: value for name, value in it.items() if name not in later}
