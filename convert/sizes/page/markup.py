"""Markup from texts that may hold anything: each goes through `text`."""

import html
from collections.abc import Callable, Iterable, Iterator, Sequence
from dataclasses import dataclass
from typing import Generic, TypeVar
from urllib.parse import quote

from ...common.amounts import size_text
from ...common.escaping import printable

FIRST = 20  # rows of a list that are seen at once
MOST_OF_COMMAND = 300  # letters
_MOST_TEXT = 500_000  # bytes of the texts of a list
_T = TypeVar("_T")


@dataclass(frozen=True)
class Column:
    """A column of a list: its head, the classes of its fields, and whether these lead to places on the map."""

    head: str
    kind: str
    is_link: bool = False

    def field(self, value: str) -> str:
        """A text as a field of it."""
        if not self.is_link:
            return text(value)
        return f'<a href="#path={quote(printable(value))}">{text(value)}</a>'


_BYTES = Column("Bytes", "number")
FILES = Column("Files", "number files")
LAYER = Column("Layer", "number of-layer")
WHY = Column("Why", "why")
PATH = Column("Path", "path")
PLACE = Column("Path", "path", is_link=True)
DIRECTORY = Column("Directory", "path")
COMMAND = Column("Command", "text")


def text(value: str) -> str:
    """A text as it is in the page."""
    return html.escape(printable(value))


@dataclass(frozen=True)
class Listing(Generic[_T]):
    """A list of entries, the largest first: its columns after that of bytes, and the fields of an entry in them."""

    columns: Sequence[Column]
    bytes_of: Callable[[_T], int]
    fields_of: Callable[[_T], Sequence[str]]
    most: int = 1_000  # entries

    def markup(self, entries: Sequence[_T]) -> Iterator[str]:
        """Its first rows, the rest behind a line to open, and what there is no room for summed up."""
        rows = list(self._rows(entries))
        if not entries:
            yield "<p>Nothing</p>\n"
        if rows:
            yield from self._table(rows[:FIRST])
        if rest := rows[FIRST:]:
            yield f'<details class="rest"><summary>{len(rest):,} more</summary>\n'
            yield from self._table(rest)
            yield "</details>\n"
        if left := entries[len(rows):]:
            size = size_text(sum(map(self.bytes_of, left)))
            yield f'<p class="faint">and {len(left):,} smaller, {size} in all</p>\n'

    def _rows(self, entries: Sequence[_T]) -> Iterator[list[str]]:
        """The rows as they are in the page, as far as there is room for them."""
        room = _MOST_TEXT
        for entry in entries[:self.most]:
            row = [column.field(value) for column, value in zip(self.columns, self.fields_of(entry))]
            room -= sum(len(field.encode()) for field in row)
            if room < 0:
                break
            yield [size_text(self.bytes_of(entry)), *row]

    def _table(self, rows: Iterable[Sequence[str]]) -> Iterator[str]:
        columns = (_BYTES, *self.columns)
        yield '<table class="list"><thead><tr>'
        yield "".join(f'<th class="{column.kind}">{column.head}' for column in columns)
        yield "</tr></thead><tbody>\n"
        for row in rows:
            fields = (f'<td class="{column.kind}">{field}' for column, field in zip(columns, row))
            yield f"<tr>{''.join(fields)}</tr>\n"
        yield "</tbody></table>\n"
