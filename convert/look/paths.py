"""Paths that a user names, in what a source shows."""

from ..common.faults import ReadFault
from ..model.show_report import ShowLine
from .shown_tree import NoWay, opened_tree


def is_below(path: str, folder: str) -> bool:
    """Whether a path is another one or below it; both as reports have them."""
    return folder == "/" or path == folder or path.startswith(f"{folder}/")


def find(report: str, path: str, source: str, follows_last: bool) -> ShowLine:
    """What a path leads to; at its end a link is followed only if that is asked for."""
    with opened_tree(report) as tree:
        try:
            return tree.followed(path, follows_last=follows_last).line
        except NoWay as problem:
            if problem.is_absent:
                raise ReadFault(f"{source} shows nothing at {problem.path}") from None
            raise ReadFault(f"{source}: {path} leads nowhere: {problem}") from None
