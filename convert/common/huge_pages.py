"""Huge pages for the proved program: the C library asks the kernel for them if the environment says so."""

from collections.abc import Mapping

_TUNABLES = "GLIBC_TUNABLES"
_TUNABLE = "glibc.malloc.hugetlb"
_BY_REQUEST = "1"  # of transparent huge pages, which need no rights
_STATE = "/sys/kernel/mm/transparent_hugepage/enabled"
_OFF = "[never]"


def with_huge_pages(environment: Mapping[str, str]) -> dict[str, str]:
    """An environment in which they are asked for, if they are to be had and the user hasn't said otherwise."""
    stated = environment.get(_TUNABLES, "")
    is_stated = any(tunable.partition("=")[0] == _TUNABLE for tunable in stated.split(":"))
    if is_stated or not _are_to_be_had():
        return dict(environment)
    return {**environment, _TUNABLES: ":".join([*[stated] * bool(stated), f"{_TUNABLE}={_BY_REQUEST}"])}


def _are_to_be_had() -> bool:
    try:
        with open(_STATE, encoding="ascii", errors="replace") as file:
            return _OFF not in file.read()
    except OSError:
        return False
