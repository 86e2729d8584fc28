"""Lists of the names of a formula, which part it between a system and its environment."""
from __future__ import annotations

from collections.abc import Iterable
from typing import Optional, TypeVar

from .texts import bytes_of

Name = TypeVar("Name")

# What the program takes for white space, and drops around a name in a list.
WHITE_SPACE = " \t\n\f\r"
# Names of a formula, as a caller gives them.
Names = Optional[Iterable[str]]


def listed(names: Iterable[Name]) -> list[Name]:
    """The names of a list. Raises TypeError for a string, whose letters would be taken for names."""
    if isinstance(names, (str, bytes)):
        raise TypeError(f"a list of names has to be given, and not the string {names!r}")
    return list(names)


def one_list(outs: Names, ins: Names) -> tuple[bool, list[str]]:
    """Whether the names are those of the environment, and the names. Raises TypeError unless one list is given."""
    if outs is not None and ins is None:
        return False, listed(outs)
    if ins is not None and outs is None:
        return True, listed(ins)
    raise TypeError("either outs or ins has to be given")


def comma_list(names: list[str]) -> str:
    """A list of names as the program reads it. Raises ValueError for a name that no such list can have."""
    for name in names:
        if not name or "," in name or name.strip(WHITE_SPACE) != name:
            raise ValueError(f"no list of names can have {name!r}")
    return ",".join(names)


def nul_list(names: list[str]) -> bytes:
    """A list of names as the library reads it. Raises ValueError for a name with a NUL."""
    if any("\0" in name for name in names):
        raise ValueError("a name has a NUL")
    return b"".join(bytes_of(name) + b"\0" for name in names)
