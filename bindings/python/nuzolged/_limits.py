"""What a tree allows."""
from __future__ import annotations

from dataclasses import dataclass, fields

from . import _library

#: The greatest limits, in the order of the fields.
_GREATEST = {
    "file_size": 1 << 47,
    "links": 1 << 32,
    "depth": 4096,
    "transactions": 1 << 62,
    "calls": 1 << 62,
}


@dataclass(frozen=True)
class Limits:
    """What a tree allows. None means the greatest limit.

    A limit above the greatest, or below 0, is a ValueError.
    """

    #: How many bytes a file may have, at most 2^47. More is an OSError, EFBIG.
    file_size: int | None = None
    #: How many names a file may have, at most 2^32. One more is an OSError, EMLINK.
    links: int | None = None
    #: How deep a transaction may be, at most 4,096. One of the tree has depth 1. A step below the
    #: deepest is `Refused`, Deep.
    depth: int | None = None
    #: How many transactions may begin before a checkpoint, at most 2^62. One more is `Refused`,
    #: Full.
    transactions: int | None = None
    #: How many calls may be granted before a checkpoint, at most 2^62. One more is `Refused`, Full.
    calls: int | None = None

    def __post_init__(self) -> None:
        for field in fields(self):
            limit, greatest = getattr(self, field.name), _GREATEST[field.name]
            if limit is not None and not 0 <= limit <= greatest:
                raise ValueError(f"{field.name} is not one of 0 to {greatest}: {limit}")


def for_library(limits: Limits) -> _library.Limits:
    """Limits as the library takes them."""
    given = {name: getattr(limits, name) for name in _GREATEST}
    return _library.Limits(
        **{name: _GREATEST[name] if limit is None else limit for name, limit in given.items()}
    )
