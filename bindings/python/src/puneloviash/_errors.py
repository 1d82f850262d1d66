"""What a list of specs can be refused for."""

from __future__ import annotations

import enum
from typing import Optional, Tuple


class FaultKind(enum.Enum):
    """What is at fault. The numbers above 0 are those of pathspec.h."""

    #: Lists of attributes and attribute files in one search.
    MIXED = -3
    #: The byte 0 in a spec, at which the library would end it.
    NUL = -2
    #: A prefix, or a directory, that isn't clean: neither empty nor names joined by single slashes.
    PREFIX = -1
    #: A kind that this package doesn't know.
    OTHER = 0
    #: A spec without a byte.
    EMPTY = 1
    #: A byte of short magic that git keeps free for later, as in ``:%a``.
    UNIMPLEMENTED_SHORT = 2
    #: Long magic without its closing parenthesis, as ``:(top``.
    MISSING_PAREN = 3
    #: No keyword of long magic, as in ``:(nope)a``.
    INVALID_KEYWORD = 4
    #: ``literal`` and ``glob`` in one spec.
    LITERAL_WITH_GLOB = 5
    #: A second list of attributes in one spec.
    SECOND_ATTRIBUTES = 6
    #: ``prefix:`` with no number, or with one that is no boundary of the path.
    INVALID_PREFIX = 7
    #: No attribute.
    EMPTY_ATTRIBUTES = 8
    #: No name of an attribute.
    INVALID_NAME = 9
    #: A byte that no value of an attribute holds.
    INVALID_VALUE_BYTE = 10
    #: A value that ends with the backslash of an escape.
    TRAILING_ESCAPE = 11
    #: An absolute path that doesn't lie in the root.
    OUTSIDE_ROOT = 12
    #: A path that climbs out of the repository.
    LEAVES_REPOSITORY = 13
    #: A word that is none of truth.
    NOT_TRUTH = 14
    #: Globs are both asked for and not.
    GLOB_AND_NO_GLOB = 15

    @classmethod
    def _missing_(cls, value: object) -> FaultKind:
        return cls.OTHER


class PathspecError(ValueError):
    """Specs, a list of attributes or the environment are at fault.

    >>> from puneloviash import Pathspec
    >>> try:
    ...     Pathspec(["a", ":(nope)b"])
    ... except PathspecError as error:
    ...     print(error.number, error.kind, error)
    1 FaultKind.INVALID_KEYWORD spec 1: found an unknown keyword in long magic: nope
    """

    #: What is at fault.
    kind: FaultKind
    #: The place of the spec in the list, or the number of its line, from 0; None where no spec is
    #: at fault.
    number: Optional[int]
    #: The place of the byte in the spec, from 0, where it is known: of :attr:`FaultKind.NUL`.
    position: Optional[int]

    def __init__(
        self,
        message: str,
        kind: FaultKind,
        number: Optional[int] = None,
        position: Optional[int] = None,
    ) -> None:
        super().__init__(message)
        self.kind = kind
        self.number = number
        self.position = position

    def __reduce__(
        self,
    ) -> Tuple[type, Tuple[str, FaultKind, Optional[int], Optional[int]]]:
        return type(self), (str(self), self.kind, self.number, self.position)
