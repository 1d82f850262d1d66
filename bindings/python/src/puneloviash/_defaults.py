"""What specs get that say nothing of it."""

from __future__ import annotations

import ctypes
import enum
import os
from typing import Mapping

from . import _library
from ._errors import FaultKind, PathspecError

_VARIABLES = (
    "GIT_LITERAL_PATHSPECS",
    "GIT_ICASE_PATHSPECS",
    "GIT_GLOB_PATHSPECS",
    "GIT_NOGLOB_PATHSPECS",
)


class Defaults(enum.IntFlag):
    """What specs get that say nothing of it, as git's variables for pathspecs ask for it.

    >>> from puneloviash import Pathspec
    >>> Pathspec(["*.C"], defaults=Defaults.ICASE | Defaults.GLOB).matches("a.c")
    True
    """

    #: Specs aren't read: each is a path, and GLOB and NOGLOB don't count.
    LITERAL = 1
    #: ASCII case doesn't count.
    ICASE = 2
    #: Globs whose wildcards don't take ``/``, and NOGLOB doesn't count.
    GLOB = 4
    #: Paths are compared byte for byte.
    NOGLOB = 8

    @classmethod
    def from_environment(cls, environment: Mapping[str, str] = os.environ) -> Defaults:
        """The defaults that git's four variables ask for.

        It raises PathspecError where one of them is neither true nor false, or where globs are both
        asked for and not.

        >>> int(Defaults.from_environment({"GIT_ICASE_PATHSPECS": "yes"}))
        2
        """
        words = [os.fsencode(environment.get(name, "")) for name in _VARIABLES]
        given = [part for word in words for part in (word, len(word))]
        bits, fault = ctypes.c_uint32(), _library.PsFault()
        if _library.defaults_from_words(*given, bits, fault) == _library.OK:
            return cls(bits.value)
        kind = FaultKind(fault.kind)
        if kind is FaultKind.GLOB_AND_NO_GLOB:
            message = "the environment asks for globs and for no globs"
        else:
            message = "a variable of the environment is neither true nor false"
        raise PathspecError(message, kind)
