"""Git pathspecs, proved.

>>> from puneloviash import Pathspec
>>> with Pathspec(["src/*.rs", ":!src/gen"]) as search:
...     search.matches("src/lib.rs"), search.may_skip("docs")
(True, True)
"""

from ._defaults import Defaults
from ._errors import FaultKind, PathspecError
from ._pathspec import LeftOut, Match, MatchKind, Pathspec, Place, Reason, Text
from ._walk import Walk

__all__ = [
    "Defaults",
    "FaultKind",
    "LeftOut",
    "Match",
    "MatchKind",
    "Pathspec",
    "PathspecError",
    "Place",
    "Reason",
    "Text",
    "Walk",
]
