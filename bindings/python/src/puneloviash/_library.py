"""The declarations of pathspec.h over ctypes.

The questions of a search hold the interpreter's lock: a path takes less time than to give it back
and fetch it again, and a thousand mostly less than a thread may keep it anyway, which is 5 ms. What
reads specs gives it back.
"""

import ctypes
import os
import pathlib
from typing import Any, Dict, List

# The number of these declarations, PS_VERSION of the header.
VERSION = 2

# What calls answer, as the header names it.
OK, YES, MEMORY, PREFIX, MIXED = 0, 1, 3, 4, 6

# The kinds of a match that are no MatchKind.
UNSETTLED, NO_MEMORY = 0, 5


class PsSearch(ctypes.Structure):
    """A search, or none."""

    _fields_ = [("at", ctypes.c_void_p)]


class PsMatch(ctypes.Structure):
    """What settles a path."""

    _fields_ = [
        ("number", ctypes.c_size_t),
        ("kind", ctypes.c_uint32),
        ("is_excluded", ctypes.c_uint32),
    ]


class PsFault(ctypes.Structure):
    """Why a call answered that something is at fault."""

    _fields_ = [("number", ctypes.c_size_t), ("kind", ctypes.c_uint32)]


class PsLeftOut(ctypes.Structure):
    """What git leaves out of an attribute file."""

    _fields_ = [
        ("count", ctypes.c_size_t),
        ("line", ctypes.c_size_t),
        ("reason", ctypes.c_uint32),
    ]


def _find() -> str:
    """The shared object: beside this module, as in a wheel, or else in PATHSPEC_LIB_DIR."""
    beside = pathlib.Path(__file__).with_name("libpathspec.so")
    if beside.exists():
        return str(beside)
    folder = os.environ.get("PATHSPEC_LIB_DIR")
    if folder is None:
        raise ImportError(
            "libpathspec.so isn't in the package: install its wheel, or set PATHSPEC_LIB_DIR to the"
            " folder that `make library` of Puneloviash fills, target/library"
        )
    return os.path.join(folder, "libpathspec.so")


_path = _find()
_releasing = ctypes.CDLL(_path)
_holding = ctypes.PyDLL(_path)

_status = ctypes.c_uint32
_bytes: List[Any] = [ctypes.c_char_p, ctypes.c_size_t]
_room: List[Any] = [ctypes.c_void_p, ctypes.c_size_t, ctypes.POINTER(ctypes.c_size_t)]
_search = ctypes.c_void_p
_fault = ctypes.POINTER(PsFault)

version = _releasing.ps_version
version.argtypes, version.restype = [], _status
if version() != VERSION:
    raise ImportError(f"{_path} has version {version()}, not {VERSION}")

new = _releasing.ps_search_new
from_lines = _releasing.ps_search_from_lines
for _call in new, from_lines:
    _call.argtypes = [_search, *_bytes, *_bytes, *_bytes, ctypes.c_uint32, _fault]
    _call.restype = _status

search_message = _releasing.ps_search_message
lines_message = _releasing.ps_lines_message
for _call in search_message, lines_message:
    _call.argtypes = [*_bytes, *_bytes, *_bytes, ctypes.c_uint32, *_room]
    _call.restype = _status

list_message = _releasing.ps_list_message
list_message.argtypes, list_message.restype = [*_bytes, *_room], _status

share = _holding.ps_search_share
share.argtypes, share.restype = [_search, _search], _status
assign = _holding.ps_search_assign
assign.argtypes, assign.restype = [_search, *_bytes, *_bytes, _fault], _status
add_attributes = _releasing.ps_search_add_attributes
add_attributes.argtypes = [
    _search,
    ctypes.c_uint32,
    *_bytes,
    *_bytes,
    ctypes.POINTER(PsLeftOut),
]
add_attributes.restype = _status
free = _holding.ps_search_free
free.argtypes, free.restype = [_search], None

# The structures of handles, by their addresses.
_structures: Dict[int, PsSearch] = {}


class Handle(int):
    """The address of a PsSearch, which is freed when the last reference to the handle goes.

    A call holds a reference to the end of its work, so nothing frees the search meanwhile. A handle
    refers to no object, so the garbage collector doesn't finalize it in a cycle: others of the cycle
    may still ask their search then.
    """

    __slots__ = ()

    def __new__(cls) -> "Handle":
        structure = PsSearch()
        address = ctypes.addressof(structure)
        _structures[address] = structure
        return super().__new__(cls, address)

    # (the names of the module may be gone while the interpreter ends)
    def __del__(self, _free: Any = free, _structures: Dict[int, PsSearch] = _structures) -> None:
        _free(self)
        del _structures[self]


match = _holding.ps_search_match
match.argtypes = [_search, *_bytes, ctypes.c_bool, ctypes.POINTER(PsMatch)]
match.restype = _status
selects = _holding.ps_search_selects
selects.argtypes, selects.restype = [_search, *_bytes, ctypes.c_bool], _status
match_all = _holding.ps_search_match_all
match_all.argtypes, match_all.restype = [_search, *_bytes, *_room], _status
may_skip = _holding.ps_search_may_skip
may_skip.argtypes, may_skip.restype = [_search, *_bytes], _status
can_match = _holding.ps_search_can_match
can_match.argtypes = [_search, *_bytes, ctypes.c_bool]
can_match.restype = _status

common_prefix = _holding.ps_search_common_prefix
longest_common_directory = _holding.ps_search_longest_common_directory
prefix_directory = _holding.ps_search_prefix_directory
for _call in common_prefix, longest_common_directory, prefix_directory:
    _call.argtypes, _call.restype = [_search, *_room], _status

defaults_from_words = _holding.ps_defaults_from_words
defaults_from_words.argtypes = [
    *_bytes,
    *_bytes,
    *_bytes,
    *_bytes,
    ctypes.POINTER(ctypes.c_uint32),
    _fault,
]
defaults_from_words.restype = _status

fault_name = _holding.ps_fault_name
fault_name.argtypes, fault_name.restype = [ctypes.c_uint32, *_room], _status
