"""A search: specs that match together."""

from __future__ import annotations

import ctypes
import enum
import itertools
import os
import threading
from typing import (
    Any,
    Callable,
    Iterable,
    Iterator,
    List,
    NamedTuple,
    NoReturn,
    Optional,
    Sequence,
    Tuple,
    TypeVar,
    Union,
    cast,
    overload,
)

from . import _library
from ._defaults import Defaults
from ._errors import FaultKind, PathspecError
from ._walk import Walk

#: What may be handed in as a spec or as a path. Its bytes are those of os.fsencode, which keeps
#: surrogate escapes.
Text = Union[str, bytes, "os.PathLike[str]", "os.PathLike[bytes]"]

_Path = TypeVar("_Path", bound=Text)
_NO_DEFAULTS = Defaults(0)
_MIXED = "a search takes lists of attributes or attribute files, and not both"

#: How many paths are handed on in one call.
_AT_ONCE = 1000


class MatchKind(enum.Enum):
    """How a spec came to match."""

    #: The path of the spec is empty, or the path is; or there are only excludes, and none matches.
    ALWAYS = 1
    #: The path lies below the path of the spec.
    BELOW = 2
    #: The path of the spec is a glob, and it matches the path.
    WILDCARD = 3
    #: The path is the path of the spec.
    VERBATIM = 4


class Match(NamedTuple):
    """The spec that settles a path."""

    #: Its place in the list, from 0.
    number: int
    #: How it came to match.
    kind: MatchKind
    #: Whether it takes the path out.
    is_excluded: bool


class Place(enum.Enum):
    """Where an attribute file lies (gitattributes). Where two speak of an attribute of a path, that
    of ``INFO`` counts most and that of ``GLOBAL`` least."""

    #: ``.gitattributes`` of a directory, of which the deeper counts more.
    DIRECTORY = 0
    #: ``info/attributes`` of the repository.
    INFO = 1
    #: What ``core.attributesFile`` names, for all repositories of a user.
    GLOBAL = 2


class Reason(enum.Enum):
    """Why git leaves out a line of an attribute file."""

    #: A reason that this package doesn't know.
    OTHER = 0
    #: It has 2,048 bytes or more.
    TOO_LONG = 1
    #: No name of an attribute.
    INVALID_NAME = 2
    #: A macro in the file of a directory below the top.
    MACRO = 3
    #: A pattern that begins with ``!``.
    NEGATIVE = 4

    @classmethod
    def _missing_(cls, value: object) -> Reason:
        return cls.OTHER


class LeftOut(NamedTuple):
    """The lines of an attribute file that git leaves out."""

    #: How many there are, at least one.
    count: int
    #: The number of the first of them, from 1.
    line: int
    #: Why it is left out.
    reason: Reason


class Pathspec:
    """A search of specs, which answers questions about paths.

    A path is relative to the top of the repository, and has names between single slashes:
    ``src/lib.rs``, not ``./src/lib.rs``. The empty path is the top, which any search selects. A
    slash at the end of a path isn't handed on; the path is then a directory's.

    Threads may use one search at the same time; it answers one of them after the other. No child
    uses it that was forked while there were other threads.

    What it holds is freed by ``close``, at the end of a ``with``, or when nothing refers to it any
    longer. A call that is under way keeps it to its end, where another thread, a signal's handler
    or a ``__del__`` closes the search.

    >>> search = Pathspec(["src", ":!*.o"])
    >>> search.matches("src/a.c"), search.matches("src/a.o")
    (True, False)
    >>> search.close()
    >>> search.matches("src/a.c")
    Traceback (most recent call last):
    ValueError: the search is closed
    """

    def __init__(
        self,
        specs: Iterable[Text],
        prefix: Text = "",
        root: Text = "",
        defaults: Defaults = _NO_DEFAULTS,
    ) -> None:
        """Makes the search of specs, given in ``prefix`` of the repository at ``root``.

        No specs select everything, or with a prefix what lies there. Only specs that are absolute
        paths need the root. The cost is linear in the bytes of all specs, and for each spec in the
        prefix and the root; and they are sorted.

        It raises PathspecError for the first spec with the byte 0; or for the first that can't be
        read, or else the first that can't be placed in the repository; or where the prefix isn't
        clean.

        >>> Pathspec(["../c"], prefix="a/b").matches("a/c")
        True
        """
        if isinstance(specs, (str, bytes, os.PathLike)):
            raise TypeError("specs are a list of specs, not one")
        texts = _joined(specs)
        self._make(_library.new, _library.search_message, texts, prefix, root, defaults)

    @classmethod
    def from_lines(
        cls,
        text: Text,
        prefix: Text = "",
        root: Text = "",
        defaults: Defaults = _NO_DEFAULTS,
    ) -> Pathspec:
        """Makes the search of the specs on the lines of a text.

        They are as in a file of --pathspec-from-file: a line feed ends a line, and the last may
        lack it; one carriage return before a line feed is no part of the line. Nothing is trimmed
        or unquoted, and an empty line is at fault. The byte 0 is one like others.

        >>> Pathspec.from_lines("*.c\\n:!gen\\n").matches("gen/a.c")
        False
        """
        search = cls.__new__(cls)
        text = os.fsencode(text)
        search._make(_library.from_lines, _library.lines_message, text, prefix, root, defaults)
        return search

    def _make(
        self,
        call: Callable[..., int],
        tell: Callable[..., int],
        texts: bytes,
        prefix: Text,
        root: Text,
        defaults: Defaults,
    ) -> None:
        prefix, root = os.fsencode(prefix), os.fsencode(root)
        given = texts, len(texts), prefix, len(prefix), root, len(root), int(defaults)
        handle, fault = _library.Handle(), _library.PsFault()
        status = call(handle, *given, fault)
        if status == _library.MEMORY:
            raise MemoryError
        if status == _library.PREFIX:
            raise PathspecError("the prefix isn't clean", FaultKind.PREFIX)
        if status != _library.OK:
            kind = FaultKind(fault.kind)
            message = _message(tell, *given) or f"spec {fault.number}: {kind.name}"
            raise PathspecError(message, kind, fault.number)
        self._take(handle)

    def _take(self, handle: _library.Handle) -> None:
        """Takes the handle of a search."""
        # (a call of this thread may come between two of its own, as from a signal's handler, but
        # never into one)
        self._lock = threading.RLock()
        self._has_attributes = False
        self._handle: Optional[_library.Handle] = handle

    def _open(self) -> _library.Handle:
        """The handle, which the caller holds while it works. The lock is held."""
        # (it is read once, since the search may be closed between two steps)
        handle = self._handle
        if handle is None:
            raise ValueError("the search is closed")
        return handle

    def share(self) -> Pathspec:
        """The same search, for a thread of its own, without attributes. Specs aren't read again."""
        other, handle = type(self).__new__(type(self)), _library.Handle()
        with self._lock:
            status = _library.share(self._open(), handle)
        if status != _library.OK:
            raise MemoryError
        other._take(handle)
        return other

    def matches(self, path: Text, is_dir: bool = False) -> bool:
        """Whether the search selects a path.

        >>> Pathspec([":(glob)s*"]).matches("src/")
        True
        """
        text, is_dir = _path(path, is_dir)
        with self._lock:
            handle = self._open()
            if not self._has_attributes:
                return bool(_library.selects(handle, text, len(text), is_dir))
        found = self.settle(path, is_dir)
        return found is not None and not found.is_excluded

    def filter(self, paths: Iterable[_Path], is_dir: bool = False) -> Iterator[_Path]:
        """Those of the paths that the search selects, in their order.

        It reads up to 1,000 paths ahead, and asks about these at once.

        >>> list(Pathspec(["*.c"]).filter(["a.c", "a.o", b"b.c"]))
        ['a.c', b'b.c']
        """
        left = iter(paths)
        while True:
            read: List[_Path] = []
            try:
                read.extend(itertools.islice(left, _AT_ONCE))
            except Exception:
                # (those before the fault are still answered)
                yield from self._selected(read, is_dir)
                raise
            yield from self._selected(read, is_dir)
            if len(read) < _AT_ONCE:
                return

    def _selected(self, paths: List[_Path], is_dir: bool) -> Iterator[_Path]:
        """Those of the paths that the search selects, asked about at once where it can be."""
        answers = self._answers(paths, is_dir) if paths else b""
        if answers is None:
            return (path for path in paths if self.matches(path, is_dir))
        return itertools.compress(paths, answers)

    def _answers(self, paths: Sequence[Text], is_dir: bool) -> Optional[bytes]:
        """For each path whether the search selects it, as 1 or 0.

        There is none where a path is no text or has the byte 0, or where memory runs out: then each
        is to be asked about alone, so that the first of these raises what it should.
        """
        try:
            texts = _ended(paths, is_dir)
        except Exception:
            return None
        room, count = ctypes.create_string_buffer(len(paths)), ctypes.c_size_t()
        with self._lock:
            status = _library.match_all(self._open(), texts, len(texts), room, len(room), count)
        return room.raw if status == _library.OK and count.value == len(paths) else None

    def settle(self, path: Text, is_dir: bool = False) -> Optional[Match]:
        """The spec that settles a path, if one does.

        It is the first that matches, of the excludes and then of the includes. The path is selected
        where there is one and ``is_excluded`` is false.

        >>> Pathspec(["src", ":!*.o"]).settle("src/a.o")
        Match(number=1, kind=<MatchKind.WILDCARD: 3>, is_excluded=True)
        """
        (text, is_dir), found = _path(path, is_dir), _library.PsMatch()
        with self._lock:
            _library.match(self._open(), text, len(text), is_dir, found)
        if found.kind == _library.UNSETTLED:
            return None
        if found.kind == _library.NO_MEMORY:
            raise MemoryError
        return Match(found.number, MatchKind(found.kind), found.is_excluded != 0)

    def may_skip(self, directory: Text) -> bool:
        """Whether a walk may skip a directory.

        Then nothing below it is selected, whatever attributes paths have.

        >>> search = Pathspec(["src/*.rs", ":!src/gen"])
        >>> [search.may_skip(name) for name in ("docs", "src", "src/gen")]
        [True, False, True]
        """
        text, _ = _path(directory, True)
        with self._lock:
            return bool(_library.may_skip(self._open(), text, len(text)))

    def can_match(self, path: Text, is_dir: bool = False) -> bool:
        """Whether something at or below a path can match.

        Where it can't, nothing there is selected, whatever attributes paths have. It tells less
        than ``may_skip``, which excludes count for, too.
        """
        text, is_dir = _path(path, is_dir)
        with self._lock:
            return bool(_library.can_match(self._open(), text, len(text), is_dir))

    def assign(self, path: Text, attributes: Text) -> None:
        """Gives a path attributes, as ``attr:`` of a spec has them: ``text -diff !merge eol=lf``.

        No macro is unfolded. Later lists for a path come after earlier ones. A path that was given
        none has every attribute unspecified. It raises PathspecError where the list can't be read,
        or where attribute files were added, and then nothing has changed.

        >>> search = Pathspec([":(attr:text)*"])
        >>> search.assign("a.c", "text eol=lf")
        >>> search.matches("a.c"), search.matches("b.c")
        (True, False)
        """
        text, _ = _path(path, False)
        given, fault = os.fsencode(attributes), _library.PsFault()
        with self._lock:
            status = _library.assign(self._open(), text, len(text), given, len(given), fault)
            self._has_attributes = self._has_attributes or status == _library.OK
        if status == _library.MEMORY:
            raise MemoryError
        if status == _library.MIXED:
            raise PathspecError(_MIXED, FaultKind.MIXED)
        if status != _library.OK:
            kind = FaultKind(fault.kind)
            message = _message(_library.list_message, given, len(given)) or kind.name
            raise PathspecError(message, kind)

    def add_attributes(
        self, directory: Text, text: Union[str, bytes], place: Place = Place.DIRECTORY
    ) -> Optional[LeftOut]:
        """Adds the text of an attribute file, by which specs with ``attr:`` are then answered.

        The directory is where it lies, by its path from the top, empty for the top; it counts only
        with ``Place.DIRECTORY``. The answer for a path depends on the files of the directories
        above it alone, so each may be added before the first question about a path below it. A file
        takes the place of the one that was added there, and the empty text takes it away.

        It tells the lines that git leaves out, if there are any. It raises PathspecError where the
        directory isn't clean, or where ``assign`` was called before; then nothing has changed. No
        list is assigned to a search with files: a text for ``Place.INFO`` counts over all others.

        >>> search = Pathspec([":(attr:text)*"])
        >>> search.add_attributes("", "*.c text\\n!*.h text\\n")
        LeftOut(count=1, line=2, reason=<Reason.NEGATIVE: 4>)
        >>> search.add_attributes("src/gen", "*.c -text")
        >>> search.matches("src/a.c"), search.matches("src/gen/a.c")
        (True, False)
        """
        if not isinstance(text, (str, bytes)):
            raise TypeError("text is what an attribute file holds")
        (path, _), given = _path(directory, True), os.fsencode(text)
        left_out = _library.PsLeftOut()
        with self._lock:
            status = _library.add_attributes(
                self._open(), Place(place).value, path, len(path), given, len(given), left_out
            )
            self._has_attributes = self._has_attributes or status == _library.OK
        if status == _library.MEMORY:
            raise MemoryError
        if status == _library.MIXED:
            raise PathspecError(_MIXED, FaultKind.MIXED)
        if status != _library.OK:
            raise PathspecError("the directory isn't clean", FaultKind.PREFIX)
        if not left_out.count:
            return None
        return LeftOut(left_out.count, left_out.line, Reason(left_out.reason))

    @property
    def common_prefix(self) -> str:
        """What all selected paths begin with, but for the empty path.

        It may end within a name, and may be empty.

        >>> Pathspec(["src/lib", "src/list"]).common_prefix
        'src/li'
        """
        return self._text(_library.common_prefix) or ""

    @property
    def longest_common_directory(self) -> Optional[str]:
        """The directory at or below which all selected paths lie.

        The includes' common prefix tells it. There is none where there is no include, and where it
        is the top.
        """
        return self._text(_library.longest_common_directory)

    @property
    def prefix_directory(self) -> str:
        """What the first include has kept of the prefix.

        It may be empty, and is where there is no include.
        """
        return self._text(_library.prefix_directory) or ""

    def _text(self, call: Callable[..., int]) -> Optional[str]:
        with self._lock:
            text = _copied(call, self._open())
        return None if text is None else os.fsdecode(text)

    @overload
    def walk(
        self,
        root: Union[str, "os.PathLike[str]"] = ".",
        on_error: Optional[Callable[[OSError], object]] = None,
        attributes: bool = False,
    ) -> Walk[str]:
        ...

    @overload
    def walk(
        self,
        root: Union[bytes, "os.PathLike[bytes]"],
        on_error: Optional[Callable[[OSError], object]] = None,
        attributes: bool = False,
    ) -> Walk[bytes]:
        ...

    def walk(
        self,
        root: Any = ".",
        on_error: Optional[Callable[[OSError], object]] = None,
        attributes: bool = False,
    ) -> Walk[Any]:
        """The selected files below a directory, the repository's top.

        Their paths go from there, in no order; they are bytes where the root is. Symbolic links
        count as files and aren't followed. What is called ``.git`` is left out, and so is what is
        neither a file nor a link. No directory is entered that may be skipped.

        With ``attributes`` the walk adds the ``.gitattributes`` of each directory that it enters, if
        that is an ordinary file, and ``.git/info/attributes``. They stay in the search, and no
        attributes are assigned to it. No global file is read.

        Where a directory or its attribute file can't be read, OSError is raised; or it is given to
        ``on_error``, and the walk goes on without what lies in the directory.
        """
        return Walk(self, os.fspath(root), on_error, attributes)

    def close(self) -> None:
        """Frees what the search holds; a call that is under way frees it at its end.

        Closing again does nothing, and any later call raises ValueError.
        """
        self._handle = None

    def __enter__(self) -> Pathspec:
        return self

    def __exit__(self, *_: object) -> None:
        self.close()

    def __reduce__(self) -> NoReturn:
        raise TypeError("a Pathspec can't be pickled or copied: hand on its specs")


def _joined(specs: Iterable[Text]) -> bytes:
    """The bytes of all specs, each ended by the byte 0."""
    texts = []
    for number, spec in enumerate(specs):
        text = os.fsencode(spec)
        position = text.find(b"\0")
        if position >= 0:
            raise PathspecError(
                f"spec {number}: the byte 0 at {position}",
                FaultKind.NUL,
                number,
                position,
            )
        texts.append(text)
    texts.append(b"")
    return b"\0".join(texts)


def _path(path: Text, is_dir: bool) -> Tuple[bytes, bool]:
    """The bytes of a path without slashes at its end, and whether it is a directory's."""
    text = os.fsencode(path)
    if text.endswith(b"/"):
        return text.rstrip(b"/"), True
    return text, is_dir


def _ended(paths: Sequence[Text], is_dir: bool) -> bytes:
    """The bytes of paths, each ended by the byte 0, with a slash before it where they are all of
    directories.
    """
    end = "/\0" if is_dir else "\0"
    try:
        # (a text's bytes are those of its parts)
        return os.fsencode(end.join(cast(Sequence[str], paths)) + end)
    except TypeError:
        # (not all are str)
        last = os.fsencode(end)
        return last.join([os.fsencode(path) for path in paths]) + last


def _copied(call: Callable[..., int], *given: object) -> Optional[bytes]:
    """The text that a call copies to the room that it is given, if there is one."""
    room, length = ctypes.create_string_buffer(256), ctypes.c_size_t()
    status = call(*given, room, len(room), length)
    if length.value > len(room):
        room = ctypes.create_string_buffer(length.value)
        status = call(*given, room, len(room), length)
    return room.raw[: length.value] if status == _library.YES else None


def _message(call: Callable[..., int], *given: object) -> Optional[str]:
    """The message of a fault, if memory lasts."""
    text = _copied(call, *given)
    return None if text is None else text.decode(errors="replace")
