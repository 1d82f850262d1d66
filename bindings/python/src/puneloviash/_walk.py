"""A walk over the files below a directory."""

from __future__ import annotations

import errno
import os
import stat
from typing import TYPE_CHECKING, AnyStr, Callable, Generator, Iterator, List, Optional

if TYPE_CHECKING:
    from ._pathspec import Pathspec


class Walk(Iterator[AnyStr]):
    """The selected files below a directory, by their paths from there: see Pathspec.walk."""

    #: How many directories were opened so far, with the root.
    opened: int

    def __init__(
        self,
        search: Pathspec,
        root: AnyStr,
        on_error: Optional[Callable[[OSError], object]],
        attributes: bool = False,
    ) -> None:
        self.opened = 0
        self._attributes = attributes
        self._search = search
        self._on_error = on_error
        self._paths: Generator[AnyStr, None, None] = self._walk(root)

    def __iter__(self) -> Walk[AnyStr]:
        return self

    def __next__(self) -> AnyStr:
        return next(self._paths)

    def _walk(self, root: AnyStr) -> Generator[AnyStr, None, None]:
        left = [root[:0]]
        while left:
            directory = left.pop()
            try:
                if self._attributes:
                    self._add_attributes(root, directory)
                yield from self._visit(root, directory, left)
            except OSError as error:
                if self._on_error is None:
                    raise
                self._on_error(error)

    def _add_attributes(self, root: AnyStr, directory: AnyStr) -> None:
        """Adds the attribute files that count for what lies in a directory, and in none above it.

        Where one isn't there, an earlier one is taken away.
        """
        from ._pathspec import Place

        whole = os.path.join(os.fsencode(root), os.fsencode(directory))
        if not directory:
            info = _text_of(os.path.join(whole, b".git", b"info", b"attributes"), 0)
            self._search.add_attributes("", info, Place.INFO)
        own = _text_of(os.path.join(whole, b".gitattributes"), os.O_NOFOLLOW)
        self._search.add_attributes(directory, own)

    def _visit(
        self, root: AnyStr, directory: AnyStr, left: List[AnyStr]
    ) -> Generator[AnyStr, None, None]:
        """The selected files in a directory. Directories to enter are added to `left`."""
        git = b".git" if isinstance(root, bytes) else ".git"
        with os.scandir(os.path.join(root, directory) if directory else root) as entries:
            self.opened += 1
            for entry in entries:
                if entry.name == git:
                    continue
                path = os.path.join(directory, entry.name)
                if entry.is_dir(follow_symlinks=False):
                    if not self._search.may_skip(path):
                        left.append(path)
                elif entry.is_symlink() or entry.is_file(follow_symlinks=False):
                    if self._search.matches(path):
                        yield path


def _text_of(path: bytes, flags: int) -> bytes:
    """What an ordinary file holds, which is nothing where there is none."""
    try:
        fd = os.open(path, os.O_RDONLY | os.O_NONBLOCK | os.O_CLOEXEC | flags)
    except OSError as error:
        # (a link that isn't followed is none, nor is a socket)
        if error.errno in (errno.ENOENT, errno.ENOTDIR, errno.ELOOP, errno.ENXIO):
            return b""
        raise
    try:
        if not stat.S_ISREG(os.fstat(fd).st_mode):
            return b""
        with open(fd, "rb", closefd=False) as file:
            return file.read()
    finally:
        os.close(fd)
