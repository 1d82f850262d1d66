"""Prints the files below a directory that pathspecs select, each ended by the byte 0.

    walk.py [-a] [-v] DIRECTORY [SPEC...]

With -a specs with `attr:` are answered by the attribute files of the directories that are opened. With -v the last line on standard error says how many directories were opened.
"""

import os
import sys

from puneloviash import Pathspec, PathspecError


def main(words):
    attributes = words[:1] == [b"-a"]
    words = words[attributes:]
    verbose = words[:1] == [b"-v"]
    top, *specs = words[verbose:]
    with Pathspec(specs) as search:
        walk = search.walk(top, attributes=attributes)
        for path in walk:
            sys.stdout.buffer.write(path + b"\0")
    if verbose:
        print(f"opened {walk.opened}", file=sys.stderr)


if __name__ == "__main__":
    try:
        main([os.fsencode(word) for word in sys.argv[1:]])
    except (PathspecError, OSError) as error:
        sys.exit(f"walk: {error}")
