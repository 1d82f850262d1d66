"""Times what puneloviash and pathspec take to filter the paths of a listing:

    peers.py LISTING ROUNDS SPEC... -- GLOB... -- LINE... --

One line: nanoseconds of the processor a path of both, the least of the rounds. It ends with 1 where the two select different numbers.
bench/bindings runs it; the globs are for its sibling in Rust.
"""
import sys
import time

import pathspec
import puneloviash


def timed(paths, call):
    """How many paths a call selects, and nanoseconds a path."""
    start = time.process_time_ns()
    selected = sum(1 for _ in call(paths))
    return selected, (time.process_time_ns() - start) / len(paths)


def main(listing, rounds, *words):
    with open(listing, encoding="utf-8") as file:
        paths = file.read().splitlines()
    lists = [[]]
    for word in words:
        lists.append([]) if word == "--" else lists[-1].append(word)
    specs, _, lines, _ = lists
    search = puneloviash.Pathspec(specs)
    other = pathspec.PathSpec.from_lines("gitwildmatch", lines)
    ours = theirs = float("inf")
    for _ in range(int(rounds)):
        selected, taken = timed(paths, search.filter)
        ours = min(ours, taken)
        matched, taken = timed(paths, other.match_files)
        theirs = min(theirs, taken)
        if selected != matched:
            sys.exit(f"{specs}: {selected} are selected, and pathspec matches {matched}")
    print(f"{ours:9.0f} {theirs:9.0f}")


if __name__ == "__main__":
    main(*sys.argv[1:])
