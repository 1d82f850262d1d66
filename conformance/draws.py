"""Random cases, each with its rule."""
from __future__ import annotations

import random
from typing import Any, Callable

Draw = tuple[str, dict[str, Any]]
MAGIC = ["", "", "", "", ":!", ":/", ":^", ":!/", ":(icase)", ":(glob)", ":(literal)", ":(icase,glob)", ":(exclude,icase)",
    ":(exclude,glob)", ":(exclude,literal)", ":(top,icase)", ":(icase,prefix:1)"]
PLACES = ["", "", "", "a", "a/b", "A", "a*"]
DEFAULTS: list[list[str]] = [[], [], [], [], ["icase"], ["glob"], ["noglob"], ["literal"], ["glob", "icase"]]
PIECES = ["top", "icase", "exclude", "literal", "glob", "attr", "attr:", "prefix:", "prefix:1", "nope", ",", ",", ",", "\\", " ",
    "-", "!", "=", "a", "b", "c=d", "attr:a", ")", "(", "/", "0", "TOP", "+", "."]
NAMES = ["a", "b", "c", "A", "B", "ab", "a.c", "b.c", ".a", "*", "[a]", "a*", "ä"]
TOKENS = ["a", "b", "c", "/", "*", "**", "?", "[ab]", "[!a]", "[a-c]", "\\", "\\*", "[", "]", "-", "**/", "/**", "[[:alpha:]]",
    "[[:upper:]-c]", "[]a]", "[b-\\c]", "[a\\]]", "A", "."]


def some(**more: Any) -> dict[str, Any]:
    """What isn't empty."""
    return {name: value for name, value in more.items() if value}


def path(pick: random.Random) -> str:
    return "/".join(pick.choice(NAMES) for _ in range(pick.choice([1, 1, 2, 2, 3])))


def pattern(pick: random.Random) -> str:
    if pick.random() < 0.5:
        return path(pick)
    return "".join(pick.choice(TOKENS) for _ in range(pick.randint(1, 5)))


def spec(pick: random.Random) -> str:
    text = pick.choice(MAGIC) + pattern(pick) + pick.choice(["", "", "", "/"])
    return text or "."


def reading(pick: random.Random) -> Draw:
    form = pick.random()
    body = pick.choice(["a", "a/b", "a/b/", "*", "", "(a)", ":a"])
    if form < 0.3:
        text = ":" + "".join(pick.choice("/!^:#%-_~(a") for _ in range(pick.randint(0, 4))) + body
    else:
        text = ":" + pick.choice(["", "", "!", "/", ":"]) + "(" + "".join(pick.choice(PIECES) for _ in range(pick.randint(1,
            6))) + pick.choice([")", ")", ")", ""]) + body
    return "RULES.md 1", {"text": text, **some(defaults=pick.choice(DEFAULTS))}


def normalising(pick: random.Random) -> Draw:
    names = [pick.choice(["a", "b", "..", "..", ".", "", "c*"]) for _ in range(pick.randint(0, 5))]
    front = pick.choice(["", "", "", "/r/", "/"])
    text = pick.choice(MAGIC) + front + "/".join(names) or "."
    return "RULES.md 10", {"text": text, **some(prefix=pick.choice(["", "a", "a/b", "a/b/c"]), root=pick.choice(["", "/r"]),
        defaults=pick.choice(DEFAULTS))}


def matching(pick: random.Random) -> Draw:
    specs = [spec(pick) for _ in range(pick.choice([1, 1, 2, 2, 3]))]
    more = some(prefix=pick.choice(PLACES), defaults=pick.choice(DEFAULTS))
    return "RULES.md 19", {"specs": specs, **more, "path": path(pick), **some(is_dir=pick.random() < 0.2)}


def globs(pick: random.Random) -> Draw:
    glob = "".join(pick.choice(TOKENS) for _ in range(pick.randint(1, 6))).strip("/") or "*"
    text = "".join(pick.choice("aabbcA/*[]-\\.") for _ in range(pick.randint(1, 6))).strip("/") or "a"
    parts = [name for name in text.split("/") if name not in ("", ".", "..")] or ["a"]
    whole = [name for name in glob.split("/") if name not in ("", ".", "..")] or ["*"]
    return "RULES.md 20", {"pattern": "/".join(whole), "mode": pick.choice(["shell", "glob"]), **some(icase=pick.random() < 0.2),
        "text": "/".join(parts)}


def pruning(pick: random.Random) -> Draw:
    specs = [spec(pick) for _ in range(pick.choice([1, 2, 2, 3]))]
    more = some(prefix=pick.choice(PLACES), defaults=pick.choice(DEFAULTS))
    return "RULES.md 28", {"specs": specs, **more, "directory": pick.choice(["a", "b", "a/b", "A", "ab", "a/b/c", "[a]", "a*"])}


def line(pick: random.Random) -> str:
    states = " ".join(pick.choice(["x", "-x", "!x", "x=1", "y", "-y", "y=v", "m", "-m", "n", "binary", "text", "x=", "+",
        "-x=2"]) for _ in range(pick.randint(0, 3)))
    front = pick.choice(["", "", "", "", " ", "\t", "[attr]", "#", "!", '"', "/"])
    glob = pick.choice(["a", "b", "*", "*.c", "a/b", "a/*", "a/", "**/b", "a/**", "m", "n", 'a"', "\\141", "[ab]"])
    return front + glob + pick.choice([" ", " ", "\t", "  "]) + states


def files(pick: random.Random) -> list[dict[str, Any]]:
    found: list[dict[str, Any]] = []
    for place in pick.sample(["directory", "directory a", "info", "global", "directory a/b"], pick.choice([1, 1, 2, 3])):
        kind, _, directory = place.partition(" ")
        text = "".join(line(pick) + pick.choice(["\n", "\n", "\r\n"]) for _ in range(pick.randint(1, 4)))
        found.append({"place": kind, **some(directory=directory), "text": text})
    return found


def attributes(pick: random.Random) -> Draw:
    asked = {"files": files(pick), "path": pick.choice(["a", "b", "a/b", "a.c", "a/a.c", "a/b/b", "#a", "m"]),
        **some(is_dir=pick.random() < 0.2), "names": ["x", "y", "m", "text"]}
    return "RULES.md 31", asked


def lists(pick: random.Random) -> Draw:
    wanted = " ".join(pick.sample(["x", "-x", "!x", "x=1", "y", "!y", "-text"], pick.randint(1, 2)))
    magic = pick.choice(["", "", "exclude,", "glob,", "icase,"])
    specs = [f":({magic}attr:{wanted}){pick.choice(['', '', '*', 'a', 'b', '*.c', 'a/*'])}",
        *[spec(pick) for _ in range(pick.choice([0, 0, 1]))]]
    lines = sorted({pick.choice(["a.c", "b.c", "a/a.c", "a/b/b", "a/b/a.c", "b", "c/a", "c/b.c"]) for _ in range(6)})
    return "RULES.md 19", {"specs": specs,
        "files": [file for file in files(pick) if file["place"] != "global"] or [{"place": "info", "text": "* x\n"}],
        "lines": lines}


DRAWS: dict[str, Callable[[random.Random], Draw]] = {
    "reading": reading,
    "normalising": normalising,
    "matching": matching,
    "globs": globs,
    "pruning": pruning,
    "attributes": attributes,
    "lists": lists,
}
