"""Why git answers otherwise than a case says: the first reason of these that fits the case."""
from __future__ import annotations

import re
from typing import Any, Callable

import model
from cases import Case, topic_of


def texts(case: Case) -> list[bytes]:
    """The specs of a case."""
    return [model.as_bytes(text) for text in case.get("specs", [case.get("text", "")])]


def some(case: Case, pattern: bytes) -> bool:
    """Whether a spec of a case has something in it."""
    return any(re.search(pattern, text) for text in texts(case))


def pattern_of(case: Case) -> bytes:
    return model.as_bytes(case["pattern"]) if "pattern" in case else b"\n".join(texts(case))


def specs_of(case: Case) -> list[model.Spec]:
    return model.search(case) if "specs" in case else []


def has(case: Case, *defaults: str) -> bool:
    return set(defaults) <= set(case.get("defaults", ()))


def ignores_case(case: Case) -> bool:
    return bool(case.get("icase")) or has(case, "icase") or some(case, rb"icase")


REASONS: list[tuple[str, Callable[[Case], Any]]] = [
    (
        "git refuses literal pathspecs together with another default",
        lambda case: has(case, "literal") and len(case["defaults"]) > 1,
    ),
    (
        "git compares a slash at the end of a literal pathspec as a byte",
        lambda case: has(case, "literal") and some(case, rb"/$"),
    ),
    (
        "git takes a parenthesis behind short magic for the beginning of the path",
        lambda case: some(case, rb"^:[/!^]+\(|^:[/!^]*:\("),
    ),
    (
        "git refuses an empty name of an attribute",
        lambda case: any("" == name for name, _ in case["answer"].get("attributes", [])),
    ),
    (
        "git refuses a second list of attributes, also behind a blank one",
        lambda case: some(case, rb"attr: +,"),
    ),
    (
        "git writes prefix:N for itself, counts the slash, and takes any number",
        lambda case: some(case, rb"prefix:"),
    ),
    (
        "git compares a path from the top as it stands: `..` and `.` aren't resolved",
        lambda case: some(case, rb"^:/|top") and some(case, rb"\."),
    ),
    (
        "git takes an absolute path from the top for a path that begins with a slash",
        lambda case: some(case, rb"^:/|top") and some(case, rb"\)/|//"),
    ),
    (
        "git takes a lone colon in a directory for that directory",
        lambda case: case.get("prefix") and b":" in texts(case),
    ),
    (
        "git selects only what lies in the directory where there are only excludes",
        lambda case: case.get("prefix") and specs_of(case) and all(spec.exclude for spec in specs_of(case)),
    ),
    (
        "git keeps the slash before a last `.`, so it wants a directory",
        lambda case: some(case, rb"/\.$"),
    ),
    (
        "git selects nothing without case where a spec is the directory itself",
        lambda case: ignores_case(case) and any(spec.path == model.as_bytes(case.get("prefix", "")) for spec in specs_of(case)),
    ),
    (
        "git compares the prefix byte for byte, also where it holds wildcards",
        lambda case: set(case.get("prefix", "")) & set("*?[\\"),
    ),
    (
        "git passes over an untracked directory that an exclude matches, with all below it",
        lambda case: topic_of(case) == "pruning" and any(spec.exclude for spec in specs_of(case)),
    ),
    (
        "git takes two stars behind a plain byte for stars that take slashes",
        lambda case: re.search(rb"[^/*\n]\*\*", pattern_of(case)),
    ),
    (
        "git compares the text in lower case with a bracket or an escaped byte as it stands",
        lambda case: ignores_case(case) and re.search(rb"[\\\[]", pattern_of(case)),
    ),
]


def reason(case: Case) -> str:
    """The reason of a difference; it raises LookupError where none fits."""
    found = next((sentence for sentence, fits in REASONS if fits(case)), None)
    if found is None:
        raise LookupError(f"no reason is known for {case}")
    return found
