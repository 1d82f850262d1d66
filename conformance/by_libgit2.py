"""Asks libgit2's `git_pathspec_*` by a program in C, which is compiled where pkg-config finds the library."""
from __future__ import annotations

import os
import re
import shutil
import subprocess
from typing import Any, Callable, Optional

import model
from cases import FOLDER, Answer, Case, topic_of

IGNORE_CASE, USE_CASE, NO_GLOB = 1, 2, 4

#: Why it fails cases: the first that fits.
REASONS: list[tuple[str, Callable[[Case], Any]]] = [
    ("it reads no magic: `:!a` is a path", lambda case: some(case, rb"^:")),
    ("it compares a spec as it stands: `./a`, `a//b`, `a/../b`", lambda case: some(case, rb"//|(^|/)\.{1,2}(/|$)")),
    ("a blank at the end of a pattern is dropped", lambda case: some(case, rb" $")),
    ("a slash at the end wants no directory", lambda case: some(case, rb"/$") and not case["answer"].get("selected")),
    ("a backslash at the end of a pattern is dropped", lambda case: some(case, rb"\\$")),
    ("the class `space` has vertical tab and form feed", lambda case: some(case, rb":space:")),
    ("without case a bracket or an escaped byte is compared as it stands", lambda case: case.get("icase") and some(case, rb"[\\\[]")),
    ("a spec with a wildcard never stands for what lies below its path", lambda case: some(case, rb"[*?\[]")),
]


def some(case: Case, pattern: bytes) -> bool:
    """Whether a spec of a case has something in it."""
    return any(re.search(pattern, model.as_bytes(text)) for text in case.get("specs", [case.get("pattern", "")]))


def reason(case: Case) -> str:
    """Why it fails a case."""
    return next((sentence for sentence, fits in REASONS if fits(case)), "for another reason")


def compiled(folder: str) -> Optional[list[str]]:
    """The command that answers, or None where there is no libgit2 or no compiler."""
    compiler, program = os.environ.get("CC", "cc"), os.path.join(folder, "libgit2")
    if not shutil.which("pkg-config") or not shutil.which(compiler):
        return None
    found = subprocess.run(["pkg-config", "--cflags", "--libs", "libgit2"], capture_output=True, text=True)
    if found.returncode:
        return None
    built = subprocess.run([compiler, "-O1", "-o", program, str(FOLDER / "libgit2.c"), *found.stdout.split()])
    return None if built.returncode else [program]


def put(question: Case) -> tuple[int, list[bytes], list[bytes]]:
    """The flags, specs and paths of a question; or it raises ValueError with why it can't be asked."""
    topic = topic_of(question)
    defaults = set(question.get("defaults", ()))
    if topic == "globs":
        if question["mode"] == model.GLOB:
            raise ValueError("it has no globs whose wildcards don't take slashes")
        flags = IGNORE_CASE if question.get("icase") else USE_CASE
        pattern, text = model.as_bytes(question["pattern"]), model.as_bytes(question["text"])
        if text.lower().startswith(pattern.lower() + b"/") or text.lower() == pattern.lower() and set(pattern) & set(model.WILDCARDS):
            raise ValueError("it compares the bytes, too")
        return flags, [pattern], [text]
    if topic not in ("matching", "lists"):
        raise ValueError("it has no call for this")
    if question.get("prefix") or question.get("root"):
        raise ValueError("it takes no directory for specs")
    if "glob" in defaults:
        raise ValueError("it has no globs whose wildcards don't take slashes")
    if "files" in question:
        raise ValueError("it reads no attributes for specs")
    paths = [model.as_bytes(path) for path in question.get("lines", [question.get("path", "")])]
    if question.get("is_dir") or any(path.endswith(b"/") for path in paths):
        raise ValueError("it tells no directories from files")
    flags = IGNORE_CASE if "icase" in defaults else USE_CASE
    flags |= NO_GLOB if defaults & {"literal", "noglob"} else 0
    return flags, [model.as_bytes(spec) for spec in question["specs"]], paths


def answers(questions: list[Case], command: list[str]) -> list[Answer]:
    """What libgit2 answers to questions."""
    said: list[Answer] = []
    given, asked = b"", []
    for question in questions:
        try:
            flags, specs, paths = put(question)
            if any(b"\0" in text for text in specs + paths):
                raise ValueError("it takes no byte 0")
            said.append({})
            asked.append((question, said[-1], paths))
            texts = [b"%d" % flags, b"%d" % len(specs), *specs, b"%d" % len(paths), *paths]
            given += b"".join(text + b"\0" for text in texts)
        except ValueError as reason:
            said.append({"unsupported": str(reason)})
    lines = subprocess.run(command, input=given, stdout=subprocess.PIPE, check=True).stdout.decode().split("\n")
    for (question, answer, paths), line in zip(asked, lines):
        chosen = [path for path, byte in zip(paths, line) if byte == "1"]
        if topic_of(question) == "lists":
            answer["lines"] = [model.as_json(path) for path in chosen]
        else:
            answer["matches" if topic_of(question) == "globs" else "selected"] = bool(chosen)
    return said
