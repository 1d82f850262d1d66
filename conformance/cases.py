"""The cases: how they are read and written, and when an answer passes."""
from __future__ import annotations

import hashlib
import json
import pathlib
from typing import Any

FOLDER = pathlib.Path(__file__).resolve().parent
#: The topics, and the part of an answer that every program has to tell.
TOPICS = {
    "reading": "refused",
    "normalising": "refused",
    "matching": "selected",
    "globs": "matches",
    "pruning": "enter",
    "attributes": "states",
    "lists": "lines",
}
#: What of a case isn't the question.
TOLD = ("id", "rule", "witness", "answer", "git", "difference")
PASSED, FAILED, UNSUPPORTED = "passed", "failed", "not supported"
Case = dict[str, Any]
Answer = dict[str, Any]


def topic_of(case: Case) -> str:
    """The topic of a case, which its id begins with."""
    topic, _, _ = case["id"].partition("-")
    return str(topic)


def question_of(case: Case) -> Case:
    """What a program is asked: the case without its answers."""
    return {key: case[key] for key in case if key in ("id",) or key not in TOLD}


def identity(topic: str, question: Case) -> str:
    """The id of a question. It stays while the question does."""
    asked = {key: question[key] for key in question if key not in TOLD}
    digest = hashlib.sha256(json.dumps(asked, sort_keys=True).encode()).hexdigest()
    return f"{topic}-{digest[:8]}"


def written(case: Case) -> str:
    """The line of a case."""
    return json.dumps(case, ensure_ascii=False) + "\n"


def load(topics: list[str]) -> list[Case]:
    """The cases of some topics, in their order."""
    lines = [line for topic in topics for line in (FOLDER / f"{topic}.jsonl").read_text(encoding="utf-8").split("\n")]
    return [json.loads(line) for line in lines if line]


def verdict(case: Case, said: Answer) -> str:
    """Whether what a program said passes. It may leave out all but the first part of an answer."""
    if "unsupported" in said:
        return UNSUPPORTED
    want, first = case["answer"], TOPICS[topic_of(case)]
    if first not in said:
        return FAILED
    if first == "enter":
        return PASSED if want["enter"] == "may" or said["enter"] is True else FAILED
    return PASSED if all(said[key] == want[key] for key in want if key in said) else FAILED
