"""Asks git, in a fresh repository whose files and index are made anew for each question."""
from __future__ import annotations

import os
import shutil
import subprocess
from typing import Any, Optional

import model
from cases import Answer, Case, topic_of

BLOB = b"e69de29bb2d1d6434b8b29ae775ad8c2e48c5391"


def is_there() -> bool:
    """Whether git is there, of the version whose answers the cases have."""
    found = shutil.which("git") and subprocess.run(["git", "version"], capture_output=True, text=True).stdout
    return bool(found) and str(found).startswith("git version 2.39.")


class Unasked(Exception):
    """Git can't be asked this; the argument says why."""


class Git:
    """A repository in a folder."""

    def __init__(self, folder: str) -> None:
        self.top = os.path.join(os.fsencode(folder), b"repository")
        self.index = os.path.join(os.fsencode(folder), b"index")
        quiet = {"GIT_CONFIG_GLOBAL": os.devnull, "GIT_CONFIG_NOSYSTEM": "1", "LC_ALL": "C",
            "GIT_INDEX_FILE": os.fsdecode(self.index)}
        kept = {name: value for name, value in os.environ.items() if not name.startswith("GIT_")}
        self.environment = {**kept, **quiet, "HOME": folder, "XDG_CONFIG_HOME": folder}
        os.mkdir(self.top)
        self.run(b"", ["init", "-q"])

    def run(self, directory: bytes, words: list[Any], given: bytes = b"") -> tuple[int, bytes]:
        """The status and the output of a run in a directory of the repository."""
        place = os.path.join(self.top, directory)
        found = subprocess.run(["git", *words], cwd=place, input=given, capture_output=True, env=self.environment)
        return found.returncode, found.stdout

    def clear(self) -> None:
        """Takes away all files but the repository's own."""
        names = [os.path.join(self.top, name) for name in os.listdir(self.top) if name != b".git"]
        for path in [*names, self.index, os.path.join(self.top, b".git/info/attributes")]:
            if os.path.isdir(path):
                shutil.rmtree(path)
            elif os.path.exists(path):
                os.remove(path)

    def write(self, path: bytes, text: bytes) -> None:
        """Writes a file, and the directories above it."""
        whole = os.path.join(self.top, path)
        os.makedirs(os.path.dirname(whole), exist_ok=True)
        with open(whole, "wb") as file:
            file.write(text)

    def answer(self, question: Case) -> Answer:
        """What git answers, or why it can't be asked."""
        self.clear()
        try:
            return ASKED[topic_of(question)](self, question)
        except Unasked as reason:
            return {"unsupported": str(reason)}

    def listed(self, question: Case, specs: list[bytes], words: list[str]) -> Optional[list[bytes]]:
        """What `git ls-files` lists for specs, or None where it refuses them."""
        if any(b"\0" in spec for spec in specs):
            raise Unasked("the byte 0 can't stand in a word")
        if question.get("root"):
            raise Unasked("the repository lies elsewhere")
        prefix = model.as_bytes(question.get("prefix", ""))
        os.makedirs(os.path.join(self.top, prefix), exist_ok=True)
        flags = [f"--{name}-pathspecs" for name in question.get("defaults", ())]
        status, output = self.run(prefix, [*flags, "ls-files", "-z", "--full-name", *words, "--", *specs])
        return None if status else output.split(b"\0")[:-1]

    def listed_of(self, question: Case, specs: list[bytes], paths: list[bytes]) -> list[bytes]:
        """Which of some paths specs select, by an index that holds them. The directory that specs share isn't cut off."""
        for path in paths:
            if not path or b"/".join(model.components(path)) != path or any(other.startswith(path + b"/") for other in paths):
                raise Unasked("an index holds no directories")
        rows = b"".join(b"100644 %s\t%s\0" % (BLOB, path) for path in paths)
        if self.run(b"", ["update-index", "-z", "--index-info"], rows)[0]:
            raise Unasked("no index holds these paths")
        found = self.listed(question, specs, ["--recurse-submodules"])
        return [] if found is None else found

    def refuses(self, question: Case) -> Answer:
        return {"refused": self.listed(question, [model.as_bytes(question["text"])], []) is None}

    def matching(self, question: Case) -> Answer:
        if question.get("is_dir"):
            raise Unasked("an index holds no directories")
        path = model.as_bytes(question["path"])
        return {"selected": self.listed_of(question, [model.as_bytes(spec) for spec in question["specs"]], [path]) == [path]}

    def globs(self, question: Case) -> Answer:
        pattern, text, icase = model.as_bytes(question["pattern"]), model.as_bytes(question["text"]), question.get("icase", False)
        if b"/".join(model.components(pattern)) != pattern or b".." in model.components(pattern):
            raise Unasked("git takes the pattern for another path")
        if model.how_literally(model.Spec(pattern, icase=icase), text,
            False) == ("verbatim" if model.has_wildcard(model.Spec(pattern)) else "below"):
            raise Unasked("git compares the bytes, too")
        magic = [b"glob"] * (question["mode"] == model.GLOB) + [b"icase"] * icase
        return {"matches": self.listed_of(question, [b":(" + b",".join(magic) + b")" + pattern], [text]) == [text]}

    def pruning(self, question: Case) -> Answer:
        if "witness" not in question:
            raise Unasked("git doesn't say which directories it skips")
        if "attr:" in str(question["specs"]):
            raise Unasked("it is asked without attributes")
        witness = model.as_bytes(question["witness"])
        self.write(witness, b"")
        return {"enter": witness in (self.listed(question, [model.as_bytes(spec) for spec in question["specs"]], ["-o"]) or [])}

    def put_files(self, question: Case) -> list[str]:
        """Writes the attribute files of a question, and gives git's words for them."""
        config: list[str] = []
        for file in question.get("files", []):
            text, directory = model.as_bytes(file["text"]), model.as_bytes(file.get("directory", ""))
            if file["place"] == "directory":
                self.write(os.path.join(directory, b".gitattributes"), text)
            elif file["place"] == "info":
                self.write(b".git/info/attributes", text)
            else:
                self.write(b"../attributes", text)
                config = ["-c", "core.attributesFile=" + os.fsdecode(os.path.join(self.top, b"../attributes"))]
        return config

    def attributes(self, question: Case) -> Answer:
        config = self.put_files(question)
        path = model.as_bytes(question["path"]) + b"/" * question.get("is_dir", False)
        status, output = self.run(b"", [*config, "check-attr", "-z", *question["names"], "--", path])
        fields = output.split(b"\0")
        if status:
            raise Unasked("git refuses it")
        states: dict[str, model.State] = {}
        for name, state in zip(fields[1::3], fields[2::3]):
            states[name.decode()] = {b"set": True, b"unset": False, b"unspecified": None}.get(state, state)
        return {"states": {name: model.state_as_json(states[name]) for name in question["names"]}}

    def lists(self, question: Case) -> Answer:
        if any(file["place"] == "global" for file in question.get("files", [])):
            raise Unasked("it is asked without files of a user")
        lines = [model.as_bytes(line) for line in question["lines"]]
        self.put_files(question)
        found = self.listed_of(question, [model.as_bytes(spec) for spec in question["specs"]], lines)
        return {"lines": [model.as_json(line) for line in lines if line in found]}


ASKED = {
    "reading": Git.refuses,
    "normalising": Git.refuses,
    "matching": Git.matching,
    "globs": Git.globs,
    "pruning": Git.pruning,
    "attributes": Git.attributes,
    "lists": Git.lists,
}
