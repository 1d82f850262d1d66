"""Asks Puneloviash: the package for Python, in this process, and of what that doesn't tell the program `pathspec`."""
from __future__ import annotations

import json
import os
import re
import shutil
import subprocess
import sys
import tempfile
from typing import Any, Optional

import model
from cases import FOLDER, Answer, Case, topic_of

PLACED = ("OUTSIDE_ROOT", "LEAVES_REPOSITORY")
MODES = {"glob; wildcards take slashes": model.SHELL, "glob; only `**` takes slashes": model.GLOB, "literal": model.LITERAL}


def package() -> Any:
    """The package, where it is installed or the library is built here; and else None."""
    library = FOLDER.parent / "target/library"
    if (library / "libpathspec.so").exists():
        os.environ.setdefault("PATHSPEC_LIB_DIR", str(library))
        sys.path.append(str(FOLDER.parent / "bindings/python/src"))
    try:
        import puneloviash
    except ImportError:
        return None
    return puneloviash


def program() -> Optional[str]:
    """The program `pathspec`: that of PROGRAM, the one that is built here, or the one that is installed."""
    built = str(FOLDER.parent / "crates/pathspec_cli/out/pathspec_cli")
    return os.environ.get("PROGRAM") or (built if os.access(built, os.X_OK) else shutil.which("pathspec"))


def quoted(text: bytes) -> bytes:
    """A text in git's quotes."""
    return b'"' + b"".join(b"\\%03o" % byte if byte < 32 or byte > 126 or byte in b'"\\' else b"%c" % byte for byte in text) + b'"\n'


def shown(text: str) -> bytes:
    """What a text in quotes stands for, in which bytes may be written by their numbers."""
    return re.sub(rb"\\x([0-9a-f]{2})", lambda found: bytes([int(found[1], 16)]), text[1:-1].encode())


class Puneloviash:
    """The package and the program."""

    def __init__(self, folder: str) -> None:
        self.package, self.program, self.folder = package(), program(), folder

    def search(self, question: Case, specs: list[bytes]) -> Any:
        bits = self.package.Defaults(0)
        for name in question.get("defaults", ()):
            bits |= self.package.Defaults[name.upper()]
        prefix, root = model.as_bytes(question.get("prefix", "")), model.as_bytes(question.get("root", ""))
        search = self.package.Pathspec(specs, prefix, root, bits)
        for file in question.get("files", []):
            place = self.package.Place[file["place"].upper()]
            search.add_attributes(model.as_bytes(file.get("directory", "")), model.as_bytes(file["text"]), place)
        return search

    def answer(self, question: Case) -> Answer:
        """What it answers, or why it can't be asked."""
        if self.package is None:
            return {"unsupported": "the package isn't installed: run make library"}
        return ASKED[topic_of(question)](self, question)

    def refused(self, question: Case) -> Optional[Answer]:
        """The fault of a spec, where it has one."""
        try:
            self.search(question, [model.as_bytes(question["text"])]).close()
        except self.package.PathspecError as error:
            return {"refused": True, "fault": error.kind.name}
        return None

    def reading(self, question: Case) -> Answer:
        found = self.refused(question)
        if found and found["fault"] in PLACED:
            return {"refused": False}
        return found or self.meaning(question)

    def normalising(self, question: Case) -> Answer:
        return self.refused(question) or self.meaning(question)

    def meaning(self, question: Case) -> Answer:
        """What a spec means, which the program shows. What it leaves out is empty."""
        if self.program is None:
            return {"unsupported": "the program pathspec isn't built"}
        with open(os.path.join(self.folder, "specs"), "wb") as file:
            file.write(quoted(model.as_bytes(question["text"])))
        words = [f"--{name}" for name in question.get("defaults", ())]
        words += [f"--{name}={question[name]}" for name in ("prefix", "root") if question.get(name)]
        ran = subprocess.run([self.program, "show", *words, "--specs-from", file.name], capture_output=True, check=True)
        fields = {line[2:14].strip(): line[14:] for line in ran.stdout.decode().split("\n")[1:]}
        magic = fields["magic"].split(", ") if "magic" in fields else []
        magic += ["nil"] if fields["long form"] == "':'" else []
        wanted = model.read_attributes(fields["attributes"].encode()) if "attributes" in fields else []
        told = {"refused": False, "path": model.as_json(shown(fields.get("path", "''"))), "mode": MODES[fields["mode"]]}
        attributes = [[model.as_json(name), model.state_as_json(state)] for name, state in wanted]
        return {**told, "magic": sorted(magic), "attributes": attributes, "kept": model.as_json(shown(fields.get("prefix",
            "''")))}

    def matching(self, question: Case) -> Answer:
        specs, path = [model.as_bytes(spec) for spec in question["specs"]], model.as_bytes(question["path"])
        with self.search(question, specs) as search:
            found = search.settle(path, question.get("is_dir", False))
        # (where no include matches, an exclude settles nothing)
        includes = [spec for spec in specs if not self.excludes(question, spec)]
        if found is None or includes and found.is_excluded and not self.selects(question, includes, path):
            return {"selected": False, "spec": None, "how": None}
        kind = found.kind.name.lower()
        if found.number == len(specs) and kind == "always":
            return {"selected": True, "spec": None, "how": None}
        return {"selected": not found.is_excluded, "spec": found.number, "how": kind}

    def excludes(self, question: Case, spec: bytes) -> bool:
        """Whether a spec is an exclude: alone it selects what it doesn't match."""
        with self.search(question, [spec]) as search:
            found = search.settle(b"\1")
            return found is not None and (found.is_excluded or found.number == 1)

    def selects(self, question: Case, specs: list[bytes], path: bytes) -> bool:
        with self.search(question, specs) as search:
            return bool(search.matches(path, question.get("is_dir", False)))

    def globs(self, question: Case) -> Answer:
        pattern, text = model.as_bytes(question["pattern"]), model.as_bytes(question["text"])
        magic = [b"glob"] * (question["mode"] == model.GLOB) + [b"icase"] * question.get("icase", False)
        with self.search({}, [b":(" + b",".join(magic) + b")" + pattern]) as search:
            found = search.settle(text)
        wanted = "WILDCARD" if set(pattern) & set(model.WILDCARDS) else "VERBATIM"
        return {"matches": found is not None and found.kind.name == wanted}

    def pruning(self, question: Case) -> Answer:
        with self.search(question, [model.as_bytes(spec) for spec in question["specs"]]) as search:
            return {"enter": not search.may_skip(model.as_bytes(question["directory"]))}

    def attributes(self, question: Case) -> Answer:
        path, is_dir = model.as_bytes(question["path"]), question.get("is_dir", False)
        values = {value for file in question["files"] for value in re.findall(rb"=([\w,-]*)", model.as_bytes(file["text"]))}
        states: dict[str, Any] = {}
        for name in question["names"]:
            spellings = {"": True, "-": False, "!": None}
            forms = [(front + name, state) for front, state in spellings.items()]
            forms += [(f"{name}={value.decode()}".replace(",", "\\,"), value.decode()) for value in sorted(values)]
            states[name] = next((state for form, state in forms if self.has(question, form, path, is_dir)), "another value")
        if self.program is None:
            return {"states": states}
        return {"states": states, "rules": self.rules(question, states, path, is_dir)}

    def has(self, question: Case, form: str, path: bytes, is_dir: bool) -> bool:
        with self.search(question, [f":(attr:{form})".encode()]) as search:
            return bool(search.matches(path, is_dir))

    def rules(self, question: Case, states: dict[str, Any], path: bytes, is_dir: bool) -> dict[str, Any]:
        """The file and line of the rule that decides each attribute, which the program tells."""
        with tempfile.TemporaryDirectory(dir=self.folder) as top:
            places = {"info": ".git/info/attributes", "global": "git/attributes"}
            for file in question["files"]:
                name = places.get(file["place"]) or os.path.join(file.get("directory", ""), ".gitattributes")
                os.makedirs(os.path.dirname(os.path.join(top, name)), exist_ok=True)
                with open(os.path.join(top, name), "wb") as written:
                    written.write(model.as_bytes(file["text"]))
            fronts = {True: "", False: "-", None: "!"}
            forms = [fronts[state] + name if state in (True, False, None) else f"{name}={state}" for name,
                state in states.items()]
            words = ["explain", "--json", "--attributes", top, "--global", f":(attr:{' '.join(forms)})".replace(",", "\\,")]
            given, environment = path + b"/" * is_dir + b"\n", {**os.environ, "XDG_CONFIG_HOME": top}
            ran = subprocess.run([self.program, *words], input=given, env=environment, capture_output=True, check=True)
            told = json.loads(ran.stdout)["by"]["rules"]
            kept = {f"{top}/{name}": "info/attributes" if place == "info" else place for place, name in places.items()}
            found = {rule["attribute"]: rule for rule in told if "file" in rule}
            file_of = {name: kept.get(rule["file"], rule["file"].removeprefix(top + "/")) for name, rule in found.items()}
            return {name: [file_of[name], found[name]["line"]] for name in states if name in found}

    def lists(self, question: Case) -> Answer:
        lines = [(line, model.as_bytes(line)) for line in question["lines"]]
        with self.search(question, [model.as_bytes(spec) for spec in question["specs"]]) as search:
            return {"lines": [line for line, text in lines if search.matches(text)]}


ASKED = {
    "reading": Puneloviash.reading,
    "normalising": Puneloviash.normalising,
    "matching": Puneloviash.matching,
    "globs": Puneloviash.globs,
    "pruning": Puneloviash.pruning,
    "attributes": Puneloviash.attributes,
    "lists": Puneloviash.lists,
}
