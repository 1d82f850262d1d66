"""A plain model of git's pathspecs: slow, without a search or a table, to be read and to be compared with.

Texts are bytes. `answer` takes a case of the files beside this one, without its answer, and gives the answer.
"""
from __future__ import annotations

import dataclasses
import json
from typing import Any, Callable, Iterable, Optional, Union, cast

#: The state of an attribute: set, unset, unspecified, or a value.
State = Union[bool, None, bytes]
Assignment = tuple[bytes, State]
#: A token of a glob: its kind, the bytes that it holds, and whether it is negated or, of a byte, escaped.
Token = tuple[str, frozenset[int], bool]

SHELL, GLOB, LITERAL = "shell", "glob", "literal"
WILDCARDS = b"*?[\\"
RESERVED = b"\"#%&'-,;<=>@_`~"
BLANKS = b" \t\r\n"
LOWER, UPPER = frozenset(range(97, 123)), frozenset(range(65, 91))
LETTERS, DIGITS = LOWER | UPPER, frozenset(b"0123456789")
GRAPH = frozenset(range(33, 127))
CLASSES = {
    b"alnum": LETTERS | DIGITS, b"alpha": LETTERS, b"blank": frozenset(b" \t"), b"cntrl": frozenset(range(32)) | {127},
    b"digit": DIGITS, b"graph": GRAPH, b"lower": LOWER, b"print": GRAPH | {32}, b"punct": GRAPH - LETTERS - DIGITS,
    b"space": frozenset(BLANKS), b"upper": UPPER, b"xdigit": DIGITS | frozenset(b"abcdefABCDEF"),
}
ESCAPES = dict(zip(b'abtnvfr"\\', b'\a\b\t\n\v\f\r"\\'))
LONGEST_LINE = 2047
BUILT_IN = b"[attr]binary -diff -merge -text"


class Fault(Exception):
    """A spec is at fault; the argument says why in one word."""


@dataclasses.dataclass
class Spec:
    """What a spec says."""

    path: bytes = b""
    mode: str = SHELL
    top: bool = False
    icase: bool = False
    exclude: bool = False
    directory: bool = False
    nil: bool = False
    #: How many bytes of the path are the directory that it keeps of the prefix.
    kept: int = 0
    attributes: list[Assignment] = dataclasses.field(default_factory=list)


def read(text: bytes, defaults: Iterable[str] = ()) -> Spec:
    """What a text says, or the first fault in it."""
    given = set(defaults)
    if not text:
        raise Fault("EMPTY")
    spec = Spec(icase="icase" in given)
    if "literal" in given:
        spec.path, spec.mode = text, LITERAL
        return spec
    if text == b":":
        return Spec(nil=True)
    body, mode, wanted = text, None, None
    if text.startswith(b":"):
        at = read_short(text, spec)
        if text[at : at + 1] == b"(":
            end = text.find(b")", at)
            if end < 0:
                raise Fault("MISSING_PAREN")
            mode, wanted = read_long(text[at + 1 : end], spec)
            at = end + 1
        body = text[at:]
    spec.mode = mode or (GLOB if "glob" in given else LITERAL if "noglob" in given else SHELL)
    if body.endswith(b"/"):
        spec.directory, body = True, body[:-1]
    spec.path = body
    if wanted is not None:
        if wanted not in (0, len(body)) and body[wanted : wanted + 1] != b"/":
            raise Fault("INVALID_PREFIX")
        spec.kept = wanted
    return spec


def read_short(text: bytes, spec: Spec) -> int:
    """Reads the short magic behind the colon, and tells where it ends."""
    for at in range(1, len(text)):
        byte = text[at : at + 1]
        if byte in RESERVED:
            raise Fault("UNIMPLEMENTED_SHORT")
        if byte not in b"/!^":
            return at + (byte == b":")
        spec.top = spec.top or byte == b"/"
        spec.exclude = spec.exclude or byte != b"/"
    return len(text)


def read_long(text: bytes, spec: Spec) -> tuple[Optional[str], Optional[int]]:
    """Reads the long magic between the parentheses: the mode and the length of the prefix, where it has them."""
    mode: Optional[str] = None
    wanted: Optional[int] = None
    for piece in split_pieces(text):
        if piece in (b"top", b"icase", b"exclude"):
            setattr(spec, piece.decode(), True)
        elif piece in (b"literal", b"glob"):
            if mode not in (None, piece.decode()):
                raise Fault("LITERAL_WITH_GLOB")
            mode = piece.decode()
        elif piece.startswith(b"attr:"):
            if spec.attributes:
                raise Fault("SECOND_ATTRIBUTES")
            spec.attributes = read_attributes(piece[5:])
        elif piece.startswith(b"prefix:"):
            digits = piece[7:]
            if not digits or set(digits) - DIGITS:
                raise Fault("INVALID_PREFIX")
            wanted = int(digits)
        elif piece != b"attr":
            raise Fault("INVALID_KEYWORD")
    return mode, wanted


def split_pieces(text: bytes) -> list[bytes]:
    """The pieces between commas, without the empty ones. A backslash takes the byte behind it."""
    pieces, at = [b""], 0
    while at < len(text):
        size = 2 if text[at : at + 1] == b"\\" else 1
        if text[at : at + size] == b",":
            pieces.append(b"")
        else:
            pieces[-1] += text[at : at + size]
        at += size
    return [piece for piece in pieces if piece]


def read_attributes(text: bytes) -> list[Assignment]:
    """The attributes that a list behind `attr:` wants."""
    if not text:
        raise Fault("EMPTY_ATTRIBUTES")
    wanted: list[Assignment] = []
    for part in filter(None, text.split(b" ")):
        name, state = part, cast(State, True)
        if part.startswith(b"!"):
            name, state = part[1:], None
        elif part.startswith(b"-"):
            name, state = part[1:], False
        elif b"=" in part:
            name, _, value = part.partition(b"=")
            state = read_value(value)
        if not is_name(name):
            raise Fault("INVALID_NAME")
        wanted.append((name, state))
    return wanted


def read_value(text: bytes) -> bytes:
    """The value that a text writes, in which a backslash stands for the byte behind it."""
    value, at = b"", 0
    while at < len(text):
        if text[at : at + 1] == b"\\":
            at += 1
            if at == len(text):
                raise Fault("TRAILING_ESCAPE")
        if text[at] not in LETTERS | DIGITS | set(b",-_"):
            raise Fault("INVALID_VALUE_BYTE")
        value += text[at : at + 1]
        at += 1
    return value


def is_name(text: bytes) -> bool:
    """Whether a text may be the name of an attribute."""
    return not text.startswith(b"-") and not set(text) - LETTERS - DIGITS - set(b"-._")


def components(path: bytes) -> list[bytes]:
    """The names between slashes."""
    return [name for name in path.split(b"/") if name not in (b"", b".")]


def normalise(spec: Spec, prefix: bytes = b"", root: bytes = b"") -> Spec:
    """The spec as counted from the top, where it was given in the directory `prefix` of the repository at `root`."""
    names, front = components(spec.path), components(prefix)
    is_absolute = spec.path.startswith(b"/")
    is_joined = bool(front) and not spec.top and not is_absolute
    if is_absolute:
        base = components(root)
        if not root.startswith(b"/") or names[: len(base)] != base:
            raise Fault("OUTSIDE_ROOT")
        names = names[len(base) :]
    stack, least = [*front] if is_joined else [], len(front)
    for name in names:
        if name != b"..":
            stack.append(name)
        elif stack:
            stack.pop()
        else:
            raise Fault("LEAVES_REPOSITORY")
        least = min(least, len(stack))
    kept = least if is_joined else len(stack) if is_absolute else 0
    kept = min(kept, len(stack) if spec.directory else len(stack) - 1)
    normal = dataclasses.replace(spec, path=b"/".join(stack), kept=len(b"/".join(stack[: max(kept, 0)])))
    if not is_joined and not is_absolute and normal.path == spec.path:
        normal.kept = spec.kept
    if not stack and (spec.path or is_joined) and (not is_absolute or b".." in names):
        normal.nil, normal.path = True, b"."
    if spec.nil or normal.nil:
        normal.kept = 0
    return normal


def read_all(texts: list[bytes], defaults: Iterable[str] = (), prefix: bytes = b"", root: bytes = b"") -> list[Spec]:
    """The specs of a search. Each is read before the first is normalised."""
    specs = [read(text, defaults) for text in texts] or [Spec(mode=LITERAL, directory=True)] * bool(prefix)
    return [normalise(spec, prefix, root) for spec in specs]


def read_glob(pattern: bytes, mode: str) -> list[Token]:
    """The tokens of a pattern. A dead one matches nothing, and ends them."""
    tokens, at = cast(list[Token], []), 0
    while at < len(pattern):
        byte = pattern[at : at + 1]
        if byte == b"*":
            end = len(pattern) - len(pattern[at:].lstrip(b"*"))
            tokens.append((kind_of_stars(pattern, at, end, mode), frozenset(), False))
            at = end
        elif byte == b"?":
            tokens.append(("set", frozenset(), True))
            at += 1
        elif byte == b"[":
            found = read_bracket(pattern, at + 1)
            if found is None:
                return [*tokens, ("dead", frozenset(), False)]
            token, at = found
            tokens.append(token)
        elif byte == b"\\":
            if at + 1 == len(pattern):
                return [*tokens, ("dead", frozenset(), False)]
            tokens.append(("byte", frozenset(pattern[at + 1 : at + 2]), True))
            at += 2
        else:
            tokens.append(("byte", frozenset(byte), False))
            at += 1
    return tokens


def kind_of_stars(pattern: bytes, start: int, end: int, mode: str) -> str:
    """What a run of stars is: `deep` takes slashes, `star` doesn't."""
    behind = pattern[end:]
    is_whole = (start == 0 or pattern[start - 1 : start] == b"/") and (not behind or behind.startswith((b"/", b"\\/")))
    return "deep" if mode == SHELL or end - start >= 2 and is_whole else "star"


def read_bracket(pattern: bytes, at: int) -> Optional[tuple[Token, int]]:
    """The set that a bracket holds and where it ends, or None where it never does."""
    negated = pattern[at : at + 1] in (b"!", b"^")
    at += negated
    held: set[int] = set()
    single: Optional[int] = None
    first = at
    while at < len(pattern):
        byte, behind = pattern[at : at + 1], pattern[at + 1 : at + 2]
        close = pattern.find(b"]", at + 2)
        if byte == b"]" and at != first:
            return ("set", frozenset(held), negated), at + 1
        if byte == b"\\" and not behind or byte + behind == b"[:" and close < 0:
            return None
        if byte == b"-" and single is not None and behind not in (b"", b"]"):
            at += 2
            if behind == b"\\":
                behind, at = pattern[at : at + 1], at + 1
                if not behind:
                    return None
            held.update(range(single, behind[0] + 1))
            single = None
        elif byte + behind == b"[:" and close > at + 2 and pattern[close - 1 : close] == b":":
            if pattern[at + 2 : close - 1] not in CLASSES:
                return None
            held |= CLASSES[pattern[at + 2 : close - 1]]
            single, at = None, close + 1
        else:
            single = behind[0] if byte == b"\\" else byte[0]
            held.add(single)
            at += 2 if byte == b"\\" else 1
    return None


def takes(token: Token, byte: int, mode: str, icase: bool) -> bool:
    """Whether a token for one byte takes this one."""
    kind, held, negated = token
    text = bytes([byte])
    forms = set(text + text.lower() + text.upper()) if icase else {byte}
    if kind == "byte":
        return bool(forms & held)
    return (mode == SHELL or text != b"/") and bool(forms & held) != negated


def glob_matches(pattern: bytes, text: bytes, mode: str, icase: bool) -> bool:
    """Whether a glob matches the whole text: the places in the text that each token may begin at."""
    tokens = read_glob(pattern, mode)
    places = {0}
    passed_over: dict[int, set[int]] = {}
    for number, token in enumerate(tokens):
        places = places | passed_over.get(number, set())
        kind = token[0]
        if kind == "deep":
            if mode == GLOB and tokens[number + 1 : number + 2] == [("byte", frozenset(b"/"), False)]:
                # (a deep token and the slash behind it may stand for nothing)
                passed_over[number + 2] = places
            places = {end for start in places for end in range(start, len(text) + 1)}
        elif kind == "star":
            places = {end for start in places for end in range(start, len(text) + 1) if b"/" not in text[start:end]}
        elif kind == "dead":
            return False
        else:
            places = {place + 1 for place in places if place < len(text) and takes(token, text[place], mode, icase)}
    return len(text) in places | passed_over.get(len(tokens), set())


def stem(spec: Spec) -> bytes:
    """The path of a spec before its first wildcard."""
    wildcards = [] if spec.nil else [at for at, byte in enumerate(spec.path) if byte in WILDCARDS]
    return spec.path[: min(wildcards, default=len(spec.path))]


def has_wildcard(spec: Spec) -> bool:
    """Whether the path of a spec holds a wildcard byte, in any mode."""
    return not spec.nil and stem(spec) != spec.path


def always_matches(spec: Spec) -> bool:
    """Whether a spec matches every path: there is no pathspec, or its path is empty."""
    return spec.nil or not spec.path


def folded(text: bytes, icase: bool) -> bytes:
    """A text as it is compared."""
    return text.lower() if icase else text


def is_in_prefix(spec: Spec, path: bytes, is_dir: bool) -> bool:
    """Whether a path lies in what a spec without case has kept of the prefix, which is compared with case."""
    kept = spec.path[: spec.kept]
    return not spec.icase or not kept or path.startswith(kept + b"/") or path == kept and is_dir


def how_literally(spec: Spec, path: bytes, is_dir: bool) -> Optional[str]:
    """How the path of a spec, with no byte a wildcard, matches a path."""
    own, other = folded(spec.path, spec.icase), folded(path, spec.icase)
    if own == other and (is_dir or not spec.directory):
        return "verbatim"
    return "below" if other.startswith(own + b"/") else None


def how(spec: Spec, path: bytes, is_dir: bool) -> Optional[str]:
    """How a spec fits a path, attributes aside."""
    if not is_in_prefix(spec, path, is_dir):
        return None
    if always_matches(spec):
        return "always"
    if has_wildcard(spec) and spec.mode != LITERAL and (is_dir or not spec.directory):
        if glob_matches(spec.path, path, spec.mode, spec.icase):
            return "wildcard"
    return how_literally(spec, path, is_dir)


def how_met(spec: Spec, path: bytes, is_dir: bool, look_up: Callable[[bytes, bool], dict[bytes, State]]) -> Optional[str]:
    """How a spec matches a path that has these attributes."""
    found = how(spec, path, is_dir)
    if found and spec.attributes:
        states = look_up(path, is_dir)
        if any(states.get(name) != state for name, state in spec.attributes):
            return None
    return found


def settle(
    specs: list[Spec], path: bytes, is_dir: bool, look_up: Callable[[bytes, bool], dict[bytes, State]]
) -> tuple[bool, Optional[int], Optional[str]]:
    """Whether a path is selected, the number of the spec that settles it, and how that came to match."""
    found = [(spec, number, how_met(spec, path, is_dir, look_up)) for number, spec in enumerate(specs)]
    includes = [(number, way) for spec, number, way in found if way and not spec.exclude]
    if not includes and not all(spec.exclude for spec in specs):
        return False, None, None
    for spec, number, way in found:
        if way and spec.exclude:
            return False, number, way
    return (True, *includes[0]) if includes else (True, None, None)


def reaches(spec: Spec, directory: bytes) -> bool:
    """Whether a spec may match something at or below a directory, as far as the stem tells."""
    own, other = folded(stem(spec), spec.icase), folded(directory, spec.icase)
    if always_matches(spec) or own == other or own.startswith(other + b"/"):
        return True
    return other.startswith(own if has_wildcard(spec) else own + b"/")


def takes_all_below(spec: Spec, directory: bytes) -> bool:
    """Whether a spec without attributes matches all below a directory."""
    if spec.attributes or not is_in_prefix(spec, directory, True):
        return False
    if always_matches(spec) or how_literally(spec, directory, True):
        return True
    is_open = spec.mode != LITERAL and [kind for kind, _, _ in read_glob(spec.path, spec.mode)][-1:] == ["deep"]
    return is_open and not spec.directory and glob_matches(spec.path, directory + b"/", spec.mode, spec.icase)


def must_enter(specs: list[Spec], directory: bytes) -> bool:
    """Whether a walk can't tell that nothing below a directory is selected."""
    if any(spec.exclude and takes_all_below(spec, directory) for spec in specs):
        return False
    includes = [spec for spec in specs if not spec.exclude]
    return not includes or any(reaches(spec, directory) for spec in includes)


#: A line that gives attributes to paths: its pattern, its file's directory, what it assigns, and its file and number.
Place = tuple[bytes, int]
Rule = tuple[bytes, bytes, list[Assignment], Place]
Macro = tuple[bytes, list[Assignment]]


def unquoted(line: bytes) -> Optional[tuple[bytes, bytes]]:
    """What a text in quotes stands for and what stands behind it, or None where the quotes aren't whole."""
    text, at = b"", 1
    while at < len(line):
        byte, behind = line[at], line[at + 1 : at + 4]
        if byte == ord('"'):
            return text, line[at + 1 :]
        size = 1
        if byte == ord("\\") and behind[:1] and behind[0] in ESCAPES:
            byte, size = ESCAPES[behind[0]], 2
        elif byte == ord("\\"):
            if len(behind) < 3 or set(behind) - set(b"01234567") or behind[0] > ord("3"):
                return None
            byte, size = int(behind, 8), 4
        text, at = text + bytes([byte]), at + size
    return None


def split_line(line: bytes) -> tuple[bytes, list[bytes]]:
    """The pattern of a line, and the words behind it."""
    found = unquoted(line) if line.startswith(b'"') else None
    pattern, behind = found or (cut(line)[0], line[len(cut(line)[0]) :])
    return pattern, [word for word in cut(behind) if word]


def cut(text: bytes) -> list[bytes]:
    """A text between blanks, the empty parts too."""
    return text.translate(bytes.maketrans(BLANKS, b" " * len(BLANKS))).split(b" ")


def read_assignment(word: bytes) -> Optional[Assignment]:
    """What a word of a line assigns, or None where its name is none."""
    front = word[:1]
    name, equals, value = (word[1:] if front in (b"-", b"!") else word).partition(b"=")
    state: State = False if front == b"-" else None if front == b"!" else value if equals else True
    return (name, state) if name and is_name(name) else None


def read_file(text: bytes, base: bytes, name: bytes, may_define: bool) -> tuple[list[Rule], list[Macro]]:
    """The rules and the macros of an attribute file."""
    rules: list[Rule] = []
    macros: list[Macro] = []
    for number, line in enumerate(text.removeprefix(b"\xef\xbb\xbf").split(b"\n"), 1):
        line = line.removesuffix(b"\r").partition(b"\0")[0]
        if len(line) > LONGEST_LINE or not line.strip(BLANKS) or line.strip(BLANKS).startswith(b"#"):
            continue
        pattern, states = split_line(line.lstrip(BLANKS))
        assignments = [read_assignment(word) for word in states]
        if None in assignments:
            continue
        known = [one for one in assignments if one is not None]
        if pattern.startswith(b"[attr]") and len(pattern) > 6:
            macro = cut(pattern[6:].lstrip(BLANKS).partition(b"\0")[0])[0]
            if may_define and macro and is_name(macro):
                macros.append((macro, known))
        elif not pattern.startswith(b"!"):
            rules.append((pattern.partition(b"\0")[0], base, known, (name, number)))
    return rules, macros


def rule_fits(rule: Rule, path: bytes, is_dir: bool) -> bool:
    """Whether a rule gives its attributes to a path. A pattern without a slash is compared with the last name."""
    pattern, base, _, _ = rule
    body = pattern.removesuffix(b"/")
    if body != pattern and not is_dir:
        return False
    if b"/" not in body:
        return glob_matches(body, path.rpartition(b"/")[2], SHELL, False)
    below = path[len(base) + 1 :] if base else path
    return glob_matches(body.removeprefix(b"/"), below, GLOB, False)


def decide(files: list[dict[str, Any]], path: bytes, is_dir: bool) -> dict[bytes, tuple[State, Place]]:
    """The state of each attribute of a path that some file speaks of, and the place of the rule that decides it."""
    texts = {(file["place"], as_bytes(file.get("directory", ""))): as_bytes(file["text"]) for file in files}
    parents = [b"/".join(path.split(b"/")[:count]) for count in range(path.count(b"/"), -1, -1)]
    own = [("directory", base, base + b"/" * bool(base) + b".gitattributes") for base in parents]
    order = [("info", b"", b"info/attributes"), *own, ("global", b"", b"global")]
    said: list[tuple[Assignment, Place]] = []
    macros: list[Macro] = []
    for place, base, name in order:
        rules, defined = read_file(texts.get((place, base), b""), base, name, place != "directory" or not base)
        macros += reversed(defined)
        for rule in reversed(rules):
            if rule_fits(rule, path, is_dir):
                said += [(one, rule[3]) for one in reversed(rule[2])]
    macros += read_file(BUILT_IN, b"", b"", True)[1]
    decided: dict[bytes, tuple[State, Place]] = {}
    while said:
        ((name, state), where), said = said[0], said[1:]
        if name not in decided:
            decided[name] = state, where
            body = next((body for macro, body in macros if macro == name), [])
            if state is True:
                said = [(one, where) for one in reversed(body)] + said
    return decided


def as_bytes(text: Union[str, list[int]]) -> bytes:
    """The bytes of a text of a case."""
    return text.encode() if isinstance(text, str) else bytes(text)


def as_json(text: bytes) -> Union[str, list[int]]:
    """A text as cases write it."""
    try:
        return text.decode()
    except UnicodeDecodeError:
        return list(text)


def state_as_json(state: State) -> Any:
    """A state as cases write it: true, false, null or a value."""
    return as_json(state) if isinstance(state, bytes) else state


def search(case: dict[str, Any]) -> list[Spec]:
    """The specs of a case."""
    texts = [as_bytes(text) for text in case["specs"]]
    return read_all(texts, case.get("defaults", ()), as_bytes(case.get("prefix", "")), as_bytes(case.get("root", "")))


def spec_as_json(spec: Spec) -> dict[str, Any]:
    """What a spec says, as cases write it."""
    magic = [name for name in ("directory", "exclude", "icase", "nil", "top") if getattr(spec, name)]
    wanted = [[as_json(name), state_as_json(state)] for name, state in spec.attributes]
    answer = {"refused": False, "path": as_json(spec.path), "mode": spec.mode, "magic": magic, "attributes": wanted}
    return {**answer, "kept": as_json(spec.path[: spec.kept])}


def answer_attributes(case: dict[str, Any]) -> dict[str, Any]:
    decided = decide(case["files"], as_bytes(case["path"]), case.get("is_dir", False))
    known = {name: decided[name.encode()] for name in case["names"] if name.encode() in decided}
    states = {name: state_as_json(known[name][0]) if name in known else None for name in case["names"]}
    return {"states": states, "rules": {name: [as_json(file), line] for name, (_, (file, line)) in known.items()}}


def answer_to_paths(case: dict[str, Any], paths: list[tuple[bytes, bool]]) -> list[tuple[bool, Optional[int], Optional[str]]]:
    """Whether each path is selected, by which spec, and how."""
    specs, files = search(case), case.get("files", [])

    def look_up(path: bytes, is_dir: bool) -> dict[bytes, State]:
        return {name: state for name, (state, _) in decide(files, path, is_dir).items()}

    return [settle(specs, path, is_dir, look_up) for path, is_dir in paths]


def answer(case: dict[str, Any]) -> dict[str, Any]:
    """The answer to a case; its topic is what its id begins with."""
    topic = case["id"].partition("-")[0]
    try:
        if topic == "reading":
            return spec_as_json(read(as_bytes(case["text"]), case.get("defaults", ())))
        if topic == "normalising":
            return spec_as_json(search({**case, "specs": [case["text"]]})[0])
        if topic == "globs":
            pair = as_bytes(case["pattern"]), as_bytes(case["text"])
            return {"matches": glob_matches(*pair, case["mode"], case.get("icase", False))}
        if topic == "pruning":
            return {"enter": must_enter(search(case), as_bytes(case["directory"]))}
        if topic == "attributes":
            return answer_attributes(case)
        if topic == "lists":
            texts = [as_bytes(line) for line in case["lines"]]
            found = answer_to_paths(case, [(text.removesuffix(b"/"), text.endswith(b"/")) for text in texts])
            return {"lines": [line for line, (selected, _, _) in zip(case["lines"], found) if selected]}
        [(selected, number, way)] = answer_to_paths(case, [(as_bytes(case["path"]), case.get("is_dir", False))])
        return {"selected": selected, "spec": number, "how": way}
    except Fault as fault:
        return {"refused": True, "fault": str(fault)}


if __name__ == "__main__":
    import sys

    for question in sys.stdin:
        print(json.dumps(answer(json.loads(question))), flush=True)
