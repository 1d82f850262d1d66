#!/usr/bin/env python3
"""What attribute files say of paths, by the definitions of crates/pathspec_attributes/specs.

Each function has the name of its definition and says the same. It is slow, and stands here as the second opinion
of `questions`, which asks git.
"""

from functools import lru_cache

BLANKS = b" \t\n\r"
LETTERS = {97: 7, 98: 8, 116: 9, 110: 10, 118: 11, 102: 12, 114: 13, 34: 34, 92: 92}
NAME_BYTES = frozenset(b"abcdefghijklmnopqrstuvwxyzABCDEFGHIJKLMNOPQRSTUVWXYZ0123456789-._")


# ---- Lines


def lines(text):
    """The lines of a text: only a line before a line feed loses its carriage return."""
    *ended, last = text.split(b"\n")
    ended = [line[:-1] if line.endswith(b"\r") else line for line in ended]
    return ended + [last] if last else ended


def lines_of(text):
    if text.startswith(b"\xef\xbb\xbf"):
        text = text[3:]
    return [line.split(b"\0")[0] for line in lines(text)]


def at_first_blank(text):
    for place, byte in enumerate(text):
        if byte in BLANKS:
            return text[:place], text[place + 1 :]
    return text, b""


def behind_blanks(text):
    return text.lstrip(BLANKS)


def words(text):
    for blank in BLANKS:
        text = text.replace(bytes([blank]), b" ")
    return [word for word in text.split(b" ") if word]


# ---- Quoting


def escape_of(text):
    """The byte that an escape stands for, and how many bytes it takes behind the backslash."""
    if text and text[0] in LETTERS:
        return LETTERS[text[0]], 1
    if len(text) >= 3 and text[0] in b"0123" and text[1] in b"01234567" and text[2] in b"01234567":
        return int(text[:3], 8), 3
    return None


def unquoted(text):
    """What the text behind an opening quote stands for, and what stands behind its closing quote."""
    made, place = b"", 0
    while place < len(text):
        byte, place = text[place], place + 1
        if byte == ord('"'):
            return made, text[place:]
        if byte == ord("\\"):
            escape = escape_of(text[place:])
            if escape is None:
                return None
            byte, place = escape[0], place + escape[1]
        made += bytes([byte])
    return None


# ---- Readings


def is_git_name(name):
    return bool(name) and all(byte in NAME_BYTES for byte in name) and not name.startswith(b"-")


def named(name, state):
    return (name, state) if is_git_name(name) else None


def assignment_of(word):
    if word.startswith(b"-"):
        return named(word[1:].split(b"=")[0], b"unset")
    if word.startswith(b"!"):
        return named(word[1:].split(b"=")[0], b"unspecified")
    if b"=" in word:
        name, value = word.split(b"=", 1)
        return named(name, value)
    return named(word, b"set")


def assignments_of(text):
    read = [assignment_of(word) for word in words(text)]
    return None if None in read else read


def rule_of(pattern, assignments):
    only_directories = pattern.endswith(b"/")
    body = pattern[:-1] if only_directories else pattern
    if b"/" not in body:
        return "shell", body, only_directories, assignments
    return "path", body[1:] if body.startswith(b"/") else body, only_directories, assignments


def macro_reading(text, states):
    name = at_first_blank(behind_blanks(text).split(b"\0")[0])[0]
    body = assignments_of(states)
    if not is_git_name(name) or body is None:
        return "refused", "name"
    return "defining", (name, body)


def item_reading(may_define, pattern, states):
    if pattern.startswith(b"[attr]") and len(pattern) > 6:
        return macro_reading(pattern[6:], states) if may_define else ("refused", "macro")
    assignments = assignments_of(states)
    if assignments is None:
        return "refused", "name"
    if pattern.startswith(b"!"):
        return "refused", "negative"
    return "ruling", rule_of(pattern.split(b"\0")[0], assignments)


def reading(may_define, line):
    body = behind_blanks(line)
    if not body or body.startswith(b"#"):
        return "nothing", None
    if len(line) >= 2048:
        return "refused", "long"
    if body.startswith(b'"'):
        quoted = unquoted(body[1:])
        if quoted is not None:
            return item_reading(may_define, *quoted)
    return item_reading(may_define, *at_first_blank(body))


# ---- Tokens and Matches of pathspec_glob


def bracket(pattern, place):
    """The token of the bracket whose items begin at a place, and the place behind it."""
    negated = pattern[place : place + 1] in (b"!", b"^")
    place += negated
    items, first, last = [], True, None
    while place < len(pattern):
        byte = pattern[place]
        if byte == ord("]") and not first:
            return ("bracket", negated, tuple(items)), place + 1
        if byte == ord("\\"):
            if place + 1 >= len(pattern):
                break
            last = pattern[place + 1]
            items.append((last, last))
            place += 2
        elif byte == ord("-") and last is not None and pattern[place + 1 : place + 2] not in (b"", b"]"):
            size = 3 if pattern[place + 1] == ord("\\") else 2
            if place + size > len(pattern):
                break
            items.append((last, pattern[place + size - 1]))
            last, place = None, place + size
        else:
            last = byte
            items.append((byte, byte))
            place += 1
        first = False
    return ("dead",), len(pattern)


def stars(mode, after_slash, run, rest):
    if mode == "shell":
        return ("deep",)
    deep = run >= 2 and after_slash and (not rest or rest.startswith((b"/", b"\\/")))
    return ("deep",) if deep else ("star",)


def tokens(mode, pattern):
    made, place, after_slash = [], 0, True
    while place < len(pattern):
        byte, start = pattern[place], place
        if byte == ord("\\"):
            token = ("byte", pattern[place + 1]) if place + 1 < len(pattern) else ("dead",)
            place += 2
        elif byte == ord("["):
            token, place = bracket(pattern, place + 1)
        elif byte == ord("*"):
            place = len(pattern) - len(pattern[place:].lstrip(b"*"))
            token = stars(mode, after_slash, place - start, pattern[place:])
        else:
            token = ("any",) if byte == ord("?") else ("byte", byte)
            place += 1
        made.append(token)
        if token == ("dead",):
            break
        after_slash = pattern[place - 1] == ord("/")
    return made


def takes(mode, folds, token, byte):
    if token[0] == "byte":
        return byte == token[1] or folds and bytes([byte]).lower() == bytes([token[1]]).lower()
    if token[0] == "dead" or mode == "path" and byte == ord("/"):
        return False
    if token[0] == "any":
        return True
    forms = bytes([byte]).lower() + bytes([byte]).upper() if folds else bytes([byte])
    held = any(low <= form <= high for form in forms for low, high in token[2])
    return held != token[1]


def matches(mode, folds, parts, text):
    @lru_cache(None)
    def from_place(number, place):
        if number == len(parts):
            return place == len(text)
        kind = parts[number][0]
        if kind == "deep":
            if any(from_place(number + 1, end) for end in range(place, len(text) + 1)):
                return True
            over = mode == "path" and parts[number + 1 : number + 2] == [("byte", ord("/"))]
            return over and from_place(number + 2, place)
        if kind == "star":
            ends = text.find(b"/", place)
            last = len(text) if ends < 0 else ends
            return any(from_place(number + 1, end) for end in range(place, last + 1))
        taken = place < len(text) and takes(mode, folds, parts[number], text[place])
        return taken and from_place(number + 1, place + 1)

    return from_place(0, 0)


# ---- Rules, Files and Deciding


def fits(folds, base, rule, path, is_dir):
    mode, pattern, only_directories, _ = rule
    if only_directories and not is_dir:
        return False
    if mode == "shell":
        compared = path.split(b"/")[-1]
    else:
        compared = path[len(base) + 1 :] if base else path
    return matches(mode, folds, tokens(mode, pattern), compared)


class AttributeFile:
    def __init__(self, may_define, text):
        read = [reading(may_define, line) for line in lines_of(text)]
        self.rules = [what for kind, what in read if kind == "ruling"]
        self.macros = [what for kind, what in read if kind == "defining"]
        self.left_out = [(number, what) for number, (kind, what) in enumerate(read, 1) if kind == "refused"]


EMPTY = AttributeFile(False, b"")
BUILT_IN = AttributeFile(True, b"[attr]binary -diff -merge -text")


class Files:
    """The files that are held: of `info`, of directories by their paths, and the global one."""

    def __init__(self, folds, info, directories, global_file):
        self.folds, self.info, self.directories, self.global_file = folds, info, directories, global_file

    def file_at(self, path):
        return self.directories.get(path, EMPTY)

    def said(self, path, is_dir):
        above = [path[:end] for end in range(len(path) - 1, 0, -1) if path[end] == ord("/")] + [b""]
        files = [(b"", self.info), *((base, self.file_at(base)) for base in above), (b"", self.global_file)]
        for base, file in files:
            for rule in reversed(file.rules):
                if fits(self.folds, base, rule, path, is_dir):
                    yield from reversed(rule[3])

    def body_in(self, name):
        for file in (self.info, self.file_at(b""), self.global_file, BUILT_IN):
            for own, body in reversed(file.macros):
                if own == name:
                    return body
        return []

    def decided(self, path, is_dir):
        """`Decides`: a name that is known passes, and another is taken with what it brings along."""
        pending = list(self.said(path, is_dir))[::-1]
        known = {}
        while pending:
            name, state = pending.pop()
            if name not in known:
                known[name] = state
                if state == b"set":
                    pending += self.body_in(name)
        return known

    def states(self, path, names):
        is_dir = path.endswith(b"/")
        known = self.decided(path[:-1] if is_dir else path, is_dir)
        return [known.get(name, b"unspecified") for name in names]
