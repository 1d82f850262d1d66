"""Wrong implementations: the model with one text of a function replaced by another, or with the habit of another matcher."""
from __future__ import annotations

import inspect
import re
import types
from typing import Any

import model
from habits import HABITS

#: A function or a constant of the model, what stands in it once, and what a wrong one has in its place.
Mutant = tuple[str, str, str]


SOURCE = inspect.getsource(model)
COMPILED = compile(SOURCE, "model", "exec")


def made(mutant: Mutant) -> types.ModuleType:
    """The model with a mutant's text."""
    name, old, new = mutant
    part = inspect.getsource(getattr(model, name)) if name else SOURCE
    if part.count(old) != 1:
        raise ValueError(f"{old!r} stands {part.count(old)} times in {name or 'the model'}")
    module = types.ModuleType("model")
    exec(COMPILED, module.__dict__)
    exec(compile("from __future__ import annotations\n" * bool(name) + part.replace(old, new), "model", "exec"), module.__dict__)
    return module


READING: list[Mutant] = [
    ("read", 'raise Fault("EMPTY")', "return Spec()"),
    ("read", 'icase="icase" in given', "icase=False"),
    ("read", 'if "literal" in given:', "if False:"),
    ("read", "spec.path, spec.mode = text, LITERAL", "spec.path, spec.mode = text, SHELL"),
    ("read", "spec.path, spec.mode = text, LITERAL", "spec.path, spec.mode, spec.icase = text, LITERAL, False"),
    ("read", "spec.path, spec.mode = text, LITERAL\n        return spec", "text = b':(literal)' + text"),
    ("read", "return Spec(nil=True)", "return Spec()"),
    ("read", "return Spec(nil=True)", "return Spec(nil=True, icase=spec.icase)"),
    ("read", 'text.find(b")", at)', 'text.rfind(b")")'),
    ("read", 'raise Fault("MISSING_PAREN")', "return Spec(path=text)"),
    ("read", "at = end + 1", "at = end + 1 + (text[end + 1 : end + 2] == b':')"),
    ("read", "mode or (GLOB if", "(GLOB if"),
    ("read", 'GLOB if "glob" in given else ', ""),
    ("read", 'LITERAL if "noglob" in given else ', ""),
    ("read", 'body.endswith(b"/")', "False"),
    ("read", "spec.directory, body = True, body[:-1]", "body = body[:-1]"),
    ("read", 'raise Fault("INVALID_PREFIX")', "pass"),
    ("read", 'and body[wanted : wanted + 1] != b"/"', "and wanted > len(body)"),
    ("read", "spec.kept = wanted", "pass"),
    ("read", "wanted not in (0, len(body))", "wanted != 0"),
    ("read_short", "if byte in RESERVED:", "if False:"),
    ("read_short", '(byte == b":")', "0"),
    ("read_short", 'if byte not in b"/!^"', 'if byte not in b"/!"'),
    ("read_short", 'if byte not in b"/!^"', 'if byte not in b"!^"'),
    ("read_short", 'if byte not in b"/!^"', 'if at > 1 or byte not in b"/!^"'),
    ("read_short", 'spec.top or byte == b"/"', 'byte == b"/"'),
    ("read_short", 'spec.exclude or byte != b"/"', 'byte != b"/"'),
    ("read_short", 'spec.exclude or byte != b"/"', 'spec.exclude != (byte != b"/")'),
    ("", 'RESERVED = b"\\"#%&\'-,;<=>@_`~"', 'RESERVED = b"\\"#%&\'-,;<=>@_`~$"'),
    *[("", 'RESERVED = b"\\"#%&\'-,;<=>@_`~"',
        f"RESERVED = {bytes(b for b in bytes(model.RESERVED) if b != one)!r}") for one in b"#-_~\""],
    ("read_long", 'piece in (b"top", b"icase", b"exclude")', 'piece.lower() in (b"top", b"icase", b"exclude")'),
    ("read_long", 'setattr(spec, piece.decode(), True)', 'setattr(spec, piece.decode().replace("icase", "top"), True)'),
    ("read_long", 'raise Fault("LITERAL_WITH_GLOB")', "pass"),
    ("read_long", "if mode not in (None, piece.decode()):", "if mode is not None:"),
    ("read_long", 'raise Fault("SECOND_ATTRIBUTES")', "pass"),
    ("read_long", 'if spec.attributes:\n                raise Fault("SECOND_ATTRIBUTES")\n            ', ""),
    ("read_long", "if spec.attributes:", "if b'attr:' in text[: text.find(piece)]:"),
    ("read_long", "digits = piece[7:]", 'digits = piece[7:].lstrip(b"+ ")'),
    ("read_long", "wanted = int(digits)", "wanted = int(digits) if wanted is None else wanted"),
    ("read_long", "wanted = int(digits)",
        "wanted = int(digits, 8 if digits[:1] == b'0' and not set(digits) & set(b'89') else 10)"),
    ("read_long", 'elif piece != b"attr":', "else:"),
    ("read_long", 'raise Fault("INVALID_KEYWORD")', "pass"),
    ("split_pieces", '2 if text[at : at + 1] == b"\\\\" else 1', "1"),
    ("split_pieces", "if piece]", "]"),
    ("read_attributes", 'raise Fault("EMPTY_ATTRIBUTES")', "pass"),
    ("read_attributes", "filter(None, text.split(b\" \"))", 'text.split(b" ")'),
    ("read_attributes", "name, state = part[1:], None", "name, state = part[1:], False"),
    ("read_attributes", "name, state = part[1:], False", "name, state = part[1:], None"),
    ("read_attributes", 'part.partition(b"=")', 'part.rpartition(b"=")'),
    ("read_attributes", "state = read_value(value)", "state = value"),
    ("read_attributes", 'raise Fault("INVALID_NAME")', "continue"),
    ("read_value", 'raise Fault("TRAILING_ESCAPE")', "break"),
    ("read_value", 'raise Fault("INVALID_VALUE_BYTE")', "pass"),
    ("read_value", 'set(b",-_")', 'set(b",-_.")'),
    ("read_value", 'set(b",-_")', 'set(b"-_")'),
    ("read_value", "value += text[at : at + 1]", "value += text[at : at + 1].lower()"),
    ("is_name", 'not text.startswith(b"-") and ', ""),
    ("is_name", 'set(b"-._")', 'set(b"-_")'),
    ("is_name", 'set(b"-._")', 'set(b"-._+")'),
]
PLACING: list[Mutant] = [
    ("components", 'not in (b"", b".")', 'not in (b"",)'),
    ("components", 'not in (b"", b".")', 'not in (b".",)'),
    ("normalise", "not spec.top and not is_absolute", "not is_absolute"),
    ("normalise", 'if not root.startswith(b"/") or ', "if "),
    ("normalise", "names[: len(base)] != base", 'not spec.path.startswith(root)'),
    ("normalise", 'raise Fault("OUTSIDE_ROOT")', "pass"),
    ("normalise", "names = names[len(base) :]", "pass"),
    ("normalise", "if is_absolute:\n", "if is_absolute and root:\n"),
    ("normalise", 'raise Fault("LEAVES_REPOSITORY")', "pass"),
    ("normalise", "stack.pop()", "del stack[0]"),
    ("normalise", "least = min(least, len(stack))", "least = len(front) - names.count(b'..')"),
    ("normalise", "least = min(least, len(stack))", "pass"),
    ("normalise", "if is_joined else len(stack) if is_absolute else 0", "if is_joined else 0"),
    ("normalise", "kept = min(kept, len(stack) if spec.directory else len(stack) - 1)", "kept = min(kept, len(stack) - 1)"),
    ("normalise", "kept = min(kept, len(stack) if spec.directory else len(stack) - 1)", "kept = min(kept, len(stack))"),
    ("normalise", "normal.kept = spec.kept", "pass"),
    ("normalise", "and normal.path == spec.path", ""),
    ("normalise", "normal.nil, normal.path = True, b\".\"", "pass"),
    ("normalise", "normal.nil, normal.path = True, b\".\"", "normal.nil = True"),
    ("normalise", "(spec.path or is_joined)", "True"),
    ("normalise", '(not is_absolute or b".." in names)', "not is_absolute"),
    ("normalise", "if spec.nil or normal.nil:", "if normal.nil and not spec.nil:"),
    ("read_all", "or [Spec(mode=LITERAL, directory=True)] * bool(prefix)", ""),
    ("read_all", "directory=True", "directory=False"),
]
GLOBS: list[Mutant] = [
    ("read_glob", '("set", frozenset(), True)', '("set", frozenset(b"/"), True)'),
    ("read_glob", 'return [*tokens, ("dead", frozenset(), False)]\n            token, at',
        'found = ("byte", frozenset(byte), False), at + 1\n            token, at'),
    ("read_glob", 'return [*tokens, ("dead", frozenset(), False)]\n            tokens',
        'return [*tokens, ("byte", frozenset(byte), False)]\n            tokens'),
    ("read_glob", "frozenset(pattern[at + 1 : at + 2]), True)", "frozenset(pattern[at + 1 : at + 2]), False)"),
    ("read_glob", 'elif byte == b"\\\\":', "elif False:"),
    ("kind_of_stars", "start == 0 or ", ""),
    ("kind_of_stars", 'or pattern[start - 1 : start] == b"/"', ""),
    ("kind_of_stars", "not behind or ", ""),
    ("kind_of_stars", '(b"/", b"\\\\/")', 'b"/"'),
    ("kind_of_stars", " and is_whole", ""),
    ("kind_of_stars", "end - start >= 2", "end - start == 2"),
    ("kind_of_stars", "mode == SHELL or ", ""),
    ("kind_of_stars", '"deep" if', '"star" if'),
    ("read_bracket", '(b"!", b"^")', '(b"!",)'),
    ("read_bracket", '(b"!", b"^")', '(b"^",)'),
    ("read_bracket", "at += negated", "at += negated\n    negated = False"),
    ("read_bracket", ' and at != first', ""),
    ("read_bracket", "first = at", "first = at - negated"),
    ("read_bracket", 'if byte == b"-" and single is not None', "if False"),
    ("read_bracket", " and single is not None and", ' and single is not None and pattern[at - 1 : at] != b"\\\\" and'),
    ("read_bracket", 'behind not in (b"", b"]")', 'behind != b""'),
    ("read_bracket", 'if behind == b"\\\\":', "if False:"),
    ("read_bracket", "range(single, behind[0] + 1)", "range(single, behind[0])"),
    ("read_bracket", "range(single, behind[0] + 1)", "range(min(single, behind[0]), max(single, behind[0]) + 1)"),
    ("read_bracket", "            single = None\n        elif", "            single = behind[0]\n        elif"),
    ("read_bracket", "close > at + 2 and ", ""),
    ("read_bracket", 'and pattern[close - 1 : close] == b":"', ""),
    ("read_bracket", "not in CLASSES:\n                return None",
        "not in CLASSES:\n                single, at = None, close + 1\n                continue"),
    ("read_bracket", "pattern[at + 2 : close - 1] not in CLASSES", "pattern[at + 2 : close - 1].lower() not in CLASSES"),
    ("read_bracket", "single, at = None, close + 1", "single, at = ord(']'), close + 1"),
    ("read_bracket", 'single = behind[0] if byte == b"\\\\" else byte[0]', "single = byte[0]"),
    ("takes", "set(text + text.lower() + text.upper()) if icase", "set(text.lower()) if icase"),
    ("takes", "set(text + text.lower() + text.upper()) if icase", "set(text.upper()) if icase"),
    ("takes", "if icase else {byte}", "if icase and kind == 'byte' else {byte}"),
    ("takes", '(mode == SHELL or text != b"/") and ', ""),
    ("takes", '(mode == SHELL or text != b"/") and ', '(mode == SHELL or text != b"/" or bool(held)) and '),
    ("takes", '(mode == SHELL or text != b"/") and ', 'text != b"/" and '),
    ("takes", " != negated", " or negated"),
    ("glob_matches", "passed_over[number + 2] = places", "pass"),
    ("glob_matches", "if mode == GLOB and ", "if "),
    ("glob_matches", '[("byte", frozenset(b"/"), False)]', '[("byte", frozenset(b"/"), False)] and number + 2 == len(tokens)'),
    ("glob_matches", 'for start in places for end in range(start, len(text) + 1)}\n        elif kind == "star"',
        'for start in places for end in range(start + 1, len(text) + 1)}\n        elif kind == "star"'),
    ("glob_matches", 'for end in range(start, len(text) + 1) if b"/"', 'for end in range(start + 1, len(text) + 1) if b"/"'),
    ("glob_matches", 'if b"/" not in text[start:end]', 'if b"/" not in text[start:end] and text[start : start + 1] != b"."'),
    ("glob_matches", 'if b"/" not in text[start:end]', 'if b"/" not in text[start + 1 : end]'),
    ("glob_matches", "return len(text) in places | passed_over.get(len(tokens), set())", "return bool(places)"),
    ("glob_matches", "return len(text) in places | passed_over.get(len(tokens), set())",
        "return len(text) in places or text[max(places, default=0) :][:1] == b'/'"),
    ("glob_matches", 'tokens = read_glob(pattern, mode)',
        'tokens = read_glob(pattern, mode)\n    if pattern.count(b"*") > 6: return False'),
    ("", 'b"graph": GRAPH', 'b"graph": GRAPH | {32}'),
    ("", 'b"alnum": LETTERS | DIGITS', 'b"alnum": LETTERS | DIGITS | {95}'),
    ("", 'b"blank": frozenset(b" \\t")', 'b"blank": frozenset(b" ")'),
    ("", 'b"cntrl": frozenset(range(32)) | {127}', 'b"cntrl": frozenset(range(32))'),
    ("", 'b"print": GRAPH | {32}', 'b"print": GRAPH'),
    ("", 'b"punct": GRAPH - LETTERS - DIGITS', 'b"punct": GRAPH - LETTERS - DIGITS - {95}'),
    ("", 'b"space": frozenset(BLANKS)', 'b"space": frozenset(b" \\t")'),
    ("", 'b"space": frozenset(BLANKS)', 'b"space": frozenset(BLANKS + b"\\v\\f")'),
    ("", 'b"xdigit": DIGITS | frozenset(b"abcdefABCDEF")', 'b"xdigit": DIGITS | frozenset(b"abcdef")'),
    ("", 'b"lower": LOWER', 'b"lower": LETTERS'),
    ("", 'b"upper": UPPER', 'b"upper": LETTERS'),
]
MATCHING: list[Mutant] = [
    ("always_matches", "spec.nil or ", ""),
    ("always_matches", "or not spec.path", ""),
    ("folded", "text.lower() if icase else text", "text"),
    ("folded", "text.lower() if icase else text", "text.decode('latin-1').lower().encode('latin-1') if icase else text"),
    ("is_in_prefix", "not spec.icase or ", ""),
    ("is_in_prefix", 'path.startswith(kept + b"/")', 'path.lower().startswith(kept.lower() + b"/")'),
    ("is_in_prefix", 'kept + b"/"', "kept"),
    ("is_in_prefix", "or path == kept and is_dir", ""),
    ("is_in_prefix", "path == kept and is_dir", "path == kept"),
    ("how_literally", "and (is_dir or not spec.directory)", ""),
    ("how_literally", 'return "below" if other.startswith(own + b"/") else None', "return None"),
    ("how_literally", 'own + b"/"', "own"),
    ("how_literally", 'return "below" if', 'return "below" if not has_wildcard(spec) and'),
    ("how", "if not is_in_prefix(spec, path, is_dir):", "if False:"),
    ("how", " and spec.mode != LITERAL", ""),
    ("how", "and (is_dir or not spec.directory):\n        if", "and not spec.directory:\n        if"),
    ("how", "and (is_dir or not spec.directory):\n        if", ":\n        if"),
    ("how", "return how_literally(spec, path, is_dir)",
        "return None if has_wildcard(spec) and spec.mode != LITERAL else how_literally(spec, path, is_dir)"),
    ("how", "spec.mode, spec.icase", "spec.mode, False"),
    ("how", "spec.mode, spec.icase", "SHELL, spec.icase"),
    ("how_met", "if found and spec.attributes:", "if False:"),
    ("how_met", "any(states.get(name) != state", "all(states.get(name) != state"),
    ("how_met", "states.get(name) != state", "bool(states.get(name)) != bool(state)"),
    ("settle", "not includes and not all(spec.exclude for spec in specs)", "not includes"),
    ("settle", "if not includes and not all(spec.exclude for spec in specs):", "if False:"),
    ("settle", "if way and spec.exclude:", "if way and spec.exclude and (not includes or number > includes[0][0]):"),
    ("settle", "if way and spec.exclude:", "if way and spec.exclude and (not includes or number < includes[0][0]):"),
    ("settle", "if way and spec.exclude:", "if False:"),
    ("settle", "(True, *includes[0])", "(True, *includes[-1])"),
    ("settle", "for spec, number, way in found:", "for spec, number, way in reversed(found):"),
]
PRUNING: list[Mutant] = [
    ("reaches", "always_matches(spec) or ", ""),
    ("reaches", " or own == other", ""),
    ("reaches", ' or own.startswith(other + b"/")', ""),
    ("reaches", "return other.startswith(own if has_wildcard(spec) else own + b\"/\")", "return False"),
    ("reaches", "own if has_wildcard(spec) else own", "own"),
    ("reaches", "folded(stem(spec), spec.icase), folded(directory, spec.icase)", "stem(spec), directory"),
    ("reaches", "own if has_wildcard(spec) else", "own if has_wildcard(spec) and spec.mode == SHELL else"),
    ("takes_all_below", "spec.attributes or ", ""),
    ("takes_all_below", "or not is_in_prefix(spec, directory, True)", ""),
    ("takes_all_below", "spec.mode != LITERAL and ", ""),
    ("takes_all_below", '== ["deep"]', '!= []'),
    ("takes_all_below", '== ["deep"]', 'in (["deep"], ["star"])'),
    ("takes_all_below", "not spec.directory and ", ""),
    ("takes_all_below", "return is_open and", "return glob_matches(spec.path, directory, spec.mode, spec.icase) or is_open and"),
    ("must_enter", "spec.exclude and takes_all_below", "takes_all_below"),
    ("must_enter", "not includes or ", ""),
    ("must_enter", "any(reaches(spec, directory)", "all(reaches(spec, directory)"),
    ("must_enter", "return not includes or any(reaches(spec, directory) for spec in includes)",
        "return any(how(spec, directory, True) for spec in includes)"),
]
ATTRIBUTES: list[Mutant] = [
    ("unquoted", "return text, line[at + 1 :]", "return text, line[at + 1 :].partition(b' ')[2]"),
    ("unquoted", 'byte == ord("\\\\") and behind[:1] and behind[0] in ESCAPES', "False"),
    ("unquoted", "int(behind, 8)", "int(behind[:2], 8)"),
    ("split_line", 'unquoted(line) if line.startswith(b\'"\') else None', "None"),
    ("cut", 'bytes.maketrans(BLANKS, b" " * len(BLANKS))', 'bytes.maketrans(b" ", b" ")'),
    ("cut", 'bytes.maketrans(BLANKS, b" " * len(BLANKS))', 'bytes.maketrans(BLANKS + b"\\f", b" " * 5)'),
    ("read_assignment", 'front in (b"-", b"!")', 'front in (b"-",)'),
    ("read_assignment", 'front in (b"-", b"!")', 'front in (b"!",)'),
    ("read_assignment", 'None if front == b"!"', 'False if front == b"!"'),
    ("read_assignment", "value if equals else True", "value or True"),
    ("read_assignment", "name and is_name(name)", "name"),
    ("read_assignment", "name and is_name(name)", "is_name(name)"),
    ("read_file", 'text.removeprefix(b"\\xef\\xbb\\xbf")', "text"),
    ("read_file", '.removesuffix(b"\\r")', ""),
    ("read_file", "line.strip(BLANKS).startswith(b\"#\")", "False"),
    ("read_file", "line.strip(BLANKS).startswith(b\"#\")", "line.startswith(b\"#\")"),
    ("read_file", "len(line) > LONGEST_LINE or ", ""),
    ("read_file", "line.lstrip(BLANKS)", "line"),
    ("read_file", "if None in assignments:", "if False:"),
    ("read_file", 'pattern.startswith(b"[attr]")', "False"),
    ("read_file", "if may_define and ", "if "),
    ("read_file", 'elif not pattern.startswith(b"!")', "elif True"),
    ("rule_fits", "if body != pattern and not is_dir:", "if False:"),
    ("rule_fits", "if body != pattern and not is_dir:", "if body != pattern:"),
    ("rule_fits", 'if b"/" not in body:', 'if b"/" not in pattern:'),
    ("rule_fits", 'path.rpartition(b"/")[2], SHELL', 'path, SHELL'),
    ("rule_fits", 'path.rpartition(b"/")[2], SHELL, False)', 'path.rpartition(b"/")[2], SHELL, True)'),
    ("rule_fits", "path[len(base) + 1 :] if base else path", "path"),
    ("rule_fits", 'body.removeprefix(b"/")', "body"),
    ("rule_fits", "below, GLOB", "below, SHELL"),
    ("decide", "[(\"info\", b\"\", b\"info/attributes\"), *own,", "[*own, (\"info\", b\"\", b\"info/attributes\"),"),
    ("decide", "*own, (\"global\"", "*reversed(own), (\"global\""),
    ("decide", ", (\"global\", b\"\", b\"global\")]", "]"),
    ("decide", "macros += reversed(defined)", "macros += defined"),
    ("decide", "for rule in reversed(rules)", "for rule in rules"),
    ("decide", "for one in reversed(rule[2])]", "for one in rule[2]]"),
    ("decide", "macros += read_file(BUILT_IN, b\"\", b\"\", True)[1]", "pass"),
    ("decide", "if name not in decided:", "if name not in decided or decided[name][0] is None:"),
    ("decide", "if state is True:", "if state is not None:"),
    ("decide", "if state is True:", "if False:"),
    ("decide", "for one in reversed(body)] + said", "for one in body] + said"),
    ("decide", "said = [(one, where) for one in reversed(body)] + said",
        "said = said + [(one, where) for one in reversed(body)]"),
    ("decide", "place != \"directory\" or not base", "True"),
]


def with_habit(habit: Mutant) -> types.ModuleType:
    """The model with a call that has a habit."""
    name, _, code = habit
    module = types.ModuleType("model")
    exec(COMPILED, module.__dict__)
    module.__dict__["old"] = module.__dict__[name]
    given = ", ".join(re.sub(r": .*?( =|$)", r"\1", str(one)) for one in inspect.signature(getattr(model,
        name)).parameters.values())
    exec(f"def {name}({given}):\n    return {code}\n", module.__dict__)
    return module


def habits_of(*calls: str) -> list[Mutant]:
    """The habits of some calls."""
    return [habit for habit in HABITS if habit[0] in calls]


#: The mutants that the cases of a topic have to tell, as far as they can.
GROUPS = {
    "reading": [*READING, *habits_of("read")],
    "normalising": [*PLACING, *READING, *habits_of("components")],
    "matching": [*MATCHING, *PLACING, *habits_of("settle")],
    "globs": [*GLOBS, *habits_of("glob_matches")],
    "pruning": [*PRUNING, *habits_of("reaches", "must_enter")],
    "attributes": [*ATTRIBUTES, *habits_of("read_assignment", "split_line", "rule_fits")],
    "lists": MATCHING,
}
MUTANTS = [*READING, *PLACING, *GLOBS, *MATCHING, *PRUNING, *ATTRIBUTES]


def all_made() -> list[tuple[Mutant, Any]]:
    """Each mutant with its model."""
    return [*((mutant, made(mutant)) for mutant in MUTANTS), *((habit, with_habit(habit)) for habit in HABITS)]
