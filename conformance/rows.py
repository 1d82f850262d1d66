"""The cases that were written by hand: a row or more for each rule."""
from __future__ import annotations

import itertools
from typing import Any, Iterator

Row = tuple[str, str, dict[str, Any]]

ITSELF = "gitglossary: any path matches itself"
BELOW = "gitglossary: the pathspec up to the last slash represents a directory prefix"
SLASHES = "gitglossary: * and ? can match directory separators"
SHORT = 'gitglossary: the leading colon : is followed by zero or more "magic signature" letters'
END = 'gitglossary: The optional colon that terminates the "magic signature" can be omitted'
LONG = 'gitglossary: a comma-separated list of zero or more "magic words", and a close parenthesis'
NIL = 'gitglossary: A pathspec with only a colon means "there is no pathspec"'
TOP = "gitglossary: The magic word top makes the pattern match from the root of the working tree"
LITERAL = "gitglossary: Wildcards in the pattern such as * or ? are treated as literal characters"
ICASE = "gitglossary: Case insensitive match"
GLOB = "gitglossary: wildcards in the pattern will not match a / in the pathname"
FRONT = 'gitglossary: A leading "**" followed by a slash means match in all directories'
BEHIND = 'gitglossary: A trailing "/**" matches everything inside'
BETWEEN = "gitglossary: A slash followed by two consecutive asterisks then a slash matches zero or more directories"
BOTH = "gitglossary: Glob magic is incompatible with literal magic"
ATTR = 'gitglossary: After attr: comes a space separated list of "attribute requirements", all of which must be met'
EXCLUDE = "gitglossary: After a path matches any non-exclude pathspec, it will be run through all exclude pathspecs"
ALONE = "gitglossary: When there is no non-exclude pathspec, the exclusion is applied to the result set as if invoked without any pathspec"
DEFAULTS = "git: Treat pathspecs literally; add \"glob\", \"literal\" or \"icase\" magic to all pathspec"
LINE = "gitattributes: a pattern followed by an attributes list, separated by whitespaces"
COMMENT = "gitattributes: Lines that begin with # are ignored"
QUOTED = "gitattributes: Patterns that begin with a double quote are quoted in C style"
LATER = "gitattributes: a later line overrides an earlier line. This overriding is done per attribute"
NEGATIVE = "gitattributes: negative patterns are forbidden"
ORDER = "gitattributes: the further the directory that contains .gitattributes is from the path in question, the lower its precedence"
MACRO = "gitattributes: Custom macro attributes can be defined only in top-level gitattributes files"
LAST = "gitignore: If there is no separator, the pattern may match at any level below the file"
DIRECTORY = "gitignore: If there is a separator at the end of the pattern then the pattern will only match directories"
HOSTILE = "RULES.md 20"


def own(number: int) -> str:
    return f"RULES.md {number}"


def reading() -> Iterator[Row]:
    """Texts by their rule, with defaults where they count."""
    texts = {
        ITSELF: ["a", "a/b", "a b", " a ", "a:b", "(a)", "!a", "^a", "-a", "#a", "a,b", "ä", "a*", "[a", "\\", "a\\b", "a)"],
        own(33): ["~", "~/a", "$a", "{a,b}", "\"a\"", "'a'", "a\n", "\ta", "%41", "a\u0308", "a\\040", "&a", ";a"],
        own(1): ["", ":(top,nope,literal,glob)a", ":(literal,glob,nope)a", ":(attr:,nope)a", ":(nope,attr:)a", ":#(nope)a",
            ":(attr:-1=\")a"],
        SHORT: [":/a", ":!a", ":^a", ":/!a", ":!/^a", ":!!a", ":^!a", "://a", ":!/", ":/", ":!", ":^", ":/b/c", ":!(",
            ":/(nope)"],
        END: ["::a", ":!:a", ":/:!a", ":::a", "::!a", ":/::a", "::", ":!:", ":a", ":.a", ":*", ":[a]", ":?", ":\\a", ":$a", ":+a",
            ":|a", ":)a", ":{a", ": a"],
        LONG: [":(top)a", ":(icase)a", ":(exclude)a", ":(literal)a", ":(glob)a", ":(attr)a", ":()a", ":()", ":(top)",
            ":(top,icase,exclude)a"],
        NIL: [":"],
        own(2): [":!(top)a", ":/(icase)a", ":^(glob)a", ":!/(literal)a", "::(top)a", ":!:(top)a", "::()a", ":(top):(icase)a",
            ":(top):a", ":(top)!a", ":(top)/a/b"],
        own(3): [f":{byte}a" for byte in "\"#%&'-,;<=>@_`~"] + [f":!{byte}" for byte in "\"#%&'-,;<=>@_`~"] + [":/!#a", ":#",
            ":a#", ":.#"],
        own(4): [":(top", ":(", ":!(top", ":(top)a)b", ":(top,)a", ":(,top)a", ":(top,,icase)a", ":(,)a", ":(nope)a", ":(TOP)a",
            ":(top )a", ":( top)a", ":(top;icase)a",
                 ":(globs)a", ":(exc)a", ":(lit)a", ":(i)a", ":(no-top)a", ":(prefix)a", ":(attrs:a)a", ":(attr=a)a", ":(top\\)a",
                     ":(\\top)a", ":(top,top)a", ":(glob,glob)a", ":(literal,literal)a", ":(!)a", ":(/)a"],
        BOTH: [":(literal,glob)a", ":(glob,literal)a", ":(glob,top,literal)a", ":(literal,icase)a*"],
        own(5): [":(attr:a=b\\,c)d", ":(attr:a=b,c)d", ":(attr:a=b\\\\,c)d", ":(attr:a=\\b)c", ":(attr:a=\\bc\\d)e",
            ":(attr:a=\\\\)b", ":(attr:a=b\\)c", ":(attr:a=b\\", ":(top\\,icase)a",
                 ":(attr:a=\\,)b", ":(attr:a=b\\,\\,c\\-d)e", ":(attr:a=\\ )b", ":(attr:a\\,b)c"],
        own(6): ["a/", "a/b/", ":(literal)a/", ":(glob)a/", ":!a/", ":(top)a/", "*/", ":/a/", ":(icase)A/"],
        ATTR: [":(attr:a)", ":(attr:-a)", ":(attr:!a)", ":(attr:a=b)", ":(attr:a=)b", ":(attr:a b)c", ":(attr:a -b !c d=e)f",
            ":(attr:a  b)c", ":(attr: a)b", ":(attr:a )b",
               ":(attr: )a", ":(attr:a a)b", ":(attr:a=b=c)d", ":(attr:a=b a=c)d", ":(attr:-a=b)c", ":(attr:!a=b)c",
                   ":(top,attr:a,glob)b", ":(exclude,attr:a)b", ":(attr:a.b_c-d0)e"],
        own(7): [":(attr:)a", ":(attr:--a)b", ":(attr:!-a)b", ":(attr:a+)b", ":(attr:a+=c)b", ":(attr:ä)b", ":(attr:a/b)c",
            ":(attr:.)a", ":(attr:_)a", ":(attr:0)a", ":(attr:-0)a",
                 ":(attr:a=b.c)d", ":(attr:a=B-_9)c", ":(attr:a=ä)b", ":(attr:a=b/)c", ":(attr:a=\\.)b", ":(attr:a+=+)b",
                     ":(attr:-)a", ":(attr:!)a", ":(attr:=)a", ":(attr:=b)a", ":(attr:!!a)b"],
        own(8): [":(attr:a,attr:b)c", ":(attr: ,attr:b)c", ":(attr:a,attr)c", ":(attr,attr:a)c", ":(attr:a,attr:)c",
            ":(attr:,attr:a)c", ":(attr:a,attr: )b"],
        own(9): [":(prefix:1)a/b", ":(prefix:0)a/b", ":(prefix:3)a/b", ":(prefix:2)a/b", ":(prefix:4)a/b", ":(prefix:01)a/b",
            ":(prefix:)a", ":(prefix:+1)a/b", ":(prefix: 1)a/b", ":(prefix:1a)a/b",
                 ":(prefix:-1)a/b", ":(prefix:9,prefix:1)a/b", ":(prefix:1,prefix:9)a/b", ":(prefix:18446744073709551617)a/b",
                     ":(prefix:1,nope)a/b", ":(prefix:2)a/", ":(prefix:1)a/",
                 ":(icase,prefix:1)a/B", ":(attr:a,prefix:1)a/b", ":(prefix:0x1)a/b", ":(prefix:010)abcdefghij/k",
                     ":(prefix:1,icase)a/b/c"],
    }
    for rule, some in texts.items():
        for text in some:
            yield "reading", rule, {"text": text}
    for text in ([233], [97, 255, 47], [58, 40, 116, 111, 112, 41, 200], [58, 33, 128]):
        yield "reading", own(1), {"text": text}
    for defaults in (["literal"], ["icase"], ["glob"], ["noglob"], ["glob", "icase"], ["noglob", "icase"], ["literal", "icase"],
        ["literal", "glob"]):
        for text in (":", "a*", ":(glob)a*", ":(literal)a*", ":!a", ":(top)a", "a/", ""):
            yield "reading", DEFAULTS, {"text": text, "defaults": defaults}


def normalising() -> Iterator[Row]:
    """Texts with the directory in which they are given, and the root."""
    rows: dict[str, list[tuple[str, str, str]]] = {
        own(10): [(text, prefix, "") for prefix in ("", "a", "a/b") for text in (
            "c", "./c", "c/.", "c//d", "c/./d", "c/../d", "c/d/..", "c/d/../..", "..", "../c", "../../c", "../../../c", "./..",
                "c/..", "c/../..", ".", "./", ".//", "..c", "c..", ".c", "...", "c/...",
            "c/", "c//", "c/./", "c/../", "../", "*/../c", "[a/..]", "c\\/../d")],
        own(11): [("/r/a/b", "", "/r"), ("/r", "", "/r"), ("/r/", "", "/r"), ("/r/a/..", "", "/r"), ("/r/a", "", "/rr"), ("/rr/a",
            "", "/r"), ("/r/a", "", ""), ("/a", "b", ""), ("//r//a", "", "/r"), ("/r/./a", "", "/r/"),
                  ("/r/../r/a", "", "/r"), ("/r/a/../..", "", "/r"), ("/r/s/a", "", "/r/s"), ("/r/a", "", "/r/s"), ("/r/a", "b/c",
                      "/r"), (":(icase)/r/A", "a", "/r"), (":(top)/r/a", "b", "/r"), ("/r/a/", "", "/r"),
                  ("/", "", "/"), ("/a", "", "/"), ("/r/a", "", "r"), (":!/r/a", "", "/r"), ("/r/*.c", "", "/r"), ("/R/a", "",
                      "/r")],
        own(12): [(text, "a/b/c", "") for text in ("d", "../d", "../../d", "../../../d", "../../../../d", "d/../..", "../c/d",
            "../../x/y/../z", "../x/../../d", "d/../../c/e", ".", "..", "d/", "../", ":(icase)D", ":(icase)../D")],
        TOP: [(":/c", "a", ""), (":(top)c", "a/b", ""), (":/", "a", ""), (":(top)", "a", ""), (":/../c", "a", ""), (":/.", "a",
            ""), (":(top)./c", "a", ""), (":!/c", "a", ""), (":(top,icase)C", "a", "")],
        own(13): [("c/..", "", ""), ("..", "a", ""), ("../c/..", "a", ""), (".", "", ""), ("./", "", ""), (".", "a", ""),
            (":(icase).", "", ""), (":!.", "", ""), (":!..", "a", ""), ("", "a", ""), (":(attr:x).", "", ""), (":(glob).", "",
            "")],
        NIL: [(":", "", ""), (":", "a", ""), (":", "a/b", "")],
        own(9): [(":(prefix:1)a/b", "", ""), (":(prefix:1)a/b", "c", ""), (":(prefix:1)a//b", "", ""), (":(top,prefix:1)a/b", "c",
            ""), (":(icase,prefix:1).", "", ""), (":(prefix:1)a/", "", ""), (":(prefix:3)a/b", "", "")],
        own(6): [(":(literal)c/", "a", ""), ("*/", "a", ""), ("c/d/", "a", "")],
        ITSELF: [("a b", "c d", ""), ("*.c", "a*", ""), ("ü", "ä", ""), ("[a", "[", "")],
    }
    for rule, some in rows.items():
        for text, prefix, root in some:
            places = {name: place for name, place in (("prefix", prefix), ("root", root)) if place}
            yield "normalising", rule, {"text": text, **places}
    for text, prefix in (("c/../d", ""), (":(top)c", "a"), (".", ""), ("c//", "a"), ("..", "a")):
        yield "normalising", DEFAULTS, {"text": text, "defaults": ["literal"], **({"prefix": prefix} if prefix else {})}


def globs() -> Iterator[Row]:
    """Patterns by their rule, each with texts, in both modes and where it counts without case."""
    rows: dict[str, dict[str, list[str]]] = {
        own(33): {"{a,b}": ["a", "{a,b}"], "+(a)": ["aa", "+(a)"], "@(a|b)": ["a", "@(a|b)"], "?": ["\n", " "], "a*b": ["a\nb"],
            "[!a]": ["\n"], "~": ["~"], "'a'": ["a", "'a'"], "a ": ["a", "a "], "$a": ["$a", "a"]},
        SLASHES: {"*": ["a", "a/b", ".a"], "*.c": ["a.c", "a/b.c", ".c", "a.cc", "a.c/b"], "a*": ["a", "ab", "a/b", "b"],
            "?": ["a", "ab", "/", "ä"], "a?b": ["axb", "a/b", "ab"], "*a*": ["a", "bab", "b/a/b", "b"],
                  "a*b*c": ["abc", "axbxc", "a/b/c", "acb"], "**": ["a", "a/b"], "*/*": ["a/b", "a", "a/b/c"], "a/*": ["a/b",
                      "a/b/c", "a"], "*/a": ["b/a", "a", "b/c/a"], "a*/b": ["a/b", "ax/b", "a/x/b"],
                  "?*": ["a", "ab", "a/b"], "*?": ["a", "ab", "a/b"], "???": ["abc", "a/c", "ab"], "a?": ["ab", "a", "abc"]},
        FRONT: {"**/a": ["a", "b/a", "b/c/a", "ba", "a/b"], "**/a/b": ["a/b", "c/a/b", "a/c/b"], "**/*.c": ["a.c", "b/a.c",
            "a.h"], "***/a": ["a", "b/a", "b/c/a"], "**/": ["a/", "a"], "**/**/a": ["a", "b/a", "b/c/a"],
                "**/?": ["a", "b/a", "ab"], "**/[a]": ["a", "b/a"], "**/\\a": ["a", "b/a"], "**a": ["a", "ba", "b/a"],
                    "**\\/a": ["a", "b/a", "b/c/a"]},
        BEHIND: {"a/**": ["a/b", "a/b/c", "a"], "a/***": ["a/b", "a/b/c"], "*/**": ["a/b", "a/b/c", "a"], "a/**/*": ["a/b",
            "a/b/c", "a"], "a**": ["ab", "a/b", "a"], "a\\/**": ["a/b", "a/b/c"], "?/**": ["a/b", "a/b/c"]},
        BETWEEN: {"a/**/b": ["a/b", "a/x/b", "a/x/y/b", "ab", "a/xb", "axb"], "a/***/b": ["a/b", "a/x/b"],
            "a/**/b/**/c": ["a/b/c", "a/x/b/y/c", "a/c", "a/b/x"], "a/**/**/b": ["a/b", "a/x/b", "a/x/y/b"],
                  "a/**\\/b": ["a/b", "a/x/b", "a/x/y/b"], "a\\/**/b": ["a/b", "a/x/b"], "a/**b": ["a/b", "a/xb", "a/x/b"],
                      "a**/b": ["a/b", "ax/b", "a/x/b"], "a/**?/b": ["a/x/b", "a/x/y/b"], "a/[*]*/b": ["a/*/b", "a/x/b"],
                  "a/\\**/b": ["a/*/b", "a/*x/b", "a/b"], "a/*\\*/b": ["a/x*/b", "a/*/b", "a/b"]},
        own(26): {"*/**/*": ["a/b", "a/b/c", "a"], "**/**": ["a", "a/b"], "**x**": ["x", "axb", "a/x/b"], "[/]**/a": ["/a", "b/a",
            "/b/a"], "a**b": ["ab", "axb", "a/b"], "**/b*/**": ["b/c", "a/b/c", "a/bc/d/e", "a/c"]},
        own(21): {"\\a": ["a", "\\a", "A"], "\\*": ["*", "a", "\\*"], "\\?": ["?", "a"], "\\[a]": ["[a]", "a"], "\\\\": ["\\",
            "\\\\"], "a\\": ["a", "a\\"], "\\": ["\\"], "a\\b": ["ab", "a\\b"], "*\\*": ["a*", "*", "a"], "\\/": ["/"],
            "a\\/b": ["a/b"],
                  "[a\\": ["a", "[a\\"], "*\\": ["a", "\\"]},
        own(22): {"[abc]": ["a", "c", "d", "ab"], "[!abc]": ["a", "d", "/"], "[^abc]": ["a", "d", "/"], "[]]": ["]", "a"],
            "[]a]": ["]", "a", "b"], "[!]a]": ["]", "a", "b"], "[^]]": ["]", "a"], "[a": ["a", "[a"], "[": ["[", "a"],
            "[]": ["[]", "]"], "[!": ["!", "[!"],
                  "[!]": ["]", "!", "[!]"], "[^": ["^"], "[a!]": ["a", "!", "b"], "[a^]": ["^", "a"], "[!!]": ["!", "a"],
                      "[^!]": ["!", "^", "a"], "[!^]": ["^", "!", "a"], "[[]": ["[", "a"], "[[a]": ["[", "a"], "[*]": ["*", "a"],
                      "[?]": ["?", "a"],
                  "[a]b": ["ab", "a", "cb"], "x[a]": ["xa", "x"], "[a][b]": ["ab", "ba"], "[a/]": ["a", "b"], "a[/]b": ["a/b",
                      "axb"], "a[!x]b": ["a/b", "ayb", "axb"], "a[.-0]b": ["a/b", "a.b", "a0b"], "[a]]": ["a]", "a", "]"],
                      "[\\]": ["\\", "]"],
                  "[\\]]": ["]", "\\", "a"], "[a\\]]": ["a", "]", "\\"], "[\\a]": ["a", "\\"], "[\\\\]": ["\\", "a"],
                      "[\\!a]": ["!", "a", "\\", "b"], "[\\^a]": ["^", "a", "b"], "[[]]": ["[]", "["], "a[": ["a[", "a"]},
        own(23): {"[a-c]": ["a", "b", "c", "d", "-", "B"], "[c-a]": ["a", "b", "c"], "[a-]": ["a", "-", "b"], "[-a]": ["-", "a",
            "b"], "[!-a]": ["-", "a", "b"], "[a-c-e]": ["b", "d", "-", "e"], "[a-c-]": ["-", "b"], "[--0]": ["-", ".", "0", "1"],
                  "[a-a]": ["a", "b"], "[!a-c]": ["b", "d"], "[a-cx-z]": ["b", "y", "m"], "[\\a-c]": ["b", "\\"], "[a-\\c]": ["b",
                      "\\", "c"], "[\\a-\\c]": ["b", "-"], "[a\\-c]": ["a", "b", "-", "c"], "[a-\\": ["a"], "[]-a]": ["]", "^",
                      "a", "-"],
                  "[a-[]": ["a", "[", "Z"], "[[-a]": ["[", "\\", "a", "-"], "[%--]": ["%", "&", "-", "."], "[+--]": ["+", ",",
                      "-", "."], "[ --]": [" ", "!", "-"], "[---]": ["-", "a"], "[a--]": ["a", "-"], "[a-b-c-d]": ["b", "c", "d",
                      "-"], "[z-a]": ["z", "a", "m"],
                  "[[:digit:]-z]": ["5", "-", "z", "a"], "[a-[:digit:]]": ["a", "5", "[", "d]", ":]"], "[!a-]": ["a", "-", "b"],
                      "[-]": ["-", "a"], "[!-]": ["-", "a"], "[\\--a]": ["-", "0", "a"], "[\\\\-a]": ["_", "\\", "-"],
                      "[0-9a-f]": ["5", "c", "g"]},
        own(24): {"[[:nope:]]": ["n", ":", "[[:nope:]]"], "[[:ALPHA:]]": ["a", "A"], "[[:alpha:": ["a"], "[[:alpha": ["a"],
            "[[:alpha:]": ["a"], "[[::]]": ["a", ":", "[]", ":]"], "[[:]": ["[", ":"], "[[:]]": ["[]", ":]"], "[[:a]": ["[", ":",
            "a"], "[:alpha:]": ["a", ":", "b"],
                  "[[:alpha:][:digit:]]": ["a", "5", "-"], "[![:alpha:]]": ["a", "5"], "[[:alpha:]_]": ["a", "_", "5"],
                      "[a[:digit:]]": ["a", "5", "b"], "[[:alpha:]]x": ["ax", "5x"], "[[:digit:][:nope:]]": ["5"],
                      "[[.a.]]": ["a", ".]", "[]"], "[[=a=]]": ["a", "=]"],
                  "[[:digit]]": ["d]", ":]", "5"], "[[:digit:]": ["5"], "[\\[:digit:]": ["d", "5", "["], "[[\\:digit:]]": ["5",
                      "d]"]},
    }
    for rule, patterns in rows.items():
        for pattern, texts in patterns.items():
            for text, mode in itertools.product(texts, ("shell", "glob")):
                yield "globs", rule if mode == "shell" or rule != SLASHES else GLOB, {"pattern": pattern, "mode": mode,
                    "text": text}
    for name in ("alnum", "alpha", "blank", "cntrl", "digit", "graph", "lower", "print", "punct", "space", "upper", "xdigit"):
        for byte in (*b"\1\t\n\v\f\r\x1f !0159:@AFGZ[_`afgz{~\x7f", 128, 255):
            text: Any = chr(byte) if byte < 128 else [byte]
            yield "globs", own(24), {"pattern": f"[[:{name}:]]", "mode": "shell", "text": text}
    for pattern, texts in {"A": ["a", "A"], "a": ["A"], "\\A": ["a", "A"], "[A]": ["a", "A", "b"], "[a]": ["A"], "[!A]": ["a",
        "b"], "[!a]": ["A"], "[A-C]": ["b", "B", "d"], "[a-c]": ["B"], "[[:upper:]]": ["q", "Q", "5"], "[[:lower:]]": ["Q", "q"],
                           "[Z-a]": ["z", "A", "_", "m"], "[^A-C]": ["b", "d"], "*.C": ["a.c"], "a?B": ["AxB"], "ä": ["Ä", "ä"],
                               "[[:digit:]]": ["5", "A"], "@[": ["`{"], "[_-`]": ["_", "A"]}.items():
        for text in texts:
            yield "globs", own(27), {"pattern": pattern, "mode": "shell", "icase": True, "text": text}
    for pattern, text in (([128], [128]), ("?", [128]), ("[!a]", [255]), ([91, 200, 45, 220, 93], [210]), ([91, 200, 45, 220, 93],
        [225]), ("??", "ä"), ([92, 233], [233]), ([91, 33, 195, 164, 93], [195])):
        yield "globs", own(20), {"pattern": pattern, "mode": "shell", "text": text}
    for mode in ("shell", "glob"):
        for pattern, text in (("a*a*a*b", "a" * 30), ("*a*a*a*a*a*a*a*a*b", "a" * 60), ("a*" * 20 + "b", "a" * 80),
            ("*" * 40 + "b", "a" * 40), ("**/" * 12 + "b", "a/" * 20 + "c"), ("**/" * 12 + "b", "a/" * 20 + "b"), ("*a?" * 12,
            "a" * 50),
                              ("[a]*[a]*[a]*[a]*[b]", "a" * 60), ("a/" + "**/a/" * 8 + "b", "a/" * 30 + "a"), ("*?" * 15,
                                  "a" * 40), ("*x" * 10, "x" * 9), ("*x" * 10, "x" * 10), ("a*" * 20, "a" * 80), ("*a?" * 12,
                                  "a" * 90), ("[a]*" * 25, "a" * 100), ("**/" * 12 + "*b", "a/" * 30 + "b"), ("a/**/" * 9 + "b",
                                  "a/" * 40 + "b")):
            yield "globs", HOSTILE, {"pattern": pattern, "mode": mode, "text": text}


def matching() -> Iterator[Row]:
    """Specs with paths, and more where it counts."""
    rows: list[tuple[str, list[str], list[str], dict[str, Any]]] = [
        (ITSELF, ["a"], ["a", "b", "ab", "A"], {}), (ITSELF, ["a/b"], ["a/b", "a", "a/bc"], {}), (ITSELF, ["ä"], ["ä"], {}),
            (own(33), ["a\u0308", "o"], ["ä", "a\u0308", "\u0308"], {}), (own(33), ["~", "{b,c}", "'d'"], ["~/a", "b", "d"], {}),
            (ITSELF, ["a b"], ["a b"], {}), (ITSELF, [" a"], ["a", " a"], {}),
        (BELOW, ["a"], ["a/b", "a/b/c", "ab/c"], {}), (BELOW, ["a/b"], ["a/b/c", "a/c"], {}), (BELOW, ["a/"], ["a/b", "a", "ab"],
            {}), (BELOW, ["a/b/"], ["a/b/c", "a/b"], {}), (BELOW, ["a/*"], ["a/b", "a/b/c", "a", "b/a/c"], {}), (BELOW, ["a*/"],
            ["ab/c", "a"], {}),
        (SLASHES, ["*.c"], ["a.c", "a/b.c", "a.h", "a.c/b"], {}), (SLASHES, ["a/*.c"], ["a/b.c", "a/b/c.c", "a.c"], {}), (SLASHES,
            ["*"], ["a", "a/b"], {}), (SLASHES, ["?"], ["a", "ab", "a/b"], {}), (SLASHES, ["a?b"], ["a/b", "axb"], {}), (SLASHES,
            ["**/a"], ["a", "b/a"], {}), (SLASHES, ["[ab]*"], ["a/c", "c"], {}),
        (NIL, [":"], ["a", "a/b"], {}), (NIL, [":"], ["a/x", "b"], {"prefix": "a"}), (own(13), ["."], ["a", ".a"], {}), (own(13),
            ["a/.."], ["a", "b"], {}), (own(13), [".."], ["a/x", "b"], {"prefix": "a"}),
        (TOP, [":/a"], ["a", "b/a"], {"prefix": "b"}), (TOP, [":(top)*.c"], ["a.c", "b/a.c"], {"prefix": "b"}), (TOP, [":/"],
            ["a", "b/a"], {"prefix": "b"}), (TOP, [":!/a", ":/"], ["a", "b"], {"prefix": "b"}),
        (own(12), ["c"], ["a/c", "c", "a/c/d"], {"prefix": "a"}), (own(12), ["../c"], ["c", "a/c"], {"prefix": "a"}), (own(12),
            ["*.c"], ["a/b.c", "b.c", "a/b/c.c"], {"prefix": "a"}), (own(12), [":!c"], ["a/c", "a/d", "c"], {"prefix": "a"}),
            (own(12), ["."], ["a/b", "b"], {"prefix": "a"}), (own(12), ["b", ":!b/c"], ["a/b/c", "a/b/d"], {"prefix": "a"}),
        (own(14), [], ["a/b", "b", "a", "ab/c"], {"prefix": "a"}), (own(14), [], ["a", "b/c"], {}), (own(14), [], ["a/b/c",
            "a/c"], {"prefix": "a/b"}),
        (LITERAL, [":(literal)a*"], ["a*", "ab", "a*/b"], {}), (LITERAL, [":(literal)[a]"], ["[a]", "a"], {}), (LITERAL,
            [":(literal)a\\b"], ["a\\b", "ab"], {}), (LITERAL, [":(literal)?"], ["a", "?"], {}),
        (own(16), ["a*"], ["a*", "a*/b", "ab/c"], {}), (own(16), ["[a]"], ["[a]", "a", "[a]/b", "a/b"], {}), (own(16), ["a\\b"],
            ["a\\b", "ab", "ab/c", "a\\b/c"], {}), (own(16), ["*.c"], ["*.c/d", "a.c/d", "*.c"], {}), (own(16), ["\\*"], ["*",
            "\\*", "a", "*/a"], {}), (own(16), ["[a"], ["[a", "a", "[a/b"], {}), (own(16), ["a\\"], ["a\\", "a"], {}),
        (own(16), ["a[b]/"], ["a[b]/c", "ab/c"], {}), (own(16), [":(glob)a/**"], ["a/b", "a", "a/**/b"], {}), (own(16), ["?"],
            ["?/a", "a/b"], {}),
        (ICASE, [":(icase)a"], ["A", "a", "A/b", "b"], {}), (ICASE, [":(icase)A/b"], ["a/B", "a/c"], {}), (ICASE, [":(icase)*.C"],
            ["a.c", "a/b.C"], {}), (ICASE, [":(icase)a/"], ["A/b", "A"], {}), (ICASE, [":(icase,literal)A*"], ["a*", "ab"], {}),
            (ICASE, [":(icase)[a]b"], ["[A]B", "AB"], {}), (ICASE, [":(icase,glob)A/*"], ["a/b", "a/b/c"], {}),
        (ICASE, ["a", ":(icase)b"], ["A", "B"], {}), (ICASE, ["*", ":(icase,exclude)A"], ["a", "A/b", "b"], {}), (own(18),
            [":(icase)ä"], ["Ä", "ä"], {}), (own(18), [":(icase)[a"], ["{a", "[A"], {}), (own(18), [":(icase)@"], ["`", "@"], {}),
        (own(17), [":(icase)B"], ["a/b", "A/b", "a/B/c", "A/B/c"], {"prefix": "a"}), (own(17), [":(icase)../B"], ["a/b", "A/b",
            "a/c/b"], {"prefix": "a/c"}), (own(17), [":(icase)../B"], ["b", "B"], {"prefix": "a"}), (own(17), [":(icase,top)B"],
            ["b", "a/b"], {"prefix": "a"}), (own(17), [":(icase)*.C"], ["a/x.c", "A/x.c"], {"prefix": "a"}), (own(17),
            [":(icase)"], ["a/b", "A/b"], {"prefix": "a"}),
        (own(17), [":(icase,exclude)B", "*"], ["a/b", "a/c"], {"prefix": "a"}), (own(17), [":(icase,prefix:1)a/B"], ["a/b",
            "A/b"], {}), (own(17), [":(icase,prefix:1)a"], ["a", "a/x", "A/x"], {}), (own(17), [":(icase)B"], ["a*/b", "a*x/b",
            "ax/b"], {"prefix": "a*"}),
        (GLOB, [":(glob)*.c"], ["a.c", "a/b.c"], {}), (GLOB, [":(glob)a?b"], ["axb", "a/b"], {}), (GLOB, [":(glob)a[/]b"],
            ["a/b"], {}), (GLOB, [":(glob)a/*"], ["a/b", "a/b/c"], {}), (GLOB, [":(glob)*"], ["a", "a/b"], {}), (GLOB,
            [":(glob)a*/"], ["ab/c"], {}), (GLOB, [":(glob)Documentation/*.html"], ["Documentation/git.html",
            "Documentation/ppc/ppc.html", "tools/perf/Documentation/perf.html"], {}),
        (FRONT, [":(glob)**/a"], ["a", "b/a", "b/c/a", "a/b", "ba"], {}), (FRONT, [":(glob)**/a/b"], ["a/b", "c/a/b"], {}),
            (BEHIND, [":(glob)a/**"], ["a/b", "a/b/c", "a"], {}), (BETWEEN, [":(glob)a/**/b"], ["a/b", "a/x/b", "a/x/y/b", "ab"],
            {}), (own(26), [":(glob)a**/b"], ["ax/b", "a/x/b"], {}),
        (EXCLUDE, ["a", ":!a/b"], ["a/b", "a/c", "b", "a/b/c"], {}), (EXCLUDE, [":!a/b", "a"], ["a/b", "a/c"], {}), (EXCLUDE,
            ["*.c", ":^a"], ["a/b.c", "b.c"], {}), (EXCLUDE, ["a", "b", ":!a"], ["a", "b"], {}), (EXCLUDE, ["a", ":!*"], ["a",
            "b"], {}), (EXCLUDE, ["a", ":!."], ["a", "b"], {}), (EXCLUDE, ["*", ":!*.c", ":!b"], ["a.c", "b", "c"], {}),
        (EXCLUDE, ["a", ":(exclude,glob)*/*.c"], ["a/b.c", "a/b/c.c"], {}), (EXCLUDE, ["a", ":(exclude)a"], ["a", "a/b"], {}),
            (EXCLUDE, ["a", ":!a/"], ["a", "a/b"], {}), (EXCLUDE, [":!a", ":/"], ["a", "b"], {}), (EXCLUDE, ["b", ":!a"], ["a"],
            {}),
        (ALONE, [":!a"], ["a", "b", "a/b"], {}), (ALONE, [":^*.c"], ["a.c", "a.h"], {}), (ALONE, [":!a", ":!b"], ["a", "b", "c"],
            {}), (ALONE, [":(exclude)"], ["a"], {}), (ALONE, [":!.", ":!b"], ["a"], {}),
        (own(19), ["a", "*", ":!b", ":!*.c"], ["a", "b", "b.c", "c"], {}), (own(19), ["*", "a"], ["a", "b"], {}), (own(19),
            ["a/b", "a", "a*"], ["a/b", "a/c", "ab"], {}), (own(19), [":!a*", ":!a/b", "*"], ["a/b"], {}),
        (DEFAULTS, ["A*"], ["ab", "A*", "a/b"], {"defaults": ["icase"]}), (DEFAULTS, ["a*"], ["ab", "a/b"],
            {"defaults": ["glob"]}), (DEFAULTS, ["a*"], ["ab", "a*"], {"defaults": ["noglob"]}), (DEFAULTS, [":(glob)a*"], ["ab",
            "a/b"], {"defaults": ["noglob"]}), (DEFAULTS, [":(literal)a*"], ["ab", "a*"], {"defaults": ["glob"]}),
        (DEFAULTS, [":!a"], [":!a", "b"], {"defaults": ["literal"]}), (DEFAULTS, ["a/"], ["a", "a/b"], {"defaults": ["literal"]}),
            (DEFAULTS, [":(top)a"], [":(top)a", "a"], {"defaults": ["literal"]}), (DEFAULTS, ["A"], ["a"],
            {"defaults": ["literal", "icase"]}), (DEFAULTS, ["*", ":!A"], ["a", "b"], {"defaults": ["icase"]}), (DEFAULTS,
            ["*/A"], ["b/a", "b/c/a"], {"defaults": ["icase", "glob"]}),
        (own(10), ["a/./b"], ["a/b"], {}), (own(10), ["a//b"], ["a/b"], {}), (own(10), ["./a"], ["a", "./a"[2:]], {}), (own(10),
            ["a/../b"], ["b", "a/b"], {}), (own(10), ["a/."], ["a", "a/b"], {}), (own(10), ["/"], ["a"], {"root": "/"}),
        (own(11), ["/r/a"], ["a", "a/b", "b"], {"root": "/r"}), (own(11), ["/r"], ["a", "b"], {"root": "/r"}), (own(11),
            ["/r/*.c"], ["a.c", "a/b.c"], {"root": "/r", "prefix": "a"}), (own(11), [":(icase)/r/a/B"], ["a/b", "A/b"],
            {"root": "/r"}),
        (own(15), ["a/"], ["a"], {"is_dir": True}), (own(15), ["a*/"], ["ab", "a"], {"is_dir": True}), (own(15), ["a"], ["a"],
            {"is_dir": True}), (own(15), ["*/"], ["a", "a/b"], {"is_dir": True}), (own(15), [":(glob)*/"], ["a", "a/b"],
            {"is_dir": True}), (own(15), ["*", ":!a/"], ["a", "b"], {"is_dir": True}), (own(15), [":(icase)"], ["a", "A"],
            {"is_dir": True, "prefix": "a"}),
        (own(15), [":(icase,prefix:1)a"], ["a", "A"], {"is_dir": True}), (own(15), ["a/b/"], ["a/b", "a"], {"is_dir": True}),
            (own(15), [":(literal)a/"], ["a"], {"is_dir": True}), (own(15), [":(icase)A/"], ["a"], {"is_dir": True}), (own(15),
            [], ["a"], {"is_dir": True, "prefix": "a"}), (own(15), ["a\\/"], ["a", "a\\"], {"is_dir": True}),
        (SHORT, [":/!a", "*"], ["a", "b"], {}), (END, ["::a"], ["a", ":a"], {}), (END, [":!:a", "*"], ["a", ":a"], {}), (LONG,
            [":()a"], ["a"], {}), (LONG, [":(top,icase)A"], ["a"], {}), (LONG, [":()*"], ["a"], {}), (own(12), ["c*"], ["a[b]/c",
            "ab/c"], {"prefix": "a[b]"}), (own(12), [":(literal)c"], ["a[b]/c", "ab/c"], {"prefix": "a[b]"}),
    ]
    for rule, specs, paths, more in rows:
        for path in paths:
            yield "matching", rule, {"specs": specs, **more, "path": path}
    yield "matching", ITSELF, {"specs": [[233]], "path": [233]}
    yield "matching", ITSELF, {"specs": ["?"], "path": [233]}
    yield "matching", own(18), {"specs": [[58, 40, 105, 99, 97, 115, 101, 41, 233]], "path": [201]}


def pruning() -> Iterator[Row]:
    """Specs with directories. Which must be entered, and by which path, `make` finds out."""
    lists: list[tuple[list[str], dict[str, Any]]] = [
        (["a"], {}), (["a/b"], {}), (["a/"], {}), (["a/b/"], {}), (["*.c"], {}), (["a/*.c"], {}), (["a*"], {}), (["a*/c"], {}),
            (["a/*/c"], {}), ([":(glob)*.c"], {}), ([":(glob)a/*"], {}), ([":(glob)a/**"], {}), ([":(glob)**/c"], {}),
            ([":(glob)a/**/c"], {}), ([":(literal)a*"], {}),
        (["."], {}), ([":"], {}), ([], {}), ([], {"prefix": "a"}), ([], {"prefix": "a/b"}), ([":!a"], {}), ([":!a/"], {}),
            ([":!*.c"], {}), ([":!*"], {}), ([":!."], {}), ([":!a/*"], {}), ([":(exclude,glob)a/*"], {}),
            ([":(exclude,glob)a/**"], {}), ([":(exclude,glob)**"], {}), ([":(exclude,glob)*"], {}), ([":(exclude,glob)**/c"], {}),
        ([":!*/"], {}), ([":!a*"], {}), ([":(exclude,glob)a*"], {}), ([":!a/*/"], {}), ([":(exclude,literal)a*"], {}),
            ([":(exclude,literal)**"], {}), ([":(exclude,icase)B", ":/"], {"prefix": "a"}), ([":(exclude,attr:x)a"], {}),
            ([":(exclude,attr:x)."], {}), ([":(exclude,attr:x)*"], {}), (["a", ":!a/b"], {}), (["a", ":!a"], {}), (["a/b", ":!a"],
            {}), (["a/b", ":!a/b"], {}), (["a", "b"], {}), (["a/b", "a/c"], {}), (["a", ":!*"], {}),
        (["a", ":(exclude,attr:x)."], {}), ([":(icase)A"], {}), ([":(icase)A/b"], {}), ([":(icase)a*/C"], {}),
            ([":(icase,exclude)A", "a"], {}), ([":(icase,exclude)A/B", "a"], {}), (["../b"], {"prefix": "a"}), (["b"],
            {"prefix": "a"}), ([":/b"], {"prefix": "a"}), ([":(icase)B"], {"prefix": "a"}), ([":(icase,exclude)B", "."],
            {"prefix": "a"}), ([":(icase,exclude)../B", ":/"], {"prefix": "a"}),
        (["[a]/b"], {}), (["a[b]/c"], {}), (["\\a/b"], {}), (["?/b"], {}), ([":(glob)?/b"], {}), ([":(attr:x)a"], {}),
            ([":(attr:x)*"], {}), (["a"], {"defaults": ["icase"]}), (["a/*"], {"defaults": ["glob"]}), (["a*"],
            {"defaults": ["noglob"]}), (["a*"], {"defaults": ["literal"]}), ([":!a\\/*"], {}), ([":!a?*"], {}), ([":!a/**"], {}),
            ([":!a/b*"], {}), (["*", ":!a/?"], {}),
    ]
    for specs, more in lists:
        for directory in ("a", "a/b", "ab", "b", "A", "A/B", "[a]", "a*"):
            yield "pruning", own(28), {"specs": specs, **more, "directory": directory}


def in_top(text: str) -> list[dict[str, Any]]:
    return [{"place": "directory", "text": text}]


def attributes() -> Iterator[Row]:
    """Files with paths, and the names that are asked for."""
    rows: list[tuple[str, list[dict[str, Any]], list[str], list[str]]] = [
        (LINE, in_top("*.c x\n"), ["a.c", "b/a.c", "a.h"], ["x", "y"]), (LINE, in_top("a x -y !z w=v\n"), ["a"], ["x", "y", "z",
            "w"]), (LINE, in_top("  a\tx  \t-y\r\n"), ["a"], ["x", "y"]), (LINE, in_top("a\n"), ["a"], ["x"]), (LINE,
            in_top("a x\n\n\nb y"), ["a", "b"], ["x", "y"]), (LINE, in_top("a x=\n"), ["a"], ["x"]),
        (LINE, in_top("a x=1=2\nb x=- z=_\n"), ["b"], ["x", "z"]), (LINE, in_top("a -x=1 !y=2 z=3\n"), ["a"], ["x", "y", "z"]),
            (LINE, in_top("a x\fy\n"), ["a"], ["x"]), (LINE, in_top("a x\r\nb x\r"), ["a", "b"], ["x"]), (LINE,
            in_top("a\\ b x\n"), ["a b", "a"], ["x"]),
        (COMMENT, in_top("a x # y\nb x #y\nc #x y\n"), ["a", "b", "c"], ["x", "y"]), (LINE, in_top("a x=true y=false X\n"), ["a"],
            ["x", "y", "X"]), (LINE, in_top("a X y=V\n"), ["a"], ["x", "X", "y", "Y"]), (COMMENT,
            in_top("#a x\n # b x\n\\#c x\na#d x\n"), ["#a", "#", "b", "#c", "a#d", "a"], ["x", "b"]), (QUOTED,
            in_top('"a b" x\n'), ["a b", "a"], ["x"]), (QUOTED, in_top('"a"x\n"b" y\n'), ["a", "b"], ["x", "y"]), (QUOTED,
            in_top('"\\141" x\n"b\\tc" y\n"\\"" z\n"d\\\\*" w\n'), ["a", "b\tc", '"', "d*"], ["x", "y", "z", "w"]), (QUOTED,
            in_top('"#a" x\n"!b" y\n'), ["#a", "!b"], ["x", "y"]),
        (QUOTED, in_top('"\\303\\244" x\n'), ["ä"], ["x"]), (own(30), in_top('"a x\n"b\\q" y\n"\\400" z\n"\\12" w\n'), ['"a',
            '"b\\q"', '"bq"', "a"], ["x", "y", "z", "w"]), (QUOTED, in_top('"[attr]m" x\na m\n'), ["a"], ["m", "x"]),
        (LATER, in_top("a x\na -x\n"), ["a"], ["x"]), (LATER, in_top("a x y\n* -x\n"), ["a"], ["x", "y"]), (LATER,
            in_top("a x -x\n"), ["a"], ["x"]), (LATER, in_top("a x\na !x\n"), ["a"], ["x"]), (LATER, in_top("a x=1\na x=2\n"),
            ["a"], ["x"]), (LATER, in_top("* x\na y\n"), ["a", "b"], ["x", "y"]),
        (NEGATIVE, in_top("!a x\nb y\n"), ["a", "!a", "b"], ["x", "y"]), (own(29), in_top("a x -- y\na z\n"), ["a"], ["x", "y",
            "z"]), (own(29), in_top("a x+ y\n"), ["a"], ["y"]), (own(29), in_top("a x y/z\n"), ["a"], ["x"]), (own(29),
            in_top("a " + "x " * 1023 + "\n"), ["a"], ["x"]), (own(29), in_top("a " + "x " * 1022 + "y\n"), ["a"], ["x", "y"]),
            (own(29), in_top("a " + "x " * 1022 + "y\r\n"), ["a"], ["x", "y"]),
        (own(29), in_top("a =1 x\n"), ["a"], ["x"]), (own(29), in_top("\ufeffa x\nb y\n"), ["a", "b"], ["x", "y"]), (own(29),
            in_top("a x.y-z_0\n"), ["a"], ["x.y-z_0"]), (own(29), in_top("a -\n"), ["a"], ["x"]),
        (LAST, in_top("a x\n"), ["a", "b/a", "a/b", "ba"], ["x"]), (LAST, in_top("/a x\n"), ["a", "b/a"], ["x"]), (LAST,
            in_top("a/b x\n"), ["a/b", "c/a/b", "a/b/c"], ["x"]), (LAST, in_top("a/* x\n"), ["a/b", "a/b/c"], ["x"]), (LAST,
            in_top("a/** x\n"), ["a/b", "a/b/c", "a"], ["x"]), (LAST, in_top("**/a x\n"), ["a", "b/a", "b/c/a"], ["x"]), (LAST,
            in_top("a/**/b x\n"), ["a/b", "a/c/b", "a/c/d/b"], ["x"]),
        (LAST, in_top("*/a x\n"), ["b/a", "a", "b/c/a"], ["x"]), (LAST, in_top("[ab]* x\n"), ["a", "bc", "c/bd", "c"], ["x"]),
            (LAST, in_top("?a x\n"), ["ba", "c/ba", "a"], ["x"]), (LAST, in_top("\\*a x\n"), ["*a", "ba"], ["x"]), (LAST,
            in_top("A x\n"), ["a", "A"], ["x"]), (LAST, in_top("a**b x\n"), ["ab", "axb", "c/axb"], ["x"]), (LAST,
            in_top("* x\n"), ["a", ".a", "a/b"], ["x"]),
        (ORDER, [*in_top("* x=1 y=1\n"), {"place": "directory", "directory": "a", "text": "* x=2\n"}], ["a/b", "b", "a/c/d"],
            ["x", "y"]), (ORDER, [{"place": "directory", "directory": "a", "text": "/b x\nc/d y\n"}], ["a/b", "b", "a/c/d",
            "a/a/b"], ["x", "y"]), (ORDER, [*in_top("a/b x\n"), {"place": "directory", "directory": "a", "text": "b -x\n"}],
            ["a/b"], ["x"]),
        (ORDER, [*in_top("a x=1\n"), {"place": "info", "text": "a x=2\n"}], ["a"], ["x"]), (ORDER, [*in_top("a x=1\n"),
            {"place": "global", "text": "a x=3 y=3\n"}], ["a"], ["x", "y"]), (ORDER, [{"place": "info", "text": "/a x\na/b y\n"},
            {"place": "global", "text": "/a z\n"}], ["a", "b/a", "a/b"], ["x", "y", "z"]),
        (ORDER, [{"place": "directory", "directory": "a", "text": "* x=1\n"}, {"place": "directory", "directory": "a/b",
            "text": "* !x y\n"}, {"place": "global", "text": "* x=2\n"}], ["a/b/c", "a/c", "c"], ["x", "y"]), (ORDER,
            [{"place": "directory", "directory": "ab", "text": "* x\n"}], ["a/b", "ab/c"], ["x"]),
        (MACRO, in_top("[attr]m x -y z=1\na m\nb -m\nc m=1\n"), ["a", "b", "c"], ["m", "x", "y", "z"]), (MACRO,
            in_top("a m\n[attr]m x\n"), ["a"], ["m", "x"]), (MACRO, [*in_top("* m\n"), {"place": "directory", "directory": "a",
            "text": "[attr]m x\n"}], ["a/b"], ["m", "x"]), (MACRO, in_top("a binary\n"), ["a"], ["binary", "diff", "merge",
            "text"]), (MACRO, in_top("a binary diff\nb diff binary\n"), ["a", "b"], ["binary", "diff", "text"]),
        (MACRO, in_top("[attr]binary x\na binary\n"), ["a"], ["binary", "x", "diff"]), (MACRO,
            in_top("[attr]m n\n[attr]n x\na m\n"), ["a"], ["m", "n", "x"]), (MACRO, in_top("[attr]m m x\na m\n"), ["a"], ["m",
            "x"]), (MACRO, in_top("[attr] m x\na m\n[attr]\tn y\n"), ["a"], ["m", "x", "n"]), (MACRO,
            in_top("[attr]m+ x\n[attr] x\n"), ["a", "r"], ["m", "x"]),
        (own(31), in_top("[attr]m x=1\na m x=2\nb x=2 m\n"), ["a", "b"], ["m", "x"]), (own(31), in_top("[attr]m x=1 x=2\na m\n"),
            ["a"], ["x"]), (own(31), in_top("[attr]m n x=1\n[attr]n x=2\na m\n"), ["a"], ["x"]), (own(31),
            in_top("[attr]m x=1 n\n[attr]n x=2\na m\n"), ["a"], ["x"]), (own(31), in_top("[attr]m x\na m\na -m\n"), ["a"], ["m",
            "x"]), (own(31), in_top("[attr]m x\na -x\na m\n"), ["a"], ["m", "x"]),
        (own(32), in_top("[attr]m x=1\n[attr]m x=2\na m\n"), ["a"], ["x"]), (own(32), [*in_top("[attr]m x=1\na m\n"),
            {"place": "info", "text": "[attr]m x=2\n"}], ["a"], ["x"]), (own(32), [*in_top("[attr]m x=1\na m\n"),
            {"place": "global", "text": "[attr]m x=3\n[attr]n y\na n\n"}], ["a"], ["x", "y"]), (own(32), [{"place": "global",
            "text": "[attr]binary x\n"}, *in_top("a binary\n")], ["a"], ["x", "diff"]),
    ]
    for rule, files, paths, names in rows:
        for path in paths:
            yield "attributes", rule, {"files": files, "path": path, "names": names}
    for text, path in itertools.product(("a/ x\n", "a x\n", "*/ x\n", "b/a/ x\n", "/ x\n", "a// x\n", "a/** x\n"), ("a", "b/a")):
        for more in ({}, {"is_dir": True}):
            yield "attributes", DIRECTORY, {"files": in_top(text), "path": path, **more, "names": ["x"]}


def lists() -> Iterator[Row]:
    """Specs with a listing, and with attribute files where specs ask for attributes."""
    tree = ["README.md", "docs/guide.md", "docs/img/a.png", "lib/A.c", "lib/a.c", "lib/a.h", "src/gen/table.rs", "src/lib.rs",
        "src/lib.rs.orig", "src/main.rs", "tests/all.rs"]
    attributes = [*in_top("*.rs lang=rust text\n*.png binary\nsrc/gen/** gen -text\n"), {"place": "directory", "directory": "lib",
        "text": "*.h -text !lang\n*.c text=auto\n"}]
    plain: list[tuple[str, list[str], dict[str, Any]]] = [
        (EXCLUDE, ["src/*.rs", ":!src/gen"], {}), (EXCLUDE, ["*.rs", ":!tests", ":!*main*"], {}), (BELOW, ["docs/", "lib"], {}),
            (SLASHES, ["*.md"], {}), (GLOB, [":(glob)*.md", ":(glob)*/*.c"], {}), (FRONT, [":(glob)**/*.rs"], {}), (ICASE,
            [":(icase)LIB/a*"], {}), (ALONE, [":!*.rs", ":^docs"], {}), (TOP, [":/README.md", "*.c"], {"prefix": "lib"}),
        (own(12), ["."], {"prefix": "src"}), (own(12), ["../docs/*.md", "gen"], {"prefix": "src"}), (own(14), [],
            {"prefix": "src/gen"}), (own(14), [], {}), (own(17), [":(icase)A.C"], {"prefix": "lib"}), (DEFAULTS, ["*.c"],
            {"defaults": ["glob"]}), (DEFAULTS, ["LIB"], {"defaults": ["icase"]}), (NIL, [":"], {}), (own(19), ["src",
            "src/lib.rs", ":!src/lib.rs"], {}), (ALONE, [":!*"], {}), (ITSELF, ["nothing"], {}),
    ]
    for rule, specs, more in plain:
        yield "lists", rule, {"specs": specs, **more, "lines": tree}
    for spec in ("text", "-text", "!text", "text=auto", "lang=rust", "lang", "!lang", "binary", "-diff", "gen", "!gen",
        "text lang=rust", "lang=rust -text", "lang=c"):
        yield "lists", ATTR, {"specs": [f":(attr:{spec})"], "files": attributes, "lines": tree}
    for specs in ([":(attr:text)src"], [":(exclude,attr:gen)", "*.rs"], [":(exclude,attr:gen)"], [":(attr:-text)*.h"],
        [":(glob,attr:lang=rust)*/*"], [":(attr:text=auto)", ":!*/a.c"], [":(icase,attr:text=auto)*/A.C"],
        [":(attr:lang=rust)src/gen", "docs"], [":(attr:gen)docs"]):
        yield "lists", ATTR, {"specs": specs, "files": attributes, "lines": tree}
    for specs in (["a/"], ["*/"], ["a"], [":!a/"], [":!a/b"], [":(glob)*"], ["a/b/"]):
        yield "lists", own(15), {"specs": specs, "lines": ["a/", "a/b/", "a/b/c", "a/c", "b"]}
    yield "lists", ITSELF, {"specs": ["a", [255], [254]], "lines": ["a", [254, 47, 97], [255], "b"]}


def all_rows() -> Iterator[Row]:
    for rows in (reading, normalising, matching, globs, pruning, attributes, lists):
        yield from rows()
