"""Answers, and bad input, through the package alone."""

import copy
import ctypes
import gc
import itertools
import os
import pathlib
import pickle
import signal
import subprocess
import sys
import threading
import unittest
from unittest import mock

from puneloviash import (
    Defaults,
    FaultKind,
    LeftOut,
    Match,
    MatchKind,
    Pathspec,
    PathspecError,
    Place,
    Reason,
    _library,
)


class Answers(unittest.TestCase):
    def test_kinds_of_matches(self):
        search = Pathspec(["src", "*.c", ":(literal)a[b]", ":!gen"])
        rows = {
            "src/a": Match(0, MatchKind.BELOW, False),
            "src": Match(0, MatchKind.VERBATIM, False),
            "b.c": Match(1, MatchKind.WILDCARD, False),
            "a[b]": Match(2, MatchKind.VERBATIM, False),
            "gen/b.c": Match(3, MatchKind.BELOW, True),
            "docs": None,
        }
        for path, wanted in rows.items():
            with self.subTest(path=path):
                self.assertEqual(search.settle(path), wanted)
                selects = wanted is not None and not wanted.is_excluded
                self.assertIs(search.matches(path), selects)
        search = Pathspec([":!gen"])
        self.assertEqual(search.settle("a").kind, MatchKind.ALWAYS)
        self.assertTrue(search.matches("a"))

    def test_directories(self):
        search = Pathspec([":(glob)s*", "d/"])
        self.assertTrue(search.matches("src", is_dir=True))
        self.assertTrue(search.matches("d", is_dir=True))
        self.assertFalse(search.matches("d"))
        search = Pathspec(["src/lib", ":!src/lib/gen"])
        self.assertFalse(search.may_skip("src"))
        self.assertTrue(search.may_skip("docs"))
        self.assertTrue(search.may_skip("src/lib/gen"))
        self.assertTrue(search.can_match("src", is_dir=True))
        self.assertFalse(search.can_match("docs", is_dir=True))

    def test_a_slash_at_the_end_says_directory(self):
        search = Pathspec([":(glob)s*", "d/", ":(attr:x)t", "u/v/w"])
        self.assertTrue(search.matches("src/"))
        self.assertTrue(search.matches(b"d/"))
        self.assertFalse(search.may_skip("u/"))
        self.assertFalse(search.may_skip("u/v//"))
        self.assertTrue(search.can_match("u/v/"))
        search.assign("t/", "x")
        self.assertTrue(search.matches("t", is_dir=True))
        self.assertEqual(search.settle("d/"), Match(1, MatchKind.VERBATIM, False))

    def test_all_types_of_texts(self):
        class Named:
            def __init__(self, name):
                self.name = name

            def __fspath__(self):
                return self.name

        for spec in "a", b"a", pathlib.PurePosixPath("a"), Named("a"), Named(b"a"):
            search = Pathspec([spec])
            for path in "a", b"a", pathlib.PurePosixPath("a"), Named("a"), Named(b"a"):
                self.assertTrue(search.matches(path))
                self.assertIsNotNone(search.settle(path))
                self.assertFalse(search.may_skip(path))
                self.assertTrue(search.can_match(path))
        for wrong in 1, None, ["a"]:
            with self.assertRaises(TypeError):
                search.matches(wrong)
            with self.assertRaises(TypeError):
                Pathspec([wrong])
        for one in "a", b"a", pathlib.PurePosixPath("a"):
            with self.assertRaises(TypeError):
                Pathspec(one)

    def test_specs_of_any_iterable(self):
        self.assertTrue(Pathspec(iter(["a", "b"])).matches("b"))
        self.assertTrue(Pathspec(()).matches("b"))
        self.assertTrue(Pathspec({"a": 1}).matches("a"))

    def test_filter_gives_what_it_was_given(self):
        search = Pathspec(["*.c", "d/"])
        paths = ["a.c", b"b.c", pathlib.PurePosixPath("c.c"), "a.o", "d/", "d"]
        self.assertEqual(list(search.filter(paths)), [*paths[:3], "d/"])
        self.assertEqual(list(search.filter(["d"], is_dir=True)), ["d"])
        self.assertEqual(list(search.filter([])), [])
        for count in 999, 1000, 1001, 2000, 10_000:
            many = [f"{number}.{'co'[number % 2]}" for number in range(count)]
            self.assertEqual(list(search.filter(iter(many))), many[::2])

    def test_filter_answers_as_matches_does(self):
        search = Pathspec([":(glob)s*", "d/", "*.c", "\udcff*", ":(attr:x)t", ":!gen"])
        paths = ["src", "src/", "src//", "d", "d/", "d//", "", "/", "a.c", "gen/a.c", "t", "t/"]
        texts = [*paths, "\udcff\udcfe", "\u00e9.c", "s\0", "a\0.c", "a.c\0", "\0", "\0d/"]
        for turn in range(2):
            for many in (
                paths,
                texts,
                [os.fsencode(path) for path in texts],
                [pathlib.PurePosixPath(path) for path in paths],
                [path if len(path) % 2 else os.fsencode(path) for path in texts],
            ):
                for is_dir in False, True:
                    with self.subTest(turn=turn, many=many, is_dir=is_dir):
                        wanted = [path for path in many if search.matches(path, is_dir)]
                        self.assertEqual(list(search.filter(many, is_dir)), wanted)
            search.assign("t", "x")

    def test_filter_reads_ahead(self):
        search = Pathspec(["*.c"])
        left = iter([f"{number}.c" for number in range(3000)])
        found = search.filter(left)
        self.assertEqual(next(left), "0.c")
        self.assertEqual(next(found), "1.c")
        self.assertEqual(next(left), "1001.c")
        # It doesn't ask again where an end was told, as a terminal's may be.
        ends = iter([["a.c"], ["b.c"]])

        class Again:
            def __init__(self):
                self.left = iter(next(ends))

            def __iter__(self):
                return self

            def __next__(self):
                try:
                    return next(self.left)
                except StopIteration:
                    self.left = iter(next(ends))
                    raise

        self.assertEqual(list(search.filter(Again())), ["a.c"])

    def test_filter_raises_in_its_place(self):
        search = Pathspec(["*.c"])

        def fails():
            yield "a.c"
            yield "a.o"
            raise OSError

        class Named:
            def __fspath__(self):
                raise OSError

        rows = (
            (fails(), OSError),
            (["a.c", "a.o", None, "b.c"], TypeError),
            ([b"a.c", bytearray(b"b.c")], TypeError),
            (["a.c", "\ud800.c", "b.c"], UnicodeEncodeError),
            (["a.c", Named(), "b.c"], OSError),
        )
        for paths, error in rows:
            with self.subTest(error=error):
                found = search.filter(paths)
                self.assertEqual(os.fsdecode(next(found)), "a.c")
                with self.assertRaises(error):
                    next(found)
                self.assertEqual(list(found), [])
        with self.assertRaises(TypeError):
            next(search.filter(1))

    def test_filter_without_memory(self):
        search = Pathspec([":(attr:x)*"])
        search.assign("a", "x")
        match = _library.match

        def match_or_refuse(at, text, length, is_dir, found):
            if text == b"b":
                found.kind = _library.NO_MEMORY
                return _library.YES
            return match(at, text, length, is_dir, found)

        with mock.patch.multiple(
            _library, match_all=lambda *_: _library.MEMORY, match=match_or_refuse
        ):
            found = search.filter(["c", "a", "b", "a"])
            self.assertEqual(next(found), "a")
            with self.assertRaises(MemoryError):
                next(found)

    def test_prefixes_and_roots(self):
        search = Pathspec(["../c", "/r/d"], prefix="a/b", root="/r")
        self.assertTrue(search.matches("a/c"))
        self.assertTrue(search.matches("d"))
        self.assertFalse(search.matches("c"))
        search = Pathspec([], prefix=b"a", root=pathlib.PurePosixPath("/r"))
        self.assertTrue(search.matches("a/b"))
        self.assertFalse(search.matches("b"))
        self.assertEqual(search.common_prefix, "a")
        self.assertEqual(search.prefix_directory, "a")
        for prefix in "/", "a/", "a//b", "..":
            with self.assertRaises(PathspecError) as raised:
                Pathspec(["c"], prefix=prefix)
            self.assertIs(raised.exception.kind, FaultKind.PREFIX)
            self.assertIsNone(raised.exception.number)

    def test_long_texts_are_whole(self):
        long = "d" * 10_000
        search = Pathspec([f"{long}/a", f"{long}/b"])
        self.assertEqual(search.common_prefix, f"{long}/")
        self.assertEqual(search.longest_common_directory, long)
        self.assertEqual(Pathspec(["a"]).prefix_directory, "")
        self.assertIsNone(Pathspec([]).longest_common_directory)
        with self.assertRaisesRegex(PathspecError, long):
            Pathspec([f":({long})"])

    def test_defaults(self):
        def answer(defaults, spec, path):
            return Pathspec([spec], defaults=defaults).matches(path)

        self.assertTrue(answer(Defaults(0), "*.c", "a/b.c"))
        self.assertFalse(answer(Defaults.GLOB, "*.c", "a/b.c"))
        self.assertTrue(answer(Defaults.ICASE, "A", "a"))
        self.assertTrue(answer(Defaults.LITERAL, ":!a", ":!a"))
        self.assertFalse(answer(Defaults.NOGLOB, "*.c", "a.c"))
        self.assertTrue(answer(Defaults.GLOB | Defaults.ICASE, "*.C", "a.c"))

    def test_defaults_of_the_environment(self):
        self.assertEqual(Defaults.from_environment({}), Defaults(0))
        said = {"GIT_GLOB_PATHSPECS": "1", "GIT_ICASE_PATHSPECS": "on"}
        both = Defaults.GLOB | Defaults.ICASE
        self.assertEqual(Defaults.from_environment(said), both)
        with self.assertRaises(PathspecError) as raised:
            Defaults.from_environment({"GIT_GLOB_PATHSPECS": "perhaps"})
        self.assertIs(raised.exception.kind, FaultKind.NOT_TRUTH)
        with self.assertRaises(PathspecError) as raised:
            said = {"GIT_GLOB_PATHSPECS": "1", "GIT_NOGLOB_PATHSPECS": "1"}
            Defaults.from_environment(said)
        self.assertIs(raised.exception.kind, FaultKind.GLOB_AND_NO_GLOB)

    def test_lines(self):
        search = Pathspec.from_lines("*.c\r\n:!gen")
        self.assertTrue(search.matches("a.c"))
        self.assertFalse(search.matches("gen/a.c"))
        with self.assertRaises(PathspecError) as raised:
            Pathspec.from_lines("a\n\nb\n")
        self.assertEqual(raised.exception.number, 1)
        self.assertIs(raised.exception.kind, FaultKind.EMPTY)
        # The byte 0 is one like others there.
        search = Pathspec.from_lines(b"a\0b")
        self.assertTrue(search.matches("a\0b"))
        self.assertFalse(search.matches("a"))
        self.assertTrue(Pathspec.from_lines("c", prefix="d").matches("d/c"))

    def test_attributes(self):
        search = Pathspec([":(attr:text)*", ":(attr:eol=lf)b"])
        self.assertFalse(search.matches("a"))
        search.assign("a", "text")
        self.assertTrue(search.matches("a"))
        search.assign(b"a", b"-text")
        self.assertFalse(search.matches("a"))
        search.assign(pathlib.PurePosixPath("b"), "eol=lf")
        rows = {
            "": (FaultKind.EMPTY_ATTRIBUTES, "attribute list is empty"),
            "a=b\\": (
                FaultKind.TRAILING_ESCAPE,
                "escape at the end of attribute value: b\\",
            ),
        }
        for given, (kind, message) in rows.items():
            with self.assertRaises(PathspecError) as raised:
                search.assign("b", given)
            self.assertIs(raised.exception.kind, kind)
            self.assertIsNone(raised.exception.number)
            self.assertEqual(str(raised.exception), message)
        self.assertTrue(search.matches("b"))
        self.assertFalse(search.share().matches("b"))

    def test_attribute_files(self):
        search = Pathspec([":(attr:text)*"])
        self.assertFalse(search.matches("a.c"))
        self.assertIsNone(search.add_attributes("", "*.c text\n"))
        self.assertIsNone(search.add_attributes(pathlib.PurePosixPath("d/e"), b"*.c -text"))
        self.assertEqual(
            list(search.filter(["a.c", "a.o", "d/a.c", "d/e/a.c", "d/ee/a.c"])),
            ["a.c", "d/a.c", "d/ee/a.c"],
        )
        # A slash at the end is none of the path's, and the empty text takes a file away.
        search.add_attributes("d/e/", "")
        self.assertTrue(search.matches("d/e/a.c"))
        search.add_attributes(b"", "*.o text\n*.c -text\n", Place.GLOBAL)
        self.assertTrue(search.matches("a.o"))
        self.assertTrue(search.matches("a.c"))
        search.add_attributes("a//b", "/a.c !text", Place.INFO)
        self.assertFalse(search.matches("a.c"))
        self.assertTrue(search.matches("d/a.c"))
        self.assertFalse(search.share().matches("d/a.c"))

    def test_lines_that_are_left_out(self):
        search = Pathspec([":(attr:text)*"])
        rows = (
            ("", "", None),
            ("", "a" * 2048, LeftOut(1, 1, Reason.TOO_LONG)),
            ("", "* text\na te%xt\nb !x%\n", LeftOut(2, 2, Reason.INVALID_NAME)),
            ("d", "\n[attr]m text\n", LeftOut(1, 2, Reason.MACRO)),
            ("", b"\0\n\xff\n[attr]m text\n!x text", LeftOut(1, 4, Reason.NEGATIVE)),
        )
        for directory, text, left_out in rows:
            with self.subTest(text=text):
                self.assertEqual(search.add_attributes(directory, text), left_out)

    def test_attribute_files_are_refused(self):
        search = Pathspec([":(attr:text)*"])
        for directory in "/a", "a//b", "./a/../":
            with self.subTest(directory=directory):
                try:
                    search.add_attributes(directory, "* text")
                except PathspecError as error:
                    self.assertIs(error.kind, FaultKind.PREFIX)
        for text in pathlib.PurePosixPath("x"), None, bytearray(b"x"):
            with self.assertRaises(TypeError):
                search.add_attributes("", text)
        search.add_attributes("", "a text")
        with self.assertRaises(PathspecError) as raised:
            search.assign("a", "-text")
        self.assertIs(raised.exception.kind, FaultKind.MIXED)
        self.assertTrue(search.matches("a"))
        other = search.share()
        other.assign("b", "text")
        with self.assertRaises(PathspecError) as raised:
            other.add_attributes("", "b -text")
        self.assertIs(raised.exception.kind, FaultKind.MIXED)
        self.assertTrue(other.matches("b"))


class Faults(unittest.TestCase):
    def test_messages(self):
        rows = {
            "": (FaultKind.EMPTY, "an empty string is not a valid pathspec"),
            ":%a": (
                FaultKind.UNIMPLEMENTED_SHORT,
                "unimplemented short keyword: '%'",
            ),
            ":(b": (
                FaultKind.MISSING_PAREN,
                "missing ')' at the end of pathspec magic in :(b",
            ),
            ":(nope)b": (
                FaultKind.INVALID_KEYWORD,
                "found an unknown keyword in long magic: nope",
            ),
        }
        for spec, (kind, message) in rows.items():
            for make in (
                lambda: Pathspec(["a", spec]),
                lambda: Pathspec.from_lines(f"a\n{spec}\n"),
            ):
                with self.subTest(spec=spec), self.assertRaises(PathspecError) as raised:
                    make()
                self.assertEqual(raised.exception.number, 1)
                self.assertIs(raised.exception.kind, kind)
                self.assertEqual(str(raised.exception), f"spec 1: {message}")

    def test_kinds(self):
        rows = {
            ":(literal,glob)a": FaultKind.LITERAL_WITH_GLOB,
            ":(attr:a,attr:b)": FaultKind.SECOND_ATTRIBUTES,
            ":(prefix:9)a": FaultKind.INVALID_PREFIX,
            ":(attr:)a": FaultKind.EMPTY_ATTRIBUTES,
            ":(attr:%)a": FaultKind.INVALID_NAME,
            ":(attr:a=%)a": FaultKind.INVALID_VALUE_BYTE,
            "/a": FaultKind.OUTSIDE_ROOT,
            "../a": FaultKind.LEAVES_REPOSITORY,
        }
        for spec, kind in rows.items():
            with self.subTest(spec=spec), self.assertRaises(PathspecError) as raised:
                Pathspec([spec])
            self.assertEqual(raised.exception.number, 0)
            self.assertIs(raised.exception.kind, kind)
        # A spec that can't be read comes before one that can't be placed.
        with self.assertRaises(PathspecError) as raised:
            Pathspec(["../a", ":%"])
        self.assertEqual(raised.exception.number, 1)

    def test_kinds_have_the_names_of_the_library(self):
        room, length = ctypes.create_string_buffer(32), ctypes.c_size_t()
        for kind in FaultKind:
            if kind.value > 0:
                _library.fault_name(kind.value, room, len(room), length)
                name = room.raw[: length.value].decode()
                self.assertEqual(name.lower(), kind.name.replace("_", "").lower())
        self.assertIs(FaultKind(16), FaultKind.OTHER)

    def test_the_byte_0_is_told(self):
        with self.assertRaises(PathspecError) as raised:
            Pathspec(["a", "b", "cd\0e"])
        error = raised.exception
        self.assertIs(error.kind, FaultKind.NUL)
        self.assertEqual((error.number, error.position), (2, 2))
        self.assertEqual(str(error), "spec 2: the byte 0 at 2")
        with self.assertRaises(PathspecError):
            Pathspec([b"\0"])
        # In a path it is a byte like others.
        self.assertFalse(Pathspec(["a"]).matches("a\0"))
        self.assertTrue(Pathspec(["a*"]).matches("a\0b"))
        self.assertTrue(Pathspec(["a"]).may_skip("b\0"))

    def test_empty_paths(self):
        for specs in ["a"], [":!a"], []:
            search = Pathspec(specs)
            for path in "", b"", "/":
                self.assertTrue(search.matches(path))
                self.assertFalse(search.may_skip(path))
                self.assertTrue(search.can_match(path))

    def test_bytes_that_are_no_utf_8(self):
        for byte in range(1, 256):
            path = bytes([ord("x"), byte, ord("y")])
            search = Pathspec([path], defaults=Defaults.LITERAL)
            self.assertTrue(search.matches(path))
            self.assertTrue(search.matches(os.fsdecode(path)))
            self.assertFalse(search.matches("xy"))
            # (it ends at a wildcard byte, also where that stands for itself)
            prefix = path[:1] if byte in b"*?[\\" else path
            self.assertEqual(os.fsencode(search.common_prefix), prefix)
        self.assertTrue(Pathspec(["\udcff*"]).matches(b"\xff\xfe"))
        self.assertTrue(Pathspec([b"\xff*"]).matches("\udcff\udcfe"))
        with self.assertRaises(UnicodeEncodeError):
            Pathspec(["\ud800"])
        with self.assertRaises(PathspecError) as raised:
            Pathspec([b":(\xff)a"])
        self.assertTrue(str(raised.exception).endswith("\ufffd"))

    def test_many_specs(self):
        specs = [f"{number:06}" for number in range(100_000)]
        search = Pathspec(specs)
        self.assertEqual(search.settle("012345/a").number, 12_345)
        self.assertFalse(search.matches("12345"))
        specs[-1] = ":(nope)a"
        with self.assertRaises(PathspecError) as raised:
            Pathspec(specs)
        self.assertEqual(raised.exception.number, 99_999)

    def test_errors_are_pickled(self):
        with self.assertRaises(PathspecError) as raised:
            Pathspec(["a\0"])
        error = pickle.loads(pickle.dumps(raised.exception))
        self.assertIsInstance(error, ValueError)
        self.assertEqual(str(error), str(raised.exception))
        self.assertEqual((error.kind, error.number, error.position), (FaultKind.NUL, 0, 1))


class Lives(unittest.TestCase):
    def test_closed(self):
        with Pathspec(["a"]) as search:
            self.assertTrue(search.matches("a"))
            walk = search.walk(os.curdir)
        search.close()
        for call in (
            lambda: search.matches("a"),
            lambda: list(search.filter(["a"])),
            lambda: search.settle("a"),
            lambda: search.may_skip("a"),
            lambda: search.can_match("a"),
            lambda: search.assign("a", "b"),
            lambda: search.add_attributes("a", "b"),
            lambda: search.common_prefix,
            lambda: search.longest_common_directory,
            lambda: search.prefix_directory,
            lambda: search.share(),
            lambda: list(walk),
        ):
            with self.assertRaisesRegex(ValueError, "closed"):
                call()

    def test_what_is_shared_outlives(self):
        search = Pathspec(["*.c"])
        other = search.share()
        search.close()
        self.assertTrue(other.matches("a.c"))

    def test_freed_with_the_last_reference(self):
        gc.collect()
        before = len(_library._structures)
        search = Pathspec(["a"])
        other = search.share()
        self.assertEqual(len(_library._structures), before + 2)
        search.close()
        self.assertEqual(len(_library._structures), before + 1)
        del other
        self.assertEqual(len(_library._structures), before)
        with self.assertRaises(PathspecError):
            Pathspec([":(nope)"])
        self.assertEqual(len(_library._structures), before)

    def test_asked_in_a_cycle_that_is_collected(self):
        answers = []

        class Asking:
            def __del__(self):
                answers.append(self.search.matches("a"))

        asking = Asking()
        asking.search = Pathspec(["a"])
        asking.search.itself = asking
        del asking
        gc.collect()
        self.assertEqual(answers, [True])

    def test_the_package_has_types(self):
        self.assertTrue(pathlib.Path(_library.__file__).with_name("py.typed").exists())

    def test_no_copies(self):
        search = Pathspec(["a"])
        for call in pickle.dumps, copy.copy, copy.deepcopy:
            with self.assertRaises(TypeError):
                call(search)

    def test_memory_is_given_back(self):
        if not os.path.exists("/proc/self/statm"):
            self.skipTest("no /proc")

        def pages():
            return int(pathlib.Path("/proc/self/statm").read_text().split()[1])

        specs = [f"{number:06}" for number in range(1000)]
        Pathspec(specs).matches("a")
        before = pages()
        for _ in range(200):
            Pathspec(specs).matches("a")
        self.assertLess(pages() - before, 4096)

    def test_threads_ask_one_search(self):
        search = Pathspec([":(glob)src/**/*.c", ":!src/gen", ":(attr:x)*"])
        wrong = []

        def ask(number):
            own = search.share() if number % 2 else search
            for turn in range(2000):
                if turn % 500 == 0:
                    own.assign(f"{number}/{turn}", "x")
                found = own.settle(f"{number}/0")
                right = own.matches("src/d/a.c") and not own.matches("src/gen/a.c")
                if not right or found is None or found.number != 2:
                    wrong.append((number, turn))

        threads = [threading.Thread(target=ask, args=(n,)) for n in range(6)]
        for thread in threads:
            thread.start()
        for thread in threads:
            thread.join()
        self.assertEqual(wrong, [])

    def test_closed_by_another_thread(self):
        for _ in range(50):
            search, answers = Pathspec(["a"]), []

            def ask():
                try:
                    while True:
                        answers.append(search.matches("a"))
                except ValueError:
                    pass

            thread = threading.Thread(target=ask)
            thread.start()
            search.close()
            thread.join()
            self.assertTrue(all(answers))

    @unittest.skipUnless(hasattr(os, "fork"), "no fork")
    def test_fork(self):
        # (in a process of its own, which has no other thread)
        program = """
import os, sys
from puneloviash import Pathspec
search = Pathspec(["src/*.c", ":!src/gen"])
def asks_well():
    own = search.share()
    return all(s.matches("src/a.c") and s.may_skip("src/gen") for s in (search, own))
child = os.fork()
if not child:
    well = asks_well()
    search.close()
    os._exit(not well)
_, status = os.waitpid(child, 0)
sys.exit(status != 0 or not asks_well())
"""
        subprocess.run([sys.executable, "-c", program], check=True)

    def test_the_end_of_the_interpreter(self):
        program = """
import threading
from puneloviash import Pathspec, _library
search, other = Pathspec(["a"]), Pathspec(["b"])
other.itself = other
def ask():
    while search.matches("a"):
        started.set()
started = threading.Event()
threading.Thread(target=ask, daemon=True).start()
started.wait()
"""
        command = [sys.executable, "-c", program]
        ended = subprocess.run(command, check=True, stderr=subprocess.PIPE)
        self.assertEqual(ended.stderr, b"")


class Closings(unittest.TestCase):
    """A search that is closed amid its calls, and replaced by one that takes other paths."""

    def setUp(self):
        self.names = itertools.cycle(["src", "docs", "tests"])
        self.closed = 0
        self.held = self.make()

    def make(self):
        name = next(self.names)
        return name, Pathspec([f"{name}/a", f"{name}/b"])

    def replace(self, *_):
        self.held[1].close()
        self.held = self.make()
        self.closed += 1

    def ask(self, turns):
        """Asks in turn. Each answer is that of the search, or that it is closed."""
        for _ in range(turns):
            name, search = self.held
            try:
                right = search.matches(f"{name}/a"), search.common_prefix == f"{name}/"
            except ValueError as error:
                self.assertEqual(str(error), "the search is closed")
            else:
                self.assertEqual(right, (True, True))

    def test_by_a_signal(self):
        def replace(*_):
            self.replace()
            signal.setitimer(signal.ITIMER_REAL, 1e-4)

        before = signal.signal(signal.SIGALRM, replace)
        # (the last of these comes first, and after it the handler sets the timer no more)
        self.addCleanup(signal.signal, signal.SIGALRM, before)
        self.addCleanup(signal.setitimer, signal.ITIMER_REAL, 0)
        self.addCleanup(signal.signal, signal.SIGALRM, signal.SIG_IGN)
        signal.setitimer(signal.ITIMER_REAL, 1e-4)
        self.ask(25_000)
        self.assertGreater(self.closed, 50)

    def test_by_the_collector(self):
        class Closing:
            def __init__(self, replace):
                self.itself, self.replace = self, replace

            def __del__(self):
                self.replace()

        self.addCleanup(gc.set_threshold, *gc.get_threshold())
        for threshold in range(1, 100):
            gc.set_threshold(threshold)
            for _ in range(10):
                Closing(self.replace)
                self.ask(10)
        self.assertGreater(self.closed, 100)


if __name__ == "__main__":
    unittest.main()
