"""Walks over directories made for them."""

import os
import pathlib
import socket
import tempfile
import unittest

from puneloviash import Pathspec, PathspecError


class Walks(unittest.TestCase):
    def setUp(self):
        directory = tempfile.TemporaryDirectory()
        self.addCleanup(directory.cleanup)
        self.top = directory.name

    def add(self, *files):
        for file in files:
            path = os.path.join(os.fsencode(self.top), os.fsencode(file))
            os.makedirs(os.path.dirname(path), exist_ok=True)
            open(path, "w").close()

    def write(self, path, text):
        self.add(path)
        with open(os.path.join(self.top, path), "w", encoding="utf-8") as file:
            file.write(text)

    def walk(self, *specs):
        """The paths of a walk, sorted, and how many directories it opened."""
        walk = Pathspec(specs).walk(self.top)
        return sorted(walk), walk.opened

    def test_what_may_be_skipped_is_not_entered(self):
        files = [
            "docs/guide.md",
            "src/a/b.rs",
            "src/gen/table.rs",
            "src/lib.rs",
            "tests/all.rs",
        ]
        self.add(*files)
        found = self.walk("src/*.rs", ":!src/gen")
        self.assertEqual(found, (["src/a/b.rs", "src/lib.rs"], 3))
        self.assertEqual(self.walk(), (files, 6))

    def test_links_are_files(self):
        self.add("a/b", ".git/config", "c/.git")
        os.symlink(".", os.path.join(self.top, "a/again"))
        os.symlink("nowhere", os.path.join(self.top, "c/lost"))
        with socket.socket(socket.AF_UNIX) as bound:
            bound.bind(os.path.join(self.top, "c/socket"))
            self.assertEqual(self.walk(), (["a/again", "a/b", "c/lost"], 3))

    def test_names_that_are_no_utf_8(self):
        self.add(b"d/\xff\xfe")
        search = Pathspec([b"d/\xff*"])
        self.assertEqual(list(search.walk(self.top)), ["d/\udcff\udcfe"])
        self.assertEqual(list(search.walk(os.fsencode(self.top))), [b"d/\xff\xfe"])

    def test_roots(self):
        self.add("a")
        search = Pathspec([])
        for root in self.top, pathlib.Path(self.top), self.top + "/":
            self.assertEqual(list(search.walk(root)), ["a"])
        before = os.getcwd()
        os.chdir(self.top)
        try:
            self.assertEqual(list(search.walk()), ["a"])
        finally:
            os.chdir(before)
        with self.assertRaises(TypeError):
            search.walk(1)

    def test_errors(self):
        search = Pathspec([])
        with self.assertRaises(FileNotFoundError):
            list(search.walk("/nowhere/at/all"))
        errors = []
        walk = search.walk("/nowhere/at/all", on_error=errors.append)
        self.assertEqual(list(walk), [])
        self.assertEqual(walk.opened, 0)
        self.assertEqual(errors[0].filename, "/nowhere/at/all")

        self.add("a/x", "b/x", "z")
        del errors[:]
        walk = search.walk(self.top, on_error=errors.append)
        # (so few entries are read at once, with the names of both directories)
        self.assertEqual(next(walk), "z")
        os.remove(os.path.join(self.top, "a/x"))
        os.rmdir(os.path.join(self.top, "a"))
        self.assertEqual(list(walk), ["b/x"])
        self.assertEqual([type(error) for error in errors], [FileNotFoundError])

    def test_attributes_count(self):
        self.add("a", "b")
        search = Pathspec([":(attr:x)*"])
        search.assign("b", "x")
        self.assertEqual(list(search.walk(self.top)), ["b"])
        with self.assertRaises(PathspecError):
            list(search.walk(self.top, attributes=True))

    def test_attribute_files_are_read(self):
        self.add("a.c", "d/a.c", "d/e/a.c", "l/a.c", "n/.gitattributes/a.c")
        self.write(".gitattributes", "*.c x\n")
        self.write("d/.gitattributes", "*.c -x\n")
        self.write("d/e/.gitattributes", "a.c x\n")
        # A link is no attribute file, nor is a directory, nor one to which a walk doesn't come.
        os.symlink("../d/.gitattributes", os.path.join(self.top, "l/.gitattributes"))
        search = Pathspec([":(attr:x)*", ":!d/e"])
        wanted = ["a.c", "l/a.c", "n/.gitattributes/a.c"]
        for turn in range(2):
            self.assertEqual(sorted(search.walk(self.top, attributes=True)), wanted)
        self.assertEqual(list(search.share().walk(self.top)), [])
        top = os.fsencode(self.top)
        found = search.walk(top, attributes=True)
        self.assertEqual(sorted(found), [os.fsencode(path) for path in wanted])
        # What isn't there any longer counts no longer, and that of info counts most.
        os.remove(os.path.join(self.top, "d/.gitattributes"))
        self.write(".git/info/attributes", "/a.c !x\n")
        found = search.walk(self.top, attributes=True)
        self.assertEqual(sorted(found), ["d/a.c", *wanted[1:]])

    @unittest.skipIf(os.geteuid() == 0, "a superuser may read all")
    def test_an_attribute_file_that_cannot_be_read(self):
        self.add("a", "d/a")
        self.write("d/.gitattributes", "a x\n")
        os.chmod(os.path.join(self.top, "d/.gitattributes"), 0)
        search, errors = Pathspec([":(attr:!x)*"]), []
        with self.assertRaises(PermissionError):
            list(search.walk(self.top, attributes=True))
        found = list(search.walk(self.top, on_error=errors.append, attributes=True))
        self.assertEqual(sorted(found), ["a"])
        self.assertEqual([type(error) for error in errors], [PermissionError])


if __name__ == "__main__":
    unittest.main()
