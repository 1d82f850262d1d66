"""The declarations of the package beside pathspec.h, where these tests lie in a clone."""

import ctypes
import pathlib
import re
import unittest

from puneloviash import Defaults, FaultKind, MatchKind, Place, Reason, _library

HEADER = pathlib.Path(__file__).resolve().parents[3] / "include" / "pathspec.h"
TYPES = {
    "const uint8_t *": ctypes.c_char_p,
    "uint8_t *": ctypes.c_void_p,
    "ps_search *": ctypes.c_void_p,
    "ps_match *": ctypes.POINTER(_library.PsMatch),
    "ps_fault *": ctypes.POINTER(_library.PsFault),
    "ps_left_out *": ctypes.POINTER(_library.PsLeftOut),
    "size_t *": ctypes.POINTER(ctypes.c_size_t),
    "uint32_t *": ctypes.POINTER(ctypes.c_uint32),
    "size_t ": ctypes.c_size_t,
    "uint32_t ": ctypes.c_uint32,
    "bool ": ctypes.c_bool,
}


@unittest.skipUnless(HEADER.exists(), "no pathspec.h")
class Declarations(unittest.TestCase):
    def setUp(self):
        self.header = HEADER.read_text(encoding="utf-8")

    def test_calls(self):
        declared = {}
        for result, name, given in re.findall(
            r"^(uint32_t|void) (ps_\w+)\(([^)]*)\);", self.header, re.M
        ):
            types = [re.sub(r"\w+$", "", " ".join(one.split())) for one in given.split(",")]
            declared[name] = (
                [TYPES[one] for one in types if one],
                ctypes.c_uint32 if result == "uint32_t" else None,
            )
        calls = [call for call in vars(_library).values() if hasattr(call, "argtypes")]
        self.assertGreater(len(calls), 15)
        for call in calls:
            with self.subTest(call=call.__name__):
                self.assertEqual((call.argtypes, call.restype), declared[call.__name__])

    def test_numbers(self):
        version = re.search(r"#define PS_VERSION (\d+)", self.header)
        self.assertEqual(_library.VERSION, int(version.group(1)))
        names = {name: int(number) for name, number in re.findall(r"PS_(\w+) = (\d+)", self.header)}
        for name in "OK", "YES", "MEMORY", "PREFIX", "MIXED", "UNSETTLED", "NO_MEMORY":
            self.assertEqual(getattr(_library, name), names[name])
        for one in [*Defaults, *MatchKind, *Place]:
            self.assertEqual(one.value, names[one.name])
        lines = {name[5:]: number for name, number in names.items() if name.startswith("LINE_")}
        self.assertEqual({one.name: one.value for one in Reason if one.value > 0}, lines)
        faults = {name[6:]: number for name, number in names.items() if name.startswith("FAULT_")}
        self.assertEqual({one.name: one.value for one in FaultKind if one.value > 0}, faults)
