"""Puts libpathspec.so into the package, and says so in the wheel's name.

It lies in the folder PATHSPEC_LIB_DIR, or else where pkg-config's file of pathspec says.
"""

import os
import subprocess

from setuptools import Distribution, setup
from setuptools.command.build_py import build_py

try:
    from setuptools.command.bdist_wheel import bdist_wheel
except ImportError:  # setuptools before 70.1
    from wheel.bdist_wheel import bdist_wheel

# The number of the declarations that the package has, PS_VERSION of pathspec.h.
VERSION = "2"
CURE = """
In a clone of Puneloviash run `make library`, and then either
  set PATHSPEC_LIB_DIR to its folder target/library, as an absolute path, or
  run `make install`, and let pkg-config find pathspec.pc (PKG_CONFIG_PATH)."""


def pkg_config(option):
    """What pkg-config prints of pathspec."""
    program = os.environ.get("PKG_CONFIG", "pkg-config")
    try:
        printed = subprocess.check_output([program, option, "pathspec"], text=True)
    except (OSError, subprocess.CalledProcessError) as error:
        raise SystemExit(f"PATHSPEC_LIB_DIR isn't set, and {error}{CURE}")
    return printed.strip()


def shared_object():
    """The path of libpathspec.so."""
    folder = os.environ.get("PATHSPEC_LIB_DIR")
    if folder is None:
        found = pkg_config("--modversion")
        if found != VERSION:
            raise SystemExit(
                f"pathspec.pc is of version {found}, and this package is written for"
                f" {VERSION}{CURE}"
            )
        folder = pkg_config("--variable=libdir")
    path = os.path.join(folder, "libpathspec.so")
    if not os.path.exists(path):
        raise SystemExit(f"{path} isn't there{CURE}")
    return path


class BuildPy(build_py):
    """Copies the shared object beside the modules."""

    def copied(self):
        return os.path.join(self.build_lib, "puneloviash", "libpathspec.so")

    def run(self):
        super().run()
        if not getattr(self, "editable_mode", False):
            self.copy_file(shared_object(), self.copied())

    def get_outputs(self, include_bytecode=1):
        return [*super().get_outputs(include_bytecode), self.copied()]


class BdistWheel(bdist_wheel):
    """A wheel for any Python 3 on this platform."""

    def get_tag(self):
        return "py3", "none", super().get_tag()[2]


class WithSharedObject(Distribution):
    """A distribution that isn't of Python alone."""

    def has_ext_modules(self):
        return True


setup(
    cmdclass={"build_py": BuildPy, "bdist_wheel": BdistWheel},
    distclass=WithSharedObject,
)
