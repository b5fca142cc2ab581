"""Builds the package: adds the declarations of wat.h, which cffi reads, and the shared library, to the Python sources.

The environment variable WAT_LIBRARY is the path of the shared library; by default it is the one that `cargo build --release --package wat-c` writes.
The wheel is for each version of Python 3, since cffi calls the library without compiled code.
"""
import os
import pathlib
import re
import shutil
import sys

import cffi
from setuptools import Distribution, setup
from setuptools.command.build_py import build_py
from wheel.bdist_wheel import bdist_wheel

TOP = pathlib.Path(__file__).resolve().parents[1]
LIBRARY = {"darwin": "libwat_c.dylib", "win32": "wat_c.dll"}.get(sys.platform, "libwat_c.so")


def declarations(header):
    """Returns the declarations of wat.h that cffi can read: integer constants, enums, structs and functions of the library."""
    text = re.sub(r"/\*.*?\*/", "", header, flags=re.S)
    text = re.sub(r"^#ifdef __cplusplus\n.*?^#endif\n|^static inline .*?^}\n", "", text, flags=re.S | re.M)
    return "\n".join(line for line in text.split("\n") if line.strip() and (not line.startswith("#") or re.fullmatch(r"#define \w+ \d+", line)))


class BuildPackage(build_py):
    """Adds the generated declarations and the shared library to the sources."""

    def run(self):
        super().run()
        folder = pathlib.Path(self.build_lib, "wat_lex")
        ffi = cffi.FFI()
        ffi.set_source("wat_lex._declarations", None)
        ffi.cdef(declarations((TOP / "include/wat.h").read_text(encoding="utf-8")))
        ffi.emit_python_code(str(folder / "_declarations.py"))
        library = os.environ.get("WAT_LIBRARY") or TOP / "rust/target/release" / LIBRARY
        shutil.copyfile(library, folder / LIBRARY.replace("wat_c", "wat"))


class BuildWheel(bdist_wheel):
    """Names the wheel for a platform and each version of Python 3."""

    def get_tag(self):
        return "py3", "none", super().get_tag()[2]


class WithLibrary(Distribution):
    """A package with compiled code, which is for one platform."""

    def has_ext_modules(self):
        return True


setup(cmdclass={"build_py": BuildPackage, "bdist_wheel": BuildWheel}, distclass=WithLibrary)
