"""Builds the wheel: the package, with the library of C that bin/native has built, or that GEOARROW_C_LIBRARY names, beside its modules. A source distribution
has no library, and what is built of it needs one that GEOARROW_C_LIBRARY names.

What is built on the way lies in a folder that ends with it, so that no wheel holds what an earlier one left.
"""
import atexit
import os
import pathlib
import re
import shutil
import sys
import tempfile

from setuptools import Distribution, setup
from setuptools.command.build_py import build_py
from setuptools.command.sdist import sdist

try:
    from setuptools.command.bdist_wheel import bdist_wheel
except ImportError:  # before setuptools 70.1
    try:
        from wheel.bdist_wheel import bdist_wheel
    except ImportError:
        sys.exit("setuptools 70.1 or later is needed, or an earlier one and wheel; without --no-build-isolation pip gets them")

HERE = pathlib.Path(__file__).resolve().parent
TOP = HERE.parent
LIBRARY = pathlib.Path(os.environ.get("GEOARROW_C_LIBRARY") or TOP / "build/libgeoarrow_c.so")
LICENSES = [folder / name for name in ("LICENSE-APACHE", "LICENSE-MIT", "NOTICE") for folder in (HERE, TOP) if (folder / name).is_file()]


class WithLibrary(build_py):
    """The modules, and beside them the library and the licenses."""

    def run(self):
        super().run()
        if not LIBRARY.is_file():
            sys.exit(f"{LIBRARY} is not there: bin/native of the project's repository builds it, and GEOARROW_C_LIBRARY may name it")
        folder = pathlib.Path(self.build_lib, "geoarrow_fields")
        shutil.copyfile(LIBRARY, folder / "libgeoarrow_c.so")
        for license in LICENSES:
            shutil.copyfile(license, folder / license.name)


class WithLicenses(sdist):
    """The sources, and beside them the licenses."""

    def make_release_tree(self, base_dir, files):
        super().make_release_tree(base_dir, files)
        for license in LICENSES:
            shutil.copyfile(license, pathlib.Path(base_dir, license.name))


def platform(machine):
    """The platform that the library runs on: a Linux with a C library as new as the symbols that it asks for (PEP 600), and with 2.17 at least, the oldest that has a tag
    of its own on each machine."""
    asked = [(int(major), int(minor)) for major, minor in re.findall(rb"\0GLIBC_(\d+)\.(\d+)", LIBRARY.read_bytes())]
    system, _, processor = machine.partition("_")
    return "manylinux_{}_{}_{}".format(*max((2, 17), *asked), processor) if asked and system == "linux" else machine


class ForAnyPython(bdist_wheel):
    """A wheel for any Python 3, on the platform of the library alone."""

    def get_tag(self):
        return "py3", "none", platform(super().get_tag()[2])


class WithCode(Distribution):
    def has_ext_modules(self):
        return True


made = tempfile.mkdtemp(prefix="geoarrow_fields-")
atexit.register(shutil.rmtree, made, ignore_errors=True)
setup(
    cmdclass={"build_py": WithLibrary, "sdist": WithLicenses, "bdist_wheel": ForAnyPython},
    distclass=WithCode,
    options={"build": {"build_base": made}, "egg_info": {"egg_base": made}, "bdist_wheel": {"bdist_dir": f"{made}/wheel"}},
)
