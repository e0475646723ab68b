"""Builds the wheel, which contains the shared library of this repository; pyproject.toml has the rest.

An editable installation uses the modules in `src`, and there a link to the library.
"""
import os
import shutil
import subprocess
from pathlib import Path

from setuptools import Distribution, setup
from setuptools.command.build_py import build_py

try:
    from setuptools.command.bdist_wheel import bdist_wheel
except ImportError:  # before setuptools 70.1
    from wheel.bdist_wheel import bdist_wheel

HERE = Path(__file__).resolve().parent
TOP = HERE.parents[1]
LIBRARY = TOP / "lib" / "libtownship.so"
#: Where the package looks for the library.
BESIDE = Path("township", "libtownship.so")


def built_library() -> Path:
    """Return the shared library, which is built if it is not there."""
    if not LIBRARY.exists():
        if not (TOP / "include" / "township.h").exists():
            raise SystemExit("township is built in its repository, which contains the sources of the library")
        subprocess.run(["make", "lib"], cwd=TOP, check=True)
    return LIBRARY


class BuildWithLibrary(build_py):
    """Puts the shared library beside the modules."""

    #: Whether the modules stay where they are. setuptools sets this.
    editable_mode = False

    def run(self):
        super().run()
        library = built_library()
        if self.editable_mode:
            # A link, so that the package uses what `make lib` builds next.
            link = HERE / "src" / BESIDE
            link.unlink(missing_ok=True)
            link.symlink_to(os.path.relpath(library, link.parent))
        else:
            # A copy of the file itself, to which the library's name is a link.
            shutil.copyfile(library, self._target())

    def get_outputs(self, include_bytecode=True):
        outputs = super().get_outputs(include_bytecode)
        return outputs if self.editable_mode else [*outputs, str(self._target())]

    def _target(self):
        return Path(self.build_lib, BESIDE)


class PlatformWheel(bdist_wheel):
    """A wheel for any Python 3, because nothing is compiled for one, but for this platform alone."""

    def get_tag(self):
        return ("py3", "none", super().get_tag()[2])


class PlatformDistribution(Distribution):
    """A distribution that is not pure Python."""

    def has_ext_modules(self):
        return True


setup(
    cmdclass={"build_py": BuildWithLibrary, "bdist_wheel": PlatformWheel}, distclass=PlatformDistribution
)
