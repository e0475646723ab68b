"""The examples in the docstrings and in the README, run at the top of the repository."""
import doctest
import importlib
import inspect
import os
import pkgutil
from decimal import Decimal
from pathlib import Path

import township
from samples import TOP, uneven

README = Path(__file__).resolve().parents[1] / "README.md"

#: The module that needs pandas.
PANDAS = "township.pandas"

#: The modules that need other packages, by how their names begin, and the packages.
NEEDS = {PANDAS: ("pandas",), "township._web.": ("flask", "waitress")}


class Finder(doctest.DocTestFinder):
    """Finds the methods of public classes, too: these classes say that they are of the package, and not of its modules."""

    def _from_module(self, module, found):
        if module is township and inspect.isfunction(found) and "." in found.__qualname__:
            return True
        return super()._from_module(module, found)


def load_tests(loader, tests, pattern):
    """All examples of all modules, each docstring's as a test of its own."""
    for module in _modules():
        tests.addTest(doctest.DocTestSuite(module, test_finder=Finder(), setUp=_enter, tearDown=_leave))
    tests.addTest(
        doctest.DocFileSuite(str(README), module_relative=False, encoding="utf-8", setUp=_enter, tearDown=_leave)
    )
    return tests


def _modules():
    """The package's modules, except for its command line."""
    yield township
    for found in pkgutil.walk_packages(township.__path__, "township."):
        if any(found.name.startswith(begin) and not _has(packages) for begin, packages in NEEDS.items()):
            continue
        # An installed package contains the library, which is named like a module.
        if not found.name.endswith(("__main__", ".libtownship")):
            yield importlib.import_module(found.name)


def _has(packages):
    return all(importlib.util.find_spec(package) is not None for package in packages)


def _enter(test):
    """Examples name the samples from the top of the repository, and have the plat of the uneven one."""
    test.came_from = os.getcwd()
    os.chdir(TOP)
    test.globs.update(township=township, plat=uneven(), Decimal=Decimal)
    if PANDAS in test.name:
        import pandas

        descriptions = ["sec. 5, lots 1 and 2, S1/2NE1/4.", "sec. 14, NE1/4 and N1/2.", "sec. 5, lot 1.", None]
        test.globs.update(frame=pandas.DataFrame({"description": descriptions}))


def _leave(test):
    os.chdir(test.came_from)
