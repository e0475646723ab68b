"""The kit's rt, as a module: what is read and called of it. Nothing of it is replaced."""
import importlib.machinery
import importlib.util
import os
import shutil
import sys


def loaded_rt(*names):
    """The kit's rt as a module, or None if it lacks one of these names, such as `rtlib.lock`, by which it is used. Kits
    differ in them."""
    path = os.path.realpath(shutil.which("rt") or sys.exit("there is no rt on the path: install the Rattle kit"))
    spec = importlib.util.spec_from_loader("rt", importlib.machinery.SourceFileLoader("rt", path))
    rt = importlib.util.module_from_spec(spec)
    try:
        spec.loader.exec_module(rt)
        for name in names:
            it = rt
            for part in name.split("."):
                it = getattr(it, part)
    except (AttributeError, SyntaxError):
        return None
    return rt
