"""The toolchain's own modules: what they say of crates and of what is built."""
import importlib.machinery
import os
import types


def which(name):
    """Returns the path of a command of the toolchain, or None."""
    return next((f"{it}/{name}" for it in os.environ.get("PATH", "").split(":") if os.access(f"{it}/{name}", os.X_OK)), None)


def load(name):
    """Returns the module that stands in a file beside the command rt."""
    path = os.path.join(os.path.dirname(os.path.realpath(which("rt"))), name)
    module = types.ModuleType(name.partition(".")[0])
    module.__file__ = path
    importlib.machinery.SourceFileLoader(module.__name__, path).exec_module(module)
    return module
