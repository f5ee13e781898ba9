"""The tools as modules, for those that use functions of another one: a tool has no ending by which Python would find it."""
import importlib.machinery
import importlib.util

from shared import programs


def tool(name):
    """The tool with this path below tools/, as a module."""
    loader = importlib.machinery.SourceFileLoader(name.rpartition("/")[2], str(programs.TOP / "tools" / name))
    module = importlib.util.module_from_spec(importlib.util.spec_from_loader(loader.name, loader))
    loader.exec_module(module)
    return module
