"""Where the files of this repository are."""
import importlib.machinery
import importlib.util
import os
import sys

TOP = os.path.dirname(os.path.dirname(os.path.dirname(os.path.abspath(__file__))))
AUDITOR, CASES, CRATES, DOCS, EXAMPLES, PACKAGING, TOOLS = (
    os.path.join(TOP, name) for name in ("auditor", "cases", "crates", "docs", "examples", "packaging", "tools"))
SHELL = os.path.join(TOP, "checks", "shell")
# A first key for trials.
KEY = os.path.join(EXAMPLES, "key")


def at_top(*names):
    return os.path.join(TOP, *names)


def tool(name):
    """A program of tools/."""
    return os.path.join(TOOLS, name)


def executable_of(crate):
    """The executable that a build of a program crate leaves."""
    return os.path.join(CRATES, crate, "out", crate)


def loaded_tool(name):
    """A program of tools/ that is in Python, as a module."""
    if TOOLS not in sys.path:
        sys.path.insert(0, TOOLS)
    loader = importlib.machinery.SourceFileLoader(name.replace("-", "_"), tool(name))
    module = importlib.util.module_from_spec(importlib.util.spec_from_loader(loader.name, loader))
    loader.exec_module(module)
    return module
