"""Loads a tool of this folder as a module, for the tools that share its code: load.tool('recheck')."""
import importlib.machinery
import importlib.util
import sys
from pathlib import Path

sys.dont_write_bytecode = True


def tool(name):
    loader = importlib.machinery.SourceFileLoader(name, str(Path(__file__).resolve().with_name(name)))
    module = importlib.util.module_from_spec(importlib.util.spec_from_loader(name, loader))
    loader.exec_module(module)
    return module
