"""Takes a script of the repository, whose name has no suffix, as a module: for the tests beside scripts."""
from __future__ import annotations

import importlib.machinery
import importlib.util
import pathlib
import sys
from types import ModuleType

TOP = pathlib.Path(__file__).resolve().parent.parent


def script(path: str) -> ModuleType:
    """The module of a script, by its path from the top."""
    folder = str((TOP / path).parent)
    if folder not in sys.path:
        sys.path.insert(0, folder)
    loader = importlib.machinery.SourceFileLoader(pathlib.Path(path).name, str(TOP / path))
    module = importlib.util.module_from_spec(importlib.util.spec_from_loader(loader.name, loader))
    sys.modules[loader.name] = module
    loader.exec_module(module)
    return module
