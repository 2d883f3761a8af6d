"""What `rt` itself goes by: its two modules, for what none of its commands does."""

import importlib.machinery
import importlib.util
import shutil
import sys
from pathlib import Path


def load(name):
    """The module `rt` or `rtlib` of the kit, whose command `rt` is on the PATH."""
    found = shutil.which("rt")
    if not found:
        raise OSError("rt is missing: tools/preflight says how to get it")
    file = Path(found).resolve().parent / ("rt" if name == "rt" else f"{name}.py")
    loader = importlib.machinery.SourceFileLoader(f"kit_{name}", str(file))
    module = importlib.util.module_from_spec(importlib.util.spec_from_loader(loader.name, loader))
    written, sys.dont_write_bytecode = sys.dont_write_bytecode, True
    sys.modules[loader.name] = module
    try:
        loader.exec_module(module)
    finally:
        sys.dont_write_bytecode = written
    return module
