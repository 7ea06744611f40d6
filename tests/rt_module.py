"""rt as a module, for what no command of it gives."""

import importlib.machinery
import importlib.util
import os
import shutil
import sys


def load():
    """Returns the rt that is on the PATH."""
    path = shutil.which("rt")
    if not path:
        sys.exit("rt isn't on the PATH")
    loader = importlib.machinery.SourceFileLoader("rt_command", os.path.realpath(path))
    module = importlib.util.module_from_spec(importlib.util.spec_from_loader("rt_command", loader))
    sys.modules["rt_command"] = module
    loader.exec_module(module)
    return module
