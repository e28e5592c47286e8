"""rt's own functions, for the scripts that prove as it does."""
import importlib.machinery
import importlib.util
import os
import shutil
import sys


def load():
    file = shutil.which("rt")
    if not file:
        sys.exit("rt is not on the PATH")
    sys.dont_write_bytecode = True
    loader = importlib.machinery.SourceFileLoader("rt", os.path.realpath(file))
    made = importlib.util.module_from_spec(importlib.util.spec_from_loader("rt", loader))
    loader.exec_module(made)
    return made
