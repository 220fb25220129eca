"""The command `rt` of the Rattle kit as a library, for scripts that need more than it prints. It fits kits from 13f on."""
import importlib.machinery
import importlib.util
import os
import shutil
import sys

from tree import ROOT


def load_rt():
    """The module of the `rt` on the PATH, which from here on knows this checkout's crates."""
    sys.dont_write_bytecode = True
    file = shutil.which("rt")
    if file is None:
        sys.exit("the command rt of the Rattle kit is not on the PATH")
    loader = importlib.machinery.SourceFileLoader("rt_of_the_kit", os.path.realpath(file))
    rt = importlib.util.module_from_spec(importlib.util.spec_from_loader("rt_of_the_kit", loader))
    sys.modules["rt_of_the_kit"] = rt
    loader.exec_module(rt)
    return rt


def crates_of(rt):
    """This checkout's crates, each behind those that it stands on."""
    rt.Crate.allowed = rt.handles_of(ROOT)
    rt.rtlib.Crate = rt.Crate
    return sorted(rt.rtlib.crates_below(ROOT), key=lambda it: len(it.below()))
