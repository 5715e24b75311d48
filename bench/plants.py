#!/usr/bin/env python3
"""Lists the wrong bodies that a crate's contracts let through, as the kit's `rt plant` does, with more time.

usage: in a crate's folder: python3 ../../bench/plants.py [--all] [--only WORD] [--max N] [--minutes N] [--jobs N]

`rt plant` gives a check of 40 bodies 240 seconds, halves them when that is too short, and says of those that are
left that they could not be judged. In `reg_facts` and the crates above it the first pass alone may take as long.
Here a check has 40 minutes and takes up 60 bodies; all else is the kit's. It prints what it found at its end, so
--minutes, which begin after the first check, have to be enough.
"""
import importlib.machinery
import os
import shutil
import sys
import types


def planting():
    """Returns the kit's module behind `rt plant`, which stands beside the command that `rt` leads to."""
    path = os.path.join(os.path.dirname(os.path.realpath(shutil.which("rt"))), "rt-plant")
    module = types.ModuleType("rt_plant")
    module.__file__ = path
    importlib.machinery.SourceFileLoader("rt_plant", path).exec_module(module)
    return module


if __name__ == "__main__":
    sys.dont_write_bytecode = True
    plant = planting()
    plant.BATCH, plant.SECONDS = 60, 2400
    sys.exit(plant.main(*sys.argv[1:]))
