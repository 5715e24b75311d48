#!/usr/bin/env python3
"""Gives the crates below a crate, in a copy of the repository, the libraries that `rt ci` kept on this machine.

    bench/kept.py COPY CRATE
    cd COPY/crates/CRATE && rt check

`rt check` alone proves all below it first, since it uses nothing that `rt ci` kept. Prints the crates of whose sources
nothing is kept, and ends with status 1 where there is one. Stand-ins (standins.py) that were built stay. It uses the
functions of the kit's `rt`, and no verdict rests on it.
"""
import importlib.machinery
import importlib.util
import os
import shutil
import sys
from types import ModuleType
from typing import Any


def load_rt() -> ModuleType:
    program = os.path.realpath(shutil.which("rt") or "/opt/rattle/bin/rt")
    loader = importlib.machinery.SourceFileLoader("rt_program", program)
    spec = importlib.util.spec_from_loader("rt_program", loader)
    assert spec
    module = importlib.util.module_from_spec(spec)
    sys.modules["rt_program"] = module
    loader.exec_module(module)
    return module


def give(kept: Any, crate: Any) -> bool:
    """Whether the crate's library is there now. The file `kept` beside it names what was given."""
    rlib, key = f"{crate.folder}/out/rlib", kept.key(crate)
    given = f"{rlib}/kept"
    is_given = os.path.isfile(given)
    if is_given:
        with open(given, encoding="utf-8") as it:
            is_given = it.read() == key
    if crate.is_built() and (is_given or not os.path.isfile(given)):
        return True
    if not os.path.isdir(kept.place(crate, False, key)):
        return False
    shutil.rmtree(rlib, ignore_errors=True)
    if not kept.give(crate, False, key):
        return False
    for path, text in ((f"{rlib}/stamp", crate.stamp()), (given, key)):
        with open(path, "w", encoding="utf-8") as it:
            it.write(text)
    return True


def main(copy: str, name: str) -> int:
    rt = load_rt()
    root = os.path.realpath(copy)
    os.chdir(root)
    if os.path.isdir(f"{root}/crates/reg_absurd"):
        os.environ["RT_ALLOW_C"] = "1"
    rt.Crate.allowed = rt.handles_of(root)
    crates = rt.crates_of(root)
    kept = rt.Kept(crates)
    below = {it.name for crate in crates if crate.name == name for it in crate.below()} - {name}
    lost = []
    for crate in crates:
        if crate.name in below:
            if not give(kept, crate):
                lost.append(crate.name)
            kept.is_built(crate)
    print(*lost)
    return 1 if lost else 0


if __name__ == "__main__":
    if len(sys.argv) != 3:
        sys.exit("usage: bench/kept.py COPY CRATE")
    sys.exit(main(*sys.argv[1:]))
