"""What the gate on this machine proved of a crate and of those below it, as they stand.

Some kits' rt keeps what its gate proved by a sum of all that the proof read: the files, the libraries below as they were built,
and the toolchain. It is asked itself, as a module, so nothing older is ever taken. Others leave in out/ the libraries that the
gate proved and built. These are taken if they are newer than all sources.
"""
import importlib.machinery
import importlib.util
import os
import shutil
from typing import List, NamedTuple

from vithrynel.crates import ROOT, closure, unproved, uses


class Kept(NamedTuple):
    """The command that checks a crate over what the gate left, and whether the gate proved the crate itself as it stands."""
    command: List[str]
    is_proved: bool


def rt_as_module():
    """Returns rt, or None where RT names a command of another kind."""
    path = os.path.realpath(shutil.which(os.environ.get("RT", "rt")) or "")
    if not os.path.isfile(f"{os.path.dirname(path)}/rtlib.py"):
        return None
    loader = importlib.machinery.SourceFileLoader("rt", path)
    module = importlib.util.module_from_spec(importlib.util.spec_from_loader("rt", loader))
    loader.exec_module(module)
    return module


def command_of(rt, crate):
    return [*rt.rtlib.guarded(), rt.rtlib.RATTLE, "check", *crate.words(["--jobs", "1"], keeps=False), *rt.rtlib.KEPT]


def out_of_store(rt, room, name):
    """Puts the libraries of rt's store into a copy of the crate and of those below it."""
    crates = rt.crates_of(room)
    store = rt.Kept(crates)
    for it in crates:
        if not store.give(it, False, store.key(it)):
            return None
        store.is_built(it)
    return Kept(command_of(rt, next(it for it in crates if it.name == name)), True)


def out_of_folders(rt, room, name):
    """Lends the libraries in out/ to a copy of the crate and of those below it."""
    below = closure(uses(), name) - {name}
    if unproved(uses(), below):
        return None
    for it in below:
        os.symlink(f"{ROOT}/crates/{it}/out", f"{room}/crates/{it}/out")
    crate = next(it for it in rt.rtlib.crates_below(room) if it.name == name)
    return Kept(command_of(rt, crate), not unproved(uses(), {name}))


def kept(room, name):
    """Returns how a copy of the crate is checked over what the gate left of those below it, which stand in the copy, too, or None
    where the gate did not prove one of them as it stands."""
    try:
        rt = rt_as_module()
        rt.Crate.allowed = rt.handles_of(room)
        return (out_of_store if hasattr(rt, "Kept") else out_of_folders)(rt, room, name)
    except (AttributeError, SystemExit):
        # (another rt, or none)
        return None
