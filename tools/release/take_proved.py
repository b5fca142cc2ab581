#!/usr/bin/env python3
"""Puts the libraries below a crate that `rt ci` proved and kept on this machine into their folders `out`, so that `rt lib` does not prove them again.

`rt ci` names a kept library by a checksum of the toolchain, of all that its proof reads, and of the libraries below it, so only those of exactly these
sources are found. It keeps them without the file `out/rlib/stamp`, by which `rt lib` recognizes a library's sources, and which this script writes. The
script does nothing if `rt` is not the version that it was written for, and it never removes a kept library. `rt lib` proves all others.

usage: take_proved.py CRATE
"""
import hashlib
import importlib.machinery
import importlib.util
import os
import pathlib
import shutil
import sys

sys.dont_write_bytecode = True
PROJECT = pathlib.Path(__file__).resolve().parents[2]
# The SHA-256 of the files bin/rt and bin/rtlib.py of the toolchain whose internals this script uses.
KNOWN = "42f45cabc00d8256b495acdd1525789c67c745f97a56c0ec7ec54298d0396699"


def internals():
    """Returns the module of the command `rt`, or exits if it is not the known one."""
    command = pathlib.Path(shutil.which("rt") or sys.exit("take_proved.py: nothing is taken, as there is no rt")).resolve()
    found = hashlib.sha256(command.read_bytes() + command.with_name("rtlib.py").read_bytes()).hexdigest()
    if found != KNOWN:
        sys.exit(f"take_proved.py: nothing is taken, as this rt is not the known one: {found}")
    loader = importlib.machinery.SourceFileLoader("rt_command", str(command))
    rt = importlib.util.module_from_spec(importlib.util.spec_from_loader("rt_command", loader))
    loader.exec_module(rt)
    return rt


def is_taken(crate, kept):
    """Returns `True` if the folder of a crate has its proved library, which is taken from those that are kept if necessary."""
    stamp, key = crate.stamp(), kept.key(crate)
    if not crate.is_built():
        # The files there can be hard links to kept files, so they are removed, not overwritten.
        shutil.rmtree(f"{crate.folder}/out/rlib", ignore_errors=True)
        if not kept.give(crate, False, key):
            return False
        pathlib.Path(crate.folder, "out/rlib/stamp").write_text(stamp, encoding="utf-8")
    kept.is_built(crate)
    return True


def main():
    os.chdir(PROJECT)
    rt = internals()
    rt.Kept.drop = lambda *_: None
    crates = rt.rtlib.crates_below(os.getcwd())
    below = next(it for it in crates if it.name == sys.argv[1]).below()
    # Waits until no other `rt` works in these folders, and keeps others out until this process ends.
    rt.rtlib.lock(below)
    kept, taken = rt.Kept(crates), []
    for crate in below:
        if all(it.name in taken for it in crate.below()) and is_taken(crate, kept):
            taken.append(crate.name)
    print(f"take_proved.py: {len(taken)} of {len(below)} libraries below {sys.argv[1]} are proved: {' '.join(taken)}", file=sys.stderr)


main()
