#!/usr/bin/env python3
"""Runs the toolchain's `rt` with the same arguments, and with two changes.

To learn whether a crate has to be proved, `rt` takes a sum of its sources and of all crates below it. It does so again
for each path down to a crate: minutes where there are many thousand paths. Here each sum is taken once for each
question, so a later change is seen.

With `--from-nothing` as the first argument, a crate that has no kept proofs is proved in one go, and none are kept. A
library then has what other crates can cite, and no checked proofs, so the crates above it load less."""
import importlib.machinery
import importlib.util
import os
import shutil
import sys

path = os.path.realpath(shutil.which("rt"))
sys.path.insert(0, os.path.dirname(path))
known = None


def once(plain):
    def stamp(crate):
        global known
        if known is None:
            known = {}
            try:
                return plain(crate)
            finally:
                known = None
        if crate.folder not in known:
            known[crate.folder] = plain(crate)
        return known[crate.folder]

    return stamp


def from_nothing(plain, keeping):
    def call(crate, command, *words):
        if words[:1] == ("build",) and keeping[0] in words and not crate.has_kept():
            at = words.index(keeping[0])
            words = words[:at] + (() if crate.is_program else ("--statements",)) + words[at + len(keeping):]
        return plain(crate, command, *words)

    return call


words = sys.argv[1:]
is_from_nothing = words[:1] == ["--from-nothing"]
if is_from_nothing:
    del words[0]
try:
    loader = importlib.machinery.SourceFileLoader("rt", path)
    rt = importlib.util.module_from_spec(importlib.util.spec_from_loader("rt", loader))
    loader.exec_module(rt)
    Crate = rt.rtlib.Crate
    Crate.stamp = once(Crate.stamp)
    if is_from_nothing:
        Crate.call = from_nothing(Crate.call, rt.rtlib.KEPT)
    main = rt.main
except (AttributeError, ImportError, SyntaxError):
    # Another toolchain may lack these names.
    os.execv(path, [path, *words])
sys.exit(main(words))
