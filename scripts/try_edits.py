#!/usr/bin/env python3
"""try_edits.py CRATE [EDIT..]: tries wrong bodies of a proved crate: the edits of must-fail and of edits/CRATE.edits, or
those named. Each starts from a copy of the crate's kept proof, so only what it changes is proved again. Those of
edits/CRATE.edits that are refused go to edits/refused.txt. This is for writing an edit. The gate tries its edits
without a kept proof."""
import glob
import importlib.machinery
import importlib.util
import os
import shutil
import subprocess
import sys
import tempfile

import edits as files

if len(sys.argv) < 2:
    sys.exit("usage: try_edits.py CRATE [EDIT..]")
top = os.path.dirname(os.path.dirname(os.path.abspath(__file__)))
name, wanted = sys.argv[1], sys.argv[2:]
path = os.path.realpath(shutil.which("rt"))
sys.path.insert(0, os.path.dirname(path))
loader = importlib.machinery.SourceFileLoader("rt", path)
rt = importlib.util.module_from_spec(importlib.util.spec_from_loader("rt", loader))
loader.exec_module(rt)
os.chdir(top)
rt.rtlib.guarded()
crate = next(it for it in rt.rtlib.crates_below(top) if it.folder == f"{top}/crates/{name}")
if not os.path.isdir(f"crates/{name}/out/incremental"):
    sys.exit(f"try_edits.py: crates/{name} has no kept proof: run `rt check` there first")
failed, refused = 0, []
with tempfile.TemporaryDirectory(prefix="edits-") as room:
    kept = f"{room}/kept"
    shutil.copytree(f"crates/{name}/out/incremental", kept, symlinks=True)
    files.unpack(name, f"{room}/edits")
    paths = sorted(glob.glob(f"crates/{name}/must-fail/*.edit") + glob.glob(f"{room}/edits/*.edit"))
    paths = [it for it in paths if not wanted or os.path.basename(it)[: -len(".edit")] in wanted]
    if not paths:
        sys.exit(f"try_edits.py: {name} has no such edit")
    for path in paths:
        kind, text = rt.must_fail(crate, os.path.abspath(path), ["--jobs", "1"], kept)
        print(text[:300], flush=True)
        if kind not in (rt.REFUSED, rt.AT_LIMIT):
            failed += 1
        elif path.startswith(room):
            refused.append(os.path.basename(path)[: -len(".edit")])
files.write_refused(name, refused)
sys.exit(failed > 0)
