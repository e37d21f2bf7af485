#!/usr/bin/env python3
"""edits.py [--list] [CRATE..]: tries the edits of edits/CRATE.edits, which the gate leaves out. The prover has to
refuse each of them. Without crates: all that have such a file. The variable `jobs` is the number of crates that are
tried at a time. Libraries that are not built yet are proved first, once for each crate above them.

An edit begins with a line `edit NAME`; the lines after it are those of a file of must-fail. edits/refused.txt has a
line for each edit that was refused: its crate and name, the day, and a sum of the edit and of the crate's sources. At
the end come the edits that were never refused, or only with other sources, or that fit the sources no more. --list prints
just these, and fails if one does not fit."""
import concurrent.futures
import datetime
import glob
import hashlib
import os
import re
import shutil
import subprocess
import sys
import tempfile

RECORD = "edits/refused.txt"
REFUSED = r"rt: must-fail [\w/]+/([\w.-]+)\.edit: refused, as it must be"


def edits_of(crate):
    """The text of each edit of edits/CRATE.edits, by name."""
    path = f"edits/{crate}.edits"
    if not os.path.exists(path):
        return {}
    with open(path, encoding="utf-8") as file:
        before, *parts = re.split(r"^edit ([\w.-]+)\n", file.read(), flags=re.M)
    names = parts[::2]
    if before or len(set(names)) != len(names):
        sys.exit(f"{path}: it does not begin with an edit, or two edits have one name")
    return dict(zip(names, parts[1::2]))


def unpack(crate, folder):
    """Writes each edit of the crate to a file of the folder, as `rt` reads them."""
    os.makedirs(folder)
    for name, text in edits_of(crate).items():
        with open(f"{folder}/{name}.edit", "w", encoding="utf-8") as file:
            file.write(text)


def sum_of(crate, text):
    """The sum of an edit and of the sources of its crate."""
    whole = hashlib.sha256(text.encode())
    for part in ("src", "specs", "proofs"):
        for path in sorted(glob.glob(f"crates/{crate}/{part}/**/*.*", recursive=True)):
            with open(path, "rb") as file:
                whole.update(path.encode() + b"\0" + file.read() + b"\0")
    return whole.hexdigest()[:16]


def record():
    """The day and the sum of each edit that was refused, by `CRATE/NAME`."""
    with open(RECORD, encoding="utf-8") as file:
        return {name: (day, text) for name, day, text in (line.split() for line in file)}


def write_refused(crate, names):
    """Records that these edits of the crate were refused today. Edits that are gone leave the record."""
    known, edits = record(), edits_of(crate)
    day = datetime.date.today().isoformat()
    known.update({f"{crate}/{it}": (day, sum_of(crate, edits[it])) for it in names})
    kept = {f"{crate}/{it}" for it in edits}
    rows = [(name, *row) for name, row in sorted(known.items()) if not name.startswith(f"{crate}/") or name in kept]
    with open(RECORD + ".new", "w", encoding="utf-8") as file:
        file.writelines(" ".join(row) + "\n" for row in rows)
    os.replace(RECORD + ".new", RECORD)


def tried(crate, room):
    """Tries the edits of one crate, in a tree where they replace those of must-fail. Returns the refused ones."""
    tree = f"{room}/{crate}"
    subprocess.run(["scripts/tree.sh", tree, crate], check=True)
    shutil.rmtree(f"{tree}/crates/{crate}/must-fail", ignore_errors=True)
    unpack(crate, f"{tree}/crates/{crate}/must-fail")
    shutil.copy("HANDLES", tree)
    command = [os.path.abspath("scripts/rt.py"), "must-fail", crate]
    said = subprocess.run(command, cwd=tree, stdout=subprocess.PIPE, stderr=subprocess.STDOUT, text=True, errors="replace")
    print(said.stdout, end="", flush=True)
    shutil.rmtree(tree)
    return [it for it in re.findall(REFUSED, said.stdout) if it in edits_of(crate)]


def try_all(crates):
    """Tries the edits of these crates, those with the most edits first. Returns how many were not refused."""
    lacking = {it: len(edits_of(it)) for it in crates}
    whole = sum(lacking.values())
    os.makedirs("bin/edits", exist_ok=True)
    jobs = int(os.environ.get("jobs") or subprocess.check_output(["scripts/jobs.sh"]))
    with tempfile.TemporaryDirectory(dir="bin/edits") as room, concurrent.futures.ThreadPoolExecutor(jobs) as pool:
        order = sorted(crates, key=lambda it: -lacking[it])
        runs = {pool.submit(tried, it, os.path.abspath(room)): it for it in order}
        for run in concurrent.futures.as_completed(runs):
            write_refused(runs[run], run.result())
            lacking[runs[run]] -= len(run.result())
    left = sum(lacking.values())
    print(f"{whole - left} edits refused, {left} not refused")
    return left


def fits(crate, text):
    """Whether each line that the edit replaces is in its file once."""
    path, old, texts = None, None, {}
    for kind, line in re.findall(r"^(file|old|new): ?(.*)$", text, re.M):
        if kind == "file":
            path = f"crates/{crate}/{line.strip()}"
            if path not in texts and os.path.exists(path):
                with open(path, encoding="utf-8") as file:
                    texts[path] = file.read()
        elif kind == "old":
            old = line
        elif texts.get(path, "").count(old) != 1:
            return False
        else:
            texts[path] = texts[path].replace(old, line)
    return bool(texts)


def print_untried(crates):
    """Prints which edits were refused with the sources as they are, and names all others. Returns how many do not fit
    the sources."""
    known, same, unfit = record(), [], 0
    for crate in crates:
        never, other, lost = [], [], []
        for name, text in edits_of(crate).items():
            day, refused = known.get(f"{crate}/{name}", (None, None))
            if not fits(crate, text):
                lost.append(name)
            elif day is None:
                never.append(name)
            elif refused != sum_of(crate, text):
                other.append(f"{name} ({day})")
            else:
                same.append(day)
        unfit += len(lost)
        rows = ((lost, "fits no more"), (never, "never refused"), (other, "refused with other sources"))
        for names, said in rows:
            if names:
                print(f"{crate}: {said}: {', '.join(names)}")
    days = f", from {min(same)} to {max(same)}" if same else ""
    print(f"{len(same)} edits were refused with these sources{days}")
    return unfit


def strays():
    """Prints the edits of must-fail that fit the sources no more, and folders of edits. Returns how many."""
    lost = glob.glob("edits/*/")
    for path in glob.glob("crates/*/must-fail/*.edit"):
        with open(path, encoding="utf-8") as file:
            if not fits(path.split("/")[1], file.read()):
                lost.append(path)
    for path in sorted(lost):
        print(f"{path}: " + ("fits no more" if path.endswith(".edit") else "its edits belong into a file edits/CRATE.edits"))
    return len(lost)


def main(words):
    is_list = words[:1] == ["--list"]
    all_crates = [os.path.basename(it)[: -len(".edits")] for it in glob.glob("edits/*.edits")]
    crates = sorted(set(words[is_list:])) or sorted(all_crates)
    for it in set(crates).difference(all_crates):
        sys.exit(f"edits.py: there is no edits/{it}.edits")
    lacking = 0 if is_list else try_all(crates)
    return strays() + print_untried(crates) + lacking > 0


if __name__ == "__main__":
    os.chdir(os.path.dirname(os.path.dirname(os.path.abspath(__file__))))
    sys.exit(main(sys.argv[1:]))
