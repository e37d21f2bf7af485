#!/usr/bin/env python3
"""check_docs.py: names in documents exist. It reads README.md, CONTRIBUTING.md and docs. It looks at each word in
backquotes that is a path of this repository, a crate, a function, a law, a target of make, a command or an option. It
also looks at each link with its anchor, and at each word in italics that has an underscore: a clause of a contract or
a field of a definition. The lines that `make help` prints have to name each target."""
import glob
import os
import re
import sys

os.chdir(os.path.dirname(os.path.dirname(os.path.abspath(__file__))))
pages = ["README.md", "CONTRIBUTING.md", *sorted(glob.glob("docs/*.md"))]
sources = [
    it
    for kind in ("rt", "antt")
    for it in glob.glob(f"crates/*/**/*.{kind}", recursive=True)
    if "/out/" not in it
]
known = set()
clauses = set()
for it in sources:
    known.add(os.path.basename(it).rsplit(".", 1)[0])
    with open(it) as file:
        text = file.read()
    known.update(re.findall(r"\w+", text))
    clauses.update(re.findall(r"(?:ensures|requires) (\w+) \{", text))
    clauses.update(re.findall(r"^ +pub (\w+) :", text, re.M))
for it in glob.glob("crates/*/must-fail/*.edit"):
    known.add(os.path.basename(it).rsplit(".", 1)[0])
for it in glob.glob("edits/*.edits"):
    known.update(re.findall(r"^edit ([\w.-]+)$", open(it).read(), re.M))
for it in glob.glob("**/*.sh", recursive=True) + glob.glob("**/*.py", recursive=True):
    known.update(re.findall(r"\w+", open(it).read()))
crates = {os.path.basename(it) for it in glob.glob("crates/*")}
with open("Makefile") as file:
    makefile = file.read()
targets = set(re.findall(r"^\.PHONY: (.*)$", makefile, re.M)[0].split())
helped = {it for line in re.findall(r"^# - (.*)$", makefile, re.M) for it in re.findall(r"\bmake ([a-z-]+)", line)}
with open("crates/cmd_words/src/commands.rt") as file:
    options = set(re.findall(r'"([a-z][a-z-]*)"', file.read())) | {"explain", "help", "version"}
wrong = ["Makefile: its help lacks " + it for it in sorted(targets - helped - {"all", "help"})]
wrong += ["Makefile: no target " + it for it in sorted(helped - targets)]


def anchors(page):
    """The anchors of a page's headings, as viewers of Markdown make them."""
    with open(page) as file:
        heads = re.findall(r"^#+ (.*)$", file.read(), re.M)
    return {re.sub(r"[^\w -]", "", head.lower()).replace(" ", "-") for head in heads}


for page in pages:
    with open(page) as file:
        text = file.read()
    lines = text.split("\n")
    fenced = False
    for number, line in enumerate(lines, 1):
        if line.startswith("```"):
            fenced = not fenced
        for name, anchor in re.findall(r"\]\(([^)#:\s]*)(?:#([^)]*))?\)", line):
            target = os.path.join(os.path.dirname(page), name) if name else page
            if not os.path.exists(target):
                wrong.append(f"{page}:{number}: no file {name}")
            elif anchor and anchor not in anchors(target):
                wrong.append(f"{page}:{number}: no heading {name}#{anchor}")
        if fenced:
            continue
        for name in re.findall(r"(?<!\*)\*([a-z]+(?:_[a-z]+)+)\*(?!\*)", line):
            if name not in clauses:
                wrong.append(f"{page}:{number}: no clause {name}")
        for word in re.findall(r"`([^`]+)`", line):
            first = word.split()[0] if word.split() else ""
            if re.fullmatch(r"(crates|docs|scripts|examples|trials|bench|interop|packaging|edits)/[\w./-]+", first):
                if not (os.path.exists(first) or glob.glob(first.replace("NAME", "*").replace("CRATE", "*"))):
                    wrong.append(f"{page}:{number}: no file {first}")
            elif re.fullmatch(r"(echo|base|disk|model|law|cmd|station|test)_\w+", first) and "_" in first:
                if first not in crates and first not in known:
                    wrong.append(f"{page}:{number}: no crate or name {first}")
            elif re.fullmatch(r"[a-z]+(_[a-z0-9]+)+|[A-Z][a-z]+([A-Z][a-z]+)+", first):
                if first not in known:
                    wrong.append(f"{page}:{number}: nothing is named {first}")
            if first == "make":
                for target in re.findall(r"^make ([a-z-]+)", word):
                    if target not in targets:
                        wrong.append(f"{page}:{number}: no target {target}")
            if first == "echonet":
                for command in re.findall(r"^echonet ([a-z]+)", word):
                    if command not in options:
                        wrong.append(f"{page}:{number}: no command {command}")
                for option in re.findall(r"--([a-z][a-z-]+)", word):
                    if option not in options:
                        wrong.append(f"{page}:{number}: no option --{option}")
with open("docs/LIBRARY.md") as file, open("crates/library_tour/src/main.rt") as tour:
    if "```rust\n%s```" % tour.read() not in file.read():
        wrong.append("docs/LIBRARY.md: its tour is not crates/library_tour/src/main.rt")
size = sum(os.path.getsize(it) for it in [*pages, "CHANGELOG.md", *glob.glob("docs/*.1")])
print("\n".join(wrong) or f"{len(pages)} documents: what they name exists; with CHANGELOG and the manual pages {size} bytes")
sys.exit(bool(wrong))
