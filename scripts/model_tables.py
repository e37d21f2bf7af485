#!/usr/bin/env python3
"""model_tables.py [--check]: writes the tables of docs/MODEL.md from the comments of the definitions. A table stands
between a line `<!-- definitions CRATE..: NAME.. -->` and `<!-- end -->`; its words are the comment above each name in
the specs of these crates. With `--check` it changes nothing, and fails where a table differs or a name has no comment."""
import glob
import os
import re
import sys

os.chdir(os.path.dirname(os.path.dirname(os.path.abspath(__file__))))
PAGE = "docs/MODEL.md"
TABLE = re.compile(r"(<!-- definitions ([a-z_ ]+): ([\w ]+) -->\n)(.*?)(<!-- end -->\n)", re.S)
DEFINES = re.compile(r"(?:unfoldable |abbrev )?(?:pub )?(?:record |data )?(\w+)\b")


def comments(crate):
    """The comment above each public definition of a crate."""
    found = {}
    for path in sorted(glob.glob(f"crates/{crate}/specs/**/*.antt", recursive=True)):
        with open(path, encoding="utf-8") as file:
            text = file.read()
        for match in re.finditer(r"((?:^-- .*\n)+)([^-\n].*\bpub\b.*|pub .*)", text, re.M):
            name = DEFINES.match(match[2].replace("pub ", "", 1))
            if name:
                words = " ".join(line[3:] for line in match[1].strip().split("\n"))
                found.setdefault(name[1], words)
    return found


def rows(crates, names):
    """The rows of a table."""
    known = {}
    for crate in crates.split():
        for name, words in comments(crate).items():
            known.setdefault(name, words)
    lacking = [name for name in names.split() if name not in known]
    if lacking:
        sys.exit(f"{PAGE}: no comment above {' '.join(lacking)} in {crates}")
    return "".join(f"| `{name}` | {known[name].replace('|', chr(92) + '|')} |\n" for name in names.split())


def main():
    """Compares the page, or writes it."""
    with open(PAGE, encoding="utf-8") as file:
        old = file.read()
    new = TABLE.sub(lambda it: it[1] + "| Name | In words |\n|---|---|\n" + rows(it[2], it[3]) + it[5], old)
    if "--check" in sys.argv[1:]:
        if new != old:
            sys.exit(f"{PAGE} differs from the comments: run scripts/model_tables.py")
    else:
        with open(PAGE, "w", encoding="utf-8") as file:
            file.write(new)


main()
