#!/usr/bin/env bash
# A view that outlives its text is refused before the prover runs. An edit of must-fail has to reach the prover. So
# this tries the code of crates/echo_text/must-fail/view_outlives_its_text.md on a copy.
set -eu
cd "$(dirname "$0")/.."
page=crates/echo_text/must-fail/view_outlives_its_text.md
copy=$(mktemp -d)
trap 'rm -rf "$copy"' EXIT
mkdir "$copy/crates"
grep -E '^(disk_io|echo_addr|echo_text):' crates.txt > "$copy/crates.txt"
cp HANDLES "$copy"
cp -a crates/disk_io crates/echo_addr crates/echo_text "$copy/crates"
sed -n '/^    pub fn/,/^    }$/s/^    //p' "$page" >> "$copy/crates/echo_text/src/reading.rt"
wanted=$(sed -n 's/^    error/error/p' "$page")
[ -n "$wanted" ] || { echo "lifetimes.sh: $page names no error"; exit 1; }
cd "$copy/crates/echo_text"
if said=$(rt check 2>&1); then
    echo "lifetimes.sh: a view that outlives its text was proved"
    exit 1
fi
if ! grep -qF "$wanted" <<< "$said"; then
    echo "lifetimes.sh: refused, but not by '$wanted':"
    grep -m 5 error <<< "$said"
    exit 1
fi
echo "A view that outlives its text is refused."
