#!/usr/bin/env bash
# Prints the counts of edits for docs/PROOFS.md: how many the gate tries, of each crate, and how many `make edits` tries.
set -eu
shopt -s nullglob
cd "$(dirname "$0")/.."
tried=0 others=0 crates=0 own=
for name in $(sed -n 's/^\([a-z_0-9]*\)[^:]*:.*/\1/p' crates.txt); do
  files=("crates/$name/must-fail"/*.edit)
  if [ ${#files[@]} -gt 0 ]; then own+="$name ${#files[@]}, "; fi
  tried=$((tried + ${#files[@]}))
  if [ -e "edits/$name.edits" ]; then
    others=$((others + $(grep -c '^edit ' "edits/$name.edits"))) crates=$((crates + 1))
  fi
done
echo "In the gate $tried: ${own%, }. In edits/ $others, of $crates crates."
