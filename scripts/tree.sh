#!/usr/bin/env bash
# Makes a tree of one crate and of those below it. It has hard links to their sources, and to the libraries that are
# built of those below. Arguments: the folder, and the crate. Runs of `rt` in different trees do not wait for each
# other.
set -eu
cd "$(dirname "$0")/.."
tree=$1 name=$2
mkdir -p "$tree"
for crate in $(scripts/below.sh "$name"); do
  grep "^$crate:" crates.txt >> "$tree/crates.txt"
  mkdir -p "$tree/crates/$crate/out"
  for part in "crates/$crate"/*; do
    if [ "$part" != "crates/$crate/out" ]; then cp -al "$part" "$tree/crates/$crate"; fi
  done
  if [ "$crate" != "$name" ] && [ -d "crates/$crate/out/rlib" ]; then
    cp -al "crates/$crate/out/rlib" "$tree/crates/$crate/out"
  fi
done
rmdir "$tree/crates/$name/out"
