#!/usr/bin/env bash
# Writes scripts/seconds.txt: the processor seconds of each crate's last whole proof, from the files that
# scripts/prove.sh wrote to bin/times. For the other crates of crates.txt the old lines stay.
set -eu
cd "$(dirname "$0")/.."
table=$(cat scripts/seconds.txt; cat bin/times/* 2> /dev/null | awk '{ print $1, int($3 + 0.5) }')
sed -n 's/^\([a-z_0-9]*\)[^:]*:.*/\1/p' crates.txt | awk '
  NR == FNR { seconds[$1] = $2; next }
  $1 in seconds { print $1, seconds[$1] }' <(echo "$table") - > scripts/seconds.new
mv scripts/seconds.new scripts/seconds.txt
