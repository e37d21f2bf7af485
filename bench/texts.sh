#!/usr/bin/env bash
# How fast echomail texts of about 1,200 bytes are parsed and written, by processor time: the middle one of three
# runs, minus the time for making the texts. The yardstick is a plain sum over the same bytes. It needs the built
# crates/test_trials/out/test_trials. Arguments: how many texts, how many rounds.
set -eu
cd "$(dirname "$0")/.."
top=$PWD
. bench/measure.sh
count=${1:-2000}
repeated=${2:-200}
bench=$top/crates/test_trials/out/test_trials
work_in "${TMPDIR:-/tmp}"

for kind in view write sum; do
  bytes=$("$bench" texts $kind "$count" "$repeated" | cut -d ' ' -f 4)
  for _ in $(seq $rounds); do
    measure made 0 "$bench" texts $kind "$count" 0
    measure $kind 0 "$bench" texts $kind "$count" "$repeated"
  done
  echo "$kind $bytes $(middle made) $(middle $kind)" | awk '{
    printf "%-6s %8.0f MB/s\n", $1, $2 / 1e6 / ($6 - $3 + 0.0001) }'
done
