#!/usr/bin/env bash
# In one run of each command, each read and write of several bytes moves one byte in turn, and then all of them do.
# The calls are loaded before the C library's (pieces.c, which needs a C compiler). Each run ends as with whole reads
# and writes: its status, its output, the base and the packets.
set -eu
cd "$(dirname "$0")/.."
. trials/lib/setting.sh
cd "$work"
. "$top/trials/lib/commands.sh"
make_loaded pieces

# Runs it and compares it with the run with whole calls.
try_with() {
  run_behind pieces "$1" "$2"
  expect "$1, call $2: status" [ $status = "$wanted" ]
  expect "$1, call $2: all is done" all_done
  expect "$1, call $2: no fault" [ ! -s fault ]
}

make_story 200 100 200
for command in $commands; do
  run_behind pieces $command 0
  keep_wanted
  calls=$(cat counted)
  expect "$command: it reads or writes" [ "$calls" -gt 0 ]
  for ((number = 1; number <= calls; number++)); do try_with $command $number; done
  try_with $command all
  expect "$command: all were shortened" [ "$(cat counted)" -gt "$calls" ]
  echo "$command: $calls calls shortened"
done
finish pieces
