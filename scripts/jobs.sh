#!/usr/bin/env bash
# Prints how many crates to prove at a time: one for each 3.5 GB of free memory, at least 2, and at most two more than
# the processors. Argument: how many more, instead of two.
set -eu
most=$(($(nproc) + ${1:-2}))
cd /sys/fs/cgroup 2> /dev/null || cd /
free=$(awk '$1 == "MemAvailable:" { print int($2 / 1024) }' /proc/meminfo)
if [ -f memory.max ] && [ "$(cat memory.max)" != max ]; then
  held=$(awk '$1 == "anon" { print $2 }' memory.stat)
  own=$((($(cat memory.max) - held) / 1048576))
  [ "$own" -ge "$free" ] || free=$own
fi
jobs=$((free / 3584))
[ "$jobs" -le "$most" ] || jobs=$most
[ "$jobs" -ge 2 ] || jobs=2
echo "$jobs"
