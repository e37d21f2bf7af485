#!/usr/bin/env bash
# Compares what `show` prints of each packet in examples/packets with the text beside it. Argument: the program.
set -eu
cd "$(dirname "$0")/.."
. scripts/checks.sh
program=$(realpath "${1:-bin/echonet}")
for packet in examples/packets/*.pkt; do
  same "$packet" "$(cat "${packet%.pkt}.txt"; echo "status 0")" "$("$program" show "$packet"; echo "status $?")"
done
echo "$passed checks passed, $failed failed"
[ $failed -eq 0 ]
