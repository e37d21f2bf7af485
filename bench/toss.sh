#!/usr/bin/env bash
# How long a tosser takes to file new messages in memory, by processor time: the middle one of three runs, minus the
# time to read the packet. The yardstick is the replay of the same delivery, minus the replay without it. It needs the
# built crates/test_trials/out/test_trials. Argument: how many messages.
set -eu
cd "$(dirname "$0")/.."
top=$PWD
. bench/measure.sh
count=${1:-100000}
bench=${TRIALS:-$top/crates/test_trials/out/test_trials}
work_in "${TMPDIR:-/tmp}"

printf 'SYSTEM 1:10/1\nNAME Alpha\nAREA TEST 1:10/2\n' > alpha.links
printf 'SYSTEM 1:10/2\nAREA TEST 1:10/1\n' > beta.links
{ seq "$count" | awk '{ printf "POST 0 TEST %08x A line of the message that is posted here.\n", $1 }'; echo SCAN 0; } > scanned
{ cat scanned; echo DELIVER 0; } > delivered
mkdir made
"$bench" world made scanned alpha.links beta.links > /dev/null
[ "$("$bench" tosses 1 made/0.pkt beta.links)" = "tosses filed $count" ]

for _ in $(seq $rounds); do
  measure read 0 "$bench" tosses 0 made/0.pkt beta.links
  measure toss 0 "$bench" tosses 1 made/0.pkt beta.links
  measure scan 0 "$bench" world made scanned alpha.links beta.links
  measure deliver 0 "$bench" world made delivered alpha.links beta.links
done
echo "$(middle read) $(middle toss) $(middle scan) $(middle deliver)" | awk -v count="$count" '{
  toss = $4 - $1; replayed = $10 - $7
  printf "toss of %d messages: %.3f s; replayed: %.3f s; ratio %.2f; a replay with it: %.3f s, %d MB\n", count, toss, replayed, toss / (replayed + 0.0001), $10, $12 / 1024 }'
