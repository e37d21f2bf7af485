#!/usr/bin/env bash
# How fast the messages of one packet are tossed, on a file system in memory: into an empty base folder and an empty
# base file, and the same packet again into both. A packet of an area that the link file lacks is read, but not filed.
# Each row has messages a second of time and of processor time, from the middle one of three runs by its processor
# time, and the most memory. The yardstick is a plain sum over the bytes of the packet, by `sum -s`. Arguments: how
# many messages of 1.2 kB, the folder to work in; by default 100,000, in /dev/shm.
set -eu
cd "$(dirname "$0")/.."
top=$PWD
. bench/measure.sh
count=${1:-100000}
work_in "${2:-/dev/shm}"

make_file links 1:10/1 TEST 1:10/2 1:10/3 > links
make_file links 1:10/1 OTHER 1:10/2 1:10/3 > others
make_file packet 0 "$count" 1050 > new.pkt
for _ in $(seq $rounds); do
  for kind in file folder; do
    rm -rf base
    if [ $kind = folder ]; then mkdir base; fi
    measure "new-$kind" 0 "$program" toss links base new.pkt
    measure "known-$kind" 0 "$program" toss links base new.pkt
  done
  measure lacked 0 "$program" toss others base new.pkt
  measure sum 0 sum -s new.pkt
done
for name in new-folder known-folder new-file known-file lacked sum; do
  middle $name | awk -v name="$name" -v count="$count" '{
    printf "%-12s %9d messages  %8.0f /s, by processor time %8.0f /s  (%.3f s, processor %.3f s, %d kB)\n",
      name, count, count / $2, count / ($1 + 0.0001), $2, $1, $3 }'
done
