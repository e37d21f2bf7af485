#!/usr/bin/env bash
# How the cost of a scan grows with the links: of 8,000 messages of 1.2 kB to one link, to ten and to a hundred, from
# a base file and from a base folder. Each row has time, processor time and memory, and the ratio of the memory to
# that of the row before. Each runs three times, and the middle one by its processor time is printed. The yardstick is
# `cksum` of the made packets. Arguments: how many messages, and then how many links.
set -eu
cd "$(dirname "$0")/.."
top=$PWD
. bench/measure.sh
many=${1:-8000}
shift || true
if [ $# = 0 ]; then set -- 1 10 100; fi
work_in "${TMPDIR:-/tmp}"

make_file base 0 "$many" 1050 0 > made
for kind in file folder; do
  before=
  for links in "$@"; do
    make_file links 1:10/1 TEST $(seq -f '1:20/%g' "$links") > links
    for _ in $(seq $rounds); do
      rm -rf base out
      mkdir out
      if [ $kind = file ]; then
        cp made base
      else
        mkdir base
        "$program" convert made base > converted
      fi
      measure scan 0 "$program" scan --at 2026-07-03T12:34:56 links base out
      measure sums 0 cksum out/*.pkt
    done
    row=$(middle scan)
    echo "$kind $links $row $(middle sums) $before" | awk '{
      printf "%-6s %4d links  %7.3f s, processor %7.3f s, %7d kB; cksum of the packets %6.3f s", $1, $2, $4, $3, $5, $6
      if (NF > 8) printf "; times %4.2f the memory", $5 / $9
      printf "\n" }'
    before=${row##* }
  done
done
