#!/usr/bin/env bash
# How long `nodelist` takes for a list of many entries, printed and searched, and for one long note. Each row has the
# processor time of the middle one of three runs, the rate, and the memory. The first line states a wrong checksum, so
# that the program computes it. In a bare list it states none. The yardstick is `cksum` over the same bytes.
# Arguments: how many entries, how many bytes the note has.
set -eu
cd "$(dirname "$0")/.."
top=$PWD
. bench/measure.sh
entries=${1:-30000}
bytes=${2:-60000000}
work_in "${TMPDIR:-/tmp}"

awk -v n="$entries" 'BEGIN {
  for (i = 0; i < n; i++) {
    net = 100 + int(i / 100)
    word = (i == 0) ? "Zone" : (i % 100 == 0) ? "Host" : (i % 100 == 50) ? "Hub" : ""
    number = (i == 0) ? 1 : (i % 100 == 0) ? net : i % 100
    printf "%s,%d,System_of_net_%d,Some_Place_or_Other,Some_Sysop_Name,-Unpublished-,9600,CM,IBN,INA:bbs%d.example.net\r\n", word, number, net, i
  }
}' > rest
for what in "$entries entries" "a note"; do
  if [ "$what" = "a note" ]; then { printf ';'; head -c "$bytes" /dev/zero | tr '\0' x; echo; } > rest; fi
  { echo ';A Nodelist : 00000'; cat rest; } > stated
  { echo ';A Nodelist'; cat rest; } > bare
  for _ in $(seq $rounds); do
    measure list 1 "$program" nodelist stated
    measure find 1 "$program" nodelist --find 9:9/9 stated
    measure bare 0 "$program" nodelist --find 9:9/9 bare
    measure cksum 0 cksum stated
  done
  for name in list find bare cksum; do
    echo "$(middle $name) $(wc -c < stated)" | awk -v what="$what" -v name=$name '{
      printf "%-14s %-6s processor %8.4f s, %6.0f MB/s, %7d kB\n", what, name, $1, $4 / 1e6 / ($1 + 0.0001), $3 }'
  done
done
