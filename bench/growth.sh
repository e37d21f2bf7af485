#!/usr/bin/env bash
# How the cost of the commands grows with the base. The rows: loading it (a refused posting), `list` of the last ten
# messages, a posting that is filed, tossing a packet of a hundred messages, scanning these to two links, purging all,
# and loading the purged base. Each has time, processor time and memory, and their ratios to those of the size before.
# Each runs three times on the same base. The row is the middle one by its processor time, which includes no wait for
# the disk. The yardstick is `sum -s` over the base file, or over the keys of the folder. Arguments: the sizes, by
# default 1,000 to 1,000,000 messages of 1.2 kB. With `purged` before the sizes all messages are purged. Then the
# largest default size is 10,000,000. With `folders` before all of that the bases are folders.
set -eu
cd "$(dirname "$0")/.."
top=$PWD
. bench/measure.sh
kind=files
purged=no
if [ "${1:-}" = folders ]; then kind=folders; shift; fi
if [ "${1:-}" = purged ]; then purged=yes; shift; fi
if [ $# = 0 ]; then
  set -- 1000 10000 100000 1000000
  if [ $purged = yes ]; then set -- "$@" 10000000; fi
fi
size=1050 few=100
stamp=2026-07-03T12:34:56
words="--to x --from x --subject x --serial 00000001 --at $stamp"
work_in "${TMPDIR:-/tmp}"

# Prints the middle row of a command. Arguments: its name, the messages of the base.
tell() {
  local name=$1 many=$2 before
  before=$(cat "last.$name" 2> /dev/null || true)
  middle "$name" > "last.$name"
  echo "$name $many $(cat "last.$name") $before" | awk '{
    printf "%-6s %9d messages  %8.3f s, processor %8.3f s, %9d kB", $1, $2, $4, $3, $5
    if (NF > 5) printf "  times %6.1f %6.1f %6.1f", $4 / $7, $3 / ($6 + 0.0001), $5 / $8
    printf "\n" }'
}

# Copies the made base to its place.
put_base() {
  rm -rf out base
  mkdir out
  if [ $kind = files ]; then cp made base; else cp -r made.folder base; fi
}

make_file links 1:10/1 TEST 1:10/2 1:10/3 1:10/4 > links
for many in "$@"; do
  if [ $purged = yes ]; then make_file purged 0 "$many" > made; else make_file base 0 "$many" $size "$many" > made; fi
  make_file packet "$many" $few $size > new.pkt
  if [ $kind = folders ]; then
    rm -rf made.folder
    mkdir made.folder
    "$program" convert made made.folder > /dev/null
  fi
  yardstick=base
  if [ $kind = folders ]; then yardstick=base/keys.?; fi
  for _ in $(seq $rounds); do
    put_base
    measure sum 0 sum -s $yardstick
    measure load 2 "$program" post --area NONE $words links base
    measure list 0 "$program" list --from $((many - 10)) base
    measure post 0 "$program" post --area TEST $words links base
    measure toss 0 "$program" toss links base new.pkt
    measure scan 0 "$program" scan --at $stamp links base out
    measure purge 0 "$program" purge links base
    measure again 2 "$program" post --area NONE $words links base
  done
  for name in sum load list post toss scan purge again; do tell $name "$many"; done
done
