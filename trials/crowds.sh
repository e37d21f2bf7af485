#!/usr/bin/env bash
# Many runs on one system at the same time. First two hundred postings from twenty processes: the base has all of
# them, each serial once, and a scan exports each once. Then postings, tosses, scans and purges run at once. The base
# of the system and the packets for a link have each message once. Arguments: `files` or `folders`, how many
# processes, how many postings each.
set -eu
cd "$(dirname "$0")/.."
. trials/lib/setting.sh
processes=${1:-20}
each=${2:-10}
cd "$work"

post_one() {
  echo "Posting $1" | "$program" post --area TEST --to All --from Ann --subject "Posting $1" \
    --serial "$1" --at $stamp one.links base
}

# The postings of one process. Its status is how many were refused.
post_some() {
  local number refused=0
  for number in $(seq "$each"); do
    post_one "$(printf %08x $(($1 * each + number)))" > /dev/null || refused=$((refused + 1))
  done
  return $refused
}

# Waits for these processes, and prints how many ended with a status other than 0.
wait_for() {
  local process bad=0
  for process in "$@"; do
    wait "$process" || bad=$((bad + 1))
  done
  return $bad
}

# The ids that the base has to have, one a line, ascending: of the postings, and of a packet's messages.
posted_ids() {
  local number
  for number in $(seq $((processes * each))); do printf '1:10/1 %08x\n' $((each + number)); done
}
tossed_ids() {
  local number
  for number in $(seq "$1" $(($1 + $2 - 1))); do printf '1:10/2 %08x\n' "$number"; done
}

ids_are() { make_file ids "$(file_of "$1")" | sort | cmp -s - "$2"; }

make_file links 1:10/1 TEST 1:10/2 1:10/3 1:10/4 > one.links
make_file links 1:10/3 TEST 1:10/1 > 3.links

# Only postings.
put_empty base
started=
for process in $(seq "$processes"); do post_some "$process" & started="$started $!"; done
expect "no posting is refused" wait_for $started
posted_ids | sort > want
expect "each serial is there once" ids_are base want
mkdir out
expect "a scan" eval "'$program' scan --at $stamp one.links base out > said"
expect "a packet for each link" [ "$(wc -l < said)" = 3 ]
expect "the link tosses it" eval "'$program' toss 3.links 3.base out/1.10.3.0.pkt > said"
expect "each is there once" ids_are 3.base want
echo "$((processes * each)) postings from $processes processes"

# All commands at once. Each scan has a folder of its own.
rm -rf 3.base out
put_empty base
toss_some() {
  make_file packet $(($1 * 1000)) 50 200 > "$1.pkt"
  "$program" toss one.links base "$1.pkt" "$1.pkt" > /dev/null
}
scan_some() {
  local number
  for number in $(seq "$each"); do
    mkdir "out$1.$number"
    "$program" scan --at $stamp one.links base "out$1.$number" > /dev/null || return 1
    "$program" purge one.links base > /dev/null || return 1
  done
}
started=
for process in $(seq "$processes"); do
  post_some "$process" & started="$started $!"
  toss_some "$process" & started="$started $!"
done
for process in 1 2 3 4; do scan_some "$process" & started="$started $!"; done
expect "no run is refused" wait_for $started
mkdir out0
expect "the last scan" eval "'$program' scan --at $stamp one.links base out0 > said"
{ posted_ids; for process in $(seq "$processes"); do tossed_ids $((process * 1000)) 50; done; } | sort > want
expect "the base has each once" ids_are base want
packets=$(ls out*/1.10.3.*.pkt)
expect "the link tosses them" eval "'$program' toss 3.links 3.base $(echo $packets) > said"
expect "each was sent once" [ "$(awk '{ known += $4 } END { print known + 0 }' said)" = 0 ]
expect "the link has each once" ids_are 3.base want
expect "no staging file is left" is_none base.*.new out*/*.new
echo "$((processes * (each + 50))) messages by $((2 * processes + 4)) processes, $(echo $packets | wc -w) scans with packets"
finish crowds
