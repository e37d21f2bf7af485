#!/usr/bin/env bash
# Tags and serials that an attacker chose for their hashes. The runs are `check` of a link file with 20,000 areas, a
# list of 20,000 links, and a script of 10,000 postings. Each takes at most three times as long as with other names.
# It needs a C compiler, which compiles the maker of the names (trials/lib/keys.c).
set -eu
cd "$(dirname "$0")/.."
. trials/lib/setting.sh
if ! command -v cc > /dev/null; then
  echo "keys: there is no C compiler here"
  exit 0
fi
cc -O2 -o "$work/keys" trials/lib/keys.c
cd "$work"

# The least processor time of three runs, in hundredths of a second. Arguments: the run. A run that does not end with
# 0 or 1 has no time.
least() {
  local best=999999 time
  TIMEFORMAT='%U %S'
  for _ in 1 2 3; do
    time=$({ time { "$@" > said 2>&1; echo $? > ended; }; } 2>&1 | awk '{ printf "%d", ($1 + $2) * 100 }')
    if [ "$(cat ended)" -gt 1 ]; then time=999999; fi
    if [ "$time" -lt "$best" ]; then best=$time; fi
  done
  echo "$best"
}

# Arguments: what is tried, the time with chosen names, the time with others.
compare() {
  expect "$1: all runs end well" [ "$2" -lt 999999 -a "$3" -lt 999999 ]
  expect "$1: $2 hundredths of a second, and $3 with other names" [ "$2" -le $((3 * $3 + 5)) ]
  echo "$1: $2 hundredths of a second, $3 with other names"
}

areas() { awk 'BEGIN { print "SYSTEM 1:10/1" } { print "AREA " $1 " 1:10/2" }' "$1"; }
postings() { head -10000 "$1" | awk '{ print "POST 0 TEST " $1 }'; }
printf 'SYSTEM 1:10/1\nAREA TEST 1:10/2\n' > 1.links
printf 'SYSTEM 1:10/2\nAREA TEST 1:10/1\n' > 2.links

seq -f %08.0f 10000000 10019999 > ordered
for length in 0 1; do
  ./keys 20000 $length 36 > chosen
  areas chosen > chosen.links
  areas ordered > ordered.links
  compare "areas" "$(least "$program" check X chosen.links)" "$(least "$program" check X ordered.links)"
  ./keys 10000 $length 16 > chosen
  postings chosen > chosen.script
  postings ordered > ordered.script
  compare "serials" "$(least "$program" replay chosen.script 1.links 2.links)" "$(least "$program" replay ordered.script 1.links 2.links)"
done

# Links by their net and node, with equal low bits.
links() { awk -v step="$1" 'BEGIN { printf "SYSTEM 1:10/1\nAREA TEST"; for (i = 0; i < 20000; i++) printf " %d:%d/%d", 1 + i % 2, 1 + int(i / 32) * step % 32768, 1 + i % 32 * 1024 % 32768; print "" }'; }
links 32 | tr -s ' ' > chosen.links
links 1 > ordered.links
"$program" check X chosen.links > said 2>&1 || true
compare "links" "$(least "$program" check X chosen.links)" "$(least "$program" check X ordered.links)"
finish keys
