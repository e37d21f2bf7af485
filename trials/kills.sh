#!/usr/bin/env bash
# Kills `toss` and `scan` at many times on a large base. Then, with strace, it kills them at each of their calls of
# the system on a small base. After each kill the base is the old one or the new one. No packet is incomplete, or has
# its name before the cursor was moved. The story run to its end files every message once. All files are compared with
# those that trials/lib/make.py computes. Arguments: `files` or `folders`, how many times, how many messages the base has.
set -eu
cd "$(dirname "$0")/.."
. trials/lib/setting.sh
moments=${1:-100}
many=${2:-100000}
cd "$work"

# The files of a story with a base of so many messages and a packet of so many more.
make_story() {
  local old=$1 new=$2 size=$3
  make_file links 1:10/1 TEST 1:10/2 1:10/3 1:10/4 > one.links
  make_file base 0 "$old" "$size" "$old" > old.base
  make_file packet "$old" "$new" "$size" > new.pkt
  make_file base 0 $((old + new)) "$size" "$old" > tossed.base
  make_file base 0 $((old + new)) "$size" $((old + new)) > scanned.base
  for link in 3 4; do
    make_file links 1:10/$link TEST 1:10/1 > $link.links
    make_file scanned 1:10/$link "$old" "$new" "$size" > 1.10.$link.$old.want
    make_file downlink "$old" "$new" "$size" > $link.want
  done
  counts="$old $new"
}

toss() { "$program" toss one.links base new.pkt; }
scan() { "$program" scan --at $stamp one.links base out; }

before_toss() { rm -rf out base*; mkdir out; put_base old.base base; }
before_scan() { rm -rf out base* 3.base 4.base; mkdir out; put_base tossed.base base; }

# What has to hold after a toss was killed, and at the end of the story.
after_toss() {
  local known="filed 0 known ${counts#* }" filed="filed ${counts#* } known 0" want
  expect "base after a killed toss" base_is base old.base tossed.base
  want=$filed
  if base_is base tossed.base; then want=$known; fi
  expect "the toss again" eval "toss > said 2> fault"
  expect "its tally" [ "$(cat said)" = "$want notecho 0 badtag 0 noarea 0 notlinked 0" ]
  expect "the base at the end" base_is base tossed.base
  expect "no staging file" is_none base.*.new
}

# The same for a scan. A packet with its name is whole, and its scan moved the cursor. The next scan names the other
# packets of that scan, or makes them again.
after_scan() {
  local link packet
  expect "base after a killed scan" base_is base tossed.base scanned.base
  for packet in out/*.pkt; do
    [ -e "$packet" ] || continue
    expect "a whole packet" cmp -s "$packet" "$(basename "$packet" .pkt).want"
    expect "the cursor was moved before" base_is base scanned.base
  done
  expect "the scan again" eval "scan > said 2> fault"
  expect "the base at the end" base_is base scanned.base
  expect "no staging file" is_none base.*.new out/*.new
  expect "each packet once" [ "$(ls out | wc -l)" = 2 ]
  for link in 3 4; do
    for packet in out/1.10.$link.*; do
      expect "delivery" eval "'$program' toss $link.links $link.base $packet > said 2> fault"
    done
    expect "the link files all once" cmp -s $link.base $link.want
  done
}

# The seconds of a run.
seconds_of() {
  local begin end
  "before_$1"
  begin=$(date +%s%N)
  "$1" > said
  end=$(date +%s%N)
  echo $((end - begin)) | awk '{ print $1 / 1e9 }'
}

# Kills a command at times spread over its run.
kill_in_time() {
  local whole moment status killed=0
  whole=$(seconds_of "$1")
  for moment in $(seq "$moments"); do
    "before_$1"
    status=0
    { timeout -s KILL "$(echo "$whole $moment $moments" | awk '{ print $1 * 1.05 * $2 / $3 }')" \
      "$program" $2 > said 2> fault || status=$?; } 2> /dev/null
    expect "killed or done, not $status" is_in $status 0 137
    if [ $status = 137 ]; then killed=$((killed + 1)); fi
    "after_$1"
  done
  echo "$1 killed $killed times in $moments, of $whole s each"
}

is_in() {
  local it=$1
  shift
  case " $* " in *" $it "*) true ;; *) false ;; esac
}

# Kills a command at each of its calls of the system in turn. A call is identified by its name and its number among
# the calls of that name.
kill_at_each_call() {
  local name number status killed=0
  "before_$1"
  strace -o calls "$program" $2 > said
  sed -n 's/^\([a-z0-9_]*\)(.*/\1/p' calls | awk '{ print $1, ++count[$1] }' > numbered
  while read -r name number; do
    "before_$1"
    status=0
    { strace -o /dev/null -e "inject=$name:signal=SIGKILL:when=$number" \
      "$program" $2 > said 2> fault || status=$?; } 2> /dev/null
    if [ $status = 137 ]; then killed=$((killed + 1)); fi
    "after_$1"
  done < numbered
  expect "$1 makes calls" [ -s numbered ]
  expect "$1 is killed at all calls but some of memory, not at $killed" [ $killed -ge $(($(wc -l < numbered) - 5)) ]
  echo "$1 killed at each of $killed calls of the system"
}

toss_words="toss one.links base new.pkt"
scan_words="scan --at $stamp one.links base out"
make_story "$many" $((many / 10)) 200
kill_in_time toss "$toss_words"
kill_in_time scan "$scan_words"
if command -v strace > /dev/null; then
  make_story 20 10 200
  kill_at_each_call toss "$toss_words"
  kill_at_each_call scan "$scan_words"
else
  echo "strace is not installed: no kills at each call"
fi
finish kills
