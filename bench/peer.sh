#!/usr/bin/env bash
# How fast echonet and CrashMail II toss packets: the same packets on the same disk, alternating. It needs crashmail
# (Debian's package crashmail). Each row has the messages a second of both and their ratio, from the middle one of the
# rounds by time. With a C compiler it also has how long echonet waited for the disk to take its files (fsync, which
# CrashMail never calls). waits.c, which is loaded before the C library, times these calls. The rows that end in
# `folder` are those of a base folder, the others of a base file. Arguments: how many messages, how many rounds, the
# folder to work in, and `files` or `folders` for these rows only.
set -eu
cd "$(dirname "$0")/.."
program=${ECHONET:-$PWD/bin/echonet}
top=$PWD
count=${1:-100000}
rounds=${2:-5}
wanted=${4:-files folders}
work=$(mktemp -d "${3:-${TMPDIR:-/tmp}}/echonet-peer.XXXXXX")
trap 'rm -rf "$work"' EXIT
command -v crashmail > /dev/null || { echo "crashmail is not installed"; exit 1; }
size=1050 few=100 areas=100 kind=file
known=$((count < 60000 ? count : 60000))
stamp=2026-07-03T12:34:56
make_file() { python3 "$top/trials/lib/make.py" "$@"; }
cd "$work"

# The configuration of CrashMail at 1:10/1. Arguments: the kind of message base, the links, the areas.
configure() {
  local kind=$1 links=$2 area
  shift 2
  rm -rf peer
  mkdir -p peer/in peer/out peer/temporary peer/made peer/base peer/netmail peer/bad
  cat > peer/prefs << END
SYSOP "Trial"
LOGFILE "$work/peer/log"
LOGLEVEL 1
DUPEFILE "$work/peer/known" $((count * 2))
DUPEMODE KILL
LOOPMODE LOG
MAXPKTSIZE 2000000
MAXBUNDLESIZE 2000000
DEFAULTZONE 1
INBOUND "$work/peer/in"
OUTBOUND "$work/peer/out"
TEMPDIR "$work/peer/temporary"
CREATEPKTDIR "$work/peer/made"
PACKETDIR "$work/peer/out"
STATSFILE "$work/peer/statistics"
AKA 1:10/1
NODE 1:10/2.0 "" ""
NODE 1:10/3.0 "" ""
JAM_MAXOPEN $areas
NETMAIL "NETMAIL" 1:10/1 MSG "$work/peer/netmail"
AREA "BAD" 1:10/1 MSG "$work/peer/bad"
END
  for area in "$@"; do
    if [ "$kind" = MSG ]; then mkdir -p "peer/base/$area"; fi
    printf 'AREA "%s" 1:10/1 %s "%s/peer/base/%s"\nEXPORT %s\n' "$area" "$kind" "$work" "$area" "$links" >> peer/prefs
  done
}

# The link file of echonet, with the same links and areas.
configure_own() {
  local links=$1 area
  shift
  rm -rf own
  mkdir -p own/out
  if [ $kind = folder ]; then mkdir own/base; fi
  echo "SYSTEM 1:10/1" > own/links
  for area in "$@"; do echo "AREA $area $links" >> own/links; done
}

# How many messages CrashMail has in its base.
peer_count() {
  case $1 in
    JAM) cat peer/base/*.jdx | wc -c | awk '{ print $1 / 8 }' ;;
    MSG) find peer/base -name '*.msg' | wc -l ;;
  esac
}

# How many messages the base of echonet has.
own_count() {
  local base=own/base
  if [ -d own/base ]; then
    rm -f own/base.file
    "$program" convert own/base own/base.file > /dev/null
    base=own/base.file
  fi
  make_file ids $base | wc -l
}

want_count() { [ "$1" = "$2" ] || { echo "$3 has $1 messages in place of $2" >&2; exit 1; }; }

# The shell's own clock in nanoseconds, of which it has microseconds. It starts no program.
now() { moment=${EPOCHREALTIME/./}000; }

# Runs a command and adds its nanoseconds to a file.
timed() {
  local file=$1 begin
  shift
  now
  begin=$moment
  "$@" > said 2>&1
  now
  echo $((moment - begin)) >> "$file"
}

# The same for echonet, with the nanoseconds of its calls of fsync.
timed_own() {
  local begin
  echo 0 > waited
  now
  begin=$moment
  WAITED=$work/waited LD_PRELOAD=$waits "$program" "$@" > said
  now
  echo $((moment - begin)) "$(cat waited)" >> own.times
}

# CrashMail tosses packets with names of eight digits from its inbound folder, and removes them.
peer_toss() {
  ln "$1" peer/in/00000001.pkt
  crashmail SETTINGS peer/prefs TOSS
}

# The middle one of the lines of a file, by the first number.
middle() { sort -n "$1" | sed -n "$((($(wc -l < "$1") + 1) / 2))p"; }

# Prints a row from the times of both. Arguments: the name, how many messages a time is for.
row() {
  local name=$1
  if [ $kind = folder ]; then name="$1, folder"; fi
  echo "$2 $(middle peer.times) $(middle own.times)" | awk -v name="$name" '{
    printf "%-44s %9.0f /s  CrashMail %8.0f /s  ratio %7.1f  without fsync %9.0f /s  ratio %7.1f\n",
      name, $1 * 1e9 / $3, $1 * 1e9 / $2, $2 / $3, $1 * 1e9 / ($3 - $4), $2 / ($3 - $4) }'
  rm -f peer.times own.times
}

# New messages in one area. Arguments: the name, the kind of CrashMail's base, the links.
new_messages() {
  for round in $(seq "$rounds"); do
    configure "$2" "$3" TEST
    timed peer.times peer_toss new.pkt
    want_count "$(peer_count "$2")" "$count" CrashMail
    configure_own "$3" TEST
    timed_own toss own/links own/base new.pkt
    if [ "$3" != 1:10/2 ]; then scan_too; fi
    want_count "$(own_count)" "$count" echonet
  done
  row "$1" "$count"
}

# Adds the time of a scan to that of the toss before it.
scan_too() {
  timed_own scan --at $stamp own/links own/base own/out
  tail -2 own.times | awk '{ all += $1; waited += $2 } END { print all, waited }' > last
  head -n -2 own.times > others || true
  cat others last > own.times
}

# A packet whose messages both know. CrashMail remembers only 65,536.
known_messages() {
  configure "$2" 1:10/2 TEST
  peer_toss known.pkt > said 2>&1
  configure_own 1:10/2 TEST
  "$program" toss own/links own/base known.pkt > said
  for round in $(seq "$rounds"); do
    timed peer.times peer_toss known.pkt
    timed_own toss own/links own/base known.pkt
  done
  want_count "$(peer_count "$2")" "$known" CrashMail
  want_count "$(own_count)" "$known" echonet
  row "$1" "$known"
}

# A hundred packets of a hundred messages, each tossed by a run of its own, onto a large base of a hundred areas. The
# time is that of one packet.
small_packets() {
  local number tags
  tags=$(seq -f 'T%.0f' 0 $((areas - 1)))
  make_file spread 0 "$count" $size $areas > large.pkt
  for number in $(seq $few); do make_file spread $((count + number * few)) $few $size $areas > few.$number.pkt; done
  configure JAM 1:10/2 $tags
  peer_toss large.pkt > said 2>&1
  configure_own 1:10/2 $tags
  "$program" toss own/links own/base large.pkt > said
  cp -r peer peer.kept
  cp -r own own.kept
  for round in $(seq "$rounds"); do
    rm -rf peer own
    cp -r peer.kept peer
    cp -r own.kept own
    for number in $(seq $few); do
      timed peer.times peer_toss few.$number.pkt
      timed_own toss own/links own/base few.$number.pkt
    done
    want_count "$(peer_count JAM)" $((count + few * few)) CrashMail
    want_count "$(own_count)" $((count + few * few)) echonet
  done
  row "packets of $few onto $count, a run each" $few
  rm -rf peer own
  cp -r peer.kept peer
  cp -r own.kept own
  for number in $(seq $few); do ln few.$number.pkt "peer/in/$(printf %08d "$number").pkt"; done
  timed peer.times crashmail SETTINGS peer/prefs TOSS
  timed_own toss own/links own/base few.*.pkt
  want_count "$(peer_count JAM)" $((count + few * few)) CrashMail
  want_count "$(own_count)" $((count + few * few)) echonet
  row "the same packets, one run, once" $((few * few))
}

waits=
if command -v cc > /dev/null; then
  cc -O2 -shared -fPIC -o waits.so "$top/bench/waits.c"
  waits=$work/waits.so
fi
make_file packet 0 "$count" $size > new.pkt
make_file packet 0 "$known" $size > known.pkt
echo "$count messages, $(wc -c < new.pkt) bytes, $rounds rounds"
now; begin=$moment; cat new.pkt | cksum > /dev/null; now
echo "$count $begin $moment" | awk '{ printf "%-44s %9.0f /s\n", "cksum of the packet", $1 * 1e9 / ($3 - $2) }'
now; begin=$moment; dd if=new.pkt of=copy bs=1M conv=fsync 2> /dev/null; now
echo "$count $begin $moment" | awk '{ printf "%-44s %9.0f /s\n", "the packet copied, with fsync", $1 * 1e9 / ($3 - $2) }'
rows_of_files() {
  new_messages "new, JAM" JAM 1:10/2
  known_messages "known, JAM" JAM
  new_messages "new, JAM, to one link" JAM "1:10/2 1:10/3"
  new_messages "new, *.MSG" MSG 1:10/2
  known_messages "known, *.MSG" MSG
  new_messages "new, *.MSG, to one link" MSG "1:10/2 1:10/3"
  small_packets
}

rows_of_folders() {
  kind=folder
  new_messages "new, JAM" JAM 1:10/2
  known_messages "known, JAM" JAM
  new_messages "new, JAM, to one link" JAM "1:10/2 1:10/3"
  rm -rf peer.kept own.kept
  small_packets
}

for rows in $wanted; do rows_of_$rows; done
