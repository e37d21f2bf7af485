#!/usr/bin/env bash
# Three systems on this machine: Beta runs CrashMail II, the other two run echonet. binkd daemons on local ports join
# them. Each message posted at one has to reach each other system exactly once, unchanged. Then CrashMail is tested by
# the rules of docs/INTEROP.md (rules.sh). Argument: the program. PORT is the first of the four ports, by default
# 24570. It needs binkd and crashmail, Python 3, and perl, flock and setsid, which Debian always has.
set -euo pipefail
here=$(cd "$(dirname "$0")" && pwd)
export PATH=$PATH:/usr/sbin
for command in binkd crashmail crashwrite python3 perl flock setsid; do
  if ! command -v $command > /dev/null; then
    echo "interop: there is no $command here; try: apt-get install binkd crashmail python3" >&2
    exit 1
  fi
done
program=$(realpath "${1:-$here/../bin/echonet}")
export ECHONET=$program
tool=$here/../station/echonet-station
port=${PORT:-24570}
. "$here/stations.sh"
. "$here/checks.sh"

work=$(mktemp -d)
cd "$work"
declare -A daemons

# Makes the folders and files of all stations.
make_stations() {
  local station
  mkdir -p expected posted two/{msg/{netmail,bad,middle,leaf,all},temp,create,write}
  for station in $stations; do
    mkdir -p $station/{inbound,outbound,strangers,partly,packets,kept}
  done
  # Alpha has a base folder, Gamma a base file. Beta gets a folder when it moves.
  mkdir one/base
  links_text 1 Alpha > one/links
  links_text 2 Beta > two/links
  links_text 3 Gamma > three/links
  crashmail_text "$work" > two/prefs
  # A copy of each received packet stays in STATION/kept.
  for station in $stations; do
    printf '#!/bin/sh\nset -eu\nn=$(ls %s | wc -l)\ncp "$1" %s/$n.pkt\n' "$work/$station/kept" \
      "$work/$station/kept" > $station/keep.sh
  done
  printf '#!/bin/sh\nexec 9> %s\nflock 9\nsleep 1.1\ncrashmail SETTINGS %s TOSS > /dev/null 9>&-\n' \
    "$work/two/lock" "$work/two/prefs" > two/toss.sh
  for station in one three; do
    cat > $station/toss.sh <<END
#!/bin/sh
for packet in $work/$station/inbound/*.pkt; do $work/$station/keep.sh "\$packet"; done
$tool $station toss >> $station/toss.log 2>&1
$tool $station scan >> $station/scan.log 2>&1
END
    binkd_text $station "$(number_of $station)" "$station/toss.sh" > $station/binkd.conf
  done
  chmod +x */keep.sh */toss.sh
  binkd_text two 2 two/toss.sh > two/binkd.conf
}

# Starts the daemon of a station in a process group of its own.
start_daemon() {
  setsid binkd "$1/binkd.conf" > "$1/daemon.log" 2>&1 &
  daemons[$1]=$!
}

# Ends it, and the processes that it started. Arguments: station, signal.
stop_daemon() {
  kill "-${2:-TERM}" -- "-${daemons[$1]}" 2> /dev/null || true
  wait "${daemons[$1]}" 2> /dev/null || true
  unset "daemons[$1]"
}

stop_all() {
  for station in "${!daemons[@]}"; do stop_daemon "$station" KILL; done
}
trap stop_all EXIT

scan() { "$tool" "$1" scan >> "$1/scan.log" 2>&1; }

# Posts at a station of echonet, and notes what each station has to get. Arguments: station, area, to, from, subject,
# serial, time, reply. The body is standard input.
post_echonet() {
  local number name id date reply=()
  number=$(number_of "$1")
  name=$(sed -n 's/^NAME //p' "$1/links")
  id="1:10/$number $6"
  if [ -n "${8:-}" ]; then reply=(--reply "$8"); fi
  cat > body.txt
  "$program" post --area "$2" --to "$3" --from "$4" --subject "$5" --serial "$6" --at "$7" \
    "${reply[@]}" "$1/links" "$1/base" < body.txt > posted.txt
  same "a posting at $1 is printed" "posted $2 $id" "$(cat posted.txt)"
  date=$(LC_ALL=C date -u -d "$7Z" '+%d %b %y  %H:%M:%S')
  perl "$here/mail.pl" posted "$2" "$id" "${8:-}" "$4" "$3" "$5" "$date" \
    "--- echonet" " * Origin: $name (1:10/$number)" < body.txt >> "expected/$1"
}

# Posts at Beta. Arguments: area, to, from, subject, further arguments of crashwrite. The body is standard input.
# crashwrite and crashmail name their packets after the second. The second packet of a second replaces the first, so
# each waits for a new second.
post_crashmail() {
  cat > body.txt
  sleep 1.1
  crashwrite DIR "$work/two/write" AREA "$1" TONAME "$2" TOADDR 1:10/2 FROMNAME "$3" FROMADDR 1:10/2 \
    SUBJECT "$4" ORIGIN Beta TEXT "$work/body.txt" "${@:5}" > /dev/null
  perl "$here/mail.pl" packet two/write/*.pkt | cut -d '|' -f 1-8 >> expected/two
  flock two/lock sh -c 'sleep 1.1; exec crashmail SETTINGS "$0" TOSSDIR "$1" NOSECURITY' \
    "$work/two/prefs" "$work/two/write" > /dev/null
}

# The messages of a station with a base folder, from the base file that `convert` makes of it.
converted_messages() {
  rm -f converted
  "$program" convert "$1/base" converted > converted.txt
  perl "$here/mail.pl" base converted
}

# All messages of a station.
messages_of() {
  case $1 in
    two) perl "$here/mail.pl" msg two/msg/{middle,leaf,all} ;;
    *) if [ -d "$1/base" ]; then converted_messages "$1"; elif [ -e "$1/base" ]; then perl "$here/mail.pl" base "$1/base"; fi ;;
  esac
}

# Waits until each station has so many messages and no packet waits. Arguments: how many, seconds.
wait_for() {
  local until=$((SECONDS + $2)) station missing
  while [ $SECONDS -lt $until ]; do
    missing=
    for station in $stations; do
      if [ "$(messages_of $station | wc -l)" -lt "$1" ]; then missing=$station; fi
    done
    if [ -z "$missing$(find {one,two,three}/{inbound,outbound} -name '*.pkt' -o -name '*.?lo')" ]; then
      return 0
    fi
    sleep 0.5
  done
  echo "interop: after $2 seconds not all has come" >&2
}

make_stations
for station in $stations; do start_daemon $station; done
for part in "$here"/parts/*.sh; do
  echo "== $(sed -n '1s/^# //p' "$part")"
  . "$part"
done
stop_all
echo "$passed checks passed, $failed failed"
if [ $failed -eq 0 ]; then rm -rf "$work"; else echo "The stations are in $work" >&2; fi
echo "== The rules, one by one"
cd "$here"
./rules.sh || failed=$((failed + 1))
[ $failed -eq 0 ]
