#!/usr/bin/env bash
# Tries echonet-station on a net of three systems whose mailer is `mv`: stopped scans; packets that are
# cut, for another system or not filed; held links; runs at the same time; stopped readers; the log and the settings
# of a station. Arguments: the program, and whether the bases are `files` or `folders`. The last station has a base of
# the other kind.
set -eu
cd "$(dirname "$0")/../.."
. scripts/checks.sh
. station/tests/net_calls.sh
program=$(realpath "${1:-bin/echonet}")
kind=${2:-files}
tool=$PWD/station/echonet-station
export ECHONET=$program
place=$(mktemp -d)
trap 'rm -rf "$place"' EXIT
cp -r examples/net/{one,two,three} "$place"
cd "$place"

to_two=000a0002
to_three=000a0003
mkdir -p two/inbound three/inbound four
if [ "$kind" = folders ]; then mkdir {one,two,three}/base; else mkdir four/base; fi

# A posting, and how its packet is handed over. The text has 10 + 24 + 13 + 14 + 12 + 26 + 16 + 12 = 127 bytes, the
# packet 58 + 14 + 20 + 4 + 4 + 6 + 128 + 2.
printed=$(post one Ann First)
same "post prints what post prints" yes "$([[ $printed =~ ^posted\ TEST\ 1:10/1\ [0-9a-f]{8}$ ]] && echo yes)"
same "scan prints what scan prints" "packet 1:10/2 1 messages 236 bytes" "$(scan one)"
same "one packet" 1 "$(ls one/packets | wc -l)"
same "its name" yes "$([[ $(ls one/packets) =~ ^[0-9a-f]{8}\.pkt$ ]] && echo yes)"
same "the line of the flow file" "^$place/one/packets/$(ls one/packets)" "$(cat one/outbound/$to_two.flo)"
same "no lock is left" "" "$(ls one/outbound | grep bsy || true)"
same "the log of Alpha" "MOMENT sent $(ls one/packets) to 1:10/2 1 messages 236 bytes" "$(last_log one)"
same "nothing waits" 0 "$(scan one; echo $?)"
same "the flow file has one line" 1 "$(wc -l < one/outbound/$to_two.flo)"

# The packet is tossed and removed.
cp one/packets/*.pkt kept.pkt
name=$(ls one/packets)
carry one $to_two two
same "a toss" "filed 1 known 0 notecho 0 badtag 0 noarea 0 notlinked 0" "$(toss two)"
same "the packet is gone" "" "$(ls two/inbound two/bad | grep pkt || true)"
same "the log of Beta" "MOMENT came $name from 1:10/1 filed 1 known 0 notecho 0 badtag 0 noarea 0 notlinked 0" \
  "$(last_log two)"

# A packet that is cut, one for another system, and a second copy under a name in other letters.
head -c 98 kept.pkt > two/inbound/cut.pkt
cp kept.pkt two/inbound/AGAIN.PKT
cp kept.pkt three/inbound/wrong.pkt
toss_some two
same "a packet that is put aside is a status" 1 "$status"
same "its line" "put aside cut.pkt: echonet: P1 Truncated at 96" "$(grep ^put printed.txt)"
same "its line in the log" "aside cut.pkt from 1:10/1 filed 0 known 0 notecho 0 badtag 0 noarea 0 notlinked 0: echonet: P1 Truncated at 96" \
  "$(cut -d ' ' -f 2- two/log | grep '^aside ')"
same "the cut packet lies apart, with the note" "echonet: P1 Truncated at 96
echonet: note: packet 1 of 1, $place/two/tossing/00000002.pkt: it is cut off" "$(cat two/bad/cut.pkt.why)"
same "as it was" "$(head -c 98 kept.pkt | cksum)" "$(cksum < two/bad/cut.pkt)"
same "the other one is gone" "" "$(ls two/inbound)"
toss_some three
same "a packet for another system lies apart" "echonet: C1 NotForUs 1:10/2
echonet: note: packet 1 of 1, $place/three/tossing/00000001.pkt: it is for 1:10/2, this is 1:10/3" \
  "$(cat three/bad/wrong.pkt.why)"
head -c 98 kept.pkt > two/inbound/cut.pkt
toss_some two
same "two of one name lie apart" \
  "cut.1.pkt cut.1.pkt.why cut.pkt cut.pkt.why" "$(LC_ALL=C ls two/bad | tr '\n' ' ' | sed 's/ $//')"
rm two/bad/* three/bad/*

# Messages that are not filed: first the link is missing, then it is restored.
post one Ann Second > /dev/null
scan one > /dev/null
carry one $to_two two
cp two/links two.links
sed -i 's, 1:10/1,,' two/links
toss_some two
same "a packet of no link lies apart" "1 message not from a link of TEST (subscribe 1:10/1 TEST)" "$(head -n 1 two/bad/*.why)"
same "with its counts and its area" "filed 0 known 0 notecho 0 badtag 0 noarea 0 notlinked 1
message 1 at 58 notlinked area TEST" "$(sed '1d; s/ msgid .*//' two/bad/*.why)"
cp two.links two/links
mv two/bad/*.pkt two/inbound/
same "it is tossed once the link is there" "filed 1 known 0 notecho 0 badtag 0 noarea 0 notlinked 0" "$(toss two)"
same "and the reason went with it" "" "$(ls two/bad)"

# A faulty link file or base is no fault of the packet.
cp kept.pkt two/inbound/
echo FOO >> two/links
status=0
toss two > /dev/null 2> fault.txt || status=$?
same "a faulty link file" "2 echonet: L1 UnknownWord line 5
echonet: note: $place/two/links:5: unknown word 'FOO', expected SYSTEM, NAME or AREA" "$status $(cat fault.txt)"
same "the packet stays" "kept.pkt 00000001.name 00000001.pkt" "$(cat two/tossing/*.name) $(ls two/tossing | xargs)"
cp two.links two/links
keep_base
rm -rf two/base
echo x > two/base
status=0
toss two > /dev/null 2> fault.txt || status=$?
same "a faulty base" "2 echonet: F1 NotBase" "$status $(cat fault.txt)"
same "the packet stays again" "00000001.name 00000001.pkt" "$(ls two/tossing | xargs)"
put_back
toss two > /dev/null
keep_base

# A scan stopped before it wrote its base. The next scan makes its packet again, with the messages posted since then.
before=$(counts two)
mkdir -p two/scanned
"$program" scan --at 2026-07-03T12:34:56 two/links two/base two/scanned > /dev/null
mv two/scanned/1.10.3.0.pkt two/scanned/1.10.3.0.pkt.~1.10.2~.new
put_back
same "the stopped scan left its packet" 1.10.3.0.pkt.~1.10.2~.new "$(ls two/scanned)"
same "and its cursor stood" "$before" "$(counts two)"
post two Bob Third > /dev/null
# The text of Third has 10 + 24 + 13 + 14 + 12 + 25 + 18 + 12 = 128 bytes. First and Second grow to 131 and 132. The
# packets have 58 + (14 + 20 + 4 + 4 + 6 + 129) + 2 and 58 + (48 + 132) + (49 + 133) + 177 + 2.
same "the next scan" "packet 1:10/1 1 messages 237 bytes
packet 1:10/3 3 messages 599 bytes" "$(scan two)"
same "one packet for each link" 2 "$(ls two/packets | wc -l)"
same "nothing of the stopped one is left" "" "$(ls two/scanned)"

# A scan stopped before its packets had their names, and one that the mailer has no line of.
post two Bob Fourth > /dev/null
"$program" scan --at 2026-07-03T12:34:56 two/links two/base two/scanned > /dev/null
for packet in two/scanned/1.10.3.*.pkt; do mv "$packet" "$packet.~1.10.2~.new"; done
scan two
same "its packets are handed over" "4 2 2" \
  "$(ls two/packets | wc -l) $(cat two/outbound/$to_three.flo | wc -l) $(cat two/outbound/000a0001.flo | wc -l)"

# The last given name is lost. No packet replaces another.
rm two/last-name
post two Bob 'Fourth and a half' > /dev/null
scan two > /dev/null
same "no packet takes the place of another" 6 "$(ls two/packets | wc -l)"
same "each has its line" 6 "$(cat two/outbound/*.flo | sort -u | wc -l)"

# The mailer holds a link.
touch two/outbound/$to_three.bsy
post two Bob Fifth > /dev/null
scan two > /dev/null
same "the held link waits" "1 3" "$(ls two/scanned | wc -l) $(cat two/outbound/$to_three.flo | wc -l)"
echo $$ > two/outbound/$to_three.bsy
scan two > /dev/null
same "also while its process runs" 1 "$(ls two/scanned | wc -l)"
sh -c 'echo $$' > two/outbound/$to_three.bsy
scan two > /dev/null
same "and goes once that runs no more" "0 4" "$(ls two/scanned | wc -l) $(cat two/outbound/$to_three.flo | wc -l)"
carry two $to_three three
toss three > /dev/null
same "what Gamma has" "0 6" "$(counts three)"

# A link of another zone.
sed 's/^AREA.*/& 2:5020\/999/' two.links > two/links
post two Bob Sixth > /dev/null
scan two > /dev/null
same "the folder of zone 2" 139c03e7.flo "$(ls two/outbound.002)"

# A link file without an own address. The packets of an earlier scan are not handed over.
touch two/outbound.002/139c03e7.bsy
post two Bob Seventh > /dev/null
scan two > /dev/null
rm two/outbound.002/139c03e7.bsy
sed -i /^SYSTEM/d two/links
ls two/outbound* | sort > before.txt
status=0
scan two > printed.txt 2> fault.txt || status=$?
same "a link file without an address" \
  "2 echonet: L3 NoSystem line 0
echonet: note: $place/two/links: no line SYSTEM with the own address
echonet-station: no own address in $place/two/links: nothing is handed over" "$status $(cat fault.txt)"
same "nothing is handed over" "1 $(cat before.txt)" "$(ls two/scanned | wc -l) $(ls two/outbound* | sort)"

# A flow file whose last line has no line end.
sed 's/^AREA.*/& 2:5020\/999/' two.links > two/links
printf '^/elsewhere/first.pkt' > two/outbound.002/139c03e7.flo
scan two > /dev/null
same "a flow file without a last line end" "^/elsewhere/first.pkt ^$place/two/packets/" \
  "$(sed 's,/[^/]*\.pkt$,/,; s,elsewhere/$,&first.pkt,' two/outbound.002/139c03e7.flo | xargs)"
cp two.links two/links
rm -r two/outbound.002

# Twenty postings, five scans and five tosses at the same time.
rm -f one/packets/* one/outbound/* two/inbound/* two/packets/* two/outbound/*
for number in $(seq 1 20); do post one Ann "At once $number" "1:10/1 00000001" > "told.$number" & done
for number in $(seq 1 5); do scan one > /dev/null & done
wait
same "twenty ids" 20 "$(cat told.* | sort -u | wc -l)"
scan one > /dev/null
carry one $to_two two
for number in $(seq 1 5); do toss two > "tossed.$number" & done
wait
same "twenty were filed, once" 20 "$(cat tossed.* | awk '{ filed += $2 } END { print filed }')"
same "and no packet is left" "" "$(ls two/inbound two/tossing two/bad | grep pkt || true)"
same "what Beta has" "8 28" "$(counts two)"

# Scans and tosses that are killed at any time.
for number in $(seq 1 15); do
  post one Ann "Killed $number" > /dev/null
  for run in "one scan" "two toss"; do
    setsid $tool $run > killed.txt 2>&1 &
    sleep "0.$((RANDOM % 25 + 5))"
    kill -9 -- -$! 2> /dev/null || true
    wait $! 2> /dev/null || true
    if [ $((number % 3)) = 0 ] && [ -e one/outbound/$to_two.flo ]; then carry one $to_two two; fi
  done
done
scan one > /dev/null
if [ -e one/outbound/$to_two.flo ]; then carry one $to_two two; fi
toss two > /dev/null
same "all has come, once" "8 43" "$(counts two)"

# A posting looks for a free serial: those of the next seconds are in use.
cp one/links four/
second=$(date +%s)
for number in $(seq 0 19); do
  echo Taken | "$program" post --area TEST --to All --from Ann --subject "$number" \
    --serial "$(printf '%08x' $((second + number)))" --at now four/links four/base > /dev/null
done
day() { LC_ALL=C date -u +'%d %b %y'; }
today=$(day)
# On a slow machine the clock is past these seconds, and its own second is free.
begun=$(date +%s)
posted=$(post four Ann Free)
for now in $(seq "$begun" "$(date +%s)"); do
  wanted="posted TEST 1:10/1 $(printf '%08x' $((now > second + 20 ? now : second + 20)))"
  if [ "$wanted" = "$posted" ]; then break; fi
done
same "the first serial that is free" "$wanted" "$posted"
same "the moment of the clock" yes "$("$program" list --from 20 four/base \
  | grep -q -e "^date $today" -e "^date $(day)" && echo yes)"

# A JAM base for a reader. Its index has an entry of eight bytes for each message.
to_jam() { "$tool" four read --jam TEST four/jam; }
same "read adds what the base has to a JAM base" "exported 21 messages, next 21" "$(to_jam)"
same "and nothing twice" "exported 0 messages, next 21" "$(to_jam)"
same "the entries of its index" 168 "$(wc -c < four/jam.jdx)"

# A reply and a refused posting.
status=0
post one Ann Refused "no id" 2> fault.txt || status=$?
same "a reply to no id" "2 echonet: B6 BadReply" "$status $(cat fault.txt)"
same "names and subjects that begin with a hyphen" posted "$(post one -a --help | cut -d ' ' -f 1)"

# Stored messages as an editor writes them. Arguments: a file, from, to, subject, the two bytes of its attribute word,
# body.
field() { { printf '%s' "$1"; head -c "$2" /dev/zero; } | head -c "$2"; }
stored() {
  { field "$2" 36; field "$3" 36; field "$4" 72; field '26 Nov 26  12:00:00' 20; field '' 22
    printf "$5\\0\\0%s\\r\\0" "$6"; } > "$1"
  touch -d '3 seconds ago' "$1"
}
reader() { "$tool" four read "$1" "$2"; }
told_id='posted TEST 1:10/1 ????????'
same "read adds what the base has" "exported 21 messages, next 21" "$(reader TEST four/read)"
stored four/read/22.msg Ann Bob Written '\0\1' 'From the editor.'
stored four/read/23.msg Ann Bob 'Sent before' '\10\1' 'It is sent.'
stored four/read/24.msg Ann Bob 'Not local' '\0\0' 'It came.'
stored four/read/25.msg 'Bob the builder of thirty-six bytes!' Ann 'Too long' '\0\1' 'No end of the name.'
reader TEST four/read > told.txt
# shellcheck disable=SC2053
same "it posts what an editor wrote" yes "$([[ $(head -n 1 told.txt) == $told_id ]] && echo yes)"
same "and puts aside what is refused" "put aside 25.msg: echonet: B3 FieldTooLong" "$(sed -n 2p told.txt)"
same "with the note on the fault" "echonet: B3 FieldTooLong
echonet: note: from is 36 bytes long, 35 are allowed" "$(cat four/read/refused/25.msg.why)"
same "and adds what is new" "exported 1 messages, next 22" "$(tail -n 1 told.txt)"
same "what it did with the files" "22.msg | 25.msg 25.msg.why | 23.msg 24.msg 25.msg" \
  "$(ls four/read/posted | xargs) | $(ls four/read/refused | xargs) | $(cd four/read && ls 2[2-9].msg | xargs)"
same "the message in the base" "subject Written line From the editor." \
  "$("$program" list --from 21 four/base | grep -E '^subject|^line [A-Z]' | xargs)"
same "a second run does nothing" "exported 0 messages, next 22" "$(reader TEST four/read)"
stored four/read/27.msg Ann Bob 'No such area' '\0\1' 'For nobody.'
reader OTHER four/other > /dev/null
cp -p four/read/27.msg four/other/
same "an area that is not there" "put aside 27.msg: echonet: B1 NoArea" "$(reader OTHER four/other | head -n 1)"
same "with the note on it" "echonet: note: no area OTHER in $place/four/links" \
  "$(tail -n 1 four/other/refused/27.msg.why)"
for number in 1 2 3; do reader TEST four/read > "read.$number" & done
wait
same "runs at the same moment post a file once" "1 23" \
  "$(cat read.? | grep -c ^posted) $("$program" list four/base | grep -c ^message)"

# A reader cannot read its base, since a command fails or the base is damaged. It posts nothing.
cat > stand-in << 'END'
#!/bin/sh
# Runs the program. FAILS is a command that fails. After the command ENDS the calling script is killed. Before the
# first run of the command TAKES another posting uses its serial.
if [ "${FAILS:-}" = "$1" ]; then
  echo "echonet: out of memory" >&2
  exit 3
fi
if [ "${TAKES:-}" = "$1" ] && [ ! -e taken ]; then
  : > taken
  for word; do
    if [ "${before:-}" = --serial ]; then serial=$word; fi
    before=$word
  done
  echo Mine | "$PROGRAM" post --area TEST --to All --from Ann --subject Mine --serial "$serial" --at now \
    four/links four/base > /dev/null
fi
status=0
"$PROGRAM" "$@" || status=$?
if [ "${ENDS:-}" = "$1" ]; then kill -9 $PPID; fi
exit $status
END
chmod +x stand-in
export PROGRAM=$program
how_many() { "$program" list "$1" | grep -c ^message; }
reader TEST four/again > /dev/null
stored four/again/89.msg Ann Bob Waits '\0\1' 'It waits for its base.'
files=$(ls four/again)
many=$(how_many four/base)
status=0
FAILS=list ECHONET=$place/stand-in reader TEST four/again > told.txt 2> fault.txt || status=$?
same "a list that fails ends a reader" "3 echonet: out of memory" "$status $(cat told.txt fault.txt)"
same "before it posts" "$many $files" "$(how_many four/base) $(ls four/again | grep -v '^seen.new$')"
rm -rf four.base
cp -r four/base four.base
if [ -d four/base ]; then file=$(ls four/base/messages.*); else file=four/base; fi
truncate -s -1 "$file"
status=0
reader TEST four/again > told.txt 2> fault.txt || status=$?
same "so does a damaged base" "2  echonet: F2 Truncated record $((many - 1)) $files" \
  "$status $(cat told.txt) $(cat fault.txt) $(ls four/again | grep -v '^seen.new$')"
rm -rf four/base four/again/89.msg
cp -r four.base four/base

# A reader that is stopped after a posting, and one that is stopped before it.
stored four/again/90.msg Ann 'B\303\266b' 'Once\\' '\0\1' 'Only once.'
{ ENDS=post ECHONET=$place/stand-in reader TEST four/again > told.txt || true; } 2> fault.txt
same "a stopped reader has posted" $((many + 1)) "$(how_many four/base)"
reader TEST four/again > told.txt
same "the next one does not post again" $((many + 1)) "$(how_many four/base)"
# shellcheck disable=SC2053
same "it moves the file" "yes 90.msg" "$([[ $(head -n 1 told.txt) == $told_id ]] && echo yes) $(ls four/again/posted)"
stored four/again/91.msg Ann Bob Twice '\0\1' 'Twice called.'
{ FAILS=post ECHONET=$place/stand-in reader TEST four/again > told.txt || true; } 2> fault.txt
reader TEST four/again > told.txt
same "what was not posted is posted by the next run" "$((many + 2)) 90.msg 91.msg" \
  "$(how_many four/base) $(ls four/again/posted | xargs)"

stored four/again/92.msg Ann Bob Taken '\0\1' 'Under the next serial.'
TAKES=post ECHONET=$place/stand-in reader TEST four/again > told.txt
same "a serial that another run takes meanwhile" "$((many + 4)) 92.msg | " \
  "$(how_many four/base) $(ls four/again/posted | tail -n 1) | $(ls four/again/refused 2> fault.txt)"

# Paths that would break lines.
bad=$place/five$'\n'
mkdir "$bad"
cp one/links "$bad"
refused() {
  status=0
  "$@" > told.txt 2> fault.txt < /dev/null || status=$?
  echo "$status $(cat told.txt)$(cat fault.txt)"
}
for name in run toss scan 'post TEST All Ann Hi'; do
  same "$name refuses a control byte" "4 echonet-station: control byte in the path of the station" "$(refused "$tool" "$bad" $name)"
done
same "read, too" "4 echonet-station: control byte in a path" "$(refused "$tool" four read TEST "$bad/read")"
same "nothing was made there" "links" "$(ls "$bad")"

# Settings of a station: the folders of Debian's binkd.
mkdir six
sed 's/^SYSTEM.*/SYSTEM 1:10\/2/' one/links > six/links
sed -i 's/^AREA.*/AREA TEST 1:10\/1 1:10\/3/' six/links
printf 'INBOUND=inb\nOUTBOUND=%s/six/outb\nPACKETS=sent\n' "$place" > six/settings
mkdir six/inb
cp kept.pkt six/inb/
same "INBOUND of the settings" "filed 1 known 0 notecho 0 badtag 0 noarea 0 notlinked 0" "$(toss six)"
scan six > printed.txt
same "OUTBOUND and PACKETS" "^$place/six/sent/$(ls six/sent)" "$(cat six/outb/$to_three.flo)"
same "no other folders" "base count days inb last-name links log outb scan.lock scanned sent settings toss.lock tossing" \
  "$(LC_ALL=C ls six | grep -v '^bad$' | xargs)"

# Posts a message with this subject. Arguments: the subject, a link file, a base.
post_at() { echo "$1" | "$program" post --area TEST --to All --from Ann --subject "$1" --serial auto --at now "$2" "$3"; }

# How many messages a base has.
end_of() { "$program" list "$1" | tail -n 1; }

# A posting waits for a lock. Meanwhile an editor replaces the link file, or another run replaces the base. The
# posting takes the lock of the new file.
for locked in links base; do
  mkdir seven
  if [ "$kind" = folders ]; then mkdir seven/base; fi
  cp one/links seven/links
  post_at First seven/links seven/base > posted.txt
  exec 7< seven/$locked
  flock 7
  post_at Late seven/links seven/base > posted.txt 7<&- &
  waiting=$!
  sleep 0.3
  cp -r seven/$locked seven/new
  exec 8< seven/new
  flock 8
  mv seven/$locked seven/old
  mv seven/new seven/$locked
  exec 7<&-
  sleep 0.3
  same "a posting waits for the new $locked" "" "$(cat posted.txt)"
  exec 8<&-
  wait $waiting
  same "and then it posts" "end 2 messages, 2 waiting" "$(end_of seven/base)"
  rm -r seven
done

# A posting has the local time of a time zone: the time of `date` before it or after it.
for zone in EST5 IST-5:30 Europe/Berlin; do
  if [ "${zone%/*}" != "$zone" ] && [ ! -e "/usr/share/zoneinfo/$zone" ]; then continue; fi
  mkdir eight
  cp one/links eight/links
  minute() { TZ=$zone LC_ALL=C date '+%d %b %y  %H:%M'; }
  expected=$(minute)
  echo Now | TZ=$zone "$program" post --area TEST --to All --from Ann --subject Now --serial auto --at local \
    eight/links eight/base > posted.txt
  shown=$("$program" list --short eight/base | sed -n 's/^0 \(.\{16\}\):.*/\1/p')
  if [ "$shown" != "$expected" ]; then expected=$(minute); fi
  same "a posting by the clock in $zone" "$expected" "$shown"
  rm -r eight
done

# A base is converted under the lock of its link file while a posting waits for that lock. The posting uses the new
# base.
mkdir eight
cp one/links eight/links
if [ "$kind" = folders ]; then mkdir eight/base; else mkdir eight/new; fi
post_at First eight/links eight/base > posted.txt
exec 7< eight/links
flock 7
post_at Late eight/links eight/base > posted.txt 7<&- &
waiting=$!
sleep 0.3
"$program" convert eight/base eight/new > converted.txt
mv eight/base eight/old
mv eight/new eight/base
exec 7<&-
status=0
wait $waiting || status=$?
same "a posting that waits while its base is converted" "0 end 2 messages, 2 waiting" "$status $(end_of eight/base)"

# Two link files name one base. Runs at the same time wait for each other.
mkdir nine
cp one/links nine/links
cp one/links nine/other
if [ "$kind" = folders ]; then mkdir nine/base; fi
post_at First nine/links nine/base > posted.txt
for _ in $(seq 20); do
  post_at Here nine/links nine/base > posted.txt &
  post_at There nine/other nine/base > posted.txt &
done
wait
same "postings with two link files" "end 41 messages, 41 waiting" "$(end_of nine/base)"

# A stopped scan left a packet. A base folder refuses a scan into another folder until a scan into the first folder
# finishes it.
scan_into() { "$program" scan --at 2026-07-03T12:34:56 "${@:2}" ten/links ten/base "ten/$1" > printed.txt 2>&1; }
if [ "$kind" = folders ]; then
  mkdir -p ten/base ten/first ten/second
  cp one/links ten/links
  post_at First ten/links ten/base > posted.txt
  scan_into first
  mv ten/first/1.10.2.0.pkt 'ten/first/1.10.2.0.pkt.~1.10.1~.new'
  post_at Second ten/links ten/base > posted.txt
  status=0
  scan_into second || status=$?
  same "a scan into another folder" "3 echonet: cannot use ten/second" "$status $(cat printed.txt)"
  scan_into second --explain || status=$?
  same "why, in words" "3 echonet: cannot use ten/second
echonet: note: $place/ten/first: has packets of a stopped scan" "$status $(cat printed.txt)"
  same "nothing is sent" "end 2 messages, 1 waiting 0" "$(end_of ten/base) $(ls ten/second | wc -l)"
  scan_into ./first
  same "the stopped scan is finished" "1.10.2.0.pkt 1.10.2.1.pkt" "$(ls ten/first | xargs)"
  post_at Third ten/links ten/base > posted.txt
  scan_into second
  same "then the folder may change" 1.10.2.2.pkt "$(ls ten/second)"
fi

echo "$passed checks passed, $failed failed"
[ $failed -eq 0 ]
