#!/usr/bin/env bash
# What an operator meets every day with echonet-station: times of postings in other readers, files that no run
# takes, what a mail of cron says, statuses of runs that cannot begin, names in `bad`, messages that an editor has not
# finished, and all areas of a reader in one run.
set -eu
cd "$(dirname "$0")/.."
. trials/lib/setting.sh
export ECHONET=$program
tool=$top/station/echonet-station
cd "$work"
mkdir -p one/base
printf 'SYSTEM 1:10/1\nNAME Alpha\nAREA TEST 1:10/2\nAREA NEWS 1:10/2\n' > one/links

# Runs a command. Its output is in `said`, its standard error in `fault`, its status in `status`.
run() {
  status=0
  "$@" > said 2> fault < /dev/null || status=$?
}
post() { echo "Body of $1" | "$tool" one post "${2:-TEST}" All Ann "$1" > said; }
last() { "$program" list one/base | tail -n 1; }
toss() { run timeout 300 "$tool" one toss; }

# The moment of the last message in seconds: its date less the offset of its TZUTC line, or else that of this zone.
moment() {
  local listed date zone
  listed=$("$program" list --from $(($("$program" list one/base | grep -c '^message') - 1)) one/base)
  date=$(sed -n 's/^date \(.*\)\\x00$/\1/p' <<< "$listed")
  zone=$(sed -n 's/^line \\x01TZUTC: //p' <<< "$listed")
  date -d "$date ${zone:+$(sed 's/^[0-9]/+&/' <<< "$zone")}" +%s
}
is_now() { local apart=$(($(date +%s) - $(moment))); [ $apart -ge 0 ] && [ $apart -le 60 ]; }

# A stored message as an editor writes it. Arguments: path, subject, TZUTC, the last byte.
field() { { printf '%s' "$1"; head -c "$2" /dev/zero; } | head -c "$2"; }
stored() {
  { field Bob 36; field All 36; field "$2" 72; field '03 Jul 26  12:34:56' 20; field '' 22; printf '\0\1\0\0'
    printf '\001TZUTC: %s\rIt is written.\r%b' "$3" "${4-\\0}"; } > "$1"
  touch -d '3 seconds ago' "$1"
}

# Times. Each zone is the system's and the editor's.
for zone in IST-5:30 EST5 UTC0; do
  export TZ=$zone
  post "At the shell in $zone"
  expect "post in $zone: other readers show the moment" is_now
  expect "with a line TZUTC" grep -q '^line .x01TZUTC: ' <("$program" list one/base | tail -n 8)
  run "$tool" one read TEST one/msg
  offset=$(date +%z)
  stored one/msg/90.msg "In a folder in $zone" "${offset#+}"
  run "$tool" one read TEST one/msg
  expect "read in $zone posts" grep -q '^posted TEST' said
  expect "with the time of its line TZUTC" is_now
  unset TZ
done

# The same in a JAM base: a message that an editor adds to an empty one. The fixed header is that of the run before.
run "$tool" one read --jam NEWS one/jam
expect "an empty JAM base is made" [ "$status $(wc -c < one/jam.jhr)" = "0 1024" ]
add_to_jam() { TOP=$top python3 -c 'import os, sys
sys.path.insert(0, os.environ["TOP"] + "/trials")
import jam_beside
jam_beside.write_message(sys.argv[1], int(sys.argv[2]))' "$1" "$2"; }
add_to_jam one/jam 1
run env TZ=IST-5:30 "$tool" one read --jam NEWS one/jam
expect "a posting from a JAM base has the time of its zone" \
  eval 'TZ=IST-5:30 is_now && grep -q "^posted NEWS" said'

# Names in `bad`: the second packet of a name can go back to `inbound`, as the first one.
for number in 1 2 3; do
  head -c 100 one/base/log > one/inbound.pkt 2> fault || head -c 100 /dev/zero > one/inbound.pkt
  mkdir -p one/inbound
  mv one/inbound.pkt "one/inbound/$([ $number = 3 ] && echo CUT.PKT || echo cut.pkt)"
  toss
  expect "packet $number is put aside" [ $status = 1 ]
done
mv one/bad/CUT.PKT one/inbound/
mv one/bad/CUT.PKT.why two.why
toss
names=$(cd one/bad && ls -- *.pkt *.PKT | xargs)
expect "names that toss takes again: $names" [ "$names" = "CUT.PKT cut.1.pkt cut.pkt" ]
mv one/bad/*.pkt one/bad/*.PKT one/inbound/
toss
expect "all of them are tossed again" [ "$status $(ls one/bad | grep -ic 'pkt$') $(ls one/inbound)" = "1 3 " ]
rm -rf one/bad

# What a mail of cron says: the command of the guide, with this program.
line=$(sed -n 's,^    \*/5 \* \* \* \* \(.*\),\1,p' "$top/docs/REFERENCE.md" | sed "s,/usr/bin/echonet-station,$tool,; s,/home/fido/net/two,one,")
expect "the guide has a line for cron" [ -n "$line" ]
cron() { sh -c "$line" > mail 2>&1 < /dev/null || true; }
cron
expect "nothing happened: no mail" [ ! -s mail ]
printf x > one/inbound/cut.pkt
cron
expect "a packet is put aside: the mail names it and its fault" grep -q '^put aside cut.pkt: echonet: P1 Truncated' mail
cp one/links links
echo FOO >> one/links
cron
expect "a refused link file: the mail has the fault and the status" \
  [ "$(grep -c 'L1 UnknownWord' mail) $(grep -c 'run: status 2' mail)" = "1 1" ]
printf x > one/inbound/more.pkt
cron
expect "also of a toss" [ "$(grep -c 'L1 UnknownWord' mail) $(grep -c 'run: status 2' mail)" = "2 1" ]
cp links one/links
toss
rm -rf one/bad one/scanned/* one/packets/* one/outbound/*

# Files that no run takes are reported once, ten minutes after a run saw them first. The log has them too.
printf PK > one/inbound/0000ff9c.mo0
printf x > $'one/inbound/odd\033[2J\nname.tic'
printf x > one/inbound/0000ff9d.bad
mkdir one/inbound/folder.su1
later() { touch one/left; sed -i "s/^[1-9][0-9]*/$(($(date +%s) - $1))/" one/left; }
toss
expect "files that just came are not reported" [ "$status $(cat said fault)" = "0 " ]
later 590
toss
expect "nor after nine minutes" [ "$status $(cat said fault)" = "0 " ]
later 600
toss
expect "after ten minutes all are, and the status is 1" [ "$status $(grep -c '^left ' fault)" = "1 3" ]
expect "with what they are" grep -q '^left 0000ff9c.mo0: a bundle' fault
expect "nothing steers the terminal" [ -z "$(LC_ALL=C tr -d ' -~\n' < fault)" ]
expect "the log has them" [ "$(grep -c '^[^ ]* left ' one/log)" = 3 ]
toss
expect "they are reported once" [ "$status $(cat fault)" = "0 " ]
rm one/inbound/0000ff9c.mo0
toss
printf PK > one/inbound/0000ff9c.mo0
toss
later 600
toss
expect "a new file of that name is reported again" [ "$status $(grep -c '^left ' fault)" = "1 1" ]
printf 'damaged \000\377' > one/left
toss
expect "a damaged list of them harms nothing" [ "$status $(cat said fault)" = "0 " ]
rm -rf one/inbound/*

# Runs that cannot begin end with 3, by whatever shell. One with a wrong command line ends with 4.
echo file > plain
cp -r one locked
rm -rf locked/toss.lock locked/scan.lock
mkdir locked/toss.lock locked/scan.lock
cp -r one blocked
rm -rf blocked/inbound blocked/scanned
touch blocked/inbound blocked/scanned
cp -r one damaged
echo 'INBOUND=(' > damaged/settings
for name in run toss scan; do
  for station in missing plain locked blocked damaged; do
    run "$tool" "$station" $name
    expect "$name of $station" [ "$status $([ -s fault ] && echo told)" = "3 told" ]
  done
  run env TMPDIR="$work/missing" "$tool" one $name
  expect "$name without a folder for its files" [ $status = 0 ]
done
run "$tool" missing read TEST one/read
expect "read of no station" [ "$status $([ -s fault ] && echo told)" = "3 told" ]
mkdir nowhere
(cd nowhere && run "$tool" toss && [ "$status $(cat fault)" = "4 echonet-station: no station here: give its folder" ])
expect "no station here" [ $? = 0 ]
cp -r one unlinked
rm unlinked/links
run "$tool" unlinked scan
expect "a scan without a link file" [ "$status $(head -n 1 fault)" = "3 echonet: cannot use $work/unlinked/links" ]
rm -rf unlinked

# A message that an editor has not finished waits, and is posted once it is.
rm -rf one/msg
run "$tool" one read TEST one/msg
stored one/msg/90.msg Unfinished 0000 ''
before=$(last)
run "$tool" one read TEST one/msg
expect "a message without its end waits, and is reported" \
  [ "$status $(last) $(grep -c '90.msg waits: it has no 00' fault)" = "0 $before 1" ]
printf '\0' >> one/msg/90.msg
touch one/msg/90.msg
run "$tool" one read TEST one/msg
expect "it waits while it is younger than two seconds" [ "$status $(last) $(cat fault)" = "0 $before " ]
touch -d '3 seconds ago' one/msg/90.msg
run "$tool" one read TEST one/msg
expect "then it is posted" grep -q '^posted TEST' said

# The mail of cron for a station with `peers`: what the gate puts aside, and letters that nobody takes.
rm -rf peered
"$tool" peered new 1:10/1 Alpha 1:10/2 host secret TEST > said
sed -i /ROUTE/d peered/peers
peered=${line// one / peered }
printf 'PK\3\4damaged' > peered/inbound/0000ff9c.mo0
touch -d '1 hour ago' peered/inbound/0000ff9c.mo0
cp peered/inbound/0000ff9c.mo0 bundle
mkdir peered/netmail
stored peered/netmail/2.msg Unrouted 0000
printf '\012\0\011\0' | dd of=peered/netmail/2.msg bs=1 seek=166 conv=notrunc 2> fault
touch -d '3 seconds ago' peered/netmail/2.msg
sh -c "$peered" > mail 2>&1 < /dev/null || true
expect "the mail has what the gate put aside, and why" grep -q '^put aside 0000ff9c.mo0: gate: damaged' mail
expect "and a letter that stays" grep -q '^keeps 2.msg ' mail
expect "and the status" grep -q '^run: status 1' mail

# All areas of a reader by one run: three areas, of which the last is in a folder with a blank in its name.
rm -rf one/base one/count one/msg one/jam*
mkdir -p one/base one/read
printf 'SYSTEM 1:10/1\nNAME Alpha\nAREA TEST 1:10/2\nAREA NEWS 1:10/2\nAREA ODD 1:10/2\n' > one/links
printf '; the areas\n\nTest msg read/test/\r\n  NEWS  jam  %s/one/read/news\nODD msg read/an odd one  \n' "$work" > one/readers
printf '#!/bin/sh\necho "$*" >> "%s/calls"\nexec "%s" "$@"\n' "$work" "$program" > counted
chmod +x counted
: > calls
# File systems keep times to two seconds at worst, so a run looks at files again that changed shortly before it.
all() {
  sleep 2.1
  : > calls
  run env ECHONET="$work/counted" "$tool" one read one/readers
}
for area in TEST NEWS ODD; do post "First of $area" "$area"; done
all
expect "one run does all areas" [ "$status $(cat said | xargs)" = \
  "0 TEST: exported 1 messages, next 3 NEWS: exported 1 messages, next 3 ODD: exported 1 messages, next 3" ]
expect "where the file says" [ "$(ls one/read/test one/read/news.jhr 'one/read/an odd one' | grep -c 'msg$\|jhr$')" = 3 ]
all
all
expect "without news it does nothing, and reads no base" [ "$status $(cat said fault calls)" = "0 " ]
post 'Second' NEWS
all
expect "only the area with news is done" [ "$status $(cat said) $(grep -c export calls)" = "0 NEWS: exported 1 messages, next 4 1" ]
stored 'one/read/an odd one/90.msg' Answer 0000
all
expect "so is one in which an editor wrote" [ "$status $(cut -d ' ' -f 1-3 said | xargs)" = "0 ODD: posted ODD ODD: exported 1" ]
all
add_to_jam one/read/news 6
all
expect "also in a JAM base" [ "$status $(cut -d ' ' -f 1-3 said | xargs)" = "0 NEWS: posted NEWS" ]
all
all
expect "then nothing is left to do" [ "$status $(cat said fault calls)" = "0 " ]
stored one/read/test/90.msg Unfinished 0000 ''
all
expect "an unfinished message waits" [ "$status $(cat said) $(grep -c '90.msg waits' fault)" = "0  1" ]
printf '\0' >> one/read/test/90.msg
all
expect "and is posted once it is finished" [ "$status $(grep -c posted said)" = "0 1" ]
run "$tool" one read --areadef one/readers
expect "the lines for GoldED" [ "$status $(cat said)" = "0 AREADEF TEST \"TEST\" 0 Echo Opus $work/one/read/test
AREADEF NEWS \"NEWS\" 0 Echo JAM $work/one/read/news
AREADEF ODD \"ODD\" 0 Echo Opus $work/one/read/an odd one" ]

# A fault of one area, and faulty files of areas.
post 'Third' NEWS
post 'Third' ODD
mv one/read/news.jhr news.jhr
echo none > one/read/news.jhr
all
expect "a fault of an area is the status" [ "$status $(grep -c 'ODD: exported' said)" = "3 1" ]
all
expect "the next run does that area again" [ "$status $(grep -c 'post.*news' calls)" = "3 1" ]
mv news.jhr one/read/news.jhr
all
expect "until it is good" [ "$status $(cat said)" = "0 NEWS: exported 1 messages, next 9" ]
for line in 'TEST msg' 'TEST' 'TEST squish read/test' $'TEST msg read/\033test' 'TEST jam /'; do
  printf 'ODD msg read/fresh\n%s\n' "$line" > one/faulty
  run "$tool" one read one/faulty
  expect "a faulty line: $line" [ "$status $(cat fault) $(ls one/read | grep -c fresh)" = \
    "2 one/faulty:2: expected TAG msg PATH or TAG jam PATH 0" ]
done
run "$tool" one read one/missing
expect "a missing file of areas" [ $status = 3 ]
run "$tool" one read
expect "no file of areas" [ $status = 4 ]
cp -r one/base kept
truncate -s -1 one/base/messages.*
next=$(cat one/read/test/next)
all
expect "a damaged base is the status" [ "$status $(cat one/read/test/next) $(grep -c 'F2 Truncated' fault)" = "2 $next 1" ]
rm -rf one/base
mv kept one/base

# Runs at the same time, and killed ones: each message is in the folder and in the JAM base once.
for number in {1..6}; do
  post "At once $number" NEWS
  post "At once $number" TEST
  for _ in 1 2 3; do "$tool" one read one/readers > said 2> fault & done
  setsid "$tool" one read one/readers > said 2> fault & killed=$!
  sleep "0.$((number * 7))"
  kill -9 -- -$killed 2> fault || true
  { wait $killed || true; } 2> fault
  wait
done
all
for number in {1..6}; do
  expect "message $number is in the folder once" [ "$(cat one/read/test/*.msg | grep -ac "Body of At once $number")" = 1 ]
  expect "and in the JAM base" [ "$(grep -ao "Body of At once $number" one/read/news.jdt | wc -l)" = 1 ]
done

# A hundred areas without news.
mkdir -p many/base
{ printf 'SYSTEM 1:10/1\n'; printf 'AREA A%s 1:10/2\n' {1..100}; } > many/links
for number in {1..100}; do echo "A$number $([ $((number % 2)) = 0 ] && echo msg || echo jam) read/$number"; done > many/readers
mkdir many/read
echo Body | "$tool" many post A7 All Ann Hi > said
for _ in 1 2 3; do run "$tool" many read many/readers; done
best=99999
for _ in 1 2 3 4 5; do
  begin=$(date +%s%3N)
  run "$tool" many read many/readers
  taken=$(($(date +%s%3N) - begin))
  if [ $taken -lt $best ]; then best=$taken; fi
done
expect "a hundred areas without news take $best ms" [ "$status $(cat said fault) $((best < 1000))" = "0  1" ]
finish daily
