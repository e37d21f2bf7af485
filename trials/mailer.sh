#!/usr/bin/env bash
# echonet-station in an unlucky world. A mailer may receive names that are not UTF-8, very long names, and
# names that would steer a terminal. It may receive a folder, a pipe, a link to nothing, and a packet that needs more
# memory than there is. The packets after it are tossed. Also: a scan whose caller alone is killed, a flow file that
# cannot be written, and holds of processes that have ended. Also what a power cut leaves, and a log that cannot be
# written.
set -eu
cd "$(dirname "$0")/.."
. trials/lib/setting.sh
export ECHONET=$program
cp -r "$top"/examples/net/{one,two} "$work"
cd "$work"
tool=$top/station/echonet-station

post() { echo "Body of $1" | "$tool" one post TEST All Ann "$1" > said; }
scan() { timeout 300 "$tool" one scan; }
toss() { timeout 300 "$tool" two toss; }
run() {
  status=0
  "$@" > said 2> fault || status=$?
}
filed() { "$program" list two/base | tail -n 1; }
flow=one/outbound/000a0002

# Five packets, and other things between them.
mkdir -p two/inbound
for number in 1 3 5 7 9; do
  post "Subject $number"
  run scan
  mv one/packets/*.pkt two/inbound/$number.pkt
  rm $flow.flo
done
cp two/inbound/1.pkt $'two/inbound/2\377\033[2J.pkt'
head -c 100 two/inbound/1.pkt > two/inbound/"$(printf '4%0247d' 0).pkt"
mkdir two/inbound/6.pkt
mkfifo two/inbound/8.pkt
ln -s nowhere two/inbound/A.pkt
run toss
expect "all that can be tossed is" [ "$status $(filed)" = "1 end 5 messages, 5 waiting" ]
expect "each packet has its line in the log" [ "$(cut -d ' ' -f 2 two/log | sort | uniq -c | xargs)" = "4 aside 6 came 1 known" ]
expect "nothing in the log steers the terminal" [ -z "$(LC_ALL=C tr -d ' -~\n' < two/log)" ]
expect "nothing is left" [ -z "$(ls two/inbound two/tossing | grep pkt)" ]
expect "what cannot lies apart" [ "$(ls two/bad | grep -c 'pkt$')" = 4 ]
expect "with the reason" grep -q 'cannot use .*pkt' two/bad/6.pkt.why two/bad/8.pkt.why two/bad/A.pkt.why
expect "nothing steers the terminal" [ -z "$(cat said fault | LC_ALL=C tr -d ' -~\n')" ]
rm -rf two/bad two/inbound/*

# A packet that needs more memory than there is, and one after it.
mkdir -p starved/inbound
cp one/links starved
make_file packet 1000 150 1000000 > starved/inbound/0.pkt
make_file packet 5000 1 200 > starved/inbound/1.pkt
run bash -c 'ulimit -v 100000; timeout 60 "$0" starved toss' "$tool"
expect "a packet without memory lies apart" grep -q -e 'P7 ' -e 'C2 ' -e 'out of memory' starved/bad/0.pkt.why
expect "and the one behind it is tossed" [ "$status $(ls starved/inbound starved/tossing | grep -c pkt)" = "1 0" ]

# A faulty link file: the packets stay, and the scan runs.
post Second
run scan
mv one/packets/*.pkt two/inbound/
rm $flow.flo
cp two/links links
echo FOO >> two/links
run toss
expect "a faulty link file stops a toss" [ "$status $(head -n 1 fault)" = "2 echonet: L1 UnknownWord line $(wc -l < two/links)" ]
cp links two/links
run toss
expect "the packet was kept" [ "$status $(filed)" = "0 end 6 messages, 6 waiting" ]

# The caller is killed and its scan runs on. The next run waits for it.
printf '#!/bin/sh\nsleep 2\nexec "%s" "$@"\n' "$program" > slow
chmod +x slow
post Third
ECHONET=$PWD/slow "$tool" one scan > said 2> fault & killed=$!
sleep 1
kill -9 $killed
wait $killed 2> fault || true
run scan
expect "the next run hands over what the first one scanned" [ "$status $(wc -l < $flow.flo)" = "0 1" ]
mv one/packets/*.pkt two/inbound/
rm $flow.flo
run toss
expect "nothing is lost" [ "$status $(filed)" = "0 end 7 messages, 7 waiting" ]

# The flow file cannot be written.
post Fourth
run scan
cp $flow.flo before.flo
mkdir $flow.new.kept $flow.flo.new
post Fifth
run scan
expect "a flow file that cannot be written is a fault" [ $status = 3 ]
expect "it is as before" cmp -s $flow.flo before.flo
expect "no link is held" is_none $flow.bsy
rmdir $flow.flo.new $flow.new.kept
run scan
expect "the next run hands the packet over" [ "$status $(wc -l < $flow.flo)" = "0 2" ]
expect "each line names a packet" eval '(for path in $(sed "s/^.//" $flow.flo); do [ -e "$path" ] || exit 1; done)'

# Holds: of a running process, of an ended one, without a number, and an old one without a number.
post Sixth
for held in "$$ 2" "none 2"; do
  case $held in none*) : > $flow.bsy ;; *) echo $$ > $flow.bsy ;; esac
  run scan
  expect "a link that is held (${held% *}) waits" [ "$status $(wc -l < $flow.flo)" = "0 ${held#* }" ]
done
touch -d '2 hours ago' $flow.bsy
run scan
expect "an old hold without a process is taken over" [ "$status $(wc -l < $flow.flo)" = "0 3" ]
post Seventh
sh -c 'echo $$' > $flow.bsy
run scan
expect "so is that of a process that runs no more" [ "$status $(wc -l < $flow.flo)" = "0 4" ]
expect "and no hold is left" is_none $flow.bsy "$(find one/outbound -name '*hold*')"

# A scan that is killed while it holds a link. After a power cut its hold may be empty, or have the number of another
# process.
lines=4
killed_scan() {
  python3 -c 'import os, sys
sys.path.insert(0, sys.argv.pop(1))
from echonet_station.disk import Disk
from echonet_station.start import main
Disk.set_mode = lambda *_: os.kill(os.getpid(), 9)
main(sys.argv[1:])' "$(dirname "$tool")" one scan
}
for left in '' $$; do
  post "Held by $left"
  { run killed_scan; } 2> killed
  expect "a killed scan leaves its hold" [ "$status $(ls one/scanned | wc -l) $(ls one/outbound | grep -c 'bsy$')" = "137 1 1" ]
  printf '%s' "$left" > $flow.bsy
  run scan
  lines=$((lines + 1))
  expect "its hold is taken over at once ($left)" [ "$status $(wc -l < $flow.flo)" = "0 $lines" ]
done
expect "and nothing of it is left" [ "$(ls one/outbound)" = 000a0002.flo ]
echo $$ > $flow.~1.10.1~.hold
ln $flow.~1.10.1~.hold $flow.bsy
run scan
expect "a hold is let go where no packet waits for its link" [ "$status $(ls one/outbound)" = "0 000a0002.flo" ]

# A packet under both names, as a power cut can leave it, and the hold of the run that was cut.
post Both
run scan
lines=$(wc -l < $flow.flo)
packets=$(ls one/packets | wc -l)
ln "one/packets/$(ls -t one/packets | head -n 1)" one/scanned/1.10.2.77.pkt
echo $$ > $flow.~1.10.1~.hold
ln $flow.~1.10.1~.hold $flow.bsy
run scan
expect "a packet with both names is handed over once" [ "$status $(wc -l < $flow.flo) $(ls one/packets | wc -l)" = "0 $lines $packets" ]
expect "it keeps the new one, and the link is let go" [ "$(ls one/scanned one/outbound | xargs)" = "one/outbound: 000a0002.flo one/scanned:" ]

# Packets in `tossing` without a name, or with a name that a power cut damaged, and one that is no number.
rm -rf two/bad
for name in 00000007 00000009 zzz; do head -c 100 one/base > two/tossing/$name.pkt; done
: > two/tossing/00000007.name
printf 'a/b' > two/tossing/zzz.name
run toss
expect "packets without a name get one" [ "$status $(cd two/bad && ls *.pkt | xargs)" = "1 00000007.pkt 00000009.pkt zzz.pkt" ]
expect "and nothing is left of them" [ -z "$(ls two/tossing)" ]
cp two/bad/00000007.pkt two/tossing/zzz.pkt
cp two/bad/00000009.pkt two/tossing/00000001.pkt
rm -rf two/bad
printf x > two/inbound/new.pkt
run toss
expect "no packet takes the number of another" [ "$status $(cd two/bad && ls *.pkt | xargs)" = "1 00000001.pkt new.pkt zzz.pkt" ]

# A log that cannot be written stops nothing, and is reported.
rm -rf one/packets two/log one/log $flow.flo
mkdir two/log one/log
post Ninth
run scan
expect "a scan without a log" [ "$status $(wc -l < $flow.flo)" = "3 1" ]
mv one/packets/*.pkt two/inbound/
before=$(filed)
run toss
expect "a toss without a log" [ "$status $(ls two/inbound two/tossing | grep -c pkt)" = "3 0" ]
expect "files all the same" [ "$before" != "$(filed)" ]

# A user who may not read the link file and the base cannot hold their locks: the modes of docs/REFERENCE.md.
if [ "$(id -u)" = 0 ] && command -v setpriv > /dev/null; then
  chmod 755 "$work" one
  chmod 644 one/links
  as_other() { setpriv --reuid 65534 --regid 65534 --clear-groups "$@"; }
  expect "another user holds the lock of a link file" as_other flock -n one/links true
  chmod 750 one
  expect "not where the folder is closed" eval '! as_other flock -n one/links true 2> fault'
fi
finish mailer
