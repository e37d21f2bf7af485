#!/usr/bin/env bash
# Debian's binkd with its installed settings. Only the edits of docs/REFERENCE.md, paths and ports are changed.
# Packets of a neighbour arrive. The command of the installed unit tosses and scans. The neighbour gets what was
# posted. As root it runs as binkd's user. PORT is the first of the two ports, by default 24581.
set -u
cd "$(dirname "$0")/.."
PATH=$PATH:/usr/sbin
. trials/lib/setting.sh
if ! [ -e /etc/binkd/binkd.cfg ] || ! command -v binkd > /dev/null; then
  echo "debian: there is no binkd of Debian here"
  exit
fi
port=${PORT:-24581}
scripts/install.sh "" "$work/prefix" || exit 1
share=$work/prefix/share
ftn=$work/ftn
export ECHONET=$work/prefix/bin/echonet

# Runs something as binkd's user, if this trial may.
as_ftn() { if [ "$(id -u)" = 0 ]; then setpriv --reuid ftn --regid ftn --clear-groups "$@"; else "$@"; fi; }

# The neighbour is Alpha of the installed examples, the station is Beta in binkd's folder.
cp -r "$share/doc/echonet/examples/net" "$work/net"
tool=$work/prefix/bin/echonet-station
PATH=$work/prefix/bin:$PATH
cd "$work/net"
mkdir -p one/{base,inbound,outbound,strangers,partly} "$ftn"/{inb,outb,strangers,base}
sed -i "s,24561,$port,; s,24562,$((port + 1))," one/binkd.conf
printf 'SYSTEM 1:10/2\nNAME Beta\nAREA TEST 1:10/1\n' > "$ftn/links"
sed "s,/var/spool/ftn,$ftn," "$share/echonet/settings" > "$ftn/settings"
sed -e "s,^domain fidonet .*,domain fidonet $ftn/outb 1,; s,^inbound-nonsecure .*,inbound-nonsecure $ftn/strangers,
  s,^inbound .*,inbound $ftn/inb,; s,^address .*,address 1:10/2@fidonet,; s,^log .*,log $ftn/binkd.log,; s,^pid-file .*,pid-file $ftn/pid," \
  -e "/^domain pascalnet/d; /^include/d; \$a check-pkthdr all .bad\nlisten 127.0.0.1:$((port + 1))\nnode 1:10/1@fidonet 127.0.0.1:$port alpha-beta" \
  /etc/binkd/binkd.cfg > "$work/binkd.cfg"
chmod 755 "$work"
if [ "$(id -u)" = 0 ]; then chown -R ftn:ftn "$ftn"; fi
binkd one/binkd.conf > "$work/one.out" 2>&1 &
as_ftn binkd -q "$work/binkd.cfg" > "$work/two.out" 2>&1 &
trap 'kill $(cat one/binkd.pid "$ftn/pid"); rm -rf "$work"' EXIT

# The command of the unit, and the last line of a base.
command=$(sed -n "s/^ExecStart=//p" "$share/echonet/echonet.service" | sed "s,/var/spool/ftn,$ftn,g")
unit() { as_ftn sh -c "umask 077; $command" > "$work/said" 2>&1; }
has() { "$program" list "$1" | tail -1; }

# Waits until a command holds, for a minute.
wait_for() { for _ in {1..120}; do "$@" && return; sleep 0.5; done; }
on_way() { find one/outbound "$ftn"/{inb,outb,packets,scanned} -name '*.pkt' -o -name '*.?lo'; }
is_sent() { [ -z "$(find one/outbound -name '*.?lo')" ]; }
has_come() { [ "$(has one/base)" = "end 25 messages, 0 waiting" ]; }

for number in {1..20}; do
  echo "Body $number" | "$tool" one post TEST All Ann "Hi $number" > "$work/posted"
  "$tool" one scan > "$work/scanned"
done
wait_for is_sent
unit
expect "what came is tossed" [ "$? $(has "$ftn/base")" = "0 end 20 messages, 0 waiting" ]
for number in {1..5}; do
  echo "Body $number" | as_ftn "$tool" "$ftn" post TEST All Bob "Ho $number" > "$work/posted"
done
printf x > "$ftn/inb/cut.pkt"
if [ "$(id -u)" = 0 ]; then chown ftn "$ftn/inb/cut.pkt"; fi
unit
expect "the unit fails where a packet is put aside" [ $? = 1 ]
expect "each packet has its line" [ "$(cut -d ' ' -f 2 "$ftn/log" | sort | uniq -c | xargs)" = "1 aside 20 came 1 sent" ]
expect "the reason is in a file of its own" [ "$(ls "$ftn/bad" | xargs)" = "cut.pkt cut.pkt.why" ]
wait_for has_come
expect "the neighbour has all" [ "$(has one/base)" = "end 25 messages, 0 waiting" ]
expect "nothing is left on its way" [ -z "$(on_way)" ]
mv "$ftn/bad/cut.pkt" "$work"
unit
expect "a reason goes with its packet" [ "$? $(ls "$ftn/bad")" = "0 " ]
finish debian
