#!/usr/bin/env bash
# A story of three systems on real files: postings, scans, tosses in any order and twice, a refused packet, purges and
# a reply. It compares each printed line, and the bytes of the first files, with the formats and rules in docs, worked
# out by hand. Argument: the program.
set -eu
cd "$(dirname "$0")/.."
. scripts/checks.sh
program=$(realpath "${1:-bin/echonet}")
place=$(mktemp -d)
trap 'rm -rf "$place"' EXIT
cd "$place"

# Runs the program. Arguments: the title, the status, standard output, standard error, and the arguments of the
# program.
run() {
  local what=$1 status=$2 out=$3 fault=$4 got=0
  shift 4
  "$program" "$@" > out.txt 2> fault.txt || got=$?
  same "$what: status" "$status" "$got"
  same "$what: output" "$out" "$(cat out.txt)"
  same "$what: fault" "$fault" "$(cat fault.txt)"
}

# Posts to TEST at the time of the story. Arguments: the title, status, output, fault, body, system, to, from,
# subject, serial, further options.
posting() {
  local what=$1 status=$2 out=$3 fault=$4 body=$5 system=$6 to=$7 from=$8 subject=$9 serial=${10}
  shift 10
  printf '%s\n' "$body" > body.txt
  run "$what" "$status" "$out" "$fault" post --area TEST --to "$to" --from "$from" \
    --subject "$subject" --serial "$serial" --at "$moment" "$@" "$system.links" "$system.base" < body.txt
}

scanning() { # title, output, system
  run "$1" 0 "$2" "" scan --at "$moment" "$3.links" "$3.base" "$3"
}

tossing() { # title, output, system, packets
  run "$1" 0 "$2" "" toss "$3.links" "$3.base" "${@:4}"
}

purging() { # title, how many, system
  run "$1" 0 "purged $2" "" purge "$3.links" "$3.base"
}

# Lists a base. Arguments: the title, the lines, the arguments of `list`. A program without `list` is spared.
has_list=yes
"$program" list --help > /dev/null 2>&1 || has_list=no
listing() {
  if [ $has_list = yes ]; then run "$1" 0 "$2" "" list "${@:3}"; fi
}

# The bytes of a file in hexadecimal digits, of at most so many after an offset.
digits() { od -An -v -tx1 -j"${2:-0}" -N"${3:-100000}" "$1" | tr -d ' \n'; }
hexadecimal() { tr -d ' \n' <<< "$1"; }

# The line of a toss: how many were filed and how many were known.
tally() { echo "filed $1 known $2 notecho 0 badtag 0 noarea 0 notlinked 0"; }

moment=2026-07-03T12:34:56
mkdir one two three
printf 'SYSTEM 1:10/1\nNAME Alpha\nAREA TEST 1:10/2\n' > one.links
printf 'SYSTEM 1:10/2\nNAME Beta\nAREA TEST 1:10/1 1:10/3\n' > two.links
printf 'SYSTEM 1:10/3\nNAME Gamma\nAREA TEST 1:10/2\n' > three.links

run "the area is in order" 0 "yes TEST 3 systems 2 links" "" check TEST one.links two.links three.links

# The first posting. The numbers; first byte, sender, DateTime; names and subject; the text's length and its five
# lines: 16 + 27 + 11 + 82 bytes.
posting "Ann posts" 0 "posted TEST 1:10/1 00000001" "" Hello one All Ann Hi 00000001
base=$(hexadecimal '4543484f42415332 00000000 01000000
  00 000000000000 3033204a756c203236202031323a33343a353600
  03416c6c 03416e6e 024869 4e000000
  415245413a544553540d
  014d534749443a20313a31302f312030303030303030310d
  48656c6c6f0d
  2d2d2d206563686f6e65740d
  202a204f726967696e3a20416c7068612028313a31302f31290d')
same "the base after the posting" "$base" "$(digits one.base)"

listing "what Alpha has" "message 0 area TEST posted waiting
date 03 Jul 26  12:34:56\\x00
to All
from Ann
subject Hi
line \\x01MSGID: 1:10/1 00000001
line Hello
line --- echonet
line  * Origin: Alpha (1:10/1)
seen 0 path 0
end 1 messages, 1 waiting" one.base
run "a base that is not there" 3 "" "echonet: cannot use two.base" list two.base

posting "the same serial again" 2 "" "echonet: B4 KnownSerial" Hello one All Ann Hi 00000001
same "the base stayed" "$base" "$(digits one.base)"

# Its packet: header 58, numbers 14, DateTime 20, names and subject 4 + 4 + 3, text 106 and 00, 00 00.
scanning "Alpha scans" "packet 1:10/2 1 messages 212 bytes" one
first=one/1.10.2.0.pkt
same "the packet" "$(hexadecimal '0100 0200 ea07 0600 0300 0c00 2200 3800 0000 0200
  0a00 0a00 00 00 0000000000000000 0100 0100 0000000000000000000000000000000000000000
  0200 0100 0200 0a00 0a00 0000 0000 3033204a756c203236202031323a33343a353600
  416c6c00 416e6e00 486900
  415245413a544553540d
  014d534749443a20313a31302f312030303030303030310d
  48656c6c6f0d
  2d2d2d206563686f6e65740d
  202a204f726967696e3a20416c7068612028313a31302f31290d
  5345454e2d42593a2031302f3120320d
  01504154483a2031302f310d
  00 0000')" "$(digits $first)"
scanning "Alpha scans again" "" one
same "no packet more" "1.10.2.0.pkt" "$(ls one)"

# It is for 1:10/2. Gamma refuses it, and its base is empty.
run "Gamma tosses what is not for it" 2 "$(tally 0 0)" "echonet: C1 NotForUs 1:10/2" \
  toss three.links three.base $first
same "an empty base" 4543484f424153320000000000000000 "$(digits three.base)"

# Cut inside the sender's name, which begins at 58 + 14 + 20 + 4.
head -c 98 $first > cut.pkt || true
run "Beta tosses a cut packet" 2 "$(tally 0 0)" "echonet: P1 Truncated at 96" toss two.links two.base cut.pkt
tossing "Beta tosses it" "$(tally 1 0)" two $first
tossing "Beta tosses it again" "$(tally 0 1)" two $first

# Two more bytes in SEEN-BY, two in PATH.
scanning "Beta scans" "packet 1:10/3 1 messages 216 bytes" two
run "what Beta sends" 0 "packet 1:10/2 to 1:10/3 at 2026-07-03 12:34:56 product 0 serial 0
password 0000000000000000
fill 0000000000000000000000000000000000000000
message 1 at 58: 10/2 to 10/3 attribute 0 cost 0
date 03 Jul 26  12:34:56\\x00
to All
from Ann
subject Hi
text 110 bytes
area TEST
msgid 1:10/1 00000001
tear --- echonet
origin  * Origin: Alpha (1:10/1)
seen 3 path 2 dropped 0
end 1 messages, 216 bytes" "" show two/1.10.3.0.pkt

# A second posting. Its packet is tossed before the first one, which is tossed again.
posting "Ann posts again" 0 "posted TEST 1:10/1 00000002" "" Hello one All Ann Hi 00000002
scanning "Alpha scans for the second" "packet 1:10/2 1 messages 212 bytes" one
tossing "Beta tosses both, the later first" "$(tally 1 0)
$(tally 0 1)" two one/1.10.2.1.pkt $first
scanning "Beta scans for the second" "packet 1:10/3 1 messages 216 bytes" two
tossing "Gamma tosses the later" "$(tally 1 0)" three two/1.10.3.1.pkt
tossing "Gamma tosses both" "$(tally 1 0)
$(tally 0 1)" three two/1.10.3.0.pkt two/1.10.3.1.pkt

# A purge leaves of a message its first byte, sender, DateTime, names, subject, tag and id: 62 bytes each.
purging "Alpha purges" 2 one
same "the purged base" "$(hexadecimal '4543484f42415332 02000000 02000000
  02 000000000000 3033204a756c203236202031323a33343a353600 03416c6c 03416e6e 024869
  0454455354 0f000000 313a31302f31203030303030303031
  02 000000000000 3033204a756c203236202031323a33343a353600 03416c6c 03416e6e 024869
  0454455354 0f000000 313a31302f31203030303030303032')" "$(digits one.base)"
purging "Alpha purges again" 0 one
posting "a purged serial again" 2 "" "echonet: B4 KnownSerial" Hello one All Ann Hi 00000001

# A reply. Text: 10 + 24 + 24 + 7 + 12 + 26 + 16 + 12 = 131; packet: 58 + 14 + 20 + 4 + 4 + 7 + 132 + 2.
# Gamma sends what it received from its only link to no system.
posting "Cid replies" 0 "posted TEST 1:10/3 00000001" "" "Hi Ann" three Ann Cid "Re: Hi" 00000001 \
  --reply "1:10/1 00000001"
scanning "Gamma scans" "packet 1:10/2 1 messages 241 bytes" three
tossing "Beta tosses the reply" "$(tally 1 0)" two three/1.10.2.0.pkt
scanning "Beta scans for the reply" "packet 1:10/1 1 messages 245 bytes" two
reply=two/1.10.1.2.pkt
run "the reply" 0 "packet 1:10/2 to 1:10/1 at 2026-07-03 12:34:56 product 0 serial 0
password 0000000000000000
fill 0000000000000000000000000000000000000000
message 1 at 58: 10/2 to 10/1 attribute 0 cost 0
date 03 Jul 26  12:34:56\\x00
to Ann
from Cid
subject Re: Hi
text 135 bytes
area TEST
msgid 1:10/3 00000001
reply 1:10/1 00000001
tear --- echonet
origin  * Origin: Gamma (1:10/3)
seen 3 path 2 dropped 0
end 1 messages, 245 bytes" "" show $reply
tossing "Alpha tosses the reply" "$(tally 1 0)" one $reply
tossing "Alpha tosses it again" "$(tally 0 1)" one $reply

# The reply waits at Alpha, so a purge leaves it. A scan has no system to send it to. Then it is purged.
purging "Alpha purges while it waits" 0 one
scanning "Alpha scans the reply" "" one
purging "Alpha purges the reply" 1 one

# Old packets are tossed onto a purged base.
purging "Beta purges" 3 two
tossing "packets of long ago" "$(tally 0 1)
$(tally 0 1)
$(tally 0 1)" two $first three/1.10.2.0.pkt one/1.10.2.1.pkt
scanning "Beta has nothing to send" "" two
scanning "Gamma has nothing to send" "" three

# The last message of each: posted and scanned, and purged. Also the second of Gamma, which came with the first scan
# of Beta.
listing "the reply where it was posted" "message 2 area TEST posted
date 03 Jul 26  12:34:56\\x00
to Ann
from Cid
subject Re: Hi
line \\x01MSGID: 1:10/3 00000001
line \\x01REPLY: 1:10/1 00000001
line Hi Ann
line --- echonet
line  * Origin: Gamma (1:10/3)
seen 0 path 0
end 3 messages, 0 waiting" --area test --from 2 three.base
listing "the reply at Beta" "message 2 area TEST from 1:10/3 purged
date 03 Jul 26  12:34:56\\x00
to Ann
from Cid
subject Re: Hi
line \\x01MSGID: 1:10/3 00000001
seen 0 path 0
end 3 messages, 0 waiting" --from 2 two.base
listing "no message of another area" "end 3 messages, 0 waiting" --area OTHER three.base
listing "no message from there on" "end 3 messages, 0 waiting" --from 3 three.base
if [ $has_list = yes ]; then
  same "the messages of Gamma" "message 0 area TEST from 1:10/2
line \\x01MSGID: 1:10/1 00000002
seen 3 path 2
message 1 area TEST from 1:10/2
line \\x01MSGID: 1:10/1 00000001
seen 3 path 2
message 2 area TEST posted
line \\x01MSGID: 1:10/3 00000001
seen 0 path 0" "$("$program" list three.base | grep -e '^message' -e MSGID -e '^seen')"
  run "a number that is none" 2 "" "echonet: bad number" list --from x three.base
fi

# Each base has three messages, and all were scanned.
for system in one two three; do
  same "what $system has" 0300000003000000 "$(digits $system.base 8 8)"
done

echo "$passed checks passed, $failed failed"
[ $failed -eq 0 ]
