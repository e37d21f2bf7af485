#!/usr/bin/env bash
# Files on a disk that others use too. Two stations scan into one folder at the same time, over and over. A scan that
# ended with 0 made the existing packet. The other scan is refused, or its packet waits for the next scan. With
# strace: a file is flushed before it gets its name, and its folder is flushed after that. Also the staging file when
# it exists before: as a link, as another's file, or from a stopped run. Also modes; packets that are a pipe, a folder
# or have no name in UTF-8; lists of packets; and a standard input that is closed or does not end. With base folders
# only the two stations are tried. Arguments: `files` or `folders`, how many scans of the two stations.
set -eu
cd "$(dirname "$0")/.."
. trials/lib/setting.sh
times=${1:-1000}
cd "$work"

echonet() { timeout 10 "$program" "$@"; }
post() {
  echo "$1" | echonet post --area TEST --to All --from Ann --subject Hi --serial "$1" --at $stamp "${@:2}"
}
scan() { echonet scan --at $stamp "$@"; }

# Runs a command, and sets its status.
run() {
  status=0
  "$@" > said 2> fault || status=$?
}

make_file links 1:10/1 TEST 1:10/9 > 1.links
make_file links 1:10/2 TEST 1:10/9 > 2.links
make_file links 1:10/9 TEST 1:10/1 1:10/2 > 9.links

# Two stations and one folder. The packet of each is 1.10.9.0.pkt.
for own in 1 2; do post 0000000$own $own.links $own.posted > said; done
wrong=0
both=0
late=0

# Gives the existing packet to the link. Argument: the number of the station that made it.
tosses_of() {
  "$program" toss 9.links 9.base out/1.10.9.0.pkt > said || return 1
  make_file ids 9.base | tail -n 1 > ids
  [ "$(cat ids) $(ls out | head -n 1)" = "1:10/$1 0000000$1 1.10.9.0.pkt" ]
}
for ((number = 0; number < times; number++)); do
  rm -rf out 1.base 2.base 9.base
  mkdir out
  for own in 1 2; do put_base $own.posted $own.base; done
  scan 1.links 1.base out > said.1 2> fault.1 & first=$!
  scan 2.links 2.base out > said.2 2> fault.2 & second=$!
  status=
  for process in $first $second; do if wait $process; then status+=0; else status+=$?; fi; done
  case $status in
    03) winner=1 loser=2 ;;
    30) winner=2 loser=1 ;;
    *) both=$((both + 1)); continue ;;
  esac
  "$program" list $winner.base > said
  grep -q 'end 1 messages, 0 waiting' said || wrong=$((wrong + 1))
  [ "$(cat fault.$loser)" = "echonet: cannot use out/1.10.9.0.pkt" ] || wrong=$((wrong + 1))
  tosses_of $winner || wrong=$((wrong + 1))
  rm out/1.10.9.0.pkt
  case $(ls out) in
    "") base_is $loser.base $loser.posted || wrong=$((wrong + 1)) ;;
    *)
      # Its name was in use after its base was written. The next scan gives it the name.
      late=$((late + 1))
      scan $loser.links $loser.base out > said && tosses_of $loser || wrong=$((wrong + 1))
      [ "$(ls out)" = 1.10.9.0.pkt ] || wrong=$((wrong + 1))
      ;;
  esac
done
expect "of two scans into one folder one ends well, not $both times another number" [ $both = 0 ]
expect "the packet is that of the scan that ended well, and the other waits ($wrong wrong)" [ $wrong = 0 ]
echo "two stations scanned into one folder $times times; $late times the name was taken behind the other's base"
if [ $kind = folders ]; then
  finish beside
  exit
fi

# The order of the calls.
if command -v strace > /dev/null; then
  rm -rf out
  mkdir out
  cp 1.posted 1.base
  # The calls that matter, each as a word, in order. Several flushes between two other calls count as one.
  order() {
    awk '/O_EXCL/ { printf "make " } /^fchown/ { printf "owner " } /^fchmod/ { printf "mode " }
      /^fsync/ { printf "flush " } /^rename/ { printf "rename " } /^link/ { printf "link " }
      /^unlink/ { printf "unlink " } /^write\(1,/ { printf "line " } /^exit_group/ { printf "end" }' calls | sed 's/flush \(flush \)*/flush /g'
  }
  run strace -o calls -s 16 "$program" scan --at $stamp 1.links 1.base out
  # The staging file of the packet is made, the line printed, the file flushed, and a second path tried. Then the base is
  # replaced, and the packet gets its name.
  made="flush make flush line flush link flush unlink flush"
  expect "a scan's calls: $(order)" [ "$(order)" = \
    "$made make owner owner mode flush rename flush link flush unlink flush end" ]
  expect "only the owner may read staging files" [ "$(grep -c 'O_EXCL.*0600)' calls)" = 2 ]
else
  echo "strace is not installed: no order of calls"
fi

# The staging file exists before.
beside=base.~1.10.1~.new
try_beside() {
  run post 00000003 1.links base
  case $2 in
    goes) expect "$1 is removed" [ "$status" = 0 -a ! -e $beside -a ! -L $beside ] ;;
    stays) expect "$1 stays" ended_with_fault $status 3 fault "echonet: cannot use base" ;;
  esac
  rm -rf base $beside
}
echo precious > victim
ln -s victim $beside
try_beside "a link" stays
expect "what a link leads to is not written" [ "$(cat victim)" = precious ]
head -c 20 1.posted > $beside
try_beside "a part of a base" goes
: > $beside
try_beside "an empty file" goes
head -c 5000 /dev/zero > $beside
try_beside "a file of zeros, as a power cut leaves it," goes
echo anything > $beside
try_beside "a file of this user" goes
mkdir $beside
try_beside "a folder" stays
cp 1.posted base.new
run post 00000003 1.links base
expect "base.new is nobody's name but the operator's" cmp -s base.new 1.posted
rm -rf base base.new out
mkdir out
scan 1.links 1.posted out > said
packet=out/1.10.9.0.pkt
head -c 30 $packet > kept
rm -f $packet
post 00000001 1.links base > said
cp kept $packet.~1.10.1~.new
run scan 1.links base out
expect "a part of a packet is removed" [ "$status $(ls out)" = "0 1.10.9.0.pkt" ]
rm -rf base out
mkdir out

# Modes.
for mode in 600 640 664; do
  cp 1.posted base
  chmod $mode base
  run post 00000003 1.links base
  expect "a base of mode $mode keeps it" [ "$status $(stat -c %a base)" = "0 $mode" ]
done
cp 1.posted base
chmod 400 base
run post 00000003 1.links base
expect "a base of mode 400 cannot be used" ended_with_fault $status 3 fault "echonet: cannot use base"
expect "and stays" cmp -s base 1.posted
rm -f base
( umask 0; run post 00000003 1.links base )
expect "a new base is its owner's alone" [ "$(stat -c %a base)" = 600 ]
if [ "$(id -u)" = 0 ]; then
  chown 12345:12346 base
  run post 00000004 1.links base
  expect "a base keeps its owner" [ "$status $(stat -c %u:%g base)" = "0 12345:12346" ]
fi

# Packets that are no files, and lists of packets.
rm -f base
run post 00000005 1.links 1.second
run scan 1.links 1.second out
mv out/1.10.9.0.pkt good.pkt
mkdir folder.pkt
mkfifo pipe.pkt
cp good.pkt $'bad\377.pkt'
for name in folder.pkt pipe.pkt; do
  run echonet toss 9.links 9.base good.pkt $name good.pkt
  expect "$name is a fault at once" ended_with_fault $status 3 fault "echonet: cannot use $name"
done
tossed="filed 0 known 1 notecho 0 badtag 0 noarea 0 notlinked 0"
printf 'good.pkt\n\ngood.pkt' > lines
printf 'good.pkt\0good.pkt\0' > ended
for list in lines ended; do
  run echonet toss --packets-from $list 9.links 9.base
  expect "packets of $list" [ "$status $(cat said)" = "0 $tossed"$'\n'"$tossed" ]
done
run echonet toss --packets-from - 9.links 9.base < <(printf 'good.pkt\n')
expect "packets of standard input" [ "$status $(cat said)" = "0 $tossed" ]
long=$(printf './%.0s' $(seq 1950))good.pkt
for ((number = 0; number < 600; number++)); do printf '%s\n' "$long"; done > lines
run echonet toss --packets-from lines 9.links 9.base
expect "more packets than a command line holds" [ "$status $(wc -l < said)" = "0 600" ]
printf 'good.pkt\nbad\377.pkt\ngood.pkt\n' > lines
run echonet toss --packets-from lines 9.links 9.base
expect "a name that is no UTF-8" ended_with_fault $status 3 fault 'echonet: cannot use bad\xff.pkt'
expect "the packet before it is tossed" [ "$(cat said)" = "$tossed" ]
run echonet toss --packets-from none 9.links 9.base
expect "no list" ended_with_fault $status 3 fault "echonet: cannot use none"
run echonet toss --packets-from lines 9.links 9.base good.pkt
expect "a list and words" [ $status = 4 ]

# Standard input that is closed, and one that does not end while another run goes on.
rm -f base
run echonet post --area TEST --to All --from Ann --subject Hi --serial 00000006 --at $stamp 1.links base 0<&-
expect "a closed standard input" ended_with_fault $status 3 fault "echonet: cannot use -"
expect "and no base" is_none base
mkfifo body
"$program" post --area TEST --to All --from Ann --subject Hi --serial 00000007 --at $stamp 1.links base < body \
  > said.1 2> fault.1 & slow=$!
exec 8> body
run post 00000008 1.links base
expect "a post that waits for its body holds no lock" [ $status = 0 ]
echo Hello >&8
exec 8>&-
expect "it goes on" wait $slow
expect "both are there" [ "$(make_file ids base | wc -l)" = 2 ]
finish beside
