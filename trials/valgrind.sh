#!/usr/bin/env bash
# The built program under valgrind, if that is installed: a successful run of each command, and hostile inputs. No run
# may have an error, or lose memory. Argument: how many hostile inputs.
set -eu
cd "$(dirname "$0")/.."
. trials/lib/setting.sh
inputs=${1:-20}
command -v valgrind > /dev/null || { echo "valgrind: it is not installed"; exit 0; }
examples=$top/examples
cd "$work"

# Runs the program, which has to end with the given status, and looks for errors.
watched() {
  local wanted=$1 status=0
  shift
  valgrind --log-file=errors --error-exitcode=99 --leak-check=full --errors-for-leak-kinds=definite \
    "$program" "$@" > said 2> fault || status=$?
  expect "status of $*" [ $status = "$wanted" ]
  expect "no error of $*" grep -q 'ERROR SUMMARY: 0 errors' errors
}

# The same for an input that may be refused.
watched_whatever() {
  local status=0
  valgrind --log-file=errors --error-exitcode=99 --leak-check=full --errors-for-leak-kinds=definite \
    "$program" "$@" > said 2> fault || status=$?
  expect "status $status of $*" [ $status -le 3 ]
  expect "no error of $*" grep -q 'ERROR SUMMARY: 0 errors' errors
}

make_file links 1:10/1 TEST 1:10/2 1:10/3 1:10/4 > one.links
make_file packet 0 20 1200 > new.pkt
mkdir out
net=("$examples"/nets/chain/*.links)

watched 0 --help
watched 4 nothing
watched 0 show "$examples/packets/05-areas.pkt"
watched 0 show --hex - < "$examples/packets/sixty-byte.hex"
watched 0 nodelist "$examples/nodelists/nested.lst"
watched 0 nodelist --find 1:10/101 "$examples/nodelists/nested.lst"
watched 0 check TEST "${net[@]}"
watched 0 check --nodelist "$examples/nodelists/nested.lst" TEST "${net[@]}"
for folder in "$examples"/nets/*/; do
  case $folder in */chain/) ;; *) watched 1 check TEST "$folder"*.links; watched 1 picture TEST "$folder"*.links ;; esac
done
watched 0 picture TEST "${net[@]}"
watched 0 replay "$examples/scripts/chain.script" "${net[@]}"
watched 0 toss one.links base new.pkt new.pkt
watched 0 post --area TEST --to All --from Ann --subject Hi --serial 00000001 --at $stamp --reply "1:10/2 00000001" \
  one.links base < "$examples/nodelists/nested.lst"
watched 0 scan --at $stamp one.links base out
watched 0 purge one.links base
watched 0 toss one.links base new.pkt
happy=$passed

for number in $(seq "$inputs"); do
  case $((number % 5)) in
    0 | 1) kind=packet ;;
    2) kind=base ;;
    3) kind=nodelist ;;
    4) kind=script ;;
  esac
  python3 "$top/trials/hostile.py" --write $kind "$number" > input
  case $kind in
    packet) watched_whatever show input; rm -f new.base; watched_whatever toss one.links new.base input ;;
    base) watched_whatever purge one.links input; rm -rf out; mkdir out
      watched_whatever scan --at $stamp one.links input out ;;
    nodelist) watched_whatever nodelist input ;;
    script) watched_whatever replay input "${net[@]}" ;;
  esac
done
echo "$((happy / 2)) runs of good inputs, $(((passed + failed - happy) / 2)) of $inputs hostile ones"
finish valgrind
