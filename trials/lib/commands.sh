# Shared by devices.sh, refusals.sh and pieces.sh: a run of each command, and how a run that met a failure has to end.
# They source this file in their own folder, after setting.sh.
commands="show nodelist check why picture replay post toss scan purge list"

make_file links 1:10/1 TEST 1:10/2 1:10/3 1:10/4 > one.links
cp "$top"/examples/nets/chain/*.links .
cp "$top/examples/scripts/chain.script" "$top/examples/packets/05-areas.pkt" .
cp "$top/examples/nodelists/nested.lst" .

# The files of a story with a base of so many messages and a packet of so many more.
make_story() {
  make_file packet "$1" "$2" "$3" > new.pkt
  make_file base 0 "$1" "$3" "$1" > old.base
  make_file base 0 $(($1 + $2)) "$3" "$1" > tossed.base
}

# The arguments of a command.
words_of() {
  case $1 in
    show) echo show 05-areas.pkt ;;
    nodelist) echo nodelist --find 1:10/101 nested.lst ;;
    check) echo check --nodelist nested.lst TEST 1.links 2.links 3.links ;;
    why) echo why TEST 1.links 3.links ;;
    picture) echo picture TEST 1.links 2.links 3.links ;;
    replay) echo replay chain.script 1.links 2.links 3.links ;;
    post) echo post --area TEST --to All --from Ann --subject Hi --serial 00000001 --at $stamp one.links base ;;
    toss) echo toss one.links base new.pkt ;;
    scan) echo scan --at $stamp one.links base out ;;
    purge) echo purge one.links base ;;
    list) echo list base ;;
  esac
}

start() {
  rm -rf out base base.*.new
  mkdir out
  case $1 in scan) put_base tossed.base base ;; *) put_base old.base base ;; esac
}

# Makes the library of trials/lib/NAME.c that is loaded before the C library. Without a C compiler the trial ends.
make_loaded() {
  command -v cc > /dev/null || { echo "$1: there is no C compiler"; exit 0; }
  cc -O2 -shared -fPIC -o "$1.so" "$top/trials/lib/$1.c"
}

# Runs a command with the library, with these calls chosen (counting.h), and sets its status. Arguments: the library,
# the command, the number of a call or `all`.
run_behind() {
  start "$2"
  status=0
  { echo Hello | CHOSEN=$3 COUNTED=counted LD_PRELOAD=./$1.so "$program" $(words_of "$2") > said 2> fault ||
    status=$?; } 2> /dev/null
}

# Keeps what a command without a failure left.
keep_wanted() {
  wanted=$status
  rm -rf want
  mkdir want
  cp -r said out want
  cp "$(file_of base)" want/base
}

# Whether the folder of packets has only whole ones.
whole_packets() {
  local packet
  for packet in out/*.pkt; do
    [ -e "$packet" ] || continue
    cmp -s "$packet" "want/$packet" || return 1
  done
}

# Whether all is as without a failure.
all_done() { cmp -s said want/said && base_is base want/base && diff -rq out want/out > /dev/null; }

# How a run has to end. A toss that met a failure inside a packet leaves the base with the messages before it: `parts`
# names such bases. Arguments: the command, the failure.
parts=
judge() {
  local before=old.base call="$1, $2"
  if [ "$1" = scan ]; then before=tossed.base; fi
  if [ "$1" = toss ]; then before="$before $parts"; fi
  tried=$((tried + 1))
  if [ $status = "$wanted" ]; then
    expect "$call: all is done" all_done
  else
    refused=$((refused + 1))
    expect "$call: status and line" ended_with_fault $status 3 fault "echonet: "
    expect "$call: the base" base_is base $before want/base
  fi
  expect "$call: packets" whole_packets
}
