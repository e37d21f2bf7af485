#!/usr/bin/env bash
# Runs every command where a file may not grow, where the disk is full, and where standard output is full. Each ends
# with one fault line and status 3. The base is the old one or the new one, whole, and no packet is incomplete. Then the
# command runs again with room, and no staging file is left. The small disk is a tmpfs, which needs root. On folders each
# command is tried with one page more until it has enough. Arguments: `files` or `folders`, how many limits of a file's
# size are tried.
set -eu
cd "$(dirname "$0")/.."
. trials/lib/setting.sh
limits=${1:-20}
cd "$work"

# A story in the current folder: the base before and after each command, and the packets of its scan.
make_story() {
  local old=$1 new=$2 size=$3
  make_file links 1:10/1 TEST 1:10/2 1:10/3 1:10/4 > one.links
  make_file packet "$old" "$new" "$size" > new.pkt
  make_file base 0 "$old" "$size" "$old" > toss.before
  make_file base 0 $((old + new)) "$size" "$old" > toss.after
  cp toss.before post.before
  cp toss.before purge.before
  cp toss.after scan.before
  make_file base 0 $((old + new)) "$size" $((old + new)) > scan.after
  for link in 3 4; do make_file scanned 1:10/$link "$old" "$new" "$size" > 1.10.$link.$old.pkt; done
  make_file purged 0 "$old" > purge.after
  make_file posted 0 "$old" "$size" "$old" > post.after
}

run_command() {
  case $1 in
    toss) "$program" toss one.links base new.pkt ;;
    scan) "$program" scan --at $stamp one.links base out ;;
    purge) "$program" purge one.links base ;;
    post) echo Hello | "$program" post --area TEST --to All --from Ann --subject Hi --serial 00000001 \
      --at $stamp one.links base ;;
  esac
}

# The files before a command.
start() { rm -rf out base base.*.new; mkdir out; put_base "$1.before" base; }

# What holds of the files after a command, whatever its status. Arguments: the command, the status.
look_at_files() {
  local packet
  case $2 in
    0) expect "$1 done: the new base" base_is base "$1.after" ;;
    *) expect "$1 failed: the old base" base_is base "$1.before" ;;
  esac
  for packet in out/*.pkt; do
    [ -e "$packet" ] || continue
    expect "$1: a whole packet" cmp -s "$packet" "$(basename "$packet")"
  done
}

# The size of the largest file that a command makes or adds to.
most_of() {
  if [ "$kind $1" = "folders scan" ]; then
    cat 1.10.4.400.pkt | wc -c
  else
    cat "$1.after" | wc -c
  fi
}

# A command where no file may have more than so many blocks of 1,024 bytes.
limit() {
  local status=0 most
  start "$1"
  ( trap '' XFSZ; ulimit -f "$2"; run_command "$1" 2>&1 > /dev/null ) | cat > fault
  status=${PIPESTATUS[0]}
  most=$(most_of "$1")
  look_at_files "$1" "$status"
  if [ "$most" -gt $(($2 * 1024)) ]; then
    expect "$1 at $2 blocks: one line and 3" ended_with_fault "$status" 3 fault "echonet: cannot use "
    expect "$1: no staging file of the base is left" is_none base.*.new
    start_again "$1"
  fi
  # The signal of a file that grows too large may end the program if it is not ignored.
  start "$1"
  status=0
  { ( ulimit -f "$2"; run_command "$1" > /dev/null 2>&1 ) || status=$?; } 2> /dev/null
  look_at_files "$1" "$status"
  case $status in 0 | 3) ;; *) killed=$((killed + 1)) ;; esac
  start_again "$1"
}

# What a stopped run left does no harm: the command run again does all.
start_again() {
  if [ $kind = folders ]; then
    if base_is base "$1.before"; then
      expect "$1 again" eval "run_command $1 > /dev/null 2> fault"
      look_at_files "$1" 0
    fi
    return
  fi
  if compgen -G "base.*.new" > list || [ -n "$(ls out)" ]; then
    rm -f out/*.pkt
    cp "$1.before" base
    expect "$1 again" eval "run_command $1 > /dev/null 2> fault"
    look_at_files "$1" 0
    expect "$1 again: no staging file is left" is_none base.*.new out/*.new
  fi
}

# A command on a disk with so many free kilobytes.
fill() {
  local left
  rm -rf "$work"/disk/*
  cp one.links new.pkt disk
  mkdir disk/out
  put_base "$1.before" disk/base
  left=$(df --output=avail disk | tail -1)
  head -c $(((left - $2) * 1024)) /dev/zero > disk/other
  ( cd disk; run_command "$1" 2>&1 > /dev/null ) | cat > fault
  status=${PIPESTATUS[0]}
  if [ "$kind $status" = "folders 0" ]; then
    expect "$1 with $2 kB left on the disk: the new base" base_is disk/base "$1.after"
    return
  fi
  expect "$1 with $2 kB left on the disk: one line and 3" ended_with_fault "$status" 3 fault "echonet: cannot use "
  expect "$1: the old base" base_is disk/base "$1.before"
  expect "$1: no staging file of the base is left" is_none disk/base.*.new
  for packet in disk/out/*.pkt; do
    [ -e "$packet" ] || continue
    expect "$1: a whole packet" cmp -s "$packet" "$(basename "$packet")"
  done
  rm disk/other
  expect "$1 on the emptied disk" eval "( cd disk; run_command $1 ) > /dev/null"
  expect "$1: the new base at last" base_is disk/base "$1.after"
  expect "$1: no staging file is left" is_none disk/base.*.new disk/out/*.new
}

# With a page more each time, until a command on folders has room enough.
fill_pages() {
  local left=0
  status=3
  while [ $status != 0 ] && [ $left -lt 4000 ]; do
    fill "$1" $left
    left=$((left + 4))
  done
  expect "$1 has room at last" [ $status = 0 ]
  echo "$1 on a disk with $left kB left and with less"
}

# Every command with a full standard output.
no_output() {
  local status=0
  eval "$2" > /dev/full 2> fault || status=$?
  expect "$1 with no room for its lines" ended_with_fault "$status" 3 fault "echonet: cannot use -"
}

killed=0
make_story 400 200 1000
for command in post toss scan purge; do
  for step in $(seq 0 $((limits - 1))); do limit $command $((step * 900 / limits)); done
done
echo "$((4 * limits)) runs with a limit, $killed of as many ended by its signal where it is not ignored"

for command in post toss scan purge; do
  start $command
  no_output $command "run_command $command"
  expect "$command: a whole base" base_is base $command.before $command.after
done
nets=$top/examples/nets
no_output show "'$program' show $top/examples/packets/02-short.pkt"
no_output nodelist "'$program' nodelist $top/examples/nodelists/nested.lst"
no_output check "'$program' check TEST $nets/chain/*.links"
no_output picture "'$program' picture TEST $nets/chain/*.links"
no_output replay "'$program' replay $top/examples/scripts/chain.script $nets/chain/*.links"

mkdir disk
if mount -t tmpfs -o size=4m tmpfs disk 2> /dev/null; then
  trap 'umount "$work/disk"; rm -rf "$work"' EXIT
  for command in post toss scan purge; do
    if [ $kind = folders ]; then
      fill_pages $command
    else
      for left in 0 8 16; do fill $command $left; done
    fi
  done
else
  echo "no tmpfs could be mounted: no run on a full disk"
fi
finish full_disk
