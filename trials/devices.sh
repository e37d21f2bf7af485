#!/usr/bin/env bash
# Lets each call of the system fail in turn, in one run of each command, if strace is installed. Calls on files fail
# (EIO, ENOSPC) or are interrupted (EINTR). Calls that map memory are refused (ENOMEM). Then each command runs with
# more and more memory, until it has enough. Each run ends with 0 as without a failure, or with 3 and one fault line.
# The base is the old one or the new one, whole, and no packet is incomplete. The calls of the loader before the
# program begins are left out. So is brk: the system refuses it in a form that strace cannot give.
set -eu
cd "$(dirname "$0")/.."
. trials/lib/setting.sh
command -v strace > /dev/null || { echo "devices: strace is not installed"; exit 0; }
cd "$work"
. "$top/trials/lib/commands.sh"

# Runs a command under strace with more arguments for strace, and sets its status.
traced() {
  local command=$1
  shift
  start "$command"
  status=0
  { echo Hello | strace -o calls "$@" "$program" $(words_of "$command") > said 2> fault || status=$?; } 2> /dev/null
}

# Runs a command with so many kilobytes of memory, and sets its status.
starved() {
  start "$1"
  status=0
  { ( ulimit -v "$2"; echo Hello | "$program" $(words_of "$1") > said 2> fault ) || status=$?; } 2> /dev/null
}

# How a command without a failure ends.
remember() {
  traced "$1"
  keep_wanted
  # The first call of the program itself opens the first file. A call is identified by its name and its number among
  # the calls of that name.
  first=$(grep -n 'openat(AT_FDCWD, "[^/]' calls | head -1 | cut -d : -f 1)
  sed -n 's/^\([a-z0-9_]*\)(.*/\1/p' calls | awk -v first="$first" '{
    ++count[$1]
    if (NR >= first) print $1, count[$1] }' > numbered
}

# One call fails. Arguments: the command, the call's name and number, the failure.
fail_call() {
  traced "$1" -e "inject=$2:error=$4:when=$3"
  grep -q INJECTED calls || return 0
  judge "$1" "$4 at $(grep INJECTED calls | head -1 | cut -c 1-60)"
}

# The failures of a call.
failures_of() {
  case $1 in
    exit_group | rt_sig* | brk) ;;
    mmap | mremap | munmap) echo ENOMEM ;;
    *) echo EIO ENOSPC EINTR ;;
  esac
}

# More and more memory, from what the loader needs, until the command ends well.
starve() {
  local most=$enough
  status=3
  while [ $status != "$wanted" ] && [ $most -lt 1000000 ]; do
    most=$((most + $2))
    starved "$1" $most
    judge "$1" "$most kB"
  done
  expect "$1: there is enough memory at last" [ $status = "$wanted" ]
}

make_story 20 10 200
for command in $commands; do
  tried=0
  refused=0
  remember $command
  cp numbered all_calls
  while read -r name number; do
    for error in $(failures_of "$name"); do fail_call $command "$name" "$number" $error; done
  done < all_calls
  expect "$command: calls fail" [ $tried -gt 0 ]
  echo "$command: $tried failures, of which $refused ended it with a fault"
done

# The least memory with which the loader can begin the program.
enough=1000
{ until ( ulimit -v $enough; "$program" --version ); do enough=$((enough + 4)); done; } > /dev/null 2>&1
make_story 2000 1000 1000
for command in $commands; do
  tried=0
  refused=0
  remember $command
  starve $command 128
  echo "$command: $tried sizes of memory, of which $refused were too small"
done
finish devices
