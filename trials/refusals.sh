#!/usr/bin/env bash
# Refuses each growth of memory in one run of each command in turn. It does so by a malloc that is loaded before the C
# library's (refuse.c, which needs a C compiler). Each run ends as without refusals, or with 3 and one fault line.
# Then the base is the old one or the new one, whole, or the old one with the messages that were tossed before. No
# packet is incomplete. A run without refusals counts the growths. They include those of the loader, before the
# program's own.
set -eu
cd "$(dirname "$0")/.."
. trials/lib/setting.sh
cd "$work"
. "$top/trials/lib/commands.sh"
make_loaded refuse

make_story 8 4 200
for number in 1 2 3; do
  make_file base 0 $((8 + number)) 200 8 > part.$number
done
parts="part.1 part.2 part.3"
for command in $commands; do
  tried=0
  refused=0
  run_behind refuse $command 0
  keep_wanted
  growths=$(cat counted)
  expect "$command: it takes memory" [ "$growths" -gt 0 ]
  for ((number = 1; number <= growths; number++)); do
    run_behind refuse $command $number
    judge $command "growth $number of $growths"
  done
  echo "$command: $tried growths refused, of which $refused ended it with a fault"
done
finish refusals
