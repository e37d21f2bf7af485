#!/usr/bin/env bash
# Tries each input of examples/hostile. Its line in stories.txt gives the status, and the fault line or, without a
# fault, the last printed line.
set -eu
cd "$(dirname "$0")/.."
. trials/lib/setting.sh
kept=$top/examples/hostile
cd "$work"
make_file links 1:10/1 TEST 1:10/2 1:10/3 1:10/4 > one.links

run_command() {
  cp "$kept/$2" input
  rm -f base
  case $1 in
    toss) "$program" toss one.links base input ;;
    purge) "$program" purge one.links input ;;
    check) "$program" check TEST input ;;
    replay) "$program" replay input "$top"/examples/nets/chain/*.links ;;
    *) "$program" "$1" input ;;
  esac
}

while IFS='|' read -r name command wanted line _; do
  name=${name% } command=${command# } wanted=${wanted# } line=${line# }
  status=0
  run_command "${command% }" "$name" > said 2> fault || status=$?
  expect "$name: status $status" [ "$status" = "${wanted% }" ]
  if [ "$status" -gt 1 ]; then cp fault said; fi
  expect "$name: $(tail -1 said)" [ "$(tail -1 said)" = "${line% }" ]
done < "$kept/stories.txt"
for file in "$kept"/*.*; do
  [ "$file" = "$kept/stories.txt" ] || expect "$file has a story" grep -q "^$(basename "$file") |" "$kept/stories.txt"
done
# An argument that is not valid text.
status=0
"$program" list $'\377' > said 2> fault || status=$?
expect "a word that is not UTF-8" ended_with_fault $status 4 fault "error: "
finish kept
