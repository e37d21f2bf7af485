#!/usr/bin/env bash
# Follows the sessions of a document from its first line to its last in an empty folder. It runs each line
# `    $ COMMAND`, and compares the output with the lines below it. Serials of eight hexadecimal digits, timestamps, dates
# and ages may differ. A document calls the empty folder /home/fido, and the folder of the programs /usr/bin.
# Arguments: the document, the program, and the folder that has `examples` and `station`, by default the sources. If
# headings follow, only the sessions right below these are run.
set -eu
cd "$(dirname "$0")/.."
document=$(realpath "${1:-docs/NODE.md}")
program=$(realpath "${2:-bin/echonet}")
sources=$(realpath "${3:-.}")
headings=("${@:4}")
for heading in "${headings[@]}"; do
  grep -q "^##* $heading\$" "$document" || { echo "$document has no heading $heading" >&2; exit 1; }
done
place=$(mktemp -d)
mkdir "$place/bin" "$place/empty"
ln -s "$program" "$place/bin/echonet"
ln -s "$sources" "$place/echonet"
ln -s "$(realpath "$sources/station/echonet-station")" "$place/bin/echonet-station"
export HOME=$place PATH=$place/bin:$PATH:/usr/sbin LC_ALL=C

# Ends the mailers of a session that did not end them.
end_mailers() {
  for file in "$place"/empty/*/binkd.pid "$place"/empty/*/*/binkd.pid; do
    if [ -e "$file" ]; then kill "$(cat "$file")" || true; fi
  done
  rm -rf "$place"
}
trap end_mailers EXIT
cd "$place/empty"

# Replaces what differs from day to day.
alike() {
  sed -E "s,$place/empty,/home/fido,g; s,$place/bin/,/usr/bin/,g; s,PATH=[^;]*; ,," |
    sed -E 's/\b[0-9a-f]{8}\b/SERIAL/g; s/ [0-9]+s( ago)?$/ AGE/; s/[0-9]{4}-[0-9]{2}-[0-9]{2}[T ][0-9:]{8}/MOMENT/g
    s/[0-9]{2} [A-Z][a-z]{2} [0-9]{2}  [0-9:]{8}/DATE/g'
}

good=0
bad=0
expected=
command=
deadline=0

# Runs the command, in this shell so that folders, variables and jobs stay.
run_it() {
  set +eu
  eval "$command" > "$place/printed" 2>&1 < /dev/null
  set -eu
}

# Whether it printed what the document says.
fits() { [ "$(printf '%s' "$expected" | alike)" = "$(alike < "$place/printed")" ]; }

# Types a command. After a `sleep`, by which a reader waits for mailers, one that prints something else is repeated for at
# most $most_wait seconds: a busy machine takes longer.
most_wait=180
type_it() {
  if [ -z "$command" ]; then return; fi
  run_it
  until fits || [ $SECONDS -ge $deadline ]; do
    sleep 1
    run_it
  done
  case $command in 'sleep '*) deadline=$((SECONDS + most_wait)) ;; esac
  if fits; then
    good=$((good + 1))
  else
    bad=$((bad + 1))
    printf 'DIFFERS: %s\n  expected:\n%s\n  printed:\n%s\n' "$command" "$expected" "$(cat "$place/printed")"
  fi
  command=
  expected=
}

# Whether the sessions below a heading are run.
is_wanted() {
  local heading
  for heading in "${headings[@]}"; do
    if [ "$heading" = "$1" ]; then return; fi
  done
  [ ${#headings[@]} -eq 0 ]
}

wanted=yes
while IFS= read -r line; do
  case $line in
    '#'*)
      type_it
      deadline=0
      wanted=no
      if is_wanted "${line##*# }"; then wanted=yes; fi
      ;;
    '    $ '*)
      type_it
      if [ $wanted = no ]; then continue; fi
      command=${line#    \$ }
      command=${command//\/usr\/share\/doc\/echonet/$sources}
      ;;
    '    '*) if [ -n "$command" ]; then expected=$expected${line#    }$'\n'; fi ;;
    *) type_it ;;
  esac
done < "$document"
type_it
echo "$good commands printed what the document says, $bad did not"
[ $bad -eq 0 ]
