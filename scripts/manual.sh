#!/usr/bin/env bash
# Compares the manual page with the program's help: the commands, the arguments, options and values of each, the
# statuses, and the version. Arguments: the page, the program.
set -eu
cd "$(dirname "$0")/.."
. scripts/checks.sh
page=$(realpath "${1:-docs/echonet.1}")
program=$(realpath "${2:-bin/echonet}")
place=$(mktemp -d)
trap 'rm -rf "$place"' EXIT

# The page without its font changes.
sed -E 's/\\-/-/g; s/\\f[A-Z]//g' "$page" > "$place/page"

# The lines of a section of the page, or of a command in it. Argument: the beginning of its heading.
part_of_page() { awk -v from="$1" 'index($0, ".S") == 1 { on = index($0, from) == 1 } on' "$place/page"; }

# The lines of a part of a help text. Arguments: the help, the part's heading.
part_of_help() { awk -v from="$2:" '/^[^ ]/ { on = $0 == from; next } on && NF' <<< "$1"; }

# The options of a part of the page, with their values, a line each: from its paragraphs, and from its heading.
page_options() {
  sed -nE 's/^\.BI (--[a-z-]+) " ([A-Z0-9]+)"$/\1 \2/p; s/^\.B (--[a-z-]+)$/\1/p' <<< "$1" | sort
}
heading_options() { grep -oE -e '--[a-z-]+( [A-Z0-9]+)?' <<< "$1" | while read -r option value; do
  if [ -n "$value" ]; then echo "$option $value"; else echo "$option"; fi; done | sort; }
help_options() {
  part_of_help "$1" Options | sed -nE 's/^ +(-., )?(--[a-z-]+)( <([A-Z0-9]+)>)?  .*/\2 \4/p' | sed 's/ $//' |
    grep -v -e '^--help$' -e '^--explain$' | sort
}

# The options that the usage line leaves out. Arguments: the help, the options.
left_out() {
  local usage option
  usage=$(grep '^Usage' <<< "$1")
  while read -r option _; do
    if [[ -n $option && $usage != *"$option "* ]]; then echo "$option"; fi
  done <<< "$2"
}

# The statuses of a help text, and those of the page. Argument: the help.
help_statuses() { part_of_help "$1" 'Exit status' | sed -E 's/^ +([0-9]) +/\1 /'; }
page_statuses() {
  part_of_page '.SH EXIT STATUS' | awk '/^\.B [0-9]$/ { number = $2; getline; print number, $0 }' |
    sed -e 's/, or help that was asked for//' -e 's/\.$//'
}

# The statuses of a command. Only commands that print a verdict have 1, and `nodelist`.
differing() {
  case $1 in
    check | picture | why) sed '/^1 /s/.*/1 the verdict is no/' ;;
    nodelist) sed '/^1 /s/.*/1 a checksum differs from the stated one/' ;;
    *) sed '/^1 /d' ;;
  esac
}

help=$("$program" --help)
commands=$(part_of_help "$help" Commands | awk '$1 != "help" { print $1 }' | sort)
same "the commands" "$commands" "$(sed -nE 's/^\.SS ([a-z]+).*/\1/p' "$place/page" | sort)"

for command in $commands; do
  help=$("$program" "$command" --help)
  part=$(part_of_page ".SS $command")
  heading=$(sed -n 's/^\.SS //p' <<< "$part")
  options=$(help_options "$help")
  same "$command: options in the heading" "$options" "$(heading_options "$heading" || true)"
  same "$command: options described" "$options" "$(page_options "$part")"
  # An option has brackets in the heading if the usage line leaves it out.
  same "$command: options that may be left out" "$(left_out "$help" "$options")" \
    "$(grep -oE '\[--[a-z-]+' <<< "$heading" | tr -d '[' | sort || true)"
  same "$command: words" "$(sed -n 's/^Usage: echonet [a-z]* //p' <<< "$help" |
    sed -E 's/\[OPTIONS\] ?//; s/--[a-z-]+ <[A-Z0-9]+> ?//g' | tr -d '<>')" \
    "$(sed -E 's/^[a-z]+ //; s/\[--[a-z-]+( [A-Z0-9]+)?\] ?//g; s/--[a-z-]+ [A-Z0-9]+ ?//g' <<< "$heading")"
  same "$command: help" "$help" "$("$program" help "$command")"
  same "$command: statuses" "$(help_statuses "$help")" "$(page_statuses | differing "$command")"
done

help=$("$program" --help)
same "check: its form without an area" "echonet check [OPTIONS] --all <LINKS>..." \
  "$("$program" check --help | sed -n 's/^ *\(echonet check .*--all .*\)/\1/p')"
same "the statuses of the program" "$(help_statuses "$help")" "$(page_statuses)"
same "the word that any command takes" 1 "$(part_of_help "$help" Options | grep -c -e ' --explain ')"

# A program of `make quick` adds to its version that it is not proved.
same "the version" "$("$program" --version | sed 's/ not proved$//')" "$(sed -nE 's/^\.TH .* "(echonet [0-9.]+)" .*/\1/p' "$place/page")"
echo "$passed checks passed, $failed failed"
[ $failed -eq 0 ]
