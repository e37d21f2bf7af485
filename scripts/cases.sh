#!/usr/bin/env bash
# Runs each row of the tables in examples/cases. It compares what the program prints, its status and the files that it
# leaves with the row (examples/cases/README.md). Arguments: the program, and the tables, by default all.
set -eu
cd "$(dirname "$0")/.."
program=$(realpath "${1:-bin/echonet}")
cases=$PWD/examples/cases
place=$(mktemp -d)
trap 'rm -rf "$place"' EXIT
tables=("${@:2}")
[ ${#tables[@]} -gt 0 ] || tables=($(cd "$cases" && ls ./*.cases))
passed=0
failed=0

# Converts hexadecimal digits to bytes.
bytes_of() { printf "$(tr -d ' \n' | sed 's/../\\x&/g')"; }

# The link files of a net. Arguments: the folder, how many systems, the links.
make_net() {
  local own link links
  mkdir -p "$1"
  for ((own = 1; own <= $2; own++)); do
    links=
    for link in "${@:3}"; do
      if [ "${link%-*}" = $own ]; then links+=" 1:10/${link#*-}"; fi
      if [ "${link#*-}" = $own ]; then links+=" 1:10/${link%-*}"; fi
    done
    printf 'SYSTEM 1:10/%s\nAREA TEST%s\n' $own "$links" > "$1/$own"
  done
}

# A packet with a message for each line. Arguments: the nodes of the sender and of the receiver, in two digits.
make_packet() {
  local nodes="\\x$1\\x00\\x$2\\x00" nets='\x0a\x00\x0a\x00' zeros='\x00\x00\x00\x00' count=0 text
  printf '%b' "$nodes" '\xea\x07\x06\x00\x03\x00\x0c\x00\x22\x00\x38\x00\x00\x00\x02\x00' "$nets" \
    "$zeros$zeros\\x00\\x00" '\x01\x00\x01\x00' "$zeros$zeros$zeros$zeros$zeros"
  while IFS= read -r text; do
    count=$((count + 1))
    printf '%b' '\x02\x00' "$nodes$nets$zeros" '03 Jul 26  12:34:56\x00All\x00Ann\x00' "$count\\x00$text\\x00"
  done
  printf '\0\0'
}

# Makes a file from the lines in $place/lines. Arguments: how, its name, and for a packet its nodes.
make_file() {
  case $1 in
    @) cat ;;
    @hex) bytes_of ;;
    @escaped) printf '%b' "$(tr -d '\n')" ;;
    @packet) make_packet "$3" "$4" ;;
  esac < "$place/lines" > "files/$2"
}

# Prints a file with some bytes replaced. Arguments: the offset, the new bytes in digits, the file.
changed() {
  head -c "$1" "$3"
  bytes_of <<< "$2"
  tail -c +$(($1 + ${#2} / 2 + 1)) "$3"
}

# A cell without the blanks around it.
trimmed() {
  local text=$1
  text=${text#"${text%%[! ]*}"}
  printf '%s' "${text%"${text##*[! ]}"}"
}

# Prints the bytes that a cell describes.
expected() {
  local name
  case $1 in
    '') ;;
    @*) for name in $1; do cat "files/${name#@}" || return 1; done ;;
    *) printf '%s\n' "$1" ;;
  esac
}

# Whether a file has the bytes that a cell describes. Arguments: the file, the cell.
has() { expected "$2" > wanted && cmp -s "$1" wanted; }

# Whether the files that a run left are those of the cell.
left_as() {
  local pair
  for pair in $1; do
    case $pair in
      *=) [ ! -e "run/${pair%=}" ] || return 1 ;;
      *) cmp -s "run/${pair%%=*}" "files/${pair#*=}" || return 1 ;;
    esac
  done
}

# Runs the program with the arguments in a cell. Arguments: the cell, the file of standard input.
run_words() {
  local word words=()
  cd run
  while IFS= read -r -d '' word; do
    case $word in
      */\*) words+=("${word%\*}"*) ;;
      *) words+=("$word") ;;
    esac
  done < <(xargs -r printf '%b\0' <<< "$1")
  "$program" "${words[@]}" < "${2:-/dev/null}" > ../printed 2> ../fault
}

# Runs a row and counts it. Arguments: its cells.
run_row() {
  local status=0 wrong=
  if [[ $1 != then* ]]; then
    rm -rf run
    cp -r files run
  fi
  (run_words "$2" "$3") || status=$?
  # A program of `make quick` adds this to its version.
  if [ "$2" = --version ]; then sed -i 's/ not proved$//' printed; fi
  [ $status = "$4" ] || wrong+=" status $status"
  has printed "$5" || wrong+=" output: $(head -c 200 printed)"
  if [ "$6" = '*' ]; then
    [ -s fault ] || wrong+=" no fault"
  else
    has fault "$6" || wrong+=" fault: $(head -c 200 fault)"
  fi
  left_as "$7" || wrong+=" files left"
  if [ -z "$wrong" ]; then
    passed=$((passed + 1))
  else
    failed=$((failed + 1))
    echo "FAILED $table: $1:$wrong" | tr '\n' ' '
    echo
  fi
}

# Reads a file of cases: makes its files and runs its rows.
read_cases() {
  local line how= name cells
  while IFS= read -r line <&3; do
    if [ -n "$how" ]; then
      if [ "$line" = @ ]; then
        make_file "$how" $name
        how=
      else
        printf '%s\n' "$line" >> "$place/lines"
      fi
      continue
    fi
    case $line in
      '' | '#'*) ;;
      '@front '*) read -r _ count from name <<< "$line"; head -c "$count" "files/$from" > "files/$name" ;;
      '@text '*) read -r _ name line <<< "$line"; printf '%b' "$line" > "files/$name" ;;
      '@set '*) read -r -a cells <<< "$line"; changed "${cells[@]:1:2}" "files/${cells[3]}" > "files/${cells[4]}" ;;
      '@grown '*) read -r _ count from name <<< "$line"; cp "files/$from" "files/$name"; truncate -s "$count" "files/$name" ;;
      '@joined '*) read -r -a cells <<< "$line"; (cd files && cat "${cells[@]:2}") > "files/${cells[1]}" ;;
      '@net '*) read -r -a cells <<< "$line"; make_net "files/${cells[1]}" "${cells[@]:2}" ;;
      @*) read -r how name <<< "$line"; : > "$place/lines" ;;
      *)
        IFS='|' read -r -a cells <<< "$line|"
        for i in 0 1 2 3 4 5 6; do cells[i]=$(trimmed "${cells[i]-}"); done
        run_row "${cells[@]:0:7}"
        ;;
    esac
  done 3< "$1"
}

cd "$place"
for table in "${tables[@]}"; do
  table=$(basename "$table" .cases)
  rm -rf files
  mkdir -p files/outbound
  read_cases "$cases/files.txt"
  read_cases "$cases/$table.cases"
done
echo "$passed passed, $failed failed"
[ $failed -eq 0 ]
