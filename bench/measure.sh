# Shared by other scripts. They set `top`, the folder of the repository, before they source this.
program=${ECHONET:-$top/bin/echonet}
rounds=3
export MOST_MEMORY=$((20 << 30))

make_file() { python3 "$top/trials/lib/make.py" "$@"; }

# Makes a folder in the current one, works in it, and removes it at the end.
work_in() {
  work=$(mktemp -d "$1/echonet-bench.XXXXXX")
  trap 'rm -rf "$work"' EXIT
  cd "$work"
}

# Runs a command and keeps its processor time, time and kilobytes. Arguments: a name, the wanted status, the command.
measure() {
  local name=$1 wanted=$2 status processor seconds kilobytes fault
  shift 2
  read -r status processor seconds kilobytes fault << END
$(python3 "$top/trials/lib/running.py" "$@" < /dev/null)
END
  [ "$status" = "$wanted" ] || { echo "$name: status $status, $fault" >&2; exit 1; }
  echo "$processor $seconds $kilobytes" >> "now.$name"
}

# Prints the middle one of the runs of a name, by its processor time, and forgets them.
middle() {
  sort -g "now.$1" | sed -n "$(((rounds + 1) / 2))p"
  rm "now.$1"
}
