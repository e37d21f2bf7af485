# Shared by the trials that are shell scripts: the program, a folder of their own that is removed at the end, counts
# of what held, and bases. Bases are `files` or, with that as the first argument, `folders`.
program=${ECHONET:-$PWD/bin/echonet}
[ -x "$program" ] || { echo "$0: there is no $program: run make first" >&2; exit 1; }
top=$PWD
work=$(mktemp -d "${TMPDIR:-/tmp}/echonet-trials.XXXXXX")
trap 'rm -rf "$work"' EXIT
stamp=2026-07-03T12:34:56
passed=0
failed=0
kind=files
case ${1:-} in files | folders)
  kind=$1
  shift
  ;;
esac

make_file() { python3 "$top/trials/lib/make.py" "$@"; }

# Arguments: what is tried, and a command that tests whether it held.
expect() {
  local what=$1
  shift
  if "$@"; then
    passed=$((passed + 1))
  else
    failed=$((failed + 1))
    echo "failed: $what: $*" >&2
  fi
}

# Whether the file has the bytes of one of the others.
is_one_of() {
  local file=$1 other
  shift
  for other in "$@"; do
    cmp -s "$file" "$other" && return 0
  done
  return 1
}

# Makes a base with the messages of a base file. Arguments: the file, the path.
put_base() {
  rm -rf "$2"
  if [ $kind = files ]; then
    cp "$1" "$2"
    return
  fi
  if [ ! "$1.folder" -nt "$1" ]; then
    rm -rf "$1.folder"
    mkdir "$1.folder"
    "$program" convert "$1" "$1.folder" > "$work/converted"
  fi
  cp -r "$1.folder" "$2"
}

# Makes a base without messages.
put_empty() {
  rm -rf "$1"
  if [ $kind = folders ]; then mkdir "$1"; fi
}

# The base file of the messages of a base.
file_of() {
  if [ -d "$1" ]; then
    rm -f "$work/read.base"
    "$program" convert "$1" "$work/read.base" > "$work/converted" 2>&1
    echo "$work/read.base"
  else
    echo "$1"
  fi
}

# Whether a base has the messages of one of the base files.
base_is() {
  local file
  file=$(file_of "$1")
  shift
  is_one_of "$file" "$@"
}

# Whether there is no file with these names.
is_none() {
  local file
  for file in "$@"; do
    [ ! -e "$file" ] || return 1
  done
}

# Whether a run ended with this status and, in the file of its standard error, this beginning of the fault line.
ended_with_fault() {
  [ "$1" = "$2" ] && [ "$(wc -l < "$3")" = 1 ] && case $(cat "$3") in "$4"*) true ;; *) false ;; esac
}

# The last line with the counts, and the status.
finish() {
  if [ $kind = folders ]; then set -- "$1 on folders"; fi
  echo "$1: $passed passed, $failed failed"
  [ $failed = 0 ]
}
