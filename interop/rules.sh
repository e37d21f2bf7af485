#!/usr/bin/env bash
# Tests whether CrashMail II keeps the rules of docs/INTEROP.md, and prints which rules it keeps. Arguments: the
# trials to run, by default all, and -v to print what was broken. The program is bin/echonet, or the one that ECHONET
# names. It needs crashmail and Python 3. Without a C compiler the trial half-a-year is left out.
set -euo pipefail
here=$(cd "$(dirname "$0")" && pwd)
export ECHONET=${ECHONET:-$here/../bin/echonet}
for command in crashmail crashwrite python3 "$ECHONET"; do
  if ! command -v "$command" > /dev/null; then
    echo "rules: there is no $command here" >&2
    exit 1
  fi
done
if ! command -v cc > /dev/null; then echo "rules: there is no C compiler here, so half-a-year is left out"; fi
PYTHONPATH=$here/../trials exec python3 -B "$here/rules/run.py" "$@"
