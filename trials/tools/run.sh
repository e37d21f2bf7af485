#!/usr/bin/env bash
# run.sh MODULE: runs the tests of a module, and prints its output when it ends.
set -u
module=$(basename "$1")
cd "$(dirname "$0")"
printed=$(python3 -m unittest "$module" 2>&1)
status=$?
printf '%s: %s\n' "$module" "$printed"
exit $status
