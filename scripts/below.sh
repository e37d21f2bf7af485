#!/usr/bin/env bash
# Prints a crate and all crates below it. Each crate comes after those that it uses. Argument: the crate.
set -eu
cd "$(dirname "$0")/.."
awk -v wanted="$1" '
  /^[a-z_]*:/ { split($0, parts, ":"); uses[parts[1]] = parts[2] }
  function go(crate, list, n, i) {
    if (!(crate in uses) || crate in seen) return
    seen[crate] = 1
    n = split(uses[crate], list, " ")
    for (i = 1; i <= n; i++) go(list[i])
    print crate
  }
  END { go(wanted) }' crates.txt
