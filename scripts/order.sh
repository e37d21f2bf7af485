#!/usr/bin/env bash
# Prints in what order to prove crates: a line for each of these crates and of the crates below them. Each line has
# the number of processes and the niceness of the crate. The crate with the longest chain of crates above it comes
# first, in seconds of scripts/seconds.txt. A crate that the file lacks counts by its lines. Arguments: crates.
set -eu
cd "$(dirname "$0")/.."
{
  for name in "$@"; do scripts/below.sh "$name"; done | sed 's/^/wanted /'
  sed -n 's/^\([a-z_0-9]*\)[^:]*:/uses \1/p' crates.txt
  sed 's/^/seconds /' scripts/seconds.txt
  find crates -name out -prune -o \( -name '*.rt' -o -name '*.antt' \) -print0 | xargs -0 wc -l | sed 's/^/lines /'
} | awk '
  $1 == "wanted" { wanted[$2] = 1 }
  $1 == "uses" { for (i = 3; i <= NF; i++) uses[$2, $i] = 1 }
  $1 == "seconds" { seconds[$2] = $3 }
  $1 == "lines" { split($3, path, "/"); lines[path[2]] += $2 }
  # The seconds of the longest chain from a crate upwards, and from it downwards. Both include its own.
  function above(crate, most, other) {
    if (crate in aboves) return aboves[crate]
    for (other in wanted)
      if ((other, crate) in uses && above(other) > most) most = above(other)
    return aboves[crate] = seconds[crate] + most
  }
  function below(crate, most, other) {
    if (crate in belows) return belows[crate]
    for (other in wanted)
      if ((crate, other) in uses && below(other) > most) most = below(other)
    return belows[crate] = seconds[crate] + most
  }
  # The seconds of the crates that are neither above nor below one, so that they may be proved beside it.
  function beside(crate, sum, other) {
    for (other in wanted)
      if (other != crate && !((crate, other) in under) && !((other, crate) in under)) sum += seconds[other]
    return sum
  }
  # Finds the crates below one.
  function look(top, crate, other) {
    for (other in wanted)
      if ((crate, other) in uses && !((top, other) in under)) { under[top, other]; number[top]++; look(top, other) }
  }
  END {
    for (crate in wanted) look(crate, crate)
    for (crate in seconds) { time += seconds[crate]; long += lines[crate] }
    for (crate in wanted)
      if (!(crate in seconds)) seconds[crate] = lines[crate] * (long ? time / long : 1)
    for (crate in wanted)
      if (above(crate) > longest) longest = above(crate)
    for (crate in wanted) {
      chain = above(crate) + below(crate) - seconds[crate]
      # Each process loads all crates below, and two take up to 1.6 times the seconds of one. So a crate gets a second
      # one only if the longest chain waits for it alone, and it has at most twelve crates below.
      is_alone = chain >= 0.95 * longest && beside(crate) < seconds[crate]
      processes = is_alone && number[crate] <= 12 ? 2 : 1
      print above(crate), crate, processes, int(18 * (1 - above(crate) / longest))
    }
  }' | sort -k 1,1nr -k 2,2 | cut -d ' ' -f 2-
