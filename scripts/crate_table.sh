#!/usr/bin/env bash
# Prints the diagram of crates for docs/ARCHITECTURE.md. It fails if crates.txt has a crate that the diagram lacks, or
# one that uses a crate of a group above. With the argument `all` it prints a table of crates instead, with the first
# sentence of each.
set -eu
cd "$(dirname "$0")/.."

# A line for each row: the group, the crates, and their purpose. A row without a group belongs to the group of the row
# before.
rows='
tests      | test_trials library_tour | trials; the library in one program
           | test_tossers test_formats | worked examples of the library
program    | echonet cmd_words | picks the command; the command line
           | cmd_station cmd_net cmd_export cmd_notes | the commands on the files of the system
           | cmd_jam cmd_door cmd_packets cmd_base cmd_input | JAM bases; packets; bases; files, locks, clock, progress
laws       | law_session | a session of two stations on an honest disk
           | law_stations | nets of stations, crashes, sequences on disks
stations   | station_scan | a scan with its packets
           | station_bases | two kinds of base
           | station | lock, open, run one command
commands   | cmd_store | those that change a base, on any store
           | cmd_check cmd_why | those that judge a net, or try one out
           | cmd_suppose | nets with systems that sent no file, or without some
           | cmd_show cmd_numbered cmd_repair | those that print, export or repair
           | cmd_print echo_export | lines, forms
verdicts   | echo_verdict echo_net model_plan | check, replay and plans of runs, as functions
tosser     | echo_toss | a tosser with its base in memory
           | echo_steps | the steps of one system, on any store
model      | model_run | runs of systems, tidy areas, any tossers, harm, the headline
           | model_graph | cycles and walks
stores     | base_folder base_folder_store | a base folder
           | base_store | the trait, a base in memory, keys
disks      | disk_atomic base_log | whole files; the log of a base folder
           | disk_system disk_memory | the files of the system; a disk in memory, which is honest
steps      | model_steps cmd_status | the steps as definitions; faults and statuses
formats    | base_file echo_filed echo_packet echo_text echo_links echo_nodelist |
           | echo_jam echo_stored echo_mail echo_charset echo_addr disk_io |'

if [ "${1-}" = all ]; then
  echo '| Crate | First sentence |'
  echo '|---|---|'
  for name in $(sed -n 's/^\([a-z_]*\):.*/\1/p' crates.txt); do
    page=crates/$name/src/lib.rt
    [ -f "$page" ] || page=crates/$name/src/main.rt
    printf '| %s | %s |\n' "$name" "$(awk '!/^\/\/!/ || /^\/\/! *$/ { exit } { sub(/^\/\/! */, ""); printf "%s%s", gap, $0; gap = " " }' "$page" | sed -E 's/([^.][.])( .*)?$/\1/; s/^([^.]*[.]) .*/\1/')"
  done
  exit
fi
echo '```'
awk -F ' *[|] *' '
  function fault(line) { print line > "/dev/stderr"; bad = 1 }
  NR == FNR {
    if ($0 == "") next
    if ($1 != "") { group++; name = $1 } else name = ""
    count = split($2, own, " ")
    for (i = 1; i <= count; i++) height[own[i]] = group
    line = sprintf("%-9s %s", name, $2)
    print ($3 == "" ? line : line ": " $3)
    next
  }
  /^[a-z_]+:/ {
    split($0, parts, ":")
    if (!(parts[1] in height)) fault("in no group: " parts[1])
    count = split(parts[2], lower, " ")
    seen[parts[1]] = 1
    for (i = 1; i <= count; i++)
      if (lower[i] in height && height[lower[i]] < height[parts[1]]) fault(parts[1] " uses " lower[i] " of a group above it")
  }
  END { for (name in height) if (!(name in seen)) fault("no crate: " name); exit bad }
' <(printf '%s\n' "$rows") crates.txt
echo '```'
