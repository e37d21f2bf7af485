#!/usr/bin/env bash
# Runs all trials of the built program, and prints the last line of each at the end. First trials of one core each run
# at the same time. Then each trial that uses all cores runs alone. At last the trials that measure run, on at most
# half of the cores and one. The output of a trial is printed when it ends. Arguments: how many small hostile inputs,
# the size of the grown ones; by default those of docs/TRIALS.md.
set -u
cd "$(dirname "$0")/.."
inputs=${1:-100000}
size=${2:-64000000}
cores=$(nproc)
told=$(mktemp -d)
trap 'rm -rf "$told"' EXIT

# Runs a trial, prints its output, keeps its last line, and notes whether it failed.
each() {
  local begin=$SECONDS said
  said=$(mktemp "$told/XXXXXX")
  "$@" > "$said" 2>&1 || touch "$told/failed"
  {
    flock 9
    echo "== $*"
    cat "$said"
    echo "$(tail -1 "$said") ($((SECONDS - begin)) s)" >> "$told/last"
  } 9> "$told/lock"
}

for name in kept package keys kills crowds beside mailer daily debian full_disk devices pieces refusals valgrind; do each trials/$name.sh & done
for name in kills crowds beside full_disk devices pieces refusals; do each trials/$name.sh folders & done
for name in folders folder_kills folder_damage snapshots; do each python3 trials/$name.py & done
for name in power_cuts unlucky odd_folders; do each python3 trials/$name.py & done
each python3 trials/why.py &
each python3 trials/assumed.py &
each python3 trials/small_nets.py &
each python3 trials/every_fault.py &
each python3 trials/cures.py &
each python3 trials/export.py &
each python3 trials/stored.py &
each python3 trials/jam.py &
each python3 trials/jam_beside.py &
each python3 trials/jamnntpd.py &
each python3 trials/readers.py &
each python3 trials/moving.py &
each python3 trials/links_seen.py &
each python3 trials/tools/wrong_bodies.py &
each python3 trials/answers.py &
each python3 trials/terminal.py &
each python3 trials/dressed.py &
each python3 trials/station_full.py &
each python3 trials/station_kills.py &
each python3 trials/station_repairs.py &
each python3 trials/realnet.py &
each python3 trials/hub_day.py &
wait
each python3 trials/mixed.py
each python3 trials/stations.py 300 "$cores"
each python3 trials/repairs.py 200 "$cores"
each python3 trials/hostile.py "$inputs" "$cores"
each python3 trials/nets.py &
each python3 trials/tools/limits.py &
each python3 trials/grown.py "$size" $(((cores + 1) / 2)) &
wait
echo "== in all, $SECONDS s"
cat "$told/last"
[ ! -e "$told/failed" ]
