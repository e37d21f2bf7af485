#!/usr/bin/env bash
# Proves one crate and prints the result in one line. The output of the prover goes to bin/NAME.log. The clock and
# processor seconds of a whole proof go to bin/times/NAME. Arguments: the crate, and `lib`, or `run` and the arguments
# of a program, which is then built and run. bin/order lists the crates to prove, with their processes and niceness.
#
# Two runs of `rt` wait for each other if both need the same crate. So each crate is proved in a tree of its own.
#
# The first proof of a crate starts from nothing, and keeps nothing but the library. This has what other crates can cite
# and no checked proofs, so the crates above it load less. From the second proof on, the proofs are kept in
# crates/NAME/out/incremental, and only what changed is proved.
set -u
cd "$(dirname "$0")/.." || exit 3
top=$PWD
name=$1 kind=${2:-lib}
log=$top/bin/$name.log
tree=$top/bin/trees/$name
mkdir -p bin/proved bin/times

# Puts the kept proofs back, however this script ends.
put_back() {
  if [ -d "$tree/crates/$name/out" ]; then mv -T "$tree/crates/$name/out" "crates/$name/out"; fi
  rm -rf "$tree"
}

# Keeps other runs of this script out of the crate.
exec 8< "crates/$name"
flock 8
put_back
trap put_back EXIT
trap 'exit 3' HUP INT TERM

# A library without checked proofs fits only the libraries that it was built over.
for lower in $(scripts/below.sh "$name"); do
  if [ "crates/$lower/out/rlib/stamp" -nt "crates/$name/out/rlib/stamp" ]; then rm -rf "crates/$name/out/rlib"; fi
done

scripts/tree.sh "$tree" "$name"
whole=yes
if [ -d "crates/$name/out/incremental" ]; then whole=no; fi
words=()
if [ $whole = yes ] && [ ! -e "bin/proved/$name" ]; then words=(--from-nothing); fi
if [ -d "crates/$name/out" ]; then mv -T "crates/$name/out" "$tree/crates/$name/out"; fi

read -r jobs spare < <(awk -v name="$name" '$1 == name { print $2, $3 }' bin/order)
renice -n "$spare" $$ > /dev/null 2>&1
[ "$jobs" -le "$(nproc)" ] || jobs=$(nproc)

begun=$SECONDS
if [ "$kind" = run ]; then
  (cd "$tree/crates/$name" && "$top/scripts/rt.py" "${words[@]}" run --jobs "$jobs" -- "${@:3}") > "$log" 2>&1
else
  (cd "$tree/crates/$name" && "$top/scripts/rt.py" "${words[@]}" lib --jobs "$jobs") > "$log" 2>&1
fi
status=$?
if [ $status -ne 0 ]; then
  echo "$name: not proved; all that was printed is in $log" >&2
  grep -E 'error|^fn .*: (not|failed)|^rt: ' "$log" | head -20 >&2
  exit 1
fi
# The second line of `times` has the user and system time of the processes that this one started.
if [ $whole = yes ]; then
  times > "$tree/times"
  awk -v name="$name" -v clock=$((SECONDS - begun)) 'NR == 2 {
    for (i = 1; i <= 2; i++) { split($i, time, /[ms]/); spent += 60 * time[1] + time[2] }
    printf "%s %d %.1f\n", name, clock, spent
  }' "$tree/times" > "bin/times/$name"
fi
touch "bin/proved/$name"
proved=$(awk '{ print "bin/proved/" $1 }' bin/order | xargs ls 2> /dev/null | wc -l)
minutes=$((($(date +%s) - $(stat -c %Y bin/order)) / 60))
echo "$name: proved, $proved of $(wc -l < bin/order), $minutes min"
