# The comparisons of `make interop`.

. "$(dirname "${BASH_SOURCE[0]}")/../scripts/checks.sh"

# Each station has each posted message once, unchanged, and no other message.
same_everywhere() {
  local station line
  for station in $stations; do
    messages_of "$station" | cut -d '|' -f 1-8 > found.txt
    while IFS= read -r line; do
      same "$station has it once: $line" 1 "$(grep -cFx -- "$line" found.txt)"
    done < <(cat expected/*)
    same "$station has nothing else" "$(cat expected/* | wc -l)" "$(wc -l < found.txt)"
  done
}
