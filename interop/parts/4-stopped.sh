# A daemon killed halfway through a packet: Beta's while it receives, and while it sends

# Waits for the beginning of a packet in the folder for parts, and prints its size. Argument: station.
part_of() {
  local until=$((SECONDS + 30)) part
  while [ $SECONDS -lt $until ]; do
    for part in "$1"/partly/*.dt; do
      if [ -s "$part" ]; then
        stat -c %s "$part"
        return
      fi
    done
    sleep 0.05
  done
  echo 0
}

# Enough for several seconds of the line.
for number in $(seq 1 150); do
  for line in $(seq 1 40); do
    echo "Line $line of message $number, which is as long as lines of messages are."
  done | post_echonet one MIDDLE All Ann "Long $number" "$(printf '%08x' $((number + 4096)))" 2026-07-04T00:00:00
done
scan one
size=$(stat -c %s one/packets/*.pkt | sort -n | tail -n 1)
got=$(part_of two)
stop_daemon two KILL
same "Beta was stopped within the packet" yes "$([ "$got" -gt 0 ] && [ "$got" -lt "$size" ] && echo yes)"
same "nothing of it lies in Beta's inbound" "" "$(ls two/inbound)"
start_daemon two
got=$(part_of three)
stop_daemon two KILL
same "Beta was stopped again, while it sent" yes "$([ "$got" -gt 0 ] && echo yes)"
start_daemon two
wait_for 188 120
same_everywhere
