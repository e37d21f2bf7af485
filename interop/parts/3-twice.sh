# Packets that are received twice, by either tosser

# Sends a copy of a packet again. Arguments: the sending station, the receiving number, the packet, its new name.
send_again() {
  cp "$3" "$1/packets/$4"
  printf '^%s\n' "$work/$1/packets/$4" >> "$1/outbound/000a000$2.flo"
}

# The first kept packet of a station from a number. Arguments: station, number.
kept_from() {
  local packet
  for packet in "$1"/kept/*.pkt; do
    if [ "$(od -An -tu2 -N2 "$packet" | tr -d ' ')" = "$2" ]; then
      echo "$packet"
      return
    fi
  done
}

# How many known messages the log of a station reports.
known_at() {
  awk '/known/ { for (i = 1; i < NF; i++) if ($i == "known") n += $(i + 1) } END { print n + 0 }' "$1/toss.log"
}

to_beta=$(kept_from two 1)
to_gamma=$(kept_from three 2)
beta_messages=$(perl "$here/mail.pl" packet "$to_beta" | wc -l)
gamma_messages=$(perl "$here/mail.pl" packet "$to_gamma" | wc -l)
known=$(known_at three)
send_again one 2 "$to_beta" again001.pkt
send_again two 3 "$to_gamma" again002.pkt
until=$((SECONDS + 30))
while [ $SECONDS -lt $until ]; do
  if [ "$(ls two/msg/bad | wc -l)" -ge "$beta_messages" ] && [ "$(known_at three)" -gt "$known" ]; then break; fi
  sleep 0.5
done
same "Beta takes each message of Alpha's packet for a duplicate" "$beta_messages" "$(ls two/msg/bad | wc -l)"
same "Gamma knows each message of Beta's packet" $((known + gamma_messages)) "$(known_at three)"
same_everywhere
rm -f two/msg/bad/*
