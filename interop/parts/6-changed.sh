# What the other tosser changes, as docs/INTEROP.md says

# The body lines of a message. Arguments: station, subject.
body_at() { messages_of "$1" | awk -F '|' -v subject="$2" '$6 == subject { print $8 }'; }

# SEEN-BY lines of a body. The area LEAF goes from Alpha to both others. MIDDLE goes by Beta to Gamma.
printf 'before\nSEEN-BY: 10/9\n> SEEN-BY: 10/8\nafter\n' |
  post_echonet one MIDDLE All Ann Quoted 00000301 2026-07-06T00:00:00
printf 'before\nSEEN-BY: 10/3\nafter\n' | post_echonet one MIDDLE All Ann Unsent 00000302 2026-07-06T00:00:01
printf 'before\nSEEN-BY: 10/3\nafter\n' | post_echonet one LEAF All Ann Kept 00000303 2026-07-06T00:00:02
scan one
until=$((SECONDS + 30))
while [ $SECONDS -lt $until ]; do
  if [ -n "$(body_at three Quoted)" ] && [ -n "$(body_at three Kept)" ]; then break; fi
  sleep 0.5
done
sleep 3
ending='--- echonet\r * Origin: Alpha (1:10/1)\r'
same "Beta takes a SEEN-BY line out of the body" 'before\r> SEEN-BY: 10/8\rafter\r'"$ending" "$(body_at two Quoted)"
same "so Gamma gets it without" 'before\r> SEEN-BY: 10/8\rafter\r'"$ending" "$(body_at three Quoted)"
same "and what it names counts as seen" "10/1 10/2 10/3 10/9" \
  "$(messages_of three | awk -F '|' '$6 == "Quoted" { print $9 }')"
same "what it names is not sent the message" "" "$(body_at three Unsent)"
same "between two of echonet the line stays" 'before\rSEEN-BY: 10/3\rafter\r'"$ending" "$(body_at three Kept)"

# Two ids that differ after their first 79 bytes.
long=$(printf 'a%.0s' $(seq 1 90))
bad=$(ls two/msg/bad | wc -l)
for number in 1 2; do
  for to in 2 3; do
    perl "$here/mail.pl" make 1 $to AREA:ALL "^AMSGID: $long$number 00000001" "Body $number" '--- x' \
      ' * Origin: x (1:10/1)' 'SEEN-BY: 10/1 2 3' '^APATH: 10/1' > "one/packets/0000000$number.$to"
    mv "one/packets/0000000$number.$to" "one/packets/00000${to}0$number.pkt"
    printf '^%s\n' "$work/one/packets/00000${to}0$number.pkt" >> "one/outbound/000a000$to.flo"
  done
done
until=$((SECONDS + 30))
while [ $SECONDS -lt $until ]; do
  if [ "$(ls two/msg/bad | wc -l)" -gt "$bad" ] && [ "$(body_at three Made | wc -l)" = 2 ]; then break; fi
  sleep 0.5
done
same "Beta takes the second for a duplicate" 1 "$(body_at two Made | wc -l)"
same "and puts it into its area for bad mail" $((bad + 1)) "$(ls two/msg/bad | wc -l)"
same "Gamma files both" 2 "$(body_at three Made | wc -l)"

# A message without an id.
echo 'No id.' | post_crashmail MIDDLE All Bob Nameless NOMSGID
until=$((SECONDS + 30))
while [ $SECONDS -lt $until ] && [ "$(body_at one Nameless)$(body_at three Nameless)" = "" ]; do sleep 0.5; done
sleep 3
same "a message without an id comes to Alpha once" 1 "$(body_at one Nameless | wc -l)"
same "and to Gamma once" 1 "$(body_at three Nameless | wc -l)"

# A message without an id that is received twice.
known=$(known_at three)
for name in 0000000a 0000000b; do
  perl "$here/mail.pl" make 1 2 AREA:MIDDLE 'No id either' '--- x' ' * Origin: x (1:10/1)' 'SEEN-BY: 10/1 2' \
    '^APATH: 10/1' > "one/packets/$name.pkt"
  printf '^%s\n' "$work/one/packets/$name.pkt" >> one/outbound/000a0002.flo
done
until=$((SECONDS + 30))
while [ $SECONDS -lt $until ] && [ "$(known_at three)" = "$known" ]; do sleep 0.5; done
same "Beta takes it twice" 2 "$(body_at two Made | grep -c 'No id either')"
same "Gamma files it once" 1 "$(body_at three Made | grep -c 'No id either')"
same "and is sent it twice" $((known + 1)) "$(known_at three)"

# A packet of Alpha's session that names 1:10/2 as its sender.
perl "$here/mail.pl" make 2 3 AREA:ALL '^AMSGID: 1:10/2 00000999' 'In the name of Beta' '--- x' \
  ' * Origin: x (1:10/2)' 'SEEN-BY: 10/1 2 3' '^APATH: 10/2' > one/packets/0000000c.pkt
printf '^%s\n' "$work/one/packets/0000000c.pkt" >> one/outbound/000a0003.flo
until=$((SECONDS + 30))
while [ $SECONDS -lt $until ] && [ -e one/packets/0000000c.pkt ]; do sleep 0.5; done
sleep 3
same "binkd gives it another ending" 0000000c.bad "$(ls three/inbound)"
same "so it is not tossed" 0 "$(messages_of three | grep -c 'In the name of Beta' || true)"
