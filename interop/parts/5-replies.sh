# A chain of replies from station to station

echo 'Who is there?' | post_echonet one MIDDLE All Ann 'Chain' 00000201 2026-07-05T00:00:00
scan one
wait_for 189 30
id="1:10/1 00000201"
# A reply of Beta. Its REPLY line is at the beginning of the text.
printf '\001REPLY: %s\nBeta is.\n' "$id" | post_crashmail MIDDLE Ann Bob 'Re: Chain'
wait_for 190 30
id=$(tail -n 1 expected/two | cut -d '|' -f 2)
same "Gamma sees to what Beta replied" "1:10/1 00000201" \
  "$(messages_of three | awk -F '|' -v id="$id" '$2 == id { print $3 }')"
echo 'Gamma too.' | post_echonet three MIDDLE Bob Cid 'Re: Chain' 00000202 2026-07-05T00:00:01 "$id"
scan three
wait_for 191 30
same "Beta sees to what Gamma replied" "$id" \
  "$(messages_of two | awk -F '|' '$2 == "1:10/3 00000202" { print $3 }')"
echo 'Good.' | post_echonet one MIDDLE Cid Ann 'Re: Chain' 00000203 2026-07-05T00:00:02 "1:10/3 00000202"
scan one
wait_for 192 30
same_everywhere
