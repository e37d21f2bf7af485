# SEEN-BY and PATH of the received messages, as the path of each asks

# Arguments: the receiver, the command that prints the received messages.
check_ways() {
  local receiver=$1 line area id poster
  while IFS= read -r line; do
    area=${line%%|*}
    id=${line#*|}
    id=${id%%|*}
    poster=${id#1:10/}
    poster=${poster:0:1}
    if [ "$poster" = "$(number_of "$receiver")" ]; then continue; fi
    same "$area $id at $receiver: SEEN-BY" "$(seen_of "$area" "$poster" "$(number_of "$receiver")")" \
      "$(cut -d '|' -f 9 <<< "$line")"
    same "$area $id at $receiver: PATH" "$(path_of "$area" "$poster" "$(number_of "$receiver")")" \
      "$(cut -d '|' -f 10 <<< "$line")"
  done
}

messages_of one > ways.txt
check_ways one < ways.txt
perl "$here/mail.pl" packet two/kept/*.pkt > ways.txt
check_ways two < ways.txt
messages_of three > ways.txt
check_ways three < ways.txt
