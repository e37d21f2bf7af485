# Messages posted at each station in each area, with the links' jobs running at the same time

long_name="A name of thirty-five bytes, no more"
long_name=${long_name:0:35}
long_subject=$(printf 'subject%.0s ' 1 2 3 4 5 6 7 8 9)
long_subject=${long_subject:0:71}

"$program" check MIDDLE {one,two,three}/links > verdict.txt
same "MIDDLE is in order" "yes MIDDLE 3 systems 2 links" "$(cat verdict.txt)"
"$program" check LEAF {one,two,three}/links > verdict.txt
same "LEAF is in order" "yes LEAF 3 systems 2 links" "$(cat verdict.txt)"
"$program" check ALL {one,two,three}/links > verdict.txt
same "ALL is in order" "yes ALL 3 systems 3 links" "$(cat verdict.txt)"

# The job of cron. The hooks of binkd run at the same time.
while sleep 0.3; do
  one/toss.sh
  three/toss.sh
done 2> /dev/null &
cron=$!

number=0
for area in $areas; do
  for station in one three; do
    number=$((number + 1))
    printf 'Hello from %s\n\nThe third line\n' $station | post_echonet $station $area All Ann "Hi" \
      "$(printf '%08x' $number)" "2026-07-03T12:34:$((10 + number))"
    scan $station &
    # Lines with tabs, bytes over 7F, a quotation, and one of 300 bytes.
    printf ' two\ttabs\t\n > quoted\n\351\201\377\n%300s\n' x | post_echonet $station $area "$long_name" \
      "$long_name" "$long_subject" "$(printf '%08X' $((number + 100)) | tr A-F a-f)" 2079-12-31T23:59:59
    scan $station
    wait $!
  done
  printf 'Hello from two\n\nThe third line\n' | post_crashmail $area All Bob Hi
  printf ' two\ttabs\t\n > quoted\n\351\201\377\n%300s\n' x | post_crashmail $area "$long_name" "$long_name" \
    "${long_subject:0:70}"
done
wait_for 18 60

# Twenty postings at once. `post` finds their times and serials.
postings=()
for number in $(seq 1 20); do
  echo "Body $number" | "$tool" three post MIDDLE All Cid "At once $number" > "posted/$number" &
  postings+=($!)
done
wait "${postings[@]}"
wait_for 38 60
kill $cron
wait $cron || true
cat posted/* | sed 's/^posted MIDDLE //' | sort > ids.txt
same "twenty ids" 20 "$(uniq ids.txt | wc -l)"
for number in $(seq 1 20); do
  line=$(messages_of three | awk -F '|' -v subject="At once $number" '$6 == subject')
  same "posting $number of twenty" "MIDDLE|$(sed 's/^posted MIDDLE //' "posted/$number")||Cid|All|At once $number" \
    "$(cut -d '|' -f 1-6 <<< "$line")"
  same "body $number of twenty" "Body $number\r--- echonet\r * Origin: Gamma (1:10/3)\r" \
    "$(cut -d '|' -f 8 <<< "$line")"
  cut -d '|' -f 1-8 <<< "$line" >> expected/three
done
same_everywhere
same "Beta took nothing for bad" "" "$(ls two/msg/bad)"
same "Alpha put nothing aside" "" "$(ls one/bad)"
same "Gamma put nothing aside" "" "$(ls three/bad)"
