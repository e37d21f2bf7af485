# Beta moves from CrashMail to echonet, with its messages, as docs/INTEROP.md says

stop_daemon two
mkdir -p moved/{base,inbound,packets,old}
move=$here/../tools
"$move/links-from" crashmail 1:10/2 two/prefs > moved/real
same "its link file" "$(sed '/^NAME/d; s/ $//' two/links)" "$(cat moved/real)"
# Beta's new base imports its messages under a link file. Its only link is the address of no system. So nothing is
# sent.
sed 's,^\(AREA [^ ]*\).*,\1 1:10/30000,' moved/real > moved/links
"$move/links-from" --bases crashmail 1:10/2 two/prefs | while read -r tag kind path; do
  "$move/$kind-to-packets" 1:10/30000 1:10/2 "$tag" "$path" 2> moved/told > "moved/old/$tag.pkt"
done
"$program" toss moved/links moved/base moved/old/*.pkt > moved/tossed.txt
same "a scan of it sends nothing" 0 "$("$program" scan --at 2026-07-07T00:00:00 moved/links moved/base moved/packets; echo $?)"
cp moved/real moved/links
messages_of two | cut -d '|' -f 1-8 | sort -u > crashmail.txt
messages_of moved | cut -d '|' -f 1-8 | sort > moved.txt
same "Beta has what it had" 0 "$(diff crashmail.txt moved.txt; echo $?)"

# Late copies are known, and new mail is passed on.
same "an old packet of Alpha" "filed 0 known $(perl "$here/mail.pl" packet "$to_beta" | wc -l)" \
  "$("$program" toss moved/links moved/base "$to_beta" | cut -d ' ' -f 1-4)"
echo 'New.' | post_echonet one MIDDLE All Ann 'After the move' 00000401 2026-07-07T00:00:00
"$program" scan --at 2026-07-07T00:00:00 one/links one/base moved/inbound > /dev/null
same "new mail of Alpha" "filed 1 known 0" \
  "$("$program" toss moved/links moved/base moved/inbound/1.10.2.*.pkt | cut -d ' ' -f 1-4)"
"$program" scan --at 2026-07-07T00:00:00 moved/links moved/base moved/packets > scanned.txt
same "goes to Gamma and to nobody else" "packet 1:10/3 1 messages" "$(cut -d ' ' -f 1-4 scanned.txt)"
same "who files it" "filed 1 known 0" \
  "$("$program" toss three/links three/base moved/packets/1.10.3.*.pkt | cut -d ' ' -f 1-4)"
same "unchanged" "$(grep '|1:10/1 00000401|' expected/one)" \
  "$(messages_of three | awk -F '|' '$2 == "1:10/1 00000401"' | cut -d '|' -f 1-8)"
