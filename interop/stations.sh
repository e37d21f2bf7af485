# The three systems of `make interop`, which the other files source. Alpha (1:10/1) and Gamma (1:10/3) run echonet,
# Beta (1:10/2) runs CrashMail II. In the area MIDDLE Beta is between the two, in LEAF Alpha is. In ALL each is linked
# with each.

areas="MIDDLE LEAF ALL"
stations="one two three"
number_of() { case $1 in one) echo 1 ;; two) echo 2 ;; three) echo 3 ;; esac; }

# The system that passes mail on in an area, if one does.
hub_of() { case $1 in MIDDLE) echo 2 ;; LEAF) echo 1 ;; ALL) ;; esac; }

# The systems that a system is linked with. Arguments: area, number.
linked() {
  local hub other
  hub=$(hub_of "$1")
  for other in 1 2 3; do
    if [ "$other" = "$2" ]; then continue; fi
    if [ -z "$hub" ] || [ "$hub" = "$2" ] || [ "$hub" = "$other" ]; then echo "$other"; fi
  done
}

# The PATH of a received message. Arguments: area, the poster's number, the receiver's.
path_of() {
  case " $(linked "$1" "$2" | tr '\n' ' ')" in
    *" $3 "*) echo "10/$2" ;;
    *) echo "10/$2 10/$(hub_of "$1")" ;;
  esac
}

# Its SEEN-BY: each system of the PATH with its links.
seen_of() {
  local system
  for system in $(path_of "$1" "$2" "$3"); do
    echo "$system"
    linked "$1" "${system#10/}" | sed 's,^,10/,'
  done | sort -u | tr '\n' ' ' | sed 's/ $//'
}

# The link file of a station. Arguments: number, name.
links_text() {
  echo "SYSTEM 1:10/$1"
  echo "NAME $2"
  for area in $areas; do
    echo "AREA $area $(linked "$area" "$1" | sed 's,^,1:10/,' | tr '\n' ' ')"
  done
}

# The configuration of a station's binkd. Arguments: station, number, the hook.
binkd_text() {
  local other
  cat <<END
domain fidonet $1/outbound 1
address 1:10/$2@fidonet
sysname "$1"
location "This machine"
sysop "Sysop"
nodeinfo 115200,TCP,BINKP
listen 127.0.0.1:$((port + $2))
log $1/binkd.log
loglevel 4
rescan-delay 1
call-delay 1
limit-rate all 64k *.pkt
inbound $1/inbound
inbound-nonsecure $1/strangers
temp-inbound $1/partly
check-pkthdr all .bad
kill-dup-partial-files
kill-old-bsy 5
exec "$3" *.pkt
END
  for other in 1 2 3; do
    if [ "$other" != "$2" ]; then
      echo "node 1:10/$other@fidonet 127.0.0.1:$((port + other)) secret"
    fi
  done
}

# The configuration of CrashMail at Beta. Argument: the folder of all stations.
crashmail_text() {
  sed "s,FOLDER,$1/two,g" "$here/crashmail.prefs"
  printf 'NODE 1:10/%s "" ""\n' 1 3
  for area in $areas; do
    echo "AREA \"$area\" 1:10/2 MSG \"$1/two/msg/$(echo "$area" | tr A-Z a-z)\""
    echo "EXPORT $(linked "$area" 2 | sed 's,^,1:10/,' | tr '\n' ' ')"
  done
}
