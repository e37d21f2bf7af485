#!/usr/bin/env bash
# The files of `make install` and `make deb`: installed, completed in a real bash, used and removed again. As root it
# also installs the package by dpkg under a fresh root, and runs the program there.
set -u
cd "$(dirname "$0")/.."
. trials/lib/setting.sh
root=$work

# Arguments: what is tried, the found text, the wanted text.
check() {
  if [ "$2" != "$3" ]; then echo "wanted '$3', found '$2'" >&2; fi
  expect "$1" test "$2" = "$3"
}

# The contents of a folder.
files() { (cd "$1" && find . ! -type d | sort); }

# Installed and removed.
make -s install DESTDIR="$root/one" PREFIX=/usr > /dev/null || exit 1
for file in bin/echonet bin/echonet-station share/man/man1/echonet.1 share/man/man1/echonet-station.1 \
  share/echonet/echonet-station share/echonet/echonet_station/{start,gate,unpacking}.py \
  share/bash-completion/completions/echonet-station share/zsh/site-functions/_echonet-station \
  share/fish/vendor_completions.d/echonet-station.fish share/echonet/fidonet/{packets,stored}.py \
  share/echonet/{echonet.service,echonet.timer,echonet.logrotate,settings} share/doc/echonet/{README,NODE,FORMATS}.md \
  share/bash-completion/completions/echonet share/zsh/site-functions/_echonet \
  share/fish/vendor_completions.d/echonet.fish share/echonet/tools/{forms.py,net-page.css,net-page.js} \
  {bin/,share/echonet/tools/,share/bash-completion/completions/,share/zsh/site-functions/_}{links-from,links-seen,net-page} \
  share/man/man1/{links-from,links-seen,net-page}.1 share/fish/vendor_completions.d/{links-from,links-seen,net-page}.fish; do
  check "$file is there" "$([ -s "$root/one/usr/$file" ] && echo yes)" yes
done
for folder in net nets; do
  check "examples/$folder" "$(diff -r "examples/$folder" "$root/one/usr/share/doc/echonet/examples/$folder" && echo same)" same
done
for tool in jam msg; do
  check "$tool-to-packets" "$("$root/one/usr/share/echonet/tools/$tool-to-packets" 2>&1; echo $?)" \
    "usage: $tool-to-packets FROM TO TAG PATH > PACKET"$'\n4'
done
for tool in links-from links-seen net-page; do
  check "$tool on the PATH" "$(PATH=$root/one/usr/bin:$PATH "$tool" 2>&1 | head -c ${#tool})" "$tool"
done
check 'options of links-seen' "$(bash -c '. "$1"; complete -p links-seen' - "$root/one/usr/share/bash-completion/completions/links-seen")" \
  "complete -o default -W '--least --own --since --zone' links-seen"
check 'the program' "$(cmp bin/echonet "$root/one/usr/bin/echonet" && echo same)" same

# The completions in a real bash: the commands of the help, and the options of each command's help.
complete() {
  bash -c '. "$1"; shift; COMP_WORDS=(echonet "$@"); COMP_CWORD=$#; _echonet; printf "%s\n" "${COMPREPLY[@]}"' \
    - "$root/one/usr/share/bash-completion/completions/echonet" "$@" | sort
}

# The completions in a real fish, if there is one.
in_fish() {
  HOME=$root fish -c 'source $argv[1]; complete -C "echonet $argv[2]"' \
    "$root/one/usr/share/fish/vendor_completions.d/echonet.fish" "$1" | cut -f 1 | sort
}
# The options of a help text.
options_of() { sed -n '/^Options:/,/^$/p' <<< "$1" | sed -nE 's/^ +(-., )?(--[a-z-]+).*/\2/p' | sort -u; }
help=$(bin/echonet --help) || exit 1
commands=$(sed -n '/^Commands:/,/^$/s/^  \([a-z]*\) .*/\1/p' <<< "$help")
check 'there are commands' "$([ "$(wc -w <<< "$commands")" -ge 12 ] && echo yes)" yes
check 'commands' "$(complete '')" "$(printf '%s\n' $commands --help --version | sort)"
check 'a command begun' "$(complete ch)" check
for command in $commands; do
  [ "$command" = help ] && continue
  help=$(bin/echonet "$command" --help) || exit 1
  wanted=$(options_of "$help")
  check "options of $command" "$(complete "$command" --)" "$wanted"
  if command -v fish > /dev/null; then check "options of $command in fish" "$(in_fish "$command --")" "$wanted"; fi
  for shell in zsh/site-functions/_echonet fish/vendor_completions.d/echonet.fish; do
    for option in $wanted; do
      check "$option of $command in $shell" "$(grep -E "(^    $command\)|_from $command')" "$root/one/usr/share/$shell" |
        grep -qE -- "(-l ${option#--} |'$option\[)" && echo there)" there
    done
  done
done
check 'a program that fails completes nothing' "$(scripts/completions.sh /bin/false bash 2>&1; echo $?)" 1

# The same of echonet-station, whose command is the first word, or the second one after the folder of a station.
station_complete() {
  bash -c '. "$1"; shift; COMP_WORDS=(echonet-station "$@"); COMP_CWORD=$#; _echonet_station; printf "%s\n" "${COMPREPLY[@]}"' \
    - "$root/one/usr/share/bash-completion/completions/echonet-station" "$@" | sort
}
tool=$root/one/usr/bin/echonet-station
commands=$("$tool" --help | sed -n '/^Commands:/,/^$/s/^  \([a-z]*\) .*/\1/p')
check 'there are words' "$([ "$(wc -w <<< "$commands")" -ge 13 ] && echo yes)" yes
check 'words' "$(station_complete one '')" "$(sort <<< "$commands")"
mkdir -p "$root/folders/one" "$root/folders/net"
check 'words in front' "$(cd "$root/folders/one" && station_complete '')" "$(printf '%s\n' $commands --help --version | sort)"
for command in $commands; do
  wanted=$(options_of "$("$tool" "$command" --help)")
  check "options of echonet-station $command" "$(station_complete one "$command" --)" "$wanted"
  check "options of $command in front" "$(station_complete "$command" --)" "$wanted"
done
check 'folders of stations' "$(cd "$root/folders" && station_complete o)" one
check 'a folder with the name of a command' "$(cd "$root/folders" && station_complete net status --)" "$(station_complete status --)"
check 'a command with the name of a folder' "$(cd "$root/folders" && station_complete net --)" --help
echo text > "$root/some file"
check 'files' "$(cd "$root" && complete show some)" 'some file'

check "no script is installed" "$(find "$root/one" -name "*.sh")" ""

# echonet-station finds its modules.
mkdir -p "$root/station"
printf 'SYSTEM 1:10/1\nNAME Alpha\nAREA TEST 1:10/2\n' > "$root/station/links"
posted=$(echo Hello | PATH=$root/one/usr/bin:$PATH "$root/one/usr/bin/echonet-station" "$root/station" post TEST All Ann Hi)
check 'a posting' "${posted% *}" 'posted TEST 1:10/1'
check 'a scan' "$(PATH=$root/one/usr/bin:$PATH "$root/one/usr/bin/echonet-station" "$root/station" scan | cut -d ' ' -f 1-3)" 'packet 1:10/2 1'
check 'a toss' "$(PATH=$root/one/usr/bin:$PATH "$root/one/usr/bin/echonet-station" "$root/station" toss; echo $?)" 0

# The sessions of the guide, from the installed examples.
if command -v binkd > /dev/null || [ -x /usr/sbin/binkd ]; then
  for guide in NODE HUB REFERENCE REPAIR; do
    scripts/follow.sh "docs/$guide.md" bin/echonet "$root/one/usr/share/doc/echonet" > "$root/followed"
    check "the guide $guide" "$? $(tail -1 "$root/followed" | cut -d , -f 2)" '0  0 did not'
  done
fi

make -s uninstall DESTDIR="$root/one" PREFIX=/usr > /dev/null || exit 1
check 'nothing is left' "$(files "$root/one")" ''

# The unit has the paths below PREFIX, and does what it says. It runs here for a station with the folders of Debian's
# binkd, which gets a cut packet and has a message that waits.
make -s install DESTDIR= PREFIX="$root/here" > /dev/null || exit 1
share=$root/here/share/echonet
check 'paths of the unit' "$(grep -o '[^ =]*/[a-z]*/echonet[^ ;]*' "$share/echonet.service" | sort -u)" \
  "$(printf '%s\n' "$root/here/bin/echonet" "$root/here/bin/echonet-station")"
mkdir -p "$root/ftn/inb" "$root/ftn/outb"
cp "$root/station/links" "$root/ftn"
sed "s|/var/spool/ftn|$root/ftn|" "$share/settings" > "$root/ftn/settings"
printf x > "$root/ftn/inb/cut.pkt"
echo Hello | ECHONET=bin/echonet "$root/here/bin/echonet-station" "$root/ftn" post TEST All Ann Hi > "$root/said"
command=$(sed -n 's/^ExecStart=//p' "$share/echonet.service" | sed "s|/var/spool/ftn|$root/ftn|g")
(PATH=/usr/bin:/bin; ECHONET=$(sed -n 's/^Environment=ECHONET=//p' "$share/echonet.service"); export PATH ECHONET; eval "$command") \
  > "$root/said" 2>&1
check 'the unit ends with the status of the toss' "$?" 1
check 'the scan has run' "$(cut -d ' ' -f 2,4,5 "$root/ftn/log" | xargs)" 'aside from - sent to 1:10/2'
check 'into the folders of binkd' "$(cut -c 1-6 "$root/ftn/outb/000a0002.flo"; ls "$root/ftn/inb")" "$(cut -c 1-6 <<< "^$root")"
for prefix in /usr/local '/srv/a&b'; do
  make -s install DESTDIR="$root/two" PREFIX="$prefix" > /dev/null || exit 1
  check "the unit below $prefix" "$(grep -c "=$prefix/bin/echonet\(-station /var/spool/ftn run\)\?$" \
    "$root/two$prefix/share/echonet/echonet.service")" 2
done
rm -rf "$root/two"
if command -v systemd-analyze > /dev/null; then
  said=$(systemd-analyze verify --man=no "$share/echonet.timer" 2>&1)
  check 'units' "$? $(grep echonet <<< "$said")" '0 '
fi
if command -v logrotate > /dev/null; then
  sed "s|/var/spool/ftn|$root/ftn|; s|su ftn ftn|su $(id -un) $(id -gn)|" "$share/echonet.logrotate" > "$root/rotate"
  check 'the log is rotated' "$(logrotate --force --state "$root/state" "$root/rotate" 2>&1; ls "$root/ftn" | grep '^log')" log.1
fi

if command -v dpkg-deb > /dev/null; then
  made=$(PATH=/usr/bin:/bin make -s deb) || exit 1
  package=$(head -n 1 <<< "$made")
  check 'the sum that make deb prints' "$(sed -n 's/^sha256 //p' <<< "$made")" "$(sha256sum "$package" | cut -d ' ' -f 1)"
  check 'the commit in the package' "$(dpkg-deb -f "$package" Commit)" "$(sed -n 's/^commit //p' <<< "$made")"
  command -v objdump > /dev/null && check 'the C library that it needs' "$(dpkg-deb -f "$package" Depends)" \
    "libc6 (>= $(objdump -T bin/echonet | grep -o 'GLIBC_[0-9.]*' | cut -d _ -f 2 | sort -V | tail -1))"
  make -s install DESTDIR="$root/two" PREFIX=/usr > /dev/null
  check 'the package has what is installed, and the copyright' \
    "$(dpkg-deb -c "$package" | awk '$1 !~ /^d/ { print $6 }' | sort)" \
    "$({ files "$root/two" | sed 's|/man1/.*|&.gz|'; echo ./usr/share/doc/echonet/copyright; } | sort)"
  if [ "$(id -u)" -eq 0 ]; then
    fresh=$root/fresh
    mkdir -p "$fresh"/var/lib/dpkg/{info,updates,triggers} "$fresh/tmp"
    touch "$fresh/var/lib/dpkg/status"
    # The scripts of the package need a shell and rm.
    for file in /bin/sh /bin/rm $(ldd bin/echonet /bin/sh /bin/rm | grep -o '/[^ :]*\.so[^ ]*' | sort -u); do
      mkdir -p "$fresh$(dirname "$file")"
      cp -L "$file" "$fresh$file"
    done
    dpkg --root="$fresh" --force-depends --install "$package" > "$root/dpkg.log" 2>&1
    check 'dpkg installs it' "$?" 0
    check 'its version under the fresh root' "$(chroot "$fresh" /usr/bin/echonet --version)" "$(bin/echonet --version)"
    cp "$root/station/links" "$fresh/tmp/links"
    check 'a posting under the fresh root' "$(echo Hello | chroot "$fresh" /usr/bin/echonet post --area TEST --to All --from Ann \
      --subject Hi --serial 00000001 --at 2026-07-03T12:34:56 /tmp/links /tmp/base)" 'posted TEST 1:10/1 00000001'
    dpkg --root="$fresh" --purge echonet >> "$root/dpkg.log" 2>&1
    check 'dpkg takes it away' "$?" 0
    check 'and nothing is left of it' "$(find "$fresh/usr" -name '*echonet*' 2> /dev/null)" ''
  fi
fi
finish package
