#!/usr/bin/env bash
# A fresh Debian root, as a new user has: the package of bin/release is installed there with what it needs, a net is
# judged, a station is made and used, and the package is removed. Nothing but the station is left. It needs root,
# debootstrap and a mirror. Argument: the mirror, by default that of Debian.
set -eu
cd "$(dirname "$0")/.."
mirror=${1:-http://deb.debian.org/debian}
package=$(ls "$PWD"/bin/release/*.deb)
root=$(mktemp -d)
trap 'rm -rf "$root"' EXIT
debootstrap --variant=minbase --include=python3-minimal,python3 bookworm "$root" "$mirror" > "$root.log" 2>&1 || { tail -5 "$root.log" >&2; exit 1; }
mv "$root.log" "$root/log"

inside() { chroot "$root" env -i PATH=/usr/sbin:/usr/bin:/sbin:/bin HOME=/home/fido LC_ALL=C.UTF-8 "$@"; }
files() { (cd "$root" && find . -xdev ! -type d ! -path './var/*' ! -path './proc/*' ! -path './dev/*' ! -path './tmp/*' ! -name '*.pyc' | sort); }
# Arguments: what is tried, the found text, the wanted text.
check() {
  if [ "$2" = "$3" ]; then passed=$((passed + 1)); else failed=$((failed + 1)); echo "$1: wanted '$3', found '$2'" >&2; fi
}

passed=0 failed=0
mkdir -p "$root/home/fido"
files > "$root/tmp/before"
cp "$package" "$root/tmp/echonet.deb"
inside dpkg --install /tmp/echonet.deb > "$root/tmp/installed" 2>&1 || { cat "$root/tmp/installed" >&2; exit 1; }
check version "$(inside echonet --version)" "echonet 0.1.0"
check "a net" "$(inside sh -c 'cd /usr/share/doc/echonet/examples/nets/loop && echonet check --all --more *.links'; echo $?)" \
  $'no TEST V8 Loop 1:10/1 1:10/2 1:10/3 1:10/4\nareas 1 yes 0 no 1\n1'
check "a station" "$(inside sh -c "cd /home/fido && echonet-station mine new 2:5020/9999 'My system' 2:5020/1 bbs.example.net secret42 RU.TEST" | head -1)" \
  "made /home/fido/mine: links, peers, base, binkd.conf"
check "a posting" "$(inside sh -c "cd /home/fido && echo 'Do you read me?' | echonet-station mine post RU.TEST All 'Your Name' Test" | cut -d ' ' -f 1-3)" \
  "posted RU.TEST 2:5020/9999"
check "a run" "$(inside sh -c 'cd /home/fido && echonet-station mine run' | cut -d ' ' -f 1-4)" "packet 2:5020/1 1 messages"
inside dpkg --purge echonet > "$root/tmp/removed" 2>&1
check "what is left" "$(files | comm -13 "$root/tmp/before" - | grep -v '^./home/fido/mine/' || true)" ""
check "the station" "$([ -d "$root/home/fido/mine/base" ] && echo there)" there
echo "fresh_root.sh: $passed passed, $failed failed"
[ "$failed" = 0 ]
