#!/usr/bin/env bash
# programs.sh: installs the programs that trials and `make interop` run beside echonet, from the packages of Debian. It
# needs root. A package that the system does not offer is left out, with a line, and so are the trials that need it.
set -eu
cd "$(dirname "$0")/.."
export DEBIAN_FRONTEND=noninteractive
apt-get update -qq
offered=()
for package in binkd crashmail ifmail ifcico jamnntpd zip unzip arj lhasa p7zip-full; do
  if [ -n "$(apt-cache policy "$package" | sed -n 's/^  Candidate: [^(]//p')" ]; then
    offered+=("$package")
  else
    echo "programs.sh: left out, there is no package $package" >&2
  fi
done
apt-get -o DPkg::Lock::Timeout=600 install -qq --no-install-recommends "${offered[@]}" > /dev/null

# ifgate wants a mail server and a news server. Its programs run without these, so they are only unpacked. They run as
# the user who starts them: the user of the package cannot read the folders of a trial.
if [ -n "$(apt-cache policy ifgate | sed -n 's/^  Candidate: [^(]//p')" ]; then
  mkdir -p bin/programs
  (cd bin/programs && apt-get -q download ifgate 2> /dev/null > download.log && dpkg-deb -x ifgate_*.deb . && chmod -R u-s,g-s usr)
  apt-get -o DPkg::Lock::Timeout=600 install -qq --no-install-recommends libgdbm-compat4 > /dev/null
  offered+=(ifgate)
fi
echo "installed ${offered[*]}"
