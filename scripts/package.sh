#!/usr/bin/env bash
# package.sh: makes a Debian package of the files that `make install` installs, in bin/. It prints its path, its sum and
# the commit. It needs bin/echonet and what Debian always has: no compiler, and not the toolchain.
set -euo pipefail
cd "$(dirname "$0")/.."
version=$(bin/echonet --version | cut -d ' ' -f 2)
architecture=$(dpkg --print-architecture)
# The newest version of the C library that the program needs. The program has the names of these versions.
libc=$(grep -a -o 'GLIBC_[0-9.]*[0-9]' bin/echonet | cut -d _ -f 2 | sort -V | tail -1)
commit=$(git rev-parse HEAD 2> /dev/null || echo unknown)
if [ -n "$(git status --porcelain --untracked-files=no 2> /dev/null)" ]; then commit=$commit-changed; fi
root=$(mktemp -d)
trap 'rm -rf "$root"' EXIT
chmod 755 "$root"
scripts/install.sh "$root" /usr
gzip -9n "$root"/usr/share/man/man1/*.1
install -m 644 packaging/copyright "$root/usr/share/doc/echonet"
mkdir "$root/DEBIAN"
install -m 755 packaging/postinst packaging/prerm "$root/DEBIAN"
sed "s/VERSION/$version/; s/ARCHITECTURE/$architecture/; s/LIBC/$libc/; s/COMMIT/$commit/" packaging/control > "$root/DEBIAN/control"
package=bin/echonet_${version}_$architecture.deb
dpkg-deb --build --root-owner-group "$root" "$package" > /dev/null
echo "$package"
echo "sha256 $(sha256sum "$package" | cut -d ' ' -f 1)"
echo "commit $commit"
