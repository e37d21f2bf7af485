#!/usr/bin/env bash
# release.sh: puts into bin/release what a release consists of: the Debian package, an archive of the same files below
# echonet-VERSION/, their sums (SHA256SUMS), and the commit. It needs bin/echonet, which is the proved program, and a
# work tree without changes. It is for x86-64, since the toolchain makes programs for that alone.
set -euo pipefail
cd "$(dirname "$0")/.."
version=$(bin/echonet --version | cut -d ' ' -f 2)
case $(bin/echonet --version) in *'not proved'*) echo "release: bin/echonet is not proved: run make" >&2; exit 1 ;; esac
if [ -n "$(git status --porcelain)" ]; then echo "release: the work tree has changes: commit them first" >&2; exit 1; fi
rm -rf bin/release
mkdir -p bin/release
package=$(scripts/package.sh | sed -n 1p)
mv "$package" bin/release
root=$(mktemp -d)
trap 'rm -rf "$root"' EXIT
name=echonet-$version
scripts/install.sh "$root/$name" ""
install -m 644 LICENSE packaging/copyright CHANGELOG.md "$root/$name"
moment=$(git log -1 --format=%ct)
tar -C "$root" --sort=name --owner=0 --group=0 --numeric-owner --mtime="@$moment" -cf - "$name" | gzip -9n > "bin/release/$name-x86_64.tar.gz"
git rev-parse HEAD > bin/release/COMMIT
(cd bin/release && sha256sum -- *.deb *.tar.gz COMMIT > SHA256SUMS)
ls bin/release
