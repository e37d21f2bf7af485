#!/usr/bin/env bash
# uninstall.sh ROOT PREFIX: removes what install.sh installed below ROOT and PREFIX, and nothing else.
set -eu
from=$1$2
for name in echonet echonet-station links-from links-seen net-page; do
  rm -f "$from/bin/$name" "$from/share/man/man1/$name.1" "$from/share/bash-completion/completions/$name" \
    "$from/share/zsh/site-functions/_$name" "$from/share/fish/vendor_completions.d/$name.fish"
done
rm -rf "$from/share/echonet" "$from/share/doc/echonet"
