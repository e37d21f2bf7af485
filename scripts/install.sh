#!/usr/bin/env bash
# install.sh ROOT PREFIX: installs below ROOT and PREFIX. It copies both programs, their manual pages and shell
# completions. It also copies the modules of echonet-station, the tools, the examples of packaging, and the documents
# with their nets. Three tools also get a name in bin. The unit gets the paths below PREFIX. uninstall.sh
# removes the same files.
set -eu
cd "$(dirname "$0")/.."
to=$1$2
program=bin/echonet
[ -x "$program" ] || { echo "echonet: $program is not there: run make first" >&2; exit 1; }

install -D -m 755 "$program" "$to/bin/echonet"
install -d "$to/share/man/man1"
install -m 644 docs/echonet.1 "$to/share/man/man1"
install -d "$to/share/echonet/echonet_station" "$to/share/echonet/fidonet" "$to/share/echonet/tools" "$to/share/doc/echonet/pictures" "$to/share/doc/echonet/examples"
install -m 755 station/echonet-station "$to/share/echonet"
install -m 644 station/echonet_station/*.py "$to/share/echonet/echonet_station"
install -m 644 station/fidonet/*.py "$to/share/echonet/fidonet"
ln -sfn ../share/echonet/echonet-station "$to/bin/echonet-station"
install -m 644 packaging/echonet.timer packaging/echonet.logrotate packaging/settings "$to/share/echonet"
install -m 755 tools/{jam-to-packets,msg-to-packets,links-from,links-seen,net-page} "$to/share/echonet/tools"
install -m 644 tools/*.{py,css,js} "$to/share/echonet/tools"
for tool in links-from links-seen net-page; do ln -sf "../share/echonet/tools/$tool" "$to/bin/$tool"; done
prefix=$(printf '%s' "$2" | sed 's/[&|\]/\\&/g')
sed "s|/usr/bin/|$prefix/bin/|g; s|/usr/share/|$prefix/share/|g" packaging/echonet.service \
  > "$to/share/echonet/echonet.service"
chmod 644 "$to/share/echonet/echonet.service"
install -m 644 README.md docs/*.md "$to/share/doc/echonet"
install -m 644 docs/pictures/loop.png "$to/share/doc/echonet/pictures"
cp -R examples/net examples/nets "$to/share/doc/echonet/examples"
ln -sfn ../../echonet "$to/share/doc/echonet/station"
chmod -R u=rwX,go=rX "$to/share/doc/echonet/examples"

# Arguments: the script that makes them, the program, the shell, the file that the shell reads.
completions() {
  install -d "$(dirname "$to/share/$4")"
  "scripts/$1" "$2" "$3" > "$to/share/$4"
  chmod 644 "$to/share/$4"
}

# Arguments: the script, the program.
all_completions() {
  local name
  name=$(basename "$2")
  completions "$1" "$2" bash "bash-completion/completions/$name"
  completions "$1" "$2" zsh "zsh/site-functions/_$name"
  completions "$1" "$2" fish "fish/vendor_completions.d/$name.fish"
}
all_completions completions.sh "$program"
for tool in links-from links-seen net-page; do all_completions tool_completions.sh "tools/$tool"; done
if command -v python3 > /dev/null; then
  scripts/manual_pages.py "$to/share/man/man1"
  all_completions completions.sh station/echonet-station
  # Compiled modules start sooner. A package compiles them where it is installed.
  if [ -z "$1" ]; then python3 -m compileall -q "$to/share/echonet/echonet_station" "$to/share/echonet/fidonet"; fi
fi
