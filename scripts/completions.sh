#!/usr/bin/env bash
# completions.sh PROGRAM bash|zsh|fish: prints completions of `echonet` or `echonet-station` for a shell, made from the
# program's own help. The command is the first word. For `echonet-station` it may be the second one, after the folder of a
# station.
set -eu
program=$1 shell=$2
called=$(basename "$program")
case $called in *-station) place=2 ;; *) place=1 called=echonet ;; esac
function=_${called//-/_}
helps=$(mktemp -d)
trap 'rm -rf "$helps"' EXIT

# The commands, each with its description: NAME|TEXT.
commands() {
  awk '/^Commands:/ { on = 1; next } /^$/ { on = 0 } on { name = $1; sub(/^ *[^ ]+ +/, ""); print name "|" $0 }' "$helps/help"
}

# The options of a command: --NAME|VALUE|TEXT, where VALUE is empty for a flag.
options() {
  awk '
    /^Options:/ { on = 1; next }
    /^$/ { on = 0 }
    on && match($0, /--[a-z-]+/) {
      name = substr($0, RSTART, RLENGTH)
      rest = substr($0, RSTART + RLENGTH)
      value = ""
      if (match(rest, /^ <[A-Za-z0-9]+>/)) {
        value = substr(rest, 3, RLENGTH - 3)
        rest = substr(rest, RLENGTH + 1)
      }
      sub(/^ +/, "", rest)
      print name "|" value "|" rest
    }' "$helps/$1"
}

# Every command with its options, a line each: NAME and then the options.
table() {
  commands | while IFS='|' read -r name _; do
    [ "$name" = help ] || echo "$name $(options "$name" | cut -d'|' -f1 | tr '\n' ' ')"
  done
}

# Where the command of a station's line is: behind the folder of a station, or in front. A folder may have the name of a
# command, if a command follows.
place_in_bash() {
  cat <<'END'
  local place=2
  if [[ " $commands " = *" ${COMP_WORDS[1]} "* && ! ( -d ${COMP_WORDS[1]} && " $commands " = *" ${COMP_WORDS[2]:--} "* ) ]]; then
    place=1
  fi
  if [ "$COMP_CWORD" -eq 1 ]; then
    compopt -o filenames 2> /dev/null
    mapfile -t COMPREPLY < <(compgen -d -- "$word"; compgen -W "$commands --help --version" -- "$word")
    return
  fi
END
}

in_bash() {
  echo "# Completions of $called for bash."
  echo "$function() {"
  echo "  local word=\${COMP_WORDS[COMP_CWORD]} options commands='$(commands | cut -d'|' -f1 | xargs)'"
  if [ $place -eq 2 ]; then place_in_bash; else echo '  local place=1'; fi
  echo '  if [ "$COMP_CWORD" -eq $place ]; then'
  echo "    mapfile -t COMPREPLY < <(compgen -W \"\$commands$([ $place -eq 2 ] || echo ' --help --version')\" -- \"\$word\")"
  printf '    return\n  fi\n  case ${COMP_WORDS[$place]} in\n'
  table | while read -r name options; do echo "    $name) options='${options% }' ;;"; done
  cat <<'END'
    *) options= ;;
  esac
  case $word in
    -*) mapfile -t COMPREPLY < <(compgen -W "$options" -- "$word") ;;
    *) compopt -o filenames 2> /dev/null; mapfile -t COMPREPLY < <(compgen -f -- "$word") ;;
  esac
}
END
  echo "complete -F $function $called"
}

# A text for single quotes. Brackets and colons are escaped.
zsh_text() {
  sed "s/'/'\\\\''/g; s/[]:[]/\\\\&/g"
}

# The same as place_in_bash. Words are counted from 1, and the first is that of the program.
place_in_zsh() {
  cat <<'END'
  local -a names=(${commands%%:*})
  local place=3
  if (( $names[(Ie)$words[2]] )) && ! [[ -d $words[2] && $names[(Ie)$words[3]] -gt 0 ]]; then place=2; fi
  if (( CURRENT == 2 )); then
    _describe command commands
    _files -/
    return
  fi
END
}

in_zsh() {
  printf '#compdef %s\n# Completions of %s for zsh.\n%s() {\n  local -a commands\n  commands=(\n' "$called" "$called" "$function"
  commands | zsh_commands
  printf '  )\n'
  if [ $place -eq 2 ]; then place_in_zsh; else echo '  local place=2'; fi
  printf '  if (( CURRENT == place )); then\n    _describe command commands\n    return\n  fi\n'
  printf '  case $words[place] in\n'
  commands | while IFS='|' read -r name _; do
    [ "$name" = help ] && continue
    printf '    %s) _arguments' "$name"
    options "$name" | while IFS='|' read -r option value text; do
      text=$(zsh_text <<< "$text")
      if [ -n "$value" ]; then printf " '%s[%s]:%s:_files'" "$option" "$text" "$value"; else printf " '%s[%s]'" "$option" "$text"; fi
    done
    printf " '*:file:_files' ;;\n"
  done
  printf '  esac\n}\n%s "$@"\n' "$function"
}

zsh_commands() {
  while IFS='|' read -r name text; do
    printf "    '%s:%s'\n" "$name" "$(zsh_text <<< "$text")"
  done
}

in_fish() {
  echo "# Completions of $called for fish."
  begun=__fish_use_subcommand
  if [ $place -eq 2 ]; then
    names=$(commands | cut -d'|' -f1 | xargs)
    begun="'test (count (commandline -opc)) -le 2; and not __fish_seen_subcommand_from $names'"
    echo "complete -c $called -n 'test (count (commandline -opc)) -eq 1' -f -a '(__fish_complete_directories)'"
  fi
  commands | while IFS='|' read -r name text; do
    printf "complete -c $called -n %s -f -a %s -d '%s'\n" "$begun" "$name" "${text//\'/\\\'}"
  done
  commands | while IFS='|' read -r name _; do
    [ "$name" = help ] && continue
    options "$name" | while IFS='|' read -r option value text; do
      printf "complete -c $called -n '__fish_seen_subcommand_from %s' -l %s%s -d '%s'\n" \
        "$name" "${option#--}" "${value:+ -r}" "${text//\'/\\\'}"
    done
  done
}

case $shell in
  bash | zsh | fish) ;;
  *) echo "completions.sh: no such shell: $shell" >&2; exit 2 ;;
esac
# The help of all commands is read first: where the program fails, this script ends before it prints anything.
"$program" --help > "$helps/help"
names=$(commands | cut -d'|' -f1)
for name in $names; do
  [ "$name" = help ] || "$program" "$name" --help > "$helps/$name"
done
"in_$shell"
