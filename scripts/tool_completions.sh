#!/usr/bin/env bash
# tool_completions.sh TOOL bash|zsh|fish: prints completions of a tool of tools/. Its options are the words with
# two hyphens in the description at its beginning. Commands in backquotes have options of their own.
set -eu
name=$(basename "$1")
options=$(awk '/"""/ { marks++ } marks == 1' "$1" | sed 's/`[^`]*`//g' | grep -o -- '--[a-z][a-z-]*' | sort -u)
case $2 in
  bash) echo "complete -o default -W '$(echo $options)' $name" ;;
  zsh)
    printf '#compdef %s\n_arguments' "$name"
    for option in $options; do printf " '*%s'" "$option"; done
    printf " '*:file:_files'\n"
    ;;
  fish) for option in $options; do echo "complete -c $name -l ${option#--}"; done ;;
  *) echo "tool_completions.sh: no such shell: $2" >&2; exit 2 ;;
esac
