# Counts comparisons. Other scripts source this file.

passed=0
failed=0

# Counts one comparison. Arguments: what is compared, the expected text, the found text.
same() {
  if [ "$2" = "$3" ]; then
    passed=$((passed + 1))
  else
    failed=$((failed + 1))
    printf 'FAILED %s\n  expected: %s\n  found:    %s\n' "$1" "$2" "$3"
  fi
}
