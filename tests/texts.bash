# For the scripts of this folder: counts, and comparisons of what a program says. `what`, set by the script, is the word before its failures.
# shellcheck shell=bash disable=SC2154

passed=0
failed=0

# stop WHY: what cannot be tested is a failure
stop() {
  echo "$what: $1"
  echo "$passed passed, $((failed + 1)) failed"
  exit 1
}

pass() {
  passed=$((passed + 1))
}

fail() {
  echo "$what: $1"
  failed=$((failed + 1))
}

# show FILE: a text that may have any bytes, its beginning; where it is cut a line ends
show() {
  head -c 2000 "$1" | cat -v | sed -e 's/^/    | /' -e "\$a\\"
}

# same WHAT EXPECTED ACTUAL: two files, byte for byte
same() {
  if cmp -s "$2" "$3"; then
    pass
  else
    fail "$1: expected"
    show "$2"
    echo "  but it is"
    show "$3"
  fi
}

# is WHAT EXPECTED ACTUAL: two words
is() {
  if [ "$2" = "$3" ]; then pass; else fail "$1: expected '$2', but it is '$3'"; fi
}

# has WHAT TEXT FILE: the file has the text in it
has() {
  if grep -qF -e "$2" "$3"; then
    pass
  else
    fail "$1: expected to find '$2' in"
    show "$3"
  fi
}

# finish: the last line, and the exit status
finish() {
  echo "$passed passed, $failed failed"
  [ "$failed" -eq 0 ] && [ "$passed" -gt 0 ]
}
