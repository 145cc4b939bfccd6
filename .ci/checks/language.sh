#!/usr/bin/env bash
# The examples of docs/language.md must answer as the page says: each whole script, and the statements with the reply
# below them, which together are one script more.
cd "$(dirname "${BASH_SOURCE[0]}")/../.." || exit 1
program=$(bash .ci/program) || exit 1
if [ -z "$program" ]; then
  echo "language: skipped, there is no program yet"
  exit 0
fi
work=$(mktemp -d) || exit 1
trap 'rm -rf "$work"' EXIT

# The page's blocks of code are its lines that are indented by four spaces.
awk -v work="$work" '
  function flush() {
    if (block == "") return
    if (last ~ /^@setup/) { printf "%s", last > (work "/" ++scripts ".sql"); printf "%s", block > (work "/" scripts ".out") }
    else if (block ~ /^[0-9]+\.[0-9]+ /) { statements = statements last; replies = replies block; split(block, id, " "); journal = journal " " id[1] ".1" }
    last = block; block = ""
  }
  /^    / { block = block substr($0, 5) "\n"; next }
  { flush() }
  END {
    flush()
    if (replies != "") {
      printf "@setup\n%s@end\n", statements > (work "/statements.sql")
      printf "mviewdb 2\n%sjournal%s\n", replies, journal > (work "/statements.out")
    }
  }
' docs/language.md

passed=0 failed=0
for script in "$work"/*.sql; do
  [ -e "$script" ] || continue
  if "$program" order <"$script" | diff -u "${script%.sql}.out" - && [ "${PIPESTATUS[0]}" -eq 0 ]; then
    passed=$((passed + 1))
  else
    echo "failed: an example of docs/language.md:"
    cat "$script"
    failed=$((failed + 1))
  fi
done
echo "language: $passed passed, $failed failed"
[ "$passed" -gt 0 ] && [ "$failed" -eq 0 ]
