#!/usr/bin/env bash
# Each script in examples/ must print the text beside it, and end well.
cd "$(dirname "${BASH_SOURCE[0]}")/../.." || exit 1
program=$(bash .ci/program) || exit 1
if [ -z "$program" ]; then
  echo "examples: skipped, there is no program yet"
  exit 0
fi
passed=0 failed=0
for script in examples/*.sql; do
  [ -e "$script" ] || continue
  if "$program" order <"$script" | diff -u "${script%.sql}.out" - && [ "${PIPESTATUS[0]}" -eq 0 ]; then
    passed=$((passed + 1))
  else
    echo "failed: $script"
    failed=$((failed + 1))
  fi
done
echo "examples: $passed passed, $failed failed"
[ "$failed" -eq 0 ]
