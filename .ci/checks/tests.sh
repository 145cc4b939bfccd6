#!/usr/bin/env bash
# Each test in tests/ must pass: what the program prints for a script, and how it ends.
cd "$(dirname "${BASH_SOURCE[0]}")/../.." || exit 1
program=$(bash .ci/program) || exit 1
if [ -z "$program" ]; then
  echo "tests: skipped, there is no program yet"
  exit 0
fi
python3 tests/run.py --program "$program"
