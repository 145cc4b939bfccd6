#!/usr/bin/env bash
# The worked rows, where they lie beside the repository: each script must answer as its row says.
stage=4 # the rows that can be run by now,
dates=17 # and of those of dates, which are built ahead, the ones without partitions and without `check`
cd "$(dirname "${BASH_SOURCE[0]}")/../.." || exit 1
rows=../shared/rows/run_rows.py
if [ ! -e "$rows" ]; then
  echo "rows: skipped, $rows isn't there"
  exit 0
fi
program=$(bash .ci/program) || exit 1
if [ -z "$program" ]; then
  echo "rows: skipped, there is no program yet"
  exit 0
fi
ahead=$(cd "${rows%/*}" && ls -- *-no-such-day.expected *-version-1-of-a-row.expected)
python3 "$rows" --program "$program" --stage "$stage" --plus "$dates" $(seq -f 'r%02g-' 1 "$stage") ${ahead//.expected/}
