#!/usr/bin/env bash
# A run in which an allocation is refused must end as with memory, or by 'no memory' and nothing else: here for some of the
# allocations of each run. bench/refuse_memory.py by itself takes more of them.
cd "$(dirname "${BASH_SOURCE[0]}")/../.." || exit 1
program=$(bash .ci/program) || exit 1
if [ -z "$program" ]; then
  echo "memory: skipped, there is no program yet"
  exit 0
fi
python3 bench/refuse_memory.py --program "$program" --most 30
