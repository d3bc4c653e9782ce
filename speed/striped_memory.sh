#!/usr/bin/env bash
# Tests that the memory of the striped map does not grow. For each number of threads a process runs transactions of four operations,
# by default 200,000,000 operations in all. Its memory is read 20 times a second, from its page tables, since with threads the
# kernel's own peak is some hundred kB off; and only while all threads run, since a thread that ends takes some pages for good.
# Prints the most memory in kB in the first tenth of the time and in all of it, and fails if the latter is more than a hundredth
# higher.
# Usage: speed/striped_memory.sh [OPERATIONS [KEYS [THREADS..]]]
source "$(dirname "${BASH_SOURCE[0]}")/common.sh"
operations=${1:-200000000}
keys=${2:-1000}
threads=("${@:3}")
[ ${#threads[@]} -gt 0 ] || threads=(1 4)
build_bench striped 2 1000 1000

for count in "${threads[@]}"; do
  "$work/proved" striped "$count" "$keys" $((operations / 4 / count)) 2>/dev/null &
  while kill -0 $! 2>/dev/null; do
    if [ "$(find "/proc/$!/task" -mindepth 1 -maxdepth 1 2>/dev/null | wc -l)" -gt "$count" ]; then
      awk '/^Rss/ { print $2 }' "/proc/$!/smaps_rollup" 2>/dev/null || true
    fi
    sleep 0.05
  done >"$work/peaks"
  wait $!
  awk -v count="$count" -v keys="$keys" -v operations="$operations" '
    { peak[NR] = $1 > peak[NR - 1] ? $1 : peak[NR - 1] }
    END {
      first = peak[int(NR / 10) + 1]
      printf "%d threads, %d keys: %d kB in a tenth of %d operations, %d kB in all\n", count, keys, first, operations, peak[NR]
      exit !(NR >= 10 && peak[NR] * 100 <= first * 101)
    }' "$work/peaks"
done
