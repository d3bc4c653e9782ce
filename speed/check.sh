#!/usr/bin/env bash
# Builds the program, which proves it, and judges long legal histories with it. Prints for each kind (history.sh names them) and
# length the entries, the bytes, the processor time of one run and of one entry, and the most memory in use.
# Usage: speed/check.sh [ROUNDS]
source "$(dirname "${BASH_SOURCE[0]}")/common.sh"
rounds=${1:-5}
history=$work/history.json

take_program

judge() {
  for _ in $(seq "$1"); do
    "$work/proved" check "$history" >"$work/verdict"
  done
}

TIMEFORMAT='%U %S'
printf '%-10s %9s %10s %7s %8s %8s\n' kind entries bytes ms 'ns each' 'peak MB'
for kind in saved undone deep savepoints short callers; do
  for length in 1000 10000 100000 1000000; do
    speed/history.sh $kind $length >"$history"
    runs=$((rounds + rounds * 20000 / length))
    seconds=$({ time judge $runs; } 2>&1)
    peak=$(/usr/bin/time -f '%M' "$work/proved" check "$history" 2>&1 >"$work/verdict")
    entries=$(grep -o '\["' "$history" | wc -l)
    echo "$kind $entries $(wc -c <"$history") $runs $peak $seconds" | awk '{
      ms = 1000 * ($6 + $7) / $4
      printf "%-10s %9d %10d %7.1f %8d %8.1f\n", $1, $2, $3, ms, 1e6 * ms / $2, $5 / 1024
    }'
  done
done
