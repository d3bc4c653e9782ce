#!/usr/bin/env bash
# Builds the program, which proves it, and runs `mix` on growing script files (scripts.sh writes them). Prints for each its kind,
# calls, workers and bytes, the entries of the history, the median milliseconds from start to end, the nanoseconds a call and an
# entry, the most memory in use in MB, and the verdict of `check` on the history.
# Usage: speed/mix.sh [ROUNDS]
source "$(dirname "${BASH_SOURCE[0]}")/common.sh"
rounds=${1:-5}
file=$work/scripts.json
take_program

printf '%-6s %8s %7s %9s %8s %8s %6s %6s %6s  %s\n' kind calls workers bytes entries ms 'a call' entry MB verdict
while read -r kind calls workers; do
  speed/scripts.sh "$kind" "$calls" "$workers" >"$file"
  rm -f "$work/memory" "$work/micros"
  for _ in $(seq "$rounds"); do
    start=$EPOCHREALTIME
    /usr/bin/time -a -o "$work/memory" -f %M "$work/proved" mix --seed 7 "$file" >"$work/history.json"
    echo $((${EPOCHREALTIME/./} - ${start/./})) >>"$work/micros"
  done
  verdict=$("$work/proved" check "$work/history.json" 2>&1) || true
  entries=$(grep -o '\["' "$work/history.json" | wc -l)
  sort -n "$work/micros" | awk -v middle=$(((rounds + 1) / 2)) -v kind="$kind" -v calls="$calls" -v workers="$workers" \
    -v bytes="$(wc -c <"$file")" -v entries="$entries" -v memory="$(sort -n "$work/memory" | tail -1)" -v verdict="$verdict" '
    NR == middle {
      printf "%-6s %8d %7d %9d %8d %8.1f %6d %6d %6.0f  %s\n", kind, calls, workers, bytes, entries, $1 / 1e3, 1e3 * $1 / calls,
        1e3 * $1 / entries, memory / 1024, verdict
    }'
done <<'SIZES'
apart 1000 4
apart 10000 4
apart 100000 4
apart 1000000 4
apart 100000 1
apart 100000 16
apart 100000 64
shared 100000 4
shared 100000 16
shared 100000 64
SIZES
