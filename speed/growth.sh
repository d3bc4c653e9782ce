#!/usr/bin/env bash
# Runs the maps of the benchmark and their twin in plain Rust, alternately, with rising numbers of keys. Prints for both the median
# nanoseconds of one operation of each map and phase, and the ratios of the tables to the other maps.
# Usage: speed/growth.sh [ROUNDS]
source "$(dirname "${BASH_SOURCE[0]}")/common.sh"
rounds=${1:-5}
build_bench maps 1000
build_twin maps_twin

for _ in $(seq "$rounds"); do
  for keys in 1000 10000 100000 1000000; do
    for program in $(shuffled proved plain); do
      words=("$keys")
      [ "$program" = proved ] && words=(maps "$keys")
      "$work/$program" "${words[@]}" 2>&1 |
        awk -v keys=$keys '{ print keys, $2, $1, $7, $11 }' >>"$work/$program.times"
    done
  done
done

echo "nanoseconds an operation, medians of $rounds runs; then the tables' to the sorted map's, and to the hash map's"
for program in proved plain; do
  printf '%8s %-6s %7s %7s %7s %7s | %6s %6s | %6s %6s\n' $program phase table large sorted hashed table large table large
  sort -k2,2 -k1,1n -k3,3 -k4,4n "$work/$program.times" | awk -v middle=$(((rounds + 1) / 2)) '
    function close_row() {
      if (row == "") return
      printf "%8d %-6s %7d %7d %7d %7d | %6.2f %6.2f | %6.2f %6.2f\n", keys, phase, ns["table"], ns["large"], ns["sorted"],
        ns["hashed"], ns["table"] / ns["sorted"], ns["large"] / ns["sorted"], ns["table"] / ns["hashed"], ns["large"] / ns["hashed"]
    }
    $1 " " $2 != row { close_row(); row = $1 " " $2; keys = $1; phase = $2; sum = $5; last = "" }
    $5 != sum { print row ": the sums of what was answered differ" }
    $3 != last { count = 0; last = $3 }
    ++count == middle { ns[$3] = $4 }
    END { close_row() }'
done
awk 'FNR == NR { sum[$1, $2, $3] = $5; next }
  sum[$1, $2, $3] != $5 { print $1, $2, $3 ": both programs answer otherwise" }' "$work/proved.times" "$work/plain.times"
