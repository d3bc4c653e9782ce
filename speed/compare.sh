#!/usr/bin/env bash
# Runs the nodes and cursors of the benchmark and of its twin in plain Rust, alternately, and prints the median time of each phase in
# milliseconds, that of the proved program in nanoseconds an operation, and its ratio to the twin.
# Usage: speed/compare.sh [KEYS [ROUNDS]]
source "$(dirname "${BASH_SOURCE[0]}")/common.sh"
keys=${1:-1000000}
rounds=${2:-9}
build_bench nodes 1000
build_twin twin

for _ in $(seq "$rounds"); do
  for program in $(shuffled proved plain); do
    words=("$keys")
    [ "$program" = proved ] && words=(nodes "$keys")
    "$work/$program" "${words[@]}" 2>&1 |
      awk -v program="$program" '{ print NR, $2, program, $5, $7, $11 }' >>"$work/times"
  done
done

echo "$keys keys, medians of $rounds runs"
sort -k1,1n -k3,3 -k4,4n "$work/times" |
  awk -v middle=$(((rounds + 1) / 2)) -v of=phase -v total=1 -f speed/medians.awk
