#!/usr/bin/env bash
# Runs the core of the benchmark and its twin in plain Rust, alternately, on the same step files, and prints the median time of the
# steps in milliseconds, that of the proved program in nanoseconds a step, and its ratio to the twin: for the first run of the steps,
# which takes memory from the system, and for a second one, for which the C library has kept it.
# docs/SPEED.md says what the files of core_files.txt are.
# Usage: speed/core.sh [ROUNDS]
source "$(dirname "${BASH_SOURCE[0]}")/common.sh"
rounds=${1:-9}
build_bench core 1000
build_twin core_twin

write_step_files <speed/core_files.txt
# The C library gives no memory back to the system, and maps no large allocation separately.
export MALLOC_MMAP_MAX_=0 MALLOC_TRIM_THRESHOLD_=4294967296

run_core() {
  if [ "$1" = proved ]; then
    "$work/proved" core 0 "$2" 2>&1
  else
    "$work/$1" "$2" 2>&1
  fi
}

for _ in $(seq "$rounds"); do
  for place in "${!names[@]}"; do
    for program in $(shuffled proved plain); do
      run_core "$program" "$work/${names[$place]}.json" |
        awk -v row="$place ${names[$place]} $program" -v work="$work" '
          { print row, $5, $7, $11 >> (work "/" $2 ".times") }'
    done
  done
done

for phase in first steps; do
  echo "$phase: medians of $rounds runs"
  sort -k1,1n -k3,3 -k4,4n "$work/$phase.times" |
    awk -v middle=$(((rounds + 1) / 2)) -v of=file -f speed/medians.awk
done
