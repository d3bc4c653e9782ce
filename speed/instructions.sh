#!/usr/bin/env bash
# Counts the instructions of the core's steps in the benchmark and in its twin in plain Rust, on the step files of core.sh, and
# prints how many a step takes in each, and the ratio. Other work on the machine does not change these numbers.
# Usage: speed/instructions.sh
source "$(dirname "${BASH_SOURCE[0]}")/common.sh"
build_bench core 1000
build_twin core_twin
write_step_files <speed/core_files.txt

# The instructions of the function that is named first and of those that it calls, without those of the other functions named.
count() {
  local words=("${@:3}")
  valgrind --tool=callgrind --callgrind-out-file="$work/counts" "${words[@]}" >/dev/null 2>&1
  callgrind_annotate --inclusive=yes --tree=calling --threshold=100 "$work/counts" |
    awk -v counted="$1" -v others="$2" '
      { gsub(",", "", $1) }
      / \* / { inside = $0 ~ counted; if (inside) sum += $1 }
      / > / && inside && $0 ~ others { sum -= $1 }
      END { print sum }'
}

printf '%-8s %10s %10s %8s\n' file proved plain 'to plain'
for name in "${names[@]}"; do
  file=$work/$name.json
  # Both programs run the steps twice.
  steps=$((2 * ($(tr -cd '[' <"$file" | wc -c) - 1)))
  proved=$(count 'core_phases::run_timed' 'Core::new' "$work/proved" core 0 "$file")
  plain=$(count 'machine::Core::run' nothing "$work/plain" "$file")
  awk -v name="$name" -v steps=$steps -v proved="$proved" -v plain="$plain" 'BEGIN {
    printf "%-8s %10.1f %10.1f %8.2f\n", name, proved / steps, plain / steps, proved / plain }'
done
