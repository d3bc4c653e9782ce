#!/usr/bin/env bash
# Runs `boostmap replay` on step files, the last of them of the full size, and prints for each its steps and bytes, the median
# milliseconds from start to end, the steps a second and the most memory in use in MB. The output is compared with the twin's.
# Usage: speed/replay.sh [ROUNDS]
source "$(dirname "${BASH_SOURCE[0]}")/common.sh"
rounds=${1:-9}
write_step_files < <(
  grep '^1' speed/core_files.txt
  echo full wide=1 keys=200000
)
take_program
build_twin core_twin

printf '%-8s %8s %9s %10s %10s %8s\n' file steps bytes ms 'a second' MB
for name in "${names[@]}"; do
  file=$work/$name.json
  for _ in $(seq "$rounds"); do
    start=$EPOCHREALTIME
    /usr/bin/time -a -o "$work/$name.memory" -f %M "$work/proved" replay "$file" >"$work/printed"
    echo $(((${EPOCHREALTIME/./} - ${start/./}))) >>"$work/$name.micros"
  done
  "$work/plain" "$file" report 2>/dev/null | cmp - "$work/printed"
  steps=$(tr -cd '[' <"$file" | wc -c)
  sort -n "$work/$name.micros" | awk -v middle=$(((rounds + 1) / 2)) -v name="$name" -v steps=$((steps - 1)) \
    -v bytes="$(wc -c <"$file")" -v memory="$(sort -n "$work/$name.memory" | tail -1)" '
    NR == middle { printf "%-8s %8d %9d %10.1f %10d %8.0f\n", name, steps, bytes, $1 / 1e3, steps / ($1 / 1e6), memory / 1024 }'
done
