#!/usr/bin/env bash
# Counts the instructions of the program's commands and of their twins in plain Rust (whole/), on the files of whole.sh of 1,000,
# 10,000 and 100,000 pieces, or of the sizes in SIZES. Prints the millions of both and their ratio; if BEFORE names an older twin, also
# its millions and the ratio to it. Other work on the machine does not change them. The outputs are compared. PROGRAM may name the
# program, and with VERSION=2 the files are of that version. It needs valgrind.
# Usage: speed/counts.sh
source "$(dirname "${BASH_SOURCE[0]}")/common.sh"
take_program
build_whole
take_before
rustc -O -o "$work/core_steps" speed/core_steps.rs

# The millions of instructions of one run of a program.
millions() {
  valgrind --tool=callgrind --callgrind-out-file="$work/counts" "$work/$1" "${@:2}" 2>"$work/log" >"$work/$1.text"
  awk '/Collected/ { print $4 / 1e6 }' "$work/log"
}

# Prints the row of a command on a file of this number of pieces.
row() {
  local program counted=()
  for program in "${programs[@]}"; do
    counted+=("$(millions "$program" "${@:2}")")
    cmp "$work/proved.text" "$work/$program.text"
  done
  echo "${counted[@]}" | awk -v command="$2" -v pieces="$1" '{
    printf "%-7s %8d", command, pieces
    printf " %9.1f %9.1f %6.2f", $1, $2, $1 / $2
    if (NF > 2) printf " %9.1f %6.2f", $3, $1 / $3
    print "" }'
}

printf '%-7s %8s %9s %9s %6s' command pieces proved plain ratio
[ -z "${BEFORE:-}" ] || printf ' %9s %6s' before ratio
echo
for size in ${SIZES:-1000 10000 100000}; do
  write_whole_files "$size"
  row "$size" replay "$work/replay.json"
  row "$size" check "$work/check.json"
  row "$size" mix --seed 7 "$work/mix.json"
  row "$size" run "$work/run.json"
done
