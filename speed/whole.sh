#!/usr/bin/env bash
# Runs the program's commands and their twins in plain Rust (whole/) on the same files, and prints for each command and size the
# pieces and the bytes of the file, the milliseconds of processor time of one run of both, their ratio, the most memory of both
# in MB, and its ratio. The outputs are compared. If BEFORE names an older twin, it runs alternately with them, and its time, the
# ratio to it, its memory and the ratio to that come last.
#
# The files have every kind of step, as often as users would have it: one step in 50 sweeps; savepoints, returns and aborts; eight
# callers that find each other's stripes held; doublings, and the steps of each new bucket. `run` takes the scripts of `mix` with
# one worker. With VERSION=2 they have put_if and keys from 2^63 on as well. The twin needs Debian's package
# librust-serde-json-dev, or other sources of serde_json in the folder that CRATES names. PROGRAM may name the program, and SIZES
# the sizes; 0 is the full one.
# Usage: speed/whole.sh [ROUNDS]
source "$(dirname "${BASH_SOURCE[0]}")/common.sh"
rounds=${1:-5}

take_program
build_whole
take_before

# The processor milliseconds of one run of a program, and the most memory of one in KB.
costs() {
  local program=$1 runs=$2 seconds
  shift 2
  seconds=$({ time for _ in $(seq "$runs"); do "$work/$program" "$@" >"$work/$program.text"; done; } 2>&1)
  /usr/bin/time -o "$work/peak" -f %M "$work/$program" "$@" >"$work/$program.text"
  echo "$seconds $runs $(cat "$work/peak")" | awk '{ print 1000 * ($1 + $2) / $3, $4 }'
}

TIMEFORMAT='%U %S'
rustc -O -o "$work/core_steps" speed/core_steps.rs 2>/dev/null
printf '%-8s %8s %9s %9s %9s %6s %7s %7s %6s' command pieces bytes proved plain ratio MB plain ratio
[ -z "${BEFORE:-}" ] || printf ' %9s %6s %7s %6s' before ratio before ratio
echo
for size in ${SIZES:-1000 10000 100000 0}; do
  write_whole_files "$size"
  for command in replay check mix run run_seen run_kept; do
    file=$work/${command%_*}.json
    rm -f "$work"/*.costs
    for _ in $(seq "$rounds"); do
      for program in $(shuffled "${programs[@]}"); do
        words=("${command%_*}")
        [ "$program" != plain ] || words=("$command")
        [ $command != mix ] || words+=(--seed 7)
        costs "$program" $((1 + 20000 / (size + 1000) + (size == 0 ? -20 : 0))) "${words[@]}" "$file" >>"$work/$program.costs"
      done
    done
    middle=$(((rounds + 1) / 2))
    for program in "${programs[@]}"; do
      cmp "$work/proved.text" "$work/$program.text"
      echo "$(sort -n "$work/$program.costs" | sed -n "${middle}p") "
    done | tr -d '\n' | awk -v command=$command -v bytes="$(wc -c <"$file")" \
      -v pieces="$(($(tr -cd '[' <"$file" | wc -c) - 1))" '{
        printf "%-8s %8d %9d %9.2f %9.2f %6.2f %7.1f %7.1f %6.2f", command, pieces, bytes, $1, $3, $1 / $3, $2 / 1024, $4 / 1024,
          $2 / $4
        if (NF > 4) printf " %9.2f %6.2f %7.1f %6.2f", $5, $1 / $5, $6 / 1024, $2 / $6
        print "" }'
  done
done
