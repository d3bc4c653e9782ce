#!/usr/bin/env bash
# Runs `boostmap run` and its twins in plain Rust (whole/: one mutex, one hold a call, with history) on the same script files, and
# prints how many transactions a second each completes, including reading and writing the files, and the ratio of the program's time
# to each twin's. The second twin, `kept`, also does what `run` promises besides the history: each worker takes a stripe by its
# atomic word, keeps the entries that it saw and how its scripts ended, and its entries are compared with the history. Then it runs
# only the library, without reading and writing: `run_scripts` (the part `shared` of speed/bench) and both twins.
#
# There are 1, 2 and 4 threads, at 1,000 and 100,000 keys; 10,000 scripts, each of four operations and a help; a tenth abort. With
# one thread all print the same history, which is compared; with more, each history is judged. All run alternately, so that a
# machine whose speed changes treats them alike; the median of the rounds counts.
# Usage: speed/run.sh [ROUNDS]
source "$(dirname "${BASH_SOURCE[0]}")/common.sh"
rounds=${1:-9}

build_bench shared 1000
mv "$work/proved" "$work/shared"
take_program
build_whole

TIMEFORMAT=%R

# Runs a command once, and adds its seconds by the clock to a file with its name. A history that is longer than a file may be is not
# judged.
run_once() {
  { time "$work/$1" "$2" "$work/run.json" >"$work/$1.$2"; } 2>>"$work/seconds.$1.$2"
  [ "$(stat -c %s "$work/$1.$2")" -gt 16777216 ] || "$work/proved" check "$work/$1.$2" | grep -q '^legal .* open$'
}

# Runs only the library once, and adds the time that it prints, in seconds, to a file with its name.
time_once() {
  "$work/$1" "${@:2}" "$work/run.json" 2>&1 >"$work/none" |
    awk '{ for (i = 1; i < NF; i++) if ($i == "in") print $(i + 1) / ($(i + 2) ~ /^ms/ ? 1e3 : 1e9) }' >>"$work/seconds.$1.$2"
}

# A line of the table: what ran, threads, keys, transactions a second of the three, and the ratios of their times.
line() {
  local name seconds=()
  for name in "${@:4}"; do
    seconds+=("$(sort -n "$work/seconds.$name" | sed -n "$(((rounds + 1) / 2))p")")
  done
  echo "${@:1:3}" "${seconds[@]}" | awk -v scripts=10000 '{
    printf "%8s %8d %8d %8d %8d %8d %7.2f %7.2f\n", $1, $2, $3, scripts / $4, scripts / $5, scripts / $6, $4 / $5, $4 / $6 }'
}

printf '%8s %8s %8s %8s %8s %8s %7s %7s\n' what threads keys proved plain kept ratio to_kept
for keys in 1000 100000; do
  for workers in 1 2 4; do
    write_run_file "$workers" "$keys"
    rm -f "$work"/seconds.*
    for _ in $(seq "$rounds"); do
      for turn in $(shuffled proved:run plain:run plain:run_kept); do
        run_once "${turn%:*}" "${turn#*:}"
      done
      for turn in $(shuffled shared:shared:1 plain:time_run plain:time_run_kept); do
        # A turn is a program and its words.
        # shellcheck disable=SC2086
        time_once ${turn//:/ }
      done
    done
    if [ "$workers" = 1 ]; then
      cmp "$work/proved.run" "$work/plain.run"
      cmp "$work/proved.run" "$work/plain.run_kept"
    fi
    line program "$workers" "$keys" proved.run plain.run plain.run_kept
    line library "$workers" "$keys" shared.shared plain.time_run plain.time_run_kept
  done
done
