#!/usr/bin/env bash
# Puts rising keys, each in a separate transaction, on one thread, on each map: in a table that grows on the way and in one that is
# large already (rising.rt.txt). Prints for each the median of the rounds in microseconds, by the clock and of the processor, and the
# ratio of small to large in processor time: 1 is as fast. Then the same of the striped map that grows and of one that was opened with
# room for all keys (roomy): only the puts, and the whole from before the map is opened to the last put. The last table has the
# striped map that was used before (large), and beside it one that grows into memory that another map has used and given back (again):
# malloc returns none of this memory to the system. All run in turn, in random order in each round.
# Usage: speed/rising.sh [PUTS [ROUNDS]]
source "$(dirname "${BASH_SOURCE[0]}")/common.sh"
puts=${1:-100000}
rounds=${2:-9}
build_on_maps rising ": txn_words txn_trace boost_core owned_map striped_map anyhow" owned small 10

# Runs the program with a map, a table, and maybe `whole`, and writes a line of words; the last of them is `puts` or `whole`.
run_one() {
  "$work/rising" "$1" "$2" "$puts" ${3:+"$3"} | sed "s/[:,]//g; s/$/ ${3:-puts}/"
}

turns=({owned,striped}:{small,large} striped:{roomy,again} striped:{small,roomy}:whole)
for _ in $(seq "$rounds"); do
  for turn in $(shuffled "${turns[@]}"); do
    if [ "$turn" = striped:again ]; then export MALLOC_TRIM_THRESHOLD_=1000000000; else unset MALLOC_TRIM_THRESHOLD_; fi
    # A turn is a map, a table, and maybe `whole`.
    # shellcheck disable=SC2086
    run_one ${turn//:/ }
  done
done >"$work/runs"

# The median of a column of the runs of a map and a table, of the puts or of the whole.
middle() {
  awk -v map="$1" -v table="$2" -v column="$3" -v what="${4:-puts}" \
    '$1 == map && $2 == table && $NF == what { print $column }' "$work/runs" | sort -n | sed -n "$(((rounds + 1) / 2))p"
}

# A line of a table: its name, and the four medians.
line() {
  echo "$*" | awk '{ printf "%8s  %10d %10d  %10d %10d  %.2f\n", $1, $2, $3, $4, $5, $4 / $5 }'
}

printf '%8s  %21s  %21s\n' '' 'by the clock' 'of the processor'
printf '%8s  %10s %10s  %10s %10s  %s\n' map small large small large ratio
for map in owned striped; do
  line $map "$(middle $map small 6)" "$(middle $map large 6)" "$(middle $map small 8)" "$(middle $map large 8)"
done
printf '%8s  %10s %10s  %10s %10s  %s\n' striped small roomy small roomy ratio
for what in puts whole; do
  line $what "$(middle striped small 6 $what)" "$(middle striped roomy 6 $what)" \
    "$(middle striped small 8 $what)" "$(middle striped roomy 8 $what)"
done
printf '%8s  %10s %10s  %10s %10s  %s\n' striped again large again large ratio
line again "$(middle striped again 6)" "$(middle striped large 6)" "$(middle striped again 8)" "$(middle striped large 8)"
