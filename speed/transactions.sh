#!/usr/bin/env bash
# Times transactions of 1, 4, 8, 9 and 12 puts in the core and in its twin in plain Rust, alternately, and prints the median
# nanoseconds of one transaction in both, and their ratio. An undo log has room for eight jobs inline; the ninth takes memory.
# If BEFORE names an older program of speed/bench, it runs alternately with them, and its median and the ratio to it come last. The
# files have 300,000 steps of one caller; the table has 12 keys, which are put again and again. Both run each file twice, and the
# second run counts. Both must answer the same.
# Usage: speed/transactions.sh [ROUNDS]
source "$(dirname "${BASH_SOURCE[0]}")/common.sh"
rounds=${1:-9}
build_bench core 1000
build_twin core_twin
programs=(proved plain)
if [ -n "${BEFORE:-}" ]; then
  cp "$BEFORE" "$work/before"
  programs+=(before)
fi
# As in core.sh the C library keeps the memory of the first run.
export MALLOC_MMAP_MAX_=0 MALLOC_TRIM_THRESHOLD_=4294967296

# Writes a step file of transactions of this number of puts each.
write_transactions() {
  awk -v puts="$1" 'BEGIN {
    printf "{\"version\":1,\"callers\":1,\"stripes\":64,\"buckets\":8,\"steps\":["
    for (steps = 0; steps < 300000; steps += 3 * puts + 2) {
      printf steps ? ",[\"begin\",0]" : "[\"begin\",0]"
      for (i = 0; i < puts; i++)
        printf ",[\"ask\",0,\"put\",%d,%d],[\"seek\",0],[\"act\",0]", key++ % 12, i
      printf ",[\"commit\",0]"
    }
    print "]}"
  }' >"$work/steps.json"
}

# Prints what a program writes about the second run of the steps.
run_core() {
  if [ "$1" = plain ]; then
    "$work/plain" "$work/steps.json" 2>&1
  else
    "$work/$1" core 0 "$work/steps.json" 2>&1
  fi | grep '^core *steps'
}

printf '%5s %9s %9s %6s' puts proved plain ratio
[ -z "${BEFORE:-}" ] || printf ' %9s %6s' before ratio
echo
for puts in 1 4 8 9 12; do
  write_transactions $puts
  rm -f "$work/times"
  for _ in $(seq "$rounds"); do
    for program in $(shuffled "${programs[@]}"); do
      run_core "$program" | awk -v program="$program" '{ print program, $5 * 1e6 / $3, $11 }' >>"$work/times"
    done
  done
  sort -k1,1 -k2,2n "$work/times" | awk -v puts=$puts -v middle=$(((rounds + 1) / 2)) '
    $1 != last { count = 0; last = $1 }
    ++count == middle { ns[$1] = $2 * (3 * puts + 2) }
    sum != "" && $3 != sum { print "the sums of what was answered differ" }
    { sum = $3 }
    END {
      printf "%5d %9.0f %9.0f %6.2f", puts, ns["proved"], ns["plain"], ns["proved"] / ns["plain"]
      if ("before" in ns) printf " %9.0f %6.2f", ns["before"], ns["proved"] / ns["before"]
      print ""
    }'
done
