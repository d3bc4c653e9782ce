#!/usr/bin/env bash
# Gives `judge watch` and its twin in plain Rust (watch/) the same entries, one a line, of 64 callers on 100,000 keys (entries.rs),
# and prints for each rule and each length the seconds of processor time of one run of both, the median of the rounds, and their
# ratio; the most memory of both in MB; and the millions of instructions of both on the first 200,000 entries, and their ratio. The
# outputs are compared, also those on illegal entries: with one left out, or with a reply changed. Other work on the machine
# changes only the times. It needs valgrind, 300 MB for the entries, and Debian's package librust-serde-json-dev, or other sources
# of serde_json in the folder that CRATES names. PROGRAM may name the program `judge`.
# Usage: speed/watch.sh [ENTRIES [ROUNDS]]
source "$(dirname "${BASH_SOURCE[0]}")/common.sh"
entries=${1:-10000000}
rounds=${2:-5}

if [ -z "${PROGRAM:-}" ]; then
  quietly ./build.py judge
fi
cp "${PROGRAM:-out/judge}" "$work/proved"
quietly cargo build --release --offline --manifest-path speed/watch/Cargo.toml --target-dir "$work/target" \
  --config 'source.crates-io.replace-with="here"' \
  --config "source.here.directory=\"${CRATES:-/usr/share/cargo/registry}\""
cp "$work/target/release/watch" "$work/plain"
rustc -O -o "$work/entries" speed/entries.rs
"$work/entries" "$entries" 100000 >"$work/long"
head -n 200000 "$work/long" >"$work/short"

# One run of a program on a file: its seconds of processor time, and its most memory in KB.
costs() {
  /usr/bin/time -o "$work/costs" -f '%U %S %M' "$work/$1" "${@:3}" <"$2" >"$work/$1.text"
  awk '{ print $1 + $2, $3 }' "$work/costs"
}

# The millions of instructions of one run of a program on the short file.
millions() {
  valgrind --tool=callgrind --callgrind-out-file="$work/counts" "$work/$1" "${@:2}" 2>"$work/log" <"$work/short" >"$work/$1.text"
  awk '/Collected/ { print $4 / 1e6 }' "$work/log"
}

compare() {
  cmp "$work/proved.text" "$work/plain.text"
}

# Tests that both find the same entry bad if one is left out, or a reply is changed.
same_illegal() {
  local line change program
  for line in 3 50 1000 20001 150000; do
    for change in out reply; do
      awk -v line=$line -v change=$change '
        NR >= line && !done && (change == "out" || /"did"/) {
          done = 1
          if (change == "out") next
          sub(/[0-9a-z]+]$/, "1000000000]")
        }
        { print }' "$work/short" >"$work/forged"
      for program in proved plain; do
        "$work/$program" "$@" <"$work/forged" >"$work/$program.text" || [ $? = 1 ]
      done
      compare
      cat "$work/proved.text" >>"$work/verdicts"
    done
  done
  grep -q '^illegal .* rule 1' "$work/verdicts"
  grep -q '^illegal .* rule 3' "$work/verdicts"
}

# Prints the row for one rule.
row() {
  local program middle=$(((rounds + 1) / 2))
  rm -f "$work"/*.costs
  for _ in $(seq "$rounds"); do
    for program in $(shuffled proved plain); do
      costs "$program" "$work/long" "$@" >>"$work/$program.costs"
    done
    compare
  done
  grep -q '^legal' "$work/proved.text"
  same_illegal "$@"
  for program in proved plain; do
    echo "$(sort -n "$work/$program.costs" | sed -n "${middle}p") $(millions $program "$@") "
  done | tr -d '\n' | awk -v way="${2#--}" -v entries="$entries" '{
    printf "%-12s %9d %8.2f %8.2f %6.2f %7.1f %7.1f %9.1f %9.1f %6.2f\n", way, entries, $1, $4, $1 / $4, $2 / 1024, $5 / 1024, $3, $6,
      $3 / $6 }'
  compare
}

printf '%-12s %9s %8s %8s %6s %7s %7s %9s %9s %6s\n' rules entries proved plain ratio MB plain proved plain ratio
row watch --stripes 4096
row watch --commit-order
