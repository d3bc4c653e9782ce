#!/usr/bin/env bash
# Takes free stripes and gives them back on 1, 2 and 4 threads, by the atomic words of `key_words` and by a mutex a stripe in plain
# Rust, and prints the median time of a take and a give in nanoseconds, and the ratio. Each take must be granted.
# Usage: speed/words.sh [TAKES [ROUNDS]]
source "$(dirname "${BASH_SOURCE[0]}")/common.sh"
takes=${1:-1000000}
rounds=${2:-9}
build_bench words 1000 1
rustc -O -o "$work/plain" speed/words.rs

# Runs a program with this number of threads.
run_words() {
  if [ "$1" = proved ]; then
    "$work/proved" words "$takes" "$2" 2>&1
  else
    "$work/$1" "$2" "$takes" 2>&1
  fi
}

# The median of the rounds of a program with this number of threads, in nanoseconds.
nanoseconds() {
  for _ in $(seq "$rounds"); do
    run_words "$1" "$2"
  done | awk -v all=$(($2 * takes)) '$(NF - 1) != all { exit 1 } { print $6 }' | sort -n | sed -n "$(((rounds + 1) / 2))p"
}

printf '%8s %8s %8s %7s\n' threads words mutex ratio
for threads in 1 2 4; do
  word=$(nanoseconds proved "$threads")
  mutex=$(nanoseconds plain "$threads")
  awk -v threads="$threads" -v word="$word" -v mutex="$mutex" 'BEGIN {
    printf "%8d %8d %8d %7.2f\n", threads, word, mutex, word / mutex }'
done
