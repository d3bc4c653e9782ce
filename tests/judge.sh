#!/usr/bin/env bash
# Tests the examples of docs/JUDGE.md: what `judge` prints of the stored histories word for word, that
# the store without a bug is judged legal, and that each bug is found within some runs. It needs python3
# and the built programs boostmap and judge. It takes a minute or two. The last line is 'judge: N passed, M
# failed', and the status is 1 if M is not 0.
# Usage: tests/judge.sh [BOOSTMAP [JUDGE]]
set -uo pipefail
cd "$(dirname "${BASH_SOURCE[0]}")/.." || exit 1
program=${1:-crates/boostmap/out/boostmap}
judge=${2:-crates/judge/out/judge}
passed=0 failed=0

# result NAME STATUS: counts a test, which passed if the status is 0.
result() {
  if [ "$2" = 0 ]; then
    passed=$((passed + 1))
  else
    failed=$((failed + 1))
    echo "judge: $1" >&2
  fi
}

# Prints what docs/JUDGE.md shows below a call: the indented lines up to an empty line.
shown() {
  awk -v call="    \$ $1" '
    $0 == call { inside = 1; next }
    inside && $0 == "" { exit }
    inside { print substr($0, 5) }' docs/JUDGE.md
}

# Runs a call, and compares what it prints with what the page shows.
as_shown() {
  local call=$1
  shift
  [ -n "$(shown "$call")" ] && [ "$("$@")" = "$(shown "$call")" ]
  result "$call" $?
}

# Prints the verdict of check on a run of the store.
verdict() {
  samples/judge/store.py "$@" | "$program" check /dev/stdin
}

as_shown './judge why samples/judge/example.json' "$judge" why samples/judge/example.json
grep 'G2-item","level":"REPEATABLE' tests/stores/hermitage.jsonl >"${TMPDIR:-/tmp}/judge.$$"
as_shown './judge why --serializable history.json' "$judge" why --serializable "${TMPDIR:-/tmp}/judge.$$"
for seed in 1 2 3 4 5; do
  verdict --last --seed "$seed" >/dev/null
  result "the store without a bug, seed $seed" $?
done
samples/judge/store.py --bugs | cut -d: -f1 >"${TMPDIR:-/tmp}/judge.$$"
while read -r bug; do
  is_found=1
  for seed in $(seq 1 60); do
    if [ $is_found = 1 ]; then
      verdict --bug "$bug" --last --seed "$seed" >/dev/null
      [ $? = 1 ] && is_found=0
    fi
  done
  result "the bug $bug was not found in 60 runs" $is_found
done <"${TMPDIR:-/tmp}/judge.$$"
rm -f "${TMPDIR:-/tmp}/judge.$$"
echo "judge: $passed passed, $failed failed"
[ "$failed" = 0 ]
