#!/usr/bin/env bash
# Counts the instructions of the built program on files in plain form, and on the same files with one name
# written with an escape, `"\u0062egin"` for `"begin"`. The second kind has no plain form, so the general
# reader of JSON reads it, and both give the same output. The answers of the plain readers may be "not
# plain" by their contracts; here they must save ten instructions a byte at least. It needs valgrind.
# The last line is 'plain: N passed, M failed', and '; not run: ..' if valgrind is missing. The status is 1
# if M is not 0. Usage: tests/plain.sh [PROGRAM]
set -uo pipefail
cd "$(dirname "${BASH_SOURCE[0]}")/.." || exit 1
name=plain
program=${1:-crates/boostmap/out/boostmap}
. tests/common.sh

steps() {
  awk 'BEGIN {
    printf "{\"version\":1,\"callers\":1,\"stripes\":1,\"buckets\":2,\"steps\":[[\"begin\",0],[\"abort\",0]"
    for (i = 1; i < 5000; i++) printf ",[\"begin\",0],[\"abort\",0]"
    print "]}"
  }'
}

scripts() {
  awk 'BEGIN {
    printf "{\"version\":1,\"workers\":1,\"stripes\":1,\"buckets\":2,\"tries\":1,\"scripts\":[[[\"get\",0]]"
    for (i = 1; i < 5000; i++) printf ",[[\"get\",%d]]", i
    print "]}"
  }'
}

history() {
  awk 'BEGIN {
    printf "{\"version\":1,\"stripes\":1,\"entries\":[[\"began\",0,1],[\"aborted\",0]"
    for (i = 2; i < 5000; i++) printf ",[\"began\",0,%d],[\"aborted\",0]", i
    print "]}"
  }'
}

# The instructions of a run, whose output goes to $work/out.
instructions() {
  valgrind --tool=callgrind --callgrind-out-file=/dev/null "$program" "$@" 2>&1 >"$work/out" |
    sed -n 's/.*Collected : //p'
}

# saves NAME COMMAND..: the file $work/plain.json, with and without an escape in the first such name.
saves() {
  local word=$1 plain other
  shift
  sed "s/\"${word:0:1}\(${word:1}\)\"/\"\\\\u00$(printf '%x' "'$word")\1\"/" "$work/plain.json" >"$work/other.json"
  plain=$(instructions "$@" "$work/plain.json")
  mv "$work/out" "$work/lines"
  other=$(instructions "$@" "$work/other.json")
  {
    cmp "$work/lines" "$work/out"
    cmp -s "$work/plain.json" "$work/other.json" && echo 'no escape'
    awk -v plain="$plain" -v other="$other" -v bytes="$(stat -c %s "$work/plain.json")" 'BEGIN {
      if (plain == 0 || other - plain < 10 * bytes) print plain " and " other " instructions for " bytes " bytes" }'
  } >"$work/err" 2>&1
  : >"$work/out"
  echo 0 >"$work/status"
  judge "$*" 0 '' ''
}

if ! command -v valgrind >/dev/null; then
  echo 'plain: 0 passed, 0 failed; not run: 3 tests (no valgrind)'
  exit
fi
steps >"$work/plain.json"
saves begin replay
scripts >"$work/plain.json"
saves get mix --seed 1
history >"$work/plain.json"
saves began check
conclude
