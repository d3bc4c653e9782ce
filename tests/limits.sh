#!/usr/bin/env bash
# Runs the built program on files at every limit of the formats, with ample memory: the most callers,
# workers, stripes, buckets, steps, scripts, actions and entries, long logs and many levels, and the
# least and greatest keys and values; and on files that are one past a limit. The expected output
# follows from the rules of docs/FORMATS.md, ANSWERS.md and VERDICTS.md. By default the program is the
# one that `rt ci` builds. The last line is 'limits: N passed, M failed', and the status is 1 if M is
# not 0.
# Usage: tests/limits.sh [PROGRAM]
set -uo pipefail
cd "$(dirname "${BASH_SOURCE[0]}")/.." || exit 1
name=limits
program=${1:-crates/boostmap/out/boostmap}
. tests/common.sh

# Compares the last run's output with the lines in $work/lines.
same_lines() {
  local what=$1
  if ! cmp -s "$work/lines" "$work/out"; then
    diff "$work/lines" "$work/out" 2>&1 | head -n 5 >&2
    echo 'other lines' >"$work/out"
  else
    : >"$work/out"
  fi
  judge "$what" 0 '' ''
}

# A step file with these limits, whose steps are the lines of standard input.
steps() {
  echo "{\"version\":2,\"callers\":$1,\"stripes\":$2,\"buckets\":$3,\"steps\":["
  sed '$!s/$/,/'
  echo ']}'
}

# A script file with this many workers, whose scripts are the lines of standard input.
scripts() {
  echo "{\"version\":2,\"workers\":$1,\"stripes\":4096,\"buckets\":65536,\"tries\":1000,\"scripts\":["
  sed '$!s/$/,/'
  echo ']}'
}

# A history file, whose entries are the lines of standard input.
history() {
  echo '{"version":3,"stripes":1,"entries":['
  sed '$!s/$/,/'
  echo ']}'
}

most_steps() {
  yes '["sweep"]' | head -n 1000000 | steps 1 1 2 >"$work/file.json"
  run replay "$work/file.json"
  { yes clean | head -n 1000000; echo 'size 2 count 0'; } >"$work/lines"
  same_lines '1,000,000 steps'
  yes '["sweep"]' | head -n 1000001 | steps 1 1 2 >"$work/file.json"
  wants 3 '' 'refused 22' replay "$work/file.json"
}

# A log of 8, 9 and 100,000 changes of one key, which an abort takes back.
long_logs() {
  local count
  for count in 8 9 100000; do
    awk -v count=$count 'BEGIN {
      print "[\"begin\",0]"
      for (i = 1; i <= count; i++) printf "[\"ask\",0,\"put\",1,%d]\n[\"seek\",0]\n[\"act\",0]\n", i
      print "[\"abort\",0]"
      for (i = 1; i <= count; i++) print "[\"seek\",0]\n[\"act\",0]"
      print "[\"act\",0]" }' | steps 1 1 2 >"$work/file.json"
    run replay "$work/file.json"
    awk -v count=$count 'BEGIN {
      print "began 1"
      for (i = 1; i <= count; i++) print "asked\nplaced\ndone " (i == 1 ? "none" : i - 1)
      print "leaving"
      for (i = 1; i <= count; i++) print "placed\nundone"
      print "aborted\nsize 2 count 0" }' >"$work/lines"
    same_lines "a log of $count changes"
  done
}

# 1,000 savepoints, each after a change; then back to number 1,000, to 500 and to 0.
many_levels() {
  awk 'BEGIN {
    print "[\"begin\",0]"
    for (i = 1; i <= 1000; i++)
      printf "[\"ask\",0,\"put\",7,%d]\n[\"seek\",0]\n[\"act\",0]\n[\"save\",0]\n", i
    print "[\"back\",0,1001]\n[\"back\",0,1000]\n[\"act\",0]"
    print "[\"back\",0,500]"
    for (i = 1; i <= 500; i++) print "[\"seek\",0]\n[\"act\",0]"
    print "[\"act\",0]\n[\"back\",0,0]"
    for (i = 1; i <= 500; i++) print "[\"seek\",0]\n[\"act\",0]"
    print "[\"act\",0]\n[\"commit\",0]" }' | steps 1 4096 65536 >"$work/file.json"
  run replay "$work/file.json"
  awk 'BEGIN {
    print "began 1"
    for (i = 1; i <= 1000; i++) print "asked\nplaced\ndone " (i == 1 ? "none" : i - 1) "\nsaved " i
    print "refused 9\nleaving\nreturned 1000\nleaving"
    for (i = 1; i <= 500; i++) print "placed\nundone"
    print "returned 500\nleaving"
    for (i = 1; i <= 500; i++) print "placed\nundone"
    print "returned 0\ncommitted 1\nsize 2 count 0" }' >"$work/lines"
  same_lines '1,000 levels'
}

# Every operation at the least and greatest keys and values, by the first and the last of 64 callers.
greatest_numbers() {
  local keys='0 9223372036854775808 18446744073709551615' key caller
  for caller in 0 63; do
    for key in $keys; do
      printf '["begin",%s]\n' "$caller"
      printf '["ask",%s,%s]\n["seek",%s]\n["act",%s]\n' \
        "$caller" "\"put\",$key,0" "$caller" "$caller" \
        "$caller" "\"put_if\",$key,0,18446744073709551615" "$caller" "$caller" \
        "$caller" "\"get\",$key" "$caller" "$caller" \
        "$caller" "\"put_if\",$key,18446744073709551615,18446744073709551614" "$caller" "$caller" \
        "$caller" "\"take\",$key" "$caller" "$caller" \
        "$caller" "\"put_if\",$key,null,18446744073709551615" "$caller" "$caller"
      printf '["commit",%s]\n' "$caller"
    done
  done | steps 64 4096 65536 >"$work/file.json"
  run replay "$work/file.json"
  awk 'BEGIN {
    max = "18446744073709551615"
    for (t = 1; t <= 6; t++) {
      first = t <= 3 ? "none" : max
      n = split(first " 0 " max " " max " 18446744073709551614 none", replies, " ")
      print "began " t
      for (i = 1; i <= n; i++) print "asked\nplaced\ndone " replies[i]
      print "committed " t
    }
    print "size 2 count 3"
    print "0 " max "\n9223372036854775808 " max "\n" max " " max }' >"$work/lines"
  same_lines 'least and greatest keys and values'
  echo '["begin",64]' | steps 64 4096 65536 >"$work/file.json"
  wants 0 "refused 2"$'\n'"size 2 count 0" '' replay "$work/file.json"
  echo '["begin",0]' | steps 65 4096 65536 >"$work/file.json"
  wants 3 '' 'refused 22' replay "$work/file.json"
  echo '["begin",0]' | steps 64 4097 65536 >"$work/file.json"
  wants 3 '' 'refused 22' replay "$work/file.json"
  echo '["begin",0]' | steps 64 4096 131072 >"$work/file.json"
  wants 3 '' 'refused 22' replay "$work/file.json"
}

# 100,002 keys, with which the table doubles up to 65,536 buckets. They are put from the last of the
# list's order to the first, so that each is put right after the dummy of bucket 0.
most_buckets() {
  awk 'BEGIN {
    for (key = 0; key < 100002; key++) {
      reversed = 0
      left = key
      for (bit = 0; bit < 17; bit++) { reversed = 2 * reversed + left % 2; left = int(left / 2) }
      print reversed, key
    } }' | sort -n | cut -d ' ' -f 2 >"$work/order"
  {
    echo '["begin",0]'
    tac "$work/order" | awk '{ printf "[\"ask\",0,\"put\",%d,%d]\n[\"seek\",0]\n[\"act\",0]\n", $1, $1 }'
    awk 'BEGIN { for (size = 2; size <= 65536; size *= 2) printf "[\"double\",%d]\n", size }'
    echo '["commit",0]'
  } | steps 1 4096 65536 >"$work/file.json"
  run replay "$work/file.json"
  {
    echo 'began 1'
    awk '{ print "asked\nplaced\ndone none" }' "$work/order"
    awk 'BEGIN { for (size = 4; size <= 65536; size *= 2) print "doubled " size }'
    printf '%s\n' 'at limit' 'committed 1' 'size 65536 count 100002'
    awk '{ print $1, $1 }' "$work/order"
  } >"$work/lines"
  same_lines '65,536 buckets'
}

# run_and_check WHAT COMMITS: `mix` and `run` of the script file commit this many transactions, by
# `check`.
run_and_check() {
  local command
  for command in 'mix --seed 1' run; do
    # shellcheck disable=SC2086
    "$program" $command "$work/file.json" 2>"$work/err" | "$program" check /dev/stdin >"$work/out" 2>>"$work/err"
    echo $? >"$work/status"
    judge "$command: $1" 0 "legal $2 commits 0 open" ''
  done
}

# Each operation on the least, the middle and the greatest key, with the least and greatest values.
greatest_keys_of_scripts() {
  local key list='' max=18446744073709551615
  for key in 0 9223372036854775808 $max; do
    list+="[\"put\",$key,0],[\"put_if\",$key,0,$max],[\"get\",$key],[\"put_if\",$key,$max,18446744073709551614],"
    list+="[\"take\",$key],[\"put_if\",$key,null,$max],[\"take\",$key],[\"put\",$key,$max],"
  done
  echo "[${list%,}]" | scripts 1 >"$work/file.json"
  run_and_check 'the greatest keys and values' 1
}

most_scripts() {
  local workers
  for workers in 1 64; do
    awk 'BEGIN { for (i = 0; i < 10000; i++) printf "[[\"put\",%d,%d]]\n", i, i }' |
      scripts $workers >"$work/file.json"
    run_and_check "10,000 scripts, $workers workers" 10000
  done
  awk 'BEGIN { printf "["; for (i = 1; i < 10000; i++) printf "[\"put\",%d,1],", i; print "[\"get\",1]]" }' |
    scripts 1 >"$work/file.json"
  run_and_check 'a script of 10,000 actions' 1
  awk 'BEGIN {
    printf "["
    for (i = 1; i <= 1000; i++) printf "[\"put\",7,%d],[\"save\"],", i
    print "[\"back\",1000],[\"back\",500],[\"back\",0],[\"get\",7]]"
  }' | scripts 1 >"$work/file.json"
  run_and_check '1,000 savepoints' 1
  yes '[]' | head -n 10001 | scripts 1 >"$work/file.json"
  wants 3 '' 'refused 22' mix --seed 1 "$work/file.json"
  yes '[]' | head -n 1 | scripts 65 >"$work/file.json"
  wants 3 '' 'refused 22' run "$work/file.json"
  awk 'BEGIN { printf "["; for (i = 1; i < 10001; i++) printf "[\"save\"],"; print "[\"save\"]]" }' |
    scripts 1 >"$work/file.json"
  wants 3 '' 'refused 22' run "$work/file.json"
}

# 40,000 puts of new keys and no help: the table has to grow by itself.
no_help() {
  awk 'BEGIN { for (i = 0; i < 10000; i++) printf "[[\"put\",%d,1],[\"put\",%d,1],[\"put\",%d,1],[\"put\",%d,1]]\n", 4 * i, 4 * i + 1, 4 * i + 2, 4 * i + 3 }' |
    scripts 1 >"$work/file.json"
  (ulimit -t 5 && exec "$program" run "$work/file.json") 2>"$work/err" |
    "$program" check /dev/stdin >"$work/out" 2>>"$work/err"
  echo $? >"$work/status"
  judge 'run: 40,000 puts without a help, in 5 seconds' 0 'legal 10000 commits 0 open' ''
}

most_entries() {
  { echo '["began",0,1]'; yes '["saved",0]' | head -n 999998; echo '["committed",0,1]'; } |
    history >"$work/file.json"
  wants 0 'legal 1 commits 0 open' '' check "$work/file.json"
  { echo '["began",63,1]'; yes '["saved",63]' | head -n 999998; echo '["committed",63,2]'; } |
    history >"$work/file.json"
  wants 1 'illegal entry 999999 rule 3' '' check "$work/file.json"
  yes '["saved",0]' | head -n 1000001 | history >"$work/file.json"
  wants 3 '' 'refused 22' check "$work/file.json"
  echo '["began",64,1]' | history >"$work/file.json"
  wants 3 '' 'refused 22' check "$work/file.json"
  awk 'BEGIN { for (c = 0; c < 64; c++) printf "[\"began\",%d,%d]\n", c, c + 1 }' | history >"$work/file.json"
  wants 0 'legal 0 commits 64 open' '' check "$work/file.json"
}

most_steps
long_logs
many_levels
greatest_numbers
most_buckets
most_scripts
greatest_keys_of_scripts
no_help
most_entries
conclude
