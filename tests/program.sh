#!/usr/bin/env bash
# Runs the built program from outside: each command on each file of examples/, every exit status,
# standard error to the letter, /dev/stdin, outputs that fail, and little memory. At the end come a few
# calls of `unthreaded`. By default the programs are those that `rt ci` builds. The last line is
# 'program: N passed, M failed', and the status is 1 if M is not 0.
# Usage: tests/program.sh [PROGRAM [UNTHREADED]]
set -uo pipefail
cd "$(dirname "${BASH_SOURCE[0]}")/.." || exit 1
name=program
program=${1:-crates/boostmap/out/boostmap}
unthreaded=${2:-crates/unthreaded/out/unthreaded}
. tests/common.sh

# The usage, from the tests of the command line, without its last line feed.
usage=$(sed -n '/^const USAGE: &str = "/,/^";$/{s/^const USAGE: &str = "//;/^";$/d;p;}' \
  crates/program_tests/src/commands.rt)

# Prints the output of an example: the lines of crates/examples/stdout below these words. With one worker
# `run` prints what `mix` prints, except that its history is of version 3.
shown() {
  awk -v call="${1/#run /mix --seed 7 }" '
    /^(replay|mix|check) / { inside = $0 == call; next }
    inside { print }' crates/examples/stdout |
    if [ "${1%% *}" = run ]; then sed 's/"version":[12]}$/"version":3}/'; else cat; fi
}

each_command_on_each_example() {
  local file kind
  for file in first_commit many_callers doubling keys_of_64_bits first_scripts scripts checked; do
    case $file in
      *scripts) kind='mix --seed 7' ;;
      checked) kind=check ;;
      *) kind=replay ;;
    esac
    for words in replay run 'mix --seed 7' check; do
      if [ "$words" = run ] && [ "$kind" = 'mix --seed 7' ]; then
        continue # What threads make of scripts is judged below.
      elif [ "$words" = "$kind" ]; then
        # The words are several.
        # shellcheck disable=SC2086
        wants 0 "$(shown "$words $file.json")" '' $words "examples/$file.json"
      else
        # shellcheck disable=SC2086
        wants 3 '' 'refused 21' $words "examples/$file.json"
      fi
    done
  done
}

# Prints what README shows below a line that begins with these words, up to the next empty line or
# command.
in_readme() {
  awk -v first="    $1" '
    index($0, first) == 1 { inside = 1; next }
    !/^    [^$]/ { inside = 0 }
    inside { print substr($0, 5) }' README.md
}

# The history of examples/first_scripts.json, worked out by hand.
first_history='{"entries":[["began",0,1],["asked",0,"put",1,10],["did",0,null],["committed",0,1],["began",0,2],["asked",0,"take",1],["did",0,10],["leave",0,null],["undone",0],["aborted",0]],"stripes":8,"version":3}'

readme() {
  wants 0 "$first_history" '' run examples/first_scripts.json
  cp "$work/out" "$work/readme.json"
  wants 0 "$(in_readme '$ ./boostmap check')" '' check "$work/readme.json"
}

usage_errors() {
  wants 2 '' "$usage"
  wants 2 '' "$usage" help
  wants 2 '' "$usage" --help
  wants 2 '' "$usage" --version
  wants 2 '' "$usage" replay
  wants 2 '' "$usage" replay examples/first_commit.json examples/first_commit.json
  wants 2 '' "$usage" replay --seed 7 examples/first_commit.json
  wants 2 '' "$usage" run
  wants 2 '' "$usage" run --seed 7 examples/scripts.json
  wants 2 '' "$usage" mix examples/scripts.json
  wants 2 '' "$usage" mix --seed +7 examples/scripts.json
  wants 2 '' "$usage" mix --seed 0x7 examples/scripts.json
  wants 2 '' "$usage" mix --seed 18446744073709551616 examples/scripts.json
  wants 2 '' "$usage" Check examples/checked.json
  wants 2 '' "$usage" check $'\xff'
}

seeds() {
  # Two workers that share no lock: the history shows the order of their turns.
  local gets='["get",1],["get",2],["get",3],["get",1],["get",2],["get",3],["get",1],["get",2]'
  local head='{"version":1,"workers":2,"stripes":8,"buckets":8,"tries":0,"scripts":'
  echo "${head}[[$gets],[${gets//\"get\",/\"get\",2}]]}" >"$work/two.json"
  wants 0 "$(shown 'mix --seed 7 scripts.json')" '' mix --seed=007 examples/scripts.json
  wants 0 "$(shown 'mix --seed 7 scripts.json')" '' mix --seed 18446744073709551615 examples/scripts.json
  local seed
  for seed in 1 4294967297 4294967296 1; do
    run mix --seed "$seed" "$work/two.json"
    cksum <"$work/out" >>"$work/sums"
    "$program" mix --seed "$seed" "$work/two.json" | "$program" check /dev/stdin \
      >"$work/out" 2>"$work/err"
    echo $? >"$work/status"
    sed -i 's/legal [0-9]* commits/legal N commits/' "$work/out"
    judge "the history of seed $seed" 0 'legal N commits 0 open' ''
  done
  # Equal seeds print the same bytes, and seeds that differ only in their high or low half do not.
  sort -u "$work/sums" | wc -l >"$work/out"
  : >"$work/err"
  echo 0 >"$work/status"
  judge 'how many histories four seeds give' 0 3 ''
}

# The order of threads is not fixed, so check judges each history: legal, with nothing open.
threads() {
  wants 0 "$(shown 'run scripts.json')" '' run examples/scripts.json
  local file workers turn status
  # Six scripts that share two stripes.
  local put='["put",1,10],["put",2,20]],[["put",2,21],["take",1]],[["put",4,40],["abort"]'
  local get='["get",1],["save"],["put",3,30],["back",1]],[["take",2],["help",5]],[["get",2]'
  for workers in 1 2 3 4 5 6; do
    echo "{\"version\":1,\"workers\":$workers,\"stripes\":2,\"buckets\":8,\"tries\":3," \
      "\"scripts\":[[$put],[$get]]}" >"$work/workers$workers.json"
  done
  for file in examples/first_scripts.json "$work"/workers?.json "$work/two.json"; do
    for turn in 1 2 3; do
      run run "$file"
      status=$(cat "$work/status")
      "$program" check /dev/stdin <"$work/out" >"$work/line" 2>>"$work/err"
      sed 's/legal [0-9]* commits/legal N commits/' "$work/line" >"$work/out"
      echo "$status" >"$work/status"
      judge "run ${file##*/}, time $turn" 0 'legal N commits 0 open' ''
    done
  done
}

illegal_histories() {
  sed 's/\["did",0,10\]/["did",0,99]/' examples/checked.json >"$work/reply.json"
  wants 1 'illegal entry 12 rule 1' '' check "$work/reply.json"
  sed 's/\["undone",1\],//' examples/checked.json >"$work/shape.json"
  wants 1 'illegal entry 8 rule 3' '' check "$work/shape.json"
  echo '{"version":1,"stripes":8,"entries":[["began",0,1],["busy",0,"get",9,1]]}' >"$work/locks.json"
  wants 1 'illegal entry 1 rule 2' '' check "$work/locks.json"
}

refused_files() {
  head -c 70 examples/first_commit.json >"$work/cut.json"
  wants 3 '' 'refused 20' replay "$work/cut.json"
  wants 3 '' 'refused 20' check /dev/null
  sed 's/\["commit",0\]/["ask",0,"put","1",10],["commit",0]/' examples/first_commit.json \
    >"$work/step.json"
  wants 3 '' 'refused 21 step 4' replay "$work/step.json"
  sed 's/\["undone",1\]/["undone"]/' examples/checked.json >"$work/entry.json"
  wants 3 '' 'refused 21 entry 8' check "$work/entry.json"
  sed 's/\["abort"\]/["abort",1]/' examples/first_scripts.json >"$work/script.json"
  wants 3 '' 'refused 21 script 1' mix --seed 7 "$work/script.json"
  wants 3 '' 'refused 21 script 1' run "$work/script.json"
  sed 's/"callers":2/"callers":"2"/' examples/first_commit.json >"$work/member.json"
  wants 3 '' 'refused 21' replay "$work/member.json"
  sed 's/"callers":2/"callers":65/' examples/first_commit.json >"$work/limit.json"
  wants 3 '' 'refused 22' replay "$work/limit.json"
  { cat examples/first_commit.json; head -c 16777091 /dev/zero | tr '\0' ' '; } >"$work/long.json"
  wants 3 '' 'refused 22' replay "$work/long.json"
  head -c 16777216 "$work/long.json" >"$work/longest.json"
  wants 0 "$(shown 'replay first_commit.json')" '' replay "$work/longest.json"
  cat "$work/longest.json" | "$program" replay /dev/stdin >"$work/out" 2>"$work/err"
  echo $? >"$work/status"
  judge 'replay of the longest file through a pipe' 0 "$(shown 'replay first_commit.json')" ''
}

# The files of files.tsv: one that is accepted must run, and for one that is refused the line is compared.
shapes_of_files() {
  local command wanted text
  while IFS=$'\t' read -r command wanted text; do
    printf '%s' "$text" >"$work/shape.json"
    command=${command% *}
    # A command is one word or three.
    # shellcheck disable=SC2086
    run ${command/mix/mix --seed 7} "$work/shape.json"
    if [ "$wanted" = taken ]; then
      sed -i 's/^[01]$/taken/' "$work/status"
      : >"$work/out"
      judge "$command $text" taken '' ''
    else
      judge "$command $text" 3 '' "$wanted"
    fi
  done <tests/files.tsv
}

# The words of each command, and an example for it.
commands() {
  printf '%s\n' 'replay many_callers' 'run scripts' 'mix --seed 7 scripts' 'check checked'
}

# output WHAT STATUS ERR WORD..: runs the program with the standard output of this call.
output() {
  "$program" "${@:4}" 2>"$work/err" </dev/null
  echo $? >"$work/status"
  : >"$work/out"
  judge "${*:4}: standard output $1" "$2" '' "$3"
}

# errors WHAT STATUS WORD..: runs the program with the standard error of this call.
errors() {
  "$program" "${@:3}" >"$work/out" </dev/null
  echo $? >"$work/status"
  : >"$work/err"
  judge "${*:3}: standard error $1" "$2" '' ''
}

failing_devices() {
  local words file name
  mkfifo "$work/pipe"
  exec 7<>"$work/pipe" 8>"$work/pipe" 7>&-
  while read -r words; do
    file=examples/${words##* }.json
    words=${words% *}
    # The words of a command are several.
    # shellcheck disable=SC2086
    {
      for name in "$work/missing.json" "$work" '' /proc/self/mem; do
        wants 4 '' 'read failed' $words "$name"
      done
      output 'is full' 4 'write failed' $words "$file" >/dev/full
      output 'is closed' 4 'write failed' $words "$file" >&-
      output 'is for reading' 4 'write failed' $words "$file" 1</dev/null
      output 'is a pipe without a reader' 4 'write failed' $words "$file" >&8
      output 'is full, and not needed' 3 'refused 20' $words "$work/cut.json" >/dev/full
      errors 'is full' 3 $words "$work/cut.json" 2>/dev/full
      errors 'is closed' 3 $words "$work/cut.json" 2>&-
      errors 'is a pipe without a reader' 3 $words "$work/cut.json" 2>&8
    }
  done < <(commands)
  exec 8>&-
  errors 'is closed' 2 help 2>&-
}

# The output is longer than a pipe holds, and the pipe's reader ends after the first bytes.
early_pipes() {
  local words head='{"version":1,"stripes":1,"buckets":2,'
  {
    echo "$head"'"callers":1,"steps":[["sweep"]'
    yes ',["sweep"]' | head -n 20000
    echo ']}'
  } >"$work/sweeps.json"
  {
    echo "$head"'"workers":1,"tries":0,"scripts":[[["get",1]'
    yes ',["get",1]' | head -n 5000
    echo ']]}'
  } >"$work/gets.json"
  for words in "replay $work/sweeps.json" "run $work/gets.json" "mix --seed 7 $work/gets.json"; do
    # shellcheck disable=SC2086
    {
      "$program" $words 2>"$work/err"
      echo $? >"$work/status"
    } | head -c 10 >"$work/out"
    : >"$work/out"
    judge "$words to a pipe that ends early" 4 '' 'write failed'
  done
}

standard_input() {
  local words file from at
  while read -r words; do
    file=examples/${words##* }.json
    from=$(shown "${words% *} ${words##* }.json")
    words=${words% *}
    # shellcheck disable=SC2086
    {
      "$program" $words /dev/stdin >"$work/out" 2>"$work/err" <"$file"
      echo $? >"$work/status"
      judge "$words: a file as standard input" 0 "$from" ''
      (head -c 60 "$file"; sleep 0.1; tail -c +61 "$file") |
        "$program" $words /dev/stdin >"$work/out" 2>"$work/err"
      echo $? >"$work/status"
      judge "$words: a pipe as standard input" 0 "$from" ''
      for at in 1 2 3; do
        head -c $((at * 40)) "$file"
        sleep 0.05
      done | "$program" $words /dev/stdin >"$work/out" 2>"$work/err"
      echo $? >"$work/status"
      judge "$words: a pipe in pieces that are no file" 3 '' 'refused 20'
      "$program" $words /dev/stdin >"$work/out" 2>"$work/err" <&-
      echo $? >"$work/status"
      judge "$words: standard input is closed" 4 '' 'read failed'
    }
  done < <(commands)
}

# With a file of 16 MB and too little memory for it, only the line of the fault is printed. The file
# is a step file in plain form, which replay reads without an index as long as the file; the other
# commands make one before they refuse it.
little_memory() {
  local words limit limits
  for words in replay run 'mix --seed 7' check; do
    limits=(8000 16000 24000 32000)
    [ "$words" = replay ] && limits=(8000 12000 14000 16000)
    for limit in "${limits[@]}"; do
      # shellcheck disable=SC2086
      (ulimit -v "$limit"; exec "$program" $words "$work/longest.json") >"$work/out" 2>"$work/err"
      echo $? >"$work/status"
      judge "$words with $limit kB" 4 '' 'no memory'
    done
  done
}

# The program without threads prints the same, but runs no scripts in threads.
without_threads() {
  local program=$unthreaded words file
  while read -r words; do
    file=examples/${words##* }.json
    words=${words% *}
    if [ "$words" = run ]; then
      wants 4 '' 'no thread' run "$file"
    else
      # shellcheck disable=SC2086
      wants 0 "$(shown "$words ${file##*/}")" '' $words "$file"
    fi
  done < <(commands)
  wants 1 'illegal entry 12 rule 1' '' check "$work/reply.json"
  wants 3 '' 'refused 20' replay "$work/cut.json"
  wants 4 '' 'read failed' run "$work/missing.json"
  wants 2 '' "$usage" run
}

each_command_on_each_example
readme
usage_errors
seeds
threads
illegal_histories
refused_files
shapes_of_files
failing_devices
early_pipes
standard_input
little_memory
without_threads
conclude
