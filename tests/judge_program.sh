#!/usr/bin/env bash
# Runs the built program `judge` from outside: each command, every exit status and message, standard
# input in parts and cut off, lines at each limit, and a real store. By default the program is the one
# that `rt ci` and ./judge build. The last line is 'judge: N passed, M failed', and the status is 1 if M
# is not 0.
# Usage: tests/judge_program.sh [PROGRAM]
set -uo pipefail
cd "$(dirname "${BASH_SOURCE[0]}")/.." || exit 1
name=judge
program=${1:-crates/judge/out/judge}
# shellcheck source=common.sh
. tests/common.sh

usage=$(sed -n '/^pub(crate) const USAGE: &str = "/,/";$/{s/^pub(crate) const USAGE: &str = "//;s/";$//;p;}' \
  crates/judge_program/src/failure.rt)

# The entries of a history file, one a line.
lines_of() {
  python3 -c 'import json, sys
for entry in json.load(open(sys.argv[1]))["entries"]: print(json.dumps(entry))' "$1"
}

# watches STATUS OUT ERR WHAT WORD..: runs `judge watch` on standard input with these arguments.
watches() {
  local status=$1 out=$2 err=$3 what=$4
  shift 4
  "$program" watch "$@" >"$work/out" 2>"$work/err"
  echo $? >"$work/status"
  judge "watch $*: $what" "$status" "$out" "$err"
}

usage_errors() {
  wants 2 '' "$usage"
  wants 2 '' "$usage" nothing
  wants 2 '' "$usage" check
  wants 2 '' "$usage" check examples/checked.json examples/checked.json
  wants 2 '' "$usage" check --stripes 8 examples/checked.json
  wants 2 '' "$usage" watch examples/checked.json
  wants 2 '' "$usage" check --commit-order --serializable examples/checked.json
  wants 2 '' "$usage" check --show-order examples/checked.json
  wants 2 '' "$usage" check --commit-order --show-order examples/checked.json
  wants 2 '' "$usage" check --serializable --serializable examples/checked.json
  wants 2 '' "$usage" why --commit-order --serializable examples/checked.json
  wants 2 '' "$usage" why --serializable --show-order examples/checked.json
  wants 2 '' "$usage" why --dot examples/checked.json
  wants 2 '' "$usage" why --commit-order --dot examples/checked.json
  wants 2 '' "$usage" why --commit-order --serializable --dot examples/checked.json
  wants 2 '' "$usage" why --serializable --dot --dot examples/checked.json
  wants 2 '' "$usage" check --serializable --dot examples/checked.json
  wants 2 '' "$usage" check --real-time examples/checked.json
  wants 2 '' "$usage" check --commit-order --real-time examples/checked.json
  wants 2 '' "$usage" check --serializable --real-time --real-time examples/checked.json
  wants 2 '' "$usage" why --real-time examples/checked.json
  wants 2 '' "$usage" watch --real-time
  wants 2 '' "$usage" watch --dot
  wants 2 '' "$usage" watch --commit-order --stripes 8
  wants 2 '' "$usage" watch --serializable
  local number
  for number in 0 4097 -1 x '' 8x 18446744073709551616; do
    wants 2 '' "$usage" watch "--stripes=$number"
  done
  for number in -1 x '' 8x 18446744073709551616; do
    wants 2 '' "$usage" check --serializable "--most-branches=$number" examples/checked.json
    wants 2 '' "$usage" why --serializable "--most-branches=$number" examples/checked.json
  done
  wants 2 '' "$usage" check --serializable examples/checked.json --most-branches
  wants 2 '' "$usage" check --serializable --most-branches 1 --most-branches 1 examples/checked.json
  wants 2 '' "$usage" check --most-branches 1 examples/checked.json
  wants 2 '' "$usage" check --commit-order --most-branches 1 examples/checked.json
  wants 2 '' "$usage" why --most-branches 1 examples/checked.json
  wants 2 '' "$usage" watch --most-branches 1
  wants 2 '' "$usage" check $'\xff'
}

help_and_version() {
  wants 0 "$usage" '' --help
  wants 0 "$usage" '' -h
  wants 0 "$usage" '' check --help
  wants 0 'judge 1.0.0' '' --version
  "$program" --help >/dev/full 2>"$work/err"
  echo $? >"$work/status"
  : >"$work/out"
  judge 'help to a full device' 4 '' 'write failed'
}

files() {
  wants 0 'legal 2 commits 0 open' '' check examples/checked.json
  wants 0 'legal 2 commits 0 open' '' check --commit-order examples/checked.json
  wants 0 'serializable 2 commits 0 open' '' check --serializable examples/checked.json
  wants 1 'illegal entry 125 rule 1' '' check samples/judge/example.json
  wants 0 'legal 4 commits 4 open' '' check --commit-order samples/judge/example.json
  wants 0 'serializable 4 commits 4 open' '' check --serializable samples/judge/example.json
  wants 3 '' 'refused 21' check examples/first_commit.json
  wants 3 '' 'refused 20' check --commit-order README.md
  wants 0 'serializable in real time 2 commits 0 open' '' check --serializable --real-time examples/checked.json
  wants 0 'serializable in real time 4 commits 4 open' '' check --real-time --serializable samples/judge/example.json
  wants 3 '' 'refused 20' check --serializable README.md
  wants 3 '' 'refused 20' check --serializable --real-time README.md
  wants 4 '' 'read failed' check examples/missing.json
  wants 4 '' 'read failed' check --serializable examples/missing.json
  wants 4 '' 'read failed' check examples
  "$program" check - <samples/judge/example.json >"$work/out" 2>"$work/err"
  echo $? >"$work/status"
  judge 'check - of standard input' 1 'illegal entry 125 rule 1' ''
  "$program" check examples/checked.json >/dev/full 2>"$work/err"
  echo $? >"$work/status"
  : >"$work/out"
  judge 'check to a full device' 4 '' 'write failed'
  "$program" watch </dev/null >/dev/full 2>"$work/err"
  echo $? >"$work/status"
  : >"$work/out"
  judge 'watch to a full device' 4 '' 'write failed'
}

# Small histories, and the verdict of each judge: the table of docs/VERDICTS.md.
each() {
  local what=$1 by_locks=$2 by_commits=$3 in_any=$4
  watches "${by_locks:0:1}" "${by_locks:2}" '' "$what" --stripes 8 <"$work/lines"
  watches "${by_commits:0:1}" "${by_commits:2}" '' "$what" --commit-order <"$work/lines"
  printf '{"version":3,"stripes":8,"entries":[%s]}' "$(paste -sd , "$work/lines")" >"$work/history.json"
  run check --serializable "$work/history.json"
  judge "check --serializable: $what" "${in_any:0:1}" "${in_any:2}" ''
}

verdicts() {
  local what entries by_locks by_commits in_any rows=0
  while IFS=$'\t' read -r what entries by_locks by_commits in_any; do
    python3 -c 'import json, sys
for entry in json.loads(sys.argv[1]): print(json.dumps(entry))' "$entries" >"$work/lines"
    each "$what" "$by_locks" "$by_commits" "$in_any"
    rows=$((rows + 1))
  done < <(rows_of 'The three judges')
  echo "$rows" >"$work/out"
  : >"$work/err"
  echo 0 >"$work/status"
  judge 'rows of the table of docs/VERDICTS.md' 0 11 ''
}

# The order of a serializable history, and other answers in any order.
orders() {
  printf '%s' '{"version":3,"stripes":8,"entries":[["began",0,1],["began",1,2],["asked",0,"get",1],["did",0,null],
["asked",1,"put",1,5],["did",1,null],["committed",1,1],["committed",0,2],["began",2,3]]}' >"$work/history.json"
  wants 0 'serializable 2 commits 1 open
transaction 1
transaction 2' '' check --serializable --show-order "$work/history.json"
  wants 0 'serializable 2 commits 1 open' '' check "$work/history.json" --serializable
  "$program" check --show-order --serializable - <"$work/history.json" >"$work/out" 2>"$work/err"
  echo $? >"$work/status"
  judge 'check --serializable of standard input' 0 'serializable 2 commits 1 open
transaction 1
transaction 2' ''
  printf '%s' '{"version":3,"stripes":8,"entries":[["began",0,1],["asked",0,"get",1],["did",0,null],["asked",0,"get",1],
["did",0,5],["committed",0,1]]}' >"$work/history.json"
  wants 1 'not serializable: the replies of transaction 1 contradict one another' '' \
    check --serializable --show-order "$work/history.json"
  "$program" check --serializable "$work/history.json" >/dev/full 2>"$work/err"
  echo $? >"$work/status"
  : >"$work/out"
  judge 'check --serializable to a full device' 4 '' 'write failed'
}

# The rows of the first table below a heading of docs/VERDICTS.md: what a row is, its entries as an
# array, and each verdict after its status.
rows_of() {
  python3 -c 'import re, sys
rows = open("docs/VERDICTS.md").read().split("### " + sys.argv[1] + "\n", 1)[1].split("|---|", 1)[1]
for row in rows.split("\n\n", 1)[0].split("\n")[1:]:
    cells = [cell.strip() for cell in row.strip("|").split("|")]
    entries = re.findall(r"`([^`]*)`", cells[0])
    statuses = {"legal": 0, "serializable": 0, "undecided": 5}
    verdicts = [v.strip("`") for v in cells[1:]]
    verdicts = [f"{statuses.get(v.split()[0], 1)} {v}" for v in verdicts]
    print(cells[0].rsplit(": ", 1)[1], "[" + ",".join(entries) + "]", *verdicts, sep="\t")' "$1"
}

input() {
  watches 0 'legal 0 commits 0 open' '' 'nothing' </dev/null
  printf '\n \t\r\n["began",0,1]\r\n\n' | watches 0 'legal 0 commits 1 open' '' 'blank lines'
  printf '["began",0,1]\n["committed",0,1]' |
    watches 0 'legal 1 commits 0 open' '' 'a last line without its line feed'
  printf '["began",0,1]\n["committed",0' |
    watches 3 '' 'refused 20 line 2' 'an input that ends within an entry'
  printf '["began",0,1]\n["committed",0,2' |
    watches 3 '' 'refused 20 line 2' 'an input that ends within a number'
  printf '\n["began",0,1]\nno\n' | watches 3 '' 'refused 20 line 3' 'no JSON'
  printf '["began",0,1]["began",1,2]\n' | watches 3 '' 'refused 20 line 1' 'two entries a line'
  printf '["began",0,1],\n' | watches 3 '' 'refused 20 line 1' 'a comma'
  printf '\xff\n' | watches 3 '' 'refused 20 line 1' 'no UTF-8'
  printf '\0\n' | watches 3 '' 'refused 20 line 1' 'a zero byte'
  printf '["began",0]\n' | watches 3 '' 'refused 21 line 1' 'an element too few'
  printf '["began",0,1,1]\n' | watches 3 '' 'refused 21 line 1' 'an element too many'
  printf '{"began":1}\n' | watches 3 '' 'refused 21 line 1' 'an object'
  printf '["began",0,1.0]\n' | watches 3 '' 'refused 21 line 1' 'a float'
  printf '["began",64,1]\n' | watches 3 '' 'refused 22 line 1' 'a caller out of range'
  printf '["busy",0,"get",1,64]\n' | watches 3 '' 'refused 22 line 1' 'a holder out of range'
  printf '["began",0,2]\nno\n' | watches 1 'illegal entry 0 rule 3' '' 'a bad entry before a line that is none'
  printf '["beg\\u0061n",0,1]\n' | watches 0 'legal 0 commits 1 open' '' 'an escape'
  printf '["began",63,1]\n' | watches 0 'legal 0 commits 1 open' '' 'the last caller'
  printf '["began", 0, 1]\r \n' | watches 0 'legal 0 commits 1 open' '' 'white space within and after an entry'
  for line in '["began",00,1]' '["began",0,01]' '["began",0,1,]' '["began",,0,1]' '["did",0,nul]' '["began",0,1' \
    '["beg\tan",0,1]' '["began",0,1]\rx'; do
    printf '%b\n' "$line" | watches 3 '' 'refused 20 line 1' "no JSON: $line"
  done
  for line in '[]' '["began",0,-1]' '["began",0,18446744073709551616]' '["busy",0,"put_if",1,10,12,2,3]'; do
    printf '%s\n' "$line" | watches 3 '' 'refused 21 line 1' "no entry: $line"
  done
}

# explains STATUS OUT ERR WHAT VERSION WORD..: runs `judge why` on a history of this version with 8
# locks, whose entries are the lines of standard input.
explains() {
  local status=$1 out=$2 err=$3 what=$4 version=$5
  shift 5
  python3 -c 'import json, sys
entries = [json.loads(line) for line in sys.stdin]
json.dump({"version": int(sys.argv[1]), "stripes": 8, "entries": entries}, open(sys.argv[2], "w"))' \
    "$version" "$work/history.json"
  run why "$@" "$work/history.json"
  judge "why $*: $what" "$status" "$out" "$err"
}

# The line of each reason, written by hand.
reasons() {
  local put='["began",0,1]
["asked",0,"put",1,10]
["did",0,null]'
  explains 0 'legal 0 commits 1 open' '' 'a legal history' 1 <<<"$put"
  explains 1 'illegal entry 6 rule 1
the entry:
  6 ["did",1,99]
the reply that was due: 10
key 1 was last changed at entry 2 by transaction 1 of caller 0: committed
entries on key 1 since entry 3, where caller 0 committed its value:
  5 ["asked",1,"get",1]
entries of transaction 2 of caller 1:
  4 ["began",1,2]
  5 ["asked",1,"get",1]' '' 'a reply of what was never committed' 1 <<<"$put"'
["committed",0,1]
["began",1,2]
["asked",1,"get",1]
["did",1,99]'
  explains 1 'illegal entry 4 rule 1
the entry:
  4 ["did",0,null]
the reply that was due: 10
key 1 was last changed at entry 2 by transaction 1 of caller 0: open
entries on key 1, whose value no commit has changed:
  1 ["asked",0,"put",1,10]
  2 ["did",0,null]
  3 ["asked",0,"get",1]
entries of transaction 1 of caller 0:
  0 ["began",0,1]
  1 ["asked",0,"put",1,10]
  2 ["did",0,null]
  3 ["asked",0,"get",1]' '' 'a change of its own that is not seen' 1 <<<"$put"'
["asked",0,"get",1]
["did",0,null]'
  explains 1 'illegal entry 8 rule 1
the entry:
  8 ["did",1,10]
the reply that was due: none
key 1 was last changed at entry 2 by transaction 1 of caller 0: undone
entries on key 1, whose value no commit has changed:
  1 ["asked",0,"put",1,10]
  2 ["did",0,null]
  4 ["undone",0]
  7 ["asked",1,"get",1]
entries of transaction 2 of caller 1:
  6 ["began",1,2]
  7 ["asked",1,"get",1]' '' 'a change that was taken back' 1 <<<"$put"'
["leave",0,null]
["undone",0]
["aborted",0]
["began",1,2]
["asked",1,"get",1]
["did",1,10]'
  explains 1 'illegal entry 2 rule 1
the entry:
  2 ["did",0,7]
the reply that was due: none
key 1 was never changed
entries on key 1, whose value no commit has changed:
  1 ["asked",0,"get",1]
entries of transaction 1 of caller 0:
  0 ["began",0,1]
  1 ["asked",0,"get",1]' '' 'a key that nobody changed' 1 <<<'["began",0,1]
["asked",0,"get",1]
["did",0,7]'
  explains 1 'illegal entry 4 rule 2
the entry:
  4 ["asked",1,"get",9]
lock 1 is held by transaction 1 of caller 0 since entry 1' '' 'a lock that is held' 1 <<<"$put"'
["began",1,2]
["asked",1,"get",9]'
  explains 1 'illegal entry 1 rule 2
the entry:
  1 ["busy",0,"get",9,1]
lock 1 is free
busy must name the holder, and not caller 1' '' 'a lock that is free' 1 <<<'["began",0,1]
["busy",0,"get",9,1]'
  explains 1 'illegal entry 1 rule 2
the entry:
  1 ["busy",0,"get",9,1]
lock 1 is free
caller 1 has begun no transaction' '' 'a caller that has begun nothing' 3 <<<'["began",0,1]
["busy",0,"get",9,1]'
  explains 1 'illegal entry 1 rule 2
the entry:
  1 ["busy",0,"get",9,0]
lock 1 is free
busy must name another caller' '' 'a caller that is busy over itself' 3 <<<'["began",0,1]
["busy",0,"get",9,0]'
}

# The line on the entries that are allowed instead of an entry, in each phase.
shapes() {
  explains 1 'illegal entry 0 rule 3
the entry:
  0 ["began",0,2]
what may stand there: ["began",0,1]
entries of caller 0:' '' 'a wrong number' 1 <<<'["began",0,2]'
  explains 1 'illegal entry 1 rule 3
the entry:
  1 ["committed",0,2]
what may stand there: asked, busy, saved, leave or ["committed",0,1]
entries of transaction 1 of caller 0:
  0 ["began",0,1]' '' 'a wrong place' 1 <<<'["began",0,1]
["committed",0,2]'
  explains 1 'illegal entry 2 rule 3
the entry:
  2 ["saved",0]
what may stand there: did or ["leave",0,null]
entries of transaction 1 of caller 0:
  0 ["began",0,1]
  1 ["asked",0,"get",1]' '' 'an operation without its reply' 1 <<<'["began",0,1]
["asked",0,"get",1]
["saved",0]'
  explains 1 'illegal entry 4 rule 3
the entry:
  4 ["aborted",0]
what may stand there: ["undone",0]
entries of transaction 1 of caller 0:
  0 ["began",0,1]
  1 ["asked",0,"put",1,10]
  2 ["did",0,null]
  3 ["leave",0,null]' '' 'a change that is not taken back' 1 <<<'["began",0,1]
["asked",0,"put",1,10]
["did",0,null]
["leave",0,null]
["aborted",0]'
  explains 1 'illegal entry 2 rule 3
the entry:
  2 ["undone",0]
what may stand there: ["aborted",0]
entries of transaction 1 of caller 0:
  0 ["began",0,1]
  1 ["leave",0,null]' '' 'nothing to take back' 1 --commit-order <<<'["began",0,1]
["leave",0,null]
["undone",0]'
  explains 1 'illegal entry 2 rule 3
the entry:
  2 ["undone",0]
what may stand there: undone for each change above level 0, then ["returned",0,0]
entries of transaction 1 of caller 0:
  0 ["began",0,1]
  1 ["leave",0,0]' '' 'nothing to take back above a level' 1 <<<'["began",0,1]
["leave",0,0]
["undone",0]'
}

# The lines on a transaction that may not commit.
commits() {
  explains 1 'illegal entry 7 rule 1
the entry:
  7 ["committed",0,2]
the first reply at key 1 was none; the reply that was due: 5
key 1 was last changed at entry 5 by transaction 2 of caller 1: committed
entries on key 1 since entry 6, where caller 1 committed its value:
entries of transaction 1 of caller 0:
  0 ["began",0,1]
  2 ["asked",0,"get",1]
  3 ["did",0,null]' '' 'a reader that commits after the writer' 1 --commit-order <<<'["began",0,1]
["began",1,2]
["asked",0,"get",1]
["did",0,null]
["asked",1,"put",1,5]
["did",1,null]
["committed",1,1]
["committed",0,2]'
  explains 1 'illegal entry 5 rule 1
the entry:
  5 ["committed",0,1]
no map gives the transaction all of its replies
the first reply that contradicts those before it:
  4 ["did",0,5]
entries of transaction 1 of caller 0:
  0 ["began",0,1]
  1 ["asked",0,"get",1]
  2 ["did",0,null]
  3 ["asked",0,"get",1]
  4 ["did",0,5]' '' 'two replies that differ' 1 --commit-order <<<'["began",0,1]
["asked",0,"get",1]
["did",0,null]
["asked",0,"get",1]
["did",0,5]
["committed",0,1]'
  explains 1 'illegal entry 11 rule 1
the entry:
  11 ["committed",0,2]
no map gives the transaction all of its replies
the first reply that contradicts those before it:
  8 ["did",0,null]
entries of transaction 2 of caller 0:
  4 ["began",0,2]
  5 ["asked",0,"put",1,7]
  6 ["did",0,5]
  7 ["asked",0,"get",1]
  8 ["did",0,null]
  9 ["asked",0,"get",1]
  10 ["did",0,5]' '' 'a change of its own that is not seen, by commits' 1 --commit-order <<<'["began",0,1]
["asked",0,"put",1,5]
["did",0,null]
["committed",0,1]
["began",0,2]
["asked",0,"put",1,7]
["did",0,5]
["asked",0,"get",1]
["did",0,null]
["asked",0,"get",1]
["did",0,5]
["committed",0,2]'
}

# The write skew of docs/VERDICTS.md.
write_skew='["began",0,1]
["began",1,2]
["asked",0,"get",1]
["did",0,null]
["asked",1,"get",2]
["did",1,null]
["asked",0,"put",2,5]
["did",0,null]
["asked",1,"put",1,6]
["did",1,null]
["committed",0,1]
["committed",1,2]'

# A value that is put three times, and taken once.
put_thrice='["began",0,1]
["asked",0,"put",1,5]
["did",0,null]
["committed",0,1]
["began",0,2]
["asked",0,"put",1,5]
["did",0,null]
["committed",0,2]
["began",0,3]
["asked",0,"put",1,5]
["did",0,null]
["committed",0,3]
["began",0,4]
["asked",0,"take",1]
["did",0,5]
["committed",0,4]'

# The lines on a history that is not serializable, written by hand.
anomalies() {
  explains 0 'serializable 0 commits 1 open' '' 'a serializable history' 3 --serializable <<<'["began",0,1]'
  explains 1 'not serializable: G2-item, cycle of 2; transaction 1 read none at key 1, which transaction 2 replaced; '\
'transaction 2 read none at key 2, which transaction 1 replaced
transaction 1 of caller 0 read none at key 1, which transaction 2 of caller 1 replaced:
  2 ["asked",0,"get",1]
  3 ["did",0,null]
  8 ["asked",1,"put",1,6]
  9 ["did",1,null]
transaction 2 of caller 1 read none at key 2, which transaction 1 of caller 0 replaced:
  4 ["asked",1,"get",2]
  5 ["did",1,null]
  6 ["asked",0,"put",2,5]
  7 ["did",0,null]' '' 'a write skew' 3 --serializable <<<"$write_skew"
  explains 1 'not serializable: transaction 2 read 5 at key 1, which no committed transaction left
entries of transaction 2 of caller 1 on key 1:
  4 ["asked",1,"get",1]
  5 ["did",1,5]' '' 'a value of an aborted transaction' 3 --serializable <<<'["began",0,1]
["asked",0,"put",1,5]
["did",0,null]
["began",1,2]
["asked",1,"get",1]
["did",1,5]
["asked",1,"get",2]
["did",1,null]
["leave",0,null]
["undone",0]
["aborted",0]
["committed",1,1]'
  explains 1 'not serializable: the replies of transaction 1 contradict one another
entries of transaction 1 of caller 0:
  0 ["began",0,1]
  2 ["asked",0,"get",1]
  3 ["did",0,null]
  4 ["asked",0,"get",1]
  5 ["did",0,5]
  6 ["committed",0,1]' '' 'two replies that differ, in any order' 3 --serializable <<<'["began",0,1]
["began",1,2]
["asked",0,"get",1]
["did",0,null]
["asked",0,"get",1]
["did",0,5]
["committed",0,1]'
  explains 1 'not serializable: entry 2 has the wrong shape
the entry:
  2 ["committed",0,2]
entries of transaction 1 of caller 0:
  0 ["began",0,1]' '' 'a wrong place, in any order' 3 --serializable <<<'["began",0,1]
["began",1,2]
["committed",0,2]'
  explains 1 'not serializable: transaction 3 read none at key 1, which no serial order gives
entries of transaction 3 of caller 0 on key 1:
  13 ["asked",0,"get",1]
  14 ["did",0,null]' '' 'a read of two states' 3 --serializable <<<'["began",0,1]
["asked",0,"put",1,5]
["did",0,null]
["asked",0,"put",2,6]
["did",0,null]
["committed",0,1]
["began",0,2]
["asked",0,"take",1]
["did",0,5]
["asked",0,"put",2,7]
["did",0,6]
["committed",0,2]
["began",0,3]
["asked",0,"get",1]
["did",0,null]
["asked",0,"get",2]
["did",0,6]
["committed",0,3]'
  explains 5 'undecided key 1 value none: transactions 4' '' 'a value put three times and taken once' 3 --serializable <<<"$put_thrice"
}

# A search that must go back: only the take brings back what the first put replaced, so that this put comes last.
branches() {
  local number
  ran '0:"put",1,5:null' 0:c '1:"put",1,6:null' 1:c '2:"take",1:6' 2:c >"$work/lines"
  explains 0 'serializable 3 commits 0 open' '' 'branches by default' 3 --serializable <"$work/lines"
  for number in 1 10000 +00018446744073709551615; do
    explains 0 'serializable 3 commits 0 open' '' "$number branches" 3 --serializable "--most-branches=$number" <"$work/lines"
  done
  explains 5 'undecided key 1 value none: transactions 3' '' 'no branches' 3 --most-branches 0 --serializable <"$work/lines"
  run check --show-order --serializable --most-branches 1 "$work/history.json"
  judge 'an order by a branch' 0 $'serializable 3 commits 0 open\ntransaction 2\ntransaction 3\ntransaction 1' ''
  run check --serializable --most-branches 0 "$work/history.json"
  judge 'no order without branches' 5 'undecided key 1 value none: transactions 3' ''
}

# classed CLASS STATEMENTS WHAT: runs `judge check --serializable` on the entries of standard input, which
# have a cycle of this class with these statements. If the class is one of real time, runs it with
# `--real-time`; without it the history is serializable.
classed() {
  local words=() in_time='' count
  printf '{"version":3,"stripes":8,"entries":[%s]}' "$(paste -sd ,)" >"$work/history.json"
  if [[ $1 = *-realtime ]]; then
    words=(--real-time) in_time=' in real time' count=$(grep -o '"committed"' "$work/history.json" | wc -l)
    run check --serializable "$work/history.json"
    judge "without real time: $3" 0 "serializable $count commits 0 open" ''
  fi
  run check --serializable "${words[@]}" "$work/history.json"
  judge "class: $3" 1 "not serializable$in_time: $1, cycle of $2" ''
}

# ran STEP..: the entries of callers that run a transaction each. A step is CALLER:OPERATION:REPLY, as in
# 0:"get",1:null, or CALLER:c, the commit.
ran() {
  local step caller rest begun=' ' begins=0 commits=0
  for step; do
    caller=${step%%:*} rest=${step#*:}
    if [[ $begun != *" $caller "* ]]; then
      begun+="$caller " begins=$((begins + 1))
      echo "[\"began\",$caller,$begins]"
    fi
    if [ "$rest" = c ]; then
      commits=$((commits + 1))
      echo "[\"committed\",$caller,$commits]"
    else
      printf '["asked",%s,%s]\n["did",%s,%s]\n' "$caller" "${rest%:*}" "$caller" "${rest##*:}"
    fi
  done
}

# The class of a cycle, by hand: lost updates, then by the number of `replaced`.
classes() {
  ran '0:"put",1,5:null' '1:"put",1,6:null' 0:c 1:c | classed 'lost update' '2; '\
'transaction 1 read none at key 1, which transaction 2 replaced; '\
'transaction 2 read none at key 1, which transaction 1 replaced' 'both put'
  ran '0:"put",1,5:null' 0:c '1:"get",1:5' '2:"take",1:5' '1:"put",1,7:5' 1:c 2:c | classed 'lost update' '2; '\
'transaction 2 read 5 at key 1, which transaction 3 replaced; '\
'transaction 3 read 5 at key 1, which transaction 2 replaced' 'a put and a take'
  ran '0:"get",1:null' '1:"get",2:null' '0:"put",2,5:null' '1:"put",1,5:null' 0:c 1:c | classed G2-item '2; '\
'transaction 1 read none at key 1, which transaction 2 replaced; '\
'transaction 2 read none at key 2, which transaction 1 replaced' 'one value at two keys'
  ran '0:"get",1:null' '1:"get",2:null' '2:"get",3:null' '0:"put",2,5:null' '1:"put",3,6:null' '2:"put",1,7:null' \
    0:c 1:c 2:c | classed G2-item '3; '\
'transaction 1 read none at key 1, which transaction 3 replaced; '\
'transaction 3 read none at key 3, which transaction 2 replaced; '\
'transaction 2 read none at key 2, which transaction 1 replaced' 'three anti-dependencies'
  ran '0:"get",1:null' '1:"put",1,5:null' '1:"put",2,6:null' 1:c '0:"get",2:6' 0:c | classed G-single '2; '\
'transaction 2 left 6 at key 2, which transaction 1 read; '\
'transaction 1 read none at key 1, which transaction 2 replaced' 'a read skew'
  ran '0:"put",1,5:null' '1:"put",2,6:null' '0:"get",2:6' '1:"get",1:5' 0:c 1:c | classed G1c '2; '\
'transaction 1 left 5 at key 1, which transaction 2 read; '\
'transaction 2 left 6 at key 2, which transaction 1 read' 'each reads from the other'
  ran '0:"put",1,5:null' 0:c '1:"get",1:null' 1:c | classed G-single-realtime '2; '\
'transaction 1 committed before transaction 2 began; '\
'transaction 2 read none at key 1, which transaction 1 replaced' 'a read of an old state'
  ran '0:"get",1:5' 0:c '1:"put",1,5:null' 1:c | classed G1c-realtime '2; '\
'transaction 1 committed before transaction 2 began; '\
'transaction 2 left 5 at key 1, which transaction 1 read' 'a read of what comes later'
  ran '0:"get",1:null' '1:"put",1,5:null' 1:c '2:"get",2:null' '0:"put",2,6:null' 0:c 2:c | classed G2-item-realtime '3; '\
'transaction 2 committed before transaction 3 began; '\
'transaction 3 read none at key 2, which transaction 1 replaced; '\
'transaction 1 read none at key 1, which transaction 2 replaced' 'an old state beside a new one'
}

# What real time decides, and what it leaves open.
in_time() {
  ran '0:"get",1:null' '1:"put",1,5:null' 1:c 0:c | explains 0 'serializable in real time 2 commits 0 open' '' \
    'a reader that began before the writer committed' 3 --serializable --real-time
  explains 1 'not serializable in real time: transaction 2 read none at key 1, which no serial order in real time gives
entries of transaction 2 of caller 0 on key 1:
  5 ["asked",0,"put",1,5]
  6 ["did",0,null]' '' 'a value put three times and taken once, in real time' 3 --serializable --real-time <<<"$put_thrice"
  explains 1 'not serializable in real time: entry 0 has the wrong shape
the entry:
  0 ["began",0,2]
entries of caller 0:' '' 'a wrong shape, in real time' 3 --serializable --real-time <<<'["began",0,2]'
  ran '0:"put",1,5:null' 0:c '7:"get",1:null' 7:c >"$work/lines"
  explains 1 'not serializable in real time: G-single-realtime, cycle of 2; transaction 1 committed before transaction 2 began; '\
'transaction 2 read none at key 1, which transaction 1 replaced
transaction 1 of caller 0 committed before transaction 2 of caller 7 began:
  3 ["committed",0,1]
  4 ["began",7,2]
transaction 2 of caller 7 read none at key 1, which transaction 1 of caller 0 replaced:
  5 ["asked",7,"get",1]
  6 ["did",7,null]
  1 ["asked",0,"put",1,5]
  2 ["did",0,null]' '' 'a read of an old state' 3 --serializable --real-time <"$work/lines"
  explains 1 'digraph {
  // not serializable in real time: G-single-realtime, cycle of 2; transaction 1 committed before transaction 2 began; '\
'transaction 2 read none at key 1, which transaction 1 replaced
  label="G-single-realtime";
  1 [label="transaction 1 of caller 0"];
  1 -> 2 [label="1 committed before\n2 began"];
  2 [label="transaction 2 of caller 7"];
  2 -> 1 [label="2 read none at key 1,\nwhich 1 replaced"];
}' '' 'the graph of a read of an old state' 3 --serializable --real-time --dot <"$work/lines"
}

# The graph of a cycle, by hand, and that of other verdicts, which has no edges.
graphs() {
  explains 1 'digraph {
  // not serializable: G2-item, cycle of 2; transaction 1 read none at key 1, which transaction 2 replaced; '\
'transaction 2 read none at key 2, which transaction 1 replaced
  label="G2-item";
  1 [label="transaction 1 of caller 0"];
  1 -> 2 [label="1 read none at key 1,\nwhich 2 replaced"];
  2 [label="transaction 2 of caller 1"];
  2 -> 1 [label="2 read none at key 2,\nwhich 1 replaced"];
}' '' 'the graph of a write skew' 3 --serializable --dot <<<"$write_skew"
  ran '4:"get",1:null' '9:"put",1,5:null' '9:"put",2,6:null' 9:c '4:"get",2:6' 4:c >"$work/lines"
  explains 1 'digraph {
  // not serializable: G-single, cycle of 2; transaction 2 left 6 at key 2, which transaction 1 read; '\
'transaction 1 read none at key 1, which transaction 2 replaced
  label="G-single";
  2 [label="transaction 2 of caller 9"];
  2 -> 1 [label="2 left 6 at key 2,\nwhich 1 read"];
  1 [label="transaction 1 of caller 4"];
  1 -> 2 [label="1 read none at key 1,\nwhich 2 replaced"];
}' '' 'the graph of a read skew' 3 --dot --serializable <"$work/lines"
  explains 0 'digraph {
  // serializable 0 commits 1 open
}' '' 'the graph of a serializable history' 3 --serializable --dot <<<'["began",0,1]'
  explains 1 'digraph {
  // not serializable: entry 0 has the wrong shape
}' '' 'the graph of a wrong shape' 3 --serializable --dot <<<'["began",0,2]'
  ran '0:"get",1:7' 0:c >"$work/lines"
  explains 1 'digraph {
  // not serializable: transaction 1 read 7 at key 1, which no committed transaction left
}' '' 'the graph of a value that nobody left' 3 --serializable --dot <"$work/lines"
  explains 5 'digraph {
  // undecided key 1 value none: transactions 4
}' '' 'the graph of an undecided history' 3 --serializable --dot <<<"$put_thrice"
  wants 3 '$: no JSON, or nested more than 127 deep, at line 1 column 1' 'refused 20' why --serializable --dot README.md
  wants 4 '' 'read failed' why --serializable --dot examples/missing.json
  "$program" why --serializable --dot examples/checked.json >/dev/full 2>"$work/err"
  echo $? >"$work/status"
  : >"$work/out"
  judge 'a graph to a full device' 4 '' 'write failed'
}

# flawed PLACE FAULT LINE VERSION: runs `judge why` on a history of this version, whose entries are
# the lines of standard input, and which is refused with this fault. The line gives the value at the
# place, and the one that is expected there.
flawed() {
  local place=$1 fault=$2 line=$3 version=$4
  explains 3 "\$$place: $line" "refused $fault" "$place is wrong" "$version"
}

# refuses FAULT LINE FILE: runs `judge why` on a file with this text.
refuses() {
  printf '%s' "$3" >"$work/refused.json"
  run why "$work/refused.json"
  judge "why of $(head -c 60 "$work/refused.json")" 3 "$2" "refused $1"
}

number='a whole number from 0 to 18446744073709551615'
caller='a whole number from 0 to 63'
other='a number with a sign, a fraction or an exponent, or too large'

# The element at fault in an entry, written by hand.
flawed_entries() {
  local names ops
  names='"asked", "busy", "did", "undone", "began", "saved", "leave", "returned", "committed" or "aborted"'
  ops='"put", "take", "get" or "put_if"'
  flawed '.entries[1][0]' '21 entry 1' "an unknown word; expected $names" 1 <<<'["began",0,1]
["commited",0,1]'
  flawed '.entries[0][0]' '21 entry 0' "nothing; expected $names" 1 <<<'[]'
  flawed '.entries[0][0]' '21 entry 0' "1; expected $names" 1 <<<'[1,0,1]'
  flawed '.entries[0]' '21 entry 0' 'an object; expected an array' 1 <<<'{"began":1}'
  flawed '.entries[0][1]' '21 entry 0' "$other; expected $caller" 1 <<<'["began",-1,1]'
  flawed '.entries[0][1]' '21 entry 0' "nothing; expected $caller" 1 <<<'["aborted"]'
  flawed '.entries[0][2]' '21 entry 0' "$other; expected $number" 1 <<<'["began",0,1.0]'
  flawed '.entries[0][2]' '21 entry 0' "$other; expected $number" 1 <<<'["began",0,18446744073709551616]'
  flawed '.entries[0][2]' '21 entry 0' "a text; expected $number" 1 <<<'["committed",0,"1"]'
  flawed '.entries[0][2]' '21 entry 0' "a text; expected $number, or null" 1 <<<'["did",0,"x"]'
  flawed '.entries[0][2]' '21 entry 0' "true or false; expected $number, or null" 1 <<<'["leave",0,false]'
  flawed '.entries[0][2]' '21 entry 0' "null; expected $number" 1 <<<'["returned",0,null]'
  flawed '.entries[0][3]' '21 entry 0' 'an element too many' 1 <<<'["began",0,1,1]'
  flawed '.entries[0][2]' '21 entry 0' 'an element too many' 1 <<<'["saved",0,1]'
  flawed '.entries[0][2]' '21 entry 0' "an unknown word; expected $ops" 2 <<<'["asked",0,"swap",1]'
  flawed '.entries[0][2]' '21 entry 0' \
    'an unknown word; expected "put", "take" or "get", and from version 2 on "put_if"' 1 \
    <<<'["asked",0,"put_if",1,1,1]'
  flawed '.entries[0][4]' '21 entry 0' "nothing; expected $number" 1 <<<'["asked",0,"put",1]'
  flawed '.entries[0][4]' '21 entry 0' 'an element too many' 1 <<<'["asked",0,"get",1,1]'
  flawed '.entries[0][4]' '21 entry 0' "an array of length 2; expected $number, or null" 2 \
    <<<'["asked",0,"put_if",1,[1,2],1]'
  flawed '.entries[0][6]' '21 entry 0' "true or false; expected $caller" 2 <<<'["busy",0,"put_if",1,null,1,true]'
  flawed '.entries[0][4]' '21 entry 0' "nothing; expected $caller" 1 <<<'["busy",0,"take",1]'
  flawed '.entries[0]' '21 entry 0' 'null; expected an array' 1 <<<'null'
  flawed '.entries[0][1]' '21 entry 0' "a text; expected $caller" 1 <<<'["asked","0","get",1]'
  flawed '.entries[0][5]' '21 entry 0' "nothing; expected $number" 2 <<<'["asked",0,"put_if",1,5]'
  flawed '.entries[0][6]' '21 entry 0' "nothing; expected $caller" 3 <<<'["busy",0,"put_if",1,null,5]'
  # A wrong shape anywhere is found before a number that is out of range.
  flawed '.entries[1][2]' '21 entry 1' "nothing; expected $number" 7 <<<'["began",64,1]
["began",0]'
  flawed '.entries[1][1]' 22 "64; expected $caller" 1 <<<'["began",0,1]
["began",64,1]'
  flawed '.entries[0][5]' 22 "77; expected $caller" 1 <<<'["busy",0,"put",1,1,77]'
  flawed '.entries[0][1]' 22 "64; expected $caller" 3 <<<'["busy",64,"get",9,64]'
  flawed '.version' 22 '4; expected a whole number from 1 to 3' 4 <<<'["began",64,1]'
}

# The lines of a file that is refused.
refusals() {
  local stripes='a whole number from 1 to 4096' entries='an array of at most 1000000 entries' of
  local version='a whole number from 1 to 3' no='$: no JSON, or nested more than 127 deep, at line'
  flawed_entries
  wants 3 "$no 1 column 1" 'refused 20' why README.md
  wants 3 "$no 1 column 1" 'refused 20' why --serializable README.md
  refuses 20 "$no 1 column 13" '{"version":1,'
  refuses 20 "$no 1 column 0" ''
  refuses 20 "$no 1 column 12" '{"version":NaN}'
  refuses 20 "$no 2 column 11" $'{"version":1,\n"stripes":}'
  wants 3 "\$.entries: nothing; expected $entries" 'refused 21' why examples/scripts.json
  wants 3 "\$.entries: nothing; expected $entries" 'refused 21' why examples/first_commit.json
  refuses 21 '$: an array of length 1; expected an object' '[1]'
  refuses 21 "\$.version: nothing; expected $version" '{"stripes":8,"entries":[]}'
  refuses 21 "\$.stripes: nothing; expected $stripes" '{"version":1,"entries":[]}'
  refuses 21 "\$.version: a text; expected $version" '{"version":"1","stripes":8,"entries":[]}'
  refuses 21 "\$.stripes: null; expected $stripes" '{"version":1,"stripes":null,"entries":[[]]}'
  refuses 21 "\$.entries: an object; expected $entries" '{"version":9,"stripes":0,"entries":{}}'
  refuses 22 "\$.stripes: 0; expected $stripes" '{"version":1,"stripes":0,"entries":[["began",64,1]]}'
  refuses 22 "\$.stripes: 4097; expected $stripes" '{"version":1,"stripes":4097,"entries":[]}'
  python3 -c 'print("{\"version\":1,\"stripes\":0,\"entries\":[", end="")
print(*["[\"saved\",0]"] * 1000001, sep=",", end="]}")' >"$work/refused.json"
  wants 3 "\$.stripes: 0; expected $stripes" 'refused 22' why "$work/refused.json"
  sed -i 's/"stripes":0/"stripes":1/' "$work/refused.json"
  wants 3 "\$.entries: an array of length 1000001; expected $entries" 'refused 22' why "$work/refused.json"
  head -c 16777217 /dev/zero >"$work/refused.json"
  wants 3 '$: more than 16777216 bytes' 'refused 22' why "$work/refused.json"
  wants 4 '' 'read failed' why examples/missing.json
  wants 4 '' 'read failed' why --serializable examples/missing.json
  wants 2 '' "$usage" why
  wants 2 '' "$usage" why --stripes 8 examples/checked.json
  wants 0 'legal 2 commits 0 open' '' why examples/checked.json
  wants 0 'legal 4 commits 4 open' '' why --commit-order samples/judge/example.json
  for of in examples/checked.json samples/judge/example.json README.md; do
    "$program" why "$of" >/dev/full 2>"$work/err"
    echo $? >"$work/status"
    : >"$work/out"
    judge "why $of to a full device" 4 '' 'write failed'
    "$program" why --serializable "$of" >/dev/full 2>"$work/err"
    echo $? >"$work/status"
    : >"$work/out"
    judge "why --serializable $of to a full device" 4 '' 'write failed'
  done
}

# What became of each script of examples/scripts.json, written by hand: for the history in
# docs/VERDICTS.md, and for an empty one.
script_outcomes() {
  local lost='script 0 worker 0 given up
script 1 worker 0 given up
script 2 worker 0 given up
0 committed 0 aborted 3 given up'
  printf '%s' '{"version":1,"stripes":8,"entries":[["began",0,1],["asked",0,"put",1,10],["did",0,null],
["asked",0,"put",2,20],["did",0,null],["saved",0],["asked",0,"take",1],["did",0,10],["asked",0,"get",9],
["did",0,null],["leave",0,1],["undone",0],["returned",0,1],["asked",0,"get",1],["did",0,10],
["committed",0,1],["began",0,2],["asked",0,"put",1,11],["did",0,10],["leave",0,null],["undone",0],
["aborted",0],["began",0,3],["committed",0,2]]}' >"$work/history.json"
  wants 0 'script 0 worker 0 committed 1 entry 15
script 1 worker 0 aborted entry 21
script 2 worker 0 committed 2 entry 23
2 committed 1 aborted 0 given up' '' outcomes examples/scripts.json "$work/history.json"
  echo '{"version":1,"stripes":8,"entries":[]}' >"$work/empty.json"
  wants 1 "$lost" '' outcomes examples/scripts.json "$work/empty.json"
  "$program" outcomes examples/scripts.json - <"$work/empty.json" >"$work/out" 2>"$work/err"
  echo $? >"$work/status"
  judge 'outcomes with a history of standard input' 1 "$lost" ''
  wants 3 '' 'scripts refused 20' outcomes README.md "$work/empty.json"
  wants 3 '' 'history refused 20' outcomes examples/scripts.json README.md
  wants 4 '' 'scripts read failed' outcomes examples/missing.json "$work/empty.json"
  wants 4 '' 'history read failed' outcomes examples/scripts.json examples/missing.json
  "$program" outcomes examples/scripts.json "$work/empty.json" >/dev/full 2>"$work/err"
  echo $? >"$work/status"
  : >"$work/out"
  judge 'outcomes to a full device' 4 '' 'write failed'
  wants 2 '' "$usage" outcomes
  wants 2 '' "$usage" outcomes examples/scripts.json
  wants 2 '' "$usage" outcomes - -
  wants 2 '' "$usage" outcomes --commit-order examples/scripts.json "$work/empty.json"
}

# An entry as a line of this many bytes.
long() {
  printf '["began",0,1%*s]' $(($1 - 13)) ''
}

limits() {
  long 1000 | watches 0 'legal 0 commits 1 open' '' 'a line of 1,000 bytes'
  long 1001 | watches 3 '' 'refused 22 line 1' 'a line of 1,001 bytes'
  { echo; long 1001; echo; } | watches 3 '' 'refused 22 line 2' 'a second line of 1,001 bytes'
  head -c 5000000 /dev/zero | watches 3 '' 'refused 22 line 1' 'a line that does not end'
  printf '%*s\n' 1001 '' | watches 3 '' 'refused 22 line 1' 'a blank line that is too long'
  local stripes
  for stripes in 1 +8 0008 4096; do
    printf '["began",0,1]\n' | watches 0 'legal 0 commits 1 open' '' 'a number of locks' --stripes "$stripes"
  done
  printf '["began",0,1]\n["began",1,2]\n["asked",0,"get",1]\n["asked",1,"get",2]\n' >"$work/lines"
  watches 1 'illegal entry 3 rule 2' '' 'one lock' --stripes 1 <"$work/lines"
  watches 0 'legal 0 commits 2 open' '' 'two locks' --stripes 2 <"$work/lines"
  watches 0 'legal 0 commits 2 open' '' '4,096 locks' <"$work/lines"
}

# More entries than a file may have, in little memory.
many() {
  (
    ulimit -v 100000
    awk 'BEGIN {
      for (t = 1; t <= 300000; t++) {
        c = t % 64
        before = t > 1000 ? t - 1000 : "null"
        printf "[\"began\",%d,%d]\n[\"asked\",%d,\"put\",%d,%d]\n", c, t, c, t % 1000, t
        printf "[\"did\",%d,%s]\n[\"committed\",%d,%d]\n", c, before, c, t
      }
    }' |
      "$program" watch "$@" >"$work/out" 2>"$work/err"
    echo $? >"$work/status"
  )
  judge "watch $*: 1,200,000 entries" 0 'legal 300000 commits 0 open' ''
}

# With too little memory for the input, only the line of the fault is printed.
little_memory() {
  awk 'BEGIN {
    print "[\"began\",0,1]"
    for (k = 1; k <= 330000; k++) printf "[\"asked\",0,\"put\",%d,%d]\n[\"did\",0,null]\n", k, k
  }' >"$work/lines"
  { printf '{"entries":[' && paste -sd , "$work/lines" && echo '],"stripes":8,"version":3}'; } >"$work/long.json"
  local words limit
  for words in check 'check --commit-order' why 'why --commit-order'; do
    # The words are several.
    # shellcheck disable=SC2086
    wants 0 'legal 0 commits 1 open' '' $words "$work/long.json"
  done
  wants 0 'serializable 0 commits 1 open' '' check --serializable "$work/long.json"
  wants 0 'serializable 0 commits 1 open' '' why --serializable "$work/long.json"
  for words in check 'check --commit-order' 'check --serializable' 'why --serializable' why 'why --commit-order' 'outcomes examples/scripts.json'; do
    for limit in 8000 16000 24000 32000; do
      # The words are several.
      # shellcheck disable=SC2086
      (ulimit -v "$limit"; exec "$program" $words "$work/long.json") >"$work/out" 2>"$work/err"
      echo $? >"$work/status"
      judge "$words with $limit kB" 4 '' 'no memory'
    done
  done
  for words in watch 'watch --commit-order'; do
    # shellcheck disable=SC2086
    (ulimit -v 16000; exec "$program" $words <"$work/lines") >"$work/out" 2>"$work/err"
    echo $? >"$work/status"
    judge "$words with 16000 kB" 4 '' 'no memory'
  done
}

# The answer is given at the first bad entry, while the input goes on.
early() {
  { printf '["began",0,2]\n'; sleep 30; } 2>/dev/null |
    timeout 10 "$program" watch >"$work/out" 2>"$work/err"
  echo "${PIPESTATUS[1]}" >"$work/status"
  judge 'the first bad entry of an input that goes on' 1 'illegal entry 0 rule 3' ''
}

# It does not matter in which parts the input arrives.
parts() {
  lines_of samples/judge/example.json >"$work/lines"
  local size
  for size in 1 7 64; do
    python3 -c 'import sys
text, size = open(sys.argv[1], "rb").read(), int(sys.argv[2])
for at in range(0, len(text), size):
    sys.stdout.buffer.write(text[at:at + size])
    sys.stdout.buffer.flush()' "$work/lines" "$size" |
      watches 1 'illegal entry 125 rule 1' '' "parts of $size bytes" --stripes 16
  done
}

# The store of docs/JUDGE.md, with and without a bug: watch says of its lines what check says of its file.
stores() {
  local seed bug
  for seed in 1 2; do
    for bug in '' '--bug dirty_read' '--bug oldest_first' '--bug lost_update'; do
      # The words are several.
      # shellcheck disable=SC2086
      samples/judge/store.py --seed $seed $bug | sed 's/"version": *1/"version":3/' >"$work/store.json"
      lines_of "$work/store.json" >"$work/lines"
      run check "$work/store.json"
      watches "$(cat "$work/status")" "$(cat "$work/out")" '' "a store, seed $seed $bug" \
        --stripes 16 <"$work/lines"
    done
  done
}

# A real store: legal without a bug, and illegal with either bug for at least one of four seeds.
real_stores() {
  local words seed found
  for words in '' --shared-cache; do
    for seed in 1 2; do
      # shellcheck disable=SC2086
      samples/judge/sqlite.py $words --seed $seed >"$work/sqlite.json"
      run check --commit-order "$work/sqlite.json"
      sed -i 's/legal [0-9]* commits/legal N commits/' "$work/out"
      judge "sqlite.py $words --seed $seed" 0 'legal N commits 0 open' ''
    done
  done
  for seed in 1 2; do
    samples/judge/sqlite.py --no-counter --transactions 400 --seed $seed >"$work/sqlite.json"
    run check --serializable "$work/sqlite.json"
    sed -i 's/serializable [0-9]* commits/serializable N commits/' "$work/out"
    judge "sqlite.py --no-counter --seed $seed" 0 'serializable N commits 0 open' ''
  done
  for words in '--bug cut' '--shared-cache --bug read_uncommitted'; do
    found='not found'
    for seed in 1 2 3 4; do
      # shellcheck disable=SC2086
      samples/judge/sqlite.py $words --seed $seed >"$work/sqlite.json" 2>/dev/null
      lines_of "$work/sqlite.json" 2>/dev/null |
        "$program" watch --commit-order >"$work/verdict" 2>"$work/err"
      # `why` prints the same verdict, and then the lines that lead to the bug.
      run why --commit-order "$work/sqlite.json"
      if ! head -n 1 "$work/out" | cmp -s - "$work/verdict"; then
        found='two verdicts'
      elif grep -q '^the first reply at key\|^no map gives' "$work/out"; then
        [ "$found" != 'not found' ] || found=found
      fi
    done
    echo "$found" >"$work/out"
    echo 0 >"$work/status"
    judge "sqlite.py $words" 0 found ''
  done
}

usage_errors
help_and_version
files
verdicts
orders
reasons
shapes
commits
anomalies
classes
in_time
branches
graphs
refusals
script_outcomes
input
limits
many
many --commit-order
little_memory
early
parts
stores
real_stores
conclude
