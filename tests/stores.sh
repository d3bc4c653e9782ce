#!/usr/bin/env bash
# Judges recorded histories of real stores, and one history of each class of anomaly, by the built program
# and by a plain judge (tests/plain_order_judge.py). It needs python3. tests/stores/postgres.py,
# tests/stores/hermitage.py and samples/judge/sqlite.py have recorded the histories; the classes are
# written by hand (tests/stores/anomaly.py). What is due is what the store publishes. The histories of
# PostgreSQL are judged with real time too: their entries were noted when they happened, and the verdicts
# are the same. Those of SQLite are not, since its transactions are written down when they have ended.
# The last line is 'stores: N passed, M failed', and the status is 1 if M is not 0.
# Usage: tests/stores.sh [PROGRAM]
set -uo pipefail
cd "$(dirname "${BASH_SOURCE[0]}")/.." || exit 1
name=stores
program=${1:-crates/judge/out/judge}
. tests/common.sh

# due TEST LEVEL: prints what a history of this test must be.
due() {
  case $1:$2 in
    # PostgreSQL at SERIALIZABLE is serializable, and so is SQLite.
    *:SERIALIZABLE | sqlite.py:WAL) echo serializable ;;
    # Hermitage: READ COMMITTED prevents G0, G1a, G1b and OTV. But a key that a transaction of G1b and of
    # OTV reads twice changes in between, unless it is read only once.
    G0:* | G1a:* | 'G1b, read once':* | 'OTV, read once':*) echo serializable ;;
    # Hermitage: REPEATABLE READ prevents lost updates and read skew, but not write skew (G2). In G1c
    # neither transaction sees the change of the other: a write skew too.
    G1b:REPEATABLE* | OTV:REPEATABLE* | P4:REPEATABLE* | G-single*:REPEATABLE*) echo serializable ;;
    # The drawn runs are long enough to show what their level allows. Each class is an anomaly.
    G*:* | OTV:* | P4:* | postgres.py:* | 'sqlite.py:a COMMIT in the middle' | class:*) echo 'not serializable' ;;
  esac
}

# The test, the level, the number of commits and the text of each history, four lines each.
parts() {
  python3 -c 'import json, sys
for line in sys.stdin:
    history = json.loads(line)
    commits = sum(entry[0] == "committed" for entry in history["entries"])
    print(history["test"], history["level"], commits, line, sep="\n", end="")'
}

# judge_lines [--real-time]: judges the histories of standard input, one a line.
judge_lines() {
  local test level commits wanted status words=${1:+ in real time}
  parts | while read -r test && read -r level && read -r commits && read -r line; do
    printf '%s\n' "$line" >"$work/history.json"
    wanted=$(due "$test" "$level")
    status=1
    if [ "$wanted" = serializable ]; then
      wanted="serializable $commits commits 0 open"
      status=0
    fi
    run check --serializable "$@" "$work/history.json"
    sed -i "1s/^\(not serializable\|serializable\)$words/\1/; 1s/^\(not serializable\).*/\1/; 1q" "$work/out"
    judge "$test at $level$words" "$status" "$wanted" ''
    tests/plain_order_judge.py "$@" "$work/history.json" >"$work/out" 2>"$work/err"
    echo $? >"$work/status"
    judge "$test at $level$words by the plain judge" "$status" "$wanted" ''
  done
}

judge_lines <tests/stores/hermitage.jsonl
judge_lines --real-time <tests/stores/hermitage.jsonl
judge_lines <tests/stores/postgres.jsonl
judge_lines --real-time <tests/stores/postgres.jsonl
judge_lines <tests/stores/sqlite.jsonl
tests/stores/anomaly.py >"$work/classes" 2>"$work/err"
echo $? >"$work/status"
: >"$work/out"
judge 'the classes of anomaly.py' 0 '' ''
judge_lines <"$work/classes"
conclude
