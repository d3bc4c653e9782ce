#!/usr/bin/env bash
# Runs a command and prints, after its output, for each crate the processor seconds of its proofs and of
# its tests' proofs, and how long all took. The status is the command's. Nothing else on the machine may
# run `rt` meanwhile. The script looks at the processes once a second, so it
# misses the last second of each; the last line has the system's count of all.
# Usage: tests/gate_times.sh [COMMAND..]; without a command it runs rt ci
set -uo pipefail
cd "$(dirname "${BASH_SOURCE[0]}")/.." || exit
[ $# -gt 0 ] || set -- rt ci
work=$(mktemp -d)
trap 'rm -rf "$work"' EXIT

# A line for each prover that runs: its number, its seconds, its crate, and what it proves.
look() {
  local process seconds words kind
  while read -r process seconds words; do
    [[ $words =~ rattle\ (check|build).*\ --crate-name\ ([a-z_0-9]+) ]] || continue
    case " $words " in
      *' --test '*) kind=tests ;;
      *) kind=proofs ;;
    esac
    echo "$process $seconds ${BASH_REMATCH[2]} $kind"
  done < <(ps -eo pid=,cputimes=,args= -ww)
}

TIMEFORMAT='%R %U %S'
{ time "$@" 2>&1; } 2>"$work/time" &
command=$!
while kill -0 $command 2>/dev/null; do
  look >>"$work/seen"
  sleep 1
done
wait $command
status=$?
printf 'processor seconds\n%-20s %8s %8s %8s\n' crate proofs tests all
awk '
  # A process number with another crate or kind than before, or with fewer seconds, was used again.
  { key = $1 " " $3 " " $4
    if (key in last && $2 < last[key]) sum[$3, $4] += last[key]
    last[key] = $2
    crates[$3] }
  END {
    for (key in last) { split(key, part, " "); sum[part[2], part[3]] += last[key] }
    for (crate in crates) {
      all = sum[crate, "proofs"] + sum[crate, "tests"]
      printf "%-20s %8d %8d %8d\n", crate, sum[crate, "proofs"], sum[crate, "tests"], all
    }
  }' "$work/seen" | sort -k4,4nr
awk '{ printf "%d minutes by the clock, %d processor minutes\n", $1 / 60, ($2 + $3) / 60 }' "$work/time"
exit $status
