#!/usr/bin/env bash
# Measures the figures of docs/SPEED.md again, except those of striped_memory.sh, bounds.sh and c.sh. It runs the scripts that are listed
# below one after the other, each with the rounds given there, and prints a heading and the output of each. That takes some two hours
# once all is proved; nothing else should run meanwhile. To run only some of them: speed/all.sh whole run
# Usage: speed/all.sh [SCRIPT..]
set -euo pipefail
cd "$(dirname "${BASH_SOURCE[0]}")/.."

while read -r script words; do
  if [ $# -gt 0 ] && [[ " $* " != *" $script "* ]]; then
    continue
  fi
  echo "== $script $words"
  # The words are several.
  # shellcheck disable=SC2086
  "speed/$script.sh" $words </dev/null
done <<'END'
compare 10000 31
compare 100000 15
compare 1000000 5
growth 3
core 15
instructions
transactions 9
same
whole 5
counts
run 9
words 3000000 9
striped 1000000 7
replay 15
mix 7
check 5
hostile
watch 10000000 5
rising 100000 9
trims 10000000
END
