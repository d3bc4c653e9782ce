#!/usr/bin/env bash
# Prints how large the repository is: crates; lines of code, tests, definitions and proofs, where a line of more than 140 columns
# counts as the lines into which it would be broken; and words of pages and of crates' heads.
# Usage: tests/size.sh [REVISION], by default what is in the folder.
set -euo pipefail
cd "$(dirname "${BASH_SOURCE[0]}")/.."
if [ $# -gt 0 ]; then
  work=$(mktemp -d)
  trap 'rm -rf "$work"' EXIT
  git archive "$1" | tar -x -C "$work"
  cd "$work"
fi
tests=(crates/*_tests)

# The lines of the files that find names on standard input.
lines() {
  xargs -r -d '\n' cat | awk '{ n += length($0) > 140 ? int((length($0) + 139) / 140) : 1 } END { print n + 0 }'
}

without_tests() {
  grep -vE '^crates/[a-z_]+_tests/'
}

echo "crates       $(grep -cE '^[a-z]' crates.txt)"
echo "code         $(find crates -path '*/src/*.rt' | without_tests | lines)"
echo "tests        $(find "${tests[@]}" -path '*/src/*.rt' | lines)"
echo "definitions  $(find crates -path '*/specs/*.antt' | lines)"
echo "proofs       $(find crates -path '*/proofs/*.antt' | lines)"
echo "page words   $(find . -maxdepth 3 -name "*.md" -not -path "*/must-fail/*" -not -path "./out/*" -exec cat {} + | wc -w)"
echo "head words   $(cat crates/*/src/{lib,main}.rt | grep '^//!' | sed 's,^//!,,' | wc -w)"
