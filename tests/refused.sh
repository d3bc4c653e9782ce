#!/usr/bin/env bash
# Refuses memory to the built program, in each command on small files, and to the built tests that
# are meant for it. Allocation 1 is refused, then 2, and so on until a run meets no refusal. The
# commands and most of those tests also run with eight allocations in a row refused, and with all from
# one on.
#
# A command must end as it does with memory, or with status 4 and only `no memory` (`run` also with
# `no thread`). If steps are answered `refused 14`, the rest must be as if these steps were not there,
# and a history that `mix` or `run` wrote must be legal. A test must pass; if more than one allocation is
# refused, some may give up. None may crash, or take ten seconds. If the largest allocation of a test
# is known, the test must ask for one of that size, and for no larger one.
#
# `rt ci` builds everything that is needed, and `rt test` the tests of one crate. It needs a C compiler
# (CC) and python3. It prints a line for each command and test; the last is 'refused: N passed, M
# failed', and the status is 1 if M is not 0.
# Usage: tests/refused.sh [PART..]; a PART is `commands` or a crate with such tests, like table_tests
set -euo pipefail
cd "$(dirname "${BASH_SOURCE[0]}")/.."
work=$(mktemp -d)
trap 'rm -rf "$work"' EXIT
"${CC:-cc}" -O2 -shared -fPIC -o "$work/refuse.so" tests/refuse.c
tests/refused.py "$work" "$@"
