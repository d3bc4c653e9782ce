#!/usr/bin/env bash
# Judges forged histories by `boostmap check` and by a plain judge (tests/forged.py): 10,000 files
# of seed 1, which take half a minute. It needs python3.
# Usage: tests/forged.sh [FILES [SEED [PROGRAM]]]
set -euo pipefail
cd "$(dirname "${BASH_SOURCE[0]}")/.."
exec tests/forged.py "${3:-crates/boostmap/out/boostmap}" "${1:-10000}" "${2:-1}"
