#!/usr/bin/env bash
# Judges drawn histories by `judge check --serializable`, with and without `--real-time`, and by a plain judge
# (tests/forged_order.py): 100,000 of seed 1. It needs python3.
# Usage: tests/forged_order.sh [HISTORIES [SEED [PROGRAM]]]
set -euo pipefail
cd "$(dirname "${BASH_SOURCE[0]}")/.."
exec tests/forged_order.py "${3:-crates/judge/out/judge}" "${1:-100000}" "${2:-1}"
