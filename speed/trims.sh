#!/usr/bin/env bash
# Runs transactions over 1,000 keys on the map with one owner, with a trim after every 100,000 (trims.rt.txt). Prints the seconds of
# processor time and the most memory.
# Usage: speed/trims.sh [TRANSACTIONS]
source "$(dirname "${BASH_SOURCE[0]}")/common.sh"
transactions=${1:-10000000}
build_on_maps trims ": txn_trace boost_core owned_map anyhow" 10 10 10
/usr/bin/time -f '%U s of processor time, %M kB at the most' "$work/trims" "$transactions" 1000 100000
