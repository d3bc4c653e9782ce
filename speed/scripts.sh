#!/usr/bin/env bash
# Writes a script file of CALLS calls, a multiple of a thousand, for WORKERS workers, a power of two. Scripts have nine operations
# and then a help, or more of both if there would be more than 10,000 scripts. Half of the operations put, a quarter take, a quarter
# get. There is one key for every five calls, except for the kind `every`. Depending on KIND, a worker uses:
#   apart   keys that no other worker uses, nor their stripes
#   shared  all keys
#   every   all keys, one for each call and 4,096 more; a third of the scripts set savepoints, half of these go back to them, and
#           one script in eight aborts at its end
# VERSION is the version of the file, 1 or 2, by default 1. In version 2, which the kind `apart` does not have, the upper half of the
# keys are 2^63 more than the lower half, and a quarter of the puts are put_ifs; a quarter of these expect a number, the others null.
# Usage: speed/scripts.sh KIND CALLS WORKERS [VERSION]
set -euo pipefail
exec awk -v kind="$1" -v calls="$2" -v workers="$3" -v version="${4:-1}" '
  function word() { seed = (seed * 16807) % 2147483647; return seed }
  function draw(    key) {
    key = word() % keys
    return kind == "apart" ? key - key % workers + script % workers : key
  }
  # A key as text.
  function shown(key) {
    return version == 2 && key >= keys / 2 ? sprintf("922337203%010.0f", 6854775808 + key - keys / 2) : key
  }
  function operation(action) {
    if (action < 2 && version == 2 && word() % 4 == 0)
      printf "[\"put_if\",%s,%s,%d],", shown(key), word() % 4 ? "null" : i, i
    else if (action < 2) printf "[\"put\",%s,%d],", shown(key), i
    else printf "[\"%s\",%s],", action == 2 ? "take" : "get", shown(key)
  }
  BEGIN {
    seed = 7
    keys = kind == "every" ? calls + 4096 : calls / 5
    rounds = calls > 100000 ? calls / 100000 : 1
    printf "{\"version\":%d,\"workers\":%d,\"stripes\":4096,\"buckets\":65536,\"tries\":1000,\"scripts\":[", version, workers
    for (script = 0; script < calls / 10 / rounds; script++) {
      printf script ? ",[" : "["
      for (round = 1; round <= rounds; round++) {
        saves = kind == "every" && word() % 3 == 0
        for (i = 0; i < 9; i++) {
          key = draw()
          operation(word() % 4)
          if (saves && i == 2) printf "[\"save\"],"
          if (saves && i == 5 && script % 2) printf "[\"back\",1],"
        }
        printf "[\"help\",%s]%s", shown(key), round < rounds ? "," : ""
      }
      if (kind == "every" && script % 8 == 7) printf ",[\"abort\"]"
      printf "]"
    }
    print "]}"
  }'
