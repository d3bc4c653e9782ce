#!/usr/bin/env bash
# Writes a legal history file of a kind, with this number of entries, or with fewer if the file would be too long.
# Usage: speed/history.sh KIND ENTRIES
#   saved       one transaction of savepoints only
#   undone      one transaction that puts values at 10,000 keys again and again, and takes all back
#   deep        one transaction that puts a value at a different key with each change, and takes all back
#   savepoints  one transaction with a savepoint before each change, which goes back level by level
#   short       64 callers whose transactions do one operation each and commit
#   callers     64 callers whose long transactions are open at the same time; every second one takes all its changes back
set -euo pipefail
exec awk -v kind="$1" -v entries="$2" '
  function entry(text) {
    bytes += length(text) + 3
    if (count == entries || bytes > 16777216) exit
    printf "%s[%s]", count++ ? "," : "", text
  }
  function began(c) { entry("\"began\"," c "," ++begun) }
  function saved(c) { entry("\"saved\"," c) }
  function leave(c, level) { entry("\"leave\"," c "," level) }
  function committed(c) { entry("\"committed\"," c "," ++commits); standing[c] = 0 }
  function asked(c, name, key, value) {
    entry("\"asked\"," c ",\"" name "\"," key (name == "put" ? "," value : ""))
    names[c] = name; keys[c] = key; values[c] = value
  }
  # The reply of the operation that was asked for; a change is noted with the value before it.
  function did(c,    key, old) {
    key = keys[c]
    old = key in map ? map[key] : "null"
    entry("\"did\"," c "," old)
    if (names[c] == "get" || names[c] == "take" && old == "null") return
    changed[c, ++standing[c]] = key
    before[c, standing[c]] = old
    if (names[c] == "put") map[key] = values[c]; else delete map[key]
  }
  function undone(c,    key, old) {
    entry("\"undone\"," c)
    key = changed[c, standing[c]]
    old = before[c, standing[c]--]
    if (old == "null") delete map[key]; else map[key] = old
  }
  function aborted(c) {
    leave(c, "null")
    while (standing[c] > 0) undone(c)
    entry("\"aborted\"," c)
  }
  function change(c, key, value) { asked(c, "put", key, value); did(c) }

  # If each change has a different key and all are taken back, a file has no room for more entries than these.
  function one_undone(many,    i, changes) {
    if (many > 10000 && entries > 885000) entries = 885000
    changes = int(entries / 3) - 1
    began(0)
    for (i = 3 * changes + 3; i < entries; i++) saved(0)
    for (i = 0; i < changes; i++) change(0, i * 7919 % many, i % 10)
    aborted(0)
  }
  function levels(    i, n) {
    n = int((entries - 2) / 6)
    began(0)
    for (i = 1; i <= n; i++) { saved(0); change(0, i % 10, i % 9) }
    for (i = n; i > 0; i--) { leave(0, i); undone(0); entry("\"returned\",0," i) }
    committed(0)
    began(0)
    for (;;) saved(0)
  }
  function operation(c, i) {
    if (i % 8 == 7) asked(c, "take", c + 64 * (i % 77))
    else if (i % 8 == 6) asked(c, "get", c + 64 * (i % 77))
    else asked(c, "put", c + 64 * (i % 1001), i % 10)
  }
  function one_each(    i, c) {
    for (i = 0;; i++) {
      c = i % 64
      began(c); operation(c, int(i / 64)); did(c); committed(c)
    }
  }
  function all_open(    length_of_each, i, c) {
    length_of_each = int(entries / 512)
    for (;;) {
      for (c = 0; c < 64; c++) began(c)
      for (i = 0; i < length_of_each; i++) {
        for (c = 0; c < 64; c++) operation(c, i)
        for (c = 0; c < 64; c++) did(c)
        if (i % 16 == 0) for (c = 0; c < 64; c++) saved(c)
      }
      for (c = 0; c < 64; c++) if (c % 2) aborted(c); else committed(c)
    }
  }

  BEGIN {
    head = "{\"version\":1,\"stripes\":4096,\"entries\":["
    bytes = length(head) + 1
    printf "%s", head
    if (kind == "saved") { began(0); for (;;) saved(0) }
    else if (kind == "undone") one_undone(10000)
    else if (kind == "deep") one_undone(333337)
    else if (kind == "savepoints") levels()
    else if (kind == "short") one_each()
    else if (kind == "callers") all_open()
    else { print "unknown kind: " kind > "/dev/stderr"; exit }
  }
  END { print "]}" }'
