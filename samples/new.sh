#!/usr/bin/env bash
# Lays out a new repository in the folder NAME, with callers of the striped map: the folders that it
# needs, their lines of crates.txt, HANDLES, and the crate `counter`, in which two threads count in
# one map. docs/LIBRARY.md describes it. `rt check` in NAME/crates/counter proves it.
# Usage: samples/new.sh NAME
set -eu
[ $# = 1 ] || { echo "usage: samples/new.sh NAME" >&2; exit 2; }
here=$(cd "$(dirname "${BASH_SOURCE[0]}")/.." && pwd)
there=$1
[ ! -e "$there" ] || { echo "new.sh: $there exists already" >&2; exit 1; }

# The crates that the striped map needs, lowest first.
below="split_key txn_words txn_trace stripe_shard striped_map"

mkdir -p "$there/crates/counter/src" "$there/crates/counter/proofs" "$there/crates/counter/specs"
for crate in $below; do
  mkdir "$there/crates/$crate"
  for part in src specs proofs; do
    if [ -d "$here/crates/$crate/$part" ]; then cp -r "$here/crates/$crate/$part" "$there/crates/$crate/"; fi
  done
  grep "^$crate\b" "$here/crates.txt" >>"$there/crates.txt"
done
echo "counter: striped_map anyhow" >>"$there/crates.txt"
echo "Handles allowed: Threads." >"$there/HANDLES"
printf 'out/\n' >"$there/.gitignore"
for text in counter main; do
  cp "$here/samples/counter/$text.rt.txt" "$there/crates/counter/src/$text.rt"
done
touch "$there/crates/counter/specs/Lib.antt" "$there/crates/counter/proofs/Lib.antt"
printf 'counted to 200\n' >"$there/crates/counter/stdout"
echo "laid out. Next: cd $there/crates/counter && rt try"
