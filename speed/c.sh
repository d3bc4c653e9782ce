#!/usr/bin/env bash
# Times transactions from C, on the library and on a twin, std::unordered_map with an undo log, and prints the median nanoseconds
# of processor time of a transaction on each, and their ratio: for one caller on the map with one owner, whose twin has no stripes;
# then for 1, 2 and 4 threads on the striped map, whose twin has a mutex for each stripe. Neither twin has a history or savepoints.
# Library and twin must give the same replies.
#
# Then it measures the crossing from C, on each map with 1,000 keys: the same transactions inside Rattle, on the map with one owner
# by owned.rt.txt and on the striped map by `bench striped`, and as runs by runs.rt.txt (from C by striped.cpp). It prints the median
# nanoseconds and, with valgrind, the instructions of a transaction in both, and how much more each of its six calls takes from C, or
# its one call if it is a run; last, the nanoseconds of a call that is refused at once.
#
# BENCH and OWNED may name the programs `bench` and `owned`; otherwise they are proved and built. CXX may name another compiler
# than `c++`: with clang++ both sides of the crossing are compiled by LLVM. Usage: speed/c.sh [ROUNDS]
source "$(dirname "${BASH_SOURCE[0]}")/common.sh"
rounds=${1:-9}
quietly bindings/install.sh "$work/usr"
quietly "${CXX:-c++}" -std=c++17 -O2 -I"$work/usr/include" speed/c_map.cpp -L"$work/usr/lib" -lboostmap -pthread -o "$work/c_map"
libraries=()
[ ! -e /usr/include/tbb/concurrent_unordered_map.h ] || libraries+=(-ltbb)
[ ! -e /usr/include/rocksdb/utilities/transaction_db.h ] || libraries+=(-lrocksdb)
quietly "${CXX:-c++}" -std=c++17 -O2 -I"$work/usr/include" speed/striped.cpp -L"$work/usr/lib" -lboostmap "${libraries[@]}" -pthread \
  -o "$work/striped"

# The median of the first column of a file, and the sum that each line has in its second column, or the file's name if these
# sums differ.
median() {
  sort -n "$1" | awk -v middle=$(((rounds + 1) / 2)) -v file="$1" '
    NR == middle { printf "%s", $1 }
    sum != "" && $2 != sum { differs = 1 }
    { sum = $2 }
    END { print " " (differs ? file : sum) }'
}

# A row of the table: the arguments of c_map after the name of library or twin.
row() {
  local library twin replies others
  rm -f "$work/$1" "$work/$2"
  for _ in $(seq "$rounds"); do
    for which in "$1" "$2"; do "$work/c_map" "$which" "${@:3}" >>"$work/$which"; done
  done
  read -r library replies <<<"$(median "$work/$1")"
  read -r twin others <<<"$(median "$work/$2")"
  [ "$replies" = "$others" ] || { echo "the replies differ" >&2; exit 1; }
  awk -v map="$1" -v threads="${5:-1}" -v keys="$3" -v a="$library" -v b="$twin" 'BEGIN {
    printf "%-9s %7d %9d %9.0f %9.0f %6.2f\n", map, threads, keys, a, b, a / b }'
}

# Runs a number of transactions with the same draws, inside Rattle and from C. Each prints a line with the nanoseconds of one, and
# the sum of the replies. Further arguments are put before the program's name.
owned_inside() { "${@:2}" "$work/owned" 1000 "$1"; }
owned_from_c() { "${@:2}" "$work/c_map" map 1000 "$1"; }
striped_inside() {
  "${@:2}" "$work/proved" striped 1 1000 "$1" 1024 2>&1 |
    sed 's/.* a second, \([0-9]*\) ns .* sum \([0-9]*\)$/\1 \2/'
}
striped_from_c() { "${@:2}" "$work/c_map" bench 1000 "$1"; }
run_inside() { "${@:2}" "$work/runs" 1000 "$1"; }
run_from_c() { "${@:2}" "$work/striped" run 1 1000 "$1" shared | awk '{ print $2, $4 }'; }

# The instructions of a transaction: the difference between 60,000 and 20,000.
instructions() {
  local count counts=
  for count in 60000 20000; do
    counts+=" $("$1" $count valgrind --tool=callgrind --callgrind-out-file=/dev/null 2>&1 | sed -n 's/.*Collected : //p')"
  done
  awk '{ printf "%.1f", ($1 - $2) / 40000 }' <<<"$counts"
}

# A row of the second table: the map, what is counted, inside Rattle, and from C.
crossing() {
  awk -v what="$1, $2" -v inside="$3" -v from_c="$4" 'BEGIN {
    printf "%-21s %8.1f %8.1f %8.1f %8.1f\n", what, inside, from_c, (from_c - inside) / (what ~ /^run/ ? 1 : 6), 100 * (from_c / inside - 1) }'
}

# The rows of a map.
crossings() {
  local inside from_c replies others
  for _ in $(seq "$rounds"); do
    for which in "$1_inside" "$1_from_c"; do $which 200000 >>"$work/$which"; done
  done
  read -r inside replies <<<"$(median "$work/$1_inside")"
  read -r from_c others <<<"$(median "$work/$1_from_c")"
  [ "$replies" = "$others" ] || { echo "the replies differ" >&2; exit 1; }
  crossing "$1" nanoseconds "$inside" "$from_c"
  if command -v valgrind >/dev/null; then
    crossing "$1" instructions "$(instructions "$1_inside")" "$(instructions "$1_from_c")"
  fi
}

printf '%-9s %7s %9s %9s %9s %6s\n' map threads keys library twin ratio
for keys in 1000 100000; do row map twin $keys 200000; done
for threads in 1 2 4; do
  for keys in 1000 100000; do row striped stripes $keys 200000 $threads; done
done

if [ -n "${BENCH:-}" ]; then cp "$BENCH" "$work/proved"; else build_bench striped 1 1000 1000; fi
if [ -n "${OWNED:-}" ]; then cp "$OWNED" "$work/owned"; else build_on_maps owned ": txn_trace boost_core anyhow" 1000 1000; fi
printf '\n%-21s %8s %8s %8s %8s\n' 'a transaction' inside 'from C' 'a call' percent
crossings owned
crossings striped
build_on_maps runs ": txn_words striped_map anyhow" 1000 1000
crossings run
for _ in $(seq "$rounds"); do "$work/c_map" refusal 1 10000000 >>"$work/refusal"; done
read -r refusal _ <<<"$(median "$work/refusal")"
echo "a call that is refused at once: $refusal ns"
