#!/usr/bin/env bash
# Runs the same transactions of four operations on the striped map from C (striped.cpp), which keeps nothing, the number of its
# commits, or its entries, on plain Rust (striped.rs: a mutex a stripe, and one mutex), and, where libtbb-dev and librocksdb-dev are
# installed, on oneTBB boosted and on RocksDB's TransactionDB. RocksDB makes a tenth of the transactions, and the map that keeps its
# entries, of 40 bytes and some ten a transaction, a fifth. The programs take turns in random order in each round. Prints the
# medians: millions of transactions a second that were not busy, by the clock; nanoseconds of processor time of one; and how many
# percent were busy. `own` gives each thread its own stripes.
# With one thread all must give the same replies. Writes the table to striped.tsv, of which picture.py draws docs/striped.svg.
# Then prints what one of these transactions takes by its calls and as a run, if all commit; and what one takes with 4 KB between
# two callers, which shows whether callers share lines of the cache.
# Usage: speed/striped.sh [TRANSACTIONS_A_THREAD [ROUNDS]]
source "$(dirname "${BASH_SOURCE[0]}")/common.sh"
count=${1:-1000000}
rounds=${2:-7}
quietly bindings/install.sh "$work/usr"
libraries=(-L"$work/usr/lib" -lboostmap -pthread)
names='nothing commits entries mutexes one'
fewer=entries
if [ -e /usr/include/tbb/concurrent_unordered_map.h ]; then
  libraries+=(-ltbb)
  names+=' tbb'
else
  echo "not measured: tbb, whose header is not here (Debian's package libtbb-dev)" >&2
fi
if [ -e /usr/include/rocksdb/utilities/transaction_db.h ]; then
  libraries+=(-lrocksdb)
  names+=' rocksdb'
  fewer+=' rocksdb'
else
  echo "not measured: rocksdb, whose header is not here (Debian's package librocksdb-dev)" >&2
fi
quietly "${CXX:-c++}" -std=c++17 -O2 -I"$work/usr/include" speed/striped.cpp "${libraries[@]}" -o "$work/striped"
rustc -O -o "$work/plain" speed/striped.rs

# One run: name, keys, who shares them, threads, millions a second, nanoseconds, part that was busy, sum of the replies.
run_one() {
  local program=$work/striped many=$count
  case $1 in
    mutexes | one) program=$work/plain ;;
    entries) many=$((count / 5)) ;;
    rocksdb) many=$((count / 10)) ;;
  esac
  echo "$1 $2 $3 $4 $("$program" "$1" "$4" "$2" "$many" "$3")"
}

while read -r keys who; do
  for threads in 1 2 4; do
    for _ in $(seq "$rounds"); do
      # The names are several.
      # shellcheck disable=SC2086
      for name in $(shuffled $names); do
        run_one "$name" "$keys" "$who" "$threads"
      done
    done
  done
done >"$work/runs" <<'END'
1000 shared
100000 shared
1000 own
100000 own
64 shared
16 shared
END

# The replies of one thread do not depend on the map.
{
  grep -v -e '^entries ' -e '^rocksdb ' "$work/runs"
  for name in $fewer nothing; do
    echo "$name 1000 few 1 $("$work/striped" "$name" 1 1000 10000 shared)"
  done
} | awk '$4 == 1 { print $2, $3, $8 }' | sort -u | awk 'END { exit NR != 7 }' ||
  { echo 'the replies differ' >&2; exit 1; }

# The median of a column of the runs of a program.
median() {
  awk -v row="$1 $2 $3 $4" -v column="$5" '$1 " " $2 " " $3 " " $4 == row { print $column }' "$work/runs" |
    sort -n | sed -n "$(((rounds + 1) / 2))p"
}

{
  printf 'keys\twho\tthreads\tname\tmillions\tnanoseconds\tbusy\n'
  awk '!seen[$2 $3 $4 $1]++ { print $2, $3, $4, $1 }' "$work/runs" | while read -r keys who threads name; do
    row="$name $keys $who $threads"
    # The row has four words.
    # shellcheck disable=SC2086
    printf '%s\t%s\t%s\t%s\t%s\t%s\t%s\n' "$keys" "$who" "$threads" "$name" \
      "$(median $row 5)" "$(median $row 6)" "$(median $row 7)"
  done | sort -t "$(printf '\t')" -k2,2r -k1,1nr -k3,3n -k4,4
} >speed/striped.tsv
column -t speed/striped.tsv

for threads in 1 2 4; do
  echo "of 10,000 counts of all pairs beside $threads writers on 100,000 keys, busy: $("$work/striped" audit $threads 100000 10000)"
done

for keys in 1000 100000; do
  for threads in 1 4; do
    for _ in $(seq "$rounds"); do
      # The names are four.
      # shellcheck disable=SC2046
      for name in $(shuffled calls run nothing apart); do run_one "$name" "$keys" shared "$threads"; done
    done
  done
done >"$work/runs"
awk '$4 == 1 && $1 ~ "calls|run" { print $2, $8 }' "$work/runs" | sort -u | awk 'END { exit NR != 2 }' || { echo 'the replies differ' >&2; exit 1; }
for keys in 1000 100000; do
  for threads in 1 4; do
    row="$keys shared $threads"
    # The row has three words.
    # shellcheck disable=SC2086
    echo "$keys keys, $threads threads, a transaction that commits takes $(median calls $row 6) ns by its calls," \
      "$(median run $row 6) ns as a run; one of any end $(median nothing $row 6) ns, with callers far apart $(median apart $row 6) ns"
  done
done
