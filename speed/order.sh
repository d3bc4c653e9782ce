#!/usr/bin/env bash
# Gives `judge check --serializable` history files of a store without locks (orders.rs: `commits` is serializable in the order of
# its commits, `order` only in another one), of 100,000 entries and of almost the full size. Prints for each the seconds of processor
# time and the most memory in MB, the medians of the rounds, beside `judge check --commit-order` on the file `commits` of this size,
# and beside plain Rust (watch/src/order.rs); and the exponent with which the time grows. It needs what watch.sh needs.
# Usage: speed/order.sh [ROUNDS]
source "$(dirname "${BASH_SOURCE[0]}")/common.sh"
rounds=${1:-9}
if [ -z "${PROGRAM:-}" ]; then
  quietly ./build.py judge
fi
cp "${PROGRAM:-out/judge}" "$work/proved"
quietly cargo build --release --offline --manifest-path speed/watch/Cargo.toml --target-dir "$work/target" \
  --config 'source.crates-io.replace-with="here"' \
  --config "source.here.directory=\"${CRATES:-/usr/share/cargo/registry}\""
cp "$work/target/release/watch" "$work/plain"
rustc -O -o "$work/orders" speed/orders.rs
small=100000
full=780000
for kind in commits order; do
  for size in "$small" "$full"; do "$work/orders" "$size" 20000 "$kind" >"$work/$kind.$size"; done
done

# The seconds and KB of a run, and what it prints.
run_one() {
  local TIMEFORMAT='%3U %3S'
  {
    time /usr/bin/time -q -o "$work/peak" -f '%M' "$work/$1" check "--$2" "$work/$3" >"$work/text.$1.$2" || [ $? = 1 ]
  } 2>"$work/costs"
  paste -d ' ' "$work/costs" "$work/peak" | awk '{ print $1 + $2, $3 }' >>"$work/$1.$2.$3"
}

for _ in $(seq "$rounds"); do
  for words in $(shuffled proved:serializable plain:serializable proved:commit-order); do
    for file in {commits,order}.{$small,$full}; do
      run_one "${words%:*}" "${words#*:}" "$file"
    done
  done
  cmp "$work/text.proved.serializable" "$work/text.plain.serializable"
done

# The median of a column of a program's runs.
median() {
  sort -n -k"$2,$2" "$work/$1" | awk -v column="$2" -v middle=$(((rounds + 1) / 2)) 'NR == middle { print $column }'
}

printf '%-8s %8s %8s %7s %9s %9s %9s %9s\n' file entries seconds MB to-commits MB to-plain MB
for kind in commits order; do
  for size in "$small" "$full"; do
    echo "$kind $size"
    for runs in "proved.serializable.$kind" proved.commit-order.commits "plain.serializable.$kind"; do
      echo "$(median "$runs.$size" 1) $(median "$runs.$size" 2)"
    done
  done
done | paste -d ' ' - - - - | awk '{
    printf "%-8s %8d %8.3f %7.1f %9.2f %9.2f %9.2f %9.2f\n", $1, $2, $3, $4 / 1024, $3 / $5, $4 / $6, $3 / $7, $4 / $8
    if ($1 == last) printf "%-8s exponent %.2f\n", $1, log($3 / seconds) / log($2 / entries)
    last = $1; seconds = $3; entries = $2 }'
