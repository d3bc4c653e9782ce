#!/usr/bin/env bash
# Tests the examples of docs/LIBRARY.md:
# - For each row of the table "To have", it copies exactly the folders that the row names, with their lines of crates.txt,
#   and the row's module of `samples`, as a crate with the row's line. It runs there, without a proof, what `examples` does
#   with the module. The output must be the same.
# - Each indented line that the page shows must be in a caller.
# - samples/new.sh lays out a repository; its program is run, and proved with what this repository keeps in out/.
# It takes two minutes, and for the proof three more if all crates below are proved here, else some fifteen.
# The last line is 'library: N passed, M failed', and the status is 1 if M is not 0.
set -u
cd "$(dirname "${BASH_SOURCE[0]}")/.." || exit
work=$(mktemp -d)
trap 'rm -rf "$work"' EXIT
page=docs/LIBRARY.md
passed=0
failed=0

judge() {
  if [ "$2" = 0 ]; then
    passed=$((passed + 1))
  else
    failed=$((failed + 1))
    echo "library: $1" >&2
  fi
}

# Prints what `examples` writes for a caller: the lines between the caller's name and the next heading.
wanted() {
  awk -v name="$1" '
    /^(bank|audit|visits|transfers|job queue|replay .*)$/ { inside = $0 == name; next }
    inside { print }' crates/examples/stdout
}

# Does so for a row.
runs() {
  local folders=$1 line=$2 name=${2%%[ :]*} there=$work/there folder
  local shown=$there/crates/shown sample=$there/crates/samples/src
  rm -rf "$there"
  mkdir -p "$shown/src" "$sample"
  cp HANDLES "$there/"
  for folder in $folders; do
    cp -r "crates/$folder" "$there/crates/" && rm -rf "$there/crates/$folder/out"
    grep "^$folder\b" crates.txt >>"$there/crates.txt"
  done
  cp "crates/samples/src/$name.rt" "$sample/"
  printf '#![tactic(auto)]\n\npub mod %s;\n' "$name" >"$sample/lib.rt"
  echo "samples: ${line#*: }" >>"$there/crates.txt"
  echo "shown: samples ${line#*: } anyhow" >>"$there/crates.txt"
  cp "crates/examples/src/call_$name.rt" "$shown/src/"
  cat >"$shown/src/main.rt" <<MAIN
#![tactic(auto)]

mod call_$name;

fn main(rt: HostRuntime) -> anyhow::Result<()> {
    call_$name::show(&rt)?;
    Ok(())
}
MAIN
  (cd "$shown" && ${RT:-rt} try) >"$work/log" 2>&1 </dev/null
  wanted "$name" >"$work/wanted"
  [ -s "$work/wanted" ] && head -n "$(wc -l <"$work/wanted")" "$work/log" | cmp -s - "$work/wanted"
  judge "$name does not give what it should" $?
}

while IFS='|' read -r _ _ folders line _; do
  folders=$(echo "$folders" | grep -o '`[a-z_]*`' | tr -d '`')
  runs "$(echo $folders)" "$(echo "$line" | sed 's/^ `//; s/` $//')"
done < <(sed -n '/^| To have/,/^$/p' $page | sed 1,2d | sed '/^$/d')

cat crates/samples/src/*.rt samples/counter/counter.rt.txt | tr -s ' \n' ' ' >"$work/code"
while read -r clause; do
  grep -qF -- "$clause" "$work/code"
  judge "no such line: $clause" $?
done < <(sed -n 's/^    //p' $page)

new=$work/new
samples/new.sh "$new"
judge "new.sh fails" $?
(cd "$new/crates/counter" && ${RT:-rt} try) >"$work/log" 2>&1 </dev/null
head -n 1 "$work/log" | cmp -s - "$new/crates/counter/stdout"
judge "the new repository's program does not count" $?
for crate in "$new"/crates/*; do
  name=${crate##*/}
  if [ -d "crates/$name/out" ]; then cp -r "crates/$name/out" "$crate/"; fi
done
(cd "$new/crates/counter" && ${RT:-rt} check --jobs 1) >"$work/log" 2>&1 </dev/null && grep -q '^logic=proved' "$work/log"
judge "the new repository's program is not proved" $?

echo "library: $passed passed, $failed failed"
[ $failed = 0 ]
