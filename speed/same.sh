#!/usr/bin/env bash
# Tests that the twin of the whole commands (whole/) does what the program does: gives both the same small files, and compares
# their output and status. The files are those of examples/; step files of both versions that core_steps.rs writes, and one
# written by hand with each refusal; script files of both versions, which `mix` runs with three seeds and `run` on one thread; and
# histories of all versions, as these commands print them and with one entry changed. Every operation must occur in them, `put_if`
# with null and with a value, keys from 2^63 on, and files that are refused.
# PROGRAM may name the program; otherwise that of this repository is built. It takes half a minute.
# Usage: speed/same.sh
source "$(dirname "${BASH_SOURCE[0]}")/common.sh"
take_program
build_whole
count=0

# Prints the output of a program for these words, and its status.
answer() {
  local status=0
  "$work/$1" "${@:2}" >"$work/$1.text" 2>/dev/null || status=$?
  echo "status $status" >>"$work/$1.text"
}

same() {
  answer proved "$@"
  answer plain "$@"
  if ! cmp "$work/proved.text" "$work/plain.text"; then
    echo "they differ: $*" >&2
    exit 1
  fi
  cat "$work/proved.text" >>"$work/answers"
  count=$((count + 1))
}

# Says how many calls of a kind there were.
say() {
  printf '%-44s %4d calls, the same\n' "$1" $count
  count=0
}

# Judges a history, and the same with every ninth entry left out, doubled, or given another caller or another end.
judge() {
  same check "$1"
  for change in out twice caller end; do
    sed 's/\],\[/],\n[/g' "$1" >"$work/lines"
    for ((line = 3; line < 250; line += 9)); do
      awk -v line=$line -v change=$change '
        NR == line && change == "out" { next }
        NR == line && change == "twice" { print }
        NR == line && change == "caller" { sub(/",[0-9]+/, /",0/ ? "\",1" : "\",0") }
        NR == line && change == "end" { sub(/(null|[0-9]+)\],$/, /null/ ? "7]," : "null],") }
        { print }' "$work/lines" >"$work/forged.json"
      same check "$work/forged.json"
    done
  done
}

for file in examples/*.json; do
  if grep -q '"steps"' "$file"; then
    same replay "$file"
  elif grep -q '"entries"' "$file"; then
    same check "$file"
  else
    same mix --seed 7 "$file"
    same run "$file"
  fi
done
say 'examples'

write_step_files <<'FILES'
first steps=4000 stripes=16 buckets=64 keys=60
second version=2 steps=4000 stripes=16 buckets=64 keys=60 seed=2
wide version=2 steps=4000 callers=64 turn=1 stripes=4096 keys=3000 wide=1 seed=3
alone version=2 steps=4000 callers=1 stripes=1 buckets=2 keys=20 turn=0 seed=4
FILES
for name in "${names[@]}"; do
  same replay "$work/$name.json"
done

# Each refusal except for memory and stamps, and each outcome of a put_if, which an abort takes back. VERSION is the file's
# version, HIGH is 2^63.
sed 's/HIGH/9223372036854775808/g' >"$work/steps" <<'STEPS'
["act",0],["begin",2],["begin",0],["begin",0],["act",0],["seek",0],["back",0,1],["back",0,0],["begin",0],["commit",0],
["seek",0],["act",0],["ask",0,"put",HIGH,1],["seek",0],["act",0],["ask",0,"put",0,2],["act",0],["save",0],["seek",0],["act",0],
["ask",0,"take",7],["seek",0],["act",0],["save",0],PUT_IFS["sweep"],["abort",0],["abort",0],["seek",0],["act",0],["seek",0],
["act",0],["seek",0],["act",0],["seek",0],["act",0],["act",0],["act",0],["sweep"],["sweep"],["sweep"],
["init_seek",2,0],["init_seek",0,2],["init_link",0],["init_store",0],["init_seek",0,0],["double",4],["double",2],["begin",1],
["ask",1,"put",0,0],["seek",1],["act",1],["ask",1,"put",1,1],["seek",1],["act",1],["ask",1,"put",2,2],["seek",1],["act",1],
["ask",1,"put",3,3],["seek",1],["act",1],["ask",1,"put",4,4],["seek",1],["act",1],["double",2],["double",4],["init_seek",0,3],
["init_seek",0,1],["init_link",0],["init_store",0],["init_seek",1,1],["init_seek",1,3],["init_link",1],["init_store",1],
["commit",1]
STEPS
put_ifs='["ask",0,"put_if",0,null,3],["seek",0],["act",0],["ask",0,"put_if",0,2,4],["seek",0],["act",0],'
put_ifs+='["ask",0,"put_if",5,6,7],["seek",0],["act",0],["ask",0,"put_if",18446744073709551615,null,8],["seek",0],["act",0],'
put_ifs+='["ask",0,"put_if",18446744073709551615,8,9],["abort",0],["seek",0],["act",0],'
head='"callers":2,"stripes":8,"buckets":4,"steps"'
for version in 1 2 3; do
  echo "{\"version\":$version,$head:[$(sed 's/PUT_IFS//' "$work/steps")]}" >"$work/hand$version.json"
  echo "{\"version\":$version,$head:[$(sed "s/PUT_IFS/$put_ifs/" "$work/steps")]}" >"$work/put_if$version.json"
  same replay "$work/hand$version.json"
  same replay "$work/put_if$version.json"
done
say 'step files'

# Scripts for this number of workers, with every action; in version 1 without put_if.
write_scripts() {
  awk -v workers="$1" -v version="$2" '
    function word() { seed = (seed * 16807) % 2147483647; return seed }
    # One key of five is 2^63 more than a small number.
    function draw() { return word() % 5 ? word() % 40 : sprintf("922337203685477%04d", 5808 + word() % 40) }
    function action(    kind) {
      kind = word() % 16
      if (kind < 5) return sprintf("\"put\",%s,%d", draw(), word() % 4)
      if (kind < 8) return sprintf("\"take\",%s", draw())
      if (kind < 10) return sprintf("\"get\",%s", draw())
      if (kind < 13 && version == 2) return sprintf("\"put_if\",%s,%s,%d", draw(), word() % 2 ? "null" : word() % 4, word() % 4)
      if (kind < 14) return sprintf("\"help\",%s", draw())
      if (kind < 15) return "\"save\""
      return sprintf("\"back\",%d", word() % 2)
    }
    BEGIN {
      seed = 7 + version
      printf "{\"version\":%d,\"workers\":%d,\"stripes\":8,\"buckets\":64,\"tries\":2,\"scripts\":[", version, workers
      for (script = 0; script < 60; script++) {
        printf script ? ",[" : "["
        for (i = word() % 9; i >= 0; i--) printf "[%s]%s", action(), i ? "," : ""
        printf script % 8 == 7 ? ",[\"abort\"]]" : "]"
      }
      print "]}"
    }'
}
for version in 1 2; do
  for workers in 1 4 64; do
    write_scripts $workers $version >"$work/scripts$version.$workers.json"
    for seed in 1 7 18446744073709551615; do
      same mix --seed $seed "$work/scripts$version.$workers.json"
    done
  done
  same run "$work/scripts$version.1.json"
done
sed 's/"version":2/"version":1/' "$work/scripts2.4.json" >"$work/too_new.json"
same mix --seed 7 "$work/too_new.json"
say 'script files'

for version in 1 2; do
  "$work/proved" mix --seed 7 "$work/scripts$version.4.json" >"$work/history$version.json"
  judge "$work/history$version.json"
done
sed 's/"version":2}/"version":1}/' "$work/history2.json" >"$work/too_new.json"
same check "$work/too_new.json"
"$work/proved" run "$work/scripts2.1.json" >"$work/history3.json"
judge "$work/history3.json"
sed 's/"version":2}/"version":3}/' "$work/history2.json" >"$work/history4.json"
judge "$work/history4.json"
"$work/plain" history "$work/wide.json" 1000000 >"$work/history5.json"
same check "$work/history5.json"
say 'histories'

# What must occur in the files, and in the answers.
wants() {
  if ! grep -q -- "$1" "${@:2}"; then
    echo "nothing has $1" >&2
    exit 1
  fi
}
for text in '"put_if",[0-9]*,null' '"put_if",[0-9]*,[0-9]' '"put_if",9223372036854775' '"take",922' '"get",922' '"help",922'; do
  wants "$text" "$work"/*.json
done
for text in 'refused '{1..13}'$' 'rule '{1..3}'$' 'status '{0,1,3}'$' 'done none' ^legal ^busy ^again ^returned ^linked ^ready \
  ^moved '^at limit' ^light ^doubled ^swept ^clean '"busy"' '"did",.,null' '"version":'{1..3}; do
  wants "$text" "$work/answers"
done
