#!/usr/bin/env bash
# Tests ./look: that its first run of a program compiles it, that later runs take a few seconds at most, from any folder, and
# that each run of both programs prints what the proved program prints, with its status. By default the proved programs are
# those that `rt ci` builds. It needs rt, and takes two minutes.
# The last line is 'look: N passed, M failed', and the status is 1 if M is not 0.
# Usage: tests/look.sh [BOOSTMAP [JUDGE]]
set -uo pipefail
cd "$(dirname "${BASH_SOURCE[0]}")/.." || exit 1
name=look
root=$PWD
program=$(readlink -f "${1:-crates/boostmap/out/boostmap}")
judge=$(readlink -f "${2:-crates/judge/out/judge}")
. tests/common.sh
mkdir "$work/copy"
tar c --exclude 'crates/*/out' boostmap judge look launcher.sh tools.sh VERSION crates.txt crates | tar x -C "$work/copy"
cp -r examples/. samples/judge/example.json "$work/copy"
cd "$work/copy" || exit 1

# The note that a run ends with on standard error, by the script that proves the program.
note() { echo "look: this run is not proved; ./$1 proves the program before it runs it"; }

# like SCRIPT PROGRAM WORD..: runs a program by ./look and by the proved program, and compares them.
like() {
  local script=$1 proved=$2 words=(./look)
  shift 2
  [ "$script" = boostmap ] || words+=("$script")
  "$proved" "$@" >"$work/out.wanted" 2>"$work/err.wanted" <input
  local wanted=$?
  timeout 10 "${words[@]}" "$@" >"$work/out" 2>"$work/err" <input
  echo $? >"$work/status"
  judge "$script $*" $wanted "$(<"$work/out.wanted")" "$(note "$script")$(sed '1s/^/\n/' "$work/err.wanted")"
}

# compiles SCRIPT WORD..: runs a program for the first time.
compiles() {
  local script=$1
  shift
  ./look "$@" >"$work/out" 2>"$work/err" </dev/null
  echo $? >"$work/status"
  judge "the first run: $*" 0 'legal 2 commits 0 open' "look: compiling $script; this takes a minute or two, once"$'\n'"$(note "$script")"
}

compiles boostmap check checked.json
compiles judge judge check checked.json
cp checked.json input
for words in 'replay first_commit.json' 'replay many_callers.json' 'mix --seed 7 scripts.json' 'run first_scripts.json' \
  'check checked.json' 'check /dev/stdin' 'check nothing.json' 'run checked.json' help ''; do
  # The words are several.
  # shellcheck disable=SC2086
  like boostmap "$program" $words
done
"$program" run first_scripts.json >history.json
printf '%s\n' '["began",0,1]' '["asked",0,"get",1]' '["did",0,5]' >input
for words in 'check checked.json' 'why example.json' 'watch --stripes 8' 'outcomes first_scripts.json history.json' 'check nothing.json' \
  --help --version check; do
  # shellcheck disable=SC2086
  like judge "$judge" $words
done
touch crates/*/src/*.rt
like boostmap "$program" replay first_commit.json
(cd / && "$work/copy/look" judge check "$work/copy/checked.json") >"$work/out" 2>"$work/err"
echo $? >"$work/status"
judge 'from another folder' 0 'legal 2 commits 0 open' "$(note judge)"
echo '//' >>crates/judge/src/main.rt
RT=no_rt ./look judge check checked.json >"$work/out" 2>"$work/err"
echo $? >"$work/status"
judge 'a source has changed' 125 '' "look: there is no no_rt, which is needed to compile the program: put the Rattle toolchain on the path, or the path of its rt into RT"
echo nonsense >>crates/judge/src/main.rt
./look judge check checked.json >"$work/out" 2>/dev/null
echo $? >"$work/status"
: >"$work/err"
judge 'a program that does not compile' 125 '' ''
cd "$root" || exit 1
conclude
