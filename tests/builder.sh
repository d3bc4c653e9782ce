#!/usr/bin/env bash
# Tests build.py, the launchers and .ci/quick in a small repository, with a toolchain that proves at once and writes down which
# crates it was asked to prove: that each crate is proved once, and again exactly if what it is built from has changed. It needs
# git and python3, and takes half a minute.
# The last line is 'builder: N passed, M failed', and the status is 1 if M is not 0.
set -u
cd "$(dirname "${BASH_SOURCE[0]}")/.." || exit
work=$(mktemp -d)
trap 'rm -rf "$work"' EXIT
passed=0 failed=0
repository=$work/"a repository"
mkdir -p "$work/kit/bin" "$work/kit/c" "$repository"
cp -r build.py launcher.sh tools.sh boostmap judge VERSION .ci "$repository"

# The toolchain. What it builds has the crate's sources without comments, and what was built of the libraries. A source with the
# word FAILS is not proved, and one with the word SLEEPS takes long.
cat >"$work/kit/bin/rt" <<'RT'
#!/bin/sh
case $1 in
  version) cat "$KIT/version" ;;
  doc) echo "$KIT/START.md" ;;
  ci)
    sed -n 's/^\([a-z][a-z]*\).*:.*/ci_\1/p' crates.txt >>"$KIT/log"
    ! grep -q FAILS -r crates ;;
esac
RT
cat >"$work/kit/bin/rattle" <<'RATTLE'
#!/bin/bash
while [ $# -gt 0 ]; do
  case $1 in
    --crate-name) name=$2 ;;
    --extern) [[ $2 = *="$KIT"/* ]] || below+=("${2#*=}/format") ;;
    -o) to=$2 ;;
  esac
  shift
done
echo "$name" >>"$KIT/log"
grep -q SLEEPS -r src && sleep 600
[ -z "${EDITED-}" ] || { echo 'pub meanwhile' >>"$EDITED"; }
grep -q FAILS -r src && echo 'a goal is open' && exit 1
case $to in
  *.rlib) mkdir "$to" && to=$to/format ;;
esac
{ echo "#!/bin/echo $name"; grep -hv '^//' -r src; [ -z "${below-}" ] || sed 's/^/# /' "${below[@]}"; } >"$to" || exit
echo logic=proved
RATTLE
cat >"$work/kit/bin/rattle-link" <<'LINK'
#!/bin/sh
cp "$7" "$6" && chmod +x "$6"
LINK
chmod +x "$work"/kit/bin/*
export KIT=$work/kit RT=$work/kit/bin/rt
echo one >"$KIT/version"
cat >"$repository/crates.txt" <<'CRATES'
# name: what it stands on
low:
mid may_wait=2: low of_the_kit
high: low
unthreaded: low
boostmap: low mid high
judge: mid
archive staticlib: low mid
CRATES
for crate in low mid high archive; do mkdir -p "$repository/crates/$crate/src" && echo "pub $crate" >"$repository/crates/$crate/src/lib.rt"; done
for crate in unthreaded boostmap judge; do mkdir -p "$repository/crates/$crate/src" && echo "$crate" >"$repository/crates/$crate/src/main.rt"; done
mkdir -p "$repository"/crates/{boostmap_engine,judge_program}/src
echo 'const USAGE: &str = "usage: it";' | tee "$repository/crates/boostmap_engine/src/fault.rt" >"$repository/crates/judge_program/src/failure.rt"
cd "$repository" || exit

# expect WHAT STATUS CRATES COMMAND..: runs a command, and compares its status and the crates that were proved, in any order.
expect() {
  local what=$1 status=$2 crates=$3 found=0 proved
  shift 3
  : >"$KIT/log"
  "$@" >"$work/out" 2>"$work/err" </dev/null || found=$?
  proved=$(sort "$KIT/log" | xargs)
  if [ "$found $proved" = "$status $crates" ]; then
    passed=$((passed + 1))
  else
    failed=$((failed + 1))
    echo "builder: $what: status $found, proved: $proved" >&2
    cat "$work/out" "$work/err" >&2
  fi
}

# holds WHAT COMMAND..: counts whether a command succeeds.
holds() {
  if "${@:2}"; then
    passed=$((passed + 1))
  else
    failed=$((failed + 1))
    echo "builder: $1" >&2
    cat "$work/out" "$work/err" >&2
  fi
}
prints() { [ "$(<"$work/$1")" = "$2" ]; }

expect 'a program' 0 'boostmap high low mid' ./build.py boostmap
holds 'the program runs' test "$(out/boostmap)" = 'boostmap out/boostmap'
expect 'again' 0 '' ./build.py boostmap
expect 'a second program' 0 judge ./build.py judge
expect 'the archive' 0 archive ./build.py archive
holds 'the archive is there' grep -q 'pub archive' out/libarchive.a
find . -name '*.rt' -exec touch {} +
expect 'newer files' 0 '' ./build.py boostmap judge archive
echo '// a comment' >>crates/low/src/lib.rt
expect 'a comment' 0 low ./build.py boostmap judge archive
cp -r crates/low/src "$work/kept"
echo 'pub more' >>crates/low/src/lib.rt
expect 'an edit' 0 'archive boostmap high judge low mid' ./build.py boostmap judge archive
holds 'the edit is built' grep -q 'pub more' out/judge
cp "$work/kept/lib.rt" crates/low/src/lib.rt
rm out/boostmap
expect 'the edit taken back' 0 '' ./build.py boostmap judge archive
holds 'the edit is not built any more' test -z "$(grep -d skip 'pub more' out/*)"
mkdir crates/low/specs && echo 'a definition' >crates/low/specs/Lib.antt
expect 'a definition' 0 low ./build.py boostmap
mv crates/low/specs crates/low/proofs
expect 'a file moved' 0 low ./build.py boostmap
sed -i 's/^judge: mid$/judge: mid low/' crates.txt
expect 'another line of crates.txt' 0 judge ./build.py judge
echo two >"$KIT/version"
expect 'another toolchain' 0 'boostmap high low mid' ./build.py boostmap
for number in 1 2 3 4; do
  echo "pub number_$number" >crates/high/src/lib.rt
  ./build.py high 2>/dev/null
done
holds 'three builds are kept' test "$(find out/proved -name 'high-*' | wc -l)" = 3

echo FAILS >>crates/mid/src/lib.rt
expect 'a failure' 125 mid ./build.py boostmap
holds 'it says what to do' grep -q '^boostmap: mid is not proved. Compare the sources with git status, and rt version with' "$work/err"
holds 'it says what the prover said' grep -q 'a goal is open' "$work/err"
sed -i /FAILS/d crates/mid/src/lib.rt
expect 'mended' 0 boostmap ./build.py boostmap
echo 'pub again' >>crates/low/src/lib.rt
cp crates/low/src/lib.rt "$work/kept"
expect 'an edit meanwhile' 0 'low unthreaded' env "EDITED=$PWD/crates/low/src/lib.rt" ./build.py unthreaded
expect 'the edit is not built yet' 0 'low unthreaded' ./build.py unthreaded
cp "$work/kept/lib.rt" crates/low/src
expect 'as before the edit' 0 '' ./build.py unthreaded
holds 'it was built of these sources' test -z "$(grep meanwhile out/unthreaded)"
expect 'no such target' 2 '' ./build.py nothing
echo SLEEPS >>crates/mid/src/lib.rt
timeout 8 ./build.py judge 2>/dev/null &
sleep 1
expect 'a second build at the same time' 124 '' timeout 3 ./build.py judge
holds 'it says that it waits' grep -qx 'judge: another build runs in this checkout; this one waits for it' "$work/err"
expect 'a target that is built, at the same time' 0 '' timeout 5 ./build.py unthreaded
wait
expect 'a stop' 124 mid timeout 3 ./build.py judge
holds 'no process is left' test -z "$(find /proc/[0-9]*/cwd -lname "$repository/crates/*" 2>/dev/null)"
sed -i s/SLEEPS/sleeps/ crates/mid/src/lib.rt
mkdir -p crates/low/out/rlib/low.rlib crates/judge/out && echo 'by ci' | tee crates/low/out/rlib/low.rlib/format >crates/judge/out/judge
expect 'after ci' 0 mid ./build.py --after-ci judge
holds 'the program of ci' test "$(<out/judge)" = 'by ci'
expect 'after ci, again' 0 '' ./build.py judge

rm -rf out crates/*/out
touch out
expect 'no folder for builds' 125 '' ./build.py judge
holds 'it says which' grep -qF "judge: [Errno 20] Not a directory: '$repository/out" "$work/err"
rm out
expect 'a run without a command' 2 '' ./boostmap
holds 'it prints the usage' prints err 'usage: it'
expect 'a run without a file' 2 '' ./judge check
expect 'a run of the part' 0 'low unthreaded' ./boostmap replay file
holds 'the part runs' prints out "unthreaded $repository/out/unthreaded replay file"
expect 'a run of the whole' 0 'boostmap high mid' ./boostmap run file
holds 'the whole runs' prints out "boostmap $repository/out/boostmap run file"
expect 'a run once all is built' 0 '' ./boostmap replay file
holds 'the whole answers' prints out "boostmap $repository/out/boostmap replay file"
holds 'nothing is said' prints err ''
expect 'without rt' 0 '' env RT=no_rt ./boostmap replay file
expect 'the version' 0 '' ./judge --version
holds 'it is that of the file' prints out "judge $(<VERSION)"
echo 'pub more' >>crates/high/src/lib.rt
expect 'a run after an edit, without rt' 125 '' env RT=no_rt ./boostmap replay file
expect 'a run after an edit' 0 'boostmap high' ./boostmap replay file
holds 'the whole answers again' prints out "boostmap $repository/out/boostmap replay file"
find crates -name '*.rt' -exec touch {} +
expect 'a run after newer files' 0 '' ./boostmap replay file
holds 'nothing is said again' prints err ''

# .ci/quick, with parts that write down how they are called.
mkdir tests crates/low/must-fail
cat >tests/bodies.py <<'PART'
#!/bin/bash
printf 'bodies_%s\n' "$@" >>"$KIT/log"
PART
cat >tests/program.sh <<'PART'
#!/bin/bash
printf 'on_%s\n' "${@##*/quick-*/crates/}" >>"$KIT/log"
PART
chmod +x tests/*
echo out/ >.gitignore
git init -q -b main . && git config user.name builder && git config user.email builder@localhost
git add -A && git commit -qm first
expect 'quick, nothing has changed' 0 'on_out/boostmap on_out/unthreaded' .ci/quick
echo 'pub edit' >>crates/mid/src/lib.rt
expect 'quick, an edit' 0 'ci_archive ci_boostmap ci_high ci_judge ci_low ci_mid on_boostmap/out/boostmap on_out/unthreaded' .ci/quick
git checkout -qb branch && git commit -qam second
echo 'pub edit' >>crates/low/must-fail/bodies.md
all='ci_archive ci_boostmap ci_high ci_judge ci_low ci_mid ci_unthreaded on_boostmap/out/boostmap on_unthreaded/out/unthreaded'
expect 'quick, a commit and a new file' 0 "bodies_low bodies_mid $all" .ci/quick
holds 'it says which' grep -qx 'quick: changed: low mid; 7 of 7 crates are tried' "$work/out"
holds 'it says how long the whole takes' grep -qE 'The whole gate, .ci/run, takes about [0-9]+ minutes' "$work/out"
git add -A && git commit -qm third
expect 'quick, compared with this revision' 0 'boostmap mid on_out/boostmap on_out/unthreaded' .ci/quick HEAD
echo 'new: mid' >>crates.txt && mkdir -p crates/new/src && echo 'pub new' >crates/new/src/lib.rt
expect 'quick, a new crate' 0 'ci_low ci_mid ci_new on_out/boostmap on_out/unthreaded' .ci/quick HEAD
echo 'pub FAILS' >>crates/new/src/lib.rt
expect 'quick, a failure' 1 'ci_low ci_mid ci_new' .ci/quick HEAD
expect 'quick, no such revision' 2 '' .ci/quick nothing

echo "builder: $passed passed, $failed failed"
[ "$failed" = 0 ]
