#!/usr/bin/env bash
# Tests what scripts say if a tool that they need is missing: runs them in a copy in which nothing is built, with all commands
# of this machine on the path but one.
# The last line is 'missing: N passed, M failed', and the status is 1 if M is not 0.
set -u
cd "$(dirname "${BASH_SOURCE[0]}")/.." || exit
work=$(mktemp -d)
trap 'rm -rf "$work"' EXIT
passed=0 failed=0

mkdir "$work/bin" "$work/copy"
cp -r boostmap judge look launcher.sh tools.sh build.py install.sh VERSION crates.txt bindings .ci "$work/copy"
cp examples/first_commit.json "$work/copy/file.json"
while read -r folder; do
  find "$folder" -maxdepth 1 ! -type d -exec ln -sf -t "$work/bin" -- {} +
done < <(tr : '\n' <<<"$PATH" | grep '^/' | tac)

# without TOOL OUT ERR COMMAND..: runs a command without this tool, and compares what it prints; the status must be 125.
without() {
  local tool=$1 out=$2 err=$3 status=0
  shift 3
  mv "$work/bin/$tool" "$work/hidden" || exit
  (cd "$work/copy" && PATH=$work/bin RT='' "$@") >"$work/out" 2>"$work/err" </dev/null || status=$?
  mv "$work/hidden" "$work/bin/$tool"
  if [ "$status" = 125 ] && [ "$(<"$work/out")" = "$out" ] && [ "$(<"$work/err")" = "$err" ]; then
    passed=$((passed + 1))
  else
    failed=$((failed + 1))
    echo "missing: $1 without $tool: status $status" >&2
    cat "$work/out" "$work/err" >&2
  fi
}

rt='put the Rattle toolchain on the path, or the path of its rt into RT'
other="install it, for example from your system's packages"
builds="there is no rt, which is needed to prove and build the program: $rt"
without rt '' "boostmap: $builds" ./boostmap run file.json
without rt '' "unthreaded: $builds" ./boostmap replay file.json
without rt '' "judge: $builds" ./judge check file.json
without python3 '' "boostmap: there is no python3, which is needed to prove and build the program: $other" ./boostmap run file.json
without rt '' "build.py: there is no rt, which is needed to prove and build boostmap judge: $rt" ./build.py boostmap judge
without rt '' "look: there is no rt, which is needed to compile the program: $rt" ./look replay file.json
without rt '' "look: there is no rt, which is needed to compile the program: $rt" ./look judge check file.json
for install in ./install.sh bindings/install.sh; do
  for row in "rt:prove and build what is installed: $rt" "python3:prove and build what is installed: $other" \
    "cc:link the shared library: $other" "ar:add the allocator to the archive: $other"; do
    tool=${row%%:*}
    without "$tool" '' "install.sh: there is no $tool, which is needed to ${row#*:}" "$install" "$work/prefix"
  done
done
for row in "git:find what has changed: $other" "rt:prove it: $rt" "cc:test it: $other"; do
  tool=${row%%:*}
  without "$tool" '' ".ci/quick: there is no $tool, which is needed to ${row#*:}" .ci/quick
done
for row in "rt:prove everything: $rt" "python3:try the wrong bodies: $other" "cc:test the library for C: $other"; do
  tool=${row%%:*}
  without "$tool" '0 passed, 1 failed' ".ci/run: there is no $tool, which is needed to ${row#*:}" .ci/run
done

# Nothing was made by the way.
if [ -e "$work/prefix" ] || [ -e "$work/copy/crates" ] || [ -e "$work/copy/out" ]; then
  failed=$((failed + 1))
  echo 'missing: a script made something before it looked for its tools' >&2
else
  passed=$((passed + 1))
fi
echo "missing: $passed passed, $failed failed"
[ "$failed" = 0 ]
