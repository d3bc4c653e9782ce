# Shared by the scripts that run a built program from outside. They source it at the top of the
# repository, with their own name in `name` and the program's path in `program`. `work` is a temporary
# folder, which is removed at the end.
# shellcheck shell=bash disable=SC2154
if [ ! -x "$program" ]; then
  echo "$name: there is no $program: rt ci builds it" >&2
  exit 1
fi
# The last command of a pipeline runs in this shell, so that its results are counted.
shopt -s lastpipe
work=$(mktemp -d)
trap 'rm -rf "$work"' EXIT
passed=0 failed=0

# judge WHAT STATUS OUT ERR: compares status, standard output and standard error of the last run, which
# are in $work, with the expected ones, and counts the test. Expected texts are without their last line
# feed.
judge() {
  local what=$1 status=$2 out=$3 err=$4
  printf '%s' "${out:+$out$'\n'}" >"$work/out.wanted"
  printf '%s' "${err:+$err$'\n'}" >"$work/err.wanted"
  if [ "$(cat "$work/status")" = "$status" ] && cmp -s "$work/out" "$work/out.wanted" \
    && cmp -s "$work/err" "$work/err.wanted"; then
    passed=$((passed + 1))
  else
    failed=$((failed + 1))
    echo "$name: $what: status $(cat "$work/status"), wanted $status" >&2
    { diff "$work/out.wanted" "$work/out"; diff "$work/err.wanted" "$work/err"; } |
      head -n 20 | cut -c 1-200 >&2
  fi
}

# Runs the program with these arguments and an empty standard input.
run() {
  "$program" "$@" >"$work/out" 2>"$work/err" </dev/null
  echo $? >"$work/status"
}

# wants STATUS OUT ERR WORD..: runs the program with these arguments, and judges the run.
wants() {
  local status=$1 out=$2 err=$3
  shift 3
  run "$@"
  judge "$*" "$status" "$out" "$err"
}

# Prints how many passed and failed, and ends with status 1 if any failed.
conclude() {
  echo "$name: $passed passed, $failed failed"
  [ "$failed" = 0 ]
}
