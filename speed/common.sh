# Shared by the scripts of this folder, which source it. They run at the top of the repository; `work` is a temporary folder, which
# is removed at the end.
# shellcheck shell=bash
set -euo pipefail
cd "$(dirname "${BASH_SOURCE[0]}")/.."
work=$(mktemp -d)
trap 'rm -rf "$work"' EXIT

# Runs a command, and shows its output only if it fails.
quietly() {
  if ! "$@" >"$work/log" 2>&1; then
    cat "$work/log" >&2
    exit 1
  fi
}

# Proves and builds the benchmark, and runs it once with these arguments. It is then `proved` in $work.
build_bench() {
  build_on_maps bench " may_wait=11: split_key txn_words txn_files key_locks key_words node_list list_steps map_ops boost_core thread_runs striped_map anyhow" "$@"
  mv "$work/bench" "$work/proved"
}

# Takes the program, which is then `proved` in $work: the file that PROGRAM names, or else that of this repository, which is
# proved and built if necessary.
take_program() {
  if [ -z "${PROGRAM:-}" ]; then
    quietly ./build.py boostmap
  fi
  cp "${PROGRAM:-out/boostmap}" "$work/proved"
}

# Builds a program in plain Rust, which is then `plain` in $work.
build_twin() {
  rustc -C opt-level=3 -C codegen-units=1 -C lto -C panic=abort -o "$work/plain" "speed/$1.rs"
}

# Prints the arguments in random order. Programs that are timed in turn run in such an order in each round: one that always ran
# first seemed 13 percent faster than it was.
shuffled() {
  shuf -e -- "$@"
}

# Takes an older twin of the whole commands, if BEFORE names one; it is then `before` in $work. $programs are the programs to
# compare.
take_before() {
  programs=(proved plain)
  if [ -n "${BEFORE:-}" ]; then
    cp "$BEFORE" "$work/before"
    programs+=(before)
  fi
}

# Builds the twin of the whole commands, which is then `plain` in $work. It takes serde_json from the folder that CRATES names.
build_whole() {
  local crates=${CRATES:-/usr/share/cargo/registry}
  quietly cargo build --release --offline --manifest-path speed/whole/Cargo.toml --target-dir "$work/target" \
    --config 'source.crates-io.replace-with="here"' --config "source.here.directory=\"$crates\""
  cp "$work/target/release/whole" "$work/plain"
}

# Writes step files: each line of the input has a file's name and the arguments of core_steps for it. $names are then their names.
write_step_files() {
  local name words
  rustc -O -o "$work/core_steps" speed/core_steps.rs
  names=()
  while read -r name words; do
    # Several arguments.
    # shellcheck disable=SC2086
    "$work/core_steps" $words >"$work/$name.json" 2>/dev/null
    names+=("$name")
  done
}

# Writes a step file, a history and two script files of about this number of pieces, as replay.json, check.json, mix.json and, for
# one worker, run.json in $work; 0 is the full size. VERSION is their version, 1 or 2, by default 1. It needs `core_steps` and
# `plain`.
write_whole_files() {
  local most=${1/#0/1000000} calls=${1/#0/500000} version=${VERSION:-1}
  local words=(version="$version" stripes=256 keys=60000)
  "$work/core_steps" steps="$most" "${words[@]}" >"$work/replay.json" 2>/dev/null
  "$work/core_steps" steps=1000000 "${words[@]}" >"$work/long.json" 2>/dev/null
  "$work/plain" history "$work/long.json" "$most" >"$work/check.json"
  speed/scripts.sh every "$calls" 8 "$version" >"$work/mix.json"
  speed/scripts.sh every "$calls" 1 "$version" >"$work/run.json"
}

# Writes a script file for this number of workers and of keys: 10,000 scripts, each of four operations and a help; a tenth aborts.
write_run_file() {
  awk -v workers="$1" -v keys="$2" -v scripts=10000 '
    function word() { seed = (seed * 16807) % 2147483647; return seed }
    BEGIN {
      seed = 7
      printf "{\"version\":1,\"workers\":%d,\"stripes\":4096,\"buckets\":65536,\"tries\":1000,\"scripts\":[", workers
      for (script = 0; script < scripts; script++) {
        printf script ? ",[" : "["
        for (i = 0; i < 4; i++) {
          key = word() % keys
          action = word() % 4
          if (action < 2) printf "[\"put\",%d,%d],", key, i
          else printf "[\"%s\",%d],", action == 2 ? "take" : "get", key
        }
        printf "[\"help\",%d]%s]", key, script % 10 == 9 ? ",[\"abort\"]" : ""
      }
      print "]}"
    }' >"$work/run.json"
}

# Proves and builds the program of speed/NAME.rt.txt, or of the folder speed/NAME, as one more crate beside those of the repository,
# and runs it once: NAME, its line of crates.txt after the name, and the arguments of that run. It is then `NAME` in $work.
build_on_maps() {
  local there=$work/maps file
  if [ ! -e "$there" ]; then
    mkdir -p "$there/crates" "$there/out" out/proved
    cp build.py tools.sh crates.txt "$there/"
    ln -s "$PWD"/crates/* "$there/crates/"
    ln -s "$PWD/out/proved" "$there/out/proved"
  fi
  mkdir -p "$there/crates/$1"/{src,specs,proofs}
  touch "$there/crates/$1"/{specs,proofs}/Lib.antt
  if [ -d "speed/$1" ]; then
    find "speed/$1" -name '*.txt' -printf '%P\n' | while read -r file; do
      install -D "speed/$1/$file" "$there/crates/$1/${file%.txt}"
    done
  else
    cp "speed/$1.rt.txt" "$there/crates/$1/src/main.rt"
  fi
  echo "$1$2" >>"$there/crates.txt"
  quietly "$there/build.py" "$1"
  cp "$there/out/$1" "$work/"
  quietly "$work/$1" "${@:3}"
}
