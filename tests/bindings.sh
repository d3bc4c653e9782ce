#!/usr/bin/env bash
# Installs the library for C, C++, Rust and Python in a temporary folder, and runs each language's tests and its example,
# whose output must be bindings/examples/stdout. It needs rt and cc, and uses c++, clang, cargo, python3, valgrind and the
# compiler's sanitizers if they are there. Nothing is downloaded. If the archive is not built yet, build.py proves and builds
# it first; the rest takes three to four minutes of processor time.
# The last line is 'bindings: N passed, M failed', and '; not run: ..' names the tests whose tools are missing. The status
# is 1 if M is not 0.
set -uo pipefail
cd "$(dirname "${BASH_SOURCE[0]}")/.." || exit 1
work=$(mktemp -d)
trap 'rm -rf "$work"' EXIT
passed=0 failed=0 missing=

# Runs a test, by its name. Its output is shown only if it fails.
try() {
  local name=$1
  shift
  if "$@" >"$work/log" 2>&1 </dev/null; then
    passed=$((passed + 1))
  else
    failed=$((failed + 1))
    echo "bindings: $name: failed" >&2
    cat "$work/log" >&2
  fi
}

# Adds a test that is not run to the last line.
not_run() { missing+="${missing:+, }$2 (no $1)"; }

# Whether a command is there; if not, the tests that need it are named as not run.
has() {
  command -v "$1" >/dev/null && return
  not_run "$1" "$2"
  false
}

# Whether programs can be built with a sanitizer, and run; if not, the tests that need it are named as not run.
sanitizes() {
  echo 'int main(void) { return 0; }' >"$work/empty.c"
  cc "-fsanitize=$1" "$work/empty.c" -o "$work/empty" 2>/dev/null && "$work/empty" 2>/dev/null && return
  not_run "$2" "$3"
  false
}

# Runs a command for 600 seconds at most.
within() { timeout 600 "$@"; }

prints_the_example() { within "$@" | cmp - bindings/examples/stdout; }
prints_the_threads() { within "$@" | cmp - bindings/examples/threads.stdout; }
prints_the_verdict() { within "$@" | cmp - bindings/examples/judged.stdout; }

# Compiles the example in C with the flags of boostmap.pc, in a folder with a blank in its name, and runs it.
with_pkg_config() {
  local flags folder="$work/with a blank"
  mkdir -p "$folder" && cp -r "$work/usr/include" "$work/usr/lib" "$folder" || return
  sed "s|^prefix=.*|prefix=$folder|" "$work/usr/lib/pkgconfig/boostmap.pc" >"$folder/lib/pkgconfig/boostmap.pc"
  flags=$(PKG_CONFIG_PATH=$folder/lib/pkgconfig pkg-config --cflags --libs boostmap) || return
  eval "cc bindings/examples/transfer.c $flags" -o "$work/by_pkg_config" && prints_the_example "$work/by_pkg_config"
}

# Fails if a compiler accepts a job that commits.
no_commit_in_a_job() {
  printf '%s\n' '#include <boostmap.hpp>' 'void f(boostmap_cpp::caller &c) {' \
    '  c.transact([](auto &t) { t.put(1, 1); });' '#ifdef COMMITS' '  c.transact([](auto &t) { t.commit(); });' '#endif' '}' \
    >"$work/job.cpp"
  c++ -std=c++17 "${use[@]}" -fsyntax-only "$work/job.cpp" && ! c++ -std=c++17 "${use[@]}" -DCOMMITS -fsyntax-only "$work/job.cpp"
}

# Compiles a file with a compiler, as a language, in each of its versions, with more warnings.
in_each() {
  local version
  for version in "${@:4}"; do
    "$1" -x "$2" "-std=$version" "${strict[@]}" -Wconversion "${include[@]}" -fsyntax-only "$3" || return
  done
}

# Compiles the headers in each version of C, or of C++, for which they are.
headers_in_c() {
  try "boostmap.h in C by $1" in_each "$1" c "$work/plain" c99 c11 c17 c2x
  try "boostmap_checked.h in C by $1" in_each "$1" c "$work/checked" c11 c17 c2x
}
headers_in_cpp() {
  try "boostmap.h in C++ by $1" in_each "$1" c++ "$work/plain" c++11 c++14 c++17 c++20 c++2b
  try "boostmap_checked.h in C++ by $1" in_each "$1" c++ "$work/checked" c++11 c++14 c++17 c++20 c++2b
  try "boostmap.hpp by $1" in_each "$1" c++ bindings/tests/values.cpp c++17 c++20 c++2b
}
printf '#include <boostmap.h>\nboostmap_caller caller = BOOSTMAP_INIT;\n' >"$work/plain"
printf '#include <boostmap_checked.h>\nboostmap_caller_door caller = BOOSTMAP_DOOR_INIT;\n' >"$work/checked"

include=(-Ibindings/tests "-I$work/usr/include")
use=("${include[@]}" "-L$work/usr/lib")
strict=(-O2 -Wall -Wextra -Wpedantic -Werror)
sanitized=(-O1 -g "-fsanitize=address,undefined" -fno-sanitize-recover=all -pthread)

# Compiles and runs a test in C: its name, its standard, and further arguments of the compiler.
c_test() {
  local name=$1 standard=$2
  shift 2
  try "compile $name.c" cc "-std=$standard" "${strict[@]}" "${use[@]}" "bindings/tests/$name.c" -o "$work/$name" -lboostmap "$@"
  try "$name" within "$work/$name"
}

in_c() {
  headers_in_c cc
  if has clang 'the headers for C by it'; then headers_in_c clang; fi
  c_test manual c11 -D_GNU_SOURCE -pthread
  c_test statuses c99
  c_test read c99
  c_test owned c99
  c_test judge c99
  c_test any_order c99
  c_test recorded c99
  c_test threads c11 -D_GNU_SOURCE -pthread
  c_test striped c99
  c_test run c99
  c_test stripe c99
  c_test seeded c99
  c_test striped_threads c11 -D_GNU_SOURCE -pthread
  try 'striped_threads with 16' within "$work/striped_threads" 16
  c_test history c11 -pthread
  try 'history with 16' within "$work/history" 16
  c_test striped_recorded c11 -pthread
  try 'striped_recorded with 16' within "$work/striped_recorded" 16
  c_test another c11 -pthread -Wl,--wrap=malloc -Wl,--wrap=realloc -Wl,--wrap=free
  c_test door c11 -pthread
  c_test no_memory c11 -Wl,--wrap=malloc -Wl,--wrap=realloc -Wl,--wrap=free
  c_test whole c99
  c_test model c99
  c_test crowd c11 -D_GNU_SOURCE -pthread -Wl,--wrap=malloc -Wl,--wrap=calloc -Wl,--wrap=realloc -Wl,--wrap=free
  try 'crowd of 16, with one in 20 allocations refused' within "$work/crowd" 16 20
  try 'crowd of 8, with no allocation refused' within "$work/crowd" 8 0
  try 'compile transfer.c' cc -std=c99 "${strict[@]}" "${use[@]}" bindings/examples/transfer.c -o "$work/transfer" -lboostmap
  try 'example in C' prints_the_example "$work/transfer"
  try 'compile threads.c, the example' cc -std=c99 "${strict[@]}" "${use[@]}" bindings/examples/threads.c \
    -o "$work/threads_example" -lboostmap -pthread
  try 'example of threads in C' prints_the_threads "$work/threads_example"
  try 'compile judged.c' cc -std=c99 "${strict[@]}" "${use[@]}" bindings/examples/judged.c -o "$work/judged" -lboostmap -pthread
  try 'a run in C that is judged' prints_the_verdict "$work/judged"
}

in_c_again() {
  local name checked=(within valgrind -q --error-exitcode=9 --leak-check=full)
  if has valgrind 'the tests in C under it'; then
    for name in statuses read owned no_memory threads striped run stripe whole; do
      try "$name under valgrind" "${checked[@]}" "$work/$name"
    done
    try 'any_order under valgrind' "${checked[@]}" "$work/any_order"
    try 'another with 10000 under valgrind' "${checked[@]}" --fair-sched=yes "$work/another" 10000
    try 'model of 40000 calls under valgrind' "${checked[@]}" "$work/model" 40000
    for name in 4 16; do
      try "striped_threads with $name under valgrind" "${checked[@]}" --fair-sched=yes "$work/striped_threads" "$name" 1000
    done
  fi
  if sanitizes address,undefined AddressSanitizer 'the calls in C with it'; then
    for name in model whole manual; do
      try "compile $name.c with AddressSanitizer" cc -std=c11 -D_GNU_SOURCE "${sanitized[@]}" "${use[@]}" \
        "bindings/tests/$name.c" -o "$work/$name.asan" -lboostmap
      try "$name with AddressSanitizer" within "$work/$name.asan"
    done
  fi
  if sanitizes thread ThreadSanitizer 'the threads in C with it'; then
    for name in threads door striped_threads striped_recorded; do
      try "compile $name.c with ThreadSanitizer" cc -std=c11 -D_GNU_SOURCE -O1 -g -fsanitize=thread -pthread "${use[@]}" \
        "bindings/tests/$name.c" -o "$work/$name.tsan" -lboostmap
      try "$name with ThreadSanitizer" within "$work/$name.tsan"
    done
    try 'striped_threads with 16 and ThreadSanitizer' within "$work/striped_threads.tsan" 16
  fi
}

in_cpp() {
  local name
  try 'compile values.cpp' c++ -std=c++17 "${strict[@]}" "${use[@]}" bindings/tests/values.cpp -o "$work/values" -lboostmap -pthread
  try 'values in C++' within "$work/values"
  if has valgrind 'values in C++ under it'; then
    try 'values in C++ under valgrind' within valgrind -q --error-exitcode=9 --leak-check=full --fair-sched=yes "$work/values" 2000
  fi
  try 'compile model.cpp' c++ -std=c++17 "${strict[@]}" "${use[@]}" bindings/tests/model.cpp -o "$work/model_cpp" -lboostmap
  try 'model in C++' within "$work/model_cpp"
  if sanitizes address,undefined AddressSanitizer 'the calls in C++ with it'; then
    for name in model values; do
      try "compile $name.cpp with AddressSanitizer" c++ -std=c++17 "${sanitized[@]}" "${use[@]}" \
        "bindings/tests/$name.cpp" -o "$work/$name.asan" -lboostmap
      try "$name in C++ with AddressSanitizer" within "$work/$name.asan" 2000
    done
  fi
  try 'no commit in a job' no_commit_in_a_job
  headers_in_cpp c++
  if has clang++ 'the headers for C++ by it'; then headers_in_cpp clang++; fi
  try 'compile transfer.cpp' c++ -std=c++17 "${strict[@]}" "${use[@]}" bindings/examples/transfer.cpp -o "$work/transfer" -lboostmap -pthread
  try 'example in C++' prints_the_example "$work/transfer"
  try 'compile judged.cpp' c++ -std=c++17 "${strict[@]}" "${use[@]}" bindings/examples/judged.cpp -o "$work/judged" -lboostmap -pthread
  try 'a run in C++ that is judged' prints_the_verdict "$work/judged"
}

# Fails unless cargo says without BOOSTMAP_LIB that this variable is not set.
names_the_variable() {
  ! env -u BOOSTMAP_LIB "CARGO_TARGET_DIR=$work/target" cargo build "$@" 2>"$work/said" && grep -q 'BOOSTMAP_LIB is not set' "$work/said"
}

in_rust() {
  local run=(env "BOOSTMAP_LIB=$work/usr/lib" "CARGO_TARGET_DIR=$work/target" cargo)
  local crate=(--offline --quiet --manifest-path "$work/rust/Cargo.toml")
  cp -r bindings/rust "$work/rust"
  try 'tests in Rust' within "${run[@]}" test "${crate[@]}"
  if has cargo-clippy 'the crate in Rust by it'; then
    try 'clippy' within "${run[@]}" clippy "${crate[@]}" --all-targets -- -D warnings
  fi
  try 'pages of the crate in Rust' within env RUSTDOCFLAGS=-Dwarnings "${run[@]}" doc "${crate[@]}" --no-deps
  try 'the crate in Rust without its library' names_the_variable "${crate[@]}"
  try 'the crate in Rust beside its library' within env -u BOOSTMAP_LIB "CARGO_TARGET_DIR=$work/target" cargo run --offline --quiet \
    --manifest-path "$work/usr/share/boostmap/rust/Cargo.toml" --example transfer
  try 'example in Rust' prints_the_example "${run[@]}" run "${crate[@]}" --example transfer
  try 'a run in Rust that is judged' prints_the_verdict "${run[@]}" run "${crate[@]}" --example judged
  # What README shows, which puts 20 at key 1.
  {
    echo 'fn main() -> Result<(), boostmap::Error> {'
    awk '/^```/ { inside = $0 == "```rust"; next } inside' README.md
    echo 'assert_eq!(callers[0].transact(|t| t.get(1))?, Some(20)); Ok(()) }'
  } >"$work/rust/examples/readme.rs"
  try 'what README shows in Rust' within "${run[@]}" run "${crate[@]}" --example readme
}

in_python() {
  local run=(env "PYTHONPATH=$work/usr/share/boostmap/python" PYTHONDONTWRITEBYTECODE=1 python3)
  try 'tests in Python' within "${run[@]}" bindings/tests/test_boostmap.py
  try 'tests in Python by ctypes' within "${run[@]}" -c 'import sys, unittest
sys.modules["boostmap._boostmap"] = None
sys.path.insert(0, "bindings/tests")
unittest.main(module="test_boostmap")'
  try 'example in Python' prints_the_example "${run[@]}" bindings/examples/transfer.py
  try 'a run in Python that is judged' prints_the_verdict "${run[@]}" bindings/examples/judged.py
}

try 'install.sh' bindings/install.sh "$work/usr"
if has cc 'everything in C'; then in_c && in_c_again; fi
if has pkg-config 'the pkg-config file'; then
  try 'boostmap.pc' with_pkg_config
fi
if has c++ 'everything in C++'; then in_cpp; fi
if has cargo 'everything in Rust'; then in_rust; fi
if has python3 'everything in Python'; then in_python; fi
echo "bindings: $passed passed, $failed failed${missing:+; not run: $missing}"
[ "$failed" = 0 ]
