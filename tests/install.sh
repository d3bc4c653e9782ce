#!/usr/bin/env bash
# Installs all in a folder with a blank in its name, and tests what is there: the programs, the manual pages, programs in C
# that pkg-config and CMake build, the shared library, the Python module, what each word of install.sh installs, and what
# uninstall leaves; and that all of them show the number in VERSION. It needs rt and cc, and uses cmake, pkg-config, man,
# mandoc, python3 and cargo if they are there. What is not proved yet is proved first; the rest takes half a minute.
# The last line is 'install: N passed, M failed', and '; not run: ..' names the tests whose tools are missing. The status
# is 1 if M is not 0.
set -uo pipefail
cd "$(dirname "${BASH_SOURCE[0]}")/.." || exit 1
work=$(mktemp -d)
trap 'rm -rf "$work"' EXIT
passed=0 failed=0 missing=
prefix="$work/a prefix"
version=$(<VERSION)

# Runs a test, by its name. Its output is shown only if it fails.
try() {
  local name=$1
  shift
  if "$@" >"$work/log" 2>&1 </dev/null; then
    passed=$((passed + 1))
  else
    failed=$((failed + 1))
    echo "install: $name: failed" >&2
    cat "$work/log" >&2
  fi
}

# Whether a command is there; if not, the tests that need it are named as not run.
has() {
  command -v "$1" >/dev/null && return
  missing+="${missing:+, }$2 (no $1)"
  false
}

# Whether a command prints exactly this.
prints() { [ "$("${@:2}")" = "$1" ]; }
fails() { ! "$@"; }
# Lists what is below a folder, in one line.
listed() { (cd "$1" && find . "${@:2}" | LC_ALL=C sort | xargs); }
ends() { local status=0; "${@:2}" || status=$?; [ $status = "$1" ]; }

# Whether a manual page is shown without a warning, and has the version and the lines of a text.
is_page() {
  if ! LC_ALL=C MANWIDTH=200 man --warnings -P cat -l "$1" >"$work/page" 2>"$work/warnings" || [ -s "$work/warnings" ]; then
    cat "$work/warnings"
    return 1
  fi
  sed 's/.\x08//g' "$work/page" | tr -s ' ' | sed 's/^ //' >"$work/plain"
  grep -q "boostmap $version" "$work/plain" || return
  while IFS= read -r line; do
    grep -qxF -e "$line" "$work/plain" || { echo "no line: $line"; return 1; }
  done < <(tr -s ' ' <<<"$2" | sed 's/^usage: //; s/^ //; /^$/d')
}

cat >"$work/use.c" <<'C'
#include <boostmap.h>
#include <stdio.h>
int main(void) {
    boostmap_caller caller = BOOSTMAP_INIT;
    uint64_t word;
    if (boostmap_striped_open(&caller, 1, 8, 0, BOOSTMAP_KEEP_NOTHING, 0, &word) || boostmap_striped_begin(&caller)
        || boostmap_striped_put(&caller, 1, 10, &word) != BOOSTMAP_ABSENT || boostmap_striped_get(&caller, 1, &word)
        || word != 10 || boostmap_striped_free(&caller))
        return 1;
    puts(BOOSTMAP_VERSION);
    return 0;
}
C

by_pkg_config() {
  local flags
  flags=$(PKG_CONFIG_PATH=$prefix/lib/pkgconfig pkg-config --cflags --libs boostmap) || return
  eval "cc \"$work/use.c\" $flags" -o "$work/by_pkg_config" && prints "$version" "$work/by_pkg_config"
}

by_cmake() {
  mkdir -p "$work/project" && cp "$work/use.c" "$work/project" && cat >"$work/project/CMakeLists.txt" <<CMAKE || return
cmake_minimum_required(VERSION 3.10)
project(use C)
find_package(boostmap $1 REQUIRED)
add_executable(static use.c)
target_link_libraries(static boostmap::boostmap)
add_executable(shared use.c)
target_link_libraries(shared boostmap::shared)
CMAKE
  rm -rf "$work/by cmake"
  cmake -S "$work/project" -B "$work/by cmake" -DCMAKE_PREFIX_PATH="$prefix" && cmake --build "$work/by cmake" &&
    prints "$version" "$work/by cmake/static" && prints "$version" "$work/by cmake/shared" &&
    [[ $(ldd "$work/by cmake/shared") = *libboostmap.so."${version%%.*}"* && $(ldd "$work/by cmake/static") != *libboostmap* ]]
}

by_shared() {
  local library=$prefix/lib/libboostmap.so.${version%%.*}
  cc "$work/use.c" -I"$prefix/include" "$library" -o "$work/by_shared" &&
    LD_LIBRARY_PATH=$prefix/lib prints "$version" "$work/by_shared" && [[ $(readelf -d "$library") = *SONAME*"[${library##*/}]"* ]] &&
    ! nm -D --defined-only "$library" | grep -v ' boostmap_'
}

by_python() {
  PYTHONPATH=$prefix/share/boostmap/python PYTHONDONTWRITEBYTECODE=1 python3 -c '
import sys, boostmap
assert boostmap.__version__ == sys.argv[1], boostmap.__version__
caller = boostmap.open_striped(1, 8)[0]
assert caller.transact(lambda t: t.put(1, 10)) is None
assert caller.transact(lambda t: t.get(1)) == 10
loaded = {line.split(maxsplit=5)[5].strip() for line in open("/proc/self/maps") if "libboostmap" in line}
assert loaded == {sys.argv[2]}, loaded' "$version" "$prefix/lib/libboostmap.so.${version%%.*}"
}

by_cargo() {
  [[ $(cargo metadata --offline --no-deps --format-version 1 --manifest-path "$prefix/share/boostmap/rust/Cargo.toml") = \
    *"\"version\":\"$version\""* ]]
}

# Installs what one word says, and compares the paths of the first two levels.
word_alone() {
  rm -rf "$work/alone"
  ./install.sh "$work/alone" "$1" && prints "$2" listed "$work/alone" -mindepth 2 -maxdepth 2
}

leaves_the_rest() {
  touch "$prefix/lib/another" && ./install.sh "$prefix" uninstall &&
    prints './lib ./lib/another' listed "$prefix" -mindepth 1
}

try 'install.sh' ./install.sh "$prefix"
for name in boostmap judge; do
  try "$name" prints 'legal 2 commits 0 open' "$prefix/bin/$name" check examples/checked.json
done
try 'judge --version' prints "judge $version" "$prefix/bin/judge" --version
try './judge --version' prints "judge $version" ./judge --version
try 'the crate' grep -qxF "version = \"$version\"" "$prefix/share/boostmap/rust/Cargo.toml"
if has man 'the manual pages'; then
  try 'boostmap(1)' is_page "$prefix/share/man/man1/boostmap.1" "$("$prefix/bin/boostmap" 2>&1)"
  try 'judge(1)' is_page "$prefix/share/man/man1/judge.1" "$("$prefix/bin/judge" --help)"
  try 'boostmap(3)' is_page "$prefix/share/man/man3/boostmap.3" "$(sed -n '2,/^ \*\//{s/^ \*//; /^\//d; p}' bindings/include/boostmap.h)"
fi
if has mandoc 'the manual pages by it'; then
  try 'mandoc' prints '' mandoc -T lint -W error "$prefix"/share/man/man?/*
fi
if has pkg-config 'the pkg-config file'; then
  try 'a program by pkg-config' by_pkg_config
  try 'the version of boostmap.pc' prints "$version" env "PKG_CONFIG_PATH=$prefix/lib/pkgconfig" pkg-config --modversion boostmap
fi
if has cmake 'the CMake files'; then
  try 'programs by CMake' by_cmake ''
  try 'programs by CMake, this version' by_cmake "$version EXACT"
  try 'CMake refuses a later version' fails by_cmake "$((${version%%.*} + 1))"
fi
try 'a program with the shared library' by_shared
if has python3 'the Python module'; then try 'Python' by_python; fi
if has cargo 'the crate by cargo'; then
  try 'cargo' by_cargo
fi
try 'install.sh again' ./install.sh "$prefix"
try 'uninstall' leaves_the_rest
try 'uninstall where nothing is' ends 1 ./install.sh "$prefix" uninstall
try 'programs' word_alone programs './bin/boostmap ./bin/judge ./share/boostmap ./share/man'
try 'c' word_alone c "$(listed bindings -type f -path './include/*') \
./lib/cmake ./lib/libboostmap.a ./lib/libboostmap.so.${version%%.*} ./lib/pkgconfig ./share/boostmap ./share/man"
try 'python' word_alone python "./lib/libboostmap.so.${version%%.*} ./share/boostmap"
try 'rust' word_alone rust './lib/libboostmap.a ./share/boostmap'
for words in '' "'' c" "$work/x nothing" "$work/x c uninstall" "$work/x uninstall c"; do
  try "the usage: $words" ends 2 eval "./install.sh $words"
done
echo "install: $passed passed, $failed failed${missing:+; not run: $missing}"
[ "$failed" = 0 ]
