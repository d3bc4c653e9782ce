#!/usr/bin/env bash
# Proves, builds and installs: install.sh PREFIX [programs] [c] [python] [rust]; without a word, all of them.
#   programs  bin/boostmap, bin/judge, and their manual pages
#   c         lib/libboostmap.a, the proved archive with the toolchain's allocator; lib/libboostmap.so.N, the same as a
#             shared library; the headers for C and C++; files for pkg-config and CMake; boostmap(3)
#   python    share/boostmap/python/boostmap: the package, which loads the shared library, with type hints, and the module
#             _boostmap, which makes its calls faster, if python3-config is there
#   rust      share/boostmap/rust: the crate, which links the archive
# install.sh PREFIX uninstall removes what was installed there. build.py proves what is not proved yet. If a tool is
# missing or a proof fails, the status is 125.
set -euo pipefail
root=$(dirname -- "$(readlink -f -- "${BASH_SOURCE[0]}")")
# shellcheck source=tools.sh
. "$root/tools.sh"
words=" ${*:2} "
[ $# -gt 1 ] || words=' programs c python rust '
if [[ -z ${1-} || ! $words =~ ^( uninstall | ((programs|c|python|rust)\ )+)$ ]]; then
  echo 'usage: install.sh PREFIX [programs] [c] [python] [rust] | install.sh PREFIX uninstall' >&2
  exit 2
fi
wants() { [[ $words =~ \ ($1)\  ]]; }
# What is installed, a path below PREFIX on each line.
list=share/boostmap/installed

if wants uninstall; then
  if [ ! -f "$1/$list" ]; then
    echo "install.sh: nothing is installed in $1" >&2
    exit 1
  fi
  cd -- "$1"
  mapfile -t files <$list
  rm -f -- "${files[@]}" $list
  for file in "${files[@]}" $list; do
    if [ -d "$(dirname -- "$file")" ]; then rmdir -p --ignore-fail-on-non-empty -- "$(dirname -- "$file")"; fi
  done
  exit 0
fi

need install.sh "${RT:-rt}" 'prove and build what is installed'
need install.sh python3 'prove and build what is installed'
if wants 'c|python|rust'; then need install.sh cc 'link the shared library'; fi
if wants 'c|python|rust'; then need install.sh ar 'add the allocator to the archive'; fi
targets=()
if wants programs; then targets+=(boostmap judge); fi
if wants 'c|python|rust'; then targets+=(boostmap_c); fi
"$root/build.py" "${targets[@]}"
mkdir -p -- "$1/share/boostmap"
prefix=$(cd -- "$1" && pwd)
version=$(<"$root/VERSION")
shared=libboostmap.so.${version%%.*}
work=$(mktemp -d)
trap 'rm -rf "$work"' EXIT
touch -- "$prefix/$list"

# put MODE FILE PATH: installs a file under a path below PREFIX.
put() {
  install -D -m "$1" -- "$2" "$prefix/$3"
  echo "$3" >>"$prefix/$list"
}

# Plain text for a manual page, as it is.
escaped='s/\\/\\e/g; s/-/\\-/g; s/`/\\(ga/g; s/'\''/\\(aq/g; s/^\./\\\&./'
as_it_is() { echo .nf && sed "$escaped" && echo .fi; }

# Prints a program's manual page: man/NAME.1.in, with the usage that the program prints.
program_page() {
  usage "$2" >"$work/usage"
  sed -n '1s/^usage: //; /^$/q; s/^       //; p' "$work/usage" | as_it_is >"$work/synopsis"
  sed '1,/^$/d' "$work/usage" | as_it_is >"$work/description"
  sed -e "s/@VERSION@/$version/" -e "/^@SYNOPSIS@$/{r $work/synopsis" -e 'd}' -e "/^@USAGE@$/{r $work/description" -e 'd}' \
    "$root/man/$1.1.in"
}

# Prints boostmap(3): the first comment of boostmap.h, whose headings stand to the left.
library_page() {
  echo ".TH BOOSTMAP 3 \"\" \"boostmap $version\""
  sed -n '2,/^ \*\//{s/^ \*\( \|$\)//; /^\//d; p}' "$root/bindings/include/boostmap.h" |
    sed "/^[^ ]/{s/.*/.fi\n.SH &\n.nf/; b}; s/^    //; $escaped"
}

if wants programs; then
  for name in boostmap judge; do put 755 "$root/out/$name" bin/$name; done
  program_page boostmap crates/boostmap_engine/src/fault.rt >"$work/page" && put 644 "$work/page" share/man/man1/boostmap.1
  program_page judge crates/judge_program/src/failure.rt >"$work/page" && put 644 "$work/page" share/man/man1/judge.1
fi

if wants 'c|python|rust'; then
  # A script of ar takes no path with a blank, and ar's status does not say so.
  cp -- "$root/out/libboostmap_c.a" "$work/proved.a"
  cp -- "$(dirname -- "$("${RT:-rt}" doc)")/c/liblibc_c.a" "$work/allocator.a"
  (cd "$work" && printf '%s\n' 'create all.a' 'addlib proved.a' 'addlib allocator.a' save end | ar -M && [ -s all.a ])
  echo '{ global: boostmap_*; local: *; };' >"$work/exports"
  cc -shared -o "$work/$shared" -Wl,-soname,"$shared" -Wl,--version-script="$work/exports" \
    -Wl,--whole-archive "$work/proved.a" -Wl,--no-whole-archive "$work/allocator.a"
fi
if wants 'c|rust'; then put 644 "$work/all.a" lib/libboostmap.a; fi
if wants 'c|python'; then put 755 "$work/$shared" lib/"$shared"; fi

if wants c; then
  for file in "$root"/bindings/include/*; do put 644 "$file" include/"${file##*/}"; done
  library_page >"$work/page" && put 644 "$work/page" share/man/man3/boostmap.3
  cat >"$work/boostmap.pc" <<PC
prefix=$prefix
libdir=\${prefix}/lib
includedir=\${prefix}/include

Name: boostmap
Description: A transactional map from 64-bit keys to 64-bit values, proved
Version: $version
Cflags: -I"\${includedir}"
Libs: -L"\${libdir}" -lboostmap
PC
  put 644 "$work/boostmap.pc" lib/pkgconfig/boostmap.pc
  for file in boostmap-config boostmap-config-version; do
    sed "s/@VERSION@/$version/; s/@MAJOR@/${version%%.*}/; s/@SHARED@/$shared/" "$root/bindings/$file.cmake.in" >"$work/$file"
    put 644 "$work/$file" lib/cmake/boostmap/$file.cmake
  done
fi

if wants python; then
  package=share/boostmap/python/boostmap
  for file in __init__.py __init__.pyi py.typed; do put 644 "$root/bindings/python/boostmap/$file" $package/$file; done
  ln -sf -- ../../../../lib/"$shared" "$prefix/$package/libboostmap.so"
  echo $package/libboostmap.so >>"$prefix/$list"
  if command -v python3-config >/dev/null; then
    module=_boostmap$(python3-config --extension-suffix)
    # The flags are several words.
    # shellcheck disable=SC2046,SC2016
    if cc -shared -fPIC -O2 $(python3-config --includes) -I"$root/bindings/include" \
      "$root/bindings/python/boostmap/_boostmap.c" "$work/$shared" -Wl,-rpath,'$ORIGIN/../../../../lib' -o "$work/module"; then
      put 755 "$work/module" $package/"$module"
    else
      echo "install.sh: no module _boostmap: the package makes its calls by ctypes" >&2
    fi
  fi
fi

if wants rust; then
  while read -r file; do put 644 "$root/bindings/rust/$file" share/boostmap/rust/"$file"; done \
    < <(cd "$root/bindings/rust" && find . -name target -prune -o -type f -printf '%P\n')
fi
sort -u -o "$prefix/$list" -- "$prefix/$list"
