#!/usr/bin/env bash
# Installs the library for C, C++, Rust and Python in a folder: bindings/install.sh PREFIX. See install.sh at the top.
if [ $# != 1 ]; then
  echo 'usage: bindings/install.sh PREFIX' >&2
  exit 2
fi
exec "$(dirname -- "${BASH_SOURCE[0]}")/../install.sh" "$1" c python rust
