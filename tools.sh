# Defines what the scripts of this repository share. They source it, and set `root`, the top of the
# repository, before they call anything but `need`.
# shellcheck shell=bash disable=SC2154

# need SCRIPT TOOL USE: if this tool is not on the path, says so, in the name of this script and with what
# it is needed for, and ends with status 125.
need() {
    local advice="install it, for example from your system's packages"
    ! command -v -- "$2" >/dev/null || return 0
    [ "$2" != "${RT:-rt}" ] || advice='put the Rattle toolchain on the path, or the path of its rt into RT'
    echo "$1: there is no $2, which is needed to $3: $advice" >&2
    exit 125
}

# Prints a sum of the sources of all crates.
sum_of_sources() {
    cd -- "$root" && find crates.txt crates/*/{src,specs,proofs} -type f -print0 2>/dev/null |
        LC_ALL=C sort -z | xargs -0 sha256sum | sha256sum | cut -d ' ' -f 1
}

# usage FILE: prints the usage of a program, from the source file that has it.
usage() {
    sed -nE '/const USAGE: &str = "/,/";$/{s/^.*const USAGE: &str = "//;s/";$//;p;}' "$root/$1"
}
