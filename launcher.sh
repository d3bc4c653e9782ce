# Runs a proved program of this repository with the caller's arguments, in the caller's folder. The
# programs' scripts at the top of the repository source it after tools.sh, and after they have set:
#
#   root      the top of the repository
#   program   the program's crate
#   part      the crate of the same program without threads, if it can do the run, or nothing
#   commands  the program's commands, each between blanks
#   usage     the source file that has the program's usage
#
# If the program is not built, or a source has been touched since, build.py proves and builds it first. If it
# was never built here, a run that `part` can do waits only for `part`. A run without a command or a file
# builds nothing. If a tool is missing or the build fails, the status is 125, which no other run returns.
# shellcheck shell=bash disable=SC2154

# When each source was last touched, and which toolchain is on the path; if there is none, any counts as the
# same. If that differs from what it was after a program's last build, build.py looks at what has changed.
now="$(find "$root"/crates.txt "$root"/crates/*/{src,specs,proofs} -type f -printf '%p %C@\n' 2>/dev/null | sha256sum)"
now+=" $(stat -Lc '%n %Z' -- "$(command -v -- "${RT:-rt}")" 2>/dev/null)"

is_built() {
    [ -x "$root/out/$1" ] && [ -f "$root/out/$1.seen" ] && [[ $(<"$root/out/$1.seen") = "$now"* ]]
}

if [ -n "$part" ] && [ ! -x "$root/out/$program" ]; then program=$part; fi
if ! is_built "$program"; then
    if [[ $commands != *" ${1-} "* || $# = 1 && $1 != watch ]]; then
        usage "$usage" >&2
        exit 2
    fi
    need "$program" "${RT:-rt}" 'prove and build the program'
    need "$program" python3 'prove and build the program'
    [ -d "$root/out/proved" ] || echo "$program: for a first look without a proof, within a minute or two: ./look" >&2
    "$root/build.py" "$program" && echo "$now" >"$root/out/$program.seen" || exit 125
fi
exec "$root/out/$program" "$@"
