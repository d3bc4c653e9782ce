#!/usr/bin/env bash
# Gives each command the files that cost it most (docs/FORMATS.md, "What a file may cost"), and prints for each the bytes of the file
# and of the output, the processor seconds, and the most memory in MB. `walks` puts KEYS keys into a table of two buckets, so each
# is sought from the beginning of the list; `seeks` seeks the last of KEYS keys again and again; `saves` and `puts` have as many
# steps as a file may have; `meets` has two workers that take 2,048 stripes each and then one of the other's, and try again TRIES
# times. With few KEYS and TRIES it takes a minute or two; with 200000 and 1000, the most that a file may have, it takes hours, and
# more memory than most machines have. LIMIT is the most memory that a run gets, in MB. PROGRAM may name the program.
# Usage: speed/bounds.sh [KEYS [TRIES]]
source "$(dirname "${BASH_SOURCE[0]}")/common.sh"
keys=${1:-5000}
tries=${2:-20}

take_program

cat >"$work/write.py" <<'PYTHON'
import sys

KIND, KEYS, TRIES = sys.argv[1], int(sys.argv[2]), int(sys.argv[3])
STEPS, ACTIONS = 1_000_000, 10_000


def key_at(place):
    """The key at this place of the order of the list, of 2^20 keys."""
    return int(f"{place:020b}"[::-1], 2)


def puts(places):
    """The steps that put a key at each place."""
    for place in places:
        yield f'["ask",0,"put",{key_at(place)},0]'
        yield from ('["seek",0]', '["act",0]')


def steps(these):
    head = '{"version":1,"callers":1,"stripes":1,"buckets":2,"steps":[["begin",0],'
    return head + ",".join([*these][: STEPS - 1]) + "]}"


def scripts(workers, stripes, these):
    head = f'{{"version":1,"workers":{workers},"stripes":{stripes},"buckets":2,"tries":{TRIES},"scripts":['
    return head + ",".join(f"[{','.join(actions)}]" for actions in these) + "]}"


def put(key):
    return f'["put",{key},0]'


def walks():
    parts = range(0, KEYS, ACTIONS)
    return scripts(1, 1, ([put(key_at(at)) for at in range(part, min(part + ACTIONS, KEYS))] for part in parts))


def meets():
    rows = [[put(2 * at + worker) for at in range(2048)] + [put(1 - worker)] for worker in (0, 1)]
    return scripts(2, 4096, rows)


FILES = {
    "saves": lambda: steps(['["save",0]'] * STEPS),
    "puts": lambda: steps(puts(range(333_000, 0, -1))),
    "seeks": lambda: steps([*puts(range(KEYS)), f'["ask",0,"get",{key_at(KEYS - 1)}]', *['["seek",0]'] * STEPS]),
    "walks": walks,
    "meets": meets,
}
sys.stdout.write(FILES[KIND]())
PYTHON

printf '%-7s %-6s %9s %10s %8s %8s %6s\n' command file bytes printed seconds MB status
while read -r command kind; do
  python3 "$work/write.py" "$kind" "$keys" "$tries" >"$work/file.json"
  words=("$command")
  [ "$command" = mix ] && words+=(--seed 7)
  if [ "$command" = check ]; then
    "$work/proved" mix --seed 7 "$work/file.json" >"$work/history.json"
    mv "$work/history.json" "$work/file.json"
  fi
  status=0
  (
    ulimit -v $((${LIMIT:-16000} * 1024))
    exec /usr/bin/time -q -o "$work/used" -f '%U %S %M' "$work/proved" "${words[@]}" "$work/file.json"
  ) >"$work/printed" 2>"$work/log" || status=$?
  tail -n 1 "$work/used" | awk -v command="$command" -v kind="$kind" -v bytes="$(wc -c <"$work/file.json")" \
    -v printed="$(wc -c <"$work/printed")" -v status="$status" '{
      printf "%-7s %-6s %9d %10d %8.1f %8.1f %6d\n", command, kind, bytes, printed, $1 + $2, $3 / 1024, status }'
done <<'FILES'
replay saves
replay puts
replay seeks
mix walks
mix meets
run walks
run meets
check meets
FILES
