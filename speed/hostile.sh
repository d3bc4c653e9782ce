#!/usr/bin/env bash
# Gives each command hostile files of the full size, 16,777,216 bytes, and prints for each the answer,
# the processor seconds, and the most memory as a multiple of the file. A star marks an answer that
# docs/ANSWERS.md does not give, a time of a second or more, and memory of 12 times the file or more; if
# there is a star, the status is 1. It takes half a minute, and needs python3 and the built program.
# Usage: speed/hostile.sh [PROGRAM]
set -euo pipefail
cd "$(dirname "${BASH_SOURCE[0]}")/.."
work=$(mktemp -d)
trap 'rm -rf "$work"' EXIT
python3 - "$work" "${1:-out/boostmap}" <<'PYTHON'
import os
import subprocess
import sys

FOLDER, PROGRAM = sys.argv[1:]
SIZE = 16_777_216
LIMITS = '"version":1,"stripes":8,"buckets":8'
# The words of each command, and the texts in its files for MEMBERS, PIECES and PIECE below.
COMMANDS = {
    "replay": (LIMITS + ',"callers":2', "steps", "step"),
    "mix --seed 7": (LIMITS + ',"workers":2,"tries":0', "scripts", "script"),
    "check": (LIMITS, "entries", "entry"),
}
# Of each file: its beginning, the part that is repeated up to the full size, its end, and the number with
# which it is refused, if it is.
RIGHT = '{MEMBERS,"PIECES":[]'
SHAPES = {
    "blanks": (RIGHT, " ", "}", ""),
    "a long text": (RIGHT + ',"x":"', "a", '"}', ""),
    "a long text of escapes": (RIGHT + ',"x":"', "\\n", '"}', ""),
    "a long text of \\u escapes": (RIGHT + ',"x":"', "\\u00e9", '"}', ""),
    "a text without an end": (RIGHT + ',"x":"', "a", "", "20"),
    "a text with a byte 255": (RIGHT + ',"x":"', "a", '\xff"}', "20"),
    "a long name": (RIGHT + ',"', "a", '":0}', ""),
    "a long name of escapes": (RIGHT + ',"', "\\t", '":0}', ""),
    "a long whole number": (RIGHT + ',"x":', "1", "}", "20"),
    "a long fraction": (RIGHT + ',"x":0.', "1", "}", ""),
    "a long fraction of zeros": (RIGHT + ',"x":0.', "0", "1}", ""),
    "a long exponent": (RIGHT + ',"x":0e', "1", "}", ""),
    "numbers": (RIGHT + ',"x":[', "0,", "0]}", ""),
    "least fractions": (RIGHT + ',"x":[', "2.2250738585072011e-308,", "0]}", ""),
    "open brackets": ("", "[", "", "20"),
    "arrays 120 deep": (RIGHT + ',"x":[', "[" * 120 + "]" * 120 + ",", "0]}", ""),
    "objects 120 deep": (RIGHT + ',"x":[', '{"":' * 120 + "0" + "}" * 120 + ",", "0]}", ""),
    "empty objects": (RIGHT + ',"x":[', "{},", "0]}", ""),
    "empty texts": (RIGHT + ',"x":[', '"",', "0]}", ""),
    "repeated members": (RIGHT, ',"x":0', "}", ""),
    "repeated versions": (RIGHT, ',"version":1', "}", ""),
    "repeated pieces": ("{MEMBERS", ',"PIECES":[]', "}", ""),
    "members that are missing": ("{", '"x":0,', '"x":0}', "21"),
    "pieces that are objects": ('{MEMBERS,"PIECES":[', "{},", "{}]}", "21 PIECE 0"),
    "pieces that are [[]]": ('{MEMBERS,"PIECES":[', "[[]],", "[[]]]}", "21 PIECE 0"),
    "one piece of numbers": ('{MEMBERS,"PIECES":[[', "0,", "0]]}", "21 PIECE 0"),
    "one piece of a long word": ('{MEMBERS,"PIECES":[["', "a", '"]]}', "21 PIECE 0"),
}


def write(path, before, part, behind):
    """Writes a file, filled up with blanks, in small parts.

    The memory that this program has when it starts another is counted as the other's.
    """
    count, rest = divmod(SIZE - len(before) - len(behind), len(part))
    with open(path, "wb") as file:
        file.write(before)
        for done in range(0, count, 1000):
            file.write(part * min(1000, count - done))
        file.write(behind + b" " * rest)


def named(text, members, pieces, piece):
    return text.replace("MEMBERS", members).replace("PIECES", pieces).replace("PIECE", piece)


def cost(words):
    """Status and standard error of a run, its processor seconds, and its memory in files."""
    with open(f"{FOLDER}/out", "wb") as out, open(f"{FOLDER}/err", "w+b") as err:
        child = subprocess.Popen(words, stdout=out, stderr=err)
        _, status, used = os.wait4(child.pid, 0)
        err.seek(0)
        answer = f"{os.waitstatus_to_exitcode(status)} {err.read().decode().strip()}"
    return answer.strip(), used.ru_utime + used.ru_stime, used.ru_maxrss * 1024 / SIZE


bad = 0
titles = "".join(f"  {words.split()[0]:<23} {'s':>5} {'files':>5}" for words in COMMANDS)
print(f"{'':<25}{titles}")
for title, (*shape, wanted) in SHAPES.items():
    line = f"{title:<25}"
    for words, names in COMMANDS.items():
        path = f"{FOLDER}/file.json"
        write(path, *(named(part, *names).encode("latin-1") for part in shape))
        answer, seconds, memory = cost([PROGRAM, *words.split(), path])
        right = f"3 refused {named(wanted, *names)}" if wanted else "0"
        is_bad = answer != right or seconds >= 1 or memory >= 12
        bad += is_bad
        line += f"  {answer + ' *' * is_bad:<23} {seconds:5.2f} {memory:5.2f}"
    print(line)
sys.exit(bad != 0)
PYTHON
