#!/usr/bin/env python3
"""Tests that the schemas of schemas/ accept and refuse the same files as the program.

The files are every example, and those of files.tsv, which has on each line a command, what the program
says of the file (`taken`, or the line on standard error), and the file. No schema reads a file that is
not JSON. If `1.0` follows the command, the file has a number that a schema cannot tell from a whole
one. It needs python3 with jsonschema, of version 4 or later. The last line is 'schemas: N passed, M
failed', and the status is 1 if M is not 0.
"""
import json
import pathlib
import sys

import jsonschema

HERE = pathlib.Path(__file__).resolve().parent
EXAMPLES = HERE.parent.parent / "examples"
KINDS = {"replay": "step", "mix": "script", "check": "history"}
OF_EXAMPLE = {"first_scripts": "mix", "scripts": "mix", "checked": "check"}


def schema_of(command):
    text = (HERE.parent / "schemas" / f"{KINDS[command]}.schema.json").read_text()
    schema = json.loads(text)
    jsonschema.Draft202012Validator.check_schema(schema)
    return jsonschema.Draft202012Validator(schema)


def says(schema, text):
    """What a schema says of a file: taken, refused, or refused 20 if it is not JSON."""

    def no_float(word):
        if word == "1e999":
            raise ValueError(word)
        return float(word)

    try:
        value = json.loads(text, parse_float=no_float)
    except ValueError:
        return "refused 20"
    return "taken" if schema.is_valid(value) else "refused"


def main():
    schemas = {command: schema_of(command) for command in KINDS}
    cases = [
        (OF_EXAMPLE.get(file.stem, "replay"), "taken", file.read_text())
        for file in sorted(EXAMPLES.glob("*.json"))
    ]
    cases += [
        line.split("\t") for line in (HERE / "files.tsv").read_text().splitlines()
    ]
    failed = 0
    for command, wanted, text in cases:
        command, _, is_blind = command.partition(" ")
        if wanted != "refused 20":
            wanted = "taken" if is_blind else wanted.split()[0]
        found = says(schemas[command], text)
        if found != wanted:
            failed += 1
            print(f"schemas: {command}: {found}, wanted {wanted}: {text}")
    print(f"schemas: {len(cases) - failed} passed, {failed} failed")
    return 1 if failed else 0


if __name__ == "__main__":
    sys.exit(main())
