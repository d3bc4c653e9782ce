#!/usr/bin/env python3
"""Says in words why a step file or a script file is refused, and where it breaks its schema.

    schemas/why.py FILE

For a history file use `judge why FILE`. The schema is chosen by the file's members: steps or
scripts. It needs python3 with jsonschema, of version 4 or later. It prints nothing for a file that
keeps to its schema. It does not notice a number written as 1.0, which a schema accepts as 1, nor a
file that is too long.
"""
import json
import pathlib
import sys

try:
    import jsonschema
except ImportError:
    sys.exit("why.py needs the package jsonschema for python3: pip install jsonschema")


def main():
    if len(sys.argv) != 2:
        sys.exit("usage: why.py FILE")
    try:
        value = json.loads(pathlib.Path(sys.argv[1]).read_text(encoding="utf-8"))
    except OSError as error:
        sys.exit(f"cannot read {sys.argv[1]}: {error.strerror}")
    except ValueError as error:
        sys.exit(f"no JSON: {error}")
    members = value if isinstance(value, dict) else {}
    if "entries" in members:
        sys.exit(f"a history file: ./judge why {sys.argv[1]} says what is wrong with it")
    kind = "script" if "scripts" in members else "step"
    path = pathlib.Path(__file__).resolve().parent / f"{kind}.schema.json"
    schema = jsonschema.Draft202012Validator(json.loads(path.read_text()))
    errors = [f"{error.json_path}: {error.message}" for error in schema.iter_errors(value)]
    if errors:
        sys.exit("\n".join(errors))


if __name__ == "__main__":
    main()
