#!/usr/bin/env python3
"""schema.py: holds docs/regrun.schema.json beside the logs of the rows and the examples.

A description that its log doesn't refuse must pass the schema. One that is refused for the shape of a row (unknown key,
missing key, wrong type, bad value) must fail it at that row and key. Others, refused for what they say, aren't asked.
The last line is 'N passed, M failed, K skipped'; skipped are texts that Python's reader of TOML 1.0 doesn't take, and
all where the package jsonschema isn't found (Debian: python3-jsonschema).
"""
import json, pathlib, re, sys

HERE = pathlib.Path(__file__).resolve().parent
ROWS = HERE.parent / "crates" / "test_rows" / "data"
SHAPE = re.compile(r"refused description(?: (\w+) (\d+)(?: field (\d+))?)?: (unknown key|missing key|wrong type of|bad value of)(?: (\S+))?$")


def description(session):
    """The bytes before the separator, or None where there is none."""
    found = re.search(rb"(?:\A|\n)---\r?(?:\n|\Z)", session)
    return session[: found.start() + 1] if found else None


def place_of(told):
    """The path of the row, the kind of refusal, and the key."""
    array, row, field, reason, key = told.groups()
    path = [] if array is None else [array, int(row) - 1] + (["field", int(field) - 1] if field else [])
    return path, reason, key


def leaves(error):
    yield error
    for below in error.context:
        yield from leaves(below)


def is_there(error, path, reason, key):
    """Whether an error of the schema is the one that the log tells."""
    at, low = list(error.absolute_path), error.validator
    if reason == "unknown key":
        return at == path and low == "additionalProperties"
    if reason == "missing key":
        return at == path and low == "required" and f"'{key}'" in error.message
    return at[: len(path) + 1] == path + [key]


def main():
    files = sorted(ROWS.glob("*/*.session")) + sorted((HERE.parent / "examples").glob("*.regrun"))
    try:
        import tomllib
        from jsonschema import Draft202012Validator
    except ImportError:
        print(f"0 passed, 0 failed, {len(files)} skipped")
        return 0
    schema = json.loads((HERE.parent / "docs" / "regrun.schema.json").read_text())
    Draft202012Validator.check_schema(schema)
    asked, passed, failed, skipped = Draft202012Validator(schema), 0, 0, 0
    for file in files:
        text, log = description(file.read_bytes()), file.with_suffix(".log").read_text(errors="replace")
        last = log.rstrip("\n").split("\n")[-1]
        told = SHAPE.match(last)
        try:
            data = tomllib.loads(text.decode()) if text is not None else None
        except (tomllib.TOMLDecodeError, UnicodeDecodeError):
            data = None
        if data is None or not told and last.startswith("refused description"):
            skipped += 1
            continue
        errors = [below for error in asked.iter_errors(data) for below in leaves(error)]
        if any(is_there(error, *place_of(told)) for error in errors) if told else not errors:
            passed += 1
        else:
            failed += 1
            print(f"{file.name}: {last if told else 'a valid description'}; the schema says {[e.message[:80] for e in errors[:3]]}")
    print(f"{passed} passed, {failed} failed, {skipped} skipped")
    return 1 if failed else 0


sys.exit(main())
