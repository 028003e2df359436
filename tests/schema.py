#!/usr/bin/env python3
"""Checks lines of JSON against a schema, with the words of JSON Schema that it uses and no others. Says what is wrong; the last
line counts.

    tests/schema.py SCHEMA < LINES
"""
import json
import re
import sys

TYPES = {"object": dict, "array": list, "string": str, "integer": int, "boolean": bool}
KNOWN = set("$schema $ref $defs title description type properties required additionalProperties dependentRequired enum pattern "
            "minimum items minItems".split())


def faults(value, schema, whole, at):
    """Returns what is wrong with a value, each with its place."""
    unknown = set(schema) - KNOWN
    if unknown:
        return [f"{at}: the schema has {', '.join(sorted(unknown))}, which isn't looked at here"]
    if "$ref" in schema:
        schema = whole["$defs"][schema["$ref"].removeprefix("#/$defs/")]
    kind = TYPES.get(schema.get("type"))
    if kind and (not isinstance(value, kind) or kind is int and isinstance(value, bool)):
        return [f"{at}: no {schema['type']}"]
    found = []
    if "enum" in schema and value not in schema["enum"]:
        found.append(f"{at}: {value!r} isn't one of its words")
    if "pattern" in schema and not re.search(schema["pattern"], value):
        found.append(f"{at}: {value!r} isn't written so")
    if "minimum" in schema and value < schema["minimum"]:
        found.append(f"{at}: {value} is too little")
    if isinstance(value, list):
        if len(value) < schema.get("minItems", 0):
            found.append(f"{at}: {len(value)} items are too few")
        for place, item in enumerate(value):
            found += faults(item, schema.get("items", {}), whole, f"{at}[{place}]")
    if isinstance(value, dict):
        members = schema.get("properties", {})
        for name, part in value.items():
            if name in members:
                found += faults(part, members[name], whole, f"{at}.{name}")
            elif schema.get("additionalProperties") is False:
                found.append(f"{at}: there is no member {name}")
            for other in schema.get("dependentRequired", {}).get(name, []):
                if other not in value:
                    found.append(f"{at}: {name} without {other}")
        found += [f"{at}: {name} is missing" for name in schema.get("required", []) if name not in value]
    return found


def members(pairs, twice):
    """Returns an object of its members; of one object's names, notes each that comes again."""
    found = {}
    for name, value in pairs:
        if name in found and name not in twice:
            twice.append(name)
        found[name] = value
    return found


def main(path):
    with open(path, encoding="utf-8") as file:
        schema = json.load(file)
    passed = failed = 0
    for number, line in enumerate(sys.stdin.buffer.read().decode("utf-8").split("\n")[:-1], 1):
        try:
            twice = []
            value = json.loads(line, object_pairs_hook=lambda pairs: members(pairs, twice))
            found = faults(value, schema, schema, f"line {number}")
            found += [f"line {number}: {name} stands twice" for name in twice]
        except ValueError as error:
            found = [f"line {number}: {error}"]
        for it in found:
            print(f"schema: {it}")
        passed, failed = passed + (not found), failed + bool(found)
    print(f"schema: {passed} passed, {failed} failed")
    return 1 if failed else 0


if __name__ == "__main__":
    sys.exit(main(sys.argv[1]))
