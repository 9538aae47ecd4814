#!/usr/bin/env python3
"""Measures `vap check` of a schema of about 30 KB with a rule of 200 bytes and an object of about 3 KB, the start of the
process included. It runs the program that `./vap` built, 200 times, and prints the least time and the one in the middle."""
import json
import statistics
import sys
import tempfile
from pathlib import Path

from timed import timed

TOP = Path(__file__).resolve().parent.parent
PROGRAM = TOP / "crates/vap/out/vap"
RUNS = 200
RULE = (
    "object.spec.replicas <= 5 && object.spec.items.all(x, size(x) < 40) && (!has(object.spec.paused) || !object.spec.paused)"
    " && object.spec.note.contains('x') && object.spec.image.startsWith('registry/')"
)


def document():
    """The checked file."""
    known = {
        "replicas": {"type": "integer"},
        "paused": {"type": "boolean"},
        "note": {"type": "string", "maxLength": 1024},
        "image": {"type": "string", "maxLength": 100},
        "items": {"type": "array", "maxItems": 100, "items": {"type": "string", "maxLength": 50}},
    }
    filler = {f"field{number:03}": {"type": "string", "maxLength": 100, "description": "a field"} for number in range(400)}
    schema = {"type": "object", "properties": {"spec": {"type": "object", "properties": {**known, **filler}}}}
    values = {f"field{number:03}": "abcdefghij" for number in range(100)}
    spec = {"replicas": 3, "paused": False, "note": "a box", "image": "registry/web", "items": ["ab"] * 20, **values}
    return schema, RULE, {"spec": spec}


def main():
    schema, rule, checked = document()
    text = json.dumps({"schema": schema, "expression": rule, "object": checked})
    print(f"schema {len(json.dumps(schema))} bytes, rule {len(rule)}, object {len(json.dumps(checked))}")
    with tempfile.NamedTemporaryFile("w", suffix=".json") as file:
        file.write(text)
        file.flush()
        times, ran = timed([PROGRAM, "check", file.name], RUNS)
    print(ran.stdout.decode(), end="")
    print(f"least {min(times) * 1000:.2f} ms, in the middle {statistics.median(times) * 1000:.2f} ms")
    return ran.returncode


sys.exit(main())
