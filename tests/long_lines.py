#!/usr/bin/env python3
"""Names each line past 140 characters of a file of code, of definitions or of proofs, and each file of definitions or proofs past
500 lines. An attribute, which `rt fmt` writes in one line, may be longer. The last line is 'N passed, M failed': one passed where
there is none, else as many failed as there are.
"""
import sys
from pathlib import Path

from outcome import ended_without

TOP = Path(__file__).resolve().parent.parent
LONGEST, MOST = 140, 500


def faults(file):
    """What is too long in a file."""
    lines = file.read_text(encoding="utf-8").splitlines()
    name = file.relative_to(TOP)
    for number, line in enumerate(lines, 1):
        if len(line) > LONGEST and not line.lstrip().startswith("#["):
            yield f"{name}:{number}: {len(line)} characters"
    if file.suffix == ".antt" and len(lines) > MOST:
        yield f"{name}: {len(lines)} lines"


def main():
    files = [it for end in ("rt", "antt") for it in sorted((TOP / "crates").glob(f"*/**/*.{end}")) if "out" not in it.parts]
    return ended_without(fault for file in files for fault in faults(file))


if __name__ == "__main__":
    sys.exit(main())
