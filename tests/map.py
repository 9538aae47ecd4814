#!/usr/bin/env python3
"""Compares crates.txt with the map: each crate has to be in README's list of floors, in the table of docs/ARCHITECTURE.md and, unless it is
of the tests, in docs/PROOFS.md, on the same floor as in crates.txt, and nothing may be there that is no crate. A crate may use only crates
that are listed before it, and libraries of the kit that README and docs/PROOFS.md name as trusted. The last line is 'N passed, M failed'.
"""
import re
import sys
from pathlib import Path

from outcome import ended_without

TOP = Path(__file__).resolve().parent.parent
# Where the first four floors end: nothing of the first three speaks of judging, nothing of the first two of Kubernetes.
BEGINNINGS = [("base_",), ("cel_",), ("vap_schema", "vap_match", "vap_read"), ("vap_policy", "vap_watch", "vap_audit", "vap_plane", "vap_cli"), ("vap",)]

# What is not named by itself among what is trusted, and what it is part of: the crates below `regex` are meant with it.
PARTS = {"core": "std", "std_alloc": "std", "std_heap": "std"}


def text(name):
    return (TOP / name).read_text(encoding="utf-8")


def floors():
    """The crates of crates.txt, floor by floor, with what each uses of them."""
    found = []
    for line in text("crates.txt").splitlines()[1:]:
        name, colon, libraries = line.partition(":")
        if line.startswith("#"):
            found.append({})
        elif colon:
            found[-1][name.split()[0]] = libraries.split()
    return found


def part(name, begin, end):
    """What is in a document between two lines."""
    return text(name).partition(f"\n{begin}\n")[2].partition(f"\n{end}")[0]


def in_readme():
    """The crates in README's list, floor by floor: a line that goes on is the floor's before it."""
    found = []
    for line in re.findall(r"(?m)^    (.*)$", part("README.md", "## The rooms", "## ").rpartition("([crates.txt]")[2]):
        goes_on = line.startswith(" ")
        found += [] if goes_on else [[]]
        found[-1] += [it for it in line.split()[0 if goes_on else 1:] if re.fullmatch(r"(base|cel|vap)_\w+|vap|\w+_calls|\w+_notation", it)]
    return found


def trusted(paragraph):
    """The libraries of the kit that a paragraph names."""
    return set(re.findall(r"`(\w+)`", paragraph))


def whole(library):
    """The library that is named for this one among what is trusted."""
    return "regex" if library.startswith("regex_") else PARTS.get(library, library)


def faults():
    listed = floors()
    names = [list(floor) for floor in listed]
    every = [it for floor in names for it in floor]
    for number, floor in enumerate(listed):
        for name, libraries in floor.items():
            late = [it for it in libraries if it in every and every.index(it) >= every.index(name)]
            if late:
                yield f"crates.txt: {name} uses {late}, not listed before it"
            if number < len(BEGINNINGS) and not name.startswith(BEGINNINGS[number]):
                yield f"crates.txt: {name} does not begin as its floor does"
    if in_readme() != names:
        yield f"README.md: {in_readme()} is not {names}"
    table = re.findall(r"(?m)^\| `(\w+)` \|", part("docs/ARCHITECTURE.md", "## The crates", "## "))
    if table != every:
        yield f"docs/ARCHITECTURE.md: {table} is not {every}"
    proved = re.findall(r"(?m)^### `(\w+)`$", text("docs/PROOFS.md"))
    if proved != [it for floor in names[:-1] for it in floor]:
        yield f"docs/PROOFS.md: {proved} is not {names[:-1]}"
    used = {whole(it) for floor in listed for libraries in floor.values() for it in libraries if it not in every} | {"std"}
    for name, paragraph in [
        ("README.md", text("README.md").partition("\n**Trusted:**")[2].partition("\n\n")[0]),
        ("docs/PROOFS.md", part("docs/PROOFS.md", "## What is trusted", "## ")),
    ]:
        if trusted(paragraph) != used:
            yield f"{name}: what is trusted is {sorted(trusted(paragraph))}, and not {sorted(used)}"
    here = sorted(it.name for it in (TOP / "crates").iterdir() if (it / "src").is_dir())
    if here != sorted(every):
        yield f"crates: {here} is not {sorted(every)}"


def main():
    return ended_without(faults())


if __name__ == "__main__":
    sys.exit(main())
