#!/usr/bin/env python3
"""Changes a copy of the crates in one place at a time, and looks whether the record's line of a crate above, cel_lex, still matches.

It has to match where nothing is changed that a check of its edits reads, and must not where something is; and a line by another
toolchain has to stay on the record while it matches, and no longer. The first word may be a repository whose crates are copied, in
place of this one's. The last line is 'N passed, M failed'.
"""
import shutil
import sys
import tempfile
from pathlib import Path

import record
from edits import CRATES, TOP

ABOVE = "cel_lex"
PARTS = [*(f"base_containers/{part}" for part in ("src", "specs", "proofs")), "cel_code/src", *(f"{ABOVE}/{part}" for part in record.PARTS)]
# What is changed: a file, a text that it has, what takes its place, and whether the line still matches.
CHANGES = [
    ("the body of a public function below", "base_containers/src/text.rt", "Held::Long(text.clone()?)", "Held::Long(String::new(alloc))", True),
    ("a comment below", "base_containers/src/text.rt", "/// A text that contracts", "/// What contracts", True),
    ("a function below that is not public", "base_containers/src/text_map.rt", "fn place_of(", "fn place_under(", True),
    ("a constant below that is not public", "base_containers/src/contents.rt", "const FEW: usize = 64;", "const FEW: usize = 65;", True),
    ("an attribute of such a function", "base_containers/src/contents.rt", "fn items_in_tree", "#[cold]\nfn items_in_tree", True),
    ("an attribute of a public function below", "base_containers/src/lines.rt", "#[derive", "#[cold]\n#[derive", False),
    ("an import below for such functions", "base_containers/src/contents.rt", "specs.List.{AllWithin}", "specs.List.{All}", True),
    ("an import below for bodies", "base_containers/src/contents.rt", "use json::Element;", "use json::{Element, Tape};", True),
    ("an import below for a public signature", "base_containers/src/contents.rt", "use std::alloc::{", "use std::{", False),
    ("a module below that is not public", "base_containers/src/lib.rt", "mod acceptance;", "mod accepted;", True),
    ("a module below of which something is public", "base_containers/src/lib.rt", "mod shared;", "mod sharing;", False),
    ("an import below for a public clause", "base_containers/src/contents.rt", "specs.Gathered.{items_of", "specs.Other.{items_of", False),
    ("answers of a function's own proof below", "base_containers/proofs/lines/feed_at/Answers.antt", "\n", "\n\n", True),
    ("a crate that is not below", "cel_code/src/lib.rt", "//! ", "use x;\n//! ", True),
    ("a clause below", "base_containers/src/text.rt", "t ≡ self.now", "t ≡ []", False),
    ("a signature below", "base_containers/src/text_map.rt", "pub fn len(&self) -> usize", "pub fn len(self) -> usize", False),
    ("what contracts see of a type below", "base_containers/src/text.rt", "bytes_of t.held", "[]", False),
    ("a definition below", "base_containers/specs/Keys.antt", "keys_in es = map", "keys_in es = rev", False),
    ("a lemma below", "base_containers/proofs/Order.antt", "Below a b", "Above a b", False),
    ("a body of its own", f"{ABOVE}/src/scan.rt", "{\n", "{\n\n", False),
    ("an answer of its own", f"{ABOVE}/proofs/Lib.antt", "mod ", "pub  mod ", False),
    ("an edit of its own", f"{ABOVE}/must-fail/tokens-tokens_only_fail.edit", "new:", "new: ", False),
]


def rests_on(crates, libraries=CRATES):
    return record.Tree(crates, crates, libraries).rests_on(ABOVE)


def matches_with(crates, path, old, new):
    """Whether the line that matched before still does where a file has another text in place of its first of this."""
    before, file = rests_on(crates), crates / path
    text = file.read_text(encoding="utf-8")
    if old not in text:
        return None
    file.write_text(text.replace(old, new, 1), encoding="utf-8")
    try:
        return rests_on(crates) == before
    finally:
        file.write_text(text, encoding="utf-8")


def stays(crates, file, change):
    """Whether a line by another toolchain is on the record still when the crate's edits are refused once more, after a change of a file."""
    file.unlink(missing_ok=True)
    for by in "another", "this one":
        tree = record.Tree(crates, crates, CRATES)
        record.Record(file).put(record.Line(ABOVE, 1, tree.rests_on(ABOVE, by), by), tree)
        change.write_text(change.read_text(encoding="utf-8") + "\n", encoding="utf-8")
    return {it.by for it in record.Record(file).lines} == {"another", "this one"}


def rows(crates):
    """What is changed, whether the line still matches, and whether it has to."""
    for what, path, old, new, is_valid in CHANGES:
        yield what, matches_with(crates, path, old, new), is_valid
    before = rests_on(crates)
    yield "its libraries", rests_on(crates, {**CRATES, ABOVE: [*CRATES[ABOVE], "cel_code"]}) == before, False
    toolchain, record.toolchain = record.toolchain, lambda: "another"
    yield "the toolchain", rests_on(crates) == before, False
    record.toolchain = toolchain
    yield "nothing", rests_on(crates) == before, True
    yield "a file of another crate, by another toolchain", stays(crates, crates / "record", crates / "cel_code/src/lib.rt"), True
    yield "a definition below, by another toolchain", stays(crates, crates / "record", crates / "base_containers/specs/Keys.antt"), False


def main(words):
    top = Path(words[0]) if words else TOP
    passed = failed = 0
    with tempfile.TemporaryDirectory() as folder:
        for part in PARTS:
            shutil.copytree(top / "crates" / part, Path(folder) / part)
        for what, matches, is_valid in rows(Path(folder)):
            passed, failed = passed + (matches == is_valid), failed + (matches != is_valid)
            if matches != is_valid:
                print(f"record: {what} is changed: the line {'matches' if matches else 'does not match'}")
    print(f"{passed} passed, {failed} failed")
    return 1 if failed else 0


if __name__ == "__main__":
    sys.exit(main(sys.argv[1:]))
