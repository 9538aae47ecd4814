"""The record of refused edits, refused.txt: of each crate and toolchain how many edits the prover has refused, and a checksum of all that
this rests on.

Whether the prover refuses an edit is a function of what its check reads and of how it is tried, and the checksum covers that: the
toolchain's line; edits.py, which makes and tries edits; of the crate itself its libraries' names and all files of src/, specs/, proofs/
and must-fail/; and of each library below it what a check of a crate above can see. That is specs/, the lemma files of proofs/, and
src/ without comments, without functions that are not public, and without the bodies of those that are: of a function a crate
above sees its signature and its contract. Nor does it see a constant or a module that is not public, or what is imported, where
nothing that is left names it.
"""
import functools
import hashlib
import re
import subprocess
from pathlib import Path
from typing import NamedTuple

PARTS = ("src", "specs", "proofs", "must-fail")
FUNCTION = re.compile(r"(?P<indent>(?: {4})?)(?P<public>pub )?(?:pub\([a-z]+\) )?(?:const )?(?:unsafe )?fn \w")
CLAUSE = re.compile(r" *(?:(?:requires|ensures|ghost)\b|where$)")
OWNER = re.compile(r"impl\b|(?:pub(?:\([a-z]+\))? )?trait ")
TRAIT = re.compile(r"(?:pub(?:\([a-z]+\))? )?trait ")
# The first line of an impl that is of no trait: its methods are seen above where they are public.
OWN_METHODS = re.compile(r"impl(?:(?! for ).)*\{$")
# A constant that is not public, and an import for contracts, by what it is of and its names.
CONSTANT = re.compile(r"const (?P<name>[A-Z]\w*): .*;$")
IMPORT = re.compile(r" *ghost use (?P<path>[\w.]+)\.(?:\{(?P<names>.*)\}|(?P<name>[^\s{}]+(?: as \S+)?));$")
# An attribute, a module that is not public, and an import in one line, by what it is of and its names.
ATTRIBUTE = re.compile(r" *#\[.*\]$")
MODULE = re.compile(r"mod (?P<name>\w+);$")
USE = re.compile(r"use (?P<path>[\w:]+)::(?:\{(?P<names>[^{}]*)\}|(?P<name>\w+(?: as \w+)?));$")
# What is written of a function's own proof, which no crate above reads.
OWN_PROOF = ("Answers.antt", "Invariants.antt", "Proof.antt")
HEAD = """# Of each crate: how many of its edits the prover has refused, a checksum of all that this rests on, and the toolchain (docs/GATE.md).
# tests/wrong_bodies.py writes a line once all edits of its crate are refused.
"""


def without_bodies(text):
    """What a crate above can see of a source in rt fmt's layout: all but comments, functions that are not public, and the bodies of those
    that are. (The methods of traits keep theirs.)"""
    kept, closing, indent, has_clauses, is_hidden, owner, attributes = [], None, None, False, False, "", []
    for line in text.split("\n"):
        if closing is not None:
            closing = None if line == closing else closing
            continue
        if line.lstrip().startswith("//"):
            continue
        if indent is None and ATTRIBUTE.match(line):
            attributes.append(line)
            continue
        owner = line if OWNER.match(line) else "" if line == "}" else owner
        begins = FUNCTION.match(line)
        if begins:
            indent, has_clauses = begins["indent"], False
            is_hidden = not begins["public"] and (not indent or bool(OWN_METHODS.match(owner)))
        if not is_hidden:
            kept += [*attributes, line]
        attributes = []
        if indent is None:
            continue
        has_clauses = has_clauses or bool(CLAUSE.match(line))
        opens = line == indent + "{" or not has_clauses and line.endswith(" {")
        if opens and not TRAIT.match(owner):
            closing = indent + "}"
        if opens or begins and line.endswith(("}", ";")) or line == indent + ");":
            indent, is_hidden = None, False
    # (a body without an end is no such layout)
    return "\n".join(named_alone(kept)) if closing is None else text


def is_named(name, text):
    """Whether a text has a name, or all parts of an operator's."""
    parts = [it for it in name.split("◌") if it]
    return all(re.search(rf"(?<![\w-]){re.escape(it)}(?![\w-])" if it.isidentifier() else re.escape(it), text) for it in parts)


def in_one_line(lines):
    """Lines of a source, with each import that is written over several in one."""
    joined, begun = [], []
    for line in lines:
        if begun or line.startswith("use ") and line.endswith("{"):
            begun.append(line.strip())
            if line == "};":
                joined.append(" ".join(begun).replace("{ ", "{").replace(", }", "}"))
                begun = []
        else:
            joined.append(line)
    return joined + begun


def names_in(line):
    """What a line declares that is not public, or imports: where it is from, and the names; None of another line."""
    constant, module, imported = CONSTANT.match(line), MODULE.match(line), IMPORT.match(line) or USE.match(line)
    if constant or module:
        return line, [(constant or module)["name"]]
    return imported and (imported["path"], (imported["names"] or imported["name"]).split(", "))


def named_alone(lines):
    """Lines of a source without empty ones, and of its constants, modules and imports that are not public those alone that another line
    names."""
    lines = in_one_line(lines)
    others = "\n".join(it for it in lines if not names_in(it))
    kept = []
    for line in lines:
        path, names = names_in(line) or (line, [])
        found = [it for it in names if is_named(it.rpartition(" as ")[2], others)]
        kept += [f"{path} {it}" for it in found] if names else [line] if line else []
    return kept


def seen(path):
    """What a check of a crate above can see of a file, or None where that is nothing."""
    if path.suffix == ".rt":
        return without_bodies(path.read_text(encoding="utf-8")) or None
    return None if path.name in OWN_PROOF else path.read_text(encoding="utf-8")


def sum_of(things):
    return hashlib.sha256(repr(things).encode()).hexdigest()


@functools.cache
def toolchain():
    return subprocess.run(["rt", "version"], capture_output=True, text=True, check=True).stdout.strip()


class Tree:
    """The files that refusals rest on, as they stood when they were first looked at: a folder of crates, the folder that has their edits,
    and the libraries of each crate."""

    def __init__(self, crates, edits, libraries):
        self.crates, self.edits, self.libraries, self.stands_on, self.shown = crates, edits, libraries, {}, {}

    def below(self, crate):
        """The crates of this repository that a crate uses, directly or not."""
        if crate not in self.stands_on:
            found = []
            for name in self.libraries[crate]:
                if name in self.libraries:
                    found += [it for it in [*self.below(name), name] if it not in found]
            self.stands_on[crate] = found
        return self.stands_on[crate]

    def files(self, crate, parts):
        for part in parts:
            folder = (self.edits if part == "must-fail" else self.crates) / crate / part
            for file in sorted(folder.rglob("*")):
                if file.is_file():
                    yield f"{crate}/{part}/{file.relative_to(folder)}", file

    def seen_of(self, crate):
        """What a check of a crate above can see of a crate."""
        if crate not in self.shown:
            found = [(name, seen(file)) for name, file in self.files(crate, ("src", "specs", "proofs"))]
            self.shown[crate] = [it for it in found if it[1] is not None]
        return self.shown[crate]

    def rests_on(self, crate, by=None):
        """The checksum of all that the refusal of a crate's edits rests on, by a toolchain, this one if none is named."""
        trying = Path(__file__).with_name("edits.py").read_bytes()
        own = [(name, file.read_bytes()) for name, file in self.files(crate, PARTS)]
        below = [(name, self.libraries[name], self.seen_of(name)) for name in self.below(crate)]
        return sum_of([by or toolchain(), trying, self.libraries[crate], own, below])


class Line(NamedTuple):
    """What a record tells of a crate: how many edits a toolchain refused, and the checksum of all that this rests on."""

    crate: str
    count: int
    rests_on: str
    by: str

    def __str__(self):
        return f"{self.crate} {self.count} {self.rests_on} {self.by}"


class Record:
    """The lines of a record's file, one of each crate by each toolchain."""

    def __init__(self, file):
        self.file = Path(file)
        self.lines = self.read()

    def read(self):
        texts = self.file.read_text(encoding="utf-8").splitlines() if self.file.is_file() else []
        words = [it.split(maxsplit=3) for it in texts if it and not it.startswith("#")]
        return {Line(crate, int(count), rests_on, by) for crate, count, rests_on, by in words}

    def has(self, line):
        return line in self.lines

    def put(self, line, tree):
        """Writes the line of a crate whose edits are all refused. Its lines by other toolchains stay where they still match."""
        # (another run may have written lines meanwhile)
        self.lines = {it for it in self.read() if it.crate != line.crate or it.by != line.by and it.rests_on == tree.rests_on(it.crate, it.by)}
        self.lines.add(line)
        self.write()

    def keep(self, crates):
        """Leaves out the lines of other crates than these."""
        kept = {it for it in self.lines if it.crate in crates}
        if kept != self.lines:
            self.lines = kept
            self.write()

    def write(self):
        self.file.write_text(HEAD + "".join(f"{it}\n" for it in sorted(self.lines)), encoding="utf-8")
