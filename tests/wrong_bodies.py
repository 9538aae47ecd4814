#!/usr/bin/env python3
"""Tries the edits of the crates' must-fail/: the prover must refuse each (edits.py says how one is tried).

It uses the libraries that are in out/. A crate whose line in the record refused.txt matches was tried before over the same
files (record.py) and is passed by; with names of crates it tries these alone and passes none by. A crate whose edits are all
refused gets its line. With --unedited in front it tries the copies of functions without their edits, and each must be proved.
The last line is 'N passed, M failed'.
"""
import sys
from concurrent.futures import ThreadPoolExecutor
from pathlib import Path

from edits import CRATES, TOP, Trial, library
from record import Line, Record, Tree, toolchain
from stages import processors


# How many lines of Rust take a check as long as one more edit.
LINES_OF_AN_EDIT = 80


def dearness(trial):
    """About how long the check of a trial takes beside others, by the lines of its crate and its edits."""
    sources = (TOP / "crates" / trial.crate / "src").rglob("*.rt")
    return sum(it.read_text(encoding="utf-8").count("\n") for it in sources) + LINES_OF_AN_EDIT * len(trial.edits)


class Edits:
    """All edits of a folder of crates, by the record that tells which were refused before."""

    def __init__(self, folder, record, turn=lambda: None):
        self.tree, self.record, self.turn = Tree(TOP / "crates", folder, CRATES), Record(record), turn
        self.tried = self.recorded = self.passed = self.failed = 0
        self.record.keep([it for it in CRATES if any((folder / it / "must-fail").glob("*"))])

    def trials(self, names, is_anew):
        """A trial of each crate with edits that the record does not tell of, the dearest first."""
        trials = [Trial(crate, self.tree.edits, self.turn) for crate in names]
        for trial in trials:
            trial.line = Line(trial.crate, len(trial.edits), self.tree.rests_on(trial.crate), toolchain())
        with_edits = [it for it in trials if it.edits or it.results]
        left = [it for it in with_edits if is_anew or not self.record.has(it.line)]
        self.recorded = sum(len(it.edits) for it in with_edits if it not in left)
        return sorted(left, key=dearness, reverse=True)

    def end(self, trial):
        """Counts what became of the edits of a trial, and puts it on the record where all are refused."""
        for edit, why in trial.results.items():
            if why is not None:
                print(f"{edit}: NOT REFUSED: {why}", flush=True)
        failed = sum(why is not None for why in trial.results.values())
        self.tried, self.failed = self.tried + len(trial.results), self.failed + failed
        self.passed += len(trial.results) - failed
        if not failed:
            self.record.put(trial.line, self.tree)

    def tell(self):
        """Tells how many edits were tried and how many the record told of, which count as refused."""
        print(f"edits: {self.tried} tried now, {self.recorded} by the record", flush=True)


def stale(crates):
    """The libraries below some crates that are missing or older than their sources."""
    for name in crates:
        built = library(name) / "format"
        sources = [it for part in ("src", "specs", "proofs") for it in (TOP / "crates" / name / part).rglob("*") if it.is_file()]
        if not built.exists() or any(it.stat().st_mtime > built.stat().st_mtime for it in sources):
            yield name


def unedited(names):
    """Tries the copies of functions without their edits."""
    trials = [it for it in (Trial(crate, TOP / "crates") for crate in names) if it.edits]
    with ThreadPoolExecutor(processors()) as pool:
        whys = [item for results in pool.map(Trial.run_unedited, trials) for item in results.items()]
    for edit, why in whys:
        if why is not None:
            print(f"{edit}: NOT PROVED: {why}")
    return sum(why is None for _, why in whys), sum(why is not None for _, why in whys)


def main(words):
    names = [it for it in words if not it.startswith("--")]
    crates = [it for it in CRATES if not names or it in names]
    if "--unedited" in words:
        passed, failed = unedited(crates)
    else:
        edits = Edits(TOP / "crates", TOP / "tests/refused.txt")
        trials = edits.trials(crates, bool(names) or "--anew" in words)
        lacking = sorted(set(stale(below for it in trials for below in edits.tree.below(it.crate))))
        if lacking:
            print(f"wrong_bodies: not built, or older than its sources: {' '.join(lacking)}")
            trials, edits.failed = [], 1
        with ThreadPoolExecutor(processors()) as pool:
            for trial, _ in zip(trials, pool.map(Trial.run, trials)):
                edits.end(trial)
        edits.tell()
        passed, failed = edits.passed + edits.recorded, edits.failed
    print(f"{passed} passed, {failed} failed")
    return 1 if failed else 0


if __name__ == "__main__":
    sys.exit(main(sys.argv[1:]))
