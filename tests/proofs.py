#!/usr/bin/env python3
"""Proves all crates with `rt ci`, and beside it tries the edits of must-fail/: those of a crate once the libraries that it uses are
proved, where a processor is idle.

The first word is the repository that this copy was made of, without its edits: they are read there, and its record of refused
edits is read and written (record.py). With --anew after it nothing that was kept and no line of the record is believed. The last line is
'N passed, M failed'.
"""
import os
import shutil
import sys
import tempfile
import threading
import time
import uuid
from concurrent.futures import FIRST_COMPLETED, ThreadPoolExecutor, wait
from pathlib import Path

import edits
from edits import CRATES, TOP, Trial
from stages import Listed, Proofs, available, has_idle_processor
from wrong_bodies import Edits

# The memory, in KiB, that has to be free where a check of edits begins beside the proofs.
ROOM = 6 * 2**20


class Turns:
    """Lets one more check of edits begin where a processor is idle and memory is free, or where all is proved."""

    def __init__(self, proofs):
        self.lock, self.proofs = threading.Lock(), proofs

    def wait(self):
        with self.lock:
            while not (self.proofs.has_ended or has_idle_processor() and available() >= ROOM):
                time.sleep(1)
            # (until it is among those that run)
            time.sleep(3)


def copied_edits(origin, folder):
    """Copies the edits of a repository, so that what is tried stays the same, and gives the folder of their crates."""
    for crate in CRATES:
        own = origin / "crates" / crate / "must-fail"
        if own.is_dir():
            shutil.copytree(own, folder / crate / "must-fail")
    return folder


def try_beside(proofs, tried, trials, lanes):
    """Runs each trial once the libraries below its crate are built, the dearest first, and counts it."""
    waiting, running = list(trials), {}
    with ThreadPoolExecutor(lanes) as pool:
        while waiting or running:
            has_ended = proofs.has_ended
            ready = [it for it in waiting if all(map(edits.library, tried.tree.below(it.crate)))]
            for trial in ready[: lanes - len(running)]:
                waiting.remove(trial)
                running[pool.submit(Trial.run, trial)] = trial
            if has_ended and not ready and not running:
                break
            ended = wait(running, timeout=1, return_when=FIRST_COMPLETED).done if running else time.sleep(1) or ()
            for future in ended:
                trial = running.pop(future)
                future.result()
                tried.end(trial)
    for trial in waiting:
        trial.results = {str(edit): "its libraries are not proved" for edit in trial.edits}
        tried.end(trial)


def make_new():
    """Gives each crate of this copy a text that no run has proved: what is kept on the machine is found by the texts."""
    line = f"// {uuid.uuid4()}\n"
    for file in [*TOP.glob("crates/*/src/lib.rt"), *TOP.glob("crates/*/src/main.rt")]:
        with open(file, "a", encoding="utf-8") as text:
            text.write(line)


def library(proofs, crate):
    """A library of a crate, if it is built."""
    place = proofs.place_of(crate)
    return place and place / "crates" / crate / "out/rlib" / f"{crate}.rlib"


def hear(line):
    print(line, end="", flush=True)


def main(words):
    origin, is_anew = Path(words[0]).resolve(), "--anew" in words[1:]
    with tempfile.TemporaryDirectory(prefix="proofs-") as room:
        proofs = Proofs(Listed(TOP), Path(room), hear)
        # (where a trial looks for libraries)
        edits.library = lambda crate: library(proofs, crate)
        tried = Edits(copied_edits(origin, Path(room) / "edits"), origin / "tests/refused.txt", Turns(proofs).wait)
        trials = tried.trials(CRATES, is_anew)
        if is_anew:
            make_new()
        made = threading.Thread(target=proofs.make)
        made.start()
        try_beside(proofs, tried, trials, os.cpu_count() or 1)
        made.join()
    tried.tell()
    whole = proofs.whole
    print(f"{whole.passed + tried.passed + tried.recorded} passed, {whole.failed + tried.failed} failed")
    return 1 if whole.failed + tried.failed else 0


if __name__ == "__main__":
    sys.exit(main(sys.argv[1:]))
