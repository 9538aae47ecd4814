"""Proves crates by the prover itself, and builds a program of them: for `./vap`, where `rt ci` has kept nothing that it could take.

`rt ci` gives a crate two jobs at most on four processors, also where nothing else could go on, since it counts the crate's tests as
another check; and the crates of the longest chain wait for each other. Here the first of those that run, for which the most lines wait,
has a job for each processor, and goes before the others; each of these has two jobs, and fills what is left. What is proved so is kept
nowhere: the gate proves by `rt ci`.
"""
import os
import signal
import subprocess
import time

import edits
from stages import HELD, UNDER_WAY, available, processors

# How far a check is behind each of a crate for which more lines wait, as `nice` counts it.
BEHIND = 5


def words_of(crate, jobs, made):
    """The words of a build of a library, or of a program's object file."""
    words = [str(it) for it in edits.words_of(crate)]
    words[words.index("check")] = "build"
    words[words.index("--jobs") + 1] = str(jobs)
    return words + ["-o", str(made)]


class Check:
    """A check of a crate in its folder, which builds it if it is proved."""

    def __init__(self, folder, crate, jobs, behind, log):
        self.jobs, self.begun, self.made = jobs, time.monotonic(), edits.library(crate)
        is_program = (folder / "src/main.rt").is_file()
        if is_program:
            self.made = folder / "out" / f"{crate}.o"
        self.made.parent.mkdir(parents=True, exist_ok=True)
        words = words_of(crate, jobs, self.made)
        if is_program:
            words[words.index("src/lib.rt")] = "src/main.rt"
            words += ["--toolchain", f"{edits.KIT}/toolchain", "--backend", "llvm"]
        else:
            words.append("--statements")
        how = {"stdin": subprocess.DEVNULL, "stdout": log, "stderr": subprocess.STDOUT, "start_new_session": True}
        self.ran = subprocess.Popen(["nice", "-n", str(behind), *words], cwd=folder, **how)

    def is_young(self):
        """Whether it may take most of its memory yet."""
        return time.monotonic() < self.begun + UNDER_WAY

    def stop(self):
        """Stops it, and the copies of the prover that it started."""
        os.killpg(self.ran.pid, signal.SIGKILL)


class DirectProofs:
    """The proofs of all crates of a list, in the list's own folder. `tell` gets the name of each crate that is proved, `log` what the
    prover says. They are given up once `is_vain` says so."""

    def __init__(self, listed, tell, log, is_vain=lambda: False):
        self.listed, self.tell, self.log, self.is_vain = listed, tell, log, is_vain
        self.lengths, self.running, self.proved = listed.lengths(), {}, set()
        # (where words look for libraries)
        edits.library = lambda crate: listed.top / "crates" / crate / "out/rlib" / f"{crate}.rlib"

    def make(self):
        """Makes them all. Answers whether all is well."""
        left = sorted(self.lengths, key=self.lengths.get, reverse=True)
        try:
            while left or self.running:
                self.begin_ready(left)
                if self.is_vain() or not self.end_some():
                    return False
                # (until a check has ended, or holds what it needs)
                time.sleep(0.1)
            return True
        finally:
            for check in self.running.values():
                check.stop()

    def begin_ready(self, left):
        """Begins the checks of crates whose libraries are proved, where there is a place."""
        ready = [it for it in left if all(below in self.proved for below in self.listed.below[it])]
        for crate in ready:
            longer = [it for it in self.running if self.lengths[it] > self.lengths[crate]]
            if self.running and not self.has_place(len(longer)):
                return
            left.remove(crate)
            is_first = not any(self.running[it].jobs == processors() for it in longer)
            jobs = processors() if is_first else min(processors(), 2)
            self.running[crate] = Check(self.listed.top / "crates" / crate, crate, jobs, BEHIND * len(longer), self.log)

    def has_place(self, longer):
        """Whether one more check may begin beside those that run, of which so many go before it. One that goes before another does not
        wait for it."""
        young = sum(it.is_young() for it in self.running.values())
        # (the first has more jobs than it can always use, and holds more than the others)
        places = max(processors() - 1, 2) + (longer < len(self.running))
        return len(self.running) < places and available() >= HELD * (young + 1)

    def end_some(self):
        """Takes the checks that have ended. Answers whether all is well."""
        for crate, check in list(self.running.items()):
            status = check.ran.poll()
            if status is None:
                continue
            del self.running[crate]
            if status:
                return False
            self.proved.add(crate)
            self.tell(crate)
        return True


def linked(folder, program, log):
    """Links the object file of a program. Answers the program, if all is well."""
    made = folder / "out" / program
    words = [f"{edits.KIT}/bin/rattle-link", "--target", "x86_64-unknown-linux-gnu", "--toolchain", f"{edits.KIT}/toolchain"]
    words += ["-o", str(made), f"{made}.o", f"{edits.KIT}/c/libos_c.a", f"{edits.KIT}/c/liblibc_c.a"]
    return made if subprocess.run(words, stdout=log, stderr=subprocess.STDOUT, check=False).returncode == 0 else None
