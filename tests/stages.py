"""In which order `rt ci` proves the crates, so that no processor is idle.

Each crate is proved by a run of its own, in a copy of the crates that it uses, once these are proved, and first those for which most is
to be proved that waits for them: how long a crate takes grows with its lines of Rust and with its clauses, and hardly with its
definitions and proofs. What one run has proved the others take. (Where the toolchain keeps nothing from run to run, one run proves all of
them, as many side by side as there are processors.)
One run less goes on than there are processors, since `rt ci` checks a crate by two jobs where it finds memory for them; where it
finds none and a processor is idle, one more. The crate for which more lines wait has the processors first. Where memory is free, the run of
the crate that comes next begins early: it takes what it uses, of hundreds of megabytes each, and waits for the last.
"""
import os
import re
import shutil
import subprocess
import threading
import time
from pathlib import Path

# What a check holds at most, in KiB. (`rt ci` by itself counts with nearly twice as much, and proves fewer side by side than there is room
# for.)
HELD = 5 * 2**20
# The free memory, in KiB, at which `rt ci` counts room for two jobs of any crate.
FOR_TWO = 17 * 2**20
# How many lines of Rust take as long as a clause of what a function promises. (`vap_cli_replay`, of 1,431 lines and 239 such clauses,
# takes longer than `vap_cli_report`, of 2,980 and 34.)
CLAUSE = 16
PROMISE = re.compile(r"^ +ensures\b", re.M)
# How far a run is behind each of a crate for which more lines wait, as `nice` counts it. (The edits are behind all.)
BEHIND = 2
# After how many seconds a check holds most of the memory that it needs.
UNDER_WAY = 60
# For how many lines a run does not begin early: there nothing goes on beside the last crate, and a run that begins when it has ended counts
# all memory as free, and so room for two jobs.
NEAR_END = 3000
# What `rt ci` says of a crate that is built, and of one that another run has proved or is at.
BUILT = re.compile(r"rt: (\w+) (?:proved|is kept)")
ELSEWHERE = re.compile(r"rt: (\w+)(?: is kept|: another run)")
COUNT = re.compile(r"(\d+) passed, (\d+) failed")


def keeps_proofs():
    """Whether `rt ci` of this toolchain takes what an earlier run has proved, which it then says is kept."""
    doc = subprocess.run(["rt", "doc"], capture_output=True, text=True, check=True).stdout.strip()
    sources = [Path(doc).parent / "bin" / it for it in ("rt", "rtlib.py")]
    return any(it.is_file() and "is kept" in it.read_text(encoding="utf-8", errors="replace") for it in sources)


def available():
    """The memory that may be taken, in KiB."""
    return int(re.search(r"MemAvailable: +(\d+)", Path("/proc/meminfo").read_text(encoding="utf-8"))[1])


def processors():
    """How many checks may run side by side: as many as RT_JOBS says from outside, else one a processor."""
    number = os.environ.get("RT_JOBS", "")
    return int(number) if number.isdigit() and int(number) else os.cpu_count() or 1


def has_idle_processor():
    """Whether fewer processes than there are processors are running or ready to run, this one left out, for a second."""
    for _ in range(4):
        ready, _, _ = Path("/proc/loadavg").read_text().split()[3].partition("/")
        if int(ready) > (os.cpu_count() or 1):
            return False
        time.sleep(0.25)
    return True


class Listed:
    """The crates of a repository as crates.txt lists them, the lowest first."""

    def __init__(self, top):
        self.top, lines = top, (top / "crates.txt").read_text(encoding="utf-8").splitlines()
        self.lines = {line.partition(":")[0].split()[0]: line for line in lines if ":" in line and not line.startswith("#")}
        self.below = {name: [it for it in line.partition(":")[2].split() if it in self.lines] for name, line in self.lines.items()}

    def needed(self, ends):
        """Some crates and all that they use, directly or not."""
        found = set(ends)
        for name in reversed(self.below):
            found.update(self.below[name] if name in found else ())
        return [name for name in self.below if name in found]

    def length(self, crate):
        """How much is to be proved of a crate: its lines of Rust, and for each clause of what a function promises as many as CLAUSE."""
        files = [it for it in (self.top / "crates" / crate).rglob("*.rt") if "out" not in it.parts]
        texts = [it.read_text(encoding="utf-8") for it in files]
        return sum(it.count("\n") + CLAUSE * len(PROMISE.findall(it)) for it in texts)

    def lengths(self):
        """For each crate the lines of the longest chain of crates that begins with it, each of which uses the one before."""
        found = {}
        for name in reversed(self.below):
            above = [found[it] for it in found if name in self.below[it]]
            found[name] = self.length(name) + max(above, default=0)
        return found

    def copy(self, crates, folder):
        """Copies some crates without their edits."""
        for name in crates:
            shutil.copytree(self.top / "crates" / name, folder / "crates" / name, ignore=shutil.ignore_patterns("out", "must-fail"))
        shutil.copy(self.top / "HANDLES", folder)
        (folder / "crates.txt").write_text("".join(f"{self.lines[name]}\n" for name in crates), encoding="utf-8")


class Run:
    """A run of `rt ci` in a folder, so far behind others: the crates that it has built so far, whether it has ended, and the counts of its
    last line. `hear` gets each of its lines, but for those that tell what other runs did for another crate than `of`, if one is named. With
    `lanes` it checks so many crates side by side, each by one job."""

    def __init__(self, folder, hear, of=None, behind=0, lanes=None):
        self.folder, self.of, self.built = folder, of, set()
        self.has_ended, self.passed, self.failed = False, 0, 1
        how = {"stdin": subprocess.DEVNULL, "stdout": subprocess.PIPE, "stderr": subprocess.STDOUT, "text": True, "errors": "replace"}
        how["env"] = {**os.environ, "RT_JOBS": str(lanes)} if lanes else None
        self.ran = subprocess.Popen(["nice", "-n", str(behind), "rt", "ci"], cwd=folder, **how)
        self.reader = threading.Thread(target=self.follow, args=(hear,))
        self.reader.start()

    def follow(self, hear):
        """Hands its lines on, up to its end."""
        for line in self.ran.stdout:
            built, elsewhere, count = BUILT.match(line), ELSEWHERE.match(line), COUNT.match(line)
            if built:
                self.built.add(built[1])
            if count:
                self.passed, self.failed = int(count[1]), int(count[2])
            if not (elsewhere and self.of not in (None, elsewhere[1])):
                hear(line)
        self.failed = self.failed or int(self.ran.wait() != 0)
        self.has_ended = True

    def wait(self):
        """Waits for its end. Answers whether all is well."""
        self.reader.join()
        return not self.failed


class Proofs:
    """The proofs of all crates of a list, each in a copy below `room`, and then all of them in the list's own folder. `hear` gets each line
    of each run."""

    def __init__(self, listed, room, hear):
        self.listed, self.room, self.hear = listed, room, hear
        self.lengths, self.runs, self.whole, self.has_ended = listed.lengths(), {}, None, False
        # when the check of a crate could begin, since its libraries were there
        self.begun = {}

    def make(self):
        """Makes them all. Answers whether all is well."""
        try:
            if keeps_proofs():
                self.prove_each()
                # (A run of all takes what is proved, and says what is not.)
                self.whole = self.run_of_all() or Run(self.listed.top, self.hear)
            else:
                self.whole = Run(self.listed.top, self.hear, lanes=processors())
            return self.whole.wait()
        finally:
            self.has_ended = True

    def run_of_all(self):
        """The run of a crate that uses each other one, if there is such a crate, and it is proved."""
        return next((run for it, run in self.runs.items() if it in run.built and len(self.listed.needed([it])) == len(self.lengths)), None)

    def prove_each(self):
        """Proves each crate whose libraries are proved."""
        left = sorted(self.lengths, key=self.lengths.get, reverse=True)
        while True:
            ready = [it for it in left if not self.lacking(it)]
            running = [it for it, run in self.runs.items() if not (run.has_ended or it in run.built or self.lacking(it))]
            if ready and (not running or self.has_place(len(running)) and available() >= HELD):
                left.remove(ready[0])
                self.begin(ready[0], running)
            elif not ready and not running:
                return
            for crate in running:
                self.begun.setdefault(crate, time.monotonic())
            self.begin_following(running, left)
            # (until a check holds what it needs, or ends)
            time.sleep(1)

    def has_place(self, running):
        """Whether one more crate may be proved beside so many."""
        return running < processors() - 1 or running < processors() and has_idle_processor()

    def lacking(self, crate):
        """The libraries of a crate that are not proved yet."""
        return [it for it in self.listed.below[crate] if not self.place_of(it)]

    def begin_following(self, running, left):
        """Begins the run of the first crate that waits only for the crate for which the most lines wait, if it is not near the end, that
        one's check is under way and memory is left for two jobs of any crate. Ends a run that waits in vain."""
        waiting = [it for it, run in self.runs.items() if self.lacking(it) and not run.has_ended]
        first = max(running, key=self.lengths.get, default=None)
        is_early = not first or time.monotonic() < self.begun[first] + UNDER_WAY
        if not (waiting or is_early) and available() >= FOR_TWO:
            following = next((it for it in left if self.lacking(it) == [first]), None)
            if following:
                left.remove(following)
                self.begin(following, [it for it in running if it != first])
        for crate in waiting:
            if any(it in self.runs and self.runs[it].has_ended for it in self.lacking(crate)):
                self.runs[crate].ran.kill()

    def begin(self, crate, others):
        """Begins the run of a crate, beside those of others."""
        # (for whichever user a program is run as)
        self.room.chmod(0o755)
        self.listed.copy(self.listed.needed([crate]), self.room / crate)
        behind = BEHIND * sum(self.lengths[it] > self.lengths[crate] for it in others)
        self.runs[crate] = Run(self.room / crate, self.hear, crate, behind)

    def place_of(self, crate):
        """The folder in which a crate is built, if it is."""
        return next((run.folder for run in (self.runs.get(crate), self.whole) if run and crate in run.built), None)
