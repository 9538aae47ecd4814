"""How long runs of a program take, and how much memory."""
import subprocess
import tempfile
import time
from typing import NamedTuple


class Run(NamedTuple):
    """What a run took: seconds by the clock and of the processor, and the most memory in kilobytes."""

    seconds: float
    processor: float
    memory: int


def timed(words, runs):
    """The seconds of so many runs, start of the process included, and what the last one came to."""
    times = []
    for _ in range(runs):
        begin = time.perf_counter()
        ran = subprocess.run(words, capture_output=True)
        times.append(time.perf_counter() - begin)
    return times, ran


def measured(words, output):
    """What a run took, whose output goes to this file, and its status. A process that Python starts is told to have taken as
    much memory as Python, so another one starts it."""
    with tempfile.NamedTemporaryFile("r") as told:
        begin = time.perf_counter()
        ran = subprocess.run(["/usr/bin/time", "--format", "%U %S %M", "--output", told.name, *words], stdout=output)
        seconds = time.perf_counter() - begin
        user, system, memory = told.read().split()[-3:]
    return Run(seconds, float(user) + float(system), int(memory)), ran.returncode
