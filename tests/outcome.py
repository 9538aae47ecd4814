"""How a script of the gate ends: each thing that it misses on a line of its own, and the counts that ./test adds up."""


def ended(whys):
    """Prints why tests fail (None for each that passes), then 'N passed, M failed'; answers the status with which the script ends."""
    failures = [why for why in whys if why is not None]
    for why in failures:
        print(why)
    print(f"{len(whys) - len(failures)} passed, {len(failures)} failed")
    return 1 if failures else 0


def ended_without(faults):
    """The same of a test that finds faults: it passes if there are none, and each fault is a failure."""
    return ended(list(faults) or [None])
