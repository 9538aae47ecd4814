#!/usr/bin/env python3
"""Runs what `rt ci` built with its first allocation refused, then with its second, and so on to the last that it makes.

The program is run on the first expression, on one with loops and on vectors of each answer, and then must give its right answer, or end
with status 4 and nothing on standard output; and so are `eval` of times, `check`, `replay`, `report` and `kinds` on their examples,
`replay` on the lines of replay-policies.jsonl that have `"refused"`, and `image encode` and `image decode` on the expressions and images of
language_calls-bytes.jsonl, all of which may have written whole lines of their answer before. The programs that make calls are run on
each of their lines, tests/vectors/*_calls-*.jsonl, that has `"refused"`, and must give its right answer, or end with another status
than 0 and write nothing else.

Then the allocations for the lines of what is lent are counted: that ten runs more of the same expressions take as many, of
as many bytes, where the slots hold much as where they hold little. The last line is 'N passed, M failed', each refused allocation
counted, and that one comparison.
"""
import json
import os
import shutil
import subprocess
import sys
import tempfile
from concurrent.futures import ThreadPoolExecutor
from pathlib import Path

TOP = Path(__file__).resolve().parent.parent
PROGRAM = TOP / "crates/vap/out/vap"
POLICIES = TOP / "tests/vectors/replay-policies.jsonl"
IMAGES = TOP / "tests/vectors/language_calls-bytes.jsonl"
LENT = TOP / "tests/vectors/language_calls-lent.jsonl"
FIRST = "1 + 2 * 3 == 7 && !(4 < 3)"
LOOPS = "[[1, 2], [3]].map(r, r.filter(c, {'a': c}.exists(k, k == 'a') && c != 2))"
TIMES = "[string(timestamp('2024-02-28T23:00:00Z') + duration('25h')), string(duration('-1.5h'))]"
COMMANDS = [
    ["eval", "--", TIMES],
    ["check", TOP / "examples/rule.json"],
    ["replay", "--audit", TOP / "examples/stream.jsonl"],
    ["report", TOP / "examples/stream.jsonl"],
    ["report", "--output", "json", TOP / "examples/stream.jsonl"],
    ["kinds", TOP / "examples/openapi.json"],
]
VECTORS = 50
MOST = 100_000
# A case is tried in so many parts, side by side: the first, the fifth, .. of its allocations, then the second, the sixth, ..
PARTS = 4
OVER = 99  # the status that the preloaded library gives where no allocation was refused


def preloaded(folder):
    """The library that refuses, compiled by the kit's own compiler."""
    kit = Path(subprocess.run(["rt", "doc"], capture_output=True, text=True, check=True).stdout.strip()).parent
    library = Path(folder) / "refused.so"
    flags = ["-O2", "-shared", "-fPIC", "-nostdlib", "-fuse-ld=lld"]
    subprocess.run([kit / "toolchain/bin/clang", *flags, "-o", library, TOP / "tests/refused.c"], check=True)
    return library


def kind(line):
    """What the answer of a vector is called, without its place; values by their first character."""
    words = line["stdout"].split()
    return " ".join(words[:2]) if words[:1] in (["error:"], ["refused:"]) else line["stdout"][:1]


def spread(lines):
    """So many vectors, one of each answer in turn."""
    answers = {}
    for line in lines:
        answers.setdefault(kind(line), []).append(line)
    chosen = []
    while len(chosen) < VECTORS and answers:
        for answer in sorted(answers):
            chosen.append(answers[answer].pop(0))
            if not answers[answer]:
                del answers[answer]
    return chosen[:VECTORS]


def commands():
    """The other commands: where memory is refused, what is written up to there is whole lines of the answer."""
    yield from (of_command(words, b"") for words in COMMANDS)
    for line in map(json.loads, POLICIES.read_text(encoding="utf-8").split("\n")[:-1]):
        if line.get("refused"):
            yield of_command(["replay", "--audit", "-"], line["file"].encode())
    for line in map(json.loads, IMAGES.read_text(encoding="utf-8").split("\n")[:-1]):
        if line["answer"].startswith("Done") and line["call"] == "commands.encode":
            yield of_command(["image", "encode", line["input"]], b"")
        if line["answer"].startswith("Done") and line["call"] == "commands.decode":
            yield of_command(["image", "decode", "-"], bytes.fromhex(line["input"]))


def of_command(words, given):
    """The case of a command that is answered well where memory is not refused."""
    ran = subprocess.run([PROGRAM, *words], input=given, capture_output=True, timeout=60, check=True)
    is_right = lambda out: out == ran.stdout
    is_begun = lambda out: ran.stdout.startswith(out) and (not out or out.endswith(b"\n"))
    is_well = lambda status, out: (status, out) == (0, ran.stdout) or status == 4 and is_begun(out)
    return str(words[0]), [PROGRAM, *words], given, is_right, is_well


def calls():
    """The lines of calls that are tried so."""
    for file in sorted((TOP / "tests/vectors").glob("*_calls-*.jsonl")):
        for line in map(json.loads, file.read_text(encoding="utf-8").split("\n")[:-1]):
            if line.get("refused"):
                is_right = lambda out, line=line: answers_of(out) == [line["answer"]]
                is_well = lambda status, out, is_right=is_right: is_right(out) if status == 0 else not out or is_right(out)
                yield line["call"], [caller(file)], asked(line), is_right, is_well


def caller(file):
    """The program that makes the calls of a file."""
    name = file.stem.partition("-")[0]
    return TOP / "crates" / name / "out" / name


def asked(line, width=0):
    """What that program is given for a line, so many bytes at least."""
    text = json.dumps({key: line[key] for key in ("call", "with", "input") if key in line})
    return text.ljust(width).encode() + b"\n"


def answers_of(out):
    """The answers of such a program, or None."""
    try:
        return [json.loads(text) for text in out.decode().splitlines()]
    except ValueError:
        return None


def cases():
    """Each case: its name, its words, its standard input, whether an output is right, and whether a status and an output are well
    where memory is refused."""
    lines = []
    for file in sorted((TOP / "tests/vectors").glob("eval*.jsonl")):
        lines += [json.loads(text) for text in file.read_text(encoding="utf-8").splitlines()]
    lines = [line for line in lines if len(line["expression"]) < 1000]
    first = {"expression": FIRST, "status": 0, "stdout": "true\n"}
    loops = {"expression": LOOPS, "status": 0, "stdout": "[[1],[3]]\n"}
    for line in [first, loops] + spread(lines):
        well = (line["status"], line["stdout"].encode())
        is_right = lambda out, well=well: out == well[1]
        is_well = lambda status, out, well=well: (status, out) in (well, (4, b""))
        yield line["expression"], [PROGRAM, "eval", "--", line["expression"]], b"", is_right, is_well
    yield from commands()
    yield from calls()


def runs(library, words, given, first):
    """The runs of a program with each of its allocations refused, from this one on in steps of `PARTS`: number, status and output."""
    with tempfile.TemporaryDirectory() as folder:
        (Path(folder) / "given").write_bytes(given)
        environment = {"LD_PRELOAD": str(library), "SWEPT": folder, "FIRST": str(first), "STEP": str(PARTS), "MOST": str(MOST)}
        how = {"stdin": subprocess.DEVNULL, "stdout": subprocess.PIPE, "stderr": subprocess.DEVNULL}
        ran = subprocess.run(words, env=environment, timeout=3600, check=True, **how)
        for number, status in map(str.split, ran.stdout.decode().splitlines()):
            yield int(number), exit_of(int(status)), (Path(folder) / number).read_bytes()


def exit_of(status):
    """The exit status of a program, or the number of the signal that ended it, below 0."""
    return -os.WTERMSIG(status) if os.WIFSIGNALED(status) else os.WEXITSTATUS(status)


def sweep(library, case, first):
    """How many of a case's allocations were refused, from this one on in steps of `PARTS`, and what went wrong."""
    name, words, given, is_right, is_well = case
    tried, whys = 0, []
    for number, status, out in runs(library, words, given, first):
        if status == OVER:
            return tried, whys if is_right(out) else whys + [f"{name!r} with all its memory: {out!r}"]
        if not is_well(status, out):
            whys.append(f"{name!r} with allocation {number} refused: {out!r}, status {status}")
        tried += 1
    return 0, whys + [f"{name!r}: it has not ended at {MOST} allocations"]


def swept(library, case, pool):
    """The parts of a case's sweep."""
    return [pool.submit(sweep, library, case, first) for first in range(1, PARTS + 1)]


def counted(library, lines):
    """How many allocations are made for these lines of what is lent, and of how many bytes together."""
    environment = {"LD_PRELOAD": str(library), "COUNTED": "1"}
    given = b"".join(asked(line, 200) for line in lines)
    ran = subprocess.run([caller(LENT)], env=environment, input=given, capture_output=True, timeout=60)
    if ran.returncode or answers_of(ran.stdout) != [line["answer"] for line in lines]:
        raise SystemExit(f"what is lent: status {ran.returncode}, {ran.stdout!r}")
    return [int(word) for word in ran.stderr.split()[-2:]]


def taken(library, texts):
    """What the further runs of the same expressions take where slots hold so many texts: allocations and bytes."""
    lines = [json.loads(text) for text in LENT.read_text(encoding="utf-8").splitlines()]
    once = counted(library, [line for line in lines if line["with"] == [texts, 1]])
    often = counted(library, [line for line in lines if line["with"] == [texts, 11]])
    return [more - less for more, less in zip(often, once)]


def lent_is_copied(library):
    """Why what slots hold seems to be copied, if it does."""
    little, much = taken(library, 2), taken(library, 199)
    print(f"lent: {little[0]} allocations of {little[1]} bytes where slots hold little, {much[0]} of {much[1]} where much")
    return [] if little == much and little[0] > 0 else ["what slots hold is copied"]


def main():
    folder = tempfile.mkdtemp()
    try:
        library = preloaded(folder)
        with ThreadPoolExecutor(os.cpu_count()) as pool:
            parts = [swept(library, case, pool) for case in cases()]
            found = [[part.result() for part in case] for case in parts]
        copied = lent_is_copied(library)
    finally:
        shutil.rmtree(folder)
    refused = sum(count for case in found for count, _ in case)
    whys = [why for case in found for _, wrong in case for why in wrong]
    whys += ["a case makes no allocation" for case in found if not any(count for count, _ in case)] + copied
    for why in whys:
        print(why)
    print(f"refused memory: {len(found)} cases, {refused} allocations")
    print(f"{refused + 1 - len(whys)} passed, {len(whys)} failed")
    return 1 if whys else 0


sys.exit(main())
