#!/usr/bin/env python3
"""Runs the program on each line of tests/vectors/*.jsonl and names each line that is not met.

The first word of a file's name is the command that its lines are for. Lines of `replay` are run with one worker, with
two, with three and with 16, and their streams are given to `worker_calls` too: after each event the set that a writer advances must be as
one that is built anew, in its report and in its answers to all reviews of the stream. Lines of `language_calls`,
`cluster_calls`, `worker_calls` and `replay_calls` are for the programs of these names, which make the calls that lines ask for: all
lines of a file in one run. So are those of `fit` and `image`, for `language_calls`. With names of files, it runs those alone. The last line is
'N passed, M failed'.
"""
import json
import os
import subprocess
import sys
from concurrent.futures import ThreadPoolExecutor
from pathlib import Path

TOP = Path(__file__).resolve().parent.parent
PROGRAM = TOP / "crates/vap/out/vap"


def file_of(line):
    """The bytes of a line's file."""
    return bytes.fromhex(line["hex"]) if "hex" in line else line["file"].encode()


def replay_words(line):
    """The words for a line of `replay`, whose file is the standard input."""
    return ["replay", *(["--audit"] if line["audit"] else []), "-"]


# What each command is given of a line: the words, the standard input, and further words with which the answer is the same.
COMMANDS = {
    "eval": (lambda line: ["eval", "--", line["expression"]], lambda line: b"", [[]]),
    "check": (lambda line: ["check", "-"], file_of, [[]]),
    "replay": (replay_words, file_of, [[], ["--workers", "2"], ["--workers", "3"], ["--workers", "16"]]),
}


def is_dear(stdout):
    """Whether an answer tells of a charge that is past its estimate."""
    told = dict(line.partition(b" ")[::2] for line in stdout.splitlines())
    return b"charged" in told and int(told[b"charged"]) > int(told.get(b"estimate", b"0"))


def unmet_with(words, given, line):
    """Why the program does not answer so to these words, or None."""
    try:
        ran = subprocess.run([PROGRAM, *words], input=given, capture_output=True, timeout=60)
    except (OSError, ValueError, subprocess.TimeoutExpired) as error:
        return f"{words}: {error}"
    status, stdout, stderr = line["status"], line["stdout"].encode(), line.get("stderr")
    if words[0] == "check" and is_dear(ran.stdout):
        return f"{words}: {ran.stdout!r} charges more than its estimate"
    is_told = stderr is None or ran.stderr.decode(errors="replace").rstrip("\n") == stderr.rstrip("\n")
    if (ran.returncode, ran.stdout) == (status, stdout) and is_told:
        return None
    return f"{words}: {ran.stdout!r}, {ran.stderr!r}, status {ran.returncode}; wanted {stdout!r}, {stderr!r}, status {status}"


def unmet(command, text):
    """Why a line is not met, or None."""
    try:
        line = json.loads(text)
        words_of, input_of, others = COMMANDS[command]
        words, given = words_of(line), input_of(line)
    except (KeyError, ValueError) as error:
        return f"it cannot be read: {error!r}"
    return next(filter(None, (unmet_with(words + more, given, line) for more in others)), None)


def asked_in(line):
    """What a line of calls asks."""
    return {key: line[key] for key in ("call", "with", "input") if key in line}


def image_answer(line):
    """What a line of `image` is answered with: the fault of its bytes or of its image, or the bounds, and if there are no slots a run."""
    fault = next((line[key] for key in ("decode", "verify") if line[key] != "ok"), None)
    if fault is not None:
        return fault
    bounds = "steps {step_bound}, cost {cost_bound}, operands {max_depth}".format(**line)
    return bounds + ("; {outcome}, charged {charged}, steps {steps}".format(**line) if "outcome" in line else "")


# The programs that make calls, and what each is given for a line.
ASKED = {
    "language_calls": ("language_calls", asked_in),
    "cluster_calls": ("cluster_calls", asked_in),
    "worker_calls": ("worker_calls", asked_in),
    "replay_calls": ("replay_calls", asked_in),
    "fit": ("language_calls", lambda line: {"call": "schemas.row", "input": line["line"]}),
    "image": ("language_calls", lambda line: {"call": "bytes.decoded", "input": line["hex"]}),
}


def wanted_of(line):
    """The answer that a line of calls wants."""
    return line["answer"] if "answer" in line else image_answer(line)


def program(name):
    return TOP / "crates" / name / "out" / name


def answers_of(name, asked):
    """What the program of this name answers to calls, all in one run."""
    given = "".join(call + "\n" for call in asked).encode()
    ran = subprocess.run([program(name)], input=given, stdout=subprocess.PIPE, timeout=600)
    answers = [json.loads(answer) for answer in ran.stdout.decode().split("\n")[:-1]]
    return answers + [f"no answer, status {ran.returncode}"] * (len(asked) - len(answers))


def unmet_calls(command, texts):
    """Why each line of a file of calls is not met, or None."""
    try:
        lines = [json.loads(text) for text in texts]
        name, asked_of = ASKED[command]
        asked = [json.dumps(asked_of(line), ensure_ascii=False) for line in lines]
        answers = answers_of(name, asked)
    except (KeyError, OSError, ValueError, subprocess.TimeoutExpired) as error:
        return [f"it cannot be run: {error!r}"] * len(texts)
    return [
        None if answer == wanted else f"{call}: {answer!r}; wanted {wanted!r}"
        for wanted, call, answer in zip(map(wanted_of, lines), asked, answers)
    ]


def steps_of(text):
    """The call that advances the set of a line's stream by each of its events, and builds it anew. Bytes that are no text become
    characters that stand for such."""
    stream = file_of(json.loads(text)).decode(errors="replace")
    return json.dumps({"call": "sets.steps", "input": stream}, ensure_ascii=False)


def unlike(texts):
    """Why a set that is advanced is not as one that is built anew, for the stream of each line, or None."""
    try:
        answers = answers_of("worker_calls", [steps_of(text) for text in texts])
    except (KeyError, OSError, ValueError, subprocess.TimeoutExpired) as error:
        return [f"its sets cannot be compared: {error!r}"] * len(texts)
    return [None if answer.endswith("same") else f"its sets: {answer!r}" for answer in answers]


def unmet_of(command, texts, pool):
    """Why each line of a file is not met, or None."""
    if command in ASKED:
        return unmet_calls(command, texts)
    unlike_sets = pool.submit(unlike, texts) if command == "replay" else None
    whys = list(pool.map(lambda text: unmet(command, text), texts))
    if unlike_sets is None:
        return whys
    return [why or unlike_set for why, unlike_set in zip(whys, unlike_sets.result())]


def is_built():
    """Whether the program is there, built where it is missing or older than its sources."""
    return not subprocess.run([TOP / "vap", "--version"], stdout=subprocess.DEVNULL).returncode


def main(names):
    files = [Path(name).resolve() for name in names] or sorted((TOP / "tests/vectors").glob("*.jsonl"))
    commands = {file: file.stem.partition("-")[0] for file in files}
    built = all(command in ASKED for command in commands.values()) or is_built()
    if not built:
        print("vectors: there is no program to run")
        print("0 passed, 1 failed")
        return 1
    lines, whys = [], []
    with ThreadPoolExecutor(os.cpu_count()) as pool:
        for file, command in commands.items():
            texts = file.read_text(encoding="utf-8").split("\n")[:-1]
            lines += [f"{file.relative_to(TOP)}:{number}" for number in range(1, len(texts) + 1)]
            whys += unmet_of(command, texts, pool)
    failed = 0
    for place, why in zip(lines, whys):
        if why:
            failed += 1
            print(f"{place}: {why}")
    if not lines:
        failed = 1
        print("vectors: there is no line to run")
    print(f"{len(lines) - failed if lines else 0} passed, {failed} failed")
    return 1 if failed else 0


sys.exit(main(sys.argv[1:]))
