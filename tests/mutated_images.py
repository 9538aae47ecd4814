#!/usr/bin/env python3
"""Changes the images of tests/vectors/image*.jsonl at random, and gives them to `language_calls`: each must be reported with a fault, or
be an image whose spelling is the very bytes; one that is accepted and run must charge and take no more than its bounds.

    tests/mutated_images.py SEED COUNT                   gives so many to the built program
    tests/mutated_images.py SEED COUNT --to FOLDER       writes them instead, for `rt try --cases FOLDER` in crates/language_calls
    tests/mutated_images.py SEED COUNT --answers FILE    judges what `rt try` printed for these

The seed and the count determine the images. It is no part of the gate. The last line is 'N passed, M failed'.
"""
import argparse
import json
import random
import re
import subprocess
import sys
from collections import Counter
from pathlib import Path

TOP = Path(__file__).resolve().parent.parent
PROGRAM = TOP / "crates/language_calls/out/language_calls"
IMAGES = sorted((TOP / "tests/vectors").glob("image*.jsonl"))
AT_ONCE = 250  # lines of one run

FAULTS = ["Truncated", "BadOpcode", "BadTable", "TrailingBytes"]
REFUSED = re.compile(r"(Underflow|WrongKind|BadTarget|BadNesting|BadConstant|TooDeep|OverBudget) at \d+")
BOUNDED = re.compile(r"steps (\d+), cost (\d+), operands \d+")
UNBUILT = re.compile(BOUNDED.pattern + "; a pattern is not built")
RAN = re.compile(BOUNDED.pattern + r"; .*, charged (\d+), steps (\d+)", re.DOTALL)


def place_in(chance, image):
    return chance.randrange(len(image)) if image else 0


def changed_byte(chance, image, _others):
    """Another byte in one place, at times a near one."""
    if image:
        place = place_in(chance, image)
        image[place] = chance.choice([chance.randrange(256), image[place] ^ 1 << chance.randrange(8), (image[place] + 1) % 256])


def changed_number(chance, image, _others):
    """Four bytes that spell a number, small in most cases."""
    place = place_in(chance, image)
    number = chance.choice([chance.randrange(4), chance.randrange(300), 65_536, 2**31, 2**32 - 1])
    image[place : place + 4] = number.to_bytes(4, "big")


def removed(chance, image, _others):
    place = place_in(chance, image)
    del image[place : place + chance.choice([1, 1, 4, 5, chance.randrange(1, 40)])]


def repeated(chance, image, _others):
    """A piece that comes once more, there or elsewhere."""
    place = place_in(chance, image)
    piece = image[place : place + chance.choice([1, 4, 5, 9, chance.randrange(1, 40)])]
    at = chance.choice([place, place_in(chance, image)])
    image[at:at] = piece


def inserted(chance, image, _others):
    place = place_in(chance, image)
    image[place:place] = bytes(chance.randrange(256) for _ in range(chance.randrange(1, 6)))


def swapped(chance, image, _others):
    """Two neighbours of one length, each in the other's place."""
    length = chance.choice([1, 4, 5, 6])
    place = place_in(chance, image)
    left, right = image[place : place + length], image[place + length : place + 2 * length]
    image[place : place + 2 * length] = right + left


def spliced(chance, image, others):
    """The end of another image after a front."""
    other = chance.choice(others)
    image[place_in(chance, image) :] = other[place_in(chance, other) :]


def cut(chance, image, _others):
    del image[place_in(chance, image) :]


def continued(chance, image, others):
    """Something after the end."""
    image += chance.choice([b"\0", bytes([chance.randrange(256)]), chance.choice(others)])


CHANGES = [changed_byte] * 6 + [changed_number] * 3 + [removed, repeated, inserted, swapped, spliced] * 2 + [cut, continued]


def mutated(seed, count):
    """So many images, each changed once to three times."""
    lines = [line for file in IMAGES for line in file.read_text(encoding="utf-8").split("\n")[:-1]]
    images = [bytes.fromhex(json.loads(line)["hex"]) for line in lines]
    chance = random.Random(seed)
    for _ in range(count):
        image = bytearray(chance.choice(images))
        for _ in range(chance.choice([1, 1, 1, 2, 3])):
            chance.choice(CHANGES)(chance, image, images)
        yield bytes(image)


def batches(seed, count):
    """The calls for these images, so many lines at once."""
    calls = [json.dumps({"call": "bytes.decoded", "input": image.hex()}) + "\n" for image in mutated(seed, count)]
    return ["".join(calls[start : start + AT_ONCE]) for start in range(0, count, AT_ONCE)]


def kind(answer):
    """What an answer is, or None if it is none that may be."""
    if answer in FAULTS:
        return answer
    if REFUSED.fullmatch(answer):
        return answer.partition(" ")[0]
    if BOUNDED.fullmatch(answer):
        return "accepted"
    if UNBUILT.fullmatch(answer):
        return "given up for a pattern"
    ran = RAN.fullmatch(answer)
    if ran:
        most_steps, most_cost, charged, steps = map(int, ran.groups())
        return "accepted and run" if charged <= most_cost <= 10_000_000 and steps <= most_steps else None
    return None


def answered(seed, count):
    """What the built program answers."""
    answers = []
    for given in batches(seed, count):
        ran = subprocess.run([PROGRAM], input=given.encode(), stdout=subprocess.PIPE, timeout=600)
        lines = ran.stdout.decode().split("\n")[:-1]
        lost = given.count("\n") - len(lines)
        answers += list(map(json.loads, lines)) + [f"no answer, status {ran.returncode}"] * lost
    return answers


def told(answers, count):
    """Prints how many answers there are of each kind, and those that may not be."""
    kinds = Counter(map(kind, answers))
    for answer in answers:
        if kind(answer) is None:
            print(f"mutated images: {answer!r}")
    print(", ".join(f"{name} {number}" for name, number in sorted(kinds.items(), key=lambda entry: -entry[1]) if name))
    passed = sum(number for name, number in kinds.items() if name)
    print(f"{passed} passed, {count - passed} failed")
    return 0 if passed == count else 1


def main(words):
    parser = argparse.ArgumentParser(usage=__doc__)
    parser.add_argument("seed", type=int)
    parser.add_argument("count", type=int)
    parser.add_argument("--to", type=Path)
    parser.add_argument("--answers", type=Path)
    asked = parser.parse_args(words)
    if asked.to:
        asked.to.mkdir(parents=True, exist_ok=True)
        for number, given in enumerate(batches(asked.seed, asked.count)):
            (asked.to / f"{number:04}").write_text(given, encoding="utf-8")
        return 0
    if asked.answers:
        lines = asked.answers.read_text(encoding="utf-8").split("\n")
        return told([json.loads(line) for line in lines if line.startswith('"')], asked.count)
    return told(answered(asked.seed, asked.count), asked.count)


if __name__ == "__main__":
    sys.exit(main(sys.argv[1:]))
