#!/usr/bin/env python3
"""Changes the lines of the streams in tests/vectors at random, and gives them to `cluster_calls`, which reads each as a tape and as a tree:
both must refuse it, or hold the very same, and as a reader of JSON that is written here says.

    tests/mutated_documents.py SEED COUNT

The seed and the count determine the documents. It is no part of the gate. The last line is 'N passed, M failed'.
"""
import json
import random
import struct
import subprocess
import sys
from collections import Counter
from pathlib import Path

TOP = Path(__file__).resolve().parent.parent
PROGRAM = TOP / "crates/cluster_calls/out/cluster_calls"
STREAMS = sorted((TOP / "tests/vectors").glob("replay*.jsonl"))
LONGEST = 4_000
MOST_LEVELS = 127
AT_ONCE = 250  # documents of one run
REFUSED = "no document"

PIECES = ["{", "}", "[", "]", ",", ":", '"', "\\", " ", "\n", "\t", "\x00", "\x1f", "\x7f", "é", "\u2028", "😀", "/", "-", "+", ".", "e", "0"]
TOKENS = ["null", "true", "false", "{}", "[]", '""', '"\\""', "nul", "True", "NaN", "Infinity", '"\\u0000"', '"\\n"', '"\\x"', '"\\u12"']
SURROGATES = ['"\\ud800"', '"\\udc00"', '"\\ud83d\\ude00"', '"\\ude00\\ud83d"', '"\\ud800x"', '"\\ud800\\u0041"', '"\\uD83D\\uDE00\\ud83d"']
NUMBERS = ["0", "-0", "00", "01", "-1", "1.", ".5", "1.5", "-0.0", "1e5", "1E+5", "1e-400", "1e400", "-1e400", "1e", "0e999", "+1", "9007199254740993"]
BOUNDS = ["9223372036854775807", "9223372036854775808", "-9223372036854775808", "-9223372036854775809", "18446744073709551615"]
PAST = ["18446744073709551616", "1" + "0" * 308, "1" + "0" * 309, "0.1" + "0" * 40 + "1", "123456789012345678901234567890.5e-20", "5e-324", "2e-324"]


class Refused(Exception):
    """No document, by the rules of RFC 8259 and the limits of the reader: 127 levels, numbers within the floats, no surrogate alone."""


def integer(text):
    number = int(text)
    if 0 <= number < 2**64 and not text.startswith("-"):
        return f"u{number}"
    if -(2**63) <= number < 0:
        return f"n{number}"
    return floating(text)


def floating(text):
    number = float(text)
    if number in (float("inf"), float("-inf")):
        raise Refused
    return f"f{struct.unpack('>Q', struct.pack('>d', number))[0]}"


def refuse(_name):
    raise Refused


def text_of(text):
    try:
        return "t" + text.encode("utf-8").hex()
    except UnicodeEncodeError as error:
        raise Refused from error


class Members(list):
    """The members of an object, as the text has them."""


class Number(str):
    """A number, as it is written out."""


def levels(text):
    """How deep brackets are nested, outside strings."""
    depth = most = 0
    at = 0
    while at < len(text):
        if text[at] == '"':
            at += 1
            while text[at] != '"':
                at += 2 if text[at] == "\\" else 1
        depth += (text[at] in "[{") - (text[at] in "]}")
        most = max(most, depth)
        at += 1
    return most


def written(value):
    if isinstance(value, Members):
        members = {}
        for name, member in value:
            members[text_of(name)] = written(member)
        # (by the bytes of the names, whose hexadecimal digits are in the same order)
        return "{" + "".join(f"{name}:{members[name]}," for name in sorted(members)) + "}"
    if isinstance(value, list):
        return "[" + "".join(f"{written(item)}," for item in value) + "]"
    if isinstance(value, Number):
        return str(value)
    if isinstance(value, str):
        return text_of(value)
    return {None: "null", True: "true", False: "false"}[value]


def expected(text):
    """What a text spells, by Python's own reader and the limits."""
    hooks = {"parse_int": lambda it: Number(integer(it)), "parse_float": lambda it: Number(floating(it))}
    try:
        value = json.loads(text, object_pairs_hook=Members, parse_constant=refuse, **hooks)
        return written(value) if levels(text) <= MOST_LEVELS else REFUSED
    except (ValueError, RecursionError, Refused):
        return REFUSED


def place_in(chance, text):
    return chance.randrange(len(text) + 1)


def replaced(chance, text, _others):
    at = place_in(chance, text)
    return text[:at] + chance.choice(PIECES) + text[at + 1 :]


def removed(chance, text, _others):
    at = place_in(chance, text)
    return text[:at] + text[at + chance.choice([1, 1, 2, chance.randrange(1, 30)]) :]


def repeated(chance, text, _others):
    at = place_in(chance, text)
    piece = text[at : at + chance.choice([1, 2, chance.randrange(1, 60)])]
    to = chance.choice([at, place_in(chance, text)])
    return text[:to] + piece + text[to:]


def inserted(chance, text, _others):
    at = place_in(chance, text)
    return text[:at] + chance.choice(chance.choice([PIECES, TOKENS, SURROGATES, NUMBERS, BOUNDS, PAST])) + text[at:]


def with_value(chance, text, _others):
    """Another value in the place of one that follows a name."""
    places = [at for at, sign in enumerate(text) if sign == ":"]
    if not places:
        return text
    at = chance.choice(places) + 1
    end = min([place for place in (text.find(",", at), text.find("}", at)) if place >= 0], default=len(text))
    return text[:at] + chance.choice(chance.choice([TOKENS, SURROGATES, NUMBERS, BOUNDS, PAST])) + text[end:]


def with_name(chance, text, _others):
    """A member more at the front of an object, at times under a name that is there."""
    places = [at for at, sign in enumerate(text) if sign == "{"]
    if not places:
        return text
    at = chance.choice(places) + 1
    name = chance.choice(['"kind"', '"name"', '"spec"', '"\\u006bind"', '""', '"é"', '"\\ud800"', '"\\u00e9"'])
    comma = "" if text[at : at + 1] == "}" else ","
    return text[:at] + name + ":" + chance.choice(chance.choice([TOKENS, NUMBERS, BOUNDS])) + comma + text[at:]


def nested(chance, text, _others):
    """The whole in lists or objects, about as many as there may be."""
    count = chance.choice([1, 2, 100, 120, 122, 123, 124, 125, 126, 127, 128, 129])
    if chance.random() < 0.5:
        return "[" * count + text + "]" * count
    return '{"a":' * count + text + "}" * count


def spliced(chance, text, others):
    other = chance.choice(others)
    return text[: place_in(chance, text)] + other[place_in(chance, other) :]


def cut(chance, text, _others):
    return text[: place_in(chance, text)]


def continued(chance, text, _others):
    return text + chance.choice([" ", "\n", "x", "{}", ",", "\x00", "null"])


CHANGES = [replaced, removed, repeated, inserted] + [with_value, with_name] * 4 + [nested, spliced, cut, continued]


def originals():
    lines = [line for file in STREAMS for line in file.read_text(encoding="utf-8").split("\n")[:-1]]
    texts = [text for line in lines for text in json.loads(line).get("file", "").split("\n")]
    return sorted({text for text in texts if 0 < len(text) <= LONGEST})


def mutated(seed, count):
    """So many documents, each changed once to three times."""
    texts, chance = originals(), random.Random(seed)
    for _ in range(count):
        text = chance.choice(texts)
        for _ in range(chance.choice([1, 1, 1, 2, 3])):
            text = chance.choice(CHANGES)(chance, text, texts)
        yield text


def answered(texts):
    """What the built program answers, off the tape and off the tree."""
    calls = [json.dumps({"call": f"documents.{call}", "input": text}) + "\n" for text in texts for call in ("opened", "read")]
    ran = subprocess.run([PROGRAM], input="".join(calls).encode(), stdout=subprocess.PIPE, timeout=600, check=True)
    answers = list(map(json.loads, ran.stdout.decode().split("\n")[:-1]))
    return list(zip(answers[::2], answers[1::2], strict=True))


def main(words):
    sys.set_int_max_str_digits(0)
    seed, count = map(int, words)
    texts, kinds, failed = list(mutated(seed, count)), Counter(), 0
    for start in range(0, count, AT_ONCE):
        piece = texts[start : start + AT_ONCE]
        for text, (tape, tree) in zip(piece, answered(piece), strict=True):
            kinds["refused" if tree == REFUSED else "read"] += 1
            if not tape == tree == expected(text):
                failed += 1
                print(f"mutated documents: {text!r}: tape {tape}, tree {tree}, expected {expected(text)}")
    print(", ".join(f"{name} {number}" for name, number in sorted(kinds.items())))
    print(f"{count - failed} passed, {failed} failed")
    return 1 if failed else 0


if __name__ == "__main__":
    sys.exit(main(sys.argv[1:]))
