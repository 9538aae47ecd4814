#!/usr/bin/env python3
"""Runs the program on texts that the grammar derives and on texts that it does not, and compares whether a token is
unexpected, and at which place, with what a recogniser of the grammar as written says (Earley's).

The recogniser shares no code with the program: it follows the rules of docs/LANGUAGE.md, left recursion included, and
the first token at which it has no rule left is the unexpected one. The last line is 'N passed, M failed'.
"""
import os
import random
import subprocess
import sys
from concurrent.futures import ThreadPoolExecutor
from pathlib import Path

TOP = Path(__file__).resolve().parent.parent
PROGRAM = TOP / "crates/vap/out/vap"
TEXTS = 600

# Each part with the ways in which it is written; what is no part is a kind of token.
GRAMMAR = {
    "Expr": [["ConditionalOr"], ["ConditionalOr", "?", "ConditionalOr", ":", "Expr"]],
    "ConditionalOr": [["ConditionalAnd"], ["ConditionalOr", "||", "ConditionalAnd"]],
    "ConditionalAnd": [["Relation"], ["ConditionalAnd", "&&", "Relation"]],
    "Relation": [["Addition"], ["Relation", "relation", "Addition"], ["Relation", "in", "Addition"]],
    "Addition": [["Multiplication"], ["Addition", "+", "Multiplication"], ["Addition", "-", "Multiplication"]],
    "Multiplication": [["Unary"], ["Multiplication", "product", "Unary"]],
    "Unary": [["Member"], ["Nots", "Member"], ["Minuses", "Member"]],
    "Nots": [["!"], ["Nots", "!"]],
    "Minuses": [["-"], ["Minuses", "-"]],
    "Member": [
        ["Primary"],
        ["Member", ".", "Selector"],
        ["Member", ".", "Selector", "(", ")"],
        ["Member", ".", "Selector", "(", "List", ")"],
        ["Member", "[", "Expr", "]"],
    ],
    "Selector": [["name"], ["reserved"]],
    "Primary": [
        ["name"],
        ["name", "(", ")"],
        ["name", "(", "List", ")"],
        ["(", "Expr", ")"],
        ["literal"],
        ["[", "]"],
        ["[", ",", "]"],
        ["[", "List", "]"],
        ["[", "List", ",", "]"],
        ["{", "}"],
        ["{", ",", "}"],
        ["{", "Pairs", "}"],
        ["{", "Pairs", ",", "}"],
    ],
    "List": [["Expr"], ["List", ",", "Expr"]],
    "Pairs": [["Expr", ":", "Expr"], ["Pairs", ",", "Expr", ":", "Expr"]],
}

# The tokens of each kind, as they are written.
SPELLINGS = {
    "relation": ["<", "<=", ">", ">=", "==", "!="],
    "product": ["*", "/", "%"],
    "name": ["a", "b1", "_c", "size"],
    "reserved": ["for", "as", "while"],
    "literal": ["1", "0x1F", "2u", "'t'", '"u"', "true", "false", "null"],
}
KINDS = {word: kind for kind, words in SPELLINGS.items() for word in words}
WORDS = sorted(KINDS) + ["?", ":", "||", "&&", "in", "+", "-", "!", ".", "(", ")", "[", "]", "{", "}", ","]


def unexpected(kinds):
    """The number of the first token at which no text of the grammar goes on, or None where the grammar derives them."""
    states = {("Expr", tuple(way), 0, 0) for way in GRAMMAR["Expr"]}
    charts = []
    for number in range(len(kinds) + 1):
        chart, fresh = set(), list(states)
        while fresh:
            state = fresh.pop()
            if state in chart:
                continue
            chart.add(state)
            part, way, dot, start = state
            if dot == len(way):
                origin = chart if start == number else charts[start]
                fresh += [(p, w, d + 1, s) for p, w, d, s in origin if d < len(w) and w[d] == part]
            elif way[dot] in GRAMMAR:
                fresh += [(way[dot], tuple(other), 0, number) for other in GRAMMAR[way[dot]]]
        charts.append(chart)
        if number == len(kinds):
            is_whole = any(p == "Expr" and s == 0 and d == len(w) for p, w, d, s in chart)
            return None if is_whole else number
        states = {(p, w, d + 1, s) for p, w, d, s in chart if d < len(w) and w[d] == kinds[number]}
        if not states:
            return number


def derived(draw, part, depth):
    """Tokens that a part derives."""
    if part not in GRAMMAR:
        return [draw.choice(SPELLINGS.get(part, [part]))]
    ways = GRAMMAR[part]
    if depth <= 0:
        ways = [ways[0]] if part != "Primary" else [["name"], ["literal"]]
    return [token for inner in draw.choice(ways) for token in derived(draw, inner, depth - 1)]


def tokens_of(draw):
    """Tokens that the grammar derives, most often with one or two of them changed, or tokens at random."""
    if draw.random() < 0.15:
        return [draw.choice(WORDS) for _ in range(draw.randint(1, 8))]
    tokens = derived(draw, "Expr", draw.randint(4, 16))[:60]
    for _ in range(draw.choice([0, 1, 1, 1, 2])):
        at = draw.randrange(len(tokens) + 1)
        change = draw.randrange(3)
        if change == 0:
            tokens.insert(at, draw.choice(WORDS))
        elif change == 1 and at < len(tokens):
            del tokens[at]
        elif at < len(tokens):
            tokens[at] = draw.choice(WORDS)
    return tokens


def wanted(tokens):
    """What the program says of an unexpected token, or None."""
    number = unexpected([KINDS.get(token, token) for token in tokens])
    if number is None:
        return None
    text = " ".join(tokens)
    place = len(text) if number == len(tokens) else len(" ".join(tokens[:number])) + (number > 0)
    return f"refused: Unexpected at {place}\n"


def unmet(tokens):
    """Why the program's answer is not the recogniser's, or None."""
    text, want = " ".join(tokens), wanted(tokens)
    ran = subprocess.run([PROGRAM, "eval", "--", text], stdin=subprocess.DEVNULL, capture_output=True, timeout=60)
    said = ran.stdout.decode()
    if said == want or want is None and ran.returncode in (0, 1) and "Unexpected" not in said:
        return None
    return f"{text!r}: {said!r}, status {ran.returncode}; wanted {want!r}"


def main():
    # (where it is missing or older than its sources, the starter builds it)
    if subprocess.run([TOP / "vap", "--version"], stdout=subprocess.DEVNULL).returncode:
        print("unexpected places: there is no program to run")
        print("0 passed, 1 failed")
        return 1
    draw = random.Random(1)
    texts = []
    while len(texts) < TEXTS:
        tokens = tokens_of(draw)
        if tokens not in texts:
            texts.append(tokens)
    refused = sum(wanted(tokens) is not None for tokens in texts)
    print(f"unexpected places: {refused} texts with one, {len(texts) - refused} without", flush=True)
    with ThreadPoolExecutor(os.cpu_count()) as pool:
        whys = [why for why in pool.map(unmet, texts) if why]
    for why in whys:
        print(why)
    few = refused < 300
    if few:
        print("unexpected places: fewer than 300 texts have one")
    failed = len(whys) + few
    print(f"{len(texts) - len(whys)} passed, {failed} failed")
    return 1 if failed else 0


if __name__ == "__main__":
    sys.exit(main())
