#!/usr/bin/env python3
"""Runs the program on good and bad command lines and compares statuses, and what is on which stream.

The last line is 'N passed, M failed'.
"""
import json
import os
import re
import resource
import subprocess
import sys
from concurrent.futures import ThreadPoolExecutor
from pathlib import Path

from outcome import ended

TOP = Path(__file__).resolve().parent.parent
PROGRAM = TOP / "crates/vap/out/vap"
LONG = " + ".join(["1"] * 99) + " " * 15_000  # about 16 KB, 99 deep
LONG_LIST = "[" + ", ".join(["1"] * 5_000) + "].x"
RULE = TOP / "examples/rule.json"
STREAM = TOP / "examples/stream.jsonl"
TRUE_IMAGE = bytes.fromhex("564150490100000000000000010101000000000200000002000000000013")
RULE_LINES = b"estimate 904\nvalue true\ncharged 14\n"
OPENAPI = TOP / "examples/openapi.json"

# What `report` writes of the stream of the examples: for people, and for machines.
FEW = b"""policy few
  ex.io/v1 App: accepted, 4 of 100000000
    spec.validations[0].expression: 4 of 10000000
"""
OWNED = b"""policy owned
  ex.io/v1 App: accepted, 6 of 100000000
    spec.validations[0].expression: 3 of 10000000
    spec.auditAnnotations[0].valueExpression: 3 of 10000000
"""
ACCEPTED = FEW + OWNED + b"2 accepted, 0 refused\n"
NONE = b"0 accepted, 0 refused\n"


def pair(policy, estimates, total):
    """A pair that is accepted, as JSON."""
    found = ",".join('{"estimate":%d,"field":"spec.%s"}' % (most, field) for field, most in estimates)
    front = '{"accepted":true,"estimate":null,"estimates":[%s],"expression":null,"fault":null,"field":null,"group":"ex.io","kind":"App",' % found
    return front + '"place":null,"policy":"%s","sum":%d,"version":"v1","words":null}' % (policy, total)


def report(accepted, pairs, strays="", unbound="", elsewhere="", unread="", params=""):
    """A report as JSON, of which each list is given by its items."""
    front = '{"accepted":%s,"bindingsWithoutPolicy":[%s],"limits":{"expression":10000000,"policy":100000000},' % (accepted, strays)
    lists = '"pairs":[%s],"policiesWithoutBinding":[%s],"policiesWithoutKnownKind":[%s],' % (pairs, unbound, elsewhere)
    return (front + lists + '"refusedSchemas":[%s],"unknownParamKinds":[%s]}\n' % (unread, params)).encode()


FEW_PAIR = pair("few", [("validations[0].expression", 4)], 4)
OWNED_PAIR = pair("owned", [("validations[0].expression", 3), ("auditAnnotations[0].valueExpression", 3)], 6)

# The words, the status, the standard output where it is fixed, and what standard error holds.
ROWS = [
    ([], 2, b"", b"Usage"),
    (["nothing"], 2, b"", b"nothing"),
    (["eval"], 2, b"", b"EXPR"),
    (["eval", "1", "2"], 2, b"", b"2"),
    (["eval", "--flag", "1"], 2, b"", b"goes after `--`"),
    (["eval", "-1"], 2, b"", b"goes after `--`"),
    (["eval", "--", "-7 / 2"], 0, b"-3\n", b""),
    (["eval", "(-7) / 2"], 0, b"-3\n", b""),
    (["eval", b"\xff"], 2, b"", b"UTF-8"),
    (["--version"], 0, b"vap 0.1.0\n", b""),
    (["--help"], 0, None, b""),
    (["eval", "--help"], 0, None, b""),
    (["replay", "--help"], 0, None, b""),
    (["replay"], 2, b"", b"FILE"),
    (["replay", "--workers", "0", "-"], 2, b"", b"workers"),
    (["replay", "--workers", "17", "-"], 2, b"", b"workers"),
    (["replay", "--workers", "16", "-"], 0, b"", b""),
    (["replay", "--audit", "/dev/null"], 0, b"", b""),
    (["replay", "--audit", STREAM], 0, None, b""),
    (["replay", "no/such/file"], 3, b"", b"cannot be opened"),
    (["replay", "/"], 3, b"", b"could not be read"),
    (["replay", "/dev/zero"], 1, b"", b"line 1: TooLong"),
    (["eval", LONG], 0, b"99\n", b""),
    (["eval", LONG_LIST], 1, None, b"^"),
    (["eval", "1 +\n\ttrue"], 1, b"refused: NoOverload at 2\n", b"1 +\n  ^\n"),
    (["eval", "1 ==\n\t+"], 1, b"refused: Unexpected at 6\n", b"\t+\n\t^\n"),
    (["eval", "1/0"], 1, b"error: DivideByZero\n", b"divisor"),
    (["check"], 2, b"", b"FILE"),
    (["check", RULE], 0, RULE_LINES, b""),
    (["check", TOP / "examples/nothing.json"], 3, b"", b"opened"),
    (["check", TOP / "examples"], 3, b"", b"vap: "),
    (["check", "-"], 1, b"refused: BadJson\n", b"schema"),
    (["check", "--help"], 0, None, b""),
    (["image"], 2, b"", b"Usage"),
    (["image", "encode"], 2, b"", b"EXPR"),
    (["image", "encode", "-1"], 2, b"", b"goes after `--`"),
    (["image", "encode", "true"], 0, TRUE_IMAGE, b""),
    (["image", "encode", "1 +"], 1, b"refused: Unexpected at 3\n", b"1 +\n   ^\n"),
    (["image", "encode", "--help"], 0, None, b""),
    (["image", "decode"], 2, b"", b"FILE"),
    (["image", "decode", "-"], 1, b"refused: Truncated\n", b""),
    (["image", "decode", TOP / "examples/nothing.bin"], 3, b"", b"opened"),
    (["image", "decode", TOP / "examples"], 3, b"", b"vap: "),
    (["image", "decode", RULE], 1, b"refused: BadTable\n", b""),
    (["image", "decode", "--help"], 0, None, b""),
    (["report"], 2, b"", b"FILE"),
    (["report", STREAM], 0, ACCEPTED, b""),
    (["report", "--output", "text", STREAM], 0, ACCEPTED, b""),
    (["report", "--output", "json", STREAM], 0, report("true", FEW_PAIR + "," + OWNED_PAIR), b""),
    (["report", "--output", "yaml", STREAM], 2, b"", b"yaml"),
    (["report", "/dev/null"], 0, NONE, b""),
    (["report", "--output", "json", "-"], 0, report("true", ""), b""),
    (["report", "/dev/zero"], 1, b"", b"document: TooLong\n"),
    (["report", "no/such/file"], 3, b"", b"cannot be opened"),
    (["report", "/"], 3, b"", b"cannot be read"),
    (["report", "--help"], 0, None, b""),
    (["kinds"], 2, b"", b"FILE"),
    (["kinds", OPENAPI], 0, None, b""),
    (["kinds", RULE], 1, b"", b"`openapi`"),
    (["kinds", "-"], 1, b"", b"line 1, column 0: the text ends in the middle of a document\n"),
    (["kinds", "/dev/zero"], 1, b"", b"67108864"),
    (["kinds", "no/such/file"], 3, b"", b"cannot be opened"),
    (["kinds", "/"], 3, b"", b"cannot be read"),
    (["kinds", "--help"], 0, None, b""),
]

# Where the items of the rule's schema stand in its file, and a file of three properties, the last two without a type.
IN_ITEMS = b"schema.properties.spec.properties.items"
SECOND_FAULT = b"""{"schema": {"type": "object", "properties": {"c": {}, "b": {}, "a": {"type": "integer"}}}, "expression": "1"}"""

# What is on standard input of `check -`, the status, the standard output, and what standard error holds.
FILES = [
    (RULE.read_bytes(), 0, RULE_LINES, b""),
    (RULE.read_bytes().replace(b"abc", b"abcdefghijkl"), 1, b"estimate 904\nvalue false\ncharged 15\n", b""),
    (RULE.read_bytes().replace(b'"ab"', b"1"), 1, b"estimate 904\nrefused: WrongKind\n", b"object.spec.items[0]"),
    (RULE.read_bytes().replace(b"size(x)", b"length(x)"), 1, b"refused: NoOverload at 25\n", b" " * 25 + b"^\n"),
    (RULE.read_bytes().replace(b'"type": "string"', b'"type": "text"'), 1, b"refused: BadKeyword\n", IN_ITEMS + b".items.type: "),
    (RULE.read_bytes().replace(b"50", b'"50"'), 1, b"refused: BadKeyword\n", IN_ITEMS + b".items.maxLength: "),
    (RULE.read_bytes().replace(b'"maxLength": 50', b'"format": 5'), 1, b"refused: BadKeyword\n", IN_ITEMS + b".items.format: "),
    (RULE.read_bytes().replace(b'"type": "array",', b""), 1, b"refused: NoType\n", IN_ITEMS + b": "),
    (RULE.read_bytes().replace(b'"schema": {', b'"schema": {"$ref": "", '), 1, b"refused: BadKeyword\n", b"schema.$ref: "),
    (b'{"schema": [], "expression": "1"}', 1, b"refused: BadKeyword\n", b"schema: "),
    (SECOND_FAULT, 1, b"refused: NoType\n", b"schema.properties.b: "),
    (b" " * 1_048_576, 1, b"refused: BadJson\n", b"schema"),
    (b" " * 1_048_577, 1, b"refused: TooLong\n", b"1048576"),
]

EVENTS = [json.loads(line) for line in STREAM.read_bytes().splitlines() if json.loads(line).get("type")]
OBJECTS = [event["object"] for event in EVENTS]


def changed(old, new):
    """The stream of the examples with other bytes in place of these."""
    assert old in STREAM.read_bytes()
    return STREAM.read_bytes().replace(old, new)


def document(objects):
    """A List of objects as kubectl prints it."""
    return json.dumps({"apiVersion": "v1", "items": objects, "kind": "List", "metadata": {}}, indent=4).encode()


NO_FIELD = b"""policy few
  ex.io/v1 App: refused: NoField at 12
    spec.validations[0].expression
    object.spec.nope <= 5
                ^
    The schema has no field of this name here.
"""
NO_FIELD_PAIR = (
    '{"accepted":false,"estimate":null,"estimates":[],"expression":"object.spec.nope <= 5","fault":"NoField",'
    '"field":"spec.validations[0].expression","group":"ex.io","kind":"App","place":12,"policy":"few","sum":null,"version":"v1",'
    '"words":"The schema has no field of this name here."}'
)
NO_TRUTH = b"""policy few
  ex.io/v1 App: refused: NoOverload at 0
    spec.validations[0].expression
    object.spec.replicas
    ^
    A validation has to be a truth value.
"""
BEHIND = b"""policy owned
  ex.io/v1 App: refused: NoField at 17
    spec.auditAnnotations[0].valueExpression
    request.userInfo.who + 1
                     ^
    The schema has no field of this name here.
    spec.validations[0].expression: 3 of 10000000
"""
UNKNOWN_PARAMS = b"""policy few
  ex.io/v1 App: refused: UnknownParamKind
    spec.paramKind
    The kind of its params is not known.
"""
OPAQUE = b"""policy few
  kinds that are not known: refused: OpaqueUse at 0
    spec.validations[0].expression
    object.spec.replicas <= 5
    ^
    The schema does not say what stands here, so that it is only compared with null.
"""
NOT_KNOWN = b": no kind that it names is known, so that `object` is only compared with null\n"
PARAMS = b'"spec":{"paramKind":{"apiVersion":"ex.io/v1","kind":"Limits"},"matchConstraints"'
FEW_EVENT = json.dumps(EVENTS[1]).encode()

# What is on standard input of `report`, further words, the status, the standard output, and what standard error holds.
REPORTED = [
    (b"\n\r\n\n", [], 0, NONE, b""),
    (document(OBJECTS), [], 0, ACCEPTED, b""),
    (b"\n" + document(OBJECTS) + b"\n\n", [], 0, ACCEPTED, b""),
    (json.dumps(OBJECTS[0], indent=2).encode(), [], 0, NONE, b""),
    (json.dumps(EVENTS[0], indent=2).encode(), [], 0, NONE, b""),
    (changed(b"replicas <= 5", b"nope <= 5"), [], 1, NO_FIELD + OWNED + b"1 accepted, 1 refused\n", b""),
    (changed(b"replicas <= 5", b"nope <= 5"), ["--output", "json"], 1, report("false", NO_FIELD_PAIR + "," + OWNED_PAIR), b""),
    (changed(b"replicas <= 5", b"replicas"), [], 1, NO_TRUTH + OWNED + b"1 accepted, 1 refused\n", b""),
    (changed(b"userInfo.username", b"userInfo.who + 1"), [], 1, FEW + BEHIND + b"1 accepted, 1 refused\n", b""),
    (
        changed(b'"few"},"spec":{"matchConstraints"', b'"few"},' + PARAMS),
        [],
        1,
        UNKNOWN_PARAMS + OWNED + b"policy few: the kind of its params is not known: ex.io/v1 Limits\n1 accepted, 1 refused\n",
        b"",
    ),
    (FEW_EVENT, [], 1, OPAQUE + b"policy few: no binding names it\npolicy few" + NOT_KNOWN + b"0 accepted, 1 refused\n", b""),
    (json.dumps(EVENTS[2]).encode(), [], 0, b"binding few-denied: there is no policy few\n" + NONE, b""),
    (
        changed(b'"type":"integer"', b'"type":"whole"').splitlines(keepends=True)[0],
        [],
        0,
        b"kind ex.io/v1 App: its schema is refused, so that the kind is not known\n" + NONE,
        b"",
    ),
    (STREAM.read_bytes()[:-20], [], 1, b"", b"line 9: BadJson\ncolumn "),
    (STREAM.read_bytes()[:-20], [], 1, b"", b"the text ends in the middle of a document\n"),
    (document(OBJECTS)[:-20], [], 1, b"", b"the text ends in the middle of a document\n"),
    (b'{\n  "apiVersion" "v1"\n}\n', [], 1, b"", b"line 2: BadJson\ncolumn "),
    (b"{}\n", [], 1, b"", b"document: UnknownLine\n"),
    (STREAM.read_bytes() + b"{}\n", [], 1, b"", b"line 10: UnknownLine\n"),
    (STREAM.read_bytes() + b" " * 1_048_577, [], 1, b"", b"line 10: TooLong\n"),
    (b" " * 67_108_865, [], 1, b"", b"document: TooLong\n"),
    (changed(b'"resourceRules"', b'"rules"'), [], 1, b"", b'line 3: MissingField\n"ValidatingAdmissionPolicy" "few": '),
    (document([OBJECTS[0], {"apiVersion": "v1", "kind": "Pod"}]), [], 1, b"", b'document: BadObject\nitems[1], "Pod" "": '),
    (json.dumps({"apiVersion": "v1", "kind": "Pod"}, indent=1).encode(), [], 1, b"", b'document: BadObject\n"Pod" "": '),
]

TREE = {"group": "ex.io", "kind": "Tree", "version": "v1"}
NODE = {
    "type": "object",
    "description": "A node.",
    "properties": {
        "any": {"description": "Anything."},
        "kids": {"type": "array", "items": {"$ref": "#/components/schemas/Node"}},
        "planted": {"type": "string", "format": "date-time"},
        "size": {"format": "int-or-string", "oneOf": [{"type": "integer"}, {"type": "string"}]},
        "tags": {"type": "object", "additionalProperties": {"type": "string", "default": ""}},
        "weight": {"type": "number"},
    },
}
TREES = {
    "openapi": "3.0.0",
    "paths": {
        "/apis/ex.io/v1/trees/{name}": {"get": {"x-kubernetes-group-version-kind": TREE}},
        "/apis/ex.io/v1/watch/trees/{name}": {"get": {"x-kubernetes-group-version-kind": TREE}},
        "/apis/ex.io/v1/trees/{name}/status": {"get": {"x-kubernetes-group-version-kind": TREE}},
    },
    "components": {
        "schemas": {
            "Tree": {
                "type": "object",
                "x-kubernetes-group-version-kind": [TREE],
                "required": ["spec"],
                "properties": {
                    "metadata": {"$ref": "#/components/schemas/Meta"},
                    "spec": {"allOf": [{"$ref": "#/components/schemas/Node"}], "default": {}},
                },
            },
            "Node": NODE,
        }
    },
}
TREE_LINE = (
    b'{"object":{"apiVersion":"apiextensions.k8s.io/v1","kind":"CustomResourceDefinition","metadata":{"name":"trees.v1.ex.io"},'
    b'"spec":{"group":"ex.io","names":{"kind":"Tree","plural":"trees"},"scope":"Cluster","versions":[{"name":"v1","schema":'
    b'{"openAPIV3Schema":{"properties":{"metadata":{"type":"object"},"spec":{"properties":{"any":'
    b'{"x-kubernetes-preserve-unknown-fields":true},"kids":{"items":{"x-kubernetes-preserve-unknown-fields":true},"type":"array"},'
    b'"planted":{"format":"date-time","nullable":true,"type":"string"},"size":{"x-kubernetes-int-or-string":true},"tags":'
    b'{"additionalProperties":{"type":"string"},"type":"object"},"weight":{"type":"number"}},"type":"object"}},"required":["spec"],'
    b'"type":"object"}}}]}},"type":"ADDED"}\n'
)


# The same document, of which another kind is served.
BUSHES = {path: {"get": {"x-kubernetes-group-version-kind": {**TREE, "kind": "Bush"}}} for path in TREES["paths"]}


def trees(old="", new="", **members):
    """The document of trees, with another text in place of one."""
    text = json.dumps({**TREES, **members}, indent=2)
    assert old in text
    return text.replace(old, new).encode()


# What is on standard input of `kinds -`, the status, the standard output, and what standard error holds.
DESCRIBED = [
    (trees(), 0, TREE_LINE, b""),
    (trees("schemas/Node", "schemas/Leaf"), 1, b"", b'components.schemas.Tree: there is no schema "#/components/schemas/Leaf"'),
    (trees(paths=BUSHES), 1, b"", b'"ex.io/v1 Bush"'),
    (trees('"openapi": "3.0.0"', '"swagger": "2.0"'), 1, b"", b"`openapi`"),
    (trees('"paths"', '"ways"'), 1, b"", b"`paths`"),
    (trees('"schemas": {', '"forms": {'), 1, b"", b"`components.schemas`"),
    (trees()[:-30], 1, b"", b"the text ends in the middle of a document\n"),
    (trees("/{name}", ""), 0, b"", b"{name}"),
]

# Expressions that nest as deep as they may, with what they come to, run in a stack of 4 MB.
SMALL_STACK = 4 << 20
DEEP = [
    ("!" * 98 + "true", b"true\n"),
    ("(" * 95 + "1" + ")" * 95, b"1\n"),
    ("[1].all(x, " * 30 + "true" + ")" * 30, b"true\n"),
    ("[" * 97 + "]" * 97 + ".size()", b"1\n"),
]
DEEP_STREAM = STREAM.read_bytes().replace(b"object.spec.replicas <= 5", b"!" * 90 + b"(object.spec.replicas <= 5)")

# How many reviews a stream has whose policy changes, and before which of them its limit becomes what. Between two changes are some
# reads of the input, so that some reviews are judged before their turn and some are not.
CHANGING = 4_500
LIMITS = {2_000: 2, 3_900: 7}


def unmet(words, status, out, said):
    """Why a command line does not end as it should, or None."""
    ran = subprocess.run([PROGRAM, *words], stdin=subprocess.DEVNULL, capture_output=True, timeout=60)
    is_told = said in ran.stderr if said else not ran.stderr
    if ran.returncode == status and is_told and (ran.stdout == out if out is not None else ran.stdout):
        return None
    return f"{words}: status {ran.returncode}, {ran.stdout!r}, {ran.stderr!r}; wanted {status}, {out!r}, {said!r}"


def unmet_from_input(words, given, status, out, said):
    """Why a command does not end as it should on these bytes, or None."""
    ran = subprocess.run([PROGRAM, *words, "-"], input=given, capture_output=True, timeout=60)
    is_told = said in ran.stderr if said else not ran.stderr
    if (ran.returncode, ran.stdout) == (status, out) and is_told:
        return None
    told = f"status {ran.returncode}, {ran.stdout!r}, {ran.stderr!r}; wanted {status}, {out!r}, {said!r}"
    return f"{words}, {given[:200]}: {told}"


def in_small_stack(words, given):
    """What a run evaluates to whose stack has 4 MB."""
    limit = (SMALL_STACK, SMALL_STACK)
    shorten = lambda: resource.setrlimit(resource.RLIMIT_STACK, limit)
    return subprocess.run([PROGRAM, *words], input=given, capture_output=True, timeout=60, preexec_fn=shorten)


def unmet_where_deep(expression, out):
    """Why a deep expression does not come to this in a small stack, or None."""
    ran = in_small_stack(["eval", "--", expression], b"")
    if (ran.returncode, ran.stdout) == (0, out):
        return None
    return f"{expression} in a small stack: status {ran.returncode}, {ran.stdout!r}"


def unmet_where_a_policy_is_deep(workers):
    """Why a stream with a deep policy is not answered in a small stack by so many workers, or None. The policy denies one review of
    four."""
    ran = in_small_stack(["replay", "--workers", str(workers), "-"], DEEP_STREAM)
    denied = [json.loads(line)["uid"] for line in ran.stdout.splitlines() if not json.loads(line)["allowed"]]
    if (ran.returncode, denied) == (0, ["many"]):
        return None
    return f"a deep policy in a small stack, {workers} workers: status {ran.returncode}, denied {denied}"


def changing_stream():
    """A stream whose policy changes, and whether each of its reviews is allowed."""
    definition, _, policy, binding, review = STREAM.read_text().splitlines()[:5]
    lines, allowed, limit = [definition, policy, binding], [], 5
    for number in range(CHANGING):
        if number in LIMITS:
            limit = LIMITS[number]
            lines.append(policy.replace("ADDED", "MODIFIED").replace("replicas <= 5", f"replicas <= {limit}"))
        lines.append(review.replace('"replicas":6', f'"replicas":{number % 10}'))
        allowed.append(number % 10 <= limit)
    return "\n".join(lines).encode(), allowed


def unmet_where_a_policy_changes(workers):
    """Why so many workers do not answer each review of such a stream by the policy that is before it, or None."""
    stream, allowed = changing_stream()
    ran = subprocess.run([PROGRAM, "replay", "--workers", str(workers), "-"], input=stream, capture_output=True, timeout=60)
    answers = [json.loads(line)["allowed"] for line in ran.stdout.splitlines()]
    if (ran.returncode, answers) == (0, allowed):
        return None
    wrong = [number for number, pair in enumerate(zip(answers, allowed)) if pair[0] != pair[1]][:3]
    return f"a policy that changes, {workers} workers: status {ran.returncode}, {len(answers)} answers, wrong {wrong}, {ran.stderr!r}"


def unmet_stream(stream, out, said):
    """Why a stream is not refused so, with these answers before it, or None."""
    ran = subprocess.run([PROGRAM, "replay", "-"], input=stream, capture_output=True, timeout=60)
    if (ran.returncode, ran.stdout, ran.stderr) == (1, out, said):
        return None
    return f"{stream[-200:]}: status {ran.returncode}, {ran.stdout!r}, {ran.stderr!r}; wanted 1, {out!r}, {said!r}"


def broken_streams():
    """Streams with one line that is cut at some byte, is no UTF-8 or nests too deep, each with its number and with what is before it."""
    lines = STREAM.read_bytes().splitlines(keepends=True)
    for number, line in enumerate(lines, 1):
        before, line, behind = b"".join(lines[: number - 1]), line.rstrip(), b"\n" + b"".join(lines[number:])
        broken = [line[:cut] for cut in range(1, len(line))]
        broken += [line[:20] + b"\xff" + line[20:], b"[" * 128 + b"]" * 128, b"\xff"]
        yield from ((number, before, before + line + behind) for line in broken)


def unmet_where_broken():
    """Why a stream with a line that is no JSON is not refused there, each, or None. The answers before that line stay, and there are no
    others."""
    answers = {}
    for _, before, _ in broken_streams():
        if before not in answers:
            answers[before] = subprocess.run([PROGRAM, "replay", "-"], input=before, capture_output=True, timeout=60).stdout
    rows = [(stream, answers[before], b"line %d: BadJson\n" % number) for number, before, stream in broken_streams()]
    with ThreadPoolExecutor(os.cpu_count()) as pool:
        return list(pool.map(lambda row: unmet_stream(*row), rows))


def unmet_when_full(words, stream, status):
    """Why the program does not end with that status where a stream is full, or None."""
    with open("/dev/full", "wb") as full:
        streams = {"stdout": subprocess.PIPE, "stderr": subprocess.PIPE, stream: full}
        ran = subprocess.run([PROGRAM, *words], stdin=subprocess.DEVNULL, timeout=60, **streams)
    return None if ran.returncode == status else f"{words} with a full {stream}: status {ran.returncode}, wanted {status}"


HEAD = "POLICY  BINDING       REVIEWS  DENIED  WARNED  AUDITED  ERRORS  GREATEST  MEAN  ESTIMATE\n"
FEW_ROW = "few     few-denied          3       1       0        0       0         4     4         4\n"
OWNED_ROW = "owned   owned-warned        1       0       1        1       0         6     6         6\n"
TIMES = r"4 reviews; microseconds of one: least \d+, median \d+, 99 of 100 \d+, most \d+\n"
NO_REPLICAS = changed(b'"spec":{"replicas":6,"owner":"eve"}', b'"spec":{"owner":"eve"}')
IGNORED = NO_REPLICAS.replace(b'"few"},"spec":{', b'"few"},"spec":{"failurePolicy":"Ignore",')
WITH_ERROR = FEW_ROW.replace("  0         4", "  1         4")

# Streams with their summaries.
SUMMARIES = [
    (STREAM.read_bytes(), HEAD + FEW_ROW + OWNED_ROW),
    (NO_REPLICAS, HEAD + WITH_ERROR + OWNED_ROW),
    (IGNORED, HEAD + WITH_ERROR.replace("3       1", "3       0") + OWNED_ROW),
]


def unmet_summary(stream, table):
    """Why a replay's summary is not this table, or why it answers otherwise with one, or None."""
    plain, told = [subprocess.run([PROGRAM, "replay", *words, "-"], input=stream, capture_output=True, timeout=60) for words in ([], ["--summary"])]
    is_told = re.fullmatch(re.escape(table) + TIMES, told.stderr.decode())
    if is_told and (plain.returncode, plain.stdout, plain.stderr) == (told.returncode, told.stdout, b""):
        return None
    return f"replay --summary: status {told.returncode}, {told.stdout!r}, {told.stderr.decode()}; wanted {table}"


def unmet_on_a_terminal():
    """Why a replay does not show on a terminal how far it is, or answers otherwise there, or None."""
    plain = subprocess.run([PROGRAM, "replay", STREAM], capture_output=True, timeout=60)
    terminal, side = os.openpty()
    ran = subprocess.run([PROGRAM, "replay", STREAM], stdout=subprocess.PIPE, stderr=side, timeout=60)
    os.close(side)
    shown = os.read(terminal, 65_536).decode()
    os.close(terminal)
    if re.search(r"\r\d+ lines, \d+ reviews a second, revision \d+", shown) and ran.stdout == plain.stdout and not plain.stderr:
        return None
    return f"replay on a terminal: {ran.stdout!r}, {shown!r}"


def unmet_when_closed(words):
    """Why a command whose output nobody reads does not end with the status 3, or None."""
    reader, writer = os.pipe()
    os.close(reader)
    with open(writer, "wb") as closed:
        ran = subprocess.run([PROGRAM, *words], stdin=subprocess.DEVNULL, stdout=closed, stderr=subprocess.PIPE, timeout=60)
    return None if ran.returncode == 3 else f"{words} with a closed pipe: status {ran.returncode}, {ran.stderr!r}"


def main():
    whys = [unmet(*row) for row in ROWS] + [unmet_from_input(["check"], *row) for row in FILES]
    whys += [unmet_from_input(["report", *words], given, *row) for given, words, *row in REPORTED]
    whys += [unmet_from_input(["kinds"], *row) for row in DESCRIBED]
    # What cannot be written shows in the status; a message that cannot be written leaves it.
    whys += [
        unmet_when_full(["eval", "1"], "stdout", 3),
        unmet_when_full(["eval", "1 +"], "stdout", 3),
        unmet_when_full(["check", RULE], "stdout", 3),
        unmet_when_full(["image", "encode", "true"], "stdout", 3),
        unmet_when_full(["image", "decode", RULE], "stdout", 3),
        unmet_when_full(["eval", "1 +"], "stderr", 1),
        unmet_when_full(["--help"], "stdout", 3),
        unmet_when_full(["replay", STREAM], "stdout", 3),
        unmet_when_full(["report", STREAM], "stdout", 3),
        unmet_when_full(["report", RULE], "stderr", 1),
        unmet_when_full(["kinds", OPENAPI], "stdout", 3),
        unmet_when_full(["kinds", RULE], "stderr", 1),
        unmet_when_full(["nothing"], "stderr", 2),
        unmet_when_full(["eval", "-1"], "stderr", 2),
    ]
    whys += [unmet_summary(*row) for row in SUMMARIES] + [unmet_on_a_terminal()]
    whys += [unmet_when_closed(words) for words in (["report", STREAM], ["kinds", OPENAPI])]
    whys += [unmet_where_deep(*row) for row in DEEP] + [unmet_where_a_policy_is_deep(workers) for workers in (1, 16)]
    whys += [unmet_where_a_policy_changes(workers) for workers in (1, 3, 16)]
    whys += unmet_where_broken()
    return ended(whys)


sys.exit(main())
