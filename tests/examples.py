#!/usr/bin/env python3
"""Runs the examples of docs/EXAMPLES.md: each policy over the kinds that `vap kinds` writes of examples/openapi.json, with a review
that passes and one that does not, and the report on it; and the policies that are refused, as they are and over limited schemas.

The kinds are compared with those of an expansion that is written here; the answers with those that stand beside the policies. The last
line is 'N passed, M failed'.
"""
import json
import subprocess
import sys
from pathlib import Path

from outcome import ended

TOP = Path(__file__).resolve().parent.parent
PROGRAM = TOP / "crates/vap/out/vap"
EXAMPLES = TOP / "examples"
PAGE = TOP / "docs/EXAMPLES.md"
OPEN = {"x-kubernetes-preserve-unknown-fields": True}
# What the members of an answer tell of the run and not of the policy.
OF_THE_RUN = ("charged", "revision")
# The texts of reports, worked out by hand.
REPORTS = {
    "no-privileged-containers": """policy no-privileged-containers
  v1 Pod: accepted, 14680049 of 100000000
    spec.validations[0].expression: 7340022 of 10000000
    spec.validations[1].expression: 7340027 of 10000000
1 accepted, 0 refused
""",
    "replica-limit": """policy replica-limit
  apps/v1 Deployment: accepted, 314590 of 100000000
    spec.validations[0].expression: 104866 of 10000000
    spec.validations[0].messageExpression: 209724 of 10000000
1 accepted, 0 refused
""",
}
REFUSED = {
    "over-budget": """policy no-host-ports
  v1 Pod: refused: OverBudget 1099511627776
    spec.validations[0].expression
    It may charge more than 10000000: set maxItems, maxProperties or maxLength in the schema, or nest fewer loops.
policy no-host-ports: no binding names it
0 accepted, 1 refused
""",
    "opaque-use": """policy always-available
  apps/v1 Deployment: refused: OpaqueUse at 35
    spec.validations[0].expression
    object.spec.strategy.rollingUpdate.maxUnavailable == 0
                                       ^
    The schema does not say what stands here, so that it is only compared with null.
policy always-available: no binding names it
0 accepted, 1 refused
""",
}
LIMITED = """policy no-host-ports
  v1 Pod: accepted, 40804 of 100000000
    spec.validations[0].expression: 40804 of 10000000
policy no-host-ports: no binding names it
1 accepted, 0 refused
"""


def read(file):
    return json.loads(file.read_text(encoding="utf-8"))


def run(words, given):
    """The status and what is written of a run."""
    ran = subprocess.run([PROGRAM, *words], input=given, capture_output=True, timeout=60)
    return ran.returncode, ran.stdout.decode(), ran.stderr.decode()


def expanded(schemas, schema, within=()):
    """A schema of the document as a definition has it."""
    inside = lambda inner: expanded(schemas, inner, within)
    if "$ref" in schema:
        name = schema["$ref"].rpartition("/")[2]
        return OPEN if name in within else expanded(schemas, schemas[name], (*within, name))
    if len(schema.get("allOf", [])) == 1:
        return inside(schema["allOf"][0])
    if schema.get("format") == "int-or-string":
        return {"x-kubernetes-int-or-string": True}
    kind = schema.get("type")
    if kind == "array":
        kept = {key: schema[key] for key in ("maxItems", "x-kubernetes-list-type") if key in schema}
        return {"type": kind, "items": inside(schema["items"]), **kept}
    if kind == "object" and schema.get("properties"):
        kept = {"required": schema["required"]} if "required" in schema else {}
        return {"type": kind, "properties": {name: inside(it) for name, it in schema["properties"].items()}, **kept}
    if kind == "object" and "additionalProperties" in schema:
        return {"type": kind, "additionalProperties": inside(schema["additionalProperties"])}
    if kind == "string" and schema.get("format") == "date-time":
        return {"type": kind, "format": "date-time", "nullable": True}
    return {"type": kind} if kind in ("boolean", "integer", "number", "string") else OPEN


def definition(schemas, name, group, version, kind, plural, scope):
    """The event that defines a kind."""
    schema = expanded(schemas, schemas[name], (name,))
    schema["properties"]["metadata"] = {"type": "object"}
    spec = {
        "group": group,
        "names": {"kind": kind, "plural": plural},
        "scope": scope,
        "versions": [{"name": version, "schema": {"openAPIV3Schema": schema}}],
    }
    metadata = {"name": f"{plural}.{version}" + (f".{group}" if group else "")}
    described = {"apiVersion": "apiextensions.k8s.io/v1", "kind": "CustomResourceDefinition", "metadata": metadata, "spec": spec}
    return {"type": "ADDED", "object": described}


def definitions():
    schemas = read(EXAMPLES / "openapi.json")["components"]["schemas"]
    priority = ("scheduling.k8s.io", "v1", "PriorityClass", "priorityclasses", "Cluster")
    return [
        definition(schemas, "io.k8s.api.core.v1.Pod", "", "v1", "Pod", "pods", "Namespaced"),
        definition(schemas, "io.k8s.api.apps.v1.Deployment", "apps", "v1", "Deployment", "deployments", "Namespaced"),
        definition(schemas, "io.k8s.api.scheduling.v1.PriorityClass", *priority),
    ]


def compact(document):
    return json.dumps(document, separators=(",", ":"), sort_keys=True) + "\n"


def added(policies):
    """The events that add the objects of a List."""
    return "".join(compact({"type": "ADDED", "object": item}) for item in read(policies)["items"])


def limited(lines):
    """Definitions in which each list has at most 100 items."""

    def limit(schema):
        if isinstance(schema, dict):
            if schema.get("type") == "array":
                schema.setdefault("maxItems", 100)
            for inner in schema.values():
                limit(inner)
        elif isinstance(schema, list):
            for inner in schema:
                limit(inner)
        return schema

    return "".join(compact(limit(json.loads(line))) for line in lines.splitlines())


def without(answer):
    return {key: value for key, value in answer.items() if key not in OF_THE_RUN}


def unmet(what, found, wanted):
    """Why what is found is not what is wanted, or None."""
    return None if found == wanted else f"{what}: {found!r}; wanted {wanted!r}"


def unmet_example(folder, kinds):
    """Why an example does not hold, each reason or None."""
    lines = kinds + added(folder / "policy.json")
    reviews = "".join(compact(read(folder / name)) for name in ("passes.json", "fails.json"))
    status, out, said = run(["replay", "-"], (lines + reviews).encode())
    answers = [without(json.loads(line)) for line in out.splitlines()]
    yield unmet(folder.name, (status, answers, said), (0, read(folder / "answers.json"), ""))
    status, out, said = run(["report", "-"], lines.encode())
    yield unmet(f"{folder.name}, report", (status, said), (0, ""))
    if folder.name in REPORTS:
        yield unmet(f"{folder.name}, report", out, REPORTS[folder.name])


def unmet_on_the_page():
    """Which expression or message is not on the page as it is in the files, each, or None."""
    page = PAGE.read_text(encoding="utf-8")
    for folder in sorted((EXAMPLES / "policies").iterdir()):
        texts = [f"examples/policies/{folder.name}"]
        for item in read(folder / "policy.json")["items"]:
            spec = item.get("spec", {})
            texts += [it[key] for it in spec.get("validations", []) for key in ("expression", "messageExpression") if key in it]
            texts += [it["expression"] for it in spec.get("matchConditions", [])]
            texts += [it["valueExpression"] for it in spec.get("auditAnnotations", [])]
        texts += [it["message"] for it in read(folder / "answers.json")]
        yield from (f"docs/EXAMPLES.md has no {text!r}" if text not in page else None for text in texts)
    for text in [*REPORTS.values(), *REFUSED.values(), LIMITED]:
        shown = "".join(f"    {line}\n" for line in text.splitlines())
        yield None if shown in page else f"docs/EXAMPLES.md does not show {text!r}"


def all_unmet():
    status, kinds, said = run(["kinds", EXAMPLES / "openapi.json"], b"")
    yield unmet("kinds", (status, [json.loads(line) for line in kinds.splitlines()], said), (0, definitions(), ""))
    for folder in sorted((EXAMPLES / "policies").iterdir()):
        yield from unmet_example(folder, kinds)
    for name, wanted in REFUSED.items():
        lines = kinds + added(EXAMPLES / f"refused/{name}.json")
        yield unmet(name, run(["report", "-"], lines.encode()), (1, wanted, ""))
    lines = limited(kinds) + added(EXAMPLES / "refused/over-budget.json")
    yield unmet("over-budget, limited", run(["report", "-"], lines.encode()), (0, LIMITED, ""))
    yield from unmet_on_the_page()


def main():
    return ended(list(all_unmet()))


if __name__ == "__main__":
    sys.exit(main())
