"""Streams for `vap replay`: a kind, events, and how they are written."""
import json

GROUP = "admissionregistration.k8s.io/v1"
SPEC = {
    "replicas": {"type": "integer"},
    "owner": {"type": "string", "maxLength": 50},
    "ports": {"type": "array", "maxItems": 20, "items": {"type": "integer"}},
}
NUMBER = {"most": {"type": "integer"}}


def added(value):
    """The event of an object that is new."""
    return {"type": "ADDED", "object": value}


def kind(name, plural, fields):
    """The definition of a kind whose objects have a spec of these fields."""
    schema = {"type": "object", "properties": {"spec": {"type": "object", "properties": fields}}}
    versions = [{"name": "v1", "schema": {"openAPIV3Schema": schema}}]
    spec = {"group": "ex.io", "names": {"kind": name, "plural": plural}, "scope": "Namespaced", "versions": versions}
    metadata = {"name": f"{plural}.ex.io"}
    return {"apiVersion": "apiextensions.k8s.io/v1", "kind": "CustomResourceDefinition", "metadata": metadata, "spec": spec}


def definition():
    """The definition of the kind that reviews are about."""
    return kind("App", "apps", SPEC)


def write(path, values):
    """Writes values to a file, one a line."""
    with open(path, "w") as file:
        for value in values:
            file.write(json.dumps(value, separators=(",", ":")) + "\n")
