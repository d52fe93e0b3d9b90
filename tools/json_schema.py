"""Checks JSON values against the part of JSON Schema (2020-12) that docs/openapi.json uses.

A keyword that is not listed here is a fault of the schema, so nothing in a schema goes unread. Two things are stricter than the standard, as the
program's formats are: a number with a fraction or an exponent is no integer (`1.0`), and equal values have the same type (`1` is not `true`).
"""
import json
import re

ANNOTATIONS = {"description", "title", "default", "discriminator"}
TYPES = {
    "null": lambda v: v is None,
    "boolean": lambda v: isinstance(v, bool),
    "integer": lambda v: isinstance(v, int) and not isinstance(v, bool),
    "number": lambda v: isinstance(v, (int, float)) and not isinstance(v, bool),
    "string": lambda v: isinstance(v, str),
    "array": lambda v: isinstance(v, list),
    "object": lambda v: isinstance(v, dict),
}


class BadSchema(Exception):
    """The schema itself is wrong."""


def parse(text):
    """The JSON value of a text, in which no member is repeated."""

    def members(pairs):
        names = [name for name, _ in pairs]
        for name in names:
            if names.count(name) > 1:
                raise ValueError(f"the member {name!r} is repeated")
        return dict(pairs)

    return json.loads(text, object_pairs_hook=members)


def same(one, other):
    if not isinstance(one, (list, dict)):
        return type(one) is type(other) and one == other
    return json.dumps(one, sort_keys=True) == json.dumps(other, sort_keys=True)


def short(value):
    text = json.dumps(value)
    return text if len(text) <= 80 else text[:77] + "..."


def resolve(root, pointer):
    """What a `$ref` within the document stands for."""
    if not pointer.startswith("#/"):
        raise BadSchema(f"{pointer} does not point into the document")
    at = root
    for part in pointer[2:].split("/"):
        part = part.replace("~1", "/").replace("~0", "~")
        if not isinstance(at, dict) or part not in at:
            raise BadSchema(f"{pointer} points at nothing")
        at = at[part]
    return at


def fault_of(root, schema, value, where="value"):
    """Why the value is not valid, in words, or None where it is. `root` is the document into which references point."""
    if schema is True:
        return None
    if schema is False:
        return f"{where} is one too many"
    for keyword, argument in schema.items():
        if keyword in ANNOTATIONS:
            continue
        if keyword not in KEYWORDS:
            raise BadSchema(f"the keyword {keyword!r} is not known")
        fault = KEYWORDS[keyword](root, schema, argument, value, where)
        if fault:
            return fault
    return None


def ref(root, schema, argument, value, where):
    return fault_of(root, resolve(root, argument), value, where)


def type_(root, schema, argument, value, where):
    names = argument if isinstance(argument, list) else [argument]
    if not any(TYPES[name](value) for name in names):
        return f"{where} is {short(value)} and no {' or '.join(names)}"
    return None


def const(root, schema, argument, value, where):
    return None if same(value, argument) else f"{where} is {short(value)} and not {short(argument)}"


def enum(root, schema, argument, value, where):
    return None if any(same(value, each) for each in argument) else f"{where} is {short(value)} and none of {short(argument)}"


def one_of(root, schema, argument, value, where):
    faults = [fault_of(root, each, value, where) for each in argument]
    valid = faults.count(None)
    if valid == 1:
        return None
    if valid > 1:
        return f"{where} is valid by {valid} of the schemas that exclude each other"
    return branch_fault(root, schema, argument, value, where, faults)


def branch_fault(root, schema, branches, value, where, faults):
    """The fault in the branch that the discriminator names, which tells more than that no branch fits."""
    told = schema.get("discriminator")
    if told and isinstance(value, dict):
        word = value.get(told["propertyName"])
        pointer = told["mapping"].get(word) if isinstance(word, str) else None
        for branch, fault in zip(branches, faults):
            if branch.get("$ref") == pointer:
                return fault
    return f"{where} is {short(value)} and valid by none of {len(branches)} schemas" if len(faults) != 1 else faults[0]


def any_of(root, schema, argument, value, where):
    faults = [fault_of(root, each, value, where) for each in argument]
    return None if None in faults else branch_fault(root, schema, argument, value, where, faults)


def not_(root, schema, argument, value, where):
    return None if fault_of(root, argument, value, where) else f"{where} is {short(value)}, which is excluded"


def required(root, schema, argument, value, where):
    if isinstance(value, dict):
        for name in argument:
            if name not in value:
                return f"{where} has no member {name!r}"
    return None


def properties(root, schema, argument, value, where):
    if isinstance(value, dict):
        for name, each in argument.items():
            fault = name in value and fault_of(root, each, value[name], f"{where}.{name}")
            if fault:
                return fault
    return None


def additional(root, schema, argument, value, where):
    if isinstance(value, dict):
        for name in value:
            if name not in schema.get("properties", {}):
                fault = fault_of(root, argument, value[name], f"{where}.{name}")
                if fault:
                    return fault
    return None


def names(root, schema, argument, value, where):
    if isinstance(value, dict):
        for name in value:
            fault = fault_of(root, argument, name, f"the name of {where}.{name}")
            if fault:
                return fault
    return None


def items(root, schema, argument, value, where):
    if isinstance(value, list):
        before = len(schema.get("prefixItems", []))
        for at in range(before, len(value)):
            fault = fault_of(root, argument, value[at], f"{where}[{at}]")
            if fault:
                return fault
    return None


def prefix_items(root, schema, argument, value, where):
    if isinstance(value, list):
        for at, (each, item) in enumerate(zip(argument, value)):
            fault = fault_of(root, each, item, f"{where}[{at}]")
            if fault:
                return fault
    return None


def unique(root, schema, argument, value, where):
    if argument and isinstance(value, list):
        texts = [json.dumps(item, sort_keys=True) for item in value]
        if len(set(texts)) < len(texts):
            return f"{where} has an item twice"
    return None


def pattern(root, schema, argument, value, where):
    if not isinstance(value, str):
        return None
    # `$` is the end of the text, as in the patterns of ECMA, and not the place before a last LF.
    ended = argument[:-1] + r"\Z" if argument.endswith("$") else argument
    return None if re.search(ended, value) else f"{where} is {short(value)}, which does not match {argument}"


def bound(kind, measure, fits, words):
    def check(root, schema, argument, value, where):
        if not TYPES[kind](value) or fits(measure(value), argument):
            return None
        return f"{where} is {short(value)}, {words} {argument}"

    return check


def least(measured, argument):
    return measured >= argument


def most(measured, argument):
    return measured <= argument


KEYWORDS = {
    "$ref": ref,
    "type": type_,
    "const": const,
    "enum": enum,
    "oneOf": one_of,
    "anyOf": any_of,
    "not": not_,
    "required": required,
    "properties": properties,
    "additionalProperties": additional,
    "propertyNames": names,
    "items": items,
    "prefixItems": prefix_items,
    "uniqueItems": unique,
    "pattern": pattern,
    "minimum": bound("integer", lambda v: v, least, "under"),
    "maximum": bound("integer", lambda v: v, most, "over"),
    "minLength": bound("string", len, least, "shorter than"),
    "maxLength": bound("string", len, most, "longer than"),
    "minItems": bound("array", len, least, "of fewer items than"),
    "maxItems": bound("array", len, most, "of more items than"),
    "maxProperties": bound("object", len, most, "of more members than"),
}


class Description:
    """An OpenAPI description: the schemas of its requests and responses."""

    def __init__(self, doc):
        self.doc = doc

    @classmethod
    def read(cls, path):
        with open(path, encoding="utf-8") as file:
            return cls(parse(file.read()))

    def resolved(self, value):
        return resolve(self.doc, value["$ref"]) if isinstance(value, dict) and "$ref" in value else value

    def named(self, name):
        return resolve(self.doc, f"#/components/schemas/{name}")

    def fault(self, schema, value, where="value"):
        return fault_of(self.doc, schema, value, where)

    def operations(self):
        """The operations, each as its path, its method in capitals, and what the description says of it."""
        for path, methods in self.doc["paths"].items():
            for method, operation in methods.items():
                yield path, method.upper(), operation

    def operation_of(self, method, target):
        """The operation that answers the method at the target of a request, with the path as the description has it, or None."""
        parts = target.split("?")[0].split("/")
        for path, known, operation in self.operations():
            wanted = path.split("/")
            if method == known and len(parts) == len(wanted) and all(w.startswith("{") or w == p for w, p in zip(wanted, parts)):
                return path, operation
        return None

    def response(self, operation, status):
        """The response of an operation with a status, or None."""
        found = operation["responses"].get(str(status))
        return found and self.resolved(found)

    def body_schema(self, content):
        return content["content"]["application/json"]["schema"]

    def reply_fault(self, method, target, status, value):
        """Why a reply is not one that the description has for such a request, or None where it is."""
        found = self.operation_of(method, target)
        if found:
            response = self.response(found[1], status)
        else:
            # Another method on a path that is described, or a path without a route.
            named = {404: "NotFound", 405: "GetAlone", 411: "LengthRequired", 413: "ContentTooLarge", 400: "BadHead"}
            named.update({431: "HeaderFieldsTooLarge", 500: "InternalServerError", 501: "NotImplemented", 503: "ServiceUnavailable"})
            response = status in named and resolve(self.doc, f"#/components/responses/{named[status]}")
        if not response:
            return f"{method} {target} has no status {status}"
        return self.fault(self.body_schema(response), value, "the reply")
