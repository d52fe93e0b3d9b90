"""Schemas, and networks as scripts and their replies tell of them: for the tools that convert and draw."""
import json

BUILT_IN = {
    "schema": 0, "attributes": [], "categories": [], "configs": [], "tiers": [],
    "kinds": [["joint", "junction", 1, 1, "", "", [], False], ["pipe", "line", 1, 1, "end", "", [], False]],
    "rules": [["je", "joint", 0, "pipe"]],
}


class Fault(Exception):
    """What is wrong with a file, for the person who gave it."""


def load(path):
    """A file of JSON."""
    try:
        with open(path, encoding="utf-8") as file:
            return json.load(file)
    except OSError as fault:
        raise Fault(f"{path}: {fault.strerror}") from fault
    except ValueError as fault:
        raise Fault(f"{path} is no JSON: {fault}") from fault


def compact(value):
    return json.dumps(value, separators=(",", ":"))


def members(what, value, needed, known):
    """Faults an object that lacks a member or has one that nobody knows."""
    if not isinstance(value, dict):
        raise Fault(f"{what} must be an object")
    for name in sorted(needed - set(value)):
        raise Fault(f"{what} has no member {name!r}")
    for name in sorted(set(value) - known - {"comment"}):
        raise Fault(f"{what} has an unknown member {name!r}; known are {', '.join(sorted(known))}")


class Kind:
    def __init__(self, form):
        self.name, self.sort, _, _, self.policy, self.config, _, self.controller = form
        self.has_terminals = self.sort in ("device", "junction")


class Schema:
    """The kinds of a schema by name, in its order."""

    def __init__(self, value):
        if not isinstance(value, dict) or "schema" not in value:
            raise Fault("the schema must be an object with a member 'schema'")
        self.value = value
        full = BUILT_IN if value["schema"] == 0 else value
        try:
            self.kinds = {form[0]: Kind(form) for form in full["kinds"]}
            self.configs, self.attributes = {form[0]: form for form in full["configs"]}, full["attributes"]
            self.tiers = [form[0] for form in full["tiers"]]
        except (KeyError, TypeError, ValueError, IndexError) as fault:
            raise Fault(f"the schema has another form than docs/FORMATS.md says: {fault!r}") from fault

    def terminals(self, kind):
        if not kind.has_terminals:
            return 0
        return len(self.configs[kind.config][2]) if kind.config else 1

    def paths(self, kind):
        return [path[0] for path in self.configs[kind.config][3]] if kind.config else []


class Feature:
    def __init__(self, insert, schema):
        self.kind, self.points = schema.kinds[insert["kind"]], insert["points"]
        self.attrs, self.note, self.flow = insert.get("attrs", {}), insert.get("note", ""), insert.get("flow", "both")
        self.ends = insert.get("ends", [0, 0])
        self.path = (schema.paths(self.kind) or [""])[0]


class Network:
    """The features after a script, and what its last replies of each sort say."""

    def __init__(self, script, replies):
        lines = [(number, line) for number, line in enumerate(script.splitlines(), 1) if line.strip(" \t\r")]
        told = replies.splitlines()
        if not lines:
            raise Fault("the script is empty")
        self.schema = Schema(parse("the script", *lines[0]))
        self.features, self.controllers = {}, {}
        self.dirty, self.errors, self.trace, self.asked = [], [], None, None
        self.path, self.ends, self.diagram, self.drawn = None, [], None, None
        if len(told) != len(lines) - 1:
            raise Fault(f"the script has {len(lines) - 1} requests, and there are {len(told)} replies")
        for (number, line), reply in zip(lines[1:], enumerate(told, 1)):
            answer = parse("the replies", *reply)
            if "ok" in answer:
                self.take(parse("the script", number, line), answer)

    def take(self, request, reply):
        """A request that was accepted, with its reply."""
        if request.get("do") == "batch":
            for edit, id in zip(request["edits"], reply["ids"]):
                self.edit(edit, id)
        elif "do" in request and "id" in reply:
            self.edit(request, reply["id"])
        elif request.get("ask") == "dirty":
            self.dirty = reply["areas"]
        elif request.get("ask") == "errors":
            self.errors = reply["errors"]
        elif request.get("ask") == "trace":
            self.trace, self.asked = reply, request
        elif request.get("ask") == "path":
            self.path, self.ends = reply, [request["from"], request["to"]]
        elif request.get("ask") == "diagram":
            self.diagram, self.drawn = reply, request

    def edit(self, edit, id):
        word = edit["do"]
        if word == "insert":
            self.features[id] = Feature(edit, self.schema)
        elif word == "delete":
            del self.features[id]
        elif word == "reshape":
            self.features[id].points = edit["points"]
        elif word == "kind":
            feature = self.features[id]
            feature.kind = self.schema.kinds[edit["kind"]]
            feature.path = (self.schema.paths(feature.kind) or [""])[0]
        elif word in ("attrs", "path", "flow", "ends", "note"):
            setattr(self.features[id], word, edit[word])
        elif word == "controller":
            self.controllers[id, edit["terminal"]] = (edit["tier"], edit["subnet"])
        elif word == "uncontroller":
            del self.controllers[id, edit["terminal"]]

    def told(self):
        """The ports of the last trace's result as it was told: each feature's numbers."""
        if self.trace is None:
            return {}
        if self.trace["ok"] == "loops":
            found = {}
            for line, index in self.trace["segments"]:
                found.setdefault(line, set()).update((index, index + 1))
            return found
        if self.trace["ok"] == "controllers":
            return {id: {terminal} for id, terminal, _ in self.trace["controllers"]}
        return {id: set(numbers) for id, numbers in self.trace["features"]}

    def reached(self):
        """The ports of the last trace's result whose features are still there."""
        return {id: numbers for id, numbers in self.told().items() if id in self.features}

    def segments(self):
        """The segments of lines that the last trace's result has, each a line's id and the number of its first vertex."""
        if self.trace is not None and self.trace["ok"] == "loops":
            found = [tuple(each) for each in self.trace["segments"]]
        else:
            found = [(id, number) for id, numbers in self.told().items() for number in sorted(numbers) if number + 1 in numbers]
        return [(id, number) for id, number in found if self.is_segment(id, number)]

    def is_segment(self, id, number):
        return id in self.features and self.features[id].kind.sort == "line" and number + 1 < len(self.features[id].points)

    def listed(self):
        """The features that the result lists besides: containers, contents and structures."""
        lists = [(self.trace or {}).get(member, []) for member in ("containers", "content", "structures")]
        return {id for each in lists for id in each if id in self.features}

    def borders(self):
        return {id for id, _ in (self.trace or {}).get("borders", []) if id in self.features}

    def starts(self):
        """The starts of the last trace and of the last diagram."""
        return list(dict.fromkeys(tuple(port) for request in (self.asked, self.drawn) for port in (request or {}).get("starts", [])))

    def point(self, port):
        """Where a port stands, or None where its feature or its vertex is not there any more."""
        id, number = port
        points = self.features[id].points if id in self.features else []
        at = number if len(points) > 1 else 0
        return points[at] if at < len(points) else None

    def neighbour(self, port):
        """The point of the next vertex of a line, or of the one before its last; None of a port that is no vertex of a line."""
        id, number = port
        return self.point((id, number + 1 if self.is_segment(id, number) else number - 1)) if self.features[id].kind.sort == "line" else None

    def steps(self):
        """From where to where the walk of the last path leads, step by step, without the steps that stay at a point."""
        points = [self.point(port) for port in (self.path or {}).get("nodes", [])]
        return [(start, end) for start, end in zip(points, points[1:]) if start and end and start != end]


def parse(what, number, line):
    try:
        value = json.loads(line)
    except ValueError as fault:
        raise Fault(f"{what}, line {number}: no JSON") from fault
    if not isinstance(value, dict):
        raise Fault(f"{what}, line {number}: no object")
    return value


def read(script, replies):
    """The network of two files."""
    texts = []
    for path in (script, replies):
        try:
            with open(path, encoding="utf-8") as file:
                texts.append(file.read())
        except OSError as fault:
            raise Fault(f"{path}: {fault.strerror}") from fault
    return Network(*texts)
