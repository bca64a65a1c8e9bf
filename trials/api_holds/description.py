"""What an API description says of a request and of a reply: whether it allows the one and gives the other, and which of the replies that it
gives have come. It needs the Debian packages python3-yaml and python3-jsonschema."""

import functools
import json
import re

import jsonschema

from api_holds.exact import with_meaning
from api_holds.form import inner_schemas, operations_of, read_yaml, resolved
from api_holds.texts import NotJson, json_of

# The refusals that a request gets for its form alone.
FORMAL = {"head", "encoding", "large", "length", "route", "method", "seen", "desk", "json", "mvt"}
# The refusal for a parameter in the head that is not as it is described.
FIELD_FAULTS = {"X-Seen": "seen", "X-Desk": "desk"}
# The replies that each operation may give and that one operation is made to give: they come at no request's will.
MADE_ONCE = {"keeper", "memory"}
REPLY_FIELDS = ("X-Version", "Connection", "Allow")


@functools.lru_cache(None)
def compiled(pattern):
    """A pattern as ECMA-262 means it: there the end is the end, and not the place before a last line's end."""
    return re.compile(re.sub(r"\\.|\[(?:\\.|[^\]])*\]|\$", lambda it: r"\Z" if it[0] == "$" else it[0], pattern))


def pattern_holds(_, pattern, value, __):
    if isinstance(value, str) and not compiled(pattern).search(value):
        yield jsonschema.ValidationError(f"{value[:60]!r} does not match the pattern")


Validator = jsonschema.validators.extend(jsonschema.Draft202012Validator, {"pattern": pattern_holds})


class Operation:
    """What a method and a path of the description ask, by its name, with its parameters and replies."""

    def __init__(self, document, method, path, it):
        self.method, self.path, self.name = method.upper(), path, it["operationId"]
        self.parameters = [document.found(given) for given in it["parameters"]]
        self.body = document.found(it["requestBody"])["content"] if "requestBody" in it else None
        responses = {status: document.found(response) for status, response in it["responses"].items()}
        self.responses = {status: response for status, response in responses.items() if "x-from-proxy" not in response}


class Description:
    """An API description, with what its schemas mean exactly, or as tools read them."""

    def __init__(self, path, is_exact=True):
        self.written, self.is_exact = read_yaml(path), is_exact
        self.document = with_meaning(self.written, is_exact)
        self.limits, self.validators = self.document["x-limits"], {}
        self.operations = [Operation(self, *it) for it in operations_of(self.document)]
        self.paths = [(re.compile(re.sub(r"\{(\w+)\}", r"(?P<\1>[^/]*)", name)), name, item) for name, item in self.document["paths"].items()]
        self.came = set()

    def found(self, value):
        return resolved(self.document, value["$ref"]) if "$ref" in value else value

    def validator(self, schema):
        """What tells whether a value is of a schema of this description."""
        if id(schema) not in self.validators:
            whole = {"allOf": [schema], "components": self.document["components"]}
            self.validators[id(schema)] = Validator(whole)
        return self.validators[id(schema)]

    def is_valid(self, schema, value):
        return self.validator(schema).is_valid(value)

    def fault_in(self, schema, value):
        """Why a value is not of a schema, or None."""
        fault = jsonschema.exceptions.best_match(self.validator(schema).iter_errors(value))
        return fault and f"{'/'.join(map(str, fault.absolute_path))} {fault.message[:200]}"

    def path_of(self, target):
        """The path item of a target, with the values that stand in the target for its parameters."""
        for pattern, name, item in self.paths:
            if it := pattern.fullmatch(target):
                return name, item, it.groupdict()
        return None, None, {}

    def operation_of(self, request):
        """The operation that a request asks, if its target and method are described."""
        path, _, _ = self.path_of(request.target or "")
        return next((it for it in self.operations if (it.path, it.method) == (path, request.method)), None)

    # Requests

    def form_fault(self, request):
        """The refusal that a request gets for its form, by the order that the description gives; None if it is allowed."""
        return self.head_fault(request) or self.target_fault(request) or self.fields_fault(request) or self.body_fault(request)

    def head_fault(self, request):
        if request.target is None or len(request.fields) > self.limits["head-fields"] or request.head_bytes > self.limits["head-bytes"]:
            return "head"
        if request.values("Transfer-Encoding"):
            return "encoding"
        lengths = request.values("Content-Length")
        if len(lengths) > 1 or lengths and not re.fullmatch("[0-9]{1,10}", lengths[0]):
            return "head"
        if lengths and int(lengths[0]) > self.limits["body-bytes"]:
            return "large"
        return "length" if request.method == "POST" and not lengths else None

    def target_fault(self, request):
        path, item, values = self.path_of(request.target)
        if path is None:
            return "route"
        operation = self.operation_of(request)
        described = operation or next(it for it in self.operations if it.path == path)
        for given in described.parameters:
            if given["in"] == "path" and not self.is_valid(given["schema"], values[given["name"]]):
                return "route"
        return None if operation else "method"

    def fields_fault(self, request):
        for given in self.operation_of(request).parameters:
            values = request.values(given["name"]) if given["in"] == "header" else []
            if values and not self.is_valid(given["schema"], ", ".join(values)):
                return FIELD_FAULTS[given["name"]]
        return None

    def body_fault(self, request):
        content = self.operation_of(request).body or {}
        if "text/plain" in content:
            return None if self.is_valid(content["text/plain"]["schema"], request.body.decode("latin-1")) else "mvt"
        if "application/json" in content:
            try:
                return None if self.is_valid(content["application/json"]["schema"], json_of(request.body, self.limits["json-depth"])) else "json"
            except NotJson:
                return "json"
        return None

    # Replies

    def responses_to(self, request):
        """The responses that the description gives to a request, by status; for one that no operation describes too."""
        operation = self.operation_of(request)
        if operation:
            return operation.name, operation.responses
        if request.target is None:
            name, rows = "malformed heads", self.document["x-malformed-heads"]
        elif self.target_fault(request) == "route":
            name, rows = "other targets", self.document["x-other-targets"]
        else:
            path, item, _ = self.path_of(request.target)
            name, rows = f"other methods of {path}", item["x-other-methods"]
        return name, {status: self.found(it) for status, it in rows.items()}

    def reply_fault(self, request, reply):
        """Why a reply is not one that the description gives to the request, or None. What came of it is noted."""
        name, responses = self.responses_to(request)
        response = responses.get(str(reply.code))
        if response is None and name.startswith("other") and reply.code in (400, 411, 413, 501):
            # A head is refused before its target is looked up: then these are as an operation's.
            name, response = self.operations[0].name, self.operations[0].responses[str(reply.code)]
        if response is None:
            return f"{name}: the status {reply.code} is not described"
        content = response["content"].get(reply.media)
        if content is None:
            return f"{name} {reply.code}: the media type {reply.media} is not described"
        try:
            value = reply.body.decode() if reply.media == "text/plain" else json.loads(reply.body)
        except ValueError:
            return f"{name} {reply.code}: the body is not of its media type"
        fault = self.fault_in(content["schema"], value) or self.head_of_reply_fault(response, content["schema"], value, reply)
        if fault:
            return f"{name} {reply.code}: {fault}"
        self.came.add((name, str(reply.code), word_of(value)))
        self.came |= set(self.choices_in(content["schema"], value, f"{name} {reply.code}"))
        return None

    def tools_fault(self, request, reply):
        """Why a tool that reads the description as it is written would refuse an allowed request, or its reply; None if it would not."""
        operation = self.operation_of(request)
        response = operation and operation.responses.get(str(reply.code))
        if not response:
            return None
        if reply.code == 200 and (word := self.body_fault(request)):
            return f"as it is written the description forbids it with {word}"
        return self.fault_in(response["content"][reply.media]["schema"], reply.body.decode() if reply.media == "text/plain" else json.loads(reply.body))

    def head_of_reply_fault(self, response, schema, value, reply):
        headers = {key: self.found(it) for key, it in response.get("headers", {}).items()}
        for key in REPLY_FIELDS:
            told = reply.fields.get(key)
            if told is None and headers.get(key, {}).get("required"):
                return f"the field {key} is missing"
            if told is not None and (key not in headers or not self.is_valid(headers[key]["schema"], told)):
                return f"the field {key} is not described with the value {told}"
        told = reply.media == "text/plain" or "version" in value
        if ("X-Version" in reply.fields) != told:
            return "X-Version and the body's version are not there together"
        if reply.media == "application/json" and json.dumps(value, sort_keys=True, separators=(",", ":")).encode() != reply.body:
            return "the body is not compact, with its keys in order"
        return None if ("Connection" in reply.fields) == self.closes(schema, value) else "Connection: close is not where x-closes is"

    def closes(self, schema, value):
        schema = self.found(schema)
        branches = [it for it in schema.get("oneOf", ()) if self.is_valid(it, value)]
        return any(self.closes(it, value) for it in branches) if branches else schema.get("x-closes", False)

    # What came

    def choices_of(self, schema, at):
        """Each choice that a schema leaves: a word of an enumeration, a truth, or one of several schemas; with the place of the choice."""
        at, schema = schema.get("$ref", at), self.found(schema)
        yield from ((at, word) for word in schema.get("enum", [False, True] if schema.get("type") == "boolean" else []))
        yield from ((at, place) for place, _ in enumerate(schema.get("oneOf", ())))
        for path, inner in inner_schemas(schema):
            if isinstance(inner, dict):
                yield from self.choices_of(inner, f"{at}/{path}")

    def choices_in(self, schema, value, at):
        """The choices that a value of a schema makes."""
        at, schema = schema.get("$ref", at), self.found(schema)
        if "enum" in schema or schema.get("type") == "boolean":
            yield at, value
        for place, inner in enumerate(schema.get("oneOf", ())):
            if self.is_valid(inner, value):
                yield at, place
                yield from self.choices_in(inner, value, f"{at}/oneOf/{place}")
        if isinstance(value, dict):
            for key, inner in schema.get("properties", {}).items():
                if key in value:
                    yield from self.choices_in(inner, value[key], f"{at}/properties/{key}")
        if isinstance(value, list):
            for it in value:
                yield from self.choices_in(schema["items"], it, f"{at}/items")

    def words_of(self, schema):
        """The words by which a schema's values tell themselves apart, as word_of gives them."""
        schema = self.found(schema)
        told = schema.get("properties", {})
        if "error" not in told:
            return [word for it in schema.get("oneOf", ()) for word in self.words_of(it)] or [""]
        faults = words_in(told.get("fault", {})) or [""]
        return [f"{error} {fault}".strip() for error in words_in(told["error"]) for fault in faults]

    def described(self):
        """All that can come: each reply of each operation by its status and word, and each choice that the replies' schemas leave."""
        rows = [(it.name, it.responses) for it in self.operations]
        rows += [(f"other methods of {name}", {status: self.found(it) for status, it in item["x-other-methods"].items()})
                 for _, name, item in self.paths]
        rows += [(name, {status: self.found(it) for status, it in self.document[key].items()})
                 for name, key in (("other targets", "x-other-targets"), ("malformed heads", "x-malformed-heads"))]
        for name, responses in rows:
            for status, response in responses.items():
                for content in response["content"].values():
                    for word in self.words_of(content["schema"]):
                        yield name, status, word
                    yield from self.choices_of(content["schema"], f"{name} {status}")

    def never_came(self):
        """What is described and never came; of the replies that are made once, those that came to no operation."""
        once = {word for *_, word in (it for it in self.came if len(it) == 3) if word in MADE_ONCE}
        return sorted({it for it in self.described() if it not in self.came and it[-1] not in once}, key=str)

    def examples_of(self, operation):
        """The examples of an operation's bodies: the status, or None for a request, the content that has them, and they by their names."""
        rows = [(None, operation.body or {}), *((status, it["content"]) for status, it in operation.responses.items())]
        for status, contents in rows:
            for content in contents.values():
                yield status, content, {name: it["value"] for name, it in content.get("examples", {}).items()}

    def example_faults(self):
        """The examples that are not of their schema, and what has none."""
        schemas = self.document["components"]["schemas"]
        for name, it in self.written["components"]["schemas"].items():
            # Numbers of the head are texts in their exact form.
            is_text = it.get("type") == "integer" and "x-form" in it
            if fault := self.fault_in(schemas[name], str(it["example"]) if is_text and self.is_exact else it["example"]):
                yield f"{name}: the example: {fault}"
        for operation in self.operations:
            for status, content, examples in self.examples_of(operation):
                at = f"{operation.name} {status or 'request'}"
                if not examples:
                    yield f"{at}: it has no example"
                faults = [(name, self.fault_in(content["schema"], it)) for name, it in examples.items()]
                yield from (f"{at}: the example {name}: {fault}" for name, fault in faults if fault)
                later = [{**it, "later": 1} for it in examples.values() if status and isinstance(it, dict)]
                if any(self.is_valid(content["schema"], it) == self.is_exact for it in later):
                    yield f"{at}: a reply with one more key is {'one' if self.is_exact else 'none'} of its schema"


def words_in(schema):
    return [schema["const"]] if "const" in schema else schema.get("enum", [])


def word_of(value):
    """The word by which a body tells what it is: that of a refusal, with the fault of a message's, or none."""
    return " ".join(filter(None, (value.get("error"), value.get("fault")))) if isinstance(value, dict) else ""
