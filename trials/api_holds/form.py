"""Whether an API description is valid: in the form of OpenAPI 3.0, by the schema of the Debian package openapi-specification if that is there, and
in what this schema cannot say. Each schema and operation is described, each pattern is one that every engine has, and each x-form is a
schema of JSON Schema's Draft 2020-12. It needs the Debian packages python3-yaml and python3-jsonschema."""

import json
import os
import re

import jsonschema
import yaml

FORM = "/usr/share/openapi-specification/schemas/v3.0/schema.json"
METHODS = ("get", "put", "post", "delete", "options", "head", "patch", "trace")
# The keywords of a schema of OpenAPI 3.0.
KEYWORDS = {
    "$ref", "title", "multipleOf", "maximum", "exclusiveMaximum", "minimum", "exclusiveMinimum", "maxLength", "minLength", "pattern", "maxItems",
    "minItems", "uniqueItems", "maxProperties", "minProperties", "required", "enum", "type", "allOf", "oneOf", "anyOf", "not", "items",
    "properties", "additionalProperties", "description", "format", "default", "nullable", "discriminator", "readOnly", "writeOnly", "xml",
    "externalDocs", "example", "deprecated", "x-form", "x-closes"}
# Where a schema has schemas: as the value, in a list, or under names.
WITHIN = {"items": "one", "not": "one", "allOf": "list", "anyOf": "list", "oneOf": "list", "properties": "names"}
# Looks around a place, and references back: engines that match in linear time, as Go's and Rust's, do not have them.
NOT_REGULAR = re.compile(r"\(\?<?[=!]|\\[1-9]|\(\?P=|\\k<")
# Fields of the head that an operation's parameters cannot describe, since a client's library writes them.
NO_PARAMETERS = {"accept", "content-type", "authorization", "content-length", "transfer-encoding", "connection", "host"}


def read_yaml(path):
    with open(path, encoding="utf-8") as file:
        return yaml.safe_load(file)


def inner_schemas(schema):
    """The schemas directly within a schema, each with its path from it."""
    for keyword, how in WITHIN.items():
        if keyword in schema:
            value = schema[keyword]
            inner = {(): value} if how == "one" else {(key,): it for key, it in (enumerate(value) if how == "list" else value.items())}
            for path, it in inner.items():
                yield "/".join(map(str, (keyword, *path))), it


def schemas_of(value, at="#"):
    """Each outermost schema of a description, with its place: those of components, and those of parameters, headers and bodies."""
    if isinstance(value, list):
        for place, it in enumerate(value):
            yield from schemas_of(it, f"{at}/{place}")
    elif isinstance(value, dict):
        for key, it in value.items():
            if key == "schema":
                yield f"{at}/schema", it
            elif at == "#/components" and key == "schemas":
                yield from ((f"{at}/schemas/{name}", schema) for name, schema in it.items())
            elif key not in ("example", "examples"):
                yield from schemas_of(it, f"{at}/{key}")


def references_of(value, at="#"):
    """Each reference in a description, with its place."""
    if isinstance(value, list):
        for place, it in enumerate(value):
            yield from references_of(it, f"{at}/{place}")
    elif isinstance(value, dict):
        for key, it in value.items():
            if key == "$ref":
                yield at, it
            elif key not in ("example", "examples"):
                yield from references_of(it, f"{at}/{key}")


def resolved(described, reference):
    """What a reference names, or None."""
    found, names = described, reference.split("/")
    if names[0] != "#":
        return None
    for name in names[1:]:
        name = name.replace("~1", "/").replace("~0", "~")
        if not isinstance(found, dict) or name not in found:
            return None
        found = found[name]
    return found


def operations_of(described):
    for path, item in described.get("paths", {}).items():
        for method in METHODS:
            if method in item:
                yield method, path, item[method]


def schema_faults(at, schema):
    """The faults of a schema and of those within it."""
    stack = [(at, schema)]
    while stack:
        at, it = stack.pop()
        if not isinstance(it, dict):
            yield f"{at}: this is no schema of OpenAPI 3.0"
            continue
        yield from (f"{at}: the keyword '{word}' is not known" for word in it if word not in KEYWORDS)
        if "$ref" in it and len(it) > 1:
            yield f"{at}: what stands beside a reference does not count"
        if NOT_REGULAR.search(it.get("pattern", "")):
            yield f"{at}: the pattern is not regular"
        if "x-form" in it:
            yield from form_faults(f"{at}/x-form", it["x-form"])
        stack += [(f"{at}/{path}", inner) for path, inner in inner_schemas(it)]


def form_faults(at, form):
    try:
        jsonschema.Draft202012Validator.check_schema(form)
    except jsonschema.SchemaError as fault:
        yield f"{at}: this is no schema of Draft 2020-12: {fault.message}"


def operation_faults(described):
    """What the form of an operation cannot say."""
    tags, seen = {tag["name"] for tag in described.get("tags", ())}, set()
    for method, path, it in operations_of(described):
        name = it.get("operationId")
        if name is None or name in seen:
            yield f"{method} {path}: it has no operationId, or that of another operation"
        seen.add(name)
        parameters = [resolved(described, given["$ref"]) if "$ref" in given else given for given in it.get("parameters", ())]
        in_path = {given["name"] for given in parameters if given and given["in"] == "path"}
        if in_path != set(re.findall(r"\{([^}]*)\}", path)):
            yield f"{method} {path}: its parameters and its path name different things"
        if len({(given["name"].lower(), given["in"]) for given in parameters if given}) < len(parameters):
            yield f"{method} {path}: a parameter is there twice, or is missing"
        names = {given["name"].lower() for given in parameters if given and given["in"] == "header"}
        yield from (f"{method} {path}: {name} is no parameter" for name in names & NO_PARAMETERS)
        yield from (f"{method} {path}: it has no {key}" for key in ("summary", "description") if not it.get(key))
        yield from (f"{method} {path}: the tag '{tag}' is not declared" for tag in it.get("tags", ()) if tag not in tags)


def form_of_openapi(described):
    """What is not in the form of OpenAPI 3.0."""
    if not os.path.exists(FORM):
        print("the form of OpenAPI was not checked: the Debian package openapi-specification is missing")
        return []
    with open(FORM) as file:
        errors = jsonschema.Draft4Validator(json.load(file)).iter_errors(described)
    return [f"{'/'.join(map(str, ['#', *it.absolute_path]))}: {it.message[:200]}" for it in errors]


def faults_of(path):
    """What is wrong with the description at a path, and how many schemas it has."""
    described = read_yaml(path)
    faults = form_of_openapi(described)
    faults += [f"{at}: nothing is at {it}" for at, it in references_of(described) if resolved(described, it) is None]
    schemas, named = list(schemas_of(described)), described["components"]["schemas"]
    faults += [fault for at, schema in schemas for fault in schema_faults(at, schema)]
    used = {it for _, it in references_of(described)}
    faults += [f"#/components/schemas/{name}: nothing refers to it" for name in named if f"#/components/schemas/{name}" not in used]
    faults += [f"#/components/schemas/{name}: it has no {key}" for name, it in named.items() for key in ("description", "example") if key not in it]
    return faults + list(operation_faults(described)), len(schemas)
