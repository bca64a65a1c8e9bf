"""What the schemas of an API description mean, in JSON Schema's Draft 2020-12: as tools read them, which allows what later releases may add, and
exactly, which does not. Exactly a value is of a schema's x-form, and a reply has no key and no refusal that is not described."""

import copy

from api_holds.form import inner_schemas, references_of, resolved

REFUSAL = {"$ref": "#/components/schemas/Refusal"}
SCHEMAS = "#/components/schemas/"


def named_in_replies(document):
    """The names of the schemas that replies have."""
    places = [document["paths"], document["components"]["responses"]]
    found, stack = set(), [it for at, it in references_of(places) if "/requestBody/" not in at and "/parameters/" not in at]
    while stack:
        it = stack.pop()
        if it not in found:
            found.add(it)
            stack += [inner for _, inner in references_of(resolved(document, it))]
    return {it.removeprefix(SCHEMAS) for it in found if it.startswith(SCHEMAS)}


def meant(schema, is_closed, is_exact):
    """What a schema means; a closed one is of a reply."""
    made = copy.deepcopy(schema.get("x-form", schema) if is_exact else schema)
    for path, inner in inner_schemas(made):
        *holders, last = path.split("/")
        holder = made
        for key in holders:
            holder = holder[key]
        holder[int(last) if isinstance(holder, list) else last] = meant(inner, is_closed, is_exact)
    if is_exact and REFUSAL in made.get("anyOf", ()):
        choices = [it for it in made.pop("anyOf") if it != REFUSAL]
        made = {"oneOf": choices} if len(choices) > 1 else choices[0]
    if is_closed and "properties" in made:
        made["additionalProperties"] = False
    return {"oneOf": [{"type": "null"}, made]} if made.pop("nullable", False) else made


def with_meaning(document, is_exact):
    """The description with what its schemas mean in their places."""
    replies = named_in_replies(document) if is_exact else ()

    def copied(value):
        if isinstance(value, list):
            return [copied(it) for it in value]
        if isinstance(value, dict):
            return {key: meant(it, False, is_exact) if key == "schema" else it if key in ("example", "examples") else copied(it)
                    for key, it in value.items()}
        return value

    schemas = {name: meant(it, name in replies, is_exact) for name, it in document["components"]["schemas"].items()}
    outside = copied({**document, "components": {key: it for key, it in document["components"].items() if key != "schemas"}})
    outside["components"]["schemas"] = schemas
    return outside
