"""The examples of an API description as one plan of one day: the requests that they make in their order, and the replies that they have."""

import json

from shared.served import request


def request_of(operation, name, body):
    """The request of an operation with its examples of this name. A parameter in the path without one has its first."""
    target, lines = operation.path, []
    for given in operation.parameters:
        examples = {key: it["value"] for key, it in given["examples"].items()}
        if given["in"] == "path":
            target = target.replace(f"{{{given['name']}}}", str(examples.get(name, next(iter(examples.values())))))
        elif name in examples:
            lines.append(f"{given['name']}: {examples[name]}")
    return request(operation.method, target, body.encode() if isinstance(body, str) else b"" if body is None else json.dumps(body).encode(), lines=lines)


def steps_of(description):
    """Each example: its name, the request, and the status and the body of the reply."""
    operations = {it.name: it for it in description.operations}
    for step in description.document["x-examples"]:
        operation, name = operations[step.split()[0]], step.split()[1]
        rows = [(status, examples[name]) for status, _, examples in description.examples_of(operation) if name in examples]
        body = next((value for status, value in rows if status is None), None)
        status, reply = next((status, value) for status, value in rows if status is not None)
        text = reply if isinstance(reply, str) else json.dumps(reply, sort_keys=True, separators=(",", ":"))
        yield step, request_of(operation, name, body), (int(status), text)
