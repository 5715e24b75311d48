#!/usr/bin/env python3
"""Checks docs/openapi.yaml: the whole against the schema of OpenAPI 3.0, and each example against its own schema, of which
exactly one alternative has to fit. It needs PyYAML, jsonschema and OpenAPI's own schema (Debian: python3-yaml,
python3-jsonschema, openapi-specification)."""
import json
import sys

import jsonschema
import yaml

from http_examples import at, body_of, read

OPENAPI = "/usr/share/openapi-specification/schemas/v3.0/schema.json"


def plain(value):
    """A schema of OpenAPI 3.0 as one of JSON Schema, which has no `nullable`."""
    if isinstance(value, list):
        return [plain(item) for item in value]
    if not isinstance(value, dict):
        return value
    made = {key: plain(item) for key, item in value.items() if key != "nullable"}
    return {"anyOf": [{"type": "null"}, made]} if value.get("nullable") else made


def examples(document):
    """Each example with its schema, and where it stands."""
    for path, methods in document["paths"].items():
        for method, operation in methods.items():
            contents = [(parameter["name"], at(document, parameter)) for parameter in operation["parameters"] if "name" in parameter]
            if body_of(operation):
                contents.append(("body", body_of(operation)[1]))
            for status, response in operation["responses"].items():
                contents += [(status, media) for media in at(document, response).get("content", {}).values()]
            for where, content in contents:
                for name, example in content.get("examples", {}).items():
                    yield "%s %s, %s, %s" % (method, path, where, name), content["schema"], example["value"]


def main():
    document = read("openapi.yaml")
    with open(OPENAPI) as file:
        faults = ["%s: %s" % ("/".join(map(str, e.absolute_path)), e.message)
                  for e in jsonschema.Draft4Validator(json.load(file)).iter_errors(document)]
    root = plain(document)
    resolver = jsonschema.RefResolver("", root)
    count = misfits = 0
    for where, schema, value in examples(document):
        count += 1
        errors = list(jsonschema.Draft4Validator(plain(schema), resolver=resolver).iter_errors(value))
        # examples of what is refused as no request, or as a name or a number of no such form, don't fit
        if errors and not any(word in where for word in ("no_object", "no_such_op", "with_by", "out_of_range", "bad_name")):
            faults.append("%s: %s" % (where, errors[0].message))
        misfits += bool(errors)
    for fault in faults:
        print(fault)
    print("%d examples, of which %d are to fit no schema; %d faults" % (count, misfits, len(faults)))
    sys.exit(1 if faults else 0)


if __name__ == "__main__":
    main()
