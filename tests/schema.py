"""Judges a line by docs/lines.schema.json, which line_schema.py makes. It knows the words of JSON Schema that are in it, and no others."""
import functools
import json
import os
import re

from programs import TOP, read

FILE = os.path.join(TOP, "docs", "lines.schema.json")
IS = {
    "integer": lambda it: isinstance(it, int) and not isinstance(it, bool), "string": lambda it: isinstance(it, str), "array": lambda it: isinstance(it, list),
    "object": lambda it: isinstance(it, dict), "boolean": lambda it: isinstance(it, bool), "null": lambda it: it is None,
}


def fits(whole, schema, value):
    """Whether a value is one of a schema, by the words of JSON Schema that `made` uses. A constant that is no text, or another word, is an error."""
    def holds(word, asked):
        if word == "$ref":
            return fits(whole, whole["$defs"][asked.removeprefix("#/$defs/")], value)
        if word == "anyOf":
            return any(fits(whole, one, value) for one in asked)
        if word == "type":
            return any(IS[one](value) for one in ([asked] if isinstance(asked, str) else asked))
        return {
            "const": lambda: value == asked and isinstance(asked, str), "enum": lambda: value in asked, "description": lambda: True,
            "minimum": lambda: value >= asked, "maximum": lambda: value <= asked, "pattern": lambda: re.search(asked, value) is not None,
            "items": lambda: all(fits(whole, asked, one) for one in value), "required": lambda: all(name in value for name in asked),
            "properties": lambda: all(fits(whole, one, value[name]) for name, one in asked.items() if name in value),
            "additionalProperties": lambda: asked is False and all(name in schema["properties"] for name in value),
        }[word]()

    return all(holds(word, asked) for word, asked in schema.items())


@functools.cache
def whole():
    return json.loads(read(FILE))


def misfit(command, told):
    """What is wrong with an object that a command printed: nothing where the schema takes it."""
    schema = whole()["$defs"].get("command-" + command)
    return "" if schema and fits(whole(), schema, told) else f"the schema does not take {json.dumps(told)} of {command}"
