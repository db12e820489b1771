"""Holds JSON answers of `cargo krates` against docs/schema/answers.json, by those keywords of JSON Schema that it has."""
import json
import pathlib

from krates_sources import ROOT

SCHEMA = json.loads(pathlib.Path(ROOT, "docs/schema/answers.json").read_text(encoding="utf-8"))
TYPES = {"string": str, "boolean": bool, "array": list, "object": dict, "null": type(None)}
SAID = {"description", "title"}


def is_of(value, kind):
    """Whether a value is of a type."""
    if kind == "integer":
        return isinstance(value, int) and not isinstance(value, bool)
    return isinstance(value, TYPES[kind])


def is_same(value, wanted):
    """Whether two values are equal, with yes and 1 apart."""
    return type(value) is type(wanted) and value == wanted


def faults(value, schema, place="answer"):
    """What is wrong with a value at a place, by a schema: a line for each fault."""
    for word, wanted in schema.items():
        if word == "$ref":
            yield from faults(value, SCHEMA["$defs"][wanted.removeprefix("#/$defs/")], place)
        elif word == "type":
            if not any(is_of(value, kind) for kind in ([wanted] if isinstance(wanted, str) else wanted)):
                yield f"{place}: not {wanted}"
        elif word == "const":
            if not is_same(value, wanted):
                yield f"{place}: not {wanted}"
        elif word == "enum":
            if not any(is_same(value, one) for one in wanted):
                yield f"{place}: none of {wanted}"
        elif word == "minimum":
            if is_of(value, "integer") and value < wanted:
                yield f"{place}: below {wanted}"
        elif word == "anyOf":
            found = [list(faults(value, one, place)) for one in wanted]
            if all(found):
                yield from min(found, key=len)
        elif word == "items":
            for number, item in enumerate(value if isinstance(value, list) else ()):
                yield from faults(item, wanted, f"{place}[{number}]")
        elif word == "properties":
            for name in wanted.keys() & (value.keys() if isinstance(value, dict) else set()):
                yield from faults(value[name], wanted[name], f"{place}.{name}")
        elif word == "required":
            lacking = set(wanted) - (value.keys() if isinstance(value, dict) else set(wanted))
            yield from (f"{place}: no {name}" for name in sorted(lacking))
        elif word == "additionalProperties":
            more = (value.keys() if isinstance(value, dict) else set()) - schema["properties"].keys()
            yield from (f"{place}: also {name}" for name in sorted(more))
        elif word not in SAID:
            raise ValueError(f"the schema has a keyword that isn't read here: {word}")


def held(word, value):
    """The value that the word printed, if it is as the schema says; else an error says what is wrong."""
    found = list(faults(value, SCHEMA["properties"][word]))
    if found:
        raise ValueError(f"{word}: the schema says otherwise: {'; '.join(found[:5])}")
    return value
