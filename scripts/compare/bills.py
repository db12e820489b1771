"""Holds the bills of materials of `cargo krates` against the schemas of CycloneDX.

The schemas aren't in this repository. They are read from the Python package `cyclonedx`, which Debian has as
python3-cyclonedx-lib from Debian 13 on, or from the folder that $CYCLONEDX_SCHEMAS names: bom-1.5 and bom-1.6, and
what they refer to. They are applied by the Python package `jsonschema`. Each document is asked for its bill by
krates, and for that of each resolver, in both versions, with a time and a serial number and without. A bill that is
refused, with a status of 3, isn't one: how many were is said at the end.

Prints the first faults of each bill that isn't valid.
"""
import importlib.util
import json
import os
import pathlib
import sys

from compare.programs import run
from krates_sources import documents

VERSIONS = ("1.5", "1.6")
RULES = (["--by", "krates"], ["--resolver", "1"], ["--resolver", "2"], ["--resolver", "2", "--target", "x86_64-pc-windows-msvc"])
MOMENT = ["--timestamp", "2026-01-02T03:04:05Z", "--serial", "3e671687-395b-41f5-a30f-a58921a69b79"]
# what the schemas of bills refer to in other files: how a licence is called, and how a bill is signed
OTHERS = ("spdx", "jsf-0.82")


def folder():
    """Where the schemas are."""
    if "CYCLONEDX_SCHEMAS" in os.environ:
        return pathlib.Path(os.environ["CYCLONEDX_SCHEMAS"])
    found = importlib.util.find_spec("cyclonedx")
    return pathlib.Path(found.submodule_search_locations[0], "schema/_res") if found else None


def read(name):
    """The schema of a name."""
    return json.loads(pathlib.Path(folder(), f"{name}.SNAPSHOT.schema.json").read_text(encoding="utf-8"))


def moved(schema, file):
    """A schema of a file, whose references are to `definitions`, which hold each other file under its name."""
    if isinstance(schema, list):
        return [moved(one, file) for one in schema]
    if not isinstance(schema, dict):
        return schema
    found = {name: moved(one, file) for name, one in schema.items() if name != "$id"}
    if isinstance(found.get("$ref"), str):
        other, _, below = found["$ref"].partition("#")
        place = other.removesuffix(".SNAPSHOT.schema.json") or file
        found["$ref"] = "#" + (f"/definitions/{place}" if place else "") + below
    return found


def bill_schema(version):
    """The schema of a bill, and in it what it refers to."""
    schema = moved(read(f"bom-{version}"), "")
    schema["definitions"].update({name: moved(read(name), name) for name in OTHERS})
    return schema


def faults(validator, bill):
    """What is wrong with a bill: a line for each fault, with its place."""
    for fault in validator.iter_errors(bill):
        yield f"{'.'.join(str(part) for part in fault.absolute_path)}: {fault.message[:200]}"


def compare(place):
    """Holds each bill against its schema, and returns whether all are valid and there was one."""
    import jsonschema

    valid = refused = wrong = 0
    validators = {version: jsonschema.Draft7Validator(bill_schema(version)) for version in VERSIONS}
    for document, text in documents(place):
        for rules in RULES:
            for version, validator in validators.items():
                for moment in ([], MOMENT):
                    words = ["sbom", "--metadata", "-", "--spec-version", version, *rules, *moment]
                    status, out, said = run("cargo_krates", words, text)
                    if status == 3:
                        refused += 1
                        continue
                    found = list(faults(validator, json.loads(out))) if status == 0 else [said]
                    valid, wrong = valid + (not found), wrong + bool(found)
                    for fault in found[:5]:
                        print(f"{document.parent.name}: {' '.join(words)}: {fault}")
    print(f"{valid} bills are valid, {wrong} are not, {refused} were refused")
    return wrong == 0 and valid > 0


def is_ready():
    """Whether the schemas and what applies them are there; says what is missing."""
    if folder() is None or not folder().is_dir():
        print("the schemas of CycloneDX aren't here: install python3-cyclonedx-lib, or name their folder by CYCLONEDX_SCHEMAS", file=sys.stderr)
        return False
    if importlib.util.find_spec("jsonschema") is None:
        print("what applies a schema isn't here: install python3-jsonschema", file=sys.stderr)
        return False
    return True
