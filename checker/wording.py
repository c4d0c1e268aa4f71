"""Says in words what docs/documents.schema.json asks for, what a document has instead, and at which place."""

import difflib
import json
import pathlib
import re
from collections.abc import Iterable
from typing import NamedTuple

from checker.reading import Json, Path, Place

SCHEMA: Json = json.loads((pathlib.Path(__file__).resolve().parent.parent / "docs/documents.schema.json").read_text())

# How many characters of a value are shown, and how alike a name must be to one that is offered instead.
MOST_SHOWN = 100
LEAST_LIKENESS = 0.75


class Complaint(NamedTuple):
    """What is wrong at a place, and what would be right."""

    cause: str
    right: str
    # The place in words, and if there is JSON the part of it.
    where: str = ""
    place: Place | None = None
    # Another place that the cause is about.
    see: Place | None = None
    # Line and column, if there is no JSON.
    spot: str = ""


def listed(words: Iterable[str], last: str = "and") -> str:
    *front, end = words
    return f"{', '.join(front)} {last} {end}" if front else end


def shown(value: Json) -> str:
    """A value as compact JSON, in part if it is long."""
    text = json.dumps(value, ensure_ascii=False, separators=(",", ":"))
    return text if len(text) <= MOST_SHOWN else f"{text[:MOST_SHOWN]}.."


def described(value: Json) -> str:
    """A value with the name of its kind."""
    if isinstance(value, bool) or value is None:
        return shown(value)
    kinds = {str: "the text", int: "the number", float: "the number", list: "the list", dict: "the object"}
    return f"{kinds[type(value)]} {shown(value)}"


def capitalized(text: str) -> str:
    return text[:1].upper() + text[1:]


def counted(count: int, thing: str) -> str:
    return f"{count:,} {thing}" + "s" * (count != 1)


def route(path: Path) -> str:
    """A path, as plans[0][1].eval."""
    text = ""
    for step in path:
        if isinstance(step, int):
            text += f"[{step}]"
        elif re.fullmatch(r"\w+", step):
            text += f".{step}" if text else step
        else:
            text += f"[{json.dumps(step, ensure_ascii=False)}]"
    return text


def nearest(name: str, known: Iterable[str]) -> str | None:
    """The known name that another one is most likely meant to be, if one is near."""
    return next(iter(difflib.get_close_matches(name, list(known), 1, LEAST_LIKENESS)), None)


def between(schema: Json, least: str, most: str, unit: str) -> str:
    """The bounds of a number, or with a unit of a number of things, as words behind it."""
    low, high = schema.get(least), schema.get(most)
    if high is None:
        return ""
    if not unit:
        return f" from {low:,} to {high:,}"
    return f" of {low:,} to {high:,} {unit}" if low else f" of at most {high:,} {unit}"


def titled(schema: Json) -> str:
    """The name that the schema gives this part, if it does, or else its form."""
    if "$ref" in schema:
        schema = SCHEMA["$defs"][schema["$ref"].rpartition("/")[2]]
    title: str | None = schema.get("title")
    return title or form(schema)


def words(schema: Json) -> str:
    """What you can write for this part of the schema."""
    text = f"{schema['title']}, {form(schema)}" if "title" in schema and "type" in schema else form(schema)
    return f"{text}, such as {shown(schema['examples'][0])}" if "examples" in schema else text


def form(schema: Json) -> str:
    """What the values of a part of the schema look like."""
    kind = schema.get("type")
    if "const" in schema:
        return json.dumps(schema["const"])
    if "enum" in schema:
        return "the number " + listed([json.dumps(value) for value in schema["enum"]], "or")
    if "anyOf" in schema:
        return form(next(one for one in schema["anyOf"] if one["type"] == "integer"))
    if kind == "object":
        return object_form(schema)
    if "prefixItems" in schema:
        return "a list of " + listed([titled(item) for item in schema["prefixItems"]])
    if kind == "array":
        return f"a list{between(schema, 'minItems', 'maxItems', 'items') or ' of items'}, each of them {titled(schema['items'])}"
    if kind == "integer":
        return "a whole number" + between(schema, "minimum", "maximum", "")
    return "a text" + between(schema, "minLength", "maxLength", "bytes")


def object_form(schema: Json) -> str:
    if "properties" not in schema:
        return f"an object, each of its members {titled(schema['additionalProperties'])}"
    names = [json.dumps(name) for name in schema["properties"]]
    if schema.get("maxProperties") == 1:
        return f"an object with one member: {listed(names, 'or')}"
    needed = [name for name in names if json.loads(name) in schema["required"]]
    others = [name for name in names if name not in needed]
    return f"an object with the members {listed(needed)}" + (f", and maybe {listed(others)}" if others else "")
