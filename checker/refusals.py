"""Finds what is wrong with a document, in the order of the program's refusals.

docs/documents.schema.json says most of what a document may be. The rest is here: it counts bytes, distinguishes a whole number from 1.0, and
sees how high a term is, how long a document is, and which table or id comes twice.
"""

from __future__ import annotations

import json
from collections import deque
from collections.abc import Iterable, Iterator
from typing import NamedTuple

from jsonschema import Draft202012Validator, ValidationError, validators  # type: ignore[import]

from checker.reading import Json, NotJson, Path, Place, read
from checker.wording import SCHEMA, Complaint, capitalized, counted, described, form as form_of, listed, nearest, route, shown, words

# What the schema doesn't say.
MOST_BYTES = 1_048_576
MOST_HEIGHT = 32
MOST_AROUND = 2

LIMITS = {"maxBatchSize": "BatchLimit", "maxCells": "CellLimit", "maxCalls": "CallLimit"}
TABLE_FAULTS = ["Shape", "BadKey", "TextTooLong", "NotWhole", "DuplicateTable", "DuplicateKey"]

# Members that another version or kind of document has, by the titles of the objects that don't have them, and what to do about them.
ELSEWHERE = {
    ("a script of version 1", "tableLimits"): 'To use it, set "script" to 2.',
    ("a table of version 1", "maxBatchSize"): 'To use it, set "version" to 2.',
    ("a plan file", "tableLimits"): 'Write "maxBatchSize" in each table that has a limit of its own.',
    ("a plan file of version 1", "tableLimits"): 'Set "version" to 2, and write "maxBatchSize" in each table that has a limit of its own.',
    **{("a term", form): 'To use it, set "version" to 3.' for form in ("over", "item", "object")},
}


class Refusal(NamedTuple):
    """A line with which the program refuses a document."""

    # Which refusals count first: their cause, and of one cause the least call, or plan and step.
    rank: tuple[int, ...]
    line: str


class Finding(NamedTuple):
    """A place that is wrong, and the refusal that it causes."""

    refusal: Refusal
    complaint: Complaint


VERSION = Refusal((3,), "refused: version")
TOP = Refusal((4,), "refused: top")


# ---- the schema, whose texts are counted in bytes here, and whose integers have no point


def is_whole(_checker: object, value: Json) -> bool:
    return isinstance(value, int) and not isinstance(value, bool)


def is_long_enough(validator: Json, least: int, value: Json, _schema: Json) -> Iterator[ValidationError]:
    if validator.is_type(value, "string") and len(value.encode()) < least:
        yield ValidationError("too short")


def is_short_enough(validator: Json, most: int, value: Json, _schema: Json) -> Iterator[ValidationError]:
    if validator.is_type(value, "string") and len(value.encode()) > most:
        yield ValidationError("too long")


def fractions(value: Json) -> Iterator[Path]:
    """The paths of the numbers in a value that aren't whole."""
    if isinstance(value, float):
        yield ()
    elif isinstance(value, (list, dict)):
        for at, part in value.items() if isinstance(value, dict) else enumerate(value):
            for path in fractions(part):
                yield (at, *path)


def is_of_whole_numbers(_validator: Json, _forms: Json, value: Json, _schema: Json) -> Iterator[ValidationError]:
    """Of the schema's values: each number that isn't whole, in place of the forms that the whole value may have."""
    for path in fractions(value):
        yield ValidationError("not whole", path=deque(path))


VALIDATOR = validators.extend(
    Draft202012Validator,
    {"minLength": is_long_enough, "maxLength": is_short_enough, "anyOf": is_of_whole_numbers},
    type_checker=Draft202012Validator.TYPE_CHECKER.redefine("integer", is_whole),
)(SCHEMA)


# ---- which refusal it is


def table_fault(fault: str) -> Refusal:
    """The refusal of tables for a fault."""
    return Refusal((9, TABLE_FAULTS.index(fault)), f"refused: table {fault}")


def limit_refusal(member: str) -> Refusal:
    """The refusal of a limit that is a whole number, but too small or too large."""
    return Refusal((10, list(LIMITS).index(member)), f"refused: limit {LIMITS[member]}")


def table_refusal(path: list[int | str], check: str) -> Refusal:
    """The refusal of a place among the tables, by the check that it doesn't pass."""
    if check in ("minimum", "maximum"):
        return limit_refusal("maxBatchSize")
    if check == "anyOf":
        return table_fault("NotWhole")
    if check in ("minLength", "maxLength"):
        return table_fault("TextTooLong" if path[-1] == 1 else "BadKey")
    return table_fault("Shape")


def plans_refusal(path: list[int | str], check: str) -> Refusal:
    """The refusal of a place among the plans."""
    numbers = [number for number in path[1:3] if isinstance(number, int)]
    if len(numbers) == 2:
        return Refusal((6, *numbers), f"refused: plan {numbers[0]} step {numbers[1]}")
    if numbers and check == "maxItems":
        return Refusal((8, *numbers), f"refused: too many steps plan {numbers[0]}")
    return TOP


def refusal_of(document: Json, error: ValidationError) -> Refusal:
    """The refusal of a place that doesn't pass a check of the schema."""
    path, check = list(error.absolute_path), error.validator
    kind = "script" if isinstance(document, dict) and "script" in document else "version"
    if not isinstance(document, dict) or path[:1] == [kind] or (not path and kind in missing(error)):
        return VERSION
    if path[:1] == ["calls"] and len(path) > 1:
        return Refusal((5, path[1]), f"refused: call {path[1]}")
    if path[:1] == ["plans"]:
        return plans_refusal(path, check)
    if path[:1] == ["tables"]:
        return table_refusal(path, check)
    if path and check in ("minimum", "maximum"):
        return limit_refusal(path[0] if path[0] in LIMITS else "maxBatchSize")
    return TOP


# ---- what the schema refuses


def part_of(document: Json, path: Path) -> Json:
    """The part of a document to which a path leads."""
    for step in path:
        document = document[step]
    return document


def within(document: Json, path: Path) -> str:
    """The name of the table and the id of the row that a path leads to, if it leads to one."""
    if path[:1] != ("tables",) or len(path) < 2 or not isinstance(document["tables"][path[1]], dict):
        return ""
    table = document["tables"][path[1]]
    text = f", in table {shown(table['name'])}" if "name" in table else ""
    row = part_of(document, path[:4]) if len(path) > 3 else None
    return f"{text}, row {shown(row[0])}" if isinstance(row, list) and row else text


def meant_by(name: str, schema: Json) -> str | None:
    """The member that another one of an object is most likely meant to be."""
    known = list(schema["properties"])
    return None if name in known or (schema.get("title"), name) in ELSEWHERE else nearest(name, known)


def missing(error: ValidationError) -> list[str]:
    """The members that an object lacks."""
    return [name for name in error.schema["required"] if name not in error.instance] if error.validator == "required" else []


def left_out(error: ValidationError) -> list[str]:
    """The members that an object lacks, but those that a wrong name is meant to be: that is a finding of its own."""
    meant = [meant_by(name, error.schema) for name in error.instance]
    return [name for name in missing(error) if name not in meant]


def cause_of(error: ValidationError, value: Json) -> str:
    """What is wrong with the value of a place, by all checks but that of the names of members."""
    check = error.validator
    if check == "required":
        return f"You left out {listed(json.dumps(name) for name in left_out(error) or missing(error))}."
    if check in ("minLength", "maxLength"):
        return f"You wrote {described(value)}, which has {counted(len(value.encode()), 'byte')}."
    if check in ("minItems", "maxItems", "items"):
        return f"You wrote a list of {counted(len(value), 'item')}."
    if check in ("minProperties", "maxProperties"):
        return f"You wrote an object of {counted(len(value), 'member')}."
    return f"You wrote {described(value)}."


def right_of(error: ValidationError, value: Json) -> str:
    """What would be right there."""
    text = f"Write {words(error.schema)}"
    if "version" in missing(error):
        return f'{text}. For a script, write "script" and "calls".'
    if missing(error) == ["tables"] and error.instance.get("version") in (2, 3):
        return f"{text}. For a database, say ./check_document --database FILE."
    # The check of values is of their numbers alone.
    is_of_numbers = error.schema.get("type") == "integer" or error.validator == "anyOf"
    if is_of_numbers and isinstance(value, float):
        return f"{text}, without a point or an exponent."
    return text + (", without quotes." if is_of_numbers and isinstance(value, str) and value.isdigit() else ".")


def strange_members(error: ValidationError) -> Iterator[tuple[str, str, str]]:
    """The members that an object may not have, each with what is wrong and what would be right."""
    title = capitalized(error.schema["title"])
    for name in error.instance:
        if name in error.schema["properties"]:
            continue
        near = meant_by(name, error.schema)
        right = (f'Did you mean "{near}"? ' if near else "") + f"{title} is {form_of(error.schema)}."
        right = ELSEWHERE.get((error.schema["title"], name), right)
        yield name, f"{title} has no member {shown(name)}.", right


def schema_findings(document: Json) -> Iterator[Finding]:
    """What the schema refuses."""
    for error in VALIDATOR.iter_errors(document):
        path, refusal = tuple(error.absolute_path), refusal_of(document, error)
        # A version that is lacking counts before a member with a wrong name.
        if missing(error) and not left_out(error) and refusal != VERSION:
            continue
        if error.validator == "additionalProperties":
            for name, cause, right in strange_members(error):
                place = Place((*path, name), is_name=True)
                yield Finding(refusal, Complaint(cause, right, route(place.path) + within(document, path), place))
        else:
            value = part_of(document, path)
            where = route(path) + within(document, path)
            yield Finding(refusal, Complaint(cause_of(error, value), right_of(error, value), where, Place(path)))


# ---- what else is refused


def height(term: Json) -> int:
    """The height of a term with which nothing else is wrong."""
    if form(term) in ("value", "load", "item"):
        return 1
    return 1 + max((height(part) for _, part in parts(term)), default=0)


def form(term: Json) -> str:
    """The form of a term: the name of its one member."""
    (name,) = term
    return name


def parts(term: Json) -> Iterator[tuple[Path, Json]]:
    """The terms in a term, each with its path from there."""
    ((name, argument),) = term.items()
    if name == "object":
        for member, part in argument.items():
            yield (name, member), part
    elif name not in ("value", "load", "item"):
        for number, part in enumerate(argument if name == "all" else argument[: 2 if name == "over" else 1]):
            yield (name, number), part


def misplaced(term: Json, path: Path, bodies: int) -> Iterator[Complaint]:
    """The items outside of any body, and the bodies in too many others, of a term in so many bodies."""
    if form(term) == "item" and not bodies:
        right = 'Write it in the second term of an "over", which takes each item of a list.'
        yield Complaint("This item lies in no body.", right, route(path), Place(path))
    for at, part in parts(term):
        is_body = at == ("over", 1)
        if is_body and bodies > MOST_AROUND:
            cause, right = f"This body lies in {bodies} others.", f"Nest a body in at most {MOST_AROUND} others."
            yield Complaint(cause, right, route((*path, *at)), Place((*path, *at)))
        else:
            yield from misplaced(part, (*path, *at), bodies + is_body)


def evaluations(document: Json, ranks: set[tuple[int, ...]]) -> Iterator[tuple[int, int, Json]]:
    """The terms of the steps with which nothing else is wrong, with the numbers of plan and step."""
    for plan, steps in enumerate(document["plans"]):
        for step, taken in enumerate(steps):
            if (6, plan, step) not in ranks and "eval" in taken:
                yield plan, step, taken["eval"]


def misplaced_forms(document: Json, ranks: set[tuple[int, ...]]) -> Iterator[Finding]:
    """The items and bodies at places where none may be."""
    for plan, step, term in evaluations(document, ranks):
        refusal = Refusal((6, plan, step), f"refused: plan {plan} step {step}")
        for complaint in misplaced(term, ("plans", plan, step, "eval"), 0):
            yield Finding(refusal, complaint)


def high_terms(document: Json, ranks: set[tuple[int, ...]]) -> Iterator[Finding]:
    """The terms that are too high."""
    for plan, step, term in evaluations(document, ranks):
        if (high := height(term)) <= MOST_HEIGHT:
            continue
        path = ("plans", plan, step, "eval")
        refusal = Refusal((7, plan, step), f"refused: too deep plan {plan} step {step}")
        cause, right = f"You nest terms {high} deep.", f"Nest them at most {MOST_HEIGHT} deep."
        yield Finding(refusal, Complaint(cause, right, route(path), Place(path)))


def twice(names: Iterable[tuple[Path, str]], document: Json, refusal: Refusal, right: str) -> Iterator[Finding]:
    """Those of several places with a name that have the name of an earlier one."""
    first: dict[str, Path] = {}
    for path, name in names:
        if name in first:
            cause, where = f"You wrote {shown(name)} twice.", route(path) + within(document, path)
            yield Finding(refusal, Complaint(cause, right, where, Place(path), see=Place(first[name])))
        first.setdefault(name, path)


def ids(table: Json, number: int) -> Iterator[tuple[Path, str]]:
    """The ids of a table, each with its path."""
    for member in ("rows", "errors", "breaks"):
        for row, pair in enumerate(table.get(member, [])):
            yield ("tables", number, member, row, 0), pair[0]


def doubles(document: Json) -> Iterator[Finding]:
    """The tables of one name, and the ids that come twice in a table."""
    tables = list(enumerate(document["tables"]))
    names: list[tuple[Path, str]] = [(("tables", number, "name"), table["name"]) for number, table in tables]
    yield from twice(names, document, table_fault("DuplicateTable"), "Give each table a name of its own.")
    for number, table in tables:
        right = "In a table, write each id once: as a row, an error or a break."
        yield from twice(ids(table, number), document, table_fault("DuplicateKey"), right)


def doubles_of_script(document: Json) -> Iterator[Finding]:
    """The tables to which a script gives two limits."""
    pairs = enumerate(document.get("tableLimits", []))
    names: list[tuple[Path, str]] = [(("tableLimits", number, 0), pair[0]) for number, pair in pairs]
    yield from twice(names, document, TOP, "Give each table one limit.")


def document_over(has_database: bool, value: Json) -> Json:
    """What counts in place of a document: over a database, a plan file of version 2 or 3 may lack its tables."""
    is_later = isinstance(value, dict) and "script" not in value and value.get("version") in (2, 3) and is_whole(None, value["version"])
    return {"tables": [], **value} if has_database and is_later else value


def findings(document: bytes, has_database: bool = False) -> list[Finding]:
    """All that is wrong with the bytes of a document: what counts first in front."""
    if len(document) > MOST_BYTES:
        cause, right = f"The document has {len(document):,} bytes.", f"Write at most {MOST_BYTES:,}."
        return [Finding(Refusal((1,), "refused: too large"), Complaint(cause, right))]
    try:
        value = document_over(has_database, read(document))
    except NotJson as error:
        return [Finding(Refusal((2,), "refused: not json"), Complaint(error.cause, error.right, spot=error.spot))]
    found = list(schema_findings(value))
    ranks = {finding.refusal.rank for finding in found}
    # What follows takes the form of a document for granted.
    if isinstance(value, dict) and not {VERSION.rank, TOP.rank} & ranks:
        if "script" in value:
            found += doubles_of_script(value)
        else:
            found += misplaced_forms(value, ranks)
            ranks = {finding.refusal.rank for finding in found}
            found += high_terms(value, ranks)
            if table_fault("Shape").rank not in ranks:
                found += doubles(value)
    return sorted(dict.fromkeys(found), key=lambda finding: finding.refusal.rank)
