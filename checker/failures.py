"""Finds the terms of a plan file that always fail. The program accepts them.

Each term is evaluated over what its keys may have: their rows, and the values by which steps prime them. What a key without either would
have is unknown, and so is what a term gives that always fails. Over a database, any table and any field may be there. A body is evaluated
for one item after the other, since an over fails if its body does for one of them.
"""

from __future__ import annotations

from collections.abc import Iterable, Iterator
from typing import NamedTuple, Optional

from checker.reading import Json, Path, Place
from checker.wording import SCHEMA, Complaint, described, form, listed, nearest, route, shown

ID = SCHEMA["$defs"]["id"]
AN_ID_IS = f"an id is {form(ID)}"
# What the schema doesn't say.
MOST_ITEMS = 1_024
# How many fields are listed.
MOST_FIELDS = 8
# After so many terms a body is evaluated once for all items of a list, and of more values than so many none is known.
MOST_TERMS = 20_000
MOST_VALUES = 32


class Found(NamedTuple):
    """A value that a term may have, and its place in the document. If it is none of the document's, but a list or an object that a term
    makes, the place is that of the term, and the items or members are in `made`, each as the values that it may have."""

    value: Json
    path: Path
    made: list[Values] | dict[str, Values] | None = None


# The values that a term may have, or None if they are unknown.
Values = Optional[list[Found]]


class Failure(NamedTuple):
    """Why a term always fails, what would be right, and the value that it fails by."""

    cause: str
    right: str
    see: Path | None = None


def is_id(value: Json) -> bool:
    return isinstance(value, str) and ID["minLength"] <= len(value.encode()) <= ID["maxLength"]


def members(value: Json) -> Iterator[str]:
    """The names of the members that a value has, at any depth."""
    if isinstance(value, dict):
        yield from value
    for part in value.values() if isinstance(value, dict) else value if isinstance(value, list) else []:
        yield from members(part)


def other_name(name: str, known: Iterable[str], otherwise: str) -> str:
    """What to write for a name that isn't known."""
    near = nearest(name, known)
    return f'Did you mean "{near}"?' if near else otherwise


def kind(found: Found) -> str:
    """A value with the name of its kind, or only this if a term makes the value."""
    return described(found.value) if found.made is None else f"{'a list' if isinstance(found.made, list) else 'an object'} that a term makes"


def id_for(value: Json) -> str:
    """What to write for a value that is no id."""
    is_number = isinstance(value, int) and not isinstance(value, bool)
    return f'Write the text "{value}".' if is_number else "Write an id."


# ---- why a term fails, by the first of the values that it reads


def no_field(form: str, field: str, part: list[Found]) -> Failure:
    """Why none of a part's values has a field."""
    value, path, _ = part[0]
    fails = f'so this "{form}" always fails (NoField)'
    if isinstance(value, list):
        right = 'Read it of one item at a time: by an "all" with a term for each, or by an "over" from version 3 on.'
        return Failure(f"You read {shown(field)} of a list, and a list has no fields, {fails}.", right, path)
    if not isinstance(value, dict):
        return Failure(f"You read {shown(field)} of {described(value)}, {fails}.", "Read it of an object.", path)
    known = sorted({name for found in part if isinstance(found.value, dict) for name in found.value})
    has = f"You can read {listed(map(shown, known[:MOST_FIELDS]), 'or')} here." if known else "Add it to the object."
    return Failure(f"You read {shown(field)} of an object that doesn't have it, {fails}.", other_name(field, known, has), path)


def no_key(field: str, read: list[Found]) -> Failure:
    """Why none of the values that a follow reads is an id."""
    value, path, _ = read[0]
    right = 'For a list of ids, write "each".' if isinstance(value, list) else id_for(value)
    cause = f'{shown(field)} is {kind(read[0])} here, and {AN_ID_IS}, so this "follow" always fails (NotAKey).'
    return Failure(cause, right, path)


def no_keys(field: str, read: list[Found]) -> Failure:
    """Why none of the values that an each reads is a list of ids."""
    value, path, _ = read[0]
    fails = 'so this "each" always fails'
    if not isinstance(value, list):
        right = 'For one id, write "follow".' if is_id(value) else "Write a list of ids."
        return Failure(f"{shown(field)} is {kind(read[0])} here and no list, {fails} (NotAList).", right, path)
    if len(value) > MOST_ITEMS:
        cause = f"{shown(field)} is a list of {len(value):,} items here, {fails} (TooMany)."
        return Failure(cause, f"Write at most {MOST_ITEMS:,}.", path)
    at, item = next((at, item) for at, item in enumerate(value) if not is_id(item))
    cause = f"{shown(field)} has the item {shown(item)} here, and {AN_ID_IS}, {fails} (NotAKey)."
    return Failure(cause, id_for(item), (*path, at))


def no_list(part: list[Found]) -> Failure:
    """Why an over can go through none of a part's values."""
    fails = 'so this "over" always fails'
    if isinstance(part[0].value, list):
        cause = f"This is a list of {len(items_of(part[0])):,} items here, {fails} (TooMany)."
        return Failure(cause, f"Write at most {MOST_ITEMS:,}.", part[0].path)
    return Failure(f"This is {kind(part[0])} here and no list, {fails} (NotAList).", "Write a list.", part[0].path)


# ---- all terms


class Terms:
    """The terms of a plan file, with which nothing else may be wrong, and the warnings about those that were evaluated."""

    def __init__(self, document: Json, has_database: bool) -> None:
        self.warnings: list[Complaint] = []
        self.left = MOST_TERMS
        self.has_database = has_database
        self.tables = dict.fromkeys(table["name"] for table in document["tables"])
        # The values that each key may have.
        self.rows: dict[tuple[str, str], list[Found]] = {}
        self.primed: set[str] = set()
        for number, table in enumerate(document["tables"]):
            for row, (key, value) in enumerate(table["rows"]):
                self.rows[table["name"], key] = [Found(value, ("tables", number, "rows", row, 1))]
        for path, taken in steps(document):
            if "prime" in taken:
                self.prime(path, *taken["prime"])
        self.fields = dict.fromkeys(name for rows in self.rows.values() for row in rows for name in members(row.value))
        for _, taken in steps(document):
            self.fields |= dict.fromkeys(made_names(taken.get("eval")))
        for path, taken in steps(document):
            if "eval" in taken:
                self.values(taken["eval"], (*path, "eval"))

    def prime(self, step: Path, key: list[str], outcome: Json) -> None:
        table, name = key
        self.primed.add(table)
        # Over a database a key of another table may have a row too.
        if "value" in outcome and (table in self.tables or not self.has_database):
            self.rows.setdefault((table, name), []).append(Found(outcome["value"], (*step, "prime", 1, "value")))

    def warn(self, failure: Failure, path: Path) -> None:
        see = Place(failure.see) if failure.see else None
        self.warnings.append(Complaint(failure.cause, failure.right, route(path), Place(path), see))

    def values(self, term: Json, path: Path, item: Values = None) -> Values:
        """The values that a term may have, by those that the item around it may have."""
        self.left -= 1
        ((form, argument),) = term.items()
        path = (*path, form)
        if form == "value":
            return [Found(argument, path)]
        if form == "load":
            self.look_up(argument[0], (*path, 0))
            return self.rows.get((argument[0], argument[1]))
        if form == "item":
            return item
        if form == "all":
            return [Found([], path, [self.values(part, (*path, number), item) for number, part in enumerate(argument)])]
        if form == "object":
            members = {name: self.values(part, (*path, name), item) for name, part in argument.items()}
            return [Found(dict.fromkeys(members), path, members)]
        part = self.values(argument[0], (*path, 0), item)
        if form == "over":
            return [Found([], path, self.bodies(argument[1], (*path, 1), self.items(part, path)))]
        if form == "pick":
            return self.picked(form, argument[1], part, path)
        return self.onward(form, argument, part, path)

    def onward(self, form: str, argument: Json, part: Values, path: Path) -> Values:
        """The values of a follow or an each, by those of its part."""
        # A table that isn't there comes first, since the rows of the right one may have the field.
        self.look_up(argument[2], (*path, 2))
        read = self.picked(form, argument[1], part, path)
        if form == "follow":
            return self.followed(argument, read, path)
        if read and not any(is_list_of_ids(found.value) for found in read):
            self.warn(no_keys(argument[1], read), (*path, 1))
        lists = [found for found in read or () if is_list_of_ids(found.value)]
        return [Found([], path, one_of([[self.rows.get((argument[2], key)) for key in found.value] for found in lists]))]

    def items(self, part: Values, path: Path) -> list[Values]:
        """What the items of a part may be."""
        lists = [items_of(found) for found in part or () if isinstance(found.value, list)]
        lists = [items for items in lists if len(items) <= MOST_ITEMS]
        if part and not lists:
            self.warn(no_list(part), (*path, 0))
        return one_of(lists)

    def bodies(self, body: Json, path: Path, items: list[Values]) -> list[Values]:
        """What a body may have for each item, of which there may be none. If it always fails for one, that is enough, and what it has is unknown."""
        bodies: list[Values] = []
        warned = len(self.warnings)
        for number, item in enumerate(items):
            is_last = self.left < 0
            bodies.append(self.values(body, path, joined(items[number:]) if is_last else item))
            if len(self.warnings) > warned:
                return [None]
            if is_last:
                break
        return bodies

    def look_up(self, table: str, path: Path) -> None:
        """Warns of a table that isn't there, if no step primes a key of it."""
        if self.has_database or table in self.tables or table in self.primed:
            return
        cause = f'No table has the name {shown(table)}, so each of its keys is an error ("no table").'
        self.warn(Failure(cause, other_name(table, self.tables, 'Add it to "tables".')), path)

    def picked(self, form: str, field: str, part: Values, path: Path) -> Values:
        """What the values of a part have as a field."""
        if part is None:
            if field not in self.fields and not self.has_database:
                cause = f'No row has {shown(field)}, so this "{form}" always fails.'
                self.warn(Failure(cause, other_name(field, self.fields, "Add it to a row.")), (*path, 1))
            return None
        having = [found for found in part if isinstance(found.value, dict) and field in found.value]
        if not having:
            self.warn(no_field(form, field, part), (*path, 1))
        # What only some have isn't known of the others.
        if len(having) < len(part):
            return None
        return joined(member_of(found, field) for found in having)

    def followed(self, argument: Json, read: Values, path: Path) -> Values:
        """The rows whose ids are read."""
        if read is None:
            return None
        _, field, table = argument
        ids = [found.value for found in read if is_id(found.value)]
        if not ids:
            self.warn(no_key(field, read), (*path, 1))
        return joined(self.rows.get((table, key)) for key in ids)


def items_of(found: Found) -> list[Values]:
    """What each item of a list may be."""
    if isinstance(found.made, list):
        return found.made
    return [[Found(item, (*found.path, at))] for at, item in enumerate(found.value)]


def member_of(found: Found, name: str) -> Values:
    """What a member of an object may be."""
    return found.made[name] if isinstance(found.made, dict) else [Found(found.value[name], (*found.path, name))]


def one_of(lists: list[list[Values]]) -> list[Values]:
    """What the items may be of a list that is one of these: the items of several count as one, which is unknown if a list has none."""
    if len(lists) == 1:
        return lists[0]
    return [joined(item for items in lists for item in items) if all(lists) else None]


def joined(several: Iterable[Values]) -> Values:
    """What one of several terms may have."""
    found: dict[tuple[Path, int], Found] = {}
    for values in several:
        if values is None:
            return None
        # A value that several keys lead to counts once, or a long term would have very many.
        found.update({(one.path, id(one.made)): one for one in values})
        if len(found) > MOST_VALUES:
            return None
    return list(found.values()) or None


def is_list_of_ids(value: Json) -> bool:
    """Whether an each can go through a value."""
    return isinstance(value, list) and len(value) <= MOST_ITEMS and all(map(is_id, value))


def made_names(part: Json) -> Iterator[str]:
    """The names of the members of the objects that a term makes."""
    if isinstance(part, dict) and isinstance(part.get("object"), dict):
        yield from part["object"]
    for inner in part.values() if isinstance(part, dict) else part if isinstance(part, list) else []:
        yield from made_names(inner)


def steps(document: Json) -> Iterator[tuple[Path, Json]]:
    """The steps of a plan file, each with its path."""
    for plan, taken in enumerate(document["plans"]):
        for step, one in enumerate(taken):
            yield ("plans", plan, step), one


def warnings(document: Json, has_database: bool = False) -> list[Complaint]:
    """What makes terms of a document fail, in order: of a term after what makes its parts fail."""
    return Terms(document, has_database).warnings if "version" in document else []
