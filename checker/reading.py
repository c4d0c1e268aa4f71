"""Reads the JSON of a document as the program does, and finds the line and column of each part of it."""

import json
import re
from collections.abc import Set
from typing import Any, NamedTuple

# How deep lists and objects nest at most.
MOST_LEVELS = 127

# A value of JSON.
Json = Any
# The names and numbers that lead to a part of a document.
Path = tuple[int | str, ...]

# A text, which lacks its end in what isn't JSON, a mark, or a number or word.
TOKEN = re.compile(r'"(?:[^"\\]|\\.)*"?|[\[\]{},:]|[^\s\[\]{},:"]+', re.S)

# What to do about what the module json complains of.
REPAIRS = {
    "Expecting value": "Write a value: a text in double quotes, a number, true, false, null, a list or an object.",
    "Expecting property name enclosed in double quotes": "Write the name of a member, in double quotes.",
    "Expecting ':' delimiter": "Write a colon between the name of a member and its value.",
    "Expecting ',' delimiter": "Write a comma before the next item or member, or close the list or object.",
    "Extra data": "Delete this and all that follows.",
    "Unterminated string starting at": "Close this text with a double quote.",
    "Invalid control character at": r"Write an escape for this character, such as \n or \t.",
    "Invalid \\escape": r"Write \\ for a backslash.",
    "Invalid \\uXXXX escape": r"Write four hexadecimal digits after \u.",
    "Unexpected UTF-8 BOM (decode using utf-8-sig)": "Save the document without a byte order mark.",
}


class Place(NamedTuple):
    """A part of a document: a value, or the name of a member."""

    path: Path
    is_name: bool = False


class NotJson(ValueError):
    """The bytes aren't JSON as the program reads it."""

    def __init__(self, cause: str, right: str, spot: str = "") -> None:
        super().__init__(cause)
        self.cause, self.right, self.spot = cause, right, spot


class NoNumber(ValueError):
    """A number or a word that isn't JSON as the program reads it."""

    def __init__(self, token: str, cause: str, right: str) -> None:
        super().__init__(cause)
        self.token, self.cause, self.right = token, cause, right


def number(token: str) -> int | float:
    """A number: an integer if the program holds one."""
    if re.fullmatch(r"-?\d{1,20}", token) and token != "-0" and -(2**63) <= int(token) < 2**64:
        return int(token)
    if float(token) in (float("inf"), float("-inf")):
        raise NoNumber(token, "This number is too large.", "Write a whole number of at most 20 digits.")
    return float(token)


def no_number(token: str) -> None:
    raise NoNumber(token, f"You wrote {token}, and JSON doesn't have it.", "Write a whole number, or null.")


def spot(text: str, offset: int) -> str:
    """The line and column of a character of a text, both counted from 1."""
    line, column = text.count("\n", 0, offset) + 1, offset - text.rfind("\n", 0, offset)
    return f"line {line}, column {column}"


def decoded(document: bytes) -> str:
    """The text of the bytes."""
    try:
        return document.decode()
    except UnicodeDecodeError as error:
        front = document[: error.start].decode()
        raise NotJson("This byte isn't UTF-8.", "Save the document as UTF-8.", spot(front, len(front))) from None


def reject_deep_nesting(text: str) -> None:
    """Rejects lists and objects that nest too deep."""
    depth = 0
    for token in TOKEN.finditer(text):
        depth += (token[0] in ("[", "{")) - (token[0] in ("]", "}"))
        if depth > MOST_LEVELS:
            cause, right = f"You nest lists and objects {depth} deep.", f"Nest them at most {MOST_LEVELS} deep."
            raise NotJson(cause, right, spot(text, token.start()))


def reject_half_characters(text: str) -> None:
    """Rejects texts that hold half of a surrogate pair."""
    for token in TOKEN.finditer(text):
        if "\\u" not in token[0]:
            continue
        try:
            json.loads(token[0]).encode()
        except UnicodeEncodeError:
            cause, right = "This text has half of a surrogate pair.", "Write both halves, or the character itself."
            raise NotJson(cause, right, spot(text, token.start())) from None


def repair(error: json.JSONDecodeError) -> str:
    """What to do about a syntax error."""
    if error.doc[error.pos : error.pos + 1] in ("]", "}") and error.doc[: error.pos].rstrip().endswith(","):
        return "Delete the comma before this."
    # Newer versions of the module point to such a comma itself.
    return "Delete this comma." if "trailing comma" in error.msg else REPAIRS.get(error.msg, f"{error.msg}.")


def read(document: bytes) -> Json:
    """The value of the bytes."""
    text = decoded(document)
    if not text.strip(" \t\r\n"):
        raise NotJson("The document is empty.", "Write a plan file or a script.")
    reject_deep_nesting(text)
    try:
        value = json.loads(text, parse_int=number, parse_float=number, parse_constant=no_number)
    except json.JSONDecodeError as error:
        raise NotJson("This isn't JSON.", repair(error), spot(text, error.pos)) from None
    except NoNumber as error:
        # The first one of these tokens, since the module reads in order.
        first = next(token.start() for token in TOKEN.finditer(text) if token[0].startswith(error.token))
        raise NotJson(error.cause, error.right, spot(text, first)) from None
    reject_half_characters(text)
    return value


def offsets(text: str, places: Set[Place]) -> dict[Place, int]:
    """For each of these places in a text of JSON, the number of its first character."""
    found: dict[Place, int] = {}
    # The last entry is None before the name of a member.
    path: list[Any] = []
    for token in TOKEN.finditer(text):
        word = token[0]
        if word in ("]", "}"):
            path.pop()
        elif word == ",":
            path[-1] = None if isinstance(path[-1], str) else path[-1] + 1
        elif word != ":":
            is_name = bool(path) and path[-1] is None
            if is_name:
                path[-1] = json.loads(word)
            # Of two members of one name the last counts.
            if (place := Place(tuple(path), is_name)) in places:
                found[place] = token.start()
            if not is_name and word in ("[", "{"):
                path.append(0 if word == "[" else None)
    return found
