"""The public calls of the libraries that may take memory, from their sources: each function that anyone may call and that takes an
allocator, or answers that memory ran out; and the polls of futures."""

import re

from shared import TOP

# The libraries between a key and the program, lowest first.
CRATES = [
    *("dl_values", "dl_desk", "dl_source", "dl_terms", "dl_cells", "dl_history", "dl_gather", "dl_loader"),
    *("dl_workers", "dl_haxl", "dl_scope", "dl_documents", "dl_replay", "dl_migration", "dl_picture", "dl_plans", "dl_server"),
]

# What a signature names that may take memory. A fault of limits names no memory.
TAKES_MEMORY = re.compile(r"\b(alloc: Global|AllocGlobal|AllocError|(?!Limit)\w+Fault|RunError)\b")

# The head of an impl block at the left, or of a function with its signature, up to its clauses, its body, or its end if it has none.
ITEM = re.compile(
    r"^impl\b(?P<impl>[^{]*?)(?:\{|\n\s*ghost)|^ *(?P<visible>pub )?fn (?P<name>\w+)(?P<signature>[^{]*?)(?=\{|;\n|\n\s*requires|\n\s*ensures)",
    re.M | re.S,
)


def type_of(head):
    """The type of an impl block, without its parameters, and whether the block is of a future."""
    while re.search(r"<[^<>]*>", head):
        head = re.sub(r"<[^<>]*>", "", head)
    trait, _, named = head.rpartition(" for ")
    return named.split()[0], trait.strip() == "Future"


def calls_of(path):
    """The names of the public calls of a file, with their types."""
    text = path.read_text().partition("#[cfg(test)]\nmod tests")[0]
    owner, is_future = None, False
    for item in ITEM.finditer(text):
        if item["impl"] is not None:
            owner, is_future = type_of(item["impl"])
            continue
        at_left = text[text.rfind("\n", 0, item.start()) + 1 : item.end()].startswith(("fn", "pub"))
        name = item["name"] if at_left else f"{owner}::{item['name']}"
        is_poll = is_future and item["name"] == "poll" and not at_left
        if is_poll or (item["visible"] and TAKES_MEMORY.search(item["signature"])):
            yield f"laws::{name}" if path.name == "laws.rt" else name


def public_calls():
    return {call for crate in CRATES for path in sorted((TOP / "crates" / crate / "src").rglob("*.rt")) for call in calls_of(path)}
