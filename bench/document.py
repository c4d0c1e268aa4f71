#!/usr/bin/env python3
"""Prints a document to measure `plans` by: a script of N loads, or a plan file of some K thousand bytes that is full of one thing.

    bench/document.py script | hostile-script | harmless-script N
    bench/document.py ordinary | plans | nested | steps | rows | each | long-keys K [--unserved]
    bench/document.py answers | picks | bodies K

A plan file that is printed with --unserved has room for one call. So it is read whole, and served hardly at all. Its kinds:

    ordinary    half rows of four members, half steps of four plans, each an `all` of a load and of the name of a friend
    plans       the same with the same steps in 16 plans
    nested      half rows of values 100 deep, half steps of terms 32 high
    steps       no more than a thousand bytes of rows, and 16 plans of steps that clear a key, at most 4,096
    rows        short rows, but for a thousand bytes of steps that load them
    each        a quarter short rows, and steps of an `each` over 1,024 ids that are in it
    long-keys   half rows of ids of 256 bytes, half steps that load them

The others ask for much more than they have bytes:

    answers     one row, and an `each` over 1,024 times its id
    picks       one row with one member, and 4,096 steps in 16 plans that pick it
    bodies      of version 3, three `over` of 1,024 items inside one another, which give the value
"""

import sys

# What the ids of scripts begin with: keys whose 32 bytes of length, table and id have one hash, and keys that have hashes of their own.
FRONTS = {"hostile-script": "hostileu7hlkD2YNg6", "harmless-script": "harmless to anyone"}

# Of plan files: the most steps of a plan, how many ids an `each` loads, and how many plans there are.
STEPS = 256
ITEMS = 1_024
PLANS = {"ordinary": 4, "plans": 16, "nested": 4, "steps": 16, "rows": 1, "each": 1, "long-keys": 4}

FRIENDS = '["{0}",{{"best":"{1}","friends":["1","2"],"name":"Ada"}}]'
FRIEND = (
    '{{"eval":{{"all":[{{"load":["user","{0}"]}},'
    '{{"pick":[{{"follow":[{{"load":["user","{0}"]}},"best","user"]}},"name"]}}]}}}}'
)


def script(kind, loads):
    table = "trips" if kind in FRONTS else "users"
    ids = (f"{FRONTS[kind]}{number:08}" if kind in FRONTS else number for number in range(loads))
    calls = ",".join(f'{{"load":["{table}","{key}"]}}' for key in ids)
    return f'{{"script":1,"calls":[{calls}]}}'


def long_id(number):
    return f"{'k' * 246}{number:010}"


def row(kind, number):
    if kind == "nested":
        return f'["{number}",{"[" * 100}{"]" * 100}]'
    if kind in ("rows", "each"):
        return f'["{number}",0]'
    if kind == "long-keys":
        return f'["{long_id(number)}",0]'
    return FRIENDS.format(number, number // 2)


def step(kind, number):
    load = f'{{"load":["user","{long_id(number) if kind == "long-keys" else number}"]}}'
    if kind in ("ordinary", "plans"):
        return FRIEND.format(number)
    if kind == "nested":
        load = '{"all":[' * 31 + load + "]}" * 31
    if kind == "steps":
        return f'{{"clear":["user","{number}"]}}'
    if kind == "each":
        ids = ",".join(f'"{item}"' for item in range(ITEMS))
        load = f'{{"each":[{{"value":{{"f":[{ids}]}}}},"f","user"]}}'
    return f'{{"eval":{load}}}'


def row_bytes(kind, size):
    """How many bytes of a file of that size are rows."""
    return {"rows": size - 1_000, "each": size // 4, "steps": 1_000}.get(kind, size // 2)


def plan_file(kind, size, front):
    parts = [front, '"tables":[{"name":"user","rows":[']
    length = sum(map(len, parts))

    def add(text):
        nonlocal length
        parts.append(text)
        length += len(text)

    rows = 0
    while length < row_bytes(kind, size):
        add(("," if rows else "") + row(kind, rows))
        rows += 1
    add(']}],"plans":[')
    share = max(size - length, 0) // PLANS[kind]
    number = 0
    for plan in range(PLANS[kind]):
        add(",[" if plan else "[")
        end = length + share
        for at in range(STEPS):
            if length >= end:
                break
            add(("," if at else "") + step(kind, number % max(rows, 1)))
            number += 1
        add("]")
    add("]}")
    return "".join(parts)


def costly(kind, size):
    """A plan file of about that size that asks for much more."""
    text = f'"{"x" * size}"'
    if kind == "answers":
        ids = ",".join(['"1"'] * ITEMS)
        table, plans = f'["1",{text}]', f'[{{"eval":{{"each":[{{"value":{{"f":[{ids}]}}}},"f","user"]}}}}]'
    elif kind == "picks":
        step = '{"eval":{"pick":[{"load":["user","1"]},"f"]}}'
        table, plans = f'["1",{{"f":{text}}}]', ",".join([f"[{','.join([step] * STEPS)}]"] * PLANS["plans"])
    else:
        items = ",".join("0" * ITEMS)
        over = f'{{"over":[{{"value":[{items}]}},'
        table, plans = "", f'[{{"eval":{over * 3}{{"value":{text}}}{"]}" * 3}}}]'
    version = 3 if kind == "bodies" else 1
    return f'{{"version":{version},"tables":[{{"name":"user","rows":[{table}]}}],"plans":[{plans}]}}'


def main(kind, count, *words):
    if kind in PLANS:
        front = '{"version":1,"maxCalls":1,' if words == ("--unserved",) else '{"version":1,'
        print(plan_file(kind, int(count) * 1_000, front), end="")
    elif kind in ("answers", "picks", "bodies"):
        print(costly(kind, int(count) * 1_000), end="")
    elif kind == "script" or kind in FRONTS:
        print(script(kind, int(count)), end="")
    else:
        sys.exit(__doc__)


if len(sys.argv) < 3:
    sys.exit(__doc__)
main(*sys.argv[1:])
