"""What the program `plans` gives for documents and command lines: rows, by what they show. tests/program runs it on each."""

import itertools
from typing import NamedTuple


class Holding(NamedTuple):
    """A text of clap's making: it begins so, and has these parts in it, in this order."""

    front: str
    parts: tuple[str, ...]


class Row(NamedTuple):
    """A document on standard input, and how the program ends by each of the command lines."""

    about: str
    document: bytes
    command_lines: tuple[str, ...] = ("",)
    status: int = 0
    # All of standard output and of standard error.
    output: str | Holding = ""
    error: str | Holding = ""
    # Whether the document is read, up to the first byte that is one too many, or nothing of it.
    is_read: bool = True
    # Whether standard output takes nothing.
    is_full: bool = False
    # Whether ./check_document is held against it, which takes its time on what is large.
    is_checked: bool = True


def document(*parts):
    """The parts in order. One that comes several times is a pair, of a text and of how often."""
    texts = (part if isinstance(part, (str, bytes)) else part[0] * part[1] for part in parts)
    return b"".join(text if isinstance(text, bytes) else text.encode() for text in texts)


def answered(about, text, *lines, **others):
    """The row of a document that gives these lines on standard output, and nothing on standard error."""
    return Row(about, document(text), output="".join(f"{line}\n" for line in lines), **others)


def refused(line, *parts, about=None):
    """The row of a document that gets this refusal, whatever the words. If `about` says nothing, the document is short."""
    text = document(*parts)
    return Row(about or text.decode(), text, command_lines=("", "--batches", "migrate"), status=1, error=f"refused: {line}\n")


ROWS = {}

# ---- scripts

ROWS["a script gives its text"] = [
    answered(
        "a second load hits",
        '{"script":1,"maxBatchSize":2,"calls":[{"load":["t","a"]},{"load":["t","a"]}]}',
        "fresh 0 0",
        "hit 0",
    ),
    answered(
        "a full batch is followed by a new one",
        '{"script":1,"maxBatchSize":2,"calls":[{"load":["t","a"]},{"load":["t","b"]},{"load":["t","c"]},{"dispatch":true}]}',
        "fresh 0 0",
        "fresh 1 0",
        "fresh 2 1",
        "sent 2",
        'job 0 ["t","a"] ["t","b"]',
        'job 1 ["t","c"]',
    ),
    answered(
        "calls on nothing reply",
        '{"script":1,"maxBatchSize":2,"calls":[{"dispatch":true},{"loadMany":[]}]}',
        "sent 0",
        "many 0",
    ),
    answered(
        "a batch holds a key once",
        '{"script":1,"maxBatchSize":2,"calls":[{"load":["t","a"]},{"clear":["t","a"]},{"load":["t","a"]},{"load":["t","b"]}]}',
        "fresh 0 0",
        "ok",
        "fresh 1 1",
        "fresh 2 1",
    ),
    answered(
        "a primed key is held",
        '{"script":1,"maxBatchSize":2,"calls":[{"prime":["t","a"]},{"load":["t","a"]},{"prime":["t","a"]}]}',
        "primed 0",
        "hit 0",
        "kept",
    ),
    answered(
        "a pending key is kept until all are cleared",
        '{"script":1,"maxBatchSize":2,"calls":[{"load":["t","a"]},{"prime":["t","a"]},{"clearAll":true},{"prime":["t","a"]}]}',
        "fresh 0 0",
        "kept",
        "ok",
        "primed 1",
    ),
    answered(
        "a late failure keeps a newer cell",
        '{"script":1,"maxBatchSize":2,"calls":[{"load":["t","a"]},{"dispatch":true},{"clear":["t","a"]},'
        '{"load":["t","a"]},{"fail":0},{"load":["t","a"]}]}',
        "fresh 0 0",
        "sent 1",
        'job 0 ["t","a"]',
        "ok",
        "fresh 1 1",
        "ok",
        "hit 1",
    ),
    answered(
        "a failed batch is forgotten",
        '{"script":1,"maxBatchSize":2,"calls":[{"load":["t","a"]},{"dispatch":true},{"fail":0},{"load":["t","a"]}]}',
        "fresh 0 0",
        "sent 1",
        'job 0 ["t","a"]',
        "ok",
        "fresh 1 1",
    ),
    answered(
        "a batch ends once after it was sent",
        '{"script":1,"maxBatchSize":2,"calls":[{"load":["t","a"]},{"settle":0},{"dispatch":true},{"settle":0},'
        '{"load":["t","a"]},{"settle":0},{"fail":0},{"settle":5}]}',
        "fresh 0 0",
        "refused NotSent",
        "sent 1",
        'job 0 ["t","a"]',
        "ok",
        "hit 0",
        "refused SettledBefore",
        "refused SettledBefore",
        "refused NoBatch",
    ),
    answered(
        "a batch fails once after it was sent",
        '{"script":1,"calls":[{"load":["t","a"]},{"fail":0},{"fail":5},{"dispatch":true},{"fail":0},{"fail":0},'
        '{"settle":0},{"settle":1}]}',
        "fresh 0 0",
        "refused NotSent",
        "refused NoBatch",
        "sent 1",
        'job 0 ["t","a"]',
        "ok",
        "refused SettledBefore",
        "refused SettledBefore",
        "refused NoBatch",
    ),
    answered(
        "the least limits",
        '{"script":1,"maxBatchSize":1,"maxCells":1,"maxCalls":1,"calls":[{"load":["t","a"]}]}',
        "fresh 0 0",
    ),
    answered(
        "the largest limits",
        '{"script":1,"maxBatchSize":65536,"maxCells":65536,"maxCalls":65536,"calls":[{"load":["t","a"]}]}',
        "fresh 0 0",
    ),
    answered(
        "a call that needs too many cells adds nothing",
        '{"script":1,"maxBatchSize":2,"maxCells":2,"calls":[{"load":["t","a"]},{"loadMany":[["t","b"],["t","c"],["t","b"]]},'
        '{"loadMany":[["t","b"],["t","b"],["t","a"]]},{"prime":["t","c"]}]}',
        "fresh 0 0",
        "refused CellsFull 2",
        "many 3",
        "fresh 1 0",
        "hit 1",
        "hit 0",
        "refused CellsFull 2",
    ),
    answered(
        "a load is refused where the cells are full",
        '{"script":1,"maxCells":1,"calls":[{"load":["t","a"]},{"load":["t","b"]},{"load":["t","a"]}]}',
        "fresh 0 0",
        "refused CellsFull 1",
        "hit 0",
    ),
    answered(
        "ends come in any order",
        '{"script":1,"maxBatchSize":1,"calls":[{"load":["t","a"]},{"load":["t","b"]},{"dispatch":true},{"settle":1},{"fail":0},'
        '{"load":["t","a"]},{"load":["t","b"]},{"dispatch":true}]}',
        "fresh 0 0",
        "fresh 1 1",
        "sent 2",
        'job 0 ["t","a"]',
        'job 1 ["t","b"]',
        "ok",
        "ok",
        "fresh 2 2",
        "hit 1",
        "sent 1",
        'job 2 ["t","a"]',
    ),
    answered(
        "no batch has the greatest number",
        '{"script":1,"calls":[{"settle":4294967295},{"fail":4294967295}]}',
        "refused NoBatch",
        "refused NoBatch",
    ),
    answered("no calls give nothing", '{"script":1,"calls":[]}'),
]

ROWS["other documents are no scripts"] = [
    refused("not json", about="no bytes"),
    refused("not json", "{"),
    refused("not json", '{"script":1,"calls":[]} 1'),
    refused("version", '{"script":3,"calls":[]}'),
    refused("version", '{"script":1.0,"calls":[]}'),
    refused("version", '{"script":"1","calls":[]}'),
    refused("version", '{"version":1,"script":3,"tables":[],"plans":[[]]}'),
    refused("top", '{"version":1,"script":2,"tables":[],"plans":[[]]}'),
    refused("top", '{"script":1,"version":1,"calls":[]}'),
    refused("call 1", '{"script":1,"calls":[{"load":["t","a"]},{"load":["t",""]}]}'),
    refused("top", '{"script":1,"x":1,"calls":[5]}'),
    refused("top", '{"script":1}'),
    refused("top", '{"script":1,"calls":{}}'),
    refused("top", '{"script":1,"maxBatchSize":"2","calls":[]}'),
    refused("top", '{"script":1,"maxCells":null,"calls":[]}'),
    refused("top", '{"script":1,"maxCalls":1.0,"calls":[]}'),
    refused("limit BatchLimit", '{"script":1,"maxBatchSize":0,"calls":[]}'),
    refused("limit BatchLimit", '{"script":1,"maxBatchSize":65537,"maxCells":0,"calls":[]}'),
    refused("limit BatchLimit", '{"script":1,"maxBatchSize":-1,"calls":[]}'),
    refused("limit CellLimit", '{"script":1,"maxCells":0,"maxCalls":0,"calls":[]}'),
    refused("limit CellLimit", '{"script":1,"maxCells":65537,"maxCalls":-1,"calls":[]}'),
    refused("limit CallLimit", '{"script":1,"maxCalls":0,"calls":[]}'),
    refused("limit CallLimit", '{"script":1,"maxCalls":18446744073709551615,"calls":[]}'),
    refused("limit CallLimit", '{"script":1,"maxCalls":65537,"calls":[]}'),
    refused("call 0", '{"script":1,"maxBatchSize":0,"calls":[{"clearAll":false}]}'),
]

# Items that are no calls: of no name or of two, of none that a script has, and each name with other arguments than its own.
ROWS["other calls are refused"] = [
    refused("call 1", '{"script":1,"calls":[{"clearAll":true},', item, "]}")
    for item in [
        "5",
        "{}",
        '{"load":["t","a"],"clear":["t","a"]}',
        '{"read":["t","a"]}',
        '{"load":"a"}',
        '{"load":["t"]}',
        '{"load":["t","a","b"]}',
        '{"load":["t",1]}',
        '{"load":["","a"]}',
        '{"loadMany":["t","a"]}',
        '{"loadMany":[["t","a"],["t",""]]}',
        '{"prime":["t",""]}',
        '{"clear":[1,"a"]}',
        '{"clearAll":1}',
        '{"clearAll":false}',
        '{"dispatch":false}',
        '{"settle":-1}',
        '{"settle":4294967296}',
        '{"fail":4294967296}',
        '{"fail":1.0}',
        '{"fail":"0"}',
    ]
]


def load_of(table, key):
    """The parts of a script that loads a key, whose table and id have this many bytes."""
    return '{"script":1,"calls":[{"load":["', ("x", table), '","', ("x", key), '"]}]}'


ROWS["a call takes keys up to their limits"] = [
    answered("a table of 1 byte, an id of 1", document(*load_of(1, 1)), "fresh 0 0"),
    answered("a table of 64 bytes, an id of 256", document(*load_of(64, 256)), "fresh 0 0"),
    refused("call 0", *load_of(0, 1), about="a table of no bytes"),
    refused("call 0", *load_of(65, 1), about="a table of 65 bytes"),
    refused("call 0", *load_of(1, 0), about="an id of no bytes"),
    refused("call 0", *load_of(1, 257), about="an id of 257 bytes"),
]

# ---- plan files

# Three users, one whose row is an error, and one that breaks the source.
USERS = (
    '[{"name":"user","rows":[["u1",{"best":"u2","friends":["u2","u3"],"name":"Ada"}],["u2",{"best":"u1","friends":[],"name":"Bob"}],'
    '["u3",{"name":"Cy"}]],"errors":[["u9","gone"]],"breaks":[["u13","db down"]]}]'
)

# Command lines that ask for no batches, and some that do.
PLAIN = ("", "--workers 1", "--workers 16")
BATCHES = ("--batches", "--batches --workers 1", "--workers 16 --batches")


def plan_file(plans, limits='"maxBatchSize":2,'):
    """A plan file over the tables of users. Its limits have a comma behind each."""
    return f'{{"version":1,{limits}"tables":{USERS},"plans":{plans}}}'


def plain(about, plans, *lines, **limits):
    """The row of plans over the tables of users, whose batches aren't asked for."""
    return answered(about, plan_file(plans, **limits), *lines, command_lines=PLAIN)


def batches(about, plans, *lines, **limits):
    """The row of a plan over the tables of users, whose rounds and batches are asked for."""
    return answered(about, plan_file(plans, **limits), *lines, command_lines=BATCHES)


def failed(name, about, plans, limits, command_lines):
    """The row of plans that aren't served."""
    return Row(about, document(plan_file(plans, limits)), command_lines, status=3, error=f"failed: {name}\n")


NAME_OF_A_FRIEND = '[[{"eval":{"pick":[{"follow":[{"load":["user","u1"]},"best","user"]},"name"]}}]]'
BOB = '0 0 ok "Bob"'

# Four plans, which are served at once.
FOUR = """[[{"eval":{"pick":[{"follow":[{"load":["user","u1"]},"best","user"]},"name"]}}],
 [{"eval":{"each":[{"load":["user","u1"]},"friends","user"]}}],
 [{"eval":{"all":[]}}],
 [{"eval":{"load":["user","u7"]}}]]"""
LINES_OF_FOUR = [
    BOB,
    '1 0 ok [{"best":"u1","friends":[],"name":"Bob"},{"name":"Cy"}]',
    "2 0 ok []",
    '3 0 fault key ["user","u7"] "no row"',
]

ONE_USER = '[[{"eval":{"load":["user","u1"]}}]]'
ADA = '{"best":"u2","friends":["u2","u3"],"name":"Ada"}'

# A plan file up to its one plan, and up to the term of that plan's one step.
PLAN = '{"version":1,"tables":[],"plans":[['
TERM = PLAN + '{"eval":'

# A step that does little, with another behind it, and the last one, which ends the file.
STEP = '{"clearAll":true},'
LAST = '{"clearAll":true}]]}'

ROWS["a plan file is answered"] = [
    batches(
        "two users, one of them twice",
        '[[{"eval":{"all":[{"load":["user","u1"]},{"load":["user","u2"]},{"load":["user","u1"]}]}}]]',
        f'0 0 ok [{ADA},{{"best":"u1","friends":[],"name":"Bob"}},{ADA}]',
        "rounds 1",
        'batch 0 [["user","u1"],["user","u2"]] settled',
    ),
    batches(
        "the name of a friend",
        NAME_OF_A_FRIEND,
        BOB,
        "rounds 2",
        'batch 0 [["user","u1"]] settled',
        'batch 1 [["user","u2"]] settled',
    ),
    batches(
        "no friends",
        '[[{"eval":{"each":[{"load":["user","u2"]},"friends","user"]}}]]',
        "0 0 ok []",
        "rounds 1",
        'batch 0 [["user","u2"]] settled',
    ),
    batches(
        "a key with an error, which is kept",
        '[[{"eval":{"load":["user","u9"]}},{"eval":{"load":["user","u9"]}}]]',
        '0 0 fault key ["user","u9"] "gone"',
        '0 1 fault key ["user","u9"] "gone"',
        "rounds 2",
        'batch 0 [["user","u9"]] settled',
    ),
    batches(
        "a key that breaks its batch, which is not kept",
        '[[{"eval":{"all":[{"load":["user","u1"]},{"load":["user","u13"]}]}},{"eval":{"load":["user","u1"]}}]]',
        '0 0 fault batch ["user","u1"] "db down"',
        f"0 1 ok {ADA}",
        "rounds 2",
        'batch 0 [["user","u1"],["user","u13"]] failed',
        'batch 1 [["user","u1"]] settled',
    ),
    batches(
        "all friends, in batches of one",
        '[[{"eval":{"each":[{"load":["user","u1"]},"friends","user"]}}]]',
        '0 0 ok [{"best":"u1","friends":[],"name":"Bob"},{"name":"Cy"}]',
        "rounds 2",
        'batch 0 [["user","u1"]] settled',
        'batch 1 [["user","u2"]] settled',
        'batch 2 [["user","u3"]] settled',
        limits='"maxBatchSize":1,',
    ),
    batches(
        "a key that was loaded before it is followed",
        '[[{"eval":{"all":[{"load":["user","u2"]},{"follow":[{"load":["user","u1"]},"best","user"]}]}}]]',
        '0 0 ok [{"best":"u1","friends":[],"name":"Bob"},{"best":"u1","friends":[],"name":"Bob"}]',
        "rounds 1",
        'batch 0 [["user","u2"],["user","u1"]] settled',
    ),
    batches(
        "a field of no object beside a load",
        '[[{"eval":{"all":[{"pick":[{"value":1},"x"]},{"load":["user","u1"]}]}}]]',
        "0 0 fault NoField",
        "rounds 1",
        'batch 0 [["user","u1"]] settled',
    ),
    batches(
        "items that are no keys beside one that is",
        '[[{"eval":{"each":[{"value":{"f":["",1,"u2"]}},"f","user"]}}]]',
        "0 0 fault NotAKey",
        "rounds 1",
        'batch 0 [["user","u2"]] settled',
    ),
    batches(
        "more than 1,024 items",
        '[[{"eval":{"each":[{"value":{"f":[' + ",".join(['"u1"'] * 1_025) + ']}},"f","user"]}}]]',
        "0 0 fault TooMany",
        "rounds 0",
    ),
    plain("four plans in batches of one", FOUR, *LINES_OF_FOUR, limits='"maxBatchSize":1,'),
    plain("four plans in batches of two", FOUR, *LINES_OF_FOUR),
    plain("four plans in batches of any size", FOUR, *LINES_OF_FOUR, limits='"maxBatchSize":65536,'),
    batches("four plans, whose batches are asked for in vain", FOUR, *LINES_OF_FOUR),
    batches(
        "a key that is primed, cleared and loaded",
        '[[{"prime":[["user","u1"],{"value":5}]},{"eval":{"load":["user","u1"]}},{"clear":["user","u1"]},'
        '{"eval":{"load":["user","u1"]}},{"clearAll":true}]]',
        "0 1 ok 5",
        f"0 3 ok {ADA}",
        "rounds 2",
        'batch 0 [["user","u1"]] settled',
    ),
    batches(
        "keys that are held and primed again, which keep what they have",
        '[[{"prime":[["user","u1"],{"value":5}]},{"prime":[["user","u1"],{"value":6}]},{"eval":{"load":["user","u1"]}},'
        '{"eval":{"load":["user","u3"]}},{"prime":[["user","u3"],{"value":7}]},{"eval":{"load":["user","u3"]}}]]',
        "0 2 ok 5",
        '0 3 ok {"name":"Cy"}',
        '0 5 ok {"name":"Cy"}',
        "rounds 3",
        'batch 0 [["user","u3"]] settled',
    ),
    batches(
        "terms that give no value",
        '[[{"eval":{"pick":[{"value":1},"x"]}},{"eval":{"each":[{"load":["user","u3"]},"name","user"]}},'
        '{"eval":{"follow":[{"load":["user","u1"]},"friends","user"]}},{"eval":{"load":["shop","s"]}}]]',
        "0 0 fault NoField",
        "0 1 fault NotAList",
        "0 2 fault NotAKey",
        '0 3 fault key ["shop","s"] "no table"',
        "rounds 3",
        'batch 0 [["user","u3"]] settled',
        'batch 1 [["user","u1"]] settled',
        'batch 2 [["shop","s"]] settled',
    ),
    batches(
        "an error that is primed, whose text has a line feed",
        r'[[{"prime":[["user","u1"],{"error":"a\n\"b\""}]},{"eval":{"load":["user","u1"]}}]]',
        r'0 1 fault key ["user","u1"] "a\n\"b\""',
        "rounds 1",
    ),
    batches(
        "all friends, the name of one and another user, in two rounds",
        '[[{"eval":{"all":[{"each":[{"load":["user","u1"]},"friends","user"]},'
        '{"pick":[{"follow":[{"load":["user","u1"]},"best","user"]},"name"]},{"load":["user","u3"]}]}}]]',
        '0 0 ok [[{"best":"u1","friends":[],"name":"Bob"},{"name":"Cy"}],"Bob",{"name":"Cy"}]',
        "rounds 2",
        'batch 0 [["user","u1"],["user","u3"]] settled',
        'batch 1 [["user","u2"]] settled',
    ),
    batches(
        "the members of a value in the order of their names, and its numbers",
        '[[{"eval":{"value":{"b":[null,true,-9223372036854775808],"a":18446744073709551615}}}]]',
        '0 0 ok {"a":18446744073709551615,"b":[null,true,-9223372036854775808]}',
        "rounds 0",
    ),
    plain(
        "a plan that ends while others go on",
        '[[],[{"eval":{"value":1}}],[{"clearAll":true},{"clear":["user","u1"]},{"eval":{"value":[]}}]]',
        "1 0 ok 1",
        "2 2 ok []",
    ),
    failed(
        "Run",
        "two cells where there is one",
        '[[{"eval":{"all":[{"load":["user","u1"]},{"load":["user","u2"]}]}}]]',
        '"maxBatchSize":2,"maxCells":1,',
        BATCHES,
    ),
    failed(
        "Run",
        "two plans that meet faults at once",
        '[[{"eval":{"all":[{"load":["user","u1"]},{"load":["user","u2"]}]}}],'
        '[{"eval":{"all":[{"load":["user","u3"]},{"load":["user","u9"]}]}}]]',
        '"maxBatchSize":2,"maxCells":1,',
        PLAIN,
    ),
    failed("Run", "two calls where there is one", ONE_USER, '"maxCalls":1,', PLAIN),
    failed("Stopped", "three calls where there are two, the third of a worker", ONE_USER, '"maxCalls":2,', PLAIN),
    plain("three calls where there are three", ONE_USER, f"0 0 ok {ADA}", limits='"maxCalls":3,'),
    batches("a plan of no steps", "[[]]", "rounds 0"),
    answered("no tables, and a plan of no steps", document(PLAN, "]]}")),
    answered(
        "a term of height 32, by all",
        document(TERM, ('{"all":[', 31), '{"value":1}', ("]}", 31), "}]]}"),
        "0 0 ok [[[[[[[[[[[[[[[[[[[[[[[[[[[[[[[1]]]]]]]]]]]]]]]]]]]]]]]]]]]]]]]",
    ),
    answered("the name of a friend, by no options", plan_file(NAME_OF_A_FRIEND), BOB),
    answered(
        "the name of a friend, in a file of 1,048,576 bytes",
        document(plan_file(NAME_OF_A_FRIEND), (" ", 1_048_243)),
        BOB,
        "rounds 2",
        'batch 0 [["user","u1"]] settled',
        'batch 1 [["user","u2"]] settled',
        command_lines=BATCHES,
    ),
    answered(
        "as many plans as there may be",
        document('{"version":1,"tables":[],"plans":[', ("[],", 15), '[{"eval":{"value":"last"}}]]}'),
        '15 0 ok "last"',
    ),
]

ROWS["other documents are no plan files"] = [
    refused("not json", ("[", 200), ("]", 200), about="200 lists in one another"),
    refused("not json", "[1] 2"),
    refused("not json", "[1"),
    refused("not json", '{"version":1,"tables":[],"plans":[[]]'),
    # lists and objects nest 127 deep at most, at each place
    refused("version", ("[", 127), ("]", 127), about="127 lists in one another"),
    refused("not json", ("[", 128), ("]", 128), about="128 lists in one another"),
    refused("table Shape", '{"version":1,"plans":[[]],"tables":', ("[", 126), ("]", 126), "}", about="tables 127 deep"),
    refused("not json", '{"version":1,"plans":[[]],"tables":', ("[", 127), ("]", 127), "}", about="tables 128 deep"),
    refused("plan 0 step 0", '{"version":1,"tables":[],"plans":', ("[", 126), ("]", 126), "}", about="plans 127 deep"),
    refused("not json", '{"version":1,"tables":[],"plans":', ("[", 127), ("]", 127), "}", about="plans 128 deep"),
    refused("not json", b"\xff", about="one byte that is no UTF-8"),
    refused("version", "{}"),
    refused("version", "null"),
    refused("version", "[1]"),
    refused("version", '{"tables":[],"plans":[[]]}'),
    refused("version", '{"version":4,"tables":[],"plans":[[]]}'),
    refused("version", '{"version":1.0,"tables":[],"plans":[[]]}'),
    refused("version", '{"version":"1","tables":[],"plans":[[]]}'),
    refused("top", '{"version":1}'),
    refused("top", '{"version":1,"tables":[]}'),
    refused("top", '{"version":1,"plans":[[]]}'),
    refused("top", '{"version":1,"tables":[],"plans":{}}'),
    refused("top", '{"version":1,"tables":[],"plans":[]}'),
    refused("top", '{"version":1,"tables":[],"plans":[[],{}]}'),
    refused("top", '{"version":1,"tables":[],"plans":[[]],"calls":[]}'),
    refused("top", '{"version":1,"maxBatchSize":"2","tables":[],"plans":[[]]}'),
    refused("top", '{"version":1,"maxCells":null,"tables":[],"plans":[[]]}'),
    refused("top", '{"version":1,"maxCalls":1.0,"tables":[],"plans":[[]]}'),
    refused("plan 1 step 0", '{"version":1,"tables":[],"plans":[[],[{"eval":{"load":["t"]}}]]}'),
    refused("plan 0 step 0", '{"version":1,"tables":[],"plans":[[{"eval":{"value":1.5}}]]}'),
    refused("table Shape", '{"version":1,"tables":{},"plans":[[]]}'),
    refused("table BadKey", '{"version":1,"tables":[{"name":"","rows":[]}],"plans":[[]]}'),
    refused("table NotWhole", '{"version":1,"tables":[{"name":"t","rows":[["a",{"n":1.5}]]}],"plans":[[]]}'),
    refused("table DuplicateTable", '{"version":1,"tables":[{"name":"t","rows":[]},{"name":"t","rows":[]}],"plans":[[]]}'),
    refused("table DuplicateKey", '{"version":1,"tables":[{"name":"t","rows":[["u1",1],["u1",2]]}],"plans":[[]]}'),
    refused("limit BatchLimit", '{"version":1,"maxBatchSize":0,"tables":[],"plans":[[]]}'),
    refused("limit BatchLimit", '{"version":1,"maxBatchSize":-1,"tables":[],"plans":[[]]}'),
    refused("limit CellLimit", '{"version":1,"maxCells":65537,"tables":[],"plans":[[]]}'),
    refused("limit CallLimit", '{"version":1,"maxCalls":0,"tables":[],"plans":[[]]}'),
    refused("limit CallLimit", '{"version":1,"maxCalls":65537,"tables":[],"plans":[[]]}'),
    refused("limit CallLimit", '{"version":1,"maxCalls":18446744073709551615,"tables":[],"plans":[[]]}'),
    # of two causes the first
    refused("top", '{"version":1,"tables":[],"plans":[[5]],"x":1}'),
    refused("plan 0 step 1", '{"version":1,"maxCells":0,"tables":{},"plans":[[{"clearAll":true},5]]}'),
    refused("plan 0 step 1", '{"version":1,"tables":[],"plans":[[{"clearAll":true},{"clear":[]}],[{"x":1}]]}'),
    refused("plan 1 step 1", '{"version":1,"tables":[],"plans":[[{"clearAll":true}],[{"clearAll":true},{"x":1},5],[5]]}'),
    refused("table Shape", '{"version":1,"maxCells":0,"tables":[5],"plans":[[]]}'),
    refused("table NotWhole", '{"version":1,"tables":[{"name":"t","rows":[["a",1.5]]},{"name":"t","rows":[]}],"plans":[[]]}'),
    refused("table DuplicateKey", '{"version":1,"maxCalls":0,"tables":[{"name":"t","rows":[["a",1],["a",2]]}],"plans":[[]]}'),
    refused("limit BatchLimit", '{"version":1,"maxCells":0,"maxBatchSize":65537,"tables":[],"plans":[[]]}'),
    refused("limit CellLimit", '{"version":1,"maxCells":0,"maxCalls":0,"tables":[],"plans":[[]]}'),
]

# Items that are no steps: of no name or of two, of none that a step or a term has, and each name with other arguments than its own.
ROWS["other steps are refused"] = [
    refused("plan 1 step 2", '{"version":1,"tables":[],"plans":[[],[{"clearAll":true},{"clear":["t","a"]},', item, "]]}")
    for item in [
        "5",
        "[]",
        "{}",
        '{"clearAll":true,"clear":["t","a"]}',
        '{"load":["t","a"]}',
        '{"dispatch":true}',
        '{"clearAll":false}',
        '{"clearAll":1}',
        '{"clear":["t"]}',
        '{"clear":["","a"]}',
        '{"clear":["t",1]}',
        '{"prime":["t","a"]}',
        '{"prime":[["t","a"]]}',
        '{"prime":[["t","a"],{"value":1},0]}',
        '{"prime":[["t",""],{"value":1}]}',
        '{"prime":[["t","a"],1]}',
        '{"prime":[["t","a"],{}]}',
        '{"prime":[["t","a"],{"value":1,"error":"x"}]}',
        '{"prime":[["t","a"],{"error":1}]}',
        '{"prime":[["t","a"],{"load":["t","a"]}]}',
        '{"prime":[["t","a"],{"value":1.0}]}',
        '{"prime":[["t","a"],{"value":[{"x":0.5}]}]}',
        '{"eval":5}',
        '{"eval":[]}',
        '{"eval":{}}',
        '{"eval":{"value":1,"load":["t","a"]}}',
        '{"eval":{"other":1}}',
        '{"eval":{"value":1e2}}',
        '{"eval":{"value":{"a":[1,2.5]}}}',
        '{"eval":{"value":18446744073709551616}}',
        '{"eval":{"load":"a"}}',
        '{"eval":{"load":["t","a","b"]}}',
        '{"eval":{"load":["t",""]}}',
        '{"eval":{"pick":[{"value":1}]}}',
        '{"eval":{"pick":["f",{"value":1}]}}',
        '{"eval":{"pick":[{"value":1},1]}}',
        '{"eval":{"pick":[{"value":1},"f","t"]}}',
        '{"eval":{"pick":{"value":1}}}',
        '{"eval":{"follow":[{"value":1},"f"]}}',
        '{"eval":{"follow":[{"value":1},"f",""]}}',
        '{"eval":{"follow":[{"value":1.5},"f","t"]}}',
        '{"eval":{"follow":["f",{"value":1},"t"]}}',
        '{"eval":{"each":[{"value":1},"f",1]}}',
        '{"eval":{"each":[{"value":1},1,"t"]}}',
        '{"eval":{"each":[{"value":1},"f","t",0]}}',
        '{"eval":{"each":[{"value":1},"f",""]}}',
        '{"eval":{"all":{}}}',
        '{"eval":{"all":{"value":1}}}',
        '{"eval":{"all":[{"value":1},5]}}',
        '{"eval":{"all":[{"all":[{"load":["t"]}]}]}}',
        '{"eval":{"all":[{"all":[{"value":1.5}]}]}}',
    ]
]

ROWS["a plan file has limits"] = [
    answered("16 plans", document('{"version":1,"tables":[],"plans":[', ("[],", 15), "[]]}")),
    refused("top", '{"version":1,"tables":[],"plans":[', ("[],", 16), "[]]}", about="17 plans"),
    answered("256 steps", document(PLAN, (STEP, 255), LAST)),
    refused("too many steps plan 0", PLAN, (STEP, 256), LAST, about="257 steps"),
    refused("plan 0 step 256", PLAN, (STEP, 256), "5]]}", about="257 steps, of which the last is none"),
    refused(
        "too many steps plan 0",
        PLAN,
        (STEP, 256),
        '{"clearAll":true}],[',
        (STEP, 256),
        LAST,
        about="two plans of 257 steps",
    ),
    refused(
        "too deep plan 0 step 0",
        TERM,
        ('{"all":[', 32),
        '{"value":1}',
        ("]}", 32),
        "}]]}",
        about="a term of height 33, by all",
    ),
    answered(
        "a term of height 32, by pick",
        document(TERM, ('{"pick":[', 31), '{"value":1}', (',"f"]}', 31), "}]]}"),
        "0 0 fault NoField",
    ),
    refused(
        "too deep plan 0 step 0",
        TERM,
        ('{"pick":[', 32),
        '{"value":1}',
        (',"f"]}', 32),
        "}]]}",
        about="a term of height 33, by pick",
    ),
    refused(
        "too deep plan 0 step 0",
        TERM,
        ('{"follow":[', 32),
        '{"value":1}',
        (',"f","t"]}', 32),
        "}]]}",
        about="a term of height 33, by follow",
    ),
    refused(
        "too deep plan 0 step 0",
        TERM,
        ('{"each":[', 32),
        '{"value":1}',
        (',"f","t"]}', 32),
        "}]]}",
        about="a term of height 33, by each",
    ),
    refused(
        "too deep plan 0 step 0",
        TERM,
        ('{"all":[', 32),
        '{"all":[]}',
        ("]}", 32),
        "}]]}",
        about="an all without parts at height 33",
    ),
    refused(
        "plan 0 step 1",
        TERM,
        ('{"all":[', 32),
        '{"value":1}',
        ("]}", 32),
        "},5]]}",
        about="a term of height 33, and then a step that is none",
    ),
    refused(
        "too deep plan 0 step 256",
        PLAN,
        (STEP, 256),
        '{"eval":',
        ('{"all":[', 33),
        ("]}", 33),
        "}]]}",
        about="257 steps, of which the last has a term of height 33",
    ),
    refused(
        "too deep plan 0 step 0",
        '{"version":1,"maxCells":0,"tables":{},"plans":[[{"eval":',
        ('{"all":[', 33),
        ("]}", 33),
        "}]]}",
        about="a term of height 33, and then tables and a limit that are none",
    ),
    answered(
        "an each of a table of 64 bytes",
        document(TERM, '{"each":[{"value":{"f":["a"]}},"f","', ("t", 64), '"]}}]]}'),
        f'0 0 fault key ["{"t" * 64}","a"] "no table"',
    ),
    refused(
        "plan 0 step 0",
        TERM,
        '{"each":[{"value":1},"f","',
        ("t", 65),
        '"]}}]]}',
        about="an each of a table of 65 bytes",
    ),
    answered(
        "a follow into a table of 64 bytes",
        document(TERM, '{"follow":[{"value":{"f":"a"}},"f","', ("t", 64), '"]}}]]}'),
        f'0 0 fault key ["{"t" * 64}","a"] "no table"',
    ),
    refused(
        "plan 0 step 0",
        TERM,
        '{"follow":[{"value":1},"f","',
        ("t", 65),
        '"]}}]]}',
        about="a follow into a table of 65 bytes",
    ),
    answered(
        "a load from a table of 64 bytes",
        document(TERM, '{"load":["', ("t", 64), '","a"]}}]]}'),
        f'0 0 fault key ["{"t" * 64}","a"] "no table"',
    ),
    refused("plan 0 step 0", TERM, '{"load":["', ("t", 65), '","a"]}}]]}', about="a load from a table of 65 bytes"),
    answered(
        "a load of an id of 256 bytes",
        document(TERM, '{"load":["t","', ("é", 128), '"]}}]]}'),
        f'0 0 fault key ["t","{"é" * 128}"] "no table"',
    ),
    refused("plan 0 step 0", TERM, '{"load":["t","a', ("é", 128), '"]}}]]}', about="a load of an id of 257 bytes"),
    answered("a clear of an id of 256 bytes", document(PLAN, '{"clear":["t","', ("a", 256), '"]}]]}')),
    refused("plan 0 step 0", PLAN, '{"clear":["t","', ("a", 257), '"]}]]}', about="a clear of an id of 257 bytes"),
    answered(
        "an error of 1,024 bytes",
        document(PLAN, '{"prime":[["t","a"],{"error":"', ("e", 1_024), '"}]},{"eval":{"load":["t","a"]}}]]}'),
        f'0 1 fault key ["t","a"] "{"e" * 1_024}"',
    ),
    refused("plan 0 step 0", PLAN, '{"prime":[["t","a"],{"error":"', ("e", 1_025), '"}]}]]}', about="an error of 1,025 bytes"),
    refused("plan 0 step 0", PLAN, '{"prime":[["t","', ("a", 257), '"],{"value":1}]}]]}', about="a prime of an id of 257 bytes"),
    answered("a field of no bytes", document(TERM, '{"pick":[{"value":{"":1}},""]}}]]}'), "0 0 ok 1"),
    answered(
        "a field of many bytes",
        document(TERM, '{"pick":[{"value":{"', ("f", 5_000), '":1}},"', ("f", 5_000), '"]}}]]}'),
        "0 0 ok 1",
    ),
    refused(
        "table BadKey",
        '{"version":1,"maxCalls":0,"plans":[[]],"tables":[{"name":"t","rows":[["',
        ("a", 257),
        '",1]]}]}',
        about="an id of 257 bytes in a table, and a limit of 0",
    ),
    refused(
        "table TextTooLong",
        '{"version":1,"plans":[[]],"tables":[{"name":"t","rows":[],"breaks":[["a","',
        ("e", 1_025),
        '"]]}]}',
        about="a break of 1,025 bytes in a table",
    ),
]

# ---- tables

# Trees that spell no tables, by the first fault of each.
NO_TABLES = {
    "Shape": [
        "{}",
        "[1]",
        '[{"rows":[]}]',
        '[{"name":"t"}]',
        '[{"name":1,"rows":[]}]',
        '[{"name":"t","rows":["a"]}]',
        '[{"name":"t","rows":[["a"]]}]',
        '[{"name":"t","rows":[[1,1]]}]',
        '[{"name":"t","rows":[["a",1,2]]}]',
        '[{"name":"t","rows":[],"row":[]}]',
        '[{"name":"t","rows":[],"errors":{}}]',
        '[{"name":"t","rows":[],"errors":[["a",1]]}]',
        '[{"name":"t","rows":[],"breaks":["a"]}]',
        '[{"name":"t","rows":[],"breaks":[["a",null]]}]',
        '[{"name":"t","rows":[],"maxBatchSize":1}]',
        '[{"name":"","rows":5}]',
    ],
    "BadKey": [
        '[{"name":"t","rows":[["",1]]}]',
        '[{"name":"t","rows":[],"errors":[["","x"]]}]',
        '[{"name":"t","rows":[],"breaks":[["","x"]]}]',
        '[{"name":"","rows":[["a",1.5]]}]',
        '[{"name":"t","rows":[["a",1.5]]},{"name":"t","rows":[["",1]]}]',
    ],
    "NotWhole": [
        '[{"name":"t","rows":[["a",1.5]]}]',
        '[{"name":"t","rows":[["a",[18446744073709551616]]]}]',
        '[{"name":"t","rows":[["a",{"n":1.5}]]}]',
        '[{"name":"t","rows":[["a",1.5]]},{"name":"t","rows":[]}]',
    ],
    "DuplicateTable": [
        '[{"name":"t","rows":[]},{"name":"s","rows":[]},{"name":"t","rows":[]}]',
        '[{"name":"t","rows":[["a",1],["a",2]]},{"name":"t","rows":[]}]',
    ],
    "DuplicateKey": [
        '[{"name":"t","rows":[["u1",1],["u1",2]]}]',
        '[{"name":"t","rows":[["u1",1]],"breaks":[["u1","down"]]}]',
        '[{"name":"t","rows":[["u1",1]],"errors":[["u1","gone"]]}]',
        '[{"name":"t","rows":[],"errors":[["u1","gone"],["u1","gone"]]}]',
        '[{"name":"t","rows":[],"errors":[["u1","gone"]],"breaks":[["u1","down"]]}]',
        '[{"name":"t","rows":[],"breaks":[["u1","down"],["u1","down"]]}]',
    ],
}


def tables_file(version, *tables):
    """The parts of a plan file over these tables, with a plan of no steps."""
    return f'{{"version":{version},"plans":[[]],"tables":', *tables, "}"


ROWS["other tables are refused"] = [
    refused(f"table {fault}", *tables_file(1, tree)) for fault, trees in NO_TABLES.items() for tree in trees
]


def table_of(member, name, key, text):
    """The parts of a file over one table whose member lists one pair. A name, an id and a text have this many bytes."""
    return tables_file(1, '[{"name":"', ("t", name), f'","rows":[],"{member}":[["', ("x", key), '","', ("e", text), '"]]}]')


ROWS["a table takes names, ids and texts up to their limits"] = [
    row
    for member in ("errors", "breaks")
    for row in [
        answered(f"the shortest {member}", document(*table_of(member, 1, 1, 0))),
        answered(f"the longest {member}", document(*table_of(member, 64, 256, 1_024))),
        refused("table BadKey", *table_of(member, 0, 1, 1_025), about=f"{member} of a table of no bytes, and a text of 1,025"),
        refused("table BadKey", *table_of(member, 65, 1, 0), about=f"{member} of a table of 65 bytes"),
        refused("table BadKey", *table_of(member, 1, 0, 0), about=f"{member} of an id of no bytes"),
        refused("table BadKey", *table_of(member, 1, 257, 0), about=f"{member} of an id of 257 bytes"),
        refused("table BadKey", *table_of(member, 65, 257, 1_025), about=f"{member} that are too long in each way"),
        refused("table TextTooLong", *table_of(member, 1, 1, 1_025), about=f"{member} of 1,025 bytes"),
    ]
]

# ---- terms

# The texts round the text that a follow and an each load, and round the name of its table.
LOADED = {
    "follow": ('{"follow":[{"value":{"f":"', '"}},"f","', '"]}}]]}'),
    "each": ('{"each":[{"value":{"f":["', '"]}},"f","', '"]}}]]}'),
}


def loaded(form, table, key):
    """A plan whose term loads a text of this many bytes from a table whose name has this many."""
    front, middle, back = LOADED[form]
    return document(TERM, front, ("x", key), middle, ("t", table), back)


ROWS["an id has 1 to 256 bytes"] = [
    row
    for form in LOADED
    for row in [
        answered(f"a text of no bytes, by {form}", loaded(form, 4, 0), "0 0 fault NotAKey"),
        answered(f"a text of 1 byte, by {form}", loaded(form, 4, 1), '0 0 fault key ["tttt","x"] "no table"'),
        answered(f"a text of 256 bytes, by {form}", loaded(form, 4, 256), f'0 0 fault key ["tttt","{"x" * 256}"] "no table"'),
        answered(
            f"a text of 256 bytes in a table of 64, by {form}",
            loaded(form, 64, 256),
            f'0 0 fault key ["{"t" * 64}","{"x" * 256}"] "no table"',
        ),
        answered(f"a text of 257 bytes, by {form}", loaded(form, 4, 257), "0 0 fault NotAKey"),
    ]
]

# ---- version 2

ROWS["in version 2 a batch of a script is of one table"] = [
    answered(
        "a table with a limit of its own",
        '{"script":2,"maxBatchSize":2,"tableLimits":[["s",1]],"calls":[{"load":["t","a"]},{"load":["s","x"]},{"load":["t","b"]},'
        '{"load":["s","y"]},{"load":["t","c"]},{"dispatch":true}]}',
        "fresh 0 0",
        "fresh 1 1",
        "fresh 2 0",
        "fresh 3 2",
        "fresh 4 3",
        "sent 4",
        'job 0 ["t","a"] ["t","b"]',
        'job 1 ["s","x"]',
        'job 2 ["s","y"]',
        'job 3 ["t","c"]',
    ),
    answered("no calls and no table's limit", '{"script":2,"calls":[]}'),
    answered("the least and the greatest limit", '{"script":2,"tableLimits":[["s",1],["t",65536]],"calls":[]}'),
    refused("top", '{"script":1,"tableLimits":[],"calls":[]}'),
    refused("top", '{"version":2,"tableLimits":[],"tables":[],"plans":[[]]}'),
    refused("top", '{"script":2,"tableLimits":{},"calls":[]}'),
    refused("top", '{"script":2,"tableLimits":[["t"]],"calls":[]}'),
    refused("top", '{"script":2,"tableLimits":[["t",1,1]],"calls":[]}'),
    refused("top", '{"script":2,"tableLimits":[[1,"t"]],"calls":[]}'),
    refused("top", '{"script":2,"tableLimits":[["t",1.0]],"calls":[]}'),
    refused("top", '{"script":2,"tableLimits":[["",1]],"calls":[]}'),
    refused("top", '{"script":2,"tableLimits":[["', ("x", 65), '",1]],"calls":[]}', about="a table of 65 bytes with a limit"),
    refused("limit BatchLimit", '{"script":2,"tableLimits":[["t",0]],"calls":[]}'),
    refused("limit BatchLimit", '{"script":2,"tableLimits":[["s",1],["t",65537]],"calls":[]}'),
    refused("limit BatchLimit", '{"script":2,"tableLimits":[["t",-1]],"calls":[]}'),
    # of two causes the first
    refused("top", '{"script":2,"tableLimits":[["t",0],["t",1]],"calls":[5]}'),
    refused("call 0", '{"script":2,"tableLimits":[["t",0]],"calls":[5]}'),
    refused("limit BatchLimit", '{"script":2,"maxCells":0,"tableLimits":[["t",0]],"calls":[]}'),
    refused("limit BatchLimit", '{"script":2,"maxBatchSize":0,"maxCells":0,"tableLimits":[["t",1]],"calls":[]}'),
    refused("limit CellLimit", '{"script":2,"maxCells":0,"tableLimits":[["t",1]],"calls":[]}'),
]


def plan_file_2(plans, number=""):
    """A plan file of version 2 over the tables of users, that of users with this number, if one is given."""
    tables = USERS.replace('{"name":"user",', f'{{"name":"user","maxBatchSize":{number},') if number else USERS
    return f'{{"version":2,"maxBatchSize":2,"tables":{tables},"plans":{plans}}}'


SHOP_AND_U13 = '[[{"eval":{"all":[{"load":["shop","s"]},{"load":["user","u13"]}]}}]]'
NO_TABLE = '0 0 fault key ["shop","s"] "no table"'

ROWS["in version 2 a batch of a plan file is of one table"] = [
    answered(
        "a table with a limit of its own",
        plan_file_2('[[{"eval":{"all":[{"load":["user","u1"]},{"load":["user","u2"]},{"load":["shop","s"]}]}}]]', "1"),
        NO_TABLE,
        "rounds 1",
        'batch 0 [["user","u1"]] settled',
        'batch 1 [["user","u2"]] settled',
        'batch 2 [["shop","s"]] settled',
        command_lines=BATCHES,
    ),
    batches(
        "in version 1 two tables share a batch",
        SHOP_AND_U13,
        '0 0 fault batch ["shop","s"] "db down"',
        "rounds 1",
        'batch 0 [["shop","s"],["user","u13"]] failed',
    ),
    answered(
        "two tables, two batches",
        plan_file_2(SHOP_AND_U13),
        NO_TABLE,
        "rounds 1",
        'batch 0 [["shop","s"]] settled',
        'batch 1 [["user","u13"]] failed',
        command_lines=BATCHES,
    ),
    answered("nothing", '{"version":2,"tables":[],"plans":[[]]}'),
    refused("limit BatchLimit", plan_file_2("[[]]", "0"), about="a table's limit of 0"),
    refused("limit BatchLimit", plan_file_2("[[]]", "65537"), about="a table's limit of 65537"),
    refused("table Shape", plan_file_2("[[]]", "1.0"), about="a table's limit that isn't whole"),
    refused("table Shape", plan_file_2("[[]]", "0").replace('"version":2', '"version":1'), about="a table's limit in version 1"),
    # of two causes the first
    refused("plan 0 step 0", plan_file_2("[[5]]", "0"), about="a bad step and a bad limit of a table"),
    refused("table DuplicateTable", '{"version":2,"tables":[{"name":"t","rows":[],"maxBatchSize":0},{"name":"t","rows":[]}],"plans":[[]]}'),
    refused("limit BatchLimit", '{"version":2,"maxCells":0,"tables":[{"name":"t","rows":[],"maxBatchSize":0}],"plans":[[]]}'),
]

# ---- version 3


def plan_file_3(*terms, tables=USERS):
    """A plan file of version 3 over tables, those of users if you give none: a plan of these terms."""
    steps = ",".join(f'{{"eval":{term}}}' for term in terms)
    return f'{{"version":3,"maxBatchSize":2,"tables":{tables},"plans":[[{steps}]]}}'


def term_refused(term, about=None):
    """The row of a plan file of version 3 whose second step is this term, which has no such form or has it at another place."""
    return refused("plan 0 step 1", plan_file_3('{"value":1}', term, tables="[]"), about=about or term)


def nested(count, inner):
    """A term in so many bodies."""
    return '{"over":[{"value":[[[[1]]]]},' + '{"over":[{"item":true},' * (count - 1) + inner + "]}" * count


ITEM = '{"item":true}'
FRIENDS = '{"each":[{"load":["user","u1"]},"friends","user"]}'
NAME_OF_ITEM = '{"pick":[{"item":true},"name"]}'
# The row of the user whose id is the item.
USER_OF_ITEM = '{"follow":[{"object":{"id":{"item":true}}},"id","user"]}'

ROWS["in version 3 a body goes over a list"] = [
    answered(
        "an object for each friend",
        plan_file_3(f'{{"over":[{FRIENDS},{{"object":{{"name":{NAME_OF_ITEM},"is":{{"value":"friend"}}}}}}]}}'),
        '0 0 ok [{"is":"friend","name":"Bob"},{"is":"friend","name":"Cy"}]',
        "rounds 2",
        'batch 0 [["user","u1"]] settled',
        'batch 1 [["user","u2"],["user","u3"]] settled',
        command_lines=BATCHES,
    ),
    answered(
        "all copies load in one round, each key once",
        plan_file_3(f'{{"over":[{{"value":["u3","u2","u3"]}},{{"pick":[{USER_OF_ITEM},"name"]}}]}}'),
        '0 0 ok ["Cy","Bob","Cy"]',
        "rounds 1",
        'batch 0 [["user","u3"],["user","u2"]] settled',
        command_lines=BATCHES,
    ),
    answered(
        "the names of the friends of each of a list",
        plan_file_3(
            '{"over":[{"value":[{"friends":["u1","u2"]},{"friends":[]}]},'
            f'{{"over":[{{"each":[{{"item":true}},"friends","user"]}},{NAME_OF_ITEM}]}}]}}'
        ),
        '0 0 ok [["Ada","Bob"],[]]',
    ),
    answered(
        "a body in a body has an item of its own",
        plan_file_3(f'{{"over":[{{"value":[[1,2],[3]]}},{{"over":[{ITEM},{{"all":[{ITEM}]}}]}}]}}'),
        "0 0 ok [[[1],[2]],[[3]]]",
    ),
    answered(
        "the part of an over in a body has the item around it",
        plan_file_3(f'{{"over":[{{"value":[[1],[2]]}},{{"all":[{{"over":[{ITEM},{{"value":0}}]}},{ITEM}]}}]}}'),
        "0 0 ok [[[0],[1]],[[0],[2]]]",
    ),
    answered("a body in two others", plan_file_3(nested(3, ITEM)), "0 0 ok [[[[1]]]]"),
    answered("no items", plan_file_3('{"over":[{"value":[]},{"load":["user","u1"]}]}'), "0 0 ok []", "rounds 0", command_lines=BATCHES),
    answered(
        "an object of no members, and one whose name is there twice",
        plan_file_3('{"object":{}}', '{"object":{"a":5,"a":{"value":1}}}'),
        "0 0 ok {}",
        '0 1 ok {"a":1}',
    ),
    answered(
        "members in the order of their names",
        plan_file_3('{"object":{"b":{"value":1},"":{"value":2},"a":{"value":3},"B":{"value":4}}}'),
        '0 0 ok {"":2,"B":4,"a":3,"b":1}',
    ),
    answered("a field of an object", plan_file_3('{"pick":[{"object":{"a":{"load":["user","u3"]}}},"a"]}'), '0 0 ok {"name":"Cy"}'),
    answered(
        "as many items as there may be",
        document(plan_file_3('{"over":[{"value":[', tables="[]")[: -len("}]]}")], ("1,", 1_023), f'1]}},{{"value":0}}]}}}}]]}}'),
        f"0 0 ok [{','.join('0' * 1_024)}]",
    ),
    answered(
        "a term of height 32",
        document('{"version":3,"tables":[],"plans":[[{"eval":{"over":[{"value":[1]},', ('{"all":[', 30), ITEM, ("]}", 30), "]}}]]}"),
        f"0 0 ok [{'[' * 30}1{']' * 30}]",
    ),
    answered(
        "a table with a limit of its own",
        plan_file_3('{"all":[{"load":["t","a"]},{"load":["t","b"]}]}', tables='[{"name":"t","maxBatchSize":1,"rows":[["a",1],["b",2]]}]'),
        "0 0 ok [1,2]",
        "rounds 1",
        'batch 0 [["t","a"]] settled',
        'batch 1 [["t","b"]] settled',
        command_lines=BATCHES,
    ),
]

ROWS["in version 3 a body or a member may have a fault"] = [
    answered(
        "no list, and an item that has no such field",
        plan_file_3('{"over":[{"value":{}},{"item":true}]}', f'{{"over":[{{"value":[{{"name":1}},2,{{}}]}},{NAME_OF_ITEM}]}}'),
        "0 0 fault NotAList",
        "0 1 fault NoField",
    ),
    answered(
        "a fault of the part comes first",
        plan_file_3('{"over":[{"load":["user","u9"]},{"pick":[{"value":1},"x"]}]}'),
        '0 0 fault key ["user","u9"] "gone"',
    ),
    answered(
        "too many items",
        document(plan_file_3('{"over":[{"value":[', tables="[]")[: -len("}]]}")], ("1,", 1_024), f'1]}},{{"value":0}}]}}}}]]}}'),
        "0 0 fault TooMany",
    ),
    answered(
        "the leftmost item that fails counts, and all are loaded",
        plan_file_3(f'{{"over":[{{"value":["u7","u9","u1"]}},{USER_OF_ITEM}]}}'),
        '0 0 fault key ["user","u7"] "no row"',
        "rounds 1",
        'batch 0 [["user","u7"],["user","u9"]] settled',
        'batch 1 [["user","u1"]] settled',
        command_lines=BATCHES,
    ),
    answered(
        "of an object the first name that fails counts",
        plan_file_3('{"object":{"b":{"pick":[{"value":1},"x"]},"a":{"over":[{"value":1},{"value":2}]}}}'),
        "0 0 fault NotAList",
    ),
    answered("an item that is no id", plan_file_3(f'{{"over":[{{"value":["u1",1]}},{USER_OF_ITEM}]}}'), "0 0 fault NotAKey"),
]

ROWS["in version 3 a form has its place"] = [
    term_refused(ITEM),
    term_refused('{"over":[{"item":true},{"value":1}]}'),
    term_refused('{"object":{"a":{"item":true}}}'),
    term_refused('{"all":[{"over":[{"value":[1]},{"item":true}]},{"pick":[{"item":true},"a"]}]}'),
    term_refused(nested(4, '{"value":1}'), about="a body in three others"),
    *(term_refused(f'{{"over":[{{"value":[1]}},{{"item":{argument}}}]}}') for argument in ("false", "1", "null", "[]")),
    *(
        term_refused(f'{{"over":{argument}}}')
        for argument in ("1", "{}", "[]", '[{"value":[1]}]', '[{"value":[1]},{"value":1},{"value":1}]', '[{"value":[1]},1]')
    ),
    *(
        term_refused(f'{{"object":{argument}}}')
        for argument in ("1", "[]", '[["a",{"value":1}]]', '{"a":1}', '{"a":{"value":1},"b":{"value":1.5}}')
    ),
    term_refused('{"object":{"a":{"value":1}},"all":[]}'),
    # the versions before don't have these forms
    *(
        refused("plan 0 step 0", f'{{"version":{version},"tables":[],"plans":[[{{"eval":{term}}}]]}}')
        for version in (1, 2)
        for term in ('{"over":[{"value":[]},{"value":1}]}', '{"object":{}}', ITEM, '{"all":[{"object":{}}]}')
    ),
    # of two causes the first
    refused(
        "plan 0 step 1",
        '{"version":3,"tables":5,"plans":[[{"eval":',
        ('{"all":[', 32),
        '{"value":1}',
        ("]}", 32),
        '},{"eval":{"item":true}}]]}',
        about="a term too high, and then an item in no body",
    ),
    refused(
        "plan 0 step 0",
        '{"version":3,"tables":[],"plans":[[{"eval":',
        ('{"all":[', 32),
        ITEM,
        ("]}", 32),
        "}]]}",
        about="an item in no body in a term too high",
    ),
    refused(
        "too deep plan 0 step 0",
        '{"version":3,"tables":[],"plans":[[{"eval":{"over":[{"value":[1]},',
        ('{"all":[', 31),
        ITEM,
        ("]}", 31),
        "]}}]]}",
        about="a body of height 32",
    ),
    refused("version", '{"version":4,"script":3,"tables":[],"plans":[[]]}'),
    refused("top", '{"version":3,"tableLimits":[],"tables":[],"plans":[[]]}'),
]

# What a table's number can't be, and numbers that no limit may be.
NO_NUMBERS = ('"1"', "1.5", "null", "18446744073709551616", "[1]")
NO_LIMITS = ("0", "-1", "65537", "18446744073709551615", "-9223372036854775808")

ROWS["in version 2 a table may have a number"] = [
    *(
        refused("table Shape", *tables_file(2, f'[{{"name":"","rows":[]}},{{"name":"t","rows":[],"maxBatchSize":{number}}}]'))
        for number in NO_NUMBERS
    ),
    refused("table Shape", *tables_file(2, '[{"name":"t","rows":[],"maxCells":1}]')),
    refused("table BadKey", *tables_file(2, '[{"name":"","rows":[],"maxBatchSize":0}]')),
    refused("table NotWhole", *tables_file(2, '[{"name":"t","rows":[["a",1.5]],"maxBatchSize":0}]')),
    refused(
        "table DuplicateTable", *tables_file(2, '[{"name":"t","rows":[],"maxBatchSize":0},{"name":"t","rows":[],"maxBatchSize":0}]')
    ),
    *(
        refused("limit BatchLimit", *tables_file(2, f'[{{"name":"s","rows":[]}},{{"name":"t","rows":[],"maxBatchSize":{number}}}]'))
        for number in NO_LIMITS
    ),
    answered("the greatest number", document(*tables_file(2, '[{"name":"t","rows":[],"maxBatchSize":65536}]'))),
    answered(
        "two tables with a number, and one without",
        '{"version":2,"tables":[{"maxBatchSize":2,"name":"t","rows":[]},{"name":"s","rows":[]},{"name":"u","rows":[],"maxBatchSize":1}],'
        '"plans":[[{"eval":{"all":[{"each":[{"value":{"f":["a","b","c"]}},"f","t"]},{"each":[{"value":{"f":["a","b","c"]}},"f","s"]},'
        '{"each":[{"value":{"f":["a","b"]}},"f","u"]}]}}]]}',
        '0 0 fault key ["t","a"] "no row"',
        "rounds 1",
        'batch 0 [["t","a"],["t","b"]] settled',
        'batch 1 [["t","c"]] settled',
        'batch 2 [["s","a"],["s","b"],["s","c"]] settled',
        'batch 3 [["u","a"]] settled',
        'batch 4 [["u","b"]] settled',
        command_lines=BATCHES,
    ),
]

# ---- both kinds

# If an object has a name twice, the last member counts.
ROWS["of a name that stands twice the last counts"] = [
    answered(
        "in a script, and in a call",
        '{"script":2,"calls":5,"maxBatchSize":0,"script":1,"calls":[{"load":5,"load":["t","a"]},{"dispatch":true}],"maxBatchSize":2}',
        "fresh 0 0",
        "sent 1",
        'job 0 ["t","a"]',
    ),
    answered(
        "in a plan file, in a table, in a row and in a term",
        '{"version":2,"tables":5,"plans":[],"version":1,"tables":[{"name":"t","rows":5,"name":"u","rows":[["a",{"x":1,"y":2,"x":3}]]}],'
        '"plans":[[{"eval":5,"eval":{"load":5,"load":["u","a"]}}]]}',
        '0 0 ok {"x":3,"y":2}',
        command_lines=PLAIN,
    ),
    refused("version", '{"script":1,"calls":[],"script":3}'),
    refused("top", '{"script":1,"calls":[],"calls":5}'),
    refused("call 0", '{"script":1,"calls":[{"load":["t","a"],"load":5}]}'),
    refused("call 0", '{"script":1,"calls":[{"load":["t","a"],"clear":["t","a"],"load":["t","b"]}]}'),
    refused("plan 0 step 0", TERM, '{"load":["t","a"],"load":5}}]]}'),
    refused("table Shape", '{"version":1,"tables":[{"name":"t","rows":[],"rows":5}],"plans":[[]]}'),
    refused("table Shape", '{"version":1,"tables":[],"plans":[[]],"tables":5}'),
]

# JSON as we read it has no number that a float can't hold, not even under a name that counts for nothing.
ROWS["a number out of range is no JSON"] = [
    refused("not json", '{"script":1,"calls":[],"maxCells":1e999}'),
    refused("not json", '{"script":3,"calls":[{"load":1e999}]}'),
    refused("not json", '{"version":1,"tables":[{"name":"t","rows":[["a",-1e999],["a",0]]}],"plans":[[]]}'),
    refused("not json", '{"version":1,"tables":[1e999],"plans":[[]],"tables":[]}'),
    refused("not json", '{"version":1,"tables":[],"plans":[[]],"x":1e999,"x":0}'),
    refused("not json", "[1e999]"),
    refused("plan 0 step 0", TERM, '{"value":1e308}}]]}'),
]

# So is a text with half of a surrogate pair.
ROWS["half of a surrogate pair is no JSON"] = [
    refused("not json", r'{"script":1,"calls":[{"load":["t","\ud800"]}]}'),
    refused("not json", r'{"script":3,"calls":[],"x\udc00":0}'),
    refused("not json", r'{"script":1,"calls":[],"maxCells":"\ud800\u0041","maxCells":1}'),
    refused("top", r'{"script":1,"calls":[],"x":"\ud834\udd1e"}'),
]

ROWS["a refusal tells the place"] = [
    refused("call 10", '{"script":1,"calls":[', (STEP, 10), "5]}", about="an eleventh call that is none"),
    refused("plan 1 step 255", PLAN, "],[", (STEP, 255), "5]]}", about="a last step that is none, of the second plan"),
    refused(
        "too deep plan 15 step 2",
        PLAN,
        ("],[", 15),
        (STEP, 2),
        '{"eval":',
        ('{"all":[', 33),
        ("]}", 33),
        "}]]}",
        about="a term of height 33, of the last plan",
    ),
    refused("too many steps plan 3", PLAN, ("],[", 3), (STEP, 256), LAST, about="257 steps, of the fourth plan"),
]

SCRIPT = '{"script":1,"calls":[]}'
PLAN_FILE = document(plan_file(NAME_OF_A_FRIEND))

ROWS["a document has a most of bytes"] = [
    answered("a script of 1,048,576 bytes", document(SCRIPT, (" ", 1_048_576 - len(SCRIPT)))),
    answered(
        "a plan file of 1,048,576 bytes",
        document(PLAN_FILE, (" ", 1_048_576 - len(PLAN_FILE))),
        BOB,
        "rounds 2",
        'batch 0 [["user","u1"]] settled',
        'batch 1 [["user","u2"]] settled',
        command_lines=BATCHES,
    ),
    refused("too large", SCRIPT, (" ", 1_048_577 - len(SCRIPT)), about="a script of 1,048,577 bytes"),
    refused("not json", (" ", 1_048_576), about="1,048,576 spaces"),
    refused("too large", (" ", 1_048_577), about="1,048,577 spaces"),
    refused("not json", b"\xff", (" ", 1_048_575), about="1,048,576 bytes, of which the first is no UTF-8"),
    refused("too large", b"\xff", (" ", 1_048_576), about="1,048,577 bytes, of which the first is no UTF-8"),
    refused("too large", (" ", 2_000_000), about="2,000,000 spaces"),
]

ROWS["a front of a document is refused"] = [
    *(refused("not json", PLAN_FILE[:count], about=f"{count} bytes") for count in range(len(PLAN_FILE))),
    refused("not json", PLAN_FILE[1:], about="a document without its first byte"),
]

# ---- the largest arguments

MOST = 65_536

# As many ids, which are as short as may be: of signs that need no escape.
SIGNS = [chr(code) for code in range(33, 127) if chr(code) not in '"\\']
SHORT = ["".join(signs) for count in (1, 2, 3) for signs in itertools.product(SIGNS, repeat=count)][:MOST]


def most_loads(about, members, jobs):
    """The row of a script of these members that loads as many keys by one call, and sends them in these jobs."""
    keys = [key for job in jobs for key in job]
    last = len(jobs) - 1
    calls = f'{{"loadMany":[{",".join(keys)}]}},{{"dispatch":true}},{{"settle":{last}}},{{"settle":{last + 1}}}'
    cells = itertools.count()
    return answered(
        about,
        f'{{{members},"calls":[{calls}]}}',
        f"many {len(keys)}",
        *(f"fresh {next(cells)} {batch}" for batch, job in enumerate(jobs) for _ in job),
        f"sent {len(jobs)}",
        *(f"job {batch} {' '.join(job)}" for batch, job in enumerate(jobs)),
        "ok",
        "refused NoBatch",
        is_checked=False,
    )


def listed(texts):
    """The JSON list of these texts."""
    return f"[{','.join(texts)}]"


KEYS = [f'["t","{key}"]' for key in SHORT]
TABLES_OF_SCRIPT = listed(f'["{table}",1]' for table in SHORT)
ROOM = SHORT[:41_000]
TABLES_OF_FILE = listed(f'{{"name":"{table}","rows":[]}}' for table in ROOM)


def most_rows(about, count, limits, jobs):
    """The row of a plan file with these limits that loads this many rows in one round, each of them 7, in these jobs."""
    rows = listed(f'["{key}",7]' for key in SHORT[:count])
    # An each has 1,024 items at most.
    parts = [SHORT[at : min(at + 1_024, count)] for at in range(0, count, 1_024)]
    items = [listed(f'"{key}"' for key in part) for part in parts]
    eaches = listed(f'{{"each":[{{"value":{{"f":{texts}}}}},"f","t"]}}' for texts in items)
    return answered(
        about,
        f'{{"version":1,{limits}"tables":[{{"name":"t","rows":{rows}}}],"plans":[[{{"eval":{{"all":{eaches}}}}}]]}}',
        f"0 0 ok {listed(listed(['7'] * len(part)) for part in parts)}",
        "rounds 1",
        *(f"batch {number} {listed(job)} settled" for number, job in enumerate(jobs)),
        command_lines=("--batches",),
        is_checked=False,
    )


ROWS["the most that may be"] = [
    most_loads("as many keys in one batch", '"script":1', [KEYS]),
    most_loads("as many keys in as many batches", '"script":1,"maxBatchSize":1', [[key] for key in KEYS]),
    most_loads("a key of each of as many tables", '"script":2', [[f'["{table}","a"]'] for table in SHORT]),
    answered(
        "a limit of each of as many tables",
        f'{{"script":2,"tableLimits":{TABLES_OF_SCRIPT},"calls":[{{"loadMany":'
        f'[["{SHORT[-1]}","a"],["{SHORT[0]}","a"],["{SHORT[-1]}","b"],["other","a"],["other","b"]]}},{{"dispatch":true}}]}}',
        "many 5",
        "fresh 0 0",
        "fresh 1 1",
        "fresh 2 2",
        "fresh 3 3",
        "fresh 4 3",
        "sent 4",
        f'job 0 ["{SHORT[-1]}","a"]',
        f'job 1 ["{SHORT[0]}","a"]',
        f'job 2 ["{SHORT[-1]}","b"]',
        'job 3 ["other","a"] ["other","b"]',
        is_checked=False,
    ),
    most_rows("as many rows in one batch", MOST, "", [KEYS]),
    # Two calls, and the end of each batch: these are as many as there may be.
    most_rows("as many rows in batches of one as there are calls for", MOST - 2, '"maxBatchSize":1,', [[key] for key in KEYS[:-2]]),
    most_rows("one row more", MOST - 1, '"maxBatchSize":1,', [])._replace(status=3, output="", error="failed: Stopped\n"),
    answered(
        "as many tables as there is room for",
        f'{{"version":2,"tables":{TABLES_OF_FILE},"plans":[[{{"eval":{{"load":["{ROOM[-1]}","a"]}}}}]]}}',
        f'0 0 fault key ["{ROOM[-1]}","a"] "no row"',
        is_checked=False,
    ),
]

# ---- migration

# How a document is refused that is to be migrated and is no plan file of an earlier version. The checker has nothing against it.
NOT_VERSION_1 = "refused: not version 1\n"
NOT_VERSION_1_OR_2 = "refused: not version 1 or 2\n"

MIGRATE = ("migrate", "--batches --workers 16 migrate", "migrate --to 2")
MIGRATE_3 = ("migrate --to 3", "--workers 1 migrate --to=3")

NOTHING = '{"version":1,"tables":[],"plans":[[]]}'
NOTHING_2 = '{"plans":[[]],"tables":[],"version":2}'

# The file of four plans in batches of two, as version 2.
FOUR_2 = (
    '{"maxBatchSize":2,"plans":[[{"eval":{"pick":[{"follow":[{"load":["user","u1"]},"best","user"]},"name"]}}],'
    '[{"eval":{"each":[{"load":["user","u1"]},"friends","user"]}}],[{"eval":{"all":[]}}],[{"eval":{"load":["user","u7"]}}]],'
    '"tables":[{"breaks":[["u13","db down"]],"errors":[["u9","gone"]],"name":"user","rows":'
    '[["u1",{"best":"u2","friends":["u2","u3"],"name":"Ada"}],["u2",{"best":"u1","friends":[],"name":"Bob"}],["u3",{"name":"Cy"}]]}],'
    '"version":2}'
)


def migrated(about, text, output):
    """The row of a plan file of version 1 that is written as this text."""
    return Row(about, document(text), MIGRATE, output=output)


def migrated_3(about, text, output):
    """The row of a plan file of version 1 or 2 that is written as this text of version 3."""
    return Row(about, document(text), MIGRATE_3, output=output)


def not_version_1(about, text):
    """The row of another document, which isn't migrated."""
    return Row(about, document(text), MIGRATE, status=1, error=NOT_VERSION_1)


def not_version_1_or_2(about, text):
    """The same of version 3."""
    return Row(about, document(text), MIGRATE_3, status=1, error=NOT_VERSION_1_OR_2)


ROWS["a plan file of version 1 is migrated"] = [
    migrated("no tables, and a plan of no steps", NOTHING, NOTHING_2),
    migrated("four plans", plan_file(FOUR), FOUR_2),
    answered("four plans, migrated", FOUR_2, *LINES_OF_FOUR, command_lines=PLAIN),
    migrated(
        "white space, members in another order, and characters that are written otherwise",
        r'{ "version" : 1, "plans" : [ [ {"eval" : {"value" : {"b" : -7, "B" : [ ], "\u0061" : "\u00e9\/\u0008\u001F\ud834\udd1e"}}} ] ],'
        ' "tables" : [ ],\n"maxCells" : 65536 }\n',
        r'{"maxCells":65536,"plans":[[{"eval":{"value":{"B":[],"a":"é/\b\u001f𝄞","b":-7}}}]],"tables":[],"version":2}',
    ),
    not_version_1(
        "a script",
        '{"script":1,"maxBatchSize":2,"calls":[{"load":["t","a"]},{"load":["t","b"]},{"load":["t","c"]},{"dispatch":true}]}',
    ),
    not_version_1("a file that was migrated", NOTHING_2),
    not_version_1("a script of version 2", '{"script":2,"calls":[]}'),
    not_version_1("a table with a limit of its own", plan_file_2(SHOP_AND_U13, "1")),
    not_version_1("a plan file of version 3", '{"version":3,"tables":[],"plans":[[]]}'),
    Row("no bytes", b"", MIGRATE, status=1, error="refused: not json\n"),
]

ROWS["a plan file of version 1 or 2 is migrated to version 3"] = [
    migrated_3("no tables, and a plan of no steps", NOTHING, NOTHING_2.replace("2}", "3}")),
    migrated_3("a file that was migrated to version 2", NOTHING_2, NOTHING_2.replace("2}", "3}")),
    migrated_3("four plans", plan_file(FOUR), FOUR_2.replace('"version":2', '"version":3')),
    migrated_3("four plans of version 2", FOUR_2, FOUR_2.replace('"version":2', '"version":3')),
    answered("four plans, migrated to version 3", FOUR_2.replace('"version":2', '"version":3'), *LINES_OF_FOUR, command_lines=PLAIN),
    migrated_3(
        "tables with limits of their own",
        '{"version":2,"tables":[{"name":"t","maxBatchSize":1,"rows":[["b",-2]]},{"rows":[],"name":"s"}],"plans":[[]]}',
        '{"plans":[[]],"tables":[{"maxBatchSize":1,"name":"t","rows":[["b",-2]]},{"name":"s","rows":[]}],"version":3}',
    ),
    not_version_1_or_2("a plan file of version 3", '{"version":3,"tables":[],"plans":[[]]}'),
    not_version_1_or_2("a script", '{"script":1,"calls":[]}'),
    not_version_1_or_2("a script of version 2", '{"script":2,"calls":[]}'),
    Row("no bytes", b"", MIGRATE_3, status=1, error="refused: not json\n"),
    Row("no version", b'{"version":4,"tables":[],"plans":[[]]}', MIGRATE_3, status=1, error="refused: version\n"),
]

# ---- the program

LOAD = document('{"script":1,"calls":[{"load":["t","a"]}]}')



def usage(about, words, front, *parts):
    """The row of a command line that clap refuses with a text that begins so, and has these parts."""
    return Row(about, LOAD, (words,), status=2, error=Holding(f"error: {front}", parts), is_read=False)


ROWS["a run ends with its status"] = [
    answered("a script", LOAD, "fresh 0 0"),
    answered("a script, and all options", LOAD, "fresh 0 0", command_lines=("--batches --workers 16", "--workers=1 --batches")),
    answered("a number with a plus sign, or a zero in front", LOAD, "fresh 0 0", command_lines=("--workers +16", "--workers 016")),
    Row(
        "help",
        LOAD,
        ("--help", "-h", "--batches --help", "help"),
        output=Holding("", ("Usage: plans", "migrate", "serve", "help", "--workers <N>", "[default: 3]", "--max-answer <N>", "--batches", "--explain", "--help")),
        is_read=False,
    ),
    Row(
        "help of migrate",
        LOAD,
        ("migrate --help", "migrate -h", "help migrate", "--batches help migrate"),
        output=Holding("Writes a plan file of version 1 as one of version 2", ("Usage: plans migrate", "--to <N>", "[default: 2]", "--help")),
        is_read=False,
    ),
    Row(
        "help of serve",
        LOAD,
        ("serve --help", "serve -h", "help serve", "serve --workers 2 --help"),
        output=Holding(
            "Answers the requests of one HTTP connection",
            ("Usage: plans serve [OPTIONS]", "--workers <N>", "[default: 3]", "--max-answer <N>", "[default: 16777216]", "--database <FILE>", "--tables <FILE>"),
        ),
        is_read=False,
    ),
    Row("the version", LOAD, ("--version", "-V", "--batches --version"), output=Holding("plans ", ("\n",)), is_read=False),
    Row("no document", b"", status=1, error="refused: not json\n"),
    Row("no version", b"[1]", ("--workers 1",), status=1, error="refused: version\n"),
    usage("no workers", "--workers 0", "--workers takes a number from 1 to 16", "Usage: plans"),
    usage("too many workers", "--workers 17", "--workers takes a number from 1 to 16", "Usage: plans"),
    usage("more workers than a number counts", "--workers 4294967297", "--workers takes a number from 1 to 16", "Usage: plans"),
    usage("workers that are no number", "--workers x", "--workers takes a number from 1 to 16", "Usage: plans"),
    usage("workers in part", "--workers 1.0", "--workers takes a number from 1 to 16", "Usage: plans"),
    usage("workers without their number", "--workers", "a value is required for '--workers <N>'"),
    usage("workers twice", "--workers 1 --workers 1", "the argument '--workers <N>' cannot be used multiple times"),
    usage("no bytes of answers", "--max-answer 0", "--workers takes a number from 1 to 16, --max-answer one from 1 to 4294967295", "Usage: plans"),
    usage("too many bytes of answers", "--max-answer 4294967296", "--workers takes a number from 1 to 16, --max-answer one", "Usage: plans"),
    usage("bytes of answers that are no number", "--max-answer 1k", "--workers takes a number from 1 to 16, --max-answer one", "Usage: plans"),
    usage("bytes of answers twice", "--max-answer 1 --max-answer 1", "the argument '--max-answer <N>' cannot be used multiple times"),
    usage("a picture and a trace of one name", "--picture x --trace x", "two options name the same file", "Usage: plans"),
    usage("a picture in place of the database", "--database=x --picture=x migrate", "two options name the same file", "Usage: plans"),
    usage("a flag with a value", "--batches=true", "unexpected value 'true' for '--batches'"),
    usage("an unknown option", "--jobs", "unexpected argument '--jobs' found", "Usage: plans"),
    usage("a word that is none", "script.json", "unrecognized subcommand 'script.json'", "Usage: plans"),
    usage("an option behind migrate", "migrate --batches", "unexpected argument '--batches' found", "Usage: plans migrate"),
    usage("workers behind migrate", "migrate --workers 3", "unexpected argument '--workers' found", "Usage: plans migrate"),
    usage("a word behind migrate", "migrate script.json", "unexpected argument 'script.json' found", "Usage: plans migrate"),
    usage("no workers, and migrate", "--workers 0 migrate", "--workers takes a number from 1 to 16", "Usage: plans"),
    usage("a version that is not to be written", "migrate --to 1", "--workers takes a number from 1 to 16, --max-answer one from 1 to 4294967295, and --to 2 or 3", "Usage: plans"),
    usage("a version that isn't there", "migrate --to 4", "--workers takes a number from 1 to 16, --max-answer one from 1 to 4294967295, and --to 2 or 3", "Usage: plans"),
    usage("two versions to write", "migrate --to 2 --to 3", "the argument '--to <N>' cannot be used multiple times"),
    usage("a version to write, and no migrate", "--to 3", "unexpected argument '--to' found", "Usage: plans"),
    usage("tables, and no serve", "--tables x", "unexpected argument '--tables' found", "Usage: plans"),
    usage("two sources of tables", "serve --tables x --database y", "--database and --tables: give one of them", "Usage: plans"),
    usage("tables twice", "serve --tables x --tables y", "the argument '--tables <FILE>' cannot be used multiple times"),
    usage("tables without their file", "serve --tables", "a value is required for '--tables <FILE>'"),
    usage("no workers behind serve", "serve --workers 0", "--workers takes a number from 1 to 16", "Usage: plans"),
    usage("too many workers behind serve", "serve --workers 17", "--workers takes a number from 1 to 16", "Usage: plans"),
    usage("no bytes of answers behind serve", "serve --max-answer 0", "--workers takes a number from 1 to 16, --max-answer one from 1 to", "Usage: plans"),
    usage("too many bytes of answers behind serve", "serve --max-answer 4294967296", "--workers takes a number from 1 to 16, --max-answer one", "Usage: plans"),
    usage("a flag behind serve", "serve --batches", "unexpected argument '--batches' found", "Usage: plans serve"),
    usage("explanations behind serve", "serve --explain", "unexpected argument '--explain' found", "Usage: plans serve"),
    usage("statistics behind serve", "serve --statistics", "unexpected argument '--statistics' found", "Usage: plans serve"),
    usage("a picture behind serve", "serve --picture x", "unexpected argument '--picture' found", "Usage: plans serve"),
    usage("a trace behind serve", "serve --trace x", "unexpected argument '--trace' found", "Usage: plans serve"),
    usage("a history behind serve", "serve --history x", "unexpected argument '--history' found", "Usage: plans serve"),
    usage("migrate behind serve", "serve migrate", "unexpected argument 'migrate' found", "Usage: plans serve"),
    usage("serve behind migrate", "migrate serve", "unexpected argument 'serve' found", "Usage: plans migrate"),
    usage("workers in front of serve", "--workers 3 serve", "the options of serve come behind it", "Usage: plans"),
    usage("a database in front of serve", "--database x serve", "the options of serve come behind it", "Usage: plans"),
    usage("a picture in front of serve", "--picture=x serve --workers 2", "the options of serve come behind it", "Usage: plans"),
    # The byte 255.
    usage("a word that is no UTF-8", "\udcff", "invalid UTF-8 was detected in one or more arguments", "Usage: plans"),
    usage("a number that is no UTF-8", "--workers \udcff", "invalid UTF-8 was detected in one or more arguments", "Usage: plans"),
    Row("an output that takes nothing", LOAD, status=3, error="failed: write\n", is_full=True),
    Row("an output that takes nothing of what is migrated", document(NOTHING), MIGRATE, 3, error="failed: write\n", is_full=True),
]

# ---- where faults come from

EXPLAIN = ("--explain", "--workers 1 --explain")

# Rows of one user each, whose fields are of each kind. A batch with u13 breaks.
EXPLAINED_TABLES = (
    '[{"name":"user","rows":['
    '["u1",{"name":"Ada","best":"u2","n":5,"o":{"a":1},"lost":"u9","err":"u7","down":"u13","ids":["u2","u1"]}],'
    '["u2",{"name":"Bob","best":"","long":"' + "x" * 257 + '","ids":["u1",5,"u9"],"gone":["u1","u9","u7"],"down":["u1","u13"],"none":[]}],'
    '["u3",{"many":[' + ",".join(['"u1"'] * 1_025) + '],"most":[' + ",".join(['"u1"'] * 1_024) + ']}],'
    '["u4",7],["u5",["u1"]]],'
    '"errors":[["u7","it\\n\\"is\\" gone"]],"breaks":[["u13","db down"]]}]'
)
U1_NAME = '{"pick":[{"load":["user","u1"]},"name"]}'
U1, U2, U3, U4 = (f'{{"load":["user","u{number}"]}}' for number in (1, 2, 3, 4))
NO_ROW = 'key ["user","u9"] "no row"'
MET_NO_ROW = 'met the error "no row" of ["user","u9"]'
NEEDS = {
    "key": "a row",
    "batch": "a batch that is answered",
    "NoField": "an object with this field",
    "NotAKey": "an id, a text of 1 to 256 bytes",
    "NotAList": "a list of ids",
    "TooMany": "at most 1024",
}


def explained_file(*plans, version=1):
    """A plan file over these tables. A plan is its steps, and a step that is no text of its own is a term."""
    return '{"version":%d,"tables":%s,"plans":[%s]}' % (version, EXPLAINED_TABLES, ",".join(f"[{','.join(plan)}]" for plan in plans))


def evaluation(term):
    return '{"eval":%s}' % term


def explained(about, term, fault, place, met, needs=None, version=1):
    """The row of a term with this fault, which comes from this place in the term, where the part met this."""
    error = f"plan 0 step 0: eval{place}: {met}, and needs {needs or NEEDS[fault.split(' ')[0]]}\n"
    text = document(explained_file([evaluation(term)], version=version))
    return Row(about, text, EXPLAIN, output=f"0 0 fault {fault}\n", error=error)


ROWS["a fault is explained"] = [
    # A load.
    explained("a load of no row", '{"load":["user","u9"]}', NO_ROW, "", f"load {MET_NO_ROW}"),
    explained(
        "a load from no table",
        '{"load":["shop","s"]}',
        'key ["shop","s"] "no table"',
        "",
        'load met the error "no table" of ["shop","s"]',
    ),
    explained(
        "a load of an error, whose text has a line feed",
        '{"load":["user","u7"]}',
        r'key ["user","u7"] "it\n\"is\" gone"',
        "",
        r'load met the error "it\n\"is\" gone" of ["user","u7"]',
    ),
    explained(
        "a load whose batch fails",
        '{"load":["user","u13"]}',
        'batch ["user","u13"] "db down"',
        "",
        'load met the failed batch ("db down") of ["user","u13"]',
    ),
    explained(
        "a load of a long id",
        '{"load":["user","' + "i" * 200 + '"]}',
        'key ["user","' + "i" * 200 + '"] "no row"',
        "",
        'load met the error "no row" of ["user","' + "i" * 51 + "…",
    ),
    # A pick.
    explained(
        "a pick from an object without the field",
        '{"pick":[{"value":{"b":[1,null],"a":"x"}},"c"]}',
        "NoField",
        "",
        'pick "c" met {"a":"x","b":[1,null]}',
    ),
    explained("a pick from a row that is a number", '{"pick":[{"load":["user","u4"]},"n"]}', "NoField", "", 'pick "n" met 7'),
    explained("a pick from a row that is a list", '{"pick":[{"load":["user","u5"]},"0"]}', "NoField", "", 'pick "0" met ["u1"]'),
    explained("a pick from a text", '{"pick":[{"pick":[%s,"name"]},"name"]}' % U1, "NoField", "", 'pick "name" met "Ada"'),
    explained("a pick from null", '{"pick":[{"value":null},""]}', "NoField", "", 'pick "" met null'),
    explained(
        "a pick from the list of an all",
        '{"pick":[{"all":[{"value":1},{"all":[{"value":"b"},{"value":{}}]}]},"n"]}',
        "NoField",
        "",
        'pick "n" met [1,["b",{}]]',
    ),
    explained(
        "a pick from the rows of an each",
        '{"pick":[{"each":[{"value":{"ids":["u4","u5"]}},"ids","user"]},"n"]}',
        "NoField",
        "",
        'pick "n" met [7,["u1"]]',
    ),
    explained(
        "a pick of a field with quotation marks",
        '{"pick":[{"value":{}},"a\\"\\nb"]}',
        "NoField",
        "",
        r'pick "a\"\nb" met {}',
    ),
    explained(
        "a pick of a long field",
        '{"pick":[{"value":{}},"' + "f" * 100 + '"]}',
        "NoField",
        "",
        'pick "' + "f" * 59 + "… met {}",
    ),
    explained("a pick from a part that fails", '{"pick":[{"load":["user","u9"]},"name"]}', NO_ROW, ".pick[0]", f"load {MET_NO_ROW}"),
    # A value is shown up to 60 characters, with those of its quotation marks.
    explained("a value of 60 characters", '{"pick":[{"value":"' + "é" * 58 + '"},"n"]}', "NoField", "", 'pick "n" met "' + "é" * 58 + '"'),
    explained("a value of 61 characters", '{"pick":[{"value":"' + "é" * 59 + '"},"n"]}', "NoField", "", 'pick "n" met "' + "é" * 59 + "…"),
    # A follow.
    explained("a follow from no field", '{"follow":[{"value":{"best":"u2"}},"worst","user"]}', "NoField", "", 'follow "worst" met {"best":"u2"}'),
    explained("a follow of a number", '{"follow":[%s,"n","user"]}' % U1, "NotAKey", "", 'follow "n" met 5'),
    explained("a follow of an object", '{"follow":[%s,"o","user"]}' % U1, "NotAKey", "", 'follow "o" met {"a":1}'),
    explained("a follow of an empty text", '{"follow":[%s,"best","user"]}' % U2, "NotAKey", "", 'follow "best" met ""'),
    explained("a follow of a long text", '{"follow":[%s,"long","user"]}' % U2, "NotAKey", "", 'follow "long" met "' + "x" * 59 + "…"),
    explained("a follow of a list", '{"follow":[%s,"ids","user"]}' % U1, "NotAKey", "", 'follow "ids" met ["u2","u1"]'),
    explained("a follow to no row", '{"follow":[%s,"lost","user"]}' % U1, NO_ROW, "", f'follow "lost" {MET_NO_ROW}'),
    explained(
        "a follow to an error",
        '{"follow":[%s,"err","user"]}' % U1,
        r'key ["user","u7"] "it\n\"is\" gone"',
        "",
        r'follow "err" met the error "it\n\"is\" gone" of ["user","u7"]',
    ),
    explained(
        "a follow into a batch that fails",
        '{"follow":[%s,"down","user"]}' % U1,
        'batch ["user","u13"] "db down"',
        "",
        'follow "down" met the failed batch ("db down") of ["user","u13"]',
    ),
    explained(
        "a follow from a part that fails, which a pick reads",
        '{"pick":[{"follow":[{"follow":[%s,"lost","user"]},"best","user"]},"name"]}' % U1,
        NO_ROW,
        ".pick[0].follow[0]",
        f'follow "lost" {MET_NO_ROW}',
    ),
    # An each.
    explained("an each from no field", '{"each":[{"value":7},"ids","user"]}', "NoField", "", 'each "ids" met 7'),
    explained("an each over an object", '{"each":[%s,"o","user"]}' % U1, "NotAList", "", 'each "o" met {"a":1}'),
    explained("an each over an id", '{"each":[%s,"best","user"]}' % U1, "NotAList", "", 'each "best" met "u2"'),
    explained("an each over too many", '{"each":[%s,"many","user"]}' % U3, "TooMany", "", 'each "many" met 1025 items'),
    explained("an each over a number, and no row", '{"each":[%s,"ids","user"]}' % U2, "NotAKey", "", 'each "ids" met 5 at [1]'),
    explained("an each over no row", '{"each":[%s,"gone","user"]}' % U2, NO_ROW, "", f'each "gone" {MET_NO_ROW} at [1]'),
    explained(
        "an each over a batch that fails, of which each key fails",
        '{"each":[%s,"down","user"]}' % U2,
        'batch ["user","u1"] "db down"',
        "",
        'each "down" met the failed batch ("db down") of ["user","u1"] at [0]',
    ),
    explained(
        "an each over many, of which the last is no id",
        '{"each":[{"value":{"ids":[' + '"u1",' * 1_023 + 'null]}},"ids","user"]}',
        "NotAKey",
        "",
        'each "ids" met null at [1023]',
    ),
    explained(
        "an each from a part that fails",
        '{"each":[{"pick":[{"value":{"name":"Ada"}},"names"]},"ids","user"]}',
        "NoField",
        ".each[0]",
        'pick "names" met {"name":"Ada"}',
    ),
    # An all.
    explained(
        "an all whose second part fails, and its third one otherwise",
        '{"all":[%s,{"pick":[{"value":{}},"name"]},{"load":["user","u9"]}]}' % U1,
        "NoField",
        ".all[1]",
        'pick "name" met {}',
    ),
    explained(
        "two parts that fail alike, inside one another",
        '{"all":[{"value":1},{"all":[]},{"all":[%s,{"load":["user","u9"]}]},{"load":["user","u9"]}]}' % U1,
        NO_ROW,
        ".all[2].all[1]",
        f"load {MET_NO_ROW}",
    ),
    explained(
        "each form around a part that fails",
        '{"each":[{"pick":[{"follow":[{"pick":[{"all":[{"load":["user","u9"]}]},"a"]},"b","user"]},"c"]},"d","user"]}',
        NO_ROW,
        ".each[0].pick[0].follow[0].pick[0].all[0]",
        f"load {MET_NO_ROW}",
    ),
]


def explained_3(about, term, fault, place, met, needs=None):
    """The same in version 3."""
    return explained(about, term, fault, place, met, needs, version=3)


FRIENDS = '{"each":[%s,"ids","user"]}' % U1
ROWS["a fault in a body or a member is explained"] = [
    explained_3("an over of no list", '{"over":[%s,{"item":true}]}' % U1_NAME, "NotAList", "", 'over met "Ada"', "a list"),
    explained_3("an over of too many", '{"over":[{"pick":[%s,"many"]},{"item":true}]}' % U3, "TooMany", "", "over met 1025 items"),
    explained_3(
        "an over whose part fails",
        '{"over":[{"pick":[%s,"names"]},{"load":["user","u9"]}]}' % U4,
        "NoField",
        ".over[0]",
        'pick "names" met 7',
    ),
    explained_3(
        "the second item of an over",
        '{"over":[%s,{"follow":[{"item":true},"best","user"]}]}' % FRIENDS,
        "NotAKey",
        ".over[1] at [0]",
        'follow "best" met ""',
    ),
    explained_3(
        "the first of the items that fail",
        '{"over":[{"value":[{"a":1},{"b":2},{}]},{"pick":[{"item":true},"a"]}]}',
        "NoField",
        ".over[1] at [1]",
        'pick "a" met {"b":2}',
    ),
    explained_3(
        "a body in a body",
        '{"over":[{"value":[["u1"],["u2","u9"]]},{"over":[{"item":true},{"pick":[{"follow":[{"object":{"id":{"item":true}}},"id","user"]},"name"]}]}]}',
        NO_ROW,
        ".over[1] at [1].over[1] at [1].pick[0]",
        f'follow "id" {MET_NO_ROW}',
    ),
    explained_3(
        "an item that is no list",
        '{"over":[{"value":[[],1]},{"over":[{"item":true},{"item":true}]}]}',
        "NotAList",
        ".over[1] at [1]",
        "over met 1",
        "a list",
    ),
    explained_3(
        "the first member that fails, by its name",
        '{"object":{"b":{"load":["user","u9"]},"a":{"pick":[{"value":2},"x"]},"A":{"value":1}}}',
        "NoField",
        ".object.a",
        'pick "x" met 2',
    ),
    explained_3(
        "a member whose name is no word",
        '{"all":[{"object":{"a \\"b\\"":{"object":{"":{"load":["user","u9"]}}}}}]}',
        NO_ROW,
        r'.all[0].object["a \"b\""].object[""]',
        f"load {MET_NO_ROW}",
    ),
]


def several(about, plans, lines, explanations, **others):
    """The row of these plans."""
    error = "".join(f"{line}\n" for line in explanations)
    return answered(about, explained_file(*plans), *lines, error=error, command_lines=EXPLAIN, **others)


PRIME = '{"prime":[["user","u1"],{"error":"blocked"}]}'
BLOCKED = 'met the error "blocked" of ["user","u1"], and needs a row'

ROWS["each fault of a plan file is explained"] = [
    several("no fault", [[evaluation(U1_NAME)], []], ['0 0 ok "Ada"'], []),
    several(
        "steps that evaluate nothing count, and steps without a fault have no line",
        [[PRIME, evaluation(U1_NAME), '{"clear":["user","u1"]}', evaluation(U1_NAME), evaluation('{"load":["user","u9"]}')]],
        ['0 1 fault key ["user","u1"] "blocked"', '0 3 ok "Ada"', f"0 4 fault {NO_ROW}"],
        [f"plan 0 step 1: eval.pick[0]: load {BLOCKED}", f"plan 0 step 4: eval: load {MET_NO_ROW}, and needs a row"],
    ),
    several(
        "a term reads what it loads itself, in rounds of its own",
        [
            [
                evaluation('{"pick":[{"follow":[%s,"best","user"]},"name"]}' % U1),
                '{"clearAll":true}',
                '{"prime":[["user","u2"],{"value":{"best":7}}]}',
                evaluation('{"follow":[{"follow":[%s,"best","user"]},"best","user"]}' % U1),
                '{"clearAll":true}',
                evaluation('{"follow":[{"follow":[%s,"best","user"]},"best","user"]}' % U1),
            ]
        ],
        ['0 0 ok "Bob"', "0 3 fault NotAKey", "0 5 fault NotAKey"],
        [
            'plan 0 step 3: eval: follow "best" met 7, and needs an id, a text of 1 to 256 bytes',
            'plan 0 step 5: eval: follow "best" met "", and needs an id, a text of 1 to 256 bytes',
        ],
    ),
    several(
        "several plans, in their order",
        [
            [evaluation('{"load":["user","u9"]}')],
            [evaluation(U1_NAME)],
            [evaluation(U1_NAME), evaluation('{"pick":[{"value":2},"x"]}'), evaluation('{"pick":[{"value":3},"y"]}')],
        ],
        [f"0 0 fault {NO_ROW}", '1 0 ok "Ada"', '2 0 ok "Ada"', "2 1 fault NoField", "2 2 fault NoField"],
        [
            f"plan 0 step 0: eval: load {MET_NO_ROW}, and needs a row",
            'plan 2 step 1: eval: pick "x" met 2, and needs an object with this field',
            'plan 2 step 2: eval: pick "y" met 3, and needs an object with this field',
        ],
    ),
]


def unserved(about, name, why, limit):
    """A plan file of two loads in one round that isn't served within a limit: the line of this name comes behind this cause."""
    loads = evaluation('{"all":[{"load":["user","u8"]},{"load":["user","u9"]}]}')
    text = explained_file([loads]).replace('"version":1', f'"version":1,{limit}', 1)
    return Row(about, document(text), ("--explain", "--explain --workers 1"), status=3, error=f"{why}\nfailed: {name}\n")


FAULT = document(explained_file([evaluation('{"load":["user","u9"]}')]))
ROWS["faults are explained on request, behind an answer"] = [
    answered("without the option", FAULT, f"0 0 fault {NO_ROW}", command_lines=PLAIN),
    answered(
        "with batches",
        FAULT,
        f"0 0 fault {NO_ROW}",
        "rounds 1",
        'batch 0 [["user","u9"]] settled',
        error=f"plan 0 step 0: eval: load {MET_NO_ROW}, and needs a row\n",
        command_lines=("--batches --explain", "--explain --workers 16 --batches"),
    ),
    Row("a script", LOAD, ("--explain",), output="fresh 0 0\n"),
    Row("a plan file that is migrated", document(NOTHING), ("--explain migrate",), output=NOTHING_2),
    Row("a document that is refused", b"{}", ("--explain",), status=1, error="refused: version\n"),
    Row("an output that takes nothing", FAULT, ("--explain",), status=3, error="failed: write\n", is_full=True),
    unserved("a plan that needs two calls", "Run", "plan 0 needs more calls than maxCalls, 1: give it more, at most 65536", '"maxCalls":1'),
    unserved("a plan that needs two cells", "Run", "plan 0 needs more cells than maxCells, 1: give it more, at most 65536", '"maxCells":1'),
    unserved("a worker that needs a call", "Stopped", "a worker couldn't end its batch: give maxCalls more, or memory ran out", '"maxCalls":2'),
    usage("the option with a value", "--explain=true", "unexpected value 'true' for '--explain'"),
    usage("the option twice", "--explain --explain", "the argument '--explain' cannot be used multiple times"),
    usage("the option behind migrate", "migrate --explain", "unexpected argument '--explain' found", "Usage: plans migrate"),
]

# ---- room

ADA = '[{"name":"user","rows":[["u1",{"name":"Ada","ids":["u1","u1"]}]]}]'
OF_ADA = '{"ids":["u1","u1"],"name":"Ada"}'
LOAD_ADA = '{"load":["user","u1"]}'


def no_room(about, text, most, plan=0, **others):
    """The row of a plan that needs more than so many bytes, at the least one."""
    why = f"plan {plan} needs more than --max-answer, {most} bytes, or memory ran out\n"
    lines = (f"--max-answer {most} --explain", f"--explain --workers 1 --max-answer={most}")
    return Row(about, text, lines, status=3, error=f"{why}failed: Run\n", **others)


def fitting(about, most, *terms_and_values):
    """Two rows: a plan of these terms gives these values with so much room, and with a byte less none. Each pair is a term and a value."""
    text = document(plan_file_3(*(term for term, _ in terms_and_values), tables=ADA))
    output = "".join(f"0 {step} ok {value}\n" for step, (_, value) in enumerate(terms_and_values))
    lines = ("", f"--max-answer {most}", f"--workers 1 --max-answer={most} --explain", "--max-answer 4294967295")
    return [Row(about, text, lines, output=output), no_room(f"{about}, and a byte less", text, most - 1)]


# Of 1,024 numbers each.
MANY = f'{{"value":[{",".join(["7"] * 1_024)}]}}'
# A row of 500,000 bytes, and one with its id 1,024 times.
LARGE = document(
    '{"version":1,"tables":[{"name":"user","rows":[["u1","', ("x", 500_000), '"],["u2",{"ids":["u1"', (',"u1"', 1_023), "]}]]}],",
    '"plans":[[{"eval":{"each":[{"load":["user","u2"]},"ids","user"]}}]]}',
)  # fmt: skip
ROWS["answers have a bound"] = [
    *fitting("a load", len(OF_ADA), (LOAD_ADA, OF_ADA)),
    *fitting("two loads of one row", 2 * len(OF_ADA), (LOAD_ADA, OF_ADA), (LOAD_ADA, OF_ADA)),
    *fitting("a text, as it is written", 6, ('{"value":"é\\n"}', '"é\\n"')),
    *fitting("a pick, which is a copy", 2 * 5, ('{"pick":[%s,"name"]}' % LOAD_ADA, '"Ada"')),
    *fitting("a pick of a list", 2 * len('["u1","u1"]') + 2 * 64, ('{"pick":[%s,"ids"]}' % LOAD_ADA, '["u1","u1"]')),
    *fitting(
        "a pick of objects, whose copies are larger than their texts",
        2 * len('{"b":{"c":1,"d":{}}}') + 2 * 640 + 64,
        ('{"pick":[{"value":{"a":{"b":{"c":1,"d":{}}}}},"a"]}', '{"b":{"c":1,"d":{}}}'),
    ),
    *fitting("an each of two ids", 2 * 64 + 2 * len(OF_ADA) + 3, ('{"each":[%s,"ids","user"]}' % LOAD_ADA, f"[{OF_ADA},{OF_ADA}]")),
    *fitting("an over of two items, which are copies", 5 + 2 * 64 + 2 * 64 + 5, ('{"over":[{"value":[1,2]},%s]}' % ITEM, "[1,2]")),
    *fitting(
        "an over in an over, whose body is a copy too",
        9 + 4 * 64 + 2 * (4 * 64 + 3 + 64) + 9,
        ('{"over":[{"value":[[1],[2]]},{"over":[%s,%s]}]}' % (ITEM, ITEM), "[[1],[2]]"),
    ),
    *fitting("an object, whose names come in any order", 13, ('{"object":{"b":{"value":2},"a":{"value":1}}}', '{"a":1,"b":2}')),
    *fitting(
        "ids in an object of lists, which are a copy",
        11 + 2 * 64 + 2 * 64 + 2 * len(OF_ADA) + 3,
        ('{"each":[{"object":{"ids":{"all":[{"value":"u1"},{"value":"u1"}]}}},"ids","user"]}', f"[{OF_ADA},{OF_ADA}]"),
    ),
    answered(
        "each plan has room of its own",
        '{"version":1,"tables":%s,"plans":[[{"eval":%s}],[{"eval":%s}]]}' % (ADA, LOAD_ADA, LOAD_ADA),
        f"0 0 ok {OF_ADA}",
        f"1 0 ok {OF_ADA}",
        command_lines=(f"--max-answer {len(OF_ADA)}",),
    ),
    answered("a script has no plans", LOAD, "fresh 0 0", command_lines=("--max-answer 1",)),
    no_room("512 megabytes of one row", LARGE, 1_000_000, is_checked=False),
    no_room("512 megabytes of one row, and only the ids fit", LARGE, 1_024 * 64, is_checked=False),
    no_room("a thousand million nodes", document(plan_file_3(f'{{"over":[{MANY},{{"over":[{MANY},{{"over":[{MANY},{ITEM}]}}]}}]}}')), 10_000_000, is_checked=False),
    Row("no explanation", document(plan_file_3(LOAD_ADA, tables=ADA)), ("--max-answer 1",), status=3, error="failed: Run\n"),
]
