#!/usr/bin/env python3
"""A GraphQL server over an SQLite file, with loaders for each request.

Without arguments it answers some queries by HTTP, and prints how many SQL statements each took with loaders and without. With
`--port PORT` it serves until it is stopped: POST a JSON object with the member "query".
"""

import asyncio
import json
import sys
from dataclasses import dataclass

sys.path.append("/usr/lib/python3/dist-packages")  # Debian's graphql-core, for a Python that isn't Debian's.

from graphql import build_ast_schema, graphql, parse  # noqa: E402

from blog import Database, answer_or_serve  # noqa: E402
from thrushscreen import DataLoader  # noqa: E402

try:
    from graphql.execution.executors.asyncio import AsyncioExecutor  # noqa: E402
except ImportError:
    # graphql-core 3 is asynchronous by itself.
    AsyncioExecutor = None

SCHEMA = """
    schema { query: Query }
    type Query { posts: [Post!]! post(id: Int!): Post }
    type Post { id: Int! title: String! author: User! comments: [Comment!]! }
    type Comment { id: Int! text: String! author: User! post: Post! }
    type User { id: Int! name: String! posts: [Post!]! bestFriend: User }
"""

QUERIES = {
    "posts and their authors": "{ posts { title author { name } } }",
    "posts, their comments, and the authors of both": "{ posts { title author { name } comments { text author { name } } } }",
    "a post, and friends of all who wrote": """{ post(id: 1) {
        author { bestFriend { name } }
        comments { author { bestFriend { name bestFriend { name } } } }
    } }""",
    "five levels of lists": "{ posts { author { posts { comments { author { bestFriend { name } } } } } } }",
}


class NoLoader:
    """Asks for each key by itself, as a server without loaders does."""

    def __init__(self, batch_load_fn):
        self.batch_load_fn = batch_load_fn

    async def load(self, key):
        return (await self.batch_load_fn([key]))[0]


@dataclass
class Request:
    """What the resolvers of one request ask."""

    database: Database
    kind: type = DataLoader

    def __post_init__(self):
        self.user = self.kind(self.one("user"))
        self.post = self.kind(self.one("post"))
        self.posts_of = self.kind(self.many("post", "author"))
        self.comments_of = self.kind(self.many("comment", "post"))

    def one(self, table):
        async def batch_load_fn(ids):
            return self.database.row_by(table, ids)

        return batch_load_fn

    def many(self, table, column):
        async def batch_load_fn(ids):
            return self.database.rows_by(table, column, ids)

        return batch_load_fn


async def comment_author(comment, info):
    """A coroutine makes its load a turn of the event loop later than a function: it joins the batch all the same."""
    return await info.context.user.load(comment["author"])


# The resolver of each field that is no column: of a row and of what it is asked with.
RESOLVERS = {
    ("Query", "posts"): lambda _, info: info.context.database.rows("SELECT * FROM post ORDER BY id"),
    ("Query", "post"): lambda _, info, id: info.context.post.load(id),
    ("Post", "author"): lambda post, info: info.context.user.load(post["author"]),
    ("Post", "comments"): lambda post, info: info.context.comments_of.load(post["id"]),
    ("Comment", "author"): comment_author,
    ("Comment", "post"): lambda comment, info: info.context.post.load(comment["post"]),
    ("User", "posts"): lambda user, info: info.context.posts_of.load(user["id"]),
    ("User", "bestFriend"): lambda user, info: user["best_friend"] and info.context.user.load(user["best_friend"]),
}


def schema_with_resolvers():
    schema = build_ast_schema(parse(SCHEMA))
    for (of, field), resolver in RESOLVERS.items():
        definition = schema.get_type(of).fields[field]
        setattr(definition, "resolver" if AsyncioExecutor else "resolve", resolver)
    return schema


async def answer(schema, database, query, kind=DataLoader):
    """What a query gives, as a JSON object."""
    options = {"executor": AsyncioExecutor(asyncio.get_running_loop()), "return_promise": True} if AsyncioExecutor else {}
    result = await graphql(schema, query, context_value=Request(database, kind), **options)
    errors = [{"message": str(error)} for error in result.errors or []]
    return {"data": result.data, **({"errors": errors} if errors else {})}


async def serve(database, port, kind=DataLoader):
    """A server of HTTP, one request a connection."""
    schema = schema_with_resolvers()

    async def handle(reader, writer):
        try:
            head = await reader.readuntil(b"\r\n\r\n")
            lengths = [line.split(b":")[1] for line in head.split(b"\r\n") if line.lower().startswith(b"content-length:")]
            query = json.loads(await reader.readexactly(int(lengths[0])))["query"]
            status, body = "200 OK", json.dumps(await answer(schema, database, query, kind))
        except (asyncio.IncompleteReadError, asyncio.LimitOverrunError, IndexError, KeyError, TypeError, ValueError):
            status, body = "400 Bad Request", json.dumps({"errors": [{"message": 'POST a JSON object with "query"'}]})
        head = f"HTTP/1.1 {status}\r\nContent-Type: application/json\r\nContent-Length: {len(body)}\r\nConnection: close\r\n\r\n"
        writer.write(head.encode() + body.encode())
        await writer.drain()
        writer.close()

    return await asyncio.start_server(handle, "127.0.0.1", port)


async def ask(port, query):
    """What a server answers."""
    reader, writer = await asyncio.open_connection("127.0.0.1", port)
    body = json.dumps({"query": query}).encode()
    writer.write(b"POST / HTTP/1.1\r\nHost: localhost\r\nContent-Length: %d\r\n\r\n%s" % (len(body), body))
    head, _, body = (await reader.read()).partition(b"\r\n\r\n")
    writer.close()
    assert head.startswith(b"HTTP/1.1 200 "), head
    return json.loads(body)


async def count(path, queries, kind):
    """How many statements the queries take that are asked at once, and what they give."""
    database = Database(path)
    server = await serve(database, 0, kind)
    port = server.sockets[0].getsockname()[1]
    answers = await asyncio.gather(*[ask(port, query) for query in queries])
    server.close()
    await server.wait_closed()
    database.close()
    return database.statements, answers


async def compare(path):
    for name, queries in [*((name, [query]) for name, query in QUERIES.items()), ("all of these at once", list(QUERIES.values()))]:
        few, answers = await count(path, queries, DataLoader)
        many, others = await count(path, queries, NoLoader)
        assert answers == others and not any("errors" in answer for answer in answers), name
        print(f"{name}: {few} SQL statements with loaders, {many} without")


async def serve_on(path, port):
    server = await serve(Database(path), port)
    print(f"serving on http://127.0.0.1:{port}")
    await server.serve_forever()


if __name__ == "__main__":
    answer_or_serve(__doc__, lambda path: asyncio.run(compare(path)), lambda path, port: asyncio.run(serve_on(path, port)))
