#!/usr/bin/env python3
"""A WSGI application over an SQLite file that answers a request by several resolvers, each on a thread of its own. They share loaders.

Without arguments it answers a request, and prints how many SQL statements that took with loaders and without. With `--port PORT` it
serves until it is stopped.
"""

import contextlib
import json
import threading
from concurrent.futures import ThreadPoolExecutor
from wsgiref.util import setup_testing_defaults

from blog import Database, answer_or_serve
from threads_server import serve_on
from thrushscreen.shared import ThreadedDataLoader

# How many resolvers a request has, and after how many seconds a load is sent though one of them hasn't begun.
RESOLVERS, DELAY = 4, 10


class NoLoader(ThreadedDataLoader):
    """Asks for each key by itself, and as often as it is loaded, as a server without loaders does."""

    batch = False
    cache = False


class Request:
    """What the resolvers of one request share. Each has a connection of its own, which a batch function takes that runs in its thread."""

    def __init__(self, path, kind):
        self.path, self.mine, self.statements = path, threading.local(), []
        self.user = kind(lambda ids: self.mine.database.row_by("user", ids), delay=DELAY)
        self.comments_of = kind(lambda ids: self.mine.database.rows_by("comment", "post", ids), delay=DELAY)

    @contextlib.contextmanager
    def connected(self):
        """While a thread is inside, it has a connection, whose statements count."""
        self.mine.database = Database(self.path)
        try:
            yield self.mine.database
        finally:
            self.statements.append(self.mine.database.statements)
            self.mine.database.close()

    @contextlib.contextmanager
    def resolving(self):
        """While a thread is inside, it is a resolver of this request: a batch goes out once all of them have come in, and wait."""
        with self.user.calling(of=RESOLVERS), self.comments_of.calling(of=RESOLVERS), self.connected():
            yield


def resolve(request, posts):
    """Some posts with their authors, and with the authors of their comments."""
    with request.resolving():
        authors = request.user.load_many([post["author"] for post in posts], return_exceptions=False)
        comments = request.comments_of.load_many([post["id"] for post in posts], return_exceptions=False)
        names = {user["id"]: user["name"] for user in request.user.load_many([each["author"] for some in comments for each in some])}
        return [
            {"title": post["title"], "author": author["name"], "comments": [names[each["author"]] for each in some]}
            for post, author, some in zip(posts, authors, comments)
        ]


class Application:
    """What WSGI calls for each request, and how many statements all took."""

    def __init__(self, path, kind=ThreadedDataLoader):
        self.path, self.kind, self.statements = path, kind, 0
        self.lock = threading.Lock()

    def __call__(self, environ, start_response):
        request = Request(self.path, self.kind)
        with request.connected() as database:
            posts = database.rows("SELECT * FROM post ORDER BY id")
        with ThreadPoolExecutor(RESOLVERS) as pool:
            parts = pool.map(lambda number: resolve(request, posts[number::RESOLVERS]), range(RESOLVERS))
            body = json.dumps(sorted((post for part in parts for post in part), key=lambda post: post["title"])).encode()
        with self.lock:
            self.statements += sum(request.statements)
        start_response("200 OK", [("Content-Type", "application/json"), ("Content-Length", str(len(body)))])
        return [body]


def answer(application):
    """What an application answers."""
    environ = {}
    setup_testing_defaults(environ)
    return application(environ, lambda status, headers: None)


def compare(path):
    few, many = Application(path), Application(path, NoLoader)
    assert answer(few) == answer(many)
    print(f"100 posts: {few.statements} SQL statements with loaders, {many.statements} without")


if __name__ == "__main__":
    answer_or_serve(__doc__, compare, lambda path, port: serve_on(Application(path), port))
