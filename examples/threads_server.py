#!/usr/bin/env python3
"""A server with a thread for each request over an SQLite file, and with loaders for each request: a WSGI application on the server of
Python's library, with neither an event loop nor a framework.

Without arguments it answers some requests by HTTP, and prints how many SQL statements each took with loaders and without. With
`--port PORT` it serves until it is stopped.
"""

import json
import threading
import urllib.request
from concurrent.futures import ThreadPoolExecutor
from socketserver import ThreadingMixIn
from wsgiref.simple_server import WSGIRequestHandler, WSGIServer, make_server

from blog import Database, answer_or_serve
from thrushscreen.threads import DataLoader, run


class NoLoader(DataLoader):
    """Asks for each key by itself, and as often as it is loaded, as a server without loaders does."""

    batch = False
    cache = False


class Request:
    """What the views of one request ask. It is made in the request's own thread, as a connection of SQLite's is."""

    def __init__(self, path, kind):
        self.database = Database(path)
        self.user = kind(lambda ids: self.database.row_by("user", ids))
        self.post = kind(lambda ids: self.database.row_by("post", ids))
        self.posts_of = kind(lambda ids: self.database.rows_by("post", "author", ids))
        self.comments_of = kind(lambda ids: self.database.rows_by("comment", "post", ids))


# Views. A generator yields what it waits for: a load, another generator, or a list of these.


def post(request, row):
    """A post, its author, and its comments."""
    author, comments = yield [request.user.load(row["author"]), request.comments_of.load(row["id"])]
    return {"title": row["title"], "author": author["name"], "comments": (yield [comment(request, row) for row in comments])}


def comment(request, row):
    author = yield request.user.load(row["author"])
    friend = (yield request.user.load(author["best_friend"])) if author["best_friend"] else None
    return {"text": row["text"], "author": author["name"], "friend": friend and friend["name"]}


def posts_view(request):
    return (yield [post(request, row) for row in request.database.rows("SELECT * FROM post ORDER BY id")])


def post_view(request, number):
    row = yield request.post.load(number)
    return (yield post(request, row)) if row else None


def user_view(request, number):
    user, posts = yield [request.user.load(number), request.posts_of.load(number)]
    return {"name": user["name"], "posts": (yield [post(request, row) for row in posts])} if user else None


def names_view(request):
    """A view without generators: what it loads before it asks for the first result is one batch."""
    authors = [request.user.load(row["author"]) for row in request.database.rows("SELECT * FROM post ORDER BY id")]
    return [author.result()["name"] for author in authors]


# Each view by its name, and by how many numbers it takes.
VIEWS = {("posts", 0): posts_view, ("post", 1): post_view, ("user", 1): user_view, ("names", 0): names_view}


def not_found(start_response):
    start_response("404 Not Found", [("Content-Type", "text/plain")])
    return [b"there is no such page\n"]


class Application:
    """What WSGI calls for each request, and how many statements all took."""

    def __init__(self, path, kind=DataLoader):
        self.path, self.kind = path, kind
        self.statements = 0
        self.lock = threading.Lock()

    def __call__(self, environ, start_response):
        name, *numbers = environ["PATH_INFO"].strip("/").split("/")
        view = VIEWS.get((name, len(numbers)))
        if view is None or not all(number.isdecimal() and len(number) < 19 for number in numbers):  # SQLite takes no larger ones.
            return not_found(start_response)
        request = Request(self.path, self.kind)
        try:
            answer = view(request, *map(int, numbers))
            answer = answer if isinstance(answer, list) else run(answer)
        finally:
            request.database.close()
            with self.lock:
                self.statements += request.database.statements
        if answer is None:
            return not_found(start_response)
        body = json.dumps(answer).encode()
        start_response("200 OK", [("Content-Type", "application/json"), ("Content-Length", str(len(body)))])
        return [body]


class Server(ThreadingMixIn, WSGIServer):
    """One thread a request."""

    daemon_threads = True
    request_queue_size = 64


class Quiet(WSGIRequestHandler):
    def log_message(self, *_):
        pass


def serve(application, port):
    return make_server("127.0.0.1", port, application, Server, Quiet)


def serve_on(application, port):
    with serve(application, port) as server:
        print(f"serving on http://127.0.0.1:{port}")
        server.serve_forever()


def count(path, pages, kind):
    """How many statements the pages take that are asked for at once, and what they are."""
    application = Application(path, kind)
    with serve(application, 0) as server:
        threading.Thread(target=server.serve_forever, daemon=True).start()

        def ask(page):
            with urllib.request.urlopen(f"http://127.0.0.1:{server.server_port}/{page}", timeout=60) as answer:
                return json.load(answer)

        with ThreadPoolExecutor(len(pages)) as callers:
            answers = list(callers.map(ask, pages))
        server.shutdown()
    return application.statements, answers


def compare(path):
    pages = ["names", "posts", "post/7", "user/3"]
    for name, asked in [*((f"/{page}", [page]) for page in pages), ("all of these at once, five times", pages * 5)]:
        few, answers = count(path, asked, DataLoader)
        many, others = count(path, asked, NoLoader)
        assert answers == others, name
        print(f"{name}: {few} SQL statements with loaders, {many} without")


if __name__ == "__main__":
    answer_or_serve(__doc__, compare, lambda path, port: serve_on(Application(path), port))
