"""The SQLite file of a blog, which the servers of this folder answer from, and counts what it is asked."""

import argparse
import os
import sqlite3
import tempfile
from collections import defaultdict


def fill(path):
    """Makes the tables: 12 users, 100 posts, and 300 comments."""
    with sqlite3.connect(path) as connection:
        connection.execute("CREATE TABLE user (id INTEGER PRIMARY KEY, name TEXT, best_friend INTEGER)")
        connection.execute("CREATE TABLE post (id INTEGER PRIMARY KEY, title TEXT, author INTEGER)")
        connection.execute("CREATE TABLE comment (id INTEGER PRIMARY KEY, text TEXT, author INTEGER, post INTEGER)")
        users = [(n, f"user {n}", n % 12 + 1 if n % 3 else None) for n in range(1, 13)]
        posts = [(n, f"post {n}", n % 12 + 1) for n in range(1, 101)]
        comments = [(n, f"comment {n}", n * 7 % 12 + 1, n % 100 + 1) for n in range(1, 301)]
        connection.executemany("INSERT INTO user VALUES (?, ?, ?)", users)
        connection.executemany("INSERT INTO post VALUES (?, ?, ?)", posts)
        connection.executemany("INSERT INTO comment VALUES (?, ?, ?, ?)", comments)
    connection.close()


class Database:
    """The file, as one thread asks it, and how many statements it made. They are so short that an event loop's own thread may make them."""

    def __init__(self, path):
        self.statements = 0
        self.connection = sqlite3.connect(path)
        self.connection.row_factory = sqlite3.Row

    def rows(self, statement, values=()):
        self.statements += 1
        return [dict(row) for row in self.connection.execute(statement, values)]

    def rows_by(self, table, column, keys):
        """The rows of each key, by one statement."""
        marks = ", ".join("?" * len(keys))
        found = defaultdict(list)
        for row in self.rows(f"SELECT * FROM {table} WHERE {column} IN ({marks}) ORDER BY id", list(keys)):
            found[row[column]].append(row)
        return [found[key] for key in keys]

    def row_by(self, table, ids):
        """The row of each id, or None."""
        return [rows[0] if rows else None for rows in self.rows_by(table, "id", ids)]

    def close(self):
        self.connection.close()


def answer_or_serve(about, compare, serve):
    """What each server does with a file of its own: it answers some requests by itself, or serves on the port that its command line has."""
    parser = argparse.ArgumentParser(description=about.splitlines()[0])
    parser.add_argument("--port", type=int)
    port = parser.parse_args().port
    with tempfile.TemporaryDirectory() as folder:
        path = os.path.join(folder, "blog.sqlite")
        fill(path)
        if port is None:
            compare(path)
        else:
            serve(path, port)
