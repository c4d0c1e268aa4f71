#!/usr/bin/env python3
"""A server in plain Python that does what `plans serve` does for plans of loads, picks, follows and lists: a thread for each connection, a
dictionary for each table, and the rows that a request has loaded kept for the request.

    server.py PORT TABLES
"""

import http.server
import json
import sys


class Fault(Exception):
    """A term has no value, with the words that say so."""


class Request:
    """The answers to a plan file, whose rows are looked up once each."""

    def __init__(self, tables):
        self.tables, self.loaded = tables, {}

    def load(self, table, key):
        if not isinstance(key, str):
            raise Fault("NotAKey")
        if (table, key) not in self.loaded:
            self.loaded[table, key] = self.tables.get(table, {}).get(key)
        row = self.loaded[table, key]
        if row is None:
            raise Fault("key")
        return row

    def value(self, term):
        [(form, told)] = term.items()
        match form, told:
            case "value", value:
                return value
            case "load", [table, key]:
                return self.load(table, key)
            case "all", terms:
                return [self.value(each) for each in terms]
            case "pick", [of, name]:
                return self.field(of, name)
            case "follow", [of, name, table]:
                return self.load(table, self.field(of, name))
            case "each", [of, name, table]:
                return [self.load(table, key) for key in self.field(of, name)]
        raise Fault(form)

    def field(self, term, name):
        value = self.value(term)
        if not isinstance(value, dict) or name not in value:
            raise Fault("NoField")
        return value[name]

    def answer(self, number, term):
        try:
            return {"ok": self.value(term), "step": number}
        except Fault as fault:
            return {"fault": str(fault), "step": number}

    def answers(self, file):
        return {"answers": [[self.answer(number, step["eval"]) for number, step in enumerate(plan) if "eval" in step] for plan in file["plans"]]}


class Handler(http.server.BaseHTTPRequestHandler):
    protocol_version = "HTTP/1.1"
    disable_nagle_algorithm = True
    tables: dict[str, dict[str, object]] = {}

    def do_POST(self):
        file = json.loads(self.rfile.read(int(self.headers["content-length"])))
        body = json.dumps(Request(self.tables).answers(file)).encode()
        self.send_response(200)
        self.send_header("content-type", "application/json")
        self.send_header("content-length", str(len(body)))
        self.end_headers()
        self.wfile.write(body)

    def log_message(self, *_):
        pass


def main():
    port, file = sys.argv[1:]
    with open(file, encoding="utf-8") as tables:
        Handler.tables = {table["name"]: dict(table["rows"]) for table in json.load(tables)}
    http.server.ThreadingHTTPServer(("127.0.0.1", int(port)), Handler).serve_forever()


if __name__ == "__main__":
    main()
