#!/usr/bin/env python3
"""A web server of pages that lie in an SQLite file, with the cache between.

    python3 pages.py serve [PORT]    serves /page/1 to /page/1000; /numbers shows the cache's numbers
    python3 pages.py stampede        64 threads ask for one cold page at once: prints how many queries ran
"""
import os
import sqlite3
import sys
import tempfile
import threading
import urllib.request
from http.server import BaseHTTPRequestHandler, ThreadingHTTPServer

sys.path.insert(0, os.path.join(os.path.dirname(os.path.abspath(__file__)), ".."))
from rookdresser import Cache, Refused

PAGES = 1000


def make_pages(path):
    with sqlite3.connect(path) as database:
        database.execute("create table pages (number integer primary key, text text)")
        database.executemany("insert into pages values (?, ?)", ((n, "page %d " % n * 200) for n in range(1, PAGES + 1)))
    database.close()


class Pages:
    """The pages of an SQLite file, read through a cache. Counts the queries."""

    def __init__(self, path):
        self.path, self.lock, self.queries = path, threading.Lock(), 0
        self.cache = Cache(entries=200, after_write=60_000)

    def load(self, number):
        with self.lock:
            self.queries += 1
        database = sqlite3.connect(self.path)
        try:
            # A slow source: the query walks all pages.
            row = database.execute("select text, (select sum(length(text)) from pages) from pages where number = ?", (number,)).fetchone()
        finally:
            database.close()
        if row is None:
            raise KeyError(number)
        return row[0]

    def get(self, number):
        return self.cache.get_or_load(number, self.load)


def server_of(pages, port):
    class Handler(BaseHTTPRequestHandler):
        def do_GET(self):
            status, text = answer(pages, self.path)
            body = text.encode()
            self.send_response(status)
            self.send_header("Content-Length", str(len(body)))
            self.end_headers()
            self.wfile.write(body)

        def log_message(self, *_):
            pass

    class Server(ThreadingHTTPServer):
        request_queue_size = 128

    return Server(("127.0.0.1", port), Handler)


def answer(pages, path):
    if path == "/numbers":
        return 200, "\n".join("%s %d" % of for of in pages.cache.numbers().items())
    front, _, number = path.rpartition("/")
    if front != "/page" or not number.isdecimal():
        return 404, "no such page"
    try:
        return 200, pages.get(int(number))
    except KeyError:
        return 404, "no such page"
    except Refused as refused:
        return 503, str(refused)


def stampede(pages, threads=64):
    """How many queries ran, and how many different answers came, for so many clients of one cold page."""
    with server_of(pages, 0) as server:
        threading.Thread(target=server.serve_forever, daemon=True).start()
        gate, got = threading.Barrier(threads), []

        def ask():
            gate.wait()
            with urllib.request.urlopen("http://127.0.0.1:%d/page/7" % server.server_port) as reply:
                got.append(reply.read())

        askers = [threading.Thread(target=ask) for _ in range(threads)]
        for asker in askers:
            asker.start()
        for asker in askers:
            asker.join()
        server.shutdown()
    return len(got), len(set(got)), pages.queries


def main(words):
    with tempfile.TemporaryDirectory() as folder:
        path = os.path.join(folder, "pages.sqlite")
        make_pages(path)
        pages = Pages(path)
        with pages.cache:
            if words[:1] == ["serve"]:
                server_of(pages, int(words[1]) if len(words) > 1 else 8080).serve_forever()
            elif words == ["stampede"]:
                print("%d answers, %d different, %d queries" % stampede(pages))
            else:
                sys.exit(__doc__)


if __name__ == "__main__":
    main(sys.argv[1:])
