#!/usr/bin/env python3
"""What a desk's questions cost over HTTP: desk.py [NEWSDESK].

A page of items, of 262,144 on a desk: where the newest thousand have the hundred that are asked for it should come within 5 ms, and where one item alone, the
oldest, is found, within 15 ms. And whom a story would reach, of 256 subscribers with four products each, of 1,023 with filters over 4,096 conditions, beside
what publishing it to them takes: the answer has 68 KB, and writing it is most of that. `bench/run due` has what the rules take of both. A store in memory is filled by `batch`, `serve` opens it, and each question is asked five times; the best time
counts, with the tick and the answer as it comes over the connection. It ends with 1 where one takes longer.
"""
import http.client
import json
import os
import subprocess
import sys
import tempfile
import time

sys.dont_write_bytecode = True
from ports import free_port, listens  # noqa: E402

ITEMS, ROUNDS = 262_144, 5
SUBSCRIBERS, PRODUCTS, CONDITIONS = 256, 1_023, 4_096
TOP = os.path.dirname(os.path.dirname(os.path.abspath(__file__)))
NEWSDESK = sys.argv[1] if len(sys.argv) > 1 else os.path.join(TOP, "newsdesk")
STORE = "6ba7b810-9dad-11d1-80b4-00c04fd430c8"


def numbered(requests):
    for number, request in enumerate(requests, 1):
        yield json.dumps({"by": "admin", "number": number, **request})


def desks():
    """Two desks: the first item stands on `far`, all others on `city`."""
    for desk in ("far", "city"):
        yield {"do": "add_desk", "desk": desk}
        yield {"do": "set_member", "desk": desk, "user": "admin", "member": True}
    for item in range(ITEMS):
        yield {"do": "create", "desk": "city" if item else "far", "story": {"headline": f"Report {item}", "slugline": "report"}}


def rules():
    """As many conditions and products as there may be, and subscribers with four products each."""
    for place in range(CONDITIONS):
        yield {"do": "add_condition", "condition": f"c{place}", "field": "body", "op": "like", "values": [f"word{place}"]}
    for place in range(PRODUCTS):
        names = [f"c{(place * 4 + step) % CONDITIONS}" for step in range(4)]
        yield {"do": "add_filter", "filter": f"f{place}", "statements": [{"conditions": [name]} for name in names]}
        yield {"do": "add_product", "product": f"p{place}", "how": "permitting", "filter": f"f{place}"}
    for place in range(SUBSCRIBERS):
        products = [f"p{(place * 4 + step) % PRODUCTS}" for step in range(4)]
        yield {"do": "add_subscriber", "subscriber": f"s{place}", "format": "ninjs", "products": products}
    yield {"do": "add_desk", "desk": "city"}
    yield {"do": "set_member", "desk": "city", "user": "admin", "member": True}
    yield {"do": "create", "desk": "city", "story": {"headline": "Fire", "body": "Smoke over word7 and word4095. " * 60}}


def ask(port, method, path, body=None, user="admin"):
    """The seconds of a request, and its answer."""
    connection = http.client.HTTPConnection("127.0.0.1", port, timeout=60)
    connection.connect()
    begun = time.monotonic()
    connection.request(method, path, body, {"X-User": user})
    answer = connection.getresponse().read()
    seconds = time.monotonic() - begun
    connection.close()
    return seconds, json.loads(answer)


def best(port, path):
    asked = [ask(port, "GET", path) for _ in range(ROUNDS)]
    return 1000 * min(seconds for seconds, _ in asked), asked[0][1]


class Serving:
    """A server over a store in memory that `batch` filled with these requests."""

    def __init__(self, requests):
        self.folder = tempfile.TemporaryDirectory(dir="/dev/shm")
        store, self.port = os.path.join(self.folder.name, "store"), free_port()
        lines = "\n".join(numbered(requests)).encode()
        subprocess.run([NEWSDESK, "init", store, STORE], check=True)
        said = subprocess.run([NEWSDESK, "batch", store], input=lines, stdout=subprocess.PIPE, check=True).stdout
        self.number = lines.count(b"\n") + 2
        if said.count(b'"done"') != self.number - 1:
            sys.exit("not all was done: " + said.decode()[-300:])
        self.server = subprocess.Popen([NEWSDESK, "serve", store, f"127.0.0.1:{self.port}", "1"], stderr=subprocess.DEVNULL)
        while not listens(self.port):
            time.sleep(0.1)

    def __enter__(self):
        return self

    def __exit__(self, *_):
        self.server.kill()
        self.server.wait()
        self.folder.cleanup()


def main():
    late = 0
    with Serving(desks()) as serving:
        for path, aim, count in (("/desks/city/items/below/4294967295", 5, 100), ("/desks/far/items/below/4294967295", 15, 1)):
            took, answer = best(serving.port, path)
            late += took > aim or len(answer["rows"]) != count
            print(f"{path}: {took:.2f} ms for {len(answer['rows'])} of {ITEMS} items, the aim is {aim}")
    with Serving(rules()) as serving:
        took, answer = best(serving.port, "/items/1/reach")
        reached = sum(row["reason"] == "permitted" for row in answer["rows"])
        flashes = []
        for number in range(serving.number, serving.number + ROUNDS):
            flash = {"number": number, "do": "flash", "story": {"headline": "Fire", "body": "Smoke over word7 and word4095. " * 60}}
            flashes.append(1000 * ask(serving.port, "POST", "/requests", json.dumps(flash))[0])
        print(f"/items/1/reach: {took:.2f} ms for {len(answer['rows'])} subscribers, {reached} of them reached; a flash of the same story takes {min(flashes):.2f} ms")
    sys.exit(late > 0)


main()
