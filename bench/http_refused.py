#!/usr/bin/env python3
"""A connection of `plain_server`, once for each allocation of the program, which is refused.

Each request is sent twice. The one that finds no memory has to be answered 507, or 503 where it was the log in memory that found none, and
none or all of its entries are kept: so the second is answered as the first would have been, or as a second one is. All others are answered
as ever; or there was no memory for the next request, whose 507 ends the connection.
"""
import os
import re
import subprocess
import sys
import tempfile

from http_table import FIRE, SERVER, TOP, WIRE, bare, done, get, ingest, item, post, queue, receipt, response


def twice(ask, again):
    """A request, and the same once more with what it is answered then."""
    return ask, ask.answer(), response(*again)


def pairs():
    def request(number, do, answer, **fields):
        return twice(post("admin", number, do, done(*answer), **fields), done(*answer, word="repeat"))

    def question(ask):
        return twice(ask, (ask.status, ask.body, ask.media))

    return [
        request(1, "add_desk", (1,), desk="city"),
        request(2, "add_subscriber", (2,), subscriber="alpha", format="ninjs", products=["all"]),
        request(3, "add_provider", (3,), provider="wire"),
        request(4, "flash", (4, 1, 1, 0), story=FIRE),
        twice(receipt("alpha", "alpha", 1, done(5)), done()),
        twice(ingest("wire", "admin", WIRE, done(6, 2)), done(0, 2)),
        question(get("/queue", "admin", queue(("alpha", 1, 1, 0, "success")))),
        question(get("/items/2", "admin", item("ingested", {"headline": "Fire", "body": "Smoke."}, 1, 2))),
        question(get("/items/9", "zoe", bare(403))),
        question(get("/nothing", None, bare(404))),
    ]


def plain(answer):
    """A response without the moment of a release, which depends on how many requests came before."""
    return re.sub(rb'"release":\d+', b"", re.sub(rb"Content-Length: \d+", b"", answer))


def responses(output):
    """The responses of an output, each without the moment of a release."""
    return [plain(b"HTTP/1.1 " + one) for one in output.split(b"HTTP/1.1 ")[1:]]


class Server:
    def __init__(self, folder):
        self.mark = os.path.join(folder, "mark")
        self.shim = os.path.join(folder, "refuse.so")
        subprocess.run(["cc", "-O2", "-shared", "-fPIC", "-o", self.shim, os.path.join(TOP, "bench/refused/refuse.c"), "-ldl"], check=True)

    def run(self, sent, refuse):
        """The responses, and whether that allocation was asked for."""
        if os.path.exists(self.mark):
            os.remove(self.mark)
        env = {**os.environ, "LD_PRELOAD": self.shim, "AT": "1000", "MARK": self.mark, "REFUSE": str(refuse)}
        run = subprocess.run([SERVER, "one"], input=sent, capture_output=True, env=env)
        return responses(run.stdout), os.path.exists(self.mark)


NO_MEMORY, FAULT = plain(response(507)), plain(response(503))


def is_right(got, wanted):
    """Whether at most one request was starved, and nothing else is otherwise."""
    if got[len(wanted):] == [NO_MEMORY]:
        return got[:-1] == wanted
    starved = False
    for at, answer in enumerate(got):
        first, again = wanted[at - at % 2], wanted[at - at % 2 + 1]
        if answer in (NO_MEMORY, FAULT) and not starved:
            starved = True
        elif at % 2 and got[at - 1] in (NO_MEMORY, FAULT):
            if answer not in (first, again) or (got[at - 1] == FAULT and answer != first):
                return False
        elif answer != (again if at % 2 else first):
            return False
    return len(got) == len(wanted) or not got or got[-1] == NO_MEMORY


def main():
    rows = pairs()
    sent = b"".join(2 * ask.bytes() for ask, _, _ in rows)
    wanted = [plain(answer) for _, *both in rows for answer in both]
    count = {NO_MEMORY: 0, FAULT: 0}
    number = silent = 0
    with tempfile.TemporaryDirectory() as folder:
        server = Server(folder)
        if server.run(sent, 0)[0] != wanted:
            sys.exit(f"with ample memory: {server.run(sent, 0)[0]}, in place of {wanted}")
        while True:
            number += 1
            got, was_refused = server.run(sent, number)
            if not was_refused:
                break
            if not is_right(got, wanted):
                sys.exit(f"allocation {number}: {got}")
            silent += not got
            for status in count:
                count[status] += status in got
    print(f"{number - 1} allocations were refused: {count[NO_MEMORY]} runs answered 507 and {count[FAULT]} answered 503, once each; {silent} had not begun")


main()
