#!/usr/bin/env python3
"""One keep-alive connection of plain_server, against a server in C that answers the same bytes from memory, by turns in one run.

Both serve one TCP connection of this machine, and a client in C compares each response. Questions and requests are sent one at a time, each
once the response before has come; and then 64 at a time, where the work of a request counts for more than its way. plain_server goes on
behind the 64 requests that a connection may have, as with the next connection.
"""
import os
import statistics
import subprocess
import sys
import tempfile

from http_table import FIRE, SERVER, TOP, done, feed, get, item, post

ROUNDS, COUNT = 5, 20_032
FIRST = 64


def moment(number):
    """What the clock shows at a request, counted from 0."""
    return 1000 + min(number, 63)


def records(asks):
    return b"".join(f"{len(ask.bytes())} {len(ask.answer())}\n".encode() + ask.bytes() + ask.answer() for ask in asks)


def begin():
    """The first 64 requests: a subscriber, and stories that it is given."""
    yield post("admin", 1, "add_subscriber", done(1), subscriber="alpha", format="ninjs", products=["all"])
    for number in range(1, FIRST):
        yield flash(number)


def flash(number):
    return post("admin", number + 1, "flash", done(number + 1, number, number, moment(number)), story=FIRE)


def questions():
    wanted = item("published", FIRE, 1)
    return [get("/items/1", "admin", wanted)] * COUNT


def feeds():
    rows = [(k, k, k, 1, "first", moment(k)) for k in range(44, FIRST)]
    return [get("/feeds/alpha/after/43", "alpha", feed("alpha", FIRST - 1, *rows))] * COUNT


def requests():
    return [flash(number) for number in range(FIRST, FIRST + COUNT)]


def seconds(client, path, depth, words):
    done = subprocess.run([client, path, str(FIRST), str(depth), *words], check=True, stdout=subprocess.PIPE, text=True)
    return float(done.stdout)


def compile_program(path):
    """Makes the client or the server in C."""
    source = os.path.join(TOP, "bench/http", os.path.basename(path) + ".c")
    subprocess.run(["cc", "-O2", "-o", path, source], check=True)


def report(name, count, rounds, aim):
    """Prints the rates of both, by the seconds of each round, and which part one is of the other."""
    ours, theirs = (count / statistics.median(times) for times in zip(*rounds))
    ratio = statistics.median(theirs / ours for ours, theirs in rounds)
    print(f"  {name}: {ours:.0f} a second, the server in C {theirs:.0f}: {ratio:.2f} of its rate, where {aim} is the aim")


def main():
    if not os.path.exists(SERVER):
        sys.exit("crates/plain_server is not built: `rt run` in its folder does it")
    with tempfile.TemporaryDirectory() as folder:
        client, server = os.path.join(folder, "client"), os.path.join(folder, "server")
        for program in (client, server):
            compile_program(program)
        kinds = (("GET of an item", questions(), 0.5), ("GET of 20 entries of a feed", feeds(), 0.5), ("POST of a flash", requests(), 0.4))
        for depth in (1, 64):
            print("one at a time:" if depth == 1 else f"{depth} at a time:")
            for name, asks, aim in kinds:
                path = os.path.join(folder, "records")
                with open(path, "wb") as file:
                    file.write(records([*begin(), *asks]))
                rounds = []
                for _ in range(ROUNDS):
                    ours = seconds(client, path, depth, [SERVER, "more"])
                    rounds.append((ours, seconds(client, path, depth, [server, path])))
                report(name, len(asks), rounds, aim)


if __name__ == "__main__":
    main()
