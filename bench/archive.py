#!/usr/bin/env python3
"""Searches of the archive over HTTP: archive.py [NEWSDESK], with 200,000 publications whose bodies have 2 KB.

A store in memory is filled by `batch`, `serve` opens it, and each query is asked five times by `POST /archive`; the best time counts, with the
tick, the answer and the connection in it. Once the bodies are ASCII, and once each has characters past it. A word in the body should be found
in 500 ms, and a number, an item, an act, an urgency or a release in 30 ms; it ends with 1 where one takes longer. Beside each time stands how
much of it the server was on a processor, the least of the five: that is what it would take on a machine without other work.
"""
import http.client
import json
import os
import random
import subprocess
import sys
import tempfile
import time

sys.dont_write_bytecode = True
from ports import free_port, listens  # noqa: E402

COUNT, LENGTH, ROUNDS = 200_000, 1_950, 5
TOP = os.path.dirname(os.path.dirname(os.path.abspath(__file__)))
NEWSDESK = sys.argv[1] if len(sys.argv) > 1 else os.path.join(TOP, "newsdesk")
STORE = "6ba7b810-9dad-11d1-80b4-00c04fd430c8"
ENGLISH = "the a of and to in fire city council smoke river report said minister market police station water early morning people".split()
GERMAN = "der die das und in Feuer Stadt Rat Rauch Fluß Bericht sagte Minister Märkte Polizei Straße Wasser früh Morgen Bürger".split()
QUERIES = (
    ('body has "volcano"', 500),
    ('body has "tsetse"', 500),
    ('body has "größe"', 500),
    ("number above 199000", 30),
    ("item is 77", 30),
    ("act is kill", 30),
    ("urgency is 3", 30),
    ("release above 1", 30),
)


def lines(words):
    chance = random.Random(1)
    for number in range(1, COUNT + 1):
        body, length = [], 0
        while length < LENGTH:
            body.append(chance.choice(words))
            length += len(body[-1].encode()) + 1
        if number % 5_000 == 0:
            body[len(body) // 2] = "Volcano"
        story = {"headline": f"Report {number}", "slugline": "report", "language": "en", "urgency": number % 9 + 1, "body": " ".join(body)}
        yield json.dumps({"by": "admin", "number": number, "do": "flash", "story": story}, ensure_ascii=False)


def processor_seconds(process):
    """How long the threads of a process have been on a processor."""
    nanoseconds = 0
    for task in os.listdir(f"/proc/{process.pid}/task"):
        with open(f"/proc/{process.pid}/task/{task}/schedstat", encoding="ascii") as file:
            nanoseconds += int(file.read().split()[0])
    return nanoseconds / 1e9


def ask(server, port, query):
    """The seconds of the best of some rounds, those of a processor, and how many publications were found."""
    best, least, body = float("inf"), float("inf"), json.dumps({"page": 0, "query": query})
    for _ in range(ROUNDS):
        connection = http.client.HTTPConnection("127.0.0.1", port, timeout=60)
        connection.connect()
        worked, begun = processor_seconds(server), time.monotonic()
        connection.request("POST", "/archive", body, {"X-User": "admin"})
        answer = connection.getresponse()
        found = json.loads(answer.read())
        best = min(best, time.monotonic() - begun)
        least = min(least, processor_seconds(server) - worked)
        connection.close()
    return best, least, found["total"]


def main():
    late = 0
    for name, words in (("ASCII", ENGLISH), ("past ASCII", GERMAN)):
        with tempfile.TemporaryDirectory(dir="/dev/shm") as folder:
            store, port = os.path.join(folder, "store"), free_port()
            subprocess.run([NEWSDESK, "init", store, STORE], check=True)
            subprocess.run([NEWSDESK, "batch", store], input="\n".join(lines(words)).encode(), stdout=subprocess.DEVNULL, check=True)
            server = subprocess.Popen([NEWSDESK, "serve", store, f"127.0.0.1:{port}", "1", "alpha", "127.0.0.1:9"], stderr=subprocess.DEVNULL)
            try:
                while not listens(port):
                    time.sleep(0.1)
                for query, aim in QUERIES:
                    seconds, worked, total = ask(server, port, query)
                    late += 1000 * seconds > aim
                    print(f"{name}: {query}: {1000 * seconds:.1f} ms, {1000 * worked:.1f} of a processor, for {total} found, the aim is {aim}", flush=True)
            finally:
                server.kill()
                server.wait()
    sys.exit(late > 0)


main()
