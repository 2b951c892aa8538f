#!/usr/bin/env python3
"""`newsdesk serve` over HTTP, against a server in C that answers from memory, by turns in one run: first while its two workers have nothing to
push, and then while they push two feeds.

A client in C sends a question or a request over a connection of this machine, and makes the next connection behind the 64th; it compares
each response, but for the number of the entry, since the workers add entries too. Two receivers in C acknowledge each frame at once.
Beside the questions 20,000 stories wait to be pushed; the stories that are posted are pushed as they come. The store is a file in memory,
and its clock stands still.
"""
import http.client
import json
import os
import shutil
import socket
import statistics
import subprocess
import sys
import tempfile
import time

from http_rate import COUNT, FIRST, ROUNDS, compile_program, questions, records, report, seconds
from http_table import FIRE, STORE, TOP, done, post
from ports import free_port

NEWSDESK = os.environ.get("NEWSDESK", os.path.join(TOP, "newsdesk"))
NAMES = ("alpha", "beta")
WAITING, NOW = 20_000, 1_000


def flash(number):
    """The n-th story that admin flashes, whose earlier requests are the subscribers."""
    return post("admin", len(NAMES) + number, "flash", done(1, number, number, NOW), story=FIRE)


class House:
    """A folder with the programs, and stores that rounds begin with."""

    def __init__(self, folder):
        self.folder = folder
        for program in ("client", "server"):
            compile_program(self.at(program))
        subprocess.run(["cc", "-O2", "-o", self.at("receiver"), os.path.join(TOP, "bench/serve/receiver.c")], check=True)
        shim = os.path.join(TOP, "bench/soak/clock.c")
        subprocess.run(["cc", "-O2", "-shared", "-fPIC", "-o", self.at("clock.so"), shim], check=True)
        self.env = {**os.environ, "LD_PRELOAD": self.at("clock.so"), "FROM": str(NOW), "SPEED": "0"}
        self.receivers = [subprocess.Popen([self.at("receiver")], stdout=subprocess.PIPE, text=True) for _ in NAMES]
        self.pairs = [word for name, one in zip(NAMES, self.receivers) for word in (name, "127.0.0.1:" + one.stdout.readline().strip())]

    def at(self, name):
        return os.path.join(self.folder, name)

    def make_store(self, name, stories):
        requests = [{"do": "add_subscriber", "subscriber": who, "format": "ninjs", "products": ["all"]} for who in NAMES]
        requests += stories * [{"do": "flash", "story": FIRE}]
        text = "".join(json.dumps({"by": "admin", "number": number, **what}) + "\n" for number, what in enumerate(requests, 1))
        subprocess.run([NEWSDESK, "init", self.at(name), str(STORE)], check=True)
        subprocess.run([NEWSDESK, "batch", self.at(name)], env=self.env, input=text, stdout=subprocess.DEVNULL, text=True, check=True)

    def ours(self, name, path, depth, pairs):
        """The seconds of a run against newsdesk, and how many frames were pushed in them."""
        for end in ("", ".side"):
            shutil.copy(self.at(name + end), self.at("news" + end))
        port = free_port()
        words = [NEWSDESK, "serve", self.at("news"), f"127.0.0.1:{port}", str(len(NAMES)), *pairs]
        with subprocess.Popen(words, env=self.env, stdout=subprocess.DEVNULL) as server:
            try:
                wait_for(port)
                before = pushed(port)
                took = seconds(self.at("client"), path, depth, [f":{port}"])
                return took, pushed(port) - before
            finally:
                server.kill()

    def theirs(self, path, depth):
        with subprocess.Popen([self.at("server"), path, "listen"], stdout=subprocess.PIPE, text=True) as server:
            try:
                return seconds(self.at("client"), path, depth, [":" + server.stdout.readline().strip()])
            finally:
                server.kill()

    def end(self):
        for one in self.receivers:
            one.kill()
            one.wait()


def wait_for(port):
    for _ in range(6_000):
        with socket.socket() as one:
            if one.connect_ex(("127.0.0.1", port)) == 0:
                return
        time.sleep(0.01)
    sys.exit("the server does not listen after a minute")


def pushed(port):
    """How many entries of all feeds are acknowledged."""
    connection = http.client.HTTPConnection("127.0.0.1", port, timeout=60)
    connection.request("GET", "/queue", headers={"X-User": "admin", "Connection": "close"})
    feeds = json.loads(connection.getresponse().read())["feeds"]
    connection.close()
    return sum(row["acked"] for row in feeds)


def measure(house, name, store, asks, aim, depth, pairs):
    path = house.at("records")
    with open(path, "wb") as file:
        file.write(records(asks))
    rounds, frames = [], []
    for _ in range(ROUNDS):
        took, count = house.ours(store, path, depth, pairs)
        frames.append(count / took)
        rounds.append((took, house.theirs(path, depth)))
    report(name, len(asks) - FIRST, rounds, aim)
    if pairs:
        print(f"    while {statistics.median(frames):.0f} frames a second were pushed")


def main():
    with tempfile.TemporaryDirectory(dir="/dev/shm") as folder:
        house = House(folder)
        try:
            house.make_store("waiting", WAITING)
            house.make_store("fresh", 0)
            # the first connection is not timed
            asked = questions() + questions()[:FIRST]
            posted = [flash(number) for number in range(1, COUNT + FIRST + 1)]
            for depth, pairs in ((1, []), (64, []), (1, house.pairs), (64, house.pairs)):
                print(f"{depth} at a time, while {'two feeds are' if pairs else 'nothing is'} pushed:")
                measure(house, "GET of an item", "waiting", asked, 0.4, depth, pairs)
                measure(house, "POST of a flash", "fresh", posted, 0.4, depth, pairs)
        finally:
            house.end()


main()
