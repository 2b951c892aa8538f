#!/usr/bin/env python3
"""Kills `newsdesk serve` and its receivers 100 times, while stories are posted and pushed: soak.py [SEED [FOLDER]].

The server has four workers and three subscribers; stories are posted over HTTP all the while, and a connection is broken off now and then.
Each receiver keeps its frames in files, as examples/receiver.py does, and closes connections at random: before it reads, within a frame,
and behind a frame before the receipt. The server's clock runs 400 times as fast, so that a delay of a minute is over in 150 milliseconds.

At each kill what every receiver holds has to be a beginning of its feed, the feed has to go on from what it was, and what was answered has
to stand in it. Then all is left in peace until everything is acknowledged: each receiver holds its whole feed, each entry once, byte by byte
as the server gives it, and each story stands once in each feed that it is due to.
"""
import http.client
import json
import os
import random
import signal
import socket
import subprocess
import sys
import tempfile
import threading
import time

TOP = os.path.dirname(os.path.dirname(os.path.abspath(__file__)))
sys.dont_write_bytecode = True
sys.path.insert(0, os.path.join(TOP, "examples"))
from ports import free_port  # noqa: E402
from receiver import Connection, Receiver  # noqa: E402

NEWSDESK = os.environ.get("NEWSDESK", os.path.join(TOP, "newsdesk"))
STORE = "6ba7b810-9dad-11d1-80b4-00c04fd430c8"
KILLS, WORKERS, SPEED = 100, 4, 400
# how often a receiver closes a connection in one of the three ways, and a client of the server does
ROUGHNESS, BROKEN = 0.2, 0.05
# a subscriber's format, and its lag in seconds
SUBSCRIBERS = {"alpha": ("ninjs", 0), "beta": ("7901", 0), "gamma": ("ninjs", 120)}


def fail(what):
    sys.exit(f"seed {SEED}: {what}")


# ---- a receiver that closes connections at random


class Rough(Connection):
    """A connection that is closed before a frame, within it, or behind it before its receipt."""

    def handle(self):
        while True:
            draw, part = self.server.draw()
            if draw < 1:
                return
            if draw < 2:
                self.rfile.read(part)
                return
            frame = self.read_frame()
            if frame is None:
                return
            count = self.server.take(*frame)
            if draw < 3:
                return
            self.reply(count)

    def complain(self, why):
        """The server was killed within a frame."""


class RoughReceiver(Receiver):
    def __init__(self, name, folder, port, seed, roughness):
        super().__init__(name, folder, port, Rough)
        self.random, self.roughness = random.Random(seed), roughness

    def draw(self):
        """How the next frame is treated, in thirds of the roughness, and how much of it is read in the second way."""
        with self.turn:
            return 3 * self.random.random() / self.roughness if self.roughness else 3, self.random.randint(1, 200)

    def take(self, name, k, payload):
        """Notes what came. A frame that came before has to be the same, and none may come early."""
        count = super().take(name, k, payload)
        word = "" if self.holds(name, k, payload) else " is not what it should be"
        with open(os.path.join(self.folder, "came"), "a", encoding="ascii") as file:
            file.write(f"{k}{word}\n")
        return count

    def holds(self, name, k, payload):
        try:
            with open(os.path.join(self.folder, str(k)), "rb") as file:
                return name == self.name and file.read() == payload
        except FileNotFoundError:
            return False

    def handle_error(self, request, client_address):
        """The server was killed while it was answered."""


def receive(name, folder, port, seed, roughness):
    with RoughReceiver(name, folder, int(port), seed, float(roughness)) as receiver:
        receiver.serve_forever()


class Held:
    """A receiver's process, and what it keeps."""

    def __init__(self, name, folder):
        self.name, self.folder = name, folder
        self.port = free_port()
        self.starts = 0
        self.start(ROUGHNESS)

    def start(self, roughness):
        self.starts += 1
        seed = f"{SEED}-{self.name}-{self.starts}"
        words = ["--receiver", self.name, self.folder, str(self.port), seed, str(roughness)]
        self.process = subprocess.Popen([sys.executable, os.path.abspath(__file__), *words])

    def kill(self):
        if self.process.poll() is not None:
            fail(f"the receiver of {self.name} has ended by itself")
        self.process.send_signal(signal.SIGKILL)
        self.process.wait()

    def count(self):
        return sum(name.isdigit() for name in os.listdir(self.folder))

    def payload(self, k):
        with open(os.path.join(self.folder, str(k)), "rb") as file:
            return file.read()

    def came(self):
        """How many frames came, over all; fails where one came early, or again and otherwise."""
        with open(os.path.join(self.folder, "came"), encoding="ascii") as file:
            lines = file.read().splitlines()
        for line in lines:
            if not line.isdigit():
                fail(f"to {self.name} came frame {line}")
        return len(lines)


# ---- the server


class Ended(Exception):
    """The server has ended by itself."""


class Server:
    """The server's process, and one client of it."""

    def __init__(self, folder, receivers):
        self.folder, self.receivers = folder, receivers
        self.port = free_port()
        shim = os.path.join(folder, "clock.so")
        subprocess.run(["cc", "-O2", "-shared", "-fPIC", "-o", shim, os.path.join(TOP, "bench/soak/clock.c")], check=True)
        self.env = {**os.environ, "LD_PRELOAD": shim, "FROM": str(int(time.time())), "SPEED": str(SPEED)}
        self.turn = threading.Lock()
        self.connection = None

    def newsdesk(self, words, text=""):
        done = subprocess.run([NEWSDESK, *words], cwd=self.folder, env=self.env, input=text, stdout=subprocess.PIPE, text=True)
        if done.returncode:
            fail(f"newsdesk {words[0]} ended with status {done.returncode}: {done.stdout}")
        return done.stdout

    def start(self):
        pairs = [word for one in self.receivers for word in (one.name, f"127.0.0.1:{one.port}")]
        words = [NEWSDESK, "serve", "news", f"127.0.0.1:{self.port}", str(WORKERS), *pairs]
        self.process = subprocess.Popen(words, cwd=self.folder, env=self.env, stdout=subprocess.PIPE, text=True)
        self.is_killed = False

    def look(self):
        """Fails where the server has ended, and was not killed."""
        if not self.is_killed and self.process.poll() is not None:
            raise Ended(f"the server ended with status {self.process.returncode}: {self.process.stdout.read()}")

    def kill(self):
        self.look()
        self.is_killed = True
        self.process.send_signal(signal.SIGKILL)
        self.process.communicate()

    def once(self, method, path, by, body):
        """The response to a request over the connection that is there, or over a new one."""
        if self.connection is None:
            self.connection = http.client.HTTPConnection("127.0.0.1", self.port, timeout=60)
        self.connection.request(method, path, body, {"X-User": by})
        response = self.connection.getresponse()
        return response.status, response.read()

    def hang_up(self):
        if self.connection is not None:
            self.connection.close()
        self.connection = None

    def ask(self, method, path, by="admin", body=None):
        """The status and the body of a response. Where none comes the request is sent again, over another connection."""
        while True:
            with self.turn:
                try:
                    return self.once(method, path, by, body)
                except (OSError, http.client.HTTPException):
                    self.hang_up()
            self.look()
            time.sleep(0.02)

    def break_off(self, body, part):
        """Sends this part of a request, all of it from 1 on, and takes no answer."""
        head = f"POST /requests HTTP/1.1\r\nX-User: admin\r\nContent-Length: {len(body)}\r\n\r\n"
        text = (head + body).encode()
        with self.turn:
            self.hang_up()
            try:
                with socket.create_connection(("127.0.0.1", self.port), timeout=60) as peer:
                    peer.sendall(text[: int(part * len(text)) + 1])
            except OSError:
                pass


# ---- stories


class Desk(threading.Thread):
    """Posts stories, one after the other, until it is told to end. Each has its number in its headline."""

    def __init__(self, server, number):
        super().__init__(daemon=True)
        self.server, self.number = server, number
        self.draw = random.Random(f"{SEED}-desk")
        # for each publication, from the first on, to whom it is due
        self.due = []
        self.repeats = 0
        self.failed = None
        self.ending = threading.Event()

    def run(self):
        while not self.ending.is_set() and not self.failed:
            try:
                self.post()
            except Ended as error:
                self.failed = str(error)
            time.sleep(self.draw.choice((0, 0, 0.02, 0.1)))

    def post(self):
        story = len(self.due) + 1
        targets = self.draw.choice(([], [], sorted(self.draw.sample(list(SUBSCRIBERS), 2))))
        text = f"This is story {story}. " + self.draw.randint(0, 40) * "More. "
        told = {"headline": f"Story {story}", "slugline": "soak", "language": "en", "body": text}
        body = json.dumps({"number": self.number, "do": "flash", "story": told, "targets": targets})
        if self.draw.random() < BROKEN:
            self.server.break_off(body, self.draw.uniform(0, 2))
        status, answer = self.server.ask("POST", "/requests", body=body)
        answer = json.loads(answer) if answer else {}
        if status in (503, 507):
            return
        if status != 200 or answer["publication"] != story:
            self.failed = f"story {story} was answered {status} {answer}"
            return
        self.repeats += answer["answer"] == "repeat"
        self.due.append(targets or list(SUBSCRIBERS))
        self.number += 1

    def publications(self, name):
        """Those that are due to a subscriber, in order, of all that were answered."""
        return [story for story, names in enumerate(list(self.due), 1) if name in names]


# ---- what has to hold


class Feeds:
    """The feeds as they were seen last: for each subscriber the publications in it."""

    def __init__(self, server, desk):
        self.server, self.desk = server, desk
        self.seen = {name: [] for name in SUBSCRIBERS}

    def of_store(self, name):
        """A feed by `newsdesk feed`, while the server is not running."""
        rows = [line.split() for line in self.server.newsdesk(["feed", "news", name, "0"]).splitlines()]
        return [(int(row[0]), int(row[1])) for row in rows]

    def of_server(self, name):
        """A feed over HTTP, page by page."""
        rows = []
        while True:
            status, page = self.server.ask("GET", f"/feeds/{name}/after/{len(rows)}")
            page = json.loads(page)
            if status != 200:
                fail(f"the feed of {name} was answered {status} {page}")
            rows += [(row["k"], row["publication"]) for row in page["entries"]]
            if len(rows) >= page["length"]:
                return rows

    def compare(self, held, way):
        """What a receiver holds has to be a beginning of its feed, and the feed has to go on from what it was."""
        name, count, answered = held.name, held.count(), self.desk.publications(held.name)
        rows = way(name)
        publications = [publication for _, publication in rows]
        if [k for k, _ in rows] != list(range(1, len(rows) + 1)):
            fail(f"the feed of {name} is not numbered from 1 on")
        if publications[: len(self.seen[name])] != self.seen[name]:
            fail(f"the feed of {name} is another one than before")
        if not count <= len(publications):
            fail(f"{name} holds {count} frames of a feed with {len(publications)}")
        for k, publication in enumerate(publications[:count], 1):
            if b"This is story %d. " % publication not in held.payload(k):
                fail(f"frame {k} of {name} is not publication {publication}")
        # what waits for its lag is not in the feed yet
        due = answered if not SUBSCRIBERS[name][1] else answered[: len(publications)]
        if publications[: len(due)] != due:
            fail(f"the feed of {name} lacks a story that was answered, or has it twice")
        self.seen[name] = publications
        return count


def kill_some(draw, server, receivers, feeds):
    """Kills the server, a receiver or several of these, compares, and starts them again."""
    some = draw.sample(receivers, draw.choice((1, 1, 2, 3)))
    victims = draw.choice(([server], [server, *some], some))
    for one in victims:
        one.kill()
    way = feeds.of_store if server in victims else feeds.of_server
    for held in receivers:
        feeds.compare(held, way)
    for one in victims:
        one.start(ROUGHNESS) if isinstance(one, Held) else one.start()
    return len(victims), server in victims


def rest(server, receivers):
    """Leaves all in peace until everything is acknowledged."""
    for held in receivers:
        held.kill()
        held.start(0)
    for _ in range(600):
        status, answer = server.ask("GET", "/queue")
        rows = json.loads(answer)["feeds"]
        if all(row["state"] == "success" for row in rows):
            return
        for row in rows:
            if row["state"] == "paused":
                yield row["subscriber"]
        time.sleep(0.5)
    fail(f"after five minutes in peace {rows}")


def compare_frames(server, held):
    """Each frame that a receiver holds is byte by byte the one that the server gives."""
    for k in range(1, held.count() + 1):
        payload = held.payload(k)
        wanted = b"FRAME %s %d %d\n" % (held.name.encode(), k, len(payload)) + payload
        if server.ask("GET", f"/feeds/{held.name}/frames/{k}") != (200, wanted):
            fail(f"frame {k} of {held.name} is another one")


def request(server, desk, **what):
    """A request of the desk's user, once the desk has ended."""
    status, answer = server.ask("POST", "/requests", body=json.dumps({"number": desk.number, **what}))
    if status != 200:
        fail(f"{what} was answered {status} {answer}")
    desk.number += 1


def end(server, desk, receivers, feeds):
    """Lets all be acknowledged, compares all of it, and stops the server."""
    desk.ending.set()
    desk.join()
    if desk.failed:
        fail(desk.failed)
    for paused in rest(server, receivers):
        request(server, desk, do="resume", subscriber=paused)
    for held in receivers:
        compare_frames(server, held)
    request(server, desk, do="stop")
    said, _ = server.process.communicate(timeout=120)
    rows = [f"{one.name} length {one.count()} acked {one.count()} tries 0 success" for one in receivers]
    if server.process.returncode or said.splitlines()[1:] != rows:
        fail(f"the server ended with status {server.process.returncode}: {said}, where {rows} were to come")
    for held in receivers:
        held.kill()
        count = feeds.compare(held, feeds.of_store)
        if feeds.seen[held.name] != desk.publications(held.name) or count != len(feeds.seen[held.name]):
            fail(f"{held.name} holds {count} frames of {len(desk.publications(held.name))} stories")


def setup(server):
    lines = []
    for number, (name, (form, lag)) in enumerate(SUBSCRIBERS.items(), 1):
        line = {"by": "admin", "number": number, "do": "add_subscriber", "subscriber": name, "format": form, "products": ["all"], "lag": lag}
        lines.append(json.dumps(line) + "\n")
    server.newsdesk(["init", "news", STORE])
    if server.newsdesk(["batch", "news"], "".join(lines)).count('"done"') != len(lines):
        fail("the subscribers could not be added")


def soak(folder):
    before = time.monotonic()
    draw = random.Random(f"{SEED}-kills")
    receivers = [Held(name, os.path.join(folder, name)) for name in SUBSCRIBERS]
    server = Server(folder, receivers)
    try:
        setup(server)
        server.start()
        desk = Desk(server, len(SUBSCRIBERS) + 1)
        desk.start()
        feeds = Feeds(server, desk)
        killed = kills = of_server = 0
        while kills < KILLS:
            time.sleep(draw.uniform(0.3, 2.5))
            if desk.failed:
                fail(desk.failed)
            count, with_server = kill_some(draw, server, receivers, feeds)
            kills, of_server = kills + count, of_server + with_server
            if kills // 10 > killed // 10:
                held = ", ".join(f"{one.name} {one.count()} of {len(feeds.seen[one.name])}" for one in receivers)
                print(f"{kills} kills, {len(desk.due)} stories: {held}", flush=True)
            killed = kills
        end(server, desk, receivers, feeds)
    except Ended as error:
        fail(error)
    finally:
        for one in [server, *receivers]:
            if getattr(one, "process", None) and one.process.poll() is None:
                one.process.kill()
    frames = sum(one.count() for one in receivers)
    print(f"{kills} kills, {of_server} of them of the server; {len(desk.due)} stories, {desk.repeats} of them answered with a repeat")
    print(f"{frames} frames, each kept once, in order; {sum(one.came() for one in receivers) - frames} more came again")
    print(f"{time.monotonic() - before:.0f} seconds, seed {SEED}")


if sys.argv[1:2] == ["--receiver"]:
    receive(*sys.argv[2:])
else:
    SEED = sys.argv[1] if len(sys.argv) > 1 else "1"
    with tempfile.TemporaryDirectory(dir=sys.argv[2] if len(sys.argv) > 2 else None) as place:
        soak(place)
