#!/usr/bin/env python3
"""Tries to_stream.py while programs are killed: try_fanout.py [--kills N] [--stories N] [--seed SEED] [--folder FOLDER].

`newsdesk serve` pushes 500 stories to two receivers, and these give them to two streams of three NATS servers, all on loopback and in a
temporary folder. Meanwhile a receiver, a NATS server and newsdesk are killed in turn, 200 times in all, and started again; of the NATS
servers it is by turns the one that leads a stream and another one, and no second one before the first has caught up. newsdesk's clock runs
400 times as fast, so that a delay of a minute is over in 150 milliseconds. A reader follows each stream all the while.

At the end each stream has exactly its feed, in order, each entry once and byte by byte as newsdesk gives it: so the readers have read it, and
so it is read once more while each of the servers in turn is stopped. Frames that come again, too early or from another feed change nothing,
nor does a client of NATS that would write, delete or change.
"""
import argparse
import http.client
import json
import os
import random
import re
import shutil
import signal
import socket
import subprocess
import sys
import tempfile
import time

from nats_streams import Link, NoAnswer, Streams

HERE = os.path.dirname(os.path.abspath(__file__))
TOP = os.path.dirname(os.path.dirname(HERE))
NEWSDESK = os.environ.get("NEWSDESK", os.path.join(TOP, "newsdesk"))
STORE = "6ba7b810-9dad-11d1-80b4-00c04fd430c8"
# a subscriber's format
SUBSCRIBERS = {"alpha": "ninjs", "beta": "7901"}
PASSWORDS = {"RECEIVER_PASSWORD": "a-1", "READER_PASSWORD": "b-2"}
SERVERS, WORKERS, SPEED = 3, 2, 400
# the bodies of stories: most are short, two are as long as a body can be, and one of these takes six times its bytes in a ninjs item
BODIES = 40 * ("Smoke. ",) + 8 * (3_000 * "Smoke. ",) + (524_288 * "S", 524_288 * "\x01")
# a program that has to be there, and the system's package that has it
NEEDED = {"nats-server": "nats-server", "cc": "gcc"}
PATHS = os.environ["PATH"] + ":/usr/sbin"
checks = 0


def expect(what, found, wanted):
    global checks
    checks += 1
    if found != wanted:
        sys.exit(f"{what}: {found!r:.300}, and not {wanted!r:.300}")


def eventually(what, happens, seconds=60):
    until = time.monotonic() + seconds
    while not happens():
        if time.monotonic() > until:
            sys.exit(f"{what} is not so after {seconds} seconds")
        time.sleep(0.05)


def listens(port):
    with socket.socket() as one:
        return one.connect_ex(("127.0.0.1", port)) == 0


def free_ports(count):
    """Ports that nothing listens at, and that the system gives to no connection by itself while what listens there is dead."""
    return [port for port in random.sample(range(20_000, 30_000), 100) if not listens(port)][:count]


def words_of(script, servers, *words):
    """The words that start a program of this folder."""
    return [sys.executable, os.path.join(HERE, script), *words, "--servers", ",".join(servers)]


class Program:
    """A program that listens at a port, and that is killed and started again. What it says stands in its log."""

    def __init__(self, name, folder, environment, port, words):
        self.name, self.folder, self.environment, self.port, self.words = name, folder, environment, port, words
        self.kills, self.process = 0, None

    def start(self):
        with open(os.path.join(self.folder, self.name + ".log"), "ab") as log:
            self.process = subprocess.Popen(self.words, cwd=self.folder, env=self.environment, stdout=log, stderr=log)
        eventually(f"{self.name} listens", lambda: self.is_alive() and listens(self.port))

    def is_alive(self):
        if self.process.poll() is not None:
            sys.exit(f"{self.name} has ended by itself, with status {self.process.returncode}")
        return True

    def kill(self):
        self.is_alive()
        self.process.send_signal(signal.SIGKILL)
        self.process.wait()
        self.kills += 1

    def stop(self):
        self.process.terminate()
        self.process.wait()


class Cluster:
    """Three servers of NATS, two receivers that write to their streams, and readers."""

    def __init__(self, folder, ports):
        self.folder = folder
        self.environment = {**os.environ, **PASSWORDS, "PATH": PATHS, "PYTHONDONTWRITEBYTECODE": "1"}
        self.clients, self.routes, self.doors = ports[:SERVERS], ports[SERVERS : 2 * SERVERS], dict(zip(SUBSCRIBERS, ports[2 * SERVERS :]))
        self.addresses = [f"127.0.0.1:{port}" for port in self.clients]
        self.streams = Streams(self.addresses, "reader", PASSWORDS["READER_PASSWORD"])
        self.servers, self.receivers, self.readers = {}, {}, []

    def start(self):
        shutil.copy(os.path.join(HERE, "accounts.conf"), self.folder)
        for n, port in enumerate(self.clients, 1):
            self.write_settings(f"server{n}.conf")
            server = self.servers[f"newsdesk-{n}"] = self.program(f"server{n}", port, ["nats-server", "-c", f"server{n}.conf"])
            server.start()
        for name, door in self.doors.items():
            eventually(f"the stream {name} is made", lambda: self.make_stream(name))
            receiver = self.receivers[name] = self.program(f"receiver-{name}", door, words_of("to_stream.py", self.addresses, name, str(door)))
            receiver.start()

    def make_stream(self, name):
        return subprocess.run(words_of("make_stream.py", self.addresses, name), env=self.environment).returncode == 0

    def program(self, name, port, words):
        return Program(name, self.folder, self.environment, port, words)

    def write_settings(self, name):
        """A file of this folder, whose path and ports are exchanged for those of the test."""
        ports = {**dict(zip((4222, 4223, 4224), self.clients)), **dict(zip((6222, 6223, 6224), self.routes))}
        with open(os.path.join(HERE, name), encoding="utf-8") as file:
            text = file.read().replace("/var/lib/newsdesk-streams", os.path.join(self.folder, "streams"))
        with open(os.path.join(self.folder, name), "w", encoding="utf-8") as file:
            file.write(re.sub(r"\b[46]22[234]\b", lambda port: str(ports[int(port[0])]), text))

    def read(self, name, *words):
        """Starts a reader of a stream, from its first entry on. Gives it with the file to which it writes."""
        file = os.path.join(self.folder, f"{name}.{len(self.readers)}")
        with open(file, "wb") as output:
            reader = subprocess.Popen(words_of("read_stream.py", self.addresses, name, "1", *words), env=self.environment, stdout=output)
        self.readers.append(reader)
        return reader, file

    def leader(self, name):
        """The server that leads a stream; none while there is none, or while another one has not caught up."""
        try:
            cluster = self.streams.tell(f"count.{name}")["cluster"]
        except NoAnswer:
            return None
        current = [one["current"] and not one.get("offline") and not one.get("lag") for one in cluster.get("replicas", [])]
        return cluster.get("leader") if current == (SERVERS - 1) * [True] else None

    def heal(self):
        """Waits until every server has caught up. Gives the servers that lead the streams."""
        leaders = {}

        def is_healed():
            leaders.update({name: self.leader(name) for name in SUBSCRIBERS})
            return all(leaders.values())

        eventually("every server has caught up", is_healed, 120)
        return leaders

    def end(self):
        programs = [program.process for program in [*self.servers.values(), *self.receivers.values()]]
        end_all([*self.readers, *programs])


class Newsdesk:
    """A store, and its server."""

    def __init__(self, folder, port, doors):
        clock = os.path.join(folder, "clock.so")
        subprocess.run(["cc", "-O2", "-shared", "-fPIC", "-o", clock, os.path.join(TOP, "bench/soak/clock.c")], check=True)
        self.folder, self.port = folder, port
        self.environment = {**os.environ, "LD_PRELOAD": clock, "FROM": str(int(time.time())), "SPEED": str(SPEED)}
        pairs = [word for name, door in doors.items() for word in (name, f"127.0.0.1:{door}")]
        words = [NEWSDESK, "serve", "news", f"127.0.0.1:{port}", str(WORKERS), *pairs]
        self.server = Program("newsdesk", folder, self.environment, port, words)
        # the last number of a request, and how many stories were posted
        self.number = self.stories = 0

    def command(self, *words, text=""):
        done = subprocess.run([NEWSDESK, *words], cwd=self.folder, env=self.environment, input=text, stdout=subprocess.PIPE, text=True)
        expect(f"the status of {words[0]}", done.returncode, 0)
        return done.stdout

    def start(self):
        self.command("init", "news", STORE)
        lines = ""
        for name, form in SUBSCRIBERS.items():
            self.number += 1
            line = {"by": "admin", "number": self.number, "do": "add_subscriber", "subscriber": name, "format": form, "products": ["all"]}
            lines += json.dumps(line) + "\n"
        expect("the subscribers", self.command("batch", "news", text=lines).count('"done"'), len(SUBSCRIBERS))
        self.server.start()

    def ask(self, method, path, body=None):
        """The status and the body of a response."""
        connection = http.client.HTTPConnection("127.0.0.1", self.port, timeout=60)
        try:
            connection.request(method, path, body, {"X-User": "admin", "Connection": "close"})
            response = connection.getresponse()
            return response.status, response.read()
        finally:
            connection.close()

    def request(self, **what):
        self.number += 1
        status, answer = self.ask("POST", "/requests", json.dumps({"number": self.number, **what}))
        expect(f"the status of request {self.number}, which was answered {answer}", status, 200)

    def post(self, draw, count):
        """Posts stories until there are so many."""
        while self.stories < count:
            self.stories += 1
            story = {"headline": f"Story {self.stories}", "slugline": "fanout", "language": "en", "body": draw.choice(BODIES)}
            self.request(do="flash", story=story)

    def queue(self):
        """How the feeds fare. One that was tried too often, and is paused, goes on."""
        rows = json.loads(self.ask("GET", "/queue")[1])["feeds"]
        for row in rows:
            if row["state"] == "paused":
                self.request(do="resume", subscriber=row["subscriber"])
        return {row["subscriber"]: row for row in rows}

    def is_acknowledged(self):
        return all(row["state"] == "success" for row in self.queue().values())

    def frames(self, name):
        """A whole feed as its frames, byte by byte."""
        answers = [self.ask("GET", f"/feeds/{name}/frames/{k}") for k in range(1, self.stories + 1)]
        expect(f"the statuses of the frames of {name}", {status for status, _ in answers}, {200})
        return b"".join(frame for _, frame in answers)

    def end(self):
        end_all([self.server.process])


def end_all(processes):
    for process in processes:
        if process is not None and process.poll() is None:
            process.kill()
            process.wait()


def choose(draw, turn, newsdesk, cluster):
    """Who is killed at a turn, and whether it leads a stream."""
    if turn % 3 == 0:
        return draw.choice(list(cluster.receivers.values())), False
    if turn % 3 == 1:
        return newsdesk.server, False
    leaders = cluster.heal()
    one = leaders[draw.choice(list(SUBSCRIBERS))]
    if turn % 2 == 1:
        one = draw.choice([name for name in cluster.servers if name != one])
    return cluster.servers[one], one in leaders.values()


def kill_in_turn(draw, newsdesk, cluster, kills, stories):
    """Kills one program after another just when stories are on their way. Gives how many led a stream."""
    leaders = 0
    for turn in range(kills):
        victim, leads = choose(draw, turn, newsdesk, cluster)
        newsdesk.post(draw, stories * (2 * turn + 1) // (2 * kills))
        time.sleep(draw.uniform(0, 0.1))
        victim.kill()
        leaders += leads
        if victim is not newsdesk.server:
            newsdesk.post(draw, stories * (turn + 1) // kills)
        time.sleep(draw.choice((0, 0, 1, 3)) * draw.random())
        victim.start()
        time.sleep(draw.choice((0, 0.5, 1)) * draw.random())
        acked = [f"{name} {row['acked']}" for name, row in newsdesk.queue().items()]
        if (turn + 1) % 20 == 0:
            print(f"{turn + 1} kills, {newsdesk.stories} stories, acknowledged: {', '.join(acked)}", flush=True)
    newsdesk.post(draw, stories)
    return leaders


def compare(newsdesk, cluster, followers):
    """Each stream is its feed: as it was read all the while, and as it is read while one of the servers is stopped."""
    eventually("every feed is acknowledged", newsdesk.is_acknowledged, 300)
    feeds = {name: newsdesk.frames(name) for name in SUBSCRIBERS}
    for name, (follower, file) in followers.items():
        eventually(f"the reader of {name} has read it all", lambda: follower.poll() is None and os.path.getsize(file) >= len(feeds[name]), 120)
        expect(f"what the reader of {name} has read", read_file(file), feeds[name])
        end_all([follower])
    for stopped, server in cluster.servers.items():
        cluster.heal()
        server.stop()
        for name, wanted in feeds.items():
            # a server that was just chosen to lead may tell of fewer entries, until it has taken in those that the others have
            eventually(f"the stream {name} without {stopped} is its feed", lambda: read_whole(cluster, name) == wanted, 60)
        server.start()
    cluster.heal()


def read_whole(cluster, name):
    """What a reader gets of a stream now."""
    reader, file = cluster.read(name)
    expect(f"the status of a reader of {name}", reader.wait(), 0)
    return read_file(file)


def read_file(path):
    with open(path, "rb") as file:
        return file.read()


def try_frames(cluster, count):
    """Frames that come again, too early or from another feed are answered with what the stream has."""
    for name, door in cluster.doors.items():
        with socket.create_connection(("127.0.0.1", door), timeout=60) as peer, peer.makefile("rb") as receipts:
            for frame in (f"{name} 1", f"{name} {count}", f"{name} {count + 2}", f"other {count + 1}"):
                peer.sendall(f"FRAME {frame} 5\nagain".encode())
                expect(f"the receipt of frame {frame}", receipts.readline(), b"RECEIPT %s %d\n" % (name.encode(), count))


def try_clients(cluster, count):
    """No request of a client of NATS changes a stream, by what it publishes or by where it lets answers go."""
    orders = [f"$JS.API.STREAM.{word}.alpha" for word in ("DELETE", "PURGE", "UPDATE")]
    for user, word in (("receiver", "RECEIVER_PASSWORD"), ("reader", "READER_PASSWORD")):
        ways = [(order, "_INBOX.1") for order in orders]
        if user == "reader":
            ways += [("newsdesk.alpha", "_INBOX.1"), ("count.beta", "newsdesk.alpha"), ("entry.beta", "newsdesk.alpha")]
        for subject, inbox in ways:
            link = Link(cluster.addresses[0], user, PASSWORDS[word])
            link.socket.sendall(f'PUB {subject} {inbox} 9\r\n{{"seq":1}}\r\n'.encode())
            time.sleep(0.2)
            link.close()
    for name in SUBSCRIBERS:
        expect(f"what {name} has behind that", cluster.streams.tell(f"count.{name}")["state"]["last_seq"], count)


def stop(newsdesk):
    """Stops newsdesk, and compares its summary and its feeds. Gives how many attempts there were."""
    newsdesk.request(do="stop")
    expect("the status of newsdesk", newsdesk.server.process.wait(timeout=120), 0)
    summary = read_file(os.path.join(newsdesk.folder, "newsdesk.log")).decode().splitlines()
    count, names = newsdesk.stories, list(SUBSCRIBERS)
    expect("the summary", summary[-len(names) :], [f"{name} length {count} acked {count} tries 0 success" for name in names])
    for name in names:
        rows = [line.split()[:2] for line in newsdesk.command("feed", "news", name, "0").splitlines()]
        expect(f"the feed of {name}", rows, [[str(k), str(k)] for k in range(1, count + 1)])
    # the list has the requests, and for each frame its attempts and one receipt
    return int(summary[-1 - len(names)].split()[1]) - newsdesk.number - count * len(names)


def try_all(folder, given):
    print(f"seed {given.seed}", flush=True)
    before = time.monotonic()
    draw = random.Random(given.seed)
    port, *ports = free_ports(1 + 2 * SERVERS + len(SUBSCRIBERS))
    cluster = Cluster(folder, ports)
    newsdesk = Newsdesk(folder, port, cluster.doors)
    try:
        cluster.start()
        newsdesk.start()
        followers = {name: cluster.read(name, "--follow") for name in SUBSCRIBERS}
        leaders = kill_in_turn(draw, newsdesk, cluster, given.kills, given.stories)
        compare(newsdesk, cluster, followers)
        try_frames(cluster, newsdesk.stories)
        try_clients(cluster, newsdesk.stories)
        attempts = stop(newsdesk)
    finally:
        newsdesk.end()
        cluster.end()
    receivers, servers = (sum(one.kills for one in some.values()) for some in (cluster.receivers, cluster.servers))
    print(f"{given.kills} kills: {receivers} of a receiver, {servers} of a NATS server, {leaders} of which led a stream, and {newsdesk.server.kills} of newsdesk")
    print(f"{newsdesk.stories} stories to {len(SUBSCRIBERS)} feeds, by {attempts} attempts: each stream is its feed, in order, each entry once")
    print(f"{checks} checks passed; {time.monotonic() - before:.0f} seconds")


def main():
    words = argparse.ArgumentParser(description="Kills newsdesk, NATS servers and receivers in turn, and compares the streams with the feeds.")
    words.add_argument("--kills", metavar="N", type=int, default=200, help="how many programs are killed (%(default)s)")
    words.add_argument("--stories", metavar="N", type=int, default=500, help="how many stories are posted (%(default)s)")
    words.add_argument("--seed", metavar="SEED", default="1", help="what the kills and stories are drawn from (%(default)s)")
    words.add_argument("--folder", metavar="FOLDER", help="where the temporary folder is made")
    given = words.parse_args()
    for program, package in NEEDED.items():
        if shutil.which(program, path=PATHS) is None:
            print(f"{program} is not there, the system's package {package} has it: not tried")
            return
    with tempfile.TemporaryDirectory(dir=given.folder) as folder:
        try_all(folder, given)


if __name__ == "__main__":
    main()
