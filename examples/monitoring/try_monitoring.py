#!/usr/bin/env python3
"""Tries prometheus.yml and alerts.yml: `promtool` checks both, and a real Prometheus watches `newsdesk serve`: try_monitoring.py [--folder FOLDER].

All is on loopback and in a temporary folder. `alerts_test.yml` has each alert's series, when it has to fire and when not; `promtool` asks them.
Then Prometheus scrapes a server once a second, with a copy of the two files in which no alert waits for its `for`. A provider has sent its last
story two hours ago; the server is killed; and a subscriber's receiver is away, while newsdesk's clock runs 400 times as fast, so that the
quarter of an hour that an entry may wait is over in two seconds, and the ten attempts that pause a feed in forty. Each alert has to fire, and to
be gone when the provider has sent something, the server is back, and the receiver has taken what waited. What Prometheus has scraped has to be
what the server tells of its feed.
"""
import argparse
import contextlib
import http.client
import json
import os
import random
import re
import shutil
import socket
import subprocess
import sys
import tempfile
import time
import urllib.parse

HERE = os.path.dirname(os.path.abspath(__file__))
TOP = os.path.dirname(os.path.dirname(HERE))
NEWSDESK = os.environ.get("NEWSDESK", os.path.join(TOP, "newsdesk"))
STORE = "6ba7b810-9dad-11d1-80b4-00c04fd430c8"
SPEED, TWO_HOURS = 400, 7200
# a program that has to be there, and the system's package that has it
NEEDED = {"prometheus": "prometheus", "promtool": "prometheus", "cc": "gcc"}
SETUP = (
    {"do": "add_subscriber", "subscriber": "alpha", "format": "ninjs", "products": ["all"]},
    {"do": "add_provider", "provider": "agency"},
)
OF_FEEDS = ("length", "acked", "tries", "paused", "oldest_seconds")
GAUGES = (
    *(f"newsdesk_{name}" for name in ("entries", "moment_seconds", "log_bytes", "log_limit_bytes", "items", "items_limit", "publications", "ingest_seconds")),
    *(f"newsdesk_feed_{name}" for name in OF_FEEDS),
)
# each is there from its first rise on; nothing here makes the log fail
COUNTERS = ("newsdesk_requests_total", "newsdesk_attempts_total", "newsdesk_ingests_total")
checks = 0


def expect(what, found, wanted):
    global checks
    checks += 1
    if found != wanted:
        sys.exit(f"{what}: {found!r}, and not {wanted!r}")


def eventually(what, happens, seconds=60):
    """Waits until it happens. The time that it took, in seconds."""
    global checks
    checks += 1
    begun = time.monotonic()
    while not happens():
        if time.monotonic() > begun + seconds:
            sys.exit(f"{what} is not so after {seconds} seconds")
        time.sleep(0.1)
    return time.monotonic() - begun


def listens(port):
    with socket.socket() as one:
        return one.connect_ex(("127.0.0.1", port)) == 0


def free_ports(count):
    """Ports that nothing listens at, and that the system gives to no connection by itself while what listens there is away."""
    return [port for port in random.sample(range(20_000, 30_000), 100) if not listens(port)][:count]


def exchange(port, method, path, body=None, head=()):
    """The status and the body of a response."""
    connection = http.client.HTTPConnection("127.0.0.1", port, timeout=60)
    try:
        connection.request(method, path, body, {"Connection": "close", **dict(head)})
        response = connection.getresponse()
        return response.status, response.read().decode()
    finally:
        connection.close()


def run(folder, *words, text=None):
    """The status of a program, and all that it says."""
    done = subprocess.run(words, cwd=folder, input=text, stdout=subprocess.PIPE, stderr=subprocess.STDOUT, text=True)
    return done.returncode, done.stdout


class Newsdesk:
    """A store, its server, and the receiver of its one subscriber."""

    def __init__(self, folder, port, door):
        self.folder, self.port, self.door = folder, port, door
        self.clock = os.path.join(folder, "clock.so")
        subprocess.run(["cc", "-O2", "-shared", "-fPIC", "-o", self.clock, os.path.join(TOP, "bench/soak/clock.c")], check=True)
        self.number, self.server, self.receiver = 0, None, None

    def environment(self, begins, speed):
        """newsdesk's clock begins at that second, and runs so many times as fast as the day; with 0 it stands."""
        return {**os.environ, "LD_PRELOAD": self.clock, "FROM": str(int(begins)), "SPEED": str(speed)}

    def make(self, begins):
        environment, lines = self.environment(begins, 0), ""
        for self.number, line in enumerate(SETUP, 1):
            lines += json.dumps({"by": "admin", "number": self.number, **line}) + "\n"
        for words, given in ((("init", "news", STORE), ""), (("batch", "news"), lines)):
            subprocess.run([NEWSDESK, *words], cwd=self.folder, env=environment, input=given.encode(), stdout=subprocess.DEVNULL, check=True)

    def start(self, begins, speed):
        words = [NEWSDESK, "serve", "news", f"127.0.0.1:{self.port}", "1", "alpha", f"127.0.0.1:{self.door}"]
        with open(os.path.join(self.folder, "newsdesk.log"), "ab") as log:
            self.server = subprocess.Popen(words, cwd=self.folder, env=self.environment(begins, speed), stdout=log, stderr=log)
        eventually("newsdesk listens", lambda: self.is_alive() and listens(self.port))

    def is_alive(self):
        if self.server.poll() is not None:
            sys.exit(f"newsdesk has ended by itself, with status {self.server.returncode}")
        return True

    def start_receiver(self):
        script = os.path.join(TOP, "examples", "receiver.py")
        self.receiver = subprocess.Popen([sys.executable, script, "alpha", os.path.join(self.folder, "held"), str(self.door)])

    def request(self, **what):
        self.number += 1
        body = json.dumps({"number": self.number, **what})
        status, answer = exchange(self.port, "POST", "/requests", body, {"X-User": "admin"})
        expect(f"the status of request {self.number}, which was answered {answer}", status, 200)

    def ingest(self, headline):
        item = {"uri": f"http://agency.example/{headline}", "headline": headline, "body_text": "Gusts."}
        status, answer = exchange(self.port, "POST", "/ingest/agency/ninjs", json.dumps(item), {"X-User": "admin"})
        expect(f"the status of an item, which was answered {answer}", status, 200)

    def feed(self):
        """How the feed fares."""
        return json.loads(exchange(self.port, "GET", "/queue", head={"X-User": "admin"})[1])["feeds"][0]

    def kill(self):
        self.is_alive()
        self.server.kill()
        self.server.wait()

    def end(self):
        end_all([self.server, self.receiver])


class Prometheus:
    """Prometheus, with a copy of the two files that is as quick as a test wants it."""

    def __init__(self, folder, port, newsdesk_port):
        self.folder, self.port = folder, port
        self.copy("prometheus.yml", (r"\b1[05]s\b", "1s"), (r"127\.0\.0\.1:8090", f"127.0.0.1:{newsdesk_port}"))
        self.copy("alerts.yml", (r"(?m)^( +for): \d+m$", r"\1: 0s"))
        expect("the copies are taken", run(folder, "promtool", "check", "config", "prometheus.yml")[0], 0)
        words = ["--config.file=prometheus.yml", "--storage.tsdb.path=series", f"--web.listen-address=127.0.0.1:{port}"]
        with open(os.path.join(folder, "prometheus.log"), "wb") as log:
            self.process = subprocess.Popen(["prometheus", *words], cwd=folder, stdout=log, stderr=log)

    def copy(self, name, *exchanged):
        with open(os.path.join(HERE, name), encoding="utf-8") as file:
            text = file.read()
        for old, new in exchanged:
            text = re.sub(old, new, text)
        with open(os.path.join(self.folder, name), "w", encoding="utf-8") as file:
            file.write(text)

    def ask(self, path, **words):
        status, answer = exchange(self.port, "GET", f"/api/v1/{path}?{urllib.parse.urlencode(words)}")
        if status != 200:
            sys.exit(f"prometheus answers {status} to {path}: {answer}")
        return json.loads(answer)["data"]

    def is_ready(self):
        if self.process.poll() is not None:
            sys.exit(f"prometheus has ended by itself, with status {self.process.returncode}")
        return listens(self.port) and exchange(self.port, "GET", "/-/ready")[0] == 200

    def is_scraping(self):
        """Whether the last scrape was taken."""
        return [one["health"] for one in self.ask("targets")["activeTargets"]] == ["up"]

    def value(self, series):
        """The value of a series that has one instance, if it is there now."""
        found = self.ask("query", query=series)["result"]
        return float(found[0]["value"][1]) if found else None

    def types(self):
        return {name: told[0]["type"] for name, told in self.ask("metadata").items() if name.startswith("newsdesk_")}

    def firing(self):
        """What fires, and of whom."""
        alerts = [one for one in self.ask("alerts")["alerts"] if one["state"] == "firing"]
        return {(one["labels"]["alertname"], one["labels"].get("subscriber") or one["labels"].get("provider")) for one in alerts}

    def end(self):
        end_all([self.process])


def end_all(processes):
    for process in processes:
        if process is not None and process.poll() is None:
            process.kill()
            process.wait()


def watch(prometheus, *alerts):
    """Waits until exactly these alerts fire, and says how long it took."""
    names = ", ".join(f"{name} of {whom}" if whom else name for name, whom in sorted(alerts, key=str)) or "none"
    seconds = eventually(f"these alerts fire: {names}", lambda: prometheus.firing() == set(alerts), 120)
    print(f"behind {seconds:.0f} seconds these alerts fire: {names}", flush=True)


def try_files():
    """Both files are in order, and each alert fires when it should."""
    for words in (("check", "config", "prometheus.yml"), ("check", "rules", "alerts.yml"), ("test", "rules", "alerts_test.yml")):
        status, said = run(HERE, "promtool", *words)
        expect(f"promtool {' '.join(words)}, which says {said}", status, 0)
    print("promtool takes both files, and each alert fires and is gone when it should")


def try_silence(newsdesk, prometheus):
    """The last story of a provider is two hours old, and stays so when the server is killed."""
    newsdesk.start(time.time() - TWO_HOURS, 0)
    eventually("a scrape is taken", prometheus.is_scraping)
    newsdesk.ingest("storm")
    silent, down = ("NewsdeskProviderSilent", "agency"), ("NewsdeskDown", None)
    watch(prometheus, silent)
    newsdesk.kill()
    watch(prometheus, silent, down)


def try_receiver(newsdesk, prometheus):
    """A receiver is away until its feed is paused, and comes back."""
    newsdesk.start(time.time(), SPEED)
    newsdesk.ingest("gale")
    watch(prometheus)
    newsdesk.request(do="flash", story={"headline": "Fire", "body": "Smoke."})
    behind, paused = ("NewsdeskFeedBehind", "alpha"), ("NewsdeskFeedPaused", "alpha")
    watch(prometheus, behind)
    watch(prometheus, behind, paused)
    compare(newsdesk, prometheus)
    newsdesk.start_receiver()
    eventually("the receiver listens", lambda: listens(newsdesk.door))
    newsdesk.request(do="resume", subscriber="alpha")
    watch(prometheus)
    eventually("the feed is acknowledged", lambda: newsdesk.feed()["acked"] == 1)
    compare(newsdesk, prometheus)


def compare(newsdesk, prometheus):
    """What was scraped is what the server tells of its feed."""
    feed = newsdesk.feed()
    wanted = [feed["length"], feed["acked"], feed["tries"], feed["state"] == "paused"]
    series = ['newsdesk_feed_%s{subscriber="alpha"}' % name for name in OF_FEEDS[:4]]
    eventually(f"the feed is scraped as {wanted}", lambda: [prometheus.value(one) for one in series] == wanted)


def try_text(newsdesk, prometheus):
    """The text is in the form that it should have, and has all that it should."""
    status, text = exchange(newsdesk.port, "GET", "/metrics")
    expect("the status of /metrics", status, 200)
    expect("what promtool says of the text", run(HERE, "promtool", "check", "metrics", text=text), (0, ""))
    wanted = {**dict.fromkeys(GAUGES, "gauge"), **dict.fromkeys(COUNTERS, "counter")}
    eventually("each series has its type", lambda: wanted.items() <= prometheus.types().items())
    for name in GAUGES + COUNTERS:
        expect(f"whether {name} is scraped", prometheus.value(f"sum({name})") is not None, True)


def try_all(folder):
    port, door, own = free_ports(3)
    with contextlib.ExitStack() as stack:
        newsdesk = Newsdesk(folder, port, door)
        stack.callback(newsdesk.end)
        newsdesk.make(time.time() - TWO_HOURS)
        prometheus = Prometheus(folder, own, port)
        stack.callback(prometheus.end)
        eventually("prometheus is ready", prometheus.is_ready)
        try_silence(newsdesk, prometheus)
        try_receiver(newsdesk, prometheus)
        try_text(newsdesk, prometheus)
    print(f"{checks} checks, each as it should be")


def main():
    words = argparse.ArgumentParser(description="Tries the files of this folder with a real Prometheus.")
    words.add_argument("--folder", metavar="FOLDER", help="where the temporary folder is made")
    given = words.parse_args()
    for program, package in NEEDED.items():
        if shutil.which(program) is None:
            print(f"{program} is not there, the system's package {package} has it: not tried")
            return
    try_files()
    with tempfile.TemporaryDirectory(dir=given.folder) as folder:
        try_all(folder)


if __name__ == "__main__":
    main()
