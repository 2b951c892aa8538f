#!/usr/bin/env python3
"""Tries the gateway of this folder: stock nginx with newsdesk.conf, in front of `newsdesk serve` with two workers and two receivers.

All is in a temporary folder and on loopback: a certificate of its own, a file of names and passwords, ports that are free. Callers
come by `curl` over TLS. At the end stop.py stops the server, which has to end with status 0 and its summary.
"""
import json
import os
import pwd
import random
import re
import shutil
import socket
import subprocess
import sys
import tempfile
import time
from concurrent.futures import ThreadPoolExecutor

HERE = os.path.dirname(os.path.abspath(__file__))
TOP = os.path.dirname(os.path.dirname(HERE))
NEWSDESK = os.environ.get("NEWSDESK", os.path.join(TOP, "newsdesk"))
STORE = "6ba7b810-9dad-11d1-80b4-00c04fd430c8"
KEY = "0f1e2d3c4b5a69780f1e2d3c4b5a6978"
PASSWORDS = {"ana": "a-1", "alpha": "b-2", "beta": "c-3", "zoe": "d-4"}
SETUP = (
    {"do": "add_user", "user": "ana", "privileges": ["publish"]},
    {"do": "add_user", "user": "operator", "privileges": ["stop"]},
    {"do": "add_subscriber", "subscriber": "alpha", "format": "ninjs", "products": ["all"]},
    {"do": "add_subscriber", "subscriber": "beta", "format": "7901", "products": ["all"]},
)
WRAP = """user {user};
pid {folder}/nginx.pid;
error_log {folder}/error.log;
events {{}}
http {{
    access_log off;
    client_body_temp_path {folder}/bodies;
    proxy_temp_path {folder}/proxied;
    fastcgi_temp_path {folder}/fastcgi;
    uwsgi_temp_path {folder}/uwsgi;
    scgi_temp_path {folder}/scgi;
    include {folder}/newsdesk.conf;
}}
"""
checks = 0


def expect(what, found, wanted):
    global checks
    checks += 1
    if found != wanted:
        sys.exit(f"{what}: {found!r}, and not {wanted!r}")


def eventually(what, happens, seconds=60):
    for _ in range(10 * seconds):
        if happens():
            return
        time.sleep(0.1)
    sys.exit(f"{what} is not so after {seconds} seconds")


def listens(port):
    with socket.socket() as one:
        return one.connect_ex(("127.0.0.1", port)) == 0


def free_ports(count):
    """Ports that nothing listens at, and that the system gives to no connection by itself."""
    ports = [port for port in random.sample(range(20_000, 30_000), 100) if not listens(port)]
    return ports[:count]


def newsdesk(folder, words, text=""):
    done = subprocess.run([NEWSDESK, *words], cwd=folder, input=text, stdout=subprocess.PIPE, text=True)
    return done.returncode, done.stdout


class House:
    """A folder with a store, the receivers, the server and the gateway."""

    setup, passwords, wrap, receivers = SETUP, PASSWORDS, WRAP, ("alpha", "beta")

    def __init__(self, folder):
        self.folder = folder
        self.port, self.gate, *self.doors = free_ports(2 + len(self.receivers))
        self.running = []

    def at(self, name):
        return os.path.join(self.folder, name)

    def start(self, words, **more):
        process = subprocess.Popen(words, cwd=self.folder, **more)
        self.running.append(process)
        return process

    def make_store(self):
        lines = "".join(json.dumps({"by": "admin", "number": number, **what}) + "\n" for number, what in enumerate(self.setup, 1))
        expect("a new store", newsdesk(self.folder, ["init", "news", STORE]), (0, ""))
        status, answers = newsdesk(self.folder, ["batch", "news"], lines)
        expect("its users and subscribers", (status, answers.count('"done"')), (0, len(self.setup)))

    def make_key(self):
        with open(self.at("key"), "w", encoding="ascii") as file:
            file.write(KEY + "\n")

    def start_receivers(self):
        for name, door in zip(self.receivers, self.doors):
            self.start([sys.executable, os.path.join(os.path.dirname(HERE), "receiver.py"), name, self.at(name), str(door)])
            eventually(f"{name} listens", lambda: listens(door))

    def serve(self):
        pairs = [word for name, door in zip(self.receivers, self.doors) for word in (name, f"127.0.0.1:{door}")]
        self.server = self.start([NEWSDESK, "serve", "--key", "key", "news", f"127.0.0.1:{self.port}", "2", *pairs], stdout=subprocess.PIPE, text=True)
        eventually("the server listens", lambda: listens(self.port))

    def make_gateway(self):
        """The site of this folder, with its paths and ports exchanged for those of the test, and its key."""
        with open(self.at("newsdesk.gate"), "w", encoding="utf-8") as file:
            file.write(f'proxy_set_header X-Key "{KEY}";\n')
        key, certificate, users = self.at("newsdesk.key"), self.at("newsdesk.crt"), self.at("newsdesk.users")
        subject = ["-subj", "/CN=news.example", "-addext", "subjectAltName=DNS:news.example"]
        words = ["openssl", "req", "-x509", "-newkey", "rsa:2048", "-nodes", "-days", "1", *subject, "-keyout", key, "-out", certificate]
        subprocess.run(words, check=True, stderr=subprocess.DEVNULL)
        with open(users, "w", encoding="utf-8") as file:
            for name, password in self.passwords.items():
                mark = subprocess.run(["openssl", "passwd", "-apr1", password], check=True, stdout=subprocess.PIPE, text=True).stdout
                file.write(f"{name}:{mark}")
        with open(os.path.join(HERE, "newsdesk.conf"), encoding="utf-8") as file:
            site = file.read()
        site = site.replace("/etc/nginx/", self.folder + "/").replace("127.0.0.1:8090", f"127.0.0.1:{self.port}")
        site = site.replace("/usr/local/share/newsdesk/", self.folder + "/")
        site = re.sub(r"\blisten 443\b", f"listen 127.0.0.1:{self.gate}", site)
        with open(self.at("newsdesk.conf"), "w", encoding="utf-8") as file:
            file.write(site)
        with open(self.at("nginx.conf"), "w", encoding="utf-8") as file:
            file.write(self.wrap.format(user=pwd.getpwuid(os.geteuid()).pw_name, folder=self.folder))

    def open_gateway(self):
        nginx = shutil.which("nginx", path=os.environ["PATH"] + ":/usr/sbin") or sys.exit("nginx is not there: not tried")
        self.nginx = self.start([nginx, "-e", self.at("error.log"), "-p", self.folder, "-c", self.at("nginx.conf"), "-g", "daemon off;"])
        eventually("the gateway listens", lambda: listens(self.gate))

    def curl(self, caller, path, *words, password=None, body=None):
        """The status and the body of a request through the gateway."""
        who = ["-u", f"{caller}:{self.passwords[caller] if password is None else password}"] if caller else []
        way = ["--cacert", self.at("newsdesk.crt"), "--resolve", f"news.example:{self.gate}:127.0.0.1", "--path-as-is", "--max-time", "60"]
        what = ["--data-binary", "@-"] if body is not None else []
        words = ["curl", "-q", "-s", "-w", "\n%{http_code}", *way, *who, *what, *words, f"https://news.example:{self.gate}{path}"]
        done = subprocess.run(words, input=body or "", stdout=subprocess.PIPE, text=True)
        answer, status = done.stdout.rsplit("\n", 1)
        return int(status), answer

    def past_the_gateway(self, *words):
        """The status of a question that comes to the server's port, and not through the gateway."""
        words = ["curl", "-q", "-s", "-o", os.devnull, "-w", "%{http_code}", "-H", "X-User: ana", *words, f"http://127.0.0.1:{self.port}/queue"]
        return int(subprocess.run(words, stdout=subprocess.PIPE, text=True).stdout)

    def request(self, caller, value, *words):
        return self.curl(caller, "/requests", *words, body=json.dumps(value))

    def stop(self):
        subprocess.run([os.path.join(HERE, "stop.py"), "--key", self.at("key"), f"127.0.0.1:{self.port}", "operator", str(self.server.pid)], check=True)

    def end(self):
        for process in reversed(self.running):
            if process.poll() is None:
                process.terminate()
                process.wait()


def flash(number, headline, body="Smoke."):
    return {"number": number, "do": "flash", "story": {"headline": headline, "slugline": "fire", "language": "en", "body": body}}


def try_callers(house):
    """Who is let in, and as whom."""
    none = {"number": 1, "do": "add_desk", "desk": "city"}
    no_right = (403, '{"answer":"denied","denial":"NoPrivilege","number":4,"privilege":"desks"}')
    feed = (200, '{"answer":"feed","entries":[],"length":0,"subscriber":"alpha"}')
    expect("a caller without a name", house.curl(None, "/queue")[0], 401)
    expect("a question that comes past the gateway", house.past_the_gateway(), 403)
    expect("one with another key", house.past_the_gateway("-H", "X-Key: " + KEY[::-1]), 403)
    expect("one with the key", house.past_the_gateway("-H", "X-Key: " + KEY), 200)
    expect("ana with a key of her own", house.curl("ana", "/queue", "-H", "X-Key: 1")[0], 200)
    expect("a wrong password", house.curl("ana", "/queue", password="wrong")[0], 401)
    expect("a wrong password and another name", house.curl("ana", "/queue", "-H", "X-User: ana", password="wrong")[0], 401)
    expect("a question by one whom newsdesk does not know", house.curl("zoe", "/queue"), (403, ""))
    unknown = (403, '{"answer":"denied","denial":"UnknownUser","number":3}')
    expect("a request by one whom newsdesk does not know", house.request("zoe", none), unknown)
    for header in ("X-User: admin", "x-user: admin", "X_User: admin"):
        expect(f"ana with the header {header}", house.request("ana", none, "-H", header), no_right)
        expect(f"zoe with the header {header}", house.request("zoe", none, "-H", header), unknown)
    expect("ana by two headers", house.request("ana", none, "-H", "X-User: admin", "-H", "X-User: admin"), no_right)
    expect("ana as admin in the body", house.request("ana", {"by": "admin", **none}), no_right)
    expect("a subscriber's own feed", house.curl("alpha", "/feeds/alpha/after/0"), feed)
    expect("another subscriber's feed", house.curl("beta", "/feeds/alpha/after/0", "-H", "X-User: alpha"), (403, ""))


def try_bodies(house):
    """Bodies and targets, as they come through."""
    status, answer = house.request("ana", flash(1, "One"))
    expect("a story", (status, json.loads(answer)["publication"]), (200, 1))
    two = flash(2, "Two", 40_000 * "Smoke. ")
    status, answer = house.request("ana", two, "-H", "Transfer-Encoding: chunked")
    expect("a long story whose body comes in chunks", (status, answer[:16]), (200, '{"answer":"done"'))
    status, answer = house.request("ana", two)
    expect("the same once more", (status, json.loads(answer)["answer"], json.loads(answer)["publication"]), (200, "repeat", 2))
    status, answer = house.request("ana", flash(3, "Three"), "-H", "Connection: keep-alive", "--http1.0")
    expect("a story by HTTP/1.0", (status, json.loads(answer)["publication"]), (200, 3))
    expect("a body that is too long", house.curl("ana", "/requests", body=4_194_305 * "\n")[0], 413)
    bad = (400, '{"answer":"bad","property":"line"}')
    expect("a body of the greatest length", house.curl("ana", "/requests", body=4_194_304 * "\n"), bad)
    many = [word for number in range(100) for word in ("-H", f"A{number}: b")]
    expect("a head of a hundred lines", house.curl("ana", "/items/1", *many)[0], 200)
    for path in ("/queue?", "//queue", "/queue/", "/q%75eue"):
        expect(f"the target {path}", house.curl("ana", path), (404, ""))


def try_browsers(house):
    """What a browser says of where a request comes from, and for whom: what a page from elsewhere made it ask is refused."""
    one = {"number": 4, "do": "flash", "story": {"headline": "Never"}}
    refused = [["-H", f"Sec-Fetch-Site: {word}"] for word in ("cross-site", "same-site", "other")]
    refused += [["-H", f"Origin: {word}"] for word in ("https://other.example", "null", "https://news.example", f"http://news.example:{house.gate}")]
    refused += [["-H", "Desk-User: zoe"], ["-H", "Desk-User: ana ana"]]
    for words in refused:
        expect(f"a request with {words[1]}", house.request("ana", one, *words)[0], 403)
    expect("a question that another site made a browser ask", house.curl("ana", "/queue", "-H", "Sec-Fetch-Site: cross-site")[0], 403)
    own = ["-H", f"Origin: https://news.example:{house.gate}", "-H", "Sec-Fetch-Site: same-origin", "-H", "Desk-User: ana"]
    late = (409, '{"answer":"denied","denial":"OutOfTurn","expected":4,"number":1}')
    expect("a request of the site's own page", house.request("ana", {"number": 9, "do": "stop"}, *own), late)
    expect("a question by hand", house.curl("ana", "/queue", "-H", "Sec-Fetch-Site: none")[0], 200)


def try_together(house):
    """Forty callers at once: each is served in its turn, and none waits for a connection that stays."""
    before = time.monotonic()
    with ThreadPoolExecutor(40) as threads:
        answers = list(threads.map(lambda _: house.curl("ana", "/items/1"), range(40)))
    expect("forty callers at once", [status for status, _ in answers], [200] * 40)
    return time.monotonic() - before


def acknowledged(house):
    """How many entries of its feed each subscriber has acknowledged."""
    _, answer = house.curl("ana", "/queue")
    return {row["subscriber"]: row["acked"] for row in json.loads(answer)["feeds"]}


def try_feeds(house):
    """Each story came to each receiver once, in order."""
    headlines = ["One", "Two", "Three"]
    eventually("all is acknowledged", lambda: acknowledged(house) == {"alpha": 3, "beta": 3})
    for name in ("alpha", "beta"):
        expect(f"the files of {name}", sorted(os.listdir(house.at(name))), ["1", "2", "3"])
        for k, headline in enumerate(headlines, 1):
            with open(os.path.join(house.at(name), str(k)), encoding="utf-8") as file:
                text = file.read()
            expect(f"headlines in frame {k} of {name}", [word for word in headlines if word in text], [headline])


def try_stop(house, entries):
    house.stop()
    summary, _ = house.server.communicate(timeout=60)
    lines = [f"entries {entries}", "alpha length 3 acked 3 tries 0 success", "beta length 3 acked 3 tries 0 success"]
    expect("the summary", summary.splitlines(), lines)
    expect("the status behind a stop", house.server.returncode, 0)
    expect("a request behind a stop", house.curl("ana", "/queue")[0], 502)


def entries_of(house):
    return json.loads(newsdesk(house.folder, ["check", "--beside", "news"])[1])["entries"]


def main():
    with tempfile.TemporaryDirectory() as folder:
        house = House(folder)
        try:
            house.make_store()
            house.make_key()
            house.start_receivers()
            house.serve()
            house.make_gateway()
            house.open_gateway()
            try_callers(house)
            try_bodies(house)
            try_browsers(house)
            took = try_together(house)
            try_feeds(house)
            # the users and subscribers, and for each story its entry, and two attempts and two receipts; then the stop
            try_stop(house, len(SETUP) + 3 * 5 + 1)
            # behind a stop the next one has another number
            for number in (2, 3, 4):
                house.serve()
                try_stop(house, len(SETUP) + 3 * 5 + number)
            expect("the list", entries_of(house), len(SETUP) + 3 * 5 + 4)
        finally:
            house.end()
    print(f"{checks} checks passed; forty callers at once took {took:.1f} s")


if __name__ == "__main__":
    main()
