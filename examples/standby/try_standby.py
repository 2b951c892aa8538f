#!/usr/bin/env python3
"""Kills a newsroom a hundred times, and goes on from its standby each time: try_standby.py PROGRAM [SEED [FOLDER]].

PROGRAM is the built newsdesk. Each time `serve` answers stories that are posted over HTTP, and beside it `ship --every 1` sends the records to
a standby. The standby is `stand-in` behind a listening socket, a process for each connection, as systemd starts it; each KEPT line that it says
is noted. At any moment the machine dies: server and ship are killed at once, and in every third round so is the standby. Then

 - the standby's list has to be a beginning of the one that the primary's files hold, record by record, so it has no entry of its own,
 - it has to have at least as many entries as any KEPT line has said,
 - and the newsroom goes on from it: it is served next, and a new standby with empty files follows it.

Behind that it is tried what goes wrong where a step of a takeover is left out: a primary that goes on beside the standby that has taken its
place, and a `queue` on a standby's store. At last the two are tried as systemd-socket-activate hands connections over, where that is there.
"""
import http.client
import json
import os
import random
import shutil
import signal
import socket
import subprocess
import sys
import tempfile
import threading
import time

STORE = "6ba7b810-9dad-11d1-80b4-00c04fd430c8"
OTHER = "6ba7b811-9dad-11d1-80b4-00c04fd430c8"
TAKEOVERS = 100
# behind so many takeovers the newsroom begins anew, so that no standby has much to be filled with
GENERATION = 10
# the longest time from the first story of a round to the death of its machine, in seconds
LONGEST = 2.5


def fail(what):
    sys.exit(f"seed {SEED}: {what}")


def expect(what, found, wanted):
    if found != wanted:
        fail(f"{what}: {found!r}, and not {wanted!r}")


def newsdesk(folder, words, given=b""):
    done = subprocess.run([PROGRAM, *words], cwd=folder, input=given, stdout=subprocess.PIPE, timeout=600)
    return done.returncode, done.stdout.decode()


def lines_of(*requests):
    return "".join(json.dumps({"by": "admin", **what}) + "\n" for what in requests).encode()


def flash(number, headline):
    return {"number": number, "do": "flash", "story": {"headline": headline, "body": "Smoke."}}


# ---- the files


def records(path):
    """The payloads of a log, in order: behind 64 bytes each record is a gate, which is 1, four bytes of length, and the payload."""
    try:
        with open(path, "rb") as file:
            log = file.read()
    except FileNotFoundError:
        return []
    found, gate = [], 64
    while log[gate : gate + 1] == b"\x01":
        length = int.from_bytes(log[gate + 1 : gate + 5], "big")
        payload = log[gate + 5 : gate + 5 + length]
        if len(payload) < length:
            fail(f"{path} ends within the record at {gate}")
        found.append(payload)
        gate += 5 + length
    return found


# ---- the standby


class Standby:
    """Listens for the primary, and starts `stand-in` for each connection. It notes what the replies say."""

    def __init__(self, path):
        self.path = path
        self.listener = socket.create_server(("127.0.0.1", 0))
        self.port = self.listener.getsockname()[1]
        self.kept = 0
        self.children = []
        self.turn = threading.Lock()
        self.ended = False
        self.thread = threading.Thread(target=self.listen, daemon=True)
        self.thread.start()

    def listen(self):
        while True:
            try:
                connection, _ = self.listener.accept()
            except OSError:
                return
            with self.turn:
                if self.ended:
                    connection.close()
                    return
                words = [PROGRAM, "stand-in", "--wait", self.path, STORE]
                child = subprocess.Popen(words, stdin=connection, stdout=subprocess.PIPE)
                self.children.append(child)
            self.pass_on(child, connection)
            child.wait()
            connection.close()

    def pass_on(self, child, connection):
        """Sends the replies on; each is noted before, since it is said once it has left the program."""
        for line in child.stdout:
            if line.startswith(b"KEPT ") and line.endswith(b"\n"):
                self.kept = max(self.kept, int(line.split()[1]))
            try:
                connection.sendall(line)
            except OSError:
                return

    def kill(self):
        """The process that stands in is killed, wherever it is; the next connection starts another one."""
        with self.turn:
            for child in self.children:
                if child.poll() is None:
                    child.kill()

    def close(self):
        """No connection is taken any more, and nobody has the store behind this."""
        with self.turn:
            self.ended = True
        self.listener.shutdown(socket.SHUT_RDWR)
        self.listener.close()
        for child in self.children:
            try:
                child.wait(10)
            except subprocess.TimeoutExpired:
                child.kill()
                child.wait()
        self.thread.join(10)


# ---- the primary


def free_port():
    with socket.create_server(("127.0.0.1", 0)) as one:
        return one.getsockname()[1]


class Primary:
    """The machine of the newsroom: a server, and what ships its records."""

    def __init__(self, path, standby):
        self.path = path
        self.port = free_port()
        quiet = {"stdout": subprocess.DEVNULL, "stderr": subprocess.DEVNULL}
        self.server = subprocess.Popen([PROGRAM, "serve", "--wait", path, f"127.0.0.1:{self.port}", "1"], **quiet)
        self.ship = subprocess.Popen([PROGRAM, "ship", "--every", "1", path, "standby", f"127.0.0.1:{standby.port}"], stdout=subprocess.PIPE)
        self.said = []
        threading.Thread(target=self.listen, daemon=True).start()
        self.answered = 0
        self.wrong = None
        self.posting = threading.Thread(target=self.post, daemon=True)

    def listen(self):
        for line in self.ship.stdout:
            self.said.append(line)

    def connect(self):
        for _ in range(200):
            connection = http.client.HTTPConnection("127.0.0.1", self.port, timeout=10)
            try:
                connection.connect()
                return connection
            except OSError:
                time.sleep(0.05)
        raise ConnectionError("the server does not listen")

    def ask(self, connection, body):
        connection.request("POST", "/requests", json.dumps(body), {"X-User": "admin"})
        return json.loads(connection.getresponse().read())

    def post(self):
        """Posts one story behind the other, as fast as they are answered, until the server is gone."""
        count = 0
        try:
            connection = self.connect()
            number = self.ask(connection, {"number": 0, "do": "stop"})["expected"]
            while True:
                # 64 requests go over one connection
                if count % 60 == 59:
                    connection.close()
                    connection = self.connect()
                answer = self.ask(connection, flash(number, f"Story {number}"))
                if answer["answer"] != "done":
                    self.wrong = f"a story is answered {answer}"
                    return
                self.answered = answer["entry"]
                number += 1
                count += 1
        except (OSError, http.client.HTTPException, ValueError):
            return

    def die(self):
        """Nothing of the machine goes on."""
        for process in (self.server, self.ship):
            process.kill()
        for process in (self.server, self.ship):
            process.wait()
        self.posting.join(30)
        if self.wrong:
            fail(self.wrong)


# ---- the rounds


def new_store(path):
    expect("a new store", newsdesk(FOLDER, ["init", path, STORE]), (0, ""))
    subscriber = {"number": 1, "do": "add_subscriber", "subscriber": "alpha", "format": "ninjs", "products": ["all"]}
    expect("its subscriber", newsdesk(FOLDER, ["batch", path], lines_of(subscriber)), (0, '{"answer":"done","entry":1}\n'))


def entries(path):
    status, told = newsdesk(FOLDER, ["check", path])
    if status != 0:
        fail(f"check of {path}: status {status}, {told}")
    return json.loads(told)["entries"]


def compare(primary, standby, kept):
    """How many records of the primary's list the standby has not. It has to have a beginning of the list, and all that it said."""
    whole, held = records(primary), records(standby)
    if held != whole[: len(held)]:
        fail(f"{standby} is no beginning of {primary}")
    if len(held) < kept:
        fail(f"{standby} has {len(held)} records, and said KEPT {kept}")
    expect(f"the entries of {standby}", entries(standby) if held else 0, len(held))
    expect(f"the entries of {primary}", entries(primary), len(whole))
    return len(whole) - len(held)


def remove(path):
    for name in (path, path + ".side"):
        if os.path.exists(name):
            os.remove(name)


def round_of(primary_path, standby_path, draw, third):
    """A machine that is killed while it serves and ships. How many entries it answered that the standby has not, and all that it said."""
    standby = Standby(standby_path)
    primary = Primary(primary_path, standby)
    primary.posting.start()
    until = time.monotonic() + draw.uniform(0, LONGEST)
    while time.monotonic() < until:
        if third and draw.random() < 0.05:
            standby.kill()
        time.sleep(0.02)
    primary.die()
    if third:
        standby.kill()
    standby.close()
    compare(primary_path, standby_path, standby.kept)
    held = len(records(standby_path))
    return max(0, primary.answered - held), standby.kept, held


def take_over_again_and_again():
    draw = random.Random(SEED)
    lost, said, sent = [], 0, 0
    primary, standby = os.path.join(FOLDER, "a"), os.path.join(FOLDER, "b")
    for number in range(TAKEOVERS):
        if number % GENERATION == 0:
            remove(primary)
            remove(standby)
            new_store(primary)
        behind, kept, held = round_of(primary, standby, draw, number % 3 == 2)
        lost.append(behind)
        said += kept > 0
        sent += held
        # a standby that has nothing yet cannot take over: the round tried that it says nothing either
        if held:
            remove(primary)
            primary, standby = standby, primary
        else:
            remove(standby)
        if sys.stderr.isatty():
            print(f"\r{number + 1} of {TAKEOVERS}", end="", file=sys.stderr)
    if said < TAKEOVERS // 2:
        fail(f"only {said} of {TAKEOVERS} standbys said KEPT of anything")
    print(f"{TAKEOVERS} machines killed, {sent} records on their standbys: nothing that was KEPT is lost, and nothing is there that the primary had not")
    print(f"answered and not yet shipped at a kill: {sum(lost) / len(lost):.0f} entries on the average, {max(lost)} at most")


# ---- what goes wrong


def ship_to(standby_path, primary_path):
    standby = Standby(standby_path)
    answer = newsdesk(FOLDER, ["ship", primary_path, "standby", f"127.0.0.1:{standby.port}"])
    standby.close()
    return answer


def pair_of(name):
    """A primary of two entries, and its standby that has both."""
    primary, standby = (os.path.join(FOLDER, name + end) for end in ("1", "2"))
    new_store(primary)
    newsdesk(FOLDER, ["batch", primary], lines_of(flash(2, "Fire")))
    expect("a ship", ship_to(standby, primary), (0, "level 2\n"))
    expect("the log of the standby", records(standby), records(primary))
    with open(primary, "rb") as one, open(standby, "rb") as other:
        expect("its bytes", other.read(), one.read())
    return primary, standby


def tried_rows():
    primary, standby = pair_of("row")
    expect("a second ship", ship_to(standby, primary), (0, "level 2\n"))
    first, second = records(primary)
    line = b"RECORD %d %d\n%s"
    held = os.path.join(FOLDER, "row3")
    expect("lines 1, 1, 3", newsdesk(FOLDER, ["stand-in", held, STORE], line % (1, len(first), first) * 2 + line % (3, len(second), second)), (0, "KEPT 1\n" * 3))
    expect("another store", newsdesk(FOLDER, ["stand-in", held, OTHER], line % (2, len(second), second)), (3, '{"status":3}\n'))
    expect("no record line", newsdesk(FOLDER, ["stand-in", held, STORE], b"RECORD 02 1\nx"), (13, '{"at":7,"status":13}\n'))
    expect("no entry", newsdesk(FOLDER, ["stand-in", held, STORE], b"RECORD 2 1\n\xff"), (13, '{"at":11,"status":13}\n'))
    expect("its mode", os.stat(held).st_mode & 0o777, 0o600)
    expect("no standby there", newsdesk(FOLDER, ["ship", primary, "standby", f"127.0.0.1:{free_port()}"]), (10, 'link-fault 1\n{"status":10}\n'))


def tried_two_primaries():
    """The old primary was not ended for certain: both go on, and ship says `level` of two lists that differ."""
    primary, standby = pair_of("two")
    newsdesk(FOLDER, ["batch", standby], lines_of(flash(3, "From the second machine")))
    newsdesk(FOLDER, ["batch", primary], lines_of(flash(3, "From the first machine")))
    expect("a ship to a standby that was taken over", ship_to(standby, primary), (0, "level 3\n"))
    if records(primary)[2] == records(standby)[2]:
        fail("the lists are one")
    newsdesk(FOLDER, ["batch", primary], lines_of(flash(4, "Again")))
    expect("a ship to one that has less", ship_to(standby, primary), (0, "level 4\n"))
    if records(primary)[2] == records(standby)[2] or records(primary)[3] != records(standby)[3]:
        fail("what is behind is not put behind others")
    newsdesk(FOLDER, ["batch", standby], lines_of(flash(5, "Once more")))
    expect("a ship to one that has more", ship_to(standby, primary), (11, 'no-kept 1\n{"status":11}\n'))
    served = subprocess.Popen([PROGRAM, "serve", standby, f"127.0.0.1:{free_port()}", "1"], stdout=subprocess.DEVNULL)
    time.sleep(1)
    expect("a standby that is served", newsdesk(FOLDER, ["stand-in", standby, STORE], b""), (15, '{"status":15}\n'))
    served.kill()
    served.wait()
    print("a primary that goes on beside a standby in its place: `level`, of two lists that differ")


def tried_a_queue():
    """A report on the standby's store lets what waits into the feeds: an entry of its own, and the lists part."""
    primary, standby = (os.path.join(FOLDER, name) for name in ("own1", "own2"))
    new_store(primary)
    soon = int(time.time()) + 2
    desk = [{"number": 2, "do": "add_desk", "desk": "city"}, {"number": 3, "do": "set_member", "desk": "city", "user": "admin", "member": True}]
    story = [{"number": 4, "do": "create", "desk": "city", "story": {"headline": "Budget", "body": "Out."}}, {"number": 5, "do": "lock", "item": 1, "session": "s"}]
    newsdesk(FOLDER, ["batch", primary], lines_of(*desk, *story, {"number": 6, "do": "publish", "item": 1, "session": "s", "embargo": soon}))
    expect("a ship", ship_to(standby, primary), (0, "level 6\n"))
    time.sleep(3)
    expect("check of a standby keeps nothing", entries(standby), 6)
    newsdesk(FOLDER, ["queue", standby])
    expect("a queue keeps an entry", entries(standby), 7)
    # what the primary keeps for the release has another moment then
    time.sleep(2)
    newsdesk(FOLDER, ["batch", primary], lines_of(flash(7, "Fire")))
    ship_to(standby, primary)
    if records(primary)[: len(records(standby))] == records(standby):
        fail("the lists are one")
    print("a `queue` on a standby's store: an entry of its own, and the lists part")


def tried_by_systemd():
    if shutil.which("systemd-socket-activate") is None:
        print("systemd-socket-activate is not there: not tried")
        return
    primary, standby = (os.path.join(FOLDER, name) for name in ("sys1", "sys2"))
    new_store(primary)
    port = free_port()
    words = ["systemd-socket-activate", "--accept", "--inetd", "-l", f"127.0.0.1:{port}", PROGRAM, "stand-in", "--wait", standby, STORE]
    listener = subprocess.Popen(words, start_new_session=True, stderr=subprocess.DEVNULL)
    time.sleep(1)
    for number in range(2, 6):
        newsdesk(FOLDER, ["batch", primary], lines_of(flash(number, f"Story {number}")))
        expect("a ship", newsdesk(FOLDER, ["ship", primary, "standby", f"127.0.0.1:{port}"]), (0, f"level {number}\n"))
    os.killpg(listener.pid, signal.SIGKILL)
    listener.wait()
    time.sleep(1)
    expect("what the standby holds", records(standby), records(primary))
    print("systemd-socket-activate: four ships, each level")


def main():
    tried_rows()
    tried_two_primaries()
    tried_a_queue()
    tried_by_systemd()
    take_over_again_and_again()


if __name__ == "__main__":
    if len(sys.argv) < 2:
        sys.exit(__doc__.splitlines()[0])
    PROGRAM = os.path.abspath(sys.argv[1])
    SEED = sys.argv[2] if len(sys.argv) > 2 else str(random.randrange(10**9))
    with tempfile.TemporaryDirectory(dir=sys.argv[3] if len(sys.argv) > 3 else None) as FOLDER:
        main()
