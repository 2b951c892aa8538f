#!/usr/bin/env python3
"""Random and mutated inputs over everything that newsdesk reads: hostile.py [--inputs N] [--logs N] [--seconds S] [--seed SEED] [--only KIND].

`lines` are sent through `batch`, `wires` and `items` through `ingest` and as requests, `agency-wires` and `agency-items` likewise, by the formats
that read what agencies send, `http` to `plain_server`, which serves each connection whole and byte by byte, `serve` to a server on loopback,
`frames` to `receive`, and `logs` are stores with changed bytes that `check`, `batch` and `feed` are to open. What they are made from are the
inputs of the gate's programs and examples/morning.jsonl.

No input may crash the program or keep it for more than a minute; each is answered, and what is refused is refused by name; a damaged store is
named by a place within its file, and left as it is. A finding is printed with the seed and the round that show it, and its input is saved here:
hostile-KIND-SEED-ROUND-NAME. `--only KIND --round N` with that seed does the round once more. The status is 1 where there was one.
"""
import argparse
import concurrent.futures
import itertools
import json
import os
import random
import re
import socket
import subprocess
import sys
import tempfile
import time

sys.dont_write_bytecode = True
from mutations import BINARY, TEXT, insert, mutated, place_in  # noqa: E402

TOP = os.path.dirname(os.path.dirname(os.path.abspath(__file__)))
NEWSDESK = os.environ.get("NEWSDESK", os.path.join(TOP, "crates/newsdesk/out/newsdesk"))
SERVER = os.environ.get("PLAIN_SERVER", os.path.join(TOP, "crates/plain_server/out/plain_server"))
STORE = "6ba7b810-9dad-11d1-80b4-00c04fd430c8"
LIMIT = 60
# what a server says once it listens
LISTENS = rb"\S+ newsdesk: listening at 127\.0\.0\.1:\d+: ready\n"
# what part of the inputs is of each kind
SHARES = {"lines": 0.5, "wires": 0.15, "items": 0.05, "agency-wires": 0.16, "agency-items": 0.06, "http": 0.05, "serve": 0.02, "frames": 0.01}
# how many inputs a round has
LINES, MESSAGES, LISTED, CONNECTIONS, RUNS, STORES = 4_000, 4_000, 100, 40, 20, 50
STATUSES = {200, 400, 403, 404, 409, 413, 501, 503, 507, 508}
MOST_FINDINGS = 10


class Finding(Exception):
    """What should not be, and the files that show it."""

    def __init__(self, what, **files):
        super().__init__(what)
        self.files = files


# ---- what they are made from


def read(path):
    with open(os.path.join(TOP, path), "rb") as file:
        return file.read()


def connections():
    """The connections of plain_server's table: how each is headed, and its requests."""
    data = read("crates/plain_server/stdin")
    while data:
        heading, _, rest = data.partition(b"\n")
        used, fails, length, _ = heading.split(b" ", 3)
        sent = rest[: int(length)]
        yield b"%s %s" % (used, fails), [it for it in re.split(rb"(?<![A-Z])(?=[A-Z]+ [^ \n]* HTTP/)", sent) if it]
        data = rest[int(length) + 1 :]


def control(text):
    """The text with control bytes for `^` and a letter."""
    return re.sub(rb"\^([A-Z])", lambda it: bytes([it[1][0] & 31]), text)


SESSIONS = read("crates/desk_sessions/stdin") + read("crates/newsroom_rows/stdin")
ROWS = SESSIONS.splitlines()
SCRIPTS = [[line for line in part.splitlines() if line.startswith(b"{")] for part in SESSIONS.split(b"= new\n")]
SCRIPTS = [it for it in SCRIPTS if it] + [read("examples/morning.jsonl").splitlines()]
ALL_LINES = read("crates/lines_table/stdin").splitlines() + [line for script in SCRIPTS for line in script]
TABLE = list(connections())
REQUESTS = [it for _, requests in TABLE for it in requests]
ITEMS = [line.split(b" ", 2)[2] for line in ROWS if line.startswith(b"item ")]
ITEMS += [it.partition(b"\r\n\r\n")[2] for it in REQUESTS if it.startswith(b"POST /ingest/") and b'"' in it]
WIRES = [control(line.split(b" ", 2)[2]) for line in ROWS if line.startswith(b"wire ")]
WIRES += [b"\x01NWS%04d %d n %d FIRST\r\nfire-%d\r\n\x02Fire %d\r\n%s\r\n\x032026-11-29T06:07:08Z\x04" % (n, n % 9 + 1, n % 7, n, n, b"Smoke. " * (n * n)) for n in range(12)]
AGENCY_ROWS = read("crates/agency_rows/stdin").splitlines()
AGENCY_WIRES = [control(re.sub(rb"\^x(..)", lambda it: bytes.fromhex(it[1].decode()), line)) for line in AGENCY_ROWS if line.startswith(b"^")]
AGENCY_ITEMS = [line for line in AGENCY_ROWS if line and not line.startswith((b"#", b"^"))]
ALWAYS = {"filter": "fires", "days": ["mon", "tue", "wed", "thu", "fri", "sat", "sun"], "from": 0, "to": 86400, "zone": "+01:00"}
SETUP = (
    {"do": "add_user", "user": "operator", "privileges": ["stop"]},
    {"do": "add_desk", "desk": "city"},
    {"do": "add_condition", "condition": "fire", "field": "slugline", "op": "like", "values": ["fire"]},
    {"do": "add_filter", "filter": "fires", "statements": [{"conditions": ["fire"]}]},
    {"do": "add_scheme", "scheme": "wires", "rules": [{**ALWAYS, "fetch": {"desk": "city", "stage": "incoming"}, "publish": True, "exit": True}]},
    {"do": "add_provider", "provider": "wire", "scheme": "wires"},
    {"do": "add_provider", "provider": "plain"},
    {"do": "add_subscriber", "subscriber": "alpha", "format": "ninjs", "products": ["all"]},
    {"do": "add_subscriber", "subscriber": "beta", "format": "7901", "products": ["all"]},
)


# ---- runs of the program


def are_reasons(errors):
    """Whether a run may have said this on standard error: what it noticed of its store, why it ended so, and the form of its command."""
    return all(it.startswith((b"newsdesk: ", b"usage: newsdesk ")) and it.endswith(b"\n") for it in errors.splitlines(keepends=True))


def run(program, words, folder, given=b""):
    """The status and the output of a run that ended as one may end."""
    name = words[0] if words else os.path.basename(program)
    try:
        done = subprocess.run([program, *words], cwd=folder, input=given, capture_output=True, timeout=LIMIT)
    except subprocess.TimeoutExpired:
        raise Finding(f"{name} had not ended after {LIMIT} seconds", input=given) from None
    if done.returncode not in range(17):
        raise Finding(f"{name} ended with status {done.returncode}", input=given, output=done.stdout, errors=done.stderr)
    if not are_reasons(done.stderr):
        raise Finding(f"{name} wrote to standard error", input=given, errors=done.stderr)
    return done.returncode, done.stdout


def newsdesk(words, folder, given=b""):
    """The status and the lines of a run of newsdesk. A status other than 0 and 5 has its line, which is the last."""
    status, output = run(NEWSDESK, words, folder, given)
    if output and not output.endswith(b"\n"):
        raise Finding(f"the last line of {words[0]} is not ended", input=given, output=output)
    lines = output.splitlines()
    if status not in (0, 5) and (not lines or object_of(lines[-1]).get("status") != status):
        raise Finding(f"{words[0]} ended with status {status} and not with its line", input=given, output=output)
    return status, lines


def object_of(line):
    try:
        value = json.loads(line)
    except ValueError:
        return {}
    return value if isinstance(value, dict) else {}


def counted(answers, given, accepted):
    """How many answers are of these words, and how many of others. Each is an object with its word."""
    try:
        values = json.loads(b"[" + b",".join(answers) + b"]")
    except ValueError:
        values = [object_of(line) for line in answers]
    for line, value in itertools.zip_longest(answers, values):
        if not isinstance(value, dict) or not isinstance(value.get("answer"), str):
            raise Finding(f"an answer is no object with its word: {line!r}", input=given, output=b"\n".join(answers))
    good = sum(value["answer"] in accepted for value in values)
    return len(values), good, len(values) - good


def write_store(folder, store):
    for name, data in zip(("store", "store.side"), store):
        with open(os.path.join(folder, name), "wb") as file:
            file.write(data)


def read_store(folder):
    found = []
    for name in ("store", "store.side"):
        with open(os.path.join(folder, name), "rb") as file:
            found.append(file.read())
    return tuple(found)


def stored(folder, lines, store=None):
    """The two files behind these lines, from a new store on, or from one that is given."""
    write_store(folder, store or (b"", b""))
    if store is None:
        newsdesk(["init", "store", STORE], folder)
    status, _ = newsdesk(["batch", "store"], folder, b"".join(line + b"\n" for line in lines))
    if status:
        raise Finding(f"a store to begin with was not made: status {status}")
    return read_store(folder)


def packed(folder, store):
    write_store(folder, store)
    newsdesk(["pack", "store"], folder)
    return read_store(folder)


class House:
    """A worker's own folder, and the stores that its rounds begin with."""

    def __init__(self, folder):
        self.folder = tempfile.mkdtemp(dir=folder)
        self.new = stored(self.folder, [])
        setup = [json.dumps({"by": "admin", "number": place, **what}).encode() for place, what in enumerate(SETUP, 1)]
        self.ready = stored(self.folder, setup)
        morning, day = SCRIPTS[-1], max(SCRIPTS[:-1], key=len)
        some, whole_day = stored(self.folder, morning[:20]), stored(self.folder, day)
        both = packed(self.folder, stored(self.folder, morning))
        self.stores = [self.new, self.ready, some, whole_day, packed(self.folder, whole_day), both, stored(self.folder, setup, both)]
        self.stores.append(stored(self.folder, morning[20:40], packed(self.folder, some)))


# ---- lines


def lines(chance, house):
    """A session in its order, and before each of its lines mutated ones: so that they meet the newsroom in the session's state."""
    script, sent = chance.choice(SCRIPTS), []
    for line in script:
        for _ in range(max(1, LINES // len(script))):
            base = line if chance.random() < 0.7 else chance.choice(ALL_LINES)
            sent.append(mutated(chance, base, chance.choice(ALL_LINES)).replace(b"\n", b" "))
        sent.append(line)
    if chance.random() < 0.01:
        sent.append(b'{"ask":"check","a":"%s"}' % (b"a" * (4_194_304 - 22 + chance.randrange(4))))
    sent = [line for line in sent if line.removesuffix(b"\r")]
    given = b"\n".join(sent) + (b"" if chance.random() < 0.2 else b"\n")
    write_store(house.folder, house.new)
    status, answers = newsdesk(["batch", "store"], house.folder, given)
    if status or len(answers) != len(sent):
        raise Finding(f"{len(sent)} lines had {len(answers)} answers, and status {status}", input=given, output=b"\n".join(answers))
    return counted(answers, given, ("done", "repeat", "feed", "item", "queue", "check"))


# ---- wires and items


def wires(chance, house):
    """A wire of mutated messages."""
    return ingested_wire(chance, house, "7901", WIRES)


def agency_wires(chance, house):
    """A wire of mutated messages as agencies send them."""
    return ingested_wire(chance, house, "7901-any", AGENCY_WIRES + WIRES)


def ingested_wire(chance, house, form, samples):
    sent = [chance.choice(samples) for _ in range(MESSAGES)]
    sent = [mutated(chance, it, chance.choice(samples), (*TEXT, insert)) if chance.random() < 0.8 else it for it in sent]
    given = b"".join(sent)
    write_store(house.folder, house.ready)
    status, answers = newsdesk(["ingest", "store", form, chance.choice(("wire", "plain"))], house.folder, given)
    if status:
        raise Finding(f"a wire ended with status {status}", input=given)
    _, accepted, refused = counted(answers, given, ("done",))
    return len(sent), accepted, refused


def items(chance, house):
    """Mutated ninjs items: many of them as requests, and a few through `ingest`, which takes one a run."""
    total = requested_items(chance, house, b"ninjs", ITEMS)
    for _ in range(RUNS // 5):
        item = mutated_item(chance, ITEMS)
        write_store(house.folder, house.ready)
        status, answers = newsdesk(["ingest", "store", "ninjs", chance.choice(("wire", "plain"))], house.folder, item)
        if status or len(answers) != 1:
            raise Finding(f"an item had {len(answers)} answers, and status {status}", input=item)
        total = [a + b for a, b in zip(total, counted(answers, item, ("done",)))]
    return total


def agency_items(chance, house):
    """Mutated items as agencies send them: many as requests, and lists of them through `ingest`."""
    samples = AGENCY_ITEMS + ITEMS
    total = requested_items(chance, house, b"ninjs-any", samples)
    for _ in range(RUNS):
        sent = [it for it in (mutated_item(chance, samples) for _ in range(LISTED)) if is_item(it)]
        given = b"[%s]" % b",".join(sent)
        write_store(house.folder, house.ready)
        status, answers = newsdesk(["ingest", "store", "ninjs-any", chance.choice(("wire", "plain"))], house.folder, given)
        # what one reader of JSON takes in and the other does not makes the list no JSON
        if status or len(answers) not in (len(sent), 1):
            raise Finding(f"{len(sent)} items had {len(answers)} answers, and status {status}", input=given)
        _, accepted, _ = counted(answers, given, ("done",))
        total = [a + b for a, b in zip(total, (len(sent), accepted, len(sent) - accepted))]
    return total


def requested_items(chance, house, form, samples):
    begin = request(b"/requests", b'{"number":1,"do":"add_provider","provider":"wire"}')
    target = b"/ingest/wire/" + form
    sent = [[begin, *(request(target, mutated_item(chance, samples)) for _ in range(60))] for _ in range(CONNECTIONS)]
    return counts_of(served(house, [(b"65 0", requests) for requests in sent]))


def mutated_item(chance, samples):
    return mutated(chance, chance.choice(samples), chance.choice(samples)) if chance.random() < 0.9 else chance.choice(samples)


def is_item(data):
    """Whether these bytes are one JSON value that may stand in a list of items."""
    try:
        json.loads(data.decode())
    except (ValueError, RecursionError):
        return False
    return not data.startswith(b"\xef\xbb\xbf")


# ---- HTTP


def request(target, body):
    return b"POST %s HTTP/1.1\r\nX-User: admin\r\nContent-Length: %d\r\n\r\n%s" % (target, len(body), body)


def mutated_request(chance, whole_request):
    """A request with another body of the length that its head says, or with other bytes anywhere."""
    draw, other = chance.random(), chance.choice(REQUESTS)
    if draw < 0.3:
        return whole_request
    head, behind, body = whole_request.partition(b"\r\n\r\n")
    if draw < 0.85 and body:
        body = mutated(chance, body, other)
        return re.sub(rb"(?i)(content-length: *)\d+", lambda it: it[1] + b"%d" % len(body), head) + behind + body
    return mutated(chance, whole_request, other)


def mutated_connection(chance):
    heading, requests = chance.choice(TABLE)
    requests = list(requests[: 1 + int(chance.random() * 64)])
    for _ in range(int(chance.random() * 12)):
        requests.insert(place_in(chance, requests), chance.choice(REQUESTS))
    return heading, [mutated_request(chance, it) for it in requests]


def responses_in(data, given):
    """The responses that these bytes are, one behind the other: the status and the body of each."""
    found, at = [], 0
    while at < len(data):
        head = re.compile(rb"HTTP/1\.1 (\d{3}) [^\r\n]*\r\n((?:[^\r\n]+\r\n)*)\r\n").match(data, at)
        length = re.search(rb"(?im)^content-length: (\d+)\r$", head[2]) if head else None
        if not length or head.end() + int(length[1]) > len(data) or int(head[1]) not in STATUSES:
            raise Finding(f"what is written is no response, from byte {at} on", input=given, output=data)
        at = head.end() + int(length[1])
        body = data[head.end() : at]
        if b"application/json" in head[2] and body and "answer" not in object_of(body):
            raise Finding(f"a body is no answer: {body[:200]!r}", input=given, output=data)
        found.append(int(head[1]))
    return found


def served(house, sent):
    """The statuses of the responses to connections, each with its heading and requests, by plain_server."""
    table = b"".join(b"%s %d case %d\n%s\n" % (heading, len(data), place, data) for place, (heading, data) in enumerate((it[0], b"".join(it[1])) for it in sent))
    status, output = run(SERVER, [], house.folder, table)
    if status:
        raise Finding(f"plain_server ended with status {status}", input=table, output=output)
    parts = re.split(rb"(?:\A|\n)= case \d+\n", output)[1:]
    if len(parts) != len(sent):
        raise Finding(f"{len(sent)} connections had {len(parts)} answers", input=table, output=output)
    for part in parts:
        written, _, ended = part.rpartition(b"\n- ")
        if b"\n" in ended.strip() or ended.startswith(b"differs"):
            raise Finding(f"a connection is answered otherwise byte by byte: {ended[:200]!r}", input=table, output=output)
        yield from responses_in(written, table)


def counts_of(statuses):
    statuses = list(statuses)
    good = statuses.count(200)
    return len(statuses), good, len(statuses) - good


def http(chance, house):
    return counts_of(served(house, [mutated_connection(chance) for _ in range(CONNECTIONS)]))


def ask(port, data, leaves=False):
    """What a server answers to these bytes, on a connection that ends behind them; or nothing where its client leaves at once."""
    try:
        with socket.create_connection(("127.0.0.1", port), timeout=LIMIT) as peer:
            peer.sendall(data)
            if leaves:
                return b""
            peer.shutdown(socket.SHUT_WR)
            got = b""
            while more := peer.recv(65536):
                got += more
            return got
    except TimeoutError:
        raise Finding(f"serve had not answered after {LIMIT} seconds", input=data) from None
    except OSError:
        # the server ends a connection that is in fault with bytes unread, and one behind a stop
        return b""


def serve(chance, house):
    """Mutated connections to a running server, one behind the other, until it is asked to stop by them or at the end."""
    write_store(house.folder, house.ready)
    with socket.create_server(("127.0.0.1", 0)) as free:
        port = free.getsockname()[1]
    words = [NEWSDESK, "serve", "store", f"127.0.0.1:{port}", "1"]
    sent, statuses = b"", []
    with subprocess.Popen(words, cwd=house.folder, stdout=subprocess.PIPE, stderr=subprocess.PIPE) as server:
        try:
            ready = time.monotonic() + LIMIT
            while not ask(port, b"GET /nothing HTTP/1.1\r\n\r\n") and server.poll() is None:
                if time.monotonic() > ready:
                    raise Finding(f"serve was not ready after {LIMIT} seconds")
                time.sleep(0.01)
            for _ in range(CONNECTIONS):
                sent = b"".join(mutated_connection(chance)[1])
                statuses += responses_in(ask(port, sent, chance.random() < 0.05), sent)
                if server.poll() is not None:
                    break
            stop = b'{"number":1,"do":"stop"}'
            ask(port, b"POST /requests HTTP/1.1\r\nX-User: operator\r\nContent-Length: %d\r\n\r\n%s" % (len(stop), stop))
            output, errors = server.communicate(timeout=LIMIT)
        except subprocess.TimeoutExpired:
            raise Finding("serve did not end behind a stop", input=sent) from None
        finally:
            server.kill()
    # one line: that it listens
    if server.returncode or not re.fullmatch(LISTENS, errors) or not output.startswith(b"entries "):
        raise Finding(f"serve ended with status {server.returncode}: {errors[:200]!r}", input=sent, output=output)
    if newsdesk(["check", "store"], house.folder)[0]:
        raise Finding("the store behind serve does not open", input=sent)
    return counts_of(statuses)


# ---- frames


FRAME = re.compile(rb"FRAME ([a-z0-9_-]{1,32}) ([1-9]\d{0,9}) (0|[1-9]\d{0,6})\n")


def receipts_of(data, held):
    """The receipts that a receiver of alpha with so many frames is to give, and whether all of the data is frames."""
    found, at = [], 0
    while heading := FRAME.match(data, at):
        length = int(heading[3])
        if int(heading[2]) > 4_294_967_295 or length > 4_194_240 or heading.end() + length > len(data):
            return found, False
        held += heading[1] == b"alpha" and int(heading[2]) == held + 1
        found.append(b"RECEIPT alpha %d" % held)
        at = heading.end() + length
    return found, at == len(data)


def frames(chance, house):
    """Runs of frames, of which the last are mutated, into one receiver's file."""
    held = total = accepted = 0
    for name in ("held", "held.side"):
        open(os.path.join(house.folder, name), "wb").close()
    for _ in range(RUNS):
        sent = []
        for _ in range(1 + int(chance.random() * 60)):
            body = chance.choice(ITEMS) if chance.random() < 0.2 else chance.randbytes(int(chance.random() * 40))
            sent.append(b"FRAME %s %d %d\n%s" % (b"alpha" if chance.random() < 0.9 else b"beta", max(1, held + len(sent) + chance.randint(-2, 2)), len(body), body))
        given = b"".join(sent[:-2]) + mutated(chance, b"".join(sent[-2:]), chance.choice(ITEMS))
        wanted, is_whole = receipts_of(given, held)
        status, lines = newsdesk(["receive", "held", "alpha"], house.folder, given)
        receipts = lines if status == 0 else lines[:-1]
        if receipts != wanted or (status != 0 if is_whole else status != 13):
            raise Finding(f"{len(wanted)} receipts were wanted, and there were {len(receipts)}, and status {status}", input=given, output=b"\n".join(lines))
        if status == 13 and not 0 <= object_of(lines[-1])["at"] <= len(given):
            raise Finding(f"a place beyond the input: {lines[-1]!r}", input=given)
        before, held = held, int(wanted[-1].split()[-1]) if wanted else held
        total, accepted = total + len(wanted) + (status == 13), accepted + held - before
    return total, accepted, total - accepted


# ---- logs


def logs(chance, house):
    """Stores of which bytes were changed, opened by `check`, and now and then by `batch`, `feed` and others."""
    refused = 0
    for _ in range(STORES):
        store, other = list(chance.choice(house.stores)), chance.choice(house.stores)
        for place in chance.choice(((0,), (0,), (0, 1), (1,) if store[1] else (0,))):
            store[place] = mutated(chance, store[place], chance.choice(other), BINARY)
        write_store(house.folder, store)
        status = opened(["check", "store"], house, store)
        if status != 6 and chance.random() < 0.1:
            for words in (["batch", "store"], ["feed", "store", "alpha", "0"], ["queue", "store"], ["pack", "store"], ["serve", "store", "127.0.0.1:0", "1"]):
                if status == 0 and words[0] != "batch":
                    break
                opens = opened(words, house, store, b'{"ask":"check"}\n')
                if opens != status:
                    raise Finding(f"check ended with status {status}, and {words[0]} with {opens}", log=store[0], side=store[1])
        refused += status != 0
    return STORES, STORES - refused, refused


def opened(words, house, store, given=b""):
    """The status of a command on a store. Where it refuses it, and behind a `check`, both files are as they were."""
    try:
        status, lines = newsdesk(words, house.folder, given)
    except Finding as finding:
        raise Finding(str(finding), log=store[0], side=store[1], **finding.files) from None
    # A base that only a command that may write puts right.
    if words[0] == "check" and status == 6 and read_store(house.folder) == tuple(store):
        return status
    if status not in (0, 3, 7) or status == 0 and "answer" not in object_of(lines[-1]):
        raise Finding(f"{words[0]} ended with status {status}: {lines}", log=store[0], side=store[1])
    if status == 7:
        told = object_of(lines[-1])
        file = store[bool(told.get("side"))]
        at, found = told["at"], told["found"]
        if not 0 <= at <= len(file) or found is not None and file[at : at + 1] != bytes([found]):
            raise Finding(f"{words[0]} names a place that is not as it says: {lines[-1]!r}", log=store[0], side=store[1])
    if (status or words[0] == "check") and read_store(house.folder) != tuple(store):
        raise Finding(f"{words[0]} with status {status} has changed a file", log=store[0], side=store[1])
    return status


# ---- all rounds


KINDS = {"lines": lines, "wires": wires, "items": items, "agency-wires": agency_wires, "agency-items": agency_items}
KINDS |= {"http": http, "serve": serve, "frames": frames, "logs": logs}
HOUSE = None


def begin(folder):
    global HOUSE
    HOUSE = House(folder)


def round_of(kind, seed, place):
    """What a round came to: inputs, accepted and refused ones, or its finding."""
    try:
        return *KINDS[kind](random.Random(f"{seed} {kind} {place}"), HOUSE), None, None
    except Finding as finding:
        return 0, 0, 0, f"{kind}, seed {seed}, round {place}: {finding}", {f"hostile-{kind}-{seed}-{place}-{name}": data for name, data in finding.files.items()}


def do_kind(pool, jobs, kind, seed, target, seconds):
    """Does rounds of a kind until there were enough inputs, or the time is over. Prints its row, and gives the number of findings."""
    started, total, findings = time.monotonic(), [0, 0, 0], 0
    places, waiting = itertools.count(), set()
    while waiting or total[0] < target and time.monotonic() < started + seconds and findings < MOST_FINDINGS:
        while len(waiting) < 2 * jobs and total[0] < target and time.monotonic() < started + seconds and findings < MOST_FINDINGS:
            waiting.add(pool.submit(round_of, kind, seed, next(places)))
        done, waiting = concurrent.futures.wait(waiting, return_when=concurrent.futures.FIRST_COMPLETED)
        for *counts, finding, files in (it.result() for it in done):
            total = [a + b for a, b in zip(total, counts)]
            if finding:
                findings += 1
                tell(finding, files)
    took = time.monotonic() - started
    print(f"| {kind} | {total[0]:,} | {total[1]:,} | {total[2]:,} | {took:.1f} | {total[0] / took:,.0f} |", flush=True)
    return findings


def tell(finding, files):
    print(f"FOUND {finding}; saved: {' '.join(files)}", file=sys.stderr, flush=True)
    for name, data in files.items():
        with open(name, "wb") as file:
            file.write(data)


def main():
    words = argparse.ArgumentParser(description=__doc__.partition("\n")[0])
    words.add_argument("--inputs", type=int, default=10_000_000, help="how many inputs beside the logs (%(default)s)")
    words.add_argument("--logs", type=int, default=100_000, help="how many changed stores (%(default)s)")
    words.add_argument("--seconds", type=float, default=3_600, help="when to end at the latest (%(default)s)")
    words.add_argument("--seed", default=str(random.SystemRandom().randrange(10**6)), help="a number or a word; another one each time without it")
    words.add_argument("--only", choices=KINDS, help="one kind alone, of which there are all inputs")
    words.add_argument("--round", type=int, help="one round of this kind alone")
    words.add_argument("--jobs", type=int, default=os.cpu_count(), help="how many at a time (%(default)s)")
    given = words.parse_args()
    for program in (NEWSDESK, SERVER):
        if not os.access(program, os.X_OK):
            sys.exit(f"{program} is not built: `rt run -- --version` in its crate's folder does it")
    print(f"seed {given.seed}", flush=True)
    with tempfile.TemporaryDirectory(dir="/dev/shm") as folder:
        if given.round is not None:
            begin(folder)
            *counts, finding, files = round_of(given.only, given.seed, given.round)
            print(f"inputs, accepted, refused: {counts}")
            if finding:
                tell(finding, files)
            sys.exit(bool(finding))
        sys.exit(bool(do_all(given, folder)))


def do_all(given, folder):
    print("| kind | inputs | accepted | refused | seconds | inputs a second |\n|---|---|---|---|---|---|", flush=True)
    ends, findings = time.monotonic() + given.seconds, 0
    targets = {**{kind: int(share * given.inputs) for kind, share in SHARES.items()}, "logs": given.logs}
    if given.only:
        targets = {given.only: given.logs if given.only == "logs" else given.inputs}
    with concurrent.futures.ProcessPoolExecutor(given.jobs, initializer=begin, initargs=(folder,)) as pool:
        for place, (kind, target) in enumerate(targets.items()):
            # each kind that is still to come has the same part of the time that is left
            seconds = (ends - time.monotonic()) / (len(targets) - place)
            findings += do_kind(pool, given.jobs, kind, given.seed, target, seconds)
    return findings


if __name__ == "__main__":
    main()
