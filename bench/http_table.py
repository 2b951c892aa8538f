#!/usr/bin/env python3
"""A table of HTTP requests with what each is answered, and what sends it through a real socket.

    bench/http_table.py            # each connection by curl, or as bytes where curl cannot send it, to `plain_server` on a socket
    bench/http_table.py --write    # writes the table as crates/plain_server/stdin and stdout, which the gate runs

The connections whose memory runs out again and again are the gate's alone.

What is expected is worked by hand from the rules of the newsroom, in the order of its statuses, and written below; the JSON, the frames and
the lengths are made here, by Python's own library. A connection is served by a newsroom of its own without an entry, whose clock shows 1000
at the first request and a second more at each.
"""
import copy
import json
import os
import socket
import subprocess
import sys
import threading
import uuid

TOP = os.path.dirname(os.path.dirname(os.path.abspath(__file__)))
SERVER = os.path.join(TOP, "crates/plain_server/out/plain_server")
GATE = os.path.join(TOP, "crates/plain_server")
STORE = uuid.UUID("6ba7b810-9dad-11d1-80b4-00c04fd430c8")
EMPTY_LOG = 65
LIMIT = 1073737728
# what a stop may use: all but the 14 bytes of a halt's record
STOP_LIMIT = 1073741824 - 14
JSON, OCTETS, METRICS = "application/json", "application/octet-stream", "text/plain; version=0.0.4"


# ---- requests and responses


class Ask:
    """A request, and what it is answered: a status, a body and its media type; or no status, where it is not answered."""

    def __init__(self, line, user, wanted, send=None, headers=(), version="1.1"):
        self.method, self.target = line.split(" ", 1)
        self.send = send if send is None or isinstance(send, str) else packed(send)
        self.headers = ([("X-User", user)] if user is not None else []) + list(headers)
        self.version = version
        self.status, self.body, self.media = wanted

    def bytes(self):
        headers = list(self.headers)
        if self.send is not None and not any(name.lower() in ("content-length", "transfer-encoding") for name, _ in headers):
            headers.append(("Content-Length", str(len(self.send.encode()))))
        lines = [f"{self.method} {self.target} HTTP/{self.version}"] + [f"{name}: {value}" for name, value in headers]
        return ("".join(line + "\r\n" for line in lines) + "\r\n" + (self.send or "")).encode()

    def curl(self):
        """The words of curl that send it. It sends a header without a value by a semicolon."""
        words = ["-q", "-s", "-i", "-X", self.method, "--path-as-is", "--request-target", self.target, "--max-time", "20", "-H", "Expect:"]
        words += ["--http1.0"] if self.version == "1.0" else []
        for name, value in self.headers:
            words += ["-H", f"{name}: {value}" if value else f"{name};"]
        return words + (["--data-binary", self.send] if self.send is not None else [])

    def answer(self):
        return b"" if self.status is None else response(self.status, self.body, self.media)


class Raw:
    """Bytes that are sent as they are, and how they are answered."""

    def __init__(self, sent, *wanted):
        self.sent = sent if isinstance(sent, bytes) else sent.encode()
        self.wanted = wanted

    def bytes(self):
        return self.sent

    def answer(self):
        return b"".join(response(*one) for one in self.wanted)


class Connection:
    def __init__(self, title, ended, *asks, used=EMPTY_LOG, failing=0):
        self.title, self.ended, self.asks, self.used, self.failing = title, ended, asks, used, failing

    def bytes(self):
        return b"".join(ask.bytes() for ask in self.asks)

    def answer(self):
        return b"".join(ask.answer() for ask in self.asks)

    def is_raw(self):
        return any(isinstance(ask, Raw) for ask in self.asks)


def response(status, body=b"", media=JSON):
    body = body.encode() if isinstance(body, str) else body
    return f"HTTP/1.1 {status} \r\nContent-Type: {media}\r\nContent-Length: {len(body)}\r\n\r\n".encode() + body


def packed(value):
    return json.dumps(value, separators=(",", ":"))


def keyed(**members):
    """An answer: compact, its keys in byte order."""
    return json.dumps(members, separators=(",", ":"), sort_keys=True)


# ---- answers


def done(entry=0, item=0, publication=0, release=0, word="done"):
    members = {name: value for name, value in (("entry", entry), ("item", item), ("publication", publication)) if value}
    return 200, keyed(answer=word, **members, **({"release": release} if publication else {})), JSON


def told(word, **members):
    return 200, keyed(answer=word, **members), JSON


def feed(subscriber, length, *rows):
    names = ("k", "publication", "item", "version", "kind", "release")
    return told("feed", subscriber=subscriber, length=length, entries=[dict(sorted(zip(names, row))) for row in rows])


def queue(*rows):
    names = ("subscriber", "length", "acked", "tries", "state")
    return told("queue", feeds=[dict(sorted(zip(names, row))) for row in rows])


def whole(story):
    """A story with all its properties."""
    empty = {name: "" for name in ("slugline", "headline", "byline", "language", "category", "body", "copyright")}
    return dict(sorted({"kind": "text", "urgency": 0, "html": False, **empty, **story}.items()))


def item(state, story, version, number=1, **more):
    return told("item", item=number, state=state, story=whole(story), version=version, **more)


DENIALS = (
    "OutOfTurn NumberUsed UnknownUser NoPrivilege UnknownThing NameTaken NotMember WrongState NotLocked LockedBy NotReleased "
    "AlreadyReleased BothTimes PastMoment ReceiptAhead NotPaused FilterOrder BadOperand Limit"
).split()


def denied(denial, **carried):
    number = DENIALS.index(denial) + 1
    status = 403 if number in (3, 4, 7) else 404 if number == 5 else 409
    return status, keyed(answer="denied", denial=denial, number=number, **carried), JSON


def unknown(thing):
    return denied("UnknownThing", thing=thing)


def bad(name):
    return 400, keyed(answer="bad", property=name), JSON


def fault(what, **property):
    return 400, keyed(answer="fault", what=what, **property), JSON


def no_readers(front):
    return 409, keyed(answer="no-readers", front=front), JSON


def found(total, *rows):
    names = ("number", "item", "version", "act", "release")
    return told("archive", total=total, rows=[dict(sorted(zip(names, row))) for row in rows])


def bad_query(at):
    return 400, keyed(answer="bad-query", at=at), JSON


def publication(number, story, release):
    return told("publication", act="first", item=number, release=release, story=whole(story), version=1)


def contents(associations, *rows):
    """What a publication holds: the items of its roles, and a row for each member."""
    names = ("depth", "item", "publication", "role")
    named = {role: {"uri": "urn:uuid:" + str(uuid.uuid5(STORE, f"item:{item}"))} for role, item in associations.items()}
    return told("contents", associations=named, rows=[dict(zip(names, row)) for row in rows])


def bare(status):
    return status, "", JSON


NOT_ANSWERED = (None, "", JSON)


def frame(subscriber, k, payload):
    payload = payload.encode("latin-1") if isinstance(payload, str) else payload
    return 200, f"FRAME {subscriber} {k} {len(payload)}\n".encode() + payload, OCTETS


# ---- requests


def post(by, number, do, wanted, /, **fields):
    return Ask("POST /requests", by, wanted, {"number": number, "do": do, **fields})


def get(target, user, wanted, **more):
    return Ask("GET " + target, user, wanted, **more)


def receipt(subscriber, user, n, wanted):
    return Ask(f"POST /feeds/{subscriber}/receipts", user, wanted, {"n": n})


def ingest(provider, user, value, wanted):
    return Ask(f"POST /ingest/{provider}/ninjs", user, wanted, value)


def wire(provider, format, user, value, wanted):
    return Ask(f"POST /ingest/{provider}/{format}", user, wanted, value)


def rows(*told, status=200):
    """The rows of a wire: the bodies of these answers."""
    return status, '{"answer":"wire","rows":[' + ",".join(body for _, body, _ in told) + "]}", JSON


def fault_at(at, what):
    """The line of a fault of a wire."""
    return 200, keyed(answer="fault", at=at, what=what), JSON


def package(user, number, members, wanted, /, **story):
    members = [{"role": role, "item": item} for role, item in members.items()]
    return Ask("POST /packages", user, wanted, {"number": number, **story, "members": members})


def archive(user, page, query, wanted):
    return Ask("POST /archive", user, wanted, {"page": page, "query": query})


def city(user="admin", number=1, wanted=None):
    return post(user, number, "add_desk", wanted or done(number), desk="city")


FIRE = {"headline": "Fire", "slugline": "fire", "language": "en", "urgency": 3, "body": "Smoke."}
WIRE = {"uri": "http://x.example/1", "type": "text", "headline": "Fire", "body_text": "Smoke."}
URI = "urn:uuid:" + str(uuid.uuid5(STORE, "item:1"))

# ---- the table

ROW = 'POST /requests HTTP/1.1\r\nHost: n\r\nX-User: admin\r\n{}\r\n\r\n{{"number":1,"do":"add_desk","desk":"city"}}'

WORKED = [
    Connection("the worked row: a desk is added", "Closed", Raw(ROW.format("Content-Length: 42"), done(1))),
    Connection("the worked row: the body comes in a coding", "Chunked", Raw(ROW.format("Transfer-Encoding: chunked"), bare(501))),
    Connection(
        "nothing is answered behind a stop", "Stopped { place: 1 }", post("admin", 1, "stop", done(1)), get("/queue", "admin", NOT_ANSWERED)
    ),
]

USERS = Connection(
    "who may ask what",
    "Closed",
    post("admin", 1, "add_user", done(1), user="ana", privileges=["write"]),
    post("admin", 2, "add_user", done(2), user="ben", privileges=["subscribers", "ingest"]),
    city(number=3),
    # what was kept is answered again, and uses no number
    city(number=3, wanted=done(3, word="repeat")),
    post("admin", 3, "add_desk", denied("NumberUsed", kept=3), desk="town"),
    post("admin", 9, "add_desk", denied("OutOfTurn", expected=4), desk="town"),
    post("admin", 0, "add_desk", denied("OutOfTurn", expected=4), desk="town"),
    # 403 by the denials that are about the caller
    post("zoe", 1, "add_desk", denied("UnknownUser"), desk="town"),
    post("zoe", 2, "add_desk", denied("OutOfTurn", expected=1), desk="town"),
    post("ana", 1, "add_desk", denied("NoPrivilege", privilege="desks"), desk="town"),
    post("ana", 1, "stop", denied("NoPrivilege", privilege="stop")),
    post("ana", 1, "create", denied("NotMember", desk="city"), desk="city", story={}),
    post("ana", 1, "create", unknown("desk"), desk="town", story={}),
    post("admin", 4, "add_desk", denied("NameTaken"), desk="city"),
    post("admin", 4, "add_stage", unknown("desk"), desk="town", stage="copy"),
    post("admin", 4, "add_condition", denied("BadOperand"), condition="c", field="urgency", op="eq", values=["x"]),
    # a question is for users, and for no one without a name
    get("/queue", "ana", queue()),
    get("/queue", "zoe", bare(403)),
    get("/items/1", "zoe", bare(403)),
    get("/queue", None, bare(400)),
    get("/queue", "Ana", bare(400)),
    get("/queue", "", bare(400)),
    get("/queue", "a" * 33, bare(400)),
    get("/queue", "ana", bare(400), headers=[("X-User", "ana")]),
    get("/queue", "ana", bare(400), headers=[("x-user", "zoe")]),
    get("/queue", None, queue(), headers=[("x-USER", " ana ")]),
    # a feed is for its subscriber, and for users with the privilege; the caller is asked before the thing
    get("/feeds/alpha/after/0", "ana", bare(403)),
    get("/feeds/alpha/after/0", "ben", unknown("subscriber")),
    get("/feeds/zoe/after/0", "zoe", unknown("subscriber")),
    get("/feeds/alpha/frames/1", "zoe", bare(403)),
    get("/feeds/zoe/frames/1", "zoe", unknown("subscriber")),
    receipt("zoe", "zoe", 0, unknown("subscriber")),
    receipt("alpha", "beta", 0, bare(403)),
    receipt("alpha", "admin", 0, bare(403)),
    ingest("wire", "ana", WIRE, bare(403)),
    ingest("wire", "zoe", WIRE, bare(403)),
    ingest("wire", "ben", WIRE, unknown("provider")),
)

TARGETS = Connection(
    "targets that are odd",
    "Closed",
    get("/nothing", None, bare(404)),
    # no route stands before no name
    get("/nothing", "Ana", bare(404)),
    get("/requests", "admin", bare(404)),
    Ask("POST /queue", "admin", bare(404)),
    Ask("DELETE /items/1", "admin", bare(404)),
    Ask("PUT /requests", "admin", bare(404), "{}"),
    Ask("OPTIONS *", "admin", bare(404)),
    get("/queue?", "admin", bare(404)),
    get("/queue/", "admin", bare(404)),
    get("//queue", "admin", bare(404)),
    get("/Queue", "admin", bare(404)),
    get("/q%75eue", "admin", bare(404)),
    get("http://n/queue", "admin", bare(404)),
    get("/items/", "admin", bare(404)),
    get("/items/1/", "admin", bare(404)),
    get("/feeds//after/0", "admin", bare(404)),
    get("/feeds/alpha/after", "admin", bare(404)),
    get("/feeds/alpha/after/0/1", "admin", bare(404)),
    get("/../queue", "admin", bare(404)),
    # a number of the path
    get("/items/01", "admin", bare(400)),
    get("/items/-1", "admin", bare(400)),
    get("/items/+1", "admin", bare(400)),
    get("/items/%31", "admin", bare(400)),
    get("/items/1?", "admin", bare(400)),
    get("/items/{item}", "admin", bare(400)),
    get("/items/4294967296", "admin", bare(400)),
    get("/items/4294967295", "admin", unknown("item")),
    get("/items/0", "admin", unknown("item")),
    get("/items/9", "admin", unknown("item")),
    get("/feeds/alpha/after/99999999999", "admin", bare(400)),
    get("/feeds/alpha/frames/x", "admin", bare(400)),
    # a name of the path
    get("/feeds/Alpha/after/0", "admin", bare(400)),
    get("/feeds/a.b/frames/1", "admin", bare(400)),
    get("/feeds/" + "a" * 33 + "/after/0", "admin", bare(400)),
    get("/feeds/" + "a" * 32 + "/after/0", "admin", unknown("subscriber")),
    Ask("POST /ingest/a+b/ninjs", "admin", bare(400), WIRE),
    Ask("POST /feeds/al%70ha/receipts", "alpha", bare(400), {"n": 0}),
)

BODIES = Connection(
    "bodies",
    "Closed",
    Ask("POST /requests", "admin", bad("line")),
    Ask("POST /requests", "admin", bad("line"), "[]"),
    Ask("POST /requests", "admin", bad("line"), '{"number":1,'),
    Ask("POST /requests", "admin", bad("line"), '{"ask":"queue"}'),
    Ask("POST /requests", "admin", bad("line"), '{"receipt":{"subscriber":"alpha","n":0}}'),
    Ask("POST /requests", "admin", bad("number"), '{"do":"add_desk","desk":"city"}'),
    Ask("POST /requests", "admin", bad("do"), '{"number":1,"do":"nope"}'),
    Ask("POST /requests", "admin", bad("desk"), '{"number":1,"do":"add_desk"}'),
    Ask("POST /requests", "admin", bad("desk"), '{"number":1,"do":"add_desk","desk":"City"}'),
    Ask("POST /requests", "admin", bad("urgency"), '{"number":1,"do":"flash","story":{"urgency":12}}'),
    # no name stands before a bad body, and that before the caller's right
    Ask("POST /requests", None, bare(400), "[]"),
    Ask("POST /requests", "zoe", bad("line"), "[]"),
    Ask("POST /feeds/alpha/receipts", "beta", bad("n"), '{"n":-1}'),
    Ask("POST /feeds/alpha/receipts", "alpha", bad("n"), "{}"),
    Ask("POST /feeds/alpha/receipts", "alpha", bad("n"), '{"n":4294967296}'),
    Ask("POST /feeds/alpha/receipts", "alpha", bad("line"), "7"),
    Ask("POST /ingest/wire/ninjs", "admin", fault("NoUri"), "{}"),
    Ask("POST /ingest/wire/ninjs", "admin", fault("NotObject"), "[]"),
    Ask("POST /ingest/wire/ninjs", "zoe", fault("NotJson"), "{"),
    Ask("POST /ingest/wire/ninjs", "admin", fault("WrongType", property="uri"), '{"uri":7}'),
    Ask("POST /ingest/wire/ninjs", "admin", fault("TooLong", property="uri"), {"uri": "u" * 257}),
    # the caller is the one that the gateway names
    Ask("POST /requests", "admin", done(1), '{"by":"zoe","number":1,"do":"add_desk","desk":"city"}'),
    # a body may be sent with a question, and is not read
    get("/queue", "admin", queue(), send="[]"),
)

STORY = Connection(
    "a story goes out",
    "Closed",
    post("admin", 1, "add_subscriber", done(1), subscriber="alpha", format="ninjs", products=["all"]),
    post("admin", 2, "add_subscriber", done(2), subscriber="beta", format="7901", products=["all"]),
    post("admin", 3, "flash", done(3, 1, 1, 1002), story=FIRE),
    get("/feeds/alpha/after/0", "alpha", feed("alpha", 1, (1, 1, 1, 1, "first", 1002))),
    get("/feeds/alpha/after/0", "admin", feed("alpha", 1, (1, 1, 1, 1, "first", 1002))),
    get("/feeds/alpha/after/1", "alpha", feed("alpha", 1)),
    get("/feeds/alpha/after/4294967295", "alpha", feed("alpha", 1)),
    get("/feeds/alpha/after/0", "beta", bare(403)),
    get(
        "/feeds/alpha/frames/1",
        "alpha",
        frame(
            "alpha",
            1,
            '{"body_text":"Smoke.","headline":"Fire","language":"en","pubstatus":"usable","slugline":"fire","type":"text","urgency":3,'
            f'"uri":"{URI}","version":"1","versioncreated":"1970-01-01T00:16:42Z"}}',
        ),
    ),
    get(
        "/feeds/beta/frames/1",
        "admin",
        frame("beta", 1, "\1NWS0001 3 n 1 FIRST\r\nfire\r\n\2Fire\r\nSmoke.\r\n\x031970-01-01T00:16:42Z\4"),
    ),
    get("/feeds/alpha/frames/0", "alpha", bare(404)),
    get("/feeds/alpha/frames/2", "alpha", bare(404)),
    receipt("alpha", "alpha", 2, denied("ReceiptAhead", length=1)),
    receipt("alpha", "alpha", 1, done(4)),
    receipt("alpha", "alpha", 1, done()),
    receipt("alpha", "alpha", 0, done()),
    get("/queue", "admin", queue(("alpha", 1, 1, 0, "success"), ("beta", 1, 0, 0, "pending"))),
    get("/items/1", "admin", item("published", FIRE, 1)),
    post("admin", 4, "resume", denied("NotPaused"), subscriber="alpha"),
    post("admin", 4, "edit", denied("WrongState", state="published"), item=1, session="s", story={}),
    post("admin", 4, "correct", denied("NotLocked"), item=1, session="s", story={}),
    post("admin", 4, "lock", done(5, 1), item=1, session="s"),
    get("/items/1", "admin", item("published", FIRE, 1, session="s", user="admin")),
    post("admin", 5, "correct", denied("LockedBy", session="s", user="admin"), item=1, session="t", story={}),
    post("admin", 5, "correct", done(6, 1, 2, 1024), item=1, session="s", story={"headline": "Fire out"}),
    get("/feeds/alpha/after/1", "alpha", feed("alpha", 2, (2, 2, 1, 2, "correct", 1024))),
    post("admin", 6, "deschedule", denied("AlreadyReleased", release=1002), item=1),
)

TICKS = Connection(
    "a release comes while questions are asked",
    "Closed",
    city(),
    post("admin", 2, "set_member", done(2), desk="city", user="admin", member=True),
    post("admin", 3, "add_subscriber", done(3), subscriber="alpha", format="ninjs", products=["all"]),
    post("admin", 4, "create", done(4, 1), desk="city", story={"headline": "Budget"}),
    post("admin", 5, "lock", done(5, 1), item=1, session="s"),
    post("admin", 6, "publish", denied("BothTimes"), item=1, session="s", schedule=2000, embargo=2000),
    post("admin", 6, "publish", denied("PastMoment", moment=1006), item=1, session="s", schedule=1005),
    post("admin", 6, "publish", done(6, 1, 1, 1014), item=1, session="s", embargo=1014),
    get("/items/1", "admin", item("scheduled", {"headline": "Budget"}, 1, desk="city", stage="working")),
    get("/feeds/alpha/after/0", "alpha", feed("alpha", 0)),
    get("/queue", "admin", queue(("alpha", 0, 0, 0, "waiting"))),
    # neither who has no right nor what is bad lets time pass
    get("/queue", "zoe", bare(403)),
    get("/feeds/alpha/after/x", "alpha", bare(400)),
    get("/nothing", "admin", bare(404)),
    # at 1014: the question lets the release in, as entry 7
    get("/feeds/alpha/after/0", "alpha", feed("alpha", 1, (1, 1, 1, 1, "first", 1014))),
    receipt("alpha", "alpha", 1, done(8)),
    get("/queue", "admin", queue(("alpha", 1, 1, 0, "success"))),
    get("/items/1", "admin", item("published", {"headline": "Budget"}, 1, desk="city", stage="working")),
)

INGESTS = Connection(
    "stories come in",
    "Closed",
    post("admin", 1, "add_provider", done(1), provider="wire"),
    ingest("wire", "admin", WIRE, done(2, 1)),
    ingest("wire", "admin", WIRE, done(0, 1)),
    ingest("wire", "admin", {**WIRE, "uri": "http://x.example/2"}, done(3, 2)),
    ingest("other", "admin", WIRE, unknown("provider")),
    get("/items/1", "admin", item("ingested", {"headline": "Fire", "body": "Smoke."}, 1)),
    get("/items/3", "admin", unknown("item")),
)

# two messages and the beginning of a third
COUNCIL = "\1abc0001 3 pol 12\r\nvote\r\n\2Vote tonight\r\nThe council votes.\r\n\3 011200 may 26\r\n\4"
BRIDGE = "\1abc0002 3 pol 5\r\n\2Bridge shut\r\nFor a week.\r\n\3 011300 may 26\r\n\4"
CUT_OFF = "\1abc0003 3 pol"
MESSAGES = COUNCIL + BRIDGE + CUT_OFF
NO_TEXT = fault_at(len(MESSAGES), "NoText")
# as an agency sends it
AGENCY = "\1bas0001 3 pl 12 dpa\nfire\n\2Fire\nSmoke.\n\003011200 may 26\4\1bas0002 3"
AGENCY_ITEMS = [WIRE, {"guid": "urn:x:2", "headline": "Rain", "body_text": "All day."}, {"uri": "urn:x:3", "type": "planning"}]
WRONG_KIND = (200, keyed(answer="fault", what="WrongKind"), JSON)

WIRES = [
    Connection(
        "wires come in",
        "Closed",
        post("admin", 1, "add_provider", done(1), provider="wire"),
        wire("wire", "7901", "admin", MESSAGES, rows(done(2, 1), done(3, 2), NO_TEXT)),
        wire("wire", "7901", "admin", MESSAGES, rows(done(0, 1), done(0, 2), NO_TEXT)),
        wire("wire", "7901-any", "admin", AGENCY, rows(done(4, 3), fault_at(len(AGENCY), "NoText"))),
        wire("wire", "ninjs-any", "admin", AGENCY_ITEMS, rows(done(5, 4), done(6, 5), WRONG_KIND)),
        wire("wire", "ninjs-any", "admin", WIRE, rows(done(0, 4))),
        get("/items/1", "admin", item("ingested", {"headline": "Vote tonight", "body": "The council votes.", "slugline": "vote", "category": "pol", "urgency": 3}, 1)),
        get("/items/6", "admin", unknown("item")),
    ),
    Connection(
        "who may bring a wire in, and for whom",
        "Closed",
        post("admin", 1, "add_provider", done(1), provider="wire"),
        post("admin", 2, "add_user", done(2), user="ana", privileges=["write"]),
        wire("wire", "7901", "ana", MESSAGES, bare(403)),
        wire("wire", "7901", "ana", CUT_OFF + COUNCIL, rows(fault_at(len(CUT_OFF), "NoText"), status=403)),
        wire("wire", "7901", "ana", CUT_OFF, rows(fault_at(len(CUT_OFF), "NoText"))),
        wire("other", "7901", "admin", MESSAGES, unknown("provider")),
        wire("other", "7901", "admin", CUT_OFF + COUNCIL + BRIDGE, rows(fault_at(len(CUT_OFF), "NoText"), status=404)),
        wire("wire", "7901", None, MESSAGES, bare(400)),
        wire("Wire", "7901", "admin", MESSAGES, bare(400)),
        wire("wire", "7901", "admin", "", rows()),
        wire("wire", "7901-any", "admin", "no message", rows()),
        wire("wire", "ninjs-any", "admin", "[]", rows()),
        wire("wire", "ninjs-any", "admin", "", rows((200, keyed(answer="fault", what="NotJson"), JSON))),
        wire("wire", "7902", "admin", MESSAGES, bare(404)),
        get("/ingest/wire/7901", "admin", bare(404)),
        get("/items/1", "admin", unknown("item")),
    ),
    Connection(
        "a wire of too many members",
        "Closed",
        post("admin", 1, "add_provider", done(1), provider="wire"),
        wire("wire", "7901", "admin", "\1" * 4097, bare(413)),
        wire("wire", "7901-any", "admin", "\1" * 4097, bare(413)),
        wire("wire", "ninjs-any", "admin", [{}] * 4097, bare(413)),
        wire("wire", "7901", "zoe", "\1" * 4097, bare(413)),
        get("/queue", "admin", queue()),
    ),
    Connection(
        "a wire that ends",
        "Closed",
        post("admin", 1, "add_provider", done(1), provider="wire"),
        wire("wire", "7901", "admin", MESSAGES, rows(done(2, 1), status=503)),
        wire("wire", "7901", "admin", MESSAGES, rows(done(0, 1), done(3, 2), NO_TEXT)),
        failing=3,
    ),
    Connection(
        "a wire whose first story is not kept",
        "Closed",
        post("admin", 1, "add_provider", done(1), provider="wire"),
        wire("wire", "7901", "admin", MESSAGES, bare(503)),
        wire("wire", "7901", "admin", MESSAGES, rows(done(2, 1), done(3, 2), NO_TEXT)),
        failing=2,
    ),
]


def record(fields):
    """The bytes in the log of a request of `admin` with so many bytes of fields: gate, length, moment, tag, caller, number, command."""
    return 1 + 4 + 8 + 1 + 1 + len("admin") + 8 + 1 + fields


# kind, urgency, slugline, headline, byline, language, category, body, html flag
EMPTY_STORY = 1 + 1 + 6 * 4 + 1
DESK, MEMBER, CREATE = record(1 + 4), record(1 + 4 + 1 + 5 + 1), record(1 + 4 + EMPTY_STORY)
LOCK, PUBLISH, STOP = record(4 + 2), record(4 + 2 + 1 + 1 + 8 + 2), record(0)
SCHEDULED = DESK + MEMBER + CREATE + LOCK + PUBLISH
ADVANCE = 1 + 4 + 8 + 1

# five requests, of which the last lets an item wait until 1005
WAITING = (
    city(),
    post("admin", 2, "set_member", done(2), desk="city", user="admin", member=True),
    post("admin", 3, "create", done(3, 1), desk="city", story={}),
    post("admin", 4, "lock", done(4, 1), item=1, session="s"),
    post("admin", 5, "publish", done(5, 1, 1, 1005), item=1, session="s", embargo=1005),
)

ALPHA = {"subscriber": "alpha", "format": "ninjs", "products": ["all"]}
MAIN = {"main": 1}

PACKAGES = Connection(
    "packages go to those who have every member",
    "Closed",
    post("admin", 1, "add_subscriber", done(1), **ALPHA),
    post("admin", 2, "flash", done(2, 1, 1, 1001), story={"headline": "Fire", "body": "Smoke."}),
    post("admin", 3, "add_subscriber", done(3), **{**ALPHA, "subscriber": "beta"}),
    package("admin", 4, MAIN, done(4, 2, 2, 1003), headline="Pack"),
    # the same again acts once
    package("admin", 4, MAIN, done(4, 2, 2, 1003, word="repeat"), headline="Pack"),
    get("/feeds/alpha/after/0", "admin", feed("alpha", 2, (1, 1, 1, 1, "first", 1001), (2, 2, 2, 1, "first", 1003))),
    get("/feeds/beta/after/0", "admin", feed("beta", 0)),
    # that there are no readers stands before every denial
    package("admin", 5, {"main": 9}, no_readers(4), headline="Pack"),
    package("admin", 9, {"main": 9}, no_readers(4), headline="Pack"),
    package("admin", 5, {"main": 1, "more": 9}, no_readers(4), headline="Pack"),
    package("admin", 9, MAIN, denied("OutOfTurn", expected=5), headline="Pack"),
    package("admin", 4, MAIN, denied("NumberUsed", kept=4), headline="Other"),
    # what is bad: the number, the story, the members, and whether a package can be made of them
    Ask("POST /packages", "admin", bad("number"), {"headline": "Pack", "members": [{"role": "main", "item": 1}]}),
    Ask("POST /packages", "admin", bad("urgency"), {"number": 5, "urgency": 12, "members": 7}),
    Ask("POST /packages", "admin", bad("members"), {"number": 5, "members": 7}),
    Ask("POST /packages", "admin", bad("members"), {"number": 5, "headline": "Pack"}),
    package("admin", 5, {}, bad("members")),
    package("admin", 5, {"main": 0}, bad("members")),
    package("admin", 5, {"main": 1, "photo": 1}, bad("members")),
    package("admin", 5, {"Main": 1}, bad("role")),
    package("admin", 5, {"main": -1}, bad("item")),
    Ask("POST /packages", "admin", bad("line"), "[]"),
    # no name, no route and no right
    package(None, 5, MAIN, bare(400)),
    package("zoe", 1, MAIN, bare(403)),
    Ask("POST /packages", "zoe", bad("line"), "[]"),
    get("/packages", "admin", bare(404)),
    # a user's package is judged as a flash is
    post("admin", 5, "add_user", done(5), user="ana", privileges=["write"]),
    package("ana", 1, MAIN, denied("NoPrivilege", privilege="publish")),
    package("ana", 1, {"main": 9}, no_readers(5)),
    # behind a kill nobody has the member
    post("admin", 6, "lock", done(6, 1), item=1, session="s"),
    post("admin", 7, "kill", done(7, 1, 3, 1030), item=1, session="s", note="No fire."),
    package("admin", 8, MAIN, no_readers(7)),
    # a package may be a member
    package("admin", 8, {"pack": 2}, done(8, 3, 4, 1032)),
    # what they hold: a member, and a package whose own member stands a level deeper, at the publication that was there before it
    get("/publications/2/contents", "admin", contents(MAIN, (1, 1, 1, "main"))),
    get("/publications/4/contents", "ana", contents({"pack": 2}, (1, 2, 2, "pack"), (2, 1, 1, "main"))),
    # a story, a kill and what is no publication hold nothing
    get("/publications/1/contents", "admin", contents({})),
    get("/publications/3/contents", "admin", contents({})),
    get("/publications/0/contents", "admin", contents({})),
    get("/publications/5/contents", "admin", contents({})),
    get("/publications/4294967295/contents", "admin", contents({})),
    # who is no user, no name, no number and no route
    get("/publications/2/contents", "zoe", bare(403)),
    get("/publications/2/contents", None, bare(400)),
    get("/publications/02/contents", "admin", bare(400)),
    get("/publications/4294967296/contents", "admin", bare(400)),
    get("/publications/two/contents", "zoe", bare(400)),
    get("/publications/2", "admin", publication(2, {"kind": "composite", "headline": "Pack", "body": "PACKAGE\nmain 1\n"}, 1003)),
    Ask("POST /publications/2/contents", "admin", bare(404)),
)

FIRST = (1, 1, 1, "first", "1970-01-01T00:16:41Z")
CLOSED = (2, 2, 1, "first", "1970-01-01T00:16:42Z")

ARCHIVE = Connection(
    "the archive is searched",
    "Closed",
    post("admin", 1, "add_subscriber", done(1), **ALPHA),
    post("admin", 2, "flash", done(2, 1, 1, 1001), story={"headline": "Fire", "body": "Smoke."}),
    post("admin", 3, "flash", done(3, 2, 2, 1002), story={"headline": "Road closed", "urgency": 4}),
    archive("admin", 0, "number above 0 and not item is 2", found(1, FIRST)),
    archive("admin", 0, "act is first", found(2, FIRST, CLOSED)),
    archive("admin", 0, 'headline has "ROAD"', found(1, CLOSED)),
    archive("admin", 0, "( urgency is 4 or act is kill )", found(1, CLOSED)),
    # a page past the end, and a query that finds nothing
    archive("admin", 1, "act is first", found(2)),
    archive("admin", 4294967295, "act is kill", found(0)),
    # what is no query, at the place from which none goes on
    archive("admin", 0, "number above", bad_query(12)),
    archive("admin", 0, "", bad_query(0)),
    archive("admin", 0, "number over 1", bad_query(7)),
    # what is bad
    Ask("POST /archive", "admin", bad("page"), {"query": "act is kill"}),
    archive("admin", 4294967296, "act is kill", bad("page")),
    archive("admin", -1, 7, bad("page")),
    Ask("POST /archive", "admin", bad("query"), {"page": 0}),
    archive("admin", 0, 7, bad("query")),
    archive("admin", 0, None, bad("query")),
    Ask("POST /archive", "admin", bad("line"), '{"page":0,"query":"act is kill"'),
    # no name, no route and no right
    archive(None, 0, "act is kill", bare(400)),
    archive("zoe", 0, "act is kill", bare(403)),
    archive("zoe", 0, "number above", bare(403)),
    get("/archive", "admin", bare(404)),
    Ask("POST /archive/0", "admin", bare(404), {"page": 0, "query": "act is kill"}),
)

# six requests, of which the last lets an item wait until 1010, and four more
WAITING_MEMBER = (
    post("admin", 1, "add_subscriber", done(1), **ALPHA),
    city(number=2),
    post("admin", 3, "set_member", done(3), desk="city", user="admin", member=True),
    post("admin", 4, "create", done(4, 1), desk="city", story={}),
    post("admin", 5, "lock", done(5, 1), item=1, session="s"),
    post("admin", 6, "publish", done(6, 1, 1, 1010), item=1, session="s", embargo=1010),
    package("admin", 7, MAIN, no_readers(6), headline="Pack"),
    archive("admin", 0, "release above 1009", found(1, (1, 1, 1, "first", "1970-01-01T00:16:50Z"))),
    get("/queue", "admin", queue(("alpha", 0, 0, 0, "waiting"))),
    package("admin", 7, MAIN, no_readers(6), headline="Pack"),
)
BOTH = get("/queue", "admin", queue(("alpha", 2, 0, 0, "pending")))
MEMBER_ALONE = get("/queue", "admin", queue(("alpha", 1, 0, 0, "pending")))

# name, format and products of the subscriber
SUBSCRIBER = record(1 + 5 + 1 + 2 + 1 + 3)
MEMBER_WAITS = SUBSCRIBER + SCHEDULED

PACKAGE_TICKS = [
    Connection(
        "a package stands behind its tick",
        "Closed",
        *WAITING_MEMBER,
        # at 1010: the tick lets the member in, as entry 7
        package("admin", 7, MAIN, done(8, 2, 2, 1010), headline="Pack"),
        package("admin", 7, MAIN, done(8, 2, 2, 1010, word="repeat"), headline="Pack"),
        BOTH,
    ),
    *(
        Connection(
            title,
            "Closed",
            *WAITING_MEMBER,
            package("admin", 7, MAIN, bare(503), headline="Pack"),
            package("admin", 7, MAIN, done(8, 2, 2, 1011), headline="Pack"),
            BOTH,
            failing=entry,
        )
        for title, entry in (("the log fails at the tick of a package", 7), ("the log fails at a package behind its tick", 8))
    ),
    Connection(
        "the tick of a package has no room",
        "Closed",
        *WAITING_MEMBER,
        package("admin", 7, MAIN, bare(508), headline="Pack"),
        archive("admin", 0, "number above", bare(508)),
        package("zoe", 1, MAIN, bare(403), headline="Pack"),
        used=LIMIT - MEMBER_WAITS - ADVANCE + 1,
    ),
    Connection(
        "a package has no room behind the last tick that has",
        "Closed",
        *WAITING_MEMBER,
        package("admin", 7, MAIN, bare(508), headline="Pack"),
        package("admin", 7, MAIN, bare(508), headline="Pack"),
        package("admin", 7, {"main": 9}, no_readers(7), headline="Pack"),
        MEMBER_ALONE,
        used=LIMIT - MEMBER_WAITS - ADVANCE,
    ),
    Connection(
        "the log fails at the tick of a search",
        "Closed",
        *WAITING_MEMBER,
        archive("admin", 0, "number above", bare(503)),
        archive("admin", 0, "number above", bad_query(12)),
        MEMBER_ALONE,
        failing=7,
    ),
    Connection(
        "the log fails at the tick of what a publication holds",
        "Closed",
        *WAITING_MEMBER,
        # whoever has no right lets no time pass
        get("/publications/1/contents", "zoe", bare(403)),
        get("/publications/1/contents", "admin", bare(503)),
        # the tick lets the member in, as entry 7
        get("/publications/1/contents", "admin", contents({})),
        city(number=7, wanted=denied("NameTaken")),
        post("admin", 7, "add_desk", done(8), desk="town"),
        MEMBER_ALONE,
        failing=7,
    ),
]

FULL = [
    Connection("the last record that has room", "Closed", city(), city(number=2, wanted=denied("NameTaken")), used=LIMIT - DESK),
    Connection(
        "a record that passes the limit by one byte",
        "Closed",
        city(wanted=bare(508)),
        city(wanted=bare(508)),
        # what keeps nothing is answered
        post("zoe", 1, "add_desk", denied("UnknownUser"), desk="city"),
        post("admin", 2, "add_desk", denied("OutOfTurn", expected=1), desk="city"),
        get("/queue", "admin", queue()),
        get("/items/1", "admin", unknown("item")),
        used=LIMIT - DESK + 1,
    ),
    Connection(
        "a question behind a tick that has no room",
        "Closed",
        *WAITING,
        get("/queue", "admin", bare(508)),
        get("/items/9", "admin", bare(508)),
        get("/feeds/alpha/after/0", "admin", bare(508)),
        # the rows up to the caller's right are decided before the tick
        get("/queue", "zoe", bare(403)),
        get("/queue", None, bare(400)),
        get("/nothing", "admin", bare(404)),
        post("admin", 6, "lock", bare(508), item=1, session="s"),
        post("admin", 6, "lock", unknown("item"), item=2, session="s"),
        used=LIMIT - SCHEDULED - ADVANCE + 1,
    ),
    Connection(
        "a question behind the last tick that has room",
        "Closed",
        *WAITING,
        get("/queue", "admin", queue()),
        post("admin", 6, "add_desk", bare(508), desk="sport"),
        get("/items/1", "admin", item("published", {}, 1, desk="city", stage="working")),
        used=LIMIT - SCHEDULED - ADVANCE,
    ),
    Connection("a stop where nothing else has room", "Stopped { place: 1 }", city(wanted=bare(508)), post("admin", 1, "stop", done(1)), used=LIMIT),
    Connection("the last stop that has room", "Stopped { place: 1 }", post("admin", 1, "stop", done(1)), used=STOP_LIMIT - STOP),
    Connection("a stop that leaves a halt no room", "Closed", post("admin", 1, "stop", bare(508)), used=STOP_LIMIT - STOP + 1),
]

FAILS = [
    Connection("the log fails at a request", "Closed", city(wanted=bare(503)), city(), city(wanted=done(1, word="repeat")), failing=1),
    Connection(
        "the log fails at a tick",
        "Closed",
        *WAITING,
        get("/items/9", "admin", bare(503)),
        get("/items/9", "admin", unknown("item")),
        post("admin", 6, "lock", done(7, 1), item=1, session="s"),
        failing=6,
    ),
    Connection(
        "the log fails at a stop, which is no stop then",
        "Stopped { place: 1 }",
        post("admin", 1, "stop", bare(503)),
        post("admin", 1, "stop", done(1)),
        failing=1,
    ),
]


def lines(count, more=""):
    """A question with so many header lines, and these behind them."""
    return "GET /queue HTTP/1.1\r\nX-User: admin\r\n" + "".join(f"a{n}: b\r\n" for n in range(count - 1)) + more + "\r\n"


def head_of(length):
    """A question whose head has so many bytes."""
    start = "GET /queue HTTP/1.1\r\nX-User: admin\r\na: "
    return start + "b" * (length - len(start) - 4) + "\r\n\r\n"


BODY = '{"number":1,"do":"add_desk","desk":"city"}'


def sized(*values, body=BODY):
    return "POST /requests HTTP/1.1\r\nX-User: admin\r\n" + "".join(f"Content-Length: {value}\r\n" for value in values) + "\r\n" + body


NOTHING = "GET /nothing HTTP/1.1\r\n\r\n"

ENDINGS = [
    # no request begins what is left
    Connection("no byte", "Closed", Raw("")),
    Connection("a head that the end cuts off", "HeadFault", Raw("GET /queue HTTP/1.1\r\n", bare(400))),
    Connection("a body that the end cuts off", "HeadFault", Raw(sized("43"), bare(400))),
    Connection("bytes that are no head", "HeadFault", Raw(NOTHING + "\0" + NOTHING, bare(404), bare(400))),
    Connection("a version that is none", "HeadFault", Raw("GET /queue HTTP/2.0\r\n\r\n", bare(400))),
    Connection("a length with a sign", "HeadFault", Raw(sized("+42"), bare(400))),
    Connection("a length without a digit", "HeadFault", Raw(sized(""), bare(400))),
    Connection("a length of eleven digits", "HeadFault", Raw(sized("00000000042"), bare(400))),
    Connection("two lengths", "HeadFault", Raw(sized("1", "2"), bare(400))),
    Connection("two lengths of other digits", "HeadFault", Raw(sized("42", "042"), bare(400))),
    Connection("a length twice", "Closed", Raw(sized("42", "42"), done(1))),
    Connection("a length with zeros before it", "Closed", Raw(sized("0000000042"), done(1))),
    Connection("a coding beside a length that is none", "Chunked", Raw("POST /requests HTTP/1.1\r\nTransfer-Encoding: chunked\r\nContent-Length: x\r\n\r\n", bare(501))),
    Connection("another coding", "Chunked", Raw(NOTHING + "POST /requests HTTP/1.1\r\ntransfer-encoding: gzip\r\n\r\n" + NOTHING, bare(404), bare(501))),
    Connection("a coding in a head of 65 lines", "Chunked", Raw(lines(64, "Transfer-Encoding: chunked\r\n"), bare(501))),
    Connection("a head of 64 lines", "Closed", Raw(lines(64), queue())),
    Connection("a head of 65 lines", "TooLarge", Raw(lines(65), bare(413))),
    Connection("a head of 65 lines that the end cuts off", "HeadFault", Raw(lines(65)[:-2], bare(400))),
    Connection("a head of 16384 bytes", "Closed", Raw(head_of(16384), queue())),
    Connection("a head of 16385 bytes", "TooLarge", Raw(head_of(16385), bare(413))),
    Connection("a body of one byte too many", "TooLarge", Raw(NOTHING + sized("4194305", body=""), bare(404), bare(413))),
    # a request that closes
    Connection("a line that closes", "Closed", Raw("GET /nothing HTTP/1.1\r\nConnection: Close\r\n\r\n" + NOTHING, bare(404))),
    Connection("an old version closes", "Closed", Raw("GET /nothing HTTP/1.0\r\n\r\n" + NOTHING, bare(404))),
    Connection("one of two lines closes", "Closed", Raw("GET /nothing HTTP/1.1\r\nConnection: keep-alive\r\nconnection: close\r\n\r\n" + NOTHING, bare(404))),
    Connection("close is not the whole value", "Closed", Raw("GET /nothing HTTP/1.1\r\nConnection: keep-alive, close\r\n\r\n" + NOTHING, bare(404), bare(404))),
    # how many are answered
    Connection("64 requests and one more", "Limit", Raw(NOTHING * 65, *[bare(404)] * 64)),
    Connection("64 requests", "Limit", Raw(NOTHING * 64, *[bare(404)] * 64)),
    Connection("63 requests", "Closed", Raw(NOTHING * 63, *[bare(404)] * 63)),
    Connection("64 requests, of which the last closes", "Closed", Raw(NOTHING * 63 + "GET /nothing HTTP/1.0\r\n\r\n", *[bare(404)] * 64)),
]


# what begins a request, and its length
HEADS = [
    Connection("heads: nothing at all", "Closed", Raw("")),
    Connection("heads: an empty line and the end", "HeadFault", Raw("\r\n", bare(400))),
    Connection("heads: a request without a caller", "Closed", Raw("GET /queue HTTP/1.1\r\n\r\n", bare(400))),
    Connection("heads: empty lines before it, and lines that end in LF alone", "Closed", Raw("\n\r\nGET /queue HTTP/1.1\n\n", bare(400))),
    Connection("heads: a line and the end", "HeadFault", Raw("GET /queue HTTP/1.1\r\n", bare(400))),
    Connection("heads: a request, and behind it an empty line", "HeadFault", Raw("GET /queue HTTP/1.1\r\n\r\n\r\n", bare(400), bare(400))),
    Connection("heads: a line without a version", "HeadFault", Raw("GET /queue\r\n\r\n", bare(400))),
    Connection("heads: HTTP/1.0 closes", "Closed", Raw("GET /queue HTTP/1.0\r\n\r\n", bare(400))),
    Connection("heads: Close", "Closed", Raw("GET / HTTP/1.1\r\nConnection: Close\r\n\r\n", bare(404))),
    Connection("heads: one of two closes, with a space behind it", "Closed", Raw("GET / HTTP/1.1\r\nConnection: a\r\nCONNECTION:close \r\n\r\n", bare(404))),
    Connection("heads: close among others", "Closed", Raw("GET / HTTP/1.1\r\nConnection: close, a\r\n\r\n", bare(404))),
    Connection("heads: a caller, for no route", "Closed", Raw("GET / HTTP/1.1\r\nX-User: admin\r\n\r\n", bare(404))),
    Connection("heads: a caller with a capital", "Closed", Raw("GET / HTTP/1.1\r\nx-user: Admin\r\n\r\n", bare(404))),
    Connection("heads: a caller that is empty", "Closed", Raw("GET / HTTP/1.1\r\nX-User: \r\n\r\n", bare(404))),
    Connection("heads: the same caller twice", "Closed", Raw("GET / HTTP/1.1\r\nX-User: a\r\nX-User: a\r\n\r\n", bare(404))),
    Connection("heads: a target that is no UTF-8", "HeadFault", Raw(b"GET /\xff HTTP/1.1\r\n\r\n", bare(400))),
    Connection("heads: such a target and the end", "HeadFault", Raw(b"GET /\xff", bare(400))),
    Connection("heads: a target that is UTF-8", "Closed", Raw(b"GET /\xc3\xa9 HTTP/1.1\r\n\r\n", bare(404))),
    Connection("bodies: a desk is added", "Closed", Raw('POST /requests HTTP/1.1\r\nHost: n\r\nX-User: admin\r\nContent-Length: 42\r\n\r\n{"number":1,"do":"add_desk","desk":"city"}', done(1))),
    Connection("bodies: chunked", "Chunked", Raw("POST / HTTP/1.1\r\nTransfer-Encoding: chunked\r\n\r\n0\r\n\r\n", bare(501))),
    Connection("bodies: a length that is none, and chunked", "Chunked", Raw("POST / HTTP/1.1\r\nContent-Length: x\r\nTransfer-Encoding: chunked\r\n\r\n", bare(501))),
    Connection("bodies: a coding that is empty", "Chunked", Raw("POST / HTTP/1.1\r\nTransfer-Encoding:\r\n\r\n", bare(501))),
    Connection("bodies: the lengths 1 and 2", "HeadFault", Raw("POST / HTTP/1.1\r\nContent-Length: 1\r\nContent-Length: 2\r\n\r\nab", bare(400))),
    Connection("bodies: the length 2 twice", "Closed", Raw("POST / HTTP/1.1\r\nContent-Length: 2\r\ncontent-length: 2\r\n\r\nab", bare(404))),
    Connection("bodies: the lengths 2 and 02", "HeadFault", Raw("POST / HTTP/1.1\r\nContent-Length: 2\r\nContent-Length: 02\r\n\r\nab", bare(400))),
    Connection("bodies: the length +1", "HeadFault", Raw("POST / HTTP/1.1\r\nContent-Length: +1\r\n\r\na", bare(400))),
    Connection("bodies: the length -1", "HeadFault", Raw("POST / HTTP/1.1\r\nContent-Length: -1\r\n\r\na", bare(400))),
    Connection("bodies: a length without a digit", "HeadFault", Raw("POST / HTTP/1.1\r\nContent-Length:\r\n\r\n", bare(400))),
    Connection("bodies: ten digits", "Closed", Raw("POST / HTTP/1.1\r\nContent-Length: 0000000002\r\n\r\nab", bare(404))),
    Connection("bodies: eleven digits", "HeadFault", Raw("POST / HTTP/1.1\r\nContent-Length: 00000000002\r\n\r\nab", bare(400))),
    Connection("bodies: the length 9999999999", "TooLarge", Raw("POST / HTTP/1.1\r\nContent-Length: 9999999999\r\n\r\n", bare(413))),
    Connection("bodies: a byte more than a body may have", "TooLarge", Raw("POST / HTTP/1.1\r\nContent-Length: 4194305\r\n\r\n", bare(413))),
    Connection("bodies: as many bytes as a body may have, of which two come", "HeadFault", Raw("POST / HTTP/1.1\r\nContent-Length: 4194304\r\n\r\nab", bare(400))),
    Connection("bodies: three bytes, of which two come", "HeadFault", Raw("POST / HTTP/1.1\r\nContent-Length: 3\r\n\r\nab", bare(400))),
    Connection("bodies: a request behind each", "Closed", Raw("POST /a HTTP/1.1\r\nContent-Length: 2\r\n\r\nabGET /queue HTTP/1.1\r\n\r\nPOST /b HTTP/1.1\r\nContent-Length: 1\r\n\r\nc", bare(404), bare(400), bare(404))),
    Connection(
        "each route, and what is refused",
        "Closed",
        get("/items/7", "admin", unknown("item")),
        get("/queue", "admin", queue()),
        get("/feeds/alpha/after/0", "admin", unknown("subscriber")),
        get("/feeds/alpha/frames/4294967295", "admin", unknown("subscriber")),
        city(),
        Ask("POST /requests", "admin", done(2), {"by": 7, "number": 2, "do": "add_subscriber", "subscriber": "alpha", "format": "7901", "lag": 600}),
        receipt("alpha", "admin", 3, bare(403)),
        receipt("alpha", "alpha", 3, denied("ReceiptAhead", length=0)),
        ingest("afp", "admin", {"uri": "u"}, unknown("provider")),
        Ask("POST /requests", None, bare(400)),
        Ask("POST /feeds/Alpha/receipts", "admin", bare(400)),
        receipt("alpha", "alpha", -1, bad("n")),
        ingest("afp", "admin", {}, fault("NoUri")),
        ingest("afp", "admin", {"uri": "x", "type": 7}, fault("WrongType", property="type")),
    ),
]


# ---- what stands on a desk, whom a story would reach, and metrics


def items(*rows):
    return told("items", rows=list(rows))


def row(number, state, headline, **more):
    return {"headline": headline, "item": number, "slugline": "", "state": state, "urgency": 0, "version": 1, **more}


def reach(*rows):
    return told("reach", rows=list(rows))


def reached(subscriber, reason, had=False, **cause):
    return {"had": had, "reason": reason, "subscriber": subscriber, **cause}


def things(of, *rows):
    return told("things", of=of, rows=list(rows))


def publications(*rows):
    return told("publications", rows=list(rows))


def published(number, kind, release, *due, version=1, stands=True):
    return {"due": list(due), "kind": kind, "publication": number, "release": release, "stands": stands, "version": version}


def sent(subscriber, release, k, acked):
    return {"acked": acked, "course": "sent", "k": k, "release": release, "subscriber": subscriber}


def unsent(subscriber, release, course):
    return {"course": course, "release": release, "subscriber": subscriber}


def no_publication(count):
    return 404, keyed(answer="no-publication", count=count), JSON


def asked(item, targets, wanted, user="admin"):
    """Whom the item would reach with these targets, asked with a body."""
    return Ask(f"POST /items/{item}/reach", user, wanted, {} if targets is None else {"targets": targets})


GAUGES = {
    "entries": "Entries of the list.",
    "moment_seconds": "Moment of the last entry, in seconds of Unix time.",
    "log_bytes": "Bytes of the log in use.",
    "log_limit_bytes": "Bytes of the log that requests may use.",
    "items": "Items made so far.",
    "items_limit": "Items that can be made.",
    "publications": "Publications made so far.",
}
FEED_GAUGES = {
    "feed_length": "Entries of the feed.",
    "feed_acked": "Entries of the feed that the subscriber acknowledged.",
    "feed_tries": "Attempts to deliver the next entry of the feed.",
    "feed_paused": "Whether the feed is paused.",
    "feed_oldest_seconds": "Seconds since the release of the oldest entry that is not acknowledged.",
}
MOST_ITEMS = 262144


def metrics(entries, moment, used, count, publications, *feeds):
    """The metrics of a newsroom of which nothing was counted; a feed is its subscriber and its five numbers."""
    lines = []
    for (name, says), value in zip(GAUGES.items(), (entries, moment, EMPTY_LOG + used, LIMIT, count, MOST_ITEMS, publications)):
        lines += [f"# HELP newsdesk_{name} {says}", f"# TYPE newsdesk_{name} gauge", f"newsdesk_{name} {value}"]
    for place, (name, says) in enumerate(FEED_GAUGES.items() if feeds else (), 1):
        lines += [f"# HELP newsdesk_{name} {says}", f"# TYPE newsdesk_{name} gauge"]
        lines += [f'newsdesk_{name}{{subscriber="{values[0]}"}} {values[place]}' for values in feeds]
    return 200, "".join(line + "\n" for line in lines), METRICS


def request_record(command):
    """The bytes of a record of a request of `admin`, whose command has so many: a gate, a length, a moment, the tag, the caller and the number."""
    return 5 + 8 + 1 + (1 + len("admin")) + 8 + command


BETA_RECORD = request_record(1 + 1 + len("beta") + 1 + 2 + 1 + len("all"))
ALPHA_RECORD = request_record(1 + 1 + len("alpha") + 1 + 2)
FIRE_RECORD = request_record(1 + 27 + len("Fire") + len("Smoke.") + 2)
BETAS_RECEIPT = 5 + 8 + 1 + 1 + len("beta") + 4
BUDGET = row(1, "draft", "Budget", desk="city", stage="working", slugline="plan", urgency=4)
WIRED = row(2, "ingested", "Fire", embargo=0, status="usable")
SMOKE = {"headline": "Fire", "body": "Smoke."}
CITY = {"desk": "city", "members": ["admin"], "stages": ["incoming", "proof", "working"]}
ALL = ["users", "desks", "filters", "subscribers", "ingest", "write", "publish", "kill", "unlock", "stop"]
BY_NIGHT = {"days": ["sun", "mon"], "from": 0, "to": 21600, "zone": "+01:00", "fetch": {"desk": "city", "stage": "proof"}, "publish": True}

DESKS = [
    Connection(
        "what stands on the desks",
        "Closed",
        city(),
        post("admin", 2, "set_member", done(2), desk="city", user="admin", member=True),
        post("admin", 3, "create", done(3, 1), desk="city", story={"headline": "Budget", "slugline": "plan", "urgency": 4}),
        post("admin", 4, "add_provider", done(4), provider="wire"),
        ingest("wire", "admin", {"uri": "http://x.example/1", "type": "text", "headline": "Fire", "body_text": "Smoke."}, done(5, 2)),
        get("/items/below/4294967295", "admin", items(WIRED, BUDGET)),
        get("/items/below/3", "admin", items(WIRED, BUDGET)),
        get("/items/below/2", "admin", items(BUDGET)),
        get("/items/below/1", "admin", items()),
        get("/items/below/0", "admin", items()),
        get("/desks/city/items/below/9", "admin", items(BUDGET)),
        post("admin", 5, "lock", done(6, 1), item=1, session="s"),
        get("/desks/city/items/below/9", "admin", items({**BUDGET, "session": "s", "user": "admin"})),
        get("/desks/town/items/below/9", "admin", unknown("desk")),
        get("/desks/Town/items/below/9", "admin", bare(400)),
        get("/items/below/02", "admin", bare(400)),
        get("/items/below/4294967296", "admin", bare(400)),
        get("/desks/city/items/below/x", "admin", bare(400)),
        get("/items/below/9", "zoe", bare(403)),
        get("/items/below/9", None, bare(400)),
        Ask("POST /items/below/9", "admin", bare(404)),
        get("/items/below", "admin", bare(400)),
        get("/desks/city/items/below", "admin", bare(404)),
    ),
    Connection(
        "whom an item would reach",
        "Closed",
        post("admin", 1, "add_subscriber", done(1), subscriber="beta", format="ninjs", products=[]),
        post("admin", 2, "add_subscriber", done(2), subscriber="alpha", format="ninjs", products=["all"]),
        post("admin", 3, "flash", done(3, 1, 1, 1002), story=SMOKE),
        get("/items/1/reach", "admin", reach(reached("alpha", "permitted", True, product="all"), reached("beta", "refused", products=[]))),
        asked(1, None, reach(reached("alpha", "permitted", True, product="all"), reached("beta", "refused", products=[]))),
        asked(1, [], reach(reached("alpha", "permitted", True, product="all"), reached("beta", "refused", products=[]))),
        asked(1, ["beta"], reach(reached("alpha", "not_target", True), reached("beta", "refused", products=[]))),
        asked(1, ["alpha", "zulu"], unknown("subscriber")),
        asked(1, 7, bad("targets")),
        Ask("POST /items/1/reach", "admin", bad("line"), []),
        Ask("POST /items/x/reach", "admin", bare(400), []),
        get("/items/2/reach", "admin", unknown("item")),
        get("/items/01/reach", "admin", bare(400)),
        get("/items/1/reach", "zoe", bare(403)),
        get("/items/1/reach", "alpha", bare(403)),
        asked(1, None, bare(400), user=None),
        Ask("PUT /items/1/reach", "admin", bare(404), {}),
    ),
    Connection(
        "the things that there are",
        "Closed",
        city(),
        post("admin", 2, "add_stage", done(2), desk="city", stage="proof"),
        post("admin", 3, "set_member", done(3), desk="city", user="admin", member=True),
        get("/things/desks/first", "admin", things("desks", CITY)),
        get("/things/desks/after/c", "admin", things("desks", CITY)),
        get("/things/desks/after/city", "admin", things("desks")),
        post("admin", 4, "add_user", done(4), user="ben", privileges=["kill", "write", "kill"]),
        get("/things/users/first", "admin", things("users", {"privileges": ALL, "user": "admin"}, {"privileges": ["write", "kill"], "user": "ben"})),
        get("/things/users/after/admin", "ben", things("users", {"privileges": ["write", "kill"], "user": "ben"})),
        post("admin", 5, "add_condition", done(5), condition="fires", field="headline", op="in", values=["fire", "Feuer"]),
        get("/things/conditions/first", "admin", things("conditions", {"condition": "fires", "field": "headline", "op": "in", "values": ["fire", "Feuer"]})),
        post("admin", 6, "add_filter", done(6), filter="b-fires", statements=[{"conditions": ["fires"]}]),
        post("admin", 7, "add_filter", done(7), filter="a-all", statements=[{"filters": ["b-fires"]}]),
        post("admin", 8, "set_block", done(8), filter="b-fires", on=True),
        get(
            "/things/filters/first",
            "admin",
            things(
                "filters",
                {"age": 2, "block": False, "filter": "a-all", "statements": [{"conditions": [], "filters": ["b-fires"]}]},
                {"age": 1, "block": True, "filter": "b-fires", "statements": [{"conditions": ["fires"], "filters": []}]},
            ),
        ),
        post("admin", 9, "add_product", done(9), product="quick", how="blocking", filter="b-fires"),
        get(
            "/things/products/first",
            "admin",
            things(
                "products",
                {"filter": None, "how": "permitting", "product": "all"},
                {"filter": "b-fires", "how": "blocking", "product": "quick"},
            ),
        ),
        post("admin", 10, "add_subscriber", done(10), subscriber="beta", format="7901", products=["quick", "all"], lag=60),
        get(
            "/things/subscribers/first",
            "admin",
            things(
                "subscribers",
                {"active": True, "format": "7901", "lag": 60, "off": [], "products": ["quick", "all"], "subscriber": "beta"},
            ),
        ),
        post("admin", 11, "add_scheme", done(11), scheme="night", rules=[BY_NIGHT]),
        get(
            "/things/schemes/first",
            "admin",
            things("schemes", {"rules": [{**BY_NIGHT, "days": ["mon", "sun"], "exit": False, "filter": None}], "scheme": "night"}),
        ),
        post("admin", 12, "add_provider", done(12), provider="wire", scheme="night"),
        post("admin", 13, "add_provider", done(13), provider="none"),
        get(
            "/things/providers/first",
            "admin",
            things("providers", {"provider": "none", "scheme": None}, {"provider": "wire", "scheme": "night"}),
        ),
        get("/things/items/first", "admin", bare(400)),
        get("/things/Users/first", "admin", bare(400)),
        get("/things/users/after/Ana", "admin", bare(400)),
        get("/things/users/first", "zoe", bare(403)),
        get("/things/users/first", None, bare(400)),
        get("/things/users", "admin", bare(404)),
        Ask("POST /things/users/first", "admin", bare(404)),
    ),
    Connection(
        "what became of what was published",
        "Closed",
        post("admin", 1, "add_subscriber", done(1), subscriber="beta", format="ninjs", products=["all"]),
        post("admin", 2, "add_subscriber", done(2), subscriber="alpha", format="ninjs", products=["all"], lag=100),
        post("admin", 3, "flash", done(3, 1, 1, 1002), story=SMOKE),
        get(
            "/items/1/publications/after/0",
            "admin",
            publications(published(1, "first", 1002, unsent("alpha", 1102, "waits"), sent("beta", 1002, 1, False))),
        ),
        receipt("beta", "beta", 1, done(4)),
        post("admin", 4, "lock", done(5, 1), item=1, session="s"),
        post("admin", 5, "kill", done(6, 1, 2, 1006), item=1, session="s", note="No fire."),
        get(
            "/items/1/publications/after/0",
            "admin",
            publications(
                published(1, "first", 1002, unsent("alpha", 1102, "taken_back"), sent("beta", 1002, 1, True)),
                published(2, "kill", 1006, sent("beta", 1006, 2, False), version=2),
            ),
        ),
        get("/items/1/publications/after/1", "admin", publications(published(2, "kill", 1006, sent("beta", 1006, 2, False), version=2))),
        get("/items/1/publications/after/2", "admin", publications()),
        get("/items/2/publications/after/0", "admin", unknown("item")),
        get("/items/0/publications/after/0", "admin", unknown("item")),
        get("/items/1/publications/after/x", "admin", bare(400)),
        get("/items/01/publications/after/0", "admin", bare(400)),
        get("/items/1/publications/after/0", "zoe", bare(403)),
        get("/items/1/publications/after/0", None, bare(400)),
        get("/items/1/publications", "admin", bare(404)),
        Ask("POST /items/1/publications/after/0", "admin", bare(404)),
    ),
    Connection(
        "what was descheduled stands no more",
        "Closed",
        city(),
        post("admin", 2, "set_member", done(2), desk="city", user="admin", member=True),
        post("admin", 3, "add_subscriber", done(3), subscriber="beta", format="ninjs", products=["all"]),
        post("admin", 4, "create", done(4, 1), desk="city", story={}),
        post("admin", 5, "lock", done(5, 1), item=1, session="s"),
        post("admin", 6, "publish", done(6, 1, 1, 2000), item=1, session="s", schedule=2000),
        get("/items/1/publications/after/0", "admin", publications(published(1, "first", 2000, unsent("beta", 2000, "waits")))),
        post("admin", 7, "deschedule", done(7, 1), item=1),
        get("/items/1/publications/after/0", "admin", publications(published(1, "first", 2000, unsent("beta", 2000, "taken_back"), stands=False))),
    ),
    Connection(
        "a publication as it is",
        "Closed",
        post("admin", 1, "add_subscriber", done(1), subscriber="alpha", format="ninjs", products=["all"]),
        post("admin", 2, "flash", done(2, 1, 1, 1001), story=SMOKE),
        get("/publications/1", "admin", publication(1, SMOKE, 1001)),
        get("/publications/2", "admin", no_publication(1)),
        get("/publications/0", "admin", no_publication(1)),
        get("/publications/one", "admin", bare(400)),
        get("/publications/1", "zoe", bare(403)),
        get("/publications/1", None, bare(400)),
        Ask("POST /publications/1", "admin", bare(404)),
    ),
    Connection(
        "metrics, which need no caller and keep nothing",
        "Closed",
        get("/metrics", None, metrics(0, 0, 0, 0, 0)),
        get("/metrics", "zoe", metrics(0, 0, 0, 0, 0)),
        city(),
        get("/metrics", None, metrics(1, 1002, 34, 0, 0)),
        get("/metrics", "Not a name", metrics(1, 1002, 34, 0, 0)),
        Ask("POST /metrics", None, bare(404)),
        get("/metrics/", None, bare(404)),
    ),
    Connection(
        "metrics do not release what waits",
        "Closed",
        city(),
        post("admin", 2, "set_member", done(2), desk="city", user="admin", member=True),
        post("admin", 3, "create", done(3, 1), desk="city", story={}),
        post("admin", 4, "lock", done(4, 1), item=1, session="s"),
        post("admin", 5, "publish", done(5, 1, 1, 1007), item=1, session="s", embargo=1007),
        get("/metrics", None, metrics(5, 1004, 218, 1, 1)),
        get("/metrics", "zoe", metrics(5, 1004, 218, 1, 1)),
        get("/metrics", None, metrics(5, 1004, 218, 1, 1)),
        get("/queue", "admin", queue()),
        get("/metrics", None, metrics(6, 1008, 218 + 14, 1, 1)),
    ),
    Connection(
        "the metrics of feeds",
        "Closed",
        post("admin", 1, "add_subscriber", done(1), subscriber="beta", format="ninjs", products=["all"]),
        post("admin", 2, "add_subscriber", done(2), subscriber="alpha", format="ninjs", products=[]),
        post("admin", 3, "flash", done(3, 1, 1, 1002), story=SMOKE),
        get("/metrics", None, metrics(3, 1002, BETA_RECORD + ALPHA_RECORD + FIRE_RECORD, 1, 1, ("alpha", 0, 0, 0, 0, 0), ("beta", 1, 0, 0, 0, 1))),
        receipt("beta", "beta", 1, done(4)),
        get("/metrics", None, metrics(4, 1004, BETA_RECORD + ALPHA_RECORD + FIRE_RECORD + BETAS_RECEIPT, 1, 1, ("alpha", 0, 0, 0, 0, 0), ("beta", 1, 1, 0, 0, 0))),
    ),
]


def twice(ask):
    """A request that finds no memory, and then the same again."""
    first = copy.copy(ask)
    first.status, first.body, first.media = bare(507)
    return [first, ask]


# memory runs out in the turn of every other request, of which the first is one: what is answered before the turn is answered still
STARVED = [
    Connection(
        "no memory in the turn of every other request",
        "Stopped { place: 8 }",
        *twice(city()),
        *twice(post("admin", 2, "add_subscriber", done(2), subscriber="alpha", format="ninjs", products=["all"])),
        *twice(post("admin", 3, "flash", done(3, 1, 1, 1005), story={"headline": "Fire", "slugline": "fire", "language": "en", "urgency": 3, "body": "Smoke."})),
        *twice(get("/queue", "admin", queue(("alpha", 1, 0, 0, "pending")))),
        *twice(get("/feeds/alpha/after/0", "alpha", feed("alpha", 1, (1, 1, 1, 1, "first", 1005)))),
        *twice(receipt("alpha", "alpha", 1, done(4))),
        *twice(post("admin", 4, "add_provider", done(5), provider="wire")),
        *twice(ingest("wire", "admin", {"uri": "http://x.example/1", "type": "text", "headline": "Fire", "body_text": "Smoke."}, done(6, 2))),
        *twice(get("/items/2", "admin", item("ingested", {"headline": "Fire", "body": "Smoke."}, 1, number=2))),
        *twice(archive("admin", 0, "number above 0", found(1, (1, 1, 1, "first", "1970-01-01T00:16:45Z")))),
        *twice(package("admin", 5, MAIN, done(7, 3, 2, 1021))),
        *[get("/items/2", "zoe", bare(403))] * 2,
        *[get("/nothing", "admin", bare(404))] * 2,
        *twice(post("admin", 6, "stop", done(8))),
        get("/queue", "admin", (None, "", JSON)),
        failing="growth",
    ),
]

STARVED_DESKS = [
    Connection(
        "no memory for what a desk asks, or for metrics",
        "Closed",
        *twice(get("/metrics", None, metrics(0, 0, 0, 0, 0))),
        *twice(get("/items/below/9", "admin", items())),
        *twice(get("/items/1/reach", "admin", unknown("item"))),
        *twice(get("/publications/1", "admin", no_publication(0))),
        failing="growth",
    ),
]

STARVED_WIRES = [
    Connection(
        "no memory for every other story",
        "Closed",
        *twice(post("admin", 1, "add_provider", done(1), provider="wire")),
        wire("wire", "7901", "admin", MESSAGES, bare(507)),
        wire("wire", "7901", "admin", MESSAGES, rows(done(2, 1), status=507)),
        wire("wire", "7901", "admin", COUNCIL, rows(done(0, 1))),
        failing="growth",
    ),
]

TABLE = [*WORKED, USERS, TARGETS, BODIES, STORY, TICKS, INGESTS, *WIRES, PACKAGES, ARCHIVE, *PACKAGE_TICKS, *FULL, *FAILS, *ENDINGS, *HEADS]
# all that the gate runs; of these the starved ones are sent to it alone
GATED = [*TABLE, *STARVED, *DESKS, *STARVED_DESKS, *STARVED_WIRES]


# ---- the files of the gate


def write_files():
    for connection in GATED:
        assert len(connection.asks) <= 64, connection.title
    with open(os.path.join(GATE, "stdin"), "wb") as file:
        for connection in GATED:
            sent = connection.bytes()
            file.write(f"{connection.used} {connection.failing} {len(sent)} {connection.title}\n".encode() + sent + b"\n")
    with open(os.path.join(GATE, "stdout"), "wb") as file:
        for connection in GATED:
            file.write(f"= {connection.title}\n".encode() + connection.answer() + f"\n- {connection.ended}\n".encode())


# ---- a real socket


class Listener:
    """Listens, and hands each connection to a server of its own, as its standard input and output."""

    def __init__(self):
        self.socket = socket.create_server(("127.0.0.1", 0))
        self.port = self.socket.getsockname()[1]
        self.words = []
        self.accepted = 0
        threading.Thread(target=self.serve, daemon=True).start()

    def serve(self):
        while True:
            taken, _ = self.socket.accept()
            self.accepted += 1
            with taken:
                subprocess.Popen([SERVER, "one", *self.words], stdin=taken, stdout=taken)


def by_curl(listener, connection):
    words = ["curl"]
    for number, ask in enumerate(ask for ask in connection.asks if ask.status is not None):
        words += (["--next"] if number else []) + ask.curl() + [f"http://127.0.0.1:{listener.port}/"]
    return subprocess.run(words, stdout=subprocess.PIPE, timeout=60).stdout


def by_bytes(listener, connection):
    with socket.create_connection(("127.0.0.1", listener.port), timeout=20) as peer:
        # in pieces, with what is to come still unsent
        sent = connection.bytes()
        for at in range(0, len(sent), 1000):
            peer.sendall(sent[at : at + 1000])
        peer.shutdown(socket.SHUT_WR)
        got = b""
        while piece := peer.recv(65536):
            got += piece
    return got


def send_table():
    if not os.path.exists(SERVER):
        sys.exit("crates/plain_server is not built: `rt run` in its folder does it")
    listener = Listener()
    counts = {"curl": 0, "bytes": 0}
    wrong = 0
    for connection in [*TABLE, *DESKS]:
        listener.words = [str(connection.used), str(connection.failing)]
        listener.accepted = 0
        way = "bytes" if connection.is_raw() else "curl"
        got = by_bytes(listener, connection) if way == "bytes" else by_curl(listener, connection)
        answers = connection.answer().count(b"HTTP/1.1 ")
        counts[way] += answers
        if got != connection.answer() or listener.accepted != 1:
            wrong += 1
            print(f"{connection.title}, by {way}, {listener.accepted} connections: {got!r} in place of {connection.answer()!r}")
    print(f"{counts['curl']} requests were sent by curl and {counts['bytes']} as bytes, on {len(TABLE) + len(DESKS)} connections; {wrong} of these were answered otherwise")
    sys.exit(wrong != 0)


if __name__ == "__main__":
    write_files() if sys.argv[1:] == ["--write"] else send_table()
