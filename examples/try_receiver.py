#!/usr/bin/env python3
"""Tries receiver.py: with frames that are none, over plain connections, and against `newsdesk drain`.

What is no frame ends its connection with one line on standard error, and the next connection is taken as if nothing had come. Of the stories
of a drain, two before the receiver runs, two behind, and a stop of it between, each frame has to be kept once, in order, whatever is sent again.
"""
import contextlib
import json
import os
import signal
import socket
import struct
import subprocess
import sys
import tempfile
import time

HERE = os.path.dirname(os.path.abspath(__file__))
NEWSDESK = os.path.join(os.path.dirname(HERE), "newsdesk")
STORE = "6ba7b810-9dad-11d1-80b4-00c04fd430c8"
PORT = 17901
LONGEST_PAYLOAD = 4_194_240

# what is sent over a connection that ends behind it, what is answered, and what standard error says of it
NO_FRAMES = (
    (b"HELLO\n", b"", "no frame begins with b'HELLO\\n'"),
    (b"\x16\x03\x01\x02\x00\x01", b"", "no frame begins with b'\\x16\\x03\\x01\\x02\\x00\\x01'"),
    (b"\xff\xfe\n", b"", "no frame begins with b'\\xff\\xfe\\n'"),
    (b"\n", b"", "no frame begins with b'\\n'"),
    (b"FRAME alpha 01 2\nhi", b"", "no frame begins with b'FRAME alpha 01 2\\n'"),
    (b"FRAME alpha 0 2\nhi", b"", "no frame begins with b'FRAME alpha 0 2\\n'"),
    (b"FRAME alpha -1 2\nhi", b"", "no frame begins with b'FRAME alpha -1 2\\n'"),
    (b"FRAME alpha 1 2\r\nhi", b"", "no frame begins with b'FRAME alpha 1 2\\r\\n'"),
    (b"FRAME Alpha 1 2\nhi", b"", "no frame begins with b'FRAME Alpha 1 2\\n'"),
    (b"FRAME alpha 1 2", b"", "no frame begins with b'FRAME alpha 1 2'"),
    (b"F" * 1000, b"", f"no frame begins with b'{'F' * 61}'"),
    (b"FRAME alpha 4294967296 0\n", b"", "a feed has no frame 4294967296"),
    (b"FRAME alpha 1 4194241\n", b"", "frame 1 has 4194241 bytes, and at most 4194240 are taken"),
    (b"FRAME alpha 1 9999999999\n", b"", "frame 1 has 9999999999 bytes, and at most 4194240 are taken"),
    (b"FRAME alpha 1 9\nhi", b"", "the connection ended 7 bytes before the end of frame 1"),
    (b"FRAME alpha 1 2\nhiFRAME alpha 2\n", b"RECEIPT alpha 1\n", "no frame begins with b'FRAME alpha 2\\n'"),
)

# words with which it does not start, and the end of what standard error says
NO_WORDS = (
    (["--longest", "4194241"], 2, "not a number from 0 to 4194240"),
    (["--longest", "-1"], 2, "not a number from 0 to 4194240"),
    (["--listen", "192.0.2.1"], 1, "Cannot assign requested address"),
)


def newsdesk(folder, words, text=""):
    done = subprocess.run([NEWSDESK, *words], cwd=folder, input=text, stdout=subprocess.PIPE, text=True)
    return done.returncode, done.stdout


def receiver_words(folder, more=()):
    return [sys.executable, os.path.join(HERE, "receiver.py"), "alpha", os.path.join(folder, "held"), str(PORT), *more]


def wait_for(address):
    for _ in range(100):
        try:
            return socket.create_connection((address, PORT)).close()
        except ConnectionRefusedError:
            time.sleep(0.1)
    return sys.exit(f"nothing takes connections at {address}:{PORT}")


@contextlib.contextmanager
def running(folder, more=(), address="127.0.0.1"):
    """A receiver that takes connections, and is killed at the end; what it says stands in the file `said`."""
    with open(os.path.join(folder, "said"), "wb") as said:
        receiver = subprocess.Popen(receiver_words(folder, more), stderr=said)
    try:
        wait_for(address)
        yield receiver
    finally:
        receiver.send_signal(signal.SIGKILL)
        receiver.wait()


def flash(number, headline):
    return json.dumps({"by": "admin", "number": number, "do": "flash", "story": {"headline": headline, "body": "Smoke."}}) + "\n"


def expect(what, found, wanted):
    if found != wanted:
        sys.exit(f"{what}: {found!r}, and not {wanted!r}")


def exchange(sent, address="127.0.0.1"):
    """What is answered over a connection that ends behind these bytes, and the port from which they came."""
    with socket.create_connection((address, PORT), timeout=30) as connection:
        connection.sendall(sent)
        connection.shutdown(socket.SHUT_WR)
        answered = b""
        while some := connection.recv(4096):
            answered += some
        return answered, connection.getsockname()[1]


def break_off(sent):
    """Sends these bytes over a connection, and resets it once they are there."""
    with socket.create_connection(("127.0.0.1", PORT)) as connection:
        connection.sendall(sent)
        time.sleep(1)
        connection.setsockopt(socket.SOL_SOCKET, socket.SO_LINGER, struct.pack("ii", 1, 0))
        return connection.getsockname()[1]


def said_lines(folder, count):
    """What the receiver has said, once it is so many lines."""
    for _ in range(100):
        with open(os.path.join(folder, "said"), encoding="utf-8") as said:
            lines = said.read().splitlines()
        if len(lines) >= count:
            return lines
        time.sleep(0.1)
    return lines


def try_frames():
    """Whatever is no frame costs its own connection alone."""
    with tempfile.TemporaryDirectory() as folder, running(folder) as receiver:
        wanted = []
        silent = socket.create_connection(("127.0.0.1", PORT))
        for sent, receipts, why in NO_FRAMES:
            answered, port = exchange(sent)
            expect(f"the answer to {sent[:40]!r}", answered, receipts)
            wanted.append(f"127.0.0.1:{port}: {why}")
            expect(f"what is said of {sent[:40]!r}", said_lines(folder, len(wanted)), wanted)
        wanted.append(f"127.0.0.1:{break_off(b'FRAME alpha 2 9' + bytes([10]) + b'hi')}: Connection reset by peer")
        expect("what is said of a connection that was reset", said_lines(folder, len(wanted)), wanted)
        longest = b"FRAME alpha 2 %d\n" % LONGEST_PAYLOAD + b"x" * LONGEST_PAYLOAD
        expect("the longest frame, and one for another", exchange(longest + b"FRAME beta 3 0\n")[0], b"RECEIPT alpha 2\n" * 2)
        silent.sendall(b"FRAME alpha 3 0\n")
        expect("a connection that was open all the time", silent.recv(4096), b"RECEIPT alpha 3\n")
        silent.close()
        expect("what is said of frames", said_lines(folder, len(wanted)), wanted)
        expect("whether it still runs", receiver.poll(), None)
        expect("the lengths of the files", [os.path.getsize(os.path.join(folder, "held", k)) for k in "123"], [2, LONGEST_PAYLOAD, 0])
        again = subprocess.run(receiver_words(folder), stderr=subprocess.PIPE, text=True)
        expect("a second one at the same port", (again.returncode, again.stderr), (1, f"127.0.0.1:{PORT}: Address already in use\n"))


def try_words():
    """Another address, fewer bytes, and words with which it does not start."""
    with tempfile.TemporaryDirectory() as folder:
        with running(folder, ["--listen", "127.0.0.2", "--longest", "10"], "127.0.0.2"):
            with contextlib.suppress(ConnectionRefusedError):
                exchange(b"")
                sys.exit("it takes connections at 127.0.0.1 too")
            answered, port = exchange(b"FRAME alpha 1 10\n0123456789FRAME alpha 2 11\n", "127.0.0.2")
            expect("a frame of ten bytes and one of eleven", answered, b"RECEIPT alpha 1\n")
            expect("what is said of it", said_lines(folder, 1), [f"127.0.0.1:{port}: frame 2 has 11 bytes, and at most 10 are taken"])
        for more, status, end in NO_WORDS:
            done = subprocess.run(receiver_words(folder, more), stderr=subprocess.PIPE, text=True)
            expect(f"the words {more}", (done.returncode, done.stderr.rstrip("\n").endswith(end), "Traceback" in done.stderr), (status, True, False))


def try_drain():
    """Stories that newsdesk drains to it."""
    with tempfile.TemporaryDirectory() as folder:
        drain = ["drain", "news", "alpha", f"127.0.0.1:{PORT}"]
        newsdesk(folder, ["init", "news", STORE])
        subscriber = {"by": "admin", "number": 1, "do": "add_subscriber", "subscriber": "alpha", "format": "ninjs", "products": ["all"]}
        newsdesk(folder, ["batch", "news"], json.dumps(subscriber) + "\n" + flash(2, "One") + flash(3, "Two"))
        with running(folder):
            expect("the first drain", newsdesk(folder, drain), (0, "alpha 1 delivered\nalpha 2 delivered\n"))
            expect("a drain with nothing due", newsdesk(folder, drain), (0, ""))
        newsdesk(folder, ["batch", "news"], flash(4, "Three"))
        expect("a drain without a receiver", newsdesk(folder, drain), (10, 'alpha 3 link-fault\n{"status":10}\n'))
        expect("the queue", newsdesk(folder, ["queue", "news"]), (0, "alpha length 3 acked 2 tries 1 retrying\n"))
        with running(folder):
            time.sleep(61)
            newsdesk(folder, ["batch", "news"], flash(5, "Four"))
            expect("the last drain", newsdesk(folder, drain), (0, "alpha 3 delivered\nalpha 4 delivered\n"))
            expect("what is said of a drain", said_lines(folder, 0), [])
        held = os.path.join(folder, "held")
        expect("the files", sorted(os.listdir(held)), ["1", "2", "3", "4"])
        for place, headline in enumerate(["One", "Two", "Three", "Four"], 1):
            with open(os.path.join(held, str(place)), encoding="utf-8") as file:
                expect(f"frame {place}", json.load(file)["headline"], headline)


def main():
    try_frames()
    try_words()
    print("what was no frame was said in a line, and the next connection was taken")
    try_drain()
    print("each frame was kept once, in order")


if __name__ == "__main__":
    main()
