#!/usr/bin/env python3
"""What a client may cost `newsdesk serve`: door.py PROGRAM STORE.

PROGRAM serves STORE, which is made by `init` if it is not there, at a port of this machine. Then

- sixty clients send a byte a second each, and another one asks beside them, again and again;
- requests whose end two readers may see at different places are sent, each with one behind it, and the statuses of the answers are compared;
- the sixty are closed behind their minute;
- 2,000 connections are made over which nothing is sent, and one more asks;
- PROGRAM serves STORE again, with `--key`, and requests with and without the key are sent; files without a key are refused.

Prints a line for each, and exits with 1 where one is not as it should be. It takes a minute and a half.
"""
import os
import resource
import socket
import subprocess
import sys
import tempfile
import threading
import time

sys.dont_write_bytecode = True
from ports import free_port  # noqa: E402

UUID = "6ba7b810-9dad-11d1-80b4-00c04fd430c8"
SLOW, FLOOD, HELD = 60, 2_000, 64
# how long a request may take, and how long the slow ones are waited for
MINUTE, UNTIL = 60, 64
# the longest that the asking one may wait, beside the slow ones and beside the flood
SOON, AT_LAST = 1.0, 45.0

QUEUE = b"GET /queue HTTP/1.1\r\nX-User: admin\r\n\r\n"
LAST = b"GET /queue HTTP/1.1\r\nX-User: admin\r\nConnection: close\r\n\r\n"


def post(body, *lines):
    head = b"".join(line + b"\r\n" for line in (b"POST /requests HTTP/1.1", b"X-User: admin", *lines))
    return head + b"\r\n" + body


def long(body):
    return b"Content-Length: %d" % len(body)


def with_key(request, key, name=b"X-Key"):
    """The request with this line behind its first one."""
    first, rest = request.split(b"\r\n", 1)
    return b"%b\r\n%b: %b\r\n%b" % (first, name, key, rest)


# what is sent, in pieces, and the statuses of the answers. Behind what is no request nothing is answered.
SHAPES = {
    "two lengths that differ": ([post(b"{}", b"Content-Length: 2", long(b"{}" + LAST)) + LAST], [400]),
    "two lengths that differ, the longer one first": ([post(b"{}" + LAST, long(b"{}" + LAST), b"Content-Length: 2")], [400]),
    "one length twice": ([post(b"{}", long(b"{}"), long(b"{}")) + LAST], [400, 200]),
    "a length with a sign": ([post(b"{}", b"Content-Length: +2") + LAST], [400]),
    "a list of lengths": ([post(b"{}", b"Content-Length: 2, 2") + LAST], [400]),
    "a length of 4194305": ([post(b"{}", b"Content-Length: 4194305") + LAST], [413]),
    "a space before the colon": ([post(b"{}", b"Content-Length : 2") + LAST], [400]),
    "a length and a coding": ([post(b"0\r\n\r\n", b"Content-Length: 5", b"Transfer-Encoding: chunked") + LAST], [501]),
    "a coding and a length": ([post(b"0\r\n\r\n", b"Transfer-Encoding: chunked", b"Content-Length: 5") + LAST], [501]),
    "a coding of another name": ([post(b"0\r\n\r\n", b"Transfer-Encoding: xchunked") + LAST], [501]),
    "a folded line": ([post(b"{}", b"Content-Length: 2", b"X-More: a\r\n b") + LAST], [400]),
    "a folded length": ([post(b"{}", b"Content-Length:\r\n 2") + LAST], [400]),
    "a bare carriage return": ([post(b"{}", b"X-More: a\rContent-Length: 2") + LAST], [400]),
    "a zero byte": ([post(b"{}", b"X-More: a\0b") + LAST], [400]),
    "a body that is a request": ([post(QUEUE, long(QUEUE)) + LAST], [400, 200]),
    "a body that ends as a head does": ([post(b"\r\n\r\n", long(b"\r\n\r\n")) + LAST], [400, 200]),
    "line feeds alone": ([LAST.replace(b"\r\n", b"\n")], [200]),
    "empty lines before a request": ([b"\r\n\n" + QUEUE + b"\r\n" + LAST], [200, 200]),
    "one and a half, and the other half": ([QUEUE + LAST[:30], LAST[30:]], [200, 200]),
    "a head without its last byte": ([QUEUE[:-1], QUEUE[-1:] + LAST], [200, 200]),
    "a body byte by byte": ([post(b"", b"Content-Length: 2"), b"{", b"}", LAST], [400, 200]),
    "64 at once, and one more": ([64 * QUEUE + LAST], 64 * [200]),
}


KEY = b"0123456789abcdef"
# so are these, of a server that asks for the key: a request without it is answered 403, and nothing behind it
KEYS = {
    "no key": ([LAST], [403]),
    "a wrong key of the same length": ([with_key(LAST, KEY[:-1] + b"0")], [403]),
    "the key without its last byte": ([with_key(LAST, KEY[:-1])], [403]),
    "the key and one byte more": ([with_key(LAST, KEY + b"0")], [403]),
    "an empty key": ([with_key(LAST, b"")], [403]),
    "the right key": ([with_key(LAST, KEY)], [200]),
    "the right key in capitals": ([with_key(LAST, KEY.upper())], [403]),
    "the right key under a name in capitals, with blanks around it": ([with_key(LAST, b"\t " + KEY + b" \t", b"X-KEY")], [200]),
    "a space before the colon of the key": ([with_key(LAST, KEY, b"X-Key ")], [403]),
    "a folded key": ([with_key(LAST, b"\r\n " + KEY)], [403]),
    "the right key twice": ([with_key(with_key(LAST, KEY), KEY)], [403]),
    "a wrong key and the right one": ([with_key(with_key(LAST, KEY), KEY[::-1])], [403]),
    "the right key and a wrong one": ([with_key(with_key(LAST, KEY[::-1]), KEY)], [403]),
    "the right key in a body alone": ([post(with_key(LAST, KEY), long(with_key(LAST, KEY)))], [403]),
    "the right key twice behind each other": ([with_key(QUEUE, KEY) + with_key(LAST, KEY)], [200, 200]),
    "the right key, none, and the right one": ([with_key(QUEUE, KEY) + QUEUE + with_key(LAST, KEY)], [200, 403]),
    "the right key, and later none": ([with_key(QUEUE, KEY), QUEUE], [200, 403]),
    "the right key with a body, and none": ([with_key(post(b"{}", b"Content-Length: 2"), KEY) + LAST], [400, 403]),
    "half a head with the right key": ([with_key(QUEUE, KEY)[:-10], with_key(QUEUE, KEY)[-10:] + with_key(LAST, KEY)], [200, 200]),
    "the right key and a length with a sign": ([with_key(post(b"{}", b"Content-Length: +2"), KEY) + LAST], [400]),
    "no key and a length with a sign": ([post(b"{}", b"Content-Length: +2") + LAST], [403]),
    "the right key, and a head of 16384 bytes without an end": ([with_key(QUEUE, KEY) + QUEUE[:-2] + 16_384 * b"a"], [200, 403]),
    "the right key, 64 at once, and one more": ([64 * with_key(QUEUE, KEY) + with_key(LAST, KEY)], 64 * [200]),
}
# what a file has for which no server starts, and the status that tells it; nothing where there is no file
NO_KEYS = {
    "no file for the key": (None, 6),
    "an empty file for the key": (b"", 2),
    "a key behind an empty line": (b"\n" + KEY, 2),
    "a key of 1025 bytes": (1_025 * b"a" + b"\n", 2),
    "a key with a space": (KEY + b" " + KEY + b"\n", 2),
    "a key with a byte above 126": (KEY + b"\x7f\n", 2),
}


class Rows:
    def __init__(self):
        self.failed = False

    def add(self, name, seen, is_so):
        self.failed |= not is_so
        print(f"{'ok  ' if is_so else 'FAIL'} {name}: {seen}", flush=True)


class Client:
    """A connection whose answers are read one after the other."""

    def __init__(self, port, patience=10.0):
        self.socket = socket.create_connection(("127.0.0.1", port), timeout=patience)
        self.bytes = b""

    def send(self, piece):
        try:
            self.socket.sendall(piece)
        except OSError:
            pass  # it has been closed meanwhile: its answers tell

    def more(self):
        try:
            piece = self.socket.recv(65_536)
        except ConnectionError:
            return False
        self.bytes += piece
        return piece != b""

    def status(self):
        """The status of the next answer; None at the end."""
        while b"\r\n\r\n" not in self.bytes:
            if not self.more():
                return None
        head, rest = self.bytes.split(b"\r\n\r\n", 1)
        lines = head.decode("ascii").split("\r\n")
        length = next(int(line.split(":")[1]) for line in lines if line.lower().startswith("content-length:"))
        while len(rest) < length:
            self.bytes = b""
            if not self.more():
                return None
            rest += self.bytes
        self.bytes = rest[length:]
        return int(lines[0].split(" ")[1])

    def statuses(self):
        """Those of all answers, up to the end of the connection."""
        seen = []
        while (status := self.status()) is not None:
            seen.append(status)
        return seen

    def is_closed(self):
        """Whether the server has closed it; nothing was answered."""
        self.socket.settimeout(0.0)
        try:
            return self.socket.recv(1) == b""
        except BlockingIOError:
            return False
        except ConnectionError:
            return True

    def close(self):
        self.socket.close()


def ask(port, patience):
    """How long it takes to connect, to ask and to be answered, and the status; None where it takes longer."""
    start = time.monotonic()
    try:
        client = Client(port, patience)
    except OSError:
        return patience, None
    try:
        client.send(LAST)
        status = client.status()
    except OSError:
        status = None
    client.close()
    return time.monotonic() - start, status


def told(pieces, port):
    """The statuses of the answers to some pieces, each of which is sent a while behind the one before."""
    client = Client(port)
    try:
        for number, piece in enumerate(pieces):
            time.sleep(0.1 if number else 0.0)
            client.send(piece)
        return client.statuses()
    except OSError:
        return "no end"
    finally:
        client.close()


def drip(clients, until):
    """Sends a byte a second over each, of a head that does not end."""
    text = QUEUE[:-2] + b"X-More: " + 100 * b"a"
    for byte in text:
        for client in clients:
            client.send(bytes((byte,)))
        if until.wait(1.0):
            return


def beside_slow(rows, port):
    """The slow clients, and what is asked and refused beside them."""
    start = time.monotonic()
    clients = [Client(port) for _ in range(SLOW)]
    until = threading.Event()
    thread = threading.Thread(target=drip, args=(clients, until))
    thread.start()
    try:
        time.sleep(2.5)
        asked = [ask(port, 10.0) for _ in range(20)]
        longest = max(took for took, _ in asked)
        rows.add(f"20 questions beside {SLOW} clients of a byte a second", f"at most {1000 * longest:.1f} ms",
                 longest < SOON and all(status == 200 for _, status in asked))
        for name, (pieces, wanted) in SHAPES.items():
            seen = told(pieces, port)
            rows.add(name, seen if len(seen) < 9 else f"{len(seen)} answers", seen == wanted)
        early = sum(client.is_closed() for client in clients)
        took = time.monotonic() - start
        rows.add(f"slow clients that are closed behind {took:.0f} s", early, early == 0 or took >= MINUTE)
        time.sleep(max(0.0, start + UNTIL - time.monotonic()))
        late = sum(client.is_closed() for client in clients)
        rows.add(f"slow clients that are closed behind {UNTIL} s", late, late == SLOW)
    finally:
        until.set()
        thread.join()
        for client in clients:
            client.close()


def flood(rows, port, process):
    """Connections over which nothing is sent, as many as the system lets wait."""
    most = min(FLOOD, resource.getrlimit(resource.RLIMIT_NOFILE)[0] - 100)
    sockets = []
    for _ in range(most):
        one = socket.socket()
        one.setblocking(False)
        one.connect_ex(("127.0.0.1", port))
        sockets.append(one)
    time.sleep(0.5)
    files = len(os.listdir(f"/proc/{process.pid}/fd"))
    rows.add(f"open files of the server beside {most} silent connections", files, files < HELD + 30)
    took, status = ask(port, AT_LAST)
    rows.add("a question beside them", f"{took:.2f} s", status == 200)
    for one in sockets:
        one.close()
    time.sleep(0.5)
    took, status = ask(port, 10.0)
    rows.add("a question behind them", f"{1000 * took:.1f} ms", status == 200 and took < SOON)


def wait_for(port, status):
    for _ in range(600):
        if ask(port, 10.0)[1] == status:
            return
        time.sleep(0.1)
    sys.exit("the server does not answer after a minute")


def keyed(rows, program, store):
    """A server that asks for a key, and files in which there is none."""
    address = f"127.0.0.1:{free_port()}"
    with tempfile.TemporaryDirectory() as folder:
        for number, (name, (content, wanted)) in enumerate(NO_KEYS.items()):
            file = os.path.join(folder, str(number))
            if content is not None:
                with open(file, "wb") as out:
                    out.write(content)
            words = [program, "serve", "--key", file, store, address, "1"]
            done = subprocess.run(words, stdout=subprocess.PIPE, stderr=subprocess.PIPE, text=True, timeout=60)
            told_so = (done.returncode, done.stdout, done.stderr.count("\n")) == (wanted, f'{{"status":{wanted}}}\n', 1)
            rows.add(name, f"{done.returncode} {done.stderr.strip()}", told_so)
        file = os.path.join(folder, "key")
        for end in (b"", b"\n", b"\r\n", b"\nsecond\n"):
            with open(file, "wb") as out:
                out.write(KEY + end)
            asked_for_key(rows, [program, "serve", "--key", file, store], KEYS if end == b"\n" else {"the right key": KEYS["the right key"]})
        for words in (["check", "--key", file, store], ["serve", "--key", file, "--key", file, store, address, "1"], ["serve", "--key", store]):
            done = subprocess.run([program, *words], stdout=subprocess.PIPE, text=True, timeout=60)
            rows.add(" ".join(word for word in words if word not in (file, store, address)), done.returncode, done.returncode == 2)


def asked_for_key(rows, words, shapes):
    port = free_port()
    with subprocess.Popen([*words, f"127.0.0.1:{port}", "1"], stdout=subprocess.DEVNULL, stderr=subprocess.DEVNULL) as process:
        try:
            wait_for(port, 403)
            for name, (pieces, wanted) in shapes.items():
                seen = told(pieces, port)
                rows.add(name, seen if len(seen) < 9 else f"{len(seen)} answers", seen == wanted)
        finally:
            process.kill()


def memory(process):
    with open(f"/proc/{process.pid}/status", encoding="ascii") as file:
        return next(line.split(":")[1].strip() for line in file if line.startswith("VmHWM:"))


def main():
    if len(sys.argv) != 3:
        sys.exit("door.py PROGRAM STORE")
    program, store = sys.argv[1:]
    soft, hard = resource.getrlimit(resource.RLIMIT_NOFILE)
    wanted = FLOOD + 200
    if soft < wanted:
        resource.setrlimit(resource.RLIMIT_NOFILE, (wanted if hard == resource.RLIM_INFINITY else min(wanted, hard), hard))
    if not os.path.exists(store):
        subprocess.run([program, "init", store, UUID], check=True)
    rows, port, start = Rows(), free_port(), time.monotonic()
    with tempfile.TemporaryFile() as said:
        words = [program, "serve", store, f"127.0.0.1:{port}", "1"]
        with subprocess.Popen(words, stdout=subprocess.DEVNULL, stderr=said) as process:
            try:
                wait_for(port, 200)
                beside_slow(rows, port)
                flood(rows, port, process)
                rows.add("the server's memory at most", memory(process), process.poll() is None)
            finally:
                process.kill()
        said.seek(0)
        lines = said.read().decode("utf-8", "replace").splitlines()
    minutes = (time.monotonic() - start) / 60
    rows.add("lines on standard error", len(lines), len(lines) <= minutes + 1)
    for line in lines:
        print("    " + line)
    keyed(rows, program, store)
    sys.exit(rows.failed)


main()
