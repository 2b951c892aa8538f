"""Requests to the streams of a NATS cluster, in plain Python: what the programs of this folder share.

A stream's name is that of the subscriber whose feed it holds, and what is published at `newsdesk.NAME` is an entry of it. A client of NATS
speaks lines of text over TCP: it sends a message with an inbox for the answer, and the answer comes as a message to that inbox.
"""
import json
import secrets
import socket
import time

SERVERS = "127.0.0.1:4222,127.0.0.1:4223,127.0.0.1:4224"
# how long one server is waited for, how long one question is asked again and again, and the pause between two times, in seconds
WAIT, PATIENCE, PAUSE = 5, 18, 0.1


class NoAnswer(Exception):
    """Why no server gave an answer that counts."""


class Link:
    """A connection to one server, with an inbox of its own."""

    def __init__(self, server, user, password):
        host, port = server.rsplit(":", 1)
        self.socket = socket.create_connection((host, int(port)), timeout=WAIT)
        self.file = self.socket.makefile("rb")
        self.inbox, self.asked = f"_INBOX.{secrets.token_hex(16)}", 0
        options = {"verbose": False, "pedantic": False, "headers": True, "no_responders": True, "user": user, "pass": password}
        self.socket.sendall(f"CONNECT {json.dumps(options)}\r\nSUB {self.inbox}.* 1\r\n".encode())

    def ask(self, subject, body, headers):
        """Sends a message, and reads until its answer has come. Gives the answer's status, empty where it has none, and its body."""
        self.asked += 1
        inbox = f"{self.inbox}.{self.asked}"
        head = "".join(["NATS/1.0\r\n", *(f"{name}: {value}\r\n" for name, value in headers.items()), "\r\n"]).encode()
        self.socket.sendall(f"HPUB {subject} {inbox} {len(head)} {len(head) + len(body)}\r\n".encode() + head + body + b"\r\n")
        while True:
            to, status, answer = self.read_message()
            if to == inbox:
                return status, answer

    def read_message(self):
        """The next message. What a server says between messages is passed over, but its question whether the client is there is answered."""
        while True:
            line = self.file.readline()
            if not line.endswith(b"\n"):
                raise NoAnswer("the server closed the connection")
            word, *words = line.decode().split()
            if word in ("MSG", "HMSG"):
                return self.read_parts(words[0], int(words[-2]) if word == "HMSG" else 0, int(words[-1]))
            if word == "PING":
                self.socket.sendall(b"PONG\r\n")
            elif word not in ("INFO", "PONG"):
                raise NoAnswer(line.decode().strip())

    def read_parts(self, inbox, head, size):
        """A message to an inbox, of so many bytes, the first of which are its head: where it came, its status and its body."""
        text = self.file.read(size + 2)
        if len(text) < size + 2:
            raise NoAnswer("the server closed the connection within a message")
        status = text[:head].partition(b"\r\n")[0].removeprefix(b"NATS/1.0").strip()
        return inbox, status.decode(), text[head:size]

    def close(self):
        self.file.close()
        self.socket.close()


class Streams:
    """The streams, by whichever server answers. It is no object for several threads."""

    def __init__(self, servers, user, password):
        self.servers, self.user, self.password = servers, user, password
        self.link = None

    def ask(self, read, subject, body=b"", headers=None):
        """What `read` makes of an answer's status and body. Where a server gives none, or none that counts, the next one is asked."""
        until = time.monotonic() + PATIENCE
        while True:
            try:
                self.link = self.link or Link(self.servers[0], self.user, self.password)
                return read(*self.link.ask(subject, body, headers or {}))
            except (OSError, NoAnswer) as error:
                self.close()
                self.servers = [*self.servers[1:], self.servers[0]]
                if time.monotonic() > until:
                    raise NoAnswer(f"no answer from {subject}: {error}") from error
            time.sleep(PAUSE)

    def tell(self, *request):
        """An answer that is an object of JSON."""
        return self.ask(read_object, *request)

    def close(self):
        if self.link is not None:
            self.link.close()
        self.link = None


def read_object(status, body):
    """An answer in JSON, where a server could give one. It could not where an error has a code from 500 on, and where it is 404: servers that
    have just been started may not know a stream yet."""
    if status:
        raise NoAnswer(status)
    answer = json.loads(body)
    if answer.get("error", {}).get("code", 0) >= 404:
        raise NoAnswer(answer["error"]["description"])
    return answer
