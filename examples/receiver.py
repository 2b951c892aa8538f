#!/usr/bin/env python3
"""A receiver of one feed, in plain Python: receiver.py NAME FOLDER PORT [--listen ADDRESS] [--longest BYTES].

It listens on ADDRESS, 127.0.0.1 where none is given, at PORT, and keeps the payload of each frame once, in order, as the file FOLDER/K for
frame K of the feed. A frame counts once its file stands under its own name, synced: so a stop at any moment loses nothing that was
receipted, and what is sent again is not kept again. It takes several connections beside each other, since each worker of a server has one
of its own. What is no frame, or has a payload of more than BYTES, ends its connection: standard error gets a line that says why, and the
other connections, and those that come later, are taken as before. BYTES is the most that a frame may have, where no fewer are given.
"""
import argparse
import os
import re
import socket
import socketserver
import sys
import threading

# no frame has a longer payload, a longer first line or a greater number
LONGEST_PAYLOAD, LONGEST_HEADING, MOST_FRAMES = 4_194_240, 61, 4_294_967_295
HEADING = re.compile(rb"FRAME ([a-z0-9_-]{1,32}) ([1-9][0-9]{0,9}) (0|[1-9][0-9]{0,9})\n")


def keep(folder, k, payload):
    path = os.path.join(folder, str(k))
    with open(path + ".new", "wb") as file:
        file.write(payload)
        file.flush()
        os.fsync(file.fileno())
    os.rename(path + ".new", path)
    descriptor = os.open(folder, os.O_RDONLY)
    os.fsync(descriptor)
    os.close(descriptor)


def say(peer, why):
    print(f"{peer[0]}:{peer[1]}: {why}", file=sys.stderr, flush=True)


class Connection(socketserver.StreamRequestHandler):
    def handle(self):
        """One frame after another. Each is answered with a receipt of all that is kept; where what comes is no frame, the
        connection is closed."""
        try:
            while frame := self.read_frame():
                self.reply(self.server.take(*frame))
        except OSError as error:
            self.complain(f"{error.strerror or error}")

    def read_frame(self):
        """A name, a number and a payload: `FRAME NAME K LENGTH`, a line feed, and LENGTH bytes. Nothing behind the last frame, and where
        what comes is no frame."""
        line = self.rfile.readline(LONGEST_HEADING)
        if not line:
            return None
        heading = HEADING.fullmatch(line)
        if heading is None:
            return self.complain(f"no frame begins with {line!r}")
        name, k, length = heading[1], int(heading[2]), int(heading[3])
        if k > MOST_FRAMES:
            return self.complain(f"a feed has no frame {k}")
        if length > self.server.longest:
            return self.complain(f"frame {k} has {length} bytes, and at most {self.server.longest} are taken")
        payload = self.rfile.read(length)
        if len(payload) < length:
            return self.complain(f"the connection ended {length - len(payload)} bytes before the end of frame {k}")
        return name, k, payload

    def complain(self, why):
        """Says what was wrong; the connection is closed then."""
        say(self.client_address, why)

    def reply(self, count):
        self.wfile.write(b"RECEIPT %s %d\n" % (self.server.name, count))


class Receiver(socketserver.ThreadingTCPServer):
    allow_reuse_address = daemon_threads = True

    def __init__(self, name, folder, port, connection=Connection, listen="127.0.0.1", longest=LONGEST_PAYLOAD):
        self.address_family = socket.AF_INET6 if ":" in listen else socket.AF_INET
        super().__init__((listen, port), connection)
        os.makedirs(folder, exist_ok=True)
        self.name, self.folder, self.longest = name.encode(), folder, longest
        self.count = sum(file.isdigit() for file in os.listdir(folder))
        self.turn = threading.Lock()

    def handle_error(self, request, client_address):
        """Where a connection cannot be taken up, as where there is no thread for it: a line as any other."""
        say(client_address, sys.exc_info()[1])

    def take(self, name, k, payload):
        """Keeps a frame where it is the next one of the feed. Tells how many are kept."""
        with self.turn:
            if name == self.name and k == self.count + 1:
                keep(self.folder, k, payload)
                self.count = k
            return self.count


def up_to(most):
    def number(word):
        if not word.isdecimal() or int(word) > most:
            raise argparse.ArgumentTypeError(f"not a number from 0 to {most}")
        return int(word)

    return number


def main():
    words = argparse.ArgumentParser(description="Receives the feed of NAME, and keeps its frames as files of FOLDER.")
    words.add_argument("name", metavar="NAME")
    words.add_argument("folder", metavar="FOLDER")
    words.add_argument("port", metavar="PORT", type=up_to(65_535))
    words.add_argument("--listen", metavar="ADDRESS", default="127.0.0.1", help="the address to listen on (%(default)s)")
    words.add_argument("--longest", metavar="BYTES", type=up_to(LONGEST_PAYLOAD), default=LONGEST_PAYLOAD,
                       help="the longest payload that is taken (%(default)s)")
    given = words.parse_args()
    try:
        receiver = Receiver(given.name, given.folder, given.port, listen=given.listen, longest=given.longest)
    except OSError as error:
        sys.exit(f"{given.listen}:{given.port}: {error.strerror or error}")
    with receiver:
        receiver.serve_forever()


if __name__ == "__main__":
    main()
