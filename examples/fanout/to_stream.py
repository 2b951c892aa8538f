#!/usr/bin/env python3
"""A receiver that gives one feed to a stream of NATS: to_stream.py NAME PORT [--listen ADDRESS] [--servers HOST:PORT,..].

It listens on ADDRESS, 127.0.0.1 where none is given, at PORT, and keeps nothing of its own: the stream NAME is its store. Entry k is
published with the word that the stream has k - 1 entries, so the stream itself takes each entry once, in order, whoever sends it, and the
receipt is how many it has. Where no server gives an answer in time the connection is closed without a receipt, and newsdesk sends the
frame again; standard error gets a line that says why.

The stream is one that make_stream.py has made. The password of the user `receiver` is in the environment, as RECEIVER_PASSWORD.
"""
import argparse
import json
import os
import re
import socket
import socketserver
import sys

sys.path.insert(0, os.path.dirname(os.path.dirname(os.path.abspath(__file__))))
from make_stream import settings  # noqa: E402
from nats_streams import SERVERS, NoAnswer, Streams  # noqa: E402
from receiver import LONGEST_PAYLOAD, Connection  # noqa: E402

# an error of a stream that has another number of entries than was expected, and what it says
WRONG_LAST_SEQUENCE = 10071
HAS = re.compile(r"wrong last sequence: (\d+)")


def await_stream(streams, name):
    """Waits until the stream answers. One with other settings than those of a feed ends the program."""
    while True:
        try:
            config = streams.tell(f"$JS.API.STREAM.INFO.{name}")["config"]
        except NoAnswer as error:
            print(error, file=sys.stderr, flush=True)
            continue
        others = [key for key, value in settings(name).items() if config.get(key) != value]
        if others:
            sys.exit(f"the stream {name} has another {', '.join(others)} than make_stream.py gives it")
        return


def offer(streams, name, k, payload):
    """Offers entry k to a stream, which takes it behind k - 1 others alone. Tells how many it has then."""
    answer = streams.tell(f"newsdesk.{name}", payload, {"Nats-Expected-Last-Sequence": k - 1})
    error = answer.get("error", {})
    has = HAS.fullmatch(error.get("description", ""))
    if error.get("err_code") == WRONG_LAST_SEQUENCE and has:
        return int(has[1])
    if answer.get("seq") != k:
        raise NoAnswer(f"entry {k} is answered {json.dumps(answer)}")
    return k


class FeedConnection(Connection):
    """A connection of newsdesk, which has one of its own to the streams."""

    def handle(self):
        """One frame after another, each answered with how many entries the stream has."""
        streams = self.server.streams()
        try:
            while frame := self.read_frame():
                self.reply(self.take(streams, *frame))
        except (OSError, NoAnswer) as error:
            self.complain(error)
        finally:
            streams.close()

    def take(self, streams, name, k, payload):
        if name == self.server.name:
            return offer(streams, name.decode(), k, payload)
        return streams.tell(f"$JS.API.STREAM.INFO.{self.server.name.decode()}")["state"]["last_seq"]


class StreamReceiver(socketserver.ThreadingTCPServer):
    allow_reuse_address = daemon_threads = True

    def __init__(self, name, port, listen, streams):
        self.address_family = socket.AF_INET6 if ":" in listen else socket.AF_INET
        super().__init__((listen, port), FeedConnection)
        self.name, self.longest, self.streams = name.encode(), LONGEST_PAYLOAD, streams


def main():
    words = argparse.ArgumentParser(description="Receives the feed of NAME, and gives it to the stream NAME.")
    words.add_argument("name", metavar="NAME")
    words.add_argument("port", metavar="PORT", type=int)
    words.add_argument("--listen", metavar="ADDRESS", default="127.0.0.1", help="the address to listen on (%(default)s)")
    words.add_argument("--servers", metavar="HOST:PORT,..", default=SERVERS, help="the servers of NATS (%(default)s)")
    given = words.parse_args()

    def streams():
        return Streams(given.servers.split(","), "receiver", os.environ["RECEIVER_PASSWORD"])

    await_stream(streams(), given.name)
    with StreamReceiver(given.name, given.port, given.listen, streams) as receiver:
        receiver.serve_forever()


if __name__ == "__main__":
    main()
