#!/usr/bin/env python3
"""Reads a stream to which to_stream.py gives a feed: read_stream.py NAME K [--follow] [--servers HOST:PORT,..].

It writes the entries from number K on to standard output, each as the frame that newsdesk sends: `FRAME NAME K LENGTH`, a line feed and
the entry. It ends behind the last one; with --follow it waits for the next one instead. Any server that holds an entry gives it, so where
a reader stands is known to itself alone. The password of the user `reader` is in the environment, as READER_PASSWORD.
"""
import argparse
import json
import os
import sys
import time

from nats_streams import PATIENCE, SERVERS, NoAnswer, Streams

# how long a reader that follows rests where there is nothing new, in seconds
REST = 0.5


def read_entry(status, body):
    """An entry, and none where the server that was asked does not have it yet."""
    if status.startswith("404"):
        return None
    if status:
        raise NoAnswer(status)
    return body


def wait_for(streams, name, k, seconds):
    """Entry k, which a server may come to have later than others."""
    until = time.monotonic() + seconds
    question = json.dumps({"seq": k}).encode()
    while (entry := streams.ask(read_entry, f"entry.{name}", question)) is None:
        if time.monotonic() > until:
            raise NoAnswer(f"the stream {name} gives no entry {k}")
        time.sleep(REST)
    return entry


def entries(streams, name, k, follows):
    """The entries from k on with their numbers: those that the stream has now, or all that ever come."""
    last = float("inf") if follows else streams.tell(f"count.{name}")["state"]["last_seq"]
    while k <= last:
        yield k, wait_for(streams, name, k, last if follows else PATIENCE)
        k += 1


def main():
    words = argparse.ArgumentParser(description="Writes the entries of the stream NAME from number K on.")
    words.add_argument("name", metavar="NAME")
    words.add_argument("k", metavar="K", type=int)
    words.add_argument("--follow", action="store_true", help="wait for entries that are still to come")
    words.add_argument("--servers", metavar="HOST:PORT,..", default=SERVERS, help="the servers of NATS (%(default)s)")
    given = words.parse_args()
    streams = Streams(given.servers.split(","), "reader", os.environ["READER_PASSWORD"])
    try:
        for k, entry in entries(streams, given.name, given.k, given.follow):
            sys.stdout.buffer.write(b"FRAME %s %d %d\n" % (given.name.encode(), k, len(entry)) + entry)
            sys.stdout.buffer.flush()
    except NoAnswer as error:
        sys.exit(f"read_stream: {error}")


if __name__ == "__main__":
    main()
