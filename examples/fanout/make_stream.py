#!/usr/bin/env python3
"""Makes the stream of a feed, once, before its receiver is started: make_stream.py NAME [--servers HOST:PORT,..].

The stream has three replicas and no limit, and no request takes anything out of it. One that is there already has to be just so, and stays.
The password of the user `receiver` is in the environment, as RECEIVER_PASSWORD.
"""
import argparse
import json
import os
import sys

from nats_streams import SERVERS, NoAnswer, Streams


def settings(name):
    """What the stream of a feed has to be."""
    return {
        "name": name,
        "subjects": [f"newsdesk.{name}"],
        "num_replicas": 3,
        "storage": "file",
        "retention": "limits",
        "discard": "new",
        "max_age": 0,
        "max_msgs": -1,
        "max_bytes": -1,
        "max_msg_size": -1,
        "max_msgs_per_subject": -1,
        "deny_delete": True,
        "deny_purge": True,
        "allow_direct": True,
    }


def main():
    words = argparse.ArgumentParser(description="Makes the stream NAME.")
    words.add_argument("name", metavar="NAME")
    words.add_argument("--servers", metavar="HOST:PORT,..", default=SERVERS, help="the servers of NATS (%(default)s)")
    given = words.parse_args()
    streams = Streams(given.servers.split(","), "receiver", os.environ["RECEIVER_PASSWORD"])
    try:
        answer = streams.tell(f"$JS.API.STREAM.CREATE.{given.name}", json.dumps(settings(given.name)).encode())
    except NoAnswer as error:
        sys.exit(f"make_stream: {error}")
    if "error" in answer:
        sys.exit(f"make_stream: {answer['error']['description']}")


if __name__ == "__main__":
    main()
