#!/usr/bin/env python3
"""Asks a running newsdesk to stop: stop.py [--key FILE] ADDRESS USER [PID].

ADDRESS is where newsdesk listens, and USER a user with the privilege `stop`; FILE is that of `serve --key`, where the server has one. The
request needs the user's next number: a first one is sent with number 1, and the answer tells what was expected. With PID it then waits
until that process has ended. An empty PID is that of a server that has ended already, as systemd gives it then: nothing is asked.
"""
import http.client
import json
import os
import select
import sys

TRIES = 5


def ask(address, headers, number):
    """The status and the answer of a stop with this number."""
    host, port = address.rsplit(":", 1)
    connection = http.client.HTTPConnection(host, int(port), timeout=60)
    body = json.dumps({"number": number, "do": "stop"})
    try:
        connection.request("POST", "/requests", body, headers)
        response = connection.getresponse()
        text = response.read()
    finally:
        connection.close()
    return response.status, json.loads(text) if text else {}


def next_number(number, answer):
    """The user's next number, where the answer to this one tells it. A `repeat` is that of an earlier stop."""
    if answer.get("denial") == "OutOfTurn":
        return answer["expected"]
    if answer.get("denial") == "NumberUsed" or answer.get("answer") == "repeat":
        return number + 1
    return None


def first_line(file):
    with open(file, encoding="ascii", newline="\n") as lines:
        return lines.readline().removesuffix("\n").removesuffix("\r")


def stop(address, user, key):
    headers = {"X-User": user, "Connection": "close", **({"X-Key": key} if key else {})}
    number = 1
    for _ in range(TRIES):
        status, answer = ask(address, headers, number)
        if answer.get("answer") == "done":
            return
        number = next_number(number, answer)
        if number is None:
            sys.exit(f"stop: {status} {json.dumps(answer)}")
    sys.exit(f"stop: somebody else sends requests as {user}")


def main():
    words, key = sys.argv[1:], None
    if words[:1] == ["--key"]:
        key, words = first_line(words[1]), words[2:]
    address, user, *rest = words
    if rest == [""]:
        return
    process = os.pidfd_open(int(rest[0])) if rest else None
    stop(address, user, key)
    if process is not None:
        # it is readable once the process has ended
        select.select([process], [], [])


try:
    main()
except OSError as error:
    sys.exit(f"stop: {error}")
