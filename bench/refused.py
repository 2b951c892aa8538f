#!/usr/bin/env python3
"""A session with every command, once for each allocation of `newsdesk batch`, which is refused.

The run has to end with status 9 and the answers so far, or with 0 and all of them. The lines that were not answered are then sent to
the log that it left, and the log has to be, byte for byte, the one that the session makes when nothing is refused.

Then `newsdesk drain` of a flashed story, with its claim and its receipt, and `newsdesk pack` behind it, once for each of their allocations.
Each has to end with status 9, or as it does when nothing is refused, or, where a connection wanted the memory, with a link that
failed; once more without refusal, the receiver has the story, and the list is as long behind the packing as before it.
"""
import json
import os
import socket
import subprocess
import sys
import tempfile
import threading

AT = "1893456000"
TOP = os.path.dirname(os.path.dirname(os.path.abspath(__file__)))
NEWSDESK = os.path.join(TOP, "newsdesk")
NO_MEMORY = 9
# a connection for whose buffer there is no memory is one that could not be made
FAILED_LINK = 10


def page_lines():
    """The examples of docs/LINES.md: the session of desk_sessions that says so."""
    with open(os.path.join(TOP, "crates/desk_sessions/stdin"), encoding="utf-8") as sessions:
        session = sessions.read().partition("# The examples of docs/LINES.md")[2].split("\n#")[0]
    lines = [line for line in session.splitlines(keepends=True) if line.startswith("{")]
    assert lines, "desk_sessions has no session of the examples of docs/LINES.md"
    return lines


class Store:
    """A store in memory, and runs of the program on it."""

    def __init__(self, folder):
        self.log = os.path.join(folder, "log")
        self.mark = os.path.join(folder, "mark")
        self.shim = os.path.join(folder, "refuse.so")
        source = os.path.join(TOP, "bench/refused/refuse.c")
        subprocess.run(["cc", "-O2", "-shared", "-fPIC", "-o", self.shim, source, "-ldl"], check=True)
        self.program = os.path.join(TOP, "crates/newsdesk/out/newsdesk")
        subprocess.run([NEWSDESK, "--version"], check=True, stdout=subprocess.DEVNULL)

    def run(self, words, lines="", refuse=None, at=AT):
        env = {**os.environ, "LD_PRELOAD": self.shim, "AT": at, "MARK": self.mark}
        if refuse:
            env["REFUSE"] = str(refuse)
        return subprocess.run([self.program, *words], input=lines, capture_output=True, text=True, env=env)

    def begin(self):
        for path in (self.log, self.log + ".side", self.mark):
            if os.path.exists(path):
                os.remove(path)
        self.run(["init", self.log, "6ba7b810-9dad-11d1-80b4-00c04fd430c8"]).check_returncode()

    def bytes(self):
        with open(self.log, "rb") as log:
            return log.read()

    def was_refused(self):
        return os.path.exists(self.mark)


def answered(run):
    """The answers of a run that was refused memory, or found it elsewhere."""
    lines = run.stdout.splitlines()
    if run.returncode == NO_MEMORY and lines and json.loads(lines[-1]) == {"status": NO_MEMORY}:
        return lines[:-1]
    if run.returncode == NO_MEMORY and not lines:
        return []
    return lines if run.returncode == 0 else None


STORY = [
    '{"by":"admin","number":1,"do":"add_subscriber","subscriber":"alpha","format":"ninjs","products":["all"]}\n',
    '{"by":"admin","number":2,"do":"flash","story":{"headline":"Fire","slugline":"fire","language":"en","urgency":3,"body":"Smoke."}}\n',
    # it is published, and so denied
    '{"by":"admin","number":3,"do":"deschedule","item":1}\n',
]


class Receiver:
    """A receiver of `alpha` in this process: how many entries of its feed it has."""

    def __init__(self):
        self.count = 0
        self.door = socket.create_server(("127.0.0.1", 0))
        self.address = "127.0.0.1:%d" % self.door.getsockname()[1]
        threading.Thread(target=self.serve, daemon=True).start()

    def serve(self):
        while True:
            connection, _ = self.door.accept()
            with connection, connection.makefile("rb") as frames:
                for heading in frames:
                    _, name, k, length = heading.split(b" ")
                    if len(frames.read(int(length))) < int(length):
                        break
                    if int(k) == self.count + 1:
                        self.count += 1
                    connection.sendall(b"RECEIPT %s %d\n" % (name, self.count))


def entries(store):
    """How many entries the store's list has."""
    checked = store.run(["check", store.log])
    checked.check_returncode()
    return json.loads(checked.stdout.splitlines()[-1])


def refuse_each(store, words, receiver, statuses, is_right):
    """Does a command once for each of its allocations, which is refused: how many there were. It ends with one of these statuses."""
    number = 0
    while True:
        number += 1
        receiver.count = 0
        store.begin()
        store.run(["batch", store.log], "".join(STORY)).check_returncode()
        if words[0] == "pack":
            store.run(["drain", store.log, "alpha", receiver.address]).check_returncode()
        before = entries(store)
        run = store.run(words, refuse=number)
        was_refused = store.was_refused()
        if run.returncode not in statuses or not is_right(store, before):
            sys.exit(f"{words[0]}, allocation {number}: status {run.returncode}, {run.stdout}{run.stderr}")
        if not was_refused:
            return number - 1


def is_delivered(store, receiver):
    """Whether the story arrives behind a drain that was refused memory. Its next attempt waits for the feed's delay."""
    late = store.run(["drain", store.log, "alpha", receiver.address], at="1893556000")
    return late.returncode == 0 and receiver.count == 1


def main():
    lines = page_lines()
    with tempfile.TemporaryDirectory(dir="/dev/shm") as folder:
        store = Store(folder)
        store.begin()
        whole = store.run(["batch", store.log], "".join(lines))
        whole.check_returncode()
        wanted, log = whole.stdout.splitlines(), store.bytes()
        number = starved = 0
        while True:
            number += 1
            store.begin()
            run = store.run(["batch", store.log], "".join(lines), number)
            if not store.was_refused():
                break
            given = answered(run)
            if given is None or given != wanted[: len(given)] or (run.returncode == 0) != (given == wanted):
                sys.exit(f"allocation {number}: status {run.returncode}, {run.stdout}{run.stderr}")
            starved += run.returncode == NO_MEMORY
            rest = store.run(["batch", store.log], "".join(lines[len(given):]))
            if rest.returncode or store.bytes() != log:
                sys.exit(f"allocation {number}: the session went on to another log: {rest.stdout}")
        print(f"{number - 1} allocations were refused, {starved} runs ended for want of memory, and no list was another one")
        receiver = Receiver()
        drain = ["drain", store.log, "alpha", receiver.address]
        number = refuse_each(store, drain, receiver, (0, NO_MEMORY, FAILED_LINK), lambda store, before: is_delivered(store, receiver))
        print(f"drain: {number} allocations were refused, and the story arrived each time")
        number = refuse_each(store, ["pack", store.log], receiver, (0, NO_MEMORY), lambda store, before: entries(store) == before)
        print(f"pack: {number} allocations were refused, and no list was another one")


main()
