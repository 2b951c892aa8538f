#!/usr/bin/env python3
"""`newsdesk pack` of a log in memory: a feed of 70,000 flashes, each pushed once and acknowledged.

The attempts and receipts are written behind the log by this script, as the workers would keep them. Packing is timed without opening:
the time of `check` of the same log is taken off. Then `check` of the packed store against `check` of its log, and what an attempt or a
receipt takes in the side.
"""
import os
import shutil
import struct
import subprocess
import sys
import tempfile
import time

FLASHES = 70_000
RUNS = 9
TOP = os.path.dirname(os.path.dirname(os.path.abspath(__file__)))
NEWSDESK = os.path.join(TOP, "newsdesk")
STORE = "6ba7b810-9dad-11d1-80b4-00c04fd430c8"
SUBSCRIBER = '{"by":"admin","number":1,"do":"add_subscriber","subscriber":"alpha","format":"ninjs","products":["all"]}\n'
FLASH = '{"by":"admin","number":%d,"do":"flash","story":{"headline":"Fire %d","slugline":"fire","language":"en","urgency":3,"body":"Smoke."}}\n'
ATTEMPT, RECEIPT = 2, 3


def run(*words, given=None):
    """How long a command takes."""
    before = time.monotonic()
    done = subprocess.run([NEWSDESK, *words], stdin=given, stdout=subprocess.DEVNULL)
    if done.returncode:
        sys.exit(f"{words[0]} ended with status {done.returncode}")
    return time.monotonic() - before


def make(log):
    """A store with a subscriber and its flashes."""
    with tempfile.TemporaryFile("w+", dir="/dev/shm") as lines:
        lines.write(SUBSCRIBER)
        lines.writelines(FLASH % (k, k) for k in range(2, FLASHES + 2))
        lines.seek(0)
        run("init", log, STORE)
        run("batch", log, given=lines)


def push(log):
    """Writes an attempt and a receipt for each entry of the feed behind the log."""
    moment = int(time.time()) + 1
    records = []
    for k in range(1, FLASHES + 1):
        for tag in (ATTEMPT, RECEIPT):
            payload = struct.pack(">QB", moment, tag) + b"\x05alpha" + struct.pack(">I", k)
            records.append(struct.pack(">I", len(payload)) + payload)
    with open(log, "r+b") as file:
        file.seek(-1, os.SEEK_END)
        # The gate behind a record is 1 where another one follows.
        file.write(b"\x01" + b"\x01".join(records) + b"\x00")


def packed(log, folder, name):
    """Packs a copy of a log: the copy, and the least time that it took."""
    least = None
    for turn in range(RUNS):
        copy = os.path.join(folder, f"{name}{turn}")
        shutil.copy(log, copy)
        time_of_it = run("pack", copy)
        least = min(least or time_of_it, time_of_it)
    return copy, least


def checked(store):
    return min(run("check", store) for _ in range(RUNS))


def main():
    with tempfile.TemporaryDirectory(dir="/dev/shm") as folder:
        log = os.path.join(folder, "log")
        make(log)
        flashes, _ = packed(log, folder, "flashes")
        push(log)
        size = os.path.getsize(log)
        opening = checked(log)
        store, packing = packed(log, folder, "all")
        again = checked(store)
        side = os.path.getsize(store + ".side")
        small = (side - os.path.getsize(flashes + ".side")) / (2 * FLASHES)
        print(f"pack: {3 * FLASHES + 1} entries, a log of {size} bytes, at {size / (packing - opening) / 1e6:.0f} MB/s beside opening; the aim is 100")
        print(f"a side of {side} bytes, {side / size:.2f} of the log; an attempt or a receipt takes {small:.2f} bytes; the aim is 8")
        print(f"opening what is packed takes {again / opening:.2f} of the time of its log; the aim is 1")


main()
