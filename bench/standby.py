#!/usr/bin/env python3
"""`newsdesk ship` of records to a `stand-in` on a file, against a loop in C that does the two writes and syncs of each, by turns:
standby.py [--records N] [--rounds N] [--slice SECONDS] [FOLDER].

The primary's store lies in memory; the standby and the loop write into FOLDER, a folder of the file system that is to be measured. A round is
one `ship` of all records over loopback: each is sent, kept with two writes and two syncs, and acknowledged, before the next is sent. The loop
keeps as many records of the same length in one file. So that both see the same disk, whatever else works on it, one of them runs for a slice of
time while the other is held (SIGSTOP), and then the one that has kept less goes on. The time of each is that of its slices, from the start of its
program to its end: that of ship has the reading of the primary's list in it. At the end the standby's log has to be the primary's.

What is found is the rate on this disk. Where a sync takes long nearly all time is the disk's, and both are alike; a faster disk shows more of what
ship and stand-in add to each record.
"""
import argparse
import os
import signal
import socket
import statistics
import subprocess
import sys
import tempfile
import time

TOP = os.path.dirname(os.path.dirname(os.path.abspath(__file__)))
NEWSDESK = os.environ.get("NEWSDESK", os.path.join(TOP, "newsdesk"))
STORE = "6ba7b810-9dad-11d1-80b4-00c04fd430c8"
FLASH = '{"by":"admin","number":%d,"do":"flash","story":{"headline":"Fire %06d","slugline":"fire","language":"en","urgency":3,"body":"Smoke."}}\n'
# the bytes of an entry of these, and of its record with the gate and the length in front of it
LENGTH = 53 + len("Fire 100000") + len("fire") + len("en") + len("Smoke.")
RECORD = LENGTH + 5
# where the first record of a file has its gate, which is 1 once the record is kept
FIRST_GATE = 64


class Turns:
    """Programs that keep records in a file, and run for slices of time. They have ended when the last of them has."""

    def __init__(self, path, records):
        self.path, self.records, self.programs, self.seconds, self.is_done = path, records, [], 0.0, False

    def kept(self):
        """How many records the file has. Each is as long as the others, so the first closed gate is looked for by halves."""
        low, high = 0, self.records
        if not os.path.exists(self.path):
            return 0
        with open(self.path, "rb") as file:
            while low < high:
                middle = (low + high) // 2
                file.seek(FIRST_GATE + middle * RECORD)
                if file.read(1) == b"\x01":
                    low = middle + 1
                else:
                    high = middle
        return low

    def hold(self, begun):
        """Holds them all. Their slice ends where they stand still: a sync that is under way belongs to it."""
        for program in self.programs:
            program.send_signal(signal.SIGSTOP)
        while not all(stands_still(program) for program in self.programs):
            time.sleep(0.0001)
        self.seconds += time.monotonic() - begun

    def go_on(self, seconds):
        """Lets them run for a slice, or to their end."""
        begun = time.monotonic()
        for program in self.programs:
            program.send_signal(signal.SIGCONT)
        try:
            self.programs[-1].wait(seconds)
        except subprocess.TimeoutExpired:
            return self.hold(begun)
        self.seconds += time.monotonic() - begun
        self.is_done = True

    def end(self):
        for program in self.programs:
            if program.poll() is None:
                program.kill()
                program.wait()


class Shipping(Turns):
    """A ship and its stand-in."""

    def __init__(self, primary, path, records):
        super().__init__(path, records)
        begun = time.monotonic()
        with socket.create_server(("127.0.0.1", 0)) as listener:
            # ship connects once it has read the primary's list
            listener.settimeout(120)
            words = [NEWSDESK, "ship", primary, "standby", f"127.0.0.1:{listener.getsockname()[1]}"]
            self.programs = [started(words, stdout=subprocess.PIPE)]
            connection, _ = listener.accept()
        connection.settimeout(None)
        with connection:
            self.programs.insert(0, started([NEWSDESK, "stand-in", path, STORE], stdin=connection, stdout=connection))
        self.hold(begun)

    def said(self):
        self.programs[0].wait()
        return self.programs[1].stdout.read()


class Loop(Turns):
    """The loop in C."""

    def __init__(self, program, path, records):
        super().__init__(path, records)
        begun = time.monotonic()
        self.programs = [started([program, path, str(records), str(LENGTH)])]
        self.hold(begun)


def started(words, **files):
    """A program in a session of its own: the system hangs up a group with a held program when the shell that started it is gone."""
    return subprocess.Popen(words, start_new_session=True, **files)


def stands_still(program):
    """Whether a program is held, or has ended."""
    with open(f"/proc/{program.pid}/stat", encoding="ascii") as file:
        return file.read().rpartition(")")[2].split()[0] in "TZ"


def measure(loop, primary, folder, records, seconds):
    """A round: the seconds of ship, and those of the loop."""
    standby = os.path.join(folder, "standby")
    shipping, looping = Shipping(primary, standby, records), Loop(loop, os.path.join(folder, "loop"), records)
    try:
        while not (shipping.is_done and looping.is_done):
            kept, looped = shipping.kept(), looping.kept()
            if sys.stderr.isatty():
                print(f"\r{kept} and {looped} of {records}", end="", file=sys.stderr)
            is_ships = looping.is_done or not shipping.is_done and kept <= looped
            (shipping if is_ships else looping).go_on(seconds)
        said = shipping.said()
    finally:
        shipping.end()
        looping.end()
    if said != b"level %d\n" % records:
        sys.exit(f"ship says {said!r}")
    with open(primary, "rb") as one, open(standby, "rb") as other:
        if one.read() != other.read():
            sys.exit("the standby's log is not the primary's")
    return shipping.seconds, looping.seconds


def main():
    words = argparse.ArgumentParser(description="Ships records to a standby on a file, by turns with a loop in C that does the same syncs.")
    words.add_argument("--records", metavar="N", type=int, default=100_000, help="how many records are shipped, at most 262144 (%(default)s)")
    words.add_argument("--rounds", metavar="N", type=int, default=1, help="how often (%(default)s)")
    words.add_argument("--slice", metavar="SECONDS", type=float, default=1.0, help="how long one runs until it is the other's turn (%(default)s)")
    words.add_argument("folder", metavar="FOLDER", nargs="?", default=".", help="where the standby and the loop write")
    given = words.parse_args()
    with tempfile.TemporaryDirectory(dir="/dev/shm") as memory:
        loop = os.path.join(memory, "loop")
        subprocess.run(["cc", "-O2", "-o", loop, os.path.join(TOP, "bench", "journal", "loop.c")], check=True)
        primary = os.path.join(memory, "news")
        subprocess.run([NEWSDESK, "init", primary, STORE], check=True)
        lines = "".join(FLASH % (k, k) for k in range(1, given.records + 1)).encode()
        subprocess.run([NEWSDESK, "batch", primary], input=lines, stdout=subprocess.DEVNULL, check=True)
        ratios = []
        for _ in range(given.rounds):
            with tempfile.TemporaryDirectory(dir=given.folder) as folder:
                ours, theirs = measure(loop, primary, folder, given.records, given.slice)
            ratios.append(theirs / ours)
            print(f"{given.records / ours:.0f} records a second, the loop {given.records / theirs:.0f}", flush=True)
        print(f"{statistics.median(ratios):.2f} of the loop's rate, where at least 0.50 is the aim")


main()
