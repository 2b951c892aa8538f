#!/usr/bin/env python3
"""200,000 flashes through `newsdesk batch`, on a log in memory: the last 20,000 against the first 20,000; then `check`."""
import os
import subprocess
import sys
import tempfile
import time

COUNT, PART = 200_000, 20_000
TOP = os.path.dirname(os.path.dirname(os.path.abspath(__file__)))
NEWSDESK = os.path.join(TOP, "newsdesk")
SUBSCRIBER = '{"by":"admin","number":1,"do":"add_subscriber","subscriber":"alpha","format":"ninjs","products":["all"]}\n'
FLASH = '{"by":"admin","number":%d,"do":"flash","story":{"headline":"Fire %d","slugline":"fire","language":"en","urgency":3,"body":"Smoke over the harbour."}}\n'


def main():
    with tempfile.TemporaryDirectory(dir="/dev/shm") as folder:
        log, lines = os.path.join(folder, "log"), os.path.join(folder, "lines")
        with open(lines, "w") as out:
            out.write(SUBSCRIBER)
            out.writelines(FLASH % (k, k) for k in range(2, COUNT + 2))
        subprocess.run([NEWSDESK, "init", log, "6ba7b810-9dad-11d1-80b4-00c04fd430c8"], check=True)
        marks = [time.monotonic()]
        with open(lines) as given, subprocess.Popen([NEWSDESK, "batch", log], stdin=given, stdout=subprocess.PIPE) as run:
            for done, _ in enumerate(run.stdout):
                if done and done % PART == 0:
                    marks.append(time.monotonic())
        if run.returncode or len(marks) != COUNT // PART + 1:
            sys.exit(f"batch ended with status {run.returncode}")
        parts = [after - before for before, after in zip(marks, marks[1:])]
        print(f"{COUNT / (marks[-1] - marks[0]):.0f} flashes a second; the last {PART} take {parts[-1] / parts[0]:.2f} times as long as the first")
        before = time.monotonic()
        subprocess.run([NEWSDESK, "check", log], check=True, stdout=subprocess.DEVNULL)
        print(f"check: {COUNT / (time.monotonic() - before):.0f} entries a second, of {os.path.getsize(log)} bytes")


main()
