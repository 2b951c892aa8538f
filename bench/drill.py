#!/usr/bin/env python3
"""`newsdesk drill` of 20,000 stories twice, which has to print the same, and of 100,000: time and memory."""
import os
import resource
import subprocess
import sys
import time

TOP = os.path.dirname(os.path.dirname(os.path.abspath(__file__)))
NEWSDESK = os.path.join(TOP, "newsdesk")


def drill(stories):
    before = time.monotonic()
    run = subprocess.run([NEWSDESK, "drill", str(stories), "7"], stdout=subprocess.PIPE, text=True)
    took = time.monotonic() - before
    rows = [line.split() for line in run.stdout.splitlines()[1:]]
    if run.returncode or len(rows) != 8 or any(not row[2] == row[4] == row[6] for row in rows):
        sys.exit(f"drill {stories} ended with status {run.returncode}: {run.stdout}")
    return run.stdout, took


def main():
    if drill(20_000)[0] != drill(20_000)[0]:
        sys.exit("two drills of one seed print otherwise")
    said, took = drill(100_000)
    most = resource.getrusage(resource.RUSAGE_CHILDREN).ru_maxrss / 1024
    frames = sum(int(line.split()[6]) for line in said.splitlines()[1:])
    print(f"100,000 stories, {frames} frames: {took:.1f} s and {most:.0f} MiB; the aim is 4 s and 500 MiB")


main()
