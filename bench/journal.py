#!/usr/bin/env python3
"""`newsdesk batch` on a file, against a loop in C that does the same two writes and syncs for each entry, by turns."""
import os
import statistics
import subprocess
import sys
import tempfile
import time

COUNT, ROUNDS = 9_000, 5
TOP = os.path.dirname(os.path.dirname(os.path.abspath(__file__)))
NEWSDESK = os.path.join(TOP, "newsdesk")
FLASH = '{"by":"admin","number":%d,"do":"flash","story":{"headline":"Fire %d","slugline":"fire","language":"en","urgency":3,"body":"Smoke."}}\n'
# the bytes of an entry of these
LENGTH = 53 + len("Fire 1000") + len("fire") + len("en") + len("Smoke.")


def seconds(words, lines=None):
    before = time.monotonic()
    subprocess.run(words, input=lines, check=True, stdout=subprocess.DEVNULL)
    return time.monotonic() - before


def main():
    # the folder of the file system that is to be measured; the present one, where none is named
    with tempfile.TemporaryDirectory(dir=sys.argv[1] if len(sys.argv) > 1 else ".") as folder:
        loop = os.path.join(folder, "loop")
        subprocess.run(["cc", "-O2", "-o", loop, os.path.join(TOP, "bench", "journal", "loop.c")], check=True)
        lines = "".join(FLASH % (k, k + 999) for k in range(1, COUNT + 1)).encode()
        ratios = []
        for turn in range(ROUNDS):
            log = os.path.join(folder, f"log{turn}")
            subprocess.run([NEWSDESK, "init", log, "6ba7b810-9dad-11d1-80b4-00c04fd430c8"], check=True)
            ours = seconds([NEWSDESK, "batch", log], lines)
            theirs = seconds([loop, os.path.join(folder, f"loop{turn}"), str(COUNT), str(LENGTH)])
            ratios.append(theirs / ours)
            print(f"{COUNT / ours:.0f} entries a second, the loop {COUNT / theirs:.0f}")
        print(f"{statistics.median(ratios):.2f} of the loop's rate, where at least 0.70 is the aim")


main()
