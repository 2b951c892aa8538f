#!/usr/bin/env python3
"""What `newsdesk audit` of a whole log takes beside `check` of it: told.py [NEWSDESK]. The aim is at most 2.5 times as long.

A log in memory has 60,000 flashes of 1 KB to a subscriber, and 20,000 items of a desk, each made, locked, edited and unlocked. Both commands take turns,
and the best time of each counts. Each line of the audit is read as JSON, once; it ends with 1 where one is missing or the aim is missed.
"""
import json
import os
import subprocess
import sys
import tempfile
import time

TOP = os.path.dirname(os.path.dirname(os.path.abspath(__file__)))
NEWSDESK = sys.argv[1] if len(sys.argv) > 1 else os.path.join(TOP, "newsdesk")
STORE = "6ba7b810-9dad-11d1-80b4-00c04fd430c8"
FLASHES, ITEMS, ROUNDS = 60_000, 20_000, 5
STORY = {"headline": "Report", "slugline": "report", "language": "en", "urgency": 4, "body": "Smoke over the docks. " * 45}


def requests():
    yield {"do": "add_subscriber", "subscriber": "alpha", "format": "ninjs", "products": ["all"]}
    yield {"do": "add_desk", "desk": "city"}
    yield {"do": "set_member", "desk": "city", "user": "admin", "member": True}
    for _ in range(FLASHES):
        yield {"do": "flash", "story": STORY}
    for item in range(FLASHES + 1, FLASHES + ITEMS + 1):
        yield {"do": "create", "desk": "city", "story": STORY}
        yield {"do": "lock", "item": item, "session": "s"}
        yield {"do": "edit", "item": item, "session": "s", "story": {**STORY, "urgency": 3}}
        yield {"do": "unlock", "item": item, "session": "s"}


def run(*words, given=None, output=subprocess.DEVNULL):
    begun = time.monotonic()
    done = subprocess.run([NEWSDESK, *words], stdin=given, stdout=output)
    if done.returncode:
        sys.exit(f"{words[0]} ended with status {done.returncode}")
    return time.monotonic() - begun


def main():
    with tempfile.TemporaryDirectory(dir="/dev/shm") as folder:
        log, count = f"{folder}/news", 0
        with tempfile.TemporaryFile("w+", dir="/dev/shm") as lines:
            for count, request in enumerate(requests(), 1):
                lines.write(json.dumps({"by": "admin", "number": count, **request}, separators=(",", ":")) + "\n")
            lines.seek(0)
            run("init", log, STORE)
            run("batch", log, given=lines)
        with tempfile.TemporaryFile(dir="/dev/shm") as told:
            run("audit", log, "0", output=told)
            told.seek(0)
            entries = [json.loads(line)["entry"] for line in told]
        if entries != list(range(1, count + 1)):
            sys.exit(f"the audit tells {len(entries)} of {count} entries")
        checks, audits = [], []
        for _ in range(ROUNDS):
            checks.append(run("check", log))
            audits.append(run("audit", log, "0"))
        ratio = min(audits) / min(checks)
        print(f"{count} entries, {os.path.getsize(log) / 1e6:.0f} MB: check {min(checks):.2f} s, audit {min(audits):.2f} s: {ratio:.2f} times (aim 2.5)")
        return ratio > 2.5


sys.exit(main())
