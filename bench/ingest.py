#!/usr/bin/env python3
"""A wire of 2 KiB messages through `newsdesk ingest`, on a log in memory: bytes and stories a second."""
import os
import subprocess
import sys
import tempfile
import time

COUNT, BODY = 16_384, 1_900
TOP = os.path.dirname(os.path.dirname(os.path.abspath(__file__)))
NEWSDESK = os.path.join(TOP, "newsdesk")
STORE = "6ba7b810-9dad-11d1-80b4-00c04fd430c8"
PROVIDER = '{"by":"admin","number":1,"do":"add_provider","provider":"reuters"}\n'


def message(k):
    line = "Smoke over the harbour was seen from the hills, and then no more. "
    body = (line * (BODY // len(line) + 1))[:BODY]
    return f"\x01NWS{k % 10000:04} 3 n 1 FIRST\r\nfire-{k}\r\n\x02Fire {k}\r\n{body}\r\n\x032026-11-29T{k // 3600 % 24:02}:{k // 60 % 60:02}:{k % 60:02}Z\x04".encode()


def main():
    with tempfile.TemporaryDirectory(dir="/dev/shm") as folder:
        log, wire = os.path.join(folder, "log"), os.path.join(folder, "wire")
        with open(wire, "wb") as out:
            for k in range(COUNT):
                out.write(message(k))
        subprocess.run([NEWSDESK, "init", log, STORE], check=True)
        subprocess.run([NEWSDESK, "batch", log], input=PROVIDER.encode(), check=True, stdout=subprocess.DEVNULL)
        before = time.monotonic()
        with open(wire, "rb") as given:
            run = subprocess.run([NEWSDESK, "ingest", log, "7901", "reuters"], stdin=given, stdout=subprocess.PIPE)
        took = time.monotonic() - before
        done = run.stdout.count(b'"answer":"done"')
        if run.returncode or done != COUNT:
            sys.exit(f"ingest ended with status {run.returncode} behind {done} of {COUNT} stories")
        print(f"{os.path.getsize(wire) / took / 1e6:.1f} MB/s, {COUNT / took:.0f} stories a second; the aim is 25 MB/s")


main()
