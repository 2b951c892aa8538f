#!/usr/bin/env python3
"""Stops `newsdesk batch` at any moment, 200 times over: what was answered has to be in the log, and each request once."""
import json
import os
import random
import subprocess
import sys
import tempfile
import threading
import time

ROUNDS, LINES = 200, 2_000
TOP = os.path.dirname(os.path.dirname(os.path.abspath(__file__)))
NEWSDESK = os.path.join(TOP, "newsdesk")
SUBSCRIBER = '{"by":"admin","number":1,"do":"add_subscriber","subscriber":"alpha","format":"ninjs","products":["all"]}\n'
FLASH = '{"by":"admin","number":%d,"do":"flash","story":{"headline":"Story %d","body":"Smoke."}}\n'


def asked(log, lines):
    """The answers to these lines."""
    run = subprocess.run([NEWSDESK, "batch", log], input=lines, capture_output=True, text=True, check=True)
    return [json.loads(line) for line in run.stdout.splitlines()]


def stopped(log, first):
    """How many requests were answered before the program was stopped, from this number on."""
    run = subprocess.Popen([NEWSDESK, "batch", log], stdin=subprocess.PIPE, stdout=subprocess.PIPE)
    answers = []
    reader = threading.Thread(target=lambda: answers.extend(run.stdout))
    reader.start()
    stop = threading.Timer(random.uniform(0.002, 0.03), run.kill)
    stop.start()
    try:
        run.stdin.write("".join(FLASH % (k, k) for k in range(first, first + LINES)).encode())
        run.stdin.close()
    except BrokenPipeError:
        pass
    run.wait()
    stop.cancel()
    reader.join()
    # An answer that the pipe cut off was not given.
    return sum(1 for line in answers if line.endswith(b"\n") and json.loads(line)["answer"] == "done")


def main():
    with tempfile.TemporaryDirectory(dir=sys.argv[1] if len(sys.argv) > 1 else "/dev/shm") as folder:
        log = os.path.join(folder, "log")
        subprocess.run([NEWSDESK, "init", log, "6ba7b810-9dad-11d1-80b4-00c04fd430c8"], check=True)
        asked(log, SUBSCRIBER)
        kept, unanswered = 1, 0
        before = time.monotonic()
        for turn in range(ROUNDS):
            answered = stopped(log, kept + 1)
            check = json.loads(subprocess.run([NEWSDESK, "check", log], capture_output=True, check=True).stdout)
            # At most the entry of the line that was being answered is kept without its answer.
            if not kept + answered <= check["entries"] <= kept + answered + 1:
                sys.exit(f"round {turn}: {kept} entries and {answered} answers, and then {check['entries']} entries")
            unanswered += check["entries"] - kept - answered
            kept = check["entries"]
        # The feed has each story once, in order.
        pages = asked(log, "".join('{"ask":"feed","subscriber":"alpha","after":%d}\n' % after for after in range(0, kept - 1, 100)))
        rows = [row for page in pages for row in page["entries"]]
        if [(row["k"], row["publication"]) for row in rows] != [(place, place) for place in range(1, kept)]:
            sys.exit("the feed is not each story once, in order")
        print(f"{ROUNDS} stops, {kept} entries, all that was answered is kept; {unanswered} were kept whose answer was lost")
        print(f"{time.monotonic() - before:.0f} seconds")


main()
