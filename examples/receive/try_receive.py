#!/usr/bin/env python3
"""Tries `newsdesk receive` behind a listening socket against a real `newsdesk drain`, over loopback.

Once with listen.sh, which is socat, and once with systemd-socket-activate, which hands connections over as the two units here do.
Two stories come before a stop of the listener and one behind it; then the receiver's file holds each frame once.
"""
import json
import os
import shutil
import signal
import subprocess
import sys
import tempfile
import time

HERE = os.path.dirname(os.path.abspath(__file__))
TOP = os.path.dirname(os.path.dirname(HERE))
NEWSDESK = os.path.join(TOP, "crates", "newsdesk", "out", "newsdesk")
STORE = "6ba7b810-9dad-11d1-80b4-00c04fd430c8"
PORT = 17902


def newsdesk(folder, words, text=""):
    done = subprocess.run([NEWSDESK, *words], cwd=folder, input=text, stdout=subprocess.PIPE, text=True)
    return done.returncode, done.stdout


def expect(what, found, wanted):
    if found != wanted:
        sys.exit(f"{what}: {found!r}, and not {wanted!r}")


def by_socat(folder):
    return [os.path.join(HERE, "listen.sh"), str(PORT), os.path.join(folder, "held"), "alpha"]


def by_systemd(folder):
    return ["systemd-socket-activate", "--accept", "--inetd", "-l", f"127.0.0.1:{PORT}", NEWSDESK, "receive", os.path.join(folder, "held"), "alpha"]


def start(words):
    listener = subprocess.Popen(words, env={**os.environ, "NEWSDESK": NEWSDESK}, start_new_session=True, stderr=subprocess.DEVNULL)
    time.sleep(1)
    return listener


def stop(listener):
    os.killpg(listener.pid, signal.SIGKILL)
    listener.wait()
    time.sleep(1)


def flash(number, headline):
    return json.dumps({"by": "admin", "number": number, "do": "flash", "story": {"headline": headline, "body": "Smoke."}}) + "\n"


def tried(listening):
    with tempfile.TemporaryDirectory() as folder:
        words = listening(folder)
        if shutil.which(words[0]) is None:
            print(f"{words[0]} is not there: not tried")
            return
        drain = ["drain", "news", "alpha", f"127.0.0.1:{PORT}"]
        newsdesk(folder, ["init", "news", STORE])
        subscriber = {"by": "admin", "number": 1, "do": "add_subscriber", "subscriber": "alpha", "format": "ninjs", "products": ["all"]}
        newsdesk(folder, ["batch", "news"], json.dumps(subscriber) + "\n" + flash(2, "One") + flash(3, "Two"))
        listener = start(words)
        expect("the first drain", newsdesk(folder, drain), (0, "alpha 1 delivered\nalpha 2 delivered\n"))
        stop(listener)
        newsdesk(folder, ["batch", "news"], flash(4, "Three"))
        listener = start(words)
        expect("the second drain", newsdesk(folder, drain), (0, "alpha 3 delivered\n"))
        stop(listener)
        expect("a frame that is there", newsdesk(folder, ["receive", "held", "alpha"], "FRAME alpha 1 0\n"), (0, "RECEIPT alpha 3\n"))
        with open(os.path.join(folder, "held"), "rb") as held:
            kept = held.read()
        for number, headline in enumerate(["One", "Two", "Three"], 1):
            expect(f"frames with number {number}", kept.count(b"FRAME alpha %d " % number), 1)
            expect(f"stories with the headline {headline}", kept.count(b'"headline":"%s"' % headline.encode()), 1)
        print(f"{os.path.basename(words[0])}: three frames, each kept once")


for listening in (by_socat, by_systemd):
    tried(listening)
