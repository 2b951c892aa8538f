#!/usr/bin/env python3
"""The time of each kind of command through `newsdesk batch`, on a log in memory, beside 20,000 items and beside 200,000.

Each kind is timed over some thousand commands, of which the fastest of three runs counts, with what a line costs besides: reading it,
keeping it, answering it. A deschedule is given back what was published for a later time, a lock is taken before what needs one.
"""
import json
import os
import shutil
import subprocess
import sys
import tempfile
import time

SIZES = (20_000, 200_000)
RUNS = 3
EACH = 4_000
TOP = os.path.dirname(os.path.dirname(os.path.abspath(__file__)))
NEWSDESK = os.path.join(TOP, "newsdesk")
STORY = {"headline": "Fire", "slugline": "fire", "language": "en", "urgency": 3, "body": "Smoke over the harbour."}
LATER = "9999-12-31T00:00:00Z"
RULE = {"filter": "f0", "days": ["mon", "sun"], "from": 0, "to": 86400, "zone": "+01:00", "exit": True}


def flashes(items):
    """What is there before anything is timed: subscribers of both formats, a desk, and the items."""
    yield "add_subscriber", {"subscriber": "alpha", "format": "ninjs", "products": ["all"]}
    yield "add_subscriber", {"subscriber": "beta", "format": "7901", "products": ["all"]}
    yield "add_desk", {"desk": "city"}
    yield "set_member", {"desk": "city", "user": "admin", "member": True}
    for _ in range(items):
        yield "flash", {"story": STORY}


def kinds(items):
    """The kinds in an order in which each may be done: its word, its commands, and whether it is denied."""
    drafts = range(items + 1, items + EACH + 1)
    held = {"session": "s"}
    half = EACH // 2

    def one(do, members, denied=False):
        return do, [(do, member) for member in members], denied

    yield one("add_user", ({"user": f"u{k}", "privileges": ["write", "publish"]} for k in range(EACH)))
    yield one("set_user", ({"user": f"u{k}", "privileges": ["write"]} for k in range(EACH)))
    yield one("add_desk", ({"desk": f"d{k}"} for k in range(200)))
    yield one("add_stage", ({"desk": f"d{k % 200}", "stage": f"s{k // 200}"} for k in range(2_000)))
    yield one("set_member", ({"desk": f"d{k % 200}", "user": f"u{k}", "member": True} for k in range(EACH)))
    yield one("add_condition", ({"condition": f"c{k}", "field": "slugline", "op": "eq", "values": [f"w{k}"]} for k in range(2_000)))
    yield one("add_filter", ({"filter": f"f{k}", "statements": [{"conditions": [f"c{k}"]}]} for k in range(900)))
    yield one("set_filter", ({"filter": f"f{k}", "statements": [{"conditions": [f"c{k + 1}"]}]} for k in range(900)))
    yield one("set_block", ({"filter": "f0", "on": k % 2 == 0} for k in range(EACH)))
    yield one("add_product", ({"product": f"p{k}", "how": "permitting", "filter": f"f{k}"} for k in range(900)))
    yield one("set_product", ({"product": f"p{k}", "how": "blocking", "filter": f"f{k}"} for k in range(900)))
    yield one("set_subscriber", ({"subscriber": "alpha", "products": ["all"], "lag": k % 2} for k in range(EACH)))
    yield one("resume", ({"subscriber": "alpha"} for _ in range(EACH)), True)
    yield one("add_scheme", ({"scheme": f"r{k}", "rules": [RULE]} for k in range(60)))
    yield one("add_provider", ({"provider": f"w{k}", "scheme": "r0"} for k in range(60)))
    yield one("create", ({"desk": "city", "story": STORY} for _ in drafts))
    yield one("lock", ({"item": i, **held} for i in drafts))
    yield one("edit", ({"item": i, **held, "story": STORY} for i in drafts))
    yield one("unlock", ({"item": i, **held} for i in drafts))
    yield "", [("lock", {"item": i, **held}) for i in drafts], False
    yield one("break_lock", ({"item": i} for i in drafts))
    yield one("move", ({"item": i, "desk": "city", "stage": "incoming"} for i in drafts))
    yield one("spike", ({"item": i} for i in drafts))
    yield one("unspike", ({"item": i, "desk": "city"} for i in drafts))
    yield one("fetch", ({"item": i, "desk": "city"} for i in drafts), True)
    yield one("flash", ({"story": STORY} for _ in range(EACH)))
    yield "", [("lock", {"item": i, **held}) for i in drafts], False
    yield one("publish", ({"item": i, **held} for i in drafts[:half]))
    yield "", [("publish", {"item": i, **held, "schedule": LATER}) for i in drafts[half:]], False
    yield one("deschedule", ({"item": i} for i in drafts[half:]))
    yield "", [("lock", {"item": i, **held}) for i in range(1, EACH + 1)], False
    yield one("correct", ({"item": i, **held, "story": STORY} for i in range(1, EACH + 1)))
    yield "", [("lock", {"item": i, **held}) for i in range(1, EACH + 1)], False
    yield one("kill", ({"item": i, **held, "note": "Kill."} for i in range(1, half + 1)))
    yield one("recall", ({"item": i, **held, "note": "Recalled."} for i in range(half + 1, EACH + 1)))
    yield one("stop", ({} for _ in range(EACH)))
    yield one("add_subscriber", ({"subscriber": f"t{k}", "format": "ninjs", "products": ["p0"]} for k in range(200)))


def line(number, do, members):
    return json.dumps({"by": "admin", "number": number, "do": do, **members}, separators=(",", ":")) + "\n"


def write_lines(path, commands, number):
    """Writes these commands as lines, from this number on, of which a denied one uses none; gives the next number."""
    with open(path, "w") as out:
        for _, members, denied in commands:
            for do, given in members:
                out.write(line(number, do, given))
                number += not denied
    return number


def timed(log, path, sections):
    """How long each section takes, from its first answer to that of the next."""
    times, answers = {}, iter(())
    with open(path) as given, subprocess.Popen([NEWSDESK, "batch", log], stdin=given, stdout=subprocess.PIPE) as run:
        answers = iter(run.stdout)
        for word, members, denied in sections:
            before = None
            for k, answer in zip(range(len(members)), answers):
                if (b'"denied"' in answer) != denied or b'"bad"' in answer:
                    sys.exit(f"{members[k]}: {answer.decode()}")
                before = before or time.monotonic()
            if word:
                times[word] = (time.monotonic() - before) / (len(members) - 1)
    return times


def measure(items, folder):
    base, log, path = (os.path.join(folder, name) for name in ("base", "log", "lines"))
    number = write_lines(path, [("", list(flashes(items)), False)], 1)
    subprocess.run([NEWSDESK, "init", base, "6ba7b810-9dad-11d1-80b4-00c04fd430c8"], check=True)
    with open(path) as given:
        subprocess.run([NEWSDESK, "batch", base], stdin=given, check=True, stdout=subprocess.DEVNULL)
    sections = list(kinds(items))
    write_lines(path, sections, number)
    best = {}
    for _ in range(RUNS):
        shutil.copyfile(base, log)
        for word, seconds in timed(log, path, sections).items():
            best[word] = min(seconds, best.get(word, seconds))
    for name in (base, log, path):
        os.remove(name)
    return best


def main():
    with tempfile.TemporaryDirectory(dir="/dev/shm") as folder:
        small, large = (measure(items, folder) for items in SIZES)
    print(f"{'command':16}{SIZES[0]:>10}{SIZES[1]:>10}   ratio")
    for word in small:
        print(f"{word:16}{small[word] * 1e6:>7.1f} µs{large[word] * 1e6:>7.1f} µs{large[word] / small[word]:>8.2f}")
    print(f"{'all of them':16}{sum(small.values()) * 1e6:>7.1f} µs{sum(large.values()) * 1e6:>7.1f} µs{sum(large.values()) / sum(small.values()):>8.2f}")


main()
