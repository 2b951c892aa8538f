#!/usr/bin/env python3
"""What `import` takes for a table of 250 subscribers beside what `batch` takes for the same requests: import.py [ROUNDS].

Each round has two new stores. The ratio of the medians is to be below 2.
"""
import os
import statistics
import subprocess
import sys
import tempfile
import time

TOP = os.path.dirname(os.path.dirname(os.path.abspath(__file__)))
NEWSDESK = os.environ.get("NEWSDESK", os.path.join(TOP, "crates/newsdesk/out/newsdesk"))
STORE = "6ba7b810-9dad-11d1-80b4-00c04fd430c8"
COUNT = 250
TABLE = "subscriber,format,products,lag\n" + "".join(f"subscriber-{n},ninjs,all,{n}\n" for n in range(COUNT))
LINES = "".join(
    f'{{"by":"admin","number":{n + 1},"do":"add_subscriber","subscriber":"subscriber-{n}","format":"ninjs","products":["all"],"lag":{n}}}\n' for n in range(COUNT)
)


def seconds(folder, name, words, given, marks):
    """How long the command takes on a new store; each line of its answer has the mark."""
    store = os.path.join(folder, name)
    subprocess.run([NEWSDESK, "init", store, STORE], check=True)
    begun = time.perf_counter()
    done = subprocess.run([NEWSDESK, words[0], store, *words[1:]], input=given, stdout=subprocess.PIPE, text=True, check=True)
    taken = time.perf_counter() - begun
    assert done.stdout.count(marks) == COUNT, done.stdout[:200]
    os.remove(store)
    return taken


def main():
    rounds = int(sys.argv[1]) if len(sys.argv) > 1 else 21
    imports, batches = [], []
    with tempfile.TemporaryDirectory(dir=os.environ.get("FOLDER")) as folder:
        for n in range(rounds):
            imports.append(seconds(folder, f"a{n}", ["import", "admin"], TABLE, " added\n"))
            batches.append(seconds(folder, f"b{n}", ["batch"], LINES, '"answer":"done"'))
    table, lines = statistics.median(imports), statistics.median(batches)
    print(f"import {table * 1000:.1f} ms, batch {lines * 1000:.1f} ms, ratio {table / lines:.2f}")


main()
