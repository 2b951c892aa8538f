#!/usr/bin/env python3
"""Programs that want one store at the same time, stores that are missing, and standard descriptors that are closed.

Each row says what is done and what it has to come to. It ends with status 1 where a row came to something else.
"""
import fcntl
import json
import os
import signal
import socket
import stat
import subprocess
import sys
import tempfile
import time

TOP = os.path.dirname(os.path.dirname(os.path.abspath(__file__)))
PROGRAM = os.path.join(TOP, "crates/newsdesk/out/newsdesk")
STORE = "6ba7b810-9dad-11d1-80b4-00c04fd430c8"
HELD = '{"status":15}\n'
FAILED = []


def row(what, came, wanted):
    good = came == wanted
    print(f"{'ok  ' if good else 'FAIL'} {what}" + ("" if good else f": {came!r} in place of {wanted!r}"))
    if not good:
        FAILED.append(what)


def run(*words, given="", **more):
    ran = subprocess.run([PROGRAM, *words], input=given, capture_output=True, text=True, timeout=60, **more)
    return ran.returncode, ran.stdout


def begin(*words):
    return subprocess.Popen([PROGRAM, *words], stdin=subprocess.PIPE, stdout=subprocess.PIPE, text=True)


def desk(number):
    return json.dumps({"by": "admin", "number": number, "do": "add_desk", "desk": f"desk{number}"}) + "\n"


def content(path):
    with open(path, "rb") as file:
        return file.read()


def new_store(name):
    row(f"init {name}", run("init", name, STORE), (0, ""))
    return name


def entries(store):
    status, said = run("check", store)
    return json.loads(said)["entries"] if status == 0 else said


def hold(path, how):
    file = open(path, "rb")
    fcntl.flock(file, how | fcntl.LOCK_NB)
    return file


def two_at_once():
    store = new_store("two")
    first = begin("batch", store)
    first.stdin.write(desk(1))
    first.stdin.flush()
    answer = first.stdout.readline()
    row("the first batch answers", answer, '{"answer":"done","entry":1}\n')
    for words in (["batch", store], ["pack", store], ["check", store], ["queue", store], ["init", store, STORE], ["serve", store, "127.0.0.1:0", "1"]):
        row(f"{words[0]} beside a batch", run(*words, given=desk(2)), (15, HELD))
    waits = begin("batch", "--wait", store)
    waits.stdin.write(desk(3))
    waits.stdin.close()
    first.stdin.write(desk(2))
    first.stdin.close()
    row("the first batch goes on", (first.stdout.read(), first.wait()), ('{"answer":"done","entry":2}\n', 0))
    row("batch --wait comes after it", (waits.stdout.read(), waits.wait()), ('{"answer":"done","entry":3}\n', 0))
    row("all of it is kept", entries(store), 3)


def readers():
    store = new_store("read")
    run("batch", store, given=desk(1))
    with hold(store, fcntl.LOCK_SH):
        row("check beside a reader", run("check", store)[0], 0)
        row("batch beside a reader", run("batch", store, given=desk(2)), (15, HELD))
    with hold(store + ".side", fcntl.LOCK_SH):
        row("pack beside check --beside", run("pack", store), (15, HELD))
    row("pack behind it", run("pack", store)[0], 0)


def served():
    store = new_store("served")
    with socket.socket() as free:
        free.bind(("127.0.0.1", 0))
        address = f"127.0.0.1:{free.getsockname()[1]}"
    server = begin("serve", store, address, "1")
    for _ in range(100):
        try:
            host, port = address.split(":")
            socket.create_connection((host, int(port)), 1).close()
            break
        except OSError:
            time.sleep(0.05)
    row("check beside a server", run("check", store), (15, HELD))
    row("check --beside", run("check", "--beside", store)[0], 0)
    row("a second server", run("serve", store, address, "1"), (15, HELD))
    row("batch --beside is no command", run("batch", "--beside", store), (2, '{"status":2}\n'))
    row("--wait twice is no command", run("check", "--wait", "--wait", store), (2, '{"status":2}\n'))
    server.send_signal(signal.SIGKILL)
    server.wait()
    row("a server that is killed leaves no lock", run("check", store)[0], 0)


def missing():
    for words in (["batch", "none"], ["queue", "none"], ["check", "none"], ["pack", "none"], ["feed", "none", "alpha", "0"],
                  ["drain", "none"], ["ingest", "none", "ninjs", "p"], ["serve", "none", "127.0.0.1:0", "1"], ["check", "no/folder"], ["batch", "no/folder"]):
        row(f"{words[0]} {words[1]}: a missing log", run(*words), (3, '{"status":3}\n'))
    row("nothing is made", os.path.exists("none") or os.path.exists("none.side"), False)
    old = os.umask(0)
    store = new_store("made")
    os.umask(old)
    for path in (store, store + ".side"):
        row(f"{path} is its owner's alone", oct(stat.S_IMODE(os.stat(path).st_mode)), oct(0o600))
    os.remove(store + ".side")
    row("a missing side counts as empty", run("check", store)[0], 0)
    row("and is not made", os.path.exists(store + ".side"), False)
    row("receive makes its log", run("receive", "got", "alpha"), (0, ""))
    row("and no side", os.path.exists("got.side"), False)


def cut_short():
    store = new_store("packed")
    run("batch", store, given=desk(1) + desk(2))
    row("pack", run("pack", store)[0], 0)
    # The log is empty, and its base, of six bytes, is not written yet.
    with open(store, "r+b") as file:
        file.seek(10)
        file.write(bytes(6))
    before = content(store), content(store + ".side")
    ran = subprocess.run([PROGRAM, "check", store], capture_output=True, text=True)
    row("check behind a packing that was cut short", (ran.returncode, ran.stdout), (6, '{"status":6}\n'))
    row("it says what to do", "newsdesk pack STORE" in ran.stderr, True)
    row("and writes nothing", (content(store), content(store + ".side")) == before, True)
    row("pack puts it right", run("pack", store)[0], 0)
    row("then check opens it", entries(store), 2)


def read_only():
    os.mkdir("still")
    store = new_store("still/store")
    run("batch", store, given=desk(1))
    if os.geteuid() or subprocess.run("mount --bind still still && mount -o remount,bind,ro still", shell=True, stderr=subprocess.DEVNULL).returncode:
        print("     a read-only file system: left out, since it cannot be mounted here")
        return
    try:
        row("check on a read-only file system", run("check", store)[0], 0)
        row("batch on a read-only file system", run("batch", store, given=desk(2)), (6, '{"status":6}\n'))
    finally:
        subprocess.run(["umount", "still"], check=True)


def closed():
    for number, (what, wanted) in enumerate({">&-": 5, "<&-": 4, "2>&-": 0, ">&- <&- 2>&-": 4}.items()):
        store = new_store(f"closed{number}")
        run("batch", store, given=desk(1))
        ran = subprocess.run(["sh", "-c", f'exec "$0" batch "$1" {what}', PROGRAM, store], input=desk(2), text=True, stdout=subprocess.DEVNULL)
        row(f"batch {what}", ran.returncode in (wanted, 5), True)
        kept = entries(store)
        row(f"batch {what}: nothing is lost", kept in (1, 2), True)
        again = run("batch", store, given=desk(2))[1]
        row(f"batch {what}: the store goes on", '"entry":2' in again, True)


def main():
    if not os.path.exists(PROGRAM):
        sys.exit("build the program first: ./newsdesk --version")
    with tempfile.TemporaryDirectory() as folder:
        os.chdir(folder)
        for part in (two_at_once, readers, served, missing, cut_short, read_only, closed):
            part()
        os.chdir("/")
    print(f"{len(FAILED)} rows failed" if FAILED else "every row came as it has to")
    sys.exit(bool(FAILED))


if __name__ == "__main__":
    main()
