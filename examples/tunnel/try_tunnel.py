#!/usr/bin/env python3
"""Tries the tunnel for a feed that docs/OPERATING.md has, with `stunnel4` of the system and receiver.py: its two files are taken from the page.

All is in a temporary folder and on loopback: keys and certificates of three sides, both ends of the tunnel and a receiver behind it. A frame that
goes in at the agency's end has to come out at the receiver, and its receipt back. Who comes in clear, without a certificate, or with a third
side's, has to be let go without a byte to the receiver; and where the receiver is down, the agency's end has to close the connection.
"""
import contextlib
import os
import re
import socket
import ssl
import subprocess
import sys
import tempfile
import time

TOP = os.path.dirname(os.path.dirname(os.path.dirname(os.path.abspath(__file__))))
NEAR, FAR, RECEIVER = 17901, 17902, 17903
FRAME, RECEIPT = b"FRAME alpha 1 2\nhi", b"RECEIPT alpha 1\n"


def expect(what, found, wanted):
    if found != wanted:
        sys.exit(f"{what}: {found!r}, and not {wanted!r}")


def make_key(folder, name):
    """A key and its certificate, both as NAME.pem, and the certificate alone as NAME.crt."""
    key, certificate = os.path.join(folder, name + ".pem"), os.path.join(folder, name + ".crt")
    subprocess.run(
        ["openssl", "req", "-x509", "-newkey", "rsa:2048", "-nodes", "-days", "1095", "-subj", f"/CN={name}", "-keyout", key, "-out", certificate],
        stderr=subprocess.DEVNULL, check=True)
    with open(certificate, encoding="ascii") as one, open(key, "a", encoding="ascii") as both:
        both.write(one.read())
    os.chmod(key, 0o600)


def files_of_page(folder):
    """The two files of the page, with this folder, these ports and this machine in them, and the user who runs this."""
    with open(os.path.join(TOP, "docs/OPERATING.md"), encoding="utf-8") as page:
        found = [block for block in re.findall(r"^```\n(.*?)^```$", page.read(), re.M | re.S) if "verifyPeer = yes" in block]
    expect("how many files of a tunnel the page has", len(found), 2)
    paths = []
    for name, text in zip(("agency", "subscriber"), found):
        text = re.sub(r"set[ug]id = .*\n", "", text).replace("/etc/stunnel", folder)
        for old, new in (("accept = 127.0.0.1:17901", f"accept = 127.0.0.1:{NEAR}"), ("connect = alpha.example:7902", f"connect = 127.0.0.1:{FAR}"),
                         ("accept = 7902", f"accept = 127.0.0.1:{FAR}"), ("connect = 127.0.0.1:7901", f"connect = 127.0.0.1:{RECEIVER}")):
            text = text.replace(old, new)
        paths.append(os.path.join(folder, name + ".conf"))
        with open(paths[-1], "w", encoding="ascii") as file:
            file.write(text)
    return paths


@contextlib.contextmanager
def running(words, port):
    """A program that takes connections at a port, and is ended at the end."""
    program = subprocess.Popen(words, stdout=subprocess.DEVNULL, stderr=subprocess.DEVNULL)
    try:
        for _ in range(100):
            with contextlib.suppress(ConnectionRefusedError):
                socket.create_connection(("127.0.0.1", port)).close()
                break
            time.sleep(0.1)
        else:
            sys.exit(f"nothing takes connections at {port}: {words}")
        yield
    finally:
        program.terminate()
        program.wait()


def exchange(connection):
    """What comes back for a frame over a connection; nothing where that is closed."""
    with connection, contextlib.suppress(OSError):
        connection.settimeout(30)
        connection.sendall(FRAME)
        return connection.recv(100)
    return b""


def over_tls(folder, name):
    """What a frame is answered that comes in at the subscriber's end over TLS, with this side's certificate or with none."""
    context = ssl.SSLContext(ssl.PROTOCOL_TLS_CLIENT)
    context.check_hostname, context.verify_mode = False, ssl.CERT_NONE
    if name:
        context.load_cert_chain(os.path.join(folder, name + ".pem"))
    with contextlib.suppress(OSError):
        return exchange(context.wrap_socket(socket.create_connection(("127.0.0.1", FAR))))
    return b""


def plainly(port):
    return exchange(socket.create_connection(("127.0.0.1", port)))


def main():
    with tempfile.TemporaryDirectory() as folder:
        for name in ("agency", "alpha", "third"):
            make_key(folder, name)
        agency, subscriber = files_of_page(folder)
        held = os.path.join(folder, "held")
        receiver = [sys.executable, os.path.join(TOP, "examples/receiver.py"), "alpha", held, str(RECEIVER)]
        with running(["stunnel4", subscriber], FAR), running(["stunnel4", agency], NEAR):
            with running(receiver, RECEIVER):
                expect("what comes in clear", plainly(FAR), b"")
                expect("what comes without a certificate", over_tls(folder, None), b"")
                expect("what comes with another one", over_tls(folder, "third"), b"")
                expect("what the receiver has of them", os.listdir(held), [])
                expect("a frame through the tunnel", plainly(NEAR), RECEIPT)
                expect("the same frame over TLS with the agency's certificate", over_tls(folder, "agency"), RECEIPT)
                expect("what the receiver has of it", os.listdir(held), ["1"])
            expect("a frame where the receiver is down", plainly(NEAR), b"")
    print("a frame goes through the tunnel, and nothing else does")


if __name__ == "__main__":
    main()
