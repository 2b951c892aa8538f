"""Ports on loopback for the servers that are measured here."""
import http.client
import random
import socket


def free_port():
    """A port that nothing listens at, and that the system gives to no connection by itself, also while what listens there is dead."""
    while True:
        port = random.randrange(20_000, 30_000)
        try:
            socket.create_server(("127.0.0.1", port)).close()
            return port
        except OSError:
            pass


def listens(port):
    """Whether something takes connections at a port."""
    try:
        http.client.HTTPConnection("127.0.0.1", port).connect()
    except OSError:
        return False
    return True
