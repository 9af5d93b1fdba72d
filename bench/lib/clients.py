"""Clients of the program while it serves, and the log of their connections."""
import re
import socket

# After this many seconds a client counts as forgotten.
PATIENCE = 30


def connected(port):
    client = socket.create_connection(("127.0.0.1", port), PATIENCE)
    client.setsockopt(socket.IPPROTO_TCP, socket.TCP_NODELAY, 1)
    return client


def received(client, length):
    """Returns the next bytes: this many, or those before the end."""
    heard = b""
    while len(heard) < length and (more := client.recv(length - len(heard))):
        heard += more
    return heard


def received_to_end(client):
    return received(client, 1 << 30)


def responses_to(port, said, ends_input):
    """Returns what a client receives that says this and then ends its input, or waits."""
    with connected(port) as client:
        client.sendall(said)
        if ends_input:
            client.shutdown(socket.SHUT_WR)
        return received_to_end(client)


def log_lines(text):
    """Returns the lines of a log, without the clients' ports and the seconds."""
    return re.sub(r"peer=127\.0\.0\.1:\d+ |seconds=\d+\.\d{3} ", "", text).splitlines()
