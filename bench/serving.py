"""`exportdesk serve` on a database, and a connection to it, for the scripts that try a built program."""

import itertools
import random
import socket
import subprocess
import threading

from databases import fail

SECONDS = 60
# (Below those that Linux gives to connections of its own.)
_PORTS = itertools.cycle(range(20000, 32000))
_LOCK = threading.Lock()
for _ in range(random.SystemRandom().randrange(12000)):
    next(_PORTS)


def free_port():
    """A port of the loopback address on which nobody listens."""
    while True:
        with _LOCK:
            port = next(_PORTS)
        with socket.socket() as trial:
            try:
                trial.bind(("127.0.0.1", port))
                return port
            except OSError:
                continue


class Server:
    """A process that serves a database. It is ended with the `with` that made it, if it has not ended before."""

    def __init__(self, program, database, connections, *options, **how):
        self.port = free_port()
        words = [program, "serve", database, "--port", self.port, "--connections", connections, *options]
        self.child = subprocess.Popen(
            [*map(str, words)],
            stdin=subprocess.DEVNULL,
            stdout=subprocess.PIPE,
            stderr=subprocess.PIPE,
            **how,
        )
        self.out = self.child.stdout.readline()
        self.is_up = self.out == f"listening 127.0.0.1:{self.port}\n".encode()

    def __enter__(self):
        return self

    def __exit__(self, *_):
        if self.child.poll() is None:
            self.child.kill()
        self.child.communicate()

    def wait(self):
        """Waits until it has ended by itself. Returns its status, its output and its messages."""
        try:
            rest, messages = self.child.communicate(timeout=SECONDS)
        except subprocess.TimeoutExpired:
            fail("`serve` did not end behind its last connection")
        return self.child.returncode, self.out + rest, messages

    def expect_end(self, where, refused=()):
        """Waits until it has ended by itself, which has to be with status 0, and with no message but that so many edits were
        refused, of the connections in the order in which they ended."""
        status, out, messages = self.wait()
        line = f"listening 127.0.0.1:{self.port}\n".encode()
        wanted = b"".join(map(refused_line, refused))
        if (status, out, messages) != (0, line, wanted):
            fail(f"{where}: `serve` ended with status {status}, said {out!r}, and the message {messages!r}")


def refused_line(count):
    """What is said of so many refused edits of a connection."""
    return f"exportdesk: {count} edit{'s' if count > 1 else ''} refused\n".encode()


class Client:
    """A connection to a port of the loopback address."""

    def __init__(self, port, seconds=SECONDS):
        self.socket = socket.create_connection(("127.0.0.1", port), timeout=seconds)
        self.rest = b""

    def __enter__(self):
        return self

    def __exit__(self, *_):
        self.socket.close()

    def ask(self, request):
        """Sends bytes, and returns the bytes of one reply, or none if the connection ended before the first of them."""
        try:
            self.socket.sendall(request)
        except (ConnectionResetError, BrokenPipeError):
            return b""
        return self.reply()

    def reply(self):
        """The bytes of the next reply: up to its end by content-length, or up to that of the connection."""
        while (length := _length(self.rest)) is None or len(self.rest) < length:
            try:
                more = self.socket.recv(65536)
            except ConnectionResetError:
                more = b""
            if not more:
                length = len(self.rest)
                break
            self.rest += more
        found, self.rest = self.rest[:length], self.rest[length:]
        return found


def _length(reply):
    """How long a reply is whose head is whole."""
    head, end, _ = reply.partition(b"\r\n\r\n")
    if not end:
        return None
    values = [line.split(b":")[1] for line in head.split(b"\r\n") if line.lower().startswith(b"content-length:")]
    return len(head) + len(end) + (int(values[0]) if values else 0)
