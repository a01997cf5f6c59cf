"""How long clients of `exportdesk serve` wait for one another, for `bench/clients`. It has a clock: run it on a quiet machine.

Beside each case a client connects fifty times, asks once, and takes the whole reply. A row shows the median and the worst of
these times in seconds. It ends in `over` if the median is 0.1 s or more, or the worst 0.5 s or more. The other clients are one
process, which renews a connection when it ends.
"""

import concurrent.futures
import contextlib
import multiprocessing
import resource
import selectors
import socket
import statistics
import struct
import time

from databases import fail
from messages import QUESTIONS, put
from serving import Client

# (More than any client makes.)
MANY = 4_000_000_000
LARGEST = 65536
QUESTION = QUESTIONS[0]
ASKED, REPLIED = QUESTION.request(), len(QUESTION.reply())
TRIES, PAUSE = 50, 0.12
# How long a try may take, and all of a case, before it is given up.
LONGEST, WHOLE = 10, 60
# A head that is not whole: 33 header lines, which are read on.
LINES = b"GET /v1/revisions?name=hosts HTTP/1.1\r\n" + 33 * b"A: b\r\n"
# A head whose body does not come.
ANNOUNCED = b"PUT /v1/file?name=hosts&base=1 HTTP/1.1\r\nX-Custodian: site\r\nX-Key: abc\r\nContent-Length: 60000\r\n\r\n"
# An edit that makes a file as large as it may be, and a question of it.
LARGE = put("hosts", 1, "site", "abc", "#" * LARGEST, 200, '{"already":false,"rev":2}')
ASKED_LARGE = b"GET /v1/file?name=hosts HTTP/1.1\r\n\r\n"


class Habit:
    """What each of the other connections does: it sends bytes, and once a reply of so many bytes has come, it `stays`, `asks`
    again or `ends`; or it `never reads`, and sends them again and again."""

    def __init__(self, sends=b"", reply=0, then="stays"):
        self.sends, self.reply, self.then = sends, reply, then


SILENT = Habit()
KEPT = Habit(ASKED, REPLIED)
ONE_BYTE = Habit(b"G")
NO_LIMIT = ("--timeout", 0)

# Each case: its name, how many connections, what they do, and the options of the server.
CASES = [
    *((f"{count} silent", count, SILENT, ()) for count in (1, 20, 200)),
    *((f"{count} kept after a reply", count, KEPT, ()) for count in (1, 20, 200)),
    *((f"{count} of one byte", count, ONE_BYTE, ()) for count in (40, 300, 1000)),
    *((f"{count} of one byte, no limit", count, ONE_BYTE, NO_LIMIT) for count in (40, 300, 1000)),
    ("20 of 33 header lines", 20, Habit(LINES), ()),
    ("20 that do not read", 20, Habit(ASKED_LARGE, then="never reads"), ()),
    ("8 that ask without end", 8, Habit(ASKED, REPLIED, "asks"), ()),
    ("8 that ask 32 at a time", 8, Habit(32 * ASKED, 32 * REPLIED, "asks"), ()),
    ("100 of one session", 100, Habit(ASKED, REPLIED, "ends"), ()),
    ("20 bodies announced", 20, Habit(ANNOUNCED), ()),
]


class Other:
    """One of the other connections. No call of it waits."""

    def __init__(self, port, habit, selector):
        self.habit, self.selector = habit, selector
        self.rest, self.missing, self.has_sent = habit.sends, habit.reply, False
        self.socket = socket.socket()
        self.socket.setblocking(False)
        # (So that no ports stay in use when connections are renewed.)
        self.socket.setsockopt(socket.SOL_SOCKET, socket.SO_LINGER, struct.pack("ii", 1, 0))
        if habit.then == "never reads":
            self.socket.setsockopt(socket.SOL_SOCKET, socket.SO_RCVBUF, 4096)
        self.socket.connect_ex(("127.0.0.1", port))
        selector.register(self.socket, selectors.EVENT_WRITE, self)

    def go_on(self, events):
        """Does what it does when it is reported. Returns whether the connection goes on."""
        try:
            return self.write() if events & selectors.EVENT_WRITE else self.read()
        except BlockingIOError:
            return True
        except OSError:
            return False

    def write(self):
        if self.socket.getsockopt(socket.SOL_SOCKET, socket.SO_ERROR):
            return False
        if self.rest:
            self.rest = self.rest[self.socket.send(self.rest) :]
        if not self.rest:
            self.has_sent = True
            if self.habit.then == "never reads":
                self.rest = self.habit.sends
            else:
                self.selector.modify(self.socket, selectors.EVENT_READ, self)
        return True

    def read(self):
        count = len(self.socket.recv(65536))
        self.missing -= count
        if count == 0 or self.habit.then == "stays" or self.missing > 0:
            return count > 0
        if self.habit.then == "ends":
            return False
        self.rest, self.missing = self.habit.sends, self.habit.reply
        self.selector.modify(self.socket, selectors.EVENT_WRITE, self)
        return True

    def end(self):
        self.selector.unregister(self.socket)
        self.socket.close()


def keep_open(port, count, habit, is_ready):
    """Keeps so many connections open, without end, and says once each has sent its bytes for the first time."""
    selector = selectors.DefaultSelector()
    for _ in range(count):
        Other(port, habit, selector)
    ready = 0
    while True:
        for key, events in selector.select():
            other, had_sent = key.data, key.data.has_sent
            goes_on = other.go_on(events)
            ready += other.has_sent and not had_sent
            if ready >= count:
                is_ready.set()
            if not goes_on:
                other.end()
                Other(port, habit, selector)


@contextlib.contextmanager
def others(port, count, habit):
    """Such connections beside what is done meanwhile."""
    of = multiprocessing.get_context("fork")
    is_ready = of.Event()
    process = of.Process(target=keep_open, args=(port, count, habit, is_ready), daemon=True)
    process.start()
    try:
        is_ready.wait(3)
        yield
        if not process.is_alive():
            fail("the process of the other clients has ended")
    finally:
        process.kill()
        process.join()


def ask(client, message=QUESTION):
    """Asks over a connection. Returns whether the reply is right; none comes if the connection has ended."""
    reply = client.ask(message.request())
    if reply and reply != message.reply():
        fail(f"{message} was answered {reply!r}")
    return bool(reply)


def answered_in(port, longest=LONGEST):
    """Asks over a new connection, and over another if that has ended. Returns how long the answer took, or this time at most."""
    begin = time.monotonic()
    while (passed := time.monotonic() - begin) < longest:
        try:
            with Client(port, longest - passed) as client:
                if ask(client):
                    return time.monotonic() - begin
        except (TimeoutError, ConnectionResetError):
            continue
    return longest


def tries(port):
    """How long the answers to one client took."""
    took = []
    while len(took) < TRIES and sum(took) < WHOLE:
        took.append(answered_in(port))
        time.sleep(PAUSE)
    return took


def row(name, took, median_limit=0.1, worst_limit=0.5):
    """Prints what is found of a case. Returns whether it is over a limit."""
    median, worst = statistics.median(took), max(took)
    is_over = median >= median_limit or worst >= worst_limit
    told = f"    {name:32}{median:9.4f} {worst:9.4f}{'  over' if is_over else ''}"
    print(told + (f"  ({len(took)} tries)" if len(took) not in (1, TRIES) else ""), flush=True)
    return is_over


def try_case(start, name, count, habit, options):
    """A client asks beside others."""
    with start(MANY, *options) as server:
        if habit.sends == ASKED_LARGE:
            with Client(server.port) as client:
                ask(client, LARGE)
        with others(server.port, count, habit):
            return row(name, tries(server.port))


def try_together(start, name):
    """One client opens a hundred connections at once, and asks once on each."""
    with start(MANY) as server, contextlib.ExitStack() as stack:
        begin = time.monotonic()
        clients = [stack.enter_context(Client(server.port)) for _ in range(100)]
        for client in clients:
            client.socket.sendall(ASKED)
        if any(client.reply() != QUESTION.reply() for client in clients):
            fail("one of a hundred connections was not answered")
        return row(name, [time.monotonic() - begin], 1, 1)


def try_crowd(start, name):
    """A thousand clients connect at once, and each is answered."""
    with start(MANY) as server, concurrent.futures.ThreadPoolExecutor(1000) as pool:
        return row(name, list(pool.map(lambda _: answered_in(server.port), range(1000))), 5, LONGEST)


def try_slow(start, name):
    """A client that is slow is ended at its deadline: one that sends a byte now and then, one that sends 33 lines, and one that
    reads nothing."""
    with start(MANY, "--timeout", 2) as server:
        with Client(server.port) as client:
            ask(client, LARGE)
        for word, sends in (("byte by byte", trickle), ("33 lines", lines), ("reads nothing", flood)):
            begin = time.monotonic()
            with Client(server.port) as slow, contextlib.suppress(ConnectionResetError, BrokenPipeError):
                sends(slow.socket)
            took = time.monotonic() - begin
            if not 1.9 < took < 2.9:
                fail(f"{name}, {word}: with a limit of 2 s a connection was ended after {took:.2f} s")
    return False


def trickle(connection):
    """Sends a byte now and then, until the connection ends."""
    connection.settimeout(0.3)
    for byte in ASKED:
        connection.sendall(bytes([byte]))
        with contextlib.suppress(TimeoutError):
            connection.recv(1)
            return


def lines(connection):
    """Sends a head with too many lines, and not its end."""
    connection.sendall(LINES)
    connection.recv(1)


def flood(connection):
    """Asks for more than the system keeps for a client that reads nothing, until the connection ends."""
    connection.setsockopt(socket.SOL_SOCKET, socket.SO_RCVBUF, 4096)
    while True:
        connection.sendall(1000 * ASKED_LARGE)


def try_waiting(start, only=""):
    """Tries all of these, or those that have a word in their name."""
    soft, hard = resource.getrlimit(resource.RLIMIT_NOFILE)
    resource.setrlimit(resource.RLIMIT_NOFILE, (min(hard, max(soft, 4096)), hard))
    print(f"    {'beside':32}{'median':>9} {'worst':>9}")
    over = [case[0] for case in CASES if only in case[0] and try_case(start, *case)]
    whole = (
        ("100 of one session, together", try_together),
        ("1000 clients at once", try_crowd),
        ("a slow client", try_slow),
    )
    over += [name for name, trial in whole if only in name and trial(start, name)]
    if over:
        fail(f"over the limits: {'; '.join(over)}")
