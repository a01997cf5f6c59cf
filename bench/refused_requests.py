"""Tries `serve` with each of its allocations refused in turn.

A server is asked over one connection (bench/messages.py)
- of the sample site: questions, edits that are refused, one that is stored, its repeat, a stale one, and what is told then;
- of the same site in a database of version 1: the same;
- of a site with a guarded file: a proposal, its repeat, questions, refused edits, the approval, and what is told then.

Each reply has to be the usual one, to the byte, or status 503 with the error 203; behind that the history (or the proposal,
or the revision) has to be as before, and the same request has to get its usual reply. If the buffer of the connection cannot
be had, it ends before the first reply, and the next one is asked the same. Over each connection that is left the history is
asked once more. If the server does not start, it has to say `refused 203 Memory`, and a second one has to start on the same
database. At the end the server has to end by itself with status 0 and have counted the edits that were refused, and the
database has to hold what was stored.
"""

from commands import APPROVED as APPROVED_ROWS
from commands import STORED as STORED_ROW
from databases import fail
from messages import APPROVED, GUARDED, HISTORY, IN_FORCE, LATER_HISTORY, NO_PROPOSAL, OF_MEMORY, PROPOSAL, PROPOSED
from messages import STORED, WHOLE, Talk
from serving import Client, Server

REFUSED = (4, b"refused 203 Memory\n", b"")
CONNECTIONS = 3
TALKS = [
    Talk("`serve`", "first", HISTORY, WHOLE, {STORED: LATER_HISTORY}, [STORED_ROW]),
    Talk("`serve` of version 1", "old", HISTORY, WHOLE, {STORED: LATER_HISTORY}, [STORED_ROW]),
    Talk(
        "`serve` of a guarded file",
        "guarded",
        NO_PROPOSAL,
        GUARDED,
        {PROPOSED: PROPOSAL, APPROVED: IN_FORCE},
        APPROVED_ROWS,
    ),
]


class Requests:
    """The requests of a server, of which an allocation may be refused."""

    def __init__(self, where, server, talk):
        self.where, self.server, self.talk = where, server, talk
        self.refused, self.now, self.forbidden = 0, talk.first, []

    def make(self):
        """Makes all requests over one connection, or over the next if the first had no buffer, and looks at the history by
        each connection that is left. Tells whether memory was wanting."""
        is_done = False
        for _ in range(CONNECTIONS):
            self.forbidden.append(0)
            if self.over_one([self.now] if is_done else self.talk.messages):
                is_done = True
            else:
                self.refused += 1
        if self.refused > 1 or not is_done:
            fail(f"{self.where}: memory was wanting {self.refused} times")
        self.server.expect_end(self.where, [count for count in self.forbidden if count])
        return self.refused == 1

    def over_one(self, messages):
        """Makes requests over one connection. Tells whether there was a reply."""
        with Client(self.server.port) as client:
            for place, message in enumerate(messages):
                found = client.ask(message.request())
                if not found and place == 0:
                    return False
                self.expect(client, message, found)
        return True

    def expect(self, client, message, found):
        """Compares a reply, and makes the request again if memory was wanting."""
        if found == OF_MEMORY:
            self.refused += 1
            self.look(client)
            found = client.ask(message.request())
        if found != message.reply():
            fail(f"{self.where}: {message} was answered {found!r}, in place of {message.reply()!r}")
        self.forbidden[-1] += message.status == 403
        self.now = self.talk.stores.get(message, self.now)

    def look(self, client):
        """Looks whether the history is as it was."""
        found = client.ask(self.now.request())
        if found != self.now.reply():
            fail(f"{self.where}: {self.now} is answered {found!r}, in place of {self.now.reply()!r}")


class Servers:
    """A server of a database, started again and again."""

    def __init__(self, trial, rows_of, talk):
        self.trial, self.rows_of, self.talk = trial, rows_of, talk
        self.before = rows_of(trial.databases[talk.database])
        room = trial.room()
        database = trial.copy(talk.database, room)
        if self.serve(talk.title, database, trial.environment(0, room)) is not False:
            fail(f"{talk.title} wanted memory, though nothing was refused")
        self.allocations = trial.count(room)

    def serve(self, where, database, environment=None):
        """Starts a server and makes all requests. Tells whether memory was wanting, or nothing if it did not start."""
        with Server(self.trial.program, database, CONNECTIONS, env=environment) as server:
            if not server.is_up:
                self.expect_refused(where, database, server)
                return None
            is_wanting = Requests(where, server, self.talk).make()
        if self.rows_of(database) != sorted([*self.before, *self.talk.stored]):
            fail(f"{where}: the database does not hold what it held, and what was stored")
        return is_wanting

    def expect_refused(self, where, database, server):
        """Sees that a server that did not start wanted memory, and left the database as it was."""
        if (found := server.wait()) != REFUSED:
            fail(f"{where}: it did not start, and answered {found}")
        if self.rows_of(database) != self.before:
            fail(f"{where}: it did not start, and the database has other revisions")

    def run(self, number):
        """Makes the requests with an allocation refused. Tells whether memory was wanting, and whether one was refused."""
        where = f"{self.talk.title} with allocation {number} refused"
        room = self.trial.room()
        database = self.trial.copy(self.talk.database, room)
        is_wanting = self.serve(where, database, self.trial.environment(number, room))
        is_refused = self.trial.count(room) >= number
        if is_wanting is None and self.serve(f"{where}, and then again", database) is not False:
            fail(f"{where}, and then again: memory was wanting")
        if is_wanting is not False and not is_refused:
            fail(f"{where}: memory was wanting, though nothing was refused")
        return is_wanting is not False, is_refused


def try_serve(trial, rows_of, try_all):
    """Makes the requests with each allocation refused in turn."""
    for talk in TALKS:
        servers = Servers(trial, rows_of, talk)
        try_all(talk.title, servers.run, servers.allocations)
