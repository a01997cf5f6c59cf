"""Clients that store edits of one served database at once, each of a file of its own, and what the database holds after that."""

import threading

from databases import answer, fail, make, revisions
from serving import Client

# The files of the sample site that take comments and that `site` keeps, at most one for each client.
FILES = ("hosts", "networks", "netgroup", "exports:/usr", "exports:/cdrom", "exports:/private", "exports:/secret")


class Writer:
    """A client that stores edits of one file: the texts that were acknowledged, and the one that was not."""

    def __init__(self, name, first):
        self.name = name
        self.texts = [first]
        self.known = 1
        self.under_way = None
        self.refused = None

    def write(self, port):
        """Stores edits until the service is gone, or refuses one."""
        try:
            with Client(port) as client:
                while True:
                    base = len(self.texts)
                    self.under_way = self.texts[0] + b"# revision %d\n" % (base + 1)
                    head = b"PUT /v1/file?name=%s&base=%d HTTP/1.1\r\nX-Custodian: site\r\nX-Key: abc\r\nContent-Length: %d\r\n\r\n"
                    reply = client.ask(head % (self.name.encode(), base, len(self.under_way)) + self.under_way)
                    if not reply.startswith(b"HTTP/1.1 200 "):
                        # (What of a reply came before the end of the connection says nothing.)
                        self.refused = reply if b"\r\n\r\n" in reply else None
                        return
                    self.texts.append(self.under_way)
        except OSError:
            return


class Writers:
    """So many clients, and the database that they write."""

    def __init__(self, program, database, count):
        self.program = program
        self.database = database
        make(program, database)
        self.all = [Writer(name, answer(program, "cat", database, name)) for name in FILES[:count]]

    def start(self, port):
        """Lets all of them store edits, each in a thread."""
        threads = [threading.Thread(target=writer.write, args=(port,)) for writer in self.all]
        for thread in threads:
            thread.start()
        return threads

    def look(self, where, may_refuse=b""):
        """Looks at each file: it has every revision that its client was told of, and at most the one that was under way. Returns how many
        were told of since the last look, and how many were stored without that. A reply other than that an edit is stored has to have these
        bytes."""
        told = untold = 0
        for writer in self.all:
            if writer.refused is not None and not (may_refuse and may_refuse in writer.refused):
                fail(f"{where}: an edit of {writer.name} was refused: {writer.refused[:300]!r}")
            told += len(writer.texts) - writer.known
            untold += self._look_at(where, writer)
            writer.known = len(writer.texts)
            writer.refused = None
        return told, untold

    def _look_at(self, where, writer):
        """Looks at one file. Tells whether it has the text that was under way."""
        known = len(writer.texts)
        numbers = [number for number, _ in revisions(self.program, self.database, writer.name)]
        if numbers not in (list(range(1, known + 1)), list(range(1, known + 2))):
            fail(f"{where}: {known} revisions of {writer.name} were acknowledged, and it has {len(numbers)}, the last {numbers[-3:]}")
        if len(numbers) > known:
            writer.texts.append(writer.under_way)
        newest = answer(self.program, "cat", self.database, writer.name)
        if newest != writer.texts[-1]:
            fail(f"{where}: revision {len(numbers)} of {writer.name} has another text than was put")
        return len(numbers) > known

    def look_at_all(self):
        """Looks at the text of each revision, of each file the last 100."""
        for writer in self.all:
            for place in range(max(0, len(writer.texts) - 100), len(writer.texts)):
                found = answer(self.program, "cat", self.database, writer.name, "--rev", place + 1)
                if found != writer.texts[place]:
                    fail(f"at the end: revision {place + 1} of {writer.name} has another text than was put")
