"""Times many edits of one process, as a server will make them, beside the same inserts by sqlite3(1).

The edits are made by a program of its own, bench/desk.rt.in, which also times the two parts of an edit alone: judging
it, and storing its row. Each edit is a commit. sqlite3 reads them from a script, each as `BEGIN; INSERT ..; COMMIT;`.
"""

import pathlib
import shutil
import sqlite3
import subprocess
import tempfile

from databases import NAMES, answer, fail
from program import TOP, build

CRATES = ["desk_text", "desk_tables", "desk_netgroup", "desk_exports", "desk_policy", "desk_index", "desk_core", "desk_store"]
LIBRARIES = "desk_store desk_core desk_index desk_policy desk_exports desk_text sqlite anyhow"
PUTS = 1000
RUNS = 7
# (Seconds since 1970, to a millisecond.)
NOW = "SELECT (julianday('now') - 2440587.5) * 86400;"
FULL = "PRAGMA journal_mode = WAL;\nPRAGMA synchronous = FULL;"
# The ways to put an edit: the work and the store of the program, or the settings of sqlite3.
ON_MEMORY = {
    "judging alone": ("judge", "memory"),
    "storing alone": ("insert", "memory"),
    "Desk::edit": ("edit", "memory"),
    "sqlite3": "",
}
ON_FILES = {
    "storing alone, two syncs": ("insert", "wary"),
    "Desk::edit, two syncs": ("edit", "wary"),
    "storing alone, one sync": ("insert", "mixing"),
    "Desk::edit, one sync": ("edit", "mixing"),
    "sqlite3, FULL": FULL,
    "sqlite3, FULL, exclusive": "PRAGMA locking_mode = EXCLUSIVE;\n" + FULL,
}


def write_site(program, database, folder):
    """Writes the texts of a database's site, each into a file of its own."""
    (folder / "exports").mkdir(parents=True)
    for name in NAMES:
        (folder / name.replace("exports:/", "exports/")).write_bytes(answer(program, "cat", database, name))
    return folder


def edits_of(name):
    """The caller and the key of a file of the sample site, and texts of one line for it."""
    if name == "hosts":
        return "site", "abc", [f"10.0.{place >> 8}.{place & 255} grumpy.example grumpy\n" for place in range(PUTS)]
    return "ulf", "hello", [f"/u2 -ro 10.0.{place >> 8}.{place & 255}\n" for place in range(PUTS)]


class Bench:
    """What both programs work on."""

    def __init__(self, program, database, folder):
        self.folder = folder
        self.first = database
        site = write_site(program, database, folder / "site")
        self.site = str(site)
        self.dump = subprocess.run(["sqlite3", database, ".dump"], capture_output=True, check=True, text=True).stdout
        (folder / "none").write_text("")
        words = ["judge", "memory", self.site, "-", "hosts", "site", "abc", str(folder / "none")]
        # (The crates are large, and may not have room where the databases are.)
        (TOP / "out").mkdir(exist_ok=True)
        with tempfile.TemporaryDirectory(dir=TOP / "out") as tree:
            made = build(pathlib.Path(tree), "desk", CRATES, LIBRARIES, words)
            self.program = shutil.copy(made, folder / "desk_bench")
        self.strace = shutil.which("strace")

    def command(self, way, name, count):
        """The words and the standard input that put this number of edits of a file in this way."""
        caller, key, texts = edits_of(name)
        for path in self.folder.glob("new.db*"):
            path.unlink()
        database = self.folder / "new.db"
        if isinstance(way, tuple):
            path = self.folder / "texts"
            path.write_text("".join(texts[:count]))
            return [self.program, *way, self.site, str(database), name, caller, key, str(path)], ""
        if way:
            shutil.copy(self.first, database)
        rows = [f"'{name}', {place}, '{caller}', 2, X'{text.encode().hex()}'" for place, text in enumerate(texts, 2)]
        inserts = [f"BEGIN; INSERT INTO file_rev VALUES ({row}); COMMIT;" for row in rows[:count]]
        begin = way if way else self.dump
        return ["sqlite3", "-bail", database if way else ":memory:"], "\n".join([begin, NOW, *inserts, NOW, ""])

    def seconds(self, way, name):
        """How long it takes to put the edits, without the start and the end of the process."""
        words, given = self.command(way, name, PUTS)
        done = subprocess.run(words, input=given, capture_output=True, text=True)
        if done.returncode != 0:
            fail(f"{words}: status {done.returncode}: {done.stdout}{done.stderr}")
        numbers = done.stdout.split()
        if isinstance(way, tuple):
            return int(numbers[-1]) / 1e6
        return float(numbers[-1]) - float(numbers[-2])

    def count(self, way, name, count):
        """How many bytes a process writes that puts so many edits, and how often it syncs."""
        words, given = self.command(way, name, count)
        calls = self.folder / "calls"
        asked = "trace=fsync,fdatasync,write,pwrite64,pwritev,writev"
        subprocess.run(
            [self.strace, "-f", "-qq", "-y", "-e", asked, "-o", calls, *words],
            input=given, stdout=subprocess.DEVNULL, check=True, text=True,
        )  # fmt: skip
        lines = [line.split(None, 1)[1] for line in calls.read_text(errors="replace").splitlines()]
        # (Those that write to a file of the database.)
        on_files = [line for line in lines if f"<{self.folder}/new.db" in line and " = -1 " not in line]
        syncs = sum(line.startswith(("fsync", "fdatasync")) for line in lines)
        return sum(int(line.rsplit("= ", 1)[1]) for line in on_files if "write" in line.split("(")[0]), syncs

    def counts(self, way, name):
        """The bytes written and the syncs of an edit."""
        some, none = self.count(way, name, PUTS), self.count(way, name, 0)
        return [(after - before) / PUTS for after, before in zip(some, none)]

    def rows(self):
        """The revisions that the files hold."""
        base = sqlite3.connect(self.folder / "new.db")
        found = base.execute("SELECT * FROM file_rev ORDER BY file, rev").fetchall()
        base.close()
        return found


def compare_rows(bench, name):
    """Sees that both programs store the same rows."""
    found = []
    for way in (ON_FILES["Desk::edit, two syncs"], ON_FILES["sqlite3, FULL"]):
        bench.seconds(way, name)
        found.append(bench.rows())
    if found[0] != found[1] or len(found[0]) != len(NAMES) + PUTS:
        fail("the two databases differ")


def measure(bench, name, where, ways):
    """Prints a row for each way, with the ratio to the first of sqlite3's."""
    times = {title: [] for title in ways}
    for _ in range(RUNS):
        for title, way in ways.items():
            times[title].append(bench.seconds(way, name))
    least = {title: min(found) for title, found in times.items()}
    beside = next(least[title] for title in ways if title.startswith("sqlite3"))
    print(f"{PUTS} edits of {name}, {where}")
    print(f"{'':>26} {'a second':>9} {'ms each':>8} {'bytes each':>11} {'syncs each':>11} {'times':>6}")
    for title, way in ways.items():
        each = least[title] / PUTS
        size, syncs = "", ""
        if ways is ON_FILES and bench.strace:
            size, syncs = (f"{number:.{digits}f}" for number, digits in zip(bench.counts(way, name), (0, 2)))
        ratio = least[title] / beside
        print(f"{title:>26} {1 / each:>9.0f} {each * 1000:>8.3f} {size:>11} {syncs:>11} {ratio:>6.2f}", flush=True)


def measure_all(program, database, folder):
    """Measures the edits of a file that few read, and of an exports file, in memory and on files."""
    bench = Bench(program, database, pathlib.Path(folder).resolve())
    for name in ("hosts", "exports:/u2"):
        compare_rows(bench, name)
        measure(bench, name, "in memory", ON_MEMORY)
        measure(bench, name, "on files", ON_FILES)
