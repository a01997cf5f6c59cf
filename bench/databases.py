"""The database of a site, and the commands of the program on it, for the scripts that try a built program."""

import pathlib
import subprocess
import sys

SITE = pathlib.Path(__file__).resolve().parent.parent / "crates" / "desk_cases" / "data" / "site"
# A database of version 1, as an older program made it of the sample site.
VERSION_ONE = SITE.parent / "version_one"
TABLES = ["custodians", "filesystems", "hosts", "networks", "passwd", "group", "netgroup"]
MOUNTS = ["/a", "/cdrom", "/private", "/secret", "/u", "/u2", "/usr"]
NAMES = TABLES + [f"exports:{mount}" for mount in MOUNTS]
KEYS = {"site": "abc", "ulf": "hello"}


def fail(sentence):
    """Ends the script, which has failed for this reason."""
    print(sentence)
    sys.exit(1)


def run(program, *words):
    """What a command answers: its status, its output and its messages."""
    done = subprocess.run([program, *map(str, words)], stdin=subprocess.DEVNULL, capture_output=True)
    return done.returncode, done.stdout, done.stderr


def answer(program, *words):
    """What a command prints, whose status has to be 0."""
    status, out, messages = run(program, *words)
    if status != 0:
        told = (out + messages).decode(errors="replace").strip()
        fail(f"`{' '.join(map(str, words))}` ended with status {status} and said: {told}")
    return out


def make(program, database):
    """Makes a database of the sample site."""
    out = answer(program, "init", database, SITE)
    if not out.endswith(b"ready\n"):
        fail(f"`init` ended with status 0 and did not say `ready`, but: {out!r}")


def put_words(database, name, path, base, caller, key=None):
    """The words of an edit, whose text is in a file. The key is the caller's, unless it is given."""
    return ["put", database, name, path, "--base", base, "--caller", caller, "--key", key or KEYS[caller]]


def revisions(program, database, name):
    """The numbers and authors that `log` lists for a file of the site; who approved a revision stands behind its author."""
    found = []
    for line in answer(program, "log", database, name).decode().splitlines():
        word, number, author, *_ = line.split(" ")
        if word != "rev":
            fail(f"`log` printed a line of another form: {line}")
        found.append((int(number), author))
    return found
