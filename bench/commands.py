"""Commands of the program and their answers, worked by hand, for the scripts that try a built program."""

import hashlib
import sys
from pathlib import Path

from databases import KEYS, NAMES, SITE, TABLES, put_words
from messages import CONTRADICTING, LOCALHOST, TAKING

sys.path.append(str(Path(__file__).resolve().parent.parent / "crates/desk_cases"))

from reference.findings import printed_json
from reference.sarif import log_text

STANDARD = "rw sec=sys root=65534:65533"

# The text with which the exports file of /u is guarded, and one that is proposed for it.
GUARDING = "/usr site\n/u !guarded ulf site\n/a ulf\n/u2 ulf\n/cdrom site\n/private site\n/secret site\n"
PROPOSED = "/u -ro\n"
# The databases on which commands are run: that of the sample site, with the edits that are put there, each the file, the
# caller and the text, and with base 1. Beside these there is "old", of version 1.
DATABASES = {
    "first": [],
    "later": [("hosts", "site", LOCALHOST)],
    "guarded": [("filesystems", "site", GUARDING)],
    "proposed": [("filesystems", "site", GUARDING), ("exports:/u", "ulf", PROPOSED)],
    "approved": [("filesystems", "site", GUARDING), ("exports:/u", "ulf", PROPOSED), ("exports:/u", "site", PROPOSED)],
}


def revision(name, author, text):
    """The row of a file's revision 2."""
    return "file_rev", name, 2, author, 2, text.encode()


def proposal(author, text):
    """The row of a proposal for /u, whose base is 1."""
    return "proposal", "exports:/u", 1, author, text.encode()


# What is found in a text whose second line has other terms for everybody than the first.
CLASH = {
    "address": "0.0.0.0",
    "column": 1,
    "kind": "fault",
    "line": 2,
    "name": "Contradiction",
    "other": 1,
    "path": "-",
    "rule": 26,
    "text": "line 1 has other terms for 0.0.0.0",
    "word": "/a",
}
# What `--json` prints of a line for 10.0.0.5 alone, of what another text changes there, and of a refusal.
GRANTED = {"flavours": ["sys"], "fs": "/a", "line": 1, "map": "root", "mapped": "65534:65533", "ro": False, "verdict": "granted"}
DENIED = {"fs": "/a", "reason": 2, "verdict": "denied"}
REASONS = ["line 1 name 10.0.0.5: decides, lists /a", "lines of /a that match 10.0.0.5: 1 of 1"]
CLIENT = {"first": "10.0.0.5", "last": "10.0.0.5"}
WHOM = [
    {"first": "0.0.0.0", "last": "10.0.0.4", **DENIED},
    {**CLIENT, **GRANTED},
    {"first": "10.0.0.6", "last": "255.255.255.255", **DENIED},
]
CHANGE = {**CLIENT, "before": DENIED, "after": GRANTED, "dir": "/a", "matters": True, "others": False}
NO_REVISION = {"error": "NoRevision", "number": 111}
# The same of the change in /u2 that CHANGED tells.
LOST = {
    "changes": [
        {
            "after": {"fs": "/u2", "line": 3, "reason": 3, "verdict": "denied"},
            "before": {**GRANTED, "fs": "/u2", "line": 2},
            "dir": "/u2",
            "first": "131.104.48.22",
            "last": "131.104.48.22",
            "matters": True,
            "others": True,
        }
    ]
}
STORED = revision("hosts", "site", LOCALHOST)
GUARDED = revision("filesystems", "site", GUARDING)
PENDING = proposal("ulf", PROPOSED)
APPROVED = [revision("exports:/u", "ulf", PROPOSED), ("approval", "exports:/u", 2, "site")]


class Command:
    """The words of a command, its input, and what it answers: its status and what it prints.

    Among the words `DB` is a copy of a database, the one of this name, `NEW` a file that is not there, `EMPTY` an empty one,
    `TEXT` a file with this text, `KEY` one with the key of `site`, and `FOLDER` a folder with these files. `stored` are the rows that the
    command adds, each behind the name of its table, and `taken` those that it takes out. What it prints is None if it is
    long, and only has to be what it prints when nothing is refused.
    """

    def __init__(self, words, out, status=0, given="", database=None, text="", stored=(), taken=(), title=None, files=()):
        self.words, self.status, self.given = words, status, given.encode()
        self.out = None if out is None else out.encode()
        self.database, self.text, self.stored, self.taken = database, text, list(stored), list(taken)
        self.files = dict(files)
        self.title = title or f"`{' '.join(map(str, words))}`"

    @property
    def makes(self):
        """The word for the database that it makes, if it makes one: that of the sample site."""
        return next((word for word in ("NEW", "EMPTY") if word in self.words and self.status == 0), None)

    @property
    def edits(self):
        """Whether it opens its database for edits, and so may move it to version 2."""
        return self.words[:1] == ["put"]


def tried(words, text, out, status=0, with_tables=False):
    """A question on an exports text of a few lines, with the tables of the sample site or without tables."""
    title = f"`{' '.join(words)}` {'with tables ' if with_tables else ''}on {text!r}"
    return Command([*words, *(ALL_TABLES if with_tables else [])], out, status, given=text, title=title)


ALL_TABLES = [
    word for name in ("hosts", "networks", "netgroup", "passwd", "group") for word in (f"--{name}", str(SITE / name))
]


def written_as(credential, out, status=0):
    """A question that is answered with a credential, which the tables of the sample site give."""
    tables = ["--passwd", str(SITE / "passwd"), "--group", str(SITE / "group")]
    text = f"/a -maproot={credential} 10.0.0.5\n"
    command = tried(["try", "-", "10.0.0.5", "/a", "/a", *tables], text, out, status)
    command.title = f"`try` with the credential {credential}"
    return command


def granted_as(credential, root):
    return written_as(credential, f"granted line 1 rw sec=sys root={root}\n")


def as_json(told):
    return f"{printed_json(told)}\n"


def put(name, caller, key, text, out, status=1, database="first", stored=(), taken=()):
    """An edit with base 1."""
    words = put_words("DB", name, "TEXT", 1, caller, key)
    title = f"`put` of {name} by {caller} into the database {database!r}, which is answered {out.split(chr(10))[0]!r}"
    return Command(words, out, status, database=database, text=text, stored=stored, taken=taken, title=title)


def put_guarded(caller, text, out, database, stored=(), taken=(), status=0):
    """An edit of a guarded file, with base 1."""
    return put("exports:/u", caller, None, text, out, status, database, stored, taken)


def put_proposed(caller, text, out, database, stored=(), taken=(), status=0):
    """An edit of a guarded file by the digest of a text, which is to be its proposal, with base 1."""
    digest = hashlib.sha256(text.encode()).hexdigest()
    words = ["put", "--proposal", digest, "--base", "1", "--caller", caller, "--key", KEYS[caller], "DB", "exports:/u"]
    title = f"`put --proposal` by {caller} into the database {database!r}, which is answered {out.split(chr(10))[0]!r}"
    return Command(words, out, status, database=database, stored=stored, taken=taken, title=title)


def foreseen(name, text, out, status, *options, database="first"):
    """What a text would change if a file of a database had it."""
    words = ["impact", "DB", name, "TEXT", *options]
    answer = f"is answered {out.split(chr(10))[0]!r}"
    title = f"`impact` of {name}{''.join(f' {option}' for option in options)} of the database {database!r}, which {answer}"
    return Command(words, out, status, database=database, text=text, title=title)


def audited(words, given, out, status, database="first", text=""):
    """What the site of a database breaks of these expectations, or would with a text."""
    title = f"`{' '.join(words)}` of the database {database!r}, which is answered {out.split(chr(10))[0]!r}"
    return Command(words, out, status, given, database, text, title=title)


def files_with(others):
    """What `files` prints of each file of the sample site, where these are told otherwise."""
    return [others.get(name, f"{name} rev 1 site\n") for name in NAMES]


def asked_of(database, words, out, status=0):
    """A question to the database of this name."""
    answer = "" if out is None else f", which is answered {out.split(chr(10))[0]!r}"
    title = f"`{' '.join(words)}` of the database {database!r}{answer}"
    return Command(words, out, status, database=database, title=title)


def made_of(changed, out, status):
    """`init` of the sample site with some other files, which is refused."""
    files = {name: (SITE / name).read_text() for name in FILES}
    title = f"`init` of a folder, which is answered {out.split(chr(10))[0]!r}"
    return Command(["init", "NEW", "FOLDER"], out, status, title=title, files={**files, **changed})


CONTRADICTION = "/a -network 192.168.0/24\n/a /a/x{} -network 192.168.0.0 -mask 255.255.255.0\n"
SHOWN = """\
/private rw sec=krb5i root=65534:65533 lines 1
  /private
/secret rw sec=krb5p root=65534:65533 lines 1
  /secret
/u rw sec=sys root=3: lines 1
  /u
/u2 rw sec=sys root=0:0:5 lines 1
  /u2
/usr rw sec=sys root=0:10 lines 1
  /usr
  /usr/local
"""
EXPORTS = """\
/a 192.168.0.0/24
/a (ipv6)
/cdrom 192.168.33.0/24
/private (everyone)
/secret (everyone)
/u 131.104.48.0/24
/u2 friends
/u2 131.104.48.0/24
/usr friends
/usr/local friends
/usr grumpy.example,131.104.48.16
/usr (everyone)
"""
TERMS = """\
/a 192.168.0.0/24 rw sec=sys root=65534:65533
/a (ipv6) rw sec=sys root=65534:65533
/cdrom 192.168.33.0/24 alldirs ro sec=sys root=65534:65533
/private (everyone) rw sec=krb5i root=65534:65533
/secret (everyone) rw sec=krb5p root=65534:65533
/u 131.104.48.0/24 rw sec=sys root=3:
/u2 friends rw sec=sys root=0:0:5
/u2 131.104.48.0/24 alldirs rw sec=sys root=65534:65533
/usr friends rw sec=sys root=0:10
/usr/local friends rw sec=sys root=0:10
/usr grumpy.example,131.104.48.16 rw sec=sys root=1:1:5
/usr (everyone) ro sec=sys all=65534:65534
"""

NESTED = "/a -network 10.0.0.0/8 -ro\n/a -network 10.255.255.255/32 -ro\n/a -sec=krb5\n"
NO_PROPOSAL = "refused 111 NoRevision\n"
PROMISED = "everybody but 131.104.48.0/24 may not mount /u2/...\neverybody but friends may not root /usr/...\n"
BROKEN = """\
-:1: broken: everybody but 131.104.48.0/24 may not mount /u2/...
== /u2
10.0.0.9-10.0.0.9 granted line 1 ro sec=sys root=65534:65533
2 expectations, 1 broken
"""
FORESEEN = """\
== /u
- 0.0.0.0-131.104.47.255 denied 2 NoLine /u
+ 0.0.0.0-131.104.47.255 granted line 1 ro sec=sys root=65534:65533
- 131.104.48.0-131.104.48.255 granted line 1 rw sec=sys root=3:
+ 131.104.48.0-131.104.48.255 granted line 1 ro sec=sys root=65534:65533
- 131.104.49.0-255.255.255.255 denied 2 NoLine /u
+ 131.104.49.0-255.255.255.255 granted line 1 ro sec=sys root=65534:65533
3 changes, 2 of lines or reasons alone
"""
PENDING_FILES = {
    "filesystems": "filesystems rev 2 site\n",
    "exports:/u": "exports:/u rev 1 site guarded\nexports:/u proposed rev 2 ulf\n",
}
U2 = "/u2 -maproot=root friends\n/u2 -alldirs -network cis-net -mask cis-mask\n"
APPROVED_FILES = {
    "filesystems": "filesystems rev 2 site\n",
    "exports:/u": "exports:/u rev 2 ulf guarded\n",
}
FILES = [*TABLES, "exports"]

FAULTY = '/a -maprot=root 10.0.0.5\n/a 10.0.0.6\n/a "x\n/c\n'
FINDINGS = """\
-:1:4: fault 5 UnknownOption: "-maprot=root" is not an option of exports(5)
/a -maprot=root 10.0.0.5
   ^^^^^^^^^^^^
-:3:4: fault 24 OpenQuote: ""x" begins with a quote that is not closed on its physical line: close it, or write a backslash \
before a quote in a name
/a "x
   ^^
-:4:1: fault 4 DirectoryElsewhere: "/c" is not in the file system of the line's first directory, or in none that is listed: \
write a line for each, list its mount point (MOUNT or filesystems), or quote a path with a blank
/c
^^
3 faults, 0 warnings
"""
IPV6 = (
    f"{SITE}/exports:7:13: warning 2 Ipv6: \"3ffe:1ce1:1:fe80::/64\" has a colon, so it counts as IPv6 and matches nobody: "
    "write IPv4, and blanks between hosts\n"
)
WIDER = (
    f"{SITE}/exports:8:1: warning 11 ServerGrantsMore: mountd(8) also lets 131.104.48.20 mount each directory of the file system "
    "by line 9: write -alldirs here as well if that is meant, else keep the client out of the network of line 9, or give it a "
    "file system of its own\n"
)
# Lines of which all warnings and opinions are told that are about lines.
IDLE = "/a -maproot=0:0 -network 10.0.0.0/0\n/a -maproot=0:0 -network 10.0.0.0/0\n/a -ro\n/a gone\n"
OPINIONS = (
    "-:1:1: warning 8 EveryAddress: the network has the prefix 0, so the line is for everybody: leave the network out, or "
    "correct it\n"
    "-:1:1: warning 9 WritableByAll: everybody may write to it: add -ro, or name the clients\n"
    "-:1:1: warning 10 RootForMany: root of each client acts as root: leave out -maproot or -mapall, or name the hosts\n"
    "-:2:1: warning 6 Repeated: the line decides nothing: earlier lines of equal weight list all that it lists, beginning "
    "with line 1 for 0.0.0.0\n"
    "-:2:1: warning 8 EveryAddress: the network has the prefix 0, so the line is for everybody: leave the network out, or "
    "correct it\n"
    "-:2:1: warning 9 WritableByAll: everybody may write to it: add -ro, or name the clients\n"
    "-:2:1: warning 10 RootForMany: root of each client acts as root: leave out -maproot or -mapall, or name the hosts\n"
    "-:2:1: warning 14 RepeatedClient: mountd(8) takes one line for a client and a file system, and may leave this one out, since "
    "line 1 has 0.0.0.0: write the directories on one line\n"
    "-:3:1: warning 5 Shadowed: the line decides nothing: heavier lines match each of its clients, beginning with line 1 for "
    "0.0.0.0\n"
    '-:4:4: warning 3 UnknownHost: "gone" is not an address, a known host or (outside a triple) a known netgroup, and matches '
    "nobody: correct it, or give the file that has it (--hosts, --netgroup or --site)\n"
    "0 faults, 10 warnings\n"
)
SPLIT = "== /a\n/a -ro \\\n 10.0.0.5\n== /b\n/b\n"
WHO = (
    "0.0.0.0-131.104.47.255 denied 2 NoLine /u2\n"
    f"131.104.48.0-131.104.48.19 granted line 2 {STANDARD}\n"
    "131.104.48.20-131.104.48.21 denied 3 NotListed /u2 line 1\n"
    f"131.104.48.22-131.104.48.255 granted line 2 {STANDARD}\n"
    "131.104.49.0-255.255.255.255 denied 2 NoLine /u2\n"
)
CHANGED = (
    "== other directories of /u2\n"
    f"- 131.104.48.22-131.104.48.22 granted line 2 {STANDARD}\n"
    "+ 131.104.48.22-131.104.48.22 denied 3 NotListed /u2 line 3\n"
    "1 change, 1 of lines or reasons alone\n"
)
FRIENDS = "/usr friends\n/usr -network cis-net -mask cis-mask\n"

# By their commands. (`help` has what is printed of the program itself.)
COMMANDS = {
    "help": [Command(words, None) for words in (["--help"], ["--version"], ["put", "--help"])],
    "try": [
        Command(
            [],
            "granted line 1 ro sec=sys root=65534:65533\n",
            given="try - 10.0.0.5 /usr/local /usr\n/usr /usr/local -ro 10.0.0.5\n/usr 10.0.0.6\n",
            title="`try`, by its words in standard input",
        ),
        Command(
            ["try", "-", "10.0.0.5", "/a/x", "/a", "--and", "TEXT", "--and", "TEXT", "--why"],
            f"granted line 2 of text {STANDARD}\nline 1 of - name 10.0.0.5: as heavy as line 2 of text, does not list /a/x\n"
            "line 2 of text name 10.0.0.5: decides, lists /a/x\n"
            "line 2 of text name 10.0.0.5: as heavy as line 2 of text, lists /a/x\n"
            "lines of /a that match 10.0.0.5: 3 of 3\n",
            given="/a 10.0.0.5 \\",
            text="\n/a/x 10.0.0.5\n",
            title="`try` by three exports files",
        ),
        tried(
            ["try", "-", "10.0.0.5", "/a//my disk/", "/a"],
            '"/a/my disk" \\\n-sec=krb5:sys:krb5 \\\n10.0.0.5\n',
            "granted line 1 rw sec=krb5:sys root=65534:65533\n",
        ),
        tried(
            ["try", "-", "192.168.0.9", "/a", "/a"],
            CONTRADICTION.format(" -ro"),
            "fault line 2 rule 26 Contradiction line 1 address 192.168.0.0\n",
            3,
        ),
        tried(
            ["try", "-", "192.168.0.9", "/a/x", "/a"],
            CONTRADICTION.format(""),
            f"granted line 2 {STANDARD}\n",
        ),
        tried(
            ["try", "-", "192.168.0.9", "/a", "/a"],
            CONTRADICTION.format(""),
            f"granted line 1 {STANDARD}\n",
        ),
        tried(
            ["try", "-", "10.0.0.5", "/a/x", "/a", "--why"],
            "/a 10.0.0.5\n/a /a/x -network 10.0.0.0/8\n/a gone\n",
            "denied 3 NotListed /a line 1\n"
            "line 1 name 10.0.0.5: decides, does not list /a/x\n"
            "line 2 network 10.0.0.0/8: outweighed by line 1, lists /a/x\n"
            "lines of /a that match 10.0.0.5: 2 of 3, 1 for nobody\n",
            1,
        ),
        tried(
            ["try", "-", "131.104.48.20", "/usr", "/usr", "--why"],
            FRIENDS,
            f"granted line 1 {STANDARD}\n"
            "line 1 name friends: decides, lists /usr\n"
            "line 2 network 131.104.48.0/24: outweighed by line 1, lists /usr\n"
            "lines of /usr that match 131.104.48.20: 2 of 2\n",
            with_tables=True,
        ),
        granted_as("bin:", "3:"),
        granted_as("bin", "3:7"),
        granted_as("root", "0:0:5"),
        granted_as("0:10", "0:10"),
        tried(
            ["try", "-", "10.0.0.5", "/a", "/a", "--as", "0:0"],
            "/a -maproot=1:2 10.0.0.5\n",
            "granted line 1 rw sec=sys root=1:2 as 1:2\n",
        ),
        tried(["try", "-", "10.0.0.5", "/a", "/a", "--json"], "/a 10.0.0.5\n", as_json(GRANTED)),
        tried(["try", "-", "10.0.0.5", "/a", "/a", "--json", "--why"], "/a 10.0.0.5\n", as_json({**GRANTED, "why": REASONS})),
        tried(["try", "-", "10.0.0.5", "/a", "/a", "--json"], "/a\n/a -ro\n", as_json([CLASH]), 3),
        tried(["try", "-", "10.0.0.5", "/b", "/a"], "/a\n", "denied 1 NoFileSystem\n", 1),
        tried(["try", "-", "10.0.0.5", "/a", "/a"], "/a 10.0.0.6\n", "denied 2 NoLine /a\n", 1),
        Command(
            ["try", "-", "10.0.0.5", "/a", "/a", "--netgroup", "TEXT"],
            "fault netgroup line 2 rule 3 Duplicate line 1\n",
            3,
            given="/a g\n",
            text="g (10.0.0.5,,)\ng (10.0.0.6,,)\n",
            title="`try` with a netgroup file that has a fault",
        ),
        written_as("7", "fault line 1 rule 17 UnknownUser\n", 3),
        written_as("bin:nogrp", "fault line 1 rule 18 UnknownGroup\n", 3),
        written_as("4294967296:", "fault line 1 rule 21 Range\n", 3),
    ],
    "check": [
        tried(["check", "-", "/a"], FAULTY, FINDINGS, 3),
        tried(
            ["check", "-", "/a", "--json"],
            "/a -maprot=root\n",
            '[{"column":4,"kind":"fault","line":1,"name":"UnknownOption","path":"-","rule":5,'
            '"text":"\\"-maprot=root\\" is not an option of exports(5)","word":"-maprot=root"}]\n',
            3,
        ),
        tried(["check", "-", "/usr"], FRIENDS, "0 faults, 0 warnings\n", with_tables=True),
        tried(["check", "-", "/a", "--json"], "/a\n/a -ro\n", f"{printed_json([CLASH])}\n", 3),
        tried(["check", "-", "/a", "--sarif"], "/a\n/a -ro\n", f"{log_text([CLASH])}\n", 3),
        tried(["check", "-", "/a", "--brief", "--opinions"], IDLE, OPINIONS),
        Command(
            ["check", "--site", SITE, "--brief", "--strict"], f"{IPV6}{WIDER}0 faults, 2 warnings\n", 3, title="`check --site`"
        ),
        Command(
            ["check", "-", "/a", "--hosts", "TEXT", "--brief"],
            'text:1:1: fault 2 Number: "10.0.0" is missing or wrong here: write four numbers of 0 to 255 in hosts, one to four in '
            "networks, an id up to 4294967295 in passwd and group, without leading zeros\n1 fault, 0 warnings\n",
            3,
            given="/a x\n",
            text="10.0.0 x\n",
            title="`check` with a hosts file that has a fault",
        ),
        Command(
            ["check", "-", "/a", "--and", "TEXT", "--json"],
            '[{"address":"10.0.0.5","column":1,"kind":"fault","line":2,"name":"Contradiction","other":1,"other_path":"-",'
            '"path":"text","rule":26,"text":"line 1 of - has other terms for 10.0.0.5","word":"/a"}]\n',
            3,
            given="/a 10.0.0.5",
            text="\n/a -ro 10.0.0.5\n",
            title="`check` of two exports files",
        ),
    ],
    "split": [
        Command(["split", "-", "TEXT"], SPLIT, given="# c\n/b\n/a -ro \\\n 10.0.0.5\n", text="/b site\n/a site\n"),
        Command(["split", "-", "TEXT"], "fault line 1 rule 4 DirectoryElsewhere\n", 3, given="/c\n", text="/a site\n"),
    ],
    "init": [
        Command(
            ["init", "NEW", SITE],
            "warning exports:/a line 2 Ipv6 3ffe:1ce1:1:fe80::/64\nready\n",
            title="`init` of the sample site",
        ),
        Command(
            ["init", "EMPTY", SITE],
            "warning exports:/a line 2 Ipv6 3ffe:1ce1:1:fe80::/64\nready\n",
            title="`init` of the sample site into an empty file",
        ),
        made_of({"exports": "/b\n"}, "fault exports line 1 rule 4 DirectoryElsewhere\n", 3),
        made_of(
            {"exports": CONTRADICTION.format(" -ro")},
            "fault exports:/a line 2 rule 26 Contradiction line 1 address 192.168.0.0\n",
            3,
        ),
        made_of({"hosts": "10.0.0 x\n"}, "fault hosts line 1 rule 2 Number\n", 3),
        made_of({"passwd": "#" * 65536 + "\n"}, "refused 5 TooLarge passwd\n", 1),
        asked_of("first", ["init", "DB", str(SITE)], "refused 202 Schema\n", 4),
    ],
    "ask": [
        Command(
            ["ask", "DB", "131.104.48.16", "/usr"], "granted line 2 rw sec=sys root=1:1:5\n", database="first"
        ),
        Command(
            ["ask", "DB", "131.104.48.20", "/u2/x", "--why"],
            "denied 3 NotListed /u2 line 1\n"
            "line 1 name friends: decides, does not list /u2/x\n"
            "line 2 network 131.104.48.0/24: outweighed by line 1, lists /u2/x\n"
            "lines of /u2 that match 131.104.48.20: 2 of 2\n",
            1,
            database="first",
        ),
        asked_of(
            "old",
            ["ask", "DB", "131.104.48.16", "/usr", "--as", "0:0"],
            "granted line 2 rw sec=sys root=1:1:5 as 1:1:5\n",
        ),
        asked_of("approved", ["ask", "DB", "192.0.2.1", "/u"], f"granted line 1 {STANDARD.replace('rw', 'ro')}\n"),
        asked_of("first", ["ask", "DB", "192.0.2.1", "/a", "--json"], as_json(DENIED), 1),
        asked_of("first", ["ask", "DB", "131.104.48.20", "/u2/x", "--json", "--why"], None, 1),
    ],
    "show": [
        *(asked_of(name, ["show", "DB", "131.104.48.20"], SHOWN) for name in ("first", "old")),
        asked_of("first", ["show", "DB", "131.104.48.20", "--json"], None),
    ],
    "exports": [
        *(asked_of(name, ["exports", "DB"], EXPORTS) for name in ("first", "old")),
        asked_of("first", ["exports", "DB", "--terms"], TERMS),
        asked_of("first", ["exports", "DB", "--json"], None),
    ],
    "log": [
        asked_of("later", ["log", "DB", "hosts"], "rev 1 site\nrev 2 site\n"),
        asked_of("old", ["log", "DB", "exports:/u"], "rev 1 site, profile 1\n"),
        asked_of("first", ["log", "DB", "exports:/u3"], NO_PROPOSAL, 1),
        asked_of("approved", ["log", "DB", "exports:/u"], "rev 1 site\nrev 2 ulf, approved by site\n"),
        asked_of(
            "approved",
            ["log", "DB", "exports:/u", "--json"],
            as_json(
                {
                    "name": "exports:/u",
                    "revisions": [{"author": "site", "rev": 1}, {"approver": "site", "author": "ulf", "rev": 2}],
                }
            ),
        ),
        asked_of("first", ["log", "DB", "exports:/u3", "--json"], as_json(NO_REVISION), 1),
    ],
    "cat": [
        asked_of("first", ["cat", "DB", "exports:/u2"], U2),
        asked_of("later", ["cat", "DB", "hosts", "--rev", "2"], LOCALHOST),
        asked_of("old", ["cat", "DB", "exports:/private"], "/private -sec=krb5i\n"),
        asked_of("approved", ["cat", "DB", "exports:/u"], PROPOSED),
        asked_of(
            "approved",
            ["cat", "DB", "exports:/u", "--json"],
            as_json({"approver": "site", "author": "ulf", "body": PROPOSED, "name": "exports:/u", "rev": 2}),
        ),
    ],
    "put": [
        put("hosts", "site", "abc", LOCALHOST, "accepted rev 2\n", 0, stored=[STORED]),
        put("hosts", "site", "abc", LOCALHOST, "already rev 2\n", 0, "later"),
        put("hosts", "site", "abc", "127.0.0.1 other\n", "refused 7 Stale 2\n", 1, "later"),
        put("exports:/usr", "ulf", "hello", "/usr\n", "refused 4 NotCustodian\n"),
        put("exports:/u", "site", "abc", "/u\n", "refused 4 NotCustodian\n"),
        put("hosts", "eve", "abc", LOCALHOST, "refused 1 UnknownCaller\n"),
        put("hosts", "site", "abd", LOCALHOST, "refused 2 BadKey\n"),
        put("exports:/usr/", "site", "abc", "/usr\n", "refused 3 UnknownFile\n"),
        put(
            "hosts",
            "site",
            "abc",
            CONTRADICTING,
            "fault exports:/usr line 2 rule 26 Contradiction line 1 address 131.104.48.16\n",
            3,
        ),
        put("filesystems", "site", "abc", TAKING, "fault exports:/usr line 1 rule 4 DirectoryElsewhere\n", 3),
        put("filesystems", "site", "abc", GUARDING, "accepted rev 2\n", 0, stored=[GUARDED]),
        put("hosts", "site", "abc", LOCALHOST, "accepted rev 2\n", 0, "old", [STORED]),
        put("filesystems", "site", "abc", GUARDING, "accepted rev 2\n", 0, "old", [GUARDED]),
        put("hosts", "site", "abd", LOCALHOST, "refused 2 BadKey\n", 1, "old"),
        put("exports:/u", "ulf", "hello", "/u -network 10\n", "fault exports:/u line 1 rule 27 NoMask\n", 3, "old"),
        Command(
            ["put", "DB", "hosts", "TEXT", "--base", "1", "--caller", "site", "--key-file", "KEY"],
            "accepted rev 2\n",
            database="first",
            text=LOCALHOST,
            stored=[STORED],
        ),
        put_guarded("ulf", PROPOSED, "proposed rev 2\n", "guarded", [PENDING]),
        put_guarded("ulf", PROPOSED, "already proposed rev 2\n", "proposed"),
        put_guarded("site", "/u\n", "proposed rev 2\n", "proposed", [proposal("site", "/u\n")], [PENDING]),
        put_guarded("site", PROPOSED, "accepted rev 2\n", "proposed", APPROVED, [PENDING]),
        put_guarded("site", "/u -rw\n", "fault exports:/u line 1 rule 5 UnknownOption\n", "proposed", status=3),
        put_guarded("site", PROPOSED, "already rev 2\n", "approved"),
        put_guarded("ulf", "/u\n", "refused 7 Stale 2\n", "approved", status=1),
        put_proposed("site", PROPOSED, "accepted rev 2\n", "proposed", APPROVED, [PENDING]),
        put_proposed("ulf", PROPOSED, "already proposed rev 2\n", "proposed"),
        put_proposed("site", "/u\n", "refused 112 OtherProposal\n", "proposed", status=1),
        put_proposed("site", PROPOSED, NO_PROPOSAL, "guarded", status=1),
        put("hosts", "site", "abc", "#" * 65536 + "\n", "refused 5 TooLarge\n"),
    ],
    "clients": [
        tried(
            ["clients", "-", "/a", "/a"],
            NESTED,
            "0.0.0.0-9.255.255.255 granted line 3 rw sec=krb5 root=65534:65533\n"
            "10.0.0.0-10.255.255.254 granted line 1 ro sec=sys root=65534:65533\n"
            "10.255.255.255-10.255.255.255 granted line 2 ro sec=sys root=65534:65533\n"
            "11.0.0.0-255.255.255.255 granted line 3 rw sec=krb5 root=65534:65533\n",
        ),
        tried(
            ["clients", "-", "/usr", "/usr"],
            FRIENDS,
            "0.0.0.0-131.104.47.255 denied 2 NoLine /usr\n"
            f"131.104.48.0-131.104.48.19 granted line 2 {STANDARD}\n"
            f"131.104.48.20-131.104.48.21 granted line 1 {STANDARD}\n"
            f"131.104.48.22-131.104.48.255 granted line 2 {STANDARD}\n"
            "131.104.49.0-255.255.255.255 denied 2 NoLine /usr\n",
            with_tables=True,
        ),
        tried(
            ["clients", "-", "/a", "/a"],
            CONTRADICTION.format(" -ro"),
            "fault line 2 rule 26 Contradiction line 1 address 192.168.0.0\n",
            3,
        ),
        tried(["clients", "-", "/a", "/a", "--json"], "/a 10.0.0.5\n", as_json({"dir": "/a", "ranges": WHOM})),
    ],
    "lists": [
        tried(
            ["lists", "-", "131.104.48.20", "/usr"],
            FRIENDS,
            f"/usr {STANDARD} lines 1\n  /usr\n",
            with_tables=True,
        ),
        tried(
            ["lists", "-", "192.168.0.1", "/a"],
            CONTRADICTION.format(" -ro"),
            "fault line 2 rule 26 Contradiction line 1 address 192.168.0.0\n",
            3,
        ),
    ],
    "terms": [
        tried(
            ["terms", "-", "/usr"],
            FRIENDS,
            f"/usr friends {STANDARD}\n/usr 131.104.48.0/24 {STANDARD}\n",
            with_tables=True,
        ),
        tried(
            ["terms", "-", "/a"],
            CONTRADICTION.format(" -ro"),
            "fault line 2 rule 26 Contradiction line 1 address 192.168.0.0\n",
            3,
        ),
    ],
    "compare": [
        Command(
            ["compare", "TEXT", "-", "/usr", "/home"],
            "== other directories of /home\n"
            f"- 10.0.0.9-10.0.0.9 granted line 3 {STANDARD}\n"
            "+ 10.0.0.9-10.0.0.9 denied 3 NotListed /home line 4\n"
            "1 change, 1 of lines or reasons alone\n",
            1,
            given="/usr /usr/local -ro 10.0.0.5\n/usr 10.0.0.6\n/home -alldirs\n/home 10.0.0.9\n",
            text="/usr /usr/local -ro 10.0.0.5\n/usr 10.0.0.6\n/home -alldirs\n",
        ),
        Command(
            ["compare", "TEXT", "-", "/usr", "--all", *ALL_TABLES],
            "== /usr\n"
            f"- 10.0.0.0-10.255.255.255 granted line 2 {STANDARD}\n"
            f"+ 10.0.0.0-10.255.255.255 granted line 1 {STANDARD}\n"
            f"- 131.104.48.20-131.104.48.21 granted line 1 {STANDARD}\n"
            f"+ 131.104.48.20-131.104.48.21 granted line 2 {STANDARD}\n"
            "== other directories of /usr\n"
            "- 10.0.0.0-10.255.255.255 denied 3 NotListed /usr line 2\n"
            "+ 10.0.0.0-10.255.255.255 denied 3 NotListed /usr line 1\n"
            "- 131.104.48.20-131.104.48.21 denied 3 NotListed /usr line 1\n"
            "+ 131.104.48.20-131.104.48.21 denied 3 NotListed /usr line 2\n"
            "0 changes, 4 of lines or reasons alone\n",
            given="/usr -network 10.0.0.0/8\n/usr friends\n",
            text="/usr friends\n/usr -network 10.0.0.0/8\n",
            title="`compare --all` with tables",
        ),
        Command(
            ["compare", "TEXT", "-", "/usr", "/home"],
            "fault line 2 rule 5 UnknownOption\n",
            3,
            given="/usr -ro\n/home -maprot=root\n",
            text="/usr /usr/local -ro 10.0.0.5\n/usr 10.0.0.6\n/home -alldirs\n",
            title="`compare` with a text that has a fault",
        ),
        Command(
            ["compare", "TEXT", "-", "/a", "--json"], as_json({"changes": [CHANGE]}), 1, given="/a 10.0.0.5\n", text="# nothing\n"
        ),
    ],
    "test": [
        Command(
            ["test", "TEXT", "-", "/usr", "/home"],
            "-:2: broken: everybody may not mount /usr/local/...\n"
            "== /usr/local\n"
            "10.0.0.5-10.0.0.5 granted line 1 ro sec=sys root=65534:65533\n"
            "2 expectations, 1 broken\n",
            1,
            given="10.0.0.6 may write /usr\neverybody may not mount /usr/local/...\n",
            text="/usr /usr/local -ro 10.0.0.5\n/usr 10.0.0.6\n/home -alldirs\n",
        ),
        Command(
            ["test", "TEXT", "-", "/home", "--json"],
            '[{"dir":"/home","expectation":"10.0.0.5 may krb5 /home","first":"10.0.0.5","kind":"broken","last":"10.0.0.5","line":1,'
            f'"others":false,"path":"-","verdict":"granted line 1 {STANDARD}"}}]\n',
            1,
            given="10.0.0.5 may krb5 /home\n",
            text="/home -alldirs\n",
        ),
        Command(
            ["test", "TEXT", "-", "/usr", *ALL_TABLES],
            "1 expectation, 0 broken\n",
            given="friends may mount /usr\n",
            text=FRIENDS,
            title="`test` with tables",
        ),
        Command(
            ["test", "TEXT", "-", "/home"],
            "fault expectations line 1 rule 6 UnknownName\n",
            3,
            given="friends may mount /home\n",
            text="/home -alldirs\n",
            title="`test` with expectations that have a fault",
        ),
    ],
    "who": [
        *(asked_of(name, ["who", "DB", "/u2/x"], WHO) for name in ("first", "old")),
        asked_of("first", ["who", "DB", "/u2/x", "--json"], None),
    ],
    "impact": [
        foreseen("exports:/u2", f"{U2}/u2 -quiet 131.104.48.22\n", CHANGED, 1),
        foreseen("exports:/u2", f"{U2}/u2 -quiet 131.104.48.22\n", CHANGED, 1, database="old"),
        foreseen("exports:/u", PROPOSED, FORESEEN, 1, database="guarded"),
        foreseen("exports:/u2", U2, "0 changes\n", 0, "--all"),
        foreseen("exports:/u3", "/u3\n", "refused 3 UnknownFile\n", 1),
        foreseen("hosts", "#" * 65536 + "\n", "refused 5 TooLarge\n", 1),
        foreseen("hosts", CONTRADICTING, "fault exports:/usr line 2 rule 26 Contradiction line 1 address 131.104.48.16\n", 3),
        asked_of("proposed", ["impact", "DB", "exports:/u", "--proposal"], FORESEEN, 1),
        asked_of("guarded", ["impact", "DB", "exports:/u", "--proposal"], NO_PROPOSAL, 1),
        asked_of("guarded", ["impact", "DB", "exports:/u", "--proposal", "--json"], as_json(NO_REVISION), 1),
        foreseen("exports:/u2", U2, as_json({"changes": []}), 0, "--json"),
        foreseen("exports:/u2", f"{U2}/u2 -quiet 131.104.48.22\n", as_json(LOST), 1, "--json"),
        foreseen("exports:/u3", "/u3\n", as_json({"error": "UnknownFile", "number": 3}), 1, "--json"),
    ],
    "audit": [
        audited(["audit", "DB", "-"], PROMISED, "2 expectations, 0 broken\n", 0),
        audited(["audit", "DB", "-"], PROMISED, "2 expectations, 0 broken\n", 0, "old"),
        audited(["audit", "DB", "-", "exports:/u2", "TEXT"], PROMISED, BROKEN, 1, text="/u2 -ro 10.0.0.9\n"),
        audited(["audit", "DB", "-", "exports:/u", "--proposal", "--json"], PROMISED, "[]\n", 0, "proposed"),
        audited(["audit", "DB", "-", "exports:/u", "--proposal"], PROMISED, NO_PROPOSAL, 1, "guarded"),
        audited(["audit", "DB", "-"], "doc may read /u\n", "fault expectations line 1 rule 3 BadAction\n", 3),
        audited(["audit", "DB", "-"], PROMISED, "2 expectations, 0 broken\n", 0, "approved"),
        audited(["audit", "DB", "-", "exports:/u3", "TEXT"], PROMISED, "refused 3 UnknownFile\n", 1, text="/u3\n"),
    ],
    "proposal": [
        asked_of("proposed", ["proposal", "DB", "exports:/u"], PROPOSED),
        asked_of("guarded", ["proposal", "DB", "exports:/u"], NO_PROPOSAL, 1),
        asked_of("old", ["proposal", "DB", "exports:/u"], NO_PROPOSAL, 1),
        asked_of(
            "proposed",
            ["proposal", "DB", "exports:/u", "--json"],
            as_json({"author": "ulf", "base": 1, "body": PROPOSED, "name": "exports:/u"}),
        ),
    ],
    "files": [
        asked_of("first", ["files", "DB"], "".join(files_with({}))),
        asked_of("proposed", ["files", "DB"], "".join(files_with(PENDING_FILES))),
        asked_of("approved", ["files", "DB"], "".join(files_with(APPROVED_FILES))),
        asked_of("old", ["files", "DB"], "".join(files_with({}))),
        asked_of("proposed", ["files", "DB", "--json"], None),
    ],
    "report": [asked_of(name, ["report", "DB"], None) for name in ("first", "old", "proposed")],
    "write": [
        asked_of("first", ["write", "DB", "FOLDER"], "".join(f"written {name}\n" for name in FILES)),
        asked_of("old", ["write", "DB", "FOLDER"], "".join(f"written {name}\n" for name in FILES)),
        asked_of("proposed", ["write", "DB", "FOLDER"], "".join(f"written {name}\n" for name in FILES)),
        Command(
            ["write", "DB", "FOLDER"],
            "written hosts\nwritten exports\n",
            database="later",
            files={**{name: (SITE / name).read_text() for name in TABLES}, "exports": "/usr\n"},
            title="`write` into a folder with older files",
        ),
    ],
    "copy": [Command(["copy", "DB", "NEW"], "copied\n", database="first")],
}
