"""The sites whose pages bench/report tries: each is a folder of the eight files that `init` reads, and a text of edits in the form
of crates/desk_cases/data/institute.edits, put after that. A custodian's key is the name with `-key` behind it.

The reference reads no quotes in `filesystems`, and a value up to its second `=`; so no mount point has a blank or a quote here, and
no user an equals sign.
"""

import hashlib
import random

SYSTEMS, PROJECTS, LINES, HOSTS, GROUPS = 64, 30, 100, 1200, 40
OPTIONS = ["", " -ro", " -mapall=nobody", " -sec=krb5p", "", " -ro", " -ro -sec=krb5i:krb5p", "", " -ro", " -maproot=0", " -mapall=nobody"]

SCRIPT = "<script>alert(1)</script>"
# Mount points that end an element, an attribute or a comment, name an entity, have characters that cannot be seen, or are long.
HOSTILE_MOUNTS = [
    f"/{SCRIPT}",
    "/</code></style><img/src=x/onerror=alert(2)>",
    "/a&amp;b&lt;c",
    "/]]><!--",
    "/right\u202eleft",
    "/zero\u200bwidth\ufeff",
    "/tag\U000e0041\x1b[31mred",
    f"/{'long' * 60}",
]
# How long the names of a site are, whose custodians have the longest names there are.
LENGTHS, LONGEST = (10, 40, 200), 32
# The name of the database, as `report` gets it; its folder has the part up to the slash.
HOSTILE_NAME = f'"><b title=\'{SCRIPT}.db'


def digest(name):
    return hashlib.sha256(f"{name}-key".encode()).hexdigest()


def write(folder, files, edits=""):
    """Writes the files of a site, and its edits beside its folder. Returns both paths."""
    folder.mkdir()
    for name, text in files.items():
        (folder / name).write_bytes(text.encode())
    path = folder.with_suffix(".edits")
    path.write_bytes(edits.encode())
    return folder, path


def small(folder):
    """A site of one line."""
    files = dict.fromkeys(["hosts", "networks", "passwd", "group", "netgroup"], "")
    return write(folder, {**files, "custodians": f"site {digest('site')}\n", "filesystems": "/a site\n", "exports": "/a 10.0.0.1\n"})


def quoted(path):
    return f"'{path}'" if '"' in path else f'"{path}"'


def hostile(folder):
    """A site whose names are markup, or cannot be seen. Half of its file systems are guarded, so that an edit of them waits."""
    hosts = ["<b>host</b>", "\"><script>alert</script>", "h\u202eost", "javascript&colon;alert"]
    triples = [" ".join(f"({name},,)" for name in hosts[place::2]) for place in (0, 1)]
    lines = {mount: hostile_lines(mount) for mount in HOSTILE_MOUNTS}
    files = {
        "custodians": "".join(f"{name} {digest(name)}\n" for name in ("site", "ann")),
        "filesystems": "".join(f"{mount} {'!guarded ' * (place % 2)}site ann\n" for place, mount in enumerate(lines)),
        "hosts": "".join(f"10.0.0.{number} {name}\n" for number, name in enumerate(hosts, 1)),
        "networks": "",
        "passwd": "nobody:*:65534:65534::/:/bin/sh\n<svg/onload>:*:7:7::/:/bin/sh\n",
        "group": "nobody:*:65534:\n",
        "netgroup": f"<iframe> {triples[0]} <none>\n</td></tr></table> {triples[1]}\n",
        "exports": "".join(map("".join, lines.values())),
    }
    return write(folder, files, "".join(f"exports:{mount} ann {escaped(''.join(lines[mount][:-1]))}\n" for mount in lines))


def escaped(text):
    return text.replace("\\", "\\\\").replace("\n", r"\n")


def hostile_lines(mount):
    """The lines of a file system. `init` drops the comment, an edit keeps it."""
    image, quote, entity = (quoted(f"{mount}/{name}") for name in ("<img src=//127.0.0.1:9/>", '" onclick="alert(4)', "&#60;b"))
    return [
        f"# {SCRIPT} --> \\u{{202e}} \x0b\x1b[2J \u202e\ufeff </pre></code>\t]]>\n",
        f"{quoted(mount)} {image} -maproot=<svg/onload> <iframe> h\u202eost\n",
        f"{quote} {entity} -ro </td></tr></table> '\"no host\"><s>'\n",
        f"{quoted(mount + '/x' * 120)} -ro -sec=krb5p:sys -network 10.0.0.0/8\n",
    ]


def name_of(kind, length):
    """A name of so many characters, with hyphens."""
    return (kind + "-which-is-long" * 20)[:length]


def named(folder):
    """A site whose mount points, directories, hosts and netgroups have names of 10, 40 and 200 characters. Texts of all its file
    systems wait, and that in force of the first was approved."""
    hosts, groups = ([name_of(kind, length) for length in LENGTHS] for kind in ("host", "group"))
    keepers = [name_of(kind, LONGEST) for kind in ("ann", "ben")]
    mounts = ["/a", *(name_of("/volume", length) for length in LENGTHS)]
    lines = {mount: named_lines(mount, " ".join(hosts), " ".join(groups)) for mount in mounts}
    files = {
        "custodians": "".join(f"{name} {digest(name)}\n" for name in ("site", *keepers)),
        "filesystems": "".join(f"{mount} !guarded {' '.join(keepers)}\n" for mount in mounts),
        "hosts": "".join(f"10.0.0.{number} {name}\n" for number, name in enumerate(hosts)),
        "networks": "",
        "passwd": "root:*:0:0::/root:/bin/sh\nnobody:*:65534:65534::/:/bin/sh\n",
        "group": "nobody:*:65534:\n",
        "netgroup": "".join(f"{name} (10.0.1.{number},,) {' '.join(groups[:number])}\n" for number, name in enumerate(groups)),
        "exports": "".join(map("".join, lines.values())),
    }
    first, *others = mounts
    edits = [(first, name, lines[first][1:]) for name in keepers] + [(mount, keepers[0], lines[mount][:-2]) for mount in mounts]
    return write(folder, files, "".join(f"exports:{mount} {name} {escaped(''.join(text))}\n" for mount, name, text in edits))


def named_lines(mount, hosts, groups):
    """The lines of a file system: four addresses may not mount what all others may, and a quarter of a network may more."""
    below = [name_of(f"{mount}/directory", length) for length in LENGTHS] if mount == "/a" else []
    listed = " ".join([mount, *below])
    return [
        f"{mount} -alldirs -ro -sec=sys:krb5:krb5i:krb5p\n",
        f"{mount} -network 192.168.1.0/30\n",
        f"{listed} -maproot=0 {hosts}\n",
        f"{mount} -ro -maproot=0 -network 10.64.0.0/10\n",
        f"{listed} -ro -network 10.128.0.0/9\n",
        f"{mount} {groups}\n",
        *(f"{path} -network 172.16.{number}.0/24\n" for number, path in enumerate(below)),
        f"{mount} -network 10.0.0.0/8\n",
        f"{listed} -sec=krb5p -network 10.3.0.0/16\n",
    ]


def large(folder):
    """64 file systems of 30 directories and 100 lines each, for hosts, netgroups and networks."""
    chance = random.Random(1)
    teams = [f"team{number}" for number in range(8)]
    names = [f"host{number:04}" for number in range(HOSTS)]
    hosts = [f"10.{16 + number // 1000}.{number // 200 % 200}.{number % 200 + 10} {name}\n" for number, name in enumerate(names)]
    members = [chance.sample(names[HOSTS // 2 :], 12) for _ in range(GROUPS)]
    systems = [f"{volume(number)} {'!guarded ' * (number % 4 == 0)}{teams[number % 8]} site\n" for number in range(SYSTEMS)]
    files = {
        "custodians": "".join(f"{name} {digest(name)}\n" for name in ("site", *teams)),
        "filesystems": "".join(systems),
        "hosts": "".join(hosts),
        "networks": "",
        "passwd": "root:*:0:0::/root:/bin/sh\nnobody:*:65534:65534::/:/bin/sh\n",
        "group": "nobody:*:65534:\n",
        "netgroup": "".join(f"group{number} {' '.join(f'({name},,)' for name in group)}\n" for number, group in enumerate(members)),
        "exports": "".join(large_line(number, chance) for number in range(SYSTEMS) for _ in range(LINES)),
    }
    return write(folder, files)


def volume(number):
    return f"/export/volume{number:02}"


def large_line(number, chance):
    """A line of a file system. The clients tell its options, so that no two lines contradict each other: the hosts of netgroups are
    on no other line."""
    count = chance.choice([1, 1, 1, 2, 4])
    directories = " ".join(f"{volume(number)}/project{place:02}" for place in chance.sample(range(PROJECTS), count))
    if chance.randrange(12) == 0:
        directories = volume(number)
    kind = chance.randrange(10)
    if kind < 5:
        told = chance.randrange(HOSTS // 2)
        clients = f"host{told:04}"
    elif kind < 6:
        told, clients = 0, f"group{chance.randrange(GROUPS)}"
    else:
        told = 16 << 8 | chance.randrange(24 << 8)
        clients = f"-network 10.{told >> 8}.{told & 255}.0/{chance.choice([24, 24, 24, 26, 28])}"
    return f"{directories}{OPTIONS[(told + number) % len(OPTIONS)]} {clients}\n"
