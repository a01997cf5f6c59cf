"""Reads the texts of sites, as far as well-formed lines go; words with quotes or backslashes in exports files and the table of file
systems alone: for the script that looks answers up in the definitions.
"""

import re
import sys
from urllib.parse import quote

from reference import lines
from reference.definitions import Line, Site, fs_of, number_of, printed

FILES = ["custodians", "filesystems", "hosts", "networks", "passwd", "group", "netgroup"]
VALUED = ("maproot", "r", "mapall", "sec", "network", "mask")
MEMBER = re.compile(r"\([ \t]*([^, \t]*)[ \t]*,[^)]*\)|([^ \t(),]+)")

sys.set_int_max_str_digits(0)  # (a number may have as many zeros as a line has room for)


class Fault(Exception):
    """A rule that a well-formed line breaks, by a name that no table has or by a directory of another file system; of a site, the
    first of them in the words in which it is printed."""


def known(table, name, rule):
    if name not in table:
        raise Fault(rule)
    return table[name]


def path_of(text):
    return tuple(part for part in text.split("/") if part)


def logical_lines(text):
    """The lines of a text, each with its number, and with those that go on in the next one joined; without comments."""
    return [(line.number, line.text) for line in lines.logical_lines(text)]


def words_of(text):
    return [word for word in re.split("[ \t]+", text) if word]


class Tables:
    """The tables with which exports lines are read."""

    def __init__(self, texts):
        rows = lambda name: [words_of(part.whole.partition("#")[0]) for part in lines.physical_lines(texts.get(name, ""))]
        fields = lambda name: [line.split(":") for _, line in logical_lines(texts.get(name, ""))]
        self.hosts = [(number_of(row[0]), row[1:]) for row in rows("hosts") if row and ":" not in row[0]]
        self.networks, self.users, self.groups = {}, {}, {}  # (the first row counts)
        for name, number, *aliases in (row for row in rows("networks") if row):
            for known in (name, *aliases):
                self.networks.setdefault(known, number)
        for row in fields("passwd"):
            self.users.setdefault(row[0], (int(row[2]), int(row[3])))
        for row in fields("group"):
            self.groups.setdefault(row[0], (int(row[2]), row[3].split(",")))
        self.netgroups, self.group_lines = {}, {}
        for number, line in logical_lines(texts.get("netgroup", "")):
            (_, name), *members = MEMBER.findall(line)
            self.group_lines[name] = number
            self.netgroups[name] = [
                ("group", group) if group else ("host", host) for host, group in members if group or host not in ("", "-")
            ]

    def credential(self, text):
        user, colon, rest = text.partition(":")
        groups = [name for name in rest.split(":") if name] if colon else []
        if colon or not user.isdigit():
            uid, gid = (int(user), None) if user.isdigit() else known(self.users, user, "17 UnknownUser")
        else:
            user = next((name for name, (uid, _) in self.users.items() if uid == int(user)), None)
            uid, gid = known(self.users, user, "17 UnknownUser")
        gids = [int(name) if name.isdigit() else known(self.groups, name, "18 UnknownGroup")[0] for name in groups]
        if not colon:
            mine = [number for number, names in self.groups.values() if user in names]
            gids = list(dict.fromkeys([gid, *mine]))
        return f"{uid}:{':'.join(map(str, gids))}"

    def network(self, text, mask):
        """The client network, as a number and a prefix."""
        if ":" in text:
            return "ipv6", text
        first, slash, prefix = text.partition("/")
        number = padded(first if first[0].isdigit() else known(self.networks, first, "9 BadAddress"))
        if slash:
            return "network", number, int(prefix)
        if mask:
            mask = mask if mask[0].isdigit() else known(self.networks, mask, "10 BadMask")
            return "network", number, bin(padded(mask)).count("1")
        return "network", number, 8 if number < 2**31 else 16 if number < 3 * 2**30 else 24


def padded(text):
    return number_of(".".join((text.split(".") + ["0", "0", "0"])[:4]))


def read_line(line, tables, is_at_home=lambda path: True):
    """An exports line, or None for a V4: line."""
    words = [(value, place.slice.startswith("-")) for value, place in lines.words_of(line)]
    if words[0][0].startswith("V4:"):
        return None
    directories, options, names = [], {}, []
    while words:
        word, is_dashed = words.pop(0)
        if word.startswith("/"):
            directories.append(path_of(word))
            if not is_at_home(directories[-1]):
                raise Fault("4 DirectoryElsewhere")
        elif is_dashed:
            *pieces, last = word[1:].split(",")
            if last in VALUED:
                last += "=" + words.pop(0)[0]
            options |= dict((piece.split("=") + [""])[:2] for piece in [*pieces, last])
        else:
            names.append(word)
    short = {"o": "ro", "r": "maproot"}
    options = {short.get(name, name): value for name, value in options.items()}
    clients, by_class = ("names", names) if names else ("everybody",), None
    if "network" in options:
        clients = tables.network(options["network"], options.get("mask"))
        has_size = "/" in options["network"] or "mask" in options or clients[0] == "ipv6"
        by_class = None if has_size else options["network"]
    return Line(line.number, directories, "alldirs" in options, terms_of(options, tables), clients, by_class)


def terms_of(options, tables):
    access = "ro" if "ro" in options else "rw"
    flavours = ":".join(dict.fromkeys(options.get("sec", "sys").split(":")))
    if "mapall" in options:
        return f"{access} sec={flavours} all={tables.credential(options['mapall'])}"
    root = tables.credential(options["maproot"]) if "maproot" in options else "65534:65533"
    return f"{access} sec={flavours} root={root}"


def acting_as(terms, own):
    """The credential as which a client acts on these terms that has one of its own."""
    kind, _, mapped = terms.split(" ")[2].partition("=")
    return mapped if kind == "all" or own.split(":")[0] == "0" else own


def file_system_words(texts):
    """The words of each line of the table of file systems."""
    return [[value for value, _ in lines.words_of(line)] for line in lines.logical_lines(texts["filesystems"])]


def empty_site(mounts, tables):
    site = Site(mounts, tables.hosts, tables.netgroups)
    site.lines = {mount: [] for mount in site.mounts}
    return site


def read_site(texts):
    """The site of these texts, those of exports files under `exports:` and their mount points; or a fault is raised."""
    tables = Tables(texts)
    site = empty_site([path_of(words[0]) for words in file_system_words(texts)], tables)
    for mount in site.mounts:
        for line in lines.logical_lines(texts.get(f"exports:{printed(mount)}", "")):
            site.lines[mount] += entries_of(site.mounts, mount, line, tables)
    return site


def entries_of(mounts, mount, line, tables):
    """The entry of a line in the file of a mount point, if it has one."""
    try:
        entry = read_line(line, tables, lambda path: fs_of(mounts, path) == mount)
    except Fault as fault:
        raise Fault(f"fault exports:{printed(mount)} line {line.number} rule {fault}") from None
    return [entry] if entry else []


class OwnLine(int):
    """The number of a line of one of several texts: its place among the lines of all, and for what is printed also its own number and the
    path of its text, as 7@3@zfs/exports, with the letters of a URI."""

    def __new__(cls, place, own, path):
        made = super().__new__(cls, place)
        made.name = f"{place}@{own}@{quote(path)}"
        return made

    def __str__(self):
        return self.name

    def __format__(self, form):
        return self.name

    def __eq__(self, other):
        return self.name == other if isinstance(other, str) else int(self) == other

    __hash__ = int.__hash__


def read_whole(text, mounts, texts):
    """The site of an exports text for all of these mount points, and of the texts of tables."""
    return read_several([(None, text)], mounts, texts)


def read_several(named, mounts, texts):
    """The same of several exports texts, each read by itself, one behind another, with the paths of their files."""
    tables = Tables(texts)
    site, before = empty_site(map(path_of, mounts), tables), 0
    for path, text in named:
        for line in lines.logical_lines(text):
            entry = read_line(line, tables)
            if entry:
                if path is not None:
                    entry.number = OwnLine(before + entry.number, entry.number, path)
                site.lines[fs_of(site.mounts, entry.directories[0])].append(entry)
        before += len(lines.physical_lines(text))
    return site
