"""What the report says of a site, as data: the classes of a grant, their ranges, what each line grants, which directories are
granted alike, what stands out, and which maps show where a class changes.
"""

import bisect
import functools

from reference.definitions import (
    effect, printed, runs, selected, steady_blocks, unwritten, verdict, weight, who,
)  # fmt: skip
from reference.idle import is_for_all
from reference.server import addresses_asked, is_wider, repeated_clients, server_verdict, wider_grants
from reference.why import is_for_nobody, named_line

SPACE = 2**32
# What a verdict comes to, from the least to the most.
DENIED, READ_ONLY, READ_WRITE, ROOT_KEPT = range(4)
PRIVATE = ((10 << 24, 8), ((172 << 24) + (16 << 16), 12), ((192 << 24) + (168 << 16), 16))
# A line for more addresses than that is called wide.
WIDE = 65536


# ---- terms


def credential_of(terms):
    """Whom a mapping is of, `root` or `all`, and the credential."""
    kind, _, credential = terms.split(" ")[2].partition("=")
    return kind, credential


def flavours_of(terms):
    return terms.split(" ")[1].removeprefix("sec=").split(":")


def is_read_only(terms):
    return terms.startswith("ro ")


def keeps_root(terms):
    """Some user of the client acts as uid 0: its root, or each."""
    return credential_of(terms)[1].split(":")[0] == "0"


def class_of(terms):
    """The class of a grant on these terms, and of none. Whether root is kept comes before whether the mount is read-only."""
    if terms is None:
        return DENIED
    if keeps_root(terms):
        return ROOT_KEPT
    return READ_ONLY if is_read_only(terms) else READ_WRITE


# ---- ranges


def size_of(ranges):
    return sum(last - first + 1 for first, last in ranges)


def union(ranges):
    """The addresses of these ranges, in the longest ranges that have them."""
    found = []
    for first, last in sorted(ranges):
        if found and first <= found[-1][1] + 1:
            begin, end = found.pop()
            first, last = begin, max(end, last)
        found.append((first, last))
    return found


def clipped(classes, first, last):
    """The ranges of a list that meet a range, cut to it. Those of a list ascend and leave no address out."""
    at = bisect.bisect_right(classes, first, key=lambda found: found[0]) - 1
    until = bisect.bisect_right(classes, last, key=lambda found: found[0])
    return [(max(begin, first), min(end, last), value) for begin, end, value in classes[at:until]]


def counts(classes, first, last):
    """How many of the addresses of a range have each class."""
    found = [0, 0, 0, 0]
    for begin, end, value in clipped(classes, first, last):
        found[value] += end - begin + 1
    return found


def joined(ranges):
    """The same ranges, neighbours of one value joined."""
    found = []
    for first, last, value in ranges:
        if found and found[-1][2] == value:
            first = found.pop()[0]
        found.append((first, last, value))
    return found


def network_ends(number, prefix):
    size = 2 ** (32 - prefix)
    return number // size * size, number // size * size + size - 1


# ---- a file system


class FileSystem:
    """A file system by its number: its lines, and for each place the ranges of addresses with one verdict. A place is a directory:
    the mount point, one below it that a line writes, or, for all others, one that no line writes."""

    def __init__(self, site, number):
        self.site, self.number, self.mount = site, number, site.mounts[number]
        self.name, self.lines = printed(self.mount), site.lines[self.mount]
        self.written = {path for line in self.lines for path in line.directories}
        below = sorted(self.written - {self.mount}, key=lambda path: printed(path).encode())
        self.other = unwritten({*self.written, *site.mounts}, self.mount)
        self.places = [self.mount, *below, self.other]
        self.who = {place: who(site, place) for place in self.places}
        self.classes = runs(self.most_of, [site], self.mount)
        self.grants = self.granted_by_lines()

    def most_of(self, address):
        """The most that an address may in some directory: an address has one set of terms on a file system, those of the lines that
        are selected, and each of these has a directory."""
        chosen = selected(self.site, self.mount, address)
        return class_of(chosen[0].terms if chosen else None)

    def granted(self, place):
        """The ranges of a place whose verdict is a grant."""
        return [found for found in self.who[place] if effect(found[2])]

    @functools.cached_property
    def wider(self):
        """By the number of each line where mountd(8) grants more: the other line, the client, and a directory or None."""
        return {number: shows for number, *shows in wider_grants(self.site, self.mount)}

    @functools.cached_property
    def repeated(self):
        """By the number of each line with a client of an earlier one: that line, and the client."""
        return {number: shows for number, *shows in repeated_clients(self.site, self.mount)}

    def granted_by_lines(self):
        """For each line the addresses for which it grants some directory: the verdict names it."""
        found = {line.number: [] for line in self.lines}
        for place in self.places:
            for first, last, granted in self.granted(place):
                found[named_line(granted)].append((first, last))
        return {number: union(ranges) for number, ranges in found.items()}

    def decides_nothing(self, line):
        """No verdict names the line. (One that a denial names is selected first of all, so it grants its own directories.)"""
        return not self.grants[line.number]

    def matches_nobody(self, line):
        return is_for_nobody(self.site, line)

    def deciding(self, line):
        """The lines that some verdict names at an address that a line matches, in order. (Not all that are selected there.)"""
        firsts = [first for first, _ in steady_blocks(((self.site, self.mount),))]
        matched = [first for first in firsts if weight(self.site, line, first) is not None]
        return sorted({named_line(verdict(self.site, first, place)) for first in matched for place in self.places})

    def openings(self, places):
        """What mountd(8) grants at these places of that which is denied: for each line that a denial names, in order, the least client
        to whom it grants something, the first such place, that line, and the line by which it does."""
        found = {}
        for address in addresses_asked(self.site, self.mount) if self.wider else []:
            for place in places:
                denied = named_line(verdict(self.site, address, place))
                if denied in self.wider and denied not in found and is_wider(self.site, address, place):
                    found[denied] = address, place, denied, named_line(server_verdict(self.site, address, place))
        return [found[denied] for denied in sorted(found)]

    def groups(self):
        """The places, those together whose granted ranges are the same, in the order of their first."""
        found = {}
        for place in self.places:
            found.setdefault(tuple(self.granted(place)), []).append(place)
        return list(found.values())


def classes_of(ranges):
    """The classes of a list of verdicts."""
    return joined((first, last, class_of(effect(found))) for first, last, found in ranges)


def together(systems):
    """The most that an address may on any file system."""
    starts = sorted({first for system in systems for first, _, _ in system.classes} | {0})
    found = []
    for first, after in zip(starts, [*starts[1:], SPACE]):
        most = max((clipped(system.classes, first, first)[0][2] for system in systems), default=DENIED)
        found.append((first, after - 1, most))
    return joined(found)


# ---- maps


def cells(classes, number, prefix):
    """Of the 256 cells of a network the least and the most that an address may."""
    size = 2 ** (24 - prefix)
    least, most = [ROOT_KEPT] * 256, [DENIED] * 256
    for first, last, value in clipped(classes, *network_ends(number, prefix)):
        for cell in range((first - number) // size, (last - number) // size + 1):
            least[cell], most[cell] = min(least[cell], value), max(most[cell], value)
    return least, most


def map_of(seam):
    """The network on whose grid an address lies at which the class is another one than before it."""
    prefix = next(prefix for prefix in (0, 8, 16, 24) if seam % 2 ** (24 - prefix) == 0)
    return network_ends(seam, prefix)[0], prefix


def maps_of(classes):
    """The maps on one of which each seam can be seen: that of all addresses, and those of the seams, the wide ones first."""
    found = {map_of(first) for first, _, _ in classes[1:]} - {(0, 0)}
    return [(0, 0), *sorted(found, key=lambda network: (network[1], network[0]))]


# ---- what stands out


FIRST, CHECK = "look first", "check"
# What begins the words on a line by which mountd(8) does something else than the desk.
GRANTS_MORE, LEFT_OUT = "mountd(8) grants more", "mountd(8) may leave this line out"
# The words that go on with other lines of the file system.
NAMING_LINES = ("never decides", GRANTS_MORE, LEFT_OUT)


class Finding:
    """What stands out of a line: its words, each with a level, and to how many addresses it grants something."""

    def __init__(self, system, line, words):
        self.system, self.line, self.words = system, line.number, words
        self.clients, self.terms = line.clients, line.terms
        self.level = FIRST if FIRST in [level for level, _ in words] else CHECK
        self.count = size_of(system.grants[line.number])


def findings_of(system):
    """The lines that stand out by the rules, a line once with all words that hold of it."""
    found = [(line, words_of(system, line)) for line in system.lines]
    return [Finding(system, line, words) for line, words in found if words]


def words_of(system, line):
    words = own_words(system, line)
    words += [(FIRST, GRANTS_MORE)] if line.number in system.wider else []
    return words + ([(FIRST, LEFT_OUT)] if line.number in system.repeated else [])


def own_words(system, line):
    if system.decides_nothing(line):
        return [(CHECK, "matches nobody" if system.matches_nobody(line) else "never decides")]
    access = "read-only" if is_read_only(line.terms) else "read-write"
    words = []
    if is_for_all(line):
        level = CHECK if is_read_only(line.terms) else FIRST
        words.append((level, f"for everybody, {access}, sec={':'.join(flavours_of(line.terms))}"))
    elif size_of(system.grants[line.number]) > WIDE:
        words.append((CHECK, f"wide: over {WIDE:,} addresses"))
    if keeps_root(line.terms):
        words.append((CHECK if line.clients[0] == "names" else FIRST, root_words(line)))
    return words


def root_words(line):
    who_acts = "every user acts as root" if credential_of(line.terms)[0] == "all" else "root stays root"
    is_network = line.clients[0] == "network" and not is_for_all(line)
    return who_acts + (" for a whole network" if is_network else "")


# ---- what a proposal would change


def changed_places(before, after):
    """The places of either state of a file system: its directories in byte order, and one for all others."""
    directories = sorted({*before.places[:-1], *after.places[:-1]}, key=lambda path: printed(path).encode())
    taken = {*before.written, *after.written, *before.site.mounts}
    return [*directories, unwritten(taken, before.mount)]
