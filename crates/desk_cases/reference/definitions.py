"""The definitions, written anew in the words of docs/DEFINITIONS.md, for the scripts that print cases or look their answers up:
who may mount what, for whom, what another site would change, and what a site is expected to allow. A line has a weight for an
address, or none; no line is looked for by a key, and no address is looked for at which something might change: ranges are found
by halving.

A path is a tuple of components, an address a number, and a mount point a path.
"""

import functools


class Site:
    """Its mount points in byte order, its hosts and groups, and for each mount point its lines and their text."""

    def __init__(self, mounts, hosts, groups):
        self.mounts, self.hosts, self.groups = in_order(mounts), hosts, groups
        self.lines, self.texts = {}, {}
        self.known = {}  # the addresses of names, once they were looked up
        self.chosen = {}  # of a mount point and an address its lines, and those of them that are selected, once they were found


class Line:
    """Its clients are `("names", names)`, `("network", number, prefix)`, `("ipv6", text)` or `("everybody",)`. A network
    whose size is that of its class has its text."""

    def __init__(self, number, directories, alldirs, terms, clients, by_class=None):
        self.number, self.directories, self.alldirs = number, directories, alldirs
        self.terms, self.clients, self.by_class = terms, clients, by_class


# ---- who may mount what


def covers(number, prefix, address):
    """A network has the addresses with the same first bits as its own."""
    return address // 2 ** (32 - prefix) == number // 2 ** (32 - prefix)


def is_under(path, mount):
    return path[: len(mount)] == mount


def fs_of(mounts, path):
    """The file system of a path is that of the longest mount point that it is under."""
    above = [mount for mount in mounts if is_under(path, mount)]
    return max(above, key=len) if above else None


def is_dotted(name):
    return all(letter in "0123456789." for letter in name)


def host_addresses(site, name):
    """An address stands for itself, one of IPv6 for nothing, and a host for all addresses that the hosts file gives it, in
    whatever case of A to Z."""
    if ":" in name:
        return set()
    if is_dotted(name):
        return {number_of(name)} if is_address(name) else set()
    return {address for address, names in site.hosts for known in names if lowered(known) == lowered(name)}


def lowered(name):
    return name.encode().lower()


def hosts_of(site, group, depth):
    """A group has its own hosts and those of the groups in it; as many steps down as there are groups find them all."""
    if depth == 0 or group not in site.groups:
        return set()
    own = {name for kind, name in site.groups[group] if kind == "host"}
    return own.union(*(hosts_of(site, name, depth - 1) for kind, name in site.groups[group] if kind == "group"))


def addresses_of(site, name):
    """A written name that is not like an address stands for the hosts of its group, or else for a host."""
    if name not in site.known:
        site.known[name] = addresses_found(site, name)
    return site.known[name]


def addresses_found(site, name):
    if name in site.groups and ":" not in name and not is_dotted(name):
        return set().union(*(host_addresses(site, host) for host in hosts_of(site, name, len(site.groups))))
    return host_addresses(site, name)


def weight(site, line, address):
    """A written name weighs 34, a network one more than its prefix, and a line for everybody 0."""
    kind, *clients = line.clients
    if kind == "names":
        return 34 if any(address in addresses_of(site, name) for name in clients[0]) else None
    if kind == "network":
        return clients[1] + 1 if covers(*clients, address) else None
    return 0 if kind == "everybody" else None


def selected(site, mount, address):
    """The lines that match the address with the greatest weight."""
    lines, chosen = site.chosen.get((mount, address), (None, None))
    if lines is not site.lines[mount]:
        lines = site.lines[mount]
        weights = [weight(site, line, address) for line in lines]
        greatest = max((found for found in weights if found is not None), default=None)
        chosen = [line for found, line in zip(weights, lines) if found is not None and found == greatest]
        site.chosen[mount, address] = lines, chosen
    return chosen


def lists(site, mount, line, path):
    return path in line.directories or line.alldirs and fs_of(site.mounts, path) == mount


def verdict(site, address, path):
    mount = fs_of(site.mounts, path)
    if mount is None:
        return "denied 1 NoFileSystem"
    chosen = selected(site, mount, address)
    if not chosen:
        return f"denied 2 NoLine {printed(mount)}"
    for line in chosen:
        if lists(site, mount, line, path):
            return f"granted line {line.number} {line.terms}"
    return f"denied 3 NotListed {printed(mount)} line {chosen[0].number}"


def contradiction(site, mount):
    """The least by later line, earlier line and address: an address that both match with equal weight, on other terms."""
    lines = site.lines[mount]
    for place, later in enumerate(lines):
        for earlier in lines[:place]:
            for address in edges(site, [earlier, later]) if earlier.terms != later.terms else []:
                if weight(site, later, address) is not None and weight(site, later, address) == weight(site, earlier, address):
                    return later.number, earlier.number, address
    return None


def edges(site, lines):
    """All addresses at which it may change whom the lines match, in order: between two of them it does not."""
    found = {0}
    for kind, *clients in (line.clients for line in lines):
        if kind == "names":
            ones = set().union(*(addresses_of(site, name) for name in clients[0]))
            found |= ones | {address + 1 for address in ones}
        elif kind == "network":
            size = 2 ** (32 - clients[1])
            first = clients[0] // size * size
            found |= {first, first + size}
    return sorted(address for address in found if address < 2**32)


# ---- for whom: the ranges of addresses


def is_steady(site, line, first, bits):
    """Whether a line has one weight for all addresses whose first bits are those of this one."""
    kind, *clients = line.clients
    if kind == "names":
        return bits == 32 or not any(covers(first, bits, address) for name in clients[0] for address in addresses_of(site, name))
    if kind == "network":
        number, prefix = clients
        return prefix <= bits or not covers(first, bits, number)
    return True


def runs(value_of, sites, path, names=()):
    """The longest ranges of addresses with one value, each its first address, its last one, and the value, which is that of the
    verdicts that the sites have on the path, and of whether names of an expectation mean the addresses."""
    found = []
    for first, last in steady_blocks(tuple((site, fs_of(site.mounts, path)) for site in sites), tuple(names)):
        value = value_of(first)
        if found and found[-1][2] == value:
            first = found.pop()[0]
        found.append((first, last, value))
    return found


@functools.lru_cache(maxsize=1)
def steady_blocks(places, names=()):
    """The addresses in blocks, found by halving, in each of which all lines of these mount points have one weight, and each of the
    names, which come with their sites, means all addresses or none."""
    lines = [(site, line) for site, mount in places for line in site.lines.get(mount, [])]
    found, blocks = [], [(0, 0)]
    while blocks:
        first, bits = blocks.pop()
        size = 2 ** (32 - bits)
        if all(is_steady(site, line, first, bits) for site, line in lines) and all(
            is_steady_name(site, name, first, first + size - 1) for site, name in names
        ):
            found.append((first, first + size - 1))
        else:
            blocks += [(first + size // 2, bits + 1), (first, bits + 1)]
    return found


def who(site, path):
    """Who may mount a directory: the verdict of each address, by the longest ranges that have one."""
    return runs(lambda address: verdict(site, address, path), [site], path)


def who_text(site, path):
    return ranges_text(who(site, path))


def ranges_text(found):
    return "".join(f"{dotted(first)}-{dotted(last)} {verdict}\n" for first, last, verdict in found)


# ---- what another site would change


def effect(found):
    """What a verdict comes to for a client: the terms, or none if it is denied."""
    kind, _, rest = found.partition(" line ")
    return rest.partition(" ")[2] if kind == "granted" else None


def changes(before, after, path):
    """The longest ranges that have one pair of verdicts, and these say something else."""
    found = runs(lambda address: (verdict(before, address, path), verdict(after, address, path)), [before, after], path)
    return [change for change in found if change[2][0] != change[2][1]]


def matters(change):
    _, _, (was, will) = change
    return effect(was) != effect(will)


def changes_text(found):
    text = ""
    for first, last, verdicts in found:
        for sign, printed_verdict in zip("-+", verdicts):
            text += f"{sign} {dotted(first)}-{dotted(last)} {printed_verdict}\n"
    return text


def places(before, after):
    """For each mount point of either site its heading and a path for each place: itself, the directories below it that a line of
    either writes, and its other directories, for which one stands that no line writes."""
    mounts = in_order({*before.mounts, *after.mounts})
    lines = [line for site in (before, after) for lines in site.lines.values() for line in lines]
    written = in_order({path for line in lines for path in line.directories})
    for mount in mounts:
        yield printed(mount), mount
        yield from ((printed(path), path) for path in written if path != mount and fs_of(mounts, path) == mount)
        yield f"other directories of {printed(mount)}", unwritten({*written, *mounts}, mount)


def unwritten(taken, mount):
    number = 0
    while mount + (f"unwritten-{number}",) in taken:
        number += 1
    return mount + (f"unwritten-{number}",)


def report(before, after, tell_all=False):
    """What changes at each place, as it is printed, and how many changes matter to a client."""
    text, mattering, others = "", 0, 0
    for heading, path in places(before, after):
        found = changes(before, after, path)
        chosen = [change for change in found if matters(change)]
        mattering += len(chosen)
        others += len(found) - len(chosen)
        told = found if tell_all else chosen
        if told:
            text += f"== {heading}\n{changes_text(told)}"
    text += "1 change" if mattering == 1 else f"{mattering} changes"
    text += f", {others} of lines or reasons alone\n" if others else "\n"
    return text, mattering


# ---- what a site is expected to allow


ACTIONS = ("mount", "write", "root", "sys", "krb5", "krb5i", "krb5p")
RULES = ["OpenQuote", "Form", "BadAction", "BadPath", "BadAddress", "UnknownName", "Nobody"]


class Expectation:
    """A line: its number, its words, the names of those it is about, or None for everybody, those that it is not about, whether it
    says what may not be done, the action, and its directories, each with whether all below it are meant. Its names are looked up
    in the hosts and groups of a site."""

    def __init__(self, number, words, site, whom, but, forbids, action, scopes):
        self.number, self.words, self.site, self.whom, self.but = number, words, site, whom, but
        self.forbids, self.action, self.scopes = forbids, action, scopes


def expectation(site, number, words):
    """What a line with these words expects, or the first rule that it breaks and the number of the word at fault."""
    may = words.index("may") if "may" in words else None
    if may is None:
        return "Form", len(words) - 1
    subject, promised = words[:may], words[may + 1 :]
    at = subject.index("but") if "but" in subject else may
    if at == 0 or at == may - 1 and "but" in subject:
        return "Form", at
    whom, but = subject[:at], subject[at + 1 :]
    forbids = promised[:1] == ["not"]
    acted = may + 1 + forbids
    if len(words) < acted + 2:
        return "Form", len(words) - 1
    if words[acted] not in ACTIONS:
        return "BadAction", acted
    scopes = [scope_of(word) for word in words[acted + 1 :]]
    if None in scopes:
        return "BadPath", acted + 1 + scopes.index(None)
    names = [] if whom == ["everybody"] else list(enumerate(whom))
    names += [(at + 1 + place, name) for place, name in enumerate(but)]
    for rule, is_broken in (("BadAddress", is_bad_address), ("UnknownName", is_unknown)):
        for place, name in names:
            if is_broken(site, name):
                return rule, place
    found = Expectation(number, words, site, None if whom == ["everybody"] else whom, but, forbids, words[acted], scopes)
    if not any(is_meant(found, first) for first, _ in steady_blocks((), names_of(found))):
        return "Nobody", 0
    return found


def scope_of(word):
    """A directory, or one with `/...` after it, which means all below it too; no other component is `...`."""
    below = word.endswith("/...")
    text = (word[:-4] or "/") if below else word
    parts = text.split("/")
    if not text.startswith("/") or {".", "..", "..."} & set(parts) or "\0" in text or len(text.encode()) > 1024:
        return None
    return tuple(part for part in parts if part), below


def span_of(name):
    """The first and the last address of a network or a range; None if it is not one, and False if the name is not written so."""
    first, dash, last = name.partition("-")
    if "/" in name:
        address, _, prefix = name.partition("/")
        parts = address.split(".")
        if len(parts) > 4 or not all(map(is_octet, parts)) or not is_decimal(prefix) or int(prefix) > 32:
            return None
        size = 2 ** (32 - int(prefix))
        number = number_of(".".join(parts + ["0"] * (4 - len(parts)))) // size * size
        return number, number + size - 1
    if dash and is_dotted(first) and is_dotted(last):
        if not is_address(first) or not is_address(last) or number_of(last) < number_of(first):
            return None
        return number_of(first), number_of(last)
    return False


def is_decimal(text):
    return text.isascii() and text.isdigit() and (text == "0" or text[0] != "0")


def is_octet(text):
    return is_decimal(text) and int(text) < 256


def is_address(text):
    return text.count(".") == 3 and all(map(is_octet, text.split(".")))


def is_bad_address(site, name):
    """Written like an address, a network or a range, and none; no line of an exports file matches one of IPv6."""
    if span_of(name) is not False:
        return span_of(name) is None
    return ":" in name or is_dotted(name) and not is_address(name)


def is_unknown(site, name):
    """Any other name that is neither a netgroup's nor a host's."""
    if span_of(name) is not False or ":" in name or is_dotted(name):
        return False
    return name not in site.groups and not host_addresses(site, name)


def means(site, name, address):
    """A network or a range means the addresses of it, and any other name those for which it stands in a line."""
    span = span_of(name)
    return span[0] <= address <= span[1] if span else address in addresses_of(site, name)


def is_steady_name(site, name, first, last):
    """Whether a name means all of these addresses, or none of them."""
    span = span_of(name)
    if span:
        return last < span[0] or span[1] < first or span[0] <= first and last <= span[1]
    return first == last or not any(first <= address <= last for address in addresses_of(site, name))


def names_of(expected):
    return tuple((expected.site, name) for name in [*(expected.whom or []), *expected.but])


def is_meant(expected, address):
    """One of the names means the address, or all are meant; and none of those after `but` does."""
    named = expected.whom is None or any(means(expected.site, name, address) for name in expected.whom)
    return named and not any(means(expected.site, name, address) for name in expected.but)


def allows(action, found):
    """A verdict allows what its terms allow: a mount always, to write if it is not read-only, root if uid 0 acts as uid 0, and a
    flavour if it is among those accepted."""
    terms = effect(found)
    if terms is None:
        return False
    access, flavours, mapping = terms.split(" ")
    if action == "mount":
        return True
    if action == "write":
        return access == "rw"
    if action == "root":
        return mapping.partition("=")[2].split(":")[0] == "0"
    return action in flavours.partition("=")[2].split(":")


def scope_places(site, path, below):
    """The directory; and if all below it are meant, for it and each mount point under it its heading and a path for each place:
    itself, the directories at home there that a line writes, and its other directories."""
    if not below:
        yield printed(path), path
        return
    roots = in_order({path, *(mount for mount in site.mounts if is_under(mount, path))})
    written = in_order({one for lines in site.lines.values() for line in lines for one in line.directories})
    for root in roots:
        yield printed(root), root
        yield from ((printed(one), one) for one in written if one != root and fs_of(roots, one) == root)
        yield f"other directories of {printed(root)}", unwritten({*written, *roots, *site.mounts}, root)


# ---- how they are printed


def in_order(paths):
    return sorted(set(paths), key=lambda path: printed(path).encode())


def printed(path):
    return "/" + "/".join(path)


def dotted(number):
    return ".".join(str(number >> shift & 255) for shift in (24, 16, 8, 0))


def number_of(text):
    a, b, c, d = map(int, text.split("."))
    return ((a * 256 + b) * 256 + c) * 256 + d


def fault_text(mount, fault):
    later, earlier, address = fault
    return f"fault exports:{printed(mount)} line {later} rule 26 Contradiction line {earlier} address {dotted(address)}"
