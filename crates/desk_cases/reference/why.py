"""Why a mount is granted or denied: what `--why` prints below the verdict."""

from reference.definitions import addresses_of, dotted, fs_of, lists, printed, verdict, weight


def matching(site, mount, address):
    """The lines that match an address, heaviest first, and those of one weight in the order of the lines."""
    found = [(weight(site, line, address), line) for line in site.lines[mount]]
    return sorted((pair for pair in found if pair[0] is not None), key=lambda pair: -pair[0])


def named_line(found):
    """The number of the line that a verdict names: the line that grants, or the first selected one, which does not list the
    directory. None if no line matches, or there is no file system."""
    if found.startswith("granted line "):
        return number_in(found.split(" ")[2])
    return number_in(found.rpartition(" ")[2]) if found.startswith("denied 3 ") else None


def number_in(name):
    """The number of a line by its name; that of one of several texts is named by its text, too."""
    return name if "@" in name else int(name)


def match_text(site, line, address):
    """By what a line matches: its first name that stands for the address, as written; its network by its first address; or that it
    is for everybody."""
    kind, *clients = line.clients
    if kind == "names":
        return "name " + next(name for name in clients[0] if address in addresses_of(site, name))
    return f"network {network_text(*clients)}" if kind == "network" else "everybody"


def network_text(number, prefix):
    size = 2 ** (32 - prefix)
    return f"{dotted(number // size * size)}/{prefix}"


def is_for_nobody(site, line):
    """No name of the line stands for an address, or its network is of IPv6."""
    kind, *clients = line.clients
    return kind == "ipv6" or kind == "names" and not any(addresses_of(site, name) for name in clients[0])


def why_text(site, address, path):
    """A line for each line of the file system that matches, which says whether it decides, is as heavy as the one that decides, or
    is outweighed by it, and whether it lists the directory; and how many match."""
    mount = fs_of(site.mounts, path)
    if mount is None:
        return f"mount points above {printed(path)}: 0 of {len(site.mounts)}\n"
    found = matching(site, mount, address)
    decides = named_line(verdict(site, address, path))
    text = ""
    for own, line in found:
        status = f"as heavy as line {decides}" if own == found[0][0] else f"outweighed by line {decides}"
        status = "decides" if line.number == decides else status
        listing = "lists" if lists(site, mount, line, path) else "does not list"
        text += f"line {line.number} {match_text(site, line, address)}: {status}, {listing} {printed(path)}\n"
    return text + count_line(site, mount, address, len(found))


def count_line(site, mount, address, count):
    lines = site.lines[mount]
    nobody = sum(is_for_nobody(site, line) for line in lines)
    others = f", {nobody} for nobody" if nobody else ""
    return f"lines of {printed(mount)} that match {dotted(address)}: {count} of {len(lines)}{others}\n"
