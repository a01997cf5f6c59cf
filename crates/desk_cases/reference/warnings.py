"""The words of a site that are accepted, but odd: the warnings 1 to 4."""

from reference.definitions import host_addresses, printed

NAMES = {1: "ClassMask", 2: "Ipv6", 3: "UnknownHost", 4: "UnknownMember"}


def host_warning(site, name):
    """Of a host: it is of IPv6, or it is not an address and no name of the hosts file."""
    if ":" in name:
        return 2
    return None if host_addresses(site, name) else 3


def name_warning(site, name):
    """The same of a written name, which may be a group's."""
    return None if name in site.groups and ":" not in name else host_warning(site, name)


def line_warnings(site, line):
    """The words of an exports line that are warned of, each with the number of the warning."""
    kind, *clients = line.clients
    if kind == "ipv6" or line.by_class:
        return [(2, *clients)] if kind == "ipv6" else [(1, line.by_class)]
    names = clients[0] if kind == "names" else []
    found = [(name_warning(site, name), name) for name in names]
    return [(number, name) for number, name in found if number]


def member_warning(site, kind, name):
    """Of a member of a group: it is a group that is not defined, or a host."""
    if kind == "group":
        return None if name in site.groups else 4
    return host_warning(site, name)


def site_warnings(site, group_lines):
    """All warnings of a site, whose groups are defined on lines of these numbers: the file, the line, the number, and the word."""
    found = [
        ("netgroup", group_lines[group], member_warning(site, *member), member[1])
        for group, members in site.groups.items()
        for member in members
    ]
    found = [warning for warning in found if warning[2]]
    for mount in site.mounts:
        for line in site.lines[mount]:
            found += [(f"exports:{printed(mount)}", line.number, *warning) for warning in line_warnings(site, line)]
    return found
