"""The rule of mountd(8), in the words of its manual: what it grants beside the desk, the lines where it grants more, and the lines
that it leaves out, since an earlier one has a client of theirs. Everything is found by asking: the first address of each block in
which all lines have one weight, each directory that a line writes, and one that none writes.
"""

from reference.definitions import (
    addresses_of, dotted, fs_of, lists, printed, runs, selected, steady_blocks, unwritten, verdict, weight,
)  # fmt: skip


# ---- what the server grants


def named(site, mount, address):
    """The lines that match an address by a name or a network, each with its weight, in the order of the lines."""
    found = [(weight(site, line, address), line) for line in site.lines[mount]]
    return [(own, line) for own, line in found if own]


def lighter(site, mount, address):
    """Those of them that weigh less than the selected lines, heaviest first, and those of one weight in their order."""
    found = named(site, mount, address)
    greatest = max((own for own, _ in found), default=0)
    return [line for own, line in sorted(found, key=lambda pair: -pair[0]) if own < greatest]


def server_verdict(site, address, path):
    """That of the desk, but where it denies a path that a lighter line lists for a host or a network of the client: then the first
    of the heaviest such lines grants it, on the terms of the selected lines."""
    found = verdict(site, address, path)
    if not found.startswith("denied 3 "):
        return found
    mount = fs_of(site.mounts, path)
    for line in lighter(site, mount, address):
        if lists(site, mount, line, path):
            return f"granted line {line.number} {selected(site, mount, address)[0].terms}"
    return found


def is_granted(site, lines, address, path):
    """Whether the server grants a path of a file system by these lines of it: if any named line matches the address, exactly where
    one of those lists the path, and else where a line for everybody does. Which is most specific is not asked."""
    mount = fs_of(site.mounts, path)
    weights = [(weight(site, line, address), line) for line in lines]
    own = [line for found, line in weights if found]
    everybody = [line for found, line in weights if found == 0]
    return any(lists(site, mount, line, path) for line in own or everybody)


# ---- where it grants more


def paths_asked(site, mount):
    """The directories that lines of a file system write, in their order, and one that none writes."""
    written = list(dict.fromkeys(path for line in site.lines[mount] for path in line.directories))
    return [*written, unwritten({*written, *site.mounts}, mount)]


def addresses_asked(site, mount):
    """The first address of each block in which all lines of a file system have one weight, in order."""
    return sorted(first for first, _ in steady_blocks(((site, mount),)))


def is_wider(site, address, path):
    """Whether the server grants what the desk denies."""
    is_denied = not verdict(site, address, path).startswith("granted")
    return is_denied and server_verdict(site, address, path).startswith("granted")


def lists_more(site, mount, line, address):
    """The paths that a line lists and no line that is selected at an address does."""
    chosen = selected(site, mount, address)
    listing = [path for path in paths_asked(site, mount) if lists(site, mount, line, path)]
    return [path for path in listing if not any(lists(site, mount, other, path) for other in chosen)]


def wider_grants(site, mount):
    """For each line that is the first selected one at an address where the server grants more: its number, the number of the other
    line, the least such address, and the first directory of the other line that no selected line lists, or None if it lists more
    by -alldirs alone."""
    found = []
    for line in site.lines[mount]:
        for address in addresses_asked(site, mount):
            chosen = selected(site, mount, address)
            if chosen[:1] != [line] or not any(is_wider(site, address, path) for path in paths_asked(site, mount)):
                continue
            other = next(one for one in lighter(site, mount, address) if lists_more(site, mount, one, address))
            more = [path for path in other.directories if path in lists_more(site, mount, other, address)]
            found.append((line.number, other.number, address, more[0] if more else None))
            break
    return found


# ---- what is said beside an answer


def granting_line(site, address, path):
    """The name of the line by which the server grants what the desk denies, or None."""
    return server_verdict(site, address, path).split()[2] if is_wider(site, address, path) else None


def wider_note(site, address, path):
    line = granting_line(site, address, path)
    if line is None:
        return ""
    return f"exportdesk: mountd(8) grants this by line {line}, which is not selected here: --mountd decides by its rule\n"


def first_wider_note(site, path):
    """The note on the least address to which the server grants a path that the desk denies it."""
    mount = fs_of(site.mounts, path)
    for address in addresses_asked(site, mount) if mount is not None else []:
        line = granting_line(site, address, path)
        if line is not None:
            client = dotted(address)
            return f"exportdesk: mountd(8) grants {client} this by line {line}, which is not selected there: --mountd decides by its rule\n"
    return ""


def who(site, path):
    """The longest ranges that have one verdict of the server."""
    return runs(lambda address: server_verdict(site, address, path), [site], path)


def lines_text(count):
    return "1 line" if count == 1 else f"{count} lines"


def counts_note(site):
    """How many lines there are of all file systems where the server grants more, and that it may leave out."""
    wider = sum(len(wider_grants(site, mount)) for mount in site.mounts)
    left_out = sum(len(repeated_clients(site, mount)) for mount in site.mounts)
    said = [f"grants more than this desk at {lines_text(wider)}"] if wider else []
    said += [f"may leave out {lines_text(left_out)}"] if left_out else []
    return f"exportdesk: mountd(8) {', and '.join(said)}: see exportdesk check\n" if said else ""


def news_note(before, after):
    """What the server grants more by one site that it did not by another: by whichever lines, the same is granted if it is at the
    same address the same directory."""
    text = ""
    for mount in after.mounts:
        known = {found[2:] for found in wider_grants(before, mount)} if mount in before.mounts else set()
        for _, line, address, directory in wider_grants(after, mount):
            if (address, directory) not in known:
                grants = f"exportdesk: mountd(8) now grants {dotted(address)}"
                if directory is None:
                    text += f"{grants} any directory of {printed(mount)} by line {line}\n"
                else:
                    text += f"{grants} {printed(directory)} by line {line} of {printed(mount)}\n"
    return text


# ---- which lines it takes


def clients_of(site, line):
    """The clients of a line, each with the address that stands for it: an address of its names, its network, or everybody. A host
    and a network of the prefix 32 are two clients, and so are everybody and a network of the prefix 0; one of IPv6 is none."""
    kind, *clients = line.clients
    if kind == "names":
        return {("host", address): address for name in clients[0] for address in addresses_of(site, name)}
    if kind == "network":
        number, prefix = clients
        first = number // 2 ** (32 - prefix) * 2 ** (32 - prefix)
        return {("network", first, prefix): first}
    return {("everybody",): 0} if kind == "everybody" else {}


def repeated_clients(site, mount):
    """For each line one of whose clients an earlier line has: its number, the number of the first such line, and the address of the
    least client that both have."""
    found = []
    for place, line in enumerate(site.lines[mount]):
        own = clients_of(site, line)
        for earlier in site.lines[mount][:place]:
            common = [own[client] for client in clients_of(site, earlier) if client in own]
            if common:
                found.append((line.number, earlier.number, min(common)))
                break
    return found


def loaded_lines(site, mount):
    """The lines that mountd takes: in their order, without each one that has a client of a line that it took before."""
    taken, known = [], set()
    for line in site.lines[mount]:
        own = set(clients_of(site, line))
        if not own & known:
            taken.append(line)
            known |= own
    return taken


# ---- as cases print them


def wider_text(site, mount):
    return "|".join(wider_line(*found) for found in wider_grants(site, mount)) or "none"


def wider_line(number, other, address, directory):
    return f"line {number} by line {other} at {dotted(address)} {printed(directory) if directory is not None else '-alldirs'}"


def repeated_text(site, mount):
    found = repeated_clients(site, mount)
    return "|".join(f"line {number} by line {other} at {dotted(address)}" for number, other, address in found) or "none"
