"""The objects that commands print with `--json`, made of the definitions: of verdicts, ranges, listings, exports and changes, and of
what a database holds. They have the members of the bodies of HTTP (docs/HTTP.md), if these say the same.
"""

import re
from urllib.parse import unquote

from reference.definitions import changes, dotted, effect, fs_of, in_order, lists, matters, places, printed, selected, verdict
from reference.readings import FILES
from reference.why import network_text, why_text

REASONS = {"NoFileSystem": 1, "NoLine": 2, "NotListed": 3}
HEADLINE = re.compile(r"(.*?):(\d+):(\d+): fault (\d+) (\w+): (.*)", re.DOTALL)
# What a sentence says of an earlier line: that it contradicts this one for an address, or that it has the same netgroup.
CONTRADICTS = re.compile(r"line (\d+)(?: of (.*))? has other terms for ([0-9.]+)", re.DOTALL)
REPEATS = re.compile(r".* is defined on an earlier line already: line (\d+)")


# ---- verdicts


def verdict_object(site, path, found, acts=None):
    """A verdict on a path, and as whom a client acts to whom it grants the mount, if it said who it is."""
    kind, what, *_ = found.split(" ")
    if kind == "granted":
        terms = terms_object(effect(found)) | ({"acts": acts} if acts else {})
        return terms | {"fs": printed(fs_of(site.mounts, path)), "verdict": "granted"} | line_members(found.split(" ")[2])
    told = {"reason": int(what), "verdict": "denied"}
    if what == "1":
        return told
    if what == "2":
        return told | {"fs": found.removeprefix("denied 2 NoLine ")}
    mount, _, line = found.removeprefix("denied 3 NotListed ").rpartition(" line ")
    return told | {"fs": mount} | line_members(line)


def line_members(name):
    """The number of a line, and its file, if it is one of several texts."""
    number, *of_several = name.split("@")
    return {"line": int(of_several[0]), "file": unquote(of_several[1])} if of_several else {"line": int(number)}


def terms_object(terms):
    """On what terms: whether only to read, which flavours, and who is mapped to which credential."""
    access, flavours, mapping = terms.split(" ")
    kind, _, mapped = mapping.partition("=")
    return {"ro": access == "ro", "flavours": flavours.partition("=")[2].split(":"), "map": kind, "mapped": mapped}


def reasons(site, address, path):
    """The lines that `--why` prints below a verdict."""
    return why_text(site, address, path).removesuffix("\n").split("\n")


def ranges_object(site, path, found):
    """Who may mount a directory: the verdict of each address, by the longest ranges that have one."""
    ranges = [span(first, last) | verdict_object(site, path, told) for first, last, told in found]
    return {"dir": printed(path), "ranges": ranges}


def span(first, last):
    return {"first": dotted(first), "last": dotted(last)}


# ---- what is exported


def listing_object(site, address):
    """What a client may mount: for each mount point of which a line is selected, the directories that lines of it write and a
    selected line lists."""
    systems = []
    for mount in site.mounts:
        chosen = selected(site, mount, address)
        if chosen:
            written = {path for line in site.lines[mount] for path in line.directories}
            listed = in_order(path for path in written if any(lists(site, mount, line, path) for line in chosen))
            shown = {"alldirs": any(line.alldirs for line in chosen), "dirs": list(map(printed, listed))}
            shown |= {"lines": [line.number for line in chosen], "mount": printed(mount)}
            systems.append(shown | terms_object(chosen[0].terms))
    return {"host": dotted(address), "systems": systems}


def exports_object(site):
    """What is exported to whom: each line of each mount point."""
    return {"exports": [export_object(mount, line) for mount in site.mounts for line in site.lines[mount]]}


def export_object(mount, line):
    told = {"alldirs": line.alldirs, "clients": clients_of(line), "dirs": list(map(printed, line.directories))}
    return told | {"fs": printed(mount), "line": line.number} | terms_object(line.terms)


def clients_of(line):
    """Whom a line is for: its names as they are written, its network, or everybody."""
    kind, *clients = line.clients
    if kind == "names":
        return clients[0]
    return [network_text(*clients)] if kind == "network" else ["(ipv6)" if kind == "ipv6" else "(everyone)"]


# ---- what would change


def changes_object(before, after, tell_all):
    """What another site changes at each place: all, or what matters to a client."""
    told = []
    for heading, path in places(before, after):
        found = changes(before, after, path)
        told += [change_object(before, after, heading, path, change) for change in found if tell_all or matters(change)]
    return {"changes": told}


def change_object(before, after, heading, path, change):
    first, last, (was, will) = change
    told = {"before": verdict_object(before, path, was), "after": verdict_object(after, path, will), "matters": matters(change)}
    told |= {"dir": heading.removeprefix("other directories of "), "others": not heading.startswith("/")}
    return told | span(first, last)


# ---- what a database holds


def log_object(desk, name):
    """The revisions of a file."""
    return {"name": name, "revisions": [signature(name, revision) for revision in desk.history[name]]}


def signature(name, revision):
    """The number and the author of a revision, who approved it, and that it is of profile 1, if classes of networks count in it."""
    told = {"author": revision.author, "rev": revision.number}
    told |= {"approver": revision.approver} if revision.approver else {}
    return told | ({"profile": 1} if revision.profile == 1 and name not in FILES else {})


def file_object(name, revision):
    told = {"author": revision.author, "body": revision.text, "name": name, "rev": revision.number}
    return told | ({"approver": revision.approver} if revision.approver else {})


def proposal_object(desk, name):
    author, text = desk.proposals[name]
    return {"author": author, "base": desk.number(name), "body": text, "name": name}


def files_object(desk):
    """The files that have a revision or a proposal."""
    files = []
    for name in desk.files():
        told = {"name": name} | ({"mark": desk.mark(name)} if desk.mark(name) else {})
        if name in desk.authors:
            number, author = desk.authors[name]
            told |= {"author": author, "rev": number}
        if name in desk.proposals:
            told |= {"proposal": {"author": desk.proposals[name][0], "rev": desk.number(name) + 1}}
        files.append(told)
    return {"files": files}


# ---- what is refused


def refusal(number, name):
    return {"error": name, "number": number}


def edit_fault(errors):
    """The refusal of an edit that leaves a fault, by what is printed of the fault: one of a file as a whole has no line."""
    found = finding_object(errors)
    told = refusal(9, "Fault") | {"file": found["path"], "line": found["line"] if errors[1:] else 0, "rule": found["rule"]}
    return told | {key: found[key] for key in ("other", "address") if key in found}


def finding_object(errors):
    """A fault as an object of `check --json`, by what is printed of it: a sentence, and of a line the line, and the slice marked below
    it."""
    path, number, column, rule, name, sentence = HEADLINE.fullmatch(errors[0]).groups()
    word = errors[1][errors[2].index("^") : errors[2].rindex("^") + 1] if errors[1:] else ""
    told = {"path": path, "line": int(number), "column": int(column), "kind": "fault", "rule": int(rule), "name": name}
    told |= {"text": sentence, "word": word}
    if found := CONTRADICTS.fullmatch(sentence):
        told |= {"other_path": found[2]} if found[2] is not None else {}
        return told | {"other": int(found[1]), "address": found[3]}
    found = REPEATS.fullmatch(sentence)
    return told | ({"other": int(found[1])} if found else {})
