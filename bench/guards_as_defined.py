"""Edits as the definitions of desk_core and the crates below it say, word for word where that is possible.

Each function has the name of its definition in specs/. Of exports files only the lines are here that `bench/guards` makes:
without continuations and quotes, with the options ro, o, quiet, alldirs, network and mask, and with networks(5) in one table.
"""
import functools
import hashlib
import re
from collections import namedtuple

Edit = namedtuple("Edit", "file base caller key text")
Head = namedtuple("Head", "file rev author approver profile body")
Proposal = namedtuple("Proposal", "file base author body")
Mount = namedtuple("Mount", "path custodians guarded line")
Row = namedtuple("Row", "line terms clients addrs")
Standing = namedtuple("Standing", "newest proposals")
Site = namedtuple("Site", "custodians filesystems hosts exports")
Fault = namedtuple("Fault", "file line rule other address")

LAST_REVISION = 2147483647
LONGEST_REVISION = 65536
NETWORKS = {"cis-net": "131.104.48"}
SEVEN = ("custodians", "filesystems", "hosts", "networks", "passwd", "group", "netgroup")


def first(test, options):
    return next((option for option in options if test(option)), None)


# ---- texts

def logical_lines(text):
    return [(number + 1, line) for number, line in enumerate(text.split("\n")) if line.strip(" \t") and line.strip(" \t")[0] != "#"]


def word_value(raw):
    return re.sub(r"\\(.)|[\"']", r"\1", raw)


def line_values(line):
    return [word_value(raw) for raw in re.findall(r"(?:\\.|\"[^\"]*\"|[^ \t])+", line)]


def read_path(text):
    parts = [part for part in text.split("/") if part]
    good = text.startswith("/") and "." not in parts and ".." not in parts and len(text) <= 1024
    return tuple(parts) if good else None


def path_text(path):
    return "/" + "/".join(path)


def read_short(text):
    parts = text.split(".")
    if len(parts) > 4 or not all(re.fullmatch("0|[1-9][0-9]*", part) and int(part) < 256 for part in parts):
        return None
    return sum(int(part) << (24 - 8 * place) for place, part in enumerate(parts))


def is_address(text):
    return text.count(".") == 3 and read_short(text) is not None


# ---- tables: answers are ("ok", value) or ("fault", line, rule)

def lines_table(answer, text):
    before, rows = [], []
    for number, line in logical_lines(text):
        rule, row = answer(number, before, line_values(line))
        if rule is not None:
            return ("fault", number, rule)
        before.append(line_values(line))
        rows.append(row)
    return ("ok", rows)


def custodian_answer(number, before, words):
    def breaks(rule):
        return {
            1: len(words) != 2,
            3: not re.fullmatch("[a-z0-9_-]{1,32}", words[0]),
            4: words[0] in [other[0] for other in before],
            7: not re.fullmatch("[0-9a-fA-F]{64}", words[1]) if len(words) > 1 else True,
        }[rule]

    return first(breaks, (1, 3, 4, 7)), tuple(words)


@functools.lru_cache(20000)
def read_custodians(text):
    read = lines_table(custodian_answer, text)
    if read[0] == "ok" and not any(row[0] == "site" for row in read[1]):
        return ("fault", 0, 6)
    return read


def digest_of(custodians, name):
    found = first(lambda custodian: custodian[0] == name, custodians)
    return found and bytes.fromhex(found[1])


def is_marked(words):
    return len(words) > 1 and words[1] == "!guarded"


def custodians_on(words):
    return words[2:] if is_marked(words) else words[1:]


def have_two(names):
    return any(name != names[0] for name in names)


def filesystem_answer(number, before, words):
    path = read_path(words[0])

    def breaks(rule):
        return {
            1: len(custodians_on(words)) == 0,
            4: path is not None and path in [read_path(other[0]) for other in before],
            5: path is None,
            8: len(before) >= 256,
            9: is_marked(words) and not have_two(custodians_on(words)),
        }[rule]

    return first(breaks, (1, 4, 5, 8, 9)), Mount(path, tuple(custodians_on(words)), is_marked(words), number)


@functools.lru_cache(20000)
def read_filesystems(text):
    read = lines_table(filesystem_answer, text)
    return read if read[0] == "fault" else ("ok", tuple(sorted(read[1], key=lambda mount: path_text(mount.path))))


def unlisted_line(custodians, table):
    return min((mount.line for mount in table if any(digest_of(custodians, name) is None for name in mount.custodians)), default=None)


def hosts_answer(number, before, words):
    def breaks(rule):
        return {1: len(words) < 2, 2: not is_address(words[0])}[rule]

    return first(breaks, (1, 2)), words


@functools.lru_cache(20000)
def read_hosts(text):
    return lines_table(hosts_answer, text)


# ---- exports files

VALUELESS = ("ro", "o", "quiet", "alldirs")


def grammar_line(words):
    """The directories, the settings (keyword, value) and the names of a line."""
    directories, rest = [], list(words)
    while rest and rest[0].startswith("/"):
        directories.append(rest.pop(0))
    settings, names = [], []
    while rest:
        word = rest.pop(0)
        if not word.startswith("-"):
            names.append(word)
            continue
        pieces = word[1:].split(",")
        for place, piece in enumerate(pieces):
            keyword, equals, value = piece.partition("=")
            given = value if equals else None
            if keyword in ("network", "mask") and given is None and place + 1 == len(pieces) and rest and not rest[0].startswith("-"):
                given = rest.pop(0)
            settings.append((keyword, given))
    return directories, settings, names


def value_of(keyword, settings):
    return first(lambda s: s[0] == keyword, settings) and first(lambda s: s[0] == keyword, settings)[1]


def has_option(keyword, settings):
    return any(s[0] == keyword for s in settings)


def of_value(keyword, test, settings):
    value = value_of(keyword, settings)
    return value is not None and test(value)


def number_written(text):
    return read_short(text) if text[:1].isdigit() else read_short(NETWORKS[text]) if text in NETWORKS else None


def network_number_of(value):
    return number_written(value.split("/", 1)[0])


def read_prefix(text):
    return int(text) if re.fullmatch("0|[1-9][0-9]*", text) and int(text) <= 32 else None


def prefix_of_mask(number):
    return first(lambda p: number == ((2 ** p - 1) << (32 - p)), range(33))


def mask_prefix(mask):
    number = number_written(mask)
    return None if number is None else prefix_of_mask(number)


def class_prefix(address):
    return 8 if address >> 24 < 128 else 16 if address >> 24 < 192 else 24 if address >> 24 < 224 else None


def is_ipv6(value):
    return ":" in value


def has_prefix(value):
    return not is_ipv6(value) and "/" in value


def lacks_prefix(value):
    return not is_ipv6(value) and "/" not in value


def has_no_class(value):
    return lacks_prefix(value) and network_number_of(value) is not None and class_prefix(network_number_of(value)) is None


def is_bad_name(name):
    dotted = name != "" and all(letter in "0123456789." for letter in name)
    return name == "" or len(name) > 255 or "," in name or "=" in name or (dotted and not is_address(name))


def fs_of(table, path):
    above = [mount.path for mount in table if path[:len(mount.path)] == mount.path]
    return max(above, key=len, default=None)


RULES_IN_ORDER = (1, 2, 3, 4, 5, 7, 8, 9, 10, 11, 12, 13, 27, 14, 22, 23)


def breaks(profile, table, own, directories, settings, names, rule):
    paths = [read_path(directory) for directory in directories]
    tests = {
        1: lambda: not directories,
        2: lambda: any(name.startswith("/") for name in names),
        3: lambda: None in paths,
        4: lambda: any(path is not None and fs_of(table, path) != own for path in paths),
        5: lambda: any(k not in VALUELESS + ("network", "mask") or (k in VALUELESS and v is not None) for k, v in settings),
        7: lambda: any(k in ("network", "mask") and not v for k, v in settings),
        8: lambda: any([s[0] for s in settings].count(k) > 1 for k in ("network", "mask")),
        9: lambda: any(map(is_bad_name, names)) or of_value("network", lambda v: not is_ipv6(v) and network_number_of(v) is None, settings),
        10: lambda: of_value("network", lambda v: has_prefix(v) and read_prefix(v.split("/", 1)[1]) is None, settings)
        or (not of_value("network", is_ipv6, settings) and of_value("mask", lambda m: mask_prefix(m) is None, settings)),
        11: lambda: has_option("mask", settings) and of_value("network", has_prefix, settings),
        12: lambda: has_option("mask", settings) and not has_option("network", settings),
        13: lambda: profile == 1 and not has_option("mask", settings) and of_value("network", has_no_class, settings),
        27: lambda: profile == 2 and not has_option("mask", settings) and of_value("network", lacks_prefix, settings),
        14: lambda: has_option("network", settings) and bool(names),
        22: lambda: has_option("alldirs", settings) and len(directories) > 1,
        23: lambda: has_option("alldirs", settings) and any(path is not None and path != own for path in paths),
    }
    return tests[rule]()


def clients_of(settings, names):
    if names:
        return ("hosts", tuple(names))
    value = value_of("network", settings)
    if value is None:
        return ("world",)
    if is_ipv6(value):
        return ("net6", value)
    address, mask = network_number_of(value), value_of("mask", settings)
    classful = "/" not in value and not has_option("mask", settings)
    prefix = class_prefix(address) if classful else read_prefix(value.split("/", 1)[1]) if "/" in value else mask_prefix(mask)
    return ("net", address >> (32 - prefix) << (32 - prefix), prefix, value if classful else None)


@functools.lru_cache(20000)
def entries_in(profile, body, table, own):
    """The entries of an exports text, as (line, terms, clients), or the first fault of its first faulty line."""
    entries = []
    for number, line in logical_lines(body):
        directories, settings, names = grammar_line(line_values(line))
        rule = first(lambda rule: breaks(profile, table, own, directories, settings, names, rule), RULES_IN_ORDER)
        if rule is not None:
            return ("fault", number, rule)
        terms = "ro" if has_option("ro", settings) or has_option("o", settings) else "rw"
        entries.append((number, terms, clients_of(settings, names)))
    return ("ok", tuple(entries))


def addresses_of(hosts, name):
    if is_address(name):
        return [read_short(name)]
    return [read_short(row[0]) for row in hosts if name.lower() in [other.lower() for other in row[1:]]]


def row_of(hosts, entry):
    line, terms, clients = entry
    addrs = sorted({a for name in clients[1] for a in addresses_of(hosts, name)}) if clients[0] == "hosts" else []
    return Row(line, terms, clients, tuple(addrs))


def weight_of(row, address):
    if row.clients[0] == "hosts":
        return 34 if address in row.addrs else None
    if row.clients[0] == "net":
        return row.clients[2] + 1 if row.clients[1] == address >> (32 - row.clients[2]) << (32 - row.clients[2]) else None
    return 0 if row.clients[0] == "world" else None


def contradictions(rows):
    """Each (later line, earlier line, address) of a contradiction. The least address of one begins a network, or is one of a
    name, or 0."""
    marks = sorted({0} | {row.clients[1] for row in rows if row.clients[0] == "net"} | {a for row in rows for a in row.addrs})
    return [
        (row.line, other.line, address)
        for row in rows for other in rows if other.line < row.line and other.terms != row.terms
        for address in marks if weight_of(row, address) is not None and weight_of(row, address) == weight_of(other, address)
    ]


def exports_name(path):
    return "exports:" + path_text(path)


@functools.lru_cache(20000)
def class_warnings(site):
    """Each (file, line, word) of a network whose class counts, in the site's policy."""
    read = read_site(site)
    found = [] if read[0] == "fault" else [(exports_name(mount.path), row) for mount, rows in zip(read[1], read[2]) for row in rows]
    return [(file, row.line, row.clients[3]) for file, row in found if row.clients[0] == "net" and row.clients[3] is not None]


@functools.lru_cache(20000)
def read_site(site):
    """("ok", table, rows of each file system) or ("fault", fault)."""
    custodians = read_custodians(site.custodians)
    if custodians[0] == "fault":
        return ("fault", Fault("custodians", *custodians[1:], None, None))
    table = read_filesystems(site.filesystems)
    if table[0] == "ok" and unlisted_line(custodians[1], table[1]) is not None:
        table = ("fault", unlisted_line(custodians[1], table[1]), 6)
    if table[0] == "fault":
        return ("fault", Fault("filesystems", *table[1:], None, None))
    hosts = read_hosts(site.hosts)
    if hosts[0] == "fault":
        return ("fault", Fault("hosts", *hosts[1:], None, None))
    rows = []
    for mount in table[1]:
        profile, body = dict(site.exports).get(exports_name(mount.path), (2, ""))
        entries = entries_in(profile, body, table[1], mount.path)
        if entries[0] == "fault":
            return ("fault", Fault(exports_name(mount.path), *entries[1:], None, None))
        rows.append([row_of(hosts[1], entry) for entry in entries[1]])
    return ("ok", table[1], rows)


@functools.lru_cache(20000)
def site_fault(site):
    """The fault of a site, if it is not consistent."""
    read = read_site(site)
    if read[0] == "fault":
        return read[1]
    for mount, rows in zip(read[1], read[2]):
        found = contradictions(rows)
        if found:
            later, earlier, address = min(found)
            return Fault(exports_name(mount.path), later, 26, earlier, address)
    return None


# ---- how files stand, and edits

def revision_text(revision):
    return (revision.profile, revision.body)


def site_in(newest):
    files = [newest[file].body if file in newest else "" for file in ("custodians", "filesystems", "hosts")]
    return Site(*files, tuple((file, revision_text(head)) for file, head in sorted(newest.items()) if file.startswith("exports:")))


def custodians_of(site):
    read = read_custodians(site.custodians)
    return read[1] if read[0] == "ok" else []


def table_in(newest):
    read = read_site(site_in(newest))
    return read[1] if read[0] == "ok" else ()


def mount_named(table, file):
    return first(lambda mount: exports_name(mount.path) == file, table)


def keeps_file(table, caller, file):
    if file in SEVEN:
        return caller == "site"
    mount = mount_named(table, file)
    return mount is not None and caller in mount.custodians


def is_guarded_file(table, file):
    mount = mount_named(table, file)
    return mount is not None and mount.guarded


def is_repeat(e, newest):
    return newest is not None and newest.rev == e.base + 1 and e.caller in (newest.author, newest.approver) and newest.body == e.text


def proposes(e, proposal):
    return proposal.base == e.base and proposal.body == e.text


def is_pending(table, e, proposal):
    return proposal is not None and is_guarded_file(table, e.file) and proposes(e, proposal) and proposal.author == e.caller


def newest_number(newest):
    return newest.rev if newest else 0


def objections(custodians, table, e):
    return [
        (digest_of(custodians, e.caller) is None, ("UnknownCaller",)),
        (digest_of(custodians, e.caller) != hashlib.sha256(e.key.encode()).digest(), ("BadKey",)),
        (e.file not in SEVEN and mount_named(table, e.file) is None, ("UnknownFile",)),
        (not keeps_file(table, e.caller, e.file), ("NotCustodian",)),
        (LONGEST_REVISION < len(e.text), ("TooLarge",)),
    ]


def conflicts(newest, e):
    return [(newest_number(newest) != e.base, ("Stale", newest_number(newest))), (e.base == LAST_REVISION, ("Full",))]


def as_cases(reasons):
    return [(holds, ("refused",) + refusal) for holds, refusal in reasons]


def checks(custodians, table, newest, proposal, e):
    repeats = [(is_repeat(e, newest), ("already",)), (is_pending(table, e, proposal), ("pending",))]
    return as_cases(objections(custodians, table, e)) + repeats + as_cases(conflicts(newest, e))


def first_held(checks):
    return next((case for holds, case in checks if holds), None)


def first_case(standing, e):
    custodians, table = custodians_of(site_in(standing.newest)), table_in(standing.newest)
    return first_held(checks(custodians, table, standing.newest.get(e.file), standing.proposals.get(e.file), e))


def answer_in(newest, e, case):
    return case if case[0] == "refused" else case + (e.base + 1,)


def approves(table, e, proposal):
    return proposes(e, proposal) and proposal.author != e.caller and keeps_file(table, proposal.author, e.file)


def revision_by(e, author, approver):
    return Head(e.file, e.base + 1, author, approver, 2, e.text)


def entry_by(table, e, proposal):
    if not is_guarded_file(table, e.file):
        return revision_by(e, e.caller, None)
    if proposal is not None and approves(table, e, proposal):
        return revision_by(e, proposal.author, e.caller)
    return Proposal(e.file, e.base, e.caller, e.text)


def entry_of(standing, e):
    return entry_by(table_in(standing.newest), e, standing.proposals.get(e.file))


def answer_of(entry):
    return ("stored", entry.rev) if isinstance(entry, Head) else ("proposed", entry.base + 1)


def answers(standing, e):
    """The one answer to an edit."""
    case = first_case(standing, e)
    if case is not None:
        return answer_in(standing.newest.get(e.file), e, case)
    fault = site_fault(site_in({**standing.newest, e.file: revision_by(e, e.caller, None)}))
    return answer_of(entry_of(standing, e)) if fault is None else ("refused", "Fault", fault)


def added_by(standing, e, answer):
    return [entry_of(standing, e)] if answer[0] in ("stored", "proposed") else []


# ---- histories

def newest_of(history):
    return {entry.file: entry for entry in history if isinstance(entry, Head)}


def pending_in(history):
    return [
        entry for place, entry in enumerate(history)
        if isinstance(entry, Proposal) and not any(other.file == entry.file for other in history[place + 1:])
    ]


def standing_of(history):
    return Standing(newest_of(history), {proposal.file: proposal for proposal in pending_in(history)})


def with_entry(standing, entry):
    others = {file: proposal for file, proposal in standing.proposals.items() if file != entry.file}
    if isinstance(entry, Head):
        return Standing({**standing.newest, entry.file: entry}, others)
    return Standing(standing.newest, {**others, entry.file: entry})


def is_seconded(standing, e, proposal):
    """Another custodian's proposal of the text of an edit is pending."""
    return (
        standing.proposals.get(e.file) == proposal and proposal.base == e.base and proposal.body == e.text
        and proposal.author != e.caller and keeps_file(table_in(standing.newest), proposal.author, e.file)
    )
