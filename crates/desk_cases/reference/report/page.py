"""The page of the report: its head, the summary, the tables of the site, and a part for each file system."""

import hashlib

from reference.definitions import addresses_of, hosts_of, host_addresses, is_dotted
from reference.idle import is_for_all
from reference.lines import physical_lines
from reference.readings import FILES, Tables, read_site
from reference.report.constants import DEFINITIONS, HOW_TO_READ, LEGEND, LINKS
from reference.report.data import (
    CHECK, FIRST, NAMING_LINES, PRIVATE, SPACE, FileSystem, counts, findings_of, flavours_of, is_read_only, keeps_root, network_ends,
    together, union,
)  # fmt: skip
from reference.report.maps import small_map
from reference.report.parts import (
    Alone, Break, Code, Codes, Count, Digest, Digits, Drawn, Fact, Facts, Fixed, FlavourNames, Flavours, Frame, Head, In, Line,
    Link, Name, Network, NewLine, Number, PartOf, Plain, Plural, Ranges, Said, Small, SmallCount, SmallPlural, Strong, System, SystemLine,
    Text, Word, Words, Zero, render,
)  # fmt: skip
from reference.report.pieces import (
    BLANK, COMMA, class_badge, class_parts, cut, findings_entries, folded, folded_if_long, joined, level_mark, paragraph, some_of, table,
)  # fmt: skip
from reference.report.systems import file_of, finding_words, line_link, network_of, system_section, widening, widest_first
from reference.report.text import network_text, shell_word
from reference.sarif import RULES
from reference.warnings import NAMES, site_warnings

# So many rows of findings stand in the open, and so many lines of a row are named; so many networks of the site are listed, file systems
# named in a cell, and lines that write a name, and members of a group; and so many files stand in the open.
OPEN_FINDINGS, MOST_SHARING, MOST_NETWORKS, MOST_SYSTEMS, MOST_USES, MOST_MEMBERS, OPEN_FILES = 24, 4, 64, 12, 6, 8, 40
SENTENCES = {number: sentence for group, number, _, sentence in RULES if group == "warning"}
DASH = [Words("-")]


class Report:
    """What the page is made of: a database, the site of its newest texts, its file systems, and what stands out of their lines."""

    def __init__(self, desk):
        self.desk, self.site, self.tables = desk, read_site(desk.texts), Tables(desk.texts)
        self.systems = [FileSystem(self.site, number) for number in range(len(self.site.mounts))]
        self.lines = [(system, line) for system in self.systems for line in system.lines]
        self.findings = [found for system in self.systems for found in findings_of(system)]
        self.warnings = site_warnings(self.site, self.tables.group_lines)

    def granting(self):
        """The lines that grant something."""
        return [(system, line) for system, line in self.lines if not system.decides_nothing(line)]

    def findings_in(self, system):
        return [found for found in self.findings if found.system is system]


# ---- the head


def header(report, name):
    desk = report.desk
    revisions = sum(map(desk.number, desk.files()))
    files = sum(file in desk.authors for file in desk.files())
    counted = [Plural(revisions, "revision", "revisions"), Words(" in "), Plural(files, "file", "files")]
    scope = "By the newest revisions in the database, for each of the 4,294,967,296 IPv4 addresses and every directory."
    made = [Alone("HeaderStart"), In("Title", [Words("Who may mount what: "), Code(name)]), *paragraph(Words(scope))]
    return [*made, In("State", [*counted, Words(". State "), Code(state_digest(desk))]), Fixed(LINKS)]


def state_digest(desk):
    """The SHA-256 of a line for each newest revision and each proposal, in the order of `files`: `NAME rev N by AUTHOR SHA-256`,
    with ` approved by APPROVER` behind the author if there is one, and of exports ` profile P` before the digest; and
    `NAME proposed rev N by AUTHOR SHA-256`. So it tells all that the page is made of, but for the name of the database."""
    lines = ""
    for name in desk.files():
        if name in desk.authors:
            revision, author = desk.authors[name]
            approver = desk.approvers.get(name)
            approved = f" approved by {approver}" if approver else ""
            profile = "" if name in FILES else f" profile {desk.profile(name)}"
            lines += f"{name} rev {revision} by {author}{approved}{profile} {sha256(desk.texts[name])}\n"
        if name in desk.proposals:
            author, text = desk.proposals[name]
            lines += f"{name} proposed rev {desk.number(name) + 1} by {author} {sha256(text)}\n"
    return sha256(lines)


def sha256(text):
    return hashlib.sha256(text.encode()).hexdigest()


# ---- the summary


KINDS_OF_LINES = ["Lines", "Lines for everybody", "Lines that keep root", "Lines without effect"]
FIGURES = Frame("big", False, [Fact(term) for term in ["File systems", *KINDS_OF_LINES, "Warnings", "Proposals"]])


def key_figures(report):
    everybody = [line for _, line in report.granting() if is_for_all(line)]
    root = [line for _, line in report.granting() if keeps_root(line.terms)]
    directories = sum(len(system.written) for system in report.systems)
    guarded = len(report.desk.guarded() & set(map(file_of, report.systems)))
    writable = sum(not is_read_only(line.terms) for line in everybody)
    not_named = sum(line.clients[0] != "names" for line in root)
    return [
        figure(len(report.systems), SmallCount(guarded, "guarded")),
        figure(len(report.lines), SmallPlural(directories, "directory written", "directories written")),
        figure(len(everybody), SmallCount(writable, "without -ro")),
        figure(len(root), SmallCount(not_named, "for networks or everybody")),
        figure(len(report.lines) - len(report.granting()), Small("they grant nothing; not counted in the two before")),
        figure(len(report.warnings), Small("about words")),
        figure(len(report.desk.proposals), Small("not in force")),
    ]


def figure(count, small):
    return [Number(count), BLANK, small]


def summary(report):
    levels = [found.level for found in report.findings]
    counted = [Plural(levels.count(FIRST), "line", "lines"), Words(" to look at first, "), Number(levels.count(CHECK))]
    rules = [Words(" to check. These are fixed rules over the lines ("), Link("read", "below")]
    rules.append(Words("); what the site intends they do not know."))
    made = [Alone("SummaryStart"), Facts(FIGURES, key_figures(report)), In("Heading", [Words("What stands out")])]
    made += proposals_list(report) + paragraph(*counted, *rules)
    return [*made, *findings_tables(report), *flavours_table(report), Alone("SectionEnd")]


def proposals_list(report):
    """The proposals by which clients may do more, in the order of the file systems."""
    counted = [(system, widening(report.desk, system)) for system in report.systems]
    return findings_entries([proposal_entry(report.desk, system, count) for system, count in counted if count])


def proposal_entry(desk, system, count):
    author, _ = desk.proposals[file_of(system)]
    words = [Code(author), Words(" proposes that clients may do more: "), Plural(count, "change", "changes")]
    return [level_mark(FIRST), BLANK, system_link(system), Words(": "), *words]


def system_link(system):
    return System(system.number, system.name)


COLUMNS = [Name("Level"), Plain("Where"), Plain("What, and the line as written"), Count("Addresses")]
FINDINGS, MORE_FINDINGS = Frame("f", False, COLUMNS), Frame("f", True, COLUMNS)


def findings_tables(report):
    """Those of the first level come first, and of one level those of most addresses. Lines that are told alike share the row of the
    first of them."""
    if not report.findings:
        return paragraph(Words("No line stands out by the rules of this report."))
    order = lambda found: (found.level != FIRST, -found.count, found.system.number, found.line)
    shared = {}
    for found in sorted(report.findings, key=order):
        shared.setdefault(told_alike(found), []).append(found)
    rows = [finding_row(report, lines) for lines in shared.values()]
    made = table(FINDINGS, [Said("Lines that stand out")], rows[:OPEN_FINDINGS])
    rest = rows[OPEN_FINDINGS:]
    if not rest:
        return made
    more = table(MORE_FINDINGS, [Said("More lines that stand out")], rest)
    return made + folded([Plural(len(rest), "more row", "more rows")], more)


def told_alike(found):
    """What lines that share a row have in common: the names, the terms, to how many addresses they grant something, and why they stand
    out. A reason that names another line is one of its file system alone. A line that writes no names shares its row with none."""
    kind, *clients = found.clients
    if kind != "names":
        return found.system.number, found.line
    names_lines = any(words in NAMING_LINES for _, words in found.words)
    reasons = tuple(finding_words(found))
    return tuple(clients[0]), found.terms, found.count, reasons, found.system.number if names_lines else None


def finding_row(report, lines):
    """The row of lines that are told alike: where the first of them stand, and the text of the first of all."""
    found = lines[0]
    text = physical_lines(report.desk.texts[file_of(found.system)])[found.line - 1].whole
    where = [[system_link(one.system), BLANK, line_link(one.system, one.line)] for one in lines]
    shared = [Break(), Number(len(lines)), Words(" lines for the same names, the first of them:")] if len(lines) > 1 else []
    what = [*finding_words(found), *shared, Break(), Line(text)]
    return [[level_mark(found.level)], some_of(where, MOST_SHARING, Break()), what, [PartOf(found.count, SPACE)]]


FLAVOURS = Frame("a", True, [Name("Flavours"), Plain("In words"), Count("Lines"), Count("without -ro"), Plain("File systems")])


def flavours_table(report):
    """The flavours of the lines that grant something, those of most lines first."""
    found = {}
    for system, line in report.granting():
        found.setdefault(tuple(flavours_of(line.terms)), []).append((system, line))
    rows = []
    for flavours, lines in sorted(found.items(), key=lambda item: (-len(item[1]), item[0])):
        systems = dict.fromkeys(system_link(system) for system, _ in lines)
        writable = sum(not is_read_only(line.terms) for _, line in lines)
        counted = [[Number(len(lines))], [Number(writable)]]
        rows.append([[FlavourNames(flavours)], [Flavours(flavours)], *counted, some_of([[one] for one in systems], MOST_SYSTEMS)])
    return table(FLAVOURS, [Said("Security flavours of the lines that grant")], rows)


# ---- the file systems, and the networks


MAPS = [Plain(words) for words in ["all of IPv4", *(network_text(*network) for network in PRIVATE)]]
BEHIND_MAPS = [Count("Addresses"), Plain("Kept by"), Plain("In force"), Plain("Stands out")]
OVERVIEW = Frame("o", False, [Name("File system"), Plain("At the most"), *MAPS, *BEHIND_MAPS])


def overview(report):
    """A row for all file systems together, and one for each."""
    rows = [[[Strong("any of them")], *classes_cells(together(report.systems)), [], [], []]]
    rows += [system_row(report, system) for system in report.systems]
    caption = "The file systems, and where the clients are that may mount some directory of them"
    return table(OVERVIEW, [Said(caption)], rows)


def classes_cells(classes):
    """The most that an address may, four maps, and how many addresses may something."""
    maps = [[Drawn(small_map(classes, *network))] for network in [(0, 0), *PRIVATE]]
    some = sum(counts(classes, 0, SPACE - 1)[1:])
    return [[class_badge(max(value for _, _, value in classes))], *maps, [PartOf(some, SPACE)]]


def system_row(report, system):
    desk, name = report.desk, file_of(system)
    kept = [Codes(desk.custodians(name)), *marked(name in desk.guarded(), "guarded")]
    revision = [Words("none")]
    if name in desk.authors:
        revision = [Words("rev "), Digits(desk.number(name)), Words(" by "), Code(desk.authors[name][1])]
    revision += marked(name in desk.proposals, "proposal waits")
    levels = [found.level for found in report.findings_in(system)]
    counted = joined([[Number(levels.count(level)), Words(f" {level}")] for level in (FIRST, CHECK) if level in levels], COMMA)
    return [[system_link(system)], *classes_cells(system.classes), kept, revision, counted or [Zero("nothing")]]


def marked(is_so, words):
    return [BLANK, Strong(words)] if is_so else []


PARTLY = Plain("Parts of it, and how many addresses")
NETWORKS = Frame("p", False, [Name("Network"), Count("Addresses"), Plain("All of it, alike"), PARTLY])


def networks_table(report):
    """What each network that a line writes may mount, in all file systems: the widest first."""
    written = {network_of(line) for _, line in report.lines if line.clients[0] == "network" and not is_for_all(line)}
    ordered = sorted(written, key=widest_first)
    if not ordered:
        return paragraph(Words("No line writes a network, but for /0 or one of IPv6."))
    rows = [network_row(report, *network) for network in ordered[:MOST_NETWORKS]]
    rest = len(ordered) - MOST_NETWORKS
    more = [Plural(rest, "more network is", "more networks are"), Words(" not listed, none of them wider")]
    words = "The networks that lines write, but for /0 and those of IPv6, the widest first, and what their addresses may mount at the most,"
    made = paragraph(Words(f"{words} on some directory of each file system."))
    made += table(NETWORKS, [Said("What the networks may mount that lines write")], rows)
    return made + (cut(*more) if rest > 0 else [])


def network_row(report, first, prefix):
    whole, alike, parts = 2 ** (32 - prefix), [], []
    for system in report.systems:
        found = counts(system.classes, *network_ends(first, prefix))
        values = [value for value in (3, 2, 1) if found[value]]
        if values and found[values[0]] == whole:
            alike.append([system_link(system), BLANK, class_badge(values[0])])
        elif values:
            parts.append([system_link(system), BLANK, *class_parts(found)])
    return [[Network(first, prefix)], [Number(whole)], systems_cell(alike, Words("; ")), systems_cell(parts, Break())]


def systems_cell(told, between):
    """Of file systems with what is told of them the first, and how many more there are."""
    rest = len(told) - MOST_SYSTEMS
    more = [[Plural(rest, "more file system", "more file systems")]] if rest > 0 else []
    return joined(told[:MOST_SYSTEMS] + more, between) or [Zero("-")]


# ---- warnings, names, files


WARNINGS = Frame("", True, [Name("File"), Plain("Line"), Plain("Word"), Plain("Name"), Plain("What it means")])


def warnings_table(report):
    if not report.warnings:
        return paragraph(Words("No word has a warning."))
    systems = {file_of(system): system for system in report.systems}
    rows = []
    for name, line, kind, word in report.warnings:
        where = [line_link(systems[name], line)] if name in systems else [Words("line "), Digits(line)]
        rows.append([[Code(name)], where, [Code(word)], [Words(NAMES[kind])], [Words(SENTENCES[kind])]])
    made = table(WARNINGS, [Said("Warnings about words")], rows)
    return folded_if_long(made, len(rows), [Plural(len(rows), "warning", "warnings")])


def names_tables(report):
    return netgroups_table(report) + hosts_table(report)


def uses_cell(report, name):
    """The lines that write a name."""
    uses = [[SystemLine(system.number, system.name, line.number)] for system, line in report.lines if name in names_on(line)]
    return some_of(uses, MOST_USES) if uses else [Zero("no line")]


def names_on(line):
    return line.clients[1] if line.clients[0] == "names" else []


def addresses_cell(addresses):
    return [Ranges(union((address, address) for address in addresses)) if addresses else Strong("nobody")]


USED = [Count("Addresses"), Plain("Stands for"), Plain("Written by")]
NETGROUPS = Frame("n", True, [Name("Name"), Count("Line"), Plain("Hosts and groups in it"), Count("Host names"), *USED])
HOSTS = Frame("n", True, [Name("Name"), Plain("It is"), *USED])


def netgroups_table(report):
    site, lines = report.site, report.tables.group_lines
    if not site.groups:
        return paragraph(Words("The table "), Word("netgroup"), Words(" has none."))
    rows = []
    for group, members in site.groups.items():
        written = [[Code(name)] if kind == "host" else [Words("group "), Code(name)] for kind, name in members]
        addresses = addresses_of(site, group)
        hosts = hosts_of(site, group, len(site.groups))
        cells = [[Code(group)], [Number(lines[group])], some_of(written, MOST_MEMBERS) if written else DASH, [Number(len(hosts))]]
        rows.append([*cells, [Number(len(addresses))], addresses_cell(addresses), uses_cell(report, group)])
    made = table(NETGROUPS, [Said("Netgroups")], rows)
    return folded_if_long(made, len(rows), [Plural(len(rows), "netgroup", "netgroups")])


def hosts_table(report):
    """The names of hosts that lines write: not addresses, and not those of netgroups."""
    written = {name for _, line in report.lines for name in names_on(line)}
    names = [name for name in written if not is_dotted(name) and (":" in name or name not in report.site.groups)]
    rows = [host_row(report, name) for name in sorted(names, key=lambda name: name.encode())]
    if not rows:
        return []
    made = table(HOSTS, [Said("Names of hosts that lines write")], rows)
    return folded_if_long(made, len(rows), [Plural(len(rows), "name", "names")])


def host_row(report, name):
    found = host_addresses(report.site, name)
    kind = "of the table hosts" if found else "of IPv6: nobody" if ":" in name else "no IPv4 address in the table hosts: nobody"
    return [[Code(name)], [Words(kind)], [Number(len(found))], addresses_cell(found), uses_cell(report, name)]


REVISION = [Count("Revision"), Plain("Author"), Plain("Approver"), Plain("Profile"), Count("Bytes"), Plain("SHA-256 of the text")]
ALL_FILES = Frame("h", True, [Name("File"), *REVISION, Plain("Remark")])


def files_table(report):
    desk = report.desk
    rows = [file_row(report, name) for name in desk.files() if name in desk.authors or name in desk.proposals]
    made = table(ALL_FILES, [Said("Files and their newest revisions")], rows)
    return folded_if_long(made, len(rows), [Plural(len(rows), "file", "files")], OPEN_FILES)


def file_row(report, name):
    """The newest revision of a file, and who proposes another text. One that is only proposed has no revision."""
    desk = report.desk
    remarks = [[Words("proposal by "), Code(desk.proposals[name][0])]] if name in desk.proposals else []
    remarks += [] if name in FILES or name in map(file_of, report.systems) else [[Words("unlisted")]]
    revision = revision_cells(desk, name) if name in desk.authors else [DASH] * 6
    return [[Code(name)], *revision, joined(remarks, COMMA) or DASH]


def revision_cells(desk, name):
    (revision, author), approver, text = desk.authors[name], desk.approvers.get(name), desk.texts[name]
    who = [[Code(author)], [Code(approver)] if approver else DASH, DASH if name in FILES else [Digits(desk.profile(name))]]
    return [[Number(revision)], *who, [Number(len(text.encode()))], [Digest(sha256(text))]]


def make_again(name):
    word, report = Text(shell_word(name)), Words("exportdesk report ")
    commands = [report, word, Words(" >report.html"), NewLine(), report, word, Words(" | cmp - report.html"), NewLine()]
    commands += [Words("exportdesk cat "), word, Words(" exports:MOUNT | sha256sum")]
    words = "The page has no date and no name of a machine: one version of exportdesk makes the same page, to the byte, of the same"
    words += " state and the same name of the database."
    return [In("Heading", [Words("Make it again, and compare")]), In("Commands", commands), *paragraph(Words(words))]


# ---- all of it


def page(desk, name):
    """The page of a database that a command names by this word."""
    return render(page_blocks(desk, name))


def page_blocks(desk, name):
    report = Report(desk)
    made = [Head(name), Fixed(DEFINITIONS), *header(report, name), *summary(report)]
    made += section("SystemsStart", [Fixed(LEGEND), *overview(report)])
    made += section("NetworksStart", networks_table(report))
    each = [block for system in report.systems for block in system_section(desk, system, report.findings_in(system))]
    made += section("EachStart", each)
    made += section("WarningsStart", warnings_table(report))
    made += section("NamesStart", names_tables(report))
    made += section("FilesStart", files_table(report) + make_again(name))
    return [*made, Fixed(HOW_TO_READ), Alone("PageEnd")]


def section(start, blocks):
    return [Alone(start), *blocks, Alone("SectionEnd")]
