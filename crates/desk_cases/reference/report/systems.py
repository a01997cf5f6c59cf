"""The part of the report on one file system."""

from reference.definitions import changes, contradiction, effect, fault_text, matters, printed
from reference.idle import is_for_all
from reference.lines import logical_lines, physical_lines, words_of
from reference.readings import Fault, read_site
from reference.report.data import (
    GRANTS_MORE, LEFT_OUT, PRIVATE, SPACE, FileSystem, changed_places, class_of, classes_of, counts, network_ends, size_of,
)  # fmt: skip
from reference.report.maps import figures
from reference.report.parts import (
    Alone, AndMore, Code, Codes, Count, Digits, Fact, Facts, Frame, Further, In, Line, LineLink, LineRow, Link, MarkedRow, Name, Named,
    Network, Number, PartOf, Plain, Plural, Range, Ranges, Said, SmallPercent, Strong, SystemStart, Terms, Word, Words, Zero,
)  # fmt: skip
from reference.report.pieces import (
    BLANK, COMMA, class_badge, class_parts, cut, findings_entries, folded, folded_if_long, joined, level_mark, paragraph, some_of, table,
    table_of, terms_badge,
)  # fmt: skip
from reference.why import named_line

# A text of more lines is folded. If a file system has more groups of directories, none of them has maps, and so many are listed.
OPEN_LINES, MOST_DRAWN, MOST_GROUPS = 40, 12, 100
# So many directories stand in a heading, and in a caption; so many lines that decide for the clients of another one, reasons of a
# denial apart, networks in the table of shares, and lines whose denials mountd(8) does not keep.
MOST_NAMES, MOST_CAPTION, MOST_DECIDING, MOST_REASONS, MOST_SHARES, MOST_OPENINGS = 8, 3, 6, 5, 12, 6
OTHERS, EVERYBODY_ELSE = "other directories", Words("everybody else")
EVERY_DIRECTORY = [Words("every directory of the file system ("), Word("-alldirs"), Words(")")]
# What does not matter to a client.
SILENT = (
    "of lines or reasons alone: the same clients may mount the same on the same terms, and only the line that grants it, or the reason"
    " of a denial, is another"
)


def file_of(system):
    return f"exports:{system.name}"


# ---- what stands out


def finding_words(finding):
    """The words of a finding, with the lines that decide in place of one that never does, and with what mountd(8) does."""
    told = {"never decides": deciding_words, GRANTS_MORE: wider_words, LEFT_OUT: repeated_words}
    reasons = [told[words](finding) if words in told else [Words(words)] for _, words in finding.words]
    return joined(reasons, COMMA)


def line_link(system, line):
    return LineLink(system.number, line)


def address_alone(address):
    return Range(address, address)


def wider_words(finding):
    other, address, directory = finding.system.wider[finding.line]
    listed = [Code(printed(directory)), Words(" too")] if directory is not None else EVERY_DIRECTORY
    found = [address_alone(address), BLANK, line_link(finding.system, other)]
    return [Words(f"{GRANTS_MORE}: to "), *found, Words(" lists "), *listed]


def repeated_words(finding):
    other, address = finding.system.repeated[finding.line]
    return [Words(f"{LEFT_OUT}: "), line_link(finding.system, other), Words(" has "), address_alone(address)]


def deciding_words(finding):
    system = finding.system
    line = next(line for line in system.lines if line.number == finding.line)
    others = [[line_link(system, other)] for other in system.deciding(line)]
    decide = "decides" if len(others) == 1 else "decide"
    return [Words("never decides: "), *some_of(others, MOST_DECIDING), Words(f" {decide} for all its clients")]


# ---- the text in force


def line_note(system, line):
    """What a line does, and to how many addresses it grants something."""
    if system.decides_nothing(line):
        return [Strong("matches nobody" if system.matches_nobody(line) else "never decides")], []
    everybody = [BLANK, Strong("everybody")] if is_for_all(line) else []
    return [terms_badge(line.terms), *everybody], [Number(size_of(system.grants[line.number]))]


TEXT = Frame("text", False, [Name("Line"), Plain("It grants"), Count("to addresses"), Plain("Text")])


def text_table(system, text, marked):
    """Each physical line with what it does; those of the marked lines stand out."""
    if not physical_lines(text):
        return paragraph(Words("The text is empty: nobody may mount any of its directories."))
    notes = {line.number: line_note(system, line) for line in system.lines}
    for line in logical_lines(text):
        if words_of(line)[0][0].startswith("V4:"):
            notes[line.number] = [Zero("not read")], []
    rows = []
    for part in physical_lines(text):
        cells = [[Digits(part.number)], *notes.get(part.number, ([], [])), [Line(part.whole)]]
        rows.append(LineRow(system.number, part.number, part.number in marked, TEXT, cells))
    return table_of(TEXT, [Said("Text of "), Named(system.name), Said(", and what each line grants")], rows)


# ---- who may mount which directory


def verdict_rows(system, group):
    """A row for each verdict: those that grant by their lines, then the denied ones. Together they hold each address once. Places that
    are granted alike are denied alike, too, so the verdicts are those at each place of the group."""
    by_verdict = {}
    for first, last, verdict in system.who[group[0]]:
        by_verdict.setdefault(verdict, []).append((first, last))
    granted = sorted((verdict for verdict in by_verdict if effect(verdict)), key=named_line)
    rows = [granted_row(system, verdict, by_verdict[verdict]) for verdict in granted]
    denied = sorted((verdict for verdict in by_verdict if not effect(verdict)), key=denial_order)
    if len(denied) > MOST_REASONS:
        ranges = [found for verdict in denied for found in by_verdict[verdict]]
        reason = "no line matches them, or those that match them best list none of these"
        return [*rows, denial([EVERYBODY_ELSE], ranges, [Words(reason)])], len(granted)
    return rows + [denied_row(system, verdict, by_verdict[verdict]) for verdict in denied], len(granted)


def denial_order(verdict):
    """Those whom a line matches come first, by the lines, and then those whom none matches."""
    return named_line(verdict) or SPACE


def granted_row(system, verdict, ranges):
    terms = effect(verdict)
    by = [line_link(system, named_line(verdict)), Words(": "), Terms(terms)]
    return [[terms_badge(terms)], [Ranges(ranges)], [amount(ranges)], by]


def denied_row(system, verdict, ranges):
    line = named_line(verdict)
    if line is None:
        return denial([EVERYBODY_ELSE], ranges, [Words("no line matches them")])
    return denial([Ranges(ranges)], ranges, [line_link(system, line), Words(" matches them best, but lists none of these")])


def denial(clients, ranges, reason):
    return [[class_badge(0)], clients, [amount(ranges)], reason]


def amount(ranges):
    return PartOf(size_of(ranges), SPACE)


def directories_of(system, places):
    """The directories among some places: all but the one that stands for the other directories, which no number counts."""
    return [printed(place) for place in places if place != system.other]


def group_title(system, group, most):
    """The first directories of a group, how many more it has, and whether the other directories are in it."""
    names = directories_of(system, group)
    title = [*joined([[Named(name)] for name in names[:most]], Said(", ")), Further(max(len(names) - most, 0))]
    others = [Said(f", {OTHERS}" if names else OTHERS)] if system.other in group else []
    return [*title, *others]


def shown(part):
    """A part of a title in a heading."""
    return {Said: Words, Named: Code, Further: AndMore}[type(part)](*vars(part).values())


def group_block(system, group, is_drawn):
    """A group of directories whose grants are the same: maps, and a row for each verdict."""
    made = [Alone("PlaceStart"), In("PlaceHeading", list(map(shown, group_title(system, group, MOST_NAMES))))]
    rest = directories_of(system, group)[MOST_NAMES:]
    if rest:
        made += folded([directories_more(len(rest))], [In("Names", [Codes(rest)])])
    if system.granted(group[0]):
        made += figures(classes_of(system.who[group[0]]), False) if is_drawn else []
        made += verdict_table(system, group)
    else:
        made += paragraph(Words("Nobody may mount them."))
    return [*made, *openings_block(system, group), Alone("SectionEnd")]


def openings_block(system, group):
    """What mountd(8) grants of that which is denied."""
    found = [opening_words(system, *opening) for opening in system.openings(group)]
    return paragraph(Words("mountd(8) grants more: "), *some_of(found, MOST_OPENINGS)) if found else []


def opening_words(system, address, place, denied, line):
    what = [Words(OTHERS) if place == system.other else Code(printed(place)), Words(" to "), address_alone(address)]
    return [*what, Words(" by "), line_link(system, line), Words(" (denied here by "), line_link(system, denied), Words(")")]


VERDICTS = Frame("v", False, [Name("Verdict"), Plain("Clients"), Count("Addresses"), Plain("By, and on what terms")])


def verdict_table(system, group):
    rows, granting = verdict_rows(system, group)
    made = table(VERDICTS, [Said("Who may mount "), *group_title(system, group, MOST_CAPTION)], rows)
    return folded_if_long(made, len(rows), [Plural(granting, "line", "lines"), Words(" that grant it")])


def directories_more(count):
    return Plural(count, "more directory", "more directories")


def not_listed(system, places):
    """How many directories are left out, and whether the other directories are."""
    count = len(directories_of(system, places))
    words = [[directories_more(count)]] if count else []
    words += [[Words(OTHERS)]] if system.other in places else []
    left_out = [Words("Not listed here: "), *joined(words, Words(" and ")), Words("; "), Word("exportdesk who"), Words(" answers for each")]
    return cut(*left_out) if words else []


def groups_block(system):
    groups = system.groups()
    made = [In("PlacesHeading", [Words("Who may mount which directory")])]
    if len(groups) > MOST_DRAWN:
        made += cut(Words("Maps of the single directories are not drawn: there are "), Number(len(groups)), Words(" lists"))
    is_drawn = 1 < len(groups) <= MOST_DRAWN
    for group in groups[:MOST_GROUPS]:
        made += group_block(system, group, is_drawn)
    return made + not_listed(system, [place for group in groups[MOST_GROUPS:] for place in group])


# ---- where its clients are


SHARES = Frame("s", True, [Name("Network"), *map(Count, ["has", "read-only", "read-write", "root kept", "may mount"])])


def shares_table(system):
    """How many addresses may mount some directory: of all, outside the private networks, in each of these, and in each network
    that a line writes, the widest first."""
    written = {network_of(line) for line in system.lines if line.clients[0] == "network" and not is_for_all(line)}
    own = sorted(written - set(PRIVATE), key=widest_first)
    shares = [(Words("all of IPv4"), [(0, SPACE - 1)]), (Words("outside private space"), outside_private())]
    shares += [(Network(*network), [network_ends(*network)]) for network in [*PRIVATE, *own[:MOST_SHARES]]]
    title = [Said("Addresses that may mount some directory of "), Named(system.name)]
    made = table(SHARES, title, [share_row(system, *share) for share in shares])
    rest = len(own) - MOST_SHARES
    more = Plural(rest, "more network that lines write is", "more networks that lines write are")
    return made + (cut(more, Words(" not listed, none of them wider")) if rest > 0 else [])


def network_of(line):
    _, address, prefix = line.clients
    return network_ends(address, prefix)[0], prefix


def widest_first(network):
    """The order of networks: the widest first, then by address."""
    first, prefix = network
    return prefix, first


def outside_private():
    ends = [network_ends(*network) for network in PRIVATE]
    firsts = [0, *(last + 1 for _, last in ends)]
    return list(zip(firsts, [*(first - 1 for first, _ in ends), SPACE - 1]))


def share_row(system, name, ranges):
    by_class = [sum(found) for found in zip(*(counts(system.classes, *ends) for ends in ranges))]
    whole, some = size_of(ranges), sum(by_class[1:])
    counted = [[Number(count) if count else Zero("0")] for count in by_class[1:]]
    return [[name], [Number(whole)], *counted, [PartOf(some, whole), BLANK, SmallPercent(some, whole)]]


# ---- a proposal


def foreseen(desk, system):
    """The file system with what is proposed for it, or none and the fault of the site with that."""
    texts = {**desk.texts, file_of(system): desk.proposals[file_of(system)][1]}
    try:
        site = read_site(texts)
    except Fault as fault:
        return None, str(fault)
    found = ((mount, contradiction(site, mount)) for mount in site.mounts)
    fault = next((fault_text(mount, fault) for mount, fault in found if fault), "")
    return (None, fault) if fault else (FileSystem(site, system.number), "")


def widening(desk, system):
    """By how many changes of a proposal clients may do more: those at which the class is greater than now."""
    after = foreseen(desk, system)[0] if file_of(system) in desk.proposals else None
    places = changed_places(system, after) if after else []
    found = [verdicts for place in places for _, _, verdicts in changes(system.site, after.site, place)]
    return sum(class_of(effect(then)) > class_of(effect(now)) for now, then in found)


def proposal_block(desk, system):
    """The text that waits, with the lines of it that are not in force, and what it would change for whom."""
    if file_of(system) not in desk.proposals:
        return []
    author, text = desk.proposals[file_of(system)]
    approval = ": another of the custodians has to put the same text" if file_of(system) in desk.guarded() else ""
    proposed = [Code(author), Words(" proposes this text as revision "), Number(desk.number(file_of(system)) + 1)]
    made = [Alone("ProposalStart"), subheading("A proposal waits"), *paragraph(*proposed, Words(f". It is not in force{approval}."))]
    made += proposed_text(system, desk.texts.get(file_of(system), ""), text)
    return [*made, *outcome_block(desk, system), Alone("SectionEnd")]


def subheading(words):
    return In("Subheading", [Words(words)])


def outcome_block(desk, system):
    """What a proposal would change; or the fault of the site with it, to which a proposal comes if another file changes while it waits."""
    after, fault = foreseen(desk, system)
    refused = [Words("It cannot be put in force now: "), Code(fault), Words(".")]
    return changes_block(system, after) if after else paragraph(*refused)


PROPOSED = Frame("text", False, [Name("Line"), Plain("In force?"), Plain("Text")])


def proposed_text(system, old, text):
    in_force = {part.whole for part in physical_lines(old)}
    rows = [proposed_row(part, part.whole in in_force) for part in physical_lines(text)]
    return table_of(PROPOSED, [Said("Proposed text of "), Named(system.name)], rows)


def proposed_row(part, is_in_force):
    note = [] if is_in_force else [Strong("not yet")]
    return MarkedRow(not is_in_force, PROPOSED, [[Digits(part.number)], note, [Line(part.whole)]])


CHANGES = Frame("i", True, [Name("Directory"), Plain("Clients"), Count("Addresses"), Plain("Now"), Plain("Then")])


def changes_block(before, after):
    places = changed_places(before, after)
    found = [(place, change) for place in places for change in changes(before.site, after.site, place)]
    rows = [change_row(place == places[-1], place, *change) for place, change in found if matters(change)]
    silent = len(found) - len(rows)
    made = paragraph(Words("It would change nothing for any client."))
    if rows:
        made = table(CHANGES, [Said("What it would change")], rows)
        made = folded_if_long(made, len(rows), [Plural(len(rows), "change", "changes")])
    return made + (paragraph(Plural(silent, "change", "changes"), Words(f" {SILENT}.")) if silent else [])


def change_row(are_others, place, first, last, verdicts):
    name = Words(OTHERS) if are_others else Code(printed(place))
    return [[name], [Range(first, last)], [Number(last - first + 1)], *map(verdict_words, verdicts)]


def verdict_words(verdict):
    terms = effect(verdict)
    if not terms:
        return [class_badge(0)]
    return [terms_badge(terms), Words(" line "), Digits(named_line(verdict)), Words(": "), Terms(terms)]


# ---- all of it


def revision_words(desk, name):
    if name not in desk.authors:
        return [Words("no revision")]
    count, author = desk.authors[name]
    approver = desk.approvers.get(name)
    approved = [Words(", approved by "), Code(approver)] if approver else []
    profile = [Words(", of profile 1")] if desk.profile(name) == 1 else []
    return [Words("revision "), Number(count), Words(" by "), Code(author), *approved, *profile]


FACTS = Frame("facts", False, [Fact("In force"), Fact("Custodians"), Fact("Guarded"), Fact("May mount some of it")])


def facts(desk, system):
    name = file_of(system)
    guarded = "yes: a change of its exports needs two of them" if name in desk.guarded() else "no: each of them may change it alone"
    found = class_parts(counts(system.classes, 0, SPACE - 1))
    return [Facts(FACTS, [revision_words(desk, name), [Codes(desk.custodians(name))], [Words(guarded)], found])]


def finding_entry(one):
    return [level_mark(one.level), BLANK, line_link(one.system, one.line), Words(": "), *finding_words(one)]


def system_section(desk, system, findings):
    text = desk.texts.get(file_of(system), "")
    made = [SystemStart(system.number), In("Heading", [Code(system.name)]), *facts(desk, system)]
    made += findings_entries(list(map(finding_entry, findings)))
    made += [*proposal_block(desk, system), subheading("Text in force")]
    count = len(physical_lines(text))
    lines = text_table(system, text, {one.line for one in findings})
    made += folded_if_long(lines, count, [Plural(count, "line", "lines")], OPEN_LINES)
    if any(counts(system.classes, 0, SPACE - 1)[1:]):
        made += [subheading("Where its clients are"), *figures(system.classes, True)]
        made += folded([Words("The same in numbers")], shares_table(system), "OpenFold")
    return [*made, *groups_block(system), In("Up", [Link("systems", "All file systems")]), Alone("SectionEnd")]
