"""What `test` and `audit` answer: a text of expectations of a site, read line by line, and what is reported of it on standard
output, as text, as JSON or as a log of SARIF, and on standard error.
"""

import re
from urllib.parse import unquote

from reference.definitions import (
    RULES, Expectation, allows, dotted, expectation, in_order, is_meant, is_under, names_of, printed, runs, scope_places,
    span_of, verdict,
)  # fmt: skip
from reference.findings import finding_text, printed_json, shown, shown_letter
from reference.lines import logical_lines, open_quote, words_of
from reference.sarif import expectations_log, told
from reference.server import repeated_clients, server_verdict

SENTENCES = {
    "OpenQuote": "begins with a quote that is not closed on its physical line: close it, or write a backslash before a quote in a"
    " name",
    "Form": "is not where it belongs: write WHOM [but NAME..] may [not] ACTION DIR.., as in everybody but adm may not write"
    " /usr/...",
    "BadAction": "is not an action: write mount, write, root, sys, krb5, krb5i or krb5p",
    "BadPath": "is not a directory: one begins with /, has no component . or .., has ... after its last / alone, no NUL byte, and"
    " at most 1024 bytes before /...",
    "BadAddress": "is not an address, a network or a range: write them as 10.0.0.5, 10.0.0.0/8 or 10.0.0.5-10.0.0.9",
    "UnknownName": "is not a known netgroup or host: correct it, write blanks between names, or give the tables that have it",
    "Nobody": "is whom the line is about, and that is nobody: no address is meant",
}
# The line that a verdict names.
LINE = re.compile(r"^(?:granted|denied 3 NotListed .*) ?line (?:\d+@)?(\d+)(?:@(\S+))?")
OUTSIDE = "is in no file system, nor is anything below it"


# ---- a text of expectations


class Fault:
    """The first rule that a faulty line of a text breaks, and the place of the slice at fault."""

    def __init__(self, line, rule, place):
        self.line, self.rule, self.place = line, rule, place
        self.text = f"line {line} rule {RULES.index(rule) + 1} {rule}"


def read_expectations(text, site):
    """What the lines of a text expect, whose names are those of a site, and the faults of the lines that have one."""
    found = [read_line(line, site) for line in logical_lines(text)]
    faults = [read for read in found if isinstance(read, Fault)]
    return [read for read in found if read not in faults], faults


def read_line(line, site):
    """What a line expects, or its fault: first of all, that a quote does not close."""
    place = open_quote(line)
    if place:
        return Fault(line.number, "OpenQuote", place)
    words = words_of(line)
    read = expectation(site, line.number, [value for value, _ in words])
    if isinstance(read, Expectation):
        return read
    rule, number = read
    return Fault(line.number, rule, words[number][1])


# ---- what is reported


def judged(site, expected, address, path):
    """What breaks an expectation at an address, and whether that is mountd's verdict: that of the desk, if it is not as expected; of
    what is forbidden that of mountd too, if it allows it. None if nothing does."""
    if not is_meant(expected, address):
        return None
    found = verdict(site, address, path)
    if allows(expected.action, found) == expected.forbids:
        return found, False
    if not expected.forbids:
        return None
    found = server_verdict(site, address, path)
    return (found, True) if allows(expected.action, found) else None


def breaches(site, expected, path):
    """The longest ranges of addresses at which one verdict breaks an expectation."""
    found = runs(lambda address: judged(site, expected, address, path), [site], path, names_of(expected))
    return [(first, last, *by) for first, last, by in found if by is not None]


def broken(site, expectations):
    """Of the expectations those that the site breaks, each with where, and for whom: the heading of each place at which there are
    addresses whose verdict is not as expected, and the longest ranges of these with one verdict."""
    for expected in expectations:
        places = [place for scope in expected.scopes for place in scope_places(site, *scope)]
        sections = [(heading, breaches(site, expected, path)) for heading, path in places]
        sections = [(heading, ranges) for heading, ranges in sections if ranges]
        if sections:
            yield expected, sections


def report_text(file, found, count):
    """The broken expectations, and how many there are of all."""
    text = "".join(f"{file}:{expected.number}: {broken_text(expected, sections)}" for expected, sections in found)
    return text + f"{count} expectation{'' if count == 1 else 's'}, {len(found)} broken\n"


def broken_text(expected, sections):
    """A broken expectation, with where and for whom."""
    text = f"broken: {' '.join(expected.words)}\n"
    for heading, ranges in sections:
        text += f"== {heading}\n"
        text += "".join(f"{range_text(*found_range)}\n" for found_range in ranges)
    return text


def range_text(first, last, found, by_server):
    return f"{dotted(first)}-{dotted(last)} {found}{' by mountd(8)' if by_server else ''}"


def report_json(file, found):
    """The same for programs: a list of objects, one a range."""
    objects = [
        object_of(file, expected, heading, found_range)
        for expected, sections in found
        for heading, ranges in sections
        for found_range in ranges
    ]
    return printed_json(objects) + "\n"


def object_of(file, expected, heading, found_range):
    first, last, found, by_server = found_range
    return {
        **({"by": "mountd"} if by_server else {}),
        "dir": heading.removeprefix("other directories of "),
        "expectation": " ".join(expected.words),
        "first": dotted(first),
        "kind": "broken",
        "last": dotted(last),
        "line": expected.number,
        "others": not heading.startswith("/"),
        "path": file,
        "verdict": found,
    }


def report_log(site, file, exports, found):
    """The same as a log, whose results are the broken expectations. The lines that break one are those of the exports text of this path,
    or, in a database, of the exports file of their file system."""
    results = []
    for expected, sections in found:
        text = broken_text(expected, sections).removesuffix("\n")
        text = "".join(letter if letter in "\t\n" else shown_letter(letter) for letter in text)
        lines = dict.fromkeys(
            (unquote(file) or exports or f"exports:{mount_of(site, heading)}", int(line))
            for heading, ranges in sections
            for _, _, verdict_line, _ in ranges
            for line, file in LINE.findall(verdict_line)
        )
        results.append(told("broken/1", text, file, {"startLine": expected.number}, lines))
    return expectations_log(SENTENCES, results) + "\n"


def mount_of(site, heading):
    """The mount point of the file system of a place."""
    path = heading.removeprefix("other directories of ")
    mounts = [mount for mount in map(printed, site.mounts) if f"{path}/".startswith(mount.rstrip("/") + "/")]
    return max(mounts, key=len, default=None)


def faults_log(file, faults):
    """The faults of a text as a log."""
    results = []
    for fault in faults:
        start = fault.place.start + 1
        region = {"startLine": fault.place.part.number, "startColumn": start, "endColumn": start + len(fault.place.slice)}
        number = RULES.index(fault.rule) + 1
        results.append(told(f"expectations/{number}", f'"{shown(fault.place.slice)}" {SENTENCES[fault.rule]}', file, region))
    return expectations_log(SENTENCES, results) + "\n"


def outside_text(site, file, expectations):
    """A line for each directory of which neither it nor anything below it is in a file system: it may be misspelled, and what is
    forbidden there holds whatever the site says."""
    return "".join(
        f"{file}:{expected.number}: {printed(path)} {OUTSIDE}\n"
        for expected in expectations
        for path, _ in expected.scopes
        if not any(is_under(path, mount) or is_under(mount, path) for mount in site.mounts)
    )


def host_bits_text(file, expectations):
    """A line for each network that is written with host bits, with the network that is meant."""
    text = ""
    for expected in expectations:
        for name in [*(expected.whom or []), *expected.but]:
            address, slash, prefix = name.partition("/")
            first = dotted(span_of(name)[0]) if slash else None
            if slash and first != ".".join([*address.split("."), "0", "0", "0"][:4]):
                text += f"{file}:{expected.number}: {name} has host bits: {first}/{prefix} is meant\n"
    return text


def left_out_text(site):
    """A line for each file system in which a line has a client of an earlier one, which names the first such line: mountd may leave it
    out, and then answer otherwise."""
    text = ""
    for mount in in_order(site.mounts):
        for number, other, address in repeated_clients(site, mount)[:1]:
            text += f"exportdesk: mountd(8) may answer otherwise, since it may leave out line {number} of {printed(mount)}:"
            text += f" line {other} has {dotted(address)}\n"
    return text


# ---- the commands


def fault_texts(file, faults):
    """What is printed of a text with these faults on standard output, which names the first, and on standard error."""
    told = ""
    for fault in faults:
        rule = f"{RULES.index(fault.rule) + 1} {fault.rule}"
        told += finding_text(file, fault.place, rule, SENTENCES[fault.rule])
    return f"fault expectations {faults[0].text}\n", told


def answer(site, file, text, form, exports):
    """What is printed of the expectations in this text of a site on standard output, on standard error, and the status: 0 if all
    hold, 1 if one is broken, and 3 if the text has a fault. A log names the exports text of this path, or those of a database."""
    expectations, faults = read_expectations(text, site)
    if faults:
        told, beside = fault_texts(file, faults)
        return faults_log(file, faults) if form == "sarif" else told, beside, 3
    found = list(broken(site, expectations))
    if form == "sarif":
        text = report_log(site, file, exports, found)
    else:
        text = report_json(file, found) if form == "json" else report_text(file, found, len(expectations))
    beside = outside_text(site, file, expectations) + host_bits_text(file, expectations) + left_out_text(site)
    return text, beside, 1 if found else 0


def case_answer(question, site, text, names):
    """The answer to `expect` or `outside` in a file of cases, where names are looked up in tables of their own: what is reported,
    or of a text with a fault where the slice at fault is, in bytes."""
    found, faults = read_expectations(text, names)
    if faults:
        fault, place = faults[0], faults[0].place
        first, last = (len(place.part.whole[:at].encode()) for at in (place.start, place.end))
        return f"fault {fault.text} at {place.part.number}:{first}-{last}"
    if question == "outside":
        return outside_text(site, "expectations", found)
    return report_text("expectations", list(broken(site, found)), len(found))
