"""What a report tells of a site, as the questions of cases ask it: the most that clients may, to how many addresses each line grants
something, which places are granted alike, the verdicts at a place, and why each line stands out.
"""

from reference.definitions import dotted, number_of, printed
from reference.report import data

QUESTIONS = ["classes", "counts", "grants", "places", "table", "place_classes", "stands_out", "deciding"]
CLASSES = ["denied", "read-only", "read-write", "root kept"]
# So many verdicts that deny have rows of their own.
MOST_DENIALS = 5
# How words that are said of a line begin, and the short name of the reason.
REASONS = {
    "matches nobody": "no client",
    "never decides": "never decides",
    "for everybody, read-only": "for everybody read-only",
    "for everybody, read-write": "for everybody read-write",
    "wide": "wide",
}


def answer(question, site, text):
    """The answer to a question on a site."""
    if question == "classes" and not text:
        return classes_text(data.together([data.FileSystem(site, number) for number in range(len(site.mounts))]))
    number, _, behind = text.partition(" ")
    system = data.FileSystem(site, int(number))
    if question == "classes":
        return classes_text(system.classes)
    if question == "counts":
        found = data.counts(system.classes, *network_ends(behind))
        return "|".join(f"{name} {count}" for name, count in zip(CLASSES, found))
    if question == "grants":
        return "|".join(f"line {line} {data.size_of(ranges)}" for line, ranges in system.grants.items())
    if question == "places":
        return "|".join(" ".join(place_text(system, place) for place in group) for group in system.groups())
    if question == "deciding":
        lines = [line for line in system.lines if "never decides" in [words for _, words in data.words_of(system, line)]]
        return "|".join(f"line {line.number}: {' '.join(map(str, system.deciding(line)))}" for line in lines)
    if question == "stands_out":
        return "|".join(f"line {line.number} {reasons_text(system, line)}" for line in system.lines)
    place = next(place for place in system.places if place_text(system, place) == behind)
    if question == "table":
        group = next(group for group in system.groups() if place in group)
        return table_text(system.who[group[0]])
    return classes_text(data.classes_of(system.who[place]))


def network_ends(text):
    number, _, prefix = text.partition("/")
    return data.network_ends(number_of(number), int(prefix))


def place_text(system, place):
    """A place as it is written: the mount point has a line for it, or not; any other directory is written by a line."""
    return "other directories" if place == system.other else printed(place)


def range_text(first, last):
    return f"{dotted(first)}-{dotted(last)}"


def classes_text(classes):
    return "|".join(f"{range_text(first, last)} {CLASSES[value]}" for first, last, value in classes)


def table_text(verdicts):
    """The table of places that are granted alike, given the verdicts at the first of them, which are those at each: a row for each
    verdict, those that grant by their lines, then those that deny by the lines that they name, then the others. All that deny are one
    row if they are more than five."""
    found, sizes = {}, {}
    for first, last, verdict in verdicts:
        found.setdefault(verdict, []).append(range_text(first, last))
        sizes[verdict] = sizes.get(verdict, 0) + last - first + 1
    denied = [verdict for verdict in found if not verdict.startswith("granted")]
    are_joined = len(denied) > MOST_DENIALS
    shown = [verdict for verdict in found if not (are_joined and verdict in denied)]
    rows = [f"{verdict} for {' '.join(found[verdict])}" for verdict in sorted(shown, key=place_of_verdict)]
    if are_joined and denied:
        rows.append(f"everybody else {sum(sizes[verdict] for verdict in denied)} of {len(denied)} denials")
    return "|".join(rows)


def place_of_verdict(verdict):
    """`granted line 2 ..`, `denied 3 NotListed /a line 2`, `denied 2 NoLine /a`."""
    words = verdict.split(" ")
    if words[0] == "granted":
        return 0, int(words[2])
    return (1, int(words[-1])) if words[1] == "3" else (2, 0)


def reasons_text(system, line):
    found = [f"{level} {server_reason(system, line, words) or reason_of(line, words)}" for level, words in data.words_of(system, line)]
    return ", ".join(found) or "nothing"


def server_reason(system, line, words):
    """What mountd(8) does, if these words say it."""
    if words == data.GRANTS_MORE:
        other, address, directory = system.wider[line.number]
        return f"server grants more to {dotted(address)} by line {other}" + (f" {printed(directory)}" if directory is not None else "")
    if words == data.LEFT_OUT:
        other, address = system.repeated[line.number]
        return f"has {dotted(address)} of line {other}"
    return None


def reason_of(line, words):
    """The reason that is said of a line in these words. What is left is that root is kept."""
    known = [name for begin, name in REASONS.items() if words.startswith(begin)]
    return known[0] if known else "root kept for names" if line.clients[0] == "names" else "root kept for networks"
