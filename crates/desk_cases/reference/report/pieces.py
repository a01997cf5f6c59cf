"""Pieces of the page, of parts and blocks: tables, what is folded, what is cut, and badges."""

from reference.report.data import SPACE, class_of
from reference.report.parts import Alone, AndMore, Badge, In, Level, Number, PartOf, Row, Space, Start, Words
from reference.report.text import CLASS_MARKS, CLASS_WORDS

# How many rows stand in the open.
OPEN_ROWS = 24
COMMA, BLANK = Words(", "), Words(" ")


# ---- blocks


def table(frame, title, rows):
    return table_of(frame, title, [Row(frame, cells) for cells in rows])


def table_of(frame, title, rows):
    """The same of rows that are blocks already."""
    return [Start(frame, title), *rows, Alone("TableEnd")]


def paragraph(*items):
    return [In("Paragraph", items)]


def cut(*items):
    return [In("Cut", [*items, Words(".")])]


def folded(summary, blocks, element="Fold"):
    return [In(element, summary), *blocks, Alone("FoldEnd")]


def folded_if_long(blocks, count, summary, most=OPEN_ROWS):
    """A table, folded if it has many rows."""
    return blocks if count <= most else folded(summary, blocks)


def findings_entries(entries):
    """A list of what stands out, if there is any."""
    return [Alone("FindingsStart"), *(In("Entry", items) for items in entries), Alone("ListEnd")] if entries else []


# ---- parts


def joined(lists, between):
    """The parts of some lists, with a part between each two of the lists."""
    found = []
    for items in lists:
        found += [between, *items] if found else items
    return found


def some_of(lists, most, between=COMMA):
    """The parts of so many of the lists, and how many more there are."""
    return [*joined(lists[:most], between), AndMore(max(len(lists) - most, 0))]


def level_mark(level):
    return Level(level.replace(" ", "-"), level)


def class_badge(value):
    return Badge(CLASS_MARKS[value], CLASS_WORDS[value])


def terms_badge(terms):
    return class_badge(class_of(terms))


def class_parts(found):
    """What part of all addresses has each class that there is, the most first, with the badges."""
    return of_classes(found, lambda value: [class_badge(value), Space(), PartOf(found[value], SPACE)])


def class_counts(found):
    """How many addresses have each class that there is, the most first, as `root kept 1, read-only 255`."""
    return of_classes(found, lambda value: [Words(CLASS_WORDS[value]), Space(), Number(found[value])])


def of_classes(found, told):
    return joined([told(value) for value in (3, 2, 1) if found[value]], COMMA) or [Words("nobody")]
