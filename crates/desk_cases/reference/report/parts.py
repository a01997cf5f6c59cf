"""The parts and blocks of the page by value, and what they come to as HTML: written from the definitions of page_html (`Items.antt`,
`Titles.antt`, `Tables.antt`, `Blocks.antt`, `Pages.antt`, and what these name). Here, and nowhere else, texts are escaped and tags are
written, but for the fixed texts of constants.py and the images of maps.py. (Where the definitions have the part Nothing, no part stands;
and no page has SomeCodes.)
"""

import base64
import hashlib
from dataclasses import make_dataclass

from reference.definitions import dotted
from reference.findings import UNSEEN, is_control
from reference.report.constants import STYLE
from reference.report.data import SPACE
from reference.report.text import FLAVOUR_WORDS, network_text, number, percent, prefix_of, terms_words

# How many ranges of a cell stand in the open, and how many are listed at all.
OPEN_RANGES, MOST_RANGES = 8, 256


def kind(name, *fields):
    """A kind of part. Two parts are equal if they are of one kind and their fields are equal."""
    return make_dataclass(name, fields, frozen=True)


# ---- parts, which stand in a cell or an element: those without a text of the site

Words = kind("Words", "words")
Strong = kind("Strong", "words")
Zero = kind("Zero", "words")
Small = kind("Small", "words")
Word = kind("Word", "words")
Badge = kind("Badge", "mark", "words")
Level = kind("Level", "mark", "words")
Link = kind("Link", "place", "words")
Space = kind("Space")
Break = kind("Break")
NewLine = kind("NewLine")
Number = kind("Number", "count")
Digits = kind("Digits", "number")
Plural = kind("Plural", "count", "one", "several")
PartOf = kind("PartOf", "count", "whole")
AndMore = kind("AndMore", "count")
SmallCount = kind("SmallCount", "count", "words")
SmallPlural = kind("SmallPlural", "count", "one", "several")
SmallPercent = kind("SmallPercent", "count", "whole")
LineLink = kind("LineLink", "system", "line")
Drawn = kind("Drawn", "image")
Network = kind("Network", "first", "prefix")
Range = kind("Range", "first", "last")
Ranges = kind("Ranges", "ranges")
Terms = kind("Terms", "terms")
Flavours = kind("Flavours", "flavours")
FlavourNames = kind("FlavourNames", "flavours")

# ---- those with such a text

Text = kind("Text", "text")
Code = kind("Code", "text")
Digest = kind("Digest", "text")
Codes = kind("Codes", "texts")
Line = kind("Line", "line")
System = kind("System", "system", "name")
SystemLine = kind("SystemLine", "system", "name", "line")

# ---- parts of the title of a table, its columns, and its frame: the class of the style sheet, and whether its caption is seen

Said = kind("Said", "words")
Named = kind("Named", "name")
Further = kind("Further", "count")
Name = kind("Name", "words")
Plain = kind("Plain", "words")
Count = kind("Count", "words")
Fact = kind("Fact", "words")
Frame = kind("Frame", "mark", "is_titled", "columns")

# ---- blocks, of which a page is made; `cells` are lists of parts, one for each column

Head = kind("Head", "title")
Start = kind("Start", "frame", "title")
Row = kind("Row", "frame", "cells")
MarkedRow = kind("MarkedRow", "is_marked", "frame", "cells")
LineRow = kind("LineRow", "system", "line", "is_marked", "frame", "cells")
Facts = kind("Facts", "frame", "facts")
In = kind("In", "element", "items")
Alone = kind("Alone", "tag")
SystemStart = kind("SystemStart", "system")
Fixed = kind("Fixed", "html")

# An element by its name: how it begins, and how it ends.
ELEMENTS = {
    "Title": ("<h1>", "</h1>\n"),
    "Heading": ("<h3>", "</h3>\n"),
    "Subheading": ("<h4>", "</h4>\n"),
    "PlacesHeading": ('<h4 class="sub">', "</h4>\n"),
    "PlaceHeading": ("<h5>", "</h5>\n"),
    "Paragraph": ("<p>", "</p>\n"),
    "State": ('<p class="state">', "</p>\n"),
    "Cut": ('<p class="cut">', "</p>\n"),
    "Names": ('<p class="names">', "</p>\n"),
    "Up": ('<p class="up">', "</p>\n"),
    "Commands": ("<pre><code>", "</code></pre>\n"),
    "Figure": ("<figure>", "</figure>\n"),
    "Entry": ("<li>", "</li>\n"),
    "Fold": ("<details><summary>", "</summary>\n"),
    "OpenFold": ("<details open><summary>", "</summary>\n"),
}
# A tag that stands alone.
TAGS = {
    "HeaderStart": '<header>\n<p class="kind">Export report</p>\n',
    "SummaryStart": '<section id="summary">\n<h2>Summary</h2>\n',
    "SystemsStart": '<section id="systems">\n<h2>File systems</h2>\n',
    "NetworksStart": '<section id="networks">\n<h2>Networks of the site</h2>\n',
    "EachStart": '<section id="each">\n<h2>Each file system</h2>\n',
    "WarningsStart": '<section id="warnings">\n<h2>Warnings</h2>\n',
    "NamesStart": '<section id="names">\n<h2>Netgroups and names</h2>\n',
    "FilesStart": '<section id="files">\n<h2>Files and revisions</h2>\n',
    "TableEnd": "</tbody>\n</table></div>\n",
    "FoldEnd": "</details>\n",
    "FindingsStart": '<ul class="mine">',
    "ListEnd": "</ul>\n",
    "MapsStart": '<div class="maps">\n',
    "MapsEnd": "</div>\n",
    "ProposalStart": '<section class="wait">\n',
    "PlaceStart": '<section class="place">\n',
    "SectionEnd": "</section>\n",
    "PageEnd": "</main>\n</body>\n</html>\n",
}


# ---- texts


MARKUP = {"&": "&amp;", "<": "&lt;", ">": "&gt;", '"': "&quot;", "'": "&#39;"}


def is_hidden(letter):
    """A character that cannot be seen, or that turns or breaks a line: as `check` has them."""
    return is_control(letter) or any(first <= ord(letter) <= last for first, last in UNSEEN)


def escaped(text):
    """A text between tags: no character is markup, and one that is hidden is shown by its code, in an element of its own. So is a
    hyphen, behind which no line is broken."""
    shown = {"-": "<u>-</u>", **MARKUP}
    return "".join(f'<i class="x">\\u{{{ord(c):x}}}</i>' if is_hidden(c) else shown.get(c, c) for c in text)


def escaped_line(text):
    """A line of a file, in which a tab stays a tab."""
    return "\t".join(map(escaped, text.split("\t")))


def attribute(text):
    """A text in an attribute or the title, where there are no elements: so that a text is not taken for the code of a hidden character,
    a backslash is doubled. Words of the page's own are written like this everywhere."""
    codes = {"\\": "\\\\", **MARKUP}
    return "".join(f"\\u{{{ord(c):x}}}" if is_hidden(c) else codes.get(c, c) for c in text)


def code(text):
    return f"<code>{escaped(text)}</code>"


def code_list(texts):
    return ", ".join(map(code, texts))


# ---- amounts


def plural(count, one, several):
    return f"{number(count)} {attribute(one if count == 1 else several)}"


def part_of(count, whole):
    """How much of a whole: none, all, all but a number, or a number. One that is larger counts as the whole."""
    if count == 0 or count >= whole:
        return "all" if count and whole else "none"
    return f"all&nbsp;but&nbsp;{number(whole - count)}" if count > whole // 2 else number(count)


def more(count):
    return f" and {number(count)} more" if count else ""


# ---- links and ranges


def system_link(system, name):
    return f'<a href="#f{system}">{code(name)}</a>'


def line_link(system, line):
    return f'<a class="l" href="#f{system}-{line}">line {line}</a>'


def system_line(system, name, line):
    return f'<a href="#f{system}-{line}">{code(name)} line&nbsp;{line}</a>'


def range_text(first, last):
    """An address, a network, or any other range as `who` prints it."""
    prefix = prefix_of(first, last)
    if prefix is None:
        return f"{dotted(first)}-<wbr>{dotted(last)}"
    return dotted(first) if prefix == 32 else network_text(first, prefix)


def range_list(ranges):
    return f'<ul class="r">{"".join(f"<li>{range_text(*ends)}</li>" for ends in ranges)}</ul>'


def ranges_text(ranges):
    """Some ranges in the open, the others folded, and of very many the rest only counted."""
    if ranges == [(0, SPACE - 1)]:
        return "<b>every address</b>"
    made, rest = range_list(ranges[:OPEN_RANGES]), ranges[OPEN_RANGES:]
    return f"{made}<details><summary>{number(len(rest))} more</summary>\n{listed(rest)}</details>\n" if rest else made


def listed(ranges):
    most = MOST_RANGES - OPEN_RANGES
    made, uncounted = range_list(ranges[:most]), len(ranges) - most
    words = plural(uncounted, "more range is", "more ranges are")
    return f'{made}<p class="cut">{words} not listed here.</p>' if uncounted > 0 else made


# ---- what a part comes to


PARTS_HTML = {
    Words: attribute,
    Strong: lambda words: f"<b>{attribute(words)}</b>",
    Zero: lambda words: f'<span class="zero">{attribute(words)}</span>',
    Small: lambda words: f"<small>{attribute(words)}</small>",
    Word: lambda words: f"<code>{attribute(words)}</code>",
    Badge: lambda mark, words: f'<span class="b {attribute(mark)}">{attribute(words)}</span>',
    Level: lambda mark, words: f'<b class="l {attribute(mark)}">{attribute(words)}</b>',
    Link: lambda place, words: f'<a href="#{attribute(place)}">{attribute(words)}</a>',
    Space: lambda: "&nbsp;",
    Break: lambda: "<br>",
    NewLine: lambda: "\n",
    Number: number,
    Digits: str,
    Plural: plural,
    PartOf: part_of,
    AndMore: more,
    SmallCount: lambda count, words: f"<small>{number(count)} {attribute(words)}</small>",
    SmallPlural: lambda count, one, several: f"<small>{plural(count, one, several)}</small>",
    SmallPercent: lambda count, whole: f"<small>{percent(count, whole)}</small>",
    LineLink: line_link,
    Drawn: lambda image: image,
    Network: network_text,
    Range: range_text,
    Ranges: ranges_text,
    Terms: terms_words,
    Flavours: lambda flavours: " or ".join(f"{FLAVOUR_WORDS[flavour]} ({flavour})" for flavour in flavours),
    FlavourNames: lambda flavours: f"<code>{':'.join(flavours)}</code>",
    Text: escaped,
    Code: code,
    Digest: lambda text: f'<code class="sha">{escaped(text)}</code>',
    Codes: code_list,
    Line: lambda line: f"<code>{escaped_line(line)}</code>",
    System: system_link,
    SystemLine: system_line,
}
# Parts of a title in the caption, and the same as an attribute, which has no elements.
CAPTIONS_HTML = {Said: attribute, Named: code, Further: more}
LABELS_HTML = {Said: attribute, Named: attribute, Further: more}


def html(by_kind, parts):
    """What parts come to, one behind the other: by kind a function of their fields."""
    return "".join(by_kind[type(part)](*vars(part).values()) for part in parts)


def items_html(items):
    return html(PARTS_HTML, items)


# ---- tables, and facts, each with its term


CELLS = {
    Name: ('<th scope="row">', "</th>"),
    Plain: ("<td>", "</td>"),
    Count: ('<td class="num">', "</td>"),
}


def cell_html(column, items):
    if isinstance(column, Fact):
        return f"<div><dt>{attribute(column.words)}</dt><dd>{items_html(items)}</dd></div>\n"
    start, end = CELLS[type(column)]
    return start + items_html(items) + end


def cells_html(frame, cells):
    return "".join(map(cell_html, frame.columns, cells))


def row_html(frame, cells):
    return f"<tr>{cells_html(frame, cells)}</tr>\n"


def marked_row_html(is_marked, frame, cells):
    return f"<tr{hit(is_marked)}>{cells_html(frame, cells)}</tr>\n"


def line_row_html(system, line, is_marked, frame, cells):
    """The row of a line of a file system, which links lead to."""
    return f'<tr id="f{system}-{line}"{hit(is_marked)}>{cells_html(frame, cells)}</tr>\n'


def hit(is_marked):
    return ' class="hit"' if is_marked else ""


def table_start(frame, title):
    """The box in which a table can be scrolled, by the keyboard too, its caption, and the heads of its columns."""
    box = f'<div class="wide" tabindex="0" role="region" aria-label="{html(LABELS_HTML, title)}">'
    mark = f' class="{attribute(frame.mark)}"' if frame.mark else ""
    off = "" if frame.is_titled else ' class="off"'
    heads = "".join(map(head_html, frame.columns))
    return f"{box}<table{mark}>\n<caption{off}>{html(CAPTIONS_HTML, title)}</caption>\n<thead><tr>{heads}</tr></thead>\n<tbody>\n"


def head_html(column):
    mark = ' class="num"' if isinstance(column, Count) else ""
    return f'<th scope="col"{mark}>{attribute(column.words)}</th>'


def facts_html(frame, facts):
    return f'<dl class="{attribute(frame.mark)}">\n{cells_html(frame, facts)}</dl>\n'


# ---- a page


def page_head(title):
    """The head, with the word for the database as the title, and a policy by which nothing is fetched or run."""
    digest = base64.b64encode(hashlib.sha256(STYLE.encode()).digest()).decode()
    policy = f"default-src 'none'; style-src 'sha256-{digest}'"
    metas = {"viewport": "width=device-width, initial-scale=1", "color-scheme": "light dark", "referrer": "no-referrer"}
    made = '<!DOCTYPE html>\n<html lang="en">\n<head>\n<meta charset="utf-8">\n'
    made += f'<meta http-equiv="Content-Security-Policy" content="{policy}">\n'
    made += "".join(f'<meta name="{meta}" content="{content}">\n' for meta, content in {**metas, "robots": "noindex"}.items())
    return f"{made}<title>Exports of {attribute(title)}</title>\n<style>{STYLE}</style>\n</head>\n<body>\n"


def element_html(element, items):
    start, end = ELEMENTS[element]
    return start + items_html(items) + end


BLOCKS_HTML = {
    Head: page_head,
    Start: table_start,
    Row: row_html,
    MarkedRow: marked_row_html,
    LineRow: line_row_html,
    Facts: facts_html,
    In: element_html,
    Alone: TAGS.__getitem__,
    SystemStart: lambda system: f'<section class="fs" id="f{system}">\n',
    Fixed: lambda text: text,
}


def render(blocks):
    """The HTML of blocks."""
    return html(BLOCKS_HTML, blocks)
