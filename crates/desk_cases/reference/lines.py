"""How texts are written, as in exports(5) and netgroup(5): lines that go on in the next one, comments, and words with quotes and
escapes. Each word has its place, at which a fault is reported.
"""

import re

BLANKS = " \t"
# A backslash takes the character after it; a quote goes up to the next of its kind; any other character stands for itself.
ATOM = re.compile(r"""\\.?|"(?:[^"\\]|\\.)*"|'(?:[^'\\]|\\.)*'|[^"'\\]""", re.DOTALL)


class Part:
    """A physical line: its number, the whole of it, and that without the backslash with which it goes on."""

    def __init__(self, number, whole):
        self.number, self.whole = number, whole
        self.goes_on = whole.rstrip(BLANKS).endswith("\\")
        self.text = whole.rstrip(BLANKS)[:-1] if self.goes_on else whole


class Place:
    """A slice of a physical line, from a character up to another."""

    def __init__(self, part, start, end):
        self.part, self.start, self.end = part, start, end
        self.slice = part.whole[start:end]


class Line:
    """A logical line: its physical lines, and the number of the first."""

    def __init__(self, parts):
        self.parts, self.number = parts, parts[0].number
        self.text = " ".join(part.text for part in parts)


def physical_lines(text):
    """The lines of a text. An empty one at its end is not a line, and a line feed takes one carriage return before it."""
    *lines, last = text.split("\n")
    lines = [line.removesuffix("\r") for line in lines]
    return [Part(number, line) for number, line in enumerate([*lines, last] if last else lines, 1)]


def logical_lines(text):
    """The lines of a text, each with those that it goes on in. One that has nothing, or begins with `#`, is left out."""
    lines, goes_on = [], False
    for part in physical_lines(text):
        if goes_on:
            lines[-1].append(part)
        else:
            lines.append([part])
        goes_on = part.goes_on
    return [line for line in map(Line, lines) if line.text.lstrip(BLANKS)[:1] not in ("", "#")]


def atoms(text):
    """The atoms of a text with the place of each, up to the first quote that does not close."""
    at = 0
    while found := ATOM.match(text, at):
        yield at, found[0]
        at = found.end()


def value_of(atom):
    inner = atom[1:-1] if atom[0] in "\"'" else atom
    return re.sub(r"\\(.?)", r"\1", inner, flags=re.DOTALL)


def words_of(line):
    """The words of a line with their places: no word goes over the end of a physical line."""
    return [word for part in line.parts for word in words_on(part)]


def words_on(part):
    words, begun = [], None
    for at, atom in [*atoms(part.text), (len(part.text), " ")]:
        if atom not in (" ", "\t"):
            start, value = begun or (at, "")
            begun = start, value + value_of(atom)
        elif begun:
            words.append((begun[1], Place(part, begun[0], at)))
            begun = None
    return words


def open_quote(line):
    """The place of the first quote that does not close on its physical line, from it on; None if all do."""
    for part in line.parts:
        at = max((at + len(atom) for at, atom in atoms(part.text)), default=0)
        if at < len(part.text):
            return Place(part, at, len(part.text))
    return None
