"""How a finding is reported at its place: a sentence, the line of the text, and carets under the slice."""

import json

# The characters that are shown as nothing, or that turn or break the line that they stand in: Default_Ignorable_Code_Point of
# Unicode, and its two line separators.
UNSEEN = [
    (0xAD, 0xAD), (0x34F, 0x34F), (0x61C, 0x61C), (0x115F, 0x1160), (0x17B4, 0x17B5), (0x180B, 0x180F), (0x200B, 0x200F),
    (0x2028, 0x202E), (0x2060, 0x206F), (0x3164, 0x3164), (0xFE00, 0xFE0F), (0xFEFF, 0xFEFF), (0xFFA0, 0xFFA0),
    (0xFFF0, 0xFFF8), (0x1BCA0, 0x1BCA3), (0x1D173, 0x1D17A), (0xE0000, 0xE0FFF),
]  # fmt: skip
# Of a line of more bytes than that so many are shown on either side of where a slice begins.
LONGEST, AROUND = 200, 100


def is_control(letter):
    return ord(letter) < 32 or 127 <= ord(letter) < 160


def shown(text):
    """A text in which each character can be seen: one that cannot is shown by its code."""
    return "".join(map(shown_letter, text))


def shown_letter(letter):
    is_unseen = any(first <= ord(letter) <= last for first, last in UNSEEN)
    return f"\\u{{{ord(letter):x}}}" if is_control(letter) or is_unseen else letter


def shown_line(line, mark=None):
    """A line of a text, or so many of a mark as stand under it: a tab stays a tab in both."""
    pieces = [letter if letter == "\t" else shown_letter(letter) for letter in line]
    return "".join(piece if mark is None or piece == "\t" else mark * len(piece) for piece in pieces)


def finding_text(file, place, rule, sentence):
    """The file, the line and the column, which rule is broken, what is said of the slice, and the line with the slice marked."""
    return line_finding(file, place, f"fault {rule}", f'"{shown(place.slice)}" {sentence}')


def line_finding(file, place, what, sentence):
    """The same with a sentence of its own, which may be about the line."""
    return f"{shown(file)}:{place.part.number}:{place.start + 1}: {what}: {sentence}\n{marked_line(place)}"


def marked_line(place):
    line, start, end = place.part.whole, place.start, place.end
    first, last = excerpt(line, start)
    carets = shown_line(line[start : min(end, last)], "^")
    under = " " * len(dots(first > 0)) + shown_line(line[first:start], " ") + (carets if carets.strip("\t") else "^")
    return f"{plain_line(line, start)}\n{under}\n"


def plain_line(line, start=0):
    """A line as it is shown with a slice that begins there."""
    first, last = excerpt(line, start)
    return f"{dots(first > 0)}{shown_line(line[first:last])}{dots(last < len(line))}"


def dots(is_cut):
    return "..." if is_cut else ""


def excerpt(line, start):
    """Which characters of a line are shown with a slice that begins there: all, or of a long line those that are near. A character
    that is cut by the bound is shown before the slice, and not after it."""
    ends = [0]  # (where each character ends, in bytes)
    for letter in line:
        ends.append(ends[-1] + len(letter.encode()))
    if ends[-1] <= LONGEST:
        return 0, len(line)
    nearest = lambda at: max(place for place, end in enumerate(ends) if end <= at)
    return nearest(max(0, ends[start] - AROUND)), nearest(min(ends[-1], ends[start] + AROUND))


def printed_json(objects):
    """A list of objects on a line, with each control character by its code."""
    text = json.dumps(objects, ensure_ascii=False, separators=(",", ":"), sort_keys=True)
    return "".join(f"\\u{ord(letter):04x}" if is_control(letter) else letter for letter in text)
