"""The escapes of texts in files of cases and commands."""

import re


def unescaped(text):
    """A text with escapes; a piece may be repeated so many times, each time with the number of the repetition for `\\#`."""
    first, *repetitions = text.split("\\[")
    found = [plain(first)]
    for repetition in repetitions:
        repeated, _, rest = repetition.partition("\\]")
        count, _, piece = repeated.partition(" ")
        if "\\#" in piece:
            found += [plain(piece.replace("\\#", str(number))) for number in range(int(count))]
        else:
            found.append(plain(piece) * int(count))
        found.append(plain(rest))
    return b"".join(found).decode(errors="surrogateescape")


def plain(text):
    signs = {b"n": b"\n", b"t": b"\t", b"r": b"\r", b"s": b" ", b"0": b"\0", b"\\": b"\\"}
    sign_of = lambda escape: bytes.fromhex(escape[2].decode()) if escape[2] else signs[escape[1]]
    return re.sub(rb"\\([ntrs0\\]|x([0-9a-f]{2}))", sign_of, text.encode())
