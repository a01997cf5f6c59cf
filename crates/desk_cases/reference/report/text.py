"""How the report writes classes, numbers, networks and terms, as text."""

from reference.definitions import dotted
from reference.report.data import credential_of, flavours_of, is_read_only, keeps_root

CLASS_WORDS = ("denied", "read-only", "read-write", "root kept")
CLASS_MARKS = ("n", "o", "w", "r")  # the classes of the style sheet
FLAVOUR_WORDS = {
    "sys": "user ids taken on trust",
    "krb5": "Kerberos",
    "krb5i": "Kerberos with integrity",
    "krb5p": "Kerberos with encryption",
}


def shell_word(text):
    """A word that a shell takes for this text."""
    is_plain = text and text[0] != "-" and all(c.isascii() and (c.isalnum() or c in "_./-") for c in text)
    return text if is_plain else "'" + text.replace("'", "'\\''") + "'"


# ---- numbers


def number(count):
    return f"{count:,}"


def percent(count, whole):
    """Rounded down to 0.0001, but never to 0 for a part."""
    if count >= whole:
        return "100 %"
    parts = count * 1000000 // whole
    if parts == 0:
        return "under 0.0001 %" if count else "0 %"
    return f"{parts // 10000}.{parts % 10000:04}".rstrip("0").rstrip(".") + " %"


# ---- networks


def prefix_of(first, last):
    """The prefix of the network that a range is, if it is one."""
    size = last - first + 1
    return None if size & (size - 1) or first % size else 32 - (size.bit_length() - 1)


def network_text(first, prefix):
    return f"{dotted(first)}/{prefix}"


# ---- terms


def credential_words(terms):
    kind, credential = credential_of(terms)
    if kind == "all":
        return f"every user acts as {f'root ({credential})' if keeps_root(terms) else credential}"
    return f"root stays root ({credential})" if keeps_root(terms) else f"root acts as {credential}"


def flavour_words(flavours):
    return " or ".join(f"{FLAVOUR_WORDS[flavour]} ({flavour})" for flavour in flavours)


def terms_words(terms):
    access = "read-only" if is_read_only(terms) else "read-write"
    return f"{access}; {credential_words(terms)}; {flavour_words(flavours_of(terms))}"
