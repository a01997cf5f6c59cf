"""Lines that decide nothing, and what else `check` says of lines and words that break no rule: the warnings from number 5 on."""

from reference.definitions import contradiction, dotted, printed, selected, steady_blocks, unwritten, verdict, weight
from reference.findings import line_finding, plain_line, shown
from reference.lines import logical_lines, physical_lines, words_of
from reference.server import repeated_clients, wider_grants
from reference.warnings import line_warnings
from reference.why import named_line

NUMBERS = {"Shadowed": 5, "Repeated": 6, "NoClient": 7, "EveryAddress": 8, "WritableByAll": 9, "RootForMany": 10}
NUMBERS |= {"ServerGrantsMore": 11, "RepeatedClient": 14, "Backslash": 12, "V4Line": 13}
SENTENCES = {
    "Shadowed": "the line decides nothing: heavier lines match each of its clients",
    "Repeated": "the line decides nothing: earlier lines of equal weight list all that it lists",
    "NoClient": "the line decides nothing: its names stand for no address",
    "EveryAddress": "the network has the prefix 0, so the line is for everybody: leave the network out, or correct it",
    "WritableByAll": "everybody may write to it: add -ro, or name the clients",
    "RootForMany": "root of each client acts as root: leave out -maproot or -mapall, or name the hosts",
    "Backslash": "mountd(8) may read this word otherwise: write the name in quotes",
    "V4Line": "by NFSv4 a client that may mount one directory reaches the whole file system: the verdicts on directories hold for"
    " NFSv3 alone",
}
# Those of one line, in the order in which they are told.
ORDER = list(NUMBERS)


# ---- lines that decide nothing


def decides_nothing(site, mount):
    """The lines of a file system that no verdict names, at no address and for no directory. Between two of the addresses that are
    asked each line matches alike, and of the directories that no line writes one is asked."""
    lines = site.lines[mount]
    written = {path for line in lines for path in line.directories}
    paths = [*written, unwritten({*written, *site.mounts}, mount)]
    named = {named_line(verdict(site, address, path)) for address in addresses_asked(site, mount) for path in paths}
    return [line for line in lines if line.number not in named]


def addresses_asked(site, mount):
    """The first address of each block of addresses in which all lines of a file system have one weight; so the least address at
    which a line matches, or is selected, is among them."""
    return [first for first, _ in steady_blocks(((site, mount),))]


def reason(site, mount, line):
    """Why a line decides nothing: it matches no address; it is selected nowhere; or it is selected, but each time earlier lines
    list all that it lists. With the first line that is selected at the least address at which it is selected, or matches."""
    matched = [first for first in addresses_asked(site, mount) if weight(site, line, first) is not None]
    if not matched:
        return "NoClient", None, None
    chosen = [first for first in matched if line in selected(site, mount, first)]
    address = chosen[0] if chosen else matched[0]
    return "Repeated" if chosen else "Shadowed", selected(site, mount, address)[0].number, address


def idle_lines(site, mount):
    """For each line that decides nothing its number, the reason, and what shows it."""
    return [(line.number, *reason(site, mount, line)) for line in decides_nothing(site, mount)]


# ---- what `check` says of lines


class Remark:
    """What is said of a line: its number and the name of the warning; the other line and the address that show it, and the directory
    that the other line lists, if there are such. If it is said of a word, the place of that."""

    def __init__(self, line, name, other=None, address=None, directory=None, place=None):
        self.line, self.name, self.other, self.address, self.directory = line, name, other, address, directory
        self.place = place
        self.may_grant = False  # whether mountd(8) may grant by the line, though it decides nothing here

    def sentence(self):
        if self.name == "ServerGrantsMore":
            return wider_sentence(self)
        if self.name == "RepeatedClient":
            return (
                "mountd(8) takes one line for a client and a file system, and may leave this one out, since line"
                f" {self.other} has {dotted(self.address)}: write the directories on one line"
            )
        said = SENTENCES[self.name]
        if self.may_grant:
            said = said.replace("decides nothing:", "decides nothing here, though mountd(8) may grant by it:")
        return said + (f", beginning with line {self.other} for {dotted(self.address)}" if self.other else "")


def wider_sentence(remark):
    mounted, written = "each directory of the file system", "write -alldirs here as well"
    if remark.directory is not None:
        mounted, written = shown(printed(remark.directory)), "list the directory here as well"
    return (
        f"mountd(8) also lets {dotted(remark.address)} mount {mounted} by line {remark.other}: {written} if that is meant, else keep"
        f" the client out of the network of line {remark.other}, or give it a file system of its own"
    )


def is_for_all(line):
    kind, *clients = line.clients
    return kind == "everybody" or kind == "network" and clients[1] == 0


def opinions(line):
    """Opinions about a line: it lets everybody write, or the root of many hosts act as root; and its clients need not prove who
    they are, since it accepts the flavour sys."""
    access, flavours, mapping = line.terms.split(" ")
    if "sys" not in flavours.partition("=")[2].split(":"):
        return []
    acts_as_root = mapping.partition("=")[2].split(":")[0] == "0"
    found = ["WritableByAll"] if is_for_all(line) and access == "rw" else []
    return found + (["RootForMany"] if line.clients[0] in ("everybody", "network") and acts_as_root else [])


def remarks(site, text, with_opinions=False):
    """What is said of each line and each word of an exports text that is this site's: by line, and of one line in this order."""
    found = line_remarks(site, with_opinions) + word_remarks(text, with_opinions)
    return sorted(found, key=lambda remark: (remark.line, ORDER.index(remark.name)))


def line_remarks(site, with_opinions):
    """What is said of each line of a site. Nothing if the site contradicts itself; of a line of which a word is warned of not that it
    decides nothing, since it may decide once the word is known."""
    if any(contradiction(site, mount) for mount in site.mounts):
        return []
    found = []
    for mount in site.mounts:
        wider = [Remark(number, "ServerGrantsMore", *shows) for number, *shows in wider_grants(site, mount)]
        found += wider
        found += [Remark(number, "RepeatedClient", *shows) for number, *shows in repeated_clients(site, mount)]
        warned = [line.number for line in site.lines[mount] if line_warnings(site, line)]
        for number, *shows in idle_lines(site, mount):
            idle = Remark(number, *shows)
            idle.may_grant = number in [remark.other for remark in wider]
            found += [idle] if number not in warned else []
        for line in site.lines[mount]:
            is_every = line.clients[0] == "network" and is_for_all(line)
            names = ["EveryAddress"] if is_every else []
            found += [Remark(line.number, name) for name in names + (opinions(line) if with_opinions else [])]
    return found


def word_remarks(text, with_opinions):
    """What is said of each word by itself, also if the text contradicts itself: it has a backslash, other than one with which its
    line goes on; and the opinion about a line of NFSv4."""
    found = []
    for line in logical_lines(text):
        words = words_of(line)
        found += [Remark(line.number, "Backslash", place=place) for _, place in words if "\\" in place.slice]
        if words[0][0] == "V4:" and with_opinions:
            found.append(Remark(line.number, "V4Line"))
    return found


def remark_text(file, text, remark):
    """A remark as `check` prints it: at its word, or at the first word of the line. The other line of what mountd(8) does otherwise
    stands below it."""
    what = f"warning {NUMBERS[remark.name]} {remark.name}"
    found = line_finding(file, place_of(text, remark), what, remark.sentence())
    if remark.name not in ("ServerGrantsMore", "RepeatedClient"):
        return found
    other = physical_lines(text)[remark.other - 1]
    return f"{found}{shown(file)}:{remark.other}:1: the other line\n{plain_line(other.whole)}\n"


def place_of(text, remark):
    return remark.place or next(words_of(line)[0][1] for line in logical_lines(text) if line.number == remark.line)


def remark_object(file, text, remark):
    """The same as an object of `check --json`."""
    place = place_of(text, remark)
    found = {"column": place.start + 1, "kind": "warning", "line": place.part.number, "name": remark.name, "path": file}
    found |= {"rule": NUMBERS[remark.name], "text": remark.sentence(), "word": place.slice}
    found |= {"other": remark.other, "address": dotted(remark.address)} if remark.other else {}
    return found | ({"directory": printed(remark.directory)} if remark.directory is not None else {})
