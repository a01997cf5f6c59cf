"""What a database holds: of each file the newest text, with its number, author and approver, and what is proposed."""

import pathlib
import typing

from reference import lines
from reference.definitions import fs_of, printed
from reference.escapes import unescaped
from reference.readings import FILES, file_system_words, path_of, read_site


class Revision(typing.NamedTuple):
    """A revision of a file, with who approved it, or None."""

    number: int
    author: str
    approver: typing.Optional[str]
    profile: int
    text: str


class Desk:
    """The texts of a database: of each file the newest, with its number and author, and who approved it; and all its revisions."""

    def __init__(self, texts):
        self.texts, self.authors = texts, {name: (1, "site") for name in texts}
        self.approvers, self.proposals = {}, {}
        self.profiles = {}  # of those that are not of profile 2
        self.history = {name: [Revision(1, "site", None, 2, text)] for name, text in texts.items()}

    def number(self, name):
        return self.authors.get(name, (0, ""))[0]

    def profile(self, name):
        return self.profiles.get(name, 2)

    def put(self, name, text, caller):
        """Stores a text: what is pending for a guarded file, and has it, is approved."""
        author, proposed = self.proposals.pop(name, (caller, None))
        is_approved = name in self.guarded() and proposed == text
        self.authors[name] = self.number(name) + 1, author if is_approved else caller
        self.approvers[name] = caller if is_approved else None
        self.texts[name] = text
        self.profiles.pop(name, None)
        self.history.setdefault(name, []).append(Revision(*self.authors[name], self.approvers[name], 2, text))

    def move_to_profile_one(self):
        """Makes all revisions those of a database of version 1."""
        self.profiles = dict.fromkeys(self.texts, 1)
        self.history = {name: [found._replace(profile=1) for found in kept] for name, kept in self.history.items()}

    def edit(self, name, text, caller):
        """Stores a text, or proposes it: that of a guarded file, unless another custodian has proposed it."""
        author, proposed = self.proposals.get(name, (caller, None))
        if name in self.guarded() and (proposed != text or author == caller):
            self.proposals[name] = caller, text
        else:
            self.put(name, text, caller)

    def filesystems(self):
        """The words of each line of `filesystems`: a mount point, the mark of a guarded one, and custodians."""
        return file_system_words(self.texts)

    def guarded(self):
        """The exports files of the mount points with the mark."""
        return {f"exports:{printed(path_of(mount))}" for mount, *rest in self.filesystems() if rest[0] == "!guarded"}

    def custodians(self, name):
        """The custodians of an exports file, as they are written."""
        for mount, *rest in self.filesystems():
            if f"exports:{printed(path_of(mount))}" == name:
                return [word for word in rest if word != "!guarded"]
        return []

    def files(self):
        """The names of its files in the order of a site, also of those that are only proposed."""
        held = {*self.authors, *self.proposals}
        return [*FILES, *sorted((name for name in held if name not in FILES), key=lambda name: name.encode())]

    def knows(self, name):
        """Whether it is one of the seven files, or the exports file of a mount point that is listed."""
        return name in FILES or name in {f"exports:{printed(path_of(mount))}" for mount, *_ in self.filesystems()}

    def mark(self, name):
        """The mark of a file: that it is guarded, or that its mount point is not listed; empty if it has none."""
        return "guarded" if name in self.guarded() else "" if self.knows(name) else "unlisted"

    def listing(self):
        """Its files with their marks and their proposals."""
        for name in self.files():
            mark = f" {self.mark(name)}" if self.mark(name) else ""
            if name in self.authors:
                number, author = self.authors[name]
                yield f"{name} rev {number} {author}{mark}\n"
            if name in self.proposals:
                yield f"{name} proposed rev {self.number(name) + 1} {self.proposals[name][0]}\n"

    def written(self):
        """The eight files that init reads: the exports are joined, each text below a comment and above an empty line."""
        joined = ""
        for mount in read_site(self.texts).mounts:
            name = f"exports:{printed(mount)}"
            if name not in self.authors:
                continue
            (number, author), text = self.authors[name], self.texts[name]
            end = "" if not text or text.endswith("\n") else "\r\n" if text.endswith("\r") else "\n"
            joined += f"# {name} rev {number} ({author})\n{text}{end}\n"
        return {**{name: self.texts[name] for name in FILES}, "exports": joined}


def split_exports(texts):
    """The texts with one exports text for each file system, which has the lines of the joined one that are for it, as they are
    written."""
    mounts = read_site(texts).mounts
    for mount in mounts:
        texts[f"exports:{printed(mount)}"] = ""
    for line in lines.logical_lines(texts.pop("exports")):
        first = lines.words_of(line)[0][0]
        mount = mounts[0] if first.startswith("V4:") else fs_of(mounts, path_of(first))
        texts[f"exports:{printed(mount)}"] += "".join(f"{part.whole}{line_end(part.whole)}" for part in line.parts)
    return texts


def line_end(line):
    """A line feed, and a carriage return more after one, since one is dropped when the line is read."""
    return "\r\n" if line.endswith("\r") else "\n"


def desk_of_folder(folder, edits=None):
    """What a database holds that `init` makes of the eight files in a folder, after the edits in a file."""
    texts = {name: pathlib.Path(folder, name).read_bytes().decode() for name in [*FILES, "exports"]}
    desk = Desk(split_exports(texts))
    for edit in edits_in(pathlib.Path(edits).read_text()) if edits else []:
        desk.edit(*edit)
    return desk


def edits_in(text):
    """The edits in a text: on each line the name of a file, who puts it, and its text with escapes, but for comments."""
    for line in text.split("\n"):
        if line and not line.startswith("#"):
            name, caller, body = line.split(" ", 2)
            yield name, unescaped(body), caller
