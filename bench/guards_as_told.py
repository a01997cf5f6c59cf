"""Edits as the rules tell them to an administrator, as a desk that changes: written without the definitions.

A desk keeps a list of revisions for each file and at most one proposal. `Desk.put` answers one edit and changes the desk.
With a `wrong` reading it does one thing that the rules do not allow, so that `bench/guards` can see that it would notice.
"""
import functools
import hashlib
import ipaddress

SEVEN = ["custodians", "filesystems", "hosts", "networks", "passwd", "group", "netgroup"]
KNOWN_NETWORKS = {"cis-net": "131.104.48"}

WRONG = [
    "the author approves its own proposal",
    "an approver need not send the same text",
    "a replaced proposal can still be approved",
    "a proposal stays after the revision",
    "an author who no longer keeps the file counts",
    "any keeper's repeat is answered already",
    "the approver's repeat is stale",
    "the approver is the author of the revision",
    "a proposal takes effect at once",
    "a proposal is kept before its site is judged",
    "a proposal is kept before the base is checked",
    "a refused edit drops the proposal",
    "a proposal may pass the last number",
    "a repeat of a proposal is asked of unguarded files too",
    "a repeat of a proposal is judged again",
    "the mark counts in any place",
    "one custodian named twice is two",
    "unknown custodians are told before the guard rule",
    "an unguarded edit leaves the proposal",
    "old revisions are read by profile 2",
    "new revisions keep the file's profile",
    "a network without a mask is told after names beside it",
    "a network without a mask is told for IPv6",
]


class Faulty(Exception):
    pass


def split_words(line):
    """The words of a line, with quotes and backslashes resolved."""
    words, word, quote, escaped = [], None, None, False
    for letter in line:
        if escaped:
            word, escaped = (word or "") + letter, False
        elif letter == "\\":
            word, escaped = word or "", True
        elif quote:
            word, quote = (word, None) if letter == quote else (word + letter, quote)
        elif letter == '"':
            word, quote = word or "", letter
        elif letter in " \t":
            words, word = words + [word] if word is not None else words, None
        else:
            word = (word or "") + letter
    return words + [word] if word is not None else words


def lines_of(text):
    number = 0
    for line in text.split("\n"):
        number += 1
        words = split_words(line)
        if words and not line.lstrip(" \t").startswith("#"):
            yield number, words


def clean_path(text):
    if text[:1] != "/":
        return None
    path = "/" + "/".join(part for part in text.split("/") if part != "")
    return None if "/./" in path + "/" or "/../" in path + "/" else path


def below(path, mount):
    return mount == "/" or path == mount or path.startswith(mount + "/")


class Reader:
    """Reads the files of a site in their order, and stops at the first fault."""

    def __init__(self, wrong=None):
        self.wrong = wrong
        self.known = {}

    def remembered(self, what, *text):
        key = (what, *text)
        if len(self.known) > 20000:
            self.known.clear()
        if key not in self.known:
            try:
                self.known[key] = getattr(self, what)(*text)
            except Faulty as fault:
                self.known[key] = fault
        if isinstance(self.known[key], Faulty):
            raise self.known[key]
        return self.known[key]

    def custodians(self, text):
        digests = {}
        for number, words in lines_of(text):
            if len(words) != 2:
                raise Faulty("custodians", number, 1)
            if not 1 <= len(words[0]) <= 32 or set(words[0]) - set("abcdefghijklmnopqrstuvwxyz0123456789-_"):
                raise Faulty("custodians", number, 3)
            if words[0] in digests:
                raise Faulty("custodians", number, 4)
            if len(words[1]) != 64 or set(words[1].lower()) - set("0123456789abcdef"):
                raise Faulty("custodians", number, 7)
            digests[words[0]] = words[1].lower()
        if "site" not in digests:
            raise Faulty("custodians", 0, 6)
        return digests

    def filesystems(self, text, custodians):
        mounts = {}
        for number, words in lines_of(text):
            marked = words[1:2] == ["!guarded"] or (self.wrong == "the mark counts in any place" and "!guarded" in words[1:])
            keepers = [word for word in words[1:] if not (marked and word == "!guarded")] if "any place" in str(self.wrong) else words[2:] if marked else words[1:]
            path = clean_path(words[0])
            if not keepers:
                raise Faulty("filesystems", number, 1)
            if path in mounts:
                raise Faulty("filesystems", number, 4)
            if path is None:
                raise Faulty("filesystems", number, 5)
            if self.wrong == "unknown custodians are told before the guard rule" and set(keepers) - set(custodians):
                raise Faulty("filesystems", number, 6)
            count = len(keepers) if self.wrong == "one custodian named twice is two" else len(set(keepers))
            if marked and count < 2:
                raise Faulty("filesystems", number, 9)
            mounts[path] = (keepers, marked, number)
        unknown = [number for keepers, _, number in mounts.values() if any(keeper not in custodians for keeper in keepers)]
        if unknown:
            raise Faulty("filesystems", min(unknown), 6)
        return mounts

    def hosts(self, text):
        addresses = {}
        for number, words in lines_of(text):
            if len(words) == 1:
                raise Faulty("hosts", number, 1)
            try:
                address = int(ipaddress.IPv4Address(words[0]))
            except ValueError:
                raise Faulty("hosts", number, 2)
            for name in words[1:]:
                addresses.setdefault(name.lower(), set()).add(address)
        return addresses

    def exports(self, mount, profile, text, mounts, hosts):
        """The lines of an exports file: number, read-only, the keys under which it stands (kind, first address, prefix), and the
        network whose class counts."""
        name = "exports:" + mount
        addresses = self.remembered("hosts", hosts)
        found = []
        for number, words in lines_of(text):
            try:
                read_only, keys, by_class = self.exports_line(mount, profile, words, mounts, addresses)
            except Faulty as fault:
                raise Faulty(name, number, *fault.args)
            found.append((number, read_only, keys, by_class))
        return found

    def exports_line(self, mount, profile, words, mounts, hosts):
        count = 0
        while count < len(words) and words[count].startswith("/"):
            count += 1
        directories, options, names = words[:count], [], []
        following = iter(words[count:])
        pending = next(following, None)
        while pending is not None:
            word, pending = pending, next(following, None)
            if word[:1] != "-":
                names.append(word)
                continue
            given = word[1:].split(",")
            for option in given[:-1]:
                options.append(option)
            last = given[-1]
            if last in ("network", "mask") and pending is not None and pending[:1] != "-":
                last, pending = last + "=" + pending, next(following, None)
            options.append(last)
        self.check_directories(mount, directories, names, mounts)
        values = self.check_options(options)
        keys = self.clients(profile, values, names, hosts)
        if "alldirs" in options:
            if len(directories) > 1:
                raise Faulty(22)
            if any(clean_path(directory) != mount for directory in directories):
                raise Faulty(23)
        network = values.get("network", ":")
        return "ro" in options or "o" in options, keys, None if ":" in network or "/" in network or "mask" in values else network

    def check_directories(self, mount, directories, names, mounts):
        if not directories:
            raise Faulty(1)
        if any(name.startswith("/") for name in names):
            raise Faulty(2)
        for directory in directories:
            if clean_path(directory) is None:
                raise Faulty(3)
        for directory in directories:
            home = max((other for other in mounts if below(clean_path(directory), other)), key=len, default=None)
            if home != mount:
                raise Faulty(4)

    def check_options(self, options):
        values = {}
        for option in options:
            name = option.split("=")[0]
            if name not in ("network", "mask") and option not in ("ro", "o", "quiet", "alldirs"):
                raise Faulty(5)
        given = [option for option in options if option.split("=")[0] in ("network", "mask")]
        if any("=" not in option or option.endswith("=") and option.count("=") == 1 for option in given):
            raise Faulty(7)
        for option in given:
            name, value = option.split("=", 1)
            if name in values:
                raise Faulty(8)
            values[name] = value
        return values

    def number(self, text):
        """One to four parts, or a known name; None if it is neither."""
        if not text[:1].isdigit():
            if text not in KNOWN_NETWORKS:
                return None
            text = KNOWN_NETWORKS[text]
        parts = text.split(".")
        try:
            return int(ipaddress.IPv4Address(".".join(parts + ["0"] * (4 - len(parts)))))
        except ValueError:
            return None

    def clients(self, profile, values, names, hosts):
        for name in names:
            digits = name != "" and not name.strip("0123456789.")
            bad_address = digits and (name.count(".") != 3 or self.number(name) is None)
            if name == "" or len(name) > 255 or "," in name or "=" in name or bad_address:
                raise Faulty(9)
        network, mask = values.get("network"), values.get("mask")
        if network is not None and ":" in network:
            if self.wrong == "a network without a mask is told for IPv6" and profile == 2 and mask is None and "/" not in network:
                raise Faulty(27)
            if names:
                raise Faulty(14)
            return []
        keys = [self.network(profile, network, mask, names)] if network is not None else self.lone_mask(mask)
        if names and network is not None:
            raise Faulty(14)
        if names:
            stands_for = set()
            for name in names:
                stands_for |= {self.number(name)} if name.count(".") == 3 and self.number(name) is not None and name[0].isdigit() else hosts.get(name.lower(), set())
            keys = [("host", address, 32) for address in stands_for]
        elif network is None:
            keys = [("all", 0, 0)]
        return keys

    def lone_mask(self, mask):
        if mask is not None:
            if self.mask_length(mask) is None:
                raise Faulty(10)
            raise Faulty(12)
        return []

    def mask_length(self, mask):
        number = self.number(mask)
        if number is None:
            return None
        bits = format(number, "032b")
        return None if "01" in bits else bits.count("1")

    def network(self, profile, network, mask, names):
        text, slash, prefix = network.partition("/")
        address = self.number(text)
        if address is None:
            raise Faulty(9)
        if slash and not (prefix.isdigit() and prefix == str(int(prefix)) and int(prefix) <= 32):
            raise Faulty(10)
        if mask is not None and self.mask_length(mask) is None:
            raise Faulty(10)
        if mask is not None and slash:
            raise Faulty(11)
        if slash or mask is not None:
            length = int(prefix) if slash else self.mask_length(mask)
        elif profile == 2:
            if self.wrong == "a network without a mask is told after names beside it" and names:
                raise Faulty(14)
            raise Faulty(27)
        else:
            length = self.length_by_class(address)
        return ("net", int(ipaddress.ip_network((address, length), strict=False).network_address), length)

    def length_by_class(self, address):
        part = address // 2 ** 24
        for most, length in ((127, 8), (191, 16), (223, 24)):
            if part <= most:
                return length
        raise Faulty(13)

    def site(self, custodians, filesystems, hosts, exports):
        """The mount points, each with who keeps it and whether it is guarded, and the lines of each. `exports` has the profile
        and the text of each exports file."""
        known = tuple(sorted(self.remembered("custodians", custodians)))
        mounts = self.remembered("filesystems", filesystems, known)
        self.remembered("hosts", hosts)
        files = {}
        for mount in sorted(mounts):
            profile, text = dict(exports).get("exports:" + mount, (2, ""))
            files[mount] = self.remembered("exports", mount, profile, text, tuple(sorted(mounts)), hosts)
        for mount in sorted(mounts):
            self.contradiction(mount, files[mount])
        return mounts, files

    def contradiction(self, mount, lines):
        for place, (number, read_only, keys, _) in enumerate(lines):
            for earlier, other_read_only, other_keys, _ in lines[:place]:
                shared = set(keys) & set(other_keys)
                if shared and read_only != other_read_only:
                    raise Faulty("exports:" + mount, number, 26, earlier, min(address for _, address, _ in shared))


@functools.lru_cache(None)
def reader(wrong):
    return Reader(wrong)


class Desk:
    """The revisions of each file, oldest first, as (author, approver, profile, text), and the proposals, as (base, author, text).
    `skipped` says how many revisions of a file came before the first one kept."""

    def __init__(self, revisions, proposals, skipped, wrong=None):
        self.revisions, self.proposals, self.skipped = revisions, proposals, skipped
        self.wrong = wrong
        self.reader = reader(wrong)
        self.replaced = {}

    def number(self, file):
        return self.skipped.get(file, 0) + len(self.revisions.get(file, []))

    def text(self, file):
        return self.revisions[file][-1][3] if self.revisions.get(file) else ""

    def profile(self, file):
        return 2 if self.wrong == "old revisions are read by profile 2" else self.revisions[file][-1][2]

    def consistent(self, changed=None):
        """The mount points and lines of the site, with one file changed (its name, profile and text)."""
        texts = {file: self.text(file) for file in SEVEN}
        exports = {file: (self.profile(file), self.text(file)) for file in self.revisions if file.startswith("exports:")}
        if changed and changed[0] in SEVEN:
            texts[changed[0]] = changed[2]
        elif changed:
            exports[changed[0]] = changed[1:]
        return self.reader.remembered("site", texts["custodians"], texts["filesystems"], texts["hosts"], tuple(sorted(exports.items())))

    def class_warnings(self):
        """Each (file, line, network) of a network whose class counts; None if the site has a fault, as by a wrong reading."""
        try:
            files = self.consistent()[1]
        except Faulty:
            return None
        return [("exports:" + mount, line[0], line[3]) for mount in sorted(files) for line in files[mount] if line[3] is not None]

    def put(self, file, base, caller, key, text):
        custodians = self.reader.remembered("custodians", self.text("custodians"))
        try:
            mounts = self.consistent()[0]
        except Faulty:
            mounts = {}
        mount = next((m for m in mounts if file == "exports:" + m), None)
        if caller not in custodians:
            return ("refused", "UnknownCaller")
        if hashlib.sha256(key.encode()).hexdigest() != custodians[caller]:
            return ("refused", "BadKey")
        if file not in SEVEN and mount is None:
            return ("refused", "UnknownFile")
        keepers = ["site"] if file in SEVEN else mounts[mount][0]
        if caller not in keepers:
            return ("refused", "NotCustodian")
        if len(text) > 65536:
            return ("refused", "TooLarge")
        guarded = mount is not None and mounts[mount][1]
        return self.answer(file, base, caller, text, keepers, guarded)

    def answer(self, file, base, caller, text, keepers, guarded):
        again = self.answered_before(file, base, caller, text, guarded)
        if again:
            return again
        if self.wrong == "a proposal is kept before the base is checked" and guarded and self.may_approve(file, base, caller, text, keepers) is None:
            self.propose(file, base, caller, text)
        if base != self.number(file):
            if self.wrong == "a refused edit drops the proposal":
                self.proposals.pop(file, None)
            return ("refused", "Stale", self.number(file))
        if base == 2147483647 and not (guarded and self.wrong == "a proposal may pass the last number"):
            return ("refused", "Full")
        if self.wrong == "a proposal is kept before its site is judged" and guarded and self.may_approve(file, base, caller, text, keepers) is None:
            self.propose(file, base, caller, text)
        try:
            self.consistent((file, self.new_profile(file), text))
        except Faulty as fault:
            file, line, rule, other, address = (*fault.args, None, None)[:5]
            return ("refused", "Fault", (file, line, rule, other, address))
        return self.take(file, base, caller, text, keepers, guarded)

    def new_profile(self, file):
        if self.wrong == "new revisions keep the file's profile" and self.revisions.get(file):
            return self.revisions[file][-1][2]
        return 2

    def answered_before(self, file, base, caller, text, guarded):
        if base + 1 == self.number(file) and self.revisions.get(file):
            author, approver, _, stored = self.revisions[file][-1]
            mine = caller == author or caller == approver
            if self.wrong == "any keeper's repeat is answered already":
                mine = True
            if self.wrong == "the approver's repeat is stale":
                mine = caller == author
            if mine and stored == text:
                return ("already", base + 1)
        asked = (guarded or "unguarded files too" in str(self.wrong)) and self.wrong != "the author approves its own proposal"
        if asked and self.proposals.get(file) == (base, caller, text):
            if self.wrong == "a repeat of a proposal is judged again":
                try:
                    self.consistent((file, 2, text))
                except Faulty as fault:
                    return ("refused", "Fault", (*fault.args, None, None)[:5])
            return ("pending", base + 1)
        return None

    def may_approve(self, file, base, caller, text, keepers):
        """Who proposed what this edit approves; None if it approves nothing."""
        found = [self.proposals.get(file)]
        if self.wrong == "a replaced proposal can still be approved":
            found += self.replaced.get(file, [])
        for proposal in filter(None, found):
            same = proposal[0] == base and (proposal[2] == text or self.wrong == "an approver need not send the same text")
            other = proposal[1] != caller
            keeps = proposal[1] in keepers or self.wrong == "an author who no longer keeps the file counts"
            if same and other and keeps:
                return proposal[1]
        return None

    def propose(self, file, base, caller, text):
        if file in self.proposals:
            self.replaced.setdefault(file, []).append(self.proposals[file])
        self.proposals[file] = (base, caller, text)

    def take(self, file, base, caller, text, keepers, guarded):
        author = self.may_approve(file, base, caller, text, keepers) if guarded else caller
        approver = caller if guarded else None
        if guarded and self.wrong == "the author approves its own proposal" and file in self.proposals and self.proposals[file][1] == caller:
            author = caller
        if guarded and author is None and self.wrong != "a proposal takes effect at once":
            self.propose(file, base, caller, text)
            return ("proposed", base + 1)
        if self.wrong == "the approver is the author of the revision":
            author, approver = caller, None
        self.revisions.setdefault(file, []).append((author or caller, approver, self.new_profile(file), text))
        stays = self.wrong == "a proposal stays after the revision" and guarded or self.wrong == "an unguarded edit leaves the proposal" and not guarded
        if not stays:
            self.proposals.pop(file, None)
        self.replaced.pop(file, None)
        return ("stored", base + 1)
