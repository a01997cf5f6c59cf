"""Logs of SARIF: made of findings as `check --json` prints them, and of what is told of expectations."""

import json
import urllib.parse

# All that a finding may be about: what its rule is of, its number there, its name, and what is said of the slice or the line.
RULES = [
    ("exports", 24, "OpenQuote", "begins with a quote that is not closed on its physical line: close it, or write a backslash before a quote in a name"),
    ("exports", 25, "StrayComment", "begins with # but is not the first word: put a comment on a line of its own"),
    ("exports", 1, "NotAbsolute", "is not a directory: a line begins with its directories, and each of them with /"),
    ("exports", 2, "DirectoryLate", "is a directory after an option or a host: write all directories first"),
    ("exports", 3, "BadPath", "is not the path of a directory: it has a component . or .., a NUL byte, or more than 1024 bytes"),
    ("exports", 4, "DirectoryElsewhere", "is not in the file system of the line's first directory, or in none that is listed: write a line for each, list its mount point (MOUNT or filesystems), or quote a path with a blank"),
    ("exports", 5, "UnknownOption", "is not an option of exports(5)"),
    ("exports", 6, "OptionLeftOut", "is an option of exports(5) that exportdesk does not support: to check the rest, take it out of a copy"),
    ("exports", 7, "ValueMissing", "needs a value: write it after = and without blanks"),
    ("exports", 8, "RepeatedOption", "is an option that this line has already: keep one of the two; two networks need two lines"),
    ("exports", 9, "BadAddress", "cannot stand for a client: write an address, a host or a netgroup, or behind -network a network in numbers or of the networks file (--networks or --site)"),
    ("exports", 10, "BadMask", "gives no valid prefix or mask: write without leading zeros a prefix of 0 to 32, or behind -mask a mask whose one bits come first, in numbers or of the networks file (--networks or --site)"),
    ("exports", 11, "MaskTwice", "is given although the network has a prefix: keep one of the two"),
    ("exports", 12, "MaskAlone", "is given without -network, and restricts nothing by itself: add the network"),
    ("exports", 13, "NoClass", "is of no class that tells the size of a network: write out its prefix"),
    ("exports", 27, "NoMask", "has neither a prefix nor a mask: write out the prefix that you mean"),
    ("exports", 14, "NetAndHost", "is a host or netgroup on a line with -network: write one line for the network and one for hosts and netgroups"),
    ("exports", 15, "RootAndAll", "is given although the line has the other of -maproot and -mapall: keep one of the two"),
    ("exports", 16, "BadFlavour", "has a flavour that is not sys, krb5, krb5i or krb5p: write single colons between flavours"),
    ("exports", 17, "UnknownUser", "has a user that is not in the passwd file (--passwd or --site): correct the user, or write UID:GID in numbers from 0"),
    ("exports", 18, "UnknownGroup", "has a group that is not in the group file (--group or --site): correct the group, or write its number"),
    ("exports", 19, "TooManyGroups", "has more than 16 groups: write USER:GROUP:GROUP with the ones that matter"),
    ("exports", 20, "EmptyElement", "has an empty user or group: write it, or take out a doubled or last colon"),
    ("exports", 21, "Range", "has a user or group number with a leading zero, or of more than 4294967295"),
    ("exports", 22, "AlldirsMany", "is a second directory, but -alldirs takes one: take -alldirs out, or name the mount point alone to export all below it"),
    ("exports", 23, "AlldirsNotRoot", "is not a mount point that is listed (MOUNT or filesystems), which -alldirs needs: list it, take -alldirs out, or name the mount point to export all below it"),
    ("exports", 26, "Contradiction", "has other terms than an earlier line"),
    ("table", 1, "Fields", "is on a line of too few or too many fields, or opens a quote that is not closed: write ADDRESS NAME.. in hosts, NAME NUMBER in networks, 7 fields in passwd, 4 in group, MOUNT [!guarded] CUSTODIAN.. in filesystems, NAME DIGEST in custodians"),
    ("table", 2, "Number", "is missing or wrong here: write four numbers of 0 to 255 in hosts, one to four in networks, an id up to 4294967295 in passwd and group, without leading zeros"),
    ("table", 3, "Name", "is not a name: write one of 1 to 255 bytes, and in custodians of 1 to 32 of a to z, 0 to 9, - and _"),
    ("table", 4, "Duplicate", "is listed on an earlier line already: keep one of the two"),
    ("table", 5, "BadPath", "is not a mount point: one begins with /, has no component . or .., no NUL byte, and at most 1024 bytes"),
    ("table", 6, "Custodian", "needs a line among the custodians"),
    ("table", 7, "Digest", "is not a digest of 64 hexadecimal digits"),
    ("table", 8, "TooMany", "is a mount point beyond the 256 that the file may have"),
    ("table", 9, "Guard", "asks for two custodians who approve each other's edits: write two different names behind it"),
    ("netgroup", 4, "StrayComment", "begins with # but is not the first word: put a comment on a line of its own"),
    ("netgroup", 2, "Unclosed", "is a parenthesis that is not closed"),
    ("netgroup", 1, "BadTriple", "does not fit: a line is a netgroup and its members, each a netgroup or (host,user,domain), in words of at most 255 bytes"),
    ("netgroup", 3, "Duplicate", "is defined on an earlier line already"),
    ("warning", 1, "ClassMask", "has neither a prefix nor a mask, so that its class counts, by its first number (/8 up to 127, /16 up to 191, /24 up to 223): write out the prefix that you mean"),
    ("warning", 2, "Ipv6", "has a colon, so it counts as IPv6 and matches nobody: write IPv4, and blanks between hosts"),
    ("warning", 3, "UnknownHost", "is not an address, a known host or (outside a triple) a known netgroup, and matches nobody: correct it, or give the file that has it (--hosts, --netgroup or --site)"),
    ("warning", 4, "UnknownMember", "is not a netgroup of the file, and adds nobody: define it, or write a host as (HOST,,)"),
    ("warning", 5, "Shadowed", "the line decides nothing: heavier lines match each of its clients"),
    ("warning", 6, "Repeated", "the line decides nothing: earlier lines of equal weight list all that it lists"),
    ("warning", 7, "NoClient", "the line decides nothing: its names stand for no address"),
    ("warning", 8, "EveryAddress", "the network has the prefix 0, so the line is for everybody: leave the network out, or correct it"),
    ("warning", 9, "WritableByAll", "everybody may write to it: add -ro, or name the clients"),
    ("warning", 10, "RootForMany", "root of each client acts as root: leave out -maproot or -mapall, or name the hosts"),
    ("warning", 11, "ServerGrantsMore", "mountd(8) also lets a client mount a directory by a lighter line: list the directory here as well if that is meant, else keep the client out of that line's network, or give it a file system of its own"),
    ("warning", 12, "Backslash", "mountd(8) may read this word otherwise: write the name in quotes"),
    ("warning", 13, "V4Line", "by NFSv4 a client that may mount one directory reaches the whole file system: the verdicts on directories hold for NFSv3 alone"),
    ("warning", 14, "RepeatedClient", "mountd(8) takes one line for a client and a file system, and may leave this one out: write the directories on one line"),
]  # fmt: skip
# Those whose sentence is whole without the slice: of a line, or of what mountd(8) does otherwise. Some of them are opinions.
OF_LINES = ["Shadowed", "Repeated", "NoClient", "EveryAddress", "WritableByAll", "RootForMany"]
OF_LINES += ["ServerGrantsMore", "Backslash", "V4Line", "RepeatedClient"]
OPINIONS = ["WritableByAll", "RootForMany", "V4Line"]
# What is said of an expectation that is broken, and of a line that breaks it.
BROKEN = "is broken: the exports allow what it forbids, or do not allow what it expects"
BREAKS = "a line that breaks it"
# What is constant, with the version that `exportdesk --version` prints.
SCHEMA = "https://docs.oasis-open.org/sarif/sarif/v2.1.0/errata01/os/schemas/sarif-schema-2.1.0.json"
VERSION = "1.1.0"


def rule_id(number, name):
    """The id of a rule: no two of one number have one name."""
    (group,) = {group for group, rule, called, _ in RULES if (rule, called) == (number, name)}
    return f"{group}/{number}"


def rule_object(group, number, name, sentence):
    subject = "" if name in OF_LINES else "it "
    return {"id": f"{group}/{number}", "name": name, "help": {"text": f"{subject}{sentence}"}}


def uri_of(path):
    """The reference to a file. Two slashes at the beginning would be those before a host."""
    if path == "-":
        return "stdin"
    return ("/." if path.startswith("//") else "") + urllib.parse.quote(path.encode(errors="surrogateescape"), safe="/")


def doubled(text):
    """A text of a message: a single brace would be that of a placeholder."""
    return text.replace("{", "{{").replace("}", "}}")


def location(path, region):
    return {"physicalLocation": {"artifactLocation": {"uri": uri_of(path)}, "region": region}}


def result(finding):
    """A finding as a result. Columns count characters; the second one is behind the slice."""
    start = finding["column"]
    region = {"startLine": finding["line"], "startColumn": start, "endColumn": start + len(finding["word"])}
    found = {
        "ruleId": rule_id(finding["rule"], finding["name"]),
        "level": "note" if finding["name"] in OPINIONS else {"fault": "error", "warning": "warning"}[finding["kind"]],
        "message": {"text": doubled(finding["text"])},
        "locations": [location(finding["path"], region)],
    }
    if "other" in finding:
        words = "the other line" if finding["name"] in OF_LINES else "the earlier line"
        file = finding.get("other_path", finding["path"])
        found["relatedLocations"] = [{"message": {"text": words}, **location(file, {"startLine": finding["other"]})}]
    return found


def log_of(rules, results):
    """A log with these rules and results, on a line."""
    driver = {"name": "exportdesk", "version": VERSION, "rules": rules}
    run = {"tool": {"driver": driver}, "columnKind": "unicodeCodePoints", "results": results}
    log = {"$schema": SCHEMA, "version": "2.1.0", "runs": [run]}
    return json.dumps(log, ensure_ascii=False, separators=(",", ":"), sort_keys=True)


def log_text(findings):
    """The log of findings."""
    return log_of([rule_object(*rule) for rule in RULES], [result(finding) for finding in findings])


# ---- expectations


def expectations_log(rules, results):
    """The log of expectations, with a rule for each of these names and sentences, and one for what is broken."""
    objects = [rule_object("expectations", number, *rule) for number, rule in enumerate(rules.items(), 1)]
    return log_of([*objects, rule_object("broken", 1, "Broken", BROKEN)], results)


def told(rule, text, path, region, lines=None):
    """What is told at a region of a text of expectations, with the lines of exports texts that break it, if it is about such."""
    found = {"ruleId": rule, "level": "error", "message": {"text": doubled(text)}, "locations": [location(path, region)]}
    if lines is not None:
        found["relatedLocations"] = [{"message": {"text": BREAKS}, **location(file, {"startLine": line})} for file, line in lines]
    return found
