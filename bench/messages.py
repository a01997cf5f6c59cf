"""Requests to the sample site and their replies, worked by hand, for the scripts that try `exportdesk serve`."""

REASONS = {
    200: "OK",
    400: "Bad Request",
    403: "Forbidden",
    404: "Not Found",
    405: "Method Not Allowed",
    409: "Conflict",
    413: "Payload Too Large",
    422: "Unprocessable Entity",
    501: "Not Implemented",
    503: "Service Unavailable",
}
LOCALHOST = "127.0.0.1 localhost\n"
CONTRADICTING = "131.104.48.17 grumpy.example grumpy\n131.104.48.16 sneezy\n131.104.48.21 doc\n"
TAKING = "/usr site\n/u ulf\n/a ulf\n/u2 ulf\n/cdrom site\n/private site\n/secret site\n/usr/local site\n"
TERMS = '"flavours":["{}"],"lines":[1],"map":"root","mapped":"{}","mount":"{}","ro":false'


def system(mount, mapped, flavour="sys", dirs=None):
    """A file system in a list, of which one line for some directories counts."""
    names = ",".join(f'"{name}"' for name in dirs or [mount])
    return f'{{"alldirs":false,"dirs":[{names}],{TERMS.format(flavour, mapped, mount)}}}'


SYSTEMS = [
    system("/private", "65534:65533", "krb5i"),
    system("/secret", "65534:65533", "krb5p"),
    system("/u", "3:"),
    system("/u2", "0:0:5"),
    system("/usr", "0:10", dirs=["/usr", "/usr/local"]),
]
DENIED = '{{"first":"{}","fs":"/usr","last":"{}","line":{},"reason":3,"verdict":"denied"}}'
RANGES = [
    DENIED.format("0.0.0.0", "131.104.48.15", 3),
    DENIED.format("131.104.48.16", "131.104.48.17", 2),
    DENIED.format("131.104.48.18", "131.104.48.19", 3),
    '{"first":"131.104.48.20","flavours":["sys"],"fs":"/usr","last":"131.104.48.21","line":1,"map":"root","mapped":"0:10",'
    '"ro":false,"verdict":"granted"}',
    DENIED.format("131.104.48.22", "255.255.255.255", 3),
]
ONE_REVISION = '{"name":"hosts","revisions":[{"author":"site","rev":1}]}'
TWO_REVISIONS = '{"name":"hosts","revisions":[{"author":"site","rev":1},{"author":"site","rev":2}]}'


class Message:
    """A request of one connection that goes on, and its reply: a status and a body."""

    def __init__(self, target, status, body, method="GET", caller=None, key=None, text=None):
        self.method, self.target, self.status, self.body = method, target, status, body
        self.headers = {} if caller is None else {"X-Custodian": caller, "X-Key": key}
        self.text = None if text is None else text.encode()

    def __str__(self):
        return f"{self.method} {self.target}"

    def request(self, *lines):
        """The bytes of the request, with these header lines besides its own."""
        own = [f"{name}: {value}" for name, value in self.headers.items()]
        if self.text is not None:
            own.append(f"Content-Length: {len(self.text)}")
        head = "\r\n".join([f"{self.method} {self.target} HTTP/1.1", *own, *lines, "", ""])
        return head.encode() + (self.text or b"")

    def reply(self):
        """The bytes of the reply."""
        return reply_of(self.status, self.body)


def reply_of(status, body):
    """The bytes of a reply behind which the connection goes on."""
    lines = [
        f"HTTP/1.1 {status} {REASONS[status]}",
        "content-type: application/json",
        f"content-length: {len(body)}",
        "",
        body,
    ]
    return "\r\n".join(lines).encode()


def refusal(number, name, more=""):
    """The body of a refusal."""
    return f'{{"error":"{name}","number":{number}{more}}}'


def put(name, base, caller, key, text, status, body):
    """An edit of a file."""
    return Message(f"/v1/file?name={name}&base={base}", status, body, "PUT", caller, key, text)


OF_MEMORY = reply_of(503, refusal(203, "Memory"))
HISTORY = Message("/v1/revisions?name=hosts", 200, ONE_REVISION)
LATER_HISTORY = Message("/v1/revisions?name=hosts", 200, TWO_REVISIONS)

# Asked of the site as it was made.
QUESTIONS = [
    Message(
        "/v1/mount?host=131.104.48.16&dir=/usr",
        200,
        '{"flavours":["sys"],"fs":"/usr","line":2,"map":"root","mapped":"1:1:5","ro":false,"verdict":"granted"}',
    ),
    Message(
        "/v1/mount?host=131.104.48.20&dir=/usr/local&uid=0&gid=0",
        200,
        '{"acts":"0:10","flavours":["sys"],"fs":"/usr","line":1,"map":"root","mapped":"0:10","ro":false,"verdict":"granted"}',
    ),
    Message(
        "/v1/mount?host=192.0.2.1&dir=/usr/local",
        200,
        '{"fs":"/usr","line":3,"reason":3,"verdict":"denied"}',
    ),
    Message(
        "/v1/exports?host=131.104.48.20",
        200,
        f'{{"host":"131.104.48.20","systems":[{",".join(SYSTEMS)}]}}',
    ),
    Message("/v1/who?dir=/usr/local", 200, f'{{"dir":"/usr/local","ranges":[{",".join(RANGES)}]}}'),
    Message(
        "/v1/file?name=exports:/u2&rev=1",
        200,
        '{"author":"site","body":"/u2 -maproot=root friends\\n/u2 -alldirs -network cis-net -mask cis-mask\\n",'
        '"name":"exports:/u2","rev":1}',
    ),
    HISTORY,
    Message("/v1/mount?host=192.0.2.1", 400, refusal(108, "BadQuery")),
    Message("/v1/file?name=hosts&rev=2", 404, refusal(111, "NoRevision")),
    Message("/v1/proposal?name=exports:/u", 404, refusal(111, "NoRevision")),
    Message("/v2", 404, refusal(106, "NoRoute")),
    Message("/v1/file", 405, refusal(107, "BadMethod"), "DELETE"),
]

# Edits that store nothing.
REFUSED = [
    put("exports:/usr", 1, "ulf", "hello", "/usr\n", 403, refusal(4, "NotCustodian")),
    put("exports:/u", 1, "site", "abc", "/u\n", 403, refusal(4, "NotCustodian")),
    put("hosts", 1, "eve", "abc", LOCALHOST, 403, refusal(1, "UnknownCaller")),
    put("hosts", 1, "site", "abd", LOCALHOST, 403, refusal(2, "BadKey")),
    put("exports:/usr/", 1, "site", "abc", "/usr\n", 404, refusal(3, "UnknownFile")),
    put(
        "hosts",
        1,
        "site",
        "abc",
        CONTRADICTING,
        422,
        '{"address":"131.104.48.16","error":"Fault","file":"exports:/usr","line":2,"number":9,"other":1,"rule":26}',
    ),
    put(
        "filesystems",
        1,
        "site",
        "abc",
        TAKING,
        422,
        '{"error":"Fault","file":"exports:/usr","line":1,"number":9,"rule":4}',
    ),
]

# An edit, its repeat, and a stale one.
STORED = put("hosts", 1, "site", "abc", LOCALHOST, 200, '{"already":false,"rev":2}')
AGAIN = [
    put("hosts", 1, "site", "abc", LOCALHOST, 200, '{"already":true,"rev":2}'),
    put("hosts", 1, "site", "abc", "127.0.0.1 other\n", 409, '{"current":2,"error":"Stale","number":7}'),
]

# What is told of the edit that is stored.
TOLD = [
    Message(
        "/v1/file?name=hosts",
        200,
        '{"author":"site","body":"127.0.0.1 localhost\\n","name":"hosts","rev":2}',
    ),
    LATER_HISTORY,
]

# All of them, in order.
WHOLE = [*QUESTIONS, *REFUSED, STORED, *AGAIN, *TOLD]


class Talk:
    """What is asked of a server of one database, in order, and what shows how far it is: `first` at the beginning, and behind
    each message that stores something the one that `stores` has for it. At the end the database has these rows more."""

    def __init__(self, title, database, first, messages, stores, stored):
        self.title, self.database, self.first, self.messages = title, database, first, messages
        self.stores, self.stored = stores, stored


# A proposal for the guarded file of /u, and its approval.
U = "/u -ro\n"
U_TERMS = '"flavours":["sys"],"fs":"/u","last":"{}","line":1,"map":"root","mapped":"{}","ro":{},"verdict":"granted"'
U_DENIED = '{{"first":"{}","fs":"/u","last":"{}","reason":2,"verdict":"denied"}}'
U_BEFORE = [
    U_DENIED.format("0.0.0.0", "131.104.47.255"),
    f'{{"first":"131.104.48.0",{U_TERMS.format("131.104.48.255", "3:", "false")}}}',
    U_DENIED.format("131.104.49.0", "255.255.255.255"),
]
NO_PROPOSAL = Message("/v1/proposal?name=exports:/u", 404, refusal(111, "NoRevision"))
PROPOSAL = Message("/v1/proposal?name=exports:/u", 200, '{"author":"ulf","base":1,"body":"/u -ro\\n","name":"exports:/u"}')
PROPOSED = put("exports:/u", 1, "ulf", "hello", U, 200, '{"already":false,"proposed":true,"rev":2}')
APPROVED = put("exports:/u", 1, "site", "abc", U, 200, '{"already":false,"rev":2}')
IN_FORCE = Message(
    "/v1/file?name=exports:/u",
    200,
    '{"approver":"site","author":"ulf","body":"/u -ro\\n","name":"exports:/u","rev":2}',
)
GUARDED = [
    NO_PROPOSAL,
    PROPOSED,
    put("exports:/u", 1, "ulf", "hello", U, 200, '{"already":true,"proposed":true,"rev":2}'),
    PROPOSAL,
    Message("/v1/who?dir=/u", 200, f'{{"dir":"/u","ranges":[{",".join(U_BEFORE)}]}}'),
    put("exports:/u", 1, "eve", "abc", U, 403, refusal(1, "UnknownCaller")),
    put(
        "exports:/u",
        1,
        "site",
        "abc",
        "/u -rw\n",
        422,
        '{"error":"Fault","file":"exports:/u","line":1,"number":9,"rule":5}',
    ),
    APPROVED,
    put("exports:/u", 1, "site", "abc", U, 200, '{"already":true,"rev":2}'),
    IN_FORCE,
    NO_PROPOSAL,
    Message(
        "/v1/who?dir=/u",
        200,
        f'{{"dir":"/u","ranges":[{{"first":"0.0.0.0",{U_TERMS.format("255.255.255.255", "65534:65533", "true")}}}]}}',
    ),
]
