"""Random malformed and unusual requests, each with the replies that it may get."""
import json

OFFICE = "Register-Party: 1\r\nRegister-Role: stateAdministrator\r\n"
LISTS = ("parties", "units", "parcels", "rrrs", "sources", "mutations")
ACTS = ("enrol", "group", "regroup", "grant", "revoke", "mandate", "withdraw", "register", "burden", "lift", "transfer", "subdivision",
        "merger", "mortgage", "discharge", "approve", "refuse")
# Any reply, for requests whose reply is not worked out here.
ANY = None


class Request:
    """The bytes of a request; the replies that it may get, as `400 fault 130`, or ANY; whether the connection is closed after the reply."""

    def __init__(self, data, replies, ends=False, is_head=False, is_cut=False):
        self.data, self.ends, self.is_head, self.is_cut = data, ends, is_head, is_cut
        self.replies = (replies,) if isinstance(replies, str) else replies


def fault(*numbers):
    return tuple(f"400 fault {it}" for it in numbers)


def framing(data, *numbers):
    """Returns a request with a framing error, after which the connection is closed."""
    return Request(data, fault(*numbers), ends=True)


def head(method, target, fields=OFFICE, version="HTTP/1.1", end="\r\n"):
    return f"{method} {target} {version}\r\n{fields}{end}".encode()


def post(act, body, fields=OFFICE):
    body = body if isinstance(body, bytes) else body.encode()
    return head("POST", f"/acts/{act}", f"{fields}Content-Length: {len(body)}\r\n") + body


def junk(dice, most):
    return dice.randbytes(dice.randrange(1, most))


# ---- valid requests

def reads(dice):
    party, query = dice.choice((1, "01", "0000000000001")), dice.choice(("", "?", "?at=4102"))
    return Request(head("GET", f"/parties/{party}{query}"), ("200", "403 denied 27"))


def lists(dice):
    return Request(head("GET", f"/{dice.choice(LISTS)}", "register-PARTY:1\r\nREGISTER-role:\t citizen \r\n"), ("200", "403 denied 2"))


def denials(dice):
    which = dice.choice(("parties/77777777", "units/1", "rrrs/9", "units/3/sheet", "parties/1000000000"))
    return Request(head("GET", f"/{which}"), "403 denied 27")


def unregistered(dice):
    fields = f"Register-Party: {dice.randrange(10**8, 10**9)}\r\nRegister-Role: notary\r\n"
    return Request(head("GET", f"/{dice.choice(LISTS)}", fields), "403 denied 1")


def refusals(dice):
    act, body, number = dice.choice((
        ("grant", {"party": 999999999, "role": "bank"}, 205), ("revoke", {"party": 1, "role": "stateAdministrator"}, 218),
        ("revoke", {"party": 1, "role": "bank"}, 216), ("lift", {"rrr": 5}, 204), ("approve", {"mutation": 7}, 201),
        ("refuse", {"mutation": 1000000000}, 201), ("grant", {"party": 1, "role": "stateAdministrator"}, 215),
        ("group", {"name": "G", "members": [{"party": 1, "share": "1/2"}, {"party": 1, "share": "1/2"}]}, 219),
        ("group", {"name": "G", "members": [{"party": 1, "share": "1/3"}, {"party": 1, "share": "1/2"}]}, 213)))
    return Request(post(act, json.dumps(body)), f"409 refused {number}")


def enrolments(dice):
    return Request(post("enrol", json.dumps({"kind": "naturalPerson", "name": "é" * dice.randrange(1, 200)})), "200")


def unusual(dice):
    """Unusual but valid: lines that end in LF only, empty lines before the request, a body of a read, header fields that are ignored."""
    text = head("GET", "/parties/1", OFFICE + dice.choice(("", "Expect: 100-continue\r\n", "Host:\r\n", "X: \xe9\r\n")))
    if dice.random() < 0.3:
        text = text.replace(b"\r\n", b"\n")
    if dice.random() < 0.3:
        body = junk(dice, 300)
        text = head("GET", "/parties/1", f"{OFFICE}content-length:   {len(body):018}\t\r\n") + body
    return Request(b"\r\n" * dice.randrange(4) + text, "200")


def closing(dice):
    version, field = dice.choice((("HTTP/1.0", ""), ("HTTP/1.1", "connection: a, CLOSE ,b\r\n"), ("HTTP/1.1", "Connection: close\r\n")))
    return Request(head("GET", "/parties/1", OFFICE + field, version), "200", ends=True)


# ---- heads

def noise(dice):
    return Request(junk(dice, 400), fault(140, 141, 144), ends=True, is_cut=True)


def cut_heads(dice):
    whole = post("enrol", '{"kind":"naturalPerson","name":"P"}')
    return Request(whole[:dice.randrange(1, len(whole))], fault(144), ends=True, is_cut=True)


def long_heads(dice):
    field = "X: " + "y" * dice.randrange(8192, 40000)
    heads = head("GET", "/" + "a" * 9000), head("GET", "/parties/1", OFFICE + field + "\r\n"), b"\r\n" * 5000
    return framing(dice.choice(heads), 141)


def many_fields(dice):
    more = dice.choice((62, 63, 64, 500))
    text = head("GET", "/parties/1", OFFICE + "A:b\r\n" * more)
    return Request(text, "200") if more == 62 else framing(text, 140)


def lengths(dice):
    """Invalid, duplicate, overlong and too large lengths."""
    value, number = dice.choice((
        ("-1", 140), ("+5", 140), ("0x10", 140), ("1 2", 140), ("", 140), ("9" * 19, 140), ("1e3", 140), ("5,5", 140), ("0" * 19, 140),
        ("9" * 18, 142), ("1048577", 142), ("4294967296", 142), ("5\r\nContent-Length: 5", 140)))
    return framing(head("POST", "/acts/enrol", f"{OFFICE}Content-Length: {value}\r\n") + b"{}"[:dice.randrange(3)], number)


def chunked(dice):
    value = dice.choice(("chunked", "identity", "gzip, chunked", "", "\tchunked"))
    extra = dice.choice(("", "Content-Length: 4\r\n"))
    return framing(head("POST", "/acts/enrol", f"{OFFICE}Transfer-Encoding: {value}\r\n{extra}") + b"5\r\n{\"a\":\r\n0\r\n\r\n", 143)


def broken_heads(dice):
    good = head("GET", "/parties/1")
    return framing(dice.choice((
        good.replace(b"Register-Party:", b"Register-Party :"), good.replace(b": 1\r\n", b": 1\r\n folded\r\n"),
        good.replace(b"HTTP/1.1", b"HTTP/2.0"), good.replace(b"HTTP/1.1", b"http/1.1"), good.replace(b" HTTP/1.1", b""),
        good.replace(b"GET ", b"GET\t"), good.replace(b"GET /parties/1", b"G(T /parties/1"), good.replace(b"/parties/1", b"/par\x7fties"),
        good.replace(b"/parties/1", b"/par\xff\xfeties"), good.replace(b"/parties/1", b"/\xc3"), good.replace(b": 1", b": \x00"),
        good.replace(b": 1", b": \x0b1"), good.replace(b"Register-Role", b"Register Role"), good.replace(b": 1", b"= 1"))), 140)


def flipped(dice):
    """A request with one byte changed, deleted or doubled. Any reply is allowed, but nothing can be lifted."""
    whole = bytearray(post("lift", '{"rrr":5}'))
    at, how = dice.randrange(len(whole)), dice.randrange(3)
    if how == 0:
        whole[at] = dice.randrange(256)
    elif how == 1:
        del whole[at]
    else:
        whole.insert(at, whole[at])
    return Request(bytes(whole), ANY, ends=True, is_cut=True)


# ---- targets, methods and callers

def methods(dice):
    method = dice.choice(("PUT", "DELETE", "PATCH", "OPTIONS", "TRACE", "HEAD", "BREW", "get", "POST", "M" * 100))
    return Request(head(method, f"/{dice.choice(LISTS)}", OFFICE), fault(137), is_head=method == "HEAD")


def read_acts(dice):
    return Request(head("GET", f"/acts/{dice.choice(ACTS)}", OFFICE), fault(137))


def unknown_paths(dice):
    target = dice.choice(("/", "//parties", "/parties/", "/parties/1/2", "*", "http://x/parties", "/acts/Enrol", "/acts/", "/PARTIES",
                          "/units/1/sheet/", "/parties%2F1", "/../parties", "/é", "/" + "a/" * 2000, "/units//sheet", "x"))
    return Request(b"GET " + target.encode() + head("", "", OFFICE)[1:], fault(136))


def callers(dice):
    role = "Register-Role: citizen\r\n"
    fields, number = dice.choice((
        ("", 131), (role, 131), ("Register-Party: 1\r\n", 131), (OFFICE + role, 131), ("Register-Party: 1\r\n" + OFFICE, 131),
        (f"Register-Party: 0\r\n{role}", 132), (f"Register-Party: -1\r\n{role}", 132), (f"Register-Party: 1e3\r\n{role}", 132),
        (f"Register-Party: {'9' * dice.randrange(10, 3000)}\r\n{role}", 132), (f"Register-Party: \r\n{role}", 132),
        (f"Register-Party: 1000000001\r\n{role}", 132), ("Register-Party: 1\r\nRegister-Role: Citizen\r\n", 134),
        ("Register-Party: 1\r\nRegister-Role: \r\n", 134), (f"Register-Party: 1\r\nRegister-Role: {'x' * 3000}\r\n", 134)))
    return Request(head("GET", "/parties", fields), fault(number))


def numbers(dice):
    part = dice.choice(("0", "1000000001", "9" * 13, "9" * 14, "9" * 4000, "-1", "1.0", "%31", "+1", "1e3", "0x1", "é", "१"))
    return Request(b"GET /" + f"{dice.choice(LISTS)}/{part}".encode() + b" HTTP/1.1\r\n" + OFFICE.encode() + b"\r\n", fault(132))


def queries(dice):
    query, number = dice.choice((
        ("a", 131), ("AT=5", 131), ("?", 131), ("at", 131), ("at=", 132), ("at=-1", 132), ("at=5&x=1", 132), ("at=1e3", 132),
        ("at=4102444800000", 132), ("at=" + "9" * 3000, 132), ("at=4102444799999", 135)))
    return Request(head("GET", f"/parties?{query}"), fault(number))


# ---- bodies

def no_json(dice):
    body = dice.choice((
        b"", b"\xef\xbb\xbf{}", b"{", b"nul", b"NaN", b"[1,]", b'{"a":1,}', b"{'a':1}", b'{"a":01}', b'{"a":1}x', b'{"a":1e999}',
        b'{"a":+1}', b'{"a":"\xff"}', b'{"a":"\xed\xa0\x80"}', b'{"a":"\xc0\x80"}', b'{"a":"\\ud800"}', b'{"a":"\\x"}', b'{"a":"\n"}',
        b'{"a":1.}', b"\x00", b'{"a":' + b"9" * 400 + b"}", b'{"a":"' + junk(dice, 60) + b"\x01"))
    return Request(post(dice.choice(ACTS), body), fault(130))


def deep(dice):
    """JSON within JSON: 127 levels are read."""
    levels = dice.choice((2, 126, 127, 128, 129, 1000, 100000))
    begins, ends = dice.choice((("[", "]"), ('{"a":', "}")))
    inner = "1" if begins != "[" else ""
    body = begins * levels + inner + ends * levels
    if dice.random() < 0.3:
        return Request(post("enrol", begins * levels), fault(130))
    return Request(post("enrol", body), fault(131 if levels <= 127 else 130))


def fields(dice):
    act, body, number = dice.choice((
        ("enrol", "[]", 131), ("enrol", "1", 131), ("enrol", "{}", 131), ("enrol", '{"kind":"naturalPerson"}', 131),
        ("enrol", '{"kind":"naturalPerson","name":"A","x":1}', 131), ("enrol", '{"kind":"naturalPerson","name":null}', 131),
        ("enrol", '{"kind":"group","name":"A"}', 133), ("enrol", '{"kind":"naturalPerson","name":""}', 133),
        ("enrol", json.dumps({"kind": "naturalPerson", "name": "\U0001f600" * 201}), 133),
        ("enrol", json.dumps({"kind": "naturalPerson", "name": "a\x00"}), 133),
        ("enrol", json.dumps({"kind": "naturalPerson", "name": "a\x7f"}), 133),
        ("grant", '{"party":1e0,"role":"bank"}', 132), ("grant", '{"party":-0,"role":"bank"}', 132),
        ("grant", '{"party":1,"role":"Bank"}', 134),
        ("grant", '{"party":"1","role":"bank"}', 131), ("grant", f'{{"party":{"9" * dice.randrange(10, 300)},"role":"bank"}}', 132),
        ("grant", '{"party":18446744073709551616,"role":"bank"}', 132), ("approve", '{"mutation":1000000001}', 132),
        ("approve", '{"mutation":[]}', 131), ("group", '{"name":"G","members":[]}', 131),
        ("group", json.dumps({"name": "G", "members": [0] * 65}), 131),
        ("group", '{"name":"G","members":[{"party":1,"share":"0/1"},1]}', 101),
        ("group", '{"name":"G","members":[{"party":1,"share":"1/0"},1]}', (101, 102)),
        ("group", '{"name":"G","members":[{"party":1,"share":"3/2"},1]}', (102, 103)),
        ("group", '{"name":"G","members":[{"party":1,"share":"1/1000000007"},1]}', (102, 103)),
        ("group", json.dumps({"name": "G", "members": [{"party": 1, "share": "1" * 19 + "/1"}, 1]}), 132)))
    return Request(post(act, body), fault(*((number,) if isinstance(number, int) else number)))


def outlines(dice):
    square, far = "0 0, 9 0, 9 9, 0 9, 0 0", "9999999999"
    outline, number = dice.choice((
        ("", 110), ("POLYGON", 110), ("POLYGON EMPTY", 111), (f"POLYGON (({square}), ({square}))", 112), (f"POLYGON Z (({square}))", 113),
        ("POLYGON ((0 0 0, 9 0 0, 9 9 0, 0 0 0))", 113), ("POLYGON ((0 x, 9 0, 9 9, 0 x))", 114),
        ("POLYGON ((0 1e3, 9 0, 9 9, 0 1e3))", 114),
        (f"POLYGON ((0 {'9' * 3000}, 9 0, 9 9, 0 0))", 115), ("POLYGON ((0 0, 9 9, 0 0))", 116),
        (f"POLYGON (({'0 0, ' * 201}0 0))", 117), ("POLYGON ((0 0, 9 0, 9 9, 1 1))", 118), ("POLYGON ((0 0, 9 9, 9 0, 0 9, 0 0))", 119),
        (f"POLYGON ((-{far} -{far}, {far} -{far}, {far} {far}, -{far} {far}, -{far} -{far}))", 120),
        (f"POLYGON (({'(' * dice.randrange(1, 5000)}", 110)))
    body = {"name": "U", "checked": True, "document": "D", "parcels": [{"label": "1", "outline": outline}], "rights": []}
    return Request(post("register", json.dumps(body)), fault(number))


def mutated(dice):
    """A body with some bytes changed. Any reply is allowed."""
    body = bytearray(b'{"reference":"T1","document":"Deed","unit":9,"right":11,"receiver":7,"share":"1/4"}')
    for _ in range(dice.randrange(1, 6)):
        body[dice.randrange(len(body))] = dice.choice(b'0123456789{}[]":,/\\eE+-. \x00\xff') if dice.random() < 0.7 else dice.randrange(256)
    return Request(post("transfer", bytes(body), OFFICE.replace("stateAdministrator", "notary")), ANY)


def wrong_lengths(dice):
    """A length that is less than that of the body, so that its rest is read as the next request, or more, so that the body is truncated."""
    body, by = b'{"kind":"naturalPerson","name":"Anna"}', dice.randrange(1, 30)
    start = f"{OFFICE}Content-Length: "
    if dice.random() < 0.5:
        return Request(head("POST", "/acts/enrol", f"{start}{len(body) + by}\r\n") + body, fault(144), ends=True, is_cut=True)
    return Request(head("POST", "/acts/enrol", f"{start}{len(body) - by}\r\n") + body, fault(130), ends=True, is_cut=True)


def huge_of(number):
    """Bodies of up to a megabyte, by number."""
    size = (100000, 500000, 1048576)[number % 3]
    body, number = ((b" " * size, 130), (b"[" * size, 130), (b'{"kind":"' + b"x" * (size - 11) + b'"}', 133),
                    (b"[" + b"0," * (size // 2 - 2) + b"0]", 131), (b'"' + b"\\n" * (size // 2 - 1) + b'"', 131))[number % 5]
    return Request(post("enrol", body), fault(number))


def huge(dice):
    return huge_of(dice.randrange(15))


# Each kind with its weight. Enrolments are rare, so that the register hardly grows; so are large bodies.
DRAWN = {reads: 120, lists: 60, denials: 60, unregistered: 40, refusals: 80, enrolments: 0.25, unusual: 60, closing: 10, noise: 6, cut_heads: 8,
         long_heads: 2, many_fields: 8, lengths: 8, chunked: 6, broken_heads: 10, flipped: 8, methods: 60, read_acts: 20, unknown_paths: 60,
         callers: 60, numbers: 60, queries: 60, no_json: 80, deep: 4, fields: 120, outlines: 60, mutated: 60, wrong_lengths: 5, huge: 0.5}
KINDS, WEIGHTS = list(DRAWN), list(DRAWN.values())


def draw(dice, count):
    """Draws the requests of a connection, up to one that closes it."""
    drawn = []
    for kind in dice.choices(KINDS, WEIGHTS, k=count):
        drawn.append(kind(dice))
        if drawn[-1].ends:
            break
    return drawn
