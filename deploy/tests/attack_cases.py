"""The attacks on the gateway, sent by Anna (party 2) unless stated, and the mutants of the gateway's configuration: each mutant lists the
attacks that must succeed with it, so that no check passes vacuously."""
from attack import Attack, Frames, basic

ANNA = "Authorization: " + basic("anna")
ENROL = '{"kind":"naturalPerson","name":"Smuggled"}'
OFFICE = "Register-Party: 1\r\nRegister-Role: stateAdministrator\r\n"
INNER = f"POST /acts/enrol HTTP/1.1\r\nHost: x\r\n{OFFICE}Content-Length: {len(ENROL)}\r\n\r\n{ENROL}"
CITIZEN = "Register-Role: citizen\r\n"


def get(target="/units", more="", method="GET", version="HTTP/1.1", role=CITIZEN, body="", sign=ANNA + "\r\n", host="Host: localhost\r\n"):
    return f"{method} {target} {version}\r\n{host}{sign}{role}{more}\r\n{body}"


def post(more, body=ENROL, role=CITIZEN, target="/acts/enrol"):
    return get(target, more, "POST", role=role, body=body)


def chunks(*parts):
    return "".join(f"{len(it):x}\r\n{it}\r\n" for it in parts) + "0\r\n\r\n"


CHUNKED = "Transfer-Encoding: chunked\r\n"
LENGTH = f"Content-Length: {len(ENROL)}\r\n"

FIELDS = [
    Attack("plain", get(), reply="200"),
    Attack("a spoofed party", get(more="Register-Party: 1\r\n"), reply="200"),
    Attack("a spoofed party before the password", get(sign="Register-Party: 1\r\n" + ANNA + "\r\n"), reply="200"),
    Attack("a spoofed party in other letter cases, twice", get(more="register-party: 1\r\nREGISTER-PARTY: 1\r\n"), reply="200"),
    Attack("a spoofed party with underscores", get(more="Register_Party: 1\r\nRegister_Role: stateAdministrator\r\n"), reply="200"),
    Attack("a space before the colon", get(more="Register-Party : 1\r\n")),
    Attack("a tab before the colon", get(more="Register-Party\t: 1\r\n")),
    Attack("NUL in a name", get(more="Register-Party\0: 1\r\n"), 0, "400"),
    Attack("NUL in a value", get(more="X: a\0b\r\n"), 0, "400"),
    Attack("a folded header line", get(more="X: a\r\n Register-Party: 1\r\n")),
    Attack("bare line feeds", get(more="X: a\nRegister-Party: 1\n")),
    Attack("a bare carriage return", get(more="X: a\rRegister-Party: 1\r\n")),
    Attack("other header fields", get(more="X-Forwarded-For: 10.0.0.1\r\nCookie: a=b\r\n"), reply="200"),
    Attack("fields listed in Connection", get(more="Connection: Register-Party, Register-Role\r\n"), reply="200"),
    Attack("100 fields", get(more="".join(f"X{n}: y\r\n" for n in range(100)))),
    Attack("1,500 fields", get(more="".join(f"X{n}: y\r\n" for n in range(1500)))),
    Attack("a field of 5,000 bytes", get(more="X: " + "a" * 5000 + "\r\n")),
    Attack("a field of 20,000 bytes", get(more="X: " + "a" * 20000 + "\r\n"), 0, "400 .*refused.*"),
]
CALLERS = [
    Attack("two roles, the second not held", get(more="Register-Role: stateAdministrator\r\n")),
    Attack("two roles, the first not held", get(role="Register-Role: stateAdministrator\r\n" + CITIZEN)),
    Attack("a role that is not held", get(role="Register-Role: notary\r\n"), reply='403 .*"denied":2.*'),
    Attack("an unknown role", get(role="Register-Role: King\r\n"), reply='400 .*"fault":134.*'),
    Attack("a role in capital letters", get(role="Register-Role: CITIZEN\r\n"), reply='400 .*"fault":134.*'),
    Attack("a role with a suffix", get(role="Register-Role: citizen, bank\r\n"), reply='400 .*"fault":134.*'),
    Attack("no role", get(role=""), reply='400 .*"fault":131.*'),
    Attack("the office's role from another network",
           get(role="Register-Role: stateAdministrator\r\n", sign=f"Authorization: {basic('office')}\r\n"),
           reply='400 .*"fault":134.*', party="1", source="127.0.0.2"),
    Attack("the office's role from its network",
           get(role="Register-Role: stateAdministrator\r\n", sign=f"Authorization: {basic('office')}\r\n"),
           reply="200 .*", party="1"),
    Attack("no password", get(sign=""), 0, "401 .*unknown.*"),
    Attack("no password, the page", get("/", sign=""), 0, "401 .*unknown.*"),
    Attack("no password, unknown path", get("/no/such", sign=""), 0, "401 .*unknown.*"),
    Attack("a wrong password", get(sign=f"Authorization: {basic('office', 'guess')}\r\n"), 0, "401 .*unknown.*"),
    Attack("a name in capital letters", get(sign=f"Authorization: {basic('ANNA', 'secret-anna')}\r\n"), 0, "401 .*"),
    Attack("a name with a suffix", get(sign=f"Authorization: {basic('anna%00office', 'secret-anna')}\r\n"), 0, "401 .*"),
    Attack("a name with the prefix of certificates", get(sign=f"Authorization: {basic('cert', 'x')}\r\n"), 0, "401 .*"),
    Attack("two passwords", get(more=f"Authorization: {basic('office', 'x')}\r\n"), 0, "400 .*"),
    Attack("a user without a party", get(sign=f"Authorization: {basic('ghost')}\r\n"), reply='400 .*"fault":131.*', party=""),
    Attack("a party that is not in the register", get(sign=f"Authorization: {basic('nobody')}\r\n"), reply='403 .*"denied":1.*',
           party="999"),
    Attack("a certificate", get(sign="", role="Register-Role: bank\r\n"), reply="200 .*", party="4", certificate="clients-ca-machine"),
    Attack("a certificate that is not in the list", get(sign=""), reply='400 .*"fault":131.*', party="", certificate="clients-ca-unlisted"),
    Attack("a certificate of another CA", get(sign=""), 0, "400 .*refused.*", certificate="other-ca-machine"),
    Attack("a certificate and another user's name", get(sign=f"Authorization: {basic('office', 'x')}\r\n", role="Register-Role: bank\r\n"),
           reply="200 .*", party="4", certificate="clients-ca-machine"),
    Attack("a form on another site", post("Content-Type: text/plain\r\nOrigin: https://other.example\r\n" + LENGTH, role=""),
           reply='400 .*"fault":131.*'),
]
FRAMING = [
    Attack("Content-Length twice, equal", post(LENGTH + LENGTH), 0, "400 .*"),
    Attack("Content-Length twice, different", post(LENGTH + "Content-Length: 0\r\n"), 0, "400 .*"),
    Attack("Content-Length with a sign", post("Content-Length: +42\r\n"), 0, "400 .*"),
    Attack("Content-Length below zero", post("Content-Length: -1\r\n"), 0, "400 .*"),
    Attack("Content-Length in hexadecimal", post("Content-Length: 0x2a\r\n"), 0, "400 .*"),
    Attack("Content-Length as a list", post("Content-Length: 42, 42\r\n"), 0, "400 .*"),
    Attack("a length, and chunks", post(f"Content-Length: {5 + len(INNER)}\r\n" + CHUNKED, "0\r\n\r\n" + INNER, target="/units")),
    Attack("chunks, and a length", post(CHUNKED + "Content-Length: 4\r\n", chunks(INNER), target="/units")),
    Attack("chunks with a space before the colon",
           post("Transfer-Encoding : chunked\r\nContent-Length: 0\r\n", chunks(INNER), target="/units")),
    Attack("an unknown encoding", post("Transfer-Encoding: xchunked\r\nContent-Length: 0\r\n", INNER, target="/units"), 0,
           "501 .*refused.*"),
    Attack("two encodings in one field", post("Transfer-Encoding: chunked, identity\r\n", chunks("a"), target="/units"), 0,
           "501 .*refused.*"),
    Attack("two encodings in two fields", post(CHUNKED + "Transfer-Encoding: identity\r\n", chunks("a"), target="/units"), 0, "400 .*"),
    Attack("an act in chunks", post(CHUNKED, chunks(ENROL[:10], ENROL[10:])), reply='403 .*"denied":4.*'),
    Attack("a chunk's length with a sign", post(CHUNKED, "+2a\r\n" + ENROL + "\r\n0\r\n\r\n"), 0, "400 .*"),
    Attack("an extension of a chunk, and a trailer", post(CHUNKED, "2a;x=y\r\n" + ENROL + "\r\n0\r\nRegister-Party: 1\r\n\r\n"),
           reply="403 .*"),
    Attack("GET with a request as its body", get(more=f"Content-Length: {len(INNER)}\r\n", body=INNER)),
    Attack("HEAD with a request as its body", get(method="HEAD", more=f"Content-Length: {len(INNER)}\r\n", body=INNER)),
    Attack("GET in chunks with a request as its body", get(more=CHUNKED, body=chunks(INNER))),
    Attack("two pipelined requests", get() + get("/parcels", "Connection: close\r\n"), 2, "200,200 .*"),
    Attack("two pipelined requests, the second without a password", get() + INNER, 1, "200,401 .*"),
    Attack("a body of 1,048,576 bytes", post("Content-Length: 1048576\r\n", "[" * 1048576), reply='400 .*"fault":130.*'),
    Attack("a body of 1,048,577 bytes", post("Content-Length: 1048577\r\n", "[" * 1048577), 0, "413 .*refused.*"),
    Attack("chunks of 1,048,577 bytes", post(CHUNKED, chunks("[" * 1048577)), 0, "413 .*refused.*"),
    Attack("a truncated body", post("Content-Length: 100\r\n"), 0),
    Attack("an empty body", post("Content-Length: 0\r\n", ""), reply='400 .*"fault":130.*'),
    Attack("Expect: 100-continue", post("Expect: 100-continue\r\n" + LENGTH), reply="(100,)?403 .*"),
]
LINES = [
    Attack("an escaped line break in the target", get("/units/9%20HTTP/1.1%0d%0aRegister-Party:%201%0d%0aX:%20"),
           reply='400 .*"fault":136.*'),
    Attack("a tab in the target", get("/units\t"), 0, "400 .*"),
    Attack("a space in the target", get("/units x"), 0, "400 .*"),
    Attack("bytes above 127 in the target", get("/units/\xff\xfe"), reply="400 .*"),
    Attack("an escaped route", get("/%75nits"), reply='400 .*"fault":136.*'),
    Attack("dot segments", get("/units/../acts/enrol", LENGTH, "POST", body=ENROL), reply='400 .*"fault":136.*'),
    Attack("escaped dot segments", get("/units/%2e%2e/acts/enrol", LENGTH, "POST", body=ENROL), reply='400 .*"fault":136.*'),
    Attack("dots above the page's folder", get("/../../etc/passwd"), 0, "400 .*"),
    Attack("escaped dots above the page's folder", get("/%2e%2e/%2e%2e/etc/passwd"), 0, "400 .*"),
    Attack("escaped dots and slash", get("/..%2f..%2fetc/passwd"), 0, "400 .*"),
    Attack("the gateway's own files", get("/etc/land/users.htpasswd"), 0, "404 .*"),
    Attack("the gateway's own replies", get("/gateway/absent.json"), 0, "404 .*refused.*"),
    Attack("two slashes", get("//units"), reply='400 .*"fault":136.*'),
    Attack("an absolute target with another host", get("http://other.example/units")),
    Attack("user information in the target", get("@127.0.0.1/units"), 0, "400 .*"),
    Attack("a fragment", get("/units#x")),
    Attack("an escaped NUL", get("/units%00")),
    Attack("backslashes", get("/units\\..\\acts")),
    Attack("an unknown query", get("/units?x=1&at=5"), reply="400 .*"),
    Attack("an escaped question mark", get("/units/9%3fat=5"), reply='400 .*"fault":132.*'),
    Attack("quotation marks in the target", get('/units/"},{"who":"x\x1b[31m'), reply="400 .*"),
    Attack("a target of 5,000 bytes", get("/units?" + "a" * 5000), reply="400 .*"),
    Attack("a target of 7,000 bytes", get("/units?" + "a" * 7000), 0, "414 .*refused.*"),
    Attack("an upgrade to h2c",
           get(more="Connection: Upgrade, HTTP2-Settings\r\nUpgrade: h2c\r\nHTTP2-Settings: AAMAAABkAAQAAP__\r\n"), reply="200 .*"),
    Attack("an upgrade to WebSocket", get(more="Connection: Upgrade\r\nUpgrade: websocket\r\nSec-WebSocket-Version: 13\r\n"),
           reply="200 .*"),
    Attack("HTTP/1.0", get(version="HTTP/1.0"), reply="200 .*"),
    Attack("HTTP/0.9", "GET /units\r\n", 0),
    Attack("HTTP/3.7", get(version="HTTP/3.7"), 0, "505.*"),
    Attack("no host", get(host=""), 0, "400 .*"),
    Attack("two hosts", get(host="Host: localhost\r\nHost: other.example\r\n"), 0, "400 .*"),
    Attack("PUT", get("/acts/enrol", LENGTH, "PUT", body=ENROL), reply='400 .*"fault":137.*'),
    Attack("TRACE", get(method="TRACE"), 0, "405 .*"),
    Attack("CONNECT", get("127.0.0.1:8080", method="CONNECT"), 0, "40[05] .*"),
    Attack("a method in lower case", get(method="get"), 0, "400 .*"),
    Attack("a method override", get("/acts/enrol", "X-HTTP-Method-Override: POST\r\n"), reply='400 .*"fault":137.*'),
]


def http2(path="/units", method="GET", more=(), body=None, role="citizen", first=()):
    """An HTTP/2 request by Anna."""
    fields = [(":method", method), (":scheme", "https"), (":path", path), (":authority", "localhost"), *first]
    fields += [("authorization", basic("anna"))] + ([("register-role", role)] if role else []) + list(more)
    return Frames((fields, body))


# A malformed request gets 400, or the stream is reset, or the connection is closed.
REJECTED = "(400|RST|GOAWAY).*"
FRAMES = [
    Attack("h2: plain", http2(), reply="200 .*"),
    Attack("h2: an act", http2("/acts/enrol", "POST", body=ENROL), reply='403 .*"denied":4.*'),
    Attack("h2: a spoofed party", http2(more=[("register-party", "1")]), reply="200 .*"),
    Attack("h2: a line break in a value", http2(more=[("x", "a\r\nregister-party: 1")]), 0, REJECTED),
    Attack("h2: a line feed in a value", http2(more=[("x", "a\nregister-party: 1")]), 0, REJECTED),
    Attack("h2: a line break in a name", http2(more=[("x: a\r\nregister-party", "1")]), 0, REJECTED),
    Attack("h2: a colon in a name", http2(more=[("register-party: 1", "x")]), 0),
    Attack("h2: capital letters in a name", http2(more=[("Register-Party", "1")]), 0),
    Attack("h2: a line break in the path", http2("/units HTTP/1.1\r\nRegister-Party: 1\r\nX: "), 0, REJECTED),
    Attack("h2: a space in the path", http2("/units HTTP/1.1"), 0, REJECTED),
    Attack("h2: an escaped line break in the path", http2("/units/9%20HTTP/1.1%0d%0aRegister-Party:%201%0d%0aX:%20"),
           reply='400 .*"fault":136.*'),
    Attack("h2: a request in the method", http2(method="GET /units HTTP/1.1\r\nRegister-Party: 1\r\n\r\nGET"), 0, REJECTED),
    Attack("h2: a line break in the authority", Frames(([(":method", "GET"), (":scheme", "https"), (":path", "/units"),
           (":authority", "localhost\r\nregister-party: 1"), ("authorization", basic("anna")), ("register-role", "citizen")], None)),
           0, REJECTED),
    Attack("h2: two paths", http2(first=[(":path", "/parcels")]), 0, REJECTED),
    Attack("h2: two roles", http2(more=[("register-role", "stateAdministrator")])),
    Attack("h2: chunks", http2("/units", "POST", [("transfer-encoding", "chunked")], "0\r\n\r\n" + INNER)),
    Attack("h2: a length that is too small", http2("/acts/enrol", "POST", [("content-length", "1")], ENROL), 0),
    Attack("h2: a length that is too large", http2("/acts/enrol", "POST", [("content-length", "100")], ENROL), 0),
    Attack("h2: two lengths", http2("/acts/enrol", "POST", [("content-length", "42"), ("content-length", "0")], ENROL), 0, REJECTED),
    Attack("h2: GET with a request as its body", http2(body=INNER)),
    Attack("h2: connection header fields", http2(more=[("connection", "register-role"), ("upgrade", "h2c"), ("te", "trailers")])),
    Attack("h2: the second without a password", Frames(
        ([(":method", "GET"), (":scheme", "https"), (":path", "/units"), (":authority", "localhost"),
          ("authorization", basic("anna")), ("register-role", "citizen")], None),
        ([(":method", "GET"), (":scheme", "https"), (":path", "/parties"), (":authority", "localhost"),
          ("register-party", "1"), ("register-role", "stateAdministrator")], None)), 1),
    Attack("h2: CONNECT", Frames(([(":method", "CONNECT"), (":authority", "127.0.0.1:8080"), ("authorization", basic("anna"))], None)), 0),
]

ATTACKS = FIELDS + CALLERS + FRAMING + LINES + FRAMES

# Mutants: a name, the replacements (file, old, new), and the attacks or checks that must fail.
MUTANTS = [
    ("forward the client's fields", [("to-register.conf", "proxy_pass_request_headers off", "proxy_pass_request_headers on")],
     ["other header fields"]),
    ("trust the client's party", [("to-register.conf", "proxy_pass_request_headers off", "proxy_pass_request_headers on"),
                                   ("to-register.conf", "proxy_set_header Register-Party $land_party;", "")],
     ["a spoofed party", "a spoofed party before the password", "h2: a spoofed party"]),
    ("a default party", [("register.conf", 'default "";', "default 1;")],
     ["a user without a party", "a certificate that is not in the list"]),
    ("a default role", [("callers.conf", '"" "";', '"" citizen;')], ["no role", "a form on another site"]),
    ("an unanchored pattern for roles", [("callers.conf", "stateAdministrator)\\z", "stateAdministrator)")], ["a role with a suffix"]),
    ("a case-insensitive pattern for roles", [("callers.conf", '"~^(citizen', '"~*^(citizen')], ["a role in capital letters"]),
    ("the office's role from all networks", [("callers.conf", "0:stateAdministrator unknown;", "")],
     ["the office's role from another network"]),
    ("a decoded target", [("register.conf", "proxy_pass http://land;", "proxy_pass http://land$uri;")],
     ["an escaped line break in the target", "h2: an escaped line break in the path"]),
    ("no authentication", [("server.conf", "auth_basic $land_realm", "auth_basic off")], ["a wrong password", "no password"]),
    ("data from `return`", [("register.conf", "root /usr/share/land/page;", "return 200 welcome;")], ["no password, the page"]),
    ("no limit on bodies", [("server.conf", "client_max_body_size 1m", "client_max_body_size 0")],
     ["a body of 1,048,577 bytes", "chunks of 1,048,577 bytes"]),
    ("no limit on header lines", [("server.conf", "large_client_header_buffers 4 6k", "large_client_header_buffers 4 16k")],
     ["a target of 7,000 bytes"]),
    ("unverified certificates", [("server.conf", "ssl_verify_client optional;", "ssl_verify_client optional_no_ca;"),
                                          ("callers.conf", "SUCCESS off;", "~^(SUCCESS|FAILED) off;"),
                                          ("callers.conf", 'SUCCESS "cert', '"~^(SUCCESS|FAILED)" "cert')],
     ["a certificate of another CA"]),
    ("header fields not included in the location", [("to-register.conf", "include /etc/land/answer-headers.conf;", "")],
     ["header fields of replies"]),
    ("an unescaped log", [("callers.conf", "escape=json", "escape=none")], ["the log"]),
    ("resend after any failure", [("queue.cfg", "retry-on conn-failure", "retry-on all-retryable-errors")], ["an act is sent once"]),
    ("nginx's own error pages", [("server.conf", "error_page 401 /gateway/unknown.json;", "")], ["no password"]),
    ("default ciphers", [("server.conf", "ssl_ciphers ECDHE+AESGCM:ECDHE+CHACHA20;", "")], ["TLS"]),
    ("nginx's own error page for plain HTTP", [("server.conf", " 497", "")], ["TLS"]),
]
