"""The read gateway: HTTP GET requests, each answered by one call of gate.answer in PostgreSQL.

It trusts the fields Register-Party and Register-Role, as the register does: nginx in front of it authenticates the caller and passes on
no field of the client. docs/mirror-openapi.yaml describes the routes."""
import asyncio
import json
import re
import sys
from collections import OrderedDict
from dataclasses import dataclass

import asyncpg
import psycopg2.extensions
from starlette.applications import Starlette
from starlette.requests import Request
from starlette.responses import Response

KINDS = {"parties": "party", "units": "unit", "parcels": "parcel", "rrrs": "rrr", "sources": "source", "mutations": "mutation"}
ROLES = {"citizen", "conveyancer", "notary", "bank", "certifiedSurveyor", "stateAdministrator"}
NUMBER, MOMENT, LIMIT = 10**9, 4102444799999, 1000
WAIT, POLL = 2.0, 0.025         # seconds that `after` waits, and between looks at the stamp
PARTIES = 100_000               # callers whose last stamp is remembered
ANSWER = "SELECT status, type, body, stamp FROM gate.answer($1, $2, $3, $4, $5)"


class Fault(Exception):
    """A request that is malformed: the number of the register's fault."""

    def __init__(self, number):
        super().__init__(number)
        self.number = number


class Unavailable(Exception):
    """No mirror can answer now."""

    def __init__(self, why, stamp=None):
        super().__init__(why)
        self.why, self.stamp = why, stamp


def log(message):
    print(f"land-mirror: {message}", file=sys.stderr, flush=True)


# ---- parameters

def number(text, least=1, most=NUMBER):
    if not re.fullmatch(r"[0-9]{1,13}", text) or not least <= int(text) <= most:
        raise Fault(132)
    return int(text)


def words(text, least=1, most=200):
    if not least <= len(text) <= most or "\0" in text:
        raise Fault(133)
    return text


def choice(*allowed):
    def read(text):
        if text not in allowed:
            raise Fault(133)
        return text
    return read


def metres(text):
    if not re.fullmatch(r"-?[0-9]{1,9}(\.[0-9]{1,3})?", text):
        raise Fault(132)
    return float(text)


def limit(most):
    return lambda text: number(text, 1, most)


PARTY_KINDS = choice("naturalPerson", "nonNaturalPerson", "group")
SORTS = choice("number", "-number", "name", "-name")
PAGE = {"limit": limit(LIMIT), "skip": lambda text: number(text, 0, 10**7)}
# The filters of each kind's page.
FILTERS = {
    "party": {"kind": PARTY_KINDS, "sort": SORTS},
    "unit": {"checked": lambda text: number(text, 0, 1), "sort": SORTS},
    "parcel": {"unit": number, "sort": SORTS},
    "rrr": {"unit": number, "party": number, "sort": choice("number", "-number"),
            "class": choice("ownership", "lease", "usufruct", "restriction", "responsibility", "mortgage")},
    "source": {"kind": choice("administrative", "spatial"), "sort": SORTS},
    "mutation": {"unit": number, "lodger": number, "state": choice("lodged", "approved", "refused"), "sort": choice("number", "-number"),
                 "act": choice("transfer", "subdivision", "merger", "mortgage", "discharge")},
}


# The filters of the mandates.
MANDATES = {"side": choice("given", "held"), "current": lambda text: number(text, 0, 1)} | PAGE


@dataclass(frozen=True)
class Route:
    """A path, whose parts in {braces} are parameters; the query that answers it; and the readers of its parameters."""
    path: str
    what: str
    fixed: dict
    in_path: dict
    in_query: dict
    required: tuple = ()

    def match(self, path):
        """Returns the texts of the parameters in a path, or None."""
        own, given = self.path.split("/"), path.split("/")
        if len(own) != len(given) or not all(word and it.startswith("{") or it == word for it, word in zip(own, given)):
            return None
        return {it[1:-1]: word for it, word in zip(own, given) if it.startswith("{")}


def box(text):
    """Reads WEST,SOUTH,EAST,NORTH in metres."""
    values = [metres(it) for it in text.split(",")]
    if len(values) != 4 or values[0] > values[2] or values[1] > values[3]:
        raise Fault(132)
    return values


def point(text):
    """Reads X,Y in metres."""
    values = [metres(it) for it in text.split(",")]
    if len(values) != 2:
        raise Fault(132)
    return values


def place(text):
    return number(text, 0, 2**24 - 1)


LIMITED = {"limit": limit(LIMIT)}
ROUTES = [
    *(Route(f"/{path}", "list", {"of": kind}, {}, {}) for path, kind in KINDS.items()),
    *(Route(f"/{path}/{{number}}", "object", {"of": kind}, {"number": number}, {}) for path, kind in KINDS.items()),
    *(Route(f"/objects/{path}", "page", {"of": kind}, {}, FILTERS[kind] | PAGE) for path, kind in KINDS.items()),
    *(Route(f"/search/{path}", "find", {"of": KINDS[path]}, {}, {"q": lambda text: words(text, 2), **LIMITED}, ("q",))
      for path in ("parties", "units", "parcels")),
    Route("/map/parcels", "box", {}, {}, {"box": box, "limit": limit(50000)}, ("box",)),
    Route("/map/parcels/at", "point", {}, {}, {"point": point, "limit": limit(50000)}, ("point",)),
    Route("/map/tiles/{z}/{x}/{y}", "tile", {}, {"z": lambda text: number(text, 0, 24), "x": place, "y": place}, {}),
    Route("/units/{number}/history", "history", {}, {"number": number}, LIMITED),
    Route("/units/{number}/undecided", "undecided", {}, {"number": number}, LIMITED),
    Route("/undecided", "undecided", {}, {}, LIMITED),
    Route("/mortgages", "mortgages", {}, {}, LIMITED),
    Route("/areas", "area", {}, {}, LIMITED),
    Route("/mandates", "mandates", {}, {}, MANDATES),
    Route("/extracts/parcels.geojson", "geojson", {}, {}, {}),
    *(Route(f"/extracts/{path}.csv", "csv", {"of": kind}, {}, {}) for path, kind in KINDS.items()),
]


@dataclass
class Question:
    party: int
    role: str
    at: int | None
    after: int
    what: str
    args: dict


def read_request(request, prefix=""):
    """Returns the question of a request. The checks are in the order of the register's (docs/API.md)."""
    if not request.scope["path"].startswith(prefix + "/"):
        raise Fault(136)
    for route in ROUTES:
        texts = route.match(request.scope["path"].removeprefix(prefix))
        if texts is not None:
            break
    else:
        raise Fault(136)
    if request.method != "GET":
        raise Fault(137)
    parties, roles = request.headers.getlist("register-party"), request.headers.getlist("register-role")
    if len(parties) != 1 or len(roles) != 1:
        raise Fault(131)
    party = number(parties[0])
    if roles[0] not in ROLES:
        raise Fault(134)
    args = dict(route.fixed)
    args.update({name: read(texts[name]) for name, read in route.in_path.items()})
    readers = {"at": lambda text: number(text, 0, MOMENT), "after": lambda text: number(text, 0, MOMENT), **route.in_query}
    for name, text in request.query_params.multi_items():
        if name not in readers or name in args:
            raise Fault(131)
        args[name] = readers[name](text)
    if any(name not in args for name in route.required):
        raise Fault(131)
    return Question(party, roles[0], args.pop("at", None), args.pop("after", 0), route.what, args)


# ---- mirrors

class Mirror:
    """One PostgreSQL server."""

    def __init__(self, dsn, connections, seconds):
        # asyncpg reads no connection string of libpq, only its parts
        self.where = {"database" if name == "dbname" else name: value for name, value in psycopg2.extensions.parse_dsn(dsn).items()}
        self.connections, self.seconds = connections, seconds
        self.pool, self.stamp, self.poller = None, 0, None

    async def open(self):
        if self.pool is None:
            settings = {"default_transaction_read_only": "on", "statement_timeout": str(int(self.seconds * 1000)),
                        "application_name": "land-mirror gateway"}
            self.pool = await asyncpg.create_pool(**self.where, min_size=1, max_size=self.connections, server_settings=settings, timeout=2)
        return self.pool

    async def close(self):
        if self.pool:
            self.pool.terminate()

    async def answer(self, question, args):
        try:
            pool = await self.open()
            async with pool.acquire(timeout=self.seconds) as connection:
                row = await connection.fetchrow(ANSWER, question.party, question.role, question.at, question.what, args)
        except asyncpg.exceptions.QueryCanceledError:
            raise Unavailable("timeout") from None
        except (OSError, asyncpg.PostgresConnectionError, asyncpg.InterfaceError, asyncpg.exceptions.CannotConnectNowError,
                asyncpg.exceptions.AdminShutdownError, asyncpg.exceptions.InvalidCatalogNameError) as error:
            log(f"{self.where.get('host', 'PostgreSQL')}: {error}")
            raise Unavailable("absent") from None
        except asyncio.TimeoutError:
            raise Unavailable("busy") from None
        if row["stamp"] is not None:
            self.stamp = max(self.stamp, row["stamp"])
        return row

    def poll(self):
        """Returns the task that looks at the stamp next. Requests that wait share it."""
        if self.poller is None or self.poller.done():
            self.poller = asyncio.ensure_future(self.look())
            self.poller.add_done_callback(lambda task: task.cancelled() or task.exception())      # an error is only a look that failed
        return self.poller

    async def look(self):
        """Reads the stamp, after a short pause."""
        await asyncio.sleep(POLL)
        pool = await self.open()
        async with pool.acquire(timeout=WAIT) as connection:
            row = await connection.fetchrow("SELECT stamp, age FROM gate.state()")
        if row and row["stamp"] is not None:
            self.stamp = max(self.stamp, row["stamp"])
        return row


class Gateway:
    def __init__(self, dsns, prefix="", connections=8, seconds=5.0, clients=200):
        self.prefix, self.free = prefix.rstrip("/"), clients
        self.mirrors = [Mirror(dsn, connections, seconds) for dsn in dsns]
        self.seen = OrderedDict()           # the stamp that each caller saw last

    async def __call__(self, request):
        try:
            if request.scope["path"] == self.prefix + "/state" and request.method == "GET":
                return await self.state()
            question = read_request(request, self.prefix)
            if not self.free:
                raise Unavailable("busy")
            self.free -= 1
            try:
                row = await self.ask(question)
            finally:
                self.free += 1
            self.remember(question.party, row["stamp"])
            return reply(row["status"], row["body"], row["stamp"], row["type"])
        except Fault as fault:
            return reply(400, json.dumps({"fault": fault.number}, separators=(",", ":")))
        except Unavailable as error:
            return reply(503, json.dumps({"mirror": error.why}, separators=(",", ":")), error.stamp, retry=True)
        except Exception as error:
            log(f"{request.scope['path']}: {type(error).__name__}: {error}")
            return reply(500, '{"mirror":"error"}')

    async def ask(self, question):
        """Asks the caller's mirror, and another one only if it cannot answer or is late. Stamps never go back for a caller."""
        args = json.dumps(question.args)
        least = max(question.after, self.seen.get(question.party, 0))
        first = question.party % len(self.mirrors)
        mirrors = self.mirrors[first:] + self.mirrors[:first]
        error = Unavailable("behind", max(it.stamp for it in mirrors) or None)
        for mirror in await self.ready(mirrors, least):
            try:
                row = await mirror.answer(question, args)
                if row["stamp"] is not None and row["stamp"] >= least:
                    return row
                # the mirror was stopped, or was replaced by one that is older
                error = Unavailable("stopped" if row["stamp"] is None else "behind", row["stamp"])
                mirror.stamp = row["stamp"] or 0
            except Unavailable as unavailable:
                error = unavailable
        raise error

    async def ready(self, mirrors, stamp):
        """Returns the mirrors that have a stamp. Waits at most two seconds for one of them."""
        loop = asyncio.get_running_loop()
        end = loop.time() + WAIT
        while True:
            found = [it for it in mirrors if it.stamp >= stamp]
            left = end - loop.time()
            if found or left <= 0:
                return found
            done, _ = await asyncio.wait({it.poll() for it in mirrors}, timeout=left, return_when=asyncio.FIRST_COMPLETED)
            if all(task.exception() for task in done):
                await asyncio.sleep(POLL)

    def remember(self, party, stamp):
        self.seen[party] = max(stamp, self.seen.pop(party, 0))
        if len(self.seen) > PARTIES:
            self.seen.popitem(last=False)

    async def state(self):
        """Returns the stamp and the age of each mirror."""
        states = []
        for mirror in self.mirrors:
            try:
                row = await asyncio.wait_for(mirror.look(), 3)
                states.append({"stamp": row["stamp"], "age": row["age"]} if row and row["stamp"] is not None else {"mirror": "stopped"})
            except (OSError, asyncpg.PostgresError, asyncpg.InterfaceError, asyncio.TimeoutError):
                states.append({"mirror": "absent"})
        return reply(200 if any("stamp" in it for it in states) else 503, json.dumps({"mirrors": states}))

    async def close(self):
        for mirror in self.mirrors:
            await mirror.close()


def reply(status, body, stamp=None, kind="application/json", retry=False):
    headers = {}
    if stamp is not None:
        headers["Register-Stamp"] = str(stamp)
    if retry:
        headers["Retry-After"] = "1"
    return Response(body, status, headers, kind)


def application(gateway):
    app = Starlette(on_shutdown=[gateway.close])

    async def handle(scope, receive, send):
        if scope["type"] != "http":
            return await app(scope, receive, send)
        response = await gateway(Request(scope, receive))
        return await response(scope, receive, send)
    return handle


def serve(options):
    import uvicorn
    gateway = Gateway(options.dsn, options.prefix, options.connections, options.time_limit, options.clients)
    where = {"uds": options.socket} if options.socket else {"host": "127.0.0.1", "port": options.port}
    uvicorn.run(application(gateway), **where, log_level="warning", access_log=False, server_header=False,
                date_header=False, timeout_keep_alive=75, lifespan="on")
