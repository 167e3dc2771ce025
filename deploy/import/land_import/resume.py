"""After an interruption: finds out from the register which acts behind the journal's end were executed.

Acts are executed in order, each creates the next numbers, and only the importer writes. So the first act that is not in the journal, if it
was executed, created the object with the next number. The importer reads this object and compares it with the act; then the next one.

Acts without a new object: a role is compared with the roles of the party. A mandate cannot be read by the office; it is sent again, and
221 (the agent already holds it) means that it was executed. A refused act has changed nothing and is sent again.
"""
from . import shares
from .errors import Lost, Stop

WINDOW = 1000       # at least the largest number of pipelined requests


def view(connection, target):
    """Returns an object that the office reads, or None if it does not exist."""
    status, reply = connection.view(target)
    if status == 200:
        return reply["object"]
    if (status, reply) == (403, {"denied": 27}):
        return None
    raise Stop(f"the register answers GET {target} with {status} {reply}; the importer needs party 1 as state administrator", 1)


def next_number(connection):
    """Returns the next number of the register: one more than the greatest number of any object."""
    greatest = 0
    for kind in ("parties", "units", "parcels", "rrrs", "sources", "mutations"):
        status, reply = connection.view("/" + kind)
        if status != 200:
            raise Stop(f"the register answers GET /{kind} with {status} {reply}; the importer needs party 1 as state administrator", 1)
        greatest = max([greatest, *reply["numbers"]])
    return greatest + 1


def title_of(connection, number):
    source = view(connection, f"/sources/{number}")
    return source and source["title"]


def was_executed(connection, act, first, numbers):
    """Returns whether the object with the number `first`, and those after it, are the ones that the act creates."""
    body = act.body(numbers)
    if act.phase in ("enrol", "group"):
        found = view(connection, f"/parties/{first}")
        if found is None or found["name"] != body["name"] or found["kind"] != body.get("kind", "group"):
            return False
        members = {(it["party"], shares.lowest_terms(it["share"])) for it in body.get("members", ())}
        return members == {(it["party"], it["share"]) for it in found["members"]}
    if act.phase == "register":
        found = view(connection, f"/units/{first + 1}")
        if found is None or (found["name"], found["checked"]) != (body["name"], body["checked"]):
            return False
        last = view(connection, f"/rrrs/{first + act.makes - 1}")
        right = body["rights"][-1]
        wanted = first + 1, right["party"], right["type"], shares.lowest_terms(right["share"])
        return (title_of(connection, first) == body["document"] and last is not None
                and (last["unit"], last["party"], last["class"], last.get("share")) == wanted)
    if act.phase == "burden":
        found = view(connection, f"/rrrs/{first + 1}")
        return (found is not None and all(found.get(name) == body[name] for name in ("unit", "party", "class", "words"))
                and title_of(connection, first) == body["document"])
    if act.phase == "lodge":
        found = view(connection, f"/mutations/{first + 1}")
        return found is not None and found["reference"] == body["reference"]
    found = view(connection, f"/rrrs/{first}")
    return found is not None and found["class"] == "mortgage" and act.is_mortgage(found, numbers)


def check_register(connection, journal):
    """Stops if the register does not have the last object of the journal."""
    if journal.next > journal.base and not any_object(connection, journal.next - 1):
        raise Stop(f"the register does not have object {journal.next - 1}, the last one of {journal.path}: it is another register, or an "
                   "older copy. Serve the right one; to import again into a new register, remove the journal", 1)


def check_source(connection, journal, source):
    """Stops if the source has changed since a run that was interrupted, and acts of that run are missing in the journal: they can be found
    only with the same source."""
    if journal.source not in (None, source) and not journal.is_ended and any_object(connection, journal.next):
        raise Stop("the last run was interrupted, and the source or the mapping has changed since. Restore it and run the same command "
                   "again until it ends; then change it", 2)


def find_executed(connection, acts, journal):
    """Writes the executed acts after the journal's end into it. `acts` are those to send that it does not have, in order.

    Returns the number of acts found, and the acts without an object that may have been executed: the caller sends them again."""
    found, skipped, waiting, unknown = 0, 0, [], []
    for act in acts:
        if not act.makes:
            waiting.append(act)
            continue
        _, digest = act.request(journal.numbers)
        first = journal.next
        if was_executed(connection, act, first, journal.numbers):
            for it in waiting:      # acts before an executed one were executed, or refused; these are sent again
                if not it.makes:
                    settle(connection, it, journal, True)
            waiting, skipped = [], 0
            journal.done(act, digest)
            found += 1
            continue
        if not skipped and not any_object(connection, first):
            break
        # An object exists here, and the act did not create it: the register has refused the act, or another client writes.
        skipped += 1
        if skipped > WINDOW:
            break
        waiting.append(act)
    if skipped:
        raise Stop(f"object {journal.next} of the register is not the result of the next act of the journal "
                   f"({waiting[-1].phase} {waiting[-1].key}). Either another client writes into the register, or the source has changed. "
                   "Restore the register from the copy before the import, remove the journal, and import again", 1)
    for act in waiting:
        if act.phase in ("grant", "revoke") and act.prediction is None:
            if not settle(connection, act, journal, False):
                return found, unknown
            found += 1
        else:
            unknown.append(act)
    return found, unknown


def any_object(connection, number):
    """Returns whether any object has the number."""
    return any(view(connection, f"/{kind}/{number}") for kind in ("parties", "sources", "rrrs", "units", "parcels", "mutations"))


def settle(connection, act, journal, is_certain):
    """Decides about an act without an object. Returns whether it was executed; if so, records it."""
    if act.prediction is not None:
        return False
    if act.phase in ("grant", "revoke") and not is_certain:
        party = view(connection, f"/parties/{journal.numbers['party', act.record.key]}")
        if party is None:
            raise Lost(f"party {act.record.key} is not in the register")
        if (act.extra in party["roles"]) != (act.phase == "grant"):
            return False
    journal.done(act, act.request(journal.numbers)[1])
    return True
