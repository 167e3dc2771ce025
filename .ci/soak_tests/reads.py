"""Many reads: the memory of the server and its number of open files do not grow."""
import http.client
import json
import os
import time

from soak_tests import server
from soak_tests.server import Wrong

OFFICE = {"Register-Party": "1", "Register-Role": "stateAdministrator"}
# The reads, in turn, and their status: a party, the list of parties, a party that does not exist, an unknown path.
READS = (("/parties/7", 200), ("/parties", 200), ("/parties/1000000", 403), ("/nothing", 400))
PARTIES = 500
# The memory that 10,000 reads may add, in kB: room for fragmentation, but less than 7 bytes per read.
SLACK = 64


def memory_and_files(service):
    """Returns the anonymous memory of the server, in kB, and the number of its open files: the minimum within a second, after which the
    last connection is closed."""
    files = []
    for _ in range(50):
        files.append(len(os.listdir(f"/proc/{service.pid}/fd")))
        time.sleep(0.02)
    with open(f"/proc/{service.pid}/smaps_rollup", encoding="ascii") as it:
        memory = next(int(line.split()[1]) for line in it if line.startswith("Anonymous:"))
    return memory, min(files)


def request(port, path, status, body=None):
    """Sends a request on a new connection, and checks its status."""
    connection = http.client.HTTPConnection("127.0.0.1", port)
    connection.request("GET" if body is None else "POST", path, body and json.dumps(body), OFFICE)
    reply = connection.getresponse()
    answer = reply.read()
    connection.close()
    if reply.status != status:
        raise Wrong(f"{path}: status {reply.status}, not {status}: {answer}")


def run(requests, _seed):
    requests = max(101, requests)
    with server.folder() as folder:
        file = os.path.join(folder, "load.land")
        server.make(file)
        service, port = server.serve(file, PARTIES + requests)
        try:
            samples = enrol_and_read(service, port, requests)
            server.check_exit(service, 0)
        finally:
            service.kill()
        state = server.check(file)
    written, first, last = samples
    print(f"reads: {requests} of {PARTIES} parties: {first[0]} kB and {first[1]} files after 100, {last[0]} kB and {last[1]} files "
          f"at the end; before that, {PARTIES - 100} enrolments added {first[0] - written[0]} kB; {state}", flush=True)
    if not written[1] == first[1] == last[1]:
        raise Wrong(f"the number of open files grows: {written[1]}, {first[1]}, {last[1]}")
    if last[0] > first[0] + SLACK:
        raise Wrong("memory grows with reads")


def enrol_and_read(service, port, requests):
    """Enrols and reads. Returns the memory and the open files after a hundred of each, and before the last read."""
    samples = []
    for number in range(1, PARTIES + 1):
        request(port, "/acts/enrol", 200, {"kind": "naturalPerson", "name": f"P{number}"})
        if number == 100:
            samples.append(memory_and_files(service))
    for number in range(1, requests + 1):
        request(port, *READS[number % len(READS)])
        if number in (100, requests - 1):
            samples.append(memory_and_files(service))
    return samples
