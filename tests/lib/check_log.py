"""The log of a server: `bor serve --log`."""
import contextlib
import fcntl
import os
import re
import sys
import termios
import time
from collections import Counter
from types import SimpleNamespace

from lib.checking import DB, LODGED, begun, check, is_so
from lib.notation import first_file, request_of
from lib.program import SECONDS, told

CEDAR = "Authorization: Bearer secret-token-00001"
LINE = re.compile(r"(\d{4}-\d\d-\d\dT\d\d:\d\d:\d\dZ) (\S+ \S+) (\d{3}) (\d+) (\d+) ([a-z0-9-]{1,32})")
# What is asked, the method and path that the log tells of it, and the agent whose token it has; a hyphen where
# the registrar or nobody has the token, where there is none, and where the bytes are refused.
ASKS = [
    ("alder lodge secret-key 2024-02-01 FIRST", "PUT /filings/{key}", "alder"),
    ("alder lodge secret-key 2024-02-02 FIRST", "PUT /filings/{key}", "alder"),
    ("alder withdraw secret-key", "DELETE /filings/{key}", "alder"),
    ("alder filings", "GET /filings", "alder"),
    ("alder file secret-key", "GET /filings/{key}/file", "alder"),
    ("alder published", "GET /published", "alder"),
    ("alder snapshot alder secret-declaration", "GET /snapshot", "alder"),
    ("alder chains alder secret-declaration secret-record", "GET /chains", "alder"),
    ("alder evidence alder secret-declaration secret-record", "GET /evidence", "alder"),
    ("alder entities secret-scheme secret-id", "GET /entities", "alder"),
    ("alder day 2024-02-02", "POST /day", "alder"),
    ("registrar day 2024-02-01", "POST /day", "-"),
    ("registrar enrol cedar secret-token-00001", "POST /agents", "-"),
    ("registrar renew cedar secret-token-00001", "PUT /agents/{name}", "-"),
    ("registrar renew secret-name secret-token-00002", "PUT /agents/{name}", "-"),
    ("alder renew alder secret-token-00002", "PUT /agents/{name}", "alder"),
    ("registrar register", "GET /register", "-"),
    ("registrar published", "GET /published", "-"),
    (f"raw GET /chains?agent=alder&declaration=c1&record=e1 HTTP/1.1\\r\\n{CEDAR}\\r\\n\\r\\n", "GET /chains", "cedar"),
    (f"raw PUT /filings/secret-key?due=2024-02-01 HTTP/1.1\\r\\n{CEDAR}\\r\\nContent-Length: 6\\r\\n\\r\\nsecret", "PUT /filings/{key}", "cedar"),
    ("nobody filings", "GET /filings", "-"),
    ("nobody GET /filings?secret=secret-value", "GET /filings", "-"),
    ("raw GET /published HTTP/1.1\\r\\n\\r\\n", "GET /published", "-"),
    ("alder GET /chains?agent=secret-agent", "GET /chains", "-"),
    ("alder GET /evidence?record=secret-record", "GET /evidence", "-"),
    ("alder GET /entities?scheme=secret-scheme", "GET /entities", "-"),
    ("alder PATCH /filings/secret-key secret-body", "- /filings/{key}", "-"),
    ("alder PATCH /agents/secret-name secret-body", "- /agents/{name}", "-"),
    ("alder SECRET /chains?agent=secret-agent", "- /chains", "-"),
    ("alder GET /secret-path/secret", "- -", "-"),
    ("raw secret\\r\\n\\r\\n", "- -", "-"),
    ("raw PUT /filings/secret-key?due=secret HTTP/1.1\\r\\nContent-Length: 2000000\\r\\n\\r\\n", "PUT /filings/{key}", "-"),
]
SECRETS = ["secret", "SECRET", "token", "Bearer", "Alder", "Moss", "f1", "c1", "due", "2024-02-0"]


@check
def a_log_has_a_line_for_each_request(bor, folder):
    """a server's log has a line for each request in their order, with its path, its reply's status and bytes, the name of the agent that is answered, and nothing that is secret"""
    begun(bor, folder, LODGED)
    server = bor.serve(folder, DB, len(ASKS), "--log")
    began = time.time()
    replies = [server.ask(request_of(ask)) for ask, _, _ in ASKS]
    ended = time.time()
    _, errors = server.end()
    first, *lines = errors.decode().split("\n")
    is_so(first == "bor: 3 statements in memory", f"the first line is {first!r}")
    is_so(len(lines) == len(ASKS) + 1 and lines[-1] == "", f"{len(lines) - 1} lines for {len(ASKS)} requests: {errors!r:.300}")
    for (ask, wanted, agent), reply, line in zip(ASKS, replies, lines):
        found = LINE.fullmatch(line)
        is_so(found is not None, f"{ask:.60}: {line!r}")
        at, asked, status, length, millis, name = found.groups()
        told = (asked, status, int(length), name)
        is_so(told == (wanted, reply[9:12].decode(), len(reply), agent), f"{ask:.60}: {line!r} of {reply[:40]!r} and {len(reply)} bytes")
        seconds = time.mktime(time.strptime(at, "%Y-%m-%dT%H:%M:%SZ")) - time.timezone
        is_so(began - 2 <= seconds <= ended + 1 and int(millis) <= 1000 * (ended - began + 1), f"{ask:.60}: {line!r}")
        is_so(not [it for it in SECRETS if it in line.replace(at, "")], f"{ask:.60}: {line!r} tells too much")
    is_so(first_file() not in errors, "the log has a body")


@check
def a_server_without_a_log_says_nothing(bor, folder):
    """without --log nothing is told of requests"""
    begun(bor, folder, LODGED)
    server = bor.serve(folder, DB, 2)
    for ask in ("alder filings", "alder GET /nothing"):
        server.ask(request_of(ask))
    is_so(server.end() == (0, b""), "something was told")


# ---- many clients at once

# The same lodging comes of half of the clients, so that of their lines the first alone is of a new filing.
AT_ONCE = [ask for other, _, _ in ASKS[4:] for ask in ("alder lodge f2 2024-02-01 E s4 e2", other)] * 3
# The fewest bytes that a pipe holds: some lines, and not those of all these clients.
PIPE = 4096
HELD = 0.3


def filled(pipe):
    """Writes into the pipe what it holds, and gives how many bytes that are."""
    count = 0
    with contextlib.suppress(BlockingIOError):
        while True:
            count += os.write(pipe, b"\0")
    return count


def read(pipe, count):
    while count:
        count -= len(os.read(pipe, count))


def wait_until_full(pipe):
    """Waits until a line more doesn't fit into the pipe."""
    until, count = time.monotonic() + SECONDS, bytearray(4)
    while int.from_bytes(count, sys.byteorder) < PIPE - 100:
        is_so(time.monotonic() < until, f"{count} bytes of lines are there")
        time.sleep(0.01)
        fcntl.ioctl(pipe, termios.FIONREAD, count)


def answered_at_once(bor, folder):
    """Many clients whose requests come while the server waits to write its log, and whose lines wait in turn.

    So the requests are answered in one turn. Gives its lines behind that of the one before, the replies, for how many
    milliseconds the server waited in the midst of the lines, and how many passed from when the requests came to the end.
    """
    begun(bor, folder, LODGED)
    server = bor.serve(folder, DB, len(AT_ONCE) + 1, "--log")
    errors = server.ran.stderr
    fcntl.fcntl(errors, fcntl.F_SETPIPE_SZ, PIPE)
    first = errors.readline()
    clients = [server.connect() for _ in AT_ONCE]
    pipe = os.open(f"/proc/{server.ran.pid}/fd/2", os.O_WRONLY | os.O_NONBLOCK)
    count = filled(pipe)
    os.close(pipe)
    server.ask(request_of("alder filings"))
    for client, ask in zip(clients, AT_ONCE):
        client.sendall(request_of(ask))
    time.sleep(HELD)
    came = time.monotonic()
    read(errors.fileno(), count)
    replies = [told(client) for client in clients]
    wait_until_full(errors)
    full = time.monotonic()
    time.sleep(HELD)
    held = time.monotonic() - full
    _, rest = server.end()
    is_so(first == b"bor: 3 statements in memory\n", f"the first line is {first!r}")
    for client in clients:
        client.close()
    lines = [LINE.fullmatch(line) for line in rest.decode().split("\n")[1:-1]]
    is_so(len(rest) > PIPE + 1000 and None not in lines, f"the log has {len(rest)} bytes: {rest!r:.300}")
    passed = time.monotonic() - came
    return SimpleNamespace(lines=lines, replies=replies, held=int(1000 * held), passed=int(1000 * passed) + 1)


@check
def a_log_has_a_line_for_each_of_many_at_once(bor, folder):
    """where many clients are answered at once, the log has a line for each of them, in the order in which they are answered"""
    asked = answered_at_once(bor, folder)
    paths = {ask: (path, agent) for ask, path, agent in ASKS}
    paths[AT_ONCE[0]] = ("PUT /filings/{key}", "alder")
    wanted = Counter((*paths[ask], reply[9:12].decode(), len(reply)) for ask, reply in zip(AT_ONCE, asked.replies))
    lines = Counter((it[2], it[6], it[3], int(it[4])) for it in asked.lines)
    is_so(lines == wanted, f"wanted {wanted - lines} more, and {lines - wanted} less")
    lodged = [it[3] for it in asked.lines if (it[2], it[6]) == paths[AT_ONCE[0]] and it[3] in ("200", "201")]
    is_so(lodged == ["201", *["200"] * (len(lodged) - 1)], f"the lodgings are told as {lodged}")


@check
def a_line_has_its_milliseconds(bor, folder):
    """the milliseconds of a line are those from when its request was seen until the line is made"""
    asked = answered_at_once(bor, folder)
    millis = [int(it[5]) for it in asked.lines]
    is_so(max(millis) <= asked.passed, f"{max(millis)} ms are told, where {asked.passed} have passed")
    is_so(millis == sorted(millis), f"they go down: {millis}")
    is_so(millis[-1] - millis[0] >= asked.held, f"{millis[0]} to {millis[-1]} ms are told around a wait of {asked.held}")
