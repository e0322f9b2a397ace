"""Clients of a server that go away, send too little, too much or too slowly, or don't read.

Behind each of them another client is answered, and at the end the register is as it should be: a request that was cut
off changed nothing, and one that came whole was done once.
"""
import select
import socket
import struct
import threading
import time

from lib.check_sockets import has_ended, is_told, served
from lib.checking import DB, LODGED, LODGING, Mismatch, begun, exchange, is_so
from lib.notation import first_request, request_of
from lib.program import told
from lib.replies import reply_of

BIRCH = ("registrar enrol birch birch-token-000001", '201 {"agent":"birch"}')
OTHER = ("birch filings", "200 []")
NOTHING = ("alder filings", "200 []")
ONCE = ("alder filings", '200 [{"due":"2024-02-01","filing":1,"key":"f1","state":"published"}]')
CUT = ("raw", "400 CutShort")
# The limits of a client: for its request, for taking the reply, and for what it sends behind the reply.
REQUEST_TIME, REPLY_TIME, REST_TIME = 10, 10, 1
REST_BYTES, HEAD_BYTES = 16_777_216, 16_384
# What the system may keep of a connection, and what a clock and a busy machine may add.
BUFFERS, LATE = 16_000_000, 4
LARGE = 1_048_576
# Bytes a second that a client takes which isn't cut off, though its reply has longer than the limit.
SLOWLY = 750_000


class Cut:
    """How a client was cut off: what it could send, after how long, and what it was told."""

    def __init__(self, sent, seconds, reply):
        self.sent, self.seconds, self.reply = sent, seconds, reply

    def __str__(self):
        status = self.reply[9:12].decode(errors="replace") or "no reply"
        return f"{self.sent:,} bytes in {self.seconds:.1f} s, {status}"


def reset(client):
    """Closes the connection by a reset."""
    client.setsockopt(socket.SOL_SOCKET, socket.SO_LINGER, struct.pack("ii", 1, 0))
    client.close()


def another_is_answered(server):
    is_told(server.ask(request_of(OTHER[0])), OTHER)


def ends_as(server, *statuses):
    ended = server.end()
    is_so(ended[0] in statuses and ended[1] == b"", f"the server ended as {ended}, wanted status {statuses}")


def lodging(number):
    return f"alder lodge k{number} 2024-02-01 E s{number} e{number}"


def read(client, count):
    data = b""
    while len(data) < count:
        part = client.recv(count - len(data))
        if not part:
            break
        data += part
    return data


# ---- clients that go away


def reset_in_the_reply(server, number, place):
    """Lodges, reads so much of the reply, and resets; then the lodging is asked for again."""
    ask = lodging(number)
    whole = reply_of(f"201 F({number}, published, 2024-02-01)", ask, "")[1]
    client = server.connect()
    client.sendall(request_of(ask))
    front = read(client, min(place, len(whole)))
    reset(client)
    is_so(whole.startswith(front) and len(front) == min(place, len(whole)), f"the reply begins with {front!r}")
    another_is_answered(server)
    reply = server.ask(request_of(ask))
    again = reply_of(f"200 F({number}, published, 2024-02-01)", ask, "")[1]
    is_so(reply == again or place == 0 and reply == whole, f"{ask} again: {reply!r}")


def resets_in_replies(bor, folder, step):
    """a client that resets at each byte of its reply holds nobody up, and its lodging is done once"""
    places = [0, *range(1, 150, step), 150]
    server = served(bor, folder, 3 * len(places), BIRCH)
    for number, place in enumerate(places, 1):
        reset_in_the_reply(server, number, place)
    ends_as(server, 0, 3)
    lines = [f'{{"due":"2024-02-01","filing":{n},"key":"k{n}","state":"published"}}' for n in range(1, len(places) + 1)]
    exchange(bor, folder, [("alder filings", f"200 [{','.join(lines)}]")])


def resets_in_requests(bor, folder, step):
    """a client that resets at each byte of its request is a failed connection, and changes nothing"""
    request = first_request()
    places = range(0, len(request), step)
    server = served(bor, folder, 2 * len(places), BIRCH)
    for place in places:
        client = server.connect()
        client.sendall(request[:place])
        reset(client)
        another_is_answered(server)
    has_ended(server, 3)
    exchange(bor, folder, [NOTHING])


def half_closes(bor, folder, step):
    """a client that sends no more at each byte of its request is told so, and changes nothing till it is whole"""
    request = first_request()
    places = range(0, len(request), step)
    server = served(bor, folder, 2 * len(places) + 3, BIRCH)
    for place in places:
        is_told(server.ask(request[:place], ends=True), CUT)
        another_is_answered(server)
    is_told(server.ask(request_of(NOTHING[0])), NOTHING)
    is_told(server.ask(request, ends=True), LODGED)
    is_told(server.ask(request_of(ONCE[0])), ONCE)
    has_ended(server)


def whole_files(count):
    """The row of a lodging whose file has about the most bytes, and its file."""
    statement = '{"statementId":"s1","statementDate":"2024-01-10","declarationSubject":"c1","recordId":"e1"'
    file = f'[{statement},"recordType":"entity","recordDetails":{{}}}}]'.ljust(count)
    return (f"alder lodge f1 2024-02-01 {file}", "201 F(1, published, 2024-02-01)"), file


def resets_in_large_replies(bor, folder, places):
    """a client that resets in the midst of a large reply holds nobody up"""
    row, file = whole_files(LARGE)
    server = served(bor, folder, 2 * len(places), BIRCH, row)
    whole = reply_of("200 []", "", "")[1].split(b"Content-Length")[0]
    for place in places:
        client = server.connect()
        client.sendall(request_of("alder file f1"))
        front = read(client, place)
        reset(client)
        is_so(len(front) == place and front.startswith(whole[:place]), f"the reply begins with {front[:200]!r}")
        another_is_answered(server)
    ends_as(server, 0, 3)
    exchange(bor, folder, [(row[0], "200 F(1, published, 2024-02-01)"), ("alder file f1", f"200 {file}")])


# ---- clients that stay


def sent_for_ever(server, front, piece, pause):
    """Sends the front and then pieces until it is cut off, and reads what it is told."""
    start, sent, reply, reading = time.monotonic(), 0, b"", True
    client = server.connect()
    client.setblocking(False)
    left, next_at = front, start
    try:
        while time.monotonic() - start < 60:
            is_due = time.monotonic() >= next_at
            listening, sending = [client] if reading else [], [client] if left or is_due else []
            readable, writable, _ = select.select(listening, sending, [], 0.05)
            if readable:
                part = client.recv(65_536)
                reply, reading = reply + part, bool(part)
                if not reading and not piece:
                    break
            if writable:
                if not left:
                    left, next_at = piece, time.monotonic() + pause
                count = client.send(left)
                sent, left = sent + count, left[count:]
    except OSError:
        pass  # it has been cut off
    reset(client)
    return Cut(sent, time.monotonic() - start, reply)


def cut_off(bor, folder, sending, wanted, at_least, at_most, status, after):
    """A client that sends for ever is told this and cut off in this time, and the register is so after it.

    Behind a whole request what it sends is not waited for, so the end of the connection may take the reply from it.
    """
    server = served(bor, folder, 2, BIRCH)
    cut = sent_for_ever(server, *sending)
    another_is_answered(server)
    has_ended(server, status)
    whole = reply_of(wanted, LODGING, "")[1] if wanted else b""
    may_be_lost = after is ONCE and whole.startswith(cut.reply)
    is_so(cut.reply == whole or may_be_lost, f"wanted {wanted}, told {cut.reply!r}")
    is_so(at_least - 0.5 <= cut.seconds <= at_most + LATE, f"cut off after {cut.seconds:.1f} s")
    is_so(cut.sent <= HEAD_BYTES + LARGE + REST_BYTES + BUFFERS, f"{cut.sent} bytes were taken")
    exchange(bor, folder, [after])
    return cut


FAST, SLOW = (b"x" * 65_536, 0), (b"x", 0.1)
HEAD = b"PUT /filings/f1?due=2024-02-01 HTTP/1.1\r\nAuthorization: Bearer alder-token-000001\r\n"
# What a client begins with and goes on with, what it is told, after how many seconds at least and at most it is cut
# off, the exit status, and what is there afterwards.
QUICK = {
    "bytes without an end": (b"", *FAST, "431 HeadTooLarge", 0, REST_TIME, 0, NOTHING),
    "a field without an end": (HEAD + b"X: ", *FAST, "431 HeadTooLarge", 0, REST_TIME, 0, NOTHING),
    "a body that is too long": (
        HEAD + b"Content-Length: 1048577\r\n\r\n", *FAST, "413 BodyTooLarge", 0, REST_TIME, 0, NOTHING
    ),
    "bytes behind a whole request": (first_request(), *FAST, LODGED[1], 0, REST_TIME, 0, ONCE),
    "bytes behind a refusal, one by one": (
        HEAD + b"Content-Length: x\r\n\r\n", *SLOW, "400 BadLength", REST_TIME, REST_TIME, 0, NOTHING
    ),
    "bytes behind a whole request, one by one": (first_request(), *SLOW, LODGED[1], 0, REST_TIME, 0, ONCE),
}
LONG = {
    "a head byte by byte": (b"", *SLOW, None, REQUEST_TIME, REQUEST_TIME, 3, NOTHING),
    "a body byte by byte": (
        HEAD + b"Content-Length: 1048576\r\n\r\n", *SLOW, None, REQUEST_TIME, REQUEST_TIME, 3, NOTHING
    ),
    "the front of a request, and nothing more": (
        first_request()[:400], b"", 0.1, None, REQUEST_TIME, REQUEST_TIME, 3, NOTHING
    ),
}


def sends_for_ever(bor, folder, kind):
    begin, piece, pause, wanted, at_least, at_most, status, after = {**QUICK, **LONG}[kind]
    return cut_off(bor, folder, (begin, piece, pause), wanted, at_least, at_most, status, after)


def a_byte_a_second(bor, folder):
    """a client that sends its request a byte a second is cut off after ten seconds, and changes nothing"""
    server = served(bor, folder, 2, BIRCH)
    start, sent = time.monotonic(), 0
    with server.connect() as client:
        try:
            for byte in first_request()[:40]:
                client.sendall(bytes([byte]))
                sent += 1
                client.settimeout(1)
                try:
                    reply = told(client)
                    break
                except socket.timeout:
                    reply = None
        except OSError:
            reply = b""
    cut = Cut(sent, time.monotonic() - start, reply or b"")
    another_is_answered(server)
    has_ended(server, 3)
    is_so(reply == b"", f"it was told {reply!r}")
    is_so(REQUEST_TIME - 1.5 <= cut.seconds <= REQUEST_TIME + LATE, f"cut off after {cut.seconds:.1f} s")
    exchange(bor, folder, [NOTHING])
    return cut


# ---- clients that don't read


def never_reads(bor, folder):
    """clients that send a request and never read don't hold the next one up"""
    server = served(bor, folder, 5, BIRCH)
    client = server.connect()
    client.sendall(first_request())
    start = time.monotonic()
    for _ in range(2):
        another_is_answered(server)
    seconds = time.monotonic() - start
    idle = server.connect()
    idle.sendall(request_of(ONCE[0]))
    is_told(server.ask(request_of(ONCE[0])), ONCE)
    is_so(told(client) == reply_of(LODGED[1], LODGING, "")[1], "the reply is not there to be read")
    has_ended(server)
    idle.close()
    client.close()
    is_so(seconds <= REST_TIME + LATE, f"the next client waited {seconds:.1f} s")
    exchange(bor, folder, [ONCE])
    return Cut(len(first_request()), seconds, b"")


def long_lodging(number):
    """The row of a lodging of a thousand statements with long texts, in a declaration of its own."""
    name = "x" * 200
    file = "; ".join(f"E {number}.{i}{name} {i}{name}" for i in range(1000))
    return f"alder lodge k{number} 2024-02-01 {file} in d{number}", f"201 F({number}, published, 2024-02-01)"


def that_never_reads(server, ask):
    """A client that asks, and never reads; it takes little before that."""
    client = socket.socket()
    client.setsockopt(socket.SOL_SOCKET, socket.SO_RCVBUF, 4096)
    client.connect(("127.0.0.1", server.port))
    client.sendall(request_of(ask))
    return client


def never_reads_much(bor, folder):
    """a client that never reads a reply of many megabytes is cut off after ten seconds, and holds nobody up"""
    server = served(bor, folder, 2, BIRCH, *map(long_lodging, range(1, 25)))
    start = time.monotonic()
    client = that_never_reads(server, "birch published")
    time.sleep(0.3)
    another_is_answered(server)
    waited = time.monotonic() - start
    has_ended(server, 3)
    seconds = time.monotonic() - start
    client.close()
    is_so(waited <= LATE, f"the next client waited {waited:.1f} s")
    is_so(REPLY_TIME - 0.5 <= seconds <= REPLY_TIME + LATE, f"cut off after {seconds:.1f} s")
    return Cut(0, seconds, b"")


def takes_slowly(bor, folder):
    """a client that takes a reply of many megabytes for longer than ten seconds has it whole"""
    server = served(bor, folder, 2, BIRCH, *map(long_lodging, range(1, 25)))
    start, reply, part = time.monotonic(), b"", b"-"
    with that_never_reads(server, "birch published") as client:
        while part:
            part = client.recv(65_536)
            reply += part
            time.sleep(max(0, len(reply) / SLOWLY - (time.monotonic() - start)))
    seconds = time.monotonic() - start
    another_is_answered(server)
    has_ended(server)
    head, body = reply.split(b"\r\n\r\n", 1)
    is_so(b"\r\nContent-Length: %d\r\n" % len(body) in head, f"it has {len(body):,} bytes of a body behind {head!r}")
    is_so(seconds > REPLY_TIME + LATE, f"it took {seconds:.1f} s, which is too fast to tell")
    return Cut(0, seconds, reply)


# ---- many clients at once

# How many clients stay at once, of the 256 that a server has places for, and how many requests are asked beside them.
STAYING, BESIDE = 252, 100
# How many seconds a request may take longer beside them.
LONGER = 0.005


def a_request_takes(server):
    """The median of the seconds that a request takes, from before the connect to the end of the reply."""
    seconds = []
    for _ in range(BESIDE):
        start = time.perf_counter()
        another_is_answered(server)
        seconds.append(time.perf_counter() - start)
    return sorted(seconds)[BESIDE // 2]


class Dripping:
    """Sends each of these clients' request a byte a second, from now on and until it is stopped."""

    def __init__(self, clients, request):
        self.clients, self.request = clients, request
        self.is_over = threading.Event()
        self.thread = threading.Thread(target=self.run)
        self.thread.start()

    def run(self):
        for byte in self.request:
            for client in self.clients:
                try:
                    client.sendall(bytes([byte]))
                except OSError:
                    pass  # it has been cut off
            if self.is_over.wait(1):
                return

    def stop(self):
        self.is_over.set()
        self.thread.join()


def many_stay(bor, folder, slack):
    """clients that send nothing, a byte a second, or never read, 252 at once, make no other client's request take 5 ms longer, and are cut off"""
    server = served(bor, folder, STAYING + 2 * BESIDE, BIRCH, *map(long_lodging, range(1, 9)))
    alone = a_request_takes(server)
    start = time.monotonic()
    reading = [that_never_reads(server, "birch published") for _ in range(4)]
    silent = [server.connect() for _ in range((STAYING - len(reading)) // 2)]
    slow = [server.connect() for _ in range(STAYING - len(reading) - len(silent))]
    dripping = Dripping(slow, first_request())
    try:
        beside = a_request_takes(server)
        is_so(time.monotonic() - start < REQUEST_TIME, "the machine is too slow: they were cut off before")
        has_ended(server, 3)
        seconds = time.monotonic() - start
    finally:
        dripping.stop()
        for client in reading + silent + slow:
            client.close()
    is_so(beside - alone <= LONGER + slack, f"a request took {beside * 1e3:.1f} ms, and {alone * 1e3:.1f} ms alone")
    is_so(seconds <= REQUEST_TIME + LATE, f"the last was cut off after {seconds:.1f} s")
    exchange(bor, folder, [("birch filings", "200 []")])
    return Cut(0, beside - alone, b"")


def one_more_than_places(bor, folder):
    """where 256 clients are there and another one comes, the one that was idle for the longest gives way"""
    server = served(bor, folder, 258, BIRCH)
    clients = []
    for number in range(256):
        client = server.connect()
        client.sendall(b"GET /fil" if number else request_of(OTHER[0])[:20])
        clients.append(client)
    another_is_answered(server)
    clients[1].settimeout(LATE)
    is_so(clients[0].recv(1) == b"", "the first client has not given way")
    clients[1].sendall(request_of(OTHER[0])[8:])
    is_so(told(clients[1]) == reply_of(OTHER[1], OTHER[0], "")[1], "the second client is not told")
    another_is_answered(server)
    for client in clients:
        client.close()
    ends_as(server, 3)


# ---- a wait that lasts as long as it is told

# A client comes so long after another one, and each is seen to be cut off as much later at most. A busy machine has
# so many tries.
LATER, TRIES = 0.5, 5
# The processor time of a server that waits, in seconds.
RESTING = 0.05


def is_gone(server, name, since):
    """After how many seconds the server has this socket no more."""
    while name in server.sockets():
        is_so(time.monotonic() - since < REST_TIME + LATE, f"a client is there after {time.monotonic() - since:.1f} s")
        time.sleep(0.005)
    return time.monotonic() - since


def refused(server):
    """A client that was refused and has not ended, with its socket at the server, and when it came."""
    before, since = server.sockets(), time.monotonic()
    client = server.connect()
    client.sendall(b"GET /filings\r\n\r\n")
    is_so(told(client).startswith(b"HTTP/1.1 400 "), "it isn't refused")
    (name,) = server.sockets() - before
    return client, name, since


def own_times(bor, folder):
    """of clients that have different times left each is cut off as its own is up, and the server rests meanwhile"""
    begun(bor, folder, BIRCH)
    for _ in range(TRIES):
        server = bor.serve(folder, DB, 3)
        with server.connect() as slow:
            slow.sendall(request_of(OTHER[0])[:20])
            time.sleep(0.1)
            first = refused(server)
            time.sleep(LATER)
            second = refused(server)
            spent = server.seconds_spent()
            seconds = [is_gone(server, *first[1:])]
            spent = server.seconds_spent() - spent
            seconds.append(is_gone(server, *second[1:]))
            slow.sendall(request_of(OTHER[0])[20:])
            is_told(told(slow), OTHER)
        for client in (first[0], second[0]):
            client.close()
        has_ended(server)
        shown = " and ".join(f"{it:.2f}" for it in seconds)
        is_so(min(seconds) >= REST_TIME, f"they were cut off after {shown} s")
        is_so(spent <= RESTING, f"the server took {spent:.2f} s of processor time while it waited")
        if max(seconds) < REST_TIME + LATER:
            return
    raise Mismatch(f"they were cut off after {shown} s")


def waits_side_by_side(functions):
    """What each of the functions gives, or raises, all of them waiting at once."""
    outcomes = {}

    def run(name, function):
        try:
            outcomes[name] = function(), None
        except Exception as fault:  # told by whoever asked
            outcomes[name] = None, fault

    threads = [threading.Thread(target=run, args=pair) for pair in functions.items()]
    for thread in threads:
        thread.start()
    for thread in threads:
        thread.join()
    return outcomes
