"""A register that is served on a port."""
import shutil
import socket
import time
from pathlib import Path

from lib.checking import DB, ENROLLED, LODGED, LODGING, REPORT, begun, changed, check, ended, exchange, failed
from lib.checking import is_so, report
from lib.notation import request_of
from lib.program import free_port, told
from lib.replies import reply_of
from lib.scripts import apart

DRAFT = ("alder lodge f2 2024-03-01 E s4 e2", "201 F(2, draft, 2024-03-01)")
FILINGS = ("alder filings", '200 [{"due":"2024-02-01","filing":1,"key":"f1","state":"published"}]')
NOTHING = ("alder filings", "200 []")


def is_told(reply, row):
    ask, wanted = row
    wanted = reply_of(wanted, ask, "2024-02-01")[1]
    is_so(reply == wanted, f"{ask:.100}: {apart(wanted, reply)}")


def has_ended(server, status=0):
    ended_as = server.end()
    is_so(ended_as == (status, b""), f"the server ended as {ended_as}")


def served(bor, folder, connections, *rows):
    begun(bor, folder, *rows)
    server = bor.serve(folder, DB, connections)
    is_so(server.is_listening(), f"the server said {server.line!r}")
    return server


@check
def a_server_tells_that_it_listens(bor, folder):
    """a server of no connections tells its port and ends; on a port that is taken it tells that"""
    begun(bor, folder)
    port = free_port()
    words = ["serve", "--db", DB, "--port", str(port), "--connections", "0"]
    with socket.socket() as other:
        other.bind(("127.0.0.1", port))
        other.listen()
        failed(bor.run(words, folder), "cannot listen")
    ended(bor.run(words, folder), 0, f"listening 127.0.0.1:{port}\n")


@check
def what_is_lodged_on_a_socket_stands_in_the_file(bor, folder):
    """what is lodged on a socket stands in the file alone once the server has ended"""
    server = served(bor, folder, 2)
    for row in (LODGED, DRAFT):
        is_told(server.ask(request_of(row[0])), row)
    has_ended(server)
    shutil.copy(Path(folder, DB), Path(folder, "copied.db"))
    ended(report(bor, folder, db="copied.db"), 0, REPORT)
    ended(report(bor, folder, "e2", "copied.db"), 0, "entity\talder\tc1\te2\t2024-02-01\npersons 0\n")


@check
def a_server_that_is_stopped_leaves_what_it_answered(bor, folder):
    """what a server has answered is there where it was stopped in its midst"""
    server = served(bor, folder, 5)
    is_told(server.ask(request_of(LODGING)), LODGED)
    server.stop()
    ended(report(bor, folder), 0, REPORT)
    exchange(bor, folder, [FILINGS])


@check
def a_register_that_is_open_is_not_opened_again(bor, folder):
    """one program at a time has the register open: another one fails"""
    server = served(bor, folder, 1, LODGED)
    failed(report(bor, folder), "store failed")
    is_told(server.ask(request_of("alder filings")), FILINGS)
    has_ended(server)
    ended(report(bor, folder), 0, REPORT)


@check
def a_request_comes_byte_by_byte(bor, folder):
    """a request that comes byte by byte is answered"""
    server = served(bor, folder, 1)
    with server.connect() as client:
        client.setsockopt(socket.IPPROTO_TCP, socket.TCP_NODELAY, 1)
        for byte in request_of(LODGING):
            client.sendall(bytes([byte]))
        is_told(told(client), LODGED)
    has_ended(server)


@check
def a_client_that_ends_is_not_waited_for(bor, folder):
    """a client that ends its input too soon is told at once, and not after the ten seconds of a request"""
    server = served(bor, folder, 3)
    for front in (b"", b"GET /fil", request_of(LODGING)[:300]):
        start = time.monotonic()
        is_told(server.ask(front, ends=True), ("raw", "400 CutShort"))
        is_so(time.monotonic() - start < 9, "the client was kept waiting")
    has_ended(server)
    exchange(bor, folder, [NOTHING])


@check
def a_client_that_goes_away_holds_nobody_up(bor, folder):
    """a client that closes its socket behind half a request is a failed connection at most, and the next one is served"""
    server = served(bor, folder, 2, LODGED)
    with server.connect() as client:
        client.sendall(b"GET /fil")
    is_told(server.ask(request_of("alder filings")), FILINGS)
    status, errors = server.end()
    is_so(status in (0, 3) and errors == b"", f"the server ended as {(status, errors)}")


@check
def a_server_listens_on_one_address(bor, folder):
    """a server listens on 127.0.0.1 alone, and not on the machine's other addresses"""
    server = served(bor, folder, 1, LODGED)
    with socket.socket() as client:
        is_so(client.connect_ex(("127.0.0.2", server.port)) != 0, "it listens on 127.0.0.2 too")
    is_told(server.ask(request_of("alder filings")), FILINGS)
    has_ended(server)


@check
def a_refusal_reaches_a_client_that_is_still_sending(bor, folder):
    """a refusal reaches a client that is still sending"""
    server = served(bor, folder, 2)
    head = b"PUT /filings/f1?due=2024-02-01 HTTP/1.1\r\nContent-Length: 2000000\r\n\r\n"
    is_told(server.ask(head + b"x" * 2_000_000), ("raw", "413 BodyTooLarge"))
    is_told(server.ask(b"x" * 2_000_000), ("raw", "431 HeadTooLarge"))
    has_ended(server)


@check
def a_damaged_register_is_told_on_a_socket(bor, folder):
    """a 503 on a socket ends no connection after it, and raises the exit status"""
    begun(bor, folder, LODGED)
    changed(folder, "UPDATE statement SET kind = 'ship' WHERE id = 's1'")
    server = bor.serve(folder, DB, 2)
    is_told(server.ask(request_of("alder published")), ("alder published", "@unavailable.reply"))
    is_told(server.ask(request_of("alder filings")), FILINGS)
    has_ended(server, 3)


@check
def a_503_reaches_a_client_that_is_still_sending(bor, folder):
    """a 503 reaches a client that is still sending, and it may go on to send for a while"""
    begun(bor, folder, LODGED)
    changed(folder, "UPDATE statement SET kind = 'ship' WHERE id = 's1'")
    server, row = bor.serve(folder, DB, 2), ("alder published", "@unavailable.reply")
    is_told(server.ask(request_of(row[0]) + b"x" * 2_000_000), row)
    with server.connect() as client:
        client.sendall(request_of(row[0]))
        is_told(told(client), row)
        for _ in range(10):
            client.sendall(b"x")
            time.sleep(0.02)
    has_ended(server, 3)


@check
def a_refusal_is_no_failure(bor, folder):
    """a refused request is no failed connection"""
    server = served(bor, folder, 2)
    is_told(server.ask(b"GET /filings HTTP/1.1\r\n\r\n"), ("raw", "401 NoToken"))
    is_told(server.ask(request_of(ENROLLED[0])), (ENROLLED[0], "409 NameTaken"))
    has_ended(server)
