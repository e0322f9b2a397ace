"""Cut, oversized and endless input: fronts of the first lodging, and clients of a server that behave badly."""
from lib import hostile_clients
from lib.checking import check, is_so
from lib.notation import first_request, request_of
from lib.replies import replies_in, reply_of
from lib.rows import enrolments

# A client of the tests stops at each tenth byte; tests/long/hostile-clients asks for each byte.
STEP = 10


@check
def each_front_of_a_request_is_cut_short(bor, folder):
    """each proper front of the first lodging, in a new register, is CutShort and lodges nothing"""
    request = first_request()
    before = [it.request for it in enrolments()]
    wanted = [reply_of(text, ask, "")[1] for ask, text in (("raw", "400 CutShort"), ("alder filings", "200 []"))]
    is_so(len(request) == 745, f"the request has {len(request)} bytes")
    for length in range(len(request)):
        ran = bor.exchange([*before, request[:length], request_of("alder filings")], folder)
        is_so((ran.status, ran.errors) == (1, b""), f"{length} bytes: {ran.told()}")
        is_so(replies_in(ran.output)[2:] == wanted, f"{length} bytes: {ran.told()}")


@check
def a_client_resets_in_its_reply(bor, folder):
    """a client that resets at a tenth byte of its reply holds nobody up, and its lodging is done once"""
    hostile_clients.resets_in_replies(bor, folder, STEP)


@check
def a_client_resets_in_its_request(bor, folder):
    """a client that resets at a tenth byte of its request is a failed connection, and changes nothing"""
    hostile_clients.resets_in_requests(bor, folder, STEP)


@check
def a_client_sends_no_more(bor, folder):
    """a client that sends no more at a tenth byte of its request is told so, and changes nothing till it is whole"""
    hostile_clients.half_closes(bor, folder, STEP)


@check
def a_client_resets_in_a_large_reply(bor, folder):
    """a client that resets in the midst of a large reply holds nobody up"""
    hostile_clients.resets_in_large_replies(bor, folder, [0, 1, 200, 65_536, 1_000_000])


@check
def clients_never_read(bor, folder):
    """clients that send a request and never read don't hold the next one up"""
    hostile_clients.never_reads(bor, folder)


# What a machine with other work adds to the few milliseconds of a request.
SLACK = 0.02


@check
def many_clients_stay(bor, folder):
    """clients that send nothing, too slowly, or never read, 252 at once, hold nobody up and are cut off"""
    hostile_clients.many_stay(bor, folder, SLACK)


@check
def a_client_more_than_there_are_places(bor, folder):
    """where a client more comes than there are places, the one that was idle for the longest gives way"""
    hostile_clients.one_more_than_places(bor, folder)


@check
def each_has_its_own_time(bor, folder):
    """of clients that have different times left each is cut off as its own is up, and the server rests meanwhile"""
    hostile_clients.own_times(bor, folder)


def sends_for_ever(kind):
    def asked(bor, folder):
        hostile_clients.sends_for_ever(bor, folder, kind)
    asked.__doc__ = f"a client that sends for ever is cut off: {kind}"
    return asked


for name in hostile_clients.QUICK:
    check(sends_for_ever(name))
