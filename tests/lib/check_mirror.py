"""A server with its register in memory beside its file: `bor serve --memory`."""
from lib.check_backup import lodging
from lib.checking import DB, LODGED, begun, check, is_so
from lib.notation import request_of

IN_MEMORY, FROM_FILE = "bor: {} statements in memory", "bor: no statements in memory, the file is read"
# Changes, and what is asked before and after each of them.
CHANGES = [
    "alder lodge f2 2024-03-01 E s4 e2 #GB-COH/00000001; P s5 p2; R s6 r2 e2<-p2 V60 S10",
    "registrar enrol birch birch-token-000001",
    "birch lodge x1 2024-03-01 E s1 b1 #GB-COH/00000001; P s2 bp; R s3 br b1<-bp V100 in c9",
    "alder withdraw f2",
    "registrar day 2024-03-01",
    "registrar renew birch birch-2-token-000001",
]
READS = [
    "alder filings", "alder file f1", "alder file f2", "alder published", "alder snapshot alder c1",
    "alder chains alder c1 e1", "alder chains alder c1 e2", "birch filings", "birch published", "birch chains birch c9 b1",
    "alder evidence alder c1 e1", "alder evidence alder c1 e2", "birch evidence birch c9 b1",
    "alder entities GB-COH 00000001", "birch entities GB-COH 00000001", "alder entities GB-COH 00000001 2024-01-09",
    "registrar register", "birch-2 filings",
]


def told_by(bor, folder, db, *words):
    """What a server tells of the changes and reads, and its line on the register in memory."""
    server = bor.serve(folder, db, (len(CHANGES) + 1) * (len(READS) + 1), "--log", *words)
    told = []
    for change in ["alder filings", *CHANGES]:
        told += [server.ask(request_of(ask)) for ask in [change, *READS]]
    return told, server.end()[1].decode().split("\n")[0]


@check
def a_server_tells_the_same_from_memory_as_from_its_file(bor, folder):
    """a server tells the same of a register in memory as of the one in its file, after each change"""
    for db in ("mirrored.db", "plain.db"):
        begun(bor, folder, LODGED, db=db)
    mirrored, line = told_by(bor, folder, "mirrored.db")
    plain, other = told_by(bor, folder, "plain.db", "--memory", "0")
    is_so((line, other) == (IN_MEMORY.format(3), FROM_FILE), f"{line!r}, and {other!r} with --memory 0")
    differing = [at for at, pair in enumerate(zip(mirrored, plain)) if pair[0] != pair[1]]
    is_so(not differing, f"replies {differing[:5]} differ, the first: {mirrored[differing[0]]!r:.200}" if differing else "")
    is_so(sum(it.startswith(b"HTTP/1.1 2") for it in plain) > len(plain) // 2, "most of what was asked was refused")


@check
def a_server_outgrows_its_memory(bor, folder):
    """a register that grows past what it may take in memory is read from its file, and tells the same"""
    begun(bor, folder, LODGED)
    lodged = lodging("many", 900)
    asks = [request_of(it) for it in ("alder filings", "alder published", "alder snapshot alder cmany")]
    server = bor.serve(folder, DB, 2 + len(asks), "--log", "--memory", "1")
    first = server.ask(asks[0])
    is_so(server.ask(lodged).startswith(b"HTTP/1.1 201 "), "the file isn't lodged")
    told = [server.ask(it) for it in asks]
    lines = server.end()[1].decode().split("\n")
    is_so(lines[0] == IN_MEMORY.format(3), lines[0])
    is_so(lines.count(FROM_FILE) == 1, "that the register is let go from memory isn't told once")
    is_so(first != told[0], "the lodging isn't seen")
    server = bor.serve(folder, DB, len(asks), "--log", "--memory", "1")
    anew = [server.ask(it) for it in asks]
    line = server.end()[1].decode().split("\n")[0]
    is_so(line == FROM_FILE, line)
    is_so(told == anew, "another server tells something else")
