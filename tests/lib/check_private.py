"""What isn't for everybody: the registrar's token, and who may read a register."""
import os
import stat
from pathlib import Path

from lib.checking import DB, ENROLLED, LODGED, begun, check, failed, is_so, replied, write
from lib.notation import request_of

DAY = ["--day", "2024-02-01"]
TOKEN = b"registrar-token-0001"
# What a file has whose first line is the token.
LINES = [TOKEN, TOKEN + b"\n", TOKEN + b"\r\n", TOKEN + b"\nand more\n", TOKEN + b"\n" + b"x" * 100_000]
# And what has none.
NO_TOKENS = [b"", b"\n" + TOKEN, b"short\n", TOKEN + b" \n", b"x" * 65, b"\xff" * 16, b"registrar token 0001\n", b"x" * 100_000]


def exchange(bor, folder, words, *asks):
    names = [write(folder, f"{at}.http", request_of(ask)) for at, ask in enumerate(asks)]
    return bor.run(["exchange", *words, *DAY, *names], folder)


@check
def a_token_is_told_by_a_file(bor, folder):
    """the registrar's token is the first line of the file that --registrar-file names, over memory and over a file"""
    for at, text in enumerate(LINES):
        name = write(folder, f"token{at}", text)
        for words in ([], ["--db", f"{at}.db"]):
            ran = exchange(bor, folder, [*words, "--registrar-file", name], ENROLLED[0], LODGED[0])
            replied(ran, [ENROLLED, LODGED])


@check
def a_file_without_a_token_is_told(bor, folder):
    """a file that can't be read, or whose first line is no token, is told, and no register is made"""
    for name in ("nothing", "."):
        ran = exchange(bor, folder, ["--db", DB, "--registrar-file", name], ENROLLED[0])
        failed(ran, f"cannot read {name}")
    for at, text in enumerate(NO_TOKENS):
        name = write(folder, f"token{at}", text)
        for words in ([], ["--db", DB]):
            failed(exchange(bor, folder, [*words, "--registrar-file", name], ENROLLED[0]), f"no token in {name}")
    is_so(not Path(folder, DB).exists(), "a register was made")


# ---- who may read a register


def modes(folder):
    return {name: stat.S_IMODE(os.stat(Path(folder, name)).st_mode) for name in (DB, f"{DB}-wal")}


@check
def a_register_is_for_its_owner_alone(bor, folder):
    """a register that is made, and its log, may be read by their owner alone; one that is there keeps its mode"""
    begun(bor, folder, LODGED)
    is_so(modes(folder) == {DB: 0o600, f"{DB}-wal": 0o600}, f"the modes are {modes(folder)}")
    os.remove(Path(folder, f"{DB}-wal"))
    os.chmod(Path(folder, DB), 0o640)
    server = bor.serve(folder, DB, 1)
    is_so(modes(folder) == {DB: 0o640, f"{DB}-wal": 0o640}, f"the modes are {modes(folder)}")
    server.stop()
