"""Words, files that are read, and the three streams."""
import os
import subprocess
from pathlib import Path

from lib.checking import DB, ENROLLED, ENROLMENT, LODGED, REPORT, begun, check, ended, failed, is_so, replied
from lib.checking import report, write
from lib.notation import first_file, request_of
from lib.program import REGISTER, SECONDS, Ended, free_port
from lib.replies import reply_of

LISTED = "filing 1 published\n1\tentity\tnew\tc1\te1\n2\tperson\tnew\tc1\tp1\n3\trelationship\tnew\tc1\tr1\n"
TAKEN = (ENROLMENT, "409 NameTaken")


def piped(bor, folder, words, **streams):
    """A run whose streams are given."""
    streams = {"stdin": subprocess.DEVNULL, "stdout": subprocess.PIPE, "stderr": subprocess.PIPE, **streams}
    return Ended(subprocess.run([bor.path, *words], cwd=folder, timeout=SECONDS, **streams))


@check
def a_value_that_does_not_fit_makes_no_file(bor, folder):
    """a value that doesn't fit, and a missing file, make no register"""
    name = write(folder, "enrol.http", request_of(ENROLMENT))
    for words in (
        ["--registrar", "short", "--day", "2024-02-01", name],
        ["--registrar", "registrar-token-0001", "--day", "2024-02-30", name],
        REGISTER,
    ):
        ran = bor.run(["exchange", "--db", DB, *words], folder)
        is_so((ran.status, ran.output) == (2, b"") and ran.errors, f"{words}: {ran.told()}")
    is_so(not Path(folder, DB).exists(), "a register was made")


@check
def a_word_that_is_no_text_is_wrong(bor, folder):
    """a word that isn't UTF-8 is told as wrong"""
    ran = bor.run(["check", b"\xff.json"], folder)
    is_so((ran.status, ran.output) == (2, b"") and ran.errors, ran.told())


@check
def words_may_stand_in_any_order(bor, folder):
    """words with an equals sign, in any order, and a file after two dashes that begins with one"""
    write(folder, "-e.http", request_of(ENROLMENT))
    words = ["exchange", "--day=2024-02-01T09:00:00Z", "--registrar=registrar-token-0001", "--db=a.db", "--", "-e.http"]
    replied(bor.run(words, folder), [ENROLLED])
    is_so(Path(folder, "a.db").exists(), "no register was made")


@check
def the_values_at_their_ends_fit(bor, folder):
    """the greatest port, and none and most connections fit: the register is looked for"""
    for port, connections in (("65535", "0"), ("1", "1000000")):
        ran = bor.run(["serve", "--port", port, "--connections", connections, "--db", "none.db"], folder)
        failed(ran, "no register in none.db")


# ---- what is read


@check
def a_named_file_is_checked_and_stays(bor, folder):
    """a named file is checked and stays as it is; standard input isn't read"""
    for data in (first_file(), b" " * 10_000 + first_file()):
        name = write(folder, "file.json", data)
        ended(bor.run(["check", name], folder, b"[]"), 0, LISTED)
        is_so(Path(folder, name).read_bytes() == data, "the file has changed")


@check
def a_file_comes_byte_by_byte(bor, folder):
    """a file that comes a byte a read is checked as one that comes at once, whatever its first fault is"""
    files = [first_file(), first_file()[:-1], b"", b"[]", b"[{}]", first_file().ljust(1_048_576), b" " * 1_048_577]
    for data in files:
        slowly, ran = bor.run_slowly(["check"], folder, data), bor.run(["check"], folder, data)
        is_so(slowly.told() == ran.told(), f"{data[:40]!r}: {slowly.told()}, and at once {ran.told()}")
    ended(bor.run_slowly(["check"], folder, first_file()), 0, LISTED)


@check
def a_file_named_as_a_command_is_checked(bor, folder):
    """a file with the name of a command is checked"""
    write(folder, "exchange", b"[]")
    ended(bor.run(["check", "exchange"], folder), 1, "refused NoStatements\n")


@check
def a_file_that_cannot_be_read_is_told(bor, folder):
    """a file that can't be read is told: none, and a folder"""
    for name in ("nowhere.json", "/", "no-such-folder/a.json"):
        failed(bor.run(["check", name], folder), f"cannot read {name}")


@check
def standard_input_that_fails_is_told(bor, folder):
    """standard input that can't be read is told"""
    with open("/proc/self/mem", "rb") as broken:
        failed(piped(bor, folder, [], stdin=broken), "cannot read standard input")
    place = os.open("/", os.O_RDONLY)
    try:
        failed(piped(bor, folder, ["check"], stdin=place), "cannot read standard input")
    finally:
        os.close(place)


@check
def requests_that_cannot_be_read_are_told(bor, folder):
    """each request that can't be read is told, and the others are answered in order"""
    name = write(folder, "enrol.http", request_of(ENROLMENT))
    words = ["exchange", *REGISTER]
    lines = "bor: cannot read a.http\nbor: cannot read /\nbor: cannot read b.http\n"
    ended(bor.run([*words, "a.http", "/", "b.http"], folder), 3, "", lines)
    replied(bor.run([*words, "/", name, name], folder), [ENROLLED, TAKEN], "bor: cannot read /\n")


@check
def the_greatest_status_is_given(bor, folder):
    """the exit status of an exchange is the greatest of its replies'"""
    name = write(folder, "enrol.http", request_of(ENROLMENT))
    replied(bor.run(["exchange", *REGISTER, name], folder), [ENROLLED])
    replied(bor.run(["exchange", *REGISTER, name, name], folder), [ENROLLED, TAKEN])


@check
def a_request_may_stand_before_other_bytes(bor, folder):
    """a file that goes on behind its request, for more bytes than a request may have, is answered"""
    write(folder, "long.http", request_of(ENROLMENT) + b"\xff" * 3_000_000)
    replied(bor.run(["exchange", *REGISTER, "long.http"], folder), [ENROLLED])


# ---- what is written


def commands(bor, folder):
    """A command of each kind that writes, over a register with the first lodging."""
    begun(bor, folder, LODGED)
    name = write(folder, "enrol.http", request_of(ENROLMENT))
    seen = ["--viewer", "alder", "--agent", "alder", "--declaration", "c1", "--record", "e1"]
    return [
        ["check", write(folder, "file.json", b"[]")],
        ["--help"],
        ["exchange", *REGISTER, name, name, name],
        ["exchange", "--db", DB, *REGISTER, name],
        ["report", "--db", DB, *seen],
        ["report", "--db", DB, *seen, "--evidence"],
        ["serve", "--db", DB, "--port", "PORT", "--connections", "0"],
        ["migrate", "--db", DB],
    ]


@check
def a_full_output_is_not_told(bor, folder):
    """standard output that takes nothing fails the command, and no line tells of it"""
    for words in commands(bor, folder):
        words = [str(free_port()) if word == "PORT" else word for word in words]
        with open("/dev/full", "wb") as full:
            ran = piped(bor, folder, words, stdout=full)
        is_so((ran.status, ran.errors) == (3, b""), f"{words[:2]}: {ran.told()}")
    ended(report(bor, folder), 0, REPORT)


@check
def a_closed_output_is_not_told(bor, folder):
    """standard output whose reader has gone fails the command, and no line tells of it"""
    for words in commands(bor, folder):
        words = [str(free_port()) if word == "PORT" else word for word in words]
        reading, writing = os.pipe()
        os.close(reading)
        try:
            ran = piped(bor, folder, words, stdout=writing)
        finally:
            os.close(writing)
        is_so((ran.status, ran.errors) == (3, b""), f"{words[:2]}: {ran.told()}")


@check
def an_output_that_breaks_off_has_a_front(bor, folder):
    """an output that breaks off in its midst has a front of the replies"""
    name = write(folder, "enrol.http", request_of(ENROLMENT))
    whole = b"".join(reply_of(wanted, ask, "")[1] for ask, wanted in [ENROLLED, *[TAKEN] * 1999])
    words = ["exchange", *REGISTER, *[name] * 2000]
    with subprocess.Popen(
        [bor.path, *words], cwd=folder, stdout=subprocess.PIPE, stderr=subprocess.PIPE
    ) as ran:
        front = ran.stdout.read(1000)
        ran.stdout.close()
        errors = ran.stderr.read()
    is_so(whole.startswith(front) and len(front) == 1000, f"no front of the replies: {front[:200]!r}")
    is_so((ran.returncode, errors) == (3, b""), f"status {ran.returncode}, errors {errors!r}")


@check
def errors_that_cannot_be_written_change_nothing(bor, folder):
    """a line that can't be written changes neither the status nor the replies"""
    name = write(folder, "enrol.http", request_of(ENROLMENT))
    with open("/dev/full", "wb") as full:
        ran = piped(bor, folder, ["check", "nowhere.json"], stderr=full)
        is_so((ran.status, ran.output) == (3, b""), ran.told())
        ran = piped(bor, folder, ["exchange", *REGISTER, "nowhere.http", name], stderr=full)
        is_so((ran.status, ran.output) == (3, reply_of(ENROLLED[1], ENROLMENT, "")[1]), ran.told())
        ran = piped(bor, folder, ["chek"], stderr=full)
        is_so((ran.status, ran.output) == (2, b""), ran.told())
