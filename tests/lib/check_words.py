"""What words are answered with: help, what a terminal is told, and a token that isn't told back."""
import os
import re
import subprocess
import threading
import time
from pathlib import Path

from lib.checking import DB, LODGED, begun, check, ended, is_so, report_words, write
from lib.notation import request_of
from lib.program import REGISTER, SECONDS, TOP, free_port

# The commands with their words, as they are asked for.
COMMANDS = {
    "check": ["[FILE]"],
    "init": ["--db <PATH>", "--registrar <TOKEN>", "--registrar-file <FILE>", "--day <DAY>"],
    "exchange": ["--db <PATH>", "--registrar <TOKEN>", "--registrar-file <FILE>", "--day <DAY>", "<FILE>..."],
    "serve": ["--db <PATH>", "--port <PORT>", "--connections <COUNT>", "--memory <MB>", "--log"],
    "report": ["--viewer <AGENT>", "--agent <AGENT>", "--declaration <IDENT>", "--record <IDENT>", "--date <DAY>", "--evidence"],
    "migrate": ["--db <PATH>", "version 1 to version 2"],
}
# No token, but what somebody may take for one.
UNFIT = "secret-token"
UNFIT_LINE = "error: invalid value for '--registrar': it has to be a token, 16 to 64 visible ASCII characters\n"
STATEMENT = b'[{"statementId":"s1"}]\n'
REFUSED = "refused Missing at 1 in statementDate\n"
WAITING = "bor: reading a file from standard input, end with Ctrl-D\n"


def page_of(bor, folder, ways):
    """What is printed for help, the same for each of these words."""
    pages = set()
    for words in ways:
        ran = bor.run(words, folder)
        is_so((ran.status, ran.errors) == (0, b""), f"{words}: {ran.told()}")
        pages.add(ran.output.decode())
    is_so(len(pages) == 1, f"the help is not the same by {ways}")
    return pages.pop()


@check
def help_on_a_command_is_its_page_alone(bor, folder):
    """help on a command is its page alone, with its words; the whole help has each page"""
    whole = page_of(bor, folder, [["--help"], ["help"], ["-h"], ["help", "help"], ["--help", "check"]])
    for command, words in COMMANDS.items():
        page = page_of(bor, folder, [["help", command], [command, "--help"], [command, "-h"]])
        usages = [line for line in page.split("\n") if line.startswith("Usage: ")]
        is_so(len(usages) == 1 and f"{usages[0]} ".startswith(f"Usage: bor {command} "), f"{command}: {usages}")
        missing = [word for word in words if word not in page]
        is_so(not missing, f"the help on {command} does not name {missing}")
        is_so(page in whole and page.split("\n")[0] in whole.split("The pages")[0], f"{command} is not in the whole help")
    is_so(whole.count("Usage: ") == len(COMMANDS) + 1, "the whole help has other pages")


@check
def the_version_is_that_of_the_changelog(bor, folder):
    """the version that is printed is the first that CHANGELOG.md names, and none is asked for beside other words"""
    number = re.search(r"^## \[(\S+)\]", (TOP / "CHANGELOG.md").read_text(), re.M)[1]
    for word in ("--version", "-V"):
        ran = bor.run([word], folder)
        is_so((ran.status, ran.errors) == (0, b""), f"{word}: {ran.told()}")
        is_so(ran.output.decode() == f"bor {number} (tables of version 2)\n", f"{word}: {ran.told()}")
    for words in (["--version", "check"], ["check", "--version"], ["--version", "-V"]):
        ran = bor.run(words, folder)
        is_so((ran.status, ran.output) == (2, b""), f"{words}: {ran.told()}")


@check
def help_on_what_is_no_command_is_wrong(bor, folder):
    """help on what is no command, or on more than one, is a wrong use"""
    for words in (["help", "nonsense"], ["help", "check", "init"], ["help", "--help"], ["nonsense", "--help"]):
        ran = bor.run(words, folder)
        is_so((ran.status, ran.output) == (2, b"") and words[1].encode() in ran.errors, f"{words}: {ran.told()}")


@check
def a_token_that_does_not_fit_is_not_told_back(bor, folder):
    """words with a token that doesn't fit, or that stands where none is taken, are wrong, and it isn't told back"""
    day = ["--day", "2024-02-01"]
    told = [
        (["exchange", "--registrar", UNFIT, *day, "a.http"], UNFIT_LINE),
        (["exchange", f"--registrar={UNFIT}", *day, "a.http"], UNFIT_LINE),
        (["init", "--db", DB, "--registrar", UNFIT, *day], UNFIT_LINE),
        (["init", "--db", DB, f"--registrar={UNFIT * 6}", "--day", "today"], UNFIT_LINE),
        (["init", "--db", DB, "--registrar", UNFIT + " " * 9, *day], UNFIT_LINE),
        (["exchange", "--registrar", UNFIT, "--registrar", UNFIT, *day, "a.http"], None),
        (["exchange", "--registrar", UNFIT, "--registrar-file", "a", *day, "a.http"], None),
        (["exchange", "--registrar", UNFIT], None),
        (["exchange", f"--registar={UNFIT}", *day, "a.http"], None),
        (["exchange", "-registrar", UNFIT, *day, "a.http"], None),
        (["init", f"-r{UNFIT}"], None),
        (["check", f"--registrar={UNFIT}"], None),
        (["serve", f"--registrar={UNFIT}"], None),
        (["--registrar", UNFIT], None),
    ]
    for words, line in told:
        ran = bor.run(words, folder)
        is_so((ran.status, ran.output) == (2, b"") and ran.errors, f"{words}: {ran.told()}")
        is_so(UNFIT.encode() not in ran.errors, f"{words}: {ran.told()}")
        is_so(line in (None, ran.errors.decode()), f"{words}: {ran.told()}")
    is_so(os.listdir(folder) == [], f"files were made: {os.listdir(folder)}")


# ---- standard input


@check
def a_hyphen_is_standard_input(bor, folder):
    """a hyphen in the place of a file is standard input, and a file of that name is reached by its folder"""
    Path(folder, "-").write_bytes(b"[]")
    for words in (["check", "-"], ["check", "--", "-"], ["check"], []):
        ended(bor.run(words, folder, STATEMENT), 1, REFUSED)
    ended(bor.run(["check", "./-"], folder, STATEMENT), 1, "refused NoStatements\n")


def typed(bor, folder, words, text=b"", on=("stdin",)):
    """A run that has a terminal for these streams, on which the text is typed; what the terminal shows comes last."""
    keyboard, terminal = os.openpty()
    streams = {"stdin": subprocess.PIPE, "stdout": subprocess.PIPE, "stderr": subprocess.PIPE, **{name: terminal for name in on}}
    try:
        with subprocess.Popen([bor.path, *words], cwd=folder, **streams) as ran:
            os.close(terminal)
            if "stdin" in on:
                os.write(keyboard, text + b"\x04")
            output, errors = ran.communicate(None if "stdin" in on else text, timeout=SECONDS)
        return ran.returncode, (output or b"").decode(), (errors or b"").decode(), shown_on(keyboard)
    finally:
        os.close(keyboard)


def shown_on(keyboard):
    parts = []
    while True:
        try:
            parts.append(os.read(keyboard, 65_536))
        except OSError:  # nobody has the terminal any more
            return b"".join(parts).decode().replace("\r\n", "\n")


@check
def a_terminal_is_told_that_a_file_is_read_from_it(bor, folder):
    """where standard input is a terminal and no file is named, a line on standard error says that one is read from it"""
    for words in ([], ["check"], ["check", "-"]):
        told = typed(bor, folder, words, STATEMENT)[:3]
        is_so(told == (1, REFUSED, WAITING), f"{words}: {told}")
    status, output, _, shown = typed(bor, folder, ["check"], STATEMENT, ("stdin", "stderr"))
    is_so((status, output) == (1, REFUSED) and WAITING in shown, f"on a terminal: {status} {output} {shown}")


@check
def nobody_else_is_told_so(bor, folder):
    """nothing is told where standard input is no terminal, a file is named, or no file is read"""
    name = write(folder, "file.json", b"[]")
    for words in ([], ["check"], ["check", "-"]):
        told = typed(bor, folder, words, STATEMENT, ("stderr",))
        is_so(told == (1, REFUSED, "", ""), f"{words}: {told}")
    for words, status, output in ((["check", name], 1, "refused NoStatements\n"), (["check", "none.json"], 3, "")):
        told = typed(bor, folder, words)
        is_so(told[:2] == (status, output) and WAITING not in told[2] + told[3], f"{words}: {told}")
    told = typed(bor, folder, ["help", "check"])
    is_so(told[0] == 0 and told[2] == "", f"help: {told}")


# ---- how far a command is

# So many requests, a file of so many bytes, and so many seconds of silence are long.
MANY, LARGE, SILENCE = 20, 33_554_432, 1


def told_beside(bor, folder, words):
    """What a run tells on standard error where that is a terminal, beside what it does elsewhere, and how long it took."""
    plain, start = bor.run(words, folder), time.monotonic()
    status, output, errors, shown = typed(bor, folder, words, on=("stderr",))
    seconds = time.monotonic() - start
    elsewhere = plain.errors.decode()
    is_so((status, output.encode(), errors) == (plain.status, plain.output, ""), f"{words}: {status} {output:.300} {errors}")
    is_so(shown.endswith(elsewhere), f"{words}: {shown!r:.300}, and elsewhere {elsewhere!r:.300}")
    return shown.removesuffix(elsewhere), elsewhere, seconds


def is_told_where_it_is_long(bor, folder, words, line, is_long):
    """The line is told on a terminal alone, and there where this is long; as is what took a second."""
    shown, elsewhere, seconds = told_beside(bor, folder, words)
    is_so(line in shown if is_long else shown == "" or seconds > SILENCE, f"{words[0]} tells {shown!r:.300}")
    is_so(line not in elsewhere, f"{words[0]} tells {elsewhere!r:.300} where there is no terminal")


@check
def a_terminal_is_told_of_many_requests(bor, folder):
    """on a terminal alone it is told that many requests are answered next"""
    names = [write(folder, f"{at}.http", request_of("alder filings")) for at in range(MANY)]
    for count in (MANY, MANY - 1):
        words = ["exchange", *REGISTER, *names[:count]]
        is_told_where_it_is_long(bor, folder, words, f"bor: answering {count} requests\n", count == MANY)


@check
def a_terminal_is_told_of_a_large_file(bor, folder):
    """on a terminal alone it is told that a large file is opened"""
    for size in (LARGE, LARGE - 1):
        with open(Path(folder, "large.db"), "wb") as file:
            file.truncate(size)
        is_told_where_it_is_long(bor, folder, report_words("large.db"), "bor: opening large.db\n", size == LARGE)


def given_slowly(path, data):
    """Gives a pipe's reader the bytes after more than a second."""
    with open(path, "wb") as pipe:
        time.sleep(SILENCE + 0.2)
        pipe.write(data)


@check
def a_terminal_is_told_after_a_second(bor, folder):
    """on a terminal alone, a command that was silent for a second tells how far it is"""
    request = request_of("alder filings")
    quick = write(folder, "quick.http", request)
    wanted = bor.run(["exchange", *REGISTER, quick, quick], folder).output.decode()
    for slow, on, line in (("shown.http", ("stderr",), "bor: read 1 of 2 files\n"), ("silent.http", (), "")):
        os.mkfifo(Path(folder, slow))
        threading.Thread(target=given_slowly, args=[Path(folder, slow), request], daemon=True).start()
        status, output, errors, shown = typed(bor, folder, ["exchange", *REGISTER, slow, quick], on=on)
        is_so((status, output, errors) == (1, wanted, ""), f"it ended as {(status, output, errors)}")
        is_so(line in shown and bool(line) == bool(shown), f"it tells {shown!r}")


@check
def a_terminal_is_told_where_a_server_reads(bor, folder):
    """on a terminal alone, a server without a log tells whether its register is in memory"""
    begun(bor, folder, LODGED)
    for more, line in (([], "3 statements in memory"), (["--memory", "0"], "no statements in memory, the file is read")):
        words = ["serve", "--db", DB, "--port", str(free_port()), "--connections", "0", *more]
        is_told_where_it_is_long(bor, folder, words, f"bor: {line}\n", True)


@check
def what_is_printed_is_the_same_on_a_terminal(bor, folder):
    """what is printed on a terminal is what is printed elsewhere"""
    name = write(folder, "file.json", STATEMENT)
    for words in (["check", name], ["help", "check"], ["exchange", *REGISTER, write(folder, "a.http", request_of("alder filings"))]):
        plain = bor.run(words, folder)
        told = typed(bor, folder, words, on=("stdout",))
        is_so(told == (plain.status, "", plain.errors.decode(), plain.output.decode()), f"{words}: {told}")
