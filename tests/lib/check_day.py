"""Moving the register's day on: tools/day, beside a server that stands for the register's."""
import contextlib
import datetime
import json
import os
import subprocess
import sys
import threading
import time
from http.server import BaseHTTPRequestHandler, ThreadingHTTPServer
from pathlib import Path

from lib.checking import check, is_so
from lib.program import TOP

TOKEN = "registrar-token-0001"
DAY = "2024-02-01"
SECONDS = 60
SCRIPT = TOP / "tools" / "day"
# The script with other constants, as `STEP = 0.05`, in the words' place.
CHANGED = "import runpy, sys; it = runpy.run_path(sys.argv.pop(1)); exec(sys.argv.pop(1), it['moved'].__globals__); sys.exit(it['main'](sys.argv[1:]))"
# What stands in the files of a header that has no token, or more than its line.
NO_HEADERS = [b"", b"\n", TOKEN.encode(), b"Authorization: " + TOKEN.encode(), b"Authorization: Bearer\n", b"Authorization: Bearer %b\n" % TOKEN.encode() * 2]
NO_HEADERS += [b"Authorization: Bearer %b\n%b" % (TOKEN.encode(), it) for it in (b"no field", b": a value", b"A:\n", b"A: \x00\n", b"A: \xff\n")]


class Register:
    """A register's day behind a port: it answers its day and moves it on, but for what is said before of the next requests.

    It has its port at once, and listens from `with` on; before that nobody else can listen there.
    """

    def __init__(self, day=DAY, before=(), seconds=0.0):
        self.day, self.before, self.seconds, self.asked = day, list(before), seconds, []

        class Handler(BaseHTTPRequestHandler):
            def do_GET(handler):
                self.answer(handler)

            do_POST = do_GET

            def log_message(handler, *_):
                pass

        self.server = ThreadingHTTPServer(("127.0.0.1", 0), Handler, bind_and_activate=False)
        self.server.daemon_threads = True
        self.server.server_bind()
        self.port = self.server.server_address[1]

    def answer(self, handler):
        asked = f"{handler.command} {handler.path}"
        self.asked.append(asked)
        time.sleep(self.seconds)
        is_registrar = handler.headers.get_all("Authorization") == [f"Bearer {TOKEN}"]
        status, body = (200, self.told(asked)) if is_registrar else (401, '{"refusal":"NoAgent"}')
        said = self.before.pop(0) if self.before else None
        if said == "breaks off":
            return
        status, body = said or (status, body)
        with contextlib.suppress(OSError):
            handler.send_response(status)
            handler.send_header("Content-Length", str(len(body)))
            handler.send_header("Connection", "close")
            handler.end_headers()
            handler.wfile.write(body.encode())

    def told(self, asked):
        if asked == "GET /register":
            return json.dumps({"agents": [{"agent": "alder", "published": 1}], "day": self.day}, separators=(",", ":"))
        # (a day that goes back is never asked for)
        self.day = max(self.day, asked.removeprefix("POST /day?date="))
        return json.dumps({"day": self.day}, separators=(",", ":"))

    def __enter__(self):
        self.server.server_activate()
        threading.Thread(target=self.server.serve_forever, kwargs={"poll_interval": 0.02}, daemon=True).start()
        return self

    def __exit__(self, *_):
        self.server.shutdown()
        self.server.server_close()


def words_for(folder, port, *words):
    header = Path(folder, "header")
    if not header.exists():
        header.write_text(f"Authorization: Bearer {TOKEN}\n")
    return ["-H", f"@{header}", "--server", f"http://127.0.0.1:{port}", *words]


def begun(words, constants=None):
    """A run of the script, which sees no package and takes no proxy, whatever the environment says."""
    python = [sys.executable, "-I", "-S", "-B", *(["-c", CHANGED, SCRIPT, constants] if constants else [SCRIPT])]
    streams = {"stdin": subprocess.DEVNULL, "stdout": subprocess.PIPE, "stderr": subprocess.PIPE}
    return subprocess.Popen([*python, *words], text=True, env={**os.environ, "http_proxy": "http://127.0.0.1:9"}, **streams)


def ended(ran, status, output="", errors=""):
    """The run ended with this status and wrote these lines, and no token."""
    told, said = ran.communicate(timeout=SECONDS)
    is_so(TOKEN not in told + said, "a token is told")
    is_so((ran.returncode, told, said) == (status, output, errors), f"wanted {status}, {output!r}, {errors!r}, had {ran.returncode}, {told!r}, {said!r}")


def moves(folder, register, words, status, output="", errors="", constants=None):
    """One run beside the register, whose port the lines may have as PORT."""
    named = f"127.0.0.1:{register.port}"
    ended(begun(words_for(folder, register.port, *words), constants), status, output, errors.replace("PORT", named))


@check
def a_step_of_a_day_is_seven_days_at_most(bor, folder):
    """tools/day goes on by seven days, by more with --yes alone, never back, and not at all on the same day"""
    with Register() as register:
        ask, set_to = ["GET /register"], "POST /day?date="
        moves(folder, register, ["2024-02-08"], 0, "7 days on, from 2024-02-01 to 2024-02-08\nthe day is 2024-02-08\n")
        moves(folder, register, ["2024-02-16"], 1, "", "day: 8 days on, from 2024-02-08 to 2024-02-16: more than 7 need --yes\n")
        moves(folder, register, ["--yes", "2024-02-07"], 1, "", "day: 2024-02-07 is before the register's day, 2024-02-08\n")
        moves(folder, register, ["2024-02-08"], 0, "the day is 2024-02-08 already: nothing to do\n")
        is_so(register.asked == [*ask, f"{set_to}2024-02-08", *ask * 3], f"asked {register.asked}")
        moves(folder, register, ["--yes", "2024-02-16"], 0, "8 days on, from 2024-02-08 to 2024-02-16\nthe day is 2024-02-16\n")
        moves(folder, register, ["2024-02-17"], 0, "1 day on, from 2024-02-16 to 2024-02-17\nthe day is 2024-02-17\n")
        moves(folder, register, ["2044-02-17", "--yes"], 0, "7,305 days on, from 2024-02-17 to 2044-02-17\nthe day is 2044-02-17\n")
        is_so(register.day == "2044-02-17", f"the day is {register.day}")


@check
def the_present_day_is_that_of_utc(bor, folder):
    """without a date tools/day goes on to the present day in UTC, whatever the time zone"""
    while True:
        today = datetime.datetime.now(datetime.timezone.utc).date()
        before = today - datetime.timedelta(1)
        with Register(day=str(before)) as register:
            words = words_for(folder, register.port)
            for zone in ("UTC+14", "UTC-14"):
                ran = subprocess.run([SCRIPT, *words], env={**os.environ, "TZ": zone}, capture_output=True, text=True, timeout=SECONDS, check=False)
                is_so(ran.returncode == 0, f"{zone}: {ran}")
            if today == datetime.datetime.now(datetime.timezone.utc).date():
                is_so(register.asked == ["GET /register", f"POST /day?date={today}", "GET /register"], f"asked {register.asked}")
                return


@check
def a_server_that_comes_late_is_waited_for(bor, folder):
    """tools/day waits for a server that comes late, answers 503 or breaks off, also where it broke off behind the change"""
    late, short = Register(), "STEP = 0.05"
    told, again = "1 day on, from 2024-02-01 to 2024-02-02\nthe day is 2024-02-02\n", "tried again, for 300 s at most\n"
    ran = begun(words_for(folder, late.port, "2024-02-02"), short)
    said = ran.stderr.readline()
    is_so(said == f"day: nothing listens on 127.0.0.1:{late.port}: {again}", f"nobody was waited for: {said!r}")
    with late:
        ended(ran, 0, told)
    with Register(before=[(503, '{"refusal":"StoreFault"}')] * 2) as register:
        moves(folder, register, ["2024-02-02"], 0, told, f"day: PORT answers 503: {again}", short)
    with Register(before=["breaks off", None, "breaks off"]) as register:
        moves(folder, register, ["2024-02-02"], 0, told, f"day: PORT broke off before its reply was whole: {again}", short)
        is_so(register.asked == ["GET /register", "GET /register", "POST /day?date=2024-02-02", "GET /register"], f"asked {register.asked}")


@check
def nobody_is_waited_for_too_long(bor, folder):
    """tools/day gives up once its time is over: where nothing listens, where 503 stays, and where no reply comes"""
    silent = Register()
    port = silent.port
    ended(begun(words_for(folder, port, "--wait", "0", "2024-02-02")), 3, "", f"day: nothing listens on 127.0.0.1:{port}\n")
    ran = begun(words_for(folder, port, "--wait", "1", "2024-02-02"), "STEP = 0.3")
    ended(ran, 3, "", f"day: nothing listens on 127.0.0.1:{port}: tried again, for 1 s at most\nday: nothing listens on 127.0.0.1:{port}\n")
    silent.server.server_close()
    with Register(before=[(503, "")] * 99) as register:
        moves(folder, register, ["--wait", "0", "2024-02-02"], 3, "", "day: PORT answers 503\n")
    with Register(seconds=1) as register:
        ran = begun(words_for(folder, register.port, "2024-02-02"))
        # (every user of the machine sees these)
        seen = Path(f"/proc/{ran.pid}/cmdline").read_bytes() + Path(f"/proc/{ran.pid}/environ").read_bytes()
        is_so(TOKEN.encode() not in seen, "the process's words have the token")
        ended(ran, 0, "1 day on, from 2024-02-01 to 2024-02-02\nthe day is 2024-02-02\n")
        moves(folder, register, ["2024-02-03"], 3, "", "day: PORT doesn't answer: it is too slow\n", "PATIENCE = 0.3")


@check
def refusals_of_the_day_are_named(bor, folder):
    """tools/day names a refusal of the register, and what answers as no register does, and moves nothing"""
    refused = "day: PORT refuses "
    for before, errors in (
        ([(401, '{"refusal":"NoAgent"}')], f"{refused}GET /register: NoAgent, nobody has the token\n"),
        ([(403, '{"refusal":"NotRegistrar"}')], f"{refused}GET /register: NotRegistrar, the token is an agent's\n"),
        ([(404, '{"refusal":"NoPath"}')], f"{refused}GET /register: NoPath, the program there is an earlier one\n"),
    ):
        with Register(before=before) as register:
            moves(folder, register, ["2024-02-02"], 1, "", errors)
            is_so(register.asked == ["GET /register"] and register.day == DAY, f"asked {register.asked}")
    with Register(before=[None, (409, '{"refusal":"DayBack"}')]) as register:
        step = "1 day on, from 2024-02-01 to 2024-02-02\n"
        moves(folder, register, ["2024-02-02"], 1, step, f"{refused}POST /day?date=2024-02-02: DayBack\n")
    for said in ((200, "<html>"), (200, "[]"), (200, "{}"), (200, '{"day":"2024-02-30"}'), (301, ""), (404, "<html>"), (400, '{"refusal":7}'), (400, '{"refusal":"\\u001b[2J"}')):
        with Register(before=[said]) as register:
            errors = f"day: PORT answers GET /register as no register does, with status {said[0]}\n"
            moves(folder, register, ["2024-02-02"], 3, "", errors)
            is_so(register.day == DAY, "the day was moved")


@check
def a_token_stands_in_a_file_alone(bor, folder):
    """tools/day takes the token from a file with its line, and repeats no word that could be one"""
    for at, text in enumerate(NO_HEADERS):
        header = Path(folder, f"header{at}")
        header.write_bytes(text)
        ended(begun(["-H", f"@{header}"]), 3, "", f"day: no line 'Authorization: Bearer TOKEN' alone in {header}\n")
    ended(begun(["-H", f"@{folder}/none"]), 3, "", f"day: cannot read {folder}/none: No such file or directory\n")
    for words in (["-H", f"Authorization: Bearer {TOKEN}"], ["-H", TOKEN], [TOKEN], ["2024-02-02", TOKEN], ["--server", f"http://{TOKEN}@127.0.0.1"], ["--wait", TOKEN]):
        ran = begun(words)
        told, said = ran.communicate(timeout=SECONDS)
        is_so((ran.returncode, told) == (2, "") and TOKEN not in said, f"{words}: {ran.returncode}, {told!r}, {said!r}")
    with Register() as register:
        words_for(folder, register.port)
        Path(folder, "header").write_bytes(f"\r\nX-More: a b\r\nAuthorization:   Bearer {TOKEN}  \r\n".encode())
        moves(folder, register, ["2024-02-01"], 0, "the day is 2024-02-01 already: nothing to do\n")
