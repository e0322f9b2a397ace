"""What a register has of an agent, asked over HTTP with the agent's token: its live statements and the register's day."""
import json
import os
import re
import time
import urllib.error
import urllib.request
from pathlib import Path
from urllib.parse import urlsplit

from bods_json import JsonFault, Text, text_of
from bods_rules import Records, file_faults, record_faults

SECONDS, TRIES = 30, 60
LIST_LIMIT = 16 << 20
TOKEN = re.compile(r"[\x21-\x7e]{16,64}")
VARIABLE = "BOR_TOKEN"
LOCAL = ("127.0.0.1", "localhost", "::1")
WHY = {
    "NoAgent": "nobody has the token",
    "NotAgent": "the token is the registrar's, and an agent's is needed",
}


class RegisterFault(Exception):
    """Why a register couldn't be asked."""


class NoRedirect(urllib.request.HTTPRedirectHandler):
    """The token goes to the register alone, and nowhere that it may lead to."""

    def redirect_request(self, *_):
        return None


def token_from(path):
    """The token: the first line of a file, else the variable BOR_TOKEN."""
    where = path or VARIABLE
    if path:
        lines = Path(path).read_text(encoding="utf-8", errors="replace").splitlines()
        told = lines[0] if lines else ""
    else:
        told = os.environ.get(VARIABLE, "")
    if not told and not path:
        raise RegisterFault(f"no token: --token-file names a file whose first line it is, or {VARIABLE} has it")
    if not TOKEN.fullmatch(told):
        raise RegisterFault(f"no token in {where}: it has 16 to 64 visible characters of ASCII")
    return told


def parted(url):
    """The parts of a URL of a register."""
    try:
        parts = urlsplit(url)
        is_url = parts.scheme in ("http", "https") and parts.hostname and not (parts.query or parts.fragment or parts.username)
        is_url = is_url and (parts.port is None or parts.port > 0) and url.isascii() and url.isprintable() and " " not in url
    except ValueError:
        is_url = False
    if not is_url:
        raise RegisterFault(f"{url} is no URL of a register, as https://register.example.org")
    return parts


class Register:
    """A register at a URL, asked by an agent."""

    def __init__(self, url, token, tell=lambda text: None):
        parts = parted(url)
        if parts.scheme == "http" and parts.hostname not in LOCAL:
            tell(f"the token goes to {parts.hostname} in plain text: https keeps it secret")
        self.url, self.token, self.tell = url.rstrip("/"), token, tell
        # (a proxy of the environment is none for this machine itself)
        proxies = [urllib.request.ProxyHandler({})] if parts.hostname in LOCAL else []
        self.opener = urllib.request.build_opener(NoRedirect, *proxies)

    def get(self, path, limit=LIST_LIMIT):
        """The body of a reply with status 200; a register that is asked too often is asked again."""
        request = urllib.request.Request(self.url + path, headers={"Authorization": f"Bearer {self.token}"})
        for _ in range(TRIES):
            try:
                with self.opener.open(request, timeout=SECONDS) as reply:
                    return self.body(reply, path, limit)
            except urllib.error.HTTPError as fault:
                if fault.code != 429:
                    raise RegisterFault(self.told(fault, path)) from None
                time.sleep(1)
            except (OSError, ValueError) as fault:
                raise RegisterFault(f"cannot reach {self.url}: {getattr(fault, 'reason', fault)}") from None
            except Exception as fault:
                raise RegisterFault(f"{self.url}{path} answers no HTTP: {type(fault).__name__}") from None
        raise RegisterFault(f"{self.url}{path} answers 429 each time: it is asked too often")

    def body(self, reply, path, limit):
        data = reply.read(limit + 1)
        if len(data) > limit:
            raise RegisterFault(f"{self.url}{path} answers more than {limit:,} bytes")
        return data

    def told(self, fault, path):
        """A reply with another status, with its refusal where it has one."""
        try:
            name = json.loads(fault.read(4096))["refusal"]
        except (ValueError, KeyError, TypeError, OSError):
            name = ""
        why = WHY.get(name, "")
        return f"{self.url}{path} answers {fault.code}{f' {name}' if name else ''}{f': {why}' if why else ''}"

    def value(self, path):
        try:
            return json.loads(self.get(path))
        except ValueError:
            raise RegisterFault(f"{self.url}{path} answers no JSON, so it is no register") from None

    # ---- what an agent sees

    def day(self):
        """The register's day: what a snapshot of anything is of."""
        told = self.value("/snapshot?agent=x&declaration=x")
        if not isinstance(told, dict) or not isinstance(told.get("date"), str):
            raise RegisterFault(f"{self.url} doesn't tell its day, so it is no register")
        return told["date"]

    def filings(self):
        """The agent's live filings in order, each its due day and its file's value."""
        lines = self.value("/filings")
        keys = [(it["key"], it["due"]) for it in lines if it["state"] != "withdrawn"] if is_list_of_filings(lines) else None
        if keys is None:
            raise RegisterFault(f"{self.url}/filings lists no filings, so it is no register")
        for at, (key, due) in enumerate(keys, 1):
            self.tell(f"reads filing {at} of {len(keys)}") if at % 100 == 0 else None
            try:
                yield due, Text(text_of(self.get(f"/filings/{key}/file"))).document().value
            except JsonFault:
                raise RegisterFault(f"the file of filing {key} is no JSON") from None


def is_list_of_filings(lines):
    names = ("key", "due", "state")
    return isinstance(lines, list) and all(isinstance(it, dict) and all(isinstance(it.get(name), str) for name in names) for it in lines)


class Live(Records):
    """An agent's live statements as a register has them, each by its identifier, and the register's day."""

    def __init__(self, register):
        super().__init__()
        self.today, self.statements = register.day(), {}
        for due, value in register.filings():
            if next(file_faults(value), None):
                raise RegisterFault(f"a file of {register.url} isn't read here as it was there")
            for fault in record_faults(value, self, due):
                raise RegisterFault(f"a file of {register.url} isn't read here as it was there: {fault.line()}")
            self.statements.update((it["statementId"], it) for it in value)
        self.ids = {name: (None, key) for name, (_, key) in self.ids.items()}
        for last in self.last.values():
            last.place = None
