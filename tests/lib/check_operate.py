"""The commands of docs/OPERATE.md."""
import contextlib
import http.client
import os
import re
import shlex
import shutil
import signal
import subprocess
import time
from pathlib import Path

from lib import dpkg, standin_tools
from lib.checking import check, is_so, not_run
from lib.program import TOP, free_port

PAGE = "docs/OPERATE.md"
BLOCK = re.compile(r"^```(\w+)\n(.*?)^```$", re.M | re.S)
# What the block of commands has that sets the machine up by the package, and the one that does it without.
PACKED, BY_HAND = "tools/package ", "install -m 755 crates/bor/out/bor "
# Folders of the machine, for each of which one of the test's stands.
FOLDERS = ["/usr/local/bin", "/usr/local/share", "/usr/bin", "/usr/share", "/etc", "/var/lib", "/var/log", "/var/backups", "/srv", "/tmp"]
MADE = [*FOLDERS, "/etc/systemd/system", "/etc/nginx/conf.d", "/etc/nginx/snippets", "/var/log/nginx", "/run"]
PORTS = range(8080, 8084)
READERS = ["8081", "8082", "8083"]
BANK = {"Host": "banks.example.org", "Authorization": "Bearer alder-token-000002"}
# What the registrar alone may do, which nginx lets come from its machines alone.
REGISTRAR = [("POST", "/day?date=2030-01-01"), ("POST", "/agents?name=cedar"), ("PUT", "/agents/alder"), ("GET", "/register")]
CHAINS = "/chains?agent=alder&declaration=c1&record=e1"
NGINX = """daemon off;
master_process off;
pid {0}/run/nginx.pid;
error_log {0}/run/nginx.journal;
events {{ worker_connections 64; }}
http {{
    client_body_temp_path {0}/run/client;
    proxy_temp_path {0}/run/proxy;
    fastcgi_temp_path {0}/run/fastcgi;
    uwsgi_temp_path {0}/run/uwsgi;
    scgi_temp_path {0}/run/scgi;
    include conf.d/*.conf;
}}
"""
SECONDS = 240


class Machine:
    """Folders that stand for a machine's, and the commands that are run there."""

    def __init__(self, bor, root, is_packed):
        self.bor, self.root, self.is_packed = bor, Path(root), is_packed
        self.ports = {str(it): str(free_port()) for it in PORTS}
        for folder in MADE:
            Path(f"{root}{folder}").mkdir(parents=True, exist_ok=True)
        tools = self.root / "tools"
        tools.mkdir()
        standin_tools.made(tools)
        # (as `apt-get install -qq FILE`)
        words = shlex.join([*dpkg.prepared(self.root), "--install"])
        (tools / "apt-get").write_text(f'#!/bin/sh\nexec {words} "$3" > /dev/null\n')
        (tools / "apt-get").chmod(0o755)
        self.programs, self.units = (self.root / it for it in (("usr/bin", "usr/lib/systemd/system") if is_packed else ("usr/local/bin", "etc/systemd/system")))
        self.variables = {
            **os.environ,
            "PATH": f"{tools}:{self.programs}:{os.environ['PATH']}",
            "UNITS": str(self.units),
            "RUNNING": f"{root}/run",
            "LC_ALL": "C",
        }

    def here(self, text):
        """The text with the machine's folders, ports and program in place of those of the page."""
        text = re.sub("|".join(self.ports), lambda it: self.ports[it[0]], text)
        text = re.sub("|".join(rf"(?<![\w/!]){re.escape(it)}(?=[/ \n:)])" for it in FOLDERS), lambda it: f"{self.root}{it[0]}", text)
        return text.replace("crates/bor/out/bor", self.bor.path).replace(PACKED, f"{PACKED}--program {self.bor.path} ")

    def blocks(self):
        """The page's blocks, each with what stands below it, but for those of the other way to set the machine up."""
        page = (TOP / PAGE).read_text(encoding="utf-8")
        found = [(it[1], it[2]) for it in BLOCK.finditer(page)]
        for (kind, text), (kind_below, below) in zip(found, [*found[1:], ("", "")]):
            if (BY_HAND if self.is_packed else PACKED) not in text:
                yield kind, text, below if kind_below == "text" else ""

    def set_up(self):
        """Has what was installed find the machine's folders and ports."""
        for file in [self.programs / "bor-day", *self.units.glob("bor*")]:
            file.write_text(self.here(file.read_text()))

    def write(self, kind, text):
        """Writes a file whose first line tells its path; a package has its units already."""
        if self.is_packed:
            if kind == "ini":
                return
            text = text.replace("/usr/local/", "/usr/")
        head, _, rest = self.here(text).partition("\n")
        path = Path(head.removeprefix("# "))
        is_so(path.is_absolute() and path.parent.is_dir(), f"{head!r} is no path for a file")
        path.write_text(rest)

    def run(self, text):
        script = f"set -eu\n{self.here(text)}"
        words = ["sh", "-c", script]
        ran = subprocess.run(
            words, cwd=TOP, env=self.variables, capture_output=True, text=True, timeout=SECONDS, stdin=subprocess.DEVNULL, check=False
        )
        is_so((ran.returncode, ran.stderr) == (0, ""), f"{text!r:.300} ended with {ran.returncode}: {ran.stdout}{ran.stderr}")
        return ran.stdout.replace("\r\n", "\n")

    def process(self, name):
        """The process of a unit, that of its command."""
        return int((self.root / "run" / f"{name}.process").read_text())

    @contextlib.contextmanager
    def nginx(self):
        """nginx with the page's files, but for TLS; it gives the port for both names."""
        folder, port = self.root / "etc" / "nginx", free_port()
        for file in [*folder.glob("conf.d/*"), *folder.glob("snippets/*")]:
            text = re.sub(r"(?m)^ *ssl_.*\n", "", file.read_text())
            file.write_text(text.replace("listen 443 ssl", f"listen 127.0.0.1:{port}"))
        (folder / "nginx.conf").write_text(NGINX.format(self.root))
        words = ["nginx", "-e", f"{self.root}/run/nginx.journal", "-c", f"{folder}/nginx.conf"]
        with subprocess.Popen(words, stdin=subprocess.DEVNULL, stdout=subprocess.DEVNULL, stderr=subprocess.PIPE) as ran:
            try:
                waited_for(port, lambda: ran.poll() is None)
                is_so(ran.poll() is None, f"nginx ended with {ran.poll()}")
                yield port
            finally:
                ran.terminate()

    def stop(self):
        for mark in (self.root / "run").glob("*"):
            if mark.suffix not in (".journal", ".process"):
                subprocess.run(["systemctl", "stop", mark.name], env=self.variables, check=False)


def waited_for(port, is_going=lambda: True):
    """Something listens on the port, or what should is gone."""
    until = time.monotonic() + SECONDS
    while is_going() and time.monotonic() < until:
        with contextlib.suppress(OSError):
            http.client.HTTPConnection("127.0.0.1", port).connect()
            return
        time.sleep(0.02)


def asked(port, method="GET", target=CHAINS, **fields):
    """The status of a request of a bank, in which other fields may stand."""
    client = http.client.HTTPConnection("127.0.0.1", port, timeout=SECONDS)
    client.request(method, target, headers={**BANK, **fields})
    reply = client.getresponse()
    reply.read()
    return reply.status


def the_page_is_given(port):
    """nginx itself gives the page, with its headers."""
    client = http.client.HTTPConnection("127.0.0.1", port, timeout=SECONDS)
    client.request("GET", "/picture", headers=BANK)
    reply = client.getresponse()
    told = [reply.status, reply.read() == (TOP / "web" / "index.html").read_bytes()]
    told += [reply.getheader(it) for it in ("Content-Type", "Cache-Control", "Referrer-Policy")]
    is_so(told == [200, True, "text/html; charset=utf-8", "no-store", "no-referrer"], f"the page came as {told}")


def readers_are_left_alone(machine):
    """Readers that have the copy run on, and so do all where there is none; no part of a copy is left."""
    folder, ports = machine.root / "var" / "lib" / "bor-readers", [machine.ports[it] for it in READERS]
    whole, none = (["bor-readers", f"{machine.root}/var/lib/{it}", str(folder), *ports] for it in ("bor/register.db", "none.db"))
    told = []
    for run in (whole, whole, none, whole[:3]):
        ran = subprocess.run(run, env=machine.variables, capture_output=True, timeout=SECONDS, check=False)
        told.append((ran.returncode, [machine.process(f"bor-reader@{it}") for it in ports]))
    is_so([status for status, _ in told] == [0, 0, 1, 2], f"bor-readers ended with {told}")
    is_so(all(it == told[0][1] for _, it in told), f"readers were started again: {told}")
    left = sorted({it.name.removesuffix("-wal") for it in folder.iterdir()})
    is_so(left == sorted([*(f"{it}.db" for it in ports), "copied"]), f"{left} are left")


def the_old_token_is_nobodys(machine):
    """Neither the register nor a reader answers the token that was renewed."""
    old = {"Authorization": BANK["Authorization"].replace("2", "1")}
    told = [[asked(int(machine.ports[str(port)]), **fields) for port in PORTS] for fields in (old, {})]
    is_so(told == [[401] * len(PORTS), [200] * len(PORTS)], f"the old token and the new one had {told}")


def the_day_is_moved_by_its_unit(machine):
    """The unit of the day refuses a step of years, of which its journal tells; once it is said, the unit finds nothing to do."""
    unit, journal = ["systemctl", "start", "bor-day"], machine.root / "run" / "bor-day.journal"
    told = [subprocess.run(it, env=machine.variables, capture_output=True, timeout=SECONDS, check=False).returncode for it in (unit, ["bor-day", "--yes"], unit)]
    is_so(told == [1, 0, 0], f"bor-day ended with {told}: {journal.read_text()}")
    refused, said = journal.read_text().splitlines()
    is_so(refused.endswith(": more than 7 need --yes") and said.endswith(" already: nothing to do"), f"{refused!r}, {said!r}")


def banks_are_answered(machine):
    """Behind nginx banks are answered while each reader is killed in its turn; no log of nginx has a key or a query."""
    with machine.nginx() as port:
        for name in READERS:
            os.kill(machine.process(f"bor-reader@{machine.ports[name]}"), signal.SIGKILL)
            told = [asked(port) for _ in range(5)]
            is_so(told == [200] * 5, f"without the reader of {name}, banks had {told}")
            waited_for(int(machine.ports[name]))
        told = [asked(port, "POST", "/day?date=2030-01-01"), asked(port, "DELETE", "/filings/secret")]
        told += [asked(port, *it, Host="register.example.org") for it in REGISTRAR]
        is_so(told == [403] * 6, f"changes by a bank, and what the registrar alone may do from elsewhere, had {told}")
        for name in READERS:
            subprocess.run(["systemctl", "stop", f"bor-reader@{machine.ports[name]}"], env=machine.variables, check=True)
        is_so(asked(port) == 502, "somebody answers in place of the readers")
        the_page_is_given(port)
    logs = {it: it.read_text() for it in (machine.root / "var" / "log" / "nginx").iterdir()}
    lines = "".join(logs.values()).splitlines()
    is_so(len(lines) == 23 and not [it for it in lines if "/" in it], f"nginx wrote {lines}")


def does_what_it_says(bor, folder, is_packed):
    machine, ran = Machine(bor, folder, is_packed), 0
    try:
        for kind, text, below in machine.blocks():
            if kind in ("ini", "nginx"):
                machine.write(kind, text)
            if kind == "sh":
                told, ran, wanted = machine.run(text), ran + 1, machine.here(below)
                is_so(told.rstrip("\n") == wanted.rstrip("\n"), f"{text!r:.200}: wanted {wanted!r}, told {told!r}")
            if PACKED in text or BY_HAND in text:
                machine.set_up()
        readers_are_left_alone(machine)
        the_old_token_is_nobodys(machine)
        the_day_is_moved_by_its_unit(machine)
        if shutil.which("nginx"):
            banks_are_answered(machine)
    finally:
        machine.stop()
    is_so(ran >= 12, f"{ran} blocks were run")
    registers = [it for it in Path(folder, "var").rglob("*.db*") if it.suffix != ".sha256"]
    readable = [str(it) for it in registers if it.stat().st_mode & 0o077]
    is_so(not readable, f"others may read {readable}")


@check
def the_page_for_operators_does_what_it_says(bor, folder):
    """each block of commands of docs/OPERATE.md does what the page says, in order, on a machine of folders, where the repository is installed"""
    does_what_it_says(bor, folder, is_packed=False)


@check
def the_page_does_so_by_the_package(bor, folder):
    """the same where the package is installed, with the units that it has"""
    if dpkg.missing():
        not_run(dpkg.missing())
    does_what_it_says(bor, folder, is_packed=True)
