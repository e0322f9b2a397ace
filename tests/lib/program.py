"""Runs of the built program."""
import atexit
import contextlib
import fcntl
import itertools
import os
import socket
import subprocess
import threading
from pathlib import Path
from types import SimpleNamespace

TOP = Path(__file__).resolve().parent.parent.parent
BUILT = TOP / "crates" / "bor" / "out" / "bor"
REGISTER = ["--registrar", "registrar-token-0001", "--day", "2024-02-01"]
SECONDS = 60


class Ended:
    """What a run wrote, and its exit status."""

    def __init__(self, ran):
        self.status, self.output, self.errors = ran.returncode, ran.stdout or b"", ran.stderr or b""

    def told(self):
        return f"status {self.status}, output {self.output!r:.300}, errors {self.errors!r:.300}"


class Bor:
    """The program at a path, which sees these variables beside those of the tests."""

    def __init__(self, path, variables=None):
        self.path = str(Path(path).resolve())
        self.variables = variables or {}

    def under(self, variables):
        """The same program, which sees these variables too."""
        return type(self)(self.path, variables)

    def run(self, words, folder, stdin=b"", seconds=SECONDS):
        """A run on these words in a folder."""
        how = {"cwd": folder, "capture_output": True, "timeout": seconds, "env": {**os.environ, **self.variables}}
        return Ended(subprocess.run([self.path, *words], input=stdin, **how))

    def exchange(self, requests, folder, db=None):
        """The requests in one run, each in a file of its own."""
        names = [f"{at}.http" for at in range(len(requests))]
        for name, request in zip(names, requests):
            Path(folder, name).write_bytes(request)
        store = ["--db", db] if db else []
        return self.run(["exchange", *store, *REGISTER, *names], folder)

    def run_slowly(self, words, folder, data):
        """A run whose standard input gives a byte a read; of much data the first do."""
        read, write = os.pipe2(os.O_CLOEXEC | os.O_DIRECT)  # each write is a read of its own
        streams = {"stdin": read, "stdout": subprocess.PIPE, "stderr": subprocess.PIPE}
        with subprocess.Popen([self.path, *words], cwd=folder, env={**os.environ, **self.variables}, **streams) as ran:
            os.close(read)
            limit = threading.Timer(SECONDS, ran.kill)
            limit.start()
            dripped(write, data)
            output, errors = ran.communicate()
            limit.cancel()
        return Ended(SimpleNamespace(returncode=ran.returncode, stdout=output, stderr=errors))

    def exchange_slowly(self, request, folder, db=None):
        """A run of one request, which comes a byte a read."""
        store = ["--db", db] if db else []
        return self.run_slowly(["exchange", *store, *REGISTER, "/dev/stdin"], folder, request)

    def serve(self, folder, db, connections, *words):
        """A server, with more words where they are given; where another program took its port meanwhile, it gets another one."""
        for _ in range(3):
            server = Server(self, folder, db, connections, *words)
            if server.is_listening():
                break
            server.stop()
        return server


# So many bytes are given one a read.
DRIPPED = 2_000


def dripped(pipe, data):
    """Writes the first bytes into the pipe one by one, then the others, and closes it."""
    with contextlib.suppress(BrokenPipeError), open(pipe, "wb", buffering=0) as writer:
        for byte in data[:DRIPPED]:
            writer.write(bytes([byte]))
        fcntl.fcntl(pipe, fcntl.F_SETFL, 0)
        rest = data[DRIPPED:]
        while rest:
            rest = rest[writer.write(rest) :]


# ---- servers

# Below the ports that clients get, and not the same in two runs side by side.
PORTS = itertools.islice(itertools.cycle(range(10_240, 32_768)), os.getpid() * 97 % 22_528, None)
TAKING = threading.Lock()


def free_port():
    """A port that nobody listens on, and that no other server here was given."""
    with TAKING:
        for port in PORTS:
            with socket.socket() as probe:
                try:
                    probe.bind(("127.0.0.1", port))
                except OSError:
                    continue
                return port


class Server:
    """A register that is served on a port, for so many connections; where nothing ends it, the tests' end does."""

    def __init__(self, bor, folder, db, connections, *more):
        self.port = free_port()
        words = ["serve", "--db", db, "--port", str(self.port), "--connections", str(connections), *more]
        streams = {"stdin": subprocess.DEVNULL, "stdout": subprocess.PIPE, "stderr": subprocess.PIPE}
        variables = {**os.environ, **bor.variables}
        self.ran = subprocess.Popen([bor.path, *words], cwd=folder, env=variables, **streams)
        atexit.register(self.ran.kill)
        limit = threading.Timer(SECONDS, self.ran.kill)
        limit.start()
        self.line = self.ran.stdout.readline()
        limit.cancel()

    def is_listening(self):
        return self.line == f"listening 127.0.0.1:{self.port}\n".encode()

    def connect(self):
        return socket.create_connection(("127.0.0.1", self.port), timeout=SECONDS)

    def ask(self, request, ends=False):
        """The reply to a request; the client may say that it sends no more."""
        with self.connect() as client:
            try:
                client.sendall(request)
                if ends:
                    client.shutdown(socket.SHUT_WR)
            except OSError:
                pass  # it has been refused: the reply is there
            return told(client)

    def end(self):
        """The exit status, and what was written on standard error."""
        try:
            _, errors = self.ran.communicate(timeout=SECONDS)
        except subprocess.TimeoutExpired:
            self.stop()
            return None, b"the server did not end"
        return self.ran.returncode, errors

    def stop(self):
        self.ran.kill()
        self.ran.communicate()

    def sockets(self):
        """The sockets that the server has."""
        names = set()
        for path in Path(f"/proc/{self.ran.pid}/fd").iterdir():
            with contextlib.suppress(OSError):
                names.add(os.readlink(path))
        return {it for it in names if it.startswith("socket:")}

    def seconds_spent(self):
        """The processor time that the server has taken."""
        fields = Path(f"/proc/{self.ran.pid}/stat").read_text().rpartition(")")[2].split()
        return (int(fields[11]) + int(fields[12])) / os.sysconf("SC_CLK_TCK")


def told(client):
    """All that a client is told."""
    parts = []
    while True:
        part = client.recv(65_536)
        if not part:
            return b"".join(parts)
        parts.append(part)
