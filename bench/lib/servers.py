"""Servers that are measured, and what asks them: one request a connection."""
import socket
import subprocess
import sys
import time
from pathlib import Path

from lib.measures import bytes_of, status_of
from lib.programs import BUILT, free_port
from lib.requests import request


def taken_from(line):
    """What comes on a connection until its end."""
    parts = []
    while part := line.recv(1 << 20):
        parts.append(part)
    return b"".join(parts)


def told(address, asked):
    """The reply to a request."""
    with socket.create_connection(address) as line:
        line.sendall(asked.encode())
        return taken_from(line)


def told_at_once(address, asked, clients):
    """The replies to so many clients, who all ask before one of them takes its reply."""
    lines = [socket.create_connection(address) for _ in range(clients)]
    for line in lines:
        line.sendall(asked.encode())
    replies = [taken_from(line) for line in lines]
    for line in lines:
        line.close()
    return replies


class Server:
    """A process of one thread that serves so many connections, and one more, which ends it."""

    def __init__(self, words):
        words, streams = [str(word) for word in words], {"stdout": subprocess.PIPE, "stderr": subprocess.DEVNULL}
        self.process = subprocess.Popen(words, text=True, **streams)
        line = self.process.stdout.readline().split()
        if line[:1] != ["listening"]:
            sys.exit(f"{words[0]} doesn't listen")
        host, port = line[1].split(":")
        self.address = host, int(port)

    def ask(self, asked):
        """The reply, and the seconds until its end."""
        start = time.perf_counter()
        return told(self.address, asked), time.perf_counter() - start

    def processor(self):
        """The seconds of processor time that the process has had, its own and the system's for it."""
        return int(Path(f"/proc/{self.process.pid}/schedstat").read_text().split()[0]) / 1e9

    def memory(self, word):
        """What the process has of this kind of memory, in MB of 1,000,000 bytes."""
        return bytes_of(status_of(self.process.pid)[word]) / 1e6

    def forget_peak(self):
        Path(f"/proc/{self.process.pid}/clear_refs").write_text("5")

    def end(self):
        self.ask(request("alder", "GET", "/filings"))
        status = self.process.wait()
        if status:
            sys.exit(f"the server ended with status {status}")


def bor_serve(file, connections):
    """The words that serve the register in a file to so many connections."""
    return [BUILT, "serve", "--db", file, "--port", free_port(), "--connections", connections]
