"""Tools of root that docs/OPERATE.md calls, as far as its commands need them, over folders that stand for the machine's.

`systemctl` starts and stops what the units in the folder say, as their ExecStart, ExecStartPost, UMask and Restart have it;
`journalctl` prints what a unit wrote; `curl` asks over HTTP; `useradd` and `chown` do nothing, `getent` finds whoever is looked
for, and `runuser` runs the command as it stands.
"""
import contextlib
import http.client
import os
import shlex
import signal
import subprocess
import sys
import time
from pathlib import Path
from urllib.parse import urlsplit

TOOLS = ["systemctl", "journalctl", "curl", "useradd", "chown", "getent", "runuser"]
SECONDS = 120


def made(folder):
    """Makes the tools in a folder."""
    for name in TOOLS:
        path = Path(folder, name)
        path.write_text(f"#!/bin/sh\nexec {shlex.quote(sys.executable)} -B {shlex.quote(__file__)} {name} \"$@\"\n")
        path.chmod(0o755)


# ---- units


def unit(name):
    """The lines of a unit, by their names; of one with an @, those of its template, with what stands behind the @."""
    file = name if "." in name else f"{name}.service"
    stem, at, instance = file.rpartition(".")[0].partition("@")
    path = Path(os.environ["UNITS"], f"{stem}@.{file.rpartition('.')[2]}" if at else file)
    lines = [line for line in path.read_text().splitlines() if "=" in line and not line.startswith("#")]
    return {key: value.replace("%i", instance).replace("%%", "%") for key, value in (line.split("=", 1) for line in lines)}


def words_of(command):
    """The words of a command of a unit, in which $$ stands for $."""
    return [it.replace("$$", "$") for it in shlex.split(command)]


def beside(name, kind):
    return Path(os.environ["RUNNING"], f"{name}.{kind}")


def mark(name):
    return Path(os.environ["RUNNING"], name)


def is_active(name):
    try:
        state = Path(f"/proc/{int(mark(name).read_text())}/stat").read_text().rpartition(")")[2].split()[0]
    except (OSError, ValueError):
        return False
    return state not in "ZX"


def keep_running(name, said):
    """Runs the unit's command, and again wherever it ends, as Restart says, until it is stopped."""
    words, ran = words_of(said["ExecStart"]), []

    def stop(*_):
        # (not by its own wait, which may be what was interrupted)
        for it in ran[-1:]:
            with contextlib.suppress(OSError):
                os.kill(it.pid, signal.SIGTERM)
                os.waitpid(it.pid, 0)
        os._exit(0)

    signal.signal(signal.SIGTERM, stop)
    os.umask(int(said.get("UMask", "0022"), 8))
    with open(beside(name, "journal"), "ab") as journal:
        while True:
            ran.append(subprocess.Popen(words, stdin=subprocess.DEVNULL, stdout=journal, stderr=journal))
            beside(name, "process").write_text(str(ran[-1].pid))
            ran[-1].wait()
            if said.get("Restart") != "always":
                return
            time.sleep(float(said.get("RestartSec", "0.1")))


def ended(name, command, said, **variables):
    """The exit status of a command of a unit, which writes to the unit's journal."""
    how = {"stdin": subprocess.DEVNULL, "timeout": SECONDS, "check": False, "env": {**os.environ, **variables}}
    how["umask"] = int(said.get("UMask", "0022"), 8)
    with open(beside(name, "journal"), "ab") as journal:
        return subprocess.run(words_of(command), stdout=journal, stderr=journal, **how).returncode


def start(name):
    """Starts the unit, as systemd does: nothing waits for a server but its ExecStartPost."""
    said = unit(name)
    if "ExecStart" not in said or is_active(name):
        return 0
    if said.get("Type") == "oneshot":
        return ended(name, said["ExecStart"], said)
    beside(name, "process").unlink(missing_ok=True)
    process = os.fork()
    if process == 0:
        os.setsid()
        # (nobody is to wait for what the server would hold open)
        nothing = os.open(os.devnull, os.O_RDWR)
        for handle in range(3):
            os.dup2(nothing, handle)
        keep_running(name, said)
        os._exit(0)
    mark(name).write_text(str(process))
    until = time.monotonic() + SECONDS
    while not (beside(name, "process").exists() and beside(name, "process").read_text()) and time.monotonic() < until:
        time.sleep(0.005)
    if "ExecStartPost" not in said:
        return 0
    status = ended(name, said["ExecStartPost"], said, MAINPID=beside(name, "process").read_text())
    if status:
        stop(name)
    return status


def stop(name):
    if is_active(name):
        process = int(mark(name).read_text())
        os.kill(process, signal.SIGTERM)
        until = time.monotonic() + SECONDS
        while is_active(name) and time.monotonic() < until:
            time.sleep(0.01)
        mark(name).unlink()


def systemctl(words):
    name = words[-1]
    if words[0] == "start" or words[:2] == ["enable", "--now"]:
        return int(any([start(it) for it in words if it not in ("start", "enable", "--now")]))
    if words[0] == "stop":
        stop(name)
    elif words[0] == "is-active":
        if "--quiet" not in words:
            print("active" if is_active(name) else "inactive")
        return 0 if is_active(name) else 3
    elif words[0] not in ("daemon-reload", "enable"):
        raise SystemExit(f"systemctl: nobody knows {words}")
    return 0


def journalctl(words):
    """Prints what the unit wrote, as `-o cat` has it."""
    if words[:1] != ["-u"] or words[2:] != ["-o", "cat"]:
        raise SystemExit(f"journalctl: nobody knows {words}")
    sys.stdout.write(beside(words[1], "journal").read_text())
    return 0


# ---- curl


def given(text):
    """The value of an option, or what the file has that it names by @."""
    return Path(text[1:]).read_bytes() if text.startswith("@") else text.encode()


def curl(words):
    method, body, fields, told, output, url = None, None, {}, None, None, None
    fails = False
    words = list(words)
    while words:
        word = words.pop(0)
        if word == "-X":
            method = words.pop(0)
        elif word == "-H":
            for line in given(words.pop(0)).decode().splitlines():
                name, _, value = line.partition(": ")
                fields[name] = value
        elif word == "--data-binary":
            body = given(words.pop(0))
        elif word == "-o":
            output = words.pop(0)
        elif word == "-w":
            told = words.pop(0)
        elif word.startswith("-") and set(word[1:]) <= set("fsS"):
            fails = fails or "f" in word
        else:
            url = urlsplit(word)
    target = url.path + (f"?{url.query}" if url.query else "")
    asked = method or ("POST" if body is not None else "GET"), target, body, fields
    try:
        client = http.client.HTTPConnection(url.hostname, url.port, timeout=SECONDS)
        client.request(*asked)
        reply = client.getresponse()
        data = reply.read()
    except ConnectionRefusedError:
        return 7
    if fails and reply.status >= 400:
        print(f"curl: (22) The requested URL returned error: {reply.status}", file=sys.stderr)
        return 22
    if output is None:
        sys.stdout.write(data.decode())
    if told:
        sys.stdout.write(told.replace("%{http_code}", str(reply.status)).replace("\\n", "\n"))
    return 0


def main(name, words):
    if name == "runuser":
        after = words.index("--") + 1
        os.execvp(words[after], words[after:])
    return {"systemctl": systemctl, "journalctl": journalctl, "curl": curl}.get(name, lambda _: 0)(words)


if __name__ == "__main__":
    sys.exit(main(sys.argv[1], sys.argv[2:]))
