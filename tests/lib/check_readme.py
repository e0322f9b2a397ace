"""The commands of README.md."""
import re
import subprocess
from pathlib import Path

from lib.checking import check, is_so
from lib.program import TOP, free_port

BLOCK = re.compile(r"^```sh\n\$ (.*?)^```$", re.M | re.S)
MARK = "---- what the next command prints"
SECONDS = 60


def as_script(commands, port):
    """The commands for one shell, a mark before what each prints. A server is waited for, until it listens and until it ends."""
    lines = ["trap 'kill $! 2> /dev/null' EXIT"]
    for command in commands:
        typed = command.replace("8080", str(port)).replace("curl ", "curl -s ").replace("kill %1", "kill $!; wait")
        lines += [f"printf '\\n{MARK}\\n'", typed]
        if command.endswith("&"):
            lines.append(f"for _ in $(seq 100); do curl -s -o /dev/null http://127.0.0.1:{port}/ && break; sleep 0.1; done")
    return "\n".join(lines)


@check
def the_first_page_prints_what_it_says(bor, folder):
    """the commands of README.md, typed one after the other, print what stands below each"""
    for name in ("tools", "examples"):
        Path(folder, name).symlink_to(TOP / name)
    Path(folder, "bor").symlink_to(bor.path)
    page = (TOP / "README.md").read_text(encoding="utf-8")
    asked = [it.partition("\n") for block in BLOCK.findall(page) for it in block.split("\n$ ")]
    commands, port = [command for command, _, _ in asked], free_port()
    ran = subprocess.run(
        ["sh", "-c", as_script(commands, port)], cwd=folder, capture_output=True, text=True, timeout=SECONDS, stdin=subprocess.DEVNULL, check=False
    )
    told = [it.strip() for it in ran.stdout.split(MARK)[1:]]
    wanted = [it.strip().replace("8080", str(port)) for _, _, it in asked]
    for command, want, had in zip(commands, wanted, told):
        is_so(want == had, f"{command}: wanted {want!r}, told {had!r}: {ran.stderr!r:.300}")
    is_so(len(told) == len(asked) >= 8, f"{len(told)} of {len(asked)} commands were run")
