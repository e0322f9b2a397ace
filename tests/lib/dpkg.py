"""dpkg, over folders that stand for a machine's: what it installs lies there, and the package's scripts find there what they make."""
import shutil
import subprocess

from lib.program import TOP

# It needs no root, and doesn't go into the folders where it calls a script.
FORCE = ["--force-not-root", "--force-bad-path", "--force-script-chrootless"]
# What is installed there already.
INSTALLED = {"libc6": "2.36-9", "passwd": "1:4.13", "python3": "3.11.2-1", "curl": "7.88.1-10"}
LINES = "Package: {}\nStatus: install ok installed\nMaintainer: nobody\nArchitecture: amd64\nVersion: {}\nDescription: there\n\n"


def missing():
    """What is missing here to make a package and install it, if anything is."""
    if not shutil.which("dpkg") or not shutil.which("dpkg-deb"):
        return "no dpkg"
    # (git says nothing of a repository that is another user's)
    asked = ["git", "rev-parse", "HEAD"]
    return None if shutil.which("git") and subprocess.run(asked, cwd=TOP, capture_output=True, check=False).returncode == 0 else "no git"


def prepared(root, **versions):
    """Makes what dpkg keeps of a machine, with these packages in other versions, and gives the words of its command."""
    admin = root / "var" / "lib" / "dpkg"
    for folder in ("info", "updates"):
        (admin / folder).mkdir(parents=True, exist_ok=True)
    installed = {**INSTALLED, **versions}
    (admin / "status").write_text("".join(LINES.format(name, version) for name, version in installed.items()))
    for name in installed:
        (admin / "info" / f"{name}.list").write_text("/.\n")
    return ["dpkg", f"--root={root}", f"--log={root}/dpkg.log", *FORCE]
