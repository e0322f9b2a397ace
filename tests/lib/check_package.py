"""The package for Debian: tools/package, and what dpkg makes of it in a folder that stands for a machine's."""
import os
import re
import stat
import subprocess
from pathlib import Path

from lib import dpkg
from lib.checking import check, is_so, not_run
from lib.program import TOP
from lib.scripts import loaded_from

PACKAGE = loaded_from(TOP / "tools" / "package")
SECONDS = 60
# It opens a register's file as a server does, and goes on. The package says of it which C library it names.
PROGRAM = b"#!/bin/sh\nexec 3<> \"$1\"\necho open\nexec sleep 60\n# \0GLIBC_2.2.5\0GLIBC_2.34\0GLIBC_2.17\0"
# What of root's tools the package's scripts call, each of which notes its words.
TOOL = "#!/bin/sh\necho \"${0##*/} $*\" >> \"$NOTED\"\n"
TOOLS = {
    "useradd": TOOL,
    "chown": TOOL,
    "getent": f'{TOOL}grep -q ^useradd "$NOTED"\n',
    "systemctl": f'{TOOL}[ "$1" != list-units ] || echo "bor-reader@8081.service loaded active running bor, a reader on port 8081"\n',
}
FOLDERS = ["/etc/bor", "/var/lib/bor", "/var/lib/bor-readers", "/var/backups/bor"]
RUNS_ON = "bor: a server that runs has the program of 0.0.1 until it is started again: systemctl restart bor\n"


def packed(folder, version=None, program=PROGRAM):
    """The package of a program that stands for the built one."""
    if dpkg.missing():
        not_run(dpkg.missing())
    Path(folder, "program").write_bytes(program)
    try:
        return PACKAGE.packed(Path(folder, "program"), folder, version)
    except PACKAGE.Failed as fault:
        return is_so(False, f"there is no package: {fault}")


class Machine:
    """Folders that stand for a machine's, where dpkg installs, and where the package's scripts find its tools."""

    def __init__(self, folder, is_running_systemd=True):
        self.root, self.noted = Path(folder, "root"), Path(folder, "noted")
        for path in ("etc/systemd/system", "usr/local/bin", "var/backups", *["run/systemd/system"] * is_running_systemd):
            (self.root / path).mkdir(parents=True)
        self.command = dpkg.prepared(self.root)
        self.noted.touch()
        tools = Path(folder, "tools")
        tools.mkdir()
        for name, text in TOOLS.items():
            (tools / name).write_text(text)
            (tools / name).chmod(0o755)
        self.variables = {**os.environ, "PATH": f"{tools}:{os.environ['PATH']}", "NOTED": str(self.noted), "LC_ALL": "C"}

    def dpkg(self, *words):
        """What the package's scripts print."""
        self.noted.write_text("".join(it for it in self.noted.read_text().splitlines(True) if it.startswith("useradd")))
        command = [*self.command, *map(str, words)]
        ran = subprocess.run(command, env=self.variables, capture_output=True, text=True, timeout=SECONDS, stdin=subprocess.DEVNULL, check=False)
        is_so(ran.returncode == 0, f"dpkg {words}: {ran.stdout}{ran.stderr}")
        return "".join(it for it in ran.stdout.splitlines(True) if it.startswith("bor: "))

    def calls(self, name):
        """How a tool was called by the last run, in which `root` stands for the machine's folders."""
        lines = self.noted.read_text().replace(str(self.root), "root").splitlines()
        return [it.partition(" ")[2] for it in lines if it.startswith(f"{name} ")]

    def mode(self, path):
        return stat.S_IMODE(os.stat(f"{self.root}{path}").st_mode)

    def files(self):
        """What stands in the folders of registers, byte for byte, with place, mode and time."""
        places = [Path(f"{self.root}{it}") for it in FOLDERS]
        found = [it for place in places for it in [place, *place.rglob("*")] if it.exists()]
        about = {it: it.stat() for it in found}
        return {it: (it.is_file() and it.read_bytes(), told.st_ino, told.st_mode, told.st_mtime_ns) for it, told in about.items()}


def filled(machine):
    """A register with its log, tokens, a reader's copy and a backup, as they are while all is served."""
    for path, data in (("/var/lib/bor/register.db", b"SQLite format 3\0" * 999), ("/var/lib/bor/register.db-wal", os.urandom(9_999))):
        Path(f"{machine.root}{path}").write_bytes(data)
    for path in ("/etc/bor/registrar-token", "/var/lib/bor-readers/8081.db", "/var/backups/bor/2024-02-02.db"):
        Path(f"{machine.root}{path}").write_text(path)
    # (what an operator has changed)
    os.chmod(f"{machine.root}/var/backups/bor", 0o750)
    return machine.files()


# ---- the package itself


def members(package):
    """What the package has, each with its mode and owner."""
    told = subprocess.run(["dpkg-deb", "--contents", package], capture_output=True, text=True, check=True).stdout
    return {it[5][1:]: (it[0], it[1]) for it in (line.split(None, 5) for line in told.splitlines())}


def text_in(package, path):
    tar = subprocess.run(["dpkg-deb", "--fsys-tarfile", package], capture_output=True, check=True).stdout
    return subprocess.run(["tar", "-xO", f".{path}"], input=tar, capture_output=True, check=True).stdout


@check
def a_package_has_what_a_machine_needs(bor, folder):
    """tools/package packs the program, its tools, pages and documents, for root, and names version, commit and toolchain"""
    package = packed(folder)
    found = members(package)
    programs = {path for path, (mode, _) in found.items() if mode == "-rwxr-xr-x"}
    is_so(programs == {f"/usr/bin/{it}" for it in ("bor", "bor-backup", "bor-day", "bor-readers")}, f"programs: {programs}")
    is_so({owner for _, owner in found.values()} == {"root/root"}, "others than root own something")
    is_so({mode for mode, _ in found.values()} == {"drwxr-xr-x", "-rwxr-xr-x", "-rw-r--r--"}, "others may write something")
    wanted = ["man/man1/bor.1.gz", "bash-completion/completions/bor", "bor/index.html", *(f"doc/bor/{it}" for it in ("CHANGELOG.md", "README.md", "docs/OPERATE.md"))]
    is_so(all(f"/usr/share/{it}" in found for it in wanted), f"there are {sorted(found)}")
    is_so(text_in(package, "/usr/bin/bor") == PROGRAM, "the program is another")
    version = PACKAGE.HEADING.findall((TOP / "CHANGELOG.md").read_text(encoding="utf-8"))[0]
    told = text_in(package, "/usr/share/doc/bor/VERSION").decode()
    commit = subprocess.run(["git", "rev-parse", "HEAD"], cwd=TOP, capture_output=True, text=True, check=True).stdout.strip()
    is_so(re.fullmatch(rf"version \S+\ncommit {commit}( with changes)?\ntoolchain \S.*\S\n", told), f"VERSION says {told!r}")
    is_so(version == "Unreleased" or told.startswith(f"version {version}\n") and package.name == f"bor_{version}_amd64.deb", f"{package.name}, {told!r}")
    fields = subprocess.run(["dpkg-deb", "--field", package], capture_output=True, text=True, check=True).stdout
    is_so("\nDepends: libc6 (>= 2.34), passwd, python3 (>= 3.8), curl\n" in fields, fields)
    is_so(all(it.split(" ", 1)[1] in fields for it in told.splitlines()), f"the description is {fields!r}")


@check
def units_are_those_of_the_page(bor, folder):
    """the package's units and files for nginx are those of docs/OPERATE.md, with /usr in the place of /usr/local"""
    package = packed(folder)
    page = (TOP / "docs" / "OPERATE.md").read_text(encoding="utf-8")
    blocks = dict(re.findall(r"^```\w+\n# (/etc/\S+)\n(.*?)^```$", page, re.M | re.S))
    places = {"/usr/lib/systemd/": "/etc/systemd/", "/usr/share/doc/bor/nginx/": "/etc/nginx/"}
    found = {}
    for path, (mode, _) in members(package).items():
        place = next((it for it in places if path.startswith(it)), None)
        if place and mode[0] == "-":
            found[path.replace(place, places[place])] = text_in(package, path).decode()
    is_so(found == {path: text.replace("/usr/local/", "/usr/") for path, text in blocks.items()}, f"{sorted(found)} for {sorted(blocks)}")
    is_so(len(found) == 10 and "ExecStart=/usr/bin/bor serve " in found["/etc/systemd/system/bor.service"], f"{len(found)} files")


@check
def a_package_is_made_of_program_and_commit_alone(bor, folder):
    """tools/package makes the same bytes by day and by night, whoever makes it and where"""
    packed(folder)
    made = []
    for name, mask, zone, locale in (("one", "077", "UTC+14", "C"), ("other", "000", "UTC-14", "C.UTF-8")):
        Path(folder, name).mkdir()
        variables = {**os.environ, "TZ": zone, "LC_ALL": locale}
        script = f"umask {mask}; exec '{TOP}/tools/package' --program '{folder}/program' '{folder}/{name}'"
        ran = subprocess.run(["sh", "-c", script], env=variables, capture_output=True, text=True, timeout=SECONDS, check=False)
        is_so((ran.returncode, ran.stderr) == (0, ""), f"{ran}")
        made.append(Path(ran.stdout.strip()).read_bytes())
        is_so(Path(ran.stdout.strip()).parent == Path(folder, name) and os.listdir(f"{folder}/{name}") == [Path(ran.stdout.strip()).name], "more is there")
    is_so(made[0] == made[1], "the packages differ")
    # (a time to come, which no file has by itself)
    words, variables = [TOP / "tools" / "package", "--program", f"{folder}/program", folder], {**os.environ, "TZ": "UTC", "SOURCE_DATE_EPOCH": "4000000000"}
    package = subprocess.run(words, env=variables, capture_output=True, text=True, timeout=SECONDS, check=True).stdout.strip()
    told = subprocess.run(["dpkg-deb", "--contents", package], env=variables, capture_output=True, text=True, timeout=SECONDS, check=True)
    is_so({it.split()[3] for it in told.stdout.splitlines()} == {"2096-10-02"}, "a file has another time")


@check
def what_cannot_be_packed_is_told(bor, folder):
    """tools/package tells of a program that isn't there or is older than its sources, of another toolchain and of a changelog without a version"""
    packed(folder)
    tools = Path(folder, "tools")
    tools.mkdir()
    for name, words in (("rt", "echo another"), ("git", "exit 1")):
        (tools / name).write_text(f"#!/bin/sh\n{words}\n")
        (tools / name).chmod(0o755)
    shown = {**os.environ, "PATH": f"{tools}:{os.environ['PATH']}"}
    program, line = f"{folder}/program", PACKAGE.LOGIC.search((TOP / "README.md").read_text(encoding="utf-8"))[1]
    for words, variables, status, said in (
        (["--program", f"{folder}/none", folder], os.environ, 1, "package: [Errno 2]"),
        (["--program", program, f"{folder}/none"], os.environ, 1, "package: [Errno 2]"),
        (["--program", program, folder], shown, 1, "package: git log: status 1\n"),
        ([folder, "more"], os.environ, 2, "usage: tools/package "),
    ):
        ran = subprocess.run([TOP / "tools" / "package", *words], env=variables, capture_output=True, text=True, timeout=SECONDS, check=False)
        is_so((ran.returncode, ran.stdout) == (status, "") and ran.stderr.startswith(said), f"{words}: {ran}")
    (tools / "git").unlink()
    ran = subprocess.run([TOP / "tools" / "package", "--program", program, folder], env=shown, capture_output=True, text=True, timeout=SECONDS, check=False)
    is_so(ran.stderr == f"package: README.md names the toolchain's {line}, and rt version says another\n", f"{ran}")
    for text in ("# Changelog\n", "# Changelog\n\n## [Unreleased]\n", "## [Unreleased]\n\n## 2026-11-28\n", "## Later\n\n## [0.1.0] - 2026-11-29\n"):
        try:
            is_so(not PACKAGE.version_in(text, "abcdef0123", 0), f"{text!r} names a version")
        except PACKAGE.Failed as fault:
            is_so(str(fault) == "CHANGELOG.md begins with no version", str(fault))
    later = PACKAGE.version_in("## [Unreleased]\n\n## [0.1.0] - 2026-11-29\n", "abcdef0123", 1_000_000_000)
    is_so(later == "0.1.0+20010909014640.abcdef01", later)
    is_so(PACKAGE.version_in("## [0.2.0] - 2026-12-01\n\n## [0.1.0] - 2026-11-29\n", "abcdef0123", 0) == "0.2.0", "the first version")
    mark = Path(f"{program}.began")
    told = [PACKAGE.is_as_the_sources(program)]
    for seconds in (0, 2**33):
        mark.touch()
        os.utime(mark, (seconds, seconds))
        told.append(PACKAGE.is_as_the_sources(program))
    is_so(told == [False, False, True], f"a program is as its sources: {told}")


# ---- what dpkg makes of it


@check
def a_package_makes_a_user_and_folders(bor, folder):
    """installing the package makes the user bor and folders for their owner alone, and starts nothing"""
    machine, package = Machine(folder), packed(folder)
    told = machine.dpkg("--install", package)
    is_so(told == "bor: nothing is set up and nothing runs yet: /usr/share/doc/bor/docs/OPERATE.md\n", told)
    is_so([machine.mode(it) for it in FOLDERS] == [0o700] * 4, "others may enter a folder")
    is_so(machine.calls("chown") == [f"bor: root{it}" for it in FOLDERS[1:]], f"chown {machine.calls('chown')}")
    user = ["--prefix root --system --user-group --no-create-home --home-dir /var/lib/bor --shell /usr/sbin/nologin bor"]
    is_so(machine.calls("useradd") == user, f"useradd {machine.calls('useradd')}")
    is_so(machine.calls("systemctl") == ["daemon-reload"], f"systemctl {machine.calls('systemctl')}")
    is_so(sum(it.is_file() for place in FOLDERS for it in Path(f"{machine.root}{place}").rglob("*")) == 0, "a file is in a folder")
    told = machine.dpkg("--purge", "bor")
    is_so(told == "bor: the user bor is kept\n", told)
    is_so(not [it for it in FOLDERS if Path(f"{machine.root}{it}").exists()], "an empty folder is left")


@check
def an_upgrade_leaves_a_register_alone(bor, folder):
    """a register that is served, its log, tokens, readers and backups are there byte for byte after an upgrade, a removal and a purge"""
    machine, older, newer = Machine(folder), packed(folder, "0.0.1", PROGRAM + b"# earlier"), packed(folder)
    machine.dpkg("--install", older)
    before = filled(machine)
    served = subprocess.Popen([f"{machine.root}/usr/bin/bor", f"{machine.root}/var/lib/bor/register.db"], stdout=subprocess.PIPE, stdin=subprocess.DEVNULL)
    try:
        is_so(served.stdout.readline() == b"open\n", "the program that stands for bor doesn't run")
        told = machine.dpkg("--install", newer)
        is_so(told == RUNS_ON and machine.files() == before, f"the upgrade changed something: {told}")
        is_so(Path(f"{machine.root}/usr/bin/bor").read_bytes() == PROGRAM, "the earlier program is there")
        is_so((machine.calls("systemctl"), machine.calls("chown")) == (["daemon-reload"], []), f"{machine.noted.read_text()}")
        is_so(len(machine.calls("useradd")) == 1, "the user was made again")
        for path in ("/usr/local/bin/bor-backup", "/etc/systemd/system/bor.service"):
            Path(f"{machine.root}{path}").touch()
        told = machine.dpkg("--install", older)
        by_hand = "bor: /usr/local/bin/bor-backup goes before this package's: delete it\nbor: /etc/systemd/system/bor.service goes before this package's: delete it\n"
        is_so(told.startswith(by_hand) and machine.files() == before, f"going back changed something: {told}")
        told = machine.dpkg("--remove", "bor")
        is_so(told == "" and machine.files() == before and not Path(f"{machine.root}/usr/bin/bor").exists(), f"the removal changed something: {told}")
        stopped = ["disable --now bor-day.timer bor-readers.timer bor.service bor-reader@8081.service", "stop bor-day.service bor-readers.service"]
        is_so([it for it in machine.calls("systemctl") if "list" not in it and "reload" not in it] == stopped, f"systemctl {machine.calls('systemctl')}")
        told = machine.dpkg("--purge", "bor")
        kept = "".join(f"bor: {it} is kept, since something is in it: delete it by hand where nobody needs it\n" for it in FOLDERS)
        is_so(told == f"{kept}bor: the user bor is kept\n" and machine.files() == before, f"the purge changed something: {told}")
        machine.dpkg("--install", newer)
        is_so(machine.files() == before, "installing it again changed something")
        is_so(served.poll() is None, "the server was stopped, though systemd didn't")
    finally:
        served.kill()
        served.communicate()


@check
def a_package_needs_no_systemd(bor, folder):
    """where systemd doesn't run, the package is installed and purged without it"""
    machine, package = Machine(folder, is_running_systemd=False), packed(folder)
    for words in (["--install", package], ["--install", package], ["--purge", "bor"]):
        machine.dpkg(*words)
        is_so(machine.calls("systemctl") == [], f"systemctl {machine.calls('systemctl')}")
