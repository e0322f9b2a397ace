"""docs/bor.1 and docs/bor.bash, which tools/pages writes from the program's help."""
import shutil
import subprocess
from pathlib import Path

from lib.checking import check, is_so
from lib.program import TOP
from lib.scripts import loaded_from

PAGES = loaded_from(TOP / "tools" / "pages")
# What is typed behind `bor`, and what it may go on with where no file is there.
TYPED = [
    (["se"], ["serve"]),
    (["serve", "--"], ["--connections", "--db", "--help", "--log", "--memory", "--port"]),
    (["exchange", "--reg"], ["--registrar", "--registrar-file"]),
    (["in"], ["init"]),
    (["init", "--"], ["--day", "--db", "--help", "--registrar", "--registrar-file"]),
    (["init", "--db", "reg"], ["register.db"]),
    (["init", "to"], []),
    (["exchange", "--registrar", ""], []),
    (["report", "--db", "reg"], ["register.db"]),
    (["report", "--e"], ["--evidence"]),
    (["exchange", "--registrar-file", "to"], ["token"]),
    (["exchange", "to"], ["token"]),
    (["serve", "to"], []),
    (["check", ""], ["register.db", "token"]),
    (["help", "mi"], ["migrate"]),
    (["nothing", "--"], []),
]


@check
def the_pages_are_as_the_program_says(bor, folder):
    """docs/bor.1 and docs/bor.bash are as tools/pages writes them from the program's help"""
    for path, text in PAGES.pages(bor.path).items():
        is_so(path.read_text(encoding="utf-8") == text, f"{path.name} is another: run tools/pages")


@check
def the_man_page_is_well_formed(bor, folder):
    """groff, where it is there, has nothing to say of docs/bor.1"""
    if shutil.which("groff"):
        words = ["groff", "-man", "-Tutf8", "-ww", "-z", PAGES.MAN]
        ran = subprocess.run(words, capture_output=True, text=True, check=False)
        is_so(ran.returncode == 0 and not ran.stderr + ran.stdout, f"groff: {ran.stdout}{ran.stderr}")


@check
def completions_go_on_as_the_words_do(bor, folder):
    """docs/bor.bash goes on with commands, with the words of a command, and with files where a file is named"""
    if not shutil.which("bash"):
        return
    for name in ("register.db", "token"):
        Path(folder, name).touch()
    script = 'source "$0"; COMP_WORDS=(bor "$@"); COMP_CWORD=$#; _bor; ((${#COMPREPLY[@]} == 0)) || printf "%s\\n" "${COMPREPLY[@]}"'
    for typed, wanted in TYPED:
        words = ["bash", "-c", script, str(PAGES.BASH), *typed]
        ran = subprocess.run(words, cwd=folder, capture_output=True, text=True, check=False)
        told = sorted(ran.stdout.split())
        is_so((told, ran.stderr) == (wanted, ""), f"bor {' '.join(typed)}: wanted {wanted}, told {told} {ran.stderr}")
