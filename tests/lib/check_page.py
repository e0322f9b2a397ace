"""web/index.html without a browser, tools/picture, and the requests of examples/group. bench/page has what a browser shows."""
import json
import re
import subprocess
import sys

from lib.checking import check, is_so, not_run
from lib.program import TOP
from lib.replies import replies_in
from lib.scripts import loaded_from

sys.path.append(str(TOP / "tools" / "lib"))

import page_policy

PICTURE = loaded_from(TOP / "tools" / "picture")
GROUP = TOP / "examples" / "group"
REGISTER = ["--registrar", "registrar-token-0001", "--day", "2024-02-01"]
# What would take a text as HTML, keep something, load something, or run what stands in an attribute.
NEVER = re.compile(
    r"innerHTML|outerHTML|insertAdjacent|document\.write|\beval\b|new Function|DOMParser|createContextualFragment|srcdoc"
    r"|Storage|indexedDB|cookie|\bsrc=|@import|\bstyle=|<link|<iframe|\bon[a-z]+=\""
)
SPACES = {"http://www.w3.org/1999/xhtml", "http://www.w3.org/2000/svg"}
WORDS = re.compile(r'^  (\w+): "(.*)",$', re.M)
# The status of bench/page where no browser is installed.
NO_BROWSER = 77
HOSTILE = '"];\\N\\" <script>&lt;\u202e\n\0'


@check
def the_page_has_its_policy(bor, folder):
    """docs/OPERATE.md has the policy of web/index.html, by the hashes of its script and its style"""
    text = page_policy.PAGE.read_text(encoding="utf-8")
    had = dict(page_policy.headers())
    is_so(had.get("Content-Security-Policy") == page_policy.policy_of(text), "the policy is of another page: bench/page --policy writes it")
    is_so((had.get("Referrer-Policy"), had.get("Cache-Control")) == ("no-referrer", "no-store"), f"headers: {had}")


@check
def the_page_takes_nothing_as_html(bor, folder):
    """web/index.html takes no text as HTML, keeps nothing, and loads nothing from elsewhere"""
    text = page_policy.PAGE.read_text(encoding="utf-8")
    is_so(not NEVER.findall(text), f"the page has {NEVER.findall(text)}")
    is_so(set(re.findall(r"\w+://[^\s\"'`]*", text)) == SPACES, "the page names another address")


@check
def the_page_says_refusals_as_the_document_does(bor, folder):
    """what web/index.html says of a refusal are the words of docs/REFUSALS.md"""
    page = page_policy.PAGE.read_text(encoding="utf-8").partition("const REFUSALS = {")[2].partition("};")[0]
    lines = (TOP / "docs" / "REFUSALS.md").read_text(encoding="utf-8").splitlines()
    told = WORDS.findall(page)
    is_so(len(told) >= 8, f"refusals: {told}")
    for name, said in told:
        is_so(any(f"`{name}`" in it.partition(":")[0] + it.partition("**:")[0] and said in it.replace("`", "") for it in lines), f"{name}: {said}")


@check
def the_group_is_answered(bor, folder):
    """the requests of examples/group have the replies that stand beside them"""
    requests = sorted(GROUP.glob("*.http"))
    ran = bor.run(["exchange", *REGISTER, *map(str, requests)], folder)
    told = replies_in(ran.output)
    is_so((ran.status, len(told)) == (1, len(requests)), ran.told())
    for request, reply in zip(requests, told):
        is_so(reply == request.with_suffix(".reply").read_bytes(), f"{request.name}: told {reply!r}")
    for file in GROUP.glob("*.json"):
        is_so(any(it.read_bytes().endswith(file.read_bytes()) for it in requests), f"{file.name} is lodged by no request")


def body_of(file):
    return json.loads(PICTURE.body_of(file.read_bytes()))


@check
def a_picture_has_each_link(bor, folder):
    """tools/picture writes an edge for each link of examples/group and no text of a file as DOT"""
    replies = [it for it in map(body_of, GROUP.glob("*why*.reply")) if "links" in it]
    is_so(len(replies) >= 3, "no replies")
    for reply in replies:
        for record in reply["records"]:
            record["details"]["name"] = HOSTILE
        ran = subprocess.run([TOP / "tools" / "picture"], input=json.dumps(reply).encode(), capture_output=True, check=False)
        lines = ran.stdout.decode().splitlines()
        is_so((ran.returncode, ran.stderr) == (0, b""), ran.stderr)
        is_so(sum(" -> " in it for it in lines) == len(reply["links"]), "edges")
        is_so(all(it.count('"') % 2 == 0 for it in re.sub(r"\\\\|\\\"", "", "\n".join(lines)).splitlines()), "a text isn't quoted")
        is_so("<script>" not in ran.stdout.decode(), "a text is no text")
    ran = subprocess.run([TOP / "tools" / "picture"], input=b'{"refusal":"NoEntity"}', capture_output=True, check=False)
    is_so((ran.returncode, ran.stdout) == (1, b""), "a refusal is drawn")


@check
def a_browser_shows_the_page(bor, folder):
    """bench/page finds all as wanted in a browser, where Chromium is installed"""
    ran = subprocess.run([TOP / "bench" / "page", "--unhurried", bor.path], capture_output=True, text=True, check=False)
    if ran.returncode == NO_BROWSER:
        not_run("no Chromium")
    wrong = [it for it in ran.stdout.splitlines() if not it.startswith("as wanted")]
    is_so(ran.returncode == 0, f"{wrong} {ran.stderr:.300}")
