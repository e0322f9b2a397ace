"""What a browser may do with web/index.html: its Content-Security-Policy, and where docs/OPERATE.md has it."""
import base64
import hashlib
import re
from pathlib import Path

TOP = Path(__file__).resolve().parent.parent.parent
PAGE, OPERATE = TOP / "web" / "index.html", TOP / "docs" / "OPERATE.md"
HEADER = re.compile(r'^    add_header (\S+) "?([^"\n]*?)"? always;$', re.M)
POLICY = re.compile(r'(?<=add_header Content-Security-Policy ")[^"]*(?=")')


def hashed(text, tag):
    """The hash of what the page's one element of this tag has."""
    [inner] = re.findall(rf"<{tag}>(.*?)</{tag}>", text, re.S)
    return f"'sha256-{base64.b64encode(hashlib.sha256(inner.encode()).digest()).decode()}'"


def policy_of(text):
    """Nothing but the page's own script and style, and requests to where it comes from; no text is ever taken as HTML."""
    parts = [
        "default-src 'none'",
        f"script-src {hashed(text, 'script')}",
        f"style-src {hashed(text, 'style')}",
        "connect-src 'self'",
        "base-uri 'none'",
        "form-action 'none'",
        "frame-ancestors 'none'",
        "require-trusted-types-for 'script'",
        "trusted-types 'none'",
    ]
    return "; ".join(parts)


def headers():
    """The headers that nginx sends with the page, as docs/OPERATE.md has them."""
    return HEADER.findall(OPERATE.read_text(encoding="utf-8"))


def write_policy():
    """Writes the page's policy where docs/OPERATE.md has one."""
    policy, text = policy_of(PAGE.read_text(encoding="utf-8")), OPERATE.read_text(encoding="utf-8")
    OPERATE.write_text(POLICY.sub(lambda _: policy, text), encoding="utf-8")
