"""JSON in UTF-8 as the register reads it, with the place of each value in its text.

What `serde_json` refuses is refused: a byte order mark, NaN, a numeral beyond all floats, half of a pair of surrogates,
more than 127 levels. A whole number of 64 bits is an `int`; each other number is a `float`, as there.
"""
import bisect
import json
import re

LEVELS = 127
BLANK = re.compile(r"[ \t\n\r]*")
STRING = re.compile(r'"([^"\\\x00-\x1f]*(?:\\(?:["\\/bfnrt]|u[0-9a-fA-F]{4})[^"\\\x00-\x1f]*)*)"')
NUMBER = re.compile(r"-?(?:0|[1-9][0-9]*)(\.[0-9]+)?([eE][+-]?[0-9]+)?")
# A pair of surrogates, or another letter behind a backslash.
ESCAPE = re.compile(r"\\u[dD][89abAB][\da-fA-F]{2}\\u[dD][c-fC-F][\da-fA-F]{2}|\\(?:u([\da-fA-F]{4})|.)", re.DOTALL)
WORDS = {"t": ("true", True), "f": ("false", False), "n": ("null", None)}
MARK = "\ufeff"


class JsonFault(Exception):
    """Why a text is no JSON, and where: an offset into it."""

    def __init__(self, why, start):
        super().__init__(why)
        self.why, self.start = why, start


class Node:
    """A value with its place. The parts of an object are by name, those of a list in order; `keys` has where names stand."""

    __slots__ = ("start", "end", "value", "parts", "keys")

    def __init__(self, start, end, value, parts=None, keys=None):
        self.start, self.end, self.value, self.parts, self.keys = start, end, value, parts, keys

    def at(self, path):
        """The node that a path leads to, or the last one on the way that is there."""
        node = self
        for step in path:
            parts = node.parts
            is_there = step in parts if isinstance(parts, dict) else isinstance(parts, list) and step in range(len(parts))
            if not is_there:
                break
            node = parts[step]
        return node

    def get(self, name):
        """The member of an object, where it is there and isn't null."""
        node = self.parts.get(name) if isinstance(self.parts, dict) else None
        return node if node and node.value is not None else None


class Text:
    """A text that is read value by value; `repeats` has the places of names that stand in their object before."""

    def __init__(self, text):
        self.text, self.repeats = text, []
        self.lines = [0, *(found.end() for found in re.finditer(r"\n", text))]

    def line_and_column(self, start):
        """Both from 1; a column counts characters."""
        line = bisect.bisect_right(self.lines, start)
        return line, start - self.lines[line - 1] + 1

    def skip(self, start):
        return BLANK.match(self.text, start).end()

    def document(self):
        """The one value of the text."""
        node = self.value(self.skip(0), 0)
        end = self.skip(node.end)
        if end < len(self.text):
            raise JsonFault(self.behind(node, end), end)
        return node

    def values(self):
        """All values that stand one behind the other."""
        start = self.skip(0)
        while start < len(self.text):
            node = self.value(start, 0)
            yield node
            start = self.skip(node.end)

    def behind(self, node, end):
        if isinstance(node.value, dict) and self.text[end] == "{":
            return "another value stands behind the first, as in JSON Lines"
        return "something stands behind the end of the value"

    # ---- values

    def value(self, start, depth):
        letter = self.text[start : start + 1]
        if letter == '"':
            text, end = self.string(start)
            return Node(start, end, text)
        if letter == "{":
            return self.object(start, depth + 1)
        if letter == "[":
            return self.list(start, depth + 1)
        if letter in WORDS and self.text.startswith(WORDS[letter][0], start):
            return Node(start, start + len(WORDS[letter][0]), WORDS[letter][1])
        if letter == "-" or letter.isdigit():
            return self.number(start)
        raise JsonFault(self.unread(start), start)

    def unread(self, start):
        if start >= len(self.text):
            return "the text ends where a value is to stand" if self.text.strip() else "there is nothing in it"
        letter = self.text[start]
        if letter == MARK and start == 0:
            return "a byte order mark stands before the value"
        if letter == "'":
            return "a text stands between double quotes, not single ones"
        if letter in "]},":
            return f"a value is to stand before {letter}"
        return f"no value begins with {json.dumps(letter)}"

    def number(self, start):
        found = NUMBER.match(self.text, start)
        if not found:
            raise JsonFault("a numeral has digits behind its sign, and begins with no 0 but 0 itself", start)
        value = float(found[0])
        if value in (float("inf"), float("-inf")):
            raise JsonFault("the number is too large for any float", start)
        if found[1] is None and found[2] is None and found[0] != "-0" and -(2**63) <= int(found[0]) < 2**64:
            value = int(found[0])
        return Node(start, found.end(), value)

    def string(self, start):
        found = STRING.match(self.text, start)
        if not found:
            raise JsonFault(*self.open_string(start))
        raw = found[1]
        if "\\" not in raw:
            return raw, found.end()
        for escape in ESCAPE.finditer(raw):
            if 0xD800 <= int(escape[1] or "0", 16) <= 0xDFFF:
                raise JsonFault("half of a pair of surrogates stands alone", start + 1 + escape.start())
        return json.loads(found[0]), found.end()

    def open_string(self, start):
        """Why no whole text begins here, and where it breaks off."""
        at = start + 1
        while at < len(self.text) and self.text[at] != '"':
            if self.text[at] < " ":
                return "a control character or the end of a line stands in a text", at
            if self.text[at] == "\\":
                if not re.compile(r'\\(?:["\\/bfnrt]|u[0-9a-fA-F]{4})').match(self.text, at):
                    return "no such letter may stand behind a backslash", at
                at += 1
            at += 1
        return "the text ends before its closing quote", start

    # ---- lists and objects

    def deep(self, start, depth):
        if depth > LEVELS:
            raise JsonFault(f"lists and objects stand more than {LEVELS} deep", start)

    def next_item(self, end, closing, opened):
        """Where the next item begins behind a comma, or None and where the list or object ends."""
        at = self.skip(end)
        letter = self.text[at : at + 1]
        if letter == closing:
            return None, at + 1
        if letter == ",":
            return self.skip(at + 1), at
        if not letter:
            line, column = self.line_and_column(opened)
            raise JsonFault(f"the text ends before the {closing} of line {line}, column {column}", at)
        raise JsonFault(f"a comma or {closing} is to stand here", at)

    def list(self, start, depth):
        self.deep(start, depth)
        parts, at = [], self.skip(start + 1)
        if self.text[at : at + 1] == "]":
            return Node(start, at + 1, [], parts)
        while at is not None:
            part = self.value(at, depth)
            parts.append(part)
            at, end = self.next_item(part.end, "]", start)
        return Node(start, end, [part.value for part in parts], parts)

    def nameless(self, at):
        if at >= len(self.text):
            return "the text ends within an object"
        if self.text[at] == "}":
            return "a comma stands before }"
        return "the name of a member is to stand here, between double quotes"

    def object(self, start, depth):
        self.deep(start, depth)
        parts, keys, at = {}, {}, self.skip(start + 1)
        if self.text[at : at + 1] == "}":
            return Node(start, at + 1, {}, parts, keys)
        while at is not None:
            if self.text[at : at + 1] != '"':
                raise JsonFault(self.nameless(at), at)
            name, end = self.string(at)
            colon = self.skip(end)
            if self.text[colon : colon + 1] != ":":
                is_end = colon >= len(self.text)
                raise JsonFault("the text ends within an object" if is_end else "a colon is to stand behind the name of a member", colon)
            if name in parts:
                self.repeats.append((at, name))
            part = self.value(self.skip(colon + 1), depth)
            parts[name], keys[name] = part, (at, end)
            at, end = self.next_item(part.end, "}", start)
        return Node(start, end, {name: part.value for name, part in parts.items()}, parts, keys)


# ---- bytes


def text_of(data):
    """The text of bytes in UTF-8; a fault has the offset in characters of what is before it."""
    try:
        return data.decode()
    except UnicodeDecodeError as fault:
        before = data[: fault.start].decode()
        raise Undecoded(encoding_fault(data), len(before), before) from None


class Undecoded(JsonFault):
    """The bytes are no UTF-8; `before` is the text up to the first byte that isn't."""

    def __init__(self, why, start, before):
        super().__init__(why, start)
        self.before = before


def encoding_fault(data):
    """What the bytes are, as far as their first ones tell."""
    if data.startswith((b"\xff\xfe", b"\xfe\xff")):
        return "the bytes are UTF-16"
    packed = next((name for front, name in ((b"\x1f\x8b", "gzip"), (b"PK\x03\x04", "zip")) if data.startswith(front)), None)
    return f"the bytes are packed by {packed}: unpack them first" if packed else "the bytes are no UTF-8"


# ---- pointers and texts


def pointer(path):
    """The JSON pointer (RFC 6901) of a path."""
    return "".join(f"/{str(step).replace('~', '~0').replace('/', '~1')}" for step in path)


def written(value):
    """A value as JSON in one line."""
    return json.dumps(value, ensure_ascii=False, separators=(",", ":"))
