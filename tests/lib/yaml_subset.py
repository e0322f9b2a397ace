"""Reads the part of YAML 1.2 that docs/openapi.yaml is written in, and says where a text is in another.

Blocks of mappings and of sequences, set in by spaces; on one line values in braces and brackets, texts in
double quotes as JSON has them, and plain ones; a text folded under `>-`; comments on lines of their own. A plain
`true`, `false`, `null` or whole number is that, and other plain values are texts.
"""
import json
import re

KEY = re.compile(r'("(?:[^"\\]|\\.)*"|[^\s"\'#\[\]{},&*!|>%@`:-][^\s:]*|\$ref):(?: +(.*))?$')
# What a plain value may not begin with, and what may not stand in one.
NOT_PLAIN = re.compile(r"[\[\]{}\"'#&*!|>%@`?,-]|.*(: | #)|.*:$")
FLOW = re.compile(r'\s*("(?:[^"\\]|\\.)*"|[\[\]{},]|:(?=\s)|(?:[^\s\[\]{},:"]|:(?=\S))+(?: +(?:[^\s\[\]{},:"]|:(?=\S))+)*)')
WORDS = {"true": True, "false": False, "null": None}


class Unread(Exception):
    """The text is in no part of YAML that is read here."""


def plain(text):
    if text in WORDS:
        return WORDS[text]
    return int(text) if re.fullmatch(r"-?\d+", text) else text


class Lines:
    """The lines that say something, each as its number, how far it is set in, and what it says."""

    def __init__(self, text):
        self.at, self.rows = 0, []
        for number, line in enumerate(text.split("\n"), 1):
            said = line.strip(" ")
            if "\t" in line:
                raise Unread(f"line {number} has a tab")
            if said and not said.startswith("#"):
                self.rows.append((number, len(line) - len(line.lstrip(" ")), said.rstrip(" ")))

    def depth(self):
        """How far the next line is set in, or nothing behind the last one."""
        return self.rows[self.at][1] if self.at < len(self.rows) else -1

    def said(self):
        return self.rows[self.at][2]

    def fail(self, why):
        number = self.rows[min(self.at, len(self.rows) - 1)][0]
        raise Unread(f"line {number}: {why}")


# ---- values on one line


def tokens_of(text, lines):
    tokens, at = [], 0
    while at < len(text):
        found = FLOW.match(text, at)
        if not found:
            lines.fail(f"{text[at:]!r} can't be read")
        tokens.append(found[1])
        at = found.end()
    return tokens


def scalar(token):
    return json.loads(token) if token.startswith('"') else plain(token)


def flow(tokens, lines):
    """The value that begins with the next token, which is taken."""
    token = tokens.pop(0) if tokens else lines.fail("a value is missing")
    if token == "[":
        items = []
        while tokens[:1] != ["]"]:
            items.append(flow(tokens, lines))
            if tokens[:1] == [","]:
                tokens.pop(0)
            elif tokens[:1] != ["]"]:
                lines.fail("a bracket isn't closed")
        tokens.pop(0)
        return items
    if token == "{":
        members = {}
        while tokens[:1] != ["}"]:
            name = scalar(tokens.pop(0)) if tokens else lines.fail("a brace isn't closed")
            if name in members or tokens[:1] != [":"]:
                lines.fail(f"{name!r} is twice there or has no value")
            tokens.pop(0)
            members[name] = flow(tokens, lines)
            if tokens[:1] == [","]:
                tokens.pop(0)
            elif tokens[:1] != ["}"]:
                lines.fail("a brace isn't closed")
        tokens.pop(0)
        return members
    if token in "]},:":
        lines.fail(f"{token} stands where a value has to be")
    return scalar(token)


def one_line(text, lines):
    if text[0] in '[{"':
        tokens = tokens_of(text, lines)
        value = flow(tokens, lines)
        return value if not tokens else lines.fail(f"{tokens} stands behind a value")
    if NOT_PLAIN.match(text):
        lines.fail(f"{text!r} is no plain value")
    return plain(text)


# ---- values of several lines


def folded(lines, above):
    """The text of the lines that are set in further, joined by spaces."""
    parts, depth = [], lines.depth()
    if depth <= above:
        lines.fail("a folded text has no line")
    while lines.depth() > above:
        if lines.depth() != depth:
            lines.fail("a folded text is set in unevenly")
        parts.append(lines.said())
        lines.at += 1
    return " ".join(parts)


def below(lines, depth):
    """The block that is set in further than its name."""
    return block(lines, lines.depth()) if lines.depth() > depth else lines.fail("a value is missing")


def member(lines, depth, members, said):
    """Reads one name and its value into the members; its line says this."""
    found = KEY.match(said) or lines.fail(f"{said!r} is no name with a value")
    name, text = scalar(found[1]), found[2]
    if name in members:
        lines.fail(f"{name!r} is twice there")
    if text == ">-":
        lines.at += 1
        members[name] = folded(lines, depth)
    elif text:
        members[name] = one_line(text, lines)
        lines.at += 1
    else:
        lines.at += 1
        members[name] = below(lines, depth)


def item(lines, depth):
    """One item of a sequence: a value on its line, or a mapping that begins there."""
    said = lines.said()[2:].lstrip(" ")
    inner = depth + len(lines.said()) - len(said)
    if not KEY.match(said) or said[0] in "[{":
        value = one_line(said, lines)
        lines.at += 1
        return value
    members = {}
    member(lines, inner, members, said)
    while lines.depth() == inner:
        member(lines, inner, members, lines.said())
    return members


def block(lines, depth):
    """The mapping or the sequence whose lines are set in so far."""
    if lines.said().startswith("- "):
        items = []
        while lines.depth() == depth and lines.said().startswith("- "):
            items.append(item(lines, depth))
        value = items
    else:
        value = {}
        while lines.depth() == depth:
            member(lines, depth, value, lines.said())
    if lines.depth() > depth:
        lines.fail("a line is set in too far")
    return value


def read(text):
    """The value of a text, a mapping or a sequence."""
    lines = Lines(text)
    if not lines.rows:
        raise Unread("the text says nothing")
    value = block(lines, 0)
    return value if lines.at == len(lines.rows) else lines.fail("a line is set in unlike those before it")
