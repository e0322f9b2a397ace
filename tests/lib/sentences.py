"""How long the documents and their sentences are.

A sentence ends at a full stop, a question mark or an exclamation mark with a space behind it, and where its paragraph
ends. The marks of bold text, a bracket or a quotation mark may stand before that space. A colon and a semicolon end no
sentence, and neither do two full stops in a row. A list item is a paragraph of its own, however its lines are wrapped.
So is the cell of a table: held to MOST like all others, it counts for the mean where it has NAME words or more, since
a shorter cell is a name or a number. A heading counts for nothing, and so does a block of code.

A word has a letter or a digit, and stands between spaces. A span in backticks is one word, and a link counts by its
text. The words of all documents together are counted as `wc -w` counts them, with blocks of code and headings.
"""
import re

MEAN, MOST, NAME, TOTAL = 18, 40, 4, 30_000
HELD = ["README.md", "CONTRIBUTING.md", *(f"docs/{it}.md" for it in ("HEADLINE", "MODEL", "OPERATE", "PROMISES"))]

ITEM = re.compile(r"\s*(?:[-*]|\d+\.)\s+(.*)")
RULE = re.compile(r"\s*\|[\s|:-]*")
CELL = re.compile(r"(?<!\\)\|")
SPAN = re.compile(r"(`+)(.+?)\1")
LINK = re.compile(r"\[([^][]*)\]\([^()\s]*\)")
END = re.compile(r"(?<!\.\.)(?<=[.?!])[)\"'*_]*(?:\s|$)")
WORD = re.compile(r"[^\W_]")


def paragraphs(lines):
    """The paragraphs of numbered lines: each with the number of its first line, its text, and whether it is a cell."""
    first, gathered = 0, []
    for number, line in [*lines, (0, "")]:
        is_row, is_heading, item = line.lstrip().startswith("|"), line.startswith("#"), ITEM.fullmatch(line)
        if gathered and (is_row or is_heading or item or not line.strip()):
            yield first, " ".join(gathered), False
            gathered = []
        if is_row and not RULE.fullmatch(line):
            yield from ((number, cell, True) for cell in CELL.split(line.strip().strip("|")))
        elif line.strip() and not is_row and not is_heading:
            first = first if gathered else number
            gathered.append(item[1] if item else line.strip())


def sentences(lines):
    """The sentences of numbered lines: each with the line where its paragraph begins, its words, and whether it is in a cell."""
    for number, text, is_cell in paragraphs(lines):
        # (no space is left in a span, so that it is one word and ends no sentence)
        whole = LINK.sub(r"\1", SPAN.sub(lambda span: span[0].replace(" ", "\0"), text))
        for sentence in END.split(whole):
            words = [it.replace("\0", " ") for it in sentence.split() if WORD.search(it)]
            if words:
                yield number, words, is_cell


def too_long(document, lines):
    """A line for each sentence of a document with more than MOST words, and one where their mean is more than MEAN."""
    found = list(sentences(lines)) if document in HELD else []
    for number, words, _ in found:
        if len(words) > MOST:
            yield f"{document}:{number}: a sentence of {len(words)} words, where {MOST} are allowed: {' '.join(words[:8])} .."
    counts = [len(words) for _, words, is_cell in found if not is_cell or len(words) >= NAME]
    mean = sum(counts) / max(len(counts), 1)
    if mean > MEAN:
        yield f"{document}: {mean:.1f} words a sentence in the mean, where {MEAN} are allowed"


def too_many(texts):
    """A line where the documents have more than TOTAL words together."""
    words = sum(len(text.split()) for text in texts)
    if words > TOTAL:
        yield f"README.md, CONTRIBUTING.md and docs/*.md: {words:,} words together, where {TOTAL:,} are allowed"
