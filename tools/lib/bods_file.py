"""A file as its publisher wrote it: its bytes, its text, and the list of statements in it, in whatever wrapping."""
from bods_json import MARK, JsonFault, Node, Text, Undecoded, text_of
from bods_rules import FILE_LIMIT, Fault

# What only a statement has, of this version or of an older one.
STATEMENT_MEMBERS = ["statementId", "statementID", "statementType", "recordType", "recordId"]
CONVERTS = ", as `tools/bods convert` does"
UTF_16 = (b"\xff\xfe", b"\xfe\xff")


def is_statement(value):
    return isinstance(value, dict) and any(name in value for name in STATEMENT_MEMBERS)


def wrapped_in(value):
    """The member of an object that has its statements, where there is one."""
    if not isinstance(value, dict) or is_statement(value):
        return None
    lists = [name for name, it in value.items() if isinstance(it, list) and it and all(isinstance(part, dict) for part in it)]
    return "statements" if "statements" in lists else lists[0] if len(lists) == 1 else None


class File:
    """What stands in the bytes. `faults` has why they are no list of statements in JSON, each with its place and text.

    `shape` says how the statements stand there: "array", "lines" (JSON Lines), "package" (a member of an object) or
    "single"; None where nothing can be read. `nodes` are the statements, and `prefix` leads to their list. Advice needs
    to know which `records` there are, whether a register told them, whether older statements are converted, and which ones
    that these name are `assumed`, since they are nowhere.
    """

    records, is_against, is_converting, assumed = None, False, False, ()

    def __init__(self, data):
        self.size, self.prefix, self.faults, self.shape = len(data), (), [], None
        self.root, self.nodes, self.encoding, self.has_mark = None, [], "UTF-8", False
        if self.size > FILE_LIMIT:
            self.faults.append((Fault("BodyTooLarge"), 0, None))
        self.source = self.decoded(data)
        self.reader = Text(self.source or "")
        if self.source is not None:
            self.read()
        self.value = [node.value for node in self.nodes] if self.shape else None

    def unread(self, why, start, advice=None):
        self.faults.append((Fault("NotJson"), start, (why, advice)))

    def decoded(self, data):
        """The text, with a blank where a byte order mark stood; None where the bytes are none."""
        try:
            text = text_of(data)
        except Undecoded as fault:
            text = utf_16(data)
            self.reader = Text(fault.before)
            self.unread(fault.why, fault.start, f"the text in UTF-8{CONVERTS if text is not None else ''}")
            self.encoding = "UTF-16" if text is not None else "none"
        if text is not None and text.startswith(MARK):
            self.has_mark = True
            if self.encoding == "UTF-8":
                self.unread("a byte order mark stands before the text", 0, f"the same without its first three bytes, EF BB BF{CONVERTS}")
            text = f" {text[1:]}"
        return text

    def read(self):
        try:
            self.root = self.reader.document()
        except JsonFault as fault:
            if not self.read_lines(fault):
                self.unread(fault.why, fault.start)
            return
        self.set_list()

    def read_lines(self, fault):
        """Reads values that stand one behind the other; where that isn't what the text is, gives False."""
        reader = Text(self.source)
        try:
            nodes = list(reader.values())
        except JsonFault as other:
            if other.start <= fault.start or not self.is_lines(fault):
                return False
            self.unread(f"in the midst of JSON Lines: {other.why}", other.start)
            return True
        if len(nodes) < 2 or not all(isinstance(node.value, (dict, list)) for node in nodes):
            return False
        says = "another value stands behind the first: these are JSON Lines"
        self.unread(says, nodes[1].start, f"a list, with commas between the statements{CONVERTS}")
        self.shape, self.reader = "lines", reader
        self.nodes = [part for node in nodes for part in inner(node)]
        return True

    def is_lines(self, fault):
        """Whether what stood behind the first value began on a line of its own."""
        before = self.source[: fault.start].rstrip(" \t\r")
        return before.endswith("\n") and "JSON Lines" in fault.why

    def set_list(self):
        root = self.root
        if isinstance(root.value, list):
            self.shape, self.nodes = "array", root.parts
            return
        name = wrapped_in(root.value)
        if name:
            self.shape, self.prefix, self.nodes = "package", (name,), root.parts[name].parts
        elif is_statement(root.value):
            self.shape, self.nodes = "single", [root]
        self.faults.append((Fault("NotAList"), root.start, None))

    # ---- places

    def node(self, path):
        """The node that a path from the list of statements leads to, or the last one on its way."""
        if not path or path[0] >= len(self.nodes):
            return self.root or Node(0, 0, None)
        return self.nodes[path[0]].at(path[1:])

    def at(self, path):
        return self.node(path).value

    def statement(self, fault):
        return self.nodes[fault.place - 1].value

    def place_of(self, start):
        return self.reader.line_and_column(start)


def inner(node):
    """The statements of a line: itself, those of a list, or those of a package."""
    if isinstance(node.value, list):
        return node.parts
    name = wrapped_in(node.value)
    return node.parts[name].parts if name else [node]


def utf_16(data):
    try:
        return data.decode("utf-16") if data.startswith(UTF_16) else None
    except UnicodeDecodeError:
        return None
