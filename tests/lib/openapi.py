"""docs/openapi.yaml: what it says of a request and its reply, and which refusals it lists."""
import json
import re
from urllib.parse import parse_qsl

from lib.program import TOP
from lib.schemas import NoSchema, fits, led, schemas_in
from lib.yaml_subset import read

PLACE = "docs/openapi.yaml"
METHODS = ("get", "put", "post", "delete")
FIRST_LINE = re.compile(rb"([^ \r\n]+) ([^ ?\r\n]*)(?:\?([^ \r\n]*))?(?: [^\r\n]*)?\r?\n")
PHRASE = re.compile(r"HTTP/1\.1 (\d{3}) .+")


class Reply:
    """A reply taken apart: its status, its fields, and its body."""

    def __init__(self, data):
        head, _, self.body = data.partition(b"\r\n\r\n")
        line, *fields = head.decode("latin-1").split("\r\n")
        found = PHRASE.fullmatch(line)
        self.status = int(found[1]) if found else 0
        self.fields = dict(field.split(": ", 1) for field in fields)
        self.are_fields_single = len(self.fields) == len(fields)

    def value(self):
        """The body as JSON has it."""
        return json.loads(self.body)

    def refusal(self):
        """What was refused, with its field where it has one."""
        value = self.value() if self.status >= 400 else {}
        return value.get("refusal"), value.get("field")


class Document:
    """The document, with the operations that it has of each path."""

    def __init__(self, text=None):
        self.text = (TOP / PLACE).read_text(encoding="utf-8") if text is None else text
        self.all = read(self.text)
        self.paths = {path: re.compile(re.sub(r"\\\{\w+\\\}", "[^/]+", re.escape(path))) for path in self.all["paths"]}

    def led(self, part):
        return led(self.all, part)

    def operations(self):
        """Each operation by its method and its path."""
        for path, item in self.all["paths"].items():
            yield from (((method.upper(), path), item[method]) for method in METHODS if method in item)

    def path_of(self, target):
        return next((path for path, form in self.paths.items() if form.fullmatch(target)), None)

    def asked(self, request):
        """The operation that a request asks for by its first line, as its method and path, and the responses to it."""
        found, elsewhere = FIRST_LINE.match(request), self.all["x-elsewhere"]
        method, target = (found[it].decode("latin-1") for it in (1, 2)) if found else ("", "")
        path = self.path_of(target)
        operation = self.all["paths"].get(path, {}).get(method.lower()) if method.isupper() else None
        if operation:
            return (method, path), operation["responses"]
        return None, {status: it for status, it in elsewhere.items() if status != ("404" if path else "405")}

    def parameters(self, key):
        method, path = key
        item = self.all["paths"][path]
        return [self.led(it) for it in [*item.get("parameters", []), *item[method.lower()].get("parameters", [])]]

    def content_of(self, part):
        """The one content of a request's body or of a response: its type, and what is said of it."""
        (kind, content), = self.led(part)["content"].items()
        return kind, content

    def schema_of(self, response):
        kind, content = self.content_of(response)
        return kind, content["schema"]

    def examples_of(self, part):
        """The examples of a parameter or of a content."""
        alone = [part["example"]] if "example" in part else []
        return alone + [self.led(it)["value"] for it in part.get("examples", {}).values()]

    def given(self, key, request):
        """What a request gives for each parameter of an operation, by the parameter's name."""
        found = FIRST_LINE.match(request)
        target, query = found[2].decode("latin-1"), (found[3] or b"").decode("latin-1")
        pairs = parse_qsl(query, keep_blank_values=True, errors="replace")
        return {
            it["name"]: [target.split("/")[2]] if it["in"] == "path" else [value for name, value in pairs if name == it["name"]]
            for it in self.parameters(key)
        }

    # ---- what is wrong with a request that was answered, and with its reply

    def request_fault(self, key, request):
        """Why a request that was done isn't as its operation has it."""
        all_given = self.given(key, request)
        for parameter in self.parameters(key):
            name, given = parameter["name"], all_given[parameter["name"]]
            if len(given) > 1 or (not given and parameter["required"]):
                return f"{name} is there {len(given)} times"
            if not all(fits(self.all, parameter["schema"], it) for it in given):
                return f"{name} is {given}"
        return None

    def field_fault(self, response, reply):
        """Why the fields of a reply aren't as the response has them."""
        kind, _ = self.schema_of(response)
        told = dict(reply.fields)
        if not reply.are_fields_single or told.pop("Content-Type", None) != kind:
            return f"the fields {reply.fields}"
        listed = {name: self.led(it) for name, it in self.led(response)["headers"].items()}
        for name, header in listed.items():
            if name not in told:
                return f"there is no {name}" if header["required"] else None
            value = told.pop(name)
            if name == "Content-Length":
                value = int(value)
                if value != len(reply.body):
                    return f"{name} is {value}"
            if not fits(self.all, header["schema"], value):
                return f"{name} is {value!r}"
        return f"{sorted(told)} isn't listed" if told else None

    def reply_fault(self, key, responses, request, reply):
        """Why a reply isn't as the document has it, or nothing."""
        response = responses.get(str(reply.status))
        if response is None:
            return f"status {reply.status} isn't listed"
        if reply.status < 300:
            fault = self.request_fault(key, request)
            if fault:
                return f"it was done, and {fault}"
        fault = self.field_fault(response, reply)
        if fault:
            return fault
        try:
            value = reply.value()
        except ValueError:
            return "the body is no JSON"
        _, schema = self.schema_of(response)
        return None if fits(self.all, schema, value) else f"the body {reply.body!r:.200}"

    # ---- what it lists

    def refusals(self):
        """Each operation, status, refusal and field that the document lists; those of no operation under None."""
        for key, status, response in self.responses():
            if status >= 400:
                yield from ((key, status, *told) for told in self.listed_in(self.schema_of(response)[1]))

    def responses(self):
        """Each response with its operation and its status; those of no operation under None."""
        all_of = [(key, it["responses"]) for key, it in self.operations()]
        for key, responses in [*all_of, (None, self.all["x-elsewhere"])]:
            yield from ((key, int(status), response) for status, response in responses.items())

    def listed_in(self, schema):
        for part in schemas_in(self.all, schema):
            members = part.get("properties", {})
            if "refusal" in members:
                for name in self.values(members["refusal"]):
                    yield from ((name, field) for field in self.values(members.get("field", {"const": None})))

    def values(self, schema):
        schema = self.led(schema)
        if "const" not in schema and "enum" not in schema:
            raise NoSchema(f"{schema} lists no values")
        return [schema["const"]] if "const" in schema else schema["enum"]
