"""A client of the language server, which takes and applies what it answers by an arithmetic of positions of its own."""
import contextlib
import functools
import json
import os
import re
import select
import subprocess
import sys
import urllib.parse

sys.dont_write_bytecode = True
sys.path.insert(0, os.path.dirname(os.path.dirname(os.path.abspath(__file__))))
from shared import Difference, expect  # noqa: E402

SECONDS = 120
FAILED = -32803


# ---- positions


@functools.lru_cache(maxsize=64)
def lines_of(text):
    """The lines of a text as the protocol has them, each as its start and its end before the line end, in characters."""
    lines, start = [], 0
    for end in re.finditer(r"\r\n|\n|\r", text):
        lines.append((start, end.start()))
        start = end.end()
    return [*lines, (start, len(text))]


def units(piece, encoding):
    return len(piece.encode(encoding)) // (2 if encoding == "utf-16-le" else 1)


def offset_of(text, position, encoding):
    """The offset in characters of a position that is to be one of the text."""
    start, end = lines_of(text)[position["line"]]
    line, left = text[start:end].encode(encoding), position["character"] * (2 if encoding == "utf-16-le" else 1)
    if left > len(line):
        raise Difference(f"{position} is behind its line")
    try:
        return start + len(line[:left].decode(encoding))
    except UnicodeDecodeError as fault:
        raise Difference(f"{position} is within a character") from fault


def position_of(text, offset, encoding):
    """The position of an offset in characters."""
    for line, (start, end) in enumerate(lines_of(text)):
        if start <= offset <= end:
            return {"line": line, "character": units(text[start:offset], encoding)}
    raise Difference(f"no position of {offset}: it is within a line end")


def applied(text, edits, encoding):
    """The text after text edits, of which none overlaps another."""
    spans = sorted((offset_of(text, edit["range"]["start"], encoding), offset_of(text, edit["range"]["end"], encoding), edit["newText"]) for edit in edits)
    pieces, at = [], 0
    for start, end, new in spans:
        if start < at:
            raise Difference(f"edits overlap: {edits}")
        pieces += [text[at:start], new]
        at = end
    return "".join(pieces) + text[at:]


def uri_of(path):
    return "file://" + urllib.parse.quote(path, safe="/-._~")


# ---- the server


class Server:
    """A running server, and what it has shown of each document."""

    def __init__(self, words, folder):
        self.run = subprocess.Popen(words, cwd=folder, stdin=subprocess.PIPE, stdout=subprocess.PIPE, stderr=subprocess.PIPE)
        os.set_blocking(self.run.stdin.fileno(), False)
        self.buffer, self.ids, self.shown, self.said = b"", 0, {}, []

    def send(self, message):
        content = json.dumps({"jsonrpc": "2.0", **message}, ensure_ascii=self.ids % 2 == 0).encode()
        self.put(b"Content-Length: %d\r\n\r\n%s" % (len(content), content))

    def put(self, rest):
        """Writes bytes. What the server says meanwhile is taken, so that neither waits for the other."""
        while rest:
            readable, writable, _ = select.select([self.run.stdout], [self.run.stdin], [], SECONDS)
            if readable:
                self.fill()
            if writable:
                try:
                    rest = rest[os.write(self.run.stdin.fileno(), rest) :]
                except BrokenPipeError as fault:
                    raise Difference(f"the server has ended: {self.run.wait(SECONDS)} {self.errors()}") from fault
            elif not readable:
                raise Difference("the server reads nothing")

    def fill(self):
        ready, _, _ = select.select([self.run.stdout], [], [], SECONDS)
        piece = os.read(self.run.stdout.fileno(), 1 << 16) if ready else b""
        if not piece:
            raise Difference(f"the server is silent or has ended: {self.run.poll()} {self.errors()}")
        self.buffer += piece

    def errors(self):
        return self.run.stderr.read().decode() if self.run.poll() is not None else ""

    def read(self):
        while b"\r\n\r\n" not in self.buffer:
            self.fill()
        head, _, rest = self.buffer.partition(b"\r\n\r\n")
        length = int(re.fullmatch(rb"Content-Length: (\d+)", head)[1])
        while len(rest) < length:
            self.fill()
            rest = self.buffer.partition(b"\r\n\r\n")[2]
        self.buffer = rest[length:]
        text = rest[:length].decode()
        message = json.loads(text)
        expect("a message is compact, with its members in order", json.dumps(message, ensure_ascii=False, separators=(",", ":"), sort_keys=True), text)
        return message

    def notify(self, method, **params):
        self.send({"method": method, "params": params})

    def ask(self, method, **params):
        """The result or the error of a request."""
        self.ids += 1
        self.send({"id": self.ids, "method": method, "params": params})
        while True:
            message = self.read()
            if message.get("id") == self.ids:
                return message.get("result", message.get("error"))
            self.take(message)

    def take(self, message):
        if message["method"] == "textDocument/publishDiagnostics":
            params = message["params"]
            self.shown[params["uri"]] = (params.get("version"), params["diagnostics"])
        else:
            self.said.append(message["params"]["message"])

    def initialize(self, root, encodings=None):
        """The encoding that is agreed on, as Python names it."""
        general = {"general": {"positionEncodings": encodings}} if encodings else {}
        result = self.ask("initialize", rootUri=uri_of(root), capabilities=general)
        encoding = result["capabilities"]["positionEncoding"]
        expect("the encoding", "utf-8" if encodings and "utf-8" in encodings else "utf-16", encoding)
        self.notify("initialized")
        return "utf-8" if encoding == "utf-8" else "utf-16-le"

    def open(self, uri, version, text):
        self.notify("textDocument/didOpen", textDocument={"uri": uri, "languageId": "", "version": version, "text": text})

    def settle(self):
        """Waits for all that is told: at the latest after the reply to a first request, which none follows yet."""
        for _ in range(2):
            expect("an unknown method", -32601, self.ask("protoref/unknown")["code"])

    def end(self, shuts_down):
        if shuts_down:
            expect("shutdown", None, self.ask("shutdown"))
            expect("a request after shutdown", -32600, self.ask("textDocument/definition")["code"])
        self.notify("exit")
        self.run.stdin.close()
        self.ended(0 if shuts_down else 1)

    def ended(self, status):
        """Sees that the server has ended, and has said nothing of it on standard error."""
        expect("the exit status", status, self.run.wait(SECONDS))
        expect("standard error", b"", self.run.stderr.read())

    def kill(self):
        self.run.kill()
        self.run.wait()
        for stream in (self.run.stdin, self.run.stdout, self.run.stderr):
            with contextlib.suppress(BrokenPipeError):
                stream.close()
