"""Finds what schemas have that protoc accepts and the language does not, by the causes of docs/faults.md.

It reads a file as far as it has the form of a schema, and knows no names and no types: what is wrong otherwise is for the program to say.
"""
import re

TOKEN = re.compile(
    r"""\s+|//[^\n]*|/\*(?s:.)*?\*/|(?P<word>[A-Za-z_]\w*)|(?P<number>[0-9]\w*)|(?P<string>"(?:\\.|[^"\\\n\0])*"|'(?:\\.|[^'\\\n\0])*')|(?P<mark>[^\s])""",
    re.ASCII,
)
NUMBER = re.compile(r"0|[1-9][0-9]*|0[0-7]+|0[xX][0-9a-fA-F]+")
ESCAPE = re.compile(r"\\(x[0-9a-fA-F]{1,2}|[0-7]{1,3}|.)", re.IGNORECASE | re.DOTALL)
MARKS, OPENING, CLOSING = frozenset("{}[]()<>;,=.-"), frozenset("([{"), frozenset(")]}")
LABELS, FLOATS = ("optional", "required", "repeated"), ("float", "double")
# How many blocks are read within each other; the language has fewer.
DEPTH = 64
# The words that begin a block in a file or a message, with the kind of the block.
BLOCKS = {"message": "message", "enum": "enum", "service": "service", "oneof": "oneof", "extend": "extend"}
PARENTHESES, BRACES = "an-option-name-in-parentheses", "an-option-value-in-braces"
UNLISTED, FLOAT, BYTES, GRAMMAR = "an-option-that-is-not-in-the-list", "a-default-of-float-or-double", "a-default-of-bytes", "other-grammar"
WEAK, ONEOF, GROUP, EXTEND, TEXT = "a-weak-import", "an-option-in-a-oneof", "a-group", "extend-in-proto3", "other-causes-in-the-text"
# Each is a heading of docs/faults.md.
CAUSES = (PARENTHESES, BRACES, UNLISTED, FLOAT, BYTES, GRAMMAR, WEAK, ONEOF, GROUP, EXTEND, TEXT)


class Token:
    def __init__(self, kind, text, offset):
        self.kind, self.text, self.offset = kind, text, offset


class Found:
    """Something outside the language: its offset, the number that the program gives it, and its cause."""

    def __init__(self, offset, number, cause):
        self.offset, self.number, self.cause = offset, number, cause


def bytes_of(text):
    """The bytes of a string's inside, escapes replaced; each byte is one character of the text."""

    def byte_of(it):
        word = it[1]
        if word[0] in "xX" and len(word) > 1:
            return chr(int(word[1:], 16))
        return chr(int(word, 8) & 255) if word[0] in "01234567" else word

    return ESCAPE.sub(byte_of, text).encode("latin-1", "replace")


def is_utf8(data):
    try:
        data.decode()
        return True
    except UnicodeDecodeError:
        return False


def split_at_commas(tokens):
    """The runs of tokens between the commas that stand in no brackets."""
    runs, depth = [[]], 0
    for token in tokens:
        depth += (token.text in OPENING) - (token.text in CLOSING)
        if token.text == "," and not depth:
            runs.append([])
        else:
            runs[-1].append(token)
    return runs


def split_at(mark, tokens):
    """The tokens before the first mark of this text, and those after it."""
    at = next((at for at, token in enumerate(tokens) if token.text == mark), len(tokens))
    return tokens[:at], tokens[at + 1 :]


class Reader:
    """Goes through the tokens of a file, statement by statement."""

    def __init__(self, data, options):
        text = data.decode("latin-1")
        self.options, self.found, self.at, self.is_proto3 = options, [], 0, False
        # The paths that the file imports, each with its offset.
        self.imports = []
        if text.startswith("\xef\xbb\xbf"):
            self.add(0, 3, TEXT)
            text = "   " + text[3:]
        self.tokens = [Token(it.lastgroup, it[0], it.start()) for it in TOKEN.finditer(text) if it.lastgroup]
        for token in self.tokens:
            if token.kind == "string" and any(it[1][0] in "uU" for it in ESCAPE.finditer(token.text[1:-1])):
                self.add(token.offset, 6, TEXT)

    def add(self, offset, number, cause):
        self.found.append(Found(offset, number, cause))

    def is_at(self, *texts):
        return self.at < len(self.tokens) and self.tokens[self.at].text in texts

    def take_statement(self, in_braces):
        """The tokens up to the `;` that ends a statement, or to the `{` of its block, which is left out of them; and which of these it is."""
        begin, depth = self.at, 0
        while self.at < len(self.tokens):
            text = self.tokens[self.at].text
            if not depth and (text == ";" or text == "{" and not in_braces):
                self.at += 1
                return self.tokens[begin : self.at - 1], text
            if not depth and text == "}":
                break
            depth += (text in OPENING) - (text in CLOSING)
            self.at += 1
        return self.tokens[begin : self.at], ""

    def take_block(self, kind, depth=0):
        """The statements up to the `}` that ends a block, or to the end of the file."""
        while self.at < len(self.tokens) and depth < DEPTH:
            if self.is_at("}"):
                self.at += 1
                if kind != "file":
                    return
            elif self.is_at(";"):
                self.at += 1
            else:
                self.take_one(kind, depth)

    def take_one(self, kind, depth):
        """One statement in a block of this kind, with its own block."""
        begin = self.at
        is_option = self.is_at("option") and not (kind == "enum" and self.tokens[begin + 1 : begin + 2] and self.tokens[begin + 1].text == "=")
        tokens, end = self.take_statement(is_option)
        if not tokens:
            self.at = max(self.at, begin + 1)
        elif is_option:
            self.see_statement_of_option(kind, tokens)
        elif end == "{":
            self.take_block(self.kind_of_block(kind, tokens), depth + 1)
        elif kind == "file" or tokens[0].text in ("extensions", "reserved"):
            self.see_plain(tokens)
        elif kind != "service":
            self.see_field(kind, tokens)

    def kind_of_block(self, kind, tokens):
        """The kind of the block that begins after these tokens."""
        first = tokens[0]
        if kind == "service":
            return "method"
        if kind in ("file", "message") and first.text in BLOCKS:
            if first.text == "extend" and self.is_proto3:
                self.add(first.offset, 31, EXTEND)
            return BLOCKS[first.text]
        if any(token.text == "group" for token in tokens[:2]):
            self.add(first.offset, 8, GROUP)
            self.see_brackets("field", tokens)
        return "message"

    def see_plain(self, tokens):
        """A statement of a file, or one of ranges or of reserved names."""
        first, second = tokens[0], tokens[1] if len(tokens) > 1 else Token("", "", 0)
        if first.text == "syntax" and tokens[-1].text[1:-1] == "proto3":
            self.is_proto3 = True
        if first.text == "import":
            self.imports += [(token.text[1:-1].encode("latin-1"), token.offset) for token in tokens[:3] if token.kind == "string"]
        if first.text == "import" and second.text == "weak":
            self.add(first.offset, 8, WEAK)
        is_joined = any(one.kind == other.kind == "string" for one, other in zip(tokens, tokens[1:]))
        if first.text == "edition" or is_joined or first.text == "extensions" and any(token.text == "[" for token in tokens):
            self.add(first.offset, 8, GRAMMAR)

    def see_statement_of_option(self, kind, tokens):
        if kind == "oneof":
            self.add(tokens[0].offset, 8, ONEOF)
        name, value = split_at("=", tokens[1:])
        self.see_option(kind, tokens[0], name, value)

    def see_option(self, kind, first, name, value):
        """An option of an element of this kind, in the statement that begins with this token."""
        if any(token.text == "(" for token in name):
            if kind != "oneof":
                self.add(first.offset, 8, PARENTHESES)
        elif len(name) > 1:
            self.add(first.offset, 8, GRAMMAR)
        elif name and kind != "oneof" and name[0].text not in self.options[kind]:
            self.add(name[0].offset, 27, UNLISTED)
        if value and value[0].text == "{":
            bad = next((token for token in value if token.kind == "mark" and token.text not in MARKS), None)
            self.add(bad.offset if bad else first.offset, 3 if bad else 8, BRACES)
        elif any(token.text == "(" for token in name):
            for token in value:
                if token.kind == "number" and not NUMBER.fullmatch(token.text):
                    self.add(token.offset, 7, PARENTHESES)

    def see_field(self, kind, tokens):
        """A field, or a value of an enum."""
        if tokens[0].text in LABELS:
            kind_of_value = tokens[1].text if len(tokens) > 1 else ""
        else:
            kind_of_value = tokens[0].text
        element = {"enum": "value of an enum", "extend": "extension"}.get(kind, "field")
        self.see_brackets(element, tokens, "" if kind == "enum" else kind_of_value)

    def see_brackets(self, element, tokens, type_name=""):
        """The options in the brackets of a field or value."""
        _, inside = split_at("[", tokens)
        for item in split_at_commas(inside[:-1] if inside else []):
            name, value = split_at("=", item)
            self.see_option(element, tokens[0], name, value)
            if len(name) == 1 and name[0].text == "default" and value:
                self.see_default(type_name, tokens[0], name[0], value)

    def see_default(self, type_name, first, name, value):
        """A default of a field of this type."""
        if type_name in FLOATS:
            bad = next((token for token in value if token.kind == "number" and not NUMBER.fullmatch(token.text)), None)
            is_word = len(value) == 1 or len(value) == 2 and value[0].text == "-" and value[1].kind == "number"
            if bad:
                self.add(bad.offset, 7, FLOAT)
            elif is_word:
                self.add(name.offset, 28, FLOAT)
            else:
                self.add(first.offset, 8, FLOAT)
        if type_name == "bytes":
            bad = next((token for token in value if token.kind == "string" and not is_utf8(bytes_of(token.text[1:-1]))), None)
            self.add(bad.offset if bad else name.offset, 6 if bad else 28, BYTES)


def read(data, options):
    """What the bytes of a schema have outside the language, in the order of offsets, and the paths that it imports, each with its offset."""
    reader = Reader(data, options)
    reader.take_block("file")
    unique = {(it.offset, it.number, it.cause): it for it in reader.found}
    return [unique[key] for key in sorted(unique)], reader.imports
