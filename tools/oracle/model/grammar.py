"""A plain model of texts and trees: the tokens of a file and what they are read as, or the fault that the file has.

It is written from docs/language.md alone, and from docs/as-written.md where files are read as they are written. A text is held as
its bytes read as Latin-1, so that an offset in it counts bytes.
"""

import re
from dataclasses import dataclass, field
from typing import NamedTuple, Optional

SCALARS = (
    "double float int32 int64 uint32 uint64 sint32 sint64 fixed32 fixed64 sfixed32 sfixed64 bool string bytes".split()
)
LISTED = set(SCALARS) | set(
    "syntax import weak public package option message enum service rpc returns stream oneof map reserved extensions extend"
    " group optional required repeated to max".split()
)
LABELS = ("optional", "required", "repeated")
WORD = re.compile(r"[A-Za-z_][A-Za-z0-9_]*\Z")
PIECE = re.compile(
    r"""(?P<space>[ \t\n\v\f\r]+|//[^\n]*|/\*.*?\*/)
    |(?P<word>[A-Za-z_][A-Za-z0-9_]*)
    |(?P<number>(?:0[xX][0-9A-Fa-f]+|0[0-7]*|[1-9][0-9]*)(?![A-Za-z0-9_]))
    |(?P<string>"(?:[^"\\\n\0]|\\[^\n\0])*"|'(?:[^'\\\n\0]|\\[^\n\0])*')
    |(?P<mark>[{}\[\]()<>;,=.\-:])""",
    re.X | re.S,
)
ESCAPE = re.compile(r"""\\(?:([abfnrtv\\'"?])|([0-7]{1,3})|x([0-9A-Fa-f]{1,2}))""")
ESCAPED = {"a": "\a", "b": "\b", "f": "\f", "n": "\n", "r": "\r", "t": "\t", "v": "\v"}
MAX_BYTES, MAX_DEPTH = 1_048_576, 32


class NoSchema(Exception):
    """A text or its tokens have a fault: its number and its offset."""

    def __init__(self, number, offset):
        super().__init__(f"{number} at {offset}")
        self.number, self.offset = number, offset


class NoTree(Exception):
    """The next token suits no statement of the grammar."""


# ---- tokens


class Token(NamedTuple):
    start: int
    kind: str
    text: str


def tokens_of(text, as_written=False):
    """The tokens of a text, or NoSchema with the fault that it has; `:` is one where the text is read as it is written."""
    if len(text) > MAX_BYTES:
        raise NoSchema(1, 0)
    if not is_utf8(text):
        raise NoSchema(2, 0)
    tokens, place = [], 0
    while place < len(text):
        piece = PIECE.match(text, place)
        if not piece or not is_allowed(piece, as_written):
            raise NoSchema(fault_at(text, place), place)
        if piece.lastgroup != "space":
            tokens.append(Token(place, piece.lastgroup, piece.group()))
        place = piece.end()
    return tokens


def is_allowed(piece, as_written):
    return is_text(piece.group()) if piece.lastgroup == "string" else as_written or piece.group() != ":"


def fault_at(text, place):
    """The number of the fault of a text at the first place where nothing whole and allowed begins."""
    if text[place] in "\"'":
        return 6 if PIECE.match(text, place) else 5
    if text.startswith("/*", place):
        return 4
    return 7 if text[place] in "0123456789" else 3


def is_utf8(text):
    try:
        text.encode("latin-1").decode()
    except UnicodeError:
        return False
    return True


def bytes_of(string):
    """The bytes between the quotes of a string with its escapes replaced, as characters; past 255 where an escape is."""

    def one(match):
        named, octal, hexadecimal = match.groups()
        if named:
            return ESCAPED.get(named, named)
        return chr(int(octal, 8) if octal else int(hexadecimal, 16))

    return ESCAPE.sub(one, string[1:-1])


def is_text(string):
    """Whether every escape of a closed string is allowed, and its value is UTF-8."""
    return "\\" not in ESCAPE.sub("", string[1:-1]) and is_utf8(bytes_of(string))


def text_value(tokens):
    """The value of one string or of adjacent ones."""
    return "".join(bytes_of(token.text) for token in tokens).encode("latin-1").decode()


def number_value(tokens):
    text = tokens[-1].text
    value = int(text, 16 if text[:2] in ("0x", "0X") else 8 if text[0] == "0" else 10)
    return -value if len(tokens) > 1 else value


# ---- trees


@dataclass
class Reference:
    first: Token
    is_absolute: bool
    tokens: list

    @property
    def words(self):
        return tuple(token.text for token in self.tokens)


@dataclass
class Option:
    name: Token
    value: list


@dataclass
class CustomOption:
    """An option with a name in parentheses: the element that has it, the names of the messages or the service around its scope, and
    the words of its path and of its value."""

    element: str
    around: tuple
    name: Reference
    words: list


@dataclass
class Field:
    label: Optional[str]
    # The type of a map's key.
    key: Optional[Token]
    scalar: Optional[str]
    reference: Optional[Reference]
    name: Token
    number: int
    settings: list
    # The bytes of the statement, from its first token through its `;`.
    span: tuple = (0, 0)
    number_at: int = 0

    def setting(self, name):
        return next((option.value for option in self.settings if option.name.text == name), None)

    @property
    def written_json(self):
        """The first `json_name`, where it is a text."""
        value = self.setting("json_name")
        return text_value(value) if value and value[0].kind == "string" else None

    @property
    def json_name(self):
        return derived_json(self.name.text) if self.written_json is None else self.written_json


@dataclass
class Oneof:
    name: Token
    fields: list
    # Behind its `}`.
    end: int = 0


@dataclass
class Value:
    name: Token
    number: int
    settings: list
    # Where the number's first token is.
    number_at: int = 0


@dataclass
class Reserved:
    """A statement `reserved` or `extensions`: ranges, or strings that reserve names."""

    keyword: Token
    ranges: list = field(default_factory=list)
    # Where each range begins.
    range_places: list = field(default_factory=list)
    names: list = field(default_factory=list)

    @property
    def word(self):
        return self.keyword.text


@dataclass
class Extend:
    """A block of extensions."""

    keyword: Token
    extendee: Reference
    fields: list


@dataclass
class Block:
    """A message, an enum or a service."""

    kind: str
    name: Token
    members: list = field(default_factory=list)

    def of(self, kind):
        return [member for member in self.members if isinstance(member, kind)]

    def blocks(self, kind):
        return [member for member in self.of(Block) if member.kind == kind]

    @property
    def fields(self):
        """Fields in the order of the source, those of oneofs among them."""
        found = []
        for member in self.members:
            found += [member] if isinstance(member, Field) else member.fields if isinstance(member, Oneof) else []
        return found

    @property
    def extension_ranges(self):
        return [one for member in self.of(Reserved) if member.word == "extensions" for one in member.ranges]

    @property
    def reserved_strings(self):
        return [name for member in self.of(Reserved) for name in member.names]

    @property
    def reserved_names(self):
        return [text_value([name]) for name in self.reserved_strings]


@dataclass
class Method:
    name: Token
    input: Reference
    output: Reference
    streams: tuple
    options: list


@dataclass
class File:
    path: str
    text: str
    syntax: str = "proto2"
    package: tuple = ()
    imports: list = field(default_factory=list)
    members: list = field(default_factory=list)
    # The bytes of each import, where its string begins, and the offsets after the `;` of the package and of the syntax.
    import_spans: list = field(default_factory=list)
    import_places: list = field(default_factory=list)
    # The places of weak imports among all.
    weak_imports: list = field(default_factory=list)
    # Custom options, which are no part of the tree.
    custom: list = field(default_factory=list)
    package_end: Optional[int] = None
    syntax_end: Optional[int] = None

    of = Block.of
    blocks = Block.blocks


def derived_json(name):
    return re.sub(r"_+(.?)", lambda match: match.group(1).upper(), name)


def entry_name(name):
    return derived_json("_" + name) + "Entry"


# ---- reading


def file_of(path, text, as_written=False):
    """The file that a text is read as, or NoSchema with the fault of its text or of its grammar."""
    return Reader(tokens_of(text, as_written), as_written).file(path, text)


def brace_too_many(tokens):
    """The first brace that is one too many of those open at once, or nothing."""
    depth = 0
    for token in tokens:
        if token.text == "{":
            depth += 1
            if depth > MAX_DEPTH:
                return token
        elif token.text == "}":
            depth = max(depth - 1, 0)
    return None


class Reader:
    """Reads the tokens of one file by the grammar, with custom options where it is read as it is written."""

    def __init__(self, tokens, as_written=False):
        self.as_written, self.custom = as_written, []
        # The names of the messages, or of the service, around what is read.
        self.around = []
        self.tokens, self.place = [*tokens, Token(-1, "end", "")], 0
        # How many tokens the longest prefix has that closing braces alone would complete, of those that were read.
        self.whole = 0

    def next(self):
        return self.tokens[self.place]

    def is_next(self, *texts):
        return self.tokens[self.place].text in texts

    def take(self, *kinds):
        token = self.next()
        if token.kind not in kinds:
            raise NoTree
        self.place += 1
        if token.text in (";", "{", "}"):
            # A statement, the head of a block or a block ends here.
            self.whole = self.place
        return token

    def take_text(self, *texts):
        if not self.is_next(*texts):
            raise NoTree
        return self.take("word", "mark")

    def take_end(self, text=";"):
        """Takes the text, and answers the offset after it."""
        return self.take_text(text).start + len(text)

    def takes(self, text):
        """Takes the text if it is next."""
        return bool(self.is_next(text) and self.take_text(text))

    def file(self, path, text):
        deep = brace_too_many(self.tokens)
        if deep:
            raise NoSchema(9, deep.start)
        file = File(path, text, custom=self.custom)
        try:
            self.in_file(file)
        except NoTree:
            left = self.tokens[self.whole]
            raise NoSchema(8, len(text) if left.kind == "end" else left.start) from None
        return file

    def in_file(self, file):
        if self.takes("syntax"):
            self.take_text("=")
            file.syntax = text_value([self.take("string")])
            if file.syntax not in ("proto2", "proto3"):
                raise NoTree
            file.syntax_end = self.take_end()
        while self.next().kind != "end":
            self.item(file)

    def item(self, file):
        start = self.next().start
        if self.takes("import"):
            is_public = self.takes("public")
            if self.as_written and not is_public and self.takes("weak"):
                file.weak_imports.append(len(file.imports))
            file.import_places.append(self.next().start)
            file.imports.append((text_value([self.take("string")]), is_public))
            file.import_spans.append((start, self.take_end()))
        elif file.package_end is None and self.takes("package"):
            file.package = tuple(token.text for token in self.dotted())
            file.package_end = self.take_end()
        elif self.is_next("extend"):
            file.members.append(self.extend())
        else:
            self.member(file.members, "file", "message", "enum", "service")

    def member(self, members, element, *blocks):
        """Takes an empty statement, an option of an element, or a block of one of these kinds."""
        if self.takes(";"):
            return
        if self.takes("option"):
            self.option(members, element)
            self.take_end()
        else:
            members.append(self.block(*blocks))

    def dotted(self):
        words = [self.take("word")]
        while self.takes("."):
            words.append(self.take("word"))
        return words

    def option(self, options, element):
        """Takes an option of an element, and adds a plain one to these."""
        if self.as_written and self.is_next("("):
            return self.custom_option(element)
        name = self.take("word")
        self.take_text("=")
        options.append(Option(name, self.constant()))

    def custom_option(self, element):
        self.take_text("(")
        first = self.next()
        is_absolute = self.takes(".")
        name = Reference(first, is_absolute, self.dotted())
        self.take_text(")")
        start = self.place
        while self.takes("."):
            self.take("word")
        self.take_text("=")
        if self.is_next("{"):
            self.braces()
        else:
            self.constant()
        words = [token for token in self.tokens[start : self.place] if token.kind == "word"]
        # The option of a message or of a service stands in what is around that.
        around = self.around[:-1] if element in ("message", "service") else self.around
        self.custom.append(CustomOption(element, tuple(around), name, words))

    def braces(self):
        """Takes a value in braces: tokens in which braces are balanced, and `[` behind `:` alone."""
        depth, before = 0, None
        while not before or depth:
            token = self.next()
            if token.kind == "end" or token.text == "[" and before != ":":
                raise NoTree
            depth += {"{": 1, "}": -1}.get(token.text, 0)
            before = token.text
            self.place += 1

    def constant(self):
        if self.next().kind == "word":
            return [self.take("word")]
        if self.next().kind != "string":
            return self.signed()
        value = []
        while self.next().kind == "string":
            value.append(self.take("string"))
        return value

    def signed(self):
        """The tokens of a number, with the sign before it."""
        sign = [self.take_text("-")] if self.is_next("-") else []
        return sign + [self.take("number")]

    def settings(self, element):
        found = []
        if self.takes("["):
            self.option(found, element)
            while self.takes(","):
                self.option(found, element)
            self.take_text("]")
        return found

    def reference(self):
        first = self.next()
        is_absolute = self.takes(".")
        if not is_absolute and first.text in LISTED:
            raise NoTree
        return Reference(first, is_absolute, self.dotted())

    def block(self, *kinds):
        kind = self.take_text(*kinds).text
        block = Block(kind, self.take("word"))
        self.take_text("{")
        inside = [] if kind == "enum" else [block.name.text]
        self.around += inside
        while not self.takes("}"):
            {"message": self.in_message, "enum": self.in_enum, "service": self.in_service}[kind](block.members)
        self.around = self.around[: len(self.around) - len(inside)]
        return block

    def extend(self):
        extend = Extend(self.take_text("extend"), self.reference(), [])
        self.take_text("{")
        while not self.takes("}"):
            extend.fields.append(self.labeled_field())
        return extend

    def in_message(self, members):
        if self.takes("oneof"):
            members.append(self.oneof())
        elif self.is_next("reserved"):
            members.append(self.reserved(self.number))
        elif self.is_next("extensions"):
            members.append(self.extensions())
        elif self.is_next("extend"):
            members.append(self.extend())
        elif self.is_next(";", "option", "message", "enum"):
            self.member(members, "message", "message", "enum")
        else:
            members.append(self.map_field() if self.is_next("map") else self.labeled_field())

    def oneof(self):
        oneof = Oneof(self.take("word"), [])
        self.take_text("{")
        while not self.is_next("}"):
            if self.as_written and self.takes("option"):
                self.custom_option("oneof")
                self.take_end()
            else:
                oneof.fields.append(self.field(None, self.next().start))
        oneof.end = self.take_end("}")
        return oneof

    def labeled_field(self):
        start = self.next().start
        label = self.take_text(*LABELS).text if self.is_next(*LABELS) else None
        return self.field(label, start)

    def map_field(self):
        start = self.take_text("map").start
        self.take_text("<")
        key = self.take_text(*SCALARS)
        self.take_text(",")
        return self.field(None, start, key)

    def field(self, label, start, key=None):
        """A field from its type on; of a map field the type of its value."""
        scalar = self.take_text(*SCALARS).text if self.is_next(*SCALARS) else None
        reference = None if scalar else self.reference()
        if key:
            self.take_text(">")
        name = self.take("word")
        self.take_text("=")
        written = self.take("number")
        settings = self.settings("field")
        span = (start, self.take_end())
        return Field(label, key, scalar, reference, name, number_value([written]), settings, span, written.start)

    def number(self):
        return [self.take("number")]

    def reserved(self, number):
        """A `reserved` statement, whose numbers are taken as given."""
        found = Reserved(self.take_text("reserved"))
        if self.next().kind != "string":
            return self.with_ranges(found, number)
        found.names.append(self.take("string"))
        while self.takes(","):
            found.names.append(self.take("string"))
        self.take_end()
        return found

    def extensions(self):
        return self.with_ranges(Reserved(self.take_text("extensions")), self.number)

    def with_ranges(self, found, number):
        while True:
            found.range_places.append(self.next().start)
            end = start = number_value(number())
            if self.takes("to"):
                end = None if self.takes("max") else number_value(number())
            found.ranges.append((start, end))
            if not self.takes(","):
                break
        self.take_end()
        return found

    def in_enum(self, members):
        if self.is_next("reserved"):
            members.append(self.reserved(self.signed))
        elif self.is_next(";", "option"):
            self.member(members, "enum")
        else:
            name = self.take("word")
            self.take_text("=")
            place = self.next().start
            number = number_value(self.signed())
            members.append(Value(name, number, self.settings("value"), place))
            self.take_end()

    def in_service(self, members):
        if self.is_next(";", "option"):
            return self.member(members, "service")
        self.take_text("rpc")
        name = self.take("word")
        is_streamed, given = self.side()
        self.take_text("returns")
        streams, answered = self.side()
        options = []
        if self.takes("{"):
            while not self.takes("}"):
                self.member(options, "method")
        else:
            self.take_end()
        members.append(Method(name, given, answered, (is_streamed, streams), options))

    def side(self):
        """Whether an input or an output is a stream, and its reference."""
        self.take_text("(")
        side = (self.takes("stream"), self.reference())
        self.take_text(")")
        return side
