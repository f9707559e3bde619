"""Random workspaces that are read as they are written: custom options on every element and in every form of docs/as-written.md, with
values that suit the types of their extensions, so that protoc reads them too.

A workspace is plain where all else in it is read without the word as well: its texts with spaces in the place of custom options have
the same descriptors there.
"""

from faults import LONG, MORE_OPTIONS
from generated import spelled
from grammar import tokens_of

DESCRIPTOR, OPTIONS, BASE, CHAIN = "google/protobuf/descriptor.proto", "opt/options.proto", "base.proto", "chain.proto"
# The options that protoc looks up here, with its numbers.
OPTION_MESSAGES = """syntax = "proto2";
package google.protobuf;
message FileOptions {
  optional string java_package = 1;
  optional bool java_generate_equals_and_hash = 20;
  optional bool java_string_check_utf8 = 27;
  optional bool cc_generic_services = 16;
  optional bool java_generic_services = 17;
  optional bool py_generic_services = 18;
  optional bool php_generic_services = 42;
  optional bool deprecated = 23;
  optional string swift_prefix = 39;
  optional string php_class_prefix = 40;
  optional string php_metadata_namespace = 44;
  optional string ruby_package = 45;
  extensions 1000 to max;
}
message MessageOptions {
  optional bool no_standard_descriptor_accessor = 2;
  optional bool deprecated = 3;
  optional bool map_entry = 7;
  extensions 1000 to max;
}
message FieldOptions {
  optional CType ctype = 1;
  enum CType { STRING = 0; CORD = 1; STRING_PIECE = 2; }
  optional bool packed = 2;
  optional JSType jstype = 6;
  enum JSType { JS_NORMAL = 0; JS_STRING = 1; JS_NUMBER = 2; }
  optional bool lazy = 5;
  optional bool unverified_lazy = 15;
  optional bool deprecated = 3;
  optional bool weak = 10;
  extensions 1000 to max;
}
message OneofOptions { extensions 1000 to max; }
message EnumOptions { optional bool allow_alias = 2; optional bool deprecated = 3; extensions 1000 to max; }
message EnumValueOptions { optional bool deprecated = 1; extensions 1000 to max; }
message ServiceOptions { optional bool deprecated = 33; extensions 1000 to max; }
message MethodOptions { optional bool deprecated = 33; extensions 1000 to max; }
"""
EXTENDED = {
    "file": "FileOptions",
    "message": "MessageOptions",
    "field": "FieldOptions",
    "oneof": "OneofOptions",
    "enum": "EnumOptions",
    "value": "EnumValueOptions",
    "service": "ServiceOptions",
    "method": "MethodOptions",
}
# The extensions of each of these, by a suffix: the label and the type. The last one's name is a word of the grammar.
EXTENSIONS = {
    "": ("optional", "Value"),
    "_all": ("repeated", "Value"),
    "_number": ("optional", "sint32"),
    "_text": ("optional", "string"),
    "_flag": ("optional", "bool"),
    "_kind": ("optional", "Kind"),
}
LISTED_NAMES = dict(zip(EXTENDED, "syntax import optional package to max stream rpc".split()))
VALUE = "a sint32, b string, c Value, *d sint32, e bool, f Kind, g double, *h Value, stream string, option bool"
STRINGS = ['"x"', "'\"'", '"\\n\\101"', "'{'", '"}"', '"[:"', "'é'", '""']
NUMBERS = "0 7 0x1F 017 2147483647".split()
PACKAGES = ["", "p", "opt", "opt.q", "q.opt_"]
# What a text may have, each of which some texts have to have.
OF = [f"option of {element}" for element in (*EXTENDED, "map field", "field of oneof", "extension")]
NAMES = ["a name of one word", "a name with dots", "a name after a dot", "a listed word as a name"]
NAMES += ["a path of one field", "a path of two fields"]
VALUES = ["a word", "a number", "a negative number", "a string", "strings in a row", "braces"]
IN_BRACES = ["nothing in braces", "braces in braces", "braces behind a colon", "angle brackets", "a list", "a list of braces", "a float"]
IN_BRACES += ["a negative number in braces", "strings in a row in braces", "a comma behind a field", "a semicolon behind a field"]
BESIDE = ["before a plain option", "behind a plain option", "an option twice", "a comment inside"]
WIDER = ["a weak import", "behind a public import", "extend in proto3", "an optional extension in proto3", "a number in two files"]
WIDER += [name for known in MORE_OPTIONS.values() for name in known]
CONSTRUCTS = list(dict.fromkeys(OF + NAMES + VALUES + IN_BRACES + BESIDE + WIDER))


class Custom(str):
    """A token of a custom option, or one that goes with it."""


class Written:
    """A workspace: its texts, those with spaces in the place of custom options, and what each text has of the constructs."""

    def __init__(self, chance):
        self.chance = chance
        self.is_plain = chance.random() < 0.4
        self.texts = {DESCRIPTOR: OPTION_MESSAGES}
        self.blanked = dict(self.texts)
        self.has, self.noted = {}, set()
        # The numbers of extensions of `Base` in the files before, and in the file that is made.
        self.taken, self.taken_here = [], []
        self.put(BASE, joined(["syntax", "=", '"proto2"', ";"], ["message", "Base", "{", "extensions", "100", "to", "199", ";", "}"]))
        self.put(OPTIONS, self.options_file())
        if not self.is_plain:
            self.put(CHAIN, self.chain_file())
        paths = chance.sample(["a.proto", "b.proto", "p/a.proto", "z.proto"], chance.choice([1, 2, 3]))
        for path in paths:
            self.put(path, self.file())

    def rolls(self, share):
        return self.chance.random() < share

    def any(self, *things):
        return self.chance.choice(things)

    def put(self, path, tokens):
        text = spelled(self.chance, tokens)
        spans = spans_of_custom(text, tokens)
        self.note("a comment inside", any("/*" in text[start:end] or "//" in text[start:end] for start, end in spans))
        self.texts[path], self.blanked[path] = text, blanked(text, spans)
        self.has[path], self.noted = self.noted, set()

    def note(self, construct, is_there=True):
        """The construct is in the file that is made."""
        self.noted |= {construct} if is_there else set()

    # ---- files

    def options_file(self):
        """The extensions, in a file of either version, where this is not to be plain."""
        self.is_proto3 = not self.is_plain and self.rolls(0.6)
        self.package = "opt"
        parts = [["syntax", "=", '"proto3"' if self.is_proto3 else '"proto2"', ";"], ["package", "opt", ";"]]
        parts.append(["import", f'"{DESCRIPTOR}"', ";"])
        parts.append("enum Kind { NONE = 0 ; ONE = 1 ; }".split())
        fields = [field.replace("*", "repeated ").split() for field in VALUE.split(", ")]
        members = [[*self.label(*field[:-2]), field[-1], field[-2], "=", str(place), ";"] for place, field in enumerate(fields, 1)]
        parts.append(["message", "Value", "{", *joined(*members), "}"])
        for place, element in enumerate(EXTENDED):
            extensions = [(element + suffix, *kind) for suffix, kind in EXTENSIONS.items()] + [(LISTED_NAMES[element], "optional", "bool")]
            parts.append(["extend", "google", ".", "protobuf", ".", EXTENDED[element], "{"])
            for number, (name, label, kind) in enumerate(extensions, 50000 + 10 * place):
                label = self.label(label)
                self.note("an optional extension in proto3", self.is_proto3 and label == ["optional"])
                parts.append([*label, kind, name, "=", str(number), ";"])
            parts.append(["}"])
        self.note("extend in proto3", self.is_proto3)
        return joined(*parts)

    def label(self, label="optional"):
        """The label of a field or an extension, which may be left out in proto3 where it is not repeated."""
        if label == "repeated":
            return [label]
        return ["optional"] if not self.is_proto3 or self.rolls(0.3) else []

    def file(self):
        self.is_proto3, self.package = self.rolls(0.5), self.any(*PACKAGES)
        self.count = self.extensions = 0
        self.taken, self.taken_here = self.taken + self.taken_here, []
        parts = [["syntax", "=", '"proto3"' if self.is_proto3 else '"proto2"', ";"]]
        seen = CHAIN if not self.is_plain and self.rolls(0.4) else OPTIONS
        parts += [["import", *self.weak(), f'"{path}"', ";"] for path in (seen, DESCRIPTOR, BASE)]
        self.note("behind a public import", seen == CHAIN)
        if self.package:
            parts.append(["package", *" . ".join(self.package.split(".")).split(), ";"])
        parts += self.statements("file")
        for _ in range(self.any(1, 2, 3)):
            parts.append(self.any(self.message, self.message, self.enum, self.service, self.extend, self.extend)())
        return joined(*parts)

    def weak(self):
        """What makes an import weak, in a workspace that is read with the word alone."""
        is_weak = not self.is_plain and self.rolls(0.4)
        self.note("a weak import", is_weak)
        return ["weak"] if is_weak else []

    def chain_file(self):
        """A file that passes the extensions on, by a public import beside weak ones."""
        imports = [["import", "public", f'"{OPTIONS}"', ";"], ["import", *self.weak(), f'"{BASE}"', ";"]]
        imports.append(["import", *self.weak(), f'"{DESCRIPTOR}"', ";"])
        self.chance.shuffle(imports)
        return joined(["syntax", "=", '"proto3"', ";"], *imports)

    def name(self, word):
        self.count += 1
        # Names differ between files of one package, too.
        return f"{word}{len(self.texts)}_{self.count}"

    def message(self):
        members = self.statements("message")
        numbers = iter(range(1, 99))
        for _ in range(self.any(1, 2, 3)):
            members.append(self.any(self.field, self.field, self.map, self.oneof)(numbers))
        return ["message", self.name("M"), "{", *joined(*members), "}"]

    def field(self, numbers):
        label = self.any(["optional"], ["repeated"], *([[]] if self.is_proto3 else []))
        kind = self.any(["string"], ["sint32"], ["sfixed64"], [".", "Base"])
        return self.ended(label + kind, numbers, "field")

    def map(self, numbers):
        return self.ended(["map", "<", "string", ",", "bool", ">"], numbers, "map field")

    def ended(self, typed, numbers, of):
        return [*typed, self.name("f"), "=", str(next(numbers)), *self.brackets("field", of, typed[-1]), ";"]

    def oneof(self, numbers):
        members = [option for option in self.statements("oneof") if isinstance(option[0], Custom)]
        members += [self.ended(["string"], numbers, "field of oneof") for _ in range(self.any(1, 2))]
        self.chance.shuffle(members)
        return ["oneof", self.name("o"), "{", *joined(*members), "}"]

    def enum(self):
        members = self.statements("enum")
        for number in range(self.any(1, 2)):
            members.append([self.name("V"), "=", str(number), *self.brackets("value", "value"), ";"])
        return ["enum", self.name("E"), "{", *joined(*members), "}"]

    def service(self):
        members = self.statements("service")
        options = joined(*self.statements("method"))
        sides = ["(", ".", "Base", ")", "returns", "(", "stream", ".", "Base", ")"]
        members.append(["rpc", self.name("R"), *sides, "{", *options, "}"])
        return ["service", self.name("S"), "{", *joined(*members), "}"]

    def extend(self):
        """Extensions of `Base`, whose numbers may be in other files too; in proto3 of an options message, as protoc wants it."""
        if self.is_plain and self.is_proto3:
            return [";"]
        # Each file begins at its own number where the workspace is plain, else all at one.
        number = 100 + self.extensions + (10 * len(self.texts) if self.is_plain else 0)
        extended, label = [".", "Base"], self.label()
        self.extensions += 1
        if self.is_proto3:
            self.note("extend in proto3")
            extended, number = "google . protobuf . OneofOptions".split(), number + 60000
        elif number in self.taken:
            self.note("a number in two files")
        self.taken_here.append(number)
        self.note("an optional extension in proto3", self.is_proto3 and bool(label))
        typed = [*label, "string", self.name("x"), "=", str(number), *self.brackets("extension", "extension", "string"), ";"]
        return ["extend", *extended, "{", *typed, "}"]

    # ---- options

    def statements(self, element):
        """Statements of options, plain and custom ones."""
        found = [["option", *option, ";"] for option in self.plain(element)]
        customs = [[Custom(token) for token in ["option", *option, ";"]] for option in self.customs(element, element)]
        found += customs
        self.chance.shuffle(found)
        if len(found) > len(customs) > 0:
            self.note("behind a plain option" if isinstance(found[-1][0], Custom) else "before a plain option")
        return found

    def brackets(self, element, of, kind=None):
        """Options in brackets, of an element that is named more exactly, of a field with the last token of its type; the commas beside
        custom ones go with them."""
        plain = self.plain(element, kind)
        custom = self.customs("field" if element == "extension" else element, of)
        if not plain:
            return [Custom(token) for token in bracketed(custom)]
        if not custom:
            return bracketed(plain)
        if self.rolls(0.5):
            self.note("behind a plain option")
            return bracketed(plain)[:-1] + [Custom(token) for option in custom for token in [",", *option]] + ["]"]
        self.note("before a plain option")
        return ["[", *[Custom(token) for option in custom for token in [*option, ","]], *bracketed(plain)[1:]]

    def plain(self, element, kind=None):
        known = [["deprecated", "=", self.any("true", "false")]] if element != "oneof" and self.rolls(0.3) else []
        if not self.is_plain and self.rolls(0.4):
            more = MORE_OPTIONS.get(element, {})
            for name in self.chance.sample(list(more), min(len(more), 2)):
                value = f'"{name}"' if more[name] == "text" else self.any(*suiting(name, more[name], kind))
                known.append([name, "=", value])
                self.note(name)
        return known

    def customs(self, element, of):
        """Custom options of an element, each of its extensions at most once but for the repeated one."""
        suffixes = self.chance.sample(list(EXTENSIONS), self.any(0, 0, 1, 1, 2))
        found = [self.custom(element + suffix, suffix) for suffix in suffixes]
        if "_all" in suffixes and self.rolls(0.5):
            self.note("an option twice")
            found.append(self.custom(element + "_all", "_all"))
        if self.rolls(0.15):
            self.note("a listed word as a name")
            found.append([*self.named(LISTED_NAMES[element]), "=", self.any("true", "false")])
        self.note(f"option of {of}", bool(found))
        return found

    def custom(self, name, suffix):
        kind = EXTENSIONS[suffix][1]
        tokens = self.named(name)
        if suffix == "" and self.rolls(0.5):
            path = self.any(["a"], ["c", "b"])
            self.note("a path of one field" if len(path) == 1 else "a path of two fields")
            tokens += [token for word in path for token in (".", word)]
            kind = "sint32" if len(path) == 1 else "string"
        return [*tokens, "=", *self.value(kind)]

    def named(self, name):
        """The tokens of an extension's name in parentheses."""
        if self.package in ("opt", "opt.q") and self.rolls(0.5):
            self.note("a name of one word")
            return ["(", name, ")"]
        if self.rolls(0.5):
            self.note("a name after a dot")
            return ["(", ".", "opt", ".", name, ")"]
        self.note("a name with dots")
        return ["(", "opt", ".", name, ")"]

    def value(self, kind):
        if kind == "Value":
            self.note("braces")
            return ["{", *self.fields(0), "}"]
        if kind == "string":
            strings = [self.any(*STRINGS) for _ in range(self.any(1, 1, 2))]
            self.note("a string" if len(strings) == 1 else "strings in a row")
            return strings
        if kind == "sint32":
            sign = self.any([], ["-"])
            self.note("a negative number" if sign else "a number")
            return [*sign, self.any(*NUMBERS)]
        self.note("a word")
        return [self.any("true", "false") if kind == "bool" else self.any("NONE", "ONE")]

    def fields(self, depth):
        """The fields of a value in braces, each at most once but for the repeated ones."""
        makes = {
            "a": lambda: [":", *self.negative()],
            "b": lambda: [":", *self.strings()],
            "c": lambda: self.inner(depth),
            "d": lambda: self.listed([[number] for number in self.chance.sample(NUMBERS, 2)]),
            "e": lambda: [":", self.any("true", "false")],
            "f": lambda: [":", "ONE"],
            "g": lambda: [":", self.float()],
            "h": lambda: self.listed([["{", *self.fields(depth + 1), "}"] for _ in range(self.any(1, 2))], "a list of braces"),
            "stream": lambda: [":", *self.strings()],
            "option": lambda: [":", "true"],
        }
        names = self.chance.sample(list(makes), self.any(0, 1, 2, 3) if depth < 3 else 0)
        self.note("nothing in braces", not names)
        return joined(*([name, *makes[name](), *self.separator()] for name in names))

    def separator(self):
        found = self.any([], [], [","], [";"])
        self.note("a comma behind a field", found == [","])
        self.note("a semicolon behind a field", found == [";"])
        return found

    def negative(self):
        sign = self.any([], ["-"])
        self.note("a negative number in braces", bool(sign))
        return [*sign, self.any(*NUMBERS)]

    def strings(self):
        found = [self.any(*STRINGS) for _ in range(self.any(1, 2))]
        self.note("strings in a row in braces", len(found) > 1)
        return found

    def float(self):
        self.note("a float")
        return self.any("1.5", "0.25", ".5")

    def inner(self, depth):
        """A message in braces, behind a colon or not, or in angle brackets."""
        opening, colon, closing = self.any(("{", [], "}"), ("{", [":"], "}"), ("<", [":"], ">"))
        self.note("angle brackets" if opening == "<" else "braces behind a colon" if colon else "braces in braces")
        return [*colon, opening, *self.fields(depth + 1), closing]

    def listed(self, items, construct="a list"):
        self.note(construct)
        return [":", "[", *joined(*([",", *item] for item in items))[1:], "]"]


def suiting(name, values, kind):
    """The words that an option may have at a field whose type ends in this token."""
    if name == "jstype" and kind not in LONG:
        return ["JS_NORMAL"]
    return ["false"] if "lazy" in name and kind not in ("Base", ">") else values


def joined(*parts):
    return [token for part in parts for token in part]


def bracketed(options):
    return ["[", *joined(*([",", *option] for option in options))[1:], "]"] if options else []


def spans_of_custom(text, tokens):
    """Where each row of custom tokens begins and ends in the text that spells the tokens."""
    places = iter(tokens_of(text, as_written=True))
    found, is_open = [], False
    for token in tokens:
        # A float is several tokens.
        pieces = [next(places) for _ in tokens_of(token.encode().decode("latin-1"), as_written=True)]
        if isinstance(token, Custom):
            start = found.pop()[0] if is_open else pieces[0].start
            found.append((start, pieces[-1].start + len(pieces[-1].text)))
        is_open = isinstance(token, Custom)
    return found


def blanked(text, spans):
    """The text with spaces in the place of these parts."""
    for start, end in spans:
        text = text[:start] + "".join(letter if letter == "\n" else " " for letter in text[start:end]) + text[end:]
    return text
