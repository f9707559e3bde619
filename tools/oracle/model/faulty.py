"""Random workspaces, most of them with faults: of a phase that is chosen first, and of later ones, in any of the files.

What an earlier phase looks at is made without a fault, as far as that is easily done: names are new ones, imports lead to files
that were made before, references are written so that they resolve. Of the chosen phase and of later ones each thing is at times
as it must not be.
"""

from faults import DEFAULTS, FIELD_LIMITS, NO_KEYS, OPTIONS, TEXT, VALUE_LIMITS
from generated import PATHS, spelled
from grammar import LISTED, MAX_BYTES, MAX_DEPTH, SCALARS, entry_name

PHASES = {"paths": 2, "text": 15, "grammar": 20, "imports": 12, "names": 13, "references": 16, "checks": 40}
ORDER = list(PHASES)
LAST = len(ORDER) - 1
PACKAGES = ["", "", "p", "p.q", "q", "q.p", "p.p"]
# Names that meet names of packages, of map entries and of each other.
NAMES = "p q A B foo bar FooEntry BarEntry key value a message Inner p_".split()
BAD_PATHS = ["a b.proto", "é.proto", "d+/a.proto", "p/(1).proto", "a:b.proto", "#.proto", "x" * 200 + "/" + "y" * 50 + ".proto"]
LONGEST_PATH = "x" * 200 + "/" + "y" * 48 + ".proto"
# What begins no piece, or is open or refused; a character past ASCII, and half a one; what is allowed in some places.
BAD_PIECES = ["#", ":", "/", "\\", "`", "\0", "é", "\ufeff", "/*", "/*/", "/* *", "/** /", "*/", '"', "'", '"a\n"', '"a\0"', '"a\\\n"', "'\\'"]
BAD_PIECES += ['"\\q"', "'\\400'", '"\\x"', '"\\u0061"', "'\\377'", '"\\xC3"', "'\\303\\251'", '"\\303\\n\\251"', "'\\8'", "'\\777'"]
BAD_PIECES += ["08", "0x", "1x", "1e5", "0xg", "019", "9_", "0b1", "//", "// é\n", "/* \0 */", "\v", "1.5", "'\"'"]
HALF = "\xc3"
TOKENS = "{ } [ ] ( ) < > ; ; , = . - 0 1 0x1F 017 \"a\" 'proto2' \"proto3\" a p optional _x".split() + sorted(LISTED)
UNKNOWN_OPTIONS = "ctype jstype lazy foo map_entry message java_package allow_alias json_name default packed deprecated".split()
CONSTANTS = ["true", "false", "SPEED", "IDEMPOTENT", "inf", "nan", "True", '"x"', "'true'", '"a" "b"', "0", "-1", "- 0x10", "max"]
LARGE = ["99999999999999999999", "0xFFFFFFFFFFFFFFFFFFFF", "07777777777777777777777777"]
EDGES = sorted({edge + step for limits in DEFAULTS.values() for edge in limits for step in (-1, 0, 1)})
KEYS = [scalar for scalar in SCALARS if scalar not in NO_KEYS]
# The extension range of a message that is extended.
EXTENSIONS = (100, 199)


def workspace_with_faults(chance):
    """The texts of a workspace by path, as bytes read as Latin-1."""
    (phase,) = chance.choices(list(PHASES), list(PHASES.values()))
    if phase == "paths" and chance.random() < 0.05:
        return {f"f{number:04}.proto": "" for number in range(4097)}
    maker = Maker(chance, phase)
    files = maker.files()
    if phase == "grammar":
        for path in chance.sample(list(files), chance.randint(1, len(files))):
            files[path] = damaged_tokens(chance, files[path])
    texts = {path: spelled(chance, tokens) for path, tokens in files.items()}
    if phase == "text":
        for path in chance.sample(list(files), chance.randint(1, len(files))):
            texts[path] = damaged_text(chance, texts[path])
    if phase == "paths":
        for path in chance.sample(list(files), chance.randint(1, len(files))):
            texts[chance.choice([*BAD_PATHS, LONGEST_PATH])] = texts.pop(path)
    return texts


# ---- texts and tokens


def damaged_text(chance, text):
    """The text with something else in it at one or more places, or too long, or not UTF-8."""
    if chance.random() < 0.05:
        text += chance.choice([" ", "\n", HALF]) * (MAX_BYTES - len(text) + chance.choice([0, 1, 2, 1000]))
    for _ in range(chance.choice([1, 1, 1, 2, 3])):
        at = chance.choice([0, len(text), chance.randint(0, len(text))])
        way = chance.random()
        if way < 0.06:
            text = text[:at] + HALF + text[at:]
        elif way < 0.2:
            text = text[:at] + text[at + 1 :]
        else:
            text = text[:at] + chance.choice(BAD_PIECES).encode().decode("latin-1") + text[at:]
    return text


def damaged_tokens(chance, tokens):
    """The tokens with some left out, changed, doubled or swapped, or with more braces."""
    tokens = list(tokens)
    for _ in range(chance.choice([1, 1, 1, 2, 4])):
        at = chance.randint(0, len(tokens))
        way = chance.random()
        if way < 0.25:
            del tokens[at : at + chance.choice([1, 1, 1, 2, 5])]
        elif way < 0.5:
            tokens.insert(at, chance.choice(TOKENS + tokens))
        elif way < 0.7:
            tokens[at : at + 1] = [chance.choice(TOKENS + tokens)]
        elif way < 0.8:
            tokens[at : at + 2] = reversed(tokens[at : at + 2])
        elif way < 0.88:
            tokens = tokens[:at]
        elif way < 0.94:
            piece = chance.choice([["message", "N", "{"], ["{"], ["oneof", "o", "{"]])
            tokens[at:at] = piece * chance.randint(MAX_DEPTH - 3, MAX_DEPTH + 2)
        else:
            tokens[at:at] = ["}"] * chance.randint(1, 3)
    return tokens


# ---- files


class Maker:
    """Makes the tokens of one workspace's files."""

    def __init__(self, chance, phase):
        self.chance, self.phase = chance, ORDER.index(phase)
        # How often a thing is as it must not be.
        self.share = chance.choice([0.03, 0.06, 0.1])
        self.count = 0
        # The types of each file by its path: the full name, what it is, and its file's syntax.
        self.types = {}
        # The names of values of enums, and before them one of no enum.
        self.values = ["V"]
        # The last number of an extension.
        self.extension = EXTENSIONS[0]

    def rolls(self, share):
        return self.chance.random() < share

    def slips(self, phase="checks"):
        """Whether something of a phase is to be as it must not be, more often of the chosen one."""
        phase = ORDER.index(phase)
        return self.phase <= phase and self.rolls(self.share if phase == LAST or self.phase < phase else 0.2)

    def any(self, *things):
        return self.chance.choice(things)

    def files(self):
        count = self.any(1, 1, 2, 2, 3, 4)
        paths = [path + ".proto" for path in self.chance.sample(PATHS, count)]
        return {path: self.file(path, paths[:place], paths) for place, path in enumerate(paths)}

    def file(self, path, before, paths):
        self.path, self.syntax = path, self.any("proto3", "proto3", "proto2", "proto2", "")
        tokens = ["syntax", "=", self.quoted(self.syntax), ";"] if self.syntax else []
        imports = self.chance.sample(before, self.chance.randint(0, len(before)))
        self.seen = [path, *imports]
        self.types[path] = []
        parts = [["import", *self.any([], ["public"]), self.quoted(one), ";"] for one in imports]
        while self.slips("imports"):
            other = self.any(*paths, *imports, "x.proto", "a", "./" + path, path)
            parts.append(["import", *self.any([], ["public"]), self.quoted(other), ";"])
        package = self.any(*PACKAGES)
        scope = tuple(package.split(".")) if package else ()
        if package:
            parts.append(["package", *dotted(scope), ";"])
        parts += self.options("file")
        items = [self.item(scope) for _ in range(self.any(0, 1, 2, 3, 4, 5, 6))]
        if self.rolls(0.2):
            parts = self.chance.sample(parts + items, len(parts + items))
        else:
            parts += items
        return tokens + joined(parts)

    def quoted(self, text):
        letters = [f"\\{ord(letter):03o}" if self.rolls(0.02) else letter for letter in text]
        quote = self.any('"', "'")
        return quote + "".join(letters) + quote

    def name(self, word):
        """A new name, or one that may be declared already."""
        self.count += 1
        return self.any(*NAMES) if self.slips("names") else f"{word}{self.count}"

    def item(self, scope):
        make = self.any(self.message, self.message, self.message, self.enum, self.service, self.extend, self.extend)
        return make(scope)

    # ---- references

    def reference(self, scope, kinds=("message", "enum")):
        """The tokens of a reference to a type of these kinds, or to anything."""
        if self.slips("references"):
            return self.any(*self.wrong_references(scope))
        visible = [found for path in self.seen for found in self.types[path] if found[1] in kinds]
        closed = [one for one in visible if self.syntax == "proto3" and one[1] == "enum" and one[2] != "proto3"]
        fit = closed if closed and self.rolls(0.2) else [one for one in visible if one not in closed]
        if not fit:
            return None
        name, _, _ = self.any(*fit)
        if scope[: len(name) - 1] == name[:-1] and self.rolls(0.6):
            return [name[-1]]
        return [".", *dotted(name)]

    def kinds(self, kind):
        """What a reference may be of that is to be of a kind."""
        return ("enum",) if self.slips("references") else (kind,)

    def wrong_references(self, scope):
        """A reference to nothing, to a name of any kind and file in any way, and to one that is not a type."""
        names = [name for path in self.types for name, _, _ in self.types[path]]
        words = self.any(*names, ("nothing",), scope + ("nothing",), ("p",), scope or ("q",))
        words = words[self.chance.randrange(len(words)) :]
        found = [[".", *dotted(words)]]
        return found + [dotted(words)] * 2 if words[0] not in LISTED else found

    # ---- messages

    def message(self, scope, depth=0):
        scope = scope + (self.name("M"),)
        self.types[self.path].append((scope, "message", self.syntax))
        inside = Inside(scope)
        members = [self.member(inside) for _ in range(self.any(0, 1, 2, 3, 5))]
        members += self.options("message")
        members += self.reserved_names(inside) + self.ranges(inside, FIELD_LIMITS)
        if self.syntax != "proto3" and self.rolls(0.6) or self.slips():
            self.types[self.path].append((scope, "extended", self.syntax))
            members.append(["extensions", str(EXTENSIONS[0]), "to", str(EXTENSIONS[1]), ";"])
        while depth < 2 and self.rolls(0.35):
            members.append(self.any(lambda scope: self.message(scope, depth + 1), self.enum, self.extend)(scope))
        self.chance.shuffle(members)
        return ["message", scope[-1], "{", *joined(members), "}"]

    def member(self, inside):
        kind = self.any("field", "field", "field", "map", "oneof")
        if kind == "map":
            return self.map(inside)
        if kind == "oneof":
            fields = [] if self.slips() else [self.field(inside, []) for _ in range(self.any(1, 2, 3))]
            return ["oneof", self.name("o"), "{", *joined(fields), "}"]
        return self.field(inside, self.label())

    def label(self):
        if self.slips():
            return self.any([], ["required"])
        found = self.any("", "", "optional", "repeated") if self.syntax == "proto3" else self.any("optional", "required", "repeated")
        return [found] if found else []

    def map(self, inside):
        key = self.any(*NO_KEYS) if self.slips() else self.any(*KEYS)
        value = self.type(inside.scope)
        name = self.field_name(inside)
        self.types[self.path].append((inside.scope + (entry_name(name),), "entry", self.syntax))
        settings = self.settings("field", value, ["map"])
        return ["map", "<", key, ",", *value, ">", name, "=", self.number(inside.numbers, FIELD_LIMITS), *settings, ";"]

    def type(self, scope):
        found = self.reference(scope) if self.rolls(0.45) else None
        return found or [self.any(*SCALARS)]

    def field(self, inside, label):
        written = self.type(inside.scope)
        name, number = self.field_name(inside), self.number(inside.numbers, FIELD_LIMITS)
        return [*label, *written, name, "=", number, *self.settings("field", written, label), ";"]

    def field_name(self, inside):
        """A new name, at times one with the JSON name of an earlier field, or a reserved one."""
        name = self.name("f")
        if self.slips() and inside.names:
            name = self.any(*inside.names) + "_" * self.count
        inside.names.append(name)
        return name

    def number(self, numbers, limits):
        """A free number, or any other."""
        if self.slips():
            near = [*numbers, *(number + 1 for number in numbers), *EXTENSIONS]
            return self.written(self.any(0, 18999, 19000, 19999, 20000, limits[1], limits[1] + 1, *near))
        numbers.append(len(numbers) + 1 + (numbers[-1] if numbers and self.rolls(0.1) else 0))
        return self.written(numbers[-1])

    def written(self, number):
        if self.slips() and self.rolls(0.1):
            return self.any(*LARGE)
        return self.any(str(number), hex(number), f"0{number:o}") if number >= 0 else f"-{self.written(-number)}"

    def reserved_names(self, inside):
        names = [f"r{self.count}"] if self.rolls(0.2) else []
        while self.slips():
            names += self.any([self.any(*inside.names, "r")], names[:1], [f"r{self.count}"])
        return [["reserved", *commas([self.quoted(name)] for name in names), ";"]] if names else []

    def ranges(self, inside, limits):
        """Statements that reserve numbers."""
        found = [["1000", "to", "0x7d0"]] if self.rolls(0.2) else []
        while self.slips() or found and self.slips():
            edges = [*limits, limits[0] - 1, limits[1] + 1, *inside.numbers, 5, 7, 1000, 2000, 2001]
            found.append([self.written(self.any(*edges)), *self.any([], ["to", self.any("max", self.written(self.any(*edges)))])])
        if limits == FIELD_LIMITS:
            found = [[token.lstrip("-") for token in one] for one in found]
        word = self.any("extensions", "reserved") if self.slips() and limits == FIELD_LIMITS else "reserved"
        return [[word, *commas(found), ";"]] if found else []

    def extend(self, scope):
        """A block of extensions, or an empty statement where there is nothing to extend or none may stand."""
        extended = self.reference(scope, self.kinds("extended")) if self.syntax != "proto3" or self.slips() else None
        if not extended:
            return [";"]
        fields = []
        for _ in range(self.any(1, 2, 3, 0)):
            label = self.any([], ["required"]) if self.slips() else [self.any("optional", "repeated")]
            written = self.type(scope)
            settings = self.settings("extension", written, label)
            fields.append([*label, *written, self.name("x"), "=", self.extension_number(), *settings, ";"])
        return ["extend", *extended, "{", *joined(fields), "}"]

    def extension_number(self):
        """A number that no extension of the workspace has, or any other."""
        if self.slips() or self.slips():
            return self.written(self.any(EXTENSIONS[0] - 1, EXTENSIONS[1] + 1, 0, 19000, *[self.extension] * 4))
        self.extension += 1
        return self.written(self.extension)

    # ---- options

    def options(self, element):
        """Statements of options."""
        return [["option", *option, ";"] for option in self.chosen(element)]

    def chosen(self, element):
        """The options of an element with their values, some of them wrong."""
        known = [name for name in OPTIONS[element] if name not in ("packed", "json_name", "default")]
        names = [self.any(*known)] if self.rolls(0.15) else []
        while self.slips() and self.rolls(0.3):
            names.append(self.any(*known, *UNKNOWN_OPTIONS, *names))
        return [[name, "=", *self.constant(OPTIONS[element].get(name))] for name in names]

    def constant(self, kind):
        if self.slips() or not isinstance(kind, tuple) and kind is not TEXT:
            return self.any(*CONSTANTS).split(" ")
        return ['"t"'] if kind is TEXT else [self.any(*kind)]

    def settings(self, element, written, label):
        """The options of a field, with a default, with `packed` and with a JSON name at times."""
        found = self.chosen(element)
        is_scalar = len(written) == 1 and written[0] in SCALARS
        may_be_packed = label == ["repeated"] and is_scalar and written[0] not in ("string", "bytes")
        if may_be_packed and self.rolls(0.3) or self.slips() and self.rolls(0.4):
            found.append(["packed", "=", self.any("true", "false")])
        if element == "field" and self.rolls(0.1) or self.slips():
            found.append(["json_name", "=", self.quoted(self.any("x", "f1", "f2", f"f{self.count}", "a b"))])
        may_default = self.syntax != "proto3" and label not in (["repeated"], ["map"])
        if may_default and self.rolls(0.2 if is_scalar else 0.1) or self.slips():
            found.append(["default", "=", *self.default(written[-1])])
        self.chance.shuffle(found)
        return ["[", *commas(found), "]"] if found else []

    def default(self, word):
        """A default of a type whose last word this is."""
        if self.slips() or self.rolls(0.05):
            return self.any(*CONSTANTS, *self.values[-3:]).split(" ")
        if word in DEFAULTS:
            low, high = DEFAULTS[word]
            number = self.any(*EDGES) if self.slips() else self.any(low, high, 0, 1)
            return ["-", self.written(-number)] if number < 0 else [self.written(number)]
        others = {"bool": ["true", "false"], "string": ['"d"', "'\\x41'"]}
        return [self.any(*others.get(word, self.values[-3:]))]

    # ---- enums and services

    def enum(self, scope):
        name = self.name("E")
        self.types[self.path].append((scope + (name,), "enum", self.syntax or "proto2"))
        inside, members = Inside(scope), []
        for place in range(0 if self.slips() else self.any(1, 2, 3)):
            number = self.value_number(inside.numbers, place)
            settings = self.chosen("value")
            value = self.field_name(inside)
            self.values.append(value)
            members.append([value, "=", *number, *(["[", *commas(settings), "]"] if settings else []), ";"])
        others = self.options("enum") + self.reserved_names(inside) + self.ranges(inside, VALUE_LIMITS)
        for other in others:
            members.insert(self.chance.randint(0, len(members)), other)
        return ["enum", name, "{", *joined(members), "}"]

    def value_number(self, numbers, place):
        if self.slips():
            edges = [edge + step for edge in VALUE_LIMITS for step in (-1, 0, 1)]
            number = self.any(*edges, -1, 0, 1, *numbers * 4)
        else:
            number = place if self.syntax == "proto3" or self.rolls(0.9) else place + 3
        numbers.append(number)
        return ["-", self.written(-number)] if number < 0 else [self.written(number)]

    def service(self, scope):
        scope = scope + (self.name("S"),)
        members = self.options("service")
        for _ in range(self.any(0, 1, 2)):
            sides = [self.reference(scope, self.kinds("message")) for _ in range(2)]
            if all(sides):
                members.append(self.method(*sides))
        return ["service", scope[-1], "{", *joined(members), "}"]

    def method(self, given, answered):
        sides = [["(", *self.any([], [], ["stream"]), *side, ")"] for side in (given, answered)]
        options = self.options("method")
        end = ["{", *joined(options), "}"] if options or self.rolls(0.1) else [";"]
        return ["rpc", self.name("R"), *sides[0], "returns", *sides[1], *end]


class Inside:
    """What a message or an enum has so far."""

    def __init__(self, scope):
        self.scope, self.names, self.numbers = scope, [], []


def dotted(words):
    return [piece for word in words for piece in (".", word)][1:]


def commas(items):
    return [token for item in items for token in (",", *item)][1:]


def joined(parts):
    return [token for part in parts for token in part]
