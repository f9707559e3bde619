"""Random workspaces, and renames of what they declare.

Names come from small pools, so that new names often collide, capture, clash or are reserved. References are written in any way
that resolves to their names. A workspace compiles by how it is made; the model is asked for its faults nevertheless.
"""

from faults import faults_of
from grammar import LISTED, MAX_BYTES, SCALARS, Reference, Token, Value, derived_json, entry_name
from renames import KINDS
from schemas import Use, Workspace

PATHS = "a b c d Z p/a p/q/x-1 p/b a.b _u v1/m".split()
PACKAGES = ["", "p", "p.q", "q", "p.q.r", "a", "a.b", "b", "x.M", "p.M"]
TYPES = (
    "A B C M N X Inner a b p q x FooEntry BarEntry FooBarEntry FooEntry BarEntry XEntry KeyEntry message stream Msg_1 _T enum"
).split()
FIELDS = (
    "foo bar foo_bar fooBar f_oo x y key value FooEntry FooBar message option A B b p q x_ string to reserved foo__bar _1"
    " barEntry"
).split()
VALUES = "V W ZERO ONE A M foo true inf V_1 message to max B".split()
METHODS = "Get Put M A x rpc stream returns".split()
FRESH = "Z1 z2 Renamed renamed_field another_name_that_is_long NEW_VALUE z_1_a Zz".split()
NO_WORDS = ["", "9x", "a.b", "a-b", "x y", "é", "{", "a\nb", " a", "-x", "0"]
KEYWORDS = (
    "message enum string stream to max option reserved rpc returns optional group extend int32 map oneof public weak"
).split()
TRIVIA = ["\n", "\t", "\r\n", "  ", "\v", "\f"]
TRIVIA += ["\r\n\r\n", " // } ;\r\n", " /* ; import \"a.proto\"; } */ ", " /* M foo A.B */ ", " // N b;\n", "/**/", " /* é↑ */ ", "//\n", "/* * / ** */"]
TEXTS = ['"q"', "'fooBar'", '"x"', '"foo" "_bar"', r'"\x41\102"', r'"\"\\\n"', '"é"', '""']
EXTENSIONS = [
    [["500", "to", "600"]],
    [["500", "to", "503", ",", "0x258", "to", "max"]],
    [["18990", "to", "20010"]],
    [["510", "to", "520"], ["500", "to", "505", ",", "530", "to", "01100"]],
]
LARGEST = 536870911
KEYS = [scalar for scalar in SCALARS if scalar not in ("float", "double", "bytes")]


class Slot:
    """The place of a reference, filled once all names are declared."""

    def __init__(self, file, scope, wants_message=False, is_map_value=False, default=None, extend=None):
        self.file, self.scope = file, scope
        self.wants_message, self.is_map_value, self.default = wants_message, is_map_value, default
        self.extend = extend
        self.tokens = [".", "X"]


class Extend:
    """The place of an extend block, whose numbers are chosen with what it extends. Where it can extend nothing it is left out."""

    def __init__(self, scope):
        self.scope, self.extendee, self.fields = scope, None, []
        self.is_left_out = False

    @property
    def tokens(self):
        if self.is_left_out:
            return []
        return ["extend", self.extendee, "{", *[token for field in self.fields for token in field], "}"]


class Number:
    """The place of an extension's number."""

    def __init__(self):
        self.tokens = ["1"]


class Default:
    """The place of the settings of a field whose type is a slot."""

    def __init__(self, settings, is_allowed):
        self.settings, self.is_allowed, self.value = settings, is_allowed, None

    @property
    def tokens(self):
        settings = list(self.settings)
        if self.value:
            settings.append(["default", "=", self.value])
        return bracketed(settings)


def bracketed(settings):
    tokens = []
    for setting in settings:
        tokens += ["," if tokens else "[", *setting]
    return tokens + ["]"] if tokens else []


class Maker:
    """Makes one workspace."""

    def __init__(self, chance, counts):
        self.chance, self.counts = chance, counts
        self.taken = set()
        self.slots = []
        # The numbers that extensions of a message have, by its full name.
        self.extended = {}

    def rolls(self, share):
        return self.chance.random() < share

    def workspace(self):
        count = self.chance.choice(self.counts)
        paths = self.chance.sample(PATHS, count)
        # Extensions are in files without proto3 alone.
        self.syntaxes = self.chance.choice([["proto3", "proto3", "proto2", ""], ["proto3", "proto2", "proto2", "", ""]])
        packages = [self.chance.choice(PACKAGES[: self.chance.choice([2, 5, 10])]) for _ in paths]
        for package in packages:
            words = package.split(".") if package else []
            self.taken |= {tuple(words[:cut]) for cut in range(1, len(words) + 1)}
        files = []
        for place, package in enumerate(packages):
            files.append(self.file(place, paths, tuple(package.split(".")) if package else ()))
        self.fill(files, paths)
        return {path + ".proto": spelled(self.chance, self.flat(tokens)) for path, (_, tokens) in zip(paths, files)}

    # ---- what is declared

    def declared(self, above, pool, generated=()):
        """A name that is free below `above`; with it the generated ones that it brings are free, too."""
        for _ in range(6):
            name = self.chance.choice(pool)
            names = [above + (name,)] + [above + (make(name),) for make in generated]
            if not self.taken.intersection(names):
                break
        else:
            name = f"{pool[0]}_{len(self.taken)}"
            names = [above + (name,)] + [above + (make(name),) for make in generated]
        self.taken.update(names)
        return name

    def file(self, place, paths, package):
        self.place = place
        self.syntax = self.chance.choice(self.syntaxes)
        tokens = ["syntax", "=", f'"{self.syntax}"', ";"] if self.syntax else []
        heads = []
        for other in self.chance.sample(range(place), min(place, self.chance.choice([0, 1, 2, 3, 4]))):
            heads.append(["import", *(["public"] if self.rolls(0.45) else []), self.path_text(paths[other] + ".proto"), ";"])
        if package:
            words = [piece for word in package for piece in (".", word)][1:]
            heads.insert(self.chance.randrange(len(heads) + 1), ["package", *words, ";"])
        if self.rolls(0.2):
            heads.append(["option", "java_package", "=", self.chance.choice(TEXTS), ";"])
        self.has_message = False
        parts = heads + [self.item(package) for _ in range(self.chance.choice([0, 1, 1, 2, 2, 2, 3, 3, 4]))]
        if self.rolls(0.25):
            self.chance.shuffle(parts)
        if self.rolls(0.1):
            parts.insert(self.chance.randrange(len(parts) + 1), [";"])
        return self.syntax or "proto2", tokens + [token for part in parts for token in part]

    def path_text(self, path):
        """A string whose value is the path: in either quotes, some characters escaped."""
        letters = list(path)
        if self.rolls(0.3):
            for at in self.chance.sample(range(len(letters)), self.chance.choice([1, 1, 2, len(letters)])):
                letters[at] = self.chance.choice(["\\%03o", "\\x%02x", "\\x%02X"]) % ord(letters[at])
        quote = self.chance.choice(["\"", "\"", "'"])
        return quote + "".join(letters) + quote

    def item(self, above):
        kind = self.chance.choice(["message"] * 5 + ["enum"] * 2 + ["service"] * 3 + ["extend"] * 4)
        if kind == "extend" and self.syntax != "proto3":
            return [self.extend(above)]
        if kind == "enum":
            return self.enum(above)
        if kind == "service" and self.has_message:
            return self.service(above)
        self.has_message = True
        return self.message(above, 0)

    def message(self, above, depth):
        scope = above + (self.declared(above, TYPES),)
        self.names, self.jsons, self.numbers = [], set(), 0
        members = []
        for _ in range(self.chance.choice([0, 1, 2, 3, 4, 5])):
            members.append(self.member(scope))
        free = [name for name in FIELDS if name not in self.names]
        if self.rolls(0.25) and free:
            names = self.chance.sample(free, min(len(free), self.chance.choice([1, 2])))
            members.append(["reserved", *[piece for name in names for piece in (",", f'"{name}"')][1:], ";"])
        if self.rolls(0.15):
            members.append(["reserved", "1000", "to", self.chance.choice(["max", "0x7d0", "1000"]), ";"])
        if self.rolls(0.15):
            ranges = self.chance.choice([["700"], ["0x2bc", "to", "01300", ",", "705"], ["710", ",", "700", "to", "705"]])
            members.append(["reserved", *ranges, ";"])
        if self.rolls(0.08):
            members.append([";"])
        if self.rolls(0.4) and self.syntax != "proto3":
            members += [["extensions", *ranges, ";"] for ranges in self.chance.choice(EXTENSIONS)]
        for _ in range(self.chance.choice([0, 0, 0, 1, 1, 2]) if self.syntax != "proto3" else 0):
            members.append([self.extend(scope)])
        if depth < 3:
            for _ in range(self.chance.choice([0, 0, 1, 1, 2])):
                members.append(self.message(scope, depth + 1) if self.rolls(0.7) else self.enum(scope))
        if self.rolls(0.1):
            members.append(["option", "deprecated", "=", "true", ";"])
        self.chance.shuffle(members)
        return ["message", scope[-1], "{", *[token for member in members for token in member], "}"]

    def member(self, scope):
        kind = self.chance.choice(["field"] * 6 + ["map"] * 2 + ["oneof"])
        if kind == "map":
            return self.map(scope)
        if kind == "oneof":
            name = self.declared(scope, FIELDS)
            fields = [token for _ in range(self.chance.choice([1, 2, 3])) for token in self.field(scope, [])]
            return ["oneof", name, "{", *fields, "}"]
        labels = ["optional", "required", "repeated"] if self.syntax != "proto3" else ["", "", "optional", "repeated"]
        label = self.chance.choice(labels)
        return self.field(scope, [label] if label else [])

    def named(self, scope, generated=()):
        """The name, the number and the settings of a new field."""
        for _ in range(20):
            name = self.declared(scope, FIELDS, generated)
            written = self.chance.choice(["q", "fooBar", "x", "FooEntry", "a b", "1"]) if self.rolls(0.12) else None
            json = written or derived_json(name)
            if self.syntax != "proto3" or json not in self.jsons:
                break
        else:
            name, written = self.declared(scope, [f"name{len(self.taken)}"], generated), None
            json = name
        self.names.append(name)
        self.jsons.add(json)
        self.numbers += self.chance.choice([1, 1, 1, 2, 7])
        settings = [["json_name", "=", f'"{written}"']] if written else []
        return name, self.written(self.numbers), settings + self.deprecated()

    def deprecated(self):
        return [["deprecated", "=", self.chance.choice(["true", "false"])]] if self.rolls(0.15) else []

    def written(self, number):
        return self.chance.choice([str, hex, lambda number: f"0{number:o}"])(number)

    def extend(self, scope):
        extend = Extend(scope)
        extend.extendee = Slot(self.place, scope, wants_message=True, extend=extend)
        self.slots.append(extend.extendee)
        for _ in range(0 if self.rolls(0.02) else self.chance.choice([1, 1, 2, 3])):
            label = [self.chance.choice(["optional", "optional", "repeated"])]
            extend.fields.append(self.typed(scope, label, self.declared(scope, FIELDS), Number(), self.deprecated()))
        return extend

    def field(self, scope, label):
        return self.typed(scope, label, *self.named(scope))

    def typed(self, scope, label, name, number, settings):
        """The tokens of a field or an extension."""
        takes_default = self.syntax != "proto3" and label != ["repeated"]
        if self.rolls(0.6):
            default = Default(settings, takes_default)
            slot = Slot(self.place, scope, default=default)
            self.slots.append(slot)
            return [*label, slot, name, "=", number, default, ";"]
        scalar = self.chance.choice(SCALARS)
        if takes_default and self.rolls(0.4):
            if scalar == "string":
                settings.append(["default", "=", self.chance.choice(['"q"', "'x'", '""', r'"\101"'])])
            elif scalar == "bool":
                settings.append(["default", "=", self.chance.choice(["true", "false"])])
            elif scalar in ("int32", "sint64"):
                settings.append(["default", "=", "-", self.chance.choice(["1", "0x10", "017"])])
        self.chance.shuffle(settings)
        return [*label, scalar, name, "=", number, *bracketed(settings), ";"]

    def map(self, scope):
        name, number, settings = self.named(scope, (entry_name,))
        entry = scope + (entry_name(name),)
        self.taken |= {entry + ("key",), entry + ("value",)}
        value = self.chance.choice(SCALARS)
        if self.rolls(0.5):
            value = Slot(self.place, scope, is_map_value=True)
            self.slots.append(value)
        return ["map", "<", self.chance.choice(KEYS), ",", value, ">", name, "=", number, *bracketed(settings), ";"]

    def enum(self, above):
        name = self.declared(above, TYPES)
        count = self.chance.choice([1, 2, 3])
        numbers = [str(number) for number in range(count)]
        if self.syntax != "proto3" and self.rolls(0.2):
            numbers[0] = "7"
        names = [self.declared(above, VALUES) for _ in numbers]
        members = [[value, "=", number, ";"] for value, number in zip(names, numbers)]
        if self.rolls(0.2):
            members.append(["OTHER_%d" % len(self.taken), "=", "-", "0x5", "[", "deprecated", "=", "true", "]", ";"])
            self.taken.add(above + (members[-1][0],))
        free = [value for value in VALUES + FRESH if value not in names]
        if self.rolls(0.3):
            members.append(["reserved", f'"{self.chance.choice(free)}"', ";"])
        if self.rolls(0.15):
            members.append(["reserved", "-", "9", "to", "-", "6", ",", "90", "to", "max", ";"])
        if self.rolls(0.1):
            members[0:0] = [["option", "allow_alias", "=", "true", ";"], ["ALIAS_%d" % len(self.taken), "=", numbers[0], ";"]]
            self.taken.add(above + (members[1][0],))
        return ["enum", name, "{", *[token for member in members for token in member], "}"]

    def service(self, above):
        scope = above + (self.declared(above, TYPES),)
        tokens = ["service", scope[-1], "{"]
        for _ in range(self.chance.choice([0, 1, 2, 4])):
            tokens += ["rpc", self.declared(scope, METHODS)]
            for word in ([], ["returns"]):
                slot = Slot(self.place, scope, wants_message=True)
                self.slots.append(slot)
                tokens += [*word, "(", *(["stream"] if self.rolls(0.25) else []), slot, ")"]
            if self.rolls(0.2):
                tokens += ["{", "option", "idempotency_level", "=", "IDEMPOTENT", ";", ";", "}"]
            else:
                tokens.append(";")
        return [*tokens, "}"]

    # ---- references

    def fill(self, files, paths):
        """Fills the slots, by what is visible in a workspace with a reference to nothing in each."""
        texts = {path + ".proto": self.plain(tokens) for path, (_, tokens) in zip(paths, files)}
        workspace = Workspace(texts)
        places = [workspace.place_of[path + ".proto"] for path in paths]
        syntaxes = {places[at]: syntax for at, (syntax, _) in enumerate(files)}
        for slot in self.slots:
            self.fill_slot(workspace, syntaxes, slot, places[slot.file])

    def fill_slot(self, workspace, syntaxes, slot, place):
        choices = []
        for symbol in workspace.symbols:
            if workspace.visible[place].get(symbol.name) != symbol.kind or symbol.kind not in ("message", "enum"):
                continue
            if symbol.kind == "enum":
                is_closed = syntaxes[place] == "proto3" and syntaxes[symbol.file] != "proto3"
                first = symbol.node.of(Value)[0].number
                if slot.wants_message or is_closed or slot.is_map_value and first != 0:
                    continue
                choices += [symbol] * 2
            if slot.extend and len(self.free_numbers(symbol)) < max(1, len(slot.extend.fields)):
                continue
            # Symbols of other files are fewer.
            choices += [symbol] * (1 if symbol.file == place else 4)
        if not choices:
            slot.tokens = ["int32"]
            if slot.extend:
                slot.extend.is_left_out = True
            return
        symbol = self.chance.choice(choices)
        slot.tokens = self.spelling(workspace, place, slot.scope, symbol.name)
        if slot.extend:
            self.number(slot.extend, symbol)
        if slot.default and slot.default.is_allowed and symbol.kind == "enum" and self.rolls(0.7):
            slot.default.value = self.chance.choice(symbol.node.of(Value)).name.text

    def free_numbers(self, symbol):
        """Some numbers that an extension of a message may have."""
        taken = self.extended.setdefault(symbol.name, set())
        found = []
        for start, end in symbol.node.extension_ranges:
            end = LARGEST if end is None else end
            near = {*range(start, min(start + 9, end + 1)), *range(max(start, end - 5), end + 1)}
            found += sorted(near - taken - set(range(19000, 20000)))
        return found

    def number(self, extend, symbol):
        """Gives the extensions of a block numbers that no other extension of the message has."""
        for field in extend.fields:
            number = self.chance.choice(self.free_numbers(symbol))
            self.extended[symbol.name].add(number)
            place = next(token for token in field if isinstance(token, Number))
            place.tokens = [self.written(number)]

    def spelling(self, workspace, place, scope, name):
        """A way to write the name that resolves to it."""
        found = []
        for cut in range(len(name)):
            words = name[cut:]
            if words[0] not in LISTED and workspace.resolution(use_of(place, scope, words)) == name:
                found.append(words)
        if not found or self.rolls(0.12):
            return [piece for word in name for piece in (".", word)]
        words = self.chance.choice(found)
        return [piece for word in words for piece in (".", word)][1:]

    # ---- texts

    def flat(self, tokens):
        for token in tokens:
            if isinstance(token, str):
                yield token
            else:
                yield from self.flat(token.tokens)

    def plain(self, tokens):
        return " ".join(self.flat(tokens)).encode().decode("latin-1")


def spelled(chance, tokens):
    """A text of these tokens, as bytes read as Latin-1."""
    text, share = "", chance.choice([0, 0.03, 0.3])
    before = ""
    for token in tokens:
        if chance.random() < share:
            text += chance.choice(TRIVIA)
        elif before and is_letter(before[-1]) and (is_letter(token[0]) or token[0] == "-"):
            text += " "
        elif before and token not in tuple(";,.)>]") and before not in tuple(".(<["):
            text += " "
        elif before and before[-1] in "\"'" and token[0] in "\"'":
            text += " "
        text += token
        before = token
    if chance.random() < 0.1:
        text += chance.choice([" // the end", "\n", " /* x */", "   "])
    if chance.random() < 0.02:
        text += " " * (1_048_576 - chance.choice([0, 0, 1, 2, 5, 16, 20, 30]) - len(text.encode()))
    return text.encode().decode("latin-1")


def is_letter(character):
    return character.isascii() and (character.isalnum() or character == "_")


def use_of(place, scope, words):
    tokens = [Token(0, "word", word) for word in words]
    return Use(place, scope, Reference(tokens[0], False, tokens))


def workspace_by_chance(chance, counts=(1, 1, 1, 2, 2, 3, 3, 4, 5, 6, 7, 8)):
    """The texts of a workspace that compiles, of as many files as one of these counts says."""
    while True:
        texts = Maker(chance, counts).workspace()
        if not faults_of(Workspace(texts)):
            return texts


def with_weak_imports(chance, texts):
    """The texts with most of the imports that are not public made weak."""
    made = {}
    for file in Workspace(texts).files:
        made[file.path] = texts[file.path]
        places = [at for at, (_, is_public) in zip(file.import_places, file.imports) if not is_public]
        for at in reversed(places):
            if chance.random() < 0.7 and len(made[file.path]) + len("weak ") <= MAX_BYTES:
                made[file.path] = made[file.path][:at] + "weak " + made[file.path][at:]
    return made


# ---- renames


def is_between(symbol, use, cut):
    """Whether a symbol is a child of a scope between a reference and its hit, or is such a scope."""
    return symbol.name[:-1] == use.scope[: len(symbol.name) - 1] and len(symbol.name) > cut + 1


class Renamer:
    """Picks renames in a workspace."""

    def __init__(self, chance, workspace, earlier):
        self.chance, self.workspace, self.earlier = chance, workspace, earlier
        self.allowed = [symbol for symbol in workspace.symbols if symbol.kind in KINDS]
        self.types = [symbol for symbol in self.allowed if symbol.kind in ("message", "enum", "service")]

    def pick(self):
        """The full name and the new name of a rename."""
        ways = {
            self.plain: 18,
            self.used: 20,
            self.fresh: 10,
            self.inner_of_reference: 10,
            self.reference_to_inner: 9,
            self.entry: 5,
            self.entry_of_reference: 12,
            self.sibling: 5,
            self.package: 5,
            self.extension: 10,
            self.extended: 18,
            self.reserved: 5,
            self.json: 12,
            self.keyword: 5,
            self.no_word: 3,
            self.same: 2,
            self.no_kind: 5,
            self.unknown: 4,
        }
        while True:
            (way,) = self.chance.choices(list(ways), list(ways.values()))
            found = way()
            if found:
                name, to = found
                return name if isinstance(name, str) else ".".join(name), to

    def pool(self, symbol):
        return {"field": FIELDS, "extension": FIELDS, "value": VALUES, "method": METHODS}.get(symbol.kind, TYPES)

    def any(self, symbols):
        return self.chance.choice(symbols) if symbols else None

    def plain(self):
        symbol = self.any(self.allowed)
        return symbol and (symbol.name, self.chance.choice(self.pool(symbol)))

    def fresh(self):
        symbol = self.any(self.allowed)
        return symbol and (symbol.name, self.chance.choice(FRESH))

    def used(self):
        """Something that a reference names, or a value that a default names."""
        use = self.any(self.workspace.uses)
        if not use:
            return None
        resolved = self.workspace.resolution(use)
        default = use.field.setting("default") if use.field else None
        if default and self.chance.random() < 0.6:
            return resolved[:-1] + (default[-1].text,), self.chance.choice(VALUES + FRESH)
        name = resolved[: len(resolved) - self.chance.randrange(len(use.reference.words))]
        is_package = self.workspace.by_name[name].kind == "package"
        return resolved if is_package else name, self.chance.choice(TYPES + FRESH)

    def extension(self):
        symbol = self.any([one for one in self.allowed if one.kind == "extension"])
        return symbol and (symbol.name, self.chance.choice(FIELDS + TYPES + FRESH))

    def extended(self):
        """A message that is extended, or what holds it, by the name of something in the block's scope or by another."""
        found = self.any(self.workspace.extends)
        if not found:
            return None
        file, scope, extend = found
        use = next(one for one in self.workspace.uses if one.reference is extend.extendee)
        resolved = self.workspace.resolution(use)
        name = resolved[: len(resolved) - self.chance.randrange(len(extend.extendee.words))]
        name = resolved if self.workspace.by_name[name].kind == "package" else name
        near = [one.name[-1] for one in self.workspace.symbols if one.name[: len(scope)] == scope and len(one.name) > len(scope)]
        return name, self.chance.choice(near * (self.chance.random() < 0.5) + FRESH)

    def hits(self):
        """Relative references with the part count of their hit, of those that have a deeper scope."""
        found = [(use, self.workspace.hit(use)) for use in self.workspace.uses if not use.reference.is_absolute]
        return [(use, cut) for use, cut in found if cut < len(use.scope)]

    def deeper(self, use, cut):
        return [one for one in self.types if is_between(one, use, cut)]

    def inner_of_reference(self):
        hit = self.any(self.hits())
        inner = hit and self.any(self.deeper(*hit))
        return inner and (inner.name, hit[0].reference.words[0])

    def reference_to_inner(self):
        hit = self.any(self.hits())
        inner = hit and self.any(self.deeper(*hit))
        if not inner:
            return None
        use, cut = hit
        return use.scope[:cut] + use.reference.words[:1], inner.name[-1]

    def entry(self):
        maps = [one for one in self.allowed if one.kind == "field" and one.node.key]
        field = self.any(maps)
        if not field:
            return None
        names = [one.name[-1] for one in self.types if one.name[-1].endswith("Entry")] + ["FooEntry", "BarEntry", "FooBarEntry"]
        entry = self.chance.choice(names)
        word = entry[:-5] or "x"
        return field.name, self.chance.choice([entry, word, word.lower(), word[0].lower() + word[1:], "f_oo", "foo_", "Foo"])

    def entry_of_reference(self):
        """A map field whose new entry would be between a reference and its hit."""
        use, cut = self.any([hit for hit in self.hits() if hit[0].reference.words[0].endswith("Entry")]) or (None, 0)
        maps = [one for one in self.allowed if one.kind == "field" and one.node.key]
        field = use and self.any([one for one in maps if is_between(one, use, cut)])
        word = field and use.reference.words[0][:-5]
        return (field.name, self.chance.choice([word, word.lower(), word[0].lower() + word[1:]])) if word else None

    def sibling(self):
        symbol = self.any(self.allowed)
        other = symbol and self.any([one for one in self.workspace.symbols if one.name[:-1] == symbol.name[:-1]])
        return other and (symbol.name, other.name[-1])

    def package(self):
        words = sorted({word for one in self.workspace.symbols if one.kind == "package" for word in one.name})
        symbol = self.any([one for one in self.types if len(one.name) < 4])
        return (symbol.name, self.chance.choice(words)) if symbol and words else None

    def reserved(self):
        members = [one for one in self.allowed if one.kind in ("field", "value") and one.block.reserved_names]
        member = self.any(members)
        return member and (member.name, self.chance.choice(member.block.reserved_names))

    def json(self):
        fields = [one for one in self.allowed if one.kind == "field" and len(one.block.fields) > 1]
        field = self.any(fields)
        other = field and self.any([one.json_name for one in field.block.fields if one is not field.node])
        if not other:
            return None
        spelled = "".join("_" + letter.lower() if letter.isupper() else letter for letter in other)
        return field.name, self.chance.choice([other, spelled, other + "_", "_" + other[0].lower() + other[1:]])

    def keyword(self):
        symbol = self.any(self.allowed)
        return symbol and (symbol.name, self.chance.choice(KEYWORDS))

    def no_word(self):
        symbol = self.any(self.allowed)
        return symbol and (symbol.name, self.chance.choice(NO_WORDS))

    def same(self):
        symbol = self.any(self.allowed)
        return symbol and (symbol.name, symbol.name[-1])

    def no_kind(self):
        symbol = self.any([one for one in self.workspace.symbols if one.kind not in KINDS])
        return symbol and (symbol.name, self.chance.choice(TYPES + FRESH))

    def unknown(self):
        symbol = self.any(self.workspace.symbols)
        name = ".".join(symbol.name) if symbol else "A"
        others = ["." + name, name + ".", name + ".x9", name[1:], "", name + " ", name.replace(".", ".."), "nothing"]
        return self.chance.choice(others + self.earlier), self.chance.choice(TYPES)
