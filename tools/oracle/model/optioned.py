"""Random workspaces whose options have names that are looked up: extensions of the options messages in several files, packages and
messages, whose words stand for other things too, and options on every element, each on a line of its own, with values of their types.

A workspace has no fault but those of its options: 14 and 39 of their names, and 31 of an `extend` in proto3. Where it is to be right
it has none.
"""

import re

from faults import OPTIONS_OF, options_message_of
from grammar import Oneof, Reference
from schemas import OPTION, Use, Workspace
from written import DESCRIPTOR, OPTION_MESSAGES

# Words for all that has names, those of packages among them.
WORDS = "p p q q x x y y z A A B XEntry".split()
FIELDS = "f g h k m n o s t".split() + WORDS
VALUES = "V W C D E R x q u".split()
PACKAGES = ["", "p", "p", "p.q", "q", "x", "A"]
PLAIN = ("bool", "sint32", "string")
# A message of the same file that has extensions and is no options message.
OTHER = "message Other { extensions 1000 to max; }\n"
PATHS = "a.proto b.proto p/a.proto q/z.proto".split()
SPOT = re.compile("«(\\d+)»")


class Spot:
    """Where options may stand: of an element, in a file, in a scope."""

    def __init__(self, element, path, scope):
        self.element, self.path, self.scope = element, path, scope
        # The options that are put there: tokens with spaces between.
        self.options = []

    def text(self):
        if not self.options:
            return ""
        if self.element in ("field", "value"):
            return "\n [" + ",\n  ".join(self.options) + "]"
        return "".join(f"\n option {option};" for option in self.options)


class Optioned:
    """A workspace: its texts, and how often each extension is named in a file, in a right workspace."""

    def __init__(self, chance, is_right):
        self.chance, self.is_right = chance, is_right
        self.spots, self.taken, self.numbers = [], set(), iter(range(50000, 60000))
        self.paths = chance.sample(PATHS, chance.choice([2, 3, 3, 4]))
        self.packages = {path: tuple(filter(None, chance.choice(PACKAGES).split("."))) for path in self.paths}
        self.taken |= {package[:cut] for package in self.packages.values() for cut in range(1, len(package) + 1)}
        # Types by full name: the path that declares each, whether that is of proto3, and whether it is an enum.
        self.types, self.seen, self.passed = {}, {}, {DESCRIPTOR: {DESCRIPTOR}}
        self.drafts = {DESCRIPTOR: OPTION_MESSAGES + OTHER}
        for path in self.paths:
            self.drafts[path] = self.file(path)
        self.bare = Workspace({path: SPOT.sub("", draft) for path, draft in self.drafts.items()}, True)
        self.named = {path: [] for path in self.drafts}
        self.put_options()

    @property
    def texts(self):
        return {path: SPOT.sub(lambda found: self.spots[int(found[1])].text(), draft) for path, draft in self.drafts.items()}

    def rolls(self, share):
        return self.chance.random() < share

    # ---- files without options

    def file(self, path):
        self.path, self.is_proto3 = path, self.rolls(0.4)
        scope = self.packages[path]
        parts = [f'syntax = "proto{3 if self.is_proto3 else 2}";', *self.imports()]
        if scope:
            parts.append(f"package {'.'.join(scope)};")
        parts.append(self.spot("file", scope))
        for _ in range(self.chance.choice([2, 3, 4])):
            makes = [self.message, self.message, self.enum, self.service, self.service, self.extend, self.extend, self.extend]
            parts.append(self.chance.choice(makes)(scope))
        return "\n".join(parts) + "\n"

    def imports(self):
        earlier = [path for path in self.drafts if path != DESCRIPTOR and self.rolls(0.6)]
        public = {path for path in earlier if self.rolls(0.3)}
        # descriptor.proto is always among what is seen, mostly by an import of the file's own.
        paths = self.chance.sample([DESCRIPTOR, *earlier], len(earlier) + 1)
        if any(DESCRIPTOR in self.passed[path] for path in earlier) and self.rolls(0.5):
            paths.remove(DESCRIPTOR)
        public |= {DESCRIPTOR} if DESCRIPTOR in paths and self.rolls(0.2) else set()
        self.seen[self.path] = {self.path}.union(*(self.passed[path] for path in paths))
        self.passed[self.path] = {self.path}.union(*(self.passed[path] for path in public))
        return [f'import {"public " if path in public else ""}"{path}";' for path in paths]

    def spot(self, element, scope):
        self.spots.append(Spot(element, self.path, scope))
        return f"«{len(self.spots) - 1}»"

    def name(self, scope, words=WORDS):
        """A name that is not taken, and takes it."""
        for _ in range(9):
            word = self.chance.choice(words)
            if not scope + (word,) in self.taken:
                break
        else:
            word = f"n{len(self.taken)}"
        self.taken.add(scope + (word,))
        return word

    def type(self):
        """A type that the file sees, as an absolute reference, or a scalar one."""
        found = [name for name, (path, is_proto3, is_enum) in self.types.items()
                 if path in self.seen[self.path] and not (self.is_proto3 and is_enum and not is_proto3)]
        return "." + ".".join(self.chance.choice(found)) if found and self.rolls(0.7) else self.chance.choice(PLAIN)

    def label(self):
        if self.rolls(0.2):
            return "repeated "
        return "optional " if not self.is_proto3 or self.rolls(0.2) else ""

    def message(self, scope, depth=0):
        word = self.name(scope)
        name, numbers = scope + (word,), iter(range(1, 80))
        self.types[name] = (self.path, self.is_proto3, False)
        parts = [self.spot("message", scope)]
        for _ in range(self.chance.choice([1, 2, 3, 4])):
            makes = [self.field, self.field, self.field, self.map, self.oneof]
            parts.append(self.chance.choice(makes)(name, numbers))
        if depth < 2:
            makes = [self.enum, self.extend] + [lambda inside: self.message(inside, depth + 1)] * 2
            parts += [make(name) for make in self.chance.sample(makes, self.chance.choice([0, 0, 1, 2]))]
        if self.rolls(0.3):
            parts.append(f'reserved "{self.name(name)}";')
        self.chance.shuffle(parts)
        return f"message {word} {{\n" + "\n".join(parts) + "\n}"

    def field(self, scope, numbers):
        return f"{self.label()}{self.type()} {self.name(scope, FIELDS)} = {next(numbers)} {self.spot('field', scope)};"

    def map(self, scope, numbers):
        word = self.name(scope, FIELDS)
        entry = scope + (word[:1].upper() + word[1:] + "Entry",)
        if entry in self.taken or not self.types:
            return f"{self.label()}bool {word} = {next(numbers)};"
        self.taken.add(entry)
        # An enum that is a map's value begins at 0 here.
        return f"map<string, {self.type()}> {word} = {next(numbers)} {self.spot('field', scope)};"

    def oneof(self, scope, numbers):
        parts = [self.spot("oneof", scope)]
        word = self.name(scope)
        for _ in range(self.chance.choice([1, 2])):
            parts.append(f"{self.type()} {self.name(scope, FIELDS)} = {next(numbers)} {self.spot('field', scope)};")
        return f"oneof {word} {{\n" + "\n".join(parts) + "\n}"

    def enum(self, scope):
        word = self.name(scope)
        self.types[scope + (word,)] = (self.path, self.is_proto3, True)
        values = [f"{self.name(scope, VALUES)} = {number} {self.spot('value', scope)};" for number in range(self.chance.choice([1, 2, 3]))]
        return f"enum {word} {{ {self.spot('enum', scope)}\n" + "\n".join(values) + "\n}"

    def service(self, scope):
        word = self.name(scope)
        name, options = scope + (word,), self.spot("service", scope)
        sides = [kind for kind, (path, _, is_enum) in self.types.items() if path in self.seen[self.path] and not is_enum]
        parts = [options]
        for _ in range(self.chance.choice([1, 2]) if sides else 0):
            side = "." + ".".join(self.chance.choice(sides))
            parts.append(f"rpc {self.name(name)}({side}) returns ({side}) {{{self.spot('method', name)}\n}}")
        return f"service {word} {{\n" + "\n".join(parts) + "\n}"

    def extend(self, scope):
        extended = ".".join(options_message_of(self.chance.choice([*OPTIONS_OF, "field", "field", "message", "method", "method"])))
        if not self.is_right and self.rolls(0.15):
            extended = "google.protobuf.Other"
        parts = []
        for _ in range(self.chance.choice([1, 1, 2])):
            label, kind = ("optional ", "bool") if not self.is_right else (self.label(), self.type())
            parts.append(f"{label}{kind} {self.name(scope)} = {next(self.numbers)} {self.spot('field', scope)};")
        return f"extend .{extended} {{ " + " ".join(parts) + " }"

    # ---- options

    def put_options(self):
        self.resolved = {id(use.reference): self.bare.resolution(use) for use in self.bare.uses}
        self.extensions = [symbol for symbol in self.bare.symbols if symbol.kind == "extension"]
        self.extended = {symbol.name: self.bare.extended_by(symbol) for symbol in self.extensions}
        # Some files of a workspace that may be wrong have no options, so that their `extend` blocks are what may be wrong.
        bare = {path for path in self.paths if not self.is_right and self.rolls(0.3)}
        for spot in self.spots:
            if spot.path not in bare and self.rolls(0.7):
                count = self.chance.choice([1, 1, 2]) if self.is_right else 1
                self.fill(spot, count)

    def fill(self, spot, count):
        place = self.bare.place_of[spot.path]
        self.sees = self.bare.sees(place)
        right = [one for one in self.extensions if one.file in self.sees and self.extended[one.name] == options_message_of(spot.element)]
        if not self.is_right and self.rolls(0.2):
            right = self.extensions
        for extension in self.chance.sample(right, min(count, len(right))):
            written = self.written(place, spot.scope, extension.name)
            if written:
                path, value = self.path_and_value(extension.node)
                spot.options.append(f"({written}){path} = {value}")
                self.named[spot.path].append(extension.node.number)

    def written(self, place, scope, name):
        """One of the ways to write a name, with a dot in front or without: of a right workspace one that means the name."""
        if not self.is_right and self.rolls(0.3):
            return name[-1]
        ways = [("", name[cut:]) for cut in range(len(name))] + [(".", name)]
        if not self.is_right:
            wrong = [("", ("nowhere",)), (".", name[1:] or ("nowhere",)), ("", name[:-1] or name), ("", name + name[-1:])]
            ways += wrong if self.rolls(0.2) else []
        if self.is_right or self.rolls(0.5):
            ways = [(dot, words) for dot, words in ways if self.means(place, scope, dot, words) == name]
        dot, words = self.chance.choice(ways or [(".", name)])
        return dot + ".".join(words)

    def means(self, place, scope, dot, words):
        if dot:
            return words
        return self.bare.resolution(Use(place, scope, Reference(None, False, []), OPTION), words)

    def path_and_value(self, extension):
        """A path of fields, which may be empty, and a value of the type at its end."""
        path, field = "", extension
        while self.rolls(0.5):
            fields = [one for one in self.fields_of(field) if not one.key]
            if field.label == "repeated" or field.key or not fields:
                break
            field = self.chance.choice(fields)
            path += f".{field.name.text}"
        return path, self.value(field, 0)

    def fields_of(self, field):
        symbol = self.bare.by_name[self.resolved[id(field.reference)]] if field.reference else None
        return symbol.node.fields if symbol and symbol.kind == "message" else []

    def value(self, field, depth):
        """A value of the field's type, or of one item of it."""
        if field.scalar:
            return {"bool": "true", "sint32": "-7", "string": '"x"'}[field.scalar]
        symbol = self.bare.by_name[self.resolved[id(field.reference)]]
        if symbol.kind == "enum":
            return self.chance.choice([value.name.text for value in symbol.node.members])
        return "{ " + self.members(symbol.node, depth) + "}"

    def members(self, message, depth):
        parts, filled = "", []
        for field in self.chance.sample(message.fields, len(message.fields)):
            oneof = next((one for one in message.of(Oneof) if field in one.fields), None)
            if depth > 2 or self.rolls(0.3) or oneof and oneof in filled:
                continue
            filled.append(oneof)
            value = self.value(field, depth + 1)
            if field.key:
                value = f'{{ key: "k" value: {value} }}'
            elif field.label == "repeated" and self.rolls(0.5):
                value = f"[{value}, {value}]"
            parts += f"{field.name.text}: {value} "
        for name in message.reserved_names if self.rolls(0.3) else []:
            parts += f"{name}: 1 "
        return parts
