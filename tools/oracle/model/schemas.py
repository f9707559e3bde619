"""A plain model of schemas: names, what a file sees and what a reference resolves to.

It is written from docs/language.md alone. Full names are tuples of words.
"""

from dataclasses import dataclass, field
from typing import Optional

from grammar import Block, CustomOption, Extend, Field, Method, Oneof, Reference, Token, Value, entry_name, file_of

# Kinds of symbols. A reference of one word fits types, the name of an option all kinds; a longer one fits what may have names below it.
TYPES = ("message", "entry", "enum")
PREFIXES = TYPES + ("service", "package")
# What a reference may want.
TYPE, MESSAGE, OPTION = "type", "message", "option"


@dataclass(frozen=True)
class Symbol:
    """What has a full name. A package has no file; what is generated has the map field's token."""

    name: tuple
    kind: str
    file: Optional[int] = None
    token: Optional[Token] = None
    # The block around it, and its node: of a field, an extension or a value that one.
    block: object = field(default=None, compare=False)
    node: object = field(default=None, compare=False)


@dataclass
class Use:
    """A reference, with its file and the full name of the message or service around it, or of what else is its scope.

    It has the field or the extension whose type it is, or the custom option whose name it is."""

    file: int
    scope: tuple
    reference: Reference
    wants: str = TYPE
    field: Optional[Field] = None
    option: Optional[CustomOption] = None


class Workspace:
    """Schemas by their paths, with their names. Texts are bytes read as Latin-1; files are given where they are read already."""

    def __init__(self, texts, as_written=False, files=None):
        self.texts, self.as_written = dict(texts), as_written
        self.files = files or [file_of(path, texts[path], as_written) for path in sorted(texts)]
        self.place_of = {file.path: place for place, file in enumerate(self.files)}
        self.symbols = list(self.declared())
        self.by_name = {symbol.name: symbol for symbol in self.symbols}
        # Extend blocks with their files and scopes, in the order of paths and offsets.
        self.extends = sorted(self.extended(), key=lambda found: (found[0], found[2].keyword.start))
        self.uses = sorted(self.used(), key=lambda use: (use.file, use.reference.first.start))
        self.visible = [self.visible_in(place) for place in range(len(self.files))]

    # ---- names

    def declared(self):
        packages = {file.package[:cut] for file in self.files for cut in range(1, len(file.package) + 1)}
        for name in sorted(packages):
            yield Symbol(name, "package")
        for place, file in enumerate(self.files):
            yield from self.in_members(place, file.package, None, file.members)

    def in_members(self, file, above, around, members):
        for member in members:
            if isinstance(member, Block):
                name = above + (member.name.text,)
                yield Symbol(name, member.kind, file, member.name, around, member)
                yield from self.in_members(file, name if member.kind != "enum" else above, member, member.members)
            elif isinstance(member, Oneof):
                yield Symbol(above + (member.name.text,), "oneof", file, member.name, around, member)
                yield from self.in_members(file, above, around, member.fields)
            elif isinstance(member, Extend):
                for one in member.fields:
                    yield Symbol(above + (one.name.text,), "extension", file, one.name, member, one)
            elif isinstance(member, (Field, Value, Method)):
                kind = type(member).__name__.lower()
                yield Symbol(above + (member.name.text,), kind, file, member.name, around, member)
                if kind == "field" and member.key:
                    entry = above + (entry_name(member.name.text),)
                    yield Symbol(entry, "entry", file, member.name, around, member)
                    for word in ("key", "value"):
                        yield Symbol(entry + (word,), "entry field", file, member.name, around, member)

    # ---- seeing

    def sees(self, place):
        """The places of the files that a file sees."""
        return self.sees_with({one: file.imports for one, file in enumerate(self.files)}, place)

    def sees_with(self, imports_of, place):
        """The numbers of the files that a file would see if each had these imports."""
        seen = {place}
        todo = [self.place_of[path] for path, _ in imports_of[place] if path in self.place_of]
        while todo:
            one = todo.pop()
            if one not in seen:
                seen.add(one)
                imports = imports_of[one]
                todo += [self.place_of[path] for path, is_public in imports if is_public and path in self.place_of]
        return seen

    def visible_in(self, place):
        """The visible names of a file with their kinds."""
        return self.names_in(self.sees(place))

    def names_in(self, seen):
        """The names of these files and of their packages with their kinds."""
        visible = {symbol.name: symbol.kind for symbol in self.symbols if symbol.file in seen}
        for package in (self.files[one].package for one in seen):
            visible.update({package[:cut]: "package" for cut in range(1, len(package) + 1)})
        return visible

    # ---- references

    def extended(self):
        for place, file in enumerate(self.files):
            for extend in file.of(Extend):
                yield place, file.package, extend
        for symbol in self.symbols:
            if symbol.kind == "message":
                for extend in symbol.node.of(Extend):
                    yield symbol.file, symbol.name, extend

    def used(self):
        for file, scope, extend in self.extends:
            yield Use(file, scope, extend.extendee, MESSAGE)
            for field in extend.fields:
                if field.reference:
                    yield Use(file, scope, field.reference, field=field)
        for symbol in self.symbols:
            if symbol.kind == "message":
                for field in symbol.node.fields:
                    if field.reference:
                        yield Use(symbol.file, symbol.name, field.reference, field=field)
            elif symbol.kind == "service":
                for method in symbol.node.of(Method):
                    for reference in (method.input, method.output):
                        yield Use(symbol.file, symbol.name, reference, MESSAGE)
        for place, file in enumerate(self.files):
            for option in file.custom:
                yield Use(place, file.package + option.around, option.name, OPTION, option=option)

    def hit(self, use, words=None):
        """How many parts the longest prefix of the scope has at which the first word is visible and fits."""
        words = words or use.reference.words
        for cut in range(len(use.scope), -1, -1):
            if fits(self.visible[use.file].get(use.scope[:cut] + words[:1]), words, use.wants):
                return cut
        return None

    def resolution(self, use, words=None):
        """The full name that a reference resolves to, or that these words in its place would resolve to."""
        if use.reference.is_absolute and words is None:
            name = use.reference.words
        else:
            words = words or use.reference.words
            cut = self.hit(use, words)
            if cut is None:
                return None
            name = use.scope[:cut] + words
        return name if self.visible[use.file].get(name) in (("extension",) if use.wants is OPTION else TYPES) else None

    def extended_by(self, symbol):
        """The full name of the message that an extension extends, or nothing."""
        file, scope, extend = next(found for found in self.extends if found[2] is symbol.block)
        return self.resolution(Use(file, scope, extend.extendee, MESSAGE))

    def written_place(self, place, offset):
        """Path, line and column, as they are printed."""
        file = self.files[place]
        return f"{file.path}:{line_and_column(file.text, offset)}"

    def reaches(self, start, goal):
        seen, todo = set(), [start]
        while todo:
            one = todo.pop()
            if one == goal:
                return True
            if one not in seen:
                seen.add(one)
                todo += [self.place_of[path] for path, _ in self.files[one].imports if path in self.place_of]
        return False


def fits(kind, words, wants):
    """Whether the first of these words fits a symbol of a kind, or None where there is none."""
    if len(words) == 1 and wants is OPTION:
        return kind is not None
    return kind in (TYPES if len(words) == 1 else PREFIXES)


def line_and_column(text, offset):
    before = text[:offset]
    return f"{before.count(chr(10)) + 1}:{len(before) - before.rfind(chr(10))}"
