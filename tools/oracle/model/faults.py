"""All faults of the first faulty phase of a workspace, in order, as docs/faults.md has them, and docs/as-written.md where files are
read as they are written.
"""

import re
from collections import Counter
from typing import NamedTuple

from grammar import SCALARS, Block, Extend, Field, Method, NoSchema, Oneof, Option, Reader, Reserved, Value, number_value, tokens_of
from schemas import MESSAGE, OPTION, Workspace, line_and_column

NAMES = dict(enumerate(
    "TooLarge NotUtf8 BadChar OpenComment OpenString BadEscape BadNumber Syntax TooDeep UnknownImport DoubleImport ImportCycle"
    " DuplicateName Unresolved WrongKind MapEntryRef NumberRange DuplicateNumber ReservedNumber ReservedName RangeOverlap"
    " EmptyEnum FirstNotZero ClosedEnum Label BadMap BadOption BadDefault EmptyOneof JsonClash NotInProto3 AliasNotAllowed"
    " BadPath DoublePath TooManyFiles NotExtendable DuplicateExtension RequiredExtension NotAnOption".split(),
    1,
))
MAX_FILES, MAX_PATH = 4096, 255
PART = re.compile(r"[A-Za-z0-9_.-]+")
# The numbers of fields and of values, and those that no field has.
FIELD_LIMITS, VALUE_LIMITS = (1, 536870911), (-(2**31), 2**31 - 1)
NO_FIELDS = (19000, 19999)
# The limits of a default, by the scalar type.
DEFAULTS = {
    **dict.fromkeys(("int32", "sint32", "sfixed32"), (-(2**31), 2**31 - 1)),
    **dict.fromkeys(("int64", "sint64", "sfixed64"), (-(2**63), 2**63 - 1)),
    **dict.fromkeys(("uint32", "fixed32"), (0, 2**32 - 1)),
    **dict.fromkeys(("uint64", "fixed64"), (0, 2**64 - 1)),
}
NO_KEYS = ("float", "double", "bytes")
PACKABLE = [scalar for scalar in SCALARS if scalar not in ("string", "bytes")]
# The values of an option: a text, any constant, or one of some words.
TEXT, ANY, TRUTH = "text", "any", ("true", "false")
TEXTS = "csharp_namespace go_package java_outer_classname java_package objc_class_prefix php_namespace".split()
OPTIONS = {
    "file": {
        **dict.fromkeys(TEXTS, TEXT),
        **dict.fromkeys(("cc_enable_arenas", "deprecated", "java_multiple_files"), TRUTH),
        "optimize_for": ("SPEED", "CODE_SIZE", "LITE_RUNTIME"),
    },
    "message": {"deprecated": TRUTH},
    "field": {"deprecated": TRUTH, "packed": TRUTH, "json_name": TEXT, "default": ANY},
    "extension": {"deprecated": TRUTH, "packed": TRUTH, "default": ANY},
    "enum": {"allow_alias": TRUTH, "deprecated": TRUTH},
    "value": {"deprecated": TRUTH},
    "service": {"deprecated": TRUTH},
    "method": {
        "deprecated": TRUTH,
        "idempotency_level": ("IDEMPOTENCY_UNKNOWN", "NO_SIDE_EFFECTS", "IDEMPOTENT"),
    },
}
# The options that are known besides where files are read as they are written.
MORE_OF_FIELDS = {
    "ctype": ("STRING", "CORD", "STRING_PIECE"),
    "jstype": ("JS_NORMAL", "JS_STRING", "JS_NUMBER"),
    **dict.fromkeys(("lazy", "unverified_lazy", "weak"), TRUTH),
}
GENERIC_SERVICES = [f"{language}_generic_services" for language in ("cc", "java", "php", "py")]
MORE_OPTIONS = {
    "file": {
        **dict.fromkeys(("java_generate_equals_and_hash", "java_string_check_utf8", *GENERIC_SERVICES), TRUTH),
        **dict.fromkeys(("php_class_prefix", "php_metadata_namespace", "ruby_package", "swift_prefix"), TEXT),
    },
    "message": {"no_standard_descriptor_accessor": TRUTH},
    "field": MORE_OF_FIELDS,
    "extension": MORE_OF_FIELDS,
}
# The options message of each element that has custom options, and the nine options messages.
OPTIONS_OF = {
    "file": "FileOptions",
    "message": "MessageOptions",
    "field": "FieldOptions",
    "oneof": "OneofOptions",
    "enum": "EnumOptions",
    "value": "EnumValueOptions",
    "service": "ServiceOptions",
    "method": "MethodOptions",
}
OPTIONS_MESSAGES = [("google", "protobuf", name) for name in (*OPTIONS_OF.values(), "ExtensionRangeOptions")]
# The scalar types whose values are whole numbers of 64 bits.
LONG = ("int64", "uint64", "sint64", "fixed64", "sfixed64")


class Fault(NamedTuple):
    """In the order in which faults are answered."""

    path: str
    offset: int
    number: int


def faults(files, as_written=False):
    """All faults of the first phase that has one, each once and in order. Files are pairs of a path and its bytes read as Latin-1."""
    files = sorted(files)
    found = set(faults_of_paths([path for path, _ in files]))
    if found:
        return sorted(found)
    texts = dict(files)
    tokens, found = read_each(texts, lambda path: tokens_of(texts[path], as_written))
    if not found:
        trees, found = read_each(texts, lambda path: Reader(tokens[path], as_written).file(path, texts[path]))
    return found or faults_of(Workspace(texts, as_written, list(trees.values())))


def read_each(paths, read):
    """What is read of each file, and the faults of those that cannot be read, in the order of the paths."""
    made, found = {}, []
    for path in paths:
        try:
            made[path] = read(path)
        except NoSchema as fault:
            found.append(Fault(path, fault.offset, fault.number))
    return made, found


def faults_of(workspace):
    """All faults of the first phase of those after the grammar that has one, each once and in order."""
    for phase in (faults_of_imports, faults_of_names, faults_of_references, faults_of_checks):
        found = set(phase(workspace))
        if found:
            return sorted(found)
    return []


def line_of(texts, fault):
    """A fault as it is printed."""
    return f"{fault.path}:{line_and_column(texts[fault.path], fault.offset)}: {fault.number} {NAMES[fault.number]}"


# ---- paths


def faults_of_paths(paths):
    counts = Counter(paths)
    for place, path in enumerate(sorted(paths)):
        if not is_workspace_path(path):
            yield Fault(path, 0, 33)
        if counts[path] > 1:
            yield Fault(path, 0, 34)
        if place == MAX_FILES:
            yield Fault(path, 0, 35)


def is_workspace_path(path):
    parts = path.split("/")
    are_parts = all(PART.fullmatch(part) and part not in (".", "..") for part in parts)
    return path.endswith(".proto") and are_parts and len(path) <= MAX_PATH


# ---- imports, names, references


def faults_of_imports(workspace):
    for place, file in enumerate(workspace.files):
        for index, ((path, _), offset) in enumerate(zip(file.imports, file.import_places)):
            if path not in workspace.place_of:
                yield Fault(file.path, offset, 10)
            elif workspace.reaches(workspace.place_of[path], place):
                yield Fault(file.path, offset, 12)
            if path in [earlier for earlier, _ in file.imports[:index]]:
                yield Fault(file.path, offset, 11)


def faults_of_names(workspace):
    taken = {symbol.name for symbol in workspace.symbols if symbol.kind == "package"}
    declared = [symbol for symbol in workspace.symbols if symbol.kind != "package"]
    for symbol in sorted(declared, key=lambda one: (one.file, one.token.start)):
        if symbol.name in taken:
            yield Fault(workspace.files[symbol.file].path, symbol.token.start, 13)
        taken.add(symbol.name)


def faults_of_references(workspace):
    for use in workspace.uses:
        resolved = workspace.resolution(use)
        kind = workspace.by_name[resolved].kind if resolved else None
        number = 14 if not kind else 15 if use.wants is MESSAGE and kind == "enum" else 16 if kind == "entry" else None
        if number:
            yield Fault(workspace.files[use.file].path, use.reference.first.start, number)


# ---- checks


def faults_of_checks(workspace):
    resolved = {id(use.reference): workspace.by_name[workspace.resolution(use)] for use in workspace.uses}
    for file in workspace.files:
        for offset, number in Checks(workspace, file, resolved).file():
            yield Fault(file.path, offset, number)
    yield from faults_of_numbers(workspace, resolved)
    yield from faults_of_elements(workspace)


def faults_of_numbers(workspace, resolved):
    """Those of the numbers of extensions that the workspace decides; as written a number may be used again in another file."""
    taken = set()
    for place, _, extend in workspace.extends:
        path, extended = workspace.files[place].path, resolved[id(extend.extendee)]
        for field in extend.fields:
            if not any(is_within(field.number, closed(bounds, FIELD_LIMITS)) for bounds in extended.node.extension_ranges):
                yield Fault(path, field.number_at, 36)
            used = (extended.name, field.number, path if workspace.as_written else "")
            if used in taken:
                yield Fault(path, field.number_at, 37)
            taken.add(used)


def faults_of_elements(workspace):
    """Custom options of elements that do not have them, of those whose names resolve to something."""
    for use in workspace.uses:
        resolved = use.wants is OPTION and workspace.resolution(use)
        if resolved and workspace.extended_by(workspace.by_name[resolved]) != options_message_of(use.option.element):
            yield Fault(workspace.files[use.file].path, use.reference.first.start, 39)


def options_message_of(element):
    return ("google", "protobuf", OPTIONS_OF[element])


class Checks:
    """The checks of one file: the offsets and the numbers of its faults. References have the symbols that they resolve to."""

    def __init__(self, workspace, file, resolved):
        self.workspace, self.resolved = workspace, resolved
        self.root, self.is_proto3 = file, file.syntax == "proto3"

    def file(self):
        yield from self.options("file", self.root.of(Option))
        yield from self.members(self.root)

    def members(self, around):
        """The blocks in a file or a message, each with those in it."""
        for extend in around.of(Extend):
            yield from self.extend(extend)
        for block in around.of(Block):
            yield from self.options(block.kind, block.of(Option))
            yield from {"message": self.message, "enum": self.enum, "service": self.service}[block.kind](block)

    def message(self, message):
        fields = message.fields
        yield from self.members(message)
        yield from self.labels(message.of(Field))
        for field in fields:
            yield from self.field("field", field)
        yield from again(18, ((field.number_at, field.number) for field in fields))
        yield from faults_of_ranges(message, fields, FIELD_LIMITS)
        yield from faults_of_reserved_names(message, fields)
        yield from ((oneof.name.start, 29) for oneof in message.of(Oneof) if not oneof.fields)
        if self.is_proto3:
            yield from again(30, ((field.name.start, field.json_name) for field in fields))
            yield from ((one.keyword.start, 31) for one in message.of(Reserved) if one.word == "extensions")

    def enum(self, enum):
        values = enum.of(Value)
        if not values:
            yield enum.name.start, 22
        elif self.is_proto3 and values[0].number != 0:
            yield values[0].number_at, 23
        for value in values:
            yield from self.options("value", value.settings)
            if not is_within(value.number, VALUE_LIMITS):
                yield value.number_at, 17
        if not any(option.name.text == "allow_alias" and option.value[0].text == "true" for option in enum.of(Option)):
            yield from again(32, ((value.number_at, value.number) for value in values))
        yield from faults_of_ranges(enum, values, VALUE_LIMITS)
        yield from faults_of_reserved_names(enum, values)

    def service(self, service):
        for method in service.of(Method):
            yield from self.options("method", method.options)

    def extend(self, extend):
        is_of_options = self.resolved[id(extend.extendee)].name in OPTIONS_MESSAGES
        if self.is_proto3 and not (self.workspace.as_written and is_of_options):
            yield extend.keyword.start, 31
        yield from self.labels(extend.fields)
        for field in extend.fields:
            yield from self.field("extension", field)
            if field.label == "required":
                yield field.span[0], 38

    def labels(self, fields):
        """Of fields that are in no oneof."""
        for field in fields:
            if not self.is_proto3 and not field.label and not field.key:
                yield field.span[0], 25

    def field(self, element, field):
        """A field or an extension by itself."""
        yield from self.options(element, field.settings)
        yield from self.type(field)
        yield from ((option.name.start, 27) for option in field.settings if not self.suits(option.name.text, option.value[0], field))
        yield from self.defaults(field)
        if self.is_proto3 and field.label == "required":
            yield field.span[0], 31
        if not is_within(field.number, FIELD_LIMITS) or is_within(field.number, NO_FIELDS):
            yield field.number_at, 17

    def options(self, element, options):
        """Plain options of an element."""
        known = {**OPTIONS[element], **(MORE_OPTIONS.get(element, {}) if self.workspace.as_written else {})}
        yield from again(27, ((option.name.start, option.name.text) for option in options))
        for option in options:
            if not is_kind(option.value[0], known.get(option.name.text, ())):
                yield option.name.start, 27

    def type(self, field):
        if field.key and field.key.text in NO_KEYS:
            yield field.key.start, 26
        enum = self.enum_of(field)
        if enum:
            values, place = enum.node.of(Value), field.reference.first.start
            if field.key and values and values[0].number != 0:
                yield place, 23
            if self.is_proto3 and self.workspace.files[enum.file].syntax == "proto2":
                yield place, 24

    def enum_of(self, field):
        """The enum that is the type of a field or of a map field's values, or nothing."""
        symbol = self.resolved[id(field.reference)] if field.reference else None
        return symbol if symbol and symbol.kind == "enum" else None

    def suits(self, name, value, field):
        """Whether a field of this type may have the option, with a value that begins so."""
        if name == "packed":
            return field.label == "repeated" and (field.scalar in PACKABLE or bool(self.enum_of(field)))
        if value.kind == "word" and (name, value.text) in (("jstype", "JS_STRING"), ("jstype", "JS_NUMBER")):
            return field.scalar in LONG and not field.key
        if value.kind == "word" and (name, value.text) in (("lazy", "true"), ("unverified_lazy", "true")):
            return bool(field.key) or not field.scalar and not self.enum_of(field)
        return True

    def defaults(self, field):
        """In proto3 there is none, in proto2 the first has to fit."""
        found = [option for option in field.settings if option.name.text == "default"]
        if self.is_proto3:
            yield from ((option.name.start, 31) for option in found)
        elif found and (field.label == "repeated" or field.key or not self.is_default(field, found[0].value)):
            yield found[0].name.start, 28

    def is_default(self, field, value):
        """Whether the type of a field allows the tokens of a default."""
        if value[0].kind == "string":
            return field.scalar == "string"
        if value[0].kind == "word":
            enum = self.enum_of(field)
            words = [one.name.text for one in enum.node.of(Value)] if enum else TRUTH if field.scalar == "bool" else ()
            return value[0].text in words
        return field.scalar in DEFAULTS and is_within(number_value(value), DEFAULTS[field.scalar])


def again(number, members):
    """The number, at each place whose member an earlier one is equal to."""
    taken = []
    for place, member in members:
        if member in taken:
            yield place, number
        taken.append(member)


def is_kind(first, kind):
    """Whether the value that begins with this token is of a kind."""
    return kind is ANY or (first.kind == "string" if kind is TEXT else first.kind == "word" and first.text in kind)


def faults_of_reserved_names(block, members):
    names = block.reserved_names
    yield from again(20, zip((string.start for string in block.reserved_strings), names))
    yield from ((member.name.start, 20) for member in members if member.name.text in names)


def faults_of_ranges(block, members, limits):
    """Those of the ranges of a message or an enum, and of the numbers in them."""
    held = []
    for reserved in block.of(Reserved):
        for place, bounds in zip(reserved.range_places, reserved.ranges):
            start, end = closed(bounds, limits)
            if end < start or not is_within(start, limits) or not is_within(end, limits):
                yield place, 17
            if any(max(start, other[0]) <= min(end, other[1]) for other in held):
                yield place, 21
            held.append((start, end))
    yield from ((member.number_at, 19) for member in members if any(is_within(member.number, one) for one in held))


def closed(bounds, limits):
    """A range whose end may be `max`, with the number that this is."""
    start, end = bounds
    return start, limits[1] if end is None else end


def is_within(number, bounds):
    return bounds[0] <= number <= bounds[1]
