"""Files with one option each: the options that are known besides where files are read as they are written, on each element, with
values of their kind and of others, and those of fields on fields of several types.
"""

import pathlib

from faults import MORE_OPTIONS, TEXT, TRUTH

# What protoc accepts of them, a line for each option with a value, as tools/oracle/options_of_protoc prints it.
KEPT = pathlib.Path(__file__).with_name("options_of_protoc.txt")
TYPES = "int32 int64 uint64 sfixed64 string M E".split()
BESIDE = "enum E { A = 0; } message N { extensions 100 to 199; }"
# What stands around an option, by the element that has it.
ELEMENTS = {
    "file": "option *; ",
    "message": "message M { option *; }",
    "oneof": "message M { oneof o { option *; int32 a = 1; } }",
    "enum": "enum F { option *; B = 1; }",
    "value": "enum F { B = 1 [*]; }",
    "service": "service S { option *; }",
    "method": "service S { rpc R(N) returns (N) { option *; } }",
}
FIELDS = {
    "optional": "message M { optional @ a = 1 [*]; }",
    "repeated": "message M { repeated @ a = 1 [*]; }",
    "in oneof": "message M { oneof o { @ a = 1 [*]; } }",
    "in map": "message M { map<int64, @> a = 1 [*]; }",
    "extension": "message M {} extend N { optional @ a = 100 [*]; }",
}
# A oneof holds custom options alone here, and a plain one is a fault of the grammar; protoc knows no option of a oneof.
PLACES = {
    **ELEMENTS,
    **{f"{kind} {form}": shape.replace("@", kind) for kind in TYPES for form, shape in FIELDS.items()},
}
NOWHERE = "nowhere"
OTHERS = {TEXT: ("true", "1"), TRUTH: ('"true"', "1", "True")}
OF_WORDS = ("1", "DEFAULT")


def settings():
    """Each option with its values, and whether the value is of the option's kind."""
    known = {name: kind for options in MORE_OPTIONS.values() for name, kind in options.items()}
    for name, kind in known.items():
        values = ('"a"', '"a" "b"') if kind is TEXT else kind
        for value in values:
            yield f"{name} = {value}", name, True
        for value in OTHERS.get(kind, (f'"{values[-1]}"', *OF_WORDS)):
            yield f"{name} = {value}", name, False


def files():
    """Each option with a value, and its files by the name of the place: fields of all types where the value is of its kind."""
    for setting, name, is_kind in settings():
        is_wide = is_kind and name in MORE_OPTIONS["field"]
        places = PLACES if is_wide else {**ELEMENTS, "int64 optional": PLACES["int64 optional"], "M extension": PLACES["M extension"]}
        yield setting, {place: f'syntax = "proto2"; {BESIDE} {shape.replace("*", setting)}' for place, shape in places.items()}


def line_of(setting, places):
    """A line of the file of what is kept: the places where an option may stand with a value."""
    return f"{setting}: {', '.join(places) or NOWHERE}\n"


def kept():
    """For each option with a value the places where protoc accepts it."""
    found = {}
    for line in KEPT.read_text().splitlines():
        setting, _, places = line.partition(": ")
        found[setting] = [] if places == NOWHERE else places.split(", ")
    return found
