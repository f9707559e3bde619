"""Descriptor sets as protoc writes them, in the form that descriptors of the model have, with the bytes of each options message."""

STRING, NUMBER, TRUTH, TYPE, OPTIONS = "string", "number", "truth", "type", "options"
# By the number of a field of descriptor.proto its JSON key and its kind, in brackets where it is repeated.
RANGE = {1: ("start", NUMBER), 2: ("end", NUMBER)}
ONEOF = {1: ("name", STRING), 2: ("options", OPTIONS)}
VALUE = {1: ("name", STRING), 2: ("number", NUMBER), 3: ("options", OPTIONS)}
ENUM = {1: ("name", STRING), 2: ("value", [VALUE]), 3: ("options", OPTIONS), 4: ("reservedRange", [RANGE]), 5: ("reservedName", [STRING])}
FIELD = {
    **{1: ("name", STRING), 2: ("extendee", STRING), 3: ("number", NUMBER), 4: ("label", NUMBER), 5: ("type", TYPE)},
    **{6: ("typeName", STRING), 7: ("defaultValue", STRING), 8: ("options", OPTIONS), 9: ("oneofIndex", NUMBER)},
    **{10: ("jsonName", STRING), 17: ("proto3Optional", TRUTH)},
}
MESSAGE = {
    **{1: ("name", STRING), 2: ("field", [FIELD]), 4: ("enumType", [ENUM]), 5: ("extensionRange", [RANGE]), 6: ("extension", [FIELD])},
    **{7: ("options", OPTIONS), 8: ("oneofDecl", [ONEOF]), 9: ("reservedRange", [RANGE]), 10: ("reservedName", [STRING])},
}
MESSAGE[3] = ("nestedType", [MESSAGE])
METHOD = {
    **{1: ("name", STRING), 2: ("inputType", STRING), 3: ("outputType", STRING), 4: ("options", OPTIONS)},
    **{5: ("clientStreaming", TRUTH), 6: ("serverStreaming", TRUTH)},
}
SERVICE = {1: ("name", STRING), 2: ("method", [METHOD]), 3: ("options", OPTIONS)}
FILE = {
    **{1: ("name", STRING), 2: ("package", STRING), 3: ("dependency", [STRING]), 4: ("messageType", [MESSAGE]), 5: ("enumType", [ENUM])},
    **{6: ("service", [SERVICE]), 7: ("extension", [FIELD]), 8: ("options", OPTIONS), 10: ("publicDependency", [NUMBER])},
    **{11: ("weakDependency", [NUMBER]), 12: ("syntax", STRING)},
}
SET = {1: ("file", [FILE])}
TYPES = {14: "TYPE_ENUM"}


def descriptors_of(data):
    """The descriptors of a set, files in the order of their paths, without what the model leaves out: JSON names of extensions, and
    the oneofs that protoc makes for `optional` in proto3."""
    made = read(data, SET)
    made["file"].sort(key=lambda file: file["name"])
    for file in made["file"]:
        tidy(file)
    return made


def numbers_of(options):
    """The numbers of the fields that an options message has, in the order of its bytes."""
    return [number for number, _ in fields_of(bytes.fromhex(options))]


def options_in(value):
    """The options messages below, as they are written."""
    if isinstance(value, list):
        return [one for item in value for one in options_in(item)]
    if not isinstance(value, dict):
        return []
    return [one for key, item in value.items() for one in ([item] if key == "options" else options_in(item))]


def read(data, fields):
    made = {}
    for number, value in fields_of(data):
        key, kind = fields[number]
        if isinstance(kind, list):
            made.setdefault(key, []).append(value_of(value, kind[0]))
        else:
            made[key] = value_of(value, kind)
    return made


def value_of(value, kind):
    if isinstance(kind, dict):
        return read(value, kind)
    if kind is TYPE:
        return TYPES.get(value, value)
    return value.decode() if kind is STRING else value.hex() if kind is OPTIONS else bool(value) if kind is TRUTH else value


def fields_of(data):
    """The fields of a message in the binary form, each with its number."""
    place = 0
    while place < len(data):
        tag, place = number_at(data, place)
        number, form = tag >> 3, tag & 7
        if form == 0:
            value, place = number_at(data, place)
        else:
            length, place = (8, place) if form == 1 else (4, place) if form == 5 else number_at(data, place)
            value, place = data[place : place + length], place + length
        yield number, value


def number_at(data, place):
    """The number of variable length at a place, and where it ends."""
    value = shift = 0
    while True:
        byte, place = data[place], place + 1
        value |= (byte & 127) << shift
        shift += 7
        if byte < 128:
            return value, place


def tidy(holder):
    for extension in holder.get("extension", []):
        extension.pop("jsonName", None)
    synthetic = [field.pop("oneofIndex") for field in holder.get("field", []) if field.get("proto3Optional")]
    oneofs = [one for place, one in enumerate(holder.pop("oneofDecl", [])) if place not in synthetic]
    if oneofs:
        holder["oneofDecl"] = oneofs
    for message in holder.get("messageType", []) + holder.get("nestedType", []):
        tidy(message)
