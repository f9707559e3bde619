"""Descriptors of a model's schemas as docs/descriptors.md has them, and their text."""

from grammar import Block, Extend, Field, Method, Oneof, Option, Reserved, Value, entry_name, number_value, text_value

MAX_NUMBER = 536870911
MAX_VALUE = 2147483647


def text(value):
    """Compact JSON, keys in the order of their bytes."""
    if value is None:
        return "null"
    if isinstance(value, bool):
        return "true" if value else "false"
    if isinstance(value, int):
        return str(value)
    if isinstance(value, str):
        return '"' + "".join(map(character, value)) + '"'
    if isinstance(value, list):
        return "[" + ",".join(map(text, value)) + "]"
    return "{" + ",".join(f"{text(key)}:{text(value[key])}" for key in sorted(value)) + "}"


def character(letter):
    short = {'"': '\\"', "\\": "\\\\", "\b": "\\b", "\f": "\\f", "\n": "\\n", "\r": "\\r", "\t": "\\t"}
    if letter in short:
        return short[letter]
    return f"\\u{ord(letter):04x}" if letter < " " else letter


def described(workspace):
    """The descriptors of a workspace."""
    return without_empty({"file": [file_of(workspace, place) for place in range(len(workspace.files))]})


def without_empty(members):
    """What is said of an element: empty lists, empty options and false marks are left out, and what is None."""
    return {key: value for key, value in members.items() if value not in (None, [], {}) and value is not False}


def options_of(options):
    found = {}
    for option in options:
        first, *rest = option.name.text.split("_")
        key = first + "".join(word.capitalize() for word in rest)
        word = option.value[0].text
        if option.name.text not in ("json_name", "default"):
            is_text = option.value[0].kind == "string"
            found[key] = text_value(option.value) if is_text else {"true": True, "false": False}.get(word, word)
    return found


def file_of(workspace, place):
    file = workspace.files[place]
    uses = {id(use.reference): use for use in workspace.uses if use.file == place}
    scene = Scene(workspace, uses, file.syntax == "proto3")
    return without_empty({
        "name": file.path,
        "package": ".".join(file.package) or None,
        "dependency": [path for path, _ in file.imports],
        "publicDependency": [at for at, (_, is_public) in enumerate(file.imports) if is_public],
        "weakDependency": file.weak_imports,
        "messageType": [scene.message(file.package, block) for block in file.blocks("message")],
        "enumType": [scene.enum(block) for block in file.blocks("enum")],
        "service": [scene.service(block) for block in file.blocks("service")],
        "extension": scene.extensions(file),
        "options": options_of(file.of(Option)),
        "syntax": "proto3" if scene.is_proto3 else None,
    })


class Scene:
    """The blocks of one file."""

    def __init__(self, workspace, uses, is_proto3):
        self.workspace, self.uses, self.is_proto3 = workspace, uses, is_proto3

    def resolved(self, reference):
        return self.workspace.resolution(self.uses[id(reference)])

    def message(self, above, block):
        name = above + (block.name.text,)
        nested = []
        for member in block.members:
            if isinstance(member, Field) and member.key:
                nested.append(self.entry(member))
            elif isinstance(member, Block) and member.kind == "message":
                nested.append(self.message(name, member))
        oneofs = block.of(Oneof)
        fields = []
        for member in block.members:
            if isinstance(member, Field):
                entry = name + (entry_name(member.name.text),) if member.key else None
                fields.append(self.field(member, None, entry))
            elif isinstance(member, Oneof):
                fields += [self.field(one, oneofs.index(member), None) for one in member.fields]
        ranges = {word: [] for word in ("reserved", "extensions")}
        for member in block.of(Reserved):
            for start, end in member.ranges:
                ranges[member.word].append({"start": start, "end": (MAX_NUMBER if end is None else end) + 1})
        return without_empty({
            "name": block.name.text,
            "field": fields,
            "nestedType": nested,
            "enumType": [self.enum(member) for member in block.blocks("enum")],
            "extension": self.extensions(block),
            "extensionRange": ranges["extensions"],
            "oneofDecl": [{"name": oneof.name.text} for oneof in oneofs],
            "reservedRange": ranges["reserved"],
            "reservedName": block.reserved_names,
            "options": options_of(block.of(Option)),
        })

    def typed(self, field):
        """The type of a field, or of a map field's value."""
        if field.scalar:
            return {"type": "TYPE_" + field.scalar.upper()}
        name = self.resolved(field.reference)
        kind = "ENUM" if self.workspace.by_name[name].kind == "enum" else "MESSAGE"
        return {"type": "TYPE_" + kind, "typeName": "." + ".".join(name)}

    def extensions(self, around):
        found = []
        for extend in around.of(Extend):
            extendee = "." + ".".join(self.resolved(extend.extendee))
            for one in extend.fields:
                described = self.field(one, None, None)
                del described["jsonName"]
                found.append({**described, "extendee": extendee})
        return found

    def field(self, field, oneof, entry):
        label = "repeated" if entry else field.label or "optional"
        default = field.setting("default")
        typed = {"type": "TYPE_MESSAGE", "typeName": "." + ".".join(entry)} if entry else self.typed(field)
        return without_empty({
            "name": field.name.text,
            "number": field.number,
            "label": "LABEL_" + label.upper(),
            "defaultValue": default_text(default) if default else None,
            "oneofIndex": oneof,
            "jsonName": field.json_name,
            "proto3Optional": self.is_proto3 and field.label == "optional",
            "options": options_of(field.settings),
            **typed,
        })

    def entry(self, field):
        def part(name, number, typed):
            return {"name": name, "jsonName": name, "number": number, "label": "LABEL_OPTIONAL", **typed}

        fields = [part("key", 1, {"type": "TYPE_" + field.key.text.upper()}), part("value", 2, self.typed(field))]
        return {"name": entry_name(field.name.text), "field": fields, "options": {"mapEntry": True}}

    def enum(self, block):
        ranges = []
        for member in block.of(Reserved):
            ranges += [{"start": start, "end": MAX_VALUE if end is None else end} for start, end in member.ranges]
        values = [
            without_empty({"name": value.name.text, "number": value.number, "options": options_of(value.settings)})
            for value in block.of(Value)
        ]
        return without_empty({
            "name": block.name.text,
            "value": values,
            "reservedRange": ranges,
            "reservedName": block.reserved_names,
            "options": options_of(block.of(Option)),
        })

    def service(self, block):
        methods = [
            without_empty({
                "name": method.name.text,
                "inputType": "." + ".".join(self.resolved(method.input)),
                "outputType": "." + ".".join(self.resolved(method.output)),
                "clientStreaming": method.streams[0],
                "serverStreaming": method.streams[1],
                "options": options_of(method.options),
            })
            for method in block.of(Method)
        ]
        return without_empty({"name": block.name.text, "method": methods, "options": options_of(block.of(Option))})


def default_text(tokens):
    if tokens[0].kind == "string":
        return text_value(tokens)
    return tokens[0].text if tokens[0].kind == "word" else str(number_value(tokens))
