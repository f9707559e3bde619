"""What a rename is, in a model of schemas: its name map, the cases that refuse it and the words that it changes, as
docs/edits.md has them. Everything is read in the workspace as it is before the edit; no changed text is read.
"""

import copy

from grammar import LISTED, MAX_BYTES, WORD, derived_json, entry_name
from schemas import fits

KINDS = ("message", "enum", "service", "field", "extension", "value", "method")


class Rename:
    """The rename of a symbol that may be renamed."""

    def __init__(self, workspace, target, to):
        self.workspace, self.target, self.to = workspace, target, to
        self.old = target.name
        self.new = target.name[:-1] + (to,)
        # What it takes away and makes.
        self.names = (self.old, self.new)
        # The renamed names with their new ones: of a map field its entry's too.
        self.pairs = [(self.old, self.new)]
        if target.kind == "field" and target.node.key:
            parent = target.name[:-1]
            self.pairs.append((parent + (entry_name(self.old[-1]),), parent + (entry_name(to),)))
        # The enum of a renamed value, which is a sibling of its values.
        self.enum = target.name[:-1] + (target.block.name.text,) if target.kind == "value" else None

    @property
    def new_json(self):
        return derived_json(self.to)

    # ---- the name map

    def map(self, name):
        for old, new in self.pairs:
            if is_below(name, old):
                return new + name[len(old):]
        return name

    def is_renamed(self, name):
        return any(is_below(name, old) for old, _ in self.pairs)

    # ---- references

    def words_after(self, use):
        """The words of a reference as rewritten."""
        resolved, words = self.workspace.resolution(use), use.reference.words
        prefixes = [resolved[: len(resolved) - len(words) + place + 1] for place in range(len(words))]
        return tuple(self.to if prefix == self.old else word for prefix, word in zip(prefixes, words))

    def visible_after(self, place):
        """The visible names of a file under the name map, each with its kinds."""
        visible = {}
        for name, kind in self.workspace.visible[place].items():
            visible.setdefault(self.map(name), set()).add(kind)
        return visible

    def is_captured(self, use, visible):
        if use.reference.is_absolute:
            return False
        words = self.words_after(use)
        for cut in range(self.workspace.hit(use) + 1, len(use.scope) + 1):
            kinds = visible.get(self.map(use.scope[:cut]) + words[:1], ())
            if any(fits(kind, words, use.wants) for kind in kinds):
                return True
        return False

    def captured(self):
        """The first captured reference, or None."""
        visible = {}
        for use in self.workspace.uses:
            if use.file not in visible:
                visible[use.file] = self.visible_after(use.file)
            if self.is_captured(use, visible[use.file]):
                return use
        return None

    # ---- cases

    def is_keyword(self):
        if self.target.kind == "value":
            return self.to in ("option", "reserved")
        return self.target.kind in ("message", "enum", "service") and self.to in LISTED

    def collides(self):
        outside = [symbol.name for symbol in self.workspace.symbols if not self.is_renamed(symbol.name)]
        return any(is_below(name, new) for name in outside for _, new in self.pairs)

    def is_reserved(self):
        return self.target.kind in ("field", "value") and self.to in self.target.block.reserved_names

    def clashes(self):
        if self.target.kind != "field" or self.workspace.files[self.target.file].syntax != "proto3":
            return False
        if self.target.node.written_json is not None:
            return False
        others = [one.json_name for one in self.target.block.fields if one is not self.target.node]
        return self.new_json in others

    def is_too_large(self):
        return any(after > MAX_BYTES for _, _, after, _ in self.changes())

    # ---- changes

    def mapped(self, descriptors):
        return mapped(self, descriptors)

    def changed_tokens(self):
        """Each token that changes, with its file."""
        yield self.target.file, self.target.token
        for use in self.workspace.uses:
            after = self.words_after(use)
            for token, word in zip(use.reference.tokens, after):
                if token.text != word:
                    yield use.file, token
            default = use.field.setting("default") if use.field else None
            if default and self.enum and self.workspace.resolution(use) == self.enum and default[-1].text == self.old[-1]:
                yield use.file, default[-1]

    def changes(self):
        """For each changed file, in the order of paths: path, length before and after, and places with old and new text."""
        by_file = {}
        for file, token in self.changed_tokens():
            by_file.setdefault(file, []).append((token.start, token.text, self.to))
        found = []
        for file in sorted(by_file):
            path = self.workspace.files[file].path
            before = len(self.workspace.texts[path])
            splices = sorted(by_file[file])
            found.append((path, before, before + sum(len(new) - len(old) for _, old, new in splices), splices))
        return found


def is_below(name, prefix):
    return name[: len(prefix)] == prefix


def rename_of(workspace, name, to):
    """The number of what refuses a rename, the reference that it reports, and the rename itself where nothing refuses it."""
    target = next((symbol for symbol in workspace.symbols if ".".join(symbol.name) == name), None)
    if target is None:
        return 1, None, None
    if target.kind not in KINDS:
        return 2, None, None
    rename = Rename(workspace, target, to)
    if not WORD.match(to):
        return 3, None, None
    if rename.is_keyword():
        return 4, None, None
    if to == rename.old[-1]:
        return 5, None, None
    if rename.collides():
        return 6, None, None
    use = rename.captured()
    if use:
        return 7, use, None
    if rename.is_reserved():
        return 8, None, None
    if rename.clashes():
        return 9, None, None
    if rename.is_too_large():
        return 16, None, None
    return 0, None, rename


# ---- what a rename makes of descriptors


def mapped(rename, descriptors):
    """The descriptors under the name map of an accepted rename."""
    after = copy.deepcopy(descriptors)
    for file in after.get("file", []):
        package = tuple(file["package"].split(".")) if "package" in file else ()
        map_types(rename, package, file)
        for service in file.get("service", []):
            name = map_name(rename, package, service)
            for method in service.get("method", []):
                map_name(rename, name, method)
                for key in ("inputType", "outputType"):
                    method[key] = map_resolved(rename, method[key])
    return after


def map_name(rename, parent, element):
    """Maps the name of an element, and answers its full name before."""
    name = parent + (element["name"],)
    element["name"] = rename.map(name)[-1]
    return name


def map_resolved(rename, written):
    return "." + ".".join(rename.map(tuple(written[1:].split("."))))


def map_types(rename, parent, holder):
    for enum in holder.get("enumType", []):
        map_name(rename, parent, enum)
        for value in enum["value"]:
            map_name(rename, parent, value)
    for extension in holder.get("extension", []):
        map_name(rename, parent, extension)
        map_typed(rename, extension)
        extension["extendee"] = map_resolved(rename, extension["extendee"])
    for key in ("messageType", "nestedType"):
        for message in holder.get(key, []):
            map_message(rename, parent, message)


def map_message(rename, parent, message):
    name = map_name(rename, parent, message)
    map_types(rename, name, message)
    for oneof in message.get("oneofDecl", []):
        map_name(rename, name, oneof)
    for field in message.get("field", []):
        full = map_name(rename, name, field)
        if full == rename.old and rename.target.node.written_json is None:
            field["jsonName"] = rename.new_json
        map_typed(rename, field)


def map_typed(rename, field):
    """Maps the type of a field or an extension, and its default."""
    if field["type"] == "TYPE_ENUM" and rename.enum and field["typeName"] == "." + ".".join(rename.enum):
        if field.get("defaultValue") == rename.old[-1]:
            field["defaultValue"] = rename.to
    if "typeName" in field:
        field["typeName"] = map_resolved(rename, field["typeName"])
