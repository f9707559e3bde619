"""What a deleted field, an added import and a dropped one are, in a model of schemas: the cases that refuse each, its one splice,
and what becomes of the descriptors, as docs/edits.md has them. Everything is read in the workspace as it is before the edit.
"""

import copy

from grammar import MAX_BYTES, Oneof, Reserved, entry_name
from renames import is_below
from schemas import fits


class Statement:
    """An edit of one statement: one splice of one file."""

    def __init__(self, workspace, place, at, old, new):
        self.workspace, self.place = workspace, place
        self.at, self.old, self.new = at, old, new

    def changes(self):
        path = self.workspace.files[self.place].path
        before = len(self.workspace.texts[path])
        return [(path, before, before + len(self.new) - len(self.old), [(self.at, self.old, self.new)])]

    def is_too_large(self):
        return any(after > MAX_BYTES for _, _, after, _ in self.changes())

    def mapped(self, descriptors):
        after = copy.deepcopy(descriptors)
        self.map_file(after["file"][self.place])
        return after


# ---- deleted fields


class Deletion(Statement):
    """A written field that becomes a reservation."""

    def __init__(self, workspace, target):
        self.target, self.field = target, target.node
        self.names = (target.name,)
        self.oneof = next((one for one in target.block.of(Oneof) if self.field in one.fields), None)
        text = workspace.files[target.file].text
        start, end = self.field.span
        reservation = f'reserved {self.field.number}; reserved "{target.name[-1]}";'
        if self.oneof:
            old, new = text[start : self.oneof.end], text[end : self.oneof.end] + " " + reservation
        else:
            old, new = text[start:end], reservation
        super().__init__(workspace, target.file, start, old, new)

    def is_last_of_oneof(self):
        return self.oneof is not None and len(self.oneof.fields) == 1

    def map_file(self, file):
        holder, key = file, "messageType"
        package = self.workspace.files[self.place].package
        assert is_below(self.target.name, package)
        for word in self.target.name[len(package) : -1]:
            holder, key = next(one for one in holder[key] if one["name"] == word), "nestedType"
        self.map_message(holder)

    def map_message(self, message):
        take_out(message, "field", self.target.name[-1])
        if self.field.key:
            take_out(message, "nestedType", entry_name(self.target.name[-1]))
        members = self.target.block.members
        place = next(at for at, one in enumerate(members) if one is (self.oneof or self.field))
        before = [one for one in members[:place] if isinstance(one, Reserved) and one.word == "reserved"]
        ranges = sum(len(one.ranges) for one in before)
        names = sum(len(one.names) for one in before)
        number = self.field.number
        message.setdefault("reservedRange", []).insert(ranges, {"start": number, "end": number + 1})
        message.setdefault("reservedName", []).insert(names, self.target.name[-1])


def take_out(message, key, name):
    message[key] = [one for one in message[key] if one["name"] != name]
    if not message[key]:
        del message[key]


def deletion_of(workspace, name):
    """The number of what refuses a deletion, nothing, and the deletion where nothing refuses it."""
    target = next((symbol for symbol in workspace.symbols if ".".join(symbol.name) == name), None)
    if target is None:
        return 1, None, None
    if target.kind != "field":
        return 2, None, None
    deletion = Deletion(workspace, target)
    if deletion.is_last_of_oneof():
        return 10, None, None
    if deletion.is_too_large():
        return 16, None, None
    return 0, None, deletion


# ---- added imports


class Addition(Statement):
    """An import after the last one, else after the package, else after the syntax, else first of all."""

    def __init__(self, workspace, place, path):
        self.path = path
        file = workspace.files[place]
        ends = [max((end for _, end in file.import_spans), default=None), file.package_end, file.syntax_end]
        at = next((end for end in ends if end is not None), None)
        statement = f'import "{path}";'
        new = statement + "\n" if at is None else "\n" + statement
        super().__init__(workspace, place, at or 0, "", new)

    def map_file(self, file):
        file.setdefault("dependency", []).append(self.path)


def imports_with(workspace, place, imports):
    """The imports of all files where one file has these."""
    return {one: imports if one == place else file.imports for one, file in enumerate(workspace.files)}


def captured(workspace, place, path):
    """The first reference of a file that would be found further inward if it imported the path too."""
    imports = imports_with(workspace, place, workspace.files[place].imports + [(path, False)])
    visible = workspace.names_in(workspace.sees_with(imports, place))
    for use in workspace.uses:
        if use.file != place or use.reference.is_absolute:
            continue
        words = use.reference.words
        for cut in range(workspace.hit(use) + 1, len(use.scope) + 1):
            if fits(visible.get(use.scope[:cut] + words[:1]), words, use.wants):
                return use
    return None


def addition_of(workspace, path, imported):
    """The number of what refuses an added import, the reference that it reports, and the addition where nothing does."""
    place, other = workspace.place_of.get(path), workspace.place_of.get(imported)
    if place is not None and other is not None:
        use = captured(workspace, place, imported)
        if use:
            return 7, use, None
    if place is None or other is None:
        return 11, None, None
    if imported in [one for one, _ in workspace.files[place].imports]:
        return 12, None, None
    if place == other or workspace.reaches(other, place):
        return 14, None, None
    addition = Addition(workspace, place, imported)
    if addition.is_too_large():
        return 16, None, None
    return 0, None, addition


# ---- dropped imports


class Drop(Statement):
    """An import that is taken out."""

    def __init__(self, workspace, place, path):
        file = workspace.files[place]
        self.number = [one for one, _ in file.imports].index(path)
        start, end = file.import_spans[self.number]
        super().__init__(workspace, place, start, file.text[start:end], "")

    def map_file(self, file):
        del file["dependency"][self.number]
        lists = {"dependency": file["dependency"]}
        for key in ("publicDependency", "weakDependency"):
            lists[key] = [at - (at > self.number) for at in file.get(key, []) if at != self.number]
        for key, left in lists.items():
            file.pop(key, None)
            if left:
                file[key] = left


def needed(workspace, place, path):
    """The first reference of any file that resolves to what its file would no longer see."""
    left = [one for one in workspace.files[place].imports if one[0] != path]
    imports = imports_with(workspace, place, left)
    seen = [workspace.sees_with(imports, one) for one in range(len(workspace.files))]
    for use in workspace.uses:
        if workspace.by_name[workspace.resolution(use)].file not in seen[use.file]:
            return use
    return None


def drop_of(workspace, path, imported):
    """The number of what refuses a dropped import, the reference that it reports, and the drop where nothing does."""
    place = workspace.place_of.get(path)
    if place is None:
        return 11, None, None
    if imported not in [one for one, _ in workspace.files[place].imports]:
        return 13, None, None
    use = needed(workspace, place, imported)
    if use:
        return 15, use, None
    return 0, None, Drop(workspace, place, imported)
