"""Random edits of a workspace: renames, deleted fields, added and dropped imports. Where answers of a kind are rare, edits are
picked by what the model answers to them."""

from edits import answer
from generated import FIELDS, PATHS, Renamer
from grammar import Oneof

NEARLY_FULL = 1_048_500


class Editor:
    """Picks edits; `earlier` are those that were picked before, the last one last."""

    def __init__(self, chance, workspace, earlier):
        self.chance, self.workspace, self.earlier = chance, workspace, earlier

    def pick(self):
        """The command's word and the words after ROOT."""
        ways = {self.rename: 25, self.deletion: 35, self.addition: 22, self.drop: 22}
        while True:
            (way,) = self.chance.choices(list(ways), list(ways.values()))
            found = way()
            if found:
                return found

    def any(self, things):
        return self.chance.choice(things) if things else None

    def rename(self):
        if not self.workspace.symbols:
            return None
        return "rename", *Renamer(self.chance, self.workspace, [edit[1] for edit in self.earlier]).pick()

    # ---- deletions

    def deletion(self):
        ways = {
            self.field: 30,
            self.map_field: 12,
            self.of_oneof: 30,
            self.beside_reserved: 15,
            self.in_full_file: 20,
            self.extension: 4,
            self.no_field: 8,
            self.no_name: 6,
        }
        (way,) = self.chance.choices(list(ways), list(ways.values()))
        name = way()
        return None if name is None else ("delete-field", name)

    def fields(self, fits=lambda symbol: True):
        """The name of a written field that fits."""
        found = self.any([one for one in self.workspace.symbols if one.kind == "field" and fits(one)])
        return found and ".".join(found.name)

    def field(self):
        return self.fields()

    def map_field(self):
        return self.fields(lambda symbol: symbol.node.key)

    def of_oneof(self):
        return self.fields(lambda symbol: any(symbol.node in one.fields for one in symbol.block.of(Oneof)))

    def beside_reserved(self):
        return self.fields(lambda symbol: symbol.block.reserved_names)

    def in_full_file(self):
        return self.fields(lambda symbol: len(self.workspace.files[symbol.file].text) > NEARLY_FULL)

    def no_field(self):
        found = self.any([one for one in self.workspace.symbols if one.kind != "field"])
        return found and ".".join(found.name)

    def extension(self):
        found = self.any([one for one in self.workspace.symbols if one.kind == "extension"])
        return found and ".".join(found.name)

    def no_name(self):
        symbol = self.any(self.workspace.symbols)
        name = ".".join(symbol.name) if symbol else "A"
        others = ["." + name, name + ".", name + "." + self.chance.choice(FIELDS), name[1:], "", "-x", name + " "]
        return self.chance.choice(others + [edit[1] for edit in self.earlier])

    # ---- imports

    def paths(self):
        """The path of a file, mostly."""
        if self.chance.random() < 0.94:
            return self.chance.choice(self.workspace.files).path
        path = self.chance.choice(self.workspace.files).path
        others = ["./" + path, path + " ", path[:-6], "x.proto", "", "-x", "\\141.proto", '"' + path + '"', path.upper()]
        return self.chance.choice(others + [word + ".proto" for word in PATHS])

    def addition(self):
        if self.chance.random() < 0.12:
            return "add-import", self.paths(), self.paths()
        paths = [file.path for file in self.workspace.files]
        return self.by_answer([("add-import", path, other) for path in paths for other in paths])

    def drop(self):
        if self.chance.random() < 0.12:
            return "drop-import", self.paths(), self.paths()
        drops = [("drop-import", file.path, path) for file in self.workspace.files for path, _ in file.imports]
        return self.by_answer(drops)

    def by_answer(self, edits):
        """One of the edits, so that answers of each kind are picked as often: also by whether a place is in the edit's own file."""
        kinds = {}
        for edit in edits:
            number, at, _ = answer(self.workspace, *edit)
            kind = (number, at and self.workspace.files[at[0]].path == edit[1])
            kinds.setdefault(kind, []).append(edit)
        # An import that is there already, or that would make a cycle, is refused alike each time: these are picked less often.
        weights = [0.3 if kind[0] in (12, 14) else 2 if kind[0] in (0, 16) else 1 for kind in kinds]
        return self.chance.choice(self.chance.choices(list(kinds.values()), weights)[0]) if kinds else None
