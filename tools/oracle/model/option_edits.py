"""Edits by chance of a workspace with custom options: of what options name and of what their values may name, with new names that
options use, or that would stand before theirs."""

from optioned import VALUES, WORDS
from schemas import OPTION
from written import DESCRIPTOR

MEMBERS, OTHERS = ("field", "value"), ("extension", "extension", "message", "enum", "service", "method")


class OptionEditor:
    """Picks edits of a workspace."""

    def __init__(self, chance, workspace):
        self.chance, self.workspace = chance, workspace
        self.options = [use for use in workspace.uses if use.wants is OPTION]
        self.words = [token.text for use in self.options for token in use.option.words]
        self.fronts = [word for use in self.options for word in use.reference.words]

    def pick(self):
        """The command's word and the words after ROOT."""
        ways = {self.member: 30, self.other: 30, self.before: 12, self.deletion: 12, self.addition: 8, self.drop: 8}
        found = None
        while not found:
            (way,) = self.chance.choices(list(ways), list(ways.values()))
            found = way()
        return found

    def any(self, things):
        return self.chance.choice(things) if things else None

    def symbol(self, kinds):
        """The name of a symbol of a kind, more often of one whose word options use."""
        kind = self.any(kinds)
        options = self.workspace.place_of[DESCRIPTOR]
        found = [one for one in self.workspace.symbols if one.kind == kind and (one.file != options or self.chance.random() < 0.03)]
        if self.chance.random() < 0.5:
            found = [one for one in found if one.name[-1] in self.words + self.fronts] or found
        symbol = self.any(found)
        return symbol and ".".join(symbol.name)

    def to(self):
        fresh = [f"fresh{self.chance.randrange(99)}"]
        return self.any(self.any([fresh, fresh, fresh, fresh, fresh, WORDS + VALUES, WORDS, self.words or fresh, self.fronts or fresh]))

    def member(self):
        name = self.symbol(MEMBERS)
        return name and ("rename", name, self.to())

    def other(self):
        name = self.symbol(OTHERS)
        return name and ("rename", name, self.to())

    def before(self):
        """A rename to the first word of an option's name, of what stands in one of the scopes that are searched for it."""
        use = self.any([use for use in self.options if use.scope and not use.reference.is_absolute])
        scopes = [use.scope[:cut] for cut in range(len(use.scope) + 1)] if use else []
        found = self.any([one for one in self.workspace.symbols if one.name[:-1] in scopes and one.kind in MEMBERS + OTHERS])
        return found and ("rename", ".".join(found.name), use.reference.words[0])

    def deletion(self):
        name = self.symbol(("field",))
        return name and ("delete-field", name)

    def addition(self):
        paths = [file.path for file in self.workspace.files]
        return "add-import", self.any(paths), self.any(paths)

    def drop(self):
        drop = self.any([(file.path, path) for file in self.workspace.files for path, _ in file.imports])
        return drop and ("drop-import", *drop)
