"""The answers to edits in a model of schemas: what a command prints, the bytes that change, and the lines of the journal and the log."""

from described import text
from guards import guarded_word, is_fixed
from renames import rename_of
from statements import addition_of, deletion_of, drop_of

NAMES = {
    1: "UnknownTarget",
    2: "KindNotAllowed",
    3: "NotAnIdentifier",
    4: "KeywordName",
    5: "SameName",
    6: "Collision",
    7: "Captured",
    8: "NameReserved",
    9: "JsonClash",
    10: "LastOfOneof",
    11: "UnknownFile",
    12: "AlreadyImported",
    13: "NotImported",
    14: "Cycle",
    15: "Needed",
    16: "TooLarge",
    19: "OptionValue",
    20: "FixedName",
}
# By the command's word; each takes the words after ROOT.
EDITS = {"rename": rename_of, "delete-field": deletion_of, "add-import": addition_of, "drop-import": drop_of}
# The keys of those words in the journal.
KEYS = {"rename": ("name", "to"), "delete-field": ("name",), "add-import": ("file", "path"), "drop-import": ("file", "path")}


def answer(workspace, command, *words):
    """The number of what refuses an edit, the place that it reports, as a file and an offset, and the edit where nothing refuses it."""
    number, use, edit = EDITS[command](workspace, *words)
    if number or command not in ("rename", "delete-field"):
        return number, use and (use.file, use.reference.first.start), edit
    word = guarded_word(workspace, edit)
    if word:
        return 19, word, None
    return (20, None, None) if is_fixed(workspace, edit) else (0, None, edit)


def printed(workspace, command, *words):
    """What the command prints, its status, and the edit if it is accepted."""
    number, at, edit = answer(workspace, command, *words)
    if number:
        place = f" {workspace.written_place(*at)}" if at else ""
        return f"refused: {number} {NAMES[number]}{place}\n", 1, None
    return "".join(f"changed {path}\n" for path, _, _, _ in edit.changes()), 0, edit


def put(written, splices):
    """The text with every splice put in its place."""
    pieces, place = [], 0
    for at, old, new in splices:
        assert written[at : at + len(old)] == old and place <= at
        pieces += [written[place:at], new]
        place = at + len(old)
    return "".join(pieces) + written[place:]


def texts_after(texts, changes):
    after = dict(texts)
    for path, _, _, splices in changes:
        after[path] = put(texts[path], splices)
    return after


def journal_line(changes, words, version):
    """An accepted edit as the program's journal has it in a version, as bytes read as Latin-1. Where its words are not known they are none."""
    files = [
        {
            "path": path,
            "before": before,
            "after": after,
            "splices": [{"at": at, "old": old, "new": new} for at, old, new in splices],
        }
        for path, before, after, splices in changes
    ]
    line = {"files": files, "state": "done", "version": version}
    if version == 2:
        line["edit"] = {"kind": words[0], **dict(zip(KEYS[words[0]], words[1:], strict=True))} if words else None
    return text(line) + "\n"


def log_line(index, changes, words):
    """What the log prints of an accepted edit, as bytes read as Latin-1."""
    paths = ",".join(path for path, _, _, _ in changes)
    return " ".join([str(index), "done", paths, *(words or ())]) + "\n"
