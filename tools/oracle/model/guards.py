"""What of an edit custom options may see, in a model of schemas that are read as they are written: 19 OptionValue and 20 FixedName, as
docs/as-written.md has them.
"""

from faults import OPTIONS_MESSAGES
from schemas import OPTION


def guarded_word(workspace, edit):
    """The file and the offset of the first word of an option that may stand for what is renamed or deleted, or nothing."""
    if edit.target.kind not in ("field", "value"):
        return None
    words = {name[-1] for name in edit.names}
    for use in workspace.uses:
        if use.wants is OPTION:
            declared = workspace.by_name[workspace.resolution(use)].file
            found = [token.start for token in use.option.words if token.text in words]
            if found and workspace.reaches(declared, edit.target.file):
                return use.file, found[0]
    return None


def is_fixed(workspace, edit):
    """Whether a name of a rename or a deletion has to do with an options message, where files are read as they are written."""
    return workspace.as_written and any(are_on_a_path(name, one) for name in edit.names for one in OPTIONS_MESSAGES)


def are_on_a_path(name, other):
    """Whether one is the other, or a prefix of it."""
    shorter = min(len(name), len(other))
    return name[:shorter] == other[:shorter]
