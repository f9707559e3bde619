"""What the lint rule IMPORT_USED finds, in a model of schemas, as docs/lint.md has it, and docs/as-written.md where files are read as
they are written.
"""


def unused_imports(workspace):
    """The place of a file and the path of each import that is not public and that no reference of the file uses."""
    for place, file in enumerate(workspace.files):
        uses = [use for use in workspace.uses if use.file == place]
        needed = {workspace.by_name[workspace.resolution(use)].file for use in uses}
        for path, is_public in file.imports:
            if not is_public and not needed & reached_from(workspace, workspace.place_of[path]):
                yield place, path


def reached_from(workspace, place):
    """The places of a file and of those that it passes on by public imports."""
    public = {one: [named for named in file.imports if named[1]] for one, file in enumerate(workspace.files)}
    return workspace.sees_with(public, place)
