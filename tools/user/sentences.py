"""What the numbers of faults, the lint rules and the usual causes mean, in a sentence each, and the options of each element: all as the tables of docs/ have them."""
import re
import sys

from shared import TOP

FAULTS, RULES, OPTIONS = "docs/faults.md", "docs/lint.md", "docs/descriptors.md"
# The programs' own lists, with which `report --check` compares the tables.
HELP = "crates/protoref_arguments/src/help.rt"
LINK = re.compile(r"\[([^\]]*)\]\([^)]*\)")
FAULT_ROW = re.compile(r"\| (\d+) \| (\w+) \| \d \| (.*?) \| [^|]* \|")
RULE_ROW = re.compile(r"\| ([A-Z][A-Z_]+)(?: \(P\))? \| (.*?) \| .*\|")
# The part of docs/faults.md whose headings are the causes.
CAUSES = re.compile(r"^## Usual causes over real schemas\n(.*?)^## ", re.MULTILINE | re.DOTALL)


def page(path):
    try:
        return (TOP / path).read_text(encoding="utf-8")
    except OSError as error:
        print(f"{path}: {error.strerror}; the sentences are read from there", file=sys.stderr)
        sys.exit(2)


def plain(text):
    """A cell of a table without its marks."""
    return LINK.sub(r"\1", text).replace("`", "")


def faults():
    """For each number the name of the fault and its sentence."""
    rows = [FAULT_ROW.fullmatch(line) for line in page(FAULTS).partition("\n## The table\n")[2].partition("\n## ")[0].splitlines()]
    return {int(it[1]): (it[2], plain(it[3])) for it in rows if it}


def rules():
    """For each rule its sentence."""
    rows = [RULE_ROW.fullmatch(line) for line in page(RULES).splitlines()]
    # Behind a semicolon some rows say where their findings stand.
    return {it[1]: plain(it[2]).partition("; at the ")[0] for it in rows if it}


def anchor(heading):
    """What a link to a heading names."""
    return re.sub(r"[^a-z0-9 _-]", "", heading.lower()).replace(" ", "-")


def causes():
    """For each cause of a fault over schemas that protoc accepts, by its anchor, its heading."""
    found = CAUSES.search(page(FAULTS))
    headings = re.findall(r"^### (.*)$", found[1], re.MULTILINE) if found else []
    return {anchor(heading): plain(heading) for heading in headings}


def options():
    """For each kind of element the names of its options, as they are written in a schema."""
    found = {}
    for line in page(OPTIONS).partition("| Element |")[2].partition("\n\n")[0].splitlines()[2:]:
        _, kinds, keys, _ = line.split("|")
        names = {re.sub("[A-Z]", lambda it: "_" + it[0].lower(), key) for key in re.findall(r"`([a-z]\w*)`", keys)}
        for kind in kinds.split(","):
            found[kind.strip()] = names - {"map_entry"}
    found["field"] |= {"json_name", "default"}
    found["extension"] |= {"default"}
    return found


def unlike_program():
    """What the tables have otherwise than the help of the program: lines to print."""
    text = page(HELP)
    numbers = dict(re.findall(r"^ +(\d+) (\w+) ", text.partition("Faults:\n")[2].partition("\n\n")[0], re.MULTILINE))
    names = re.findall(r"^  ([A-Z_]+) ", text.partition("Rules:\n")[2].partition("\n\n")[0], re.MULTILINE)
    listed, sentences = faults(), rules()
    wrong = [f"{FAULTS} has no row of {number} {name}" for number, name in numbers.items() if listed.get(int(number), ("",))[0] != name]
    wrong += [f"{FAULTS} has {number} {name}, which {HELP} has not" for number, (name, _) in listed.items() if str(number) not in numbers]
    wrong += [f"{RULES} has no row of {name}" for name in names if name not in sentences]
    wrong += [f"{RULES} has {name}, which {HELP} has not" for name in sentences if name not in names]
    return wrong
