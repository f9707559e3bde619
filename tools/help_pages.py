"""Makes man pages and completions from texts of help: those that the program prints, and the texts at the top of the tools."""
import re

# A row of a list: a number with its name, or a word (of an option its two forms), and what it means.
ROW = re.compile(r"^ +(\d+ \w+|-\w, --[\w-]+|[^\s].*?(?=  )|\S+) +(\S.*)$")


class Help:
    """A command's help: what it does, its usage, and below that paragraphs and lists, each with a title."""

    def __init__(self, name, text):
        self.name, self.sections = name, []
        about, _, rest = text.partition("Usage: ")
        self.about = " ".join(about.split())
        self.usage, _, rest = rest.partition("\n")
        for block in re.split(r"\n\n+", rest.strip("\n")):
            title, colon, behind = block.partition(":")
            if colon and "\n" not in title and re.fullmatch(r"[A-Z]\w*", title):
                self.sections.append((title, behind.strip("\n")))
            else:
                self.sections.append(("", block))

    def rows(self, title):
        """The rows of a list, as pairs; a line that begins no row goes on with the one before."""
        found = []
        for name, text in self.sections:
            for line in text.splitlines() if name == title else []:
                it = ROW.match(line)
                if it:
                    found.append([it[1], it[2]])
                elif found:
                    found[-1][1] += " " + line.strip()
        return [tuple(row) for row in found]

    def arguments(self):
        """The names of the arguments after the command, in their order; one of which there may be many ends in `..`."""
        return [it[1] + (".." if it[2] else "") for it in re.finditer(r"[<\[]([A-Z]+)[>\]](\.\.\.)?", self.usage)]


# ---- man pages


def roff(text):
    """A text for a man page, with nothing in it that groff takes for a request."""
    text = text.replace("\\", "\\e").replace("-", "\\-").replace("`", "\\(ga").replace("'", "\\(aq").replace("^", "\\(ha").replace("~", "\\(ti")
    return "".join(("\\&" if line.startswith(".") else "") + line + "\n" for line in text.splitlines())


def head_of_page(name, about, version, date):
    return f".TH {name.upper()} 1 \"{date}\" \"protoref {version}\" \"User Commands\"\n.nh\n.ad l\n.SH NAME\n{name} \\- {roff(about[:1].lower() + about[1:])}"


def section(title, text):
    """A part of a page: a list where it has rows, else a paragraph, or lines as they stand."""
    if title == "Example":
        return f".SH EXAMPLE\n.nf\n{roff(text.strip())}.fi\n"
    if title == "Status":
        return f".SH EXIT STATUS\n{roff(' '.join(text.split()))}"
    if not title:
        return f".SH NOTES\n{roff(' '.join(text.split()))}"
    return f".SH {title.upper()}\n"


def man_page(help, pages, version, date):
    """The page of a command; `pages` are the names of the others."""
    made = head_of_page(help.name, help.about, version, date) + f".SH SYNOPSIS\n{roff(help.usage)}"
    for title, text in help.sections:
        rows = help.rows(title) if title not in ("", "Status", "Example") else []
        made += section(title, text)
        made += "".join(f".TP\n.B {roff(term)}{roff(meaning)}" for term, meaning in rows)
    others = [name for name in pages if name != help.name]
    return made + ".SH SEE ALSO\n" + ",\n".join(f".BR {roff(name).strip()} (1)" for name in others) + "\n"


def tool_page(name, tool, text, version, date):
    """The page of a tool, from the text at its top: paragraphs, and lines that stand as they are where they are indented."""
    first, *rest = text.replace(tool, name).strip().split("\n\n")
    made = head_of_page(name, first.rstrip("."), version, date)
    synopsis = rest.pop(0) if rest and rest[0].startswith(" ") else ""
    made += f".SH SYNOPSIS\n.nf\n{roff(re.sub(r'^ +', '', synopsis, flags=re.MULTILINE))}.fi\n.SH DESCRIPTION\n"
    for paragraph in rest:
        if paragraph.startswith(" "):
            made += f".PP\n.RS 4\n.nf\n{roff(re.sub(r'^ {1,4}', '', paragraph, flags=re.MULTILINE))}.fi\n.RE\n"
        else:
            made += f".PP\n{roff(' '.join(paragraph.split()))}"
    return made + ".SH SEE ALSO\n.BR protoref (1)\n"


# ---- completions


def quoted(text):
    return "'" + text.replace("'", "'\\''") + "'"


BASH = r"""# Completes the words of protoref; made from its help.
_protoref() {
    local word=${COMP_WORDS[COMP_CWORD]} command=${COMP_WORDS[1]} root=${COMP_WORDS[2]} asked='' names=()
    COMPREPLY=()
    if [ "$COMP_CWORD" -eq 1 ]; then
        mapfile -t COMPREPLY < <(compgen -W '@COMMANDS@ --help --version' -- "$word")
        return
    fi
    case $command in
@CASES@
    esac
    asked=${names[COMP_CWORD - 2]-}
    if [ -z "$asked" ] && [ "${#names[@]}" -gt 0 ] && [[ ${names[-1]} == *.. ]]; then asked=${names[-1]}; fi
    case $asked in
    ROOT)
        case $word in
        -*) mapfile -t COMPREPLY < <(compgen -W '--help' -- "$word") ;;
        *)
            compopt -o filenames 2> /dev/null
            mapfile -t COMPREPLY < <(compgen -d -- "$word")
            ;;
        esac
        ;;
    RULE..) mapfile -t COMPREPLY < <(compgen -W '@RULES@' -- "$word") ;;
    FILE | PATH) mapfile -t COMPREPLY < <(compgen -W "$(cd -- "$root" 2> /dev/null && find . -name '*.proto' -printf '%P\n')" -- "$word") ;;
    esac
}
complete -F _protoref protoref
"""
ZSH = r"""#compdef protoref
# Completes the words of protoref; made from its help.
_protoref() {
    local -a commands rules names files
    local asked
    commands=(
@COMMANDS@
    )
    rules=(
@RULES@
    )
    if (( CURRENT == 2 )); then
        _describe command commands
        return
    fi
    case $words[2] in
@CASES@
    esac
    asked=$names[CURRENT-2]
    [[ -n $asked || $names[-1] != *.. ]] || asked=$names[-1]
    case $asked in
    ROOT) _files -/ ;;
    RULE..) _describe rule rules ;;
    FILE | PATH)
        files=($words[3]/**/*.proto(N))
        compadd -- ${files#$words[3]/}
        ;;
    esac
}
_protoref "$@"
"""
FISH_FILES = '(set -l words (commandline -opc); find $words[3] -name "*.proto" -printf "%P\\n" 2> /dev/null)'


def cases(helps):
    return "\n".join(f"    {help.name.partition('-')[2]}) names=({' '.join(help.arguments())}) ;;" for help in helps)


def bash_completion(program, helps, rules):
    """The completion of the commands, and of each command's arguments, for bash."""
    texts = {"COMMANDS": " ".join(name for name, _ in program.rows("Commands")), "RULES": " ".join(name for name, _ in rules), "CASES": cases(helps)}
    return re.sub(r"@(\w+)@", lambda it: texts[it[1]], BASH)


def zsh_completion(program, helps, rules):
    """The same for zsh, with what each word means."""
    rows = lambda pairs: "\n".join("        " + quoted(f"{name}:" + about.replace(":", "\\:")) for name, about in pairs)
    texts = {"COMMANDS": rows(program.rows("Commands")), "RULES": rows(rules), "CASES": cases(helps)}
    return re.sub(r"@(\w+)@", lambda it: texts[it[1]], ZSH)


def fish_completion(program, helps, rules):
    """The same for fish."""
    at = lambda number: f"test (count (commandline -opc)) -eq {number}"
    of = lambda name: f"contains -- {name} (commandline -opc)[2]"
    lines = ["# Completes the words of protoref; made from its help.", "complete -c protoref -f"]
    lines += [f"complete -c protoref -n '{at(1)}' -a {name} -d {quoted(about)}" for name, about in program.rows("Commands")]
    lines += [f"complete -c protoref -n '{at(2)}' -a '(__fish_complete_directories)'"]
    lines += [f"complete -c protoref -n '{at(1)}; or {at(2)}' -s h -l help -d 'Print help'"]
    lines += [f"complete -c protoref -n '{at(1)}' -l version -d 'Print the version'"]
    for help in helps:
        name = help.name.partition("-")[2]
        for place, argument in enumerate(help.arguments(), 2):
            if argument in ("FILE", "PATH"):
                lines.append(f"complete -c protoref -n '{of(name)}; and {at(place)}' -a '{FISH_FILES}'")
    for name, about in rules:
        lines.append(f"complete -c protoref -n '{of('lint')}; and test (count (commandline -opc)) -ge 3' -a {name} -d {quoted(about)}")
    return "\n".join(lines) + "\n"
