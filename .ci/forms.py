"""contrib/rbcline.1 and contrib/rbcline.bash: the man page and the completion of rbcline.

Both are made from the tables of forms.rt, options.rt and serve_options.rt in crates/cli_commands/src, from which the
program has its help: each command, its arguments and options, and their meaning. Each table has to have as many entries as its type names, and each command
and option of the file has to be in both. If forms.rt gets another form, this stops.
"""

import os
import re
import sys
import textwrap

import tables
from tables import read

FORMS = "crates/cli_commands/src/forms.rt"
OPTIONS = ("crates/cli_commands/src/options.rt", "crates/cli_commands/src/serve_options.rt")
MAN, BASH = "contrib/rbcline.1", "contrib/rbcline.bash"
TEXT = r'"((?:[^"\\]|\\.)*)"'
PAIR = re.compile(rf"\(\s*{TEXT},\s*{TEXT},?\s*\)|\b([A-Z]+)\b")
TABLE = re.compile(r"(?ms)^(?:pub )?static (\w+): \[([^;]+); (\d+)\] = \[(.*?)\];$")
ENTRY = re.compile(rf"\(\s*{TEXT},\s*{TEXT}(?:,\s*{TEXT})?,?\s*\)")
FORM = re.compile(rf"(?s)Form \{{\s*name: {TEXT},\s*about: {TEXT},\s*words: &\[(.*?)\],\s*\}}")

# The parts of the man page that no table has.
STATUSES = (
    ("0", "The command is done."),
    ("1", "audit: the print, or a journal, differs. watch: a train is in danger. decode: some of the bytes are refused."),
    ("2", "The arguments are refused, or the help is printed."),
    ("3", "A file cannot be read, or a script or a journal has a fault."),
    ("4", "The line file has a fault."),
    ("5", "A step is refused."),
    ("6", "A socket, a failed write, or a journal of serve."),
    ("7", "The bytes are not a message, or logs cannot be merged."),
)
EXAMPLES = (
    "rbcline run line.toml script > printed",
    "rbcline words line.toml printed",
    "rbcline decode 9B028000000040000040",
    "rbcline serve --page 8080 --journal day line.toml 21000 > printed",
)


class Option:
    """An option of a command: its name, the name of its value (nothing for a flag), and its meaning.

    An option that excludes the other arguments has a synopsis of its own.
    """

    def __init__(self, name, value, about, is_exclusive=False):
        self.name, self.value, self.about, self.is_exclusive = name, value, about, is_exclusive
        self.macro = "Fl " + f"-{name}".replace("-", "\\-") + (f" Ar {value}" if value else "")


class Form:
    """A command: its purpose, its options, and its arguments as pairs of name and meaning."""

    def __init__(self, name, about, words):
        self.name, self.about, self.words, self.options, self.optional = name, about, words, [], set()


def sources():
    """The files with the tables, as one text."""
    return "".join(map(read, (FORMS, *OPTIONS)))


def unescaped(text):
    return re.sub(r"\\\n\s*", "", text).replace('\\"', '"').replace("\\\\", "\\")


def function(text, name):
    """The body of a function."""
    return re.search(rf"(?ms)^(?:pub )?fn {name}\b.*?^}}$", text)[0]


def static_tables(text):
    """The tables of options and of commands by name. Each has as many entries as its type names."""
    found = {}
    for name, kind, count, body in TABLE.findall(text):
        if not kind.startswith(("(", "Form")):
            continue
        entries = ENTRY.findall(body) if kind.startswith("(") else FORM.findall(body)
        if len(entries) != int(count):
            sys.exit(f"{FORMS}: {name} has {count} entries, and {len(entries)} are read")
        found[name] = entries
    return found


def arms(text, name):
    """The table of each command, by the arms of a function."""
    return dict(re.findall(r'"(\w+)" => &(\w+),', function(text, name)))


def single(text, command, form):
    """Adds the option or argument that a function of its own makes for a command."""
    body = function(text, command)
    about = unescaped(re.search(rf"\.help\(\s*{TEXT}", body)[1])
    if option := re.search(rf"\.long\({TEXT}\)", body):
        value = re.search(rf"\.value_name\({TEXT}\)", body)
        form.options.append(Option(option[1], value[1] if value else "", about, ".exclusive(true)" in body))
    else:
        more = " .." if ".num_args(1..)" in body else ""
        name = re.search(rf"Arg::new\(alloc, {TEXT}\)", body)[1] + more
        form.words.append((name, about))
        form.optional |= set() if ".required(true)" in body else {name}


def forms():
    """The commands of forms.rt, and the program's purpose and version."""
    text = sources()
    made = static_tables(text)
    shared = {name: (it, about) for name, it, about in re.findall(
        rf"const (\w+): \(&str, &str\) = \(\s*{TEXT},\s*{TEXT},?\s*\);", text)}
    found = {}
    for name, about, words in made["FORMS"]:
        pairs = [shared[key] if key else (it, unescaped(meaning)) for it, meaning, key in PAIR.findall(words)]
        found[name] = Form(name, unescaped(about), pairs)
    for command, maker in re.findall(rf"if form\.name == {TEXT} \{{\s*args\.push\((\w+)\(alloc\)\)", text):
        single(text, maker, found[command])
    for command, maker in re.findall(rf"{TEXT} => (\w+)\(alloc\),", function(text, "add_words")):
        single(text, maker, found[command])
    for command, table in arms(text, "flags_of").items():
        found[command].options += [Option(it, "", unescaped(about)) for it, about, _ in made[table]]
    for command, table in arms(text, "parts_of").items():
        found[command].options += [Option(it, value, unescaped(about)) for it, value, about in made[table]]
    program = function(text, "program")
    version = re.search(rf"const VERSION: &str = {TEXT};", text)[1]
    return list(found.values()), re.search(rf"\.about\({TEXT}\)", program)[1], version


def roff(text):
    """A text in the man page, in lines of 100 columns. No line begins with a sign of a macro."""
    text = text.replace("\\", "\\e").replace("-", "\\-")
    text = re.sub(r"`([^`]*)`", r"\\fB\1\\fR", text)
    return "\n".join(f"\\&{it}" if it[0] in ".'" else it for it in textwrap.wrap(text, 100, break_on_hyphens=False))


def sentence(text):
    return text if text.endswith(".") else f"{text}."


def synopsis(form):
    options = [f".Op {it.macro}" for it in form.options if not it.is_exclusive]
    words = [f".Op Ar {name}" if name in form.optional else f".Ar {name}" for name, _ in form.words]
    lines = [".Nm", f".Cm {form.name}", *options, *words]
    for it in form.options:
        lines += [".Nm", f".Cm {form.name}", f".{it.macro}"] if it.is_exclusive else []
    return "\n".join(lines)


def meanings(form):
    """The options and arguments of a command, each with its meaning."""
    items = [(it.macro, it.about) for it in form.options]
    items += [(f"Ar {name}", about) for name, about in form.words]
    return "\n".join(f".It {head}\n{roff(sentence(about))}" for head, about in items)


def command_text(form):
    return f".It Cm {form.name}\n{roff(sentence(form.about))}\n.Bl -tag -width 4n -compact\n{meanings(form)}\n.El"


def man_page():
    commands, about, version = forms()
    day = re.search(r'(?m)^date-released: "(\d+)-(\d+)-(\d+)"', read("CITATION.cff"))
    months = "January February March April May June July August September October November December".split()
    name = about[0].lower() + about[1:]
    parts = [
        f'.\\" Made by `.ci/names --write` from {FORMS}',
        f".Dd {months[int(day[2]) - 1]} {int(day[3])}, {day[1]}\n.Dt RBCLINE 1\n.Os rbcline {version}",
        f".Sh NAME\n.Nm rbcline\n.Nd {roff(name)}",
        ".Sh SYNOPSIS",
        *map(synopsis, commands),
        ".Sh DESCRIPTION",
        roff("The program runs two to eight radio block centres of one line: over a script of events, or for trains "
             "that connect to this host. A file that is named `-` is standard input. Each print can be run again, put "
             "into words, and drawn."),
        ".Pp\nThe commands are:\n.Bl -tag -width 4n",
        *map(command_text, commands),
        ".It Fl \\-version\nPrint the version.",
        ".It Fl \\-help\nPrint the help; also after a command.",
        ".El",
        ".Sh EXIT STATUS\n.Bl -tag -width 3n -compact",
        *(f".It {status}\n{roff(cause)}" for status, cause in STATUSES),
        ".El",
        ".Sh EXAMPLES",
        *(f".Dl {it.replace('-', chr(92) + '-')}" for it in EXAMPLES),
        ".Sh SECURITY CONSIDERATIONS",
        roff("`serve` listens on 127.0.0.1 only, and nothing proves who connects: every user of this host can be any "
             "train. The program is not certified for use on a railway."),
    ]
    return "\n".join(parts) + "\n"


COMPLETION = """# Completion of rbcline in bash: source this file. Made by `.ci/names --write` from {forms}
_rbcline() {{
    local word="${{COMP_WORDS[COMP_CWORD]}}" options="--help"
    local commands="{commands} help --help --version"
    if [ "$COMP_CWORD" = 1 ]; then
        mapfile -t COMPREPLY < <(compgen -W "$commands" -- "$word")
        return
    fi
    case "${{COMP_WORDS[COMP_CWORD - 1]}}" in
    {folders})
        compopt -o filenames
        mapfile -t COMPREPLY < <(compgen -d -- "$word")
        return
        ;;
    {others}) return ;;
    esac
    if [[ "$word" == --* ]]; then
        case "${{COMP_WORDS[1]}}" in
{options}
        esac
        mapfile -t COMPREPLY < <(compgen -W "$options" -- "$word")
        return
    fi
    compopt -o filenames
    mapfile -t COMPREPLY < <(compgen -f -- "$word")
}}
complete -F _rbcline rbcline ./rbcline
"""


def completion():
    commands, _, _ = forms()
    flags = {it.name: " ".join(f"--{of.name}" for of in it.options) for it in commands if it.options}
    options = [f'        {name}) options+=" {names}" ;;' for name, names in flags.items()]
    valued = [of for it in commands for of in it.options if of.value]
    return COMPLETION.format(
        forms=FORMS,
        commands=" ".join(it.name for it in commands),
        folders=" | ".join(f"--{it.name}" for it in valued if it.value == "FOLDER"),
        others=" | ".join(f"--{it.name}" for it in valued if it.value not in ("FOLDER", "PATH")),
        options="\n".join(options),
    )


def pages():
    """The two files, each with its text."""
    return {MAN: man_page(), BASH: completion()}


def write():
    os.makedirs(f"{tables.TOP}/contrib", exist_ok=True)
    for path, text in pages().items():
        with open(f"{tables.TOP}/{path}", "w", encoding="utf-8") as it:
            it.write(text)


def faults():
    """The files that are another text than forms.rt makes, and the options of forms.rt that they lack."""
    for path, text in pages().items():
        if not os.path.isfile(f"{tables.TOP}/{path}") or read(path) != text:
            yield f"{path}: {FORMS} makes another text (.ci/names --write makes it again)"
    commands, _, version = forms()
    newest = re.search(r"(?m)^## ([\d.]+), ", read("CHANGELOG.md"))
    cited = re.search(r'(?m)^version: "(.*)"$', read("CITATION.cff"))
    if {newest[1], cited[1]} != {version}:
        yield f"the version: {FORMS} has {version}, CHANGELOG.md {newest[1]}, CITATION.cff {cited[1]}"
    options = {of.name for it in commands for of in it.options} | set(re.findall(rf"\.long\({TEXT}\)", sources()))
    man, bash = man_page().replace("\\-", "-"), completion()
    for it in sorted(options):
        if f"Fl -{it}" not in man or not re.search(rf"--{it}\b", bash):
            yield f"{MAN}, {BASH}: no option {it}"
    for it in re.findall(rf"\bname: {TEXT}", read(FORMS)):
        if f".It Cm {it}\n" not in man or not re.search(rf'commands="[^"]*\b{it}\b', bash):
            yield f"{MAN}, {BASH}: no command {it}"
