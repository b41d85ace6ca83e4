"""THIRD-PARTY.md: the licences of the kit's crates that are compiled into rbcline.

These are the libraries of the kit that crates.txt names for rbc_cli and for each crate below it, and those that these use in
turn: a library of the kit lists them in lines `dep NAME` of rlibs/NAME.rlib/format. Versions, licences and copyright lines are
those of the kit's folder rattle/NAME. If no kit is there, or another one than the page names, only the names are compared.
"""

import os
import re
import shutil
import sys

import tables
from tables import read

PAGE = "THIRD-PARTY.md"
ROOT = "rbc_cli"
# The kit is where `rt` is, or at its usual place.
PLACES = [os.path.dirname(os.path.dirname(os.path.realpath(shutil.which("rt") or "rt"))), "/opt/rattle"]
KIT = next((it for it in PLACES if os.path.isfile(f"{it}/KIT-ID")), None)
LINE = re.compile(r"(?m)^\| `(\w+)` \|.*\| (.*) \|$")
AFTER = re.compile(r"[Cc]rates? `?([\w-]+)`? (\d+\.\d+\.\d+)")
WORDS = re.compile(r"\(((?:MIT|Apache|Unlicense|BSL)[^,;()]*)")
IN_COMMENTS = re.compile(r"MIT licence|Unicode License|Apache License|\bUnlicense\b")
COPYRIGHT = re.compile(r"(?m)^ *(Copyright .*?) *$")
TEMPLATE = re.compile(r"[\[{](yyyy|name)")
MIT = "Permission is hereby granted, free of charge"
UNICODE = "unicode/LICENSE-UNICODE"
NONE = "**no licence file in the kit**"

INTRO = """# Licences of the kit's crates in `rbcline`

Made by `.ci/names --write` from `crates.txt` and the kit `{kit}`.

The code of this repository is under the [Apache License 2.0](LICENSE). Libraries of the kit are compiled into the
program `rbcline`: those that `crates.txt` names for `{root}` and for each crate below it, and those that these use in
turn. This page has their licences as the kit has them, and adds nothing to them. Pass it on with the program, together
with LICENSE: the licences require it.

- A version is that of the Rust crate after which the kit's crate is made, if the kit names one.
- A licence in words is quoted from the crate's README in the kit. Its files are those in the crate's folder there.
- A dash means that the kit has none.
- {own}
- The kit's linker puts more into a program: object files of `c/` and `toolchain/lib/` (`liblibc_c.a`, `libos_c.a`,
  `libgcc.a`, `libc_nonshared.a`, the start files). The kit has no licence file for these. The linker names the C library
  as a shared file (`libc.so.6`), which the program loads from the system.

| Crate | Version | Licence in words | Licence by its files | Copyright | Named by |
|---|---|---|---|---|---|
"""


def in_kit(path):
    with open(f"{KIT}/{path}", encoding="utf-8", errors="replace") as it:
        return it.read()


def kit_id():
    """The first line of the kit's KIT-ID, or nothing if there is no kit."""
    return in_kit("KIT-ID").split("\n")[0] if KIT else None


def named():
    """The libraries of the kit that crates.txt names for the program and for each crate below it."""
    uses, found, left = tables.uses(), set(), [ROOT]
    while left:
        it = left.pop()
        if it not in found:
            found.add(it)
            left += uses.get(it, [])
    return found - set(uses)


def users():
    """Each library of the kit in the program, with those that name it: `crates.txt`, or libraries of the kit."""
    found, left = {it: ["crates.txt"] for it in named()}, sorted(named())
    while left:
        crate = left.pop()
        for it in re.findall(r"(?m)^dep (\S+)$", in_kit(f"rlibs/{crate}.rlib/format")):
            if it not in found:
                left.append(it)
            found.setdefault(it, []).append(crate)
    return found


def licence_files(crate):
    """The licence files of a crate, each with its text."""
    names = sorted(os.listdir(f"{KIT}/rattle/{crate}"))
    return {it: in_kit(f"rattle/{crate}/{it}") for it in names if it.upper().startswith(("LICEN", "COPYING", "NOTICE"))}


def words_of(text):
    """The text of a licence on one line: without what precedes MIT's permission, and without Apache's appendix.

    Apache's address begins with http here, also if a copy has https."""
    words = " ".join(text[max(text.find(MIT), 0) :].partition("END OF TERMS AND CONDITIONS")[0].split())
    return words.replace("https://www.apache.org/", "http://www.apache.org/")


def kind(text):
    """The name of a licence by its text."""
    if MIT in " ".join(text.split()):
        return "MIT"
    if words_of(text) == words_of(read("LICENSE")):
        return "Apache-2.0"
    sys.exit(f"{PAGE}: a licence in the kit is neither MIT nor that of LICENSE: {text[:60]!r}")


def comments_of(crate):
    """The sentences on licences in the first comment of each source file of a crate, with the file."""
    for at, _, files in sorted(os.walk(f"{KIT}/rattle/{crate}/src")):
        for path in sorted(os.path.relpath(f"{at}/{it}", KIT) for it in files):
            head = re.match(r"(?://.*\n)*", in_kit(path))[0]
            prose = " ".join(re.sub(r"(?m)^//[/!]?", "", head).split())
            for sentence in re.split(r"(?<=\.) (?=[A-Z])", prose):
                if IN_COMMENTS.search(sentence):
                    yield path.removeprefix("rattle/"), sentence


def line_of(crate, by):
    """The table's line of a crate."""
    about = f"rattle/{crate}/README.md"
    text = in_kit(about) if os.path.isfile(f"{KIT}/{about}") else ""
    files = licence_files(crate)
    after = dict.fromkeys(f"{name} {version}" for name, version in AFTER.findall(text))
    words = dict.fromkeys(it.strip() for it in WORDS.findall(text))
    kinds = [f"{kind(it)} (`{name}`)" for name, it in files.items()]
    lines = dict.fromkeys(it for text in files.values() for it in COPYRIGHT.findall(text) if not TEMPLATE.search(it))
    more = f" and {len(by) - 3} more" if len(by) > 3 else ""
    cells = (", ".join(after), "; ".join(words), ", ".join(kinds) or NONE, "; ".join(lines))
    by = ", ".join(f"`{it}`" for it in sorted(by)[:3]) + more
    return f"| `{crate}` | {' | '.join(it.replace('|', ' ') or '–' for it in cells)} | {by} |\n"


def page():
    """The page, by the kit."""
    found = users()
    top = [it for at in ("", "rattle") for it in os.listdir(f"{KIT}/{at}") if it.upper().startswith(("LICEN", "COPYING"))]
    own = "Licences of the kit itself: " + ", ".join(top) if top else "The kit has no licence file for itself as a whole."
    text = INTRO.format(kit=kit_id(), root=ROOT, own=own)
    text += "".join(line_of(it, found[it]) for it in sorted(found))
    remarks = [(path, said) for crate in sorted(found) for path, said in comments_of(crate)]
    text += "\n## Licences that comments of sources name\n\nThese are words of the kit:\n\n"
    text += "".join(f"- `{path}`: {said}\n" for path, said in remarks)
    mits = {words_of(it) for crate in found for it in licence_files(crate).values() if kind(it) == "MIT"}
    text += "\n## MIT\n\nThe copyright lines of each crate, as in the table, precede this text in its file.\n"
    text += "".join(f"\n```\n{wrapped(it)}\n```\n" for it in sorted(mits))
    text += "\n## Apache License 2.0\n\nIts terms in the kit's files are word for word those of [LICENSE](LICENSE).\n"
    text += "The address of the licence begins with `https` in some of them.\n"
    if any("Unicode" in said for _, said in remarks):
        text += f"\n## Unicode License v3\n\nThe text in the kit's `{UNICODE}`:\n\n```\n{in_kit(f'rattle/{UNICODE}').strip()}\n```\n"
    return text


def wrapped(words):
    """A licence's text on lines of 100 columns. Two of its sentences begin a paragraph."""
    lines = [""]
    for word in re.sub(r" (The above copyright|THE SOFTWARE IS)", r" \n\n\1", words).split(" "):
        if word.startswith("\n") or len(lines[-1]) + len(word) >= 100:
            lines += [""] * (2 if word.startswith("\n") else 1)
        lines[-1] += (" " if lines[-1] else "") + word.strip("\n")
    return "\n".join(lines)


def write():
    """Makes the page again, if a kit is there."""
    if kit_id():
        text = page()
        with open(f"{tables.TOP}/{PAGE}", "w", encoding="utf-8") as it:
            it.write(text)


def faults():
    """The crates that the page lacks or names in vain. By the kit that the page names, whether its text is the page's."""
    text = read(PAGE) if os.path.isfile(f"{tables.TOP}/{PAGE}") else ""
    rows = dict(LINE.findall(text))
    for it in sorted(named() - rows.keys()):
        yield f"{PAGE}: no line for {it}, which {ROOT} stands on (.ci/names --write, with the kit)"
    for it in sorted(name for name, by in rows.items() if by == "`crates.txt`" and name not in named()):
        yield f"{PAGE}: {it} is not in crates.txt for {ROOT} (.ci/names --write, with the kit)"
    if kit_id() and f"`{kit_id()}`" in text and text != page():
        yield f"{PAGE}: the kit or crates.txt says otherwise (.ci/names --write makes it again)"
