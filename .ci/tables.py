"""What several tools read of the tree: crates.txt, and the must-fail edits.

An edit off the gate is an entry of the table edits/CRATE.edits, and an empty line ends it:

    [NAME]
    file: PATH
    old: TEXT
    new: TEXT
    by: CLAUSE..

PATH is below crates/CRATE/. Further `old:` and `new:` apply to what the earlier ones made, and a further `file:` goes to another file.
`by:` names the clauses that have to refuse the edit, and is left out until they are known. A line that begins with `#` is for
readers, and stands between entries.
An edit of the gate is a file crates/CRATE/must-fail/NAME.edit, as the kit reads it: the same lines, but no name and no `by:`.
"""

import os
import re
import sys

TOP = os.path.dirname(os.path.dirname(os.path.abspath(__file__)))


def read(path):
    with open(f"{TOP}/{path}", encoding="utf-8") as it:
        return it.read()


def uses():
    """What each crate of crates.txt names: libraries of this repository and of the kit."""
    rows = (it.partition("#")[0].partition(":") for it in read("crates.txt").splitlines())
    return {name.split()[0]: words.split() for name, colon, words in rows if colon}


class Edit:
    """A wrong body: its pairs (file, old, new), and the clauses that have to refuse it. Its label is its name in documents."""

    def __init__(self, crate, name, rows, in_gate):
        self.crate, self.name, self.pairs, self.by = crate, name, [], []
        self.label = f"{crate}/{name}" if in_gate else f"edits/{crate}/{name}"
        file = old = None
        for row in rows:
            key, _, text = row.partition(":")
            text = text.removeprefix(" ")
            if key == "file":
                file = text.strip()
            elif key == "old" and old is None:
                old = text
            elif key == "new" and file and old:
                self.pairs.append((file, old, text))
                old = None
            elif key == "by" and not in_gate:
                self.by = text.split()
            else:
                sys.exit(f"{self.label}: this line does not belong here: {row}")
        if old or not self.pairs:
            sys.exit(f"{self.label}: a `new:` text is missing")

    def steps(self):
        """Each pair with the text of the file that it is put in: file, text, old, new. ValueError where it does not fit."""
        texts = {}
        for file, old, new in self.pairs:
            if not os.path.isfile(f"{TOP}/crates/{self.crate}/{file}"):
                raise ValueError(f"no file {file}")
            text = texts.get(file) or read(f"crates/{self.crate}/{file}")
            if text.count(old) != 1:
                raise ValueError(f"an `old:` text stands in {file} {text.count(old)} times, and not once: {old}")
            yield file, text, old, new
            texts[file] = text.replace(old, new)

    def changed(self):
        """The texts of its files with the pairs put in, by path."""
        return {file: text.replace(old, new) for file, text, old, new in self.steps()}


def entries(crate):
    """The entries of a crate's table, each a text of lines without the empty ones between them."""
    path = f"edits/{crate}.edits"
    parts = re.split(r"\n{2,}", read(path).strip("\n")) if os.path.isfile(f"{TOP}/{path}") else []
    for it in parts:
        if not re.match(r"#|\[\w+\]\n", it) or re.search(r"(?m)^\[", it[1:]):
            sys.exit(f"{path}: this is no entry: {it}")
    return [it for it in parts if it[0] == "["]


def off_gate(crate):
    """The edits of a crate's table."""
    parts = (it.split("\n") for it in entries(crate))
    return [Edit(crate, head.strip("[]"), rows, False) for head, *rows in parts]


def in_gate(crate):
    """The edits of a crate that the gate tries."""
    folder = f"crates/{crate}/must-fail"
    names = sorted(os.listdir(f"{TOP}/{folder}")) if os.path.isdir(f"{TOP}/{folder}") else []
    return [Edit(crate, it[:-5], read(f"{folder}/{it}").rstrip("\n").split("\n"), True) for it in names if it.endswith(".edit")]


def edits_of(crate):
    return off_gate(crate) + in_gate(crate)


def with_tables():
    """The crates that have a table."""
    return sorted(it.removesuffix(".edits") for it in os.listdir(f"{TOP}/edits") if it.endswith(".edits"))


def all_edits():
    """The edits of every crate that has a table or a line of crates.txt."""
    return [edit for it in dict.fromkeys([*uses(), *with_tables()]) for edit in edits_of(it)]


def note(edit, clauses):
    """Writes a line `by:` with these clauses at the end of an edit's entry."""
    path = f"edits/{edit.crate}.edits"
    text, entry = read(path), next(it for it in entries(edit.crate) if it.startswith(f"[{edit.name}]\n"))
    with open(f"{TOP}/{path}", "w", encoding="utf-8") as it:
        it.write(text.replace(entry, f"{entry}\nby: {' '.join(clauses)}", 1))
