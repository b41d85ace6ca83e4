"""The rules of docs/RULES.md at their definitions.

In the files of definitions that RULES names, a comment of this form is right above each definition that a rule names,
and above no other:

    -- Rules: PL-1, PL-2
"""

import re

from clauses import TOOL
from tables import TOP, read

MARK = re.compile(r"-- Rules: ([A-Z]{2}-\d+)(, [A-Z]{2}-\d+)*$")
WIDTH = 120


def rules_by_definition(rules):
    """The identifiers of the rules that name a definition, by file and definition."""
    found = {}
    for rule in rules:
        for path, owner, _ in rule.definitions()[0]:
            named = found.setdefault(path, {}).setdefault(owner, [])
            if rule.name not in named:
                named.append(rule.name)
    return found


def comment(names):
    """The comment lines of these rules."""
    lines = []
    for name in names:
        if lines and len(lines[-1]) + len(name) + 2 <= WIDTH:
            lines[-1] += f", {name}"
        else:
            lines.append(f"-- Rules: {name}")
    return lines


def marked(path, named):
    """The text of a file with the comments of its definitions' rules, and with no other such comment."""
    lines, seen = [], set()
    for line in read(f"crates/{path}").split("\n"):
        if MARK.match(line):
            continue
        head = TOOL.HEAD.match(line)
        if head and line[0] not in " -" and head[1] not in seen:
            seen.add(head[1])
            lines += comment(named.get(head[1], []))
        lines.append(line)
    return "\n".join(lines)


def faults(rules, paths, write):
    """The files whose comments say otherwise than RULES; `write` makes them anew."""
    by_path = rules_by_definition(rules)
    for path in sorted(paths):
        text = marked(path, by_path.get(path, {}))
        if text == read(f"crates/{path}"):
            continue
        if write:
            with open(f"{TOP}/crates/{path}", "w", encoding="utf-8") as it:
                it.write(text)
        else:
            yield f"crates/{path}: the comments `-- Rules:` are not those of docs/RULES.md (.ci/names --write)"
