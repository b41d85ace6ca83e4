"""The lines of function bodies under an `ensures`: python3 .ci/stated.py [FLOOR]

A body counts if its function has an `ensures`, or if it is a method of a trait of this tree whose declaration has one.
The same holds for `read`, `write` and `flush` of std's `Read` and `Write`. A `fmt` of `Display` counts if its impl names
the bytes of the text (`ghost output`), and a `from` if its impl names the value (`ghost from_gives`).
The lines between the braces are counted. The crates of tests and of laws are left out. `.ci/stated` has the least share
of each floor of the crates, in percent: `.ci/names` refuses less, and `.ci/names --write` raises it to the share that
is reached. With a FLOOR, as `serve`, each function without an `ensures` is listed, the longest first.
"""

import os
import re
import sys

from tables import TOP, read

LEAST = ".ci/stated"
FLOORS = ("cli", "rbc", "serve", "text", "train")
FUNCTION = re.compile(r"(?m)^([ \t]*)(?:pub(?:\([a-z]+\))? )?(?:const )?(?:unsafe )?fn (\w+)")
# Methods of traits of std whose declaration has an `ensures`, and the ghost item of an impl without which that says nothing.
OF_STD = {
    ("Read", "read"): "",
    ("Write", "write"): "",
    ("Write", "flush"): "",
    ("Display", "fmt"): "ghost output",
    ("From", "from"): "ghost from_gives",
}
BLOCK = re.compile(r"(?m)^(?:pub(?:\([a-z]+\))? )?(impl|trait)\b([^{;]*)")


def generic_free(head):
    """The head of an item without the text between < and >."""
    while re.search(r"<[^<>]*>", head):
        head = re.sub(r"<[^<>]*>", "", head)
    return head


def trait_at(text, at):
    """The trait of the block that a method is in, whether the block declares it, and the text of the block."""
    found = None
    for it in BLOCK.finditer(text, 0, at):
        found = it
    if not found or re.search(r"(?m)^}", text[found.end() : at]):
        return None, False, ""
    head = generic_free(found[2].replace("->", ""))
    if found[1] == "trait":
        return head.split(":")[0].split()[0], True, ""
    name, _, rest = head.partition(" for ")
    end = re.search(r"(?m)^}", text[found.end() :])
    inside = text[found.end() :][: end.start() if end else None]
    return (name.split()[-1].split("::")[-1], False, inside) if rest else (None, False, "")


def functions(text):
    """Each function: its line, name, trait, whether it is declared by the trait, its clauses, and the lines of its body."""
    for it in FUNCTION.finditer(text):
        end = re.compile(rf"(?m)^{it[1]}(?:\{{|\}}|.*[{{;]$)").search(text, text.index("(", it.end()) - 1)
        lines = text[it.start() :].split("\n")
        opened = next((n for n, line in enumerate(lines) if line == it[1] + "{" or line.endswith((" {", ";"))), 0)
        closed = next((n for n, line in enumerate(lines) if n > opened and line == it[1] + "}"), opened + 1)
        is_declared = not end or lines[opened].endswith(";")
        trait, declares, block = trait_at(text, it.start())
        clauses = "\n".join(lines[: opened + 1])
        body = 0 if is_declared else closed - opened - 1
        ghost = OF_STD.get((trait, it[2]))
        has = "ensures" in clauses or ghost is not None and ghost in block
        yield text[: it.start()].count("\n") + 1, it[2], trait, declares, has, body


def crates():
    """The crates of each floor. The program `rbc_cli` is of the floor `cli`."""
    found = {floor: [] for floor in FLOORS}
    for crate in sorted(os.listdir(f"{TOP}/crates")):
        floor = "cli" if crate == "rbc_cli" else crate.partition("_")[0]
        if floor in found:
            found[floor].append(crate)
    return found


def files_of(crate):
    for at, _, names in os.walk(f"{TOP}/crates/{crate}/src"):
        yield from sorted(os.path.relpath(f"{at}/{it}", TOP) for it in names if it.endswith(".rt"))


def counted():
    """Of each floor: the lines of bodies, those under an `ensures`, and the functions without one."""
    every = {
        floor: [(path, *it) for crate in names for path in files_of(crate) for it in functions(read(path))]
        for floor, names in crates().items()
    }
    declared = [it for found in every.values() for it in found]
    promised = {(trait, name) for _, _, name, trait, declares, has, _ in declared if declares and has}
    counts = {}
    for floor, found in every.items():
        lines, stated, without = 0, 0, []
        for path, line, name, trait, _, has, body in found:
            lines += body
            if has or (trait, name) in promised:
                stated += body
            elif body:
                without.append((body, f"{path}:{line}: {name}"))
        counts[floor] = (lines, stated, sorted(without, reverse=True))
    return counts


def share(lines, stated):
    """In tenths of a percent, rounded down."""
    return 1000 * stated // lines if lines else 1000


def least():
    """The least share of each floor, in tenths of a percent."""
    lines = read(LEAST).split("\n") if os.path.isfile(f"{TOP}/{LEAST}") else []
    rows = [it.split() for it in lines if it and it[0] != "#"]
    return {floor: round(10 * float(number)) for floor, number in rows}


def write():
    """Raises the least shares to those that are reached."""
    before = least()
    rows = ["# The least percent of body lines under an `ensures`, which only rises: `.ci/names --write` raises it"]
    for floor, (lines, stated, _) in counted().items():
        rows.append(f"crates/{floor} {max(share(lines, stated), before.get(f'crates/{floor}', 0)) / 10}")
    with open(f"{TOP}/{LEAST}", "w", encoding="utf-8") as it:
        it.write("\n".join(rows) + "\n")


def faults():
    """The floors below their least share, or without one."""
    before = least()
    for floor, (lines, stated, _) in counted().items():
        if share(lines, stated) < before.get(f"crates/{floor}", 1001):
            yield f"crates/{floor}: {share(lines, stated) / 10} % of {lines} body lines under an ensures, less than in {LEAST}"


def main(arguments):
    for floor, (lines, stated, without) in counted().items():
        if not arguments:
            print(f"crates/{floor}: {stated} of {lines} lines, {share(lines, stated) / 10} %")
        elif arguments == [floor]:
            print("\n".join(f"{body:4} {name}" for body, name in without))


if __name__ == "__main__":
    main(sys.argv[1:])
