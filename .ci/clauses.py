"""The clauses of public functions, and the definitions that they cite."""

import importlib.machinery
import importlib.util
import os
import re

import tables
from tables import TOP, read

USE = re.compile(r"(?s)\buse Rattle\.([\w.]+?)(?:\.\{(.*?)\}| as (\w+))?;")
FUNCTION = re.compile(r"(?m)^( *)pub (?:const )?fn (\w+)")
OWNER = re.compile(r"(?m)^impl(?:<.*?>)? (?:\w+(?:<.*?>)? for )?(\w+)|^(\})")


def definitions_tool():
    loader = importlib.machinery.SourceFileLoader("definitions", f"{TOP}/.ci/definitions")
    module = importlib.util.module_from_spec(importlib.util.spec_from_loader("definitions", loader))
    loader.exec_module(module)
    return module


TOOL = definitions_tool()
CITED_BY, BELOW = {}, {}


def below(start):
    """The definitions that one needs, itself among them."""
    if start not in BELOW:
        found, left = set(), [start]
        while left:
            it = left.pop()
            if it not in found:
                found.add(it)
                if it not in CITED_BY:
                    CITED_BY[it] = [at for at in TOOL.cited(*it) if at]
                left += CITED_BY[it]
        BELOW[start] = found
    return BELOW[start]


def imports(text):
    """What a file of code names of definitions: each name, and each short name of a file."""
    names, short = {}, {}
    for path, listed, alias in USE.findall(text):
        path = path.replace(".", "/") + ".antt"
        if alias:
            short[alias] = path
        for it in listed.split(","):
            first, _, last = it.strip().partition(" as ")
            names[(last or first).strip()] = (path, first.strip())
    return names, short


def cited(text, stated):
    """The definitions that clauses cite."""
    names, short = imports(text)
    for token in re.findall(r"[^\s(){}\[\],;λ]+", stated):
        first, _, rest = token.partition(".")
        if first in names:
            yield TOOL.resolved(*names[first])
        elif first in short and rest:
            yield TOOL.resolved(short[first], rest.split(".")[0])
    yield from (TOOL.resolved(*at) for name, at in names.items() if "◌" in name and TOOL.is_named(name, (), stated))


def functions_in(text):
    """The public functions of a file: each by its name, or by TYPE::NAME, with its clauses."""
    owners = [(it.start(), it[1]) for it in OWNER.finditer(text)]
    for it in FUNCTION.finditer(text):
        end = re.compile(rf"(?m)^{it[1]}[{{}}]").search(text, it.end())
        clauses = text[it.start() : end.start() if end else len(text)].partition("ensures")[2]
        owner = [name for start, name in owners if start < it.start()][-1:] if it[1] else []
        yield "::".join([it for it in owner if it] + [it[2]]), clauses


def sources(crate):
    """The texts of a crate's files of code."""
    for at, _, names in os.walk(f"{TOP}/crates/{crate}/src"):
        yield from (read(os.path.relpath(f"{at}/{it}", TOP)) for it in names if it.endswith(".rt"))


def contracts():
    """Each public function of the tree: the texts of the files that have it, each with its clauses there."""
    found = {}
    for crate in tables.uses():
        for text in sources(crate):
            for label, clauses in functions_in(text):
                found.setdefault(label, []).append((text, clauses))
    return found
