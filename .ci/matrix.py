"""docs/TRACE.md: for each rule of docs/RULES.md its clause, definitions, contracts, wrong bodies, scenes and cases.

Clause and definitions are those that RULES names. A rule is a paragraph `**SE-1** (3.5.3). ..`, with the list after it.
A definition is a name in backticks that a file of SPECS declares. If several do, it is of the file that the rule or its
heading names. All else is in .ci/evidence, a part for each rule:

    SE-1
    contract: TrainState::take Sessions::open
    edit: edits/rbc_train/closes_where_a_session_is_to_open
    scene: session_opens
    row: session-opens
    gap row: why there is none

A `contract` is a public function or a law (TYPE::NAME or NAME). Its clauses have to cite a definition of the rule, by
themselves or by the definitions that they need. An `edit` is a wrong body as documents name it, a `scene` is of
test_scenes or of a law crate, a `row` a case of test_program (or a pattern of cases). A key with nothing is left out:
TRACE shows it as a gap.
"""

import fnmatch
import os
import re

import clauses
import marks
import tables
from clauses import TOOL
from tables import TOP, read

PAGE, RULES, EVIDENCE = "docs/TRACE.md", "docs/RULES.md", ".ci/evidence"
SPECS = ("rbc_spec", "law_outside", "law_trains")
ROWS = "crates/test_program/data/rows"
RULE = re.compile(r"\*\*([A-Z]{2}-\d+)\*\* \(([^)]*)\)\. ")
CLAUSE = re.compile(r"(SUBSET-\d{3}|\d+(\.\d+)+)(, (SUBSET-\d{3}|\d+(\.\d+)+))*(, profile)?|profile")
CITED = re.compile(r"\b[A-Z]{2}-\d+\b")
NO_RULE = re.compile(r"\*(Note|Example|Figure)\.\* |- |\||```$")
WITHOUT_RULES = ("The definitions",)
KEYS = ("contract", "edit", "scene", "row")
NAMES = ("contract or law", "wrong body", "scene", "case")


class Rule:
    def __init__(self, name, clause, section, text, files):
        self.name, self.clause, self.section, self.text, self.files = name, clause, section, text, files
        self.evidence = {key: [] for key in KEYS}
        self.gaps = {}

    def definitions(self):
        """The definitions that the rule names, as (path, definition, name), and the names that are of several files."""
        named = re.findall(r"`([^`\n]+)`", self.text)
        hints = [it for it in named if it in spec_files()] + self.files
        found, doubtful = {}, []
        for name in named:
            paths = [path for path in spec_files().values() if TOOL.file_at(path).owner_of(name)]
            if len(paths) > 1:
                paths = [spec_files()[it] for it in hints if spec_files()[it] in paths][:1]
                doubtful += [] if paths else [name]
            for path in paths:
                found[(path, TOOL.file_at(path).owner_of(name), name)] = None
        return list(found), doubtful


SPEC_FILES = {}


def spec_files():
    """The files of definitions that rules name, by their names."""
    if not SPEC_FILES:
        for crate in SPECS:
            for it in sorted(os.listdir(f"{TOP}/crates/{crate}/specs")):
                if it.endswith(".antt") and it not in ("Lib.antt", "Scenes.antt"):
                    SPEC_FILES[it.removesuffix(".antt")] = f"{crate}/specs/{it}"
    return SPEC_FILES


def blocks():
    """The blocks of RULES, each with the heading of its section, and the files that its headings name."""
    section, files, below = "", [], []
    for block in re.split(r"\n{2,}(?=\S)", re.sub(r"(?ms)^```.*?^```$", "```", read(RULES)).strip("\n")):
        if block.startswith("## "):
            section, below = block[3:], []
            files = [it for it in re.findall(r"`(\w+)`", block) if it in spec_files()]
        elif block.startswith("### "):
            below = [it for it in re.findall(r"`(\w+)`", block) if it in spec_files()]
        yield section, below + files, block


def rules():
    """The rules of RULES in their order, and what is wrong with its paragraphs."""
    found, wrong = [], []
    for section, files, block in blocks():
        title = section.partition(". ")[2].partition(" (")[0]
        if not section or title in WITHOUT_RULES or block.startswith("#"):
            continue
        rule = RULE.match(block)
        if rule:
            found.append(Rule(rule[1], rule[2], section, block, files))
            if not CLAUSE.fullmatch(rule[2]):
                wrong.append(f"{RULES}: {rule[1]} has no clause: {rule[2]}")
        elif not NO_RULE.match(block):
            wrong.append(f"{RULES}: a rule without an identifier: {block[:60]}")
        elif found and found[-1].section == section and block.startswith("- "):
            found[-1].text += "\n" + block
    names = [it.name for it in found]
    wrong += [f"{RULES}: two rules {it}" for it in sorted(set(names)) if names.count(it) > 1]
    for rule in found:
        meant, doubtful = rule.definitions()
        wrong += [f"{RULES}: {rule.name}: `{it}` is in several files: name one" for it in doubtful]
        wrong += [] if meant else [f"{RULES}: {rule.name} names no definition"]
    return found, wrong


def take_evidence(found):
    """Puts the evidence of .ci/evidence to the rules; what is wrong with it."""
    by_name, seen = {it.name: it for it in found}, set()
    text = re.sub(r"(?m)^#.*\n", "", read(EVIDENCE)).strip("\n")
    for part in re.split(r"\n{2,}", text):
        name, *lines = re.sub(r"\n +", " ", part).split("\n")
        if name not in by_name or name in seen:
            yield f"{EVIDENCE}: {name} is in two parts, or no rule of {RULES}"
            continue
        seen.add(name)
        for line in lines:
            key, _, value = line.partition(": ")
            if key in KEYS:
                by_name[name].evidence[key] = value.split()
            elif key.removeprefix("gap ") in KEYS:
                by_name[name].gaps[key.removeprefix("gap ")] = value
            else:
                yield f"{EVIDENCE}: {name}: no line begins so: {line}"
    yield from (f"{EVIDENCE}: no part {it.name}" for it in found if it.name not in seen)


def contract_faults(rule, found):
    """The contracts of a rule that are not there, or cite none of its definitions."""
    meant = {(path, owner) for path, owner, _ in rule.definitions()[0]}
    for name in rule.evidence["contract"]:
        if name not in found:
            yield f"{EVIDENCE}: {rule.name}: no public function {name}"
        elif not any(meant & clauses.below(it) for at in found[name] for it in clauses.cited(*at) if it):
            yield f"{EVIDENCE}: {rule.name}: no clause of {name} cites a definition of this rule"


def scenes():
    """The names of scenes: definitions of test_scenes, and public functions of it and of the laws."""
    folder = "test_scenes/specs"
    names = {name for it in os.listdir(f"{TOP}/crates/{folder}") for name in TOOL.file_at(f"{folder}/{it}").lines}
    for crate in tables.uses():
        if crate == "test_scenes" or crate.startswith("law_"):
            names |= {it[1] for text in clauses.sources(crate) for it in clauses.FUNCTION.findall(text)}
    return names


def name_faults(rule, known):
    for key, names in known.items():
        for it in rule.evidence[key]:
            if it not in names and not ("*" in it and fnmatch.filter(names, it)):
                yield f"{EVIDENCE}: {rule.name}: no {key} {it}"
    for key in KEYS:
        if len(set(rule.evidence[key])) < len(rule.evidence[key]):
            yield f"{EVIDENCE}: {rule.name}: a {key} twice"


def cell(rule, key):
    if rule.evidence[key]:
        return ", ".join(f"`{it}`" for it in rule.evidence[key])
    return "**gap**" + (f": {rule.gaps[key]}" if key in rule.gaps else "")


def defined(rule):
    """The definitions of a rule by file, as a cell."""
    files = {}
    for path, _, name in rule.definitions()[0]:
        files.setdefault(path.rpartition("/")[2].removesuffix(".antt"), []).append(name)
    return ". ".join(f"{file}: " + ", ".join(f"`{it}`" for it in names) for file, names in files.items())


def anchor(heading):
    return re.sub(r"[^\w\- ]", "", heading.lower()).replace(" ", "-")


def listed(found, key):
    """The rules without evidence of a kind, consecutive ones as `SE-1 to SE-3`."""
    letters = {}
    for it in found:
        first, _, number = it.name.partition("-")
        runs = letters.setdefault(first, [])
        if it.evidence[key]:
            runs.append([])
        elif runs and runs[-1] and int(number) == runs[-1][-1] + 1:
            runs[-1].append(int(number))
        else:
            runs.append([int(number)])
    parts = {first: [it for it in runs if it] for first, runs in letters.items()}
    spelled = {first: [spelled_run(first, it) for it in runs] for first, runs in parts.items() if runs}
    return ". ".join(", ".join(it) for it in spelled.values()) or "none"


def spelled_run(letters, run):
    """Consecutive rules: two of them one by one."""
    if len(run) > 2:
        return f"{letters}-{run[0]} to {letters}-{run[-1]}"
    return ", ".join(f"{letters}-{it}" for it in run)


COLUMNS = ("Rule", "Clause", "Definitions", "Contract or law", "Wrong bodies", "Scenes", "Cases")


def row(cells):
    return "| " + " | ".join(cells) + " |\n"


def head(columns):
    return row(columns) + "|" + "---|" * len(columns) + "\n"


def page(found):
    """docs/TRACE.md."""
    counts = {key: sum(bool(it.evidence[key]) for it in found) for key in KEYS}
    whole = sum(all(it.evidence.values()) for it in found)
    gaps = len(found) * len(KEYS) - sum(counts.values())
    text = HEAD.format(rules=len(found), whole=whole, gaps=gaps, **counts)
    text += head(("Evidence", "Rules that have it", "Rules without it"))
    for key, name in zip(KEYS, NAMES):
        text += row((name, str(counts[key]), listed(found, key)))
    section = None
    for rule in found:
        if rule.section != section:
            section = rule.section
            text += f"\n## {section.partition(' (')[0]}\n\n[The rules](RULES.md#{anchor(section)})\n\n" + head(COLUMNS)
        text += row((rule.name, rule.clause, defined(rule), *(cell(rule, key) for key in KEYS)))
    return text


HEAD = """# The matrix of rules

Made by `.ci/names --write` from [RULES.md](RULES.md) and `.ci/evidence`. It has for each rule

- the **clause** of SUBSET-026 from which it comes, or *profile*;
- the **definitions** that state it, by their files in `rbc_spec/specs`, `law_outside/specs` and `law_trains/specs`;
- the **contracts** of public functions, and the laws, that prove it. The clauses of each cite a definition of the
  rule, by themselves or by the definitions that they need. [PROVED.md](PROVED.md) has the statements;
- **wrong bodies** against the rule that the prover refuses. The gate tries those without `edits/`
  ([GATE.md](GATE.md));
- **scenes** that compute the definitions: those of `test_scenes`, and those of the laws;
- **cases** of `test_program`: commands of the program with the expected output.

The lists name some evidence, and not all. By its clause `exact`, `Centre::step` states each rule of a centre's step,
and it is not listed for each. Contracts of lower crates that state a rule by definitions of their own, as
`answer_request` does, are in PROVED.md and not here.

A **gap** is a rule for which nothing of a kind is listed. `.ci/names` refuses a name that is not in the tree, and a
contract that cites no definition of its rule. That a contract, a wrong body, a scene or a case is of just this rule was
read, and not computed.

There are {rules} rules. {contract} have a contract or a law, {edit} a wrong body, {scene} a scene, and {row} a case.
{whole} have all four. There are {gaps} gaps.

"""


def checked():
    """The rules with their evidence, and what is wrong with them."""
    found, wrong = rules()
    wrong += take_evidence(found)
    rows = set(os.listdir(f"{TOP}/{ROWS}"))
    known = {"edit": {it.label for it in tables.all_edits()}, "scene": scenes(), "row": rows}
    functions = clauses.contracts()
    for rule in found:
        wrong += [*contract_faults(rule, functions), *name_faults(rule, known)]
    return found, wrong


def faults(write, documents):
    """What is wrong with the rules, their evidence and the page, which `write` makes anew."""
    found, wrong = checked()
    yield from wrong
    yield from marks.faults(found, spec_files().values(), write)
    if write:
        with open(f"{TOP}/{PAGE}", "w", encoding="utf-8") as it:
            it.write(page(found))
    elif not os.path.isfile(f"{TOP}/{PAGE}") or read(PAGE) != page(found):
        yield f"{PAGE}: {RULES} or {EVIDENCE} say otherwise (.ci/names --write makes it anew)"
    names = {it.name for it in found}
    letters = {it.partition("-")[0] for it in names}
    for path in documents:
        for it in sorted(set(CITED.findall(read(path))) - names):
            if it.partition("-")[0] in letters:
                yield f"{path}: no rule {it}"
