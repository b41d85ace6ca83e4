"""Makes the Wireshark dissector tools/wireshark/etcs_rbc.lua from the table of fields in crates/text_fields/src.

The names, widths, values and units of fields, the layouts of messages and packets, and the words of faults are read
from these sources. The walk over the bits and the texts of meanings are in .ci/dissector.lua. A kind of values, or a
text of a meaning, that this file does not have is refused.
"""

import os
import re

import tables
from tables import read

PAGE = "tools/wireshark/etcs_rbc.lua"
BODY = ".ci/dissector.lua"
SOURCES = "crates/text_fields/src"
LAYOUTS = "packet_fields.rt"
FAULTS = "crates/rbc_msgs/src/fault.rt"
TOKEN = re.compile(
    r'\s+|//[^\n]*|"(?P<text>[^"\\]*)"|(?P<number>\d[\d_]*)|(?P<name>\w+(?:::\w+)*)|(?P<sign>[&\[\](),;])'
)
CONSTANT = re.compile(r"\bconst (?!BODIES\b)(\w+)\s*:[^=]*=(?!\s*\w+ \{)")
# Kinds and texts that only frames between centres need: no frame is on a connection of a train
OF_FRAMES = {"Range", "Decimetres", "%s%s.%s %s", "-"}


class Unreadable(Exception):
    """A source has another form than this file reads."""


def tokens(text):
    at, found = 0, []
    while at < len(text):
        it = TOKEN.match(text, at)
        if not it:
            raise Unreadable(f"a constant of {SOURCES} has another form: {text[at:at + 40]!r}")
        at = it.end()
        if it.lastgroup:
            found.append((it.lastgroup, it[it.lastgroup]))
        if it.lastgroup == "sign" and it[0] == ";":
            break
    return found


class Reader:
    """Reads a constant: a text, a number, a name, a list, or a call, which is a tuple of its name and arguments."""

    def __init__(self, text):
        self.left = tokens(text)

    def take(self):
        return self.left.pop(0)

    def value(self):
        group, text = self.take()
        if group == "text":
            return text
        if group == "number":
            return int(text.replace("_", ""))
        if group == "name":
            if text == "u64::MAX":
                return 2**64 - 1
            return (text, *self.items(")")) if self.left[:1] == [("sign", "(")] and self.take() else (text,)
        if text == "&":
            return self.value()
        if text in "[(":
            return self.items("]" if text == "[" else ")")
        raise Unreadable(f"{text!r} does not begin a value")

    def items(self, end):
        found = []
        while self.left[0] != ("sign", end):
            found.append(self.value())
            if self.left[0] == ("sign", ","):
                self.take()
        self.take()
        return found


def constants(path):
    """The constants of a file but those of structs, by name."""
    text = read(f"{SOURCES}/{path}")
    return {it[1]: Reader(text[it.end() :]).value() for it in CONSTANT.finditer(text)}


def function(path, name):
    """The text of a function, without blanks at line ends."""
    found = re.search(rf"(?ms)^( *)(?:pub(?:\(crate\))? )?fn {name}\b.*?^\1\}}$", read(f"{SOURCES}/{path}"))
    if not found:
        raise Unreadable(f"{path} has no function {name}")
    return found[0]


def enum(path, name):
    """The lines of an enum."""
    return read(path).partition(f"pub enum {name} {{")[2].partition("\n}")[0]


def arms(path, name):
    """The arms of a function's match, but the last one for all others."""
    return re.findall(r"(?m)^\s*([^\n=]+?) => (.+?),?$", function(path, name))


def lua(value):
    if isinstance(value, str):
        return '"' + value.replace("\\", "\\\\").replace('"', '\\"') + '"'
    return str(value)


def part(name, width, kind, all_words):
    """A field as an entry of a Lua table."""
    kind, *values = kind
    kind = kind.removeprefix("Kind::")
    entry = f'name = "{name}", width = {width}, kind = "{kind}"'
    if kind == "Count":
        entry += f", unit = {lua(values[0])}"
    elif kind == "Words":
        all_words.add(values[0][0])
        entry += f", words = WORDS.{values[0][0]}"
    elif kind == "Only":
        entry += f', only = "{values[0]}", meaning = {lua(values[1])}'
    elif values:
        raise Unreadable(f"Kind::{kind} has values")
    return f"{{{entry}}}"


STEP = re.compile(
    r"""(?xs) self\.rows\(&(?P<rows>\[.*?\])\) | self\.take\((?P<take>"\w+",\ .*?)\)(?=\?|\n|,\n)
    | if\ self\.last\ !=\ (?P<known>\d+)\ \{\s+return\ Ok\(false\)
    | if\ self\.last\ !=\ (?P<only>\d+)\ \{\s+return\ Ok\(true\)
    | if\ !(?P<test>has_\w+)\(self\.last\) | self\.(?P<call>\w+)\(\)"""
)
BODY_ROW = re.compile(r"number: (\d+),\s+own: Own::(\w+),\s+packets: Required::(\w+)")


def parts(path, text, all_words):
    """The fields that the text of a function shows, as entries of a Lua list, in their order."""
    found, when, fields = [], None, []
    for step in STEP.finditer(text):
        into = fields if when else found
        if step["rows"]:
            into += [part(*it, all_words) for it in Reader(step["rows"]).value()]
        elif step["take"]:
            into.append(part(*Reader(f"({step['take']})").value(), all_words))
        elif step["known"]:
            found.append(f"{{known = {step['known']}}}")
        elif step["only"]:
            when = [step["only"]]
        elif step["test"]:
            when = re.findall(r"== (\d+)", function(path, step["test"]))
        else:
            into += parts(path, function(path, step["call"]), all_words)
    if when:
        when = ", ".join(f"[{it}] = true" for it in when)
        found.append(f"{{when = {{{when}}}, fields = {listed(fields, ' ' * 6)}}}")
    return found


def listed(entries, inset):
    return "{" + "".join(f"\n{inset}  {it}," for it in entries) + (f"\n{inset}}}" if entries else "}")


def words_table(name, pairs):
    return f"WORDS.{name} = " + listed([f"[{value}] = {lua(words)}" for value, words in pairs], "") + "\n"


def message_entries(all_words):
    """MESSAGES: the fields of each message after its header, and the packets that it must have."""
    own, required = (function("messages.rt", it) for it in ("own", "required"))
    fields = re.findall(r"(?s)Own::(\w+) => (.*?\n)(?= *Own::| *\})", own)
    fields = {it: parts("messages.rt", text, all_words) for it, text in fields}
    required = dict(re.findall(r"(?s)Required::(\w+) => (.*?)(?=Required::|\Z)", required))
    found = []
    for number, own, packets in BODY_ROW.findall(read(f"{SOURCES}/bodies.rt")):
        wanted = [it.split(", ") for it in re.findall(r"wanted\(side, &\[([\d, ]+)\]\)", required[packets])]
        wanted = ", ".join("{" + ", ".join(f"[{it}] = true" for it in each) + "}" for each in wanted)
        found.append((int(number), f"[{number}] = {{parts = {{{', '.join(fields[own])}}}, packets = {{{wanted}}}}}"))
    return [it for _, it in sorted(found)]


def packet_entries(side, all_words):
    """The fields of each packet of a side after its header."""
    found = []
    content = function("packets.rt", "content")
    for number, name in re.findall(rf"Side::{side} if number == (\d+) => self\.(\w+)\(\)", content):
        fields = parts(LAYOUTS, function(LAYOUTS, name), all_words)
        found.append(f"[{number}] = {listed(fields, '    ')}")
    return found


def side_table(side, all_words):
    """A sender: its header after NID_MESSAGE, its packets and their names, and the sections of the standard."""
    names = constants("names.rt")
    sections = [function("messages.rt", it) for it in ("messages", "packets")]
    messages, packets = (re.search(rf'Side::{side} => "(.+)"', it)[1] for it in sections)
    header, before = (
        parts(path, re.search(rf"(?s)Side::{side} => (.*?\n|.*?\]\)),\n", function(path, name))[1] + "\n", all_words)
        for path, name in (("messages.rt", "header"), ("packets.rt", "head"))
    )
    packet = [f"[{number}] = {lua(words)}" for number, words in names[f"{side.upper()}_PACKETS"]]
    before = before[:-1]  # L_PACKET
    return f"local {side.upper()} = " + listed(
        [
            f'messages = "{messages}"',
            f'packets = "{packets}"',
            f"header = {listed(header, '  ')}",
            f"before_length = {listed(before, '  ')}",
            f"layouts = {listed(packet_entries(side, all_words), '  ')}",
            f"names = {listed(packet, '  ')}",
        ],
        "",
    )


def fault_table():
    """The faults of a message: numbers and words."""
    numbers = dict(re.findall(r"(?m)^    (\w+) = (\d+),$", enum(FAULTS, "MsgFault")))
    words = re.findall(r'MsgFault::(\w+) => "([^"]+)"', function("fault.rt", "words_of"))
    entries = [f"{it} = {{number = {numbers[it]}, words = {lua(text)}}}" for it, text in words if it != "Memory"]
    return f"local FAULTS = {listed(entries, '')}"


def number_lines():
    """The constants of the walk and of meanings."""
    found = {**constants("kind.rt"), **constants("meaning.rt"), **constants("walk.rt")}
    wanted = ("LONGEST", "MOST", "MOST_SPEED", "UNKNOWN_DISTANCE", "UNKNOWN_GROUP", "UNKNOWN_TIME")
    return "\n".join([*(f"local {it} = {found[it]}" for it in wanted), f"local REFUSED = {lua(found['REFUSED'])}"])


def section_lines():
    text = function("layout.rt", "section")
    own, others = re.search(r'((?:"\w+"[ |]*)+) => "profile",\s*_ => "([\d.]+)"', text).groups()
    own = ", ".join(f"{it} = true" for it in re.findall(r'"(\w+)"', own))
    return f'local VARIABLES = "{others}"\nlocal PROFILE = {{{own}}}'


def body_faults(body):
    """The kinds and the texts of meanings that the body lacks."""
    for it in re.findall(r"(?m)^    (\w+)(?:\([^)]*\))?,$", enum(f"{SOURCES}/kind.rt", "Kind")):
        if it not in OF_FRAMES and not re.search(rf"(?m)^function MEANINGS\.{it}\(", body):
            raise Unreadable(f"{BODY} has no meaning of Kind::{it}")
    for it in re.findall(r'(?<!: &str = )(?<!codes )"([^"\n]+)"', re.sub(r"//.*", "", read(f"{SOURCES}/meaning.rt"))):
        text = re.sub(r"\{\w*\}", "%s", it)
        if text not in OF_FRAMES and f'"{text}"' not in body:
            raise Unreadable(f"{BODY} lacks a text of meaning.rt: {it}")


def page():
    """The dissector."""
    body, all_words = read(BODY), set()
    body_faults(body)
    messages = f"local MESSAGES = {listed(message_entries(all_words), '')}"
    sides = [side_table(it, all_words) for it in ("Train", "Centre")]
    values = {**constants("messages.rt"), **constants(LAYOUTS)}
    words = "local WORDS = {}\n" + "".join(words_table(it, values[it]) for it in sorted(all_words))
    words += words_table("MESSAGES", constants("names.rt")["MESSAGES"])
    lines = "\n\n".join([number_lines(), section_lines(), words.rstrip("\n"), messages, *sides, fault_table()])
    head, mark, rest = body.partition("-- TABLES\n")
    if not mark:
        raise Unreadable(f"{BODY} has no line for the tables")
    return head + lines + "\n" + rest


def made():
    """The dissector and no fault, or no dissector and the reason."""
    try:
        return page(), None
    except Unreadable as error:
        return None, f"{error}"
    except (KeyError, AttributeError, IndexError, TypeError, ValueError) as error:
        return None, f".ci/dissector.py cannot read {SOURCES}: {error!r}"


def write():
    """Makes the dissector again, if the sources can be read."""
    text, _ = made()
    if text:
        with open(f"{tables.TOP}/{PAGE}", "w", encoding="utf-8") as it:
            it.write(text)


def faults():
    """Whether the dissector is not the one that the sources make."""
    text, fault = made()
    found = read(PAGE) if os.path.isfile(f"{tables.TOP}/{PAGE}") else ""
    if fault:
        yield f"{PAGE}: {fault}"
    elif found != text:
        yield f"{PAGE}: the table of fields says otherwise (.ci/names --write makes it again)"
