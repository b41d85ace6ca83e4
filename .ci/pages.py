"""The examples of the first pages of crates: each line is a line of a test, so it compiles and its result is tested."""
import os
import re

from tables import read

TOP = os.path.dirname(os.path.dirname(os.path.realpath(__file__)))
# the crates that others use, each with the test of its example
TESTS = {
    "rbc_board": "examples/frames.rt",
    "rbc_line": "examples/line.rt",
    "rbc_linkmsg": "examples/frames.rt",
    "rbc_log": "examples/logs.rt",
    "rbc_msgs": "examples/messages.rt",
    "rbc_node": "examples/nodes.rt",
    "rbc_world": "examples/worlds.rt",
    "serve_page": "examples/pages.rt",
    "serve_workers": "serving/sessions.rt",
    "text_journal": "journal/writing.rt",
}


def squeezed(text):
    """The text without white space, and without a comma that ends a list over several lines."""
    return re.sub(r",([)}\]])", r"\1", re.sub(r"\s+", "", text))


def example_of(crate):
    """The lines of code of a crate's first page."""
    page = [it[3:].strip() for it in read(f"crates/{crate}/src/lib.rt").split("\n") if it.startswith("//!")]
    fences = [at for at, it in enumerate(page) if it == "```"]
    return [it for begun, ended in zip(fences[::2], fences[1::2]) for it in page[begun + 1 : ended] if it]


def faults():
    """The crates without an example, and the lines of an example that are in no line of its test."""
    for crate, test in TESTS.items():
        path = f"crates/test_library/src/{test}"
        lines, tested = example_of(crate), squeezed(read(path))
        if not lines:
            yield f"crates/{crate}/src/lib.rt: the first page has no example"
        for line in lines:
            if squeezed(line).rstrip(",") not in tested:
                yield f"crates/{crate}/src/lib.rt: {path} has no line {line}"
