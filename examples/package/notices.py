"""What is told of licences: that our own code has none yet, and whole those of the kit's crates that are linked in."""

import textwrap

import kit

# the line in which the owner's licence will stand; README has the same words
OWN = "No licence has been given yet for Pazgrot's own code; what its owner gives will stand in LICENSE, and here."
LINKED = """\
Linked into the program are crates of the Rattle kit ({version}), ports of Rust crates under the licences below, each as it
lies beside the crate's source. A text that several have stands once."""
WITHOUT = "These crates of the kit have no licence beside their source: {crates}."
RULE = "-" * 80


def filled(text):
    return textwrap.fill(text, 100, break_long_words=False, break_on_hyphens=False)


def of_notice(crates, text):
    return [RULE, filled(f"Of {', '.join(crates)}:"), "", text.strip("\n"), ""]


def text():
    """The whole text; without a kit there are no licences to read, which is an error."""
    found, without = kit.notices()
    told = [LINKED.format(version=kit.version()), WITHOUT.format(crates=", ".join(without))]
    lines = ["Pazgrot", "", OWN, "", *(line for it in told for line in (filled(it), ""))]
    for it in found:
        lines += of_notice(*it)
    return "\n".join(lines)
