"""The pages of `man`, made from the helps."""

import time

from helps import PROGRAM

# what stands for a byte that `man` takes for something else
STANDS_FOR = str.maketrans({"\\": r"\e", "-": r"\-", "`": r"\(ga", "'": r"\(aq", "^": r"\(ha", "~": r"\(ti", '"': r"\(dq"})
EXAMPLES = ("Examples:", "Example:")


def escaped(text):
    """A text as `man` prints it; a line of it may not begin as a request does."""
    text = text.translate(STANDS_FOR)
    return r"\&" + text if text.startswith(".") else text


def bold(text):
    return rf"\fB{escaped(text)}\fR"


def section(title, lines):
    """A section, where it has lines: the first of them begins a paragraph anyhow."""
    return [f".SH {title}", *(lines[1:] if lines[0] == ".PP" else lines)] if lines else []


def tagged(left, told):
    """An entry of a list: what stands left in bold, and what is told of it."""
    if not told:
        return [".PP", bold(left)]
    return [".TP", bold(left), escaped(told)]


def is_indented(lines):
    return all(it.startswith("  ") for it in lines)


def of_block(lines, entries):
    """A paragraph, or a list where its lines are indented."""
    if is_indented(lines):
        return [line for it in entries(lines) for line in tagged(*it)]
    return [".PP", *map(escaped, lines)]


class Page:
    """The page of a help, by its sections. `entries` takes indented lines apart."""

    def __init__(self, help, entries):
        self.help, self.entries = help, entries
        self.told, self.status, self.examples = [], [], []
        for lines in help.blocks:
            self.take(lines)

    def take(self, lines):
        if lines[0] in EXAMPLES:
            self.examples += of_block(lines[1:], self.entries)
        elif lines[0].startswith("The status is "):
            self.status += of_block(lines, self.entries)
        else:
            self.told += of_block(lines, self.entries)

    def synopsis(self):
        return [".nf", *(bold(it) for it in self.help.usage), ".fi"]

    def commands(self):
        return [line for word, told in self.help.commands for line in tagged(word, told)]

    def arguments(self):
        return [line for it in self.help.arguments for line in tagged(*it)]

    def options(self):
        return [line for it in self.help.options for line in tagged(it.left, it.told)]

    def text(self, version, day, others):
        """The whole page: the version and the day in its foot, and the pages beside it."""
        name = self.help.page()
        lines = [
            rf".\" made of `{self.help.name()} \-\-help`",
            f'.TH {escaped(name.upper())} 1 "{day}" "Pazgrot {version}" "Pazgrot"',
            # lines end between words, and options stay whole
            ".nh",
            ".ad l",
            *section("NAME", [rf"{escaped(name)} \- {escaped(self.help.about)}"]),
            *section("SYNOPSIS", self.synopsis()),
            *section("COMMANDS", self.commands()),
            *section("ARGUMENTS", self.arguments()),
            *section("OPTIONS", self.options()),
            *section("DESCRIPTION", self.told),
            *section(r'"EXIT STATUS"', self.status),
            *section("EXAMPLES", self.examples),
            *section(r'"SEE ALSO"', see_also(others)),
        ]
        return "\n".join(lines) + "\n"


def see_also(names):
    return [f"{bold(it)}(1){',' if it != names[-1] else ''}" for it in names]


def pages(helps, version, epoch, entries):
    """The name and the text of each page, of the day of these seconds since 1970."""
    day = time.strftime("%Y-%m-%d", time.gmtime(epoch))
    names = [it.page() for it in helps]
    for it in helps:
        others = [name for name in names if name != it.page()] if not it.word else [PROGRAM]
        yield f"{it.page()}.1", Page(it, entries).text(version, day, others)
