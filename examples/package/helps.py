"""What the built program prints as help, taken apart: of the program and of each of its words."""

import re
import subprocess

PROGRAM = "genedit"
# the word that `clap` adds: it has no help of its own
NO_PAGE = "help"
# an entry of a list, as `      --rule <TEXT>  The rule`, or a line that is an entry alone
ENTRY = re.compile(r" {2,6}(\S.*?)(?: {2,}(\S.*))?$")
# what goes on with the line before
FURTHER = re.compile(r" {9,}(\S.*)$")
OPTION = re.compile(r"(?:-(\w), )?--([a-z-]+)(?: <(.+)>)?$")
# the values that are files
FILES = {"FILE", "OTHER", "IN", "OUT", "NUMBERS"}


class NotUnderstood(Exception):
    """A help that has a form which is not known here: a page made of it would leave something out."""


def entries(lines):
    """The entries of indented lines: what stands left, and what is told of it."""
    found = []
    for line in lines:
        further = FURTHER.match(line)
        entry = ENTRY.match(line)
        if further and found:
            found[-1][1] = f"{found[-1][1]} {further[1]}".strip()
        elif entry:
            found.append([entry[1], entry[2] or ""])
        else:
            raise NotUnderstood(line)
    return [tuple(it) for it in found]


class Option:
    """An option: its letter, its name, its value where it has one, and what is told of it."""

    def __init__(self, left, told):
        form = OPTION.match(left)
        if not form:
            raise NotUnderstood(left)
        self.letter, self.name, self.value = form.groups()
        self.left, self.told = left, told

    def takes_a_file(self):
        return self.value in FILES

    def spellings(self):
        return ([f"-{self.letter}"] if self.letter else []) + [f"--{self.name}"]


class Help:
    """A help, of the program where no word is given."""

    def __init__(self, word, text):
        self.word, self.text = word, text
        self.about, self.usage, self.blocks = "", [], []
        self.commands, self.arguments, self.options = [], [], []
        for block in re.split(r"\n{2,}", text.strip("\n")):
            self.take(block.split("\n"))

    def take(self, lines):
        head = lines[0]
        if head.startswith("Usage: "):
            self.usage = [it.removeprefix("Usage:").strip() for it in lines]
        elif head in ("Commands:", "Arguments:", "Options:"):
            setattr(self, head[:-1].lower(), entries(lines[1:]))
        elif not self.about and not self.usage:
            self.about = " ".join(lines)
        else:
            self.blocks.append(lines)
        if head == "Options:":
            self.options = [Option(*it) for it in self.options]

    def name(self):
        return f"{PROGRAM} {self.word}" if self.word else PROGRAM

    def page(self):
        """The name of its page."""
        return self.name().replace(" ", "-")

    def takes_files(self):
        """Whether a file may stand at one of its places."""
        return any(left.strip("[]<>.") in FILES for left, _ in self.arguments)


def printed(program, *words):
    """What the program prints under its own name, which it tells; it has to end well."""
    ran = subprocess.run([PROGRAM, *words], executable=program, stdin=subprocess.DEVNULL, capture_output=True, text=True, check=True)
    return ran.stdout


def version(program):
    """The numbers of the version that the program tells, as `1.0.0`."""
    found = re.search(r"\d+(\.\d+)+", printed(program, "--version"))
    if not found:
        raise NotUnderstood("--version")
    return found[0]


def helps(program):
    """The help of the program, and behind it those of its words, in the order in which they are listed."""
    top = Help("", printed(program, "--help"))
    words = [word for word, _ in top.commands if word != NO_PAGE]
    return [top, *(Help(it, printed(program, it, "--help")) for it in words)]
