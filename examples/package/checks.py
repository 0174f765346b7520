"""What is asked of pages and completions, beside the helps as they are printed: each answers with the faults that it finds.

Nothing here is shared with what makes them. What a machine has not is passed over, and noted in `left_out`.
"""

import collections
import os
import re
import shutil
import subprocess
import tempfile

# words of a help that are headings of a page
HEADINGS = {"Usage:", "Commands:", "Arguments:", "Options:", "Examples:", "Example:"}
# what a page spells otherwise
SPELLINGS = {r"\(ga": "`", r"\(aq": "'", r"\(ha": "^", r"\(ti": "~", r"\(dq": '"', r"\-": "-", r"\fB": "", r"\fR": "", r"\&": "", r"\e": "\\"}
SPELLING = re.compile("|".join(map(re.escape, SPELLINGS)))
WIDE = {"MANWIDTH": "1000", "MANROFFOPT": "", "LC_ALL": "C.UTF-8"}

# the programs that read pages
READERS = ("groff", "mandoc", "man")

left_out = set()


def has(program):
    if not shutil.which(program):
        left_out.add(program)
    return shutil.which(program)


def run(*words, given="", **environment):
    how = {"env": {**os.environ, **environment}, "input": given, "capture_output": True, "text": True}
    return subprocess.run([*map(str, words)], check=False, errors="replace", **how)


def words_of(text):
    return collections.Counter(text.split())


def missing(help_text, text):
    """The words of a help that a text has not, or not as often."""
    wanted = words_of(help_text)
    for it in HEADINGS:
        del wanted[it]
    return sorted((wanted - words_of(text)).keys())


def plain(source):
    """The text of a page's source."""
    lines = (it for it in source.splitlines() if not it.startswith("."))
    return SPELLING.sub(lambda found: SPELLINGS[found[0]], "\n".join([*lines, *re.findall(r"^\.SH (.*)", source, re.M)]))


def rendered(path):
    """A page as each program that is there shows it, in lines so long that none is broken."""
    if has("groff"):
        yield "groff", run("groff", "-man", "-Tutf8", "-P-cbou", "-rLL=1000n", "-rHY=0", path).stdout
    if has("mandoc"):
        yield "mandoc", re.sub(".\b", "", run("mandoc", "-T", "utf8", "-O", "width=1000", path).stdout)


def complaints(path):
    """What programs for pages complain of."""
    if has("groff"):
        yield "groff", run("groff", "-man", "-ww", "-z", path).stderr
    if has("mandoc"):
        yield "mandoc", run("mandoc", "-T", "lint", "-W", "warning", path).stdout
    if has("man"):
        yield "man", run("man", "--warnings=w", "-l", path, **WIDE).stderr


def faults_of_page(path, help_text):
    """The faults of a page."""
    with open(path, encoding="utf-8") as file:
        texts = [("source", plain(file.read())), *rendered(path)]
    for who, text in texts:
        yield from (f"{path}, by {who}: `{it}` is missing" for it in missing(help_text, text))
    yield from (f"{path}: {who} complains: {what}" for who, what in complaints(path) if what.strip())


# completions


def options_in(help_text):
    """Each option of a help, by each of its spellings."""
    lines = re.findall(r"^ {2,6}(-.*?)(?:  |$)", help_text, re.M)
    return {it for line in lines for it in re.findall(r"(?<![\w-])--?[a-z][a-z-]*|-[A-Z]\b", line)}


def words_in(help_text):
    """The words that a help lists."""
    block = re.search(r"^Commands:\n((?: .*\n)+)", help_text, re.M)
    return set(re.findall(r"^  ([a-z]+) ", block[1], re.M))


BASH = 'source "$0"; COMP_WORDS=("$@"); COMP_CWORD=$(($# - 1)); _genedit; printf "%s\\n" "${COMPREPLY[@]}"'
# what is offered in place of zsh's own calls
ZSH = 'file=$1; shift; _arguments() { print -rl -- "$@" }; _describe() { print -rl -- "${(P@)4}" }; words=("$@"); CURRENT=$#; source $file'
FISH = "source $argv[1]; complete -C $argv[2]"


def by_bash(path, line):
    ran = run("bash", "--norc", "-c", BASH, path, *line)
    return set(ran.stdout.split()), ran.stderr


def by_zsh(path, line):
    """zsh has each option with what is told of it, and each word."""
    ran = run("zsh", "-f", "-c", ZSH, "zsh", path, *line)
    return set(re.findall(r"^(-[\w-]+)\[|^([a-z]+):", ran.stdout, re.M)), ran.stderr


def by_fish(path, line):
    with tempfile.TemporaryDirectory() as home:
        ran = run("fish", "--no-config", "-c", FISH, path, " ".join(line), HOME=home, XDG_CONFIG_HOME=home, XDG_DATA_HOME=home)
    return {it.split("\t")[0] for it in ran.stdout.splitlines()}, ran.stderr


def flat(found):
    """What was found, be it by one of several parts of a form."""
    return {part for it in found for part in ([it] if isinstance(it, str) else it) if part}


SHELLS = {"bash": by_bash, "zsh": by_zsh, "fish": by_fish}


def faults_of_completion(shell, path, helps):
    """The faults of a completion, beside the helps by their words; that of the program is of the word ``."""
    syntax = run(shell, "-n", path)
    if syntax.returncode or syntax.stderr:
        yield f"{path}: {shell} complains: {syntax.stderr}"
    for word, text in helps.items():
        offered = set()
        for begun in ("-", "--") if word else ("", "-", "--"):
            found, said = SHELLS[shell](path, ["genedit", *([word] if word else []), begun])
            offered |= flat(found)
            if said:
                yield f"{path}: {shell} says of `{word} {begun}`: {said}"
        wanted = options_in(text) | (set() if word else words_in(text))
        yield from (f"{path}: {shell} does not offer `{it}` behind `genedit {word}`" for it in sorted(wanted - offered))
        foreign = {it for it in offered if it.startswith("-")} - options_in(text)
        yield from (f"{path}: {shell} offers `{it}` behind `genedit {word}`" for it in sorted(foreign))
