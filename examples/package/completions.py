"""Completions for bash, zsh and fish, made from the helps."""

from helps import PROGRAM

MADE = f"# made of `{PROGRAM} --help`, and of the help of each of its words"


def options_of(help):
    """Each spelling of its options."""
    return [spelling for it in help.options for spelling in it.spellings()]


def spelt(options):
    return [spelling for it in options for spelling in it.spellings()]


# bash

BASH = """\
{made}
_{program}() {{
    local word=${{COMP_WORDS[1]}} here=${{COMP_WORDS[COMP_CWORD]}} before=${{COMP_WORDS[COMP_CWORD - 1]}}
    local options= values= files= takes_files=
    COMPREPLY=()
    if [ "$COMP_CWORD" -eq 1 ]; then
        COMPREPLY=($(compgen -W '{words}' -- "$here"))
        return
    fi
    case $word in
{cases}
    esac
    case " $files " in *" $before "*) options= takes_files=1 ;; esac
    case " $values " in *" $before "*) return ;; esac
    case $here in
    -*) COMPREPLY=($(compgen -W "$options" -- "$here")) ;;
    *)
        [ -z "$takes_files" ] || mapfile -t COMPREPLY < <(compgen -f -- "$here")
        [ -z "$takes_files" ] || compopt -o filenames 2> /dev/null
        ;;
    esac
}}
complete -F _{program} {program}
"""


def bash_case(help):
    """What may stand behind a word."""
    with_value = [it for it in help.options if it.value and not it.takes_a_file()]
    with_file = [it for it in help.options if it.takes_a_file()]
    told = [
        f"options='{' '.join(options_of(help))}'",
        *([f"values='{' '.join(spelt(with_value))}'"] if with_value else []),
        *([f"files='{' '.join(spelt(with_file))}'"] if with_file else []),
        *(["takes_files=1"] if help.takes_files() else []),
    ]
    return f"    {help.word}) {' '.join(told)} ;;"


def bash(helps):
    top, *others = helps
    words = [word for word, _ in top.commands]
    listed = f"    help) COMPREPLY=($(compgen -W '{' '.join(words)}' -- \"$here\")); return ;;"
    cases = "\n".join([*map(bash_case, others), listed])
    return BASH.format(made=MADE, program=PROGRAM, words=" ".join([*words, *options_of(top)]), cases=cases)


# zsh

ZSH = """\
#compdef {program}
{made}
_{program}() {{
    local -a words_told
    words_told=(
{words}
    )
    if (( CURRENT == 2 )); then
        _describe -t words word words_told
        _arguments {options}
        return
    fi
    local word=$words[2]
    shift words
    (( CURRENT-- ))
    case $word in
{cases}
    help) _describe -t words word words_told ;;
    esac
}}
_{program} "$@"
"""


def zsh_word(text):
    """A text as one word of zsh."""
    return "'" + text.replace("'", "'\\''") + "'"


def zsh_told(text):
    """A text where `_arguments` ends one at a bracket or a colon."""
    return "".join("\\" + it if it in "[]:\\" else it for it in text)


def zsh_options(help):
    """A word for each spelling of an option: of those with a value, its name and whether it is a file."""
    for it in help.options:
        value = f":{zsh_told(it.value)}:{'_files' if it.takes_a_file() else ' '}" if it.value else ""
        for spelling in it.spellings():
            yield zsh_word(f"{spelling}[{zsh_told(it.told)}]{value}")


def zsh_case(help):
    places = [zsh_word(f"*:{zsh_told(left.strip('[]<>.'))}:_files") for left, _ in help.arguments if help.takes_files()]
    lines = [*zsh_options(help), *places[:1]]
    return f"    {help.word})\n        _arguments \\\n            " + " \\\n            ".join(lines) + "\n        ;;"


def zsh(helps):
    top, *others = helps
    words = "\n".join(f"        {zsh_word(word + ':' + zsh_told(told))}" for word, told in top.commands)
    cases = "\n".join(map(zsh_case, others))
    return ZSH.format(made=MADE, program=PROGRAM, words=words, options=" ".join(zsh_options(top)), cases=cases)


# fish


def fish_word(text):
    """A text as one word of fish."""
    return "'" + text.replace("\\", "\\\\").replace("'", "\\'") + "'"


def fish_option(where, option):
    letter = f" -s {option.letter}" if option.letter else ""
    value = "" if not option.value else " -r -F" if option.takes_a_file() else " -x"
    return f"complete -c {PROGRAM} -n {fish_word(where)}{letter} -l {option.name}{value} -d {fish_word(option.told)}"


def fish(helps):
    top, *others = helps
    first = "__fish_use_subcommand"
    lines = [MADE, f"complete -c {PROGRAM} -f"]
    lines += [f"complete -c {PROGRAM} -n {first} -a {word} -d {fish_word(told)}" for word, told in top.commands]
    lines += [fish_option(first, it) for it in top.options]
    for help in others:
        behind = f"__fish_seen_subcommand_from {help.word}"
        lines += [fish_option(behind, it) for it in help.options]
        lines += [f"complete -c {PROGRAM} -n {fish_word(behind)} -F"] if help.takes_files() else []
    words = " ".join(word for word, _ in top.commands)
    lines.append(f"complete -c {PROGRAM} -n {fish_word('__fish_seen_subcommand_from help')} -a {fish_word(words)}")
    return "\n".join(lines) + "\n"
