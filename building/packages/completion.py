"""Completion of a program's words and options, for bash."""
from __future__ import annotations

from collections.abc import Iterable, Iterator

from building.packages.words import FILE, FOLDER, TEXT, Argument, Program

# `before` is the word behind which the next one stands, and `now` what is written of it so far
HEAD = """# bash completion of {name}, made of its help
_{name}() {{
    local now=${{COMP_WORDS[COMP_CWORD]}} before=${{COMP_WORDS[COMP_CWORD - 1]}} options=
    COMPREPLY=()
    if [[ $COMP_CWORD -eq 1 ]]; then
        COMPREPLY=($(compgen -W "{words}" -- "$now"))
        return
    fi
    case ${{COMP_WORDS[1]}}:$before in"""
MIDDLE = """    esac
    case ${COMP_WORDS[1]} in"""
TAIL = """    esac
    if [[ $now == -* ]]; then
        COMPREPLY=($(compgen -W "$options" -- "$now"))
    fi
}}
complete -o bashdefault -o default -F _{name} {name}
"""


def completion(program: Program) -> str:
    """Where nothing is found names of files are completed, but where something else than a file is asked for."""
    names = [*(word.name for word in program.words), *flags_of(program.arguments)]
    return "\n".join([
        HEAD.format(name=program.name, words=" ".join(names)), *values(program), MIDDLE, *options(program),
        TAIL.format(name=program.name),
    ])  # fmt: skip


def flags_of(arguments: Iterable[Argument]) -> list[str]:
    return [flag for one in arguments for flag in one.flags if flag.startswith("--")]


def values(program: Program) -> Iterator[str]:
    """What may stand behind each option: the same behind one that several words have is told once."""
    asked: dict[str, list[str]] = {}
    for word in program.words:
        for one in word.arguments:
            for flag in one.flags:
                asked.setdefault(reply(one), []).append(f"{word.name}:{flag}")
    for said, places in asked.items():
        if said:
            yield f"        {' | '.join(places)}) {said} ;;"


def reply(one: Argument) -> str:
    if one.choices:
        return f'COMPREPLY=($(compgen -W "{" ".join(one.choices)}" -- "$now")); return'
    if one.takes == FOLDER:
        return 'compopt -o filenames; COMPREPLY=($(compgen -d -- "$now")); return'
    return {FILE: "return", TEXT: "compopt +o default +o bashdefault; return"}.get(one.takes, "")


def options(program: Program) -> Iterator[str]:
    for word in program.words:
        chosen = [choice for one in word.arguments if not one.flags for choice in one.choices]
        replied = f'; COMPREPLY=($(compgen -W "{" ".join(chosen)}" -- "$now"))' if chosen else ""
        yield f'        {word.name}) options="{" ".join(flags_of(word.arguments))}"{replied} ;;'
