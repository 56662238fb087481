"""Completions for bash, zsh and fish."""

from __future__ import annotations

from help_texts import NAME, Command, Option

WRITTEN_BY = "It is written by tools/completions/write.py from the help texts."


def quoted(text: str) -> str:
    """The text as one word of bash and zsh."""
    return "'" + text.replace("'", "'\\''") + "'"


def names_of(command: Command) -> str:
    """The names of the commands just below one."""
    return " ".join([*(below.last_name() for below in command.commands), "help"])


def flags_of(command: Command) -> str:
    """The names of the options of a command."""
    return " ".join(name for option in command.options for name in option.names())


# ---- bash

BASH = """\
# Completes the words of {name} in bash. {written_by}
_{name}() {{
    local word=${{COMP_WORDS[COMP_CWORD]}} before=${{COMP_WORDS[COMP_CWORD - 1]}} command='' place=0 words='' files='' i
    # The value of an option may follow an equals sign, which is a word of its own.
    if [ "$word" = '=' ]; then
        word=''
    elif [ "$before" = '=' ]; then
        before=${{COMP_WORDS[COMP_CWORD - 2]}}
    fi
    for ((i = 1; i < COMP_CWORD; i++)); do
        case "$command ${{COMP_WORDS[i]}}" in
            {with_value})
                if [ "${{COMP_WORDS[i + 1]}}" = '=' ]; then ((i++)); fi
                ((i++))
                ;;
            *' -'?*) ;;
            ' '*) command=${{COMP_WORDS[i]}} ;;
            {nested}) command="$command ${{COMP_WORDS[i]}}" ;;
            *) ((place++)) ;;
        esac
    done
    case "$command $before" in
{values}
        *)
            case "$command $place $word" in
{words}
            esac
            ;;
    esac
    if [ "$files" ]; then
        mapfile -t COMPREPLY < <(compgen -f -- "$word")
    else
        mapfile -t COMPREPLY < <(compgen -W "$words" -- "$word")
    fi
}}
complete -o filenames -F _{name} {name}
"""


def bash_values(program: Command) -> list[str]:
    """The cases of values of options."""
    lines = []
    for command in program.below():
        for option in command.options:
            if option.value:
                words = f"words={quoted(' '.join(option.values()))}" if option.values() else ""
                does = "files=yes" if option.takes_file() else words or ":"
                patterns = " | ".join(quoted(f"{command.name} {name}") for name in option.names())
                lines.append(f"        {patterns}) {does} ;;")
    return lines


def bash_words(program: Command) -> list[str]:
    """The cases of other words: options, commands, and files where an argument names one."""
    cases = [("' 0 -'*", f"words={quoted(flags_of(program))}"), ("' 0 '*", f"words={quoted(names_of(program))}"),
             ("'help 0 '*", f"words={quoted(names_of(program))}")]
    # A command comes after those below it, since its patterns take their words, too.
    for command in reversed(program.below()):
        cases.append((f"{quoted(command.name + ' ')}*' -'*", f"words={quoted(flags_of(command))}"))
        if command.commands:
            cases.append((f"'{command.name} 0 '*", f"words={quoted(names_of(command))}"))
        for place, argument in enumerate(command.arguments):
            if argument.takes_file():
                at = f"{quoted(command.name + ' ')}*" if argument.is_repeated else f"'{command.name} {place} '*"
                cases.append((at, "files=yes"))
    return [f"                {pattern}) {does} ;;" for pattern, does in cases]


def bash(program: Command) -> str:
    """The completions for bash."""
    with_value = [quoted(f"{command.name} {name}") for command in program.below() for option in command.options
                  if option.value for name in option.names()]
    nested = [quoted(command.name) for command in program.below() if " " in command.name]
    return BASH.format(
        name=NAME, written_by=WRITTEN_BY, with_value=" | \\\n                ".join(with_value),
        nested=" | ".join(nested),
        values="\n".join(bash_values(program)), words="\n".join(bash_words(program)),
    )


# ---- zsh

ZSH = """\
#compdef {name}
# Completes the words of {name} in zsh. {written_by}
{functions}
_{name} "$@"
"""

ZSH_FUNCTION = """\
_{name}() {{
    local context state state_descr line
    local -A opt_args
    local -a commands=(
{commands}
    )
    _arguments -C \\
{options} \\
        '1: :->command' \\
        '*:: :->words'
    case $state in
        command) _describe -t commands command commands ;;
        words)
            case $line[1] in
                help) _describe -t commands command commands ;;
{cases}
            esac
            ;;
    esac
}}
"""


def zsh_text(text: str) -> str:
    """A text as part of a word of `_arguments`."""
    for sign in "\\[]:":
        text = text.replace(sign, "\\" + sign)
    return text.replace("'", "'\\''")


def zsh_option(option: Option) -> str:
    """An option as a word of `_arguments`."""
    value = ""
    if option.value:
        kind = "_files" if option.takes_file() else f"({' '.join(option.values())})" if option.values() else ""
        value = f":{zsh_text(option.value)}:{kind}"
    names, said = option.names(), f"[{zsh_text(option.summary())}]{value}"
    marks = ["*" if "several times" in option.help() else "", "=" if option.value else ""]
    if len(names) == 1:
        return f"'{marks[0]}{names[0]}{marks[1]}{said}'"
    return f"'({' '.join(names)})'{{{','.join(names)}}}'{said}'"


def zsh_name(command: Command) -> str:
    """The name of the function for a command that has others below it."""
    return NAME if command.name == NAME else f"{NAME}_{command.name.replace(' ', '_')}"


def zsh_command(command: Command) -> str:
    """The case of a command."""
    if command.commands:
        return f"                {command.last_name()}) _{zsh_name(command)} ;;"
    words = [zsh_option(option) for option in command.options]
    for place, argument in enumerate(command.arguments, 1):
        kind = "_files" if argument.takes_file() else ""
        words.append(f"'{'*' if argument.is_repeated else place}:{argument.name}:{kind}'")
    lines = [f"                {command.last_name()})", "                    _arguments \\"]
    lines += [f"                        {word} \\" for word in words]
    return "\n".join([*lines, "                    ;;"]).replace(" \\\n" + " " * 20 + ";;", "\n" + " " * 20 + ";;")


def zsh_function(command: Command) -> str:
    """The function for a command that has others below it."""
    said = [*((below.last_name(), below.about) for below in command.commands), ("help", "Print help")]
    return ZSH_FUNCTION.format(
        name=zsh_name(command),
        commands="\n".join(f"        {quoted(name + ':' + about)}" for name, about in said),
        options=" \\\n".join(f"        {zsh_option(option)}" for option in command.options),
        cases="\n".join(zsh_command(below) for below in command.commands),
    )


def zsh(program: Command) -> str:
    """The completions for zsh."""
    functions = [zsh_function(command) for command in (*program.below(), program) if command.commands]
    return ZSH.format(name=NAME, written_by=WRITTEN_BY, functions="".join(functions).rstrip("\n"))


# ---- fish

def fish_text(text: str) -> str:
    """The text as one word of fish."""
    return "'" + text.replace("\\", "\\\\").replace("'", "\\'") + "'"


def fish_option(option: Option) -> str:
    """The words of `complete` for an option."""
    words = [f"-s {option.short}"] if option.short else []
    words += [f"-l {option.long}"] if option.long else []
    if option.value:
        values = f" -a {fish_text(' '.join(option.values()))}" if option.values() else ""
        words.append("-r -F" if option.takes_file() else f"-x{values}")
    return " ".join([*words, "-d", fish_text(option.summary())])


def fish_seen(program: Command, command: Command) -> str:
    """The condition that the words are those of a command. A name may be that of a command below another one, too."""
    above = command.name.split()[:-1]
    others = [each for each in program.below() if each.last_name() == command.last_name() and each is not command]
    not_seen = [name for each in others for name in each.name.split()[:-1] if name not in above]
    seen = [f"__fish_seen_subcommand_from {name}" for name in command.name.split()]
    return "; and ".join(seen + [f"not __fish_seen_subcommand_from {name}" for name in not_seen])


def fish_commands(program: Command, command: Command) -> list[str]:
    """The lines for the commands just below one."""
    seen = "__fish_use_subcommand"
    if command is not program:
        seen = f"'{fish_seen(program, command)}; and not __fish_seen_subcommand_from {names_of(command)}'"
    none = f"complete -c {NAME} -n {seen}"
    lines = [f"{none} -a {below.last_name()} -d {fish_text(below.about)}" for below in command.commands]
    return [*lines, f"{none} -a help -d 'Print help'"]


def fish(program: Command) -> str:
    """The completions for fish."""
    none = f"complete -c {NAME} -n __fish_use_subcommand"
    lines = [f"# Completes the words of {NAME} in fish. {WRITTEN_BY}", f"complete -c {NAME} -f"]
    lines += [f"{none} {fish_option(option)}" for option in program.options]
    lines += fish_commands(program, program)
    lines.append(f"complete -c {NAME} -n '__fish_seen_subcommand_from help' -a {fish_text(names_of(program))}")
    for command in program.below():
        seen = f"complete -c {NAME} -n '{fish_seen(program, command)}'"
        lines += fish_commands(program, command) if command.commands else []
        lines += [f"{seen} {fish_option(option)}" for option in command.options]
        if any(argument.takes_file() for argument in command.arguments):
            lines.append(f"{seen} -F")
    return "\n".join(lines) + "\n"
