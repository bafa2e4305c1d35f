#!/usr/bin/env python3
"""Writes what a shell completes after tbc, from the table of commands: tools/pack/completions.py bash|zsh|fish"""
import sys
import commands


def quoted(text):
    return text.replace("'", "'\\''")


def bash(table):
    print("# bash completion for tbc\n_tbc() {\n    local word=${COMP_WORDS[COMP_CWORD]} words= files=yes")
    print('    if ((COMP_CWORD == 1)); then\n        words="' + " ".join(it.name for it in table) + ' --help --version"\n    else\n        case ${COMP_WORDS[1]} in')
    for command in table:
        names = " ".join(name for option in command.options for name in option.names if name.startswith("--"))
        words = " ".join(it.name for it in table) if command.name == "help" else names
        print(f'        {command.name}) words="{words}"{"" if command.arguments else " files="} ;;')
    print("        esac\n    fi")
    for name, choices in sorted({(name, " ".join(option.choices)) for it in table for option in it.options if option.choices for name in option.names}):
        print(f'    if [[ ${{COMP_WORDS[COMP_CWORD - 1]}} == {name} ]]; then\n        mapfile -t COMPREPLY < <(compgen -W "{choices}" -- "$word")\n        return\n    fi')
    print('    if ((COMP_CWORD > 1)) && [[ -n $files && $word != -* ]]; then\n        mapfile -t COMPREPLY < <(compgen -f -- "$word")')
    print('    else\n        mapfile -t COMPREPLY < <(compgen -W "$words" -- "$word")\n    fi\n}\ncomplete -o filenames -F _tbc tbc')


def zsh_option(option):
    text = option.text.replace("[", "\\[").replace("]", "\\]").replace(":", "\\:")
    choices = "(" + " ".join(option.choices) + ")" if option.choices else " "
    value = f":{option.value}:" + ("_files" if option.value == "FILE" else choices) if option.value else ""
    return [f"'{name}[{quoted(text)}]{value}'" for name in option.names if name.startswith("--")]


def zsh(table):
    print("#compdef tbc\n_tbc() {\n    local -a commands=(")
    for command in table:
        print(f"        '{command.name}:{quoted(command.about)}'")
    print("    )\n    if ((CURRENT == 2)); then\n        _describe command commands\n        return\n    fi\n    case $words[2] in")
    for command in table:
        options = " ".join(it for option in command.options for it in zsh_option(option))
        files = " '*:file:_files'" if command.arguments else ""
        takes = "_describe command commands" if command.name == "help" else f"_arguments {options}{files}"
        print(f"    {command.name}) {takes} ;;")
    print('    esac\n}\n_tbc "$@"')


def fish(table):
    print("# fish completion for tbc")
    without = " ".join(it.name for it in table if not it.arguments)
    print(f"complete -c tbc -n '__fish_seen_subcommand_from {without}' -f")
    print(f"complete -c tbc -n '__fish_seen_subcommand_from help' -a '{' '.join(it.name for it in table)}'")
    for command in table:
        print(f"complete -c tbc -n __fish_use_subcommand -a {command.name} -d '{quoted(command.about)}'")
        for option in command.options:
            for name in option.names:
                if name.startswith("--"):
                    takes = (" -r" if option.value == "FILE" else " -x") if option.value else ""
                    takes += f" -a '{' '.join(option.choices)}'" if option.choices else ""
                    print(f"complete -c tbc -n '__fish_seen_subcommand_from {command.name}' -l {name[2:]}{takes} -d '{quoted(option.text)}'")


{"bash": bash, "zsh": zsh, "fish": fish}[sys.argv[1]](commands.read()[2])
