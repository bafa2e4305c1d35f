"""The table of commands, as the program's own help tells it: read from tools/help.txt, which CI compares with the program."""
import re
from pathlib import Path

HELP = Path(__file__).resolve().parents[1] / "help.txt"


class Option:
    def __init__(self, names, value, text, choices):
        self.names, self.value, self.text, self.choices = names, value, text, choices


class Command:
    def __init__(self, name, about, usage, arguments, options):
        self.name, self.about, self.usage, self.arguments, self.options = name, about, usage, arguments, options


def rows(text, head):
    """The rows under a heading of a help text: a word or words, and what they are."""
    found = re.search(rf"^{head}:\n((?:  .*\n?)+)", text, re.M)
    return re.findall(r"^ {2,6}(\S.*?)(?: {2,}(.*))?$", found[1], re.M) if found else []


def option_of(words, text):
    names = re.findall(r"--?[\w-]+", words)
    value = re.search(r"<(.*?)>", words)
    choices = re.search(r"\[possible values: (.*?)\]|; (time) is", text or "")
    return Option(names, value[1] if value else None, text, (choices[1] or choices[2]).split(", ") if choices else [])


def read():
    """What the program is, its version, and its commands."""
    parts = dict(re.findall(r"^== tbc ?(.*)\n((?:(?!== ).*\n?)*)", HELP.read_text(), re.M))
    about = parts["--help"].split("\n")[0]
    version = parts["--version"].split()[1]
    commands = []
    for name, short in rows(parts["--help"], "Commands"):
        text = parts.get(f"{name} --help")
        if not text:  # the library's own, which says no more of itself
            commands.append(Command(name, short, [f"tbc {name} [COMMAND]"], [], []))
        else:
            usage = [it.strip() for it in re.search(r"^Usage: ((?:.*\n)+?)\n", text, re.M)[1].splitlines()]
            options = [option_of(*it) for it in rows(text, "Options")]
            commands.append(Command(name, short, usage, rows(text, "Arguments"), options))
    return about, version, commands
