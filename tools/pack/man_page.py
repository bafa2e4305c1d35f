#!/usr/bin/env python3
"""Writes the man page tbc(1) from the table of commands: tools/pack/man_page.py >tbc.1"""
import commands

# What one does first, in the folder of the examples; tools/pack/package_test.sh runs each.
EXAMPLES = [
    ("Compile a source, and run it on the test machine", "tbc run hello.bas"),
    ("Play a game: what you type is its keyboard", "tbc play guess.bas"),
    ("Play the transcripts of a game again", "tbc test guess.bas"),
    ("Show what is wrong with sources, and what helps", "tbc check hello.bas guess.bas"),
    ("Debug a program forth and back; h lists the commands", "tbc debug guess.bas"),
    ("Make a PRG file for a Commodore 64 or an emulator, and a disk with it", "tbc build cave.bas && tbc disk games.d64 cave.prg"),
    ("Show what each line takes, also as a page", "tbc profile primes.bas --html primes.html"),
    ("Make a web page of a game, to be played in a browser", "tbc page guess.bas"),
    ("Assemble a text as people write it, and list what comes of it", "tbc assemble asm/sieve.asm sieve.prg && tbc dis sieve.prg"),
]

STATUSES = [
    (0, "done; of a program that ran: it returned, by END or, without --strict, by a fault"),
    (1, "a source or another input was refused; with test, a transcript failed"),
    (2, "the command line was wrong"),
    (3, "a file could not be read or written"),
    (4, "out of memory"),
    (5, "the program had not ended at the limit"),
    (6, "the program waits for a key that it was not given"),
    (7, "the machine went wrong"),
    (8, "with --strict: a fault ended the program"),
]


def roff(text):
    """A text with what roff would read as its own written out."""
    text = text.replace("\\", "\\e").replace("-", "\\-")
    return "\\&" + text if text.startswith((".", "'")) else text


def main():
    about, version, table = commands.read()
    print(f'.TH TBC 1 "" "tbc {version}" "User Commands"')
    print(f".SH NAME\ntbc \\- {roff(about[0].lower() + about[1:])}")
    print(".SH SYNOPSIS")
    for command in table:
        for usage in command.usage:
            words = usage.split()
            print(f".B tbc {words[1]}")
            if words[2:]:
                print(roff(" ".join(words[2:])))
            print(".br")
    print(".SH COMMANDS")
    for command in table:
        print(f".SS {command.name}\n{roff(command.about)}.")
        for name, text in command.arguments:
            print(f".TP\n.I {roff(name)}\n{roff(text)}")
        for option in command.options:
            value = f" \\fI{roff(option.value)}\\fR" if option.value else ""
            print(f".TP\n\\fB{roff(', '.join(option.names))}\\fR{value}\n{roff(option.text)}")
    print(".SH EXIT STATUS")
    for status, text in STATUSES:
        print(f".TP\n.B {status}\n{roff(text)}")
    print(".SH EXAMPLES")
    for text, words in EXAMPLES:
        print(f".PP\n{roff(text)}:\n.PP\n.RS\n.nf\n\\fB{roff(words)}\\fR\n.fi\n.RE")
    print(".SH SEE ALSO\nThe documents and examples that come with the program: /usr/share/doc/tbc.")


main()
