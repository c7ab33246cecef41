"""The command lines of the test programs: a usage made of the program's head comment, and one line and exit status 2 where other words are given."""
import argparse


class Options(argparse.ArgumentParser):
    def __init__(self, text):
        super().__init__(description=text, formatter_class=argparse.RawDescriptionHelpFormatter, allow_abbrev=False)

    def error(self, message):
        self.exit(2, f"{self.prog}: {message}; --help says what it takes\n")


def number(text):
    """A whole number, as an option has it."""
    if not (text.isascii() and text.isdigit()):
        raise argparse.ArgumentTypeError(f"{text!r} is no whole number")
    return int(text)
