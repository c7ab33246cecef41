#!/usr/bin/env python3
"""Menu lines as text: packs a store and a query into an input of the list program, lists and explains its rows, and shows such an input as text again.

menu.py pack STORE.txt QUERY.txt -o INPUT.bin    a packed input; without -o on standard output
menu.py run STORE.txt QUERY.txt                  the line's list, with names
menu.py explain STORE.txt QUERY.txt              whether the line is safe and why not, its tree, the generators of its columns, whether it is endless
menu.py show INPUT.bin                           a packed input as text

For QUERY.txt all three take a rule, in a file whose name ends in .rule. For STORE.txt QUERY.txt they take one text: a store, a line `query` and a query or a
rule; show prints such a text. run and explain also take INPUT.bin: one file that is empty or has a byte below 9 is a packed input. A file named - is standard
input. run and explain call the proved engine, and so does pack where it packs a rule: a shared object that gcc makes from target/staticlib/libhost.a, which
`tools/build host` makes; --library names another archive.

Store text, a thing a line, from # on a comment:
    relation 0 joint 2      relation 0 is called joint, and its records have 2 values; relations without such a line are absent
    joint 7 3               a record; 0 7 3 is the same. Any order; a record given twice is kept once by the engine

Query text, over any number of lines, from # on a comment:
    columns x y             optional, the first line: the free variables of the formula, neither more nor fewer; x is variable 0, y is variable 1
    joint(x, y) and not exists z (weld(x, z) or z = 7)

    formula   parts joined by or; a part is units joined by and; either joins from the left
    unit      not unit | exists name unit | (formula) | true | false | relation(term, ..) | variable = term
    term      a variable or a number up to 4294967295
So not and exists reach over the one unit that follows them: exists z weld(x, z) and z = 7 is (exists z weld(x, z)) and z = 7, whose last z is free.

A relation is a name of the store text, whose width is then checked; or r0 .. r15, which is not checked: the engine does it. Variables are names other than _,
and v0 .. v15 have these numbers. The columns line gives the numbers 0, 1, .. in its order; another name gets, where it first stands, the least number that is
not given yet and that the text doesn't write as v0 .. v15. One name is one number throughout: an exists may bind again a name that is used outside of it.
Numbers enter the constants once each, by first use. Nodes are numbered left subtree, right subtree, parent.

Rule text, which is Datalog on one line:
    q(X0,X2):-r3(X0,17),not r1(X2),X0 = X2.

    rule      q, or q(variable,..) with the columns; then :- and goals parted by commas; then a full stop
    goal      a relation such as r3(X0,17), the same after not, or an equality such as X0 = X1 or X0 = 17
The columns are distinct, ascend, and each stands in a goal. Variables are X0 to X15, relations r0 to r15 with at most 4 terms, numbers up to 4294967295 without
leading zeros; the only spaces are the one after not and the two around =. The rows are those for which some numbers for the other variables make every goal
true. The engine packs a rule, as the goals joined by and from the left with an exists around them for each other variable, the highest number innermost; it
counts at most 64 nodes and 16 different numbers. One line feed at the end is left out, and nothing else: a rule has no comments and no blank lines. In one text
with a store, and on standard input, what starts with q( or q:- is a rule; over a store with a relation q, what starts with q( and has no :- is a query text.

Exit status 2 for what can't be packed, with one line on standard error that names line and column, what was read and what could stand there: text outside this
grammar, more than 4 columns, 64 nodes, 16 different numbers, 16 variables or 256 different records, a number over 4294967295, an input over 8192 bytes. For a
rule the line ends with the engine's number and place, an offset that is one below the column. No file is written then. Exit status 1 where the engine refuses
to list an input (run) or to judge it (explain), which is told in words with what mends it; of show, for an input that the engine would refuse before it looks
for rows: it says what it could read, each fault, and where the input ends.
"""
import argparse
import contextlib
import os
import pathlib
import signal
import sys

from menu_engine import Engine, NoEngine
from menu_explain import Explanation, list_lines
from menu_nodes import Names
from menu_pack import Packed, Refused, pack, pack_one, parted, read  # pack and pack_one are for those who import this
from menu_rule import ENDING, is_rule, read_rule
from menu_show import show


def read_bytes(name):
    if name != "-":
        return pathlib.Path(name).read_bytes()
    if sys.stdin is None:
        raise Refused("standard input is closed")
    return sys.stdin.buffer.read()


def as_text(data, name):
    try:
        return data.decode("utf-8-sig")
    except UnicodeDecodeError:
        raise Refused(f"{name} is not a text in UTF-8") from None


def packed_rule(options, store, rule, line, names):
    """What a store text and a rule pack into, with their names: the engine packs a rule, and is made only where there is one."""
    return read_rule(lambda text: engine(options).rule(text), store, rule, line, names)


def packed_one(options, data):
    """What one text packs into, with its names."""
    name = options.files[0]
    if name.endswith(ENDING):
        raise Refused(f"{name} is a rule without a store: name the store text before it")
    store, query, line = parted(as_text(data, name), name)
    if is_rule(query, store):
        return packed_rule(options, store, query.encode(), line, (name, name))
    return read(store, query, line, (name, name))


def packed_texts(options):
    """The same of one or two texts."""
    files = options.files
    if len(files) == 1:
        return packed_one(options, read_bytes(files[0]))
    if files == ["-", "-"]:
        raise Refused("standard input is one text, and can't be both")
    store, data = as_text(read_bytes(files[0]), files[0]), read_bytes(files[1])
    if files[1].endswith(ENDING) or files[1] == "-" and is_rule(data.decode("utf-8-sig", "replace"), store):
        return packed_rule(options, store, data, 1, files)
    return read(store, as_text(data, files[1]), names=files)


def packed_files(options):
    """The same, or a packed input that is one already."""
    if len(options.files) == 2:
        return packed_texts(options)
    data = read_bytes(options.files[0])
    if not data or min(data) < 9:
        return Packed(data, Names())
    return packed_one(options, data)


def write_file(name, data):
    """Writes a file under another name and renames it: where anything fails, no file is left, and one that was there stays."""
    path = pathlib.Path(os.path.realpath(name))
    if path.exists() and not path.is_file():
        raise Refused(f"{name} is not a file that can be replaced: without -o the bytes go to standard output")
    begun = path.with_name(f".{path.name}.{os.getpid()}")
    try:
        begun.write_bytes(data)
        os.replace(begun, path)
    except OSError as error:
        raise OSError(error.errno, error.strerror, name) from None
    finally:
        with contextlib.suppress(OSError):
            begun.unlink()


def put(data):
    if sys.stdout is None:
        raise Refused("standard output is closed")
    sys.stdout.buffer.write(data)
    sys.stdout.flush()


def put_lines(lines):
    """Line by line, as they come: the last ones may take long."""
    for line in lines:
        put(f"{line}\n".encode())


# ---- the commands: each hands back the exit status

def pack_command(options):
    data = packed_texts(options).data
    put(data) if options.output in (None, "-") else write_file(options.output, data)
    return 0


def show_command(options):
    text, sound = show(read_bytes(options.file))
    put(text.encode())
    return 0 if sound else 1


def engine(options):
    """The engine, made once."""
    if not options.engine:
        options.engine = Engine(options.library)
        signal.signal(signal.SIGINT, signal.SIG_DFL)  # an interrupt ends a long call too
    return options.engine


def run_command(options):
    packed = packed_files(options)
    lines, listed = list_lines(engine(options), *packed)
    put_lines(lines)
    return 0 if listed else 1


def explain_command(options):
    packed = packed_files(options)
    explanation = Explanation(engine(options), *packed)
    put_lines(explanation.lines())
    return 0 if explanation.judged else 1


class Parser(argparse.ArgumentParser):
    """One line for what is not understood."""

    def error(self, message):
        self.exit(2, f"{self.prog}: {message}; {self.prog} --help says how it is called\n")


class Files(argparse.Action):
    """One or two files."""

    def __call__(self, parser, options, files, option=None):
        if len(files) > 2:
            parser.error(f"{files[2]} is a third file")
        options.files = files


COMMANDS = [
    ("pack", pack_command, "STORE.txt QUERY.txt -o INPUT.bin", "Packs a store and a query into an input of the list program."),
    ("run", run_command, "STORE.txt QUERY.txt", "Lists the rows that satisfy a query over a store, with names."),
    ("explain", explain_command, "STORE.txt QUERY.txt", "Says whether a query is safe and why not, its tree, its generators, and whether it is endless."),
    ("show", show_command, "INPUT.bin", "Shows a packed input as text."),
]
FILES = "a store text and a query text or a rule, or one text that has both; - is standard input"


def parser():
    whole = Parser(prog="menu.py", usage="menu.py pack | run | explain | show", description=__doc__, formatter_class=argparse.RawDescriptionHelpFormatter)
    commands = whole.add_subparsers(metavar="COMMAND", required=True, help="pack, run, explain or show; each has a --help of its own")
    for name, command, usage, purpose in COMMANDS:
        words = commands.add_parser(name, prog=f"menu.py {name}", usage=f"menu.py {name} {usage}", allow_abbrev=False,
                                    description=f"{purpose} menu.py --help has the form of the texts.")
        words.set_defaults(command=command, engine=None)
        if name == "show":
            words.add_argument("file", metavar="INPUT.bin", help="a packed input; - is standard input")
        else:
            words.add_argument("files", metavar="FILE", nargs="+", action=Files, help=FILES if name == "pack" else f"{FILES}; or one packed input")
        if name == "pack":
            words.add_argument("-o", "--output", metavar="INPUT.bin", help="the file to write; without it the bytes go to standard output")
        if name != "show":
            used = "; it packs rules" if name == "pack" else ""
            words.add_argument("--library", metavar="LIBHOST.a", help=f"the engine's static library, in place of target/staticlib/libhost.a{used}")
    return whole


def main(words):
    options = parser().parse_args(words)
    try:
        return options.command(options)
    except (Refused, NoEngine) as reason:
        print(f"menu.py: {reason}", file=sys.stderr)
    except OSError as error:
        if not error.filename:  # nothing more is written there at the end
            os.dup2(os.open(os.devnull, os.O_WRONLY), 1)
        print(f"menu.py: {error.filename or 'standard output'}: {error.strerror}", file=sys.stderr)
    return 2


if __name__ == "__main__":
    sys.exit(main(sys.argv[1:]))
