"""The proved engine, through its C entries: include/palmrummy.h has every byte and number of them."""
import ctypes
import hashlib
import os
import pathlib
import struct
import subprocess
import typing

import menu_nodes

ROOT = pathlib.Path(__file__).resolve().parent.parent
ARCHIVE = ROOT / "target" / "staticlib" / "libhost.a"
BUILT = ROOT / "target" / "host"
ROOM = 4096  # numbers: the list program's
VERDICT, QUERY = 370, 322  # bytes
REFUSED, ENDLESS = 1 << 31, 1 << 63

# The causes in the order in which they are judged: what is wrong, and what mends it. README.md has the same words.
CAUSES = {
    20: ("a rule text outside the grammar, or past a limit",
         "the place is an offset in the text: look at the byte there; where the text ends there, end the rule or bring it within the limits"),
    2: ("the input ends before its query, or is over 8,192 bytes",
        "pack the line again, each record once: 256 records and the longest query take 4,692 bytes"),
    1: ("a width above 4",
        "give each relation a width of 1 to 4 in its byte at the input's start, and 0 where it is absent"),
    3: ("the query is under 2 bytes, or its version is not 1",
        "see that the record count is that of the records: the query starts after them, with a byte from 10 to 1f (hexadecimal)"),
    4: ("no nodes, over 64 nodes, or over 16 constants",
        "write the line shorter, or as two lines; with no nodes, pack it again from its text"),
    5: ("the query's length is not 2 + 4 × constants + 4 × nodes",
        "pack the line again: bytes are lacking or left over at its end, or its counts are not those of its constants and nodes"),
    6: ("a node of kind 7, or with a bit set that its fields don't use",
        "pack the line again from its text: unused bits and terms are zero"),
    7: ("a node whose child's number isn't below its own; or a node, not the last, that isn't the child of exactly one node",
        "number children before their parent, and give each node but the last one parent"),
    8: ("a term that names a constant past the last one",
        "number the constants from 0, or add the missing one"),
    9: ("a record whose relation is absent, or that has another number of terms than the relation's width",
        "name a relation that the store has, with as many terms as its width"),
    10: ("over 4 columns",
         "bind by exists those that the list needn't show, or make two lines"),
    13: ("a record of the store whose relation is absent or over 15, or with a value past its width that is not zero",
         "give its relation a width, or leave the record out; set values past the width to zero"),
    15: ("over 256 different records",
         "leave out records of relations that the line doesn't name: they change no row"),
    18: ("over 4,096 numbers: rows × columns",
         "narrow the line by a record or an equality joined by and, or bind a column by exists"),
}


class NoEngine(Exception):
    """Why the engine can't be called, in one sentence."""


class Refusal(typing.NamedTuple):
    number: int
    place: int


class Verdict(typing.NamedTuple):
    """Variables and nodes by number; a list of generators for each column; constants and nodes are the form's."""
    safe: bool
    columns: list
    generators: list
    ungenerated: list
    unranged: list
    constants: list
    nodes: list


class Answer(typing.NamedTuple):
    endless: bool
    rows: list


def shared_object(archive):
    """The engine as a shared object, made from the archive where it is missing or older."""
    own = "" if archive == ARCHIVE else "-" + hashlib.sha256(os.fsencode(archive)).hexdigest()[:16]
    made = BUILT / f"libpalmrummy{own}.so"
    if not archive.is_file():
        raise NoEngine(f"{archive} is not there: run `tools/build host` at the top of the checkout, which makes target/staticlib/libhost.a")
    if made.is_file() and made.stat().st_mtime_ns > archive.stat().st_mtime_ns:
        return made
    made.parent.mkdir(parents=True, exist_ok=True)
    begun = made.with_name(f".{made.name}.{os.getpid()}")
    try:
        done = subprocess.run(["gcc", "-shared", "-o", begun, "-Wl,--whole-archive", archive, "-Wl,--no-whole-archive"], capture_output=True, text=True)
        if done.returncode:
            raise NoEngine(f"gcc makes no shared object of {archive}: {done.stderr.strip().splitlines()[0]}")
        os.replace(begun, made)
    except FileNotFoundError:
        raise NoEngine(f"gcc is not there, which makes a shared object of {archive}") from None
    finally:
        begun.unlink(missing_ok=True)
    return made


def members(number, width):
    """The places of the bits that are set, 0 the highest."""
    return [i for i in range(width) if number >> width - 1 - i & 1]


class Engine:
    def __init__(self, archive=None):
        archive = pathlib.Path(archive or ARCHIVE).resolve()
        try:
            library = ctypes.CDLL(str(shared_object(archive)))
            self.judge, self.find, self.take = library.palmrummy_verdict, library.palmrummy_answer, library.palmrummy_rule
        except (OSError, AttributeError) as error:
            raise NoEngine(f"the engine of {archive} can't be called: {error}") from None
        self.judge.argtypes, self.judge.restype = [ctypes.c_char_p, ctypes.c_size_t, ctypes.c_char_p], ctypes.c_uint32
        self.find.argtypes, self.find.restype = [ctypes.c_char_p, ctypes.c_size_t, ctypes.c_char_p, ctypes.c_size_t], ctypes.c_uint64
        self.take.argtypes = [ctypes.c_char_p, ctypes.c_size_t, ctypes.c_char_p, ctypes.POINTER(ctypes.c_uint64)]
        self.take.restype = ctypes.c_uint32

    def rule(self, text):
        """The packed query of a rule text, both as bytes; or a Refusal, whose place is an offset in the text."""
        query, place = ctypes.create_string_buffer(QUERY), ctypes.c_uint64()
        reply = self.take(text, len(text), query, ctypes.byref(place))
        return Refusal(reply // 256 % 256, place.value) if reply > REFUSED else query.raw[:reply]

    def verdict(self, data):
        """A Verdict or a Refusal."""
        out = ctypes.create_string_buffer(VERDICT)
        reply = self.judge(data, len(data), out)
        if reply > REFUSED:
            return Refusal(reply // 256 % 256, reply % 256)
        safe, count, variables, *generators, ungenerated, unranged = struct.unpack(">BB4s4QHQ", out.raw[:48])
        constants, nodes = menu_nodes.unpacked(out.raw[48:])
        return Verdict(bool(safe), list(variables[:count]), [members(g, 64) for g in generators[:count]],
                       members(ungenerated, 16), members(unranged, 64), constants, nodes)

    def answer(self, data, columns, numbers=ROOM):
        """An Answer with room for so many numbers, its rows of so many columns; or a Refusal."""
        out = ctypes.create_string_buffer(4 * numbers + 1)
        reply = self.find(data, len(data), out, 4 * numbers)
        if reply > ENDLESS:
            return Refusal(reply // 256 % 256, reply % 256)
        if reply == ENDLESS:
            return Answer(True, [])
        values = struct.unpack_from(f">{reply * columns}I", out.raw)
        return Answer(False, [values[i * columns:(i + 1) * columns] for i in range(reply)])
