"""How the test programs show what was expected beside what came: lines with a mark at the first difference, a diff of texts, a few bytes in hex."""
import difflib

WIDE = 150  # characters of a line, or of the part of it that is shown
BEFORE = 60  # of which so many stand before the difference
BYTES = 12  # shown on each side of the difference
MOST = 60  # lines of a diff


def first_difference(expected, came):
    """The first place at which two texts or byte strings differ; the end of the shorter one where it begins the other."""
    return next((i for i, (a, b) in enumerate(zip(expected, came)) if a != b), min(len(expected), len(came)))


def excerpt(text, start):
    """So much of a text as a line holds, with marks where more stands before or behind."""
    return (".. " if start else "") + text[start:start + WIDE] + (" .." if start + WIDE < len(text) else "")


def pointed(expected, came):
    """Both lines on lines of their own, long ones cut around the first difference, with a mark below it where they begin alike."""
    at = first_difference(expected, came)
    start = max(0, at - BEFORE) if max(len(expected), len(came)) > WIDE else 0
    mark = " " * (at - start + (3 if start else 0)) + f"^ character {at + 1}"
    return f"  expected: {excerpt(expected, start)}\n  came:     {excerpt(came, start)}" + (f"\n            {mark}" if at else "")


def hex_around(data, at):
    """The bytes around a place, with that one in brackets."""
    start = max(0, at - BYTES)
    here = f"[{data[at]:02x}]" if at < len(data) else "[end]"
    words = [f"{b:02x}" for b in data[start:at]] + [here] + [f"{b:02x}" for b in data[at + 1:at + 1 + BYTES]]
    return (".. " if start else "") + " ".join(words) + (" .." if at + 1 + BYTES < len(data) else "")


def hex_pointed(expected, came):
    at = first_difference(expected, came)
    return f"  byte {at} differs, of {len(expected)} expected and {len(came)} that came:\n  expected: {hex_around(expected, at)}\n  came:     {hex_around(came, at)}"


def as_text(data):
    """A text as it is, and bytes as the text that they are; None where they are none that can be shown."""
    try:
        text = data if isinstance(data, str) else data.decode()
    except UnicodeDecodeError:
        return None
    return text if all(c in "\n\t" or c.isprintable() for c in text) else None


def ended_lines(text):
    """The lines of a text, each with its end; a last one without it is followed by words that say so."""
    lines = text.split("\n")
    return [line + "\n" for line in lines[:-1]] + ([lines[-1] + "\n\\ no line feed at the end\n"] if lines[-1] else [])


def diff(expected, came, of_expected="expected", of_came="came"):
    """A unified diff of two texts; of bytes that are no text, those around the first difference."""
    texts = as_text(expected), as_text(came)
    if None in texts:
        whole = [data.encode() if isinstance(data, str) else data for data in (expected, came)]
        return f"  expected is {of_expected}, what came is {of_came}\n{hex_pointed(*whole)}"
    lines = "".join(difflib.unified_diff(*map(ended_lines, texts), of_expected, of_came)).split("\n")[:-1]
    lines = [line if len(line) <= 2 * WIDE else excerpt(line, 0) for line in lines]
    return "\n".join(lines[:MOST] + ([f".. {len(lines) - MOST} lines more"] if len(lines) > MOST else []))
