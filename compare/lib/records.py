"""A trace taken apart: its well-formed records, and from the first damaged one on the bytes as they are; each in the words of tools/trace."""
import importlib.machinery
import importlib.util
import io
import struct

from lib.rust import COMPARE


def tool():
    """tools/trace as a module: to start it for each trace would take longer than the replays."""
    loader = importlib.machinery.SourceFileLoader("trace", str(COMPARE.parent / "tools/trace"))
    module = importlib.util.module_from_spec(importlib.util.spec_from_loader("trace", loader))
    loader.exec_module(module)
    return module


TOOL = tool()
# the first four bytes of a record, length and kind, and the bytes that it has
SIZES = {struct.pack("<HH", struct.calcsize(form) + 2, kind): struct.calcsize(form) + 4 for kind, form, _ in TOOL.KINDS.values()}
RAW_SHOWN = 16  # bytes of what is no record


def walk(data, most=None):
    """How many well-formed records a trace starts with, at most so many, and the offset behind them."""
    count, at = 0, 0
    while count != most and (size := SIZES.get(data[at:at + 4])) and at + size <= len(data):
        count, at = count + 1, at + size
    return count, at


def parts(data):
    """The records and, where there is one, the damaged tail: pieces that can be left out one by one."""
    out, at = [], 0
    while (size := SIZES.get(data[at:at + 4])) and at + size <= len(data):
        out.append(data[at:at + size])
        at += size
    return out + [data[at:]] * (at < len(data))


def told(piece):
    """One such piece in words."""
    try:
        return TOOL.unpack_record(piece, 0)[0]
    except TOOL.Bad as e:
        return f"damaged, {e}: raw {piece[:RAW_SHOWN].hex(' ')}" + " .." * (len(piece) > RAW_SHOWN)


def readable(data):
    """The lines from which tools/trace makes these bytes again."""
    _, at = walk(data)
    raw = [data[i:i + TOOL.RAW_PER_LINE] for i in range(at, len(data), TOOL.RAW_PER_LINE)]
    return [told(piece) for piece in parts(data[:at])] + ["raw " + piece.hex(" ") for piece in raw]


def packed(lines):
    """The bytes of lines, and 1 where one is bad, which tools/trace then tells."""
    out = io.BytesIO()
    bad = TOOL.pack(io.BytesIO(lines), out)
    return out.getvalue(), bad


def unpacked(data, offset=0):
    """The lines of bytes, the first of them at this offset, and 1 where a record is damaged, which tools/trace then tells."""
    out = io.BytesIO()
    bad = TOOL.unpack(io.BytesIO(data), out, offset)
    return out.getvalue(), bad


def count(number, word):
    return f"{number} {word}" + "s" * (number != 1)


def summary(data):
    """What a trace has, in a few words."""
    number, at = walk(data)
    text = count(number, "record")
    if at < len(data):
        text += f" and {count(len(data) - at, 'damaged byte')}"
    looks_like_lines = data and not number and data.isascii() and data.decode().replace("\n", " ").isprintable()
    return text + " (is this text? tools/trace pack makes a trace of lines)" * bool(looks_like_lines)
