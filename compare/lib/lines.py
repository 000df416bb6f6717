"""Two outputs side by side: the first line in which they differ, and how a line is shown. An output may have millions of lines."""
SHOWN = 200  # characters of a line
BLOCK = 2**16


def lines(output):
    """The lines of an output, each with its end, which the last may lack."""
    parts = output.split(b"\n")
    return [part + b"\n" for part in parts[:-1]] + parts[-1:] * (parts[-1] != b"")


def count(output):
    return output.count(b"\n") + (output != b"" and not output.endswith(b"\n"))


def first(a, b):
    """The index of the first line that differs; None where none does."""
    if a == b:
        return None
    at = next(at for at in range(0, len(a) + BLOCK, BLOCK) if a[at:at + BLOCK] != b[at:at + BLOCK])
    while a[at:at + 1] == b[at:at + 1]:
        at += 1
    return a.count(b"\n", 0, at)


def line(output, index):
    """A line with its end, which the last may lack; nothing where there are fewer."""
    at = 0
    for _ in range(index):
        at = output.find(b"\n", at) + 1
        if not at:
            return b""
    return output[at:output.find(b"\n", at) + 1 or len(output)]


def shown(output, index):
    """A line as it stands, or in Python's marks where it has more than printable characters."""
    found = line(output, index)
    if not found:
        return "(nothing)"
    text = found.removesuffix(b"\n").decode("utf-8", "backslashreplace")
    text = text if text.isascii() and text.isprintable() and text.strip() else ascii(text)
    text = text if len(text) <= SHOWN else f"{text[:SHOWN]}.. ({len(text)} characters)"
    return text if found.endswith(b"\n") else text + " (without the line's end)"


def difference(expected, got):
    """The first difference, in one line."""
    at = first(expected, got)
    return f"line {at + 1}: crate {shown(expected, at)}, program {shown(got, at)}"
