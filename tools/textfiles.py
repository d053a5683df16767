"""What the tools share about files: texts read in whatever encoding an editor saved them, and output written whole or
not at all."""

import codecs
import os
import sys
import tempfile
from pathlib import Path

# The longer marks first, since the mark of UTF-32 begins with that of UTF-16.
BYTE_ORDER_MARKS = (
    (codecs.BOM_UTF8, "utf-8"),
    (codecs.BOM_UTF32_LE, "utf-32-le"),
    (codecs.BOM_UTF32_BE, "utf-32-be"),
    (codecs.BOM_UTF16_LE, "utf-16-le"),
    (codecs.BOM_UTF16_BE, "utf-16-be"),
)

# How many bytes of a text without a mark are looked at to tell UTF-16 from UTF-8.
BYTES_LOOKED_AT = 64


def read(name):
    """A file's bytes, or those of standard input for -."""
    if name == "-":
        return sys.stdin.buffer.read()
    return Path(name).read_bytes()


def decoded(content):
    """The bytes as text with plain line ends. What is no character of the encoding becomes a replacement character."""
    for mark, encoding in BYTE_ORDER_MARKS:
        if content.startswith(mark):
            text = content[len(mark) :].decode(encoding, errors="replace")
            break
    else:
        text = content.decode(encoding_without_mark(content), errors="replace")
    return text.replace("\r\n", "\n").replace("\r", "\n")


def encoding_fault(content):
    """Where a text has bytes that are no characters of its encoding, in words; None where it has none."""
    for mark, encoding in (*BYTE_ORDER_MARKS, (b"", encoding_without_mark(content))):
        if content.startswith(mark):
            break
    try:
        content[len(mark) :].decode(encoding)
    except UnicodeDecodeError as error:
        line = content[: len(mark) + error.start].count(b"\n") + 1
        return f"not {encoding.upper()}: a byte of line {line} is no character. Save the text as UTF-8"
    return None


def encoding_without_mark(content):
    """UTF-16 where every second byte of the text's beginning is 0 and no other is."""
    beginning = content[:BYTES_LOOKED_AT]
    if len(content) >= 2 and len(content) % 2 == 0:
        if not any(beginning[1::2]) and all(beginning[::2]):
            return "utf-16-le"
        if not any(beginning[::2]) and all(beginning[1::2]):
            return "utf-16-be"
    return "utf-8"


def put_out(content):
    """All bytes to standard output."""
    sys.stdout.flush()
    sys.stdout.buffer.write(content)
    sys.stdout.buffer.flush()


def write_output(content):
    """All bytes to standard output. Ends the tool where they cannot be written."""
    try:
        if sys.stdout is None:
            sys.exit("standard output is closed")
        put_out(content)
    except OSError as error:
        # The interpreter would try once more at its end, and complain.
        sys.stdout = None
        sys.exit(f"standard output: {error.strerror}")


def write_file(name, content):
    """A file with these bytes. Until all of them are written, the file stays as it was."""
    path = Path(name).resolve()
    if path.exists() and not path.is_file():
        # A device or a pipe cannot be replaced.
        path.write_bytes(content)
        return
    handle, draft = tempfile.mkstemp(dir=path.parent, prefix=path.name + ".")
    try:
        with open(handle, "wb") as opened:
            opened.write(content)
        os.chmod(draft, mode_for(path))
        os.replace(draft, path)
    except BaseException:
        os.unlink(draft)
        raise


def mode_for(path):
    """The rights of the file that is replaced, or those that a new file gets."""
    if path.exists():
        return path.stat().st_mode & 0o7777
    mask = os.umask(0)
    os.umask(mask)
    return 0o666 & ~mask
