"""Writes to standard output or to a file, whole or not at all."""
import os
import secrets
import sys

from refused import write_fault


def write(name, pieces) -> None:
    """Writes pieces of bytes to standard output, or to the file of that name: under another name beside it, which it gets in the end."""
    try:
        if name is None:
            to_output(pieces)
        elif os.path.exists(name) and not os.path.isfile(name):
            to_device(name, pieces)
        else:
            to_file(os.path.realpath(name), pieces)
    except OSError:
        raise write_fault() from None


def to_output(pieces) -> None:
    if sys.stdout is None:  # it is closed, and its number may be another file's
        raise write_fault()
    write_all(sys.stdout.fileno(), pieces)


def to_device(name: str, pieces) -> None:
    """Writes to what is no plain file, such as a pipe, which has to stay what it is."""
    number = os.open(name, os.O_WRONLY | os.O_CLOEXEC)
    try:
        write_all(number, pieces)
    finally:
        os.close(number)


def to_file(name: str, pieces) -> None:
    part = os.path.join(os.path.dirname(name), f".hosttrace-{secrets.token_hex(8)}.part")
    number = os.open(part, os.O_WRONLY | os.O_CREAT | os.O_EXCL | os.O_CLOEXEC, 0o666)
    try:
        try:
            write_all(number, pieces)
            os.fsync(number)
        finally:
            os.close(number)
        os.replace(part, name)
    except BaseException:
        os.unlink(part)
        raise


def write_all(number: int, pieces) -> None:
    for piece in pieces:
        left = memoryview(piece)
        while left:
            left = left[os.write(number, left):]
