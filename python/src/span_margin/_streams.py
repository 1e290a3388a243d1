"""How the commands of the package read and write, and how they end.

Standard streams are read and written by their descriptors. Python's own file of an output stream may write only a part of its data and
return a smaller count (if PYTHONUNBUFFERED is set), and may fail once more when Python exits.
"""
import argparse
import errno
import os
import sys
from typing import Any, Callable, List, NoReturn, Optional, TextIO

from span_margin._errors import SpanError, visible
from span_margin._inputs import replace

NOT_FOUND, REJECTED, NO_FILE = 1, 2, 6  # exit statuses; those from 2 on are the same as in span
STATUSES = """exit status:
  0  success
  1  cheapest-close: no order that was found reaches the target
  2  usage error or rejected input
  3  span rejects the parameter file
  4  span rejects the position file
  5  span ran out of memory
  6  a file or stream could not be read or written
"""
PART = 1 << 20  # bytes of standard input that are read at once


class Ended(Exception):
    """Why a command ends, and its exit status."""

    def __init__(self, status: int, message: str) -> None:
        super().__init__(message)
        self.status = status


def finish(name: str, command: Callable[[], None]) -> None:
    """Calls a command. If it fails, one line on standard error says why, if that can be written, and Python exits with its status."""
    try:
        return command()
    except Ended as ended:
        status, message = ended.status, str(ended)
    except SpanError as error:
        status, message = error.status or REJECTED, str(error)
    try:
        _write_all(sys.stderr, 2, f"{name}: {visible(message)}\n".encode())
    except OSError:
        pass  # there is only the exit status to say it
    sys.exit(status)


class Arguments(argparse.ArgumentParser):
    """Reads a command line. A usage error is one line, too."""

    def error(self, message: str) -> NoReturn:
        raise Ended(REJECTED, f"{message}; {self.prog} --help prints the usage")

    def print_help(self, file: Any = None) -> None:
        write_output("help text", self.format_help().encode("utf-8"))


def printable(words: str) -> str:
    """A text with spaces for the characters that cannot be shown."""
    return "".join(letter if letter.isprintable() else " " for letter in words).strip()


def read_file(name: str, what: str) -> bytes:
    """The bytes of a file. `what` is its name in messages."""
    try:
        with open(name, "rb") as file:
            return file.read()
    except OSError as error:
        raise Ended(NO_FILE, f"the {what} cannot be read: {error.strerror}") from None


def read_input(what: str) -> bytes:
    """Standard input up to its end."""
    parts: List[bytes] = []
    try:
        _check_open(sys.stdin)
        while True:
            part = os.read(0, PART)
            if not part:
                return b"".join(parts)
            parts.append(part)
    except OSError as error:
        raise Ended(NO_FILE, f"the {what} cannot be read: {error.strerror}") from None


def write_output(what: str, data: bytes) -> None:
    """Writes to standard output."""
    try:
        _write_all(sys.stdout, 1, data)
    except OSError as error:
        raise Ended(NO_FILE, f"the {what} cannot be written: {error.strerror}") from None


def write_file(name: Optional[str], what: str, data: bytes) -> None:
    """Replaces a file by a complete one, or writes to standard output if there is no name."""
    if name is None:
        return write_output(what, data)
    try:
        replace(name, data)
    except (OSError, ValueError) as error:
        reason = error.strerror if isinstance(error, OSError) else "not a regular file"
        raise Ended(NO_FILE, f"the {what} cannot be written to {printable(name)}: {reason}") from None


def _check_open(stream: Optional[TextIO]) -> None:
    """Raises OSError if a standard stream was closed when Python started. A file opened since then may have its descriptor."""
    if stream is None:
        raise OSError(errno.EBADF, os.strerror(errno.EBADF))


def _write_all(stream: Optional[TextIO], descriptor: int, data: bytes) -> None:
    _check_open(stream)
    left = memoryview(data)
    while left:
        left = left[os.write(descriptor, left):]
