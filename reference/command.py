"""The commands and their exit statuses: FORMATS, Commands, All output, and Fault lines and statuses."""

from __future__ import annotations

import io
import os
import re
import sys
from typing import BinaryIO, Dict, List, Optional, Sequence, Tuple, Union

from . import limits, records
from .faults import Rejected, accepted_files, accepted_orders, accepted_parameters, all_faults
from .session import Session
from .text import change_lines, check_line, explanation_lines, statement_lines

USAGE_STATUS = 2
FILE_STATUS = 6
USAGE = "usage: span margin|explain|session PARAMS POSITIONS, whatif PARAMS POSITIONS ORDERS, faults PARAMS [POSITIONS], check PARAMS"

FILE_COUNTS = {"margin": (2,), "explain": (2,), "whatif": (3,), "session": (2,), "faults": (1, 2), "check": (1,)}
"""FORMATS, Commands: the numbers of files that a command takes."""

OPTIONS = {"margin": "--workers", "explain": "--account", "whatif": "--workers", "session": "--workers"}
"""FORMATS, Commands: the option that a command may have."""


def command_line_of(words: List[str]) -> Tuple[str, List[str], Optional[str]]:
    """FORMATS, Commands: the command, its files, and the name after `--account`.

    "The argument after `--account` is NAME, even if it begins with `-`. `--account=NAME` is the same. After `--` no argument is an option.
    A wrong N is a usage error, and so is a malformed, missing or second NAME."
    """
    command, rest = "".join(words[:1]), words[1:]
    option = OPTIONS.get(command, "-")
    values: List[str] = []
    files: List[str] = []
    while rest:
        argument = rest.pop(0)
        if argument == "--":
            files, rest = files + rest, []
        elif argument == option:
            values, rest = values + (rest[:1] or [""]), rest[1:]
        elif argument.startswith(option + "="):
            values.append(argument[len(option) + 1 :])
        elif argument.startswith("-"):
            raise Rejected(USAGE_STATUS, USAGE)
        else:
            files.append(argument)
    if len(files) not in FILE_COUNTS.get(command, ()) or not are_values(option, values):
        raise Rejected(USAGE_STATUS, USAGE)
    return command, files, values[0] if option == "--account" and values else None


def are_values(option: str, values: List[str]) -> bool:
    """FORMATS, Commands: NAME is a name, and N is 1 to 16, which "may begin with zeros and with a `+`". One at most is given."""
    form = records.NAME if option == "--account" else re.compile(r"\+?0*([1-9]|1[0-6])")
    return len(values) <= 1 and all(map(form.fullmatch, values))


def read_file(name: str, stdin: BinaryIO) -> Optional[str]:
    """FORMATS, All files: the bytes of a file, as Latin-1, or None if it cannot be read or is too long."""
    try:
        if name == "/dev/stdin":
            data = stdin.read(limits.FILE_CAP + 1)
        else:
            with open(name.encode("latin-1"), "rb") as file:
                data = file.read(limits.FILE_CAP + 1)
    except (OSError, ValueError):
        return None
    return data.decode("latin-1") if len(data) <= limits.FILE_CAP else None


def read_files(names: List[str], stdin: BinaryIO) -> List[str]:
    """FORMATS, Commands: "All are read, in argument order, before any is checked". Status 6 names the first that cannot be read."""
    texts: List[str] = []
    for name in names:
        text = read_file(name, stdin)
        if text is None:
            raise Rejected(FILE_STATUS, f"file: {name}")
        texts.append(text)
    return texts


def margin(texts: List[str], account: Optional[str]) -> List[str]:
    """FORMATS, Statement: the R and T lines of all accounts, "in order of first appearance"."""
    parameters, accounts = accepted_files(texts)
    return [text for name, holdings in accounts.items() for text in statement_lines(parameters, name, holdings)]


def explain(texts: List[str], account: Optional[str]) -> List[str]:
    """FORMATS, Explanation: all accounts, or one. Faults: "4. E1 `UnknownAccount`, if the position file does not have the account"."""
    parameters, accounts = accepted_files(texts)
    if account is not None and account not in accounts:
        raise Rejected(4, f"positions: E1 UnknownAccount account {account}")
    names = list(accounts) if account is None else [account]
    return [text for name in names for text in explanation_lines(parameters, name, accounts[name])]


def whatif(texts: List[str], account: Optional[str]) -> List[str]:
    """FORMATS, Evaluated orders: "each order by itself on the positions of its account", "in order of first appearance"."""
    parameters, accounts = accepted_files(texts)
    entries, after = accepted_orders(texts[2], parameters, accounts)
    account_of: Dict[str, str] = {entry.owner: entry.account for entry in entries}
    lines: List[str] = []
    for order, holdings in after.items():
        name = account_of[order]
        lines += change_lines(parameters, order, name, accounts.get(name, {}), holdings)
    return lines


def check(texts: List[str], account: Optional[str]) -> List[str]:
    """FORMATS, Commands: `span check`: "one line with the counts of the parameter set"."""
    return [check_line(accepted_parameters(texts[0]))]


COMMANDS = {"margin": margin, "explain": explain, "whatif": whatif, "check": check}


def execute(words: List[str], stdin: BinaryIO, stdout: BinaryIO) -> int:
    """FORMATS, Commands, and Fault lines and statuses: carry out a command, and give its status if it is not rejected."""
    command, names, account = command_line_of(words)
    if command == "session":
        return session(names, stdin, stdout)
    texts = read_files(names, stdin)
    if command == "faults":
        status, faults = all_faults(texts[0], texts[1] if len(texts) > 1 else None)
        lines = [fault + "\n" for fault in faults]
    else:
        status, lines = 0, COMMANDS[command](texts, account)
    stdout.write("".join(lines).encode("latin-1"))
    return status


def session(names: List[str], stdin: BinaryIO, stdout: BinaryIO) -> int:
    """SESSIONS, What a session is: "It writes and flushes a whole answer before it takes the next request"."""
    if "/dev/stdin" in names:
        raise Rejected(FILE_STATUS, "file: /dev/stdin")
    parameters, accounts = accepted_files(read_files(names, stdin))
    lines = (whole.decode("latin-1") for whole in stdin)
    for answer in Session(parameters, accounts, lambda name: read_file(name, stdin)).answers(lines):
        stdout.write(answer.encode("latin-1"))
        stdout.flush()
    return 0


def text_of(word: Union[bytes, str]) -> str:
    """A word of the command line as Latin-1, like the bytes of a file."""
    return (word if isinstance(word, bytes) else os.fsencode(word)).decode("latin-1")


def run(words: Sequence[Union[bytes, str]], stdin: bytes = b"") -> Tuple[int, bytes, bytes]:
    """Run a command such as `["margin", "params.csv", "positions.csv"]`, and give status, standard output and standard error."""
    output = io.BytesIO()
    try:
        return execute(list(map(text_of, words)), io.BytesIO(stdin), output), output.getvalue(), b""
    except Rejected as rejected:
        return rejected.status, output.getvalue(), (rejected.line + "\n").encode("latin-1")


def main() -> int:
    """Run the command of the process's own command line."""
    try:
        return execute(list(map(text_of, sys.argv[1:])), sys.stdin.buffer, sys.stdout.buffer)
    except Rejected as rejected:
        sys.stderr.buffer.write((rejected.line + "\n").encode("latin-1"))
        return rejected.status
