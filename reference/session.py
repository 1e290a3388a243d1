"""A session: requests, answers and rejected requests. SESSIONS."""

from __future__ import annotations

from typing import Callable, Dict, Iterable, Iterator, List, NoReturn, Optional, Sequence

from . import limits, records
from .faults import Rejected, accepted_parameters
from .method import margin_of
from .parameters import Parameters
from .positions import Accounts, Entry, bind
from .text import change_lines, check_line, explanation_lines, line, statement_lines, total_line

FIELD_COUNTS: Dict[str, Sequence[int]] = {
    "MARGIN": [1, 2],
    "EXPLAIN": [2],
    "TRY": range(5, 3 + 2 * limits.MAX_PAIRS + 1, 2),
    "FILL": range(4, 2 + 2 * limits.MAX_PAIRS + 1, 2),
    "SET": [2],
    "POSITIONS": [1],
}
"""SESSIONS, Requests: the numbers of fields. "`TRY` and `FILL` take 1 to 64 pairs `contract,quantity`"."""

FIRST_PAIR = {"TRY": 4, "FILL": 3}
"""SESSIONS, Requests: the number of the field with the first contract."""


class Refused(Exception):
    """SESSIONS, Answers: `refused,N,WHAT`: "request N was rejected and changed nothing". The text is WHAT."""


def refuse(code: str, field: int) -> NoReturn:
    """SESSIONS, Rejected requests: `request: CODE at field F`. "Field 0 is the whole line"."""
    raise Refused(f"request: {code} at field {field}")


def requests_of(lines: Iterable[str]) -> Iterator[str]:
    """SESSIONS, Requests: the requests of the input, whose lines come with their LF.

    "A request is a line that ends in LF or CR LF. One CR at the end of a line is not part of the request. An empty line has no number and
    no answer. At the end of the input, the last line is a request even without a line end."
    """
    for whole in lines:
        request = whole[:-1] if whole.endswith("\n") else whole
        request = request[:-1] if request.endswith("\r") else request
        if request:
            yield request


def fields_of(request: str) -> List[str]:
    """SESSIONS, Requests: "There are no quotes. The file name of `SET` is the rest of the line, commas included"."""
    return request.split(",", 1) if request.startswith("SET,") else request.split(",")


def check_form(request: str, fields: List[str]) -> None:
    """SESSIONS, Rejected requests: X1 to X6. "The first code in this table that applies, and the lowest field with this fault"."""
    if len(request) > limits.MAX_REQUEST:
        refuse("X1 LineTooLong", 0)
    if fields[0] not in FIELD_COUNTS:
        refuse("X2 UnknownRequest", 1)
    if len(fields) not in FIELD_COUNTS[fields[0]]:
        refuse("X3 FieldCount", 0)
    first_pair = FIRST_PAIR.get(fields[0], len(fields) + 1)
    quantities = range(first_pair + 1, len(fields) + 1, 2)
    for field in range(2, len(fields) + 1):
        well_formed = is_file_name if fields[0] == "SET" else is_name
        if field not in quantities and not well_formed(fields[field - 1]):
            refuse("X4 BadName", field)
    for field in quantities:
        if not records.WHOLE_NUMBER.fullmatch(fields[field - 1]):
            refuse("X5 BadNumber", field)
    for field in quantities:
        if abs(int(fields[field - 1])) > limits.MAX_QUANTITY:
            refuse("X6 OutOfRange", field)


def is_name(field: str) -> bool:
    """SESSIONS, Rejected requests: an order, account or contract name, as FORMATS, Names and numbers has it."""
    return records.NAME.fullmatch(field) is not None


def is_file_name(field: str) -> bool:
    """SESSIONS, Rejected requests: X4 if a file name "is empty or not UTF-8"."""
    try:
        return field.encode("latin-1").decode("utf-8") != ""
    except UnicodeDecodeError:
        return False


class Session:
    """SESSIONS, What a session is: "It keeps a parameter set and a list of accounts with their net positions in memory"."""

    def __init__(self, parameters: Parameters, accounts: Accounts, read_file: Callable[[str], Optional[str]]) -> None:
        """SESSIONS, Start and end: the accepted files. `read_file` gives the text of a later file, or None if it cannot be read."""
        self.parameters = parameters
        self.accounts = accounts
        self.read_file = read_file

    def answers(self, lines: Iterable[str]) -> Iterator[str]:
        """SESSIONS, Start and end, Answers: answer 0, then the answer of each request: its lines, and `done,N` or `refused,N,WHAT`."""
        yield check_line(self.parameters) + "done,0\n"
        for number, request in enumerate(requests_of(lines), 1):
            try:
                yield "".join(self.answer(request)) + f"done,{number}\n"
            except Refused as refused:
                yield f"refused,{number},{refused}\n"

    def answer(self, request: str) -> List[str]:
        """SESSIONS, Requests: what each request does, and the lines of its answer."""
        fields = fields_of(request)
        check_form(request, fields)
        if fields[0] == "MARGIN":
            return self.margin(fields[1:])
        if fields[0] == "EXPLAIN":
            return explanation_lines(self.parameters, self.known(fields[1]), self.accounts[fields[1]])
        if fields[0] == "TRY":
            account = fields[2]
            after = self.bound(account, fields, FIRST_PAIR["TRY"])
            return change_lines(self.parameters, fields[1], account, self.accounts.get(account, {}), after)
        if fields[0] == "FILL":
            return [self.fill(fields)]
        if fields[0] == "SET":
            return [self.set(fields[1])]
        return self.positions()

    def known(self, account: str) -> str:
        """SESSIONS, Rejected requests: E1 if the account "is not in the list"."""
        if account not in self.accounts:
            refuse("E1 UnknownAccount", 2)
        return account

    def margin(self, asked: List[str]) -> List[str]:
        """SESSIONS, Requests: `MARGIN` has the R and T lines of all accounts, `MARGIN,account` those of one."""
        accounts = [self.known(account) for account in asked] or list(self.accounts)
        return [text for account in accounts for text in statement_lines(self.parameters, account, self.accounts[account])]

    def bound(self, account: str, fields: List[str], first_pair: int) -> Dict[str, int]:
        """SESSIONS, Rejected requests: what the account holds after all pairs of the request, or B1, B2 or B3.

        The pairs are bound like the records of one order, and the number of the contract's field is the record's number. "The field of B2
        is the first one that names the contract", and the field of B3 is the account.
        """
        pairs = range(first_pair, len(fields), 2)
        entries = [Entry(field, account, account, fields[field - 1], int(fields[field])) for field in pairs]
        after, faults = bind(entries, self.parameters.contract, self.accounts)
        for fault in faults[:1]:
            refuse(fault.code, first_pair - 1 if fault.code.startswith("B3") else fault.record)
        return after[account]

    def fill(self, fields: List[str]) -> str:
        """SESSIONS, Requests: `FILL` "adds to the account's net position", and "adds an unknown account at the end of the list"."""
        account = fields[1]
        if account not in self.accounts and len(self.accounts) == limits.MAX_ACCOUNTS:
            refuse("Q5 TooManyAccounts", 2)
        self.accounts[account] = self.bound(account, fields, FIRST_PAIR["FILL"])
        return total_line(self.parameters, account, margin_of(self.parameters, self.accounts[account]))

    def set(self, name: str) -> str:
        """SESSIONS, Requests, SET: `SET` "replaces the parameter set, keeps all positions".

        "The answer names the first account that holds one, and its first missing contract in the order of the old parameter set."
        """
        text = None if name == "/dev/stdin" else self.read_file(name)
        if text is None:
            raise Refused(f"file: {name}")
        try:
            parameters = accepted_parameters(text)
        except Rejected as rejected:
            raise Refused(rejected.line) from None
        for account, holdings in self.accounts.items():
            for contract in self.parameters.contracts:
                if contract.name in holdings and contract.name not in parameters.contract:
                    raise Refused(f"positions: B1 UnknownContract account {account} contract {contract.name}")
        self.parameters = parameters
        return check_line(parameters)

    def positions(self) -> List[str]:
        """SESSIONS, Requests, Rare cases: "`POSITIONS` lists an account's contracts in the order of the parameter file".

        "An account that holds nothing has a record of quantity 0 in the first contract of the parameter set. If the set has no contract,
        the account has no record."
        """
        lines: List[str] = []
        for account, holdings in self.accounts.items():
            listed = [contract for contract in self.parameters.contracts if contract.name in holdings] or self.parameters.contracts[:1]
            lines += [line(account, contract.name, holdings.get(contract.name, 0)) for contract in listed]
        return lines
