"""Position and order files: the faults Q1 to Q5 and O1 to O6, and binding to the parameters, B1 to B3. FORMATS, Q, O, and B."""

from __future__ import annotations

from typing import Dict, List, NamedTuple, Optional, Tuple

from . import limits, records
from .parameters import Contract, Fault

Holdings = Dict[str, int]
"""METHOD, Positions: the net quantities of an account by contract. "The account holds the contract if the net quantity is not 0"."""

Accounts = Dict[str, Holdings]
"""FORMATS, Statement: the holdings of all accounts, in order of first appearance."""


class Entry(NamedTuple):
    """FORMATS, Position file and Order file: a record. Its owner is its order, or its account if it is a position."""

    record: int
    owner: str
    account: str
    contract: str
    quantity: int


def read_positions(text: str) -> Tuple[List[Entry], List[Fault]]:
    """FORMATS, Q: the records of a position file, and Q1 to Q5 by record."""
    return read_entries(text, "Q", 3, limits.MAX_ACCOUNTS, "Q5 TooManyAccounts")


def read_orders(text: str) -> Tuple[List[Entry], List[Fault]]:
    """FORMATS, O: the records of an order file, and O1 to O6 by record. Only the first of them is ever reported."""
    return read_entries(text, "O", 4, limits.MAX_ORDERS, "O5 TooManyOrders")


def read_entries(text: str, letter: str, width: int, most_owners: int, too_many: str) -> Tuple[List[Entry], List[Fault]]:
    """FORMATS, Q, O: the records of a file, and their faults by record. Q5 "counts only records without Q1 to Q4".

    O6: a record "has another account than the first record of its order". A position record cannot have it: its owner is its account.
    """
    entries: List[Entry] = []
    faults: List[Fault] = []
    account_of: Dict[str, str] = {}
    for number, fields in enumerate(records.records_of(text), 1):
        code = record_fault(fields, letter, width)
        if code is None and fields[0] not in account_of:
            account_of[fields[0]] = fields[-3]
            code = too_many if len(account_of) == most_owners + 1 else None
        if code is None and account_of[fields[0]] != fields[-3]:
            code = "O6 SecondAccount"
        if code is None:
            entries.append(Entry(number, fields[0], fields[-3], fields[-2], int(fields[-1])))
        else:
            faults.append(Fault(code, number))
    return entries, faults


def record_fault(fields: List[str], letter: str, width: int) -> Optional[str]:
    """FORMATS, Q, O: the lowest-numbered fault of Q1 to Q4 or O1 to O4 that the record has."""
    if len(fields) != width:
        return letter + "1 FieldCount"
    if not all(map(records.NAME.fullmatch, fields[:-1])):
        return letter + "2 BadName"
    if not records.WHOLE_NUMBER.fullmatch(fields[-1]):
        return letter + "3 BadNumber"
    if abs(int(fields[-1])) > limits.MAX_QUANTITY:
        return letter + "4 OutOfRange"
    return None


def bind(entries: List[Entry], contracts: Dict[str, Contract], before: Accounts) -> Tuple[Accounts, List[Fault]]:
    """FORMATS, B: the holdings of each owner after its records, and B1 to B3, each by record.

    METHOD, Net quantity: "the sum of the quantities in its position records of that contract. The sum is exact for any number of records."
    METHOD, Orders: "Its quantities are added to the net quantities of its account. No order affects another." The owners of position
    records are accounts, which start from nothing. "B2 and B3 ignore the records with B1."
    """
    unknown = [Fault("B1 UnknownContract", entry.record, entry.owner) for entry in entries if entry.contract not in contracts]
    known = [entry for entry in entries if entry.contract in contracts]
    nets: Accounts = {}
    first_of: Dict[Tuple[str, str], int] = {}
    first_of_owner: Dict[str, int] = {}
    for entry in known:
        if entry.owner not in nets:
            nets[entry.owner] = dict(before.get(entry.account, {}))
        nets[entry.owner][entry.contract] = nets[entry.owner].get(entry.contract, 0) + entry.quantity
        first_of.setdefault((entry.owner, entry.contract), entry.record)
        first_of_owner.setdefault(entry.owner, entry.record)
    over = [(record, owner) for (owner, contract), record in first_of.items() if abs(nets[owner][contract]) > limits.MAX_NET]
    held = {owner: {contract: quantity for contract, quantity in net.items() if quantity != 0} for owner, net in nets.items()}
    many = [(record, owner) for owner, record in first_of_owner.items() if len(held[owner]) > limits.MAX_HELD]
    faults = unknown + [Fault("B2 NetOutOfRange", *place) for place in over] + [Fault("B3 TooManyHeld", *place) for place in many]
    return held, faults
