"""Accepting a file, or rejecting it with its first fault, and listing all faults: FORMATS, Fault lines and statuses to All faults."""

from __future__ import annotations

from typing import List, Optional, Tuple

from .parameters import Fault, Parameters, read_parameters
from .positions import Accounts, Entry, bind, read_orders, read_positions

REJECTED_PARAMETERS = 3
REJECTED_POSITIONS = 4


class Rejected(Exception):
    """FORMATS, Fault lines and statuses: "A rejected command prints one line on standard error", and ends with a status."""

    def __init__(self, status: int, line: str) -> None:
        """The status and the line of the rejection."""
        super().__init__(line)
        self.status = status
        self.line = line


def fault_line(file: str, fault: Fault) -> str:
    """FORMATS, Fault lines: `positions: CODE at record N account NAME`; without a name unless the fault is one of B1 to B3."""
    line = f"{file}: {fault.code} at record {fault.record}"
    if fault.owner:
        line += f" order {fault.owner}" if file == "orders" else f" account {fault.owner}"
    return line


def accepted_parameters(text: str) -> Parameters:
    """FORMATS, Faults: "1. PARAMS: reading (P), then checking (C)"."""
    parameters, faults = read_parameters(text)
    if faults:
        raise Rejected(REJECTED_PARAMETERS, fault_line("parameters", faults[0]))
    return parameters


def accepted_positions(text: str, parameters: Parameters) -> Accounts:
    """FORMATS, Faults: "2. POSITIONS: reading (Q), then binding to the parameters (B)"."""
    entries, faults = read_positions(text)
    accounts, binding_faults = bind(entries, parameters.contract, {})
    if faults + binding_faults:
        raise Rejected(REJECTED_POSITIONS, fault_line("positions", (faults + binding_faults)[0]))
    return accounts


def accepted_orders(text: str, parameters: Parameters, accounts: Accounts) -> Tuple[List[Entry], Accounts]:
    """FORMATS, Faults: "5. `whatif`: ORDERS (O), then binding (B). One fault rejects all orders." The holdings are by order."""
    entries, faults = read_orders(text)
    after, binding_faults = bind(entries, parameters.contract, accounts)
    if faults + binding_faults:
        raise Rejected(REJECTED_POSITIONS, fault_line("orders", (faults + binding_faults)[0]))
    return entries, after


def accepted_files(texts: List[str]) -> Tuple[Parameters, Accounts]:
    """FORMATS, Faults: "this order: 1. PARAMS, 2. POSITIONS", which the commands with positions have in common."""
    parameters = accepted_parameters(texts[0])
    return parameters, accepted_positions(texts[1], parameters)


def all_faults(parameters_text: str, positions_text: Optional[str]) -> Tuple[int, List[str]]:
    """FORMATS, All faults: the status, and a line for each fault: P, C if there is no P, Q, and B if there is no other."""
    parameters, parameter_faults = read_parameters(parameters_text)
    entries, position_faults = read_positions(positions_text or "")
    if not parameter_faults and not position_faults:
        position_faults = bind(entries, parameters.contract, {})[1]
    lines = [fault_line("parameters", fault) for fault in parameter_faults] + [fault_line("positions", fault) for fault in position_faults]
    return REJECTED_PARAMETERS if parameter_faults else REJECTED_POSITIONS if position_faults else 0, lines
