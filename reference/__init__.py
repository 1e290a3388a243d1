"""A second implementation of `span`, written from METHOD, FORMATS, SESSIONS, FAULTS and WHATIF alone.

`method.py` is the method, in the order of METHOD. `records.py`, `parameters.py`, `positions.py` and `faults.py` read the files, `text.py`
writes the lines, `session.py` answers requests, and `command.py` has the commands. `limits.py` has the limits. Tests call `run`.
"""

from .command import run

__all__ = ["run"]
