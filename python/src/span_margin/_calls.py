"""The calls that run the program once. Files are given by path or by content, and results are objects."""
import os
from dataclasses import dataclass
from typing import TYPE_CHECKING, Any, Dict, Optional, Union

from span_margin import _program, _results
from span_margin._errors import error_of_status
from span_margin._inputs import ORDER, PARAMETER, POSITION, Inputs, SetFile, Source
from span_margin._lines import SetCounts
from span_margin._program import Deadline
from span_margin._results import Explanation, Faults, Roll, Statement, TriedOrders
from span_margin._session import Session

if TYPE_CHECKING:
    from span_margin._async_session import AsyncSession

FAULTY = (3, 4)  # the statuses with which `span faults` prints faults


@dataclass(frozen=True)
class Span:
    """A way to call the program. Several of them, with their own programs and settings, can be used in one process.

    program   the path of the program; by default the one that the environment variable SPAN names, or `span` in PATH
    timeout   how many seconds a call may take, if the call does not say it; by default there is no limit
    digits    how many digits the minor unit of amounts has; by default the usual number of the currency of the parameter set

    A file is given as its path, as its content in bytes, or as its rows: tuples, dicts or a data frame. `workers` is the number of
    threads, 1 to 16. It does not change the result. If a call takes longer than its timeout, the program is killed.

    All methods raise FileError, OutOfMemoryError, UsageError, ProgramError and TimedOut, and all but `faults` ParametersError if a
    parameter file is rejected.
    """

    program: Union[str, "os.PathLike[str]", None] = None
    timeout: Optional[float] = None
    digits: Optional[int] = None

    def __post_init__(self) -> None:
        Deadline(self.timeout)
        if self.digits is not None and self.digits < 0:
            raise ValueError(f"digits is {self.digits}, and must not be negative")
        if self.program is not None:
            path = os.fspath(self.program)
            object.__setattr__(self, "program", os.path.abspath(path) if os.path.dirname(path) else path)

    def margin(self, params: Source, positions: Source, *, workers: int = 1, timeout: Optional[float] = None) -> Statement:
        """The margins of all accounts of a position file, by `span margin`.

        Rows of positions have the columns account, contract and quantity. Raises PositionsError if the position file is rejected.
        """
        with self._inputs(timeout) as inputs:
            file = self._set_file(inputs, params, "params.csv")
            words = [f"--workers={workers}", "--", file.path, inputs.file(positions, POSITION, "positions.csv")]
            result = _results.statement(self._answer(inputs, "margin", *words), file.money, file.set_id)
            file.check(result.set)
        return result

    def explain(
        self, params: Source, positions: Source, *, account: Optional[str] = None, timeout: Optional[float] = None
    ) -> Explanation:
        """The reasons for the margins of all accounts, or of one account, by `span explain`.

        Raises what `margin` raises, and PositionsError with the code E1 if the position file does not have the account.
        """
        options = [] if account is None else [f"--account={account}"]
        with self._inputs(timeout) as inputs:
            file = self._set_file(inputs, params, "params.csv")
            words = [*options, "--", file.path, inputs.file(positions, POSITION, "positions.csv")]
            result = _results.explanation(self._answer(inputs, "explain", *words), file.money, file.set_id)
            file.check(result.set)
        return result

    def whatif(
        self, params: Source, positions: Source, orders: Source, *, workers: int = 1, timeout: Optional[float] = None
    ) -> TriedOrders:
        """What each order would do to the margin of its account, by `span whatif`.

        Rows of orders have the columns order, account, contract and quantity. All rows with the same name in order are one order. If one
        row has a fault, all orders are rejected with a PositionsError whose `file` is "orders". Otherwise raises what `margin` raises.
        """
        with self._inputs(timeout) as inputs:
            file = self._set_file(inputs, params, "params.csv")
            paths = [inputs.file(positions, POSITION, "positions.csv"), inputs.file(orders, ORDER, "orders.csv")]
            printed = self._answer(inputs, "whatif", f"--workers={workers}", "--", file.path, *paths)
            result = _results.tried_orders(printed, file.money, file.set_id)
            file.check(result.set)
        return result

    def roll(
        self, params: Source, next_params: Source, positions: Source, *, workers: int = 1, timeout: Optional[float] = None
    ) -> Roll:
        """The margins of all accounts under a parameter set and under the next one, by `span roll`.

        Raises what `margin` raises. If the fault is in the next set, `file` of the error is "next parameters" or "next positions".
        """
        with self._inputs(timeout) as inputs:
            file = self._set_file(inputs, params, "params.csv")
            following = self._set_file(inputs, next_params, "next.csv")
            paths = [file.path, following.path, inputs.file(positions, POSITION, "positions.csv")]
            printed = self._answer(inputs, "roll", f"--workers={workers}", "--", *paths)
            result = _results.roll(printed, file.money, following.money, (file.set_id, following.set_id))
            file.check(result.today.set)
            following.check(result.next.set)
        return result

    def check(self, params: Source, *, timeout: Optional[float] = None) -> SetCounts:
        """How many records of each kind a parameter set has, by `span check`."""
        with self._inputs(timeout) as inputs:
            return _results.set_counts(self._answer(inputs, "check", "--", inputs.file(params, PARAMETER, "params.csv")))

    def faults(self, params: Source, positions: Optional[Source] = None, *, timeout: Optional[float] = None) -> Faults:
        """All faults of a parameter file, or of a parameter file and a position file, by `span faults`. Empty if the files are accepted."""
        with self._inputs(timeout) as inputs:
            files = [inputs.file(params, PARAMETER, "params.csv")]
            if positions is not None:
                files.append(inputs.file(positions, POSITION, "positions.csv"))
            done = self._run(inputs, "faults", "--", *files)
        if done.status != 0 and not (done.status in FAULTY and not done.stderr):
            raise error_of_status(done.status, done.stderr)
        return _results.faults(done.stdout)

    def session(self, params: Source, positions: Source, *, workers: int = 1, timeout: Optional[float] = None) -> Session:
        """A `Session` of this program. `timeout` holds for its opening, and for each call that does not say another number of seconds."""
        return Session(params, positions, **self._settings(workers, timeout))

    def async_session(self, params: Source, positions: Source, *, workers: int = 1, timeout: Optional[float] = None) -> "AsyncSession":
        """An `AsyncSession` of this program, which is not open yet. `timeout` is as in `session`."""
        from span_margin._async_session import AsyncSession  # (here, since asyncio takes long to load)

        return AsyncSession(params, positions, **self._settings(workers, timeout))

    def _settings(self, workers: int, timeout: Optional[float]) -> Dict[str, Any]:
        """The other arguments of a session."""
        seconds = self.timeout if timeout is None else timeout
        return {"workers": workers, "timeout": seconds, "program": self.program, "digits": self.digits}

    def _inputs(self, timeout: Optional[float]) -> Inputs:
        """The files of a call that begins now."""
        return Inputs(Deadline(self.timeout if timeout is None else timeout))

    def _set_file(self, inputs: Inputs, params: Source, name: str) -> SetFile:
        """A parameter file, which the program has not read yet."""
        return SetFile(inputs.file(params, PARAMETER, name), self.digits, inputs.deadline)

    def _run(self, inputs: Inputs, *words: str) -> _program.Run:
        return _program.run(_program.command(*words, program=self.program, deadline=inputs.deadline), inputs.deadline)

    def _answer(self, inputs: Inputs, *words: str) -> bytes:
        """What a command prints. Raises an error if its status is not 0."""
        done = self._run(inputs, *words)
        if done.status:
            raise error_of_status(done.status, done.stderr)
        return done.stdout


default = Span()
margin, explain, whatif, roll, check, faults = default.margin, default.explain, default.whatif, default.roll, default.check, default.faults
