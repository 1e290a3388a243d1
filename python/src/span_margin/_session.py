"""Sessions: one process of the program that keeps a parameter set and all positions, and answers requests about them."""
import os
import weakref
from collections import deque
from functools import partial
from types import TracebackType
from typing import (
    Any, Callable, Dict, Iterable, Iterator, List, Literal, Mapping, NamedTuple, NoReturn, Optional, Tuple, Type, TypeVar, Union, overload,
)

from span_margin import _attribution, _closing, _program, _questions
from span_margin._attribution import Attribution
from span_margin._closing import CheapestClose, Price
from span_margin._channel import Channel
from span_margin._errors import ProgramError, SessionEnded, SpanError, TimedOut, error_of_status, visible
from span_margin._inputs import PARAMETER, POSITION, Inputs, Source
from span_margin._lines import AccountTotal, SetCounts
from span_margin._program import SLICE, Deadline
from span_margin._questions import NAME, Explained, Legs, Question, Try
from span_margin._results import AccountExplanation, AccountMargin, Positions, Statement, TriedOrder, TriedOrders

Result = TypeVar("Result")
Work = Callable[["Desk", Deadline], Result]  # asks a copy of the session many questions
Prepare = Callable[[AccountExplanation], Work[Result]]  # checks arguments against the account, before the copy is opened
NEVER = Deadline()


class Outcome(NamedTuple):
    """What became of a request whose caller did not get the answer.

    state   accepted, refused, "not yet" (no answer has come), "not sent" (it was withdrawn, and is never sent), or unknown (the session
            ended before the answer)
    result  what the call would have returned, if a fill or a new parameter set was accepted
    error   what the call would have raised, if the request was refused or the session ended
    """

    state: Literal["accepted", "refused", "not yet", "not sent", "unknown"]
    result: Union[AccountTotal, SetCounts, None] = None
    error: Union[SpanError, ValueError, None] = None


class Left:
    """A request whose caller did not get the answer, since it was interrupted or its time was up.

    request  the request, such as `FILL,RIVER-01,CLX5,10`
    key      the key of the fill, or None; two entries with the same key are one fill
    sent     whether it was sent; otherwise it was withdrawn, and changes nothing
    """

    def __init__(self, question: Question[Any]) -> None:
        self.of = question
        self.request: str = "".join(question.request.lines[:1]).rstrip("\n")
        self.key: Optional[str] = question.request.key and question.request.key.name

    @property
    def sent(self) -> bool:
        return self.of.request.sent

    def outcome(self, timeout: Optional[float] = 0) -> Outcome:
        """What became of the request. Waits up to `timeout` seconds for its answer; None waits until it is there."""
        request = self.of.request
        if not request.sent:
            return Outcome("not sent")
        if not request.wait(Deadline(timeout), SLICE):
            return Outcome("not yet")
        if request.end:
            return Outcome("unknown", error=request.end.of_call())
        if not self.of.changes:
            return Outcome("refused" if request.refused else "accepted")
        try:
            told = self.of.told()
        except SpanError as error:  # the answer cannot be read
            return Outcome("accepted", error=error)
        return Outcome("refused", error=told) if isinstance(told, (SpanError, ValueError)) else Outcome("accepted", told)

    def __repr__(self) -> str:
        return f"<{visible(self.request)}: {self.outcome().state}>"


class Desk:
    """What the two kinds of sessions share: the channel, the time that a call has, and the changes that were left."""

    def __init__(
        self, params: Source, positions: Source, *, workers: int = 1, timeout: Optional[float] = None,
        program: Union[str, "os.PathLike[str]", None] = None, digits: Optional[int] = None,
    ) -> None:
        Deadline(timeout)
        self._arguments = (params, positions, workers, program)
        self._timeout, self._digits = timeout, digits
        self._left: List[Left] = []
        self._copies: "Dict[int, weakref.ref[Copy]]" = {}  # that calls use
        self._channel: Optional[Channel] = None
        self._opening: Optional[Question[SetCounts]] = None

    def _prepare(self, deadline: Deadline) -> Tuple[Channel, Question[SetCounts]]:
        """The channel, which is not started yet, and the question of the opening."""
        params, positions, workers, program = self._arguments
        inputs = Inputs(deadline)
        try:
            content = inputs.content(params, PARAMETER)
            files = [inputs.write(content, "params.csv"), inputs.file(positions, POSITION, "positions.csv")]
            words = ["session", f"--workers={workers}", "--", *files]
            command = _program.command(*words, least=_program.SESSIONS, program=program, deadline=deadline)
            self._opening = _questions.opened(content, self._digits, inputs)
            self._channel = Channel(command, self._opening.request)
            if deadline.left() == 0:  # perhaps it was abandoned before it had a channel
                raise deadline.passed()
            return self._channel, self._opening
        except BaseException:
            inputs.close()
            raise

    def _open(self, deadline: Deadline) -> None:
        """Opens the session, in a thread that waits."""
        channel, opening = self._prepare(deadline)
        channel.start()
        if not opening.request.wait(deadline):
            raise self._timed_out(opening, deadline)
        told = opening.told()
        if isinstance(told, Exception):
            raise told

    _is_copy = False

    def _abandon(self) -> None:
        """Ends the session and its copies, or an opening that failed or was interrupted, and does not wait."""
        for copy in [found() for found in list(self._copies.values())]:
            if copy:
                copy._abandon()
        if self._channel:
            self._channel.close(wait=False, kill=self._is_copy)
        if self._opening:
            self._opening.request.leave(drop=True)

    def __del__(self) -> None:
        if self.__dict__.get("_channel"):
            self._abandon()

    def __repr__(self) -> str:
        return f"<{type(self).__name__}, {'closed' if self.closed else f'set {self.set}'}>"

    def __reduce__(self) -> NoReturn:
        raise TypeError(f"{type(self).__name__} cannot be pickled or copied: it is a running process")

    @property
    def set(self) -> str:
        """The id of the parameter set in use."""
        return self._channel.used.set if self._channel else ""

    @property
    def closed(self) -> bool:
        """Whether the session is not open: it was closed, or its process has ended."""
        return self._channel is None or self._channel.closing or not self._channel.is_alive()

    @property
    def left(self) -> Tuple[Left, ...]:
        """The fills and new parameter sets that were sent and whose calls were interrupted, or ran out of time, before they returned."""
        return tuple(self._left)

    def _open_channel(self) -> Channel:
        """The channel. Raises SessionEnded if the session was never opened."""
        if self._channel is None:
            raise SessionEnded("the session is not open")
        return self._channel

    def _deadline(self, timeout: Union[Deadline, float, None]) -> Deadline:
        """When a call has to end that begins now, or that has begun."""
        if isinstance(timeout, Deadline):
            return timeout
        seconds = self._timeout if timeout is None else timeout
        return NEVER if seconds is None else Deadline(seconds)

    def _leave(self, question: Question[Any]) -> Left:
        """Withdraws the request of a call that ends without its answer. If it was sent and changes something, it is kept in `left`."""
        left = Left(question)
        question.request.leave(drop=not question.changes)
        if question.changes and left.sent and all(it.of is not question for it in self._left):
            self._left.append(left)
        return left

    def _timed_out(self, question: Question[Any], deadline: Deadline) -> TimedOut:
        """Leaves a request whose time is up, and returns the error."""
        left = self._leave(question)
        error = TimedOut(f"the session did not answer within {deadline.seconds:g} seconds", left.request, left.sent)
        error._left = left
        return error

    # --- Questions, in a thread that waits for the answers ---

    def _on_copy(self, copy: "Copy", work: Work[Result], deadline: Deadline) -> Result:
        """What many questions to a copy find out. The copy is opened and ended here, and ends with the session."""
        try:
            self._copies[id(copy)] = weakref.ref(copy)
            self._open_channel().check()
            copy._open(deadline)
            return work(copy, deadline)
        except SessionEnded as error:
            self._open_channel().check()
            if error.status is None:
                raise
            raise error_of_status(error.status, error.line) from error
        finally:
            copy._abandon()
            self._copies.pop(id(copy), None)  # (an interrupt may come before it is there)

    def _wait_for(self, question: Question[Result], timeout: Union[Deadline, float, None]) -> Result:
        """The answer to a question. Raises its error if it is rejected.

        All from the sending to the return is in one `try`: whatever interrupts it, the request is withdrawn, or kept in `left`. An
        interrupt that comes when this has returned is like one after the call: the caller does not get what the call returned.
        """
        told: Union[Result, Exception, None] = None
        try:
            deadline, request = self._deadline(timeout), question.request
            (self._channel or self._open_channel()).put(request)
            if not request.wait(deadline):
                told = self._timed_out(question, deadline)
                raise told
            told = question.told()
            if isinstance(told, Exception):
                raise told
            return told
        except BaseException as error:
            if error is not told:
                self._leave(question)
            raise

    def _wait_for_each(self, questions: Iterable[Question[Result]], deadline: Deadline) -> Iterator[Result]:
        """The answers to questions whose answers may be dropped. The program works on the next one while the caller uses an answer."""
        channel, asked = self._open_channel(), deque[Question[Result]]()
        try:
            for question in questions:
                asked.append(question)
                channel.put(question.request)
                if len(asked) > 1:
                    yield self._answer(asked[0], deadline)
                    asked.popleft()
            while asked:
                yield self._answer(asked[0], deadline)
                asked.popleft()
        finally:
            for question in asked:
                question.request.leave(drop=True)

    def _answer(self, question: Question[Result], deadline: Deadline) -> Result:
        """The answer to a question that was sent. Raises its error if it is rejected."""
        if not question.request.wait(deadline):
            raise self._timed_out(question, deadline)
        told = question.told()
        if isinstance(told, Exception):
            raise told
        return told


class Copy(Desk):
    """A session of its own that has one account, as it was explained, and the parameter set of that time. No trade reaches it."""

    _is_copy = True

    def __init__(self, desk: Desk, explained: Explained) -> None:
        self._whole = explained.whole
        held = [(explained.whole.account, held.contract, held.quantity) for it in explained.whole for held in it.held]
        super().__init__(explained.content, held, program=desk._open_channel().command[0], digits=desk._digits)

    def _open(self, deadline: Deadline) -> None:
        super()._open(deadline)
        if len(self._whole) and self._wait_for(_questions.explanation(self._whole.account), deadline) != self._whole:
            raise ProgramError(f"a copy of the session explains {self._whole.account} otherwise than the session")


class Session(Desk):
    """A parameter set and positions in the memory of a process `span session`, which answers requests about them.

    Threads may share a session. Fills and a new set affect later calls of all threads. The positions are lost when the session ends, so
    save `positions()` if you need them. Close a session, or use it in a `with` statement.

    Legs are a dict from contracts to quantities, positive if bought and negative if sold. A call that is rejected raises RequestError
    and changes nothing. If the process ends, this and all later calls raise SessionEnded.

    `timeout` is the number of seconds that a call has, with the time that other calls take before it. If it has no answer then, it raises
    TimedOut. None means the `timeout` of the session, and there that a call waits as long as it takes.

    A call may be interrupted at any time, by Ctrl-C or by any signal handler that raises. Later calls get their own answers. A fill or a
    new set that was sent before is listed in `left`, which tells its outcome.
    """

    def __init__(
        self, params: Source, positions: Source, *, workers: int = 1, timeout: Optional[float] = None,
        program: Union[str, "os.PathLike[str]", None] = None, digits: Optional[int] = None,
    ) -> None:
        """Reads the two files, which are given as in `margin`. `workers` is the number of threads that compute the margins of all accounts.

        `program` and `digits` are as in `Span`. Raises what `margin` raises, and ProgramError if the program is older than 1.3.
        """
        super().__init__(params, positions, workers=workers, timeout=timeout, program=program, digits=digits)
        try:
            self._open(Deadline(timeout))
        except BaseException:
            self._abandon()
            raise

    def __enter__(self) -> "Session":
        return self

    def __exit__(self, kind: Optional[Type[BaseException]], error: Optional[BaseException], trace: Optional[TracebackType]) -> None:
        self.close()

    def close(self) -> None:
        """Ends the session and its process at once. Calls that wait and calls that follow raise SessionEnded."""
        self._abandon()
        if self._channel:
            self._channel.close()

    @overload
    def margin(self, account: None = None, *, timeout: Optional[float] = None) -> Statement: ...

    @overload
    def margin(self, account: str, *, timeout: Optional[float] = None) -> AccountMargin: ...

    def margin(self, account: Optional[str] = None, *, timeout: Optional[float] = None) -> Union[Statement, AccountMargin]:
        """The margin of an account, or of all accounts if none is named. Raises RequestError E1 if there is no such account."""
        if account is None:
            return self._ask(_questions.margins(), timeout)
        return self._ask(_questions.margin(account), timeout)

    def explain(self, account: str, *, timeout: Optional[float] = None) -> AccountExplanation:
        """The reasons for the margin of an account. Raises RequestError E1 if there is no such account."""
        return self._ask(_questions.explanation(account), timeout)

    def try_order(self, account: str, legs: Legs, name: str = NAME, *, timeout: Optional[float] = None) -> TriedOrder:
        """What an order would do to the margin of its account. All legs count together. It changes nothing.

        The account may be one that has no positions yet.
        """
        return self._ask(_questions.tried(account, legs, name), timeout)

    @overload
    def try_orders(
        self, orders: Iterable[Try], *, return_errors: Literal[False] = False, timeout: Optional[float] = None
    ) -> TriedOrders: ...

    @overload
    def try_orders(
        self, orders: Iterable[Try], *, return_errors: Literal[True], timeout: Optional[float] = None
    ) -> List[Union[TriedOrder, SpanError]]: ...

    def try_orders(
        self, orders: Iterable[Try], *, return_errors: bool = False, timeout: Optional[float] = None
    ) -> Union[TriedOrders, List[Union[TriedOrder, SpanError]]]:
        """What each of many orders would do by itself. This is faster than a call for each order. It changes nothing.

        An order is a tuple of its account and its legs, or of account, legs and name. The first order that is rejected raises its error
        after all answers have been read. With return_errors=True, the result is a list that has the error instead of the order.
        """
        if return_errors:
            return self._ask(_questions.each_tried(orders), timeout)
        return self._ask(_questions.all_tried(orders), timeout)

    def attribution(
        self, account: str, of: Literal["total", "due"] = "total", *, seed: int = 0, timeout: Optional[float] = None
    ) -> Attribution:
        """What each position of an account contributes to its total, or to its due, in whole minor units that add up to it.

        It evaluates orders that close positions, in a second process with a copy of the account. So it is right whatever others trade
        meanwhile, for the positions that it names, and the session is free for other calls. `seed` chooses the random orders of an account
        with more than 12 contracts.

        Raises RequestError E1 if there is no such account, ValueError if the set has no option values, so that there is no due, and
        ProgramError if the second process ends.
        """
        return self._copied(account, partial(_attribution.asked, of=of, seed=seed), timeout)

    def cheapest_close(
        self, account: str, target: int, of: Literal["total", "due"] = "total", *, cost: Optional[Mapping[str, Price]] = None,
        only: Optional[Iterable[str]] = None, most: Optional[Mapping[str, int]] = None, tries: int = _closing.TRIES,
        seconds: float = _closing.SECONDS, timeout: Optional[float] = None,
    ) -> CheapestClose:
        """The order of least cost after which the total of an account, or its due, is at most `target`. It changes nothing.

        A leg closes a position in whole or in part. Legs open no position, and are at most 64. If an account holds no more contracts, and
        `only` and `most` are not given, there always is such an order, since closing everything leaves 0.

        cost    what closing a lot of each contract costs, as int or Decimal; by default the cost is the number of lots
        only    the contracts that may be closed; by default all
        most    how many lots of a contract may be closed at most; by default the whole position

        Up to 5000 orders are all evaluated. If there are more, a search evaluates at most about `tries` orders in at most about `seconds`,
        and the result may not be the cheapest; `is_optimal` tells. No result can be improved by taking back a lot, or by closing a lot of
        a cheaper contract in its place.

        The orders are evaluated in a second process with a copy of the account, as for `attribution`.

        Raises RequestError E1 if there is no such account, ValueError if there is no due, or if prices, `only` or `most` are wrong,
        TypeError for a price that is a float, and ProgramError if the second process ends.
        """
        prepare = partial(_closing.asked, target=target, of=of, chosen=(cost, only, most), limits=(tries, seconds))
        return self._copied(account, prepare, timeout)

    def _copied(self, account: str, prepare: Prepare[Result], timeout: Optional[float]) -> Result:
        """What many questions find out about an account, as it is now."""
        deadline = self._deadline(timeout)
        explained = self._wait_for(_questions.explained(account), deadline)
        work = prepare(explained.whole)
        return self._on_copy(Copy(self, explained), work, deadline)

    def fill(self, account: str, legs: Legs, *, key: Optional[str] = None, timeout: Optional[float] = None) -> AccountTotal:
        """Adds quantities to the net positions of an account, which may be a new one. Returns its total afterwards.

        A fill with a key is carried out once, so you can ask again after an interrupt or a timeout: a later fill with the same key gets the
        result or the error of the first one, and waits for it if it is in flight. If the first one was withdrawn, or refused since memory
        ran out, the next one is carried out. The last 100,000 keys are kept. Raises ValueError if the key is the one of another fill.
        """
        return self._ask(_questions.filled(account, legs, key), timeout)

    def use_set(self, params: Source, *, timeout: Optional[float] = None) -> SetCounts:
        """Replaces the parameter set, and keeps all positions. Returns the counts of the new set. A pipe waits for its writer.

        Raises ParametersError, or FileError, or PositionsError if an account holds a contract that the new set lacks.
        """
        deadline = self._deadline(timeout)
        return self._ask(_questions.used(params, self._digits, deadline, self._open_channel().check), deadline)

    def positions(self, *, timeout: Optional[float] = None) -> Positions:
        """The positions of all accounts. An account that holds nothing has one record of quantity 0."""
        return self._ask(_questions.positions(), timeout)

    _ask = Desk._wait_for
