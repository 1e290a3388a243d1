"""Sessions for asyncio: the methods of `Session` as coroutines, over the same channel."""
import asyncio
from _thread import start_new_thread
from functools import partial
from types import TracebackType
from typing import Any, Callable, Dict, Iterable, List, Literal, Mapping, Optional, Type, TypeVar, Union, overload

from span_margin import _attribution, _closing, _questions
from span_margin._attribution import Attribution
from span_margin._closing import CheapestClose, Price
from span_margin._errors import SpanError, TimedOut
from span_margin._inputs import PARAMETER, Source, path_or_content
from span_margin._lines import AccountTotal, SetCounts
from span_margin._questions import NAME, Legs, Question, Try
from span_margin._program import GRACE, Deadline
from span_margin._results import AccountExplanation, AccountMargin, Positions, Statement, TriedOrder, TriedOrders
from span_margin._session import Copy, Desk, Prepare

COPIES = 4  # that are open at once in an event loop
Result = TypeVar("Result")
_turns: Dict[asyncio.AbstractEventLoop, asyncio.Semaphore] = {}


class AsyncSession(Desk):
    """A `Session` for asyncio. Use it in an `async with` statement, or call `open` and `close`.

        async with span.AsyncSession("params.csv", "positions.csv") as desk:
            print((await desk.margin("RIVER-01")).total)

    It has the methods of `Session`, as coroutines. Any number of them may wait at the same time, in one event loop or in several.
    A coroutine that is cancelled leaves its request as an interrupted call of a `Session` does.
    """

    async def __aenter__(self) -> "AsyncSession":
        return await self.open()

    async def __aexit__(self, kind: Optional[Type[BaseException]], error: Optional[BaseException], trace: Optional[TracebackType]) -> None:
        await self.close()

    async def open(self) -> "AsyncSession":
        """Opens the session. Raises what the opening of a `Session` raises."""
        if self._is_open:
            raise ValueError("open was called before")
        self._is_open = True
        deadline = Deadline(self._timeout)
        try:
            channel, opening = await _in_thread(partial(self._prepare, deadline), deadline.stop)
            await self._done(opening, deadline, channel.start)
            told = opening.told()
            if isinstance(told, Exception):
                raise told
        except BaseException:
            self._abandon()
            raise
        return self

    _is_open = False

    async def close(self) -> None:
        """Ends the session and its process at once. Calls that wait and calls that follow raise SessionEnded."""
        self._abandon()
        if self._channel:
            await _in_thread(self._channel.close)

    @overload
    async def margin(self, account: None = None, *, timeout: Optional[float] = None) -> Statement: ...

    @overload
    async def margin(self, account: str, *, timeout: Optional[float] = None) -> AccountMargin: ...

    async def margin(self, account: Optional[str] = None, *, timeout: Optional[float] = None) -> Union[Statement, AccountMargin]:
        """The margin of an account, or of all accounts if none is named, as `Session.margin`."""
        if account is None:
            return await self._ask(_questions.margins(), timeout)
        return await self._ask(_questions.margin(account), timeout)

    async def explain(self, account: str, *, timeout: Optional[float] = None) -> AccountExplanation:
        """The reasons for the margin of an account, as `Session.explain`."""
        return await self._ask(_questions.explanation(account), timeout)

    async def try_order(self, account: str, legs: Legs, name: str = NAME, *, timeout: Optional[float] = None) -> TriedOrder:
        """What an order would do to the margin of its account, as `Session.try_order`."""
        return await self._ask(_questions.tried(account, legs, name), timeout)

    @overload
    async def try_orders(
        self, orders: Iterable[Try], *, return_errors: Literal[False] = False, timeout: Optional[float] = None
    ) -> TriedOrders: ...

    @overload
    async def try_orders(
        self, orders: Iterable[Try], *, return_errors: Literal[True], timeout: Optional[float] = None
    ) -> List[Union[TriedOrder, SpanError]]: ...

    async def try_orders(
        self, orders: Iterable[Try], *, return_errors: bool = False, timeout: Optional[float] = None
    ) -> Union[TriedOrders, List[Union[TriedOrder, SpanError]]]:
        """What each of many orders would do by itself, as `Session.try_orders`."""
        if return_errors:
            return await self._ask(_questions.each_tried(orders), timeout)
        return await self._ask(_questions.all_tried(orders), timeout)

    async def fill(self, account: str, legs: Legs, *, key: Optional[str] = None, timeout: Optional[float] = None) -> AccountTotal:
        """Adds quantities to the net positions of an account, once if there is a key, as `Session.fill`."""
        return await self._ask(_questions.filled(account, legs, key), timeout)

    async def use_set(self, params: Source, *, timeout: Optional[float] = None) -> SetCounts:
        """Replaces the parameter set, and keeps all positions, as `Session.use_set`."""
        deadline, check = self._own_deadline(timeout), self._open_channel().check
        check()
        given = path_or_content(params, PARAMETER)
        return await self._ask(await _in_thread(partial(_questions.used, given, self._digits, deadline, check), deadline.stop), deadline)

    async def positions(self, *, timeout: Optional[float] = None) -> Positions:
        """The positions of all accounts, as `Session.positions`."""
        return await self._ask(_questions.positions(), timeout)

    async def attribution(
        self, account: str, of: Literal["total", "due"] = "total", *, seed: int = 0, timeout: Optional[float] = None
    ) -> Attribution:
        """What each position of an account contributes to its total, or to its due, as `Session.attribution`."""
        return await self._copied(account, partial(_attribution.asked, of=of, seed=seed), timeout)

    async def cheapest_close(
        self, account: str, target: int, of: Literal["total", "due"] = "total", *, cost: Optional[Mapping[str, Price]] = None,
        only: Optional[Iterable[str]] = None, most: Optional[Mapping[str, int]] = None, tries: int = _closing.TRIES,
        seconds: float = _closing.SECONDS, timeout: Optional[float] = None,
    ) -> CheapestClose:
        """The order of least cost after which the total of an account, or its due, is at most `target`, as `Session.cheapest_close`."""
        prepare = partial(_closing.asked, target=target, of=of, chosen=(cost, only, most), limits=(tries, seconds))
        return await self._copied(account, prepare, timeout)

    async def _copied(self, account: str, prepare: Prepare[Result], timeout: Optional[float]) -> Result:
        """What many questions find out about an account, as it is now, in a thread of their own. Few copies are open at once."""
        deadline = self._own_deadline(timeout)
        explained = await self._ask(_questions.explained(account), deadline)
        work, copy, turns = prepare(explained.whole), Copy(self, explained), _turns_of(asyncio.get_running_loop())
        turn = asyncio.ensure_future(turns.acquire())
        try:
            await asyncio.wait([turn], timeout=deadline.left())
            if not turn.done():
                raise TimedOut(f"the session did not answer within {deadline.seconds:g} seconds")
            return await _in_thread(lambda: self._on_copy(copy, work, deadline), partial(_stop, copy, deadline))
        finally:
            if not turn.cancel():
                turns.release()

    def _own_deadline(self, timeout: Optional[float]) -> Deadline:
        """When a call has to end that begins now, and that may be stopped."""
        return Deadline(self._timeout if timeout is None else timeout)

    async def _ask(self, question: Question[Result], timeout: Union[Deadline, float, None]) -> Result:
        """The answer to a question. Raises its error if it is rejected."""
        told: Union[Result, Exception, None] = None
        try:
            await self._done(question, self._deadline(timeout), partial(self._open_channel().put, question.request))
            told = question.told()
            if isinstance(told, Exception):
                raise told
            return told
        except BaseException as error:
            if error is not told:
                self._leave(question)
            raise

    async def _done(self, question: Question[Any], deadline: Deadline, send: Callable[[], None]) -> None:
        """Sends a question, and waits until its request is complete. Raises TimedOut if it is not in time."""
        loop, request = asyncio.get_running_loop(), question.request
        woken = loop.create_future()
        request.wake = partial(_wake, loop, woken, partial(woken.set_result, None))
        send()
        while not request.complete:
            rest = deadline.left()
            if rest == 0:
                raise self._timed_out(question, deadline)
            await asyncio.wait([woken], timeout=rest)


def _turns_of(loop: asyncio.AbstractEventLoop) -> asyncio.Semaphore:
    """The turns of the copies in an event loop."""
    for other in list(_turns):
        if other.is_closed():
            _turns.pop(other, None)
    return _turns.setdefault(loop, asyncio.Semaphore(COPIES))


def _stop(copy: Copy, deadline: Deadline) -> None:
    """Ends the questions to a copy, which a thread asks that may wait for an answer."""
    deadline.stop()  # (first, so that a copy that has no process yet gets none)
    copy._abandon()


async def _in_thread(work: Callable[[], Result], stop: Callable[[], None] = lambda: None) -> Result:
    """What a function returns that a thread of its own calls. If this does not get it, `stop` is called, which makes the function end.

    (The threads of the executor of the loop are few, and the end of the loop and of Python wait for them.)
    """
    loop = asyncio.get_running_loop()
    answer: "asyncio.Future[Result]" = loop.create_future()

    def run() -> None:
        try:
            settle = partial(answer.set_result, work())
        except BaseException as error:
            settle = partial(answer.set_exception, error)
        _wake(loop, answer, settle)

    start_new_thread(run, ())
    try:
        await asyncio.wait([answer])
    except BaseException as error:
        stop()
        if isinstance(error, asyncio.CancelledError):
            await asyncio.wait([answer], timeout=GRACE)
        if not answer.cancel():
            answer.exception()
        raise
    return answer.result()


def _wake(loop: asyncio.AbstractEventLoop, answer: "asyncio.Future[Any]", settle: Callable[[], None]) -> None:
    """Wakes a coroutine, from another thread. A loop that is closed has none."""
    try:
        loop.call_soon_threadsafe(lambda: None if answer.done() else settle())
    except RuntimeError:
        pass
