"""Margin requirements of futures and options, computed by the proved program `span`.

    import span_margin as span

    statement = span.margin("params.csv", "positions.csv")
    statement["RIVER-01"].total                       # in minor units, such as cents

    with span.Session("params.csv", "positions.csv") as desk:
        desk.try_order("RIVER-01", {"CLZ5": -2}).change

Nothing is computed here: every figure is one that the program printed, and `bytes(statement)` is what it printed. Amounts are whole minor
units of the currency of the parameter set; `amount.major()` is a Decimal in major units.
"""
from importlib import import_module
from typing import TYPE_CHECKING, Any, List

if TYPE_CHECKING:
    from span_margin._amounts import Amount, ExactAmount
    from span_margin._async_session import AsyncSession
    from span_margin._attribution import Attribution, Share
    from span_margin._calls import Span, check, explain, faults, margin, roll, whatif
    from span_margin._closing import CheapestClose, ClosingLeg
    from span_margin._compare import AccountChange, CommodityChange, Comparison, Moved, PositionChange, Steps, compare
    from span_margin._errors import (
        CurrencyError,
        FileChangedError,
        FileError,
        OutOfMemoryError,
        ParametersError,
        PositionsError,
        ProgramError,
        RequestError,
        RollError,
        SessionEnded,
        SpanError,
        TimedOut,
        UsageError,
    )
    from span_margin._lines import (
        AccountTotal,
        Change,
        CommodityMargin,
        Credit,
        Fault,
        Held,
        Inter,
        Intra,
        Month,
        OrderTotal,
        Position,
        Scan,
        SetCounts,
        Short,
        Spot,
        Sums,
    )
    from span_margin._parameters import ParameterSet, ParameterSetError, RowFault
    from span_margin._results import (
        AccountExplanation,
        AccountMargin,
        CommodityExplanation,
        Explanation,
        Faults,
        Positions,
        Roll,
        Statement,
        TriedOrder,
        TriedOrders,
    )
    from span_margin._session import Left, Outcome, Session

__version__ = "1.4.0"

__all__ = [
    "AccountChange",
    "AccountExplanation",
    "AccountMargin",
    "AccountTotal",
    "Amount",
    "AsyncSession",
    "Attribution",
    "Change",
    "CheapestClose",
    "ClosingLeg",
    "CommodityChange",
    "CommodityExplanation",
    "CommodityMargin",
    "Comparison",
    "Credit",
    "CurrencyError",
    "ExactAmount",
    "Explanation",
    "Fault",
    "Faults",
    "FileChangedError",
    "FileError",
    "Held",
    "Inter",
    "Intra",
    "Left",
    "Month",
    "Moved",
    "OrderTotal",
    "OutOfMemoryError",
    "Outcome",
    "ParameterSet",
    "ParameterSetError",
    "ParametersError",
    "Position",
    "PositionChange",
    "Positions",
    "PositionsError",
    "ProgramError",
    "RequestError",
    "Roll",
    "RollError",
    "RowFault",
    "Scan",
    "Session",
    "SessionEnded",
    "SetCounts",
    "Share",
    "Short",
    "Span",
    "SpanError",
    "Spot",
    "Statement",
    "Steps",
    "Sums",
    "TimedOut",
    "TriedOrder",
    "TriedOrders",
    "UsageError",
    "check",
    "compare",
    "explain",
    "faults",
    "margin",
    "roll",
    "whatif",
]

if not TYPE_CHECKING:
    # Where names are looked up, in this order, since modules also have names of each other. Only the last one loads asyncio.
    _MODULES = (
        "_calls", "_parameters", "_results", "_session", "_lines", "_errors", "_amounts",
        "_attribution", "_closing", "_compare", "_async_session",
    )

    def __getattr__(name: str) -> Any:
        """A name, whose module is loaded when it is asked for: a command that needs few modules starts faster."""
        for module in _MODULES if name in __all__ else ():
            found = import_module(f"{__name__}.{module}")
            if hasattr(found, name):
                return globals().setdefault(name, getattr(found, name))
        raise AttributeError(f"module {__name__!r} has no attribute {name!r}")

    def __dir__() -> List[str]:
        return sorted({*globals(), *__all__})
