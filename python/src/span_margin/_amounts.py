"""Amounts of money in minor units, as the program prints them, and the currency that they are in."""
from decimal import Decimal
from functools import lru_cache
from typing import Any, Callable, ClassVar, Iterable, NamedTuple, Optional, Tuple, Type, TypeVar, cast

from span_margin._errors import CurrencyError

# How many digits the minor unit of a currency has. Others have two. Written on 2026-11-29 by the list of ISO 4217.
_DIGITS = {
    **dict.fromkeys("BIF CLP DJF GNF ISK JPY KMF KRW PYG RWF UGX UYI VND VUV XAF XOF XPF".split(), 0),
    **dict.fromkeys("BHD IQD JOD KWD LYD OMR TND".split(), 3),
    **dict.fromkeys("CLF UYW".split(), 4),
}
Kind = TypeVar("Kind")


def _major(amount: Any, digits: Optional[int]) -> Decimal:
    """An amount in major units, exactly."""
    if digits is None:
        digits = amount.digits
    if digits is None:
        raise ValueError("the currency of this amount is unknown: say how many digits its minor unit has, as in major(2)")
    return Decimal(f"{amount:f}E{-digits}" if isinstance(amount, Decimal) else f"{int(amount)}E{-digits}")


class Amount(int):
    """A whole amount in minor units of a currency, such as cents.

    currency   the currency, such as "USD"; None if it is unknown
    digits     how many digits the minor unit has: 2 if 100 cents are a dollar; None if the currency is unknown

    `+`, `-`, `abs`, `sum`, and `*` by a plain int make an amount of the same currency. Amounts of two currencies are never equal, and
    `+`, `-` and comparisons of them raise CurrencyError. A plain int and an amount of unknown currency mix with all amounts.
    """

    __slots__ = ()
    currency: ClassVar[Optional[str]] = None
    digits: ClassVar[Optional[int]] = None

    def major(self, digits: Optional[int] = None) -> Decimal:
        """The amount in major units, exactly. `digits` is by default the number of digits of the currency.

        Raises ValueError if there is neither.
        """
        return _major(self, digits)

    def __add__(self, other: int) -> "Amount":
        return _joined(self, other, int.__add__(self, other))

    def __radd__(self, other: int) -> "Amount":
        return _joined(self, other, int.__radd__(self, other))

    def __sub__(self, other: int) -> "Amount":
        return _joined(self, other, int.__sub__(self, other))

    def __rsub__(self, other: int) -> "Amount":
        return _joined(self, other, int.__rsub__(self, other))

    def __mul__(self, other: int) -> "Amount":
        return _times(self, other, int.__mul__(self, other))

    def __rmul__(self, other: int) -> "Amount":
        return _times(self, other, int.__rmul__(self, other))

    def __neg__(self) -> "Amount":
        return type(self)(int.__neg__(self))

    def __pos__(self) -> "Amount":
        return self

    def __abs__(self) -> "Amount":
        return type(self)(int.__abs__(self))

    def __reduce__(self) -> Tuple[Any, ...]:
        return _again, (Amount, int(self), self.currency, self.digits)


class ExactAmount(Decimal):
    """An amount in minor units that need not be whole, such as a charge before it is rounded. It has a currency as an Amount has."""

    __slots__ = ()
    currency: ClassVar[Optional[str]] = None
    digits: ClassVar[Optional[int]] = None

    def major(self, digits: Optional[int] = None) -> Decimal:
        """The amount in major units, exactly. `digits` is by default the number of digits of the currency.

        Raises ValueError if there is neither.
        """
        return _major(self, digits)

    def __add__(self, other: Any) -> "ExactAmount":
        return _joined(self, other, Decimal.__add__(self, other))

    def __radd__(self, other: Any) -> "ExactAmount":
        return _joined(self, other, Decimal.__radd__(self, other))

    def __sub__(self, other: Any) -> "ExactAmount":
        return _joined(self, other, Decimal.__sub__(self, other))

    def __rsub__(self, other: Any) -> "ExactAmount":
        return _joined(self, other, Decimal.__rsub__(self, other))

    def __mul__(self, other: Any) -> "ExactAmount":
        return _times(self, other, Decimal.__mul__(self, other))

    def __rmul__(self, other: Any) -> "ExactAmount":
        return _times(self, other, Decimal.__rmul__(self, other))

    def __neg__(self) -> "ExactAmount":
        return type(self)(Decimal.__neg__(self))

    def __pos__(self) -> "ExactAmount":
        return self

    def __abs__(self) -> "ExactAmount":
        return type(self)(Decimal.__abs__(self))

    def __reduce__(self) -> Tuple[Any, ...]:  # type: ignore[override]
        return _again, (ExactAmount, str(self), self.currency, self.digits)


AMOUNTS = (Amount, ExactAmount)


def currency_of(values: Iterable[object]) -> Optional[str]:
    """The currency of the first amount that has one. None if there is none."""
    return next((it.currency for it in values if isinstance(it, (*AMOUNTS, Money)) and it.currency), None)


def _differ(amount: Any, other: object) -> bool:
    """Whether another object is an amount of another currency."""
    return isinstance(other, AMOUNTS) and None not in (amount.currency, other.currency) and amount.currency != other.currency


def _mixed(amount: Any, other: Any) -> CurrencyError:
    return CurrencyError(f"an amount in {amount.currency} and one in {other.currency} cannot be added or compared")


def _joined(amount: Kind, other: Any, value: Any) -> Kind:
    """The result of + or - as an amount of the currency of both sides."""
    if _differ(amount, other):
        raise _mixed(amount, other)
    kind: Any = type(amount)
    if kind.currency is None and isinstance(other, AMOUNTS) and other.currency is not None:
        kind = _class_of(Amount if isinstance(amount, Amount) else ExactAmount, other.currency, other.digits)
    return cast(Kind, value if value is NotImplemented else kind(value))


def _times(amount: Kind, other: object, value: Any) -> Kind:
    """The result of *: an amount if the other side is a plain int."""
    kind: Any = type(amount)
    return cast(Kind, kind(value) if isinstance(other, int) and not isinstance(other, Amount) else value)


def _comparison(name: str, compare: Callable[[Any, Any], Any], differ: Optional[bool]) -> Callable[[Any, object], Any]:
    """A comparison that knows currencies: amounts of two currencies give `differ`, or raise CurrencyError if that is None."""

    def compared(self: Any, other: object) -> Any:
        if not _differ(self, other):
            return compare(self, other)
        if differ is None:
            raise _mixed(self, other)
        return differ

    compared.__name__ = name
    return compared


for _kind in AMOUNTS:
    for _name, _if_they_differ in (("lt", None), ("le", None), ("gt", None), ("ge", None), ("eq", False), ("ne", True)):
        _name = f"__{_name}__"
        setattr(_kind, _name, _comparison(_name, getattr(_kind.__mro__[1], _name), _if_they_differ))


@lru_cache(maxsize=None)
def _class_of(kind: Any, currency: Optional[str], digits: Optional[int]) -> Any:
    """The class of the amounts of a currency."""
    if currency is None and digits is None:
        return kind
    return type(kind.__name__, (kind,), {"__slots__": (), "__doc__": kind.__doc__, "currency": currency, "digits": digits})


def _again(kind: Any, value: Any, currency: Optional[str], digits: Optional[int]) -> Any:
    """An amount that was pickled or copied."""
    return _class_of(kind, currency, digits)(value)


class Money(NamedTuple):
    """The currency of the amounts of a result, and how many digits its minor unit has if that is not its usual number."""

    currency: Optional[str] = None
    digits: Optional[int] = None

    @property
    def _digits(self) -> Optional[int]:
        return self.digits if self.digits is not None or self.currency is None else _DIGITS.get(self.currency, 2)

    @property
    def amount(self) -> Type[Amount]:
        """The class of whole amounts."""
        return cast(Type[Amount], _class_of(Amount, self.currency, self._digits))

    @property
    def exact(self) -> Type[ExactAmount]:
        """The class of amounts that need not be whole."""
        return cast(Type[ExactAmount], _class_of(ExactAmount, self.currency, self._digits))


UNKNOWN = Money()
