"""Attributes that are computed when they are first read."""
from typing import TYPE_CHECKING, Any, Callable, Optional

__all__ = ["cached"]

if TYPE_CHECKING:
    from functools import cached_property as cached  # (type checkers know this one as a property)
else:

    class cached:
        """A property that is computed once for each object, as by `functools.cached_property`, but without a lock.

        Before Python 3.12, that one has a lock for all objects. An interrupt in it leaves the lock held for ever, and then every other
        thread that reads the attribute of any object waits for ever. Here two threads may compute a value at once, and both get the first.
        """

        def __init__(self, compute: Callable[[Any], Any]) -> None:
            self._compute, self.__doc__ = compute, compute.__doc__

        def __set_name__(self, owner: type, name: str) -> None:
            self._name = name

        def __get__(self, instance: Optional[Any], owner: Optional[type] = None) -> Any:
            if instance is None:
                return self
            return instance.__dict__.setdefault(self._name, self._compute(instance))
