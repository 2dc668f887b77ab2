"""A request as a function that makes it, and as a method of Shim and of AsyncShim that asks it.

The table of requests is in feulgama/requests.py. An entry knows its arguments and its result, so a type checker knows
both for all three.
"""
from __future__ import annotations

import inspect
import json
import types
import warnings
from collections.abc import Callable, Coroutine, Mapping
from dataclasses import dataclass
from typing import Any, Generic, ParamSpec, TypeVar, overload

from feulgama.errors import BadReplyError, Reason, no_reason, refusal_of

P = ParamSpec("P")
T = TypeVar("T")
Reply = Mapping[str, Any]
NAMES = ("task", "lease")  # what the parameter for an id is called; it was `id` before
SELF = inspect.Parameter("self", inspect.Parameter.POSITIONAL_ONLY)


@dataclass(frozen=True, slots=True)
class Request(Generic[T]):
    """A request. `line` is what is sent, with its line feed; `read` makes the result of a reply that was accepted."""
    op: str
    line: bytes
    read: Callable[[Reply], T]

    def result(self, line: bytes, reason: Reason = no_reason) -> T:
        """What a line of the shim answers. Raises the RefusalError that it is, whose reason is the one given, or
        BadReplyError if it is no reply."""
        try:
            reply = json.loads(line)
            if reply["ok"] is True:
                return self.read(reply)
            if reply["ok"] is False:
                refusal = refusal_of(self.op, reply, reason)
            else:
                raise BadReplyError(line)
        except (ValueError, KeyError, TypeError, AttributeError) as error:
            raise BadReplyError(line) from error
        raise refusal


class Asks:
    """A class whose `call` answers the result of a request."""

    def call(self, request: Request[T]) -> T:
        """The result of a request."""
        raise NotImplementedError


class Awaits:
    """A class whose `call` is a coroutine that answers the result of a request."""

    async def call(self, request: Request[T]) -> T:
        """The result of a request."""
        raise NotImplementedError


class Operation(Generic[P, T]):
    """An entry of the table: `requests.state("a")` is a request, `shim.state("a")` its result."""

    def __init__(self, make: Callable[P, Request[T]]) -> None:
        signature = inspect.signature(make)
        self._make = make
        self._named = next((name for name in NAMES if name in signature.parameters), "")
        self.__doc__, self.__name__, self.__wrapped__ = make.__doc__, make.__name__, make

        def now(shim: Asks, *args: P.args, **keys: P.kwargs) -> T:
            return shim.call(self(*args, **keys))

        async def later(shim: Awaits, *args: P.args, **keys: P.kwargs) -> T:
            return await shim.call(self(*args, **keys))

        methods: list[Callable[..., Any]] = [now, later]
        for method in methods:
            method.__doc__, method.__name__ = make.__doc__, make.__name__
            setattr(method, "__signature__", signature.replace(parameters=[SELF, *signature.parameters.values()]))
        self._now, self._later = methods

    def __call__(self, *args: P.args, **keys: P.kwargs) -> Request[T]:
        if "id" in keys and self._named:
            warnings.warn(f"{self.__name__}: the argument `id` is called `{self._named}`", DeprecationWarning, 3)
            keys[self._named] = keys.pop("id")
        return self._make(*args, **keys)

    @overload
    def __get__(self, shim: None, kind: type[object]) -> Operation[P, T]: ...

    @overload
    def __get__(self, shim: Asks, kind: type[object]) -> Callable[P, T]: ...

    @overload
    def __get__(self, shim: Awaits, kind: type[object]) -> Callable[P, Coroutine[Any, Any, T]]: ...

    def __get__(self, shim: Asks | Awaits | None, kind: type[object]) -> object:
        if shim is None:
            return self
        return types.MethodType(self._later if isinstance(shim, Awaits) else self._now, shim)
