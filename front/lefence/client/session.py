"""The common part of sessions and pipelines: the team, the open session, and a method for each verb."""

from __future__ import annotations

import functools
from collections.abc import Awaitable, Callable
from dataclasses import dataclass
from typing import TYPE_CHECKING, Any, Concatenate, Generic, ParamSpec, Protocol, TypeVar, overload

from . import verbs
from .verbs import Request, Scope

if TYPE_CHECKING:
    from . import aio
    from . import blocking as client

C = TypeVar("C")
P = ParamSpec("P")
T = TypeVar("T")


class Requester(Protocol):
    """An object with verbs: it has an open session and sends requests."""

    @property
    def scope(self) -> Scope:
        ...

    def ask(self, request: Request[Any]) -> Any:
        ...


class Method(Generic[P, T]):
    """The method of a verb: it takes the verb's fields and sends its request.

    Its result depends on the object: a plain session returns the reply's result, a pipeline a `Pending`, an asyncio
    session an awaitable.
    """

    def __init__(self, build: Callable[Concatenate[Scope, P], Request[T]]) -> None:
        @functools.wraps(build)
        def method(self: Requester, /, *args: P.args, **kwargs: P.kwargs) -> Any:
            return self.ask(build(self.scope, *args, **kwargs))

        self._method = method

    @overload
    def __get__(self, requester: client.Session, kind: type) -> Callable[P, T]:
        ...

    @overload
    def __get__(self, requester: client.Pipeline, kind: type) -> Callable[P, client.Pending[T]]:
        ...

    @overload
    def __get__(self, requester: aio.Session, kind: type) -> Callable[P, Awaitable[T]]:
        ...

    @overload
    def __get__(self, requester: None, kind: type[client.Session]) -> Callable[Concatenate[client.Session, P], T]:
        ...

    @overload
    def __get__(
        self, requester: None, kind: type[client.Pipeline]
    ) -> Callable[Concatenate[client.Pipeline, P], client.Pending[T]]:
        ...

    @overload
    def __get__(self, requester: None, kind: type[aio.Session]) -> Callable[Concatenate[aio.Session, P], Awaitable[T]]:
        ...

    def __get__(self, requester: Any, kind: type) -> Any:
        return self._method.__get__(requester, kind)


class Verbs:
    """A method for each verb except `open` and `close`, and `wait`. `lefence.client.verbs` describes them."""

    sync = Method(verbs.sync)
    check = Method(verbs.check)
    def_text = Method(verbs.def_text)
    where = Method(verbs.where)
    find = Method(verbs.find)
    place = Method(verbs.place)
    legalize = Method(verbs.legalize)
    tidy = Method(verbs.tidy)
    unplace = Method(verbs.unplace)
    swap = Method(verbs.swap)
    undo = Method(verbs.undo)
    commit = Method(verbs.commit)
    revert = Method(verbs.revert)
    pad = Method(verbs.pad)
    wait = Method(verbs.wait)


@dataclass(frozen=True)
class SessionOptions:
    """Options of a session: how often a stale change is sent again, and the form of lengths and orientations."""

    retries: int = 0
    microns: bool = False
    per_micron: int | None = None
    openaccess: bool = False


class BaseSession(Verbs, Generic[C]):
    """A session of a team over a connection; it is open inside its block."""

    def __init__(self, connection: C, team: str, options: SessionOptions) -> None:
        self.connection = connection
        self.team = team
        self.retries = options.retries
        # The team's revision when the session was opened.
        self.first_revision = 0
        self._scope: Scope | None = None
        self._options = options
        self._per_micron = options.per_micron

    @property
    def scope(self) -> Scope:
        """The open session. Raises ValueError outside its block."""
        if self._scope is None:
            raise ValueError("the session is not open: use it inside its `with` block")
        return self._scope

    @property
    def number(self) -> int:
        """The number of the session's slot."""
        return self.scope.number

    @property
    def _lacks_units(self) -> bool:
        """Whether lengths are microns, and the database units per micron are unknown."""
        return self._options.microns and self._per_micron is None

    def _refuse_open(self) -> None:
        """Raises ValueError if the session is open: its slot would be lost."""
        if self._scope is not None:
            raise ValueError("the session is already open")

    def _begin(self, number: int) -> None:
        """Marks the session as open."""
        self._scope = Scope(self.team, number, self._per_micron, self._options.openaccess)
