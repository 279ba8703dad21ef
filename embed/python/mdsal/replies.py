"""Replies with fields, from the texts of docs/FORMATS.md, "Scripts" and "Outcomes and refusals"."""
import json
from dataclasses import dataclass
from typing import Any, Callable

from .refusals import refusal_of

# The value of a read where there is no data.
ABSENT = None


@dataclass(frozen=True, slots=True)
class Reply:
    """The reply to a step that was not refused."""


@dataclass(frozen=True, slots=True)
class Ok(Reply):
    """The step was made."""


@dataclass(frozen=True, slots=True)
class Nothing(Reply):
    """Nothing is there: no request, no answer, no submission, no mount."""


@dataclass(frozen=True, slots=True)
class Truth(Reply):
    """Whether data exist; whether a mark was found."""

    value: bool


@dataclass(frozen=True, slots=True)
class Begun(Reply):
    """A transaction over a commit, and over a pending submission if it is one of a chain."""

    commit: int
    on: int | None = None


@dataclass(frozen=True, slots=True)
class Number(Reply):
    """The number of a chain, a receipt, a call or a mounted domain, or how many receive a notification."""

    value: int


@dataclass(frozen=True, slots=True)
class Data(Reply):
    """What is at a path, or `ABSENT`; also the output of an RPC."""

    value: Any


@dataclass(frozen=True, slots=True)
class Listening(Reply):
    """A listener, or a mirror without a number: the version that it has seen, and what is at its path then."""

    number: int | None
    version: int
    value: Any


@dataclass(frozen=True, slots=True)
class Change:
    """A change at a path; `None` is nothing."""

    path: str
    before: Any
    after: Any


@dataclass(frozen=True, slots=True)
class Part:
    """The changes of one commit, of a kind such as `WRITE`."""

    commit: int
    kind: str
    changes: tuple[Change, ...]


@dataclass(frozen=True, slots=True)
class Batch(Reply):
    """What a listener had not seen: the commits after `first` up to `last`."""

    first: int
    last: int
    parts: tuple[Part, ...]


@dataclass(frozen=True, slots=True)
class Request(Reply):
    """An RPC that waits for its answer."""

    number: int
    rpc: str
    context: str | None
    input: Any


@dataclass(frozen=True, slots=True)
class Notes(Reply):
    """The notifications that waited: names with their data."""

    notes: tuple[tuple[str, Any], ...]


class Outcome(Reply):
    """What became of a submission."""

    __slots__ = ()


@dataclass(frozen=True, slots=True)
class Done(Outcome):
    """It is this commit."""

    commit: int


@dataclass(frozen=True, slots=True)
class Conflict(Outcome):
    """A later commit touched the path: it was created, changed or deleted."""

    store: str
    path: str
    kind: str
    commit: int


@dataclass(frozen=True, slots=True)
class Invalid(Outcome):
    """The tree would break a rule."""

    store: str
    path: str
    rule: str
    name: str


@dataclass(frozen=True, slots=True)
class ChainFailed(Outcome):
    """Its chain failed at this receipt."""

    receipt: int


@dataclass(frozen=True, slots=True)
class Unmounted(Outcome):
    """Its domain is not live."""

    domain: int


@dataclass(frozen=True, slots=True)
class Decided(Reply):
    """The next submission was decided."""

    receipt: int
    outcome: Outcome


def parts_of(text: str) -> list[Any]:
    """Returns the words of a text; those that begin as a JSON text, array or object are decoded."""
    found, at = [], 0
    while at < len(text):
        if text[at] in '"[{':
            part, at = json.JSONDecoder().raw_decode(text, at)
            found.append(part)
        else:
            end = text.find(" ", at)
            end = len(text) if end < 0 else end
            found.append(text[at:end])
            at = end
        at += 1
    return found


def value_of(text: str) -> Any:
    return ABSENT if text == "absent" else json.loads(text)


def begun(text: str) -> Begun:
    commit, *on = text.split(" on ")
    return Begun(int(commit), int(on[0]) if on else None)


def listening(text: str) -> Listening:
    number, version, value = text.split(" ", 2)
    return Listening(int(number), int(version), value_of(value))


def mirror(text: str) -> Listening:
    version, value = text.split(" ", 1)
    return Listening(None, int(version), value_of(value))


def batch(text: str) -> Batch:
    first, last, parts = text.split(" ", 2)
    made = tuple(Part(commit, kind, tuple(Change(*it) for it in changes)) for commit, kind, changes in json.loads(parts))
    return Batch(int(first), int(last), made)


def request(text: str) -> Request:
    number, rpc, rest = text.split(" ", 2)
    if rest.startswith("- "):
        return Request(int(number), rpc, None, json.loads(rest[2:]))
    context, end = json.JSONDecoder().raw_decode(rest)
    return Request(int(number), rpc, context, json.loads(rest[end + 1 :]))


def conflict(text: str) -> Conflict:
    store, path, kind, commit = parts_of(text)
    return Conflict(store, path, kind, int(commit))


def decided(text: str) -> Decided:
    receipt, _, rest = text.partition(" ")
    outcome = reply_of(rest)
    assert isinstance(outcome, Outcome)
    return Decided(int(receipt), outcome)


def number(text: str) -> Number:
    return Number(int(text))


def bare(reply: Reply) -> Callable[[str], Reply]:
    return lambda text: reply


FORMS: dict[str, Callable[[str], Reply]] = {
    "ok": bare(Ok()),
    "nothing": bare(Nothing()),
    "none": bare(Nothing()),
    "true": bare(Truth(True)),
    "false": bare(Truth(False)),
    "found": bare(Truth(True)),
    "late": bare(Truth(False)),
    "absent": bare(Data(ABSENT)),
    "data": lambda text: Data(json.loads(text)),
    "output": lambda text: Data(json.loads(text)),
    "begun": begun,
    "chain": number,
    "receipt": number,
    "call": number,
    "mount": number,
    "offered": number,
    "listener": listening,
    "mirror": mirror,
    "batch": batch,
    "request": request,
    "notes": lambda text: Notes(tuple((name, data) for name, data in json.loads(text))),
    "done": lambda text: Done(int(text)),
    "conflict": conflict,
    "invalid": lambda text: Invalid(*parts_of(text)),
    "chain-failed": lambda text: ChainFailed(int(text)),
    "unmounted": lambda text: Unmounted(int(text)),
    "decided": decided,
}


def reply_of(text: str) -> Reply:
    """Returns the reply of a text, or raises the exception of a refusal."""
    word, _, rest = text.partition(" ")
    if word == "refused":
        raise refusal_of(rest)
    return FORMS[word](rest)
