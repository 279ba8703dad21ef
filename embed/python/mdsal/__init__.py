"""The data broker as a Python module, over libmdsal.so.

    import mdsal

    with mdsal.Broker(script) as broker:
        broker.step(0, ["begin", 0, 0, "rw"])       # 'begun 0'
        broker.call(0, ["begin", 1, 0, "rw"])       # Begun(commit=0, on=None)
        broker.update(lambda t: t.put("config", "/plain:box/a", "x"))
        print(broker.report())
        broker.look("config", "/plain:box/a")       # 'x', without a step
        broker.waits(0, 1)                          # <Waiting.DECIDED: 8>: what slot 1 of client 0 would give, without a step
        for batch in broker.changes(1): ...         # what a listener has not seen; also requests, notifications
        frames = broker.frames(0)                   # the commits as bytes, for a file or a stand-by

    standby = mdsal.StandBy(script)                 # feed, look, snapshot; lead() gives the broker

A script is a text, bytes, or an object for `json.dumps`; so is a step. `step` returns the text of a reply, also that of a refusal, which starts with
`refused`. `call` returns a reply with fields (`mdsal.replies`), and a refusal is an exception (`mdsal.refusals`). A call without a reply raises an
exception: `MemoryError` if memory ran out, else a subclass of `Error` (`mdsal.errors`). `embed/mdsal.h` explains them.

Threads may share a broker: each call holds its lock until the reply is copied.
"""
from . import errors, refusals, replies
from .broker import Broker, NotCommitted, StandBy, Transaction, Waiting
from .errors import (
    BadClient, BadDomain, BadExport, BadOpening, BadSchema, BadScript, BadStep, BadStream, BadVersion, Broken, Closed, Empty, Error, Full, Gone, IsOpen, IsStandBy, Lost,
    NotNewest, Pending, Untold,
)
from .refusals import Refused

__all__ = [
    "Broker", "StandBy", "Transaction", "Waiting", "NotCommitted", "Refused", "errors", "refusals", "replies",
    "BadStream", "BadExport", "BadVersion", "BadDomain", "Empty", "Gone", "IsOpen", "IsStandBy", "NotNewest", "Pending",
    "Error", "BadScript", "BadSchema", "BadOpening", "BadStep", "BadClient", "Full", "Lost", "Untold", "Broken", "Closed",
]
