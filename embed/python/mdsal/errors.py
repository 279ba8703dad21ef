"""Why a call has no reply, and why a step was refused."""


class Error(Exception):
    """A call without a reply. The text is the broker's line if it has one, else it names the call. `replies` are those before it in `Broker.steps`."""

    replies: list[str] = []


class BadScript(Error):
    """The bytes are not a script, or it has clients or an order."""


class BadSchema(Error):
    """The modules do not give a schema."""


class BadOpening(Error):
    """An opening tree is not data of the schema, or breaks a rule of it."""


class BadStep(Error):
    """The bytes are not a step, or the store of a look is none. Nothing was changed."""


class BadClient(Error):
    """The client's number is 65,536 or more. Nothing was changed."""


class Full(Error):
    """The log has 1,000,000 shared calls. Nothing was changed."""


class Lost(Error):
    """Memory ran out in an earlier step of this client. Nothing was changed."""


class Untold(Error):
    """The step was made, but memory ran out for its reply; the report has it."""


class Broken(Error):
    """Memory ran out after a call was added to the log. The broker is closed."""


class Closed(Error):
    """No broker is open."""


class BadStream(Error):
    """The bytes are not the next frames. The stand-by stays at its last good frame."""


class BadExport(Error):
    """The text of a frame is longer than 16,777,216 bytes. Nothing was changed."""


class IsOpen(Error):
    """There is a broker or a stand-by already. Nothing was changed."""


class IsStandBy(Error):
    """The call is one of a broker, and there is a stand-by. Nothing was changed."""


class Gone(Error):
    """The broker does not keep commits of numbers that low. Nothing was changed."""


class Pending(Error):
    """A submission is not decided. Nothing was changed."""


class NotNewest(Error):
    """The newest commit has another number. Nothing was changed."""


class Empty(Error):
    """The stand-by has no frame yet. Nothing was changed."""


class BadVersion(Error):
    """The script has no such version, or the trees are no trees of it. Nothing was changed."""


class BadDomain(Error):
    """The script has no domain of this number. Nothing was changed."""


FAULTS: dict[int, type[Exception]] = {
    6: BadScript, 7: BadSchema, 8: BadOpening, 10: MemoryError, 12: BadStream, 13: BadExport, 21: Closed, 22: IsOpen, 23: BadStep, 24: BadClient,
    25: Full, 26: Lost, 27: Untold, 28: Broken, 29: IsStandBy, 30: Gone, 31: Pending, 32: NotNewest, 33: Empty, 34: BadVersion, 35: BadDomain,
}


def fault_of(status: int, what: str) -> Exception:
    """Returns the exception of a status."""
    return FAULTS.get(status, Error)(what.strip())
