"""Why a step was refused: an exception for each cause of docs/FORMATS.md, "Outcomes and refusals". The step was made, and its reply is the refusal."""
from .errors import Error


class Refused(Error):
    """A refused step. `detail` is what the reply has after the cause."""

    cause = ""

    def __init__(self, detail: str = ""):
        super().__init__(f"{self.cause} {detail}".strip())
        self.detail = detail


class EmptySlot(Refused):
    cause = "empty-slot"


class ReadOnly(Refused):
    cause = "read-only"


class NoDevice(Refused):
    cause = "no-device"


class NoUpgrade(Refused):
    cause = "no-upgrade"


class UnknownName(Refused):
    cause = "unknown-name"


class BadPath(Refused):
    cause = "path"


class BadData(Refused):
    cause = "data"


class WriteOnly(Refused):
    cause = "write-only"


class RootPath(Refused):
    cause = "root-path"


class KeyLeaf(Refused):
    cause = "key-leaf"


class NotConfig(Refused):
    cause = "not-config"


class ParentMissing(Refused):
    cause = "parent-missing"


class ChainClosed(Refused):
    cause = "chain-closed"


class FailedChain(Refused):
    cause = "chain-failed"


class PreviousOpen(Refused):
    cause = "previous-open"


class NoDomain(Refused):
    cause = "no-domain"


class TooManyListeners(Refused):
    cause = "too-many-listeners"


class NoListener(Refused):
    cause = "no-listener"


class PipelineFull(Refused):
    cause = "pipeline-full"


class ProviderTaken(Refused):
    cause = "provider-taken"


class NoProvider(Refused):
    cause = "no-provider"


class NoCall(Refused):
    cause = "no-call"


class NoteRejected(Refused):
    cause = "note-rejected"


class DeviceUsed(Refused):
    cause = "device-used"


class MountTaken(Refused):
    cause = "mount-taken"


class WrongVersion(Refused):
    cause = "wrong-version"


class UpgradeBreach(Refused):
    cause = "upgrade-breach"


CAUSES: dict[str, type[Refused]] = {it.cause: it for it in Refused.__subclasses__()}


def refusal_of(text: str) -> Refused:
    """Returns the exception of a refusal, whose text is behind the word `refused`."""
    cause, _, detail = text.partition(" ")
    return CAUSES[cause](detail)
