"""A client of the shim Feulgama: runs WebAssembly modules as tasks, and looks inside them."""
from feulgama.aio import AsyncShim
from feulgama.config import Config, digest_of
from feulgama.errors import (REFUSALS, BadConfig, BadConfigError, BadId, BadIdError, BadImport, BadImportError, BadModule,
                             BadModuleError, BadReply, BadReplyError, BadRequest, BadRequestError, BadText, BadTextError, Busy,
                             BusyError, ClosedError, DigestConflict, DigestConflictError, Exists, ExistsError, FeulgamaError,
                             InUse, InUseError, InterferenceError, Invalid, InvalidError, JournalFull, JournalFullError, Limit,
                             LimitError, NoContent, NoContentError, NoEntry, NoEntryError, NoMemory, NoMemoryError, NoShim,
                             NoShimError, NotFound, NotFoundError, OldShimError, OutOfRange, OutOfRangeError, Refusal,
                             RefusalError, SegmentOutOfBounds, SegmentOutOfBoundsError, ShimEnded, ShimEndedError,
                             TimedOutError, TooMany, TooManyError, WrongStatus, WrongStatusError)
from feulgama.model import (Cause, Content, Exit, Frame, Inspection, Ran, Signal, State, Status, Stream, TaskStatus,
                            Value, ValueType)
from feulgama.shim import Shim
from feulgama.version import __version__

__all__ = [
    "AsyncShim", "BadConfig", "BadConfigError", "BadId", "BadIdError", "BadImport", "BadImportError", "BadModule",
    "BadModuleError", "BadReply", "BadReplyError", "BadRequest", "BadRequestError", "BadText", "BadTextError", "Busy",
    "BusyError", "Cause", "ClosedError", "Config", "Content", "DigestConflict", "DigestConflictError", "Exists",
    "ExistsError", "Exit", "FeulgamaError", "Frame", "InUse", "InUseError", "Inspection", "InterferenceError", "Invalid",
    "InvalidError", "JournalFull", "JournalFullError", "Limit", "LimitError", "NoContent", "NoContentError", "NoEntry",
    "NoEntryError", "NoMemory", "NoMemoryError", "NoShim", "NoShimError", "NotFound", "NotFoundError", "OldShimError",
    "OutOfRange", "OutOfRangeError", "REFUSALS", "Ran", "Refusal", "RefusalError", "SegmentOutOfBounds",
    "SegmentOutOfBoundsError", "Shim", "ShimEnded", "ShimEndedError", "Signal", "State", "Status", "Stream", "TaskStatus",
    "TimedOutError", "TooMany", "TooManyError", "Value", "ValueType", "WrongStatus", "WrongStatusError", "__version__",
    "digest_of",
]
