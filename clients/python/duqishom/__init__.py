"""A client of `tabletd`, which it starts as a child process and speaks to in frames.

    import duqishom

    with duqishom.connect("data") as store:
        store.put(b"Bob", b"bal", b"10")
        with store.transaction() as t:
            t.put(b"Joe", b"bal", t.get(b"Bob", b"bal"))
"""

from duqishom.answers import (
    Blocked,
    Cleaned,
    Cleaner,
    Collected,
    Collection,
    Collector,
    Committed,
    Conflict,
    Decided,
    Finished,
    Found,
    Gone,
    Held,
    Lost,
    More,
    Nothing,
    Pending,
    Progress,
    Qualifier,
    RolledBack,
    RolledForward,
    ScanItem,
    Scanned,
    Stamped,
    Unsent,
    Value,
    Version,
)
from duqishom.cells import Cell
from duqishom.changes import Change
from duqishom.columns import BadForm, Kind, Lock, Record, read_lock, read_record
from duqishom.connection import RequestTimedOut
from duqishom.copies import NotCopied
from duqishom.fields import MalformedReply
from duqishom.folders import FolderDamaged, NotOpened
from duqishom.opening import connect, transactional
from duqishom.program import ProgramEnded
from duqishom.refusals import (
    BadColumn,
    BadCount,
    BadRequest,
    BadRow,
    BadSplit,
    BadValue,
    Damaged,
    Device,
    EmptyCommit,
    Exhausted,
    FileTooLarge,
    FrameTooLarge,
    MemtableFull,
    NoMemory,
    Refused,
    TooManyFiles,
    TooManySessions,
    TooManyWrites,
    UnknownCleaner,
    UnknownCollector,
    UnknownServer,
    UnknownSession,
    UnknownTablet,
    WrongPhase,
)
from duqishom.remote import ConnectionLost, Fate
from duqishom.reports import ServerReport, ServerStatus, TabletReport
from duqishom.store import ForkedStore, Store
from duqishom.tablets import Tablet
from duqishom.transactions import (
    Patience,
    Snapshot,
    StillPending,
    Transaction,
    TransactionConflict,
    TransactionFailed,
    TransactionLost,
)
from duqishom.version import VERSION

__version__ = VERSION

__all__ = [
    "BadColumn",
    "BadCount",
    "BadForm",
    "BadRequest",
    "BadRow",
    "BadSplit",
    "BadValue",
    "Blocked",
    "Cell",
    "Change",
    "Cleaned",
    "Cleaner",
    "Collected",
    "Collection",
    "Collector",
    "Committed",
    "Conflict",
    "ConnectionLost",
    "Damaged",
    "Decided",
    "Device",
    "EmptyCommit",
    "Exhausted",
    "Fate",
    "FileTooLarge",
    "Finished",
    "FolderDamaged",
    "ForkedStore",
    "Found",
    "FrameTooLarge",
    "Gone",
    "Held",
    "Kind",
    "Lock",
    "Lost",
    "MalformedReply",
    "MemtableFull",
    "More",
    "NoMemory",
    "NotCopied",
    "NotOpened",
    "Nothing",
    "Patience",
    "Pending",
    "ProgramEnded",
    "Progress",
    "Qualifier",
    "Record",
    "Refused",
    "RequestTimedOut",
    "RolledBack",
    "RolledForward",
    "ScanItem",
    "Scanned",
    "ServerReport",
    "ServerStatus",
    "Snapshot",
    "Stamped",
    "StillPending",
    "Store",
    "Tablet",
    "TabletReport",
    "TooManyFiles",
    "TooManySessions",
    "TooManyWrites",
    "Transaction",
    "TransactionConflict",
    "TransactionFailed",
    "TransactionLost",
    "UnknownCleaner",
    "UnknownCollector",
    "UnknownServer",
    "UnknownSession",
    "UnknownTablet",
    "Unsent",
    "Value",
    "Version",
    "WrongPhase",
    "__version__",
    "connect",
    "read_lock",
    "read_record",
    "transactional",
]
