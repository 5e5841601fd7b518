"""`connect`: a store by one text, and `transactional`: functions of a transaction."""

from __future__ import annotations

import os
from collections.abc import Callable, Sequence
from functools import wraps
from os import PathLike, fspath
from typing import Any, Concatenate, ParamSpec, TypeVar

from duqishom.collection import COMMITS
from duqishom.plans import Patience
from duqishom.remote import gateway_at
from duqishom.splits import SPLIT_BYTES
from duqishom.store import Store
from duqishom.transactions import Transaction

Given = ParamSpec("Given")
Result = TypeVar("Result")


def connect(
    address: str | PathLike[str] | None = None,
    *,
    patience: Patience | None = None,
    lock_wait: float | None = None,
    timeout: float | None = None,
    reconnect: float = 10.0,
    program: str | None = None,
    words: Sequence[str] = (),
    checkpoint_at_close: bool = True,
    record: str | PathLike[str] | None = None,
    log: bool | None = None,
    collect: int = COMMITS,
    new: bool = False,
    split_bytes: int = SPLIT_BYTES,
    checksums: bool | None = None,
) -> Store:
    """Opens the store of a folder, which is made if it isn't there, or that of the gateway at `unix:PATH`, at the path
    of a socket, or at HOST:PORT; a new one in memory if no address is given. The options are those of `Store`.

    A folder with a colon and digits at its end is written with a slash, as ./name:1. OSError, with the path, where a
    folder can't be made, or nobody serves at a gateway's address; NotOpened where a store can't be opened.
    """
    folder = None if address is None else fspath(address)
    socket = None if folder is None else gateway_at(folder)
    if socket is not None:
        folder = None
    if folder is not None and not os.path.exists(folder):
        os.mkdir(folder)
    return Store(
        program,
        patience,
        words,
        folder,
        checkpoint_at_close,
        timeout,
        socket,
        record,
        log,
        lock_wait,
        reconnect,
        collect,
        new,
        split_bytes,
        checksums,
    )


def transactional(
    work: Callable[Concatenate[Transaction, Given], Result],
) -> Callable[Concatenate[Store | Transaction, Given], Result]:
    """Makes of a function of a transaction one of a store, too. Called with a store it runs as `Store.run` has it, in a
    transaction of its own, once more where that conflicts. Called with a transaction it is a part of it."""
    return either(work)


def either(work: Callable[..., Result]) -> Callable[..., Any]:
    """A function that is called with a transaction, or with what can run one."""

    @wraps(work)
    def done(where: Any, *given: Any, **named: Any) -> Any:
        if hasattr(where, "run"):
            return where.run(lambda transaction: work(transaction, *given, **named))
        return work(where, *given, **named)

    return done
