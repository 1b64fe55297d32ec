"""Clients and proved checks of an audit store.

`Client` and `AsyncClient` append events to a daemon and check what it answers, `Handler` does so for `logging`,
`verify` gives the events of an export, and `check` judges a proof. What is judged is judged by libauditstore, whose
functions are proved; what this package adds is tested.

    >>> log = Commitment.parse("1:1adb768b1a8442d111228c6b4ee67325246d75c87ac4a45dce6d4ed7a0cba265")
    >>> log.count
    1
"""
from typing import TYPE_CHECKING

from audit_store._library import LIBRARY_VERSION
from audit_store.checking import BadProof, Commitment, Note, check
from audit_store.client import Acknowledgement, Client, ConnectionEnded, Refused, State, StoreError, Unproved
from audit_store.exports import Event, NotVerified, SavedState, open_proof, verify
from audit_store.places import Displaced, Place, Receipt

if TYPE_CHECKING:
    from audit_store.aio import AsyncClient
    from audit_store.handler import Full, Handler

__all__ = ["Acknowledgement", "AsyncClient", "BadProof", "Client", "Commitment", "ConnectionEnded", "Displaced", "Event",
           "Full", "Handler", "LIBRARY_VERSION", "Note", "NotVerified", "Place", "Receipt", "Refused", "SavedState", "State",
           "StoreError", "Unproved", "check", "open_proof", "verify"]

# What needs asyncio or logging, which take longer to import than all else.
_LATER = {"AsyncClient": "aio", "Full": "handler", "Handler": "handler"}


def __getattr__(name: str) -> object:
    if name not in _LATER:
        raise AttributeError("module 'audit_store' has no attribute %r" % (name,))
    import importlib
    return getattr(importlib.import_module("audit_store." + _LATER[name]), name)
