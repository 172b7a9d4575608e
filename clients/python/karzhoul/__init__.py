"""A client of Karzhoul, a provider with the behaviour of Jakarta Persistence 3.1.

    import karzhoul

    with karzhoul.open("mapping.json", "app.db") as app:
        Person = app.entity("Person")
        manager = app.create_entity_manager()
        with manager.transaction():
            manager.persist(Person(name="Ada"))
        print(manager.find(Person, 1).name)
"""

from typing import TYPE_CHECKING

from . import refusals
from .classes.embedded import Embedded
from .classes.faults import DeclarationError, NotBroughtOver
from .classes.fields import (
    by_value, embedded, field, generated, json_text, key, many_to_many, many_to_one, money, naive,
    one_to_many, one_to_one, typed, validates, version,
)
from .classes.values import WrongValue
from .objects.entities import Collection, EmbeddedId, Entity, Event
from .refusals import (
    BadLine, Busy, Damaged, Disconnected, EntityExists, EntityNotFound, GivenUp, IllegalArgument,
    IllegalState, KarzhoulError, Limit, LineLimit, Listener, ManagerLimit, Mapping, Misused,
    NoFreeManager, NoResult, NoSuchManager, NoSuchObject, NonUniqueResult, NotServed, NotUnique,
    ObjectLimit, OptimisticLock, OutOfMemory, Overflow, Persistence, ProgramEnded, ProgramNotFound,
    QueryLimit, Refused, Restarted, Rollback, StoreFault, StoreInMemory, TextLimit,
    TransactionRequired,
)
from .server.connecting import connect
from .session.factory import EntityManagerFactory
from .session.managers import EntityManager
from .session.opening import open
from .session.transactions import Attempt, EntityTransaction
from .wire.lines import FlushModeType, LifecycleEvent, LockModeType
from .wire.tally import Statistics

__version__ = "0.2.0"

# Written out, since type checkers read it. `from karzhoul import *` gives no name that Python has
# too, as `open`, or that its `typing` has, as `Mapping`.
__all__ = [
    "Attempt", "Embedded", "EmbeddedId", "Entity", "EntityManager", "EntityManagerFactory",
    "EntityTransaction", "Event", "DeclarationError", "NotBroughtOver", "WrongValue", "by_value",
    "connect", "embedded", "field", "generated", "json_text", "key", "many_to_many", "many_to_one",
    "money", "naive", "one_to_many", "one_to_one", "typed", "validates", "version", "FlushModeType",
    "LifecycleEvent", "LockModeType", "Statistics", "refusals", "BadLine", "Busy", "Damaged",
    "Disconnected", "EntityExists", "EntityNotFound", "GivenUp", "IllegalArgument", "IllegalState",
    "KarzhoulError", "Limit", "LineLimit", "Listener", "ManagerLimit", "Misused", "NoFreeManager",
    "NoResult", "NoSuchManager", "NoSuchObject", "NonUniqueResult", "NotServed", "NotUnique",
    "ObjectLimit", "OptimisticLock", "OutOfMemory", "Overflow", "Persistence", "ProgramEnded",
    "ProgramNotFound", "QueryLimit", "Refused", "Restarted", "Rollback", "StoreFault",
    "StoreInMemory", "TextLimit", "TransactionRequired",
]
if TYPE_CHECKING:
    __all__ += ["Collection", "Mapping", "open"]
