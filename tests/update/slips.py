"""Messages with one thing wrong: the comparison of codes and zones has to tell each of them.

Two others no server can tell, since the set that they delete is just that record, or else a prerequisite fails: UNTOLD. They are told from the bytes
that nsupdate sends.
"""

import struct
from typing import Callable, List, NamedTuple, Sequence

import wire
from wire import ANY, ANY_TYPE, IN, NONE, A, AAAA, Message, Record

Change = Callable[[bytes], bytes]


class Slip(NamedTuple):
    name: str
    kind: str  # of the messages that it is in
    change: Change

    def twist(self, kind: str, data: bytes) -> bytes:
        return self.change(data) if kind == self.kind else data


def as_it_is(all_of: List[Record]) -> List[Record]:
    return all_of


def records(prerequisites: Callable[[List[Record]], List[Record]] = as_it_is, updates: Callable[[List[Record]], List[Record]] = as_it_is) -> Change:
    """A change of the prerequisites, or of the updates."""
    def change(data: bytes) -> bytes:
        message: Message = wire.parse(data)
        return wire.build(message._replace(answers=prerequisites(message.answers), authority=updates(message.authority)))
    return change


def one(number: int, change: Callable[[Record], Record]) -> Callable[[List[Record]], List[Record]]:
    return lambda all_of: [change(each) if at == number else each for at, each in enumerate(all_of)]


def without(number: int) -> Callable[[List[Record]], List[Record]]:
    return lambda all_of: all_of[:number] + all_of[number + 1:]


def backwards(all_of: List[Record]) -> List[Record]:
    return all_of[::-1]


def exchanged(record: Record) -> Record:
    return record._replace(rclass={ANY: NONE, NONE: ANY, IN: IN}[record.rclass])


def of_other_family(record: Record) -> Record:
    return record._replace(rtype={A: AAAA, AAAA: A}[record.rtype])


def whole_set(record: Record) -> Record:
    """The deletion of one record becomes that of the set."""
    return record._replace(rclass=ANY, data=b"")


def whole_name(record: Record) -> Record:
    return record._replace(rtype=ANY_TYPE, rclass=ANY, data=b"")


def one_update_more(data: bytes) -> bytes:
    return data[:8] + struct.pack(">H", struct.unpack(">H", data[8:10])[0] + 1) + data[10:]


FAITHFUL = Slip("none", "add_first", records())

SLIPS: Sequence[Slip] = (
    Slip("first add: no prerequisite", "add_first", records(without(0))),
    Slip("first add: 255 and 254 exchanged", "add_first", records(one(0, exchanged))),
    Slip("first add: a prerequisite with a lifetime", "add_first", records(one(0, lambda each: each._replace(lifetime=3600)))),
    Slip("first add: the address with lifetime 0", "add_first", records(updates=one(0, lambda each: each._replace(lifetime=0)))),
    Slip("first add: no DHCID", "add_first", records(updates=without(1))),
    Slip("first add: an update too many counted", "add_first", one_update_more),
    Slip("second add: no prerequisite", "add_second", records(without(0))),
    Slip("second add: any DHCID will do", "add_second", records(one(0, whole_set))),
    Slip("second add: the old addresses stay", "add_second", records(updates=without(0))),
    Slip("second add: those of the other family go", "add_second", records(updates=one(0, of_other_family))),
    Slip("second add: deleted after the add", "add_second", records(updates=backwards)),
    Slip("second add: 255 and 254 exchanged", "add_second", records(updates=one(0, exchanged))),
    Slip("second add: all records go", "add_second", records(updates=one(0, whole_name))),
    Slip("first remove: the DHCID is not asked", "remove_first", records(without(0))),
    Slip("first remove: the address is not asked", "remove_first", records(without(1))),
    Slip("first remove: the address is not asked, and the set goes", "remove_first", records(without(1), one(0, whole_set))),
    Slip("first remove: all records go", "remove_first", records(updates=one(0, whole_name))),
    Slip("first remove: the record is added", "remove_first", records(updates=one(0, lambda each: each._replace(rclass=IN)))),
    Slip("second remove: the DHCID is not asked", "remove_second", records(without(0))),
    Slip("second remove: A is not asked", "remove_second", records(without(1))),
    Slip("second remove: AAAA is not asked", "remove_second", records(without(2))),
    Slip("second remove: 254 and 255 exchanged", "remove_second", records(one(1, exchanged))),
    Slip("second remove: the DHCID stays", "remove_second", records(updates=without(0))),
    Slip("second remove: all records go", "remove_second", records(updates=one(0, whole_name))),
)

UNTOLD: Sequence[Slip] = (
    Slip("first remove: the whole set goes", "remove_first", records(updates=one(0, whole_set))),
    Slip("second remove: the whole set goes", "remove_second", records(updates=one(0, whole_set))),
)
