"""A name server for one zone: it carries out UPDATE messages by RFC 2136, section 3.

It was written from RFC 2136 and RFC 1035, and reads a message's bytes: it knows nothing of the calls that write them. A zone is a dictionary from names
in use, in lower case and in the order in which they came, to their records, and these from type and data to the lifetime; a name that has no record left
is gone. Names are compared without regard to case and are not compressed.

    carried_out(message, zone)     the code, and the zone afterwards; the zone that is given stays as it is
    response(message, code, ..)    the bytes of an answer

Left out, since nothing here has such records: what the RFC says of SOA, NS, CNAME and WKS (3.4.2.2 to 3.4.2.4), of delegations below the zone's name, of
types that a server does not know, and of the serial number (3.6). So the zone's own name can be unused here, which it is not on a real server. Whether
somebody may ask (3.3) is left out too.
"""

import struct
from collections import defaultdict
from typing import DefaultDict, Dict, List, NamedTuple, Set, Tuple

NOERROR, FORMERR, SERVFAIL, NXDOMAIN, NOTIMP, REFUSED, YXDOMAIN, YXRRSET, NXRRSET, NOTAUTH, NOTZONE = range(11)

IN, NONE, ANY = 1, 254, 255  # classes; ANY is a type too
SOA = 6
METATYPES = (252, 253, 254)  # AXFR, MAILB, MAILA
QR, OPCODE, UPDATE = 0x8000, 0x7800, 0x2800  # of the flags

Datum = Tuple[int, bytes]  # type and data
Names = Dict[bytes, Dict[Datum, int]]


class Zone(NamedTuple):
    """The zone that is served, of class IN: its name in lower case, and the names in it"""
    name: bytes
    names: Names


class Failure(Exception):
    """A message is not carried out: its code."""


class Record(NamedTuple):
    owner: bytes
    type: int
    cls: int
    lifetime: int
    data: bytes


class Update(NamedTuple):
    zones: List[Tuple[bytes, int, int]]  # name, type, class
    prerequisites: List[Record]
    updates: List[Record]


# Reading (RFC 1035, 3.1 and 4.1; RFC 2136, 2.2)

class Reader:
    """Bytes from the first on; a message that ends too early, or has a name that cannot be read, is FORMERR."""

    def __init__(self, data: bytes) -> None:
        self.data, self.at = data, 0

    def take(self, count: int) -> bytes:
        taken = self.data[self.at:self.at + count]
        if len(taken) < count:
            raise Failure(FORMERR)
        self.at += count
        return taken

    def numbers(self, form: str) -> Tuple[int, ...]:
        return struct.unpack(form, self.take(struct.calcsize(form)))

    def name(self) -> bytes:
        """In lower case, with the length of each label; no label has more than 63 bytes, and no name more than 255."""
        name = length = self.take(1)
        while length != b"\0":
            if length[0] > 63:
                raise Failure(FORMERR)
            name += self.take(length[0]).lower()
            length = self.take(1)
            name += length
        if len(name) > 255:
            raise Failure(FORMERR)
        return name

    def question(self) -> Tuple[bytes, int, int]:
        name = self.name()
        kind, cls = self.numbers(">HH")
        return name, kind, cls

    def record(self) -> Record:
        owner, kind, cls = self.question()
        lifetime, length = self.numbers(">IH")
        return Record(owner, kind, cls, lifetime, self.take(length))


def read(message: bytes) -> Update:
    """Just the sections that the header counts, and nothing behind them. Any other opcode is not known here; the bits of the flags that mean nothing in a
    request are not looked at (RFC 2136, 2.2), and a response is no request."""
    reader = Reader(message)
    _, flags, *counts = reader.numbers(">6H")
    if flags & OPCODE != UPDATE:
        raise Failure(NOTIMP)
    if flags & QR:
        raise Failure(FORMERR)
    zones = [reader.question() for _ in range(counts[0])]
    prerequisites, updates, _ = ([reader.record() for _ in range(count)] for count in counts[1:])
    if reader.at != len(message):
        raise Failure(FORMERR)
    return Update(zones, prerequisites, updates)


# Carrying out

def is_below(name: bytes, zone: bytes) -> bool:
    """Whether the zone is reached when labels are taken off, none too"""
    while name != zone and name != b"\0":
        name = name[1 + name[0]:]
    return name == zone


def data_of(names: Names, owner: bytes, kind: int) -> Set[bytes]:
    return {data for held, data in names.get(owner, {}) if held == kind}


def look_at_zone(update: Update, zone: Zone) -> None:
    """3.1"""
    if len(update.zones) != 1 or update.zones[0][1] != SOA:
        raise Failure(FORMERR)
    if update.zones[0] != (zone.name, SOA, IN):
        raise Failure(NOTAUTH)


def stands(names: Names, record: Record) -> bool:
    """The name is in use, if the type is ANY, or else the set is there."""
    return record.owner in names if record.type == ANY else bool(data_of(names, record.owner, record.type))


def look_at_prerequisites(update: Update, zone: Zone) -> None:
    """3.2: one after the other; those that say what a set has are gathered and compared when all others hold."""
    said: DefaultDict[Tuple[bytes, int], Set[bytes]] = defaultdict(set)
    for record in update.prerequisites:
        if record.lifetime != 0:
            raise Failure(FORMERR)
        if not is_below(record.owner, zone.name):
            raise Failure(NOTZONE)
        if record.cls == IN:
            said[record.owner, record.type].add(record.data)
            continue
        if record.cls not in (ANY, NONE) or record.data:
            raise Failure(FORMERR)
        if record.cls == ANY and not stands(zone.names, record):
            raise Failure(NXDOMAIN if record.type == ANY else NXRRSET)
        if record.cls == NONE and stands(zone.names, record):
            raise Failure(YXDOMAIN if record.type == ANY else YXRRSET)
    for (owner, kind), data in said.items():
        if data_of(zone.names, owner, kind) != data:
            raise Failure(NXRRSET)


def look_at_updates(update: Update, zone: Zone) -> None:
    """3.4.1"""
    for record in update.updates:
        if not is_below(record.owner, zone.name):
            raise Failure(NOTZONE)
        metatypes = METATYPES if record.cls == ANY else METATYPES + (ANY,)
        if record.cls not in (IN, ANY, NONE) or record.type in metatypes:
            raise Failure(FORMERR)
        if record.cls != IN and record.lifetime != 0 or record.cls == ANY and record.data:
            raise Failure(FORMERR)


def change(names: Names, record: Record) -> None:
    """3.4.2: added, or in place of the same data; one deleted, or a set, or all of a name"""
    held = names.setdefault(record.owner, {})
    if record.cls == IN:
        held[record.type, record.data] = record.lifetime
    for kind, data in list(held):
        if record.cls == ANY and record.type in (ANY, kind) or record.cls == NONE and (kind, data) == (record.type, record.data):
            del held[kind, data]
    if not held:
        del names[record.owner]


def copied(names: Names) -> Names:
    return {name: dict(records) for name, records in names.items()}


def carried_out(message: bytes, zone: Zone) -> Tuple[int, Zone]:
    try:
        update = read(message)
        look_at_zone(update, zone)
        look_at_prerequisites(update, zone)
        look_at_updates(update, zone)
    except Failure as failure:
        return failure.args[0], zone
    after = Zone(zone.name, copied(zone.names))
    for record in update.updates:
        change(after.names, record)
    return NOERROR, after


def response(message: bytes, code: int, other_flags: int = 0, behind: bytes = b"") -> bytes:
    """3.8: the message's number, its opcode and the code; a server may set other bits and have sections behind. The counts are then what it says."""
    flags = QR | UPDATE | other_flags & ~(QR | OPCODE | 15) | code
    return message[:2] + struct.pack(">H", flags) + (behind or bytes(8))
