"""What the calls on UPDATE messages have to answer: a second implementation of document 02, K8, over the names of document 01.

It was written from the papers, from RFC 2136 and from include/vichrelka.h and not from the library, and goes another way: a message is a tuple of
sections, and a section a tuple of records; a kind of message is a function that says which records these are; one function turns any sections into
bytes. Whether a zone is a name's last labels is asked of lists of labels. An answer's header is taken apart by the widths of its fields.

    answer(call)      of a Call: ("ok", value, the message), ("ok", code) of an answer, or ("refused", number)
    printed(answer)   an answer as the harness prints it

A refusal has place 0 and changes nothing; what stands behind a message in out stays. The harness looks at that by itself. update_server.py is the other
side: it reads a message's bytes and carries them out, and shares nothing with what is here.
"""

import struct
from typing import Callable, Dict, List, NamedTuple, Tuple, Union

import table_model
from message_model import NO_PROPER_NAME, OUTPUT_SHORT, UNKNOWN_SETTING, Refusal
from table_model import ADDRESS_LENGTH, ADDRESS_SIZE, DHCID_MALFORMED, is_dhcid, is_proper

NOT_THE_ANSWER, ANOTHER_CODE = 47, 48

# RFC 1035, 3.2; RFC 3596; RFC 4701; RFC 2136, 2.3 to 2.5
A, SOA, AAAA, DHCID, ANY_TYPE = 1, 6, 28, 49, 255
IN, NONE, ANY_CLASS = 1, 254, 255
ADDRESS = {4: A, 6: AAAA}
LIFETIME = 3600
OPCODE = 5  # UPDATE
CODES = (0, 6, 7, 8)  # NOERROR, YXDOMAIN, YXRRSET, NXRRSET

Answer = Union[Tuple[str, int, bytes], Tuple[str, int]]


class Call(NamedTuple):
    word: str  # add_first, add_second, remove_first, remove_second or answer, which have no more fields than they need
    id: int  # the message number
    zone: bytes = b""
    name: bytes = b""
    dhcid: bytes = b""
    family: int = 0
    address: bytes = b""
    out: int = 0  # an output's length
    message: bytes = b""  # the server's


WITH_ADDRESS = ("add_first", "add_second", "remove_first")
FIELDS = {  # what a call is given, in the header's order
    **dict.fromkeys(WITH_ADDRESS, ("id", "zone", "name", "dhcid", "family", "address", "out")),
    "remove_second": ("id", "zone", "name", "dhcid", "out"),
    "answer": ("id", "message"),
}
SLICES = ("zone", "name", "dhcid", "address", "message")  # those of them that are bytes


# Messages: sections, and their bytes (RFC 2136, 2; RFC 1035, 4.1.3)

class Record(NamedTuple):
    owner: bytes
    type: int
    cls: int
    lifetime: int = 0
    data: bytes = b""


class Message(NamedTuple):
    id: int
    zone: bytes
    prerequisites: Tuple[Record, ...]
    updates: Tuple[Record, ...]


def record_bytes(record: Record) -> bytes:
    return record.owner + struct.pack(">HHIH", record.type, record.cls, record.lifetime, len(record.data)) + record.data


def message_bytes(message: Message) -> bytes:
    sections = (message.prerequisites, message.updates)
    header = struct.pack(">6H", message.id, OPCODE << 11, 1, *map(len, sections), 0)
    return header + message.zone + struct.pack(">HH", SOA, IN) + b"".join(record_bytes(record) for section in sections for record in section)


# The four messages: prerequisites and updates, of a name in lower case

Sections = Tuple[Tuple[Record, ...], Tuple[Record, ...]]


def matches(name: bytes, kind: int, data: bytes) -> Record:
    """The set of this kind has just this record (RFC 2136, 2.4.2)."""
    return Record(name, kind, IN, 0, data)


def add_first(name: bytes, call: Call) -> Sections:
    not_in_use = Record(name, ANY_TYPE, NONE)
    added = ((ADDRESS[call.family], call.address), (DHCID, call.dhcid))
    return (not_in_use,), tuple(Record(name, kind, IN, LIFETIME, data) for kind, data in added)


def add_second(name: bytes, call: Call) -> Sections:
    kind = ADDRESS[call.family]
    return (matches(name, DHCID, call.dhcid),), (Record(name, kind, ANY_CLASS), Record(name, kind, IN, LIFETIME, call.address))


def remove_first(name: bytes, call: Call) -> Sections:
    kind = ADDRESS[call.family]
    return (matches(name, DHCID, call.dhcid), matches(name, kind, call.address)), (Record(name, kind, NONE, 0, call.address),)


def remove_second(name: bytes, call: Call) -> Sections:
    none_stands = tuple(Record(name, kind, NONE) for kind in (A, AAAA))
    return (matches(name, DHCID, call.dhcid), *none_stands), (Record(name, DHCID, NONE, 0, call.dhcid),)


MESSAGES: Dict[str, Callable[[bytes, Call], Sections]] = {
    "add_first": add_first, "add_second": add_second, "remove_first": remove_first, "remove_second": remove_second}


def labels_of(name: bytes) -> List[bytes]:
    """Of a proper name, without the root's"""
    labels = []
    while name != b"\0":
        labels.append(name[1:1 + name[0]])
        name = name[1 + name[0]:]
    return labels


def is_within(name: bytes, zone: bytes) -> bool:
    """Both are proper and in lower case: the zone is the name itself, or what is left of it without one or more of its first labels."""
    labels, last = labels_of(name), labels_of(zone)
    return labels[max(0, len(labels) - len(last)):] == last


def written(call: Call) -> Answer:
    has_address = call.word in WITH_ADDRESS
    if has_address and call.family not in ADDRESS_SIZE:
        raise Refusal(UNKNOWN_SETTING)
    name, zone = call.name.lower(), call.zone.lower()
    if not (is_proper(name) and is_proper(zone) and is_within(name, zone)):
        raise Refusal(NO_PROPER_NAME)
    if not is_dhcid(call.dhcid):
        raise Refusal(DHCID_MALFORMED)
    if has_address and len(call.address) != ADDRESS_SIZE[call.family]:
        raise Refusal(ADDRESS_LENGTH)
    message = message_bytes(Message(call.id, zone, *MESSAGES[call.word](name, call)))
    if call.out < len(message):
        raise Refusal(OUTPUT_SHORT)
    return ("ok", len(message), message)


# Answers: the fields of a header's first four bytes (RFC 2136, 2.2); its other eight are not looked at

HEADER = 12
WIDTHS = (("id", 16), ("QR", 1), ("opcode", 4), ("Z", 7), ("RCODE", 4))


def header_fields(message: bytes) -> Dict[str, int]:
    bits = "".join("{:08b}".format(byte) for byte in message[:4])
    fields = {}
    for field, width in WIDTHS:
        fields[field], bits = int(bits[:width], 2), bits[width:]
    return fields


def code_of(call: Call) -> Answer:
    if len(call.message) < HEADER:
        raise Refusal(NOT_THE_ANSWER)
    fields = header_fields(call.message)
    if (fields["QR"], fields["opcode"], fields["id"]) != (1, OPCODE, call.id):
        raise Refusal(NOT_THE_ANSWER)
    if fields["RCODE"] not in CODES:
        raise Refusal(ANOTHER_CODE)
    return ("ok", fields["RCODE"])


def answer(call: Call) -> Answer:
    try:
        return (code_of if call.word == "answer" else written)(call)
    except Refusal as refusal:
        return ("refused", refusal.args[0])


packed = table_model.packed
printed = table_model.printed
